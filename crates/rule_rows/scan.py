#!/usr/bin/env python3
"""Writes 120 rules of days of the year, and of dates that some months lack, with their first ten days, as rows of the table `rules` of `stdin`, and
60 rules of all kinds with their days up to a wall second.

A scan looks at day after day and asks of each what RFC 8984 section 4.3.3 asks, in the profile of this project: whether it matches, is kept, is in
phase, or is a day to which a date is moved. Where python3-dateutil reads a rule of days of the year in the same way, it must give the same days.
"""
import calendar
import datetime
import itertools
import json
import random
import warnings

import rules

DAYS = rules.DAYS
NINE = datetime.time(9)
DAY = datetime.timedelta(days=1)
MOVED_ROWS = 60
YEAR_DAY_ROWS = 60
UNTIL_ROWS = 60
LAST = datetime.date(9999, 12, 31)


def filled(rule, start):
    """The rule with the parts that it leaves out and the start implies."""
    rule = dict(rule)
    frequency = rule["frequency"]
    days, month_days, months, year_days = (rule.get(part) for part in ("byDay", "byMonthDay", "byMonth", "byYearDay"))
    # an implied month doesn't change what places of days of the week count in
    rule["in month"] = frequency == "monthly" or bool(months)
    if frequency == "weekly" and not days:
        rule["byDay"] = [{"day": DAYS[start.weekday()]}]
    if frequency == "monthly" and not days and not month_days:
        rule["byMonthDay"] = [start.day]
    if frequency == "yearly" and not year_days:
        if not months and (month_days or not days):
            rule["byMonth"] = [str(start.month)]
        if not month_days and not days:
            rule["byMonthDay"] = [start.day]
    return rule


def is_place(before, after, item):
    """Whether an item names the place of what stands `before`-th from the front and `after`-th from the end."""
    return item in (before, -after)


def month_end(day):
    return day.replace(day=calendar.monthrange(day.year, day.month)[1])


class Scan:
    """The days of a rule with its implied parts, for a series that starts on a day."""

    def __init__(self, rule, start, time=NINE):
        self.rule = filled(rule, start)
        self.start = start
        self.time = time
        self.matching_days = {}

    def number(self, day):
        """The number of the day's period."""
        frequency = self.rule["frequency"]
        if frequency == "daily":
            return day.toordinal()
        if frequency == "weekly":
            return (day.toordinal() - 1 - DAYS.index(self.rule.get("firstDayOfWeek", "mo"))) // 7
        if frequency == "monthly":
            return day.year * 12 + day.month
        return day.year

    def period(self, day):
        """All days of the day's period."""
        first = day
        while first.toordinal() > 1 and self.number(first - DAY) == self.number(day):
            first -= DAY
        return itertools.takewhile(lambda one: self.number(one) == self.number(day), (first + k * DAY for k in range(366)))

    def is_in_phase(self, day):
        return (self.number(day) - self.number(self.start)) % self.rule.get("interval", 1) == 0

    def fits_day(self, day, item):
        if DAYS[day.weekday()] != item["day"]:
            return False
        if item.get("nthOfPeriod") is None:
            return True
        if self.rule["in month"]:
            before, after = day.day - 1, (month_end(day) - day).days
        else:
            before, after = (day - datetime.date(day.year, 1, 1)).days, (datetime.date(day.year, 12, 31) - day).days
        return is_place(before // 7 + 1, after // 7 + 1, item["nthOfPeriod"])

    def fits_month(self, day):
        return not self.rule.get("byMonth") or str(day.month) in self.rule["byMonth"]

    def matches(self, day):
        rule = self.rule
        if not self.fits_month(day):
            return False
        if rule.get("byDay") and not any(self.fits_day(day, item) for item in rule["byDay"]):
            return False
        if rule.get("byMonthDay"):
            length = month_end(day).day
            if not any(is_place(day.day, length - day.day + 1, item) for item in rule["byMonthDay"]):
                return False
        if rule.get("byYearDay"):
            before = (day - datetime.date(day.year, 1, 1)).days + 1
            after = (datetime.date(day.year, 12, 31) - day).days + 1
            if not any(is_place(before, after, item) for item in rule["byYearDay"]):
                return False
        return True

    def is_kept(self, day):
        if not self.matches(day):
            return False
        if not self.rule.get("bySetPosition"):
            return True
        number = self.number(day)
        if number not in self.matching_days:
            self.matching_days[number] = [one for one in self.period(day) if self.matches(one)]
        days = self.matching_days[number]
        place = days.index(day) + 1
        return any(is_place(place, len(days) - place + 1, item) for item in self.rule["bySetPosition"])

    def overflows(self, end):
        """Whether the month with this last day overflows: it hasn't all the days of the month that are asked for."""
        return self.is_in_phase(end) and self.fits_month(end) and any(item > end.day for item in self.rule.get("byMonthDay", []))

    def is_moved(self, day):
        skip = self.rule.get("skip", "omit")
        if skip == "backward":
            return day == month_end(day) and self.overflows(day)
        if skip == "forward":
            return day.day == 1 and day.toordinal() > 1 and self.overflows(day - DAY)
        return False

    def days(self, last=LAST):
        """The days of the set in order, to a last one that is looked at."""
        until = self.rule.get("until")
        left = self.rule.get("count", -1)
        day = self.start
        while day <= last and left != 0:
            due = (self.is_in_phase(day) and self.is_kept(day)) or self.is_moved(day)
            if until is not None and datetime.datetime.combine(day, self.time) > datetime.datetime.fromisoformat(until):
                due = False
            if due or day == self.start:
                yield day
                left -= 1
            if until is not None and day.isoformat() > until:
                return
            day += DAY


def some_end(choose, rule):
    end = choose.random()
    if end < 0.3:
        rule["count"] = choose.randint(1, 12)
    elif end < 0.5:
        rule["until"] = "%04d-%02d-%02dT%02d:00:00" % (choose.randint(2024, 2060), choose.randint(1, 12), choose.randint(1, 28), choose.choice([8, 9, 10]))
    return rule


def moved_rule(choose):
    """A rule of days of the month of which some months lack some."""
    frequency = choose.choice(["monthly", "monthly", "yearly"])
    rule = {"frequency": frequency, "skip": choose.choice(["forward", "backward"])}
    if choose.random() < 0.6:
        rule["interval"] = choose.choice([2, 3, 4, 5, 7, 11, 12, 13])
    if choose.random() < 0.4:
        rule["byMonth"] = [str(m) for m in sorted({choose.choice([2, 4, 6]), *rules.some(choose, range(1, 13), 4)})]
    if choose.random() < 0.6:
        rule["byMonthDay"] = rules.some(choose, [1, 15, 28, 29, 29, 30, 30, 31, 31, -1, -30, -31], 3)
    return some_end(choose, rule)


def year_day_rule(choose):
    """A rule of days of the year."""
    places = [1, 31, 32, 59, 60, 61, 100, 152, 244, 335, 365, 366]
    rule = {"frequency": "yearly", "byYearDay": sorted({choose.choice([place, -place]) for place in choose.sample(places, choose.randint(1, 4))})}
    if choose.random() < 0.4:
        rule["interval"] = choose.choice([2, 3, 4, 5])
    if choose.random() < 0.2:
        rule["firstDayOfWeek"] = choose.choice(DAYS)
    if choose.random() < 0.25:
        rule["byYearDay"] = sorted({*rule["byYearDay"], *range(40, 160, 7)})
        rule["byMonth"] = [str(m) for m in rules.some(choose, range(1, 13), 6)]
    if choose.random() < 0.2:
        rule["byYearDay"] = sorted({*rule["byYearDay"], *range(1, 367, 20)})
        rule["byDay"] = [{"@type": "NDay", "day": day} for day in choose.sample(DAYS, 3)]
        if choose.random() < 0.5:
            rule["byDay"] = [{**item, "nthOfPeriod": choose.choice([1, 2, 3, 4, -1, -2])} for item in rule["byDay"]]
    elif choose.random() < 0.2:
        rule["byYearDay"] = sorted({*rule["byYearDay"], *range(1, 367, 12)})
        rule["byMonthDay"] = rules.some(choose, [*range(1, 32), *range(-31, 0)], 3)
    if choose.random() < 0.3:
        rule["bySetPosition"] = rules.some(choose, [1, 2, 3, -1, -2], 2)
    return some_end(choose, rule)


def agrees(rule, start, days):
    """Whether dateutil gives the same days, where it reads the rule in the same way and counts the start."""
    if "byYearDay" not in rule or ("byMonthDay" not in rule and not rules.is_told_apart(rule)):
        return True
    begun = datetime.datetime.combine(start, NINE)
    if next(iter(rules.as_rrule(rule, begun, False)), None) != begun:
        return True
    given = itertools.islice(rules.as_rrule(rule, begun, True), rules.TOLD)
    # the start counts also where it lies behind `until`
    return ([moment.date() for moment in given] or [start]) == days


def some_row(choose, rule):
    year = choose.choice([1583, 1999, 2023, 2024, 2500, 9000])
    day = choose.choice([1, 28, 29, 30, 31]) if "skip" in rule else choose.randint(1, 31)
    month = choose.randint(1, 12)
    start = datetime.date(year, month, min(day, calendar.monthrange(year, month)[1]))
    parts = filled(rule, start)
    if "skip" in rule and max(parts["byMonthDay"]) < 29:
        return None
    # most series begin on a day that the rule gives
    if choose.random() < 0.8:
        endless = {part: value for part, value in rule.items() if part not in ("count", "until")}
        scan = Scan(endless, start)
        start = next((one for one in (start + k * DAY for k in range(4000)) if scan.is_kept(one) or scan.is_moved(one)), start)
        if filled(rule, start) != parts:
            return None
    scan = Scan(rule, start)
    days = list(itertools.islice(scan.days(min(LAST, start + 400 * 366 * DAY)), rules.TOLD))
    # in most rows a date is moved
    if "skip" in rule and not any(scan.is_moved(day) for day in days[1:]) and choose.random() < 0.9:
        return None
    if len(days) < rules.TOLD and "count" not in rule and "until" not in rule:
        return None
    if not agrees(rule, start, days):
        raise SystemExit(f"dateutil gives other days of {rule} from {start}")
    asked = {"start": datetime.datetime.combine(start, NINE).isoformat(), "rules": [rule]}
    return json.dumps(asked), " ".join(datetime.datetime.combine(day, NINE).isoformat() for day in days)


def row_until(choose):
    """A rule's days up to a wall second: that of one of them, the one before, the one behind, or one some days later."""
    rule = choose.choice([rules.some_rule, moved_rule, year_day_rule])(choose)
    start = datetime.date(choose.choice([1583, 1999, 2024, 9000]), choose.randint(1, 12), choose.randint(1, 28))
    known = start + 40 * 366 * DAY
    days = list(itertools.islice(Scan(rule, start).days(known), rules.TOLD - 1))
    starts = [datetime.datetime.combine(day, NINE) for day in days]
    to = choose.choice(starts) + datetime.timedelta(seconds=choose.choice([-1, 0, 0, 1, choose.randint(1, 400) * 86400]))
    told = [one for one in starts if one <= to]
    # what comes behind the days that were looked at isn't known
    if not told or to.date() > (known if len(days) < rules.TOLD - 1 else days[-1]):
        return None
    asked = {"start": starts[0].isoformat(), "to": to.isoformat(), "rules": [rule]}
    return json.dumps(asked), " ".join(one.isoformat() for one in told)


def main():
    warnings.simplefilter("ignore")
    choose = random.Random(8984)
    kinds = (
        (lambda: some_row(choose, moved_rule(choose)), MOVED_ROWS),
        (lambda: some_row(choose, year_day_rule(choose)), YEAR_DAY_ROWS),
        (lambda: row_until(choose), UNTIL_ROWS),
    )
    for written, rows in kinds:
        told = 0
        while told < rows:
            row = written()
            if row is not None:
                print(row[0])
                print(row[1])
                told += 1


if __name__ == "__main__":
    main()
