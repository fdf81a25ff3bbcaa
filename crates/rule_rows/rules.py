#!/usr/bin/env python3
"""Writes 200 recurrence rules with their first ten days, which python3-dateutil computes, as rows of the table `rules` of `stdin`.

Left out are rules that dateutil reads otherwise: yearly ones with days of the month and without months, which it takes for
days of every month, weekly ones with days of the month and without days of the week, which it takes for every day of the week,
and those in which some days of the week have a place and the same ones have none. A series begins on a day that its rule gives, since dateutil counts no other start. The years end with
9999.
"""
import datetime
import itertools
import json
import random
import warnings

from dateutil import rrule

DAYS = ["mo", "tu", "we", "th", "fr", "sa", "su"]
FREQUENCIES = {
    "daily": rrule.DAILY,
    "weekly": rrule.WEEKLY,
    "monthly": rrule.MONTHLY,
    "yearly": rrule.YEARLY,
}
ROWS = 200
TOLD = 10


def some(choose, values, most):
    return sorted(choose.sample(values, choose.randint(1, most)))


def some_rule(choose):
    """A rule as a JSON object."""
    frequency = choose.choice(list(FREQUENCIES))
    rule = {"frequency": frequency}
    if choose.random() < 0.5:
        rule["interval"] = choose.choice([2, 3, 4, 5, 7, 12, 13, 100])
    if choose.random() < 0.3:
        rule["firstDayOfWeek"] = choose.choice(DAYS)
    if choose.random() < 0.35:
        rule["byMonth"] = [str(m) for m in some(choose, range(1, 13), 4)]
    if choose.random() < 0.35:
        rule["byMonthDay"] = some(choose, [*range(1, 32), *range(-31, 0)], 4)
    if choose.random() < 0.5:
        days = []
        for day in choose.sample(DAYS, choose.randint(1, 4)):
            item = {"@type": "NDay", "day": day}
            if frequency in ("monthly", "yearly") and choose.random() < 0.5:
                most = 5 if frequency == "monthly" or "byMonth" in rule else 53
                item["nthOfPeriod"] = choose.choice([*range(1, most + 1), *range(-most, 0)])
            days.append(item)
        rule["byDay"] = days
    if choose.random() < 0.25:
        most = {"daily": 1, "weekly": 4, "monthly": 8, "yearly": 20}[frequency]
        rule["bySetPosition"] = some(choose, [*range(1, most + 1), *range(-most, 0)], 3 if most > 1 else 1)
    end = choose.random()
    if end < 0.3:
        rule["count"] = choose.randint(1, 12)
    elif end < 0.5:
        rule["until"] = "%04d-%02d-%02dT%02d:00:00" % (choose.randint(2024, 2060), choose.randint(1, 12), choose.randint(1, 28), choose.choice([8, 9, 10]))
    return rule


def is_told_apart(rule):
    """Whether dateutil reads the rule as it is read here."""
    if rule["frequency"] == "yearly" and "byMonthDay" in rule and "byMonth" not in rule:
        return False
    if rule["frequency"] == "weekly" and "byMonthDay" in rule and "byDay" not in rule:
        return False
    nths = any("nthOfPeriod" in day for day in rule.get("byDay", []))
    # dateutil drops the plain days of a list in which another has a place
    plain = any("nthOfPeriod" not in day for day in rule.get("byDay", []))
    return not (nths and plain and len(rule["byDay"]) != len({day["day"] for day in rule["byDay"]}))


def as_rrule(rule, start, ends):
    words = {"interval": rule.get("interval", 1), "wkst": DAYS.index(rule.get("firstDayOfWeek", "mo"))}
    if "byMonth" in rule:
        words["bymonth"] = [int(m) for m in rule["byMonth"]]
    if "byMonthDay" in rule:
        words["bymonthday"] = rule["byMonthDay"]
    if "byYearDay" in rule:
        words["byyearday"] = rule["byYearDay"]
    if "byDay" in rule:
        words["byweekday"] = [
            rrule.weekday(DAYS.index(day["day"]), day.get("nthOfPeriod")) for day in rule["byDay"]
        ]
    if "bySetPosition" in rule:
        words["bysetpos"] = rule["bySetPosition"]
    if ends and "count" in rule:
        words["count"] = rule["count"]
    if ends and "until" in rule:
        words["until"] = datetime.datetime.fromisoformat(rule["until"])
    return rrule.rrule(FREQUENCIES[rule["frequency"]], dtstart=start, **words)


def some_row(choose):
    rule = some_rule(choose)
    if not is_told_apart(rule):
        return None
    base = datetime.datetime(choose.choice([1583, 1999, 2023, 2024, 2500, 9000]), choose.randint(1, 12), choose.randint(1, 28), 9)
    # the first day that the rule gives, with the implied parts of the base
    start = next(iter(as_rrule(rule, base, False)), None)
    if start is None or start.year > 9500:
        return None
    given = as_rrule(rule, start, True)
    if next(iter(as_rrule(rule, start, False)), None) != start:
        return None
    days = list(itertools.islice(given, TOLD))
    if not days or days[0] != start:
        return None
    asked = {"start": start.isoformat(), "rules": [rule]}
    return json.dumps(asked), " ".join(day.isoformat() for day in days), len(days)


def main():
    warnings.simplefilter("ignore")
    choose = random.Random(8984)
    rows = 0
    while rows < ROWS:
        row = some_row(choose)
        # behind the year 9999 dateutil has no days
        if row is None or (row[2] < TOLD and "count" not in row[0] and "until" not in row[0]):
            continue
        print(row[0])
        print(row[1])
        rows += 1


if __name__ == "__main__":
    main()
