#!/usr/bin/env python3
"""Writes pairs of series with the first second that they share, which a scan of all their occurrences finds, as rows of the table `clashes` of `stdin`.

python3-dateutil computes the days of the rules. Their intervals divide the periods of 400 years, so that what endless series share they share in the 400 years after both
have begun and all exceptions lie behind; each occurrence of these years is looked at. Rules that dateutil reads otherwise are left out, as is each start that its rule doesn't
give.
"""
import datetime
import itertools
import json
import random
import warnings

from dateutil import rrule

DAYS = ["mo", "tu", "we", "th", "fr", "sa", "su"]
FREQUENCIES = {"daily": rrule.DAILY, "weekly": rrule.WEEKLY, "monthly": rrule.MONTHLY, "yearly": rrule.YEARLY}
INTERVALS = {"daily": [1, 3, 9], "weekly": [1, 3], "monthly": [1, 2, 3, 4, 5, 12], "yearly": [1, 2, 4, 5]}
EPOCH = datetime.datetime(1970, 1, 1)
HORIZON = datetime.datetime(2440, 1, 1)
ROWS = 120


def seconds_of(moment):
    return (moment - EPOCH) // datetime.timedelta(seconds=1)


def some_rule(choose):
    frequency = choose.choice(["daily", "weekly", "weekly", "monthly", "monthly", "yearly"])
    rule = {"frequency": frequency, "interval": choose.choice(INTERVALS[frequency])}
    if frequency != "yearly" and choose.random() < 0.3:
        rule["byMonth"] = [str(m) for m in sorted(choose.sample(range(1, 13), choose.randint(1, 4)))]
    if frequency in ("monthly", "yearly") and choose.random() < 0.6:
        nth = choose.choice([1, 2, 3, 4, -1]) if frequency == "monthly" else choose.choice([1, 10, 30, 52, -1])
        rule["byDay"] = [{"@type": "NDay", "day": choose.choice(DAYS), "nthOfPeriod": nth}]
    elif frequency == "monthly":
        rule["byMonthDay"] = sorted(choose.sample([*range(1, 32), -1, -2], choose.randint(1, 2)))
    elif frequency != "yearly" and choose.random() < 0.6:
        rule["byDay"] = [{"@type": "NDay", "day": day} for day in choose.sample(DAYS, choose.randint(1, 3))]
    end = choose.random()
    if end < 0.2:
        rule["count"] = choose.randint(2, 30)
    elif end < 0.4:
        rule["until"] = "%04d-%02d-%02dT12:00:00" % (choose.randint(2025, 2060), choose.randint(1, 12), choose.randint(1, 28))
    return rule


def as_rrule(rule, start):
    words = {"interval": rule["interval"], "dtstart": start}
    if "byMonth" in rule:
        words["bymonth"] = [int(m) for m in rule["byMonth"]]
    if "byMonthDay" in rule:
        words["bymonthday"] = rule["byMonthDay"]
    if "byDay" in rule:
        words["byweekday"] = [rrule.weekday(DAYS.index(day["day"]), day.get("nthOfPeriod")) for day in rule["byDay"]]
    if "count" in rule:
        words["count"] = rule["count"]
    words["until"] = datetime.datetime.fromisoformat(rule["until"]) if "until" in rule else None
    return rrule.rrule(FREQUENCIES[rule["frequency"]], **words)


def starts_of(series):
    """The recurrence ids before the horizon, or None where dateutil doesn't give the start."""
    start = datetime.datetime.fromisoformat(series["start"])
    starts = {start}
    for rule in series["rules"]:
        given = as_rrule(rule, start)
        if next(iter(given), None) != start:
            return None
        starts.update(itertools.takewhile(lambda moment: moment < HORIZON, given))
    return starts


def spans_of(series, starts):
    """The beginnings, ends and recurrence ids of the occupying occurrences, of the recurrence ids that begin before the horizon."""
    named = {item["rid"]: item for item in series["exceptions"]}
    spans = []
    if "free" not in series:
        for rid in starts:
            if rid.isoformat() not in named:
                spans.append((seconds_of(rid), seconds_of(rid) + series["seconds"], rid.isoformat()))
    for item in series["exceptions"]:
        if "start" in item and "free" not in item:
            begun = seconds_of(datetime.datetime.fromisoformat(item["start"]))
            spans.append((begun, begun + item["seconds"], item["rid"]))
    return sorted(span for span in spans if span[0] < span[1])


def first_shared(spans, others, same):
    """The least second of one of the spans and one of the others, of two different ones where they are of one series."""
    best = None
    longest = max((end - begun for begun, end, _ in others), default=0)
    low = 0
    for begun, end, rid in spans:
        while low < len(others) and others[low][0] + longest <= begun:
            low += 1
        for other in others[low:]:
            if other[0] >= end:
                break
            shared = max(begun, other[0])
            if shared < min(end, other[1]) and not (same and rid == other[2]) and (best is None or shared < best):
                best = shared
        if best is not None and begun > best:
            break
    return best


def some_series(choose, base):
    hour = choose.choice([9, 9, 9, 10, 23])
    start = base.replace(hour=hour, minute=choose.choice([0, 30]))
    rules = [some_rule(choose) for _ in range(choose.choice([1, 1, 1, 2]))]
    first = next(iter(as_rrule({k: v for k, v in rules[0].items() if k not in ("count", "until")}, start)), None)
    if first is None or first.year > 2028:
        return None
    rules = rules[:1] if starts_of({"start": first.isoformat(), "rules": rules}) is None else rules
    seconds = choose.choice([1800, 3600, 3600, 7200, 30600, 90000, 604800])
    series = {"start": first.isoformat(), "seconds": seconds, "rules": rules, "exceptions": []}
    starts = starts_of(series)
    if starts is None:
        return None
    for rid in choose.sample(sorted(starts)[:40], min(len(starts), choose.choice([0, 0, 1, 3]))):
        item = {"rid": rid.isoformat()}
        if choose.random() < 0.5:
            moved = rid + datetime.timedelta(days=choose.randint(-20, 20), minutes=30 * choose.randint(-10, 10))
            item.update({"start": moved.isoformat(), "seconds": choose.choice([0, 1800, 7200, 172800])})
        series["exceptions"].append(item)
    return series


def some_row(choose):
    a = some_series(choose, datetime.datetime(2024, choose.randint(1, 12), choose.randint(1, 28)))
    if a is None:
        return None
    if choose.random() < 0.25:
        spans = spans_of(a, starts_of(a))
        return json.dumps({"a": a}), first_shared(spans, spans, True)
    b = some_series(choose, datetime.datetime(2024, choose.randint(1, 12), choose.randint(1, 28)))
    if b is None:
        return None
    return json.dumps({"a": a, "b": b}), first_shared(spans_of(a, starts_of(a)), spans_of(b, starts_of(b)), False)


def main():
    warnings.simplefilter("ignore")
    choose = random.Random(5545)
    rows = nones = 0
    while rows < ROWS:
        row = some_row(choose)
        if row is None or (row[1] is not None and rows - nones > ROWS * 0.6):
            continue
        asked, found = row
        nones += found is None
        rows += 1
        print(asked)
        print("none" if found is None else f"day {found // 86400} second {found % 86400}")


if __name__ == "__main__":
    main()
