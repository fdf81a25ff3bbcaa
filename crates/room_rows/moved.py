#!/usr/bin/env python3
"""Writes pairs of series with dates that some months lack and are moved, and the first second that they share, as rows of the table `clashes` of `stdin`.

A scan of days computes the recurrence ids, as `scan.py` of `rule_rows` does it, and each occurrence is looked at, as `clashes.py` does it. The intervals
divide the periods of 400 years.
"""
import calendar
import datetime
import json
import os
import random
import sys

import clashes

sys.path.insert(0, os.path.join(os.path.dirname(os.path.abspath(__file__)), "..", "rule_rows"))
import scan  # noqa: E402

ROWS = 60
HORIZON = clashes.HORIZON.date()


def some_rule(choose, moved):
    """A rule whose dates are moved, or one of days of the year, of the week, or of the month."""
    if moved:
        frequency = choose.choice(["monthly", "monthly", "monthly", "yearly"])
        rule = {"frequency": frequency, "skip": choose.choice(["forward", "forward", "backward"]), "interval": choose.choice(clashes.INTERVALS[frequency])}
        if choose.random() < 0.3:
            rule["byMonth"] = [str(m) for m in sorted({choose.choice([2, 4, 6]), *choose.sample(range(1, 13), 3)})]
        if choose.random() < 0.7 or frequency == "yearly":
            rule["byMonthDay"] = sorted(choose.sample([15, 29, 30, 31, -1], choose.randint(1, 2)))
    elif choose.random() < 0.4:
        rule = {"frequency": "yearly", "interval": choose.choice(clashes.INTERVALS["yearly"])}
        rule["byYearDay"] = sorted({choose.choice([place, -place]) for place in choose.sample([1, 31, 59, 60, 61, 121, 182, 274, 335, 366], 3)})
    elif choose.random() < 0.5:
        rule = {"frequency": "monthly", "interval": choose.choice(clashes.INTERVALS["monthly"]), "byMonthDay": [choose.choice([1, 1, 2, 28, 29, 30, -1])]}
    else:
        rule = {"frequency": "weekly", "interval": choose.choice(clashes.INTERVALS["weekly"])}
    end = choose.random()
    if end < 0.15:
        rule["count"] = choose.randint(2, 30)
    elif end < 0.3:
        rule["until"] = "%04d-%02d-%02dT12:00:00" % (choose.randint(2025, 2060), choose.randint(1, 12), choose.randint(1, 28))
    return rule


def starts_of(series):
    """The recurrence ids before the horizon."""
    start = datetime.datetime.fromisoformat(series["start"])
    starts = {start}
    for rule in series["rules"]:
        days = scan.Scan(rule, start.date(), start.time()).days(HORIZON)
        starts.update(datetime.datetime.combine(day, start.time()) for day in days)
    return starts


def some_series(choose, moved):
    month = choose.randint(1, 12)
    day = datetime.date(2024, month, min(choose.choice([1, 29, 30, 31]), calendar.monthrange(2024, month)[1]))
    start = datetime.datetime.combine(day, datetime.time(choose.choice([9, 9, 9, 10, 23]), choose.choice([0, 30])))
    rules = [some_rule(choose, moved)]
    if choose.random() < 0.25:
        rules.append(some_rule(choose, choose.random() < 0.5))
    for rule in rules:
        if rule.get("skip") and max(scan.filled(rule, day)["byMonthDay"]) < 29:
            return None
    series = {"start": start.isoformat(), "seconds": choose.choice([1800, 3600, 3600, 7200, 30600, 90000]), "rules": rules, "exceptions": []}
    starts = starts_of(series)
    for rid in choose.sample(sorted(starts)[:30], min(len(starts), choose.choice([0, 0, 1, 3]))):
        item = {"rid": rid.isoformat()}
        if choose.random() < 0.5:
            later = rid + datetime.timedelta(days=choose.randint(-20, 20), minutes=30 * choose.randint(-10, 10))
            item.update({"start": later.isoformat(), "seconds": choose.choice([0, 1800, 7200, 172800])})
        series["exceptions"].append(item)
    return series


def some_row(choose):
    a = some_series(choose, True)
    b = some_series(choose, choose.random() < 0.5)
    if a is None or b is None:
        return None
    found = clashes.first_shared(clashes.spans_of(a, starts_of(a)), clashes.spans_of(b, starts_of(b)), False)
    return json.dumps({"a": a, "b": b}), found


def main():
    choose = random.Random(5545)
    rows = nones = 0
    while rows < ROWS:
        row = some_row(choose)
        if row is None or (row[1] is not None and rows - nones >= ROWS * 0.6) or (row[1] is None and nones >= ROWS * 0.4):
            continue
        asked, found = row
        nones += found is None
        rows += 1
        print(asked)
        print("none" if found is None else f"day {found // 86400} second {found % 86400}")


if __name__ == "__main__":
    main()
