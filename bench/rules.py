#!/usr/bin/env python3
"""Measures how long `next_from`, `next_until` and `last_day` take, and the same expansions by python3-dateutil.

Build the program first, by `rt run < stdin` in crates/rule_rows. Times are of the processor, the best of three rounds, or of fifty short ones.
"""
import datetime
import json
import os
import resource
import subprocess
import time

from dateutil import rrule

PROGRAM = os.path.join(os.path.dirname(__file__), "..", "crates", "rule_rows", "out", "rule_rows")
WEEK = [{"day": day} for day in ("mo", "tu", "we", "th", "fr")]
RULES = {
    "daily": ({"frequency": "daily"}, {"freq": rrule.DAILY}),
    "weekly, one day": ({"frequency": "weekly"}, {"freq": rrule.WEEKLY}),
    "weekly, five days": ({"frequency": "weekly", "byDay": WEEK}, {"freq": rrule.WEEKLY, "byweekday": range(5)}),
    "monthly, 15th": ({"frequency": "monthly", "byMonthDay": [15]}, {"freq": rrule.MONTHLY, "bymonthday": 15}),
    "monthly, 2nd Monday": (
        {"frequency": "monthly", "byDay": [{"day": "mo", "nthOfPeriod": 2}]},
        {"freq": rrule.MONTHLY, "byweekday": rrule.MO(2)},
    ),
    "monthly, 31st, forward": ({"frequency": "monthly", "byMonthDay": [31], "skip": "forward"}, None),
    "monthly, 31st, backward": ({"frequency": "monthly", "byMonthDay": [31], "skip": "backward"}, None),
    "yearly": ({"frequency": "yearly"}, {"freq": rrule.YEARLY}),
    "yearly, 60th day": ({"frequency": "yearly", "byYearDay": [60]}, {"freq": rrule.YEARLY, "byyearday": 60}),
}
YEARS = (2024, 2500, 9000)
ROUNDS = 50
TIMES = 300_000
NEVER = {"byMonth": ["2"], "byMonthDay": [30]}
# After 2320-02-29 the next such day lies 241,768 years on, more than half of a cycle of 400 years' days in phase.
FAR = {"frequency": "daily", "interval": 970, "byMonth": ["2"], "byMonthDay": [29], "byDay": [{"day": "su"}]}


def spent_once(rows):
    """Seconds of the processor that the program takes for these rows."""
    text = "=== rules\n" + "".join(json.dumps(row) + "\nx\n" for row in rows)
    before = resource.getrusage(resource.RUSAGE_CHILDREN).ru_utime
    subprocess.run([PROGRAM], input=text.encode(), stdout=subprocess.DEVNULL, check=True)
    return resource.getrusage(resource.RUSAGE_CHILDREN).ru_utime - before


def spent(rows):
    return min(spent_once(rows) for _ in range(3))


def each(rule, year, times, **more):
    row = {"start": "2024-01-15T09:00:00", "from": "%d-01-15T09:00:00" % year, "rules": [rule], **more}
    return (spent([dict(row, times=times)]) - spent([dict(row, times=0)])) / times


def from_years(rule):
    """Seconds of the next day from each year: the least of many short rounds, in which the years take turns, since the processor's speed changes from one second to the next."""
    rounds = []
    for _ in range(ROUNDS):
        row = {"start": "2024-01-15T09:00:00", "rules": [rule]}
        asked = [dict(row, **{"from": "%d-01-15T09:00:00" % year}) for year in YEARS]
        rounds.append([(spent_once([dict(it, times=TIMES)]) - spent_once([dict(it, times=0)])) / TIMES for it in asked])
    return [min(seconds) for seconds in zip(*rounds)]


def by_dateutil(words, times):
    days = iter(rrule.rrule(dtstart=datetime.datetime(2024, 1, 15, 9), **words))
    before = time.process_time()
    for _ in range(times):
        next(days)
    return (time.process_time() - before) / times


def main():
    for name, (rule, words) in RULES.items():
        seconds = from_years(rule)
        here = ["%.0f ns" % (it * 1e9) for it in seconds]
        # dateutil has no dates that are moved
        theirs = "none" if words is None else "%.0f ns" % (by_dateutil(words, 2000) * 1e9)
        print(f"{name}: from 2024, 2500, 9000 {', '.join(here)}, ratio {max(seconds) / min(seconds):.2f}; dateutil {theirs}")
    for frequency in ("daily", "weekly", "monthly", "yearly"):
        print(f"{frequency}, never again: {each(dict(NEVER, frequency=frequency), 2024, 20) * 1e3:.2f} ms")
        in_a_night = each(dict(NEVER, frequency=frequency), 2024, 100_000, to="2024-01-16T09:00:00")
        print(f"{frequency}, not in a night: {in_a_night * 1e9:.0f} ns")
    row = {"start": "2320-02-29T00:00:00", "rules": [FAR]}
    print(f"241,768 years on: {(spent([dict(row, times=20)]) - spent([dict(row, times=0)])) / 20 * 1e3:.2f} ms")
    for name, (rule, _) in RULES.items():
        row = {"start": "2024-01-15T09:00:00", "last": True, "rules": [dict(rule, count=1000)]}
        print(f"{name}, last day of 1000: {(spent([row] * 200) - spent([row] * 0)) / 200 * 1e3:.3f} ms")


main()
