#!/usr/bin/env python3
"""Times events with rules and overrides; README.md tells what it prints."""

import argparse
import datetime
import json
import subprocess
import tempfile

START = datetime.datetime(2024, 1, 1, 9)
PLAIN = {"uid": "u", "calendarIds": {"C1": True}, "start": "2024-01-01T09:00:00"}
DAILY = [{"frequency": "daily"}]
ENDLESS = DAILY + [
    {"frequency": "weekly", "byDay": [{"day": "tu"}]},
    {"frequency": "monthly", "byDay": [{"day": "fr", "nthOfPeriod": -1}]},
    {"frequency": "yearly", "byMonth": ["2"], "byMonthDay": [29]},
]
PATCH = {"title": "moved", "description": "d", "duration": "PT2H", "start": "2024-02-01T10:00:00", "status": "tentative"}


def day(number):
    return (START + datetime.timedelta(days=number)).isoformat()


def overrides(patch):
    return {day(number): patch for number in range(128)}


def large(bytes_wanted):
    return {f"x{number:06}": "y" * 20 for number in range(bytes_wanted // 33)}


def ids(year):
    days = [datetime.datetime(year, 1, 1, 9) + datetime.timedelta(days=number) for number in range(250)]
    return [f"E1_{moment:%Y%m%dT%H%M%S}" for moment in days]


# An event, synthetic ids, the place of a time (of the JSON, of what is bad, of the occurrences), and the most milliseconds that are wanted, or how many times that of the JSON.
SHAPES = {
    "3.5 MB, no overrides": (PLAIN | large(3_500_000), [], 1, None, 1),
    "3.5 MB, 128 overrides": (PLAIN | large(3_500_000) | {"recurrenceOverrides": overrides(PATCH)}, [], 1, None, 1),
    "one text of 3.5 MB, 128 overrides": (PLAIN | {"x": "y" * 3_500_000, "recurrenceOverrides": overrides(PATCH)}, [], 1, None, 1),
    "4 endless rules, 128 overrides": (PLAIN | {"recurrenceRules": ENDLESS, "recurrenceOverrides": overrides(PATCH)}, [], 1, 2, None),
    "250 days of the year 2024": (PLAIN | {"recurrenceRules": DAILY}, ids(2024), 2, 5, None),
    "250 days of the year 9000": (PLAIN | {"recurrenceRules": DAILY}, ids(9000), 2, 5, None),
    "250 days among 128 overrides": (PLAIN | {"recurrenceRules": ENDLESS, "recurrenceOverrides": overrides(PATCH)}, ids(2024), 2, None, None),
}


def nanoseconds(chosen, event, names):
    with tempfile.TemporaryFile("w+") as lines:
        lines.write("\n".join([json.dumps(event, separators=(",", ":"))] + names) + "\n")
        lines.seek(0)
        ran = subprocess.run([chosen.binary, str(chosen.rounds)], stdin=lines, capture_output=True, check=True)
    return [int(word) for word in ran.stdout.split()]


def main():
    parser = argparse.ArgumentParser(description=__doc__)
    parser.add_argument("binary", nargs="?", default="crates/event_bench/out/event_bench")
    parser.add_argument("--rounds", type=int, default=5)
    chosen = parser.parse_args()
    print(f"{'event':34} {'JSON, ms':>9} {'ms':>9}  goal")
    for name, (event, names, place, most, times) in SHAPES.items():
        came = nanoseconds(chosen, event, names)
        goal = most * 1e6 if most else times * came[0] if times else None
        met = "" if goal is None else f"under {goal / 1e6:.1f}: {'met' if came[place] < goal else 'missed'}"
        print(f"{name:34} {came[0] / 1e6:9.2f} {came[place] / 1e6:9.2f}  {met}")


if __name__ == "__main__":
    main()
