#!/usr/bin/env python3
"""Times decisions whether two series share a wall second; README.md tells what it prints."""

import json
import tempfile

from measure import contents, measured, options, run_program

BINARY = "crates/room_rows/out/room_rows"


def daily(start, **rule):
    return {"start": start, "seconds": 3600, "rules": [{"frequency": "daily", **rule}]}


def weekly(start, **rule):
    return {"start": start, "seconds": 3600, "rules": [{"frequency": "weekly", **rule}]}


def forward(start, **rule):
    """Monthly, where a date that a month lacks is moved to the first day of the next."""
    return {"start": start, "seconds": 3600, "rules": [{"frequency": "monthly", "skip": "forward", **rule}]}


def yearly(start, **rule):
    return {"start": start, "seconds": 3600, "rules": [{"frequency": "yearly", **rule}]}


def nth(day, place):
    return [{"@type": "NDay", "day": day, "nthOfPeriod": place}]


def crowded(start, month, replaced):
    """Four endless yearly rules that keep a few days of some months, 128 exceptions, 7 days long."""
    rules = [{"frequency": "yearly", "byMonth": [str(month + shift)], "byDay": nth(day, place)} for shift, (day, place) in enumerate((("tu", 2), ("we", -1), ("th", 3), ("mo", 1)))]
    exceptions = [{"rid": f"{1000 + k:04d}-01-01T09:00:00", "start": f"{2100 + k:04d}-{replaced:02d}-03T09:00:00", "days": 7} for k in range(128)]
    return {"start": start, "days": 7, "rules": rules, "exceptions": exceptions}


def placed(start, places, replaced):
    """The same with rules that keep the days at some places among the working days of a year."""
    days = [{"@type": "NDay", "day": day} for day in ("mo", "tu", "we", "th", "fr")]
    rules = [{"frequency": "yearly", "byDay": days, "bySetPosition": [place]} for place in places]
    return {**crowded(start, 1, replaced), "rules": rules}


# What is asked, its answer, the times of the longer run, and the goal in microseconds.
PAIRS = {
    "two weekly rules that meet": ({"a": weekly("2024-01-01T09:00:00", interval=2), "b": weekly("2024-01-08T09:00:00", interval=3)}, "day 19751 second 32400", 20_000, 20),
    "two weekly rules that never meet": ({"a": weekly("2024-01-01T09:00:00", interval=2), "b": weekly("2024-01-08T09:00:00", interval=2)}, "none", 20_000, 20),
    "two weekly rules at other times": ({"a": weekly("2024-01-01T09:00:00"), "b": weekly("2024-01-01T10:00:00")}, "none", 20_000, 20),
    "two daily rules that meet": ({"a": daily("2024-01-01T09:00:00", interval=3), "b": daily("2024-01-02T09:00:00", interval=4)}, "day 19732 second 32400", 20_000, 50),
    "two daily rules that never meet": ({"a": daily("2024-01-01T09:00:00", interval=2), "b": daily("2024-01-02T09:00:00", interval=2)}, "none", 20_000, 50),
    "two monthly rules by forward that meet": ({"a": forward("2024-01-31T09:00:00"), "b": forward("2024-01-30T09:00:00")}, "day 19783 second 32400", 51, 5_000),
    "two monthly rules by forward that never meet": ({"a": forward("2024-01-31T09:00:00", interval=2), "b": forward("2024-04-30T09:00:00", interval=2)}, "none", 51, 5_000),
    "every 997 and every 991 years": ({"a": yearly("2024-01-01T09:00:00", interval=997), "b": yearly("2025-01-01T09:00:00", interval=991)}, "day 300804957 second 32400", 21, 20_000),
    "January and February": ({"a": daily("2024-01-01T09:00:00", interval=997, byMonth=["1"]), "b": daily("2024-02-01T09:00:00", interval=991, byMonth=["2"])}, "none", 21, 20_000),
    "four yearly rules each": ({"a": crowded("2024-01-09T09:00:00", 1, 6), "b": crowded("2024-07-09T09:00:00", 7, 12)}, "none", 11, 2_000_000),
    "four yearly rules each, by places": ({"a": placed("2024-01-09T09:00:00", (5, 10, 15, 20), 6), "b": placed("2024-07-09T09:00:00", (140, 150, 160, 170), 12)}, "none", 2, 2_000_000),
}


def table(asked, answer):
    file = tempfile.TemporaryFile()
    file.write(f"=== clashes\n{json.dumps(asked)}\n{answer}\n".encode())
    file.flush()
    return file


def check(_, made):
    if not contents(made).startswith(b"clashes: 1 rows, 0 of them"):
        raise SystemExit(contents(made).decode())


def seconds_of(words, asked, answer, times):
    with table(asked, answer) as given:
        return measured(lambda request, made: run_program(words.binary, request, made, str(times)), words.rounds, given, check)[0]


def main():
    words = options(__doc__)
    if words.binary == "crates/jmapd/out/jmapd":
        words.binary = BINARY
    for name, (asked, answer, times, goal) in PAIRS.items():
        once = seconds_of(words, asked, answer, 1)
        often = seconds_of(words, asked, answer, times)
        print(f"{name}: {(often - once) / (times - 1) * 1_000_000:.1f} microseconds a decision (goal {goal})")


if __name__ == "__main__":
    main()
