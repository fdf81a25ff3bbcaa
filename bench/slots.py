#!/usr/bin/env python3
"""Times looks for a slot in rooms of 500 weekly bookings; README.md tells what it prints."""

import datetime
import json
import tempfile

from measure import contents, measured, options, run_program
from rooms import BINARY, MONDAY, series

QUARTER = datetime.timedelta(minutes=15)
WEEK = 604_800
BOOKINGS = 500
STARTS = 31 * 96
DAY = 96
FREE_BEHIND = 40
WEEKLY = [{"frequency": "weekly"}]
DATES = [{"frequency": "yearly", "byMonthDay": [day], "byMonth": [str(month)]} for month, day in ((1, 8), (4, 15), (7, 22), (10, 29))]


def weekly(offset, seconds):
    return series(MONDAY + datetime.timedelta(seconds=offset), seconds, frequency="weekly")


def full_week():
    """Bookings end to end, which take the whole week."""
    length = WEEK // BOOKINGS
    return [weekly(length * number, length if number < BOOKINGS - 1 else WEEK - length * number) for number in range(BOOKINGS)]


def free_hour():
    """As many bookings of 15 minutes, end to end but for an hour that is free behind 40 of them."""
    places = [number if number < FREE_BEHIND else number + 4 for number in range(BOOKINGS)]
    return [weekly(900 * place, 900) for place in places]


def covering(bookings, second):
    """The number of the booking that covers a second of the first week."""
    for number, booking in enumerate(bookings, 1):
        start = (datetime.datetime.fromisoformat(booking["start"]) - MONDAY).total_seconds()
        if start <= second < start + booking["seconds"]:
            return number
    raise ValueError(second)


def answer(bookings, starts, slot):
    """What is told of a look whose starts are all taken at once, by the booking that covers them."""
    last = MONDAY + (starts - 1) * QUARTER
    day = (last.date() - datetime.date(1970, 1, 1)).days
    second = last.hour * 3600 + last.minute * 60
    number = covering(bookings, int((last - MONDAY).total_seconds()) % WEEK)
    return f"slot {slot}, {starts} tried, the last {last.isoformat()} day {day} second {second} with E{number}"


FULL = full_week()
FREE = free_hour()

# The bookings, the rules of the wish, the starts that may be tried, the answer, the times of the longer run, and the goal in milliseconds, if there is one.
LOOKS = {
    f"an hour each week, {STARTS:,} starts of which none is free": (FULL, WEEKLY, STARTS, answer(FULL, STARTS, "none"), 3, 2000),
    f"an hour each week, free behind {FREE_BEHIND} starts": (FREE, WEEKLY, STARTS, answer(FREE, FREE_BEHIND, (MONDAY + FREE_BEHIND * QUARTER).isoformat()), 21, 50),
    f"an hour on four dates a year, {DAY} starts of which none is free": (FULL, DATES, DAY, answer(FULL, DAY, "none"), 2, None),
}


def table(bookings, rules, starts, wanted):
    asked = {"bookings": bookings, "from": MONDAY.isoformat(), "to": (MONDAY + starts * QUARTER).isoformat(), "seconds": 3600, "rules": rules}
    file = tempfile.TemporaryFile()
    file.write(f"=== slots\n{json.dumps(asked)}\n{wanted}\n".encode())
    file.flush()
    return file


def check(_, made):
    if not contents(made).startswith(b"slots: 1 rows, 0 of them"):
        raise SystemExit(contents(made).decode())


def seconds_of(words, look, times):
    with table(*look) as given:
        return measured(lambda request, made: run_program(words.binary, request, made, str(times)), words.rounds, given, check)[0]


def main():
    words = options(__doc__)
    if words.binary == "crates/jmapd/out/jmapd":
        words.binary = BINARY
    for name, (bookings, rules, starts, wanted, times, goal) in LOOKS.items():
        look = bookings, rules, starts, wanted
        once = seconds_of(words, look, 1)
        often = seconds_of(words, look, times)
        asked = f" (goal {goal})" if goal else ""
        print(f"{name}: {(often - once) / (times - 1) * 1000:.1f} milliseconds a look{asked}")


if __name__ == "__main__":
    main()
