#!/usr/bin/env python3
"""Times checks of a proposed series against the bookings of a room; README.md tells what it prints."""

import datetime
import json
import tempfile

from measure import contents, measured, options, run_program

BINARY = "crates/room_rows/out/room_rows"
MONDAY = datetime.datetime(2024, 1, 1)


def series(start, seconds, **rule):
    return {"start": start.isoformat(), "seconds": seconds, **({"rules": [rule]} if rule else {})}


def hour(number, **rule):
    return series(MONDAY + datetime.timedelta(hours=number), 3600, **rule)


def date(number, at=9):
    """An hour on one of the first 28 days of a month, each year."""
    return series(datetime.datetime(2024, number // 28 + 1, number % 28 + 1, at), 3600, frequency="yearly")


DAYS = ("mo", "tu", "we", "th", "fr", "sa", "su")


def named(day, place=None):
    return {"@type": "NDay", "day": day, **({"nthOfPeriod": place} if place else {})}


def nth(number):
    """An hour on one of the first four Mondays to Sundays of each month."""
    day, place, at = number % 7, number // 7 % 4, number // 28
    return series(datetime.datetime(2024, 1, 1 + day + 7 * place, at), 3600, frequency="monthly", byDay=[named(DAYS[day], place + 1)])


def working_day(number):
    """The day of a place among the working days of 2024, of which the first is a Monday."""
    return MONDAY + datetime.timedelta(days=number // 5 * 7 + number % 5)


def placed(number):
    """An hour on the working day of some place of each year."""
    place, at = number % 250, 9 + number // 250
    return series(working_day(place) + datetime.timedelta(hours=at), 3600, frequency="yearly", byDay=[named(day) for day in DAYS[:5]], bySetPosition=[place + 1])


def crowded(series):
    """The same with 128 days of the past left out."""
    return {**series, "exceptions": [{"rid": f"{1000 + number:04d}-01-01T09:00:00"} for number in range(128)]}


def four(number):
    """Four yearly rules by places among working days, ten days apart."""
    days = [named(day) for day in DAYS[:5]]
    rules = [{"frequency": "yearly", "byDay": days, "bySetPosition": [number + 1 + 60 * rule]} for rule in range(4)]
    return {"start": (working_day(number) + datetime.timedelta(hours=9)).isoformat(), "seconds": 3600, "rules": rules}


def mixed(number):
    """Of four kinds in turn; each of them at hours of its own."""
    turn = number // 4
    weekly = hour(24 * (turn % 7) + 12 + turn // 7 % 12 + 168 * (turn // 84), frequency="weekly", interval=2)
    return (weekly, nth(turn), date(number % 336, 10 + number // 336), placed(turn))[number % 4]


def drawn(number, requests):
    """The requests of a workload: weekly hours with intervals of up to four weeks."""
    for _ in range(requests):
        draws = []
        for _ in range(3):
            number = (75 * number + 74) % 65537
            draws.append(number)
        start = MONDAY + datetime.timedelta(days=draws[0] % 700, hours=8 + draws[1] % 10)
        yield series(start, 3600, frequency="weekly", interval=1 + draws[2] % 4)


def meet(a, b):
    """Whether two such weekly series ever meet: intervals of up to four weeks come again after twelve."""
    starts = [datetime.datetime.fromisoformat(s["start"]) for s in (a, b)]
    if starts[0].hour != starts[1].hour or (starts[0] - starts[1]).days % 7:
        return False
    late = max(starts)
    steps = [7 * s["rules"][0]["interval"] for s in (a, b)]
    return any(all((late - start).days % step == -7 * week % step for start, step in zip(starts, steps)) for week in range(12))


def booked(requests):
    taken = []
    for asked in requests:
        if not any(meet(asked, other) for other in taken):
            taken.append(asked)
    return taken


WEEKLY = [hour(number, frequency="weekly", interval=3) for number in range(500)]
DAILY = [series(MONDAY + datetime.timedelta(seconds=120 * number), 120, frequency="daily") for number in range(500)]
ONCE = [hour(24 * number) for number in range(500)]
DATES = [date(number) for number in range(335)]
DRAWN = booked(drawn(1, 2000))
NTHS = [nth(number) for number in range(499)]
YEARLY = [date(number % 336, 9 + number // 336) for number in range(499)]
PLACED = [placed(number) for number in range(499)]
MIXED = [mixed(number) for number in range(499)]
MOST = series(datetime.datetime(2024, 1, 1, 9), 3600, frequency="yearly", byMonthDay=list(range(1, 29)), byMonth=[str(month) for month in range(1, 13)])
REST = series(datetime.datetime(2024, 1, 29, 9), 3600, frequency="yearly", byMonthDay=[29, 30, 31], byMonth=[str(month) for month in range(1, 13)])

# Bookings of each kind, which never meet, and one more that is clear of them.
MIXES = {
    "weekly hours": (WEEKLY[:499], WEEKLY[499]),
    "monthly hours by weekdays": (NTHS, nth(499)),
    "yearly hours": (YEARLY, date(499 - 336, 10)),
    "yearly hours by places": (PLACED, placed(499)),
    "bookings of these kinds": (MIXED, placed(250 + 3)),
}


def again(bookings):
    """What stands against the last booking, proposed again: itself, from its start on."""
    start = datetime.datetime.fromisoformat(bookings[-1]["start"])
    day = (start - datetime.datetime(1970, 1, 1)).days
    return f"day {day} second {start.hour * 3600 + start.minute * 60} with E{len(bookings)}"


def beside(bookings, other):
    """Such a booking, the last of them again, and the same where each has 128 exceptions."""
    with_exceptions = [crowded(booking) for booking in bookings]
    return {
        "one more": (bookings, other, "none", 51, None),
        "the last again": (bookings, bookings[-1], again(bookings), 51, None),
        "one more, each with 128 exceptions": (with_exceptions, crowded(other), "none", 51, None),
        "the last again, each with 128 exceptions": (with_exceptions, with_exceptions[-1], again(bookings), 51, None),
    }


# The bookings, what is proposed, the answer, the times of the longer run, and the goal in milliseconds, if there is one.
ROOMS = {
    "500 weekly hours, and one more": (WEEKLY, hour(500, frequency="weekly", interval=3), "none", 51, 20),
    "500 weekly hours, and the last again": (WEEKLY, hour(499, frequency="weekly", interval=6), "day 19743 second 68400 with E500", 51, 20),
    "500 daily bookings, and one more": (DAILY, series(MONDAY + datetime.timedelta(seconds=60000), 120, frequency="daily"), "none", 51, 20),
    "500 hours, and a daily one": (ONCE, hour(1, frequency="daily"), "none", 51, 20),
    f"the {len(DRAWN)} bookings of a workload, and an hour in the evening": (DRAWN, hour(20, frequency="weekly"), "none", 51, 20),
    "335 yearly hours at nine, each on its own date, and one more": (DATES, date(335), "none", 21, 5),
    "four yearly rules by places, and four more": ([four(0)], four(30), "none", 11, 20),
    "most days of the year, and the rest": ([MOST], REST, "none", 11, 20),
    "the rest of the days of the year, and most": ([REST], MOST, "none", 11, 20),
    **{f"499 {name}, and {what}": room for name, (bookings, other) in MIXES.items() for what, room in beside(bookings, other).items()},
}


def table(bookings, proposed, answer):
    file = tempfile.TemporaryFile()
    file.write(f"=== rooms\n{json.dumps({'bookings': bookings, 'proposed': proposed})}\n{answer}\n".encode())
    file.flush()
    return file


def check(_, made):
    if not contents(made).startswith(b"rooms: 1 rows, 0 of them"):
        raise SystemExit(contents(made).decode())


def seconds_of(words, room, times):
    with table(*room) as given:
        return measured(lambda request, made: run_program(words.binary, request, made, str(times)), words.rounds, given, check)[0]


def main():
    words = options(__doc__)
    if words.binary == "crates/jmapd/out/jmapd":
        words.binary = BINARY
    for name, (bookings, proposed, answer, times, goal) in ROOMS.items():
        room = bookings, proposed, answer
        once = seconds_of(words, room, 1)
        often = seconds_of(words, room, times)
        asked = f" (goal {goal})" if goal else ""
        print(f"{name}: {(often - once) / (times - 1) * 1000:.2f} milliseconds a check{asked}")


if __name__ == "__main__":
    main()
