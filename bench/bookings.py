#!/usr/bin/env python3
"""Times 2,000 requests for bookings of one room by `jmapd stdio`, updates in a room of 500, and a set of 500 with overrides; README.md tells what it prints."""

import datetime
import json
import tempfile

from calendars import MAX_OBJECTS, USING, Connection
from connections import CONFIGURATION, TOKEN, next_body
from measure import apart, compact, measured, options, run_program
from rooms import booked, drawn

REQUESTS = 2_000
UPDATES = 50
OVERRIDES = 20
MAX_SECONDS = 2.0
MAX_MILLISECONDS = 20.0
ZONE = "Etc/UTC"
ROOM = ["Calendar/set", {"accountId": "A1", "create": {"room": {"name": "room", "resourceZone": ZONE}}}, "c"]

# The number with which a workload begins, and how many of its bookings are made: those of a scan of all weeks, by `rooms.py`.
WORKLOADS = {1: 153, 0: 162, 65536: 1}


def event(series, **more):
    """A series of `rooms.py` as a client sends it."""
    rules = {"recurrenceRules": [{"@type": "RecurrenceRule", **rule} for rule in series.get("rules", [])]}
    return {"calendarIds": {"C1": True}, "timeZone": ZONE, "start": series["start"], "duration": f"PT{series['seconds']}S", **rules, **more}


def message(call, last=False):
    body = compact({"using": USING, "methodCalls": [call]})
    close = "Connection: close\r\n" if last else ""
    return f"POST /jmap HTTP/1.1\r\nHost: localhost\r\nAuthorization: Bearer {TOKEN}\r\n{close}Content-Length: {len(body)}\r\n\r\n".encode() + body


def create(events):
    return ["CalendarEvent/set", {"accountId": "A1", "create": events}, "c"]


def write_workload(number, out):
    """Writes a message that makes the room, and one for each request of the workload."""
    out.write(message(ROOM))
    for count, series in enumerate(drawn(number, REQUESTS), 1):
        out.write(message(create({"k": event(series, uid=f"w{count}")}), last=count == REQUESTS))


def compare(number):
    """A check that each request was booked or refused as it is to be."""
    wanted = booked(drawn(number, REQUESTS))

    def check(_messages, made):
        made.seek(0)
        next_body(made)
        left = list(wanted)
        for series in drawn(number, REQUESTS):
            arguments = json.loads(next_body(made))["methodResponses"][0][1]
            is_wanted = bool(left) and series == left[0]
            if is_wanted:
                left.pop(0)
            refused = (arguments["notCreated"] or {}).get("k", {}).get("type")
            if (refused is None) != is_wanted or refused not in (None, "clash"):
                raise ValueError(f"{series} was answered {json.dumps(arguments)}")
        if left or next_body(made) is not None:
            raise ValueError("other responses than there are requests")

    return check


def workload(chosen, number):
    """The seconds of processor of a workload, by the whole program."""

    def program(messages, made):
        run_program(chosen.binary, messages, made, "stdio", "--config", CONFIGURATION)

    with tempfile.TemporaryFile() as messages:
        apart(write_workload, number, messages)
        seconds, _ = measured(program, chosen.rounds, messages, compare(number))
    return seconds


def hours():
    """500 hours one behind the other, which are fewer than three weeks have."""
    return [datetime.datetime(2024, 1, 1) + datetime.timedelta(hours=number) for number in range(MAX_OBJECTS)]


def each_third_week(hour, **more):
    """A booking of an hour of each third week."""
    return event({"start": hour.isoformat(), "seconds": 3600, "rules": [{"frequency": "weekly", "interval": 3}]}, **more)


def full_room(connection, bookings):
    """Makes the room and these 500 bookings of it, by one set, and gives the milliseconds of processor of this set."""
    connection.send(ROOM[:2], 1)
    before = connection.milliseconds()
    connection.send(create({f"k{number:03}": booking for number, booking in enumerate(bookings)})[:2], 1)
    return connection.milliseconds() - before


def set_with_overrides(chosen):
    """The seconds of processor of a set of 500 bookings of which each has 20 overrides, which leave the times as they are."""
    bookings = []
    for hour in hours():
        dates = (hour + datetime.timedelta(weeks=3 * number) for number in range(OVERRIDES))
        bookings.append(each_third_week(hour, recurrenceOverrides={date.isoformat(): {"title": date.strftime("%d %B")} for date in dates}))
    connection = Connection(chosen.binary)
    taken = full_room(connection, bookings)
    # The account has this state only where each booking was made.
    connection.send(["CalendarEvent/changes", {"accountId": "A1", "sinceState": f"0-{MAX_OBJECTS}"}], 1)
    connection.close()
    return taken / 1_000


def update_in_full_room(chosen):
    """The milliseconds of processor of an update of one of 500 weekly bookings, which is checked against the 499 others."""
    connection = Connection(chosen.binary)
    full_room(connection, [each_third_week(hour) for hour in hours()])
    before = connection.milliseconds()
    connection.send(["CalendarEvent/set", {"accountId": "A1", "update": {f"E{MAX_OBJECTS}": {"title": "Moved"}}}], UPDATES)
    taken = connection.milliseconds() - before
    # The account has this state only where each update was made.
    connection.send(["CalendarEvent/changes", {"accountId": "A1", "sinceState": f"0-{MAX_OBJECTS + UPDATES}"}], 1)
    connection.close()
    return taken / UPDATES


def main():
    chosen = options(__doc__)
    missed = []
    for number, count in WORKLOADS.items():
        if len(booked(drawn(number, REQUESTS))) != count:
            raise ValueError(f"workload {number} isn't the one that is meant")
        seconds = workload(chosen, number)
        print(f"workload {number}: {count} of {REQUESTS:,} booked, none wrong, {seconds:.3f} seconds of processor, at most {MAX_SECONDS}")
        missed += [f"workload {number}"] if seconds > MAX_SECONDS else []
    taken = min(update_in_full_room(chosen) for _ in range(chosen.rounds))
    print(f"an update in a room of 500 bookings: {taken:.2f} milliseconds, at most {MAX_MILLISECONDS}")
    missed += ["the update in a room of 500 bookings"] if taken > MAX_MILLISECONDS else []
    taken = min(set_with_overrides(chosen) for _ in range(chosen.rounds))
    print(f"a set of 500 bookings with {OVERRIDES} overrides each: {taken:.3f} seconds")
    print("all goals are met" if not missed else "missed: " + "; ".join(missed))


if __name__ == "__main__":
    main()
