#!/usr/bin/env python3
"""Times when the owner of 3,000 events is busy, and checks 5,000 events that touch, by `jmapd stdio`; README.md tells what it prints."""

import datetime
import json

from calendars import MAX_OBJECTS, Connection
from connections import TOKEN, next_body
from measure import compact, options

USING = ["urn:ietf:params:jmap:core", "urn:ietf:params:jmap:calendars", "urn:ietf:params:jmap:principals:availability"]
FIRST = datetime.datetime(2024, 1, 1)
EVENTS = 3_000
TOUCHING = 5_000
WEEKLY = [{"@type": "RecurrenceRule", "frequency": "weekly"}]


def local(minutes):
    """The LocalDateTime so many minutes behind the first."""
    return (FIRST + datetime.timedelta(minutes=minutes)).isoformat()


def utc(days):
    return (FIRST + datetime.timedelta(days=days)).isoformat() + "Z"


def plain(number):
    """Events at any time of four years, in two zones."""
    zone = "America/New_York" if number % 2 else "Etc/UTC"
    return {"calendarIds": {"C1": True}, "start": local(number * 701), "duration": "PT45M", "timeZone": zone, "title": "Meeting"}


def weekly(number):
    """The same, of which each third is weekly without end."""
    return plain(number) | ({"recurrenceRules": WEEKLY} if number % 3 == 0 else {})


def touching(number):
    return {"calendarIds": {"C1": True}, "start": local(number * 60), "duration": "PT1H", "timeZone": "Etc/UTC"}


def fill(connection, event, count):
    """Creates a calendar and so many events in it."""
    connection.send(["Calendar/set", {"accountId": "A1", "create": {"c": {"name": "Team"}}}], 1)
    for first in range(0, count, MAX_OBJECTS):
        made = {f"k{number}": event(number) for number in range(first, first + MAX_OBJECTS)}
        connection.send(["CalendarEvent/set", {"accountId": "A1", "create": made}], 1)


def ask(connection, days, times):
    """Asks so many times for so many days, and gives the last answer's periods."""
    call = ["Principal/getAvailability", {"accountId": "A1", "id": "A1", "utcStart": utc(0), "utcEnd": utc(days)}, "c"]
    body = compact({"using": USING, "methodCalls": [call]})
    head = f"POST /jmap HTTP/1.1\r\nHost: localhost\r\nAuthorization: Bearer {TOKEN}\r\nContent-Length: {len(body)}\r\n\r\n"
    for _ in range(times):
        connection.write(head.encode() + body, 1)
        answer = json.loads(next_body(connection.program.stdout))["methodResponses"][0]
    if answer[0] == "error":
        raise ValueError(json.dumps(answer))
    return answer[1]["list"]


# What is asked of which events: the days, how often, and the most milliseconds of processor that a call may take.
CALLS = {
    "a day of events without rules": (plain, 1, 40, 1.0),
    "a year of events without rules": (plain, 366, 10, 20.0),
    "a day, each third is weekly": (weekly, 1, 40, 1.0),
    "a year, each third is weekly": (weekly, 366, 4, 20.0),
}


def milliseconds_of(binary, event, days, times):
    connection = Connection(binary)
    fill(connection, event, EVENTS)
    before = connection.milliseconds()
    ask(connection, days, times)
    taken = connection.milliseconds() - before
    connection.close()
    return taken / times


def check_touching(binary):
    """5,000 events of an hour that touch are one busy period of 5,000 hours."""
    connection = Connection(binary)
    fill(connection, touching, TOUCHING)
    periods = ask(connection, 366, 1)
    connection.close()
    if periods != [{"utcStart": utc(0), "utcEnd": local(TOUCHING * 60) + "Z"}]:
        raise ValueError(json.dumps(periods)[:200])


def main():
    chosen = options(__doc__)
    check_touching(chosen.binary)
    missed = []
    print("call                             milliseconds a call  at most")
    for name, (event, days, times, most) in CALLS.items():
        taken = min(milliseconds_of(chosen.binary, event, days, times) for _ in range(chosen.rounds))
        print(f"{name:32} {taken:20.3f}  {most:7}", flush=True)
        missed += [f"{name} is above {most}"] if taken > most else []
    print("all goals are met" if not missed else "missed: " + "; ".join(missed))


if __name__ == "__main__":
    main()
