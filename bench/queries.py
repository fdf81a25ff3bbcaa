#!/usr/bin/env python3
"""Times queries of events and what changed of them by `jmapd stdio` on accounts of 3,000 and 45,000 events; README.md tells what it prints."""

import json

from availability import WEEKLY, fill, local
from calendars import Connection
from connections import TOKEN, next_body
from events import TEAM
from measure import compact, options

USING = ["urn:ietf:params:jmap:core", "urn:ietf:params:jmap:calendars"]
ACCOUNTS = (3_000, 45_000)
MAX_GROWTH = 18  # of the time, for 15 times the events
FOUR_YEARS = 4 * 365 * 1_440  # in minutes
TIMES = 20


def meeting(number, events):
    """Events at any time of four years, in two zones, of which each third is weekly without end."""
    zone = "America/New_York" if number % 2 else "Etc/UTC"
    made = {"calendarIds": {"C1": True}, "start": local(number * (FOUR_YEARS // events)), "duration": "PT45M", "timeZone": zone, "title": f"Meeting {number}"}
    return made | ({"recurrenceRules": WEEKLY} if number % 3 == 0 else {})


def team_meeting(number, events):
    """The same, of which each thirtieth is weekly without end."""
    return meeting(number, events) | {"recurrenceRules": WEEKLY if number % 30 == 0 else None}


def described(number, events):
    """The same with three participants and a description, about 900 bytes as they are stored."""
    return meeting(number, events) | {"participants": TEAM, "description": "What we talk about, and who prepares what of it. " * 6}


def month(year):
    return {"after": f"{year}-05-01T00:00:00", "before": f"{year}-06-01T00:00:00"}


def ask(connection, *calls):
    """The arguments of the answers to the calls of one request, each a name with its arguments; the identifier of each is its name."""
    made = [[name, {"accountId": "A1"} | arguments, name] for name, arguments in calls]
    body = compact({"using": USING, "methodCalls": made})
    head = f"POST /jmap HTTP/1.1\r\nHost: localhost\r\nAuthorization: Bearer {TOKEN}\r\nContent-Length: {len(body)}\r\n\r\n"
    connection.write(head.encode() + body, 1)
    answers = json.loads(next_body(connection.program.stdout))["methodResponses"]
    for answer in answers:
        if answer[0] == "error":
            raise ValueError(json.dumps(answer))
    return [answer[1] for answer in answers]


def timed(connection, *calls):
    """The milliseconds of processor that a request takes, and the arguments of its last answer."""
    before = connection.milliseconds()
    told = ask(connection, *calls)[-1]
    return connection.milliseconds() - before, told


def found(connection, condition):
    taken, told = timed(connection, ("CalendarEvent/query", {"filter": condition, "timeZone": "Etc/UTC", "calculateTotal": True}))
    return taken, told["total"]


def in_2024(connection, _number):
    return found(connection, month(2024))


def in_2500(connection, _number):
    return found(connection, month(2500))


def with_text(connection, _number):
    return found(connection, {"text": "MEETING 77"})


def changed(connection, number):
    """What changed of the events of a month when one was set anew."""
    update = {"E1": {"title": f"Planning {number}"}}
    since = ask(connection, ("CalendarEvent/set", {"update": update}))[0]["oldState"]
    asked = {"filter": month(2024), "timeZone": "Etc/UTC", "sinceQueryState": since}
    taken, told = timed(connection, ("CalendarEvent/queryChanges", asked))
    return taken, len(told["removed"]) + len(told["added"])


def agenda(connection, year):
    """The occurrences of a week in order of their starts, with their objects."""
    week = {"after": f"{year}-05-03T00:00:00", "before": f"{year}-05-10T00:00:00"}
    asked = {"filter": week, "sort": [{"property": "start"}], "expandRecurrences": True, "timeZone": "Etc/UTC"}
    got = {"#ids": {"resultOf": "CalendarEvent/query", "name": "CalendarEvent/query", "path": "/ids"}}
    taken, told = timed(connection, ("CalendarEvent/query", asked), ("CalendarEvent/get", got))
    return taken, len(told["list"])


def week_of_2024(connection, _number):
    return agenda(connection, 2024)


def week_of_2500(connection, _number):
    return agenda(connection, 2500)


def weekly_ones(events):
    return (events + 2) // 3


def weekly_meetings(events):
    return (events + 29) // 30


def named_77(events):
    return sum("77" == str(number)[:2] for number in range(events))


# The events, the call, the most milliseconds that it may take of 3,000, and how much it tells, where that is easily said.
CALLS = {
    "ids of a month in 2024": (meeting, in_2024, 1.0, None),
    "ids of a month in 2500": (meeting, in_2500, 1.0, weekly_ones),
    "text search": (meeting, with_text, 3.0, named_77),
    "text search, 900 bytes an event": (described, with_text, 3.0, named_77),
    "changes after one update": (meeting, changed, 2.0, lambda _events: 2),
    "agenda of a week in 2024": (team_meeting, week_of_2024, 3.0, None),
    "agenda of a week in 2500": (team_meeting, week_of_2500, 3.0, weekly_meetings),
}


def milliseconds_of(binary, event, call, events, expected):
    """The least milliseconds of processor that a call takes on an account of so many events."""
    connection = Connection(binary)
    fill(connection, lambda number: event(number, events), events)
    figures = []
    for number in range(TIMES):
        taken, told = call(connection, number)
        if expected and told != expected(events):
            raise ValueError(f"{told} in place of {expected(events)}")
        figures.append(taken)
    connection.close()
    return min(figures)


def main():
    chosen = options(__doc__)
    missed = []
    print("call                              events  milliseconds a call  at most")
    for name, (event, call, most, expected) in CALLS.items():
        figures = []
        # 45,000 events of 900 bytes are more than an account may hold, and a week of theirs has more occurrences than a get may name
        for events in ACCOUNTS[: 1 if event in (described, team_meeting) else 2]:
            goal = most if events == ACCOUNTS[0] else MAX_GROWTH * most
            figures.append(min(milliseconds_of(chosen.binary, event, call, events, expected) for _ in range(chosen.rounds)))
            print(f"{name:32} {events:7} {figures[-1]:20.3f}  {goal:7}", flush=True)
            missed += [f"{name} is above {goal}"] if figures[-1] > goal else []
        if len(figures) > 1:
            growth = figures[1] / figures[0]
            print(f"{name}: 45,000 events take {growth:.1f} times as long as 3,000")
            missed += [f"{name} grows by {growth:.1f}"] if growth > MAX_GROWTH else []
    print("all goals are met" if not missed else "missed: " + "; ".join(missed))


if __name__ == "__main__":
    main()
