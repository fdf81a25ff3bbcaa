#!/usr/bin/env python3
"""Times calls of Resource/findSlot by `jmapd stdio`, in rooms of 500 weekly bookings; README.md tells what it prints."""

import json

from calendars import MAX_OBJECTS, Connection
from connections import TOKEN, next_body
from measure import compact, options
from slots import BOOKINGS, FREE, FREE_BEHIND, FULL, MONDAY, QUARTER, STARTS, WEEKLY

USING = ["urn:ietf:params:jmap:core", "https://jmapd.example/slots"]

# The bookings, the starts that are told, how often it is asked, and the most milliseconds of processor that a call may take.
CALLS = {
    f"{STARTS:,} starts of which none is free": (FULL, None, STARTS, 3, 2000),
    f"free behind {FREE_BEHIND} starts": (FREE, MONDAY + FREE_BEHIND * QUARTER, FREE_BEHIND, 40, 50),
}


def event(booking):
    return {
        "calendarIds": {"C1": True}, "start": booking["start"], "duration": f"PT{booking['seconds']}S", "timeZone": "Etc/UTC", "recurrenceRules": WEEKLY,
    }


def fill(connection, bookings):
    """Creates a room and books it."""
    connection.send(["Calendar/set", {"accountId": "A1", "create": {"r": {"name": "Room", "resourceZone": "Etc/UTC"}}}], 1)
    for first in range(0, len(bookings), MAX_OBJECTS):
        made = {f"k{number:04d}": event(booking) for number, booking in enumerate(bookings[first : first + MAX_OBJECTS])}
        connection.send(["CalendarEvent/set", {"accountId": "A1", "create": made}], 1)


def ask(connection, slot, starts, times):
    """Asks so many times for an hour each week, and looks at what is told."""
    wish = {"after": MONDAY.isoformat(), "before": (MONDAY + STARTS * QUARTER).isoformat(), "duration": "PT1H", "recurrenceRules": WEEKLY}
    body = compact({"using": USING, "methodCalls": [["Resource/findSlot", {"accountId": "A1", "calendarId": "C1", **wish}, "c"]]})
    head = f"POST /jmap HTTP/1.1\r\nHost: localhost\r\nAuthorization: Bearer {TOKEN}\r\nContent-Length: {len(body)}\r\n\r\n"
    for _ in range(times):
        connection.write(head.encode() + body, 1)
        answer = json.loads(next_body(connection.program.stdout))["methodResponses"][0][1]
    if answer.get("slot", "") != (slot and slot.isoformat()) or answer["triedTotal"] != starts or len(answer["tried"]) != min(starts, 100):
        raise ValueError(json.dumps(answer)[:200])


def milliseconds_of(binary, bookings, slot, starts, times):
    connection = Connection(binary)
    fill(connection, bookings)
    before = connection.milliseconds()
    ask(connection, slot, starts, times)
    taken = connection.milliseconds() - before
    connection.close()
    return taken / times


def main():
    chosen = options(__doc__)
    missed = []
    print(f"an hour each week beside {BOOKINGS} bookings   milliseconds a call  at most")
    for name, (bookings, slot, starts, times, most) in CALLS.items():
        taken = min(milliseconds_of(chosen.binary, bookings, slot, starts, times) for _ in range(chosen.rounds))
        print(f"{name:40} {taken:20.3f}  {most:7}", flush=True)
        missed += [f"{name} is above {most}"] if taken > most else []
    print("all goals are met" if not missed else "missed: " + "; ".join(missed))


if __name__ == "__main__":
    main()
