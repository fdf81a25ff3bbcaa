#!/usr/bin/env python3
"""Times calls on events by `jmapd stdio` on accounts of 3,000 and 45,000 events; README.md tells what it prints."""

from calendars import MAX_GROWTH, MAX_OBJECTS, Connection
from measure import compact, options

# About how many bytes an event has, and how many events an account has. 45,000 of 1,000 bytes are more than an account may hold.
ACCOUNTS = ((1_000, 3_000), (330, 3_000), (330, 45_000))
SERVER_BYTES = 140  # those of the members that the server sets or supplies
TEAM = {
    "ann": {"name": "Ann", "email": "ann@example.com", "roles": {"owner": True}, "participationStatus": "accepted"},
    "bob": {"name": "Bob", "email": "bob@example.com", "roles": {"attendee": True}},
    "chloe": {"name": "Chloé", "email": "chloe@example.com", "roles": {"attendee": True, "optional": True}},
}
ALERTS = {"1": {"@type": "Alert", "trigger": {"@type": "OffsetTrigger", "offset": "-PT15M"}, "action": "display"}}


def event(size):
    """An event whose stored text is about so long."""
    made = {"calendarIds": {"C1": True}, "start": "2026-11-27T09:00:00", "duration": "PT1H", "title": "Planning"}
    if size >= 1_000:
        made |= {"timeZone": "America/New_York", "participants": TEAM, "alerts": ALERTS}
    missing = size - SERVER_BYTES - len(compact(made)) - len(',"description":""')
    return made | {"description": "d" * missing} if missing > 0 else made


def create(count, size):
    return ["CalendarEvent/set", {"accountId": "A1", "create": {f"k{number}": event(size) for number in range(count)}}]


def get_ids(_size, _events):
    return ["CalendarEvent/get", {"accountId": "A1", "ids": [f"E{number + 1}" for number in range(MAX_OBJECTS)]}]


def changes(_size, events):
    return ["CalendarEvent/changes", {"accountId": "A1", "sinceState": f"0-{events}"}]


# The call at an account of events of a size, how often it is made, and the most milliseconds that it may take.
CALLS = {
    "create one": (lambda size, _events: create(1, size), 900, 0.05),
    "set of 500 creates": (lambda size, _events: create(MAX_OBJECTS, size), 4, 15.0),
    "get of 500 ids": (get_ids, 100, 4.0),
    "changes with nothing new": (changes, 2_000, 0.01),
}


def milliseconds_of(binary, call, times, size, events):
    """The milliseconds of processor that a call takes on an account of so many events."""
    connection = Connection(binary)
    connection.send(["Calendar/set", {"accountId": "A1", "create": {"c": {"name": "Team"}}}], 1)
    connection.send(create(MAX_OBJECTS, size), events // MAX_OBJECTS)
    before = connection.milliseconds()
    connection.send(call, times)
    taken = connection.milliseconds() - before
    connection.close()
    return taken / times


def main():
    chosen = options(__doc__)
    missed = []
    print("call                      bytes   events  milliseconds a call  at most")
    for name, (call_at, times, most) in CALLS.items():
        figures = {}
        for size, events in ACCOUNTS:
            call = call_at(size, events)
            figures[size, events] = min(milliseconds_of(chosen.binary, call, times, size, events) for _ in range(chosen.rounds))
            print(f"{name:25} {size:5}  {events:7} {figures[size, events]:20.4f}  {most:7}", flush=True)
        few, many = (figures[account] for account in ACCOUNTS[1:])
        print(f"{name}: 45,000 events take {many / few:.2f} times as long as 3,000 of the same size")
        missed += [f"{name} is above {most}"] if max(figures.values()) > most else []
        missed += [f"{name} isn't flat"] if many / few > MAX_GROWTH else []
    print("all goals are met" if not missed else "missed: " + "; ".join(missed))


if __name__ == "__main__":
    main()
