#!/usr/bin/env python3
"""Fills an account up to its quota, leaves it and fills it again, by objects and by bytes, and replaces the bookings of a room over and over. What is answered is compared with what API.md says.

    examples/quota.py [--rounds N] [PATH_OF_THE_PROGRAM]        the bookings are replaced 100 times by default
"""

import argparse
import os
import sys
import tempfile

from served import MAX_OBJECTS, PROGRAM, ZONE, Site

MAX_LIVE, MAX_BYTES, MAX_BOOKINGS = 50_000, 16_777_216, 500
LARGE = 1_000_000


def event(**members):
    return {"calendarIds": {"C1": True}, "start": "2026-11-27T09:00:00", "title": "Planning"} | members


def booking(number):
    """One of 500 hours that don't overlap."""
    return event(start=f"2027-{1 + number // 240:02}-{1 + number % 240 // 10:02}T{8 + number % 10:02}:00:00", duration="PT1H", timeZone=ZONE["name"])


class Account:
    """An account, and the numbers of its live events."""

    def __init__(self, caller, name, **calendar):
        self.caller, self.name, self.live, self.given = caller, name, [], 0
        caller.did("Calendar/set", {"accountId": name, "create": {"c": {"name": "Team"} | calendar}})

    def set(self, **what):
        [(_, arguments)] = self.caller.ask(("CalendarEvent/set", {"accountId": self.name} | what))
        return arguments

    def create(self, *events):
        """Creates events, and gives the types of the refusals. Ids go on from the last one that was given."""
        arguments = self.set(create={f"k{place:03}": it for place, it in enumerate(events)})
        ids = sorted((made["id"] for made in arguments["created"].values()), key=lambda it: int(it[1:])) if arguments["created"] else []
        if ids != [f"E{self.given + 1 + place}" for place in range(len(ids))]:
            raise AssertionError(f"created as {ids[:3]}, behind E{self.given}")
        self.given += len(ids)
        self.live += ids
        return [refused["type"] for refused in (arguments.get("notCreated") or {}).values()]

    def update(self, number, **members):
        refused = self.set(update={self.live[number]: members}).get("notUpdated")
        return [it["type"] for it in refused.values()] if refused else []

    def destroy(self, count):
        gone, self.live = self.live[:count], self.live[count:]
        if sorted(self.set(destroy=gone)["destroyed"] or []) != sorted(gone):
            raise AssertionError("a destroy was refused")


def expect(what, came, wanted):
    if came != wanted:
        raise AssertionError(f"{what}: {came}, and not {wanted}")


def objects(account):
    """As many events as there may be beside one calendar, three times over."""
    for _ in range(3):
        while (left := MAX_LIVE - 1 - len(account.live)) > 0:
            expect("a create within the quota", account.create(*[event()] * min(left, MAX_OBJECTS)), [])
        expect("one object too many", account.create(event(), event()), ["overQuota"] * 2)
        expect("an update at the quota", account.update(0, title="Again"), [])
        account.destroy(1)
        expect("one of two", account.create(event(), event()), ["overQuota"])
        account.destroy(MAX_OBJECTS)


def size(account):
    """As many large events as there may be bytes, three times over."""
    for _ in range(3):
        account.destroy(len(account.live))
        for _ in range(MAX_BYTES // (LARGE + 1_000)):
            expect("a large create", account.create(event(description="d" * LARGE)), [])
        expect("one too many", account.create(event(description="d" * LARGE)), ["overQuota"])
        expect("an update that adds too much", account.update(0, description="d" * (2 * LARGE)), ["overQuota"])
        expect("an update that takes away", account.update(0, description="d"), [])
        expect("what it made room for", account.create(event(description="d" * LARGE)), [])


def room(account, rounds):
    for _ in range(rounds):
        account.destroy(len(account.live))
        expect("bookings of an empty room", account.create(*[booking(number) for number in range(MAX_BOOKINGS)]), [])
        expect("a second booking of an hour", account.create(booking(7)), ["overQuota"])


def main():
    parser = argparse.ArgumentParser(description=__doc__, formatter_class=argparse.RawDescriptionHelpFormatter)
    parser.add_argument("--rounds", type=int, default=100)
    parser.add_argument("program", nargs="?", default=PROGRAM)
    chosen = parser.parse_args()
    program = os.path.abspath(chosen.program)
    with tempfile.TemporaryDirectory() as folder, Site(program, folder).serving("--workers", "1") as server, server.calling() as caller:
        objects(Account(caller, "A1"))
        size(Account(caller, "A2"))
    with tempfile.TemporaryDirectory() as folder, Site(program, folder).serving("--workers", "1") as server, server.calling() as caller:
        room(Account(caller, "A1", resourceZone=ZONE["name"]), chosen.rounds)
    print("quota.py: all as API.md says")


if __name__ == "__main__":
    sys.exit(main())
