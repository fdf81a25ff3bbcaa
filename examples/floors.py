#!/usr/bin/env python3
"""Kills `jmapd listen --journals` (signal 9) between and amid the keeps of an account that lives long, whose journal lets go of entries that nothing asks for any more.

One client updates events of an account over and over. Behind each kill the account has what was answered, and at most the call more whose answer didn't come; its states and ids go on, and each state of the window is told from. At the end the
file is as long as what is live and the window, and a file of the earlier version, without floors, is brought up to date.

    examples/floors.py [--rounds N] [--earlier PROGRAM] [PATH_OF_THE_PROGRAM]        50 kills by default
"""

import argparse
import os
import random
import sqlite3
import sys
import tempfile
import threading
import time
from contextlib import closing

from served import PROGRAM, Cut, Site

EVENTS, WINDOW = 200, 4_096
ACCOUNT = "A1"
LOAD_SECONDS = (0.01, 0.4)
WITHOUT_FLOORS = "DROP TABLE floor; UPDATE about SET version = 1"


class Team:
    """What the one client knows of the account."""

    def __init__(self):
        self.titles, self.state, self.pending = {}, 0, None

    def begin(self, caller):
        caller.did("Calendar/set", {"accountId": ACCOUNT, "create": {"c": {"name": "Team"}}})
        event = {"calendarIds": {"C1": True}, "start": "2026-11-27T09:00:00", "title": "0"}
        caller.did("CalendarEvent/set", {"accountId": ACCOUNT, "create": {f"k{place:03}": event for place in range(EVENTS)}})
        self.titles = {f"E{place + 1}": "0" for place in range(EVENTS)}
        self.state = EVENTS

    def update(self, caller, count):
        """Updates so many events, one after the other."""
        some = {f"E{1 + (self.state + place) % EVENTS}": str(self.state + place) for place in range(min(count, EVENTS))}
        self.pending = some
        caller.did("CalendarEvent/set", {"accountId": ACCOUNT, "update": {name: {"title": title} for name, title in some.items()}})
        self.took(some)

    def took(self, some):
        self.titles |= some
        self.state += len(some)
        self.pending = None

    def check(self, caller):
        """The account has what was answered, and perhaps the last call, whose answer didn't come."""
        got = caller.did("CalendarEvent/get", {"accountId": ACCOUNT, "ids": None, "properties": ["title"]})
        found = {event["id"]: event["title"] for event in got["list"]}
        if self.pending and got["state"] == f"0-{self.state + len(self.pending)}":
            self.took(self.pending)
        self.pending = None
        if found != self.titles or got["state"] != f"0-{self.state}":
            raise AssertionError(f"{got['state']} and {len(found)} events, and not 0-{self.state}")
        self.check_window(caller)

    def check_window(self, caller):
        for back in (0, 1, min(WINDOW, self.state)):
            caller.did("CalendarEvent/changes", {"accountId": ACCOUNT, "sinceState": f"0-{self.state - back}"})
        if self.state > WINDOW:
            [(told, came)] = caller.ask(("CalendarEvent/changes", {"accountId": ACCOUNT, "sinceState": f"0-{self.state - WINDOW - 1}"}))
            if told != "error" or came["type"] != "cannotCalculateChanges":
                raise AssertionError(f"told from beyond the window: {told}")


def load(team, caller, drawn):
    """Updates until the server is gone."""
    try:
        while True:
            team.update(caller, drawn.choice((1, 20, EVENTS)))
    except Cut:
        pass


def killed(site, team, drawn):
    """One round: what is there is looked at, and the server is killed while it takes updates."""
    with site.serving() as server:
        with server.calling() as caller:
            team.check(caller)
            writer = threading.Thread(target=load, args=(team, caller, drawn))
            writer.start()
            time.sleep(drawn.uniform(*LOAD_SECONDS))
            server.end()
            writer.join()


def filled(site, team):
    """Makes more changes than the window has, twice."""
    with site.serving() as server, server.calling() as caller:
        team.begin(caller)
        while team.state < 2 * WINDOW + EVENTS:
            team.update(caller, EVENTS)


def rows(site):
    with closing(sqlite3.connect(site.journal(ACCOUNT))) as base, base:
        [[count]] = base.execute("SELECT COUNT(*) FROM entry").fetchall()
        [[version]] = base.execute("SELECT version FROM about").fetchall()
        floors = base.execute("SELECT kind, state FROM floor").fetchall()
    return count, version, floors


def expect(what, came, wanted):
    if came != wanted:
        raise AssertionError(f"{what}: {came}, and not {wanted}")


def kills(program, rounds, seed):
    drawn, team = random.Random(seed), Team()
    with tempfile.TemporaryDirectory() as folder:
        site = Site(program, folder)
        filled(site, team)
        for _ in range(rounds):
            killed(site, team, drawn)
        with site.serving() as server, server.calling() as caller:
            team.check(caller)
        count, version, floors = rows(site)
        expect("version", version, 2)
        expect("rows", count, 1 + EVENTS + WINDOW + 1)
        expect("floors", floors, [("event", team.state - WINDOW - 1)])
    return f"{rounds} kills, {team.state} changes, {count} rows"


def brought_up_to_date(program):
    """A file without floors, as the earlier version wrote it, is read, and let go of what the keeps that follow leave behind."""
    team = Team()
    with tempfile.TemporaryDirectory() as folder:
        site = Site(program, folder)
        with site.serving() as server, server.calling() as caller:
            team.begin(caller)
            while team.state < WINDOW:
                team.update(caller, WINDOW - team.state)
        with closing(sqlite3.connect(site.journal(ACCOUNT))) as base, base:
            base.executescript(WITHOUT_FLOORS)
        grown(site, team)
        with closing(sqlite3.connect(site.journal(ACCOUNT))) as base, base:
            base.execute("UPDATE about SET version = 3")
        server, serves = site.tried()
        expect("a later version", (serves, "later version" in server.told()), (False, True))
    return "version 1 was brought up to date, and a later one refused"


def taken_over(program, earlier):
    """A long file that an earlier program wrote is read, and gets shorter keep by keep."""
    team = Team()
    with tempfile.TemporaryDirectory() as folder:
        site = Site(earlier, folder)
        filled(site, team)
        site.program = program
        grown(site, team)
        site.program = earlier
        server, serves = site.tried()
        expect("the earlier program", (serves, "another version" in server.told()), (False, True))
    return f"{team.state} changes"


def grown(site, team):
    """Makes more changes over the file that is there, behind which it has floors and is as long as it should be."""
    with site.serving() as server, server.calling() as caller:
        team.check(caller)
        for _ in range(20):
            team.update(caller, 50)
    with site.serving() as server, server.calling() as caller:
        team.check(caller)
    expect("the file", rows(site), (1 + EVENTS + WINDOW + 1, 2, [("event", team.state - WINDOW - 1)]))


def main():
    parser = argparse.ArgumentParser(description=__doc__, formatter_class=argparse.RawDescriptionHelpFormatter)
    parser.add_argument("program", nargs="?", default=PROGRAM)
    parser.add_argument("--rounds", type=int, default=50)
    parser.add_argument("--seed", type=int, default=0)
    parser.add_argument("--earlier", help="a program that writes files of version 1")
    asked = parser.parse_args()
    program = os.path.abspath(asked.program)
    cases = {"kills amid keeps": lambda: kills(program, asked.rounds, asked.seed), "earlier versions": lambda: brought_up_to_date(program)}
    if asked.earlier:
        cases["a file of an earlier program"] = lambda: taken_over(program, os.path.abspath(asked.earlier))
    failed = 0
    for name, case in cases.items():
        try:
            print(f"passed: {name}: {case()}", flush=True)
        except (AssertionError, OSError, TimeoutError) as error:
            failed += 1
            print(f"failed: {name}: {type(error).__name__}: {error}"[:2_000], flush=True)
    sys.exit(1 if failed else 0)


if __name__ == "__main__":
    main()
