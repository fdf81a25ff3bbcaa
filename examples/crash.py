#!/usr/bin/env python3
"""Tries `jmapd listen --journals` as an operator would: what was answered is there after any stop.

Clients write, read and sync while the program is killed at random moments (signal 9), so many rounds; crash_clients.py tells what each may find behind the next start. Then come the cases of
crash_cases.py, of disks, folders, files and configurations as they may be, and last, where it is asked for, the seconds of a backup. Each case prints a line, and the last line is `N passed, M failed`.
A kill leaves what was written to the system: that a disk keeps what it was told to flush when the power goes isn't tried.

    examples/crash.py [--rounds N] [--seconds S] [--backup] [PATH_OF_THE_PROGRAM]     100 kills by default, none begun behind S seconds (1800)
    examples/crash.py --short [PATH_OF_THE_PROGRAM]                                   5 kills: for the gate
"""

import argparse
import os
import random
import signal
import sys
import tempfile
import time

sys.dont_write_bytecode = True
from kept import expect  # noqa: E402  (it ends where this Python has no sqlite3)
from crash_cases import CASES, Skipped, backup  # noqa: E402
from crash_clients import Team  # noqa: E402
from served import PROGRAM, Site  # noqa: E402

SHORT_ROUNDS = 5
# An account takes so many changes, so some rounds have a folder of their own.
ROUNDS_OF_A_FOLDER = 10
LOAD_SECONDS = (0.02, 0.8)
# Before the first start of a folder some are cut while the files are made, and later on this part of all.
CUT_FIRST_STARTS = 3
CUT_STARTS = 0.2
CUT_START_SECONDS = 0.05
MAX_TOLD = 2_000


def cut_start(site, drawn):
    """Kills the program somewhere in its start."""
    server = site.begin()
    time.sleep(drawn.uniform(0, CUT_START_SECONDS))
    server.end()


def kill_rounds(program, rounds, drawn, until):
    """Some rounds over one folder, with a start behind the last: how many were made, and the clients."""
    team = Team(drawn.random())
    with tempfile.TemporaryDirectory() as folder:
        site = Site(program, folder)
        for _ in range(CUT_FIRST_STARTS):
            cut_start(site, drawn)
        with site.serving() as server:
            team.begin(server)
        made = 0
        while made < rounds and time.monotonic() < until:
            if drawn.random() < CUT_STARTS:
                cut_start(site, drawn)
            with site.serving() as server:
                team.check(server)
                expect(team.load(server, drawn.uniform(*LOAD_SECONDS)), -signal.SIGKILL)
            made += 1
        with site.serving() as server:
            team.check(server)
    return made, team


def kills(program, rounds, seconds, seed):
    """Kills under load, so many rounds."""
    drawn = random.Random(seed)
    until = time.monotonic() + seconds
    made = requests = changes = behind = 0
    while made < rounds and time.monotonic() < until:
        more, team = kill_rounds(program, min(ROUNDS_OF_A_FOLDER, rounds - made), drawn, until)
        made += more
        behind += team.found_behind
        requests += sum(writer.requests for writer in team.everybody())
        changes += sum(sum(writer.changes.values()) for writer in team.everybody())
    told = f"{made} kills, {requests} requests, {changes} changes, {behind} calls found whose answer was cut off"
    assert made == rounds, f"{told}: {seconds} seconds are over"
    assert changes, f"{told}: nothing was written"
    return told


def over_a_folder(program, case):
    """Tries a case over a folder of its own."""
    with tempfile.TemporaryDirectory() as folder:
        return case(Site(program, folder))


def outcome(name, work):
    """Tries a case, prints its line, and gives whether it passed; None where it was skipped."""
    begun = time.monotonic()
    try:
        told, word, passed = work(), "passed", True
    except Skipped as why:
        told, word, passed = why, "skipped", None
    except Exception as error:
        told, word, passed = f"{type(error).__name__}: {error}"[:MAX_TOLD], "failed", False
    print(f"{word}: {name}, {time.monotonic() - begun:.1f} s" + (f": {told}" if told else ""), flush=True)
    return passed


def options():
    parser = argparse.ArgumentParser(description=__doc__, formatter_class=argparse.RawDescriptionHelpFormatter)
    parser.add_argument("program", nargs="?", default=PROGRAM)
    parser.add_argument("--rounds", type=int, default=100)
    parser.add_argument("--seconds", type=float, default=1_800)
    parser.add_argument("--seed", type=int, default=0)
    parser.add_argument("--short", action="store_true")
    parser.add_argument("--backup", action="store_true")
    return parser.parse_args()


def main():
    asked = options()
    program = os.path.abspath(asked.program)
    rounds = SHORT_ROUNDS if asked.short else asked.rounds
    cases = CASES | ({"backup": backup} if asked.backup else {})
    passed = [outcome("kills under load", lambda: kills(program, rounds, asked.seconds, asked.seed))]
    passed += [outcome(name, lambda case=case: over_a_folder(program, case)) for name, case in cases.items()]
    print(f"{passed.count(True)} passed, {passed.count(False)} failed")
    sys.exit(1 if False in passed else 0)


if __name__ == "__main__":
    main()
