#!/usr/bin/env python3
"""Times `jmapd kept`: a start over a full journal, a set of one and a set of 500, each beside SQLite alone; README.md tells what it prints."""

import json
import os
import sqlite3
import subprocess
import sys
import tempfile
import time

from measure import compact, options, service_environment

USING = ["urn:ietf:params:jmap:core", "urn:ietf:params:jmap:calendars"]
SITE = {
    "baseUrl": "http://localhost:8080",
    "accounts": [{"id": "A1", "name": "Team"}],
    "users": [{"name": "ann", "token": "t-ann", "accounts": ["A1"]}],
}
MAX_ENTRIES = 50_000
MAX_OBJECTS = 500
TEXT_BYTES = 330
# about the bytes of the text of an entry whose event has a description of no bytes
OTHER_BYTES = 300
SINGLE_SETS = 200
LARGE_SETS = 20
MAX_START_SECONDS = 1.0
MAX_MEMORY = 3
MAX_COMMIT = 1.3


def request(*calls):
    return compact({"using": USING, "methodCalls": [[*call, "c"] for call in calls]}) + b"\n"


def calendar():
    return request(["Calendar/set", {"accountId": "A1", "create": {"c": {"name": "Team"}}}])


def events(count, title="Planning"):
    made = {"calendarIds": {"C1": True}, "start": "2026-11-27T09:00:00", "duration": "PT1H", "title": title}
    made["description"] = "d" * max(0, TEXT_BYTES - OTHER_BYTES)
    return request(["CalendarEvent/set", {"accountId": "A1", "create": {f"k{number}": made for number in range(count)}}])


class Kept:
    """The program over a journal, to which lines are sent one at a time."""

    def __init__(self, binary, folder, journal, environment=None):
        words = [binary, "kept", "--config", os.path.join(folder, "site.json"), "--journal", journal]
        self.program = subprocess.Popen(words, stdin=subprocess.PIPE, stdout=subprocess.PIPE, env=environment or service_environment())

    def send(self, line, created):
        """Sends a line and waits for its response, which tells of so many objects."""
        self.program.stdin.write(line)
        self.program.stdin.flush()
        response = json.loads(self.program.stdout.readline())
        made = response["methodResponses"][0][1].get("created") or {}
        if len(made) != created:
            raise ValueError(json.dumps(response)[:300])

    def close(self):
        """Waits for the end, and gives the peak of its memory in bytes."""
        self.program.stdin.close()
        _, status, usage = os.wait4(self.program.pid, 0)
        self.program.returncode = os.waitstatus_to_exitcode(status)
        if self.program.returncode:
            sys.exit(f"kept ended with {self.program.returncode}")
        return usage.ru_maxrss * 1024


def texts_in(journal):
    base = sqlite3.connect(journal)
    rows = base.execute("SELECT account, place, text FROM entry ORDER BY account, place").fetchall()
    base.close()
    return rows


def own_journal(path):
    """A journal of SQLite alone, with the same table, whose commits are flushed."""
    base = sqlite3.connect(path, isolation_level=None)
    base.execute("PRAGMA journal_mode = WAL")
    base.execute("PRAGMA synchronous = FULL")
    base.execute("CREATE TABLE entry (account TEXT NOT NULL, place INTEGER NOT NULL, text BLOB NOT NULL) STRICT")
    return base


def insert(base, rows):
    base.execute("BEGIN")
    base.executemany("INSERT INTO entry (account, place, text) VALUES (?, ?, ?)", rows)
    base.execute("COMMIT")


def seconds_of(work, *arguments):
    before = time.perf_counter()
    work(*arguments)
    return time.perf_counter() - before


def full_journal(binary, folder):
    """A journal with as many entries as an account takes, in lines of 500 creates."""
    journal = os.path.join(folder, "full.db")
    kept = Kept(binary, folder, journal)
    kept.send(calendar(), 1)
    left = MAX_ENTRIES - 1
    while left:
        count = min(MAX_OBJECTS, left)
        kept.send(events(count), count)
        left -= count
    kept.close()
    return journal


def starts(binary, folder, rounds):
    journal = full_journal(binary, folder)
    rows = texts_in(journal)
    size = sum(len(text) for _, _, text in rows)
    seconds, peaks, plain_peaks = [], [], []
    for _ in range(rounds):
        before = time.perf_counter()
        peaks.append(Kept(binary, folder, journal).close())
        seconds.append(time.perf_counter() - before)
        plain_peaks.append(Kept(binary, folder, journal, os.environ).close())
    alone = min(seconds_of(texts_in, journal) for _ in range(rounds))
    print(f"start over {len(rows)} entries of {size / len(rows):.0f} bytes: {min(seconds):.2f} s (goal {MAX_START_SECONDS}), SQLite alone {alone:.2f} s")
    for setting, peak in (("as it is", max(plain_peaks)), ("set as in production", max(peaks))):
        print(f"memory at its peak, the C library {setting}: {peak / 1e6:.0f} MB, {peak / size:.2f} times the texts (goal {MAX_MEMORY})")


def timed_sets(binary, folder, count, times):
    """The seconds of a set of so many creates, and of SQLite alone with the same texts."""
    with tempfile.TemporaryDirectory(dir=folder) as room:
        journal = os.path.join(room, "kept.db")
        kept = Kept(binary, folder, journal)
        kept.send(calendar(), 1)
        line = events(count)
        taken = seconds_of(lambda: [kept.send(line, count) for _ in range(times)])
        kept.close()
        rows = texts_in(journal)[1:]
        base = own_journal(os.path.join(room, "alone.db"))
        parts = [rows[first : first + count] for first in range(0, len(rows), count)]
        alone = seconds_of(lambda: [insert(base, part) for part in parts])
        base.close()
    return taken / times, alone / times


def sets(binary, folder, rounds, count, times, goal):
    pairs = [timed_sets(binary, folder, count, times) for _ in range(rounds)]
    taken, alone = (min(seconds) for seconds in zip(*pairs))
    beside = f" (goal {goal})" if goal else ""
    print(f"set of {count}: {taken * 1000:.2f} ms, SQLite alone {alone * 1000:.2f} ms, {taken / alone:.2f} times as long{beside}")


def main():
    words = options(__doc__)
    with tempfile.TemporaryDirectory() as folder:
        with open(os.path.join(folder, "site.json"), "w", encoding="utf-8") as file:
            json.dump(SITE, file)
        starts(words.binary, folder, words.rounds)
        sets(words.binary, folder, words.rounds, 1, SINGLE_SETS, MAX_COMMIT)
        sets(words.binary, folder, words.rounds, MAX_OBJECTS, LARGE_SETS, None)


if __name__ == "__main__":
    main()
