#!/usr/bin/env python3
"""Times calls by `jmapd stdio` on an account of 500 live events after 10, 5,000 and 200,000 changes, and tries what is told of its past; then starts of `jmapd kept` over a journal of as many. README.md tells
what it prints."""

import json
import os
import tempfile
import time

from calendars import MAX_OBJECTS, USING, Connection
from connections import TOKEN, next_body
from events import create
from journal import SITE, Kept
from measure import compact, options

EVENTS, SIZE, WINDOW = 500, 330, 4_096
CHANGES = (10, 5_000, 200_000)
MAX_GROWTH = 1.2
MAX_START_MS = 100


def update(start, count, title):
    patches = {f"E{1 + (start + place) % EVENTS}": {"title": title} for place in range(count)}
    return ["CalendarEvent/set", {"accountId": "A1", "update": patches}]


def get():
    return ["CalendarEvent/get", {"accountId": "A1", "ids": [f"E{number + 1}" for number in range(EVENTS)]}]


def changes(since, most=None):
    return ["CalendarEvent/changes", {"accountId": "A1", "sinceState": f"0-{since}"} | ({"maxChanges": most} if most else {})]


def query():
    return ["CalendarEvent/query", {"accountId": "A1", "sort": [{"property": "title"}]}]


# The call when so many changes of events were made, and how often it is made.
CALLS = {
    "set of one update": (lambda made: update(7, 1, "again"), 250),
    "set of 500 updates": (lambda made: update(0, MAX_OBJECTS, "again"), 4),
    "get of 500 ids": (lambda made: get(), 30),
    "changes with nothing new": (lambda made: changes(made), 250),
    "query by title": (lambda made: query(), 30),
}


class Account(Connection):
    """A program of its own with an account of 500 events, and which event each change of one named."""

    def __init__(self, binary):
        super().__init__(binary)
        self.send(["Calendar/set", {"accountId": "A1", "create": {"c": {"name": "Team"}}}], 1)
        self.send(create(EVENTS, SIZE), 1)
        self.named = [f"E{number + 1}" for number in range(EVENTS)]

    @property
    def made(self):
        return len(self.named)

    def send_call(self, call):
        """Sends a call once. Updates are made in the byte order of their keys."""
        self.send(call, 1)
        self.named += sorted(call[1].get("update", ()))

    def change(self, count):
        """Makes so many changes: updates of one event after the other."""
        while count:
            some = min(count, MAX_OBJECTS)
            self.send_call(update(self.made, some, f"title {self.made}"))
            count -= some

    def asked(self, call):
        """The name and the arguments of the answer to one call."""
        body = compact({"using": USING, "methodCalls": [[*call, "c"]]})
        head = f"POST /jmap HTTP/1.1\r\nHost: localhost\r\nAuthorization: Bearer {TOKEN}\r\nContent-Length: {len(body)}\r\n\r\n"
        self.program.stdin.write(head.encode() + body)
        self.program.stdin.flush()
        name, arguments, _ = json.loads(next_body(self.program.stdout))["methodResponses"][0]
        return name, arguments

    def memory(self):
        """The memory of the program in kB (Linux)."""
        with open(f"/proc/{self.program.pid}/status", encoding="ascii") as file:
            return next(int(line.split()[1]) for line in file if line.startswith("VmRSS"))

    def milliseconds_of(self, call_at, times):
        before = self.milliseconds()
        for _ in range(times):
            self.send_call(call_at(self.made))
        return (self.milliseconds() - before) / times


def told(account):
    """What is wrong of what an account tells of its past: each state of the window is told from, and none before it."""
    wrong = []
    for back in (0, 1, 2, 499, 500, 501, WINDOW - 1, WINDOW):
        name, arguments = account.asked(changes(account.made - back))
        touched = sorted(set(account.named[account.made - back :]))
        if name == "error" or sorted(arguments["updated"]) != touched or arguments["newState"] != f"0-{account.made}":
            wrong.append(f"{back} changes back")
    for back in (WINDOW + 1, account.made - 1, account.made):
        name, arguments = account.asked(changes(account.made - back))
        if name != "error" or arguments["type"] != "cannotCalculateChanges":
            wrong.append(f"{back} changes back, which lie beyond the window")
    return wrong


def line(*calls):
    return compact({"using": USING, "methodCalls": [[*call, "c"] for call in calls]}) + b"\n"


class Journal:
    """A journal of an account of 500 events, in a folder of its own."""

    def __init__(self, binary, folder):
        self.binary, self.folder, self.path = binary, folder, os.path.join(folder, "A1.db")
        with open(os.path.join(folder, "site.json"), "w", encoding="utf-8") as file:
            json.dump(SITE, file)

    def run(self, *lines):
        kept = Kept(self.binary, self.folder, self.path)
        for each in lines:
            kept.program.stdin.write(each)
            kept.program.stdin.flush()
            kept.program.stdout.readline()
        kept.close()

    def fill(self, count):
        first = ["Calendar/set", {"accountId": "A1", "create": {"c": {"name": "Team"}}}]
        updates = [line(update(made, MAX_OBJECTS, f"title {made}")) for made in range(EVENTS, count, MAX_OBJECTS)]
        self.run(line(first), line(create(EVENTS, SIZE)), *updates)

    def start_ms(self, rounds):
        """How long a run takes that has nothing to do, beside one over a journal of nothing."""
        taken = []
        for _ in range(rounds):
            before = time.perf_counter()
            self.run()
            taken.append((time.perf_counter() - before) * 1_000)
        return min(taken)


def starts(binary, rounds):
    """The milliseconds of a start over a journal of so many changes, and the kB of that with its log."""
    with tempfile.TemporaryDirectory() as folder:
        journal = Journal(binary, folder)
        journal.fill(CHANGES[-1])
        size = sum(os.path.getsize(journal.path + end) for end in ("", "-wal") if os.path.exists(journal.path + end))
        return journal.start_ms(rounds), size // 1_000


def turns(accounts, rounds):
    """The least milliseconds of each call on each account, which take turns, since a machine's speed changes from one second to the next."""
    figures = {(name, count): float("inf") for name in CALLS for count in CHANGES}
    for _ in range(rounds):
        for name, (call_at, times) in CALLS.items():
            for count in CHANGES:
                figures[name, count] = min(figures[name, count], accounts[count].milliseconds_of(call_at, times))
    return figures


def main():
    chosen = options(__doc__)
    accounts, memory, wrong = {}, {}, []
    for count in CHANGES:
        account = accounts[count] = Account(chosen.binary)
        account.change(count)
        memory[count] = account.memory()
        wrong += told(account) if count >= WINDOW + EVENTS else []
    figures = turns(accounts, chosen.rounds)
    for account in accounts.values():
        account.close()
    print("call                      " + "".join(f"{count:>12,}" for count in CHANGES) + "   ratio  at most")
    missed = []
    for name in CALLS:
        ratio = figures[name, CHANGES[-1]] / figures[name, CHANGES[0]]
        print(f"{name:26}" + "".join(f"{figures[name, count]:12.4f}" for count in CHANGES) + f"{ratio:8.2f}{MAX_GROWTH:9}")
        missed += [f"{name} grows"] if ratio > MAX_GROWTH else []
    print("memory in kB              " + "".join(f"{memory[count]:12,}" for count in CHANGES))
    start, size = starts(chosen.binary, chosen.rounds)
    print(f"start over a journal of {CHANGES[-1]:,} changes: {start:.1f} ms, at most {MAX_START_MS}; its files have {size:,} kB")
    missed += ["start"] if start > MAX_START_MS else []
    missed += [f"wrong: {what}" for what in wrong]
    print("all goals are met" if not missed else "missed: " + "; ".join(missed))


if __name__ == "__main__":
    main()
