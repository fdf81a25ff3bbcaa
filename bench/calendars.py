#!/usr/bin/env python3
"""Times calendar calls by `jmapd stdio` on accounts of 0, 5,000 and 49,000 entries; README.md tells what it prints."""

import json
import subprocess
import threading

from connections import CONFIGURATION, TOKEN, next_body
from measure import compact, options, service_environment

ENTRIES = (0, 5_000, 49_000)
USING = ["urn:ietf:params:jmap:core", "urn:ietf:params:jmap:calendars"]
MAX_OBJECTS = 500
MAX_GROWTH = 1.5


class Connection:
    """One kept connection to a program of its own, whose accounts are fresh."""

    def __init__(self, binary, configuration=CONFIGURATION):
        words = [binary, "stdio", "--config", configuration]
        self.program = subprocess.Popen(words, stdin=subprocess.PIPE, stdout=subprocess.PIPE, env=service_environment())

    def send(self, call, times):
        """Sends a call so many times, a message each, and waits for the answers. None may be refused."""
        body = compact({"using": USING, "methodCalls": [[*call, "c"]]})
        head = f"POST /jmap HTTP/1.1\r\nHost: localhost\r\nAuthorization: Bearer {TOKEN}\r\nContent-Length: {len(body)}\r\n\r\n"
        message = head.encode() + body
        writer = threading.Thread(target=self.write, args=(message, times))
        writer.start()
        bodies = [next_body(self.program.stdout) for _ in range(times)]
        writer.join()
        for text in bodies:
            name, arguments, _ = json.loads(text)["methodResponses"][0]
            if name == "error" or arguments.get("notCreated") or arguments.get("notFound"):
                raise ValueError(f"{name}: {json.dumps(arguments)[:200]}")

    def write(self, message, times):
        for _ in range(times):
            self.program.stdin.write(message)
        self.program.stdin.flush()

    def milliseconds(self):
        """The processor time that the program has taken (Linux)."""
        with open(f"/proc/{self.program.pid}/schedstat", encoding="ascii") as file:
            return int(file.read().split()[0]) / 1e6

    def faults(self):
        """The pages that the system has given the program, each at its first use (Linux)."""
        with open(f"/proc/{self.program.pid}/stat", encoding="ascii") as file:
            return int(file.read().rpartition(")")[2].split()[7])

    def close(self):
        self.program.stdin.close()
        self.program.wait()


def create(count):
    return ["Calendar/set", {"accountId": "A1", "create": {f"k{number}": {"name": "n"} for number in range(count)}}]


def get_ids(_entries):
    return ["Calendar/get", {"accountId": "A1", "ids": [f"C{number + 1}" for number in range(MAX_OBJECTS)]}]


def changes(entries):
    return ["Calendar/changes", {"accountId": "A1", "sinceState": f"0-{entries}"}]


# The call at an account of so many entries, how often it is made, the least entries that it needs, and the most milliseconds it may take.
CALLS = {
    "create one": (lambda _entries: create(1), 900, 0, 0.02),
    "get of 500 ids": (get_ids, 100, MAX_OBJECTS, 2.0),
    "set of 500 creates": (lambda _entries: create(MAX_OBJECTS), 2, 0, 4.0),
    "changes with nothing new": (changes, 2_000, 0, 0.01),
}


def spent(binary, call, times, entries):
    """The milliseconds of processor and the pages that a call takes on an account of so many entries."""
    connection = Connection(binary)
    connection.send(["Core/echo", {}], 1)
    connection.send(create(MAX_OBJECTS), entries // MAX_OBJECTS)
    before, faults = connection.milliseconds(), connection.faults()
    connection.send(call, times)
    taken, given = connection.milliseconds() - before, connection.faults() - faults
    connection.close()
    return taken / times, given / times


def main():
    chosen = options(__doc__)
    missed = []
    print("call                      entries  milliseconds a call  at most  pages a call")
    for name, (call_at, times, least, most) in CALLS.items():
        figures = []
        for entries in ENTRIES:
            held = max(entries, least)
            taken, given = min(spent(chosen.binary, call_at(held), times, held) for _ in range(chosen.rounds))
            figures.append(taken)
            print(f"{name:25} {held:7} {taken:20.4f}  {most:7} {given:13.1f}")
        growth = max(figures) / min(figures)
        print(f"{name}: the slowest takes {growth:.2f} times as long as the fastest")
        missed += [f"{name} is above {most}"] if max(figures) > most else []
        missed += [f"{name} isn't flat"] if growth > MAX_GROWTH else []
    print("all goals are met" if not missed else "missed: " + "; ".join(missed))


if __name__ == "__main__":
    main()
