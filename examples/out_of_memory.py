#!/usr/bin/env python3
"""Refuses one allocation after the other to `jmapd listen` while it answers, and looks at what was written and at the history behind it.

Each trial starts the program afresh with one worker and one connection. The answers are those that come without a refusal, or the connection ends behind some of them, out of memory, with no
part of a further one. Then an ordinary client looks at the account: of the calls that were sent the first so many were made, each whole, and all those that were answered. Without a refusal
the answers have what ROWS says of them, which is worked out by hand.

This needs Linux, glibc and a C compiler (`cc`, or the one that the variable CC names): the few lines of ALLOCATOR are compiled into a temporary folder and loaded before the program's own.

    examples/out_of_memory.py [PATH_OF_THE_PROGRAM] [--row NAME] [--step N]      # each allocation, or each Nth
"""

import argparse
import json
import mmap
import os
import struct
import subprocess
import sys
import tempfile

sys.dont_write_bytecode = True
from peers import CONFIGURATION, CORE, answer, free_port, joined  # noqa: E402

CALENDARS = "urn:ietf:params:jmap:calendars"
TOKEN = "t-ann"
NEVER = 1 << 40

# Counts down the number in the file that FAILING names; the call of malloc or realloc that takes it to 0 has no memory.
ALLOCATOR = r"""
#include <errno.h>
#include <fcntl.h>
#include <stdatomic.h>
#include <stdlib.h>
#include <sys/mman.h>
#include <unistd.h>

void *__libc_malloc(size_t);
void *__libc_realloc(void *, size_t);
static atomic_long *left;

__attribute__((constructor)) static void begin(void) {
    const char *name = getenv("FAILING");
    int file = name ? open(name, O_RDWR) : -1;
    if (file < 0) abort();
    void *page = mmap(0, sizeof *left, PROT_READ | PROT_WRITE, MAP_SHARED, file, 0);
    if (page == MAP_FAILED) abort();
    close(file);
    left = page;
}

static int is_refused(void) {
    if (!left || atomic_fetch_sub(left, 1) != 1) return 0;
    errno = ENOMEM;
    return 1;
}

void *malloc(size_t size) { return is_refused() ? 0 : __libc_malloc(size); }
void *realloc(void *block, size_t size) { return is_refused() ? 0 : __libc_realloc(block, size); }
"""


def calendar(**more):
    return ["Calendar/set", {"accountId": "A1", "create": {"c": {"name": "Work", **more}}}]


def set_of(**arguments):
    return ["CalendarEvent/set", {"accountId": "A1", **arguments}]


def event(**more):
    return {"calendarIds": {"C1": True}, "start": "2024-01-01T09:00:00", "duration": "PT1H", **more}


ALERTS = {"1": {"@type": "Alert", "trigger": {"@type": "OffsetTrigger", "offset": "-PT5M"}}}
PEOPLE = {key: {"name": key.title(), "email": f"{key}@example.com", "roles": {"attendee": True}} for key in ("ann", "bob", "chloe")}
MEETING = {
    "calendarIds": {"#c": True},
    "start": "2024-01-08T10:00:00",
    "timeZone": "America/New_York",
    "duration": "PT1H",
    "recurrenceRules": [{"frequency": "weekly", "byDay": [{"day": "mo"}]}],
    "participants": PEOPLE,
    "alerts": ALERTS,
    "recurrenceOverrides": {"2024-01-22T10:00:00": {"start": "2024-01-22T14:00:00"}},
}
WEEK = {"after": "2024-01-22T00:00:00", "before": "2024-01-29T00:00:00"}
DEFAULTS = {"color": None, "description": None, "isSubscribed": True, "isVisible": True, "resourceZone": None, "sortOrder": 0, "timeZone": None}

# Calls, and what the response to each has, maybe beside other members.
ROWS = {
    "a calendar by its creation id": [
        (calendar(), {"created": {"c": {"id": "C1", **DEFAULTS}}, "oldState": "0-0", "newState": "0-1", "notCreated": None, "updated": None, "destroyed": None}),
        (
            ["Calendar/get", {"accountId": "A1", "#ids": {"resultOf": "0", "name": "Calendar/set", "path": "/created/c/id"}}],
            {"type": "invalidArguments"},
        ),
        (["Calendar/get", {"accountId": "A1", "ids": ["#c", "C1"]}], {"list": [{"id": "C1", "name": "Work", **DEFAULTS}], "notFound": []}),
    ],
    "a booking that clashes": [
        (calendar(resourceZone="Etc/UTC"), {"newState": "0-1"}),
        (set_of(create={"e": event(timeZone="Etc/UTC", recurrenceRules=[{"frequency": "weekly", "byDay": [{"day": "mo"}]}])}), {"newState": "0-1"}),
        (
            set_of(create={"f": event(timeZone="Etc/UTC", start="2024-02-01T09:30:00", recurrenceRules=[{"frequency": "monthly", "byMonthDay": [1]}])}),
            {"newState": "0-1", "notCreated": {"f": {"calendarId": "C1", "day": 19814, "second": 34200, "type": "clash", "with": "E1"}}},
        ),
    ],
    "changes of a result": [
        (calendar(), {"newState": "0-1"}),
        (set_of(create={key: event(title=key) for key in "abc"}), {"newState": "0-3"}),
        (set_of(update={"E1": {"title": "d"}}), {"newState": "0-4"}),
        (
            ["CalendarEvent/queryChanges", {"accountId": "A1", "sinceQueryState": "0-3", "sort": [{"property": "title"}]}],
            {"removed": ["E1"], "added": [{"id": "E1", "index": 2}], "newQueryState": "0-4"},
        ),
    ],
    "ordinary use": [
        (calendar(), {"newState": "0-1"}),
        (set_of(create={"e": MEETING}), {"newState": "0-1", "notCreated": None}),
        (
            ["CalendarEvent/query", {"accountId": "A1", "filter": WEEK, "expandRecurrences": True, "timeZone": "America/New_York"}],
            {"ids": ["E1_20240122T100000"]},
        ),
        (
            ["CalendarEvent/get", {"accountId": "A1", "#ids": {"resultOf": "2", "name": "CalendarEvent/query", "path": "/ids"}}],
            {"list": [{"start": "2024-01-22T14:00:00", "recurrenceId": "2024-01-22T10:00:00", "baseEventId": "E1", "alerts": ALERTS}], "notFound": []},
        ),
    ],
}

# Shows all that the account has.
LOOK = [["Calendar/get", {"accountId": "A1"}], ["CalendarEvent/get", {"accountId": "A1"}], ["CalendarEvent/changes", {"accountId": "A1", "sinceState": "0-0"}]]


def head(first, length):
    return f"{first} HTTP/1.1\r\nHost: localhost\r\nAuthorization: Bearer {TOKEN}\r\nContent-Length: {length}\r\n\r\n".encode()


def request(calls):
    """The calls in one request, each with its place as its id."""
    body = json.dumps({"using": [CORE, CALENDARS], "methodCalls": [[*call, str(place)] for place, call in enumerate(calls)]}).encode()
    return head("POST /jmap", len(body)) + body


def undated(value):
    """The value without the moments at which objects were created and updated."""
    if isinstance(value, dict):
        return {key: undated(it) for key, it in value.items() if not (key in ("created", "updated") and isinstance(it, str))}
    return [undated(it) for it in value] if isinstance(value, list) else value


def has(value, wanted):
    """Whether the value has what is wanted, where objects may have more members."""
    if isinstance(wanted, dict):
        return isinstance(value, dict) and all(key in value and has(value[key], it) for key, it in wanted.items())
    if isinstance(wanted, list):
        return isinstance(value, list) and len(value) == len(wanted) and all(map(has, value, wanted))
    return value == wanted


class Refused:
    """The number of the allocation that has no memory, in a file that the program looks at too."""

    def __init__(self, folder):
        self.name = os.path.join(folder, "failing")
        with open(self.name, "wb") as file:
            file.write(bytes(8))
        with open(self.name, "r+b") as file:
            self.page = mmap.mmap(file.fileno(), 8)

    def begin(self, number):
        self.page[:8] = struct.pack("q", number)

    def left(self):
        return struct.unpack("q", self.page[:8])[0]


class Server:
    """The program with one worker, whose allocations may be refused."""

    def __init__(self, program, allocator, refused):
        self.port = free_port()
        refused.begin(NEVER)
        self.program = subprocess.Popen(
            [program, "listen", "--config", CONFIGURATION, "--port", str(self.port), "--workers", "1"],
            env=os.environ | {"LD_PRELOAD": allocator, "FAILING": refused.name},
        )

    def __enter__(self):
        joined(self.port).close()
        return self

    def __exit__(self, *_):
        self.program.terminate()
        self.program.wait()

    def answers(self, messages):
        """The answers to messages on one connection, as far as they come whole; a part of one is told as it is."""
        with joined(self.port) as peer:
            peer.settimeout(60)
            came = []
            try:
                stream = peer.makefile("rb")
                for message in messages:
                    peer.sendall(message)
                    status, body = answer(stream)
                    if not status:
                        break
                    came.append((status, body))
            except (BrokenPipeError, ConnectionResetError):
                pass
            except TimeoutError:
                came.append(("nothing in time", b""))
            return [(status, read(body)) for status, body in came]

    def shows(self):
        """All that the account has, to a client that has memory."""
        return self.answers([request(LOOK)])


def read(body):
    try:
        return undated(json.loads(body))
    except ValueError:
        return body


def messages_of(calls):
    return [head("GET /.well-known/jmap", 0), request(calls)]


def without_refusals(program, allocator, refused, rows):
    """The answers to the calls and what the account has behind each number of them, and whether the answers are as wanted."""
    calls = [call for call, _ in rows]
    shown = []
    for count in range(len(calls) + 1):
        with Server(program, allocator, refused) as server:
            answers = server.answers(messages_of(calls[:count]))
            shown.append(server.shows())
    is_right = len(answers) == 2 and all(status == "HTTP/1.1 200 OK" for status, _ in answers)
    responses = answers[-1][1]["methodResponses"] if is_right else []
    is_right = len(responses) == len(rows) and all(has(response[1], wanted) for response, (_, wanted) in zip(responses, rows))
    return answers, shown, is_right


def other(answers, came, shown, shows):
    """What is wrong where these answers came and the account has this, if anything is."""
    if came != answers[: len(came)]:
        return f"answers {came}"
    may_be = shown if len(came) < len(answers) else shown[-1:]
    return None if shows in may_be else f"{len(came)} answers, and the account has {shows}"


def tried(program, allocator, refused, name, step):
    """Whether all is right where each allocation, or each of so many, is refused while the messages of the row are answered."""
    rows = ROWS[name]
    answers, shown, is_right = without_refusals(program, allocator, refused, rows)
    if not is_right:
        print(f"{name}: without a refusal {answers}")
        return False
    ended, number = 0, 1
    while True:
        with Server(program, allocator, refused) as server:
            refused.begin(number)
            came = server.answers(messages_of([call for call, _ in rows]))
            is_behind = refused.left() > 0
            refused.begin(NEVER)
            wrong = other(answers, came, shown, server.shows())
            if server.program.poll() is not None:
                wrong = f"the program ended with {server.program.returncode}"
        if wrong:
            print(f"{name}: with allocation {number} refused, {wrong}")
            return False
        if is_behind:
            print(f"{name}: {number - 1} allocations, {ended} refusals ended the connection, and the account is as it should be")
            return ended > 0
        ended += len(came) < len(answers)
        number += step


def main():
    words = argparse.ArgumentParser(description=__doc__, formatter_class=argparse.RawDescriptionHelpFormatter)
    words.add_argument("program", nargs="?", default="crates/jmapd/out/jmapd")
    words.add_argument("--row", choices=ROWS)
    words.add_argument("--step", type=int, default=1)
    chosen = words.parse_args()
    with tempfile.TemporaryDirectory() as folder:
        source, allocator = os.path.join(folder, "allocator.c"), os.path.join(folder, "allocator.so")
        with open(source, "w", encoding="ascii") as file:
            file.write(ALLOCATOR)
        subprocess.run([os.environ.get("CC", "cc"), "-O2", "-shared", "-fPIC", "-o", allocator, source], check=True)
        refused = Refused(folder)
        names = [chosen.row] if chosen.row else ROWS
        results = [tried(os.path.abspath(chosen.program), allocator, refused, name, chosen.step) for name in names]
    if not all(results):
        sys.exit("examples/out_of_memory.py: not so")


if __name__ == "__main__":
    main()
