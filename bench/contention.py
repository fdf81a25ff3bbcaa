#!/usr/bin/env python3
"""Times clients of `jmapd listen` that all use one account, and one client alone; README.md tells what it prints."""

import argparse
import json
import multiprocessing
import socket
import statistics
import subprocess
import sys
import time

CONFIGURATION = "examples/site.json"
CORE = "urn:ietf:params:jmap:core"
CALENDARS = "urn:ietf:params:jmap:calendars"
WORKERS = 16
CLIENTS = 16
# What is sent before a client looks for answers where all that can be served is counted, so that the clients' own work decides less.
AT_ONCE = 50
# A connection may have 10,000 messages.
MAX_MESSAGES = 10_000
# Events of the month that is queried.
EVENTS = 200
# How often the median the time may be that 99 of 100 requests stay below.
MOST_SPREAD = 20


def message(name, arguments):
    body = json.dumps({"using": [CORE, CALENDARS], "methodCalls": [[name, arguments, "c"]]}, separators=(",", ":")).encode()
    head = f"POST /jmap HTTP/1.1\r\nHost: localhost\r\nAuthorization: Bearer t-ann\r\nContent-Length: {len(body)}\r\n\r\n"
    return head.encode() + body


def event(number):
    return {"@type": "Event", "calendarIds": {"C1": True}, "title": f"Meeting {number}", "start": f"2026-06-{number % 28 + 1:02}T09:00:00", "timeZone": "Etc/UTC", "duration": "PT1H"}


GET = message("CalendarEvent/get", {"accountId": "A1", "ids": ["E1"]})
QUERY = message("CalendarEvent/query", {"accountId": "A1", "filter": {"after": "2026-06-01T00:00:00", "before": "2026-07-01T00:00:00"}, "sort": [{"property": "start"}], "limit": 100})
CREATE = message("CalendarEvent/set", {"accountId": "A1", "create": {"e": event(0)}})
# Each with how many a client sends: an account has at most 50,000 objects.
KINDS = {"gets of one event": (GET, 4000), "queries of a month": (QUERY, 400), "creates": (CREATE, 1000)}


class Peer:
    """A kept connection."""

    def __init__(self, port):
        self.socket = socket.create_connection(("127.0.0.1", port), timeout=120)
        self.socket.setsockopt(socket.IPPROTO_TCP, socket.TCP_NODELAY, 1)
        self.came = b""

    def answers(self, count):
        """Takes so many answers, of which the last is given."""
        body = b""
        for _ in range(count):
            while (head := self.came.find(b"\r\n\r\n")) < 0:
                self.receive()
            at = self.came.find(b"Content-Length: ", 0, head)
            if at < 0 or not self.came.startswith(b"HTTP/1.1 200"):
                sys.exit(f"answered {self.came[:200]!r}")
            end = head + 4 + int(self.came[at + 16 : self.came.index(b"\r", at)])
            while len(self.came) < end:
                self.receive()
            body = self.came[head + 4 : end]
            self.came = self.came[end:]
        return body

    def receive(self):
        came = self.socket.recv(65536)
        if not came:
            sys.exit("the connection ended")
        self.came += came


class Server:
    """A `jmapd listen` of its own, with a calendar and the events of a month."""

    def __init__(self, program):
        with socket.create_server(("127.0.0.1", 0)) as free:
            self.port = free.getsockname()[1]
        words = [program, "listen", "--config", CONFIGURATION, "--port", str(self.port), "--workers", str(WORKERS)]
        self.process = subprocess.Popen(words, stderr=subprocess.DEVNULL)
        until = time.monotonic() + 10
        while True:
            try:
                peer = Peer(self.port)
                break
            except ConnectionRefusedError:
                if time.monotonic() > until:
                    sys.exit("jmapd doesn't listen")
                time.sleep(0.01)
        for text in (message("Calendar/set", {"accountId": "A1", "create": {"c": {"name": "Work"}}}), message("CalendarEvent/set", {"accountId": "A1", "create": {f"e{n}": event(n) for n in range(EVENTS)}})):
            peer.socket.sendall(text)
            if b'"notCreated":null' not in peer.answers(1):
                sys.exit("jmapd doesn't create")
        peer.socket.close()

    def __enter__(self):
        return self

    def __exit__(self, *_):
        self.process.terminate()
        self.process.wait()


def client(port, text, count, at_once, start, pipe):
    """Sends so many messages, some at once, and tells the seconds that each lot of them took."""
    peer = Peer(port)
    sent = 0
    taken = []
    start.wait()
    while len(taken) * at_once < count:
        if sent + at_once > MAX_MESSAGES:
            peer, sent = Peer(port), 0
        begun = time.perf_counter()
        peer.socket.sendall(text * at_once)
        peer.answers(at_once)
        taken.append(time.perf_counter() - begun)
        sent += at_once
    pipe.send(taken)


def under_load(program, text, clients, count, at_once):
    """Requests a second of all clients, and what each lot took."""
    with Server(program) as server:
        start = multiprocessing.Barrier(clients + 1)
        peers = []
        for _ in range(clients):
            ours, theirs = multiprocessing.Pipe(False)
            peers.append((multiprocessing.Process(target=client, args=(server.port, text, count, at_once, start, theirs)), ours))
        for process, _ in peers:
            process.start()
        start.wait()
        begun = time.perf_counter()
        taken = [seconds for _, ours in peers for seconds in ours.recv()]
        took = time.perf_counter() - begun
        for process, _ in peers:
            process.join()
    return len(taken) * at_once / took, taken


def tell(program, kind, share, bad):
    text, count = KINDS[kind]
    count = max(AT_ONCE, int(count * share))
    alone, _ = under_load(program, text, 1, count * 4, AT_ONCE)
    together, _ = under_load(program, text, CLIENTS, count, AT_ONCE)
    _, taken = under_load(program, text, CLIENTS, max(100, count // 4), 1)
    taken.sort()
    median, late = statistics.median(taken), taken[len(taken) * 99 // 100]
    print(f"  {kind}: {alone:.0f} a second by one client, {together:.0f} by {CLIENTS}, {together / alone:.2f} times as many; one at a time by {CLIENTS}: median {median * 1e3:.2f} ms, 99 of 100 within {late * 1e3:.2f} ms, {late / median:.0f} times that", flush=True)
    if together < alone or late > MOST_SPREAD * median:
        bad.append(kind)


def main():
    words = argparse.ArgumentParser(description=__doc__)
    words.add_argument("programs", nargs="*", default=["crates/jmapd/out/jmapd"], help="one, or more to be compared in one run")
    words.add_argument("--share", type=float, default=1.0, help="of the requests that are sent")
    words.add_argument("--rounds", type=int, default=1)
    chosen = words.parse_args()
    for _ in range(chosen.rounds):
        for program in chosen.programs:
            bad = []
            print(program)
            for kind in KINDS:
                tell(program, kind, chosen.share, bad)
            print(f"  missed: {', '.join(bad)}" if bad else "  all goals are met")


if __name__ == "__main__":
    main()
