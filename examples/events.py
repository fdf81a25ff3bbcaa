#!/usr/bin/env python3
"""Reads streams of events of `jmapd listen --sockets-port` (RFC 8620 section 7.3), by plain sockets and by curl.

A stream begins with all states, and while another client changes calendars over HTTP each change is told, and those who are told sync by `/changes` to the same calendars. A client that
connects again with the id of its last event is told nothing where nothing changed, and what it missed where something did. A stream with `closeafter=state` ends behind one event. Bad
queries, other paths and other methods are refused. A peer that never reads harms no other, one that goes frees its worker, and a head may come byte by byte. Pings come with the interval that
is used, behind 30 s, and comments where no pings are wanted.

    examples/events.py [PATH_OF_THE_PROGRAM]
"""

import contextlib
import http.client
import json
import shutil
import subprocess
import sys
import time

from peers import CONFIGURATION, CORE, free_port, joined

CALENDARS = "urn:ietf:params:jmap:calendars"
QUERY = "types={types}&closeafter={closeafter}&ping={ping}"


def query(types="*", closeafter="no", ping="0"):
    return QUERY.format(types=types, closeafter=closeafter, ping=ping)


class Writer:
    """A client over HTTP, which opens a connection for each request."""

    def __init__(self, port):
        self.port = port
        joined(port).close()

    def asked(self, *calls):
        peer = http.client.HTTPConnection("127.0.0.1", self.port, timeout=60)
        body = json.dumps({"using": [CORE, CALENDARS], "methodCalls": list(calls)})
        peer.request("POST", "/jmap", body, {"Authorization": "Bearer t-ann"})
        responses = json.loads(peer.getresponse().read())["methodResponses"]
        peer.close()
        return [response[1] for response in responses]

    def makes(self, name):
        """The new state of calendars, once there is one of this name."""
        (made,) = self.asked(["Calendar/set", {"accountId": "A1", "create": {"k": {"name": name}}}, "s"])
        return made["newState"]

    def calendars(self, ids=None):
        (found,) = self.asked(["Calendar/get", {"accountId": "A1", "ids": ids, "properties": ["name"]}, "g"])
        return {it["id"]: it["name"] for it in found["list"]}, found["state"]

    def synced(self, known, since):
        """What is known, brought on by changes, and its state."""
        more = True
        while more:
            (changes,) = self.asked(["Calendar/changes", {"accountId": "A1", "sinceState": since}, "c"])
            found, _ = self.calendars(changes["created"] + changes["updated"])
            known = {key: name for key, name in (known | found).items() if key not in changes["destroyed"]}
            since, more = changes["newState"], changes["hasMoreChanges"]
        return known, since


class Stream:
    """A stream of events."""

    def __init__(self, port, asked, last=None, path="/events", method="GET", token="t-ann", by_bytes=False):
        fields = f"Authorization: Bearer {token}\r\n" if token else ""
        fields += f"Last-Event-ID: {last}\r\n" if last else ""
        head = f"{method} {path}{'?' if asked is not None else ''}{asked or ''} HTTP/1.1\r\nHost: localhost\r\nAccept: text/event-stream\r\n{fields}\r\n".encode()
        self.socket = joined(port)
        self.socket.settimeout(20)
        for piece in [head[i : i + 1] for i in range(len(head))] if by_bytes else [head]:
            self.socket.sendall(piece)
        self.rest = b""
        self.last = last
        self.told = {}
        lines = []
        while line := self.line():
            lines.append(line.decode())
        self.status = int(lines[0].split()[1]) if lines else None
        self.fields = {name.lower(): value.strip() for name, value in (line.split(":", 1) for line in lines[1:])}

    def line(self):
        """The next line without its end, or None where the stream ended."""
        while b"\n" not in self.rest:
            piece = self.socket.recv(65_536)
            if not piece:
                return None
            self.rest += piece
        line, self.rest = self.rest.split(b"\n", 1)
        return line.rstrip(b"\r")

    def next(self):
        """The kind and the data of the next event, `comment` for a comment, or None where the stream ended (HTML section 9.2.6)."""
        event = {}
        while (line := self.line()) is not None:
            if line.startswith(b":"):
                return "comment", line[1:].decode()
            if line:
                name, value = line.decode().split(":", 1)
                event[name] = value.removeprefix(" ")
            elif "data" in event:
                self.last = event.get("id", self.last)
                return self.noted(event["event"], json.loads(event["data"]))
        return None

    def noted(self, kind, data):
        if kind == "state":
            for account, states in data["changed"].items():
                self.told.setdefault(account, {}).update(states)
        return kind, data

    def is_told(self, state, seconds=2):
        """Whether this state of calendars is told in time."""
        until = time.monotonic() + seconds
        try:
            while self.told.get("A1", {}).get("Calendar") != state:
                self.socket.settimeout(max(0.01, until - time.monotonic()))
                if self.next() is None:
                    return False
            return True
        except TimeoutError:
            return False
        finally:
            self.socket.settimeout(20)

    def is_told_nothing(self, seconds=2):
        """Whether nothing comes for so long."""
        self.socket.settimeout(seconds)
        try:
            self.next()
            return False
        except TimeoutError:
            return True
        finally:
            self.socket.settimeout(20)

    def body(self):
        length = int(self.fields["content-length"])
        while len(self.rest) < length:
            self.rest += self.socket.recv(65_536)
        return self.rest[:length]

    def end(self):
        self.socket.close()


def refusal(port, asked, **how):
    """The status of a refusal, with the words that its problem has."""
    stream = Stream(port, asked, **how)
    words = json.loads(stream.body())["detail"] if stream.fields.get("content-type") == "application/problem+json" else None
    allow = stream.fields.get("allow")
    is_ended = stream.status != 200 and stream.socket.recv(1) == b""
    stream.end()
    return stream.status, words or allow, is_ended


def refusals(port):
    for asked, words in [
        (None, "types is missing"),
        ("", "types is missing"),
        ("closeafter=no&ping=0", "types is missing"),
        ("types=*&ping=0", "closeafter is missing"),
        ("types=*&closeafter=no", "ping is missing"),
        ("types=*&types=*&closeafter=no&ping=0", "types is given more than once"),
        ("types=*&closeafter=no&closeafter=no&ping=0", "closeafter is given more than once"),
        ("types=*&closeafter=no&ping=0&ping=0", "ping is given more than once"),
        (query(closeafter="ping"), "closeafter has no value that it may have"),
        (query(closeafter=""), "closeafter has no value that it may have"),
        (query(ping="often"), "ping has no value that it may have"),
        (query(ping=""), "ping has no value that it may have"),
        (query(ping="-1"), "ping has no value that it may have"),
        (query(ping="1.5"), "ping has no value that it may have"),
    ]:
        yield f"400: {asked}", refusal(port, asked) == (400, words, True)
    yield "no token", refusal(port, query(), token=None) == (401, None, True)
    yield "an unknown token", refusal(port, query(), token="t-eve") == (401, None, True)
    yield "another path", refusal(port, query(), path="/event") == (404, None, True)
    yield "another method", refusal(port, query(), method="POST") == (405, "GET", True)
    yield "only the head", refusal(port, query(), method="HEAD") == (405, "GET", True)


def beginnings(port):
    stream = Stream(port, query())
    wanted = {"content-type": "text/event-stream", "cache-control": "no-store", "connection": "close"}
    yield "the head of a stream", stream.status == 200 and stream.fields == wanted
    kind, data = stream.next()
    everything = {"A1": {"Calendar", "CalendarEvent"}, "A2": {"Calendar", "CalendarEvent"}}
    yield "all states at the beginning", kind == "state" and data["@type"] == "StateChange" and {account: set(states) for account, states in data["changed"].items()} == everything
    yield "nothing where nothing changes", stream.is_told_nothing()
    stream.end()
    for types, wanted in [("%2A", everything), ("Calendar%2CCalendarEvent", everything), ("Email,Calendar", {"A1": {"Calendar"}, "A2": {"Calendar"}})]:
        stream = Stream(port, query(types=types) + "&more=1", by_bytes=True)
        stream.next()
        yield f"the states of {types}", {account: set(states) for account, states in stream.told.items()} == wanted
        stream.end()
    for types in ("Email", ""):
        stream = Stream(port, query(types=types))
        yield f"nothing of the types `{types}`", stream.status == 200 and stream.is_told_nothing()
        stream.end()


def changes(port, writer, times=50):
    deaf = [Stream(port, query()) for _ in range(3)]
    stream = Stream(port, query(types="Calendar"))
    stream.next()
    known, since = writer.calendars()
    late = 0
    for count in range(times):
        late += not stream.is_told(writer.makes(f"Calendar {count}"))
        known, since = writer.synced(known, since)
    yield f"{times} changes of another client, each told", late == 0
    yield "the same calendars by changes", (known, since) == writer.calendars() and len(known) >= times
    for each in (stream, *deaf):
        each.end()


def returns(port, writer):
    stream = Stream(port, query())
    stream.next()
    yield "a change before it goes", stream.is_told(writer.makes("Before"))
    stream.end()
    again = Stream(port, query(), last=stream.last)
    yield "nothing where nothing changed meanwhile", again.is_told_nothing(3)
    yield "what changes behind that", again.is_told(writer.makes("Behind"))
    again.end()
    state = writer.makes("Meanwhile")
    later = Stream(port, query(), last=again.last)
    kind, data = later.next()
    yield "all states where something changed meanwhile", kind == "state" and data["changed"]["A1"]["Calendar"] == state and set(data["changed"]) == {"A1", "A2"}
    later.end()
    other = Stream(port, query(types="Calendar"), last=later.last)
    yield "all states of other types", other.next()[0] == "state"
    other.end()
    foreign = Stream(port, query(), last="no id of this server")
    yield "all states behind another id", foreign.next()[0] == "state"
    foreign.end()


def endings(port, writer):
    stream = Stream(port, query(closeafter="state"))
    yield "one event and the end", stream.next()[0] == "state" and stream.next() is None
    stream.end()
    again = Stream(port, query(closeafter="state"), last=stream.last)
    yield "none where nothing changed", again.is_told_nothing()
    state = writer.makes("Ending")
    yield "the next one and the end", again.is_told(state) and again.next() is None
    again.end()


def pings(port):
    begun = time.monotonic()
    short, long, none = Stream(port, query(ping="29")), Stream(port, query(ping="901")), Stream(port, query())
    for stream in (short, long, none):
        stream.next()
        stream.socket.settimeout(40)
    yield "a ping with the interval that is used", short.next() == ("ping", {"interval": 30}) and 29 < time.monotonic() - begun < 33
    yield "a comment where no pings are wanted", none.next() == ("comment", "") and 29 < time.monotonic() - begun < 34
    yield "no ping before its time", long.is_told_nothing(1)
    yield "a ping leaves the id", short.last == long.last
    for stream in (short, long, none):
        stream.end()


def by_curl(port):
    curl = shutil.which("curl")
    if curl is None:
        print("examples/events.py: curl is skipped, since it isn't here")
        return
    command = [curl, "--silent", "--no-buffer", "--max-time", "10", "-H", "Authorization: Bearer t-ann", f"http://127.0.0.1:{port}/events?{query(closeafter='state')}"]
    got = subprocess.run(command, capture_output=True, text=True, check=False)
    lines = got.stdout.split("\n")
    yield "curl", got.returncode == 0 and lines[0] == "event: state" and lines[1].startswith("id: ") and lines[2].startswith('data: {"@type":"StateChange",') and lines[3:] == ["", ""]


def one_worker(program):
    """What frees the one worker of `websocket`."""
    port = free_port()
    command = [program, "websocket", "--config", CONFIGURATION, "--port", str(port), "--connections", "5"]
    with subprocess.Popen(command, stderr=subprocess.DEVNULL) as server:
        try:
            for way in ("goes", "is refused", "has its end"):
                stream = Stream(port, query(closeafter="state" if way == "has its end" else "no", ping="often" if way == "is refused" else "0"))
                is_served = way == "is refused" or stream.next()[0] == "state"
                is_ended = way == "goes" or stream.next() is None or stream.status == 400
                stream.end()
                begun = time.monotonic()
                yield f"a worker behind a peer that {way}", is_served and is_ended
                if way != "has its end":
                    continue
                other = Stream(port, query())
                yield "the next stream at once", other.next()[0] == "state" and time.monotonic() - begun < 3
                other.end()
            Stream(port, query(closeafter="state")).end()
            yield "the end behind so many handshakes", server.wait(timeout=20) == 0
        finally:
            server.kill()


@contextlib.contextmanager
def serving(program, http_port, port):
    command = [program, "listen", "--config", CONFIGURATION, "--port", str(http_port), "--sockets-port", str(port), "--socket-workers", "8"]
    server = subprocess.Popen(command, stderr=subprocess.DEVNULL)
    try:
        yield
    finally:
        server.kill()
        server.wait()


def all_of(program):
    http_port, port = free_port(), free_port()
    with serving(program, http_port, port):
        writer = Writer(http_port)
        yield from refusals(port)
        yield from beginnings(port)
        yield from changes(port, writer)
        yield from returns(port, writer)
        yield from endings(port, writer)
        yield from by_curl(port)
        yield from pings(port)
    yield from one_worker(program)


def main():
    program = sys.argv[1] if len(sys.argv) > 1 else "crates/jmapd/out/jmapd"
    tried, bad = 0, 0
    for name, good in all_of(program):
        tried += 1
        if not good:
            bad += 1
            print(f"examples/events.py: {name}: another answer")
    if not bad:
        print(f"examples/events.py: all of {tried} came as the standards and API.md say")
    sys.exit(bad > 0)


if __name__ == "__main__":
    main()
