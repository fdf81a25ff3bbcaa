#!/usr/bin/env python3
"""Has peers of two kinds talk to `jmapd websocket`.

Peers that misbehave do so frame by frame, beside an ordinary one who is to be answered each time. Each frame that breaks the protocol closes the socket with the code of RFC 6455 section 7.4.1
for it: 1002 where it isn't masked, has a bit that nobody asked for, is a ping of 126 bytes, or is a text between fragments; 1007 for a text that isn't UTF-8; 1009 for more than 16 MiB; 1003
for bytes that are no text. A ping between fragments is answered. A handshake that doesn't come is given up after 10 s, 1,000 peers that go before it hold nobody up,
and with `--silence` a peer that says nothing is asked after 25 s and again after 50, and let go after 60.

Peers are told of changes: all states behind the switch, then their own changes, and nothing where nothing changes; and one that comes later is told what it missed, and syncs by `/changes`.
Where the program has `listen --sockets-port`, two peers are there at once: one changes, 100 times, the other is told within a second and syncs to the same calendars; and a peer that never reads
what it is told harms no other. Else that is skipped with a line.

Then comes a client that isn't ours: the Python module `websocket`, Debian's package `python3-websocket`. It shakes hands with the subprotocol `jmap`, sends requests, a batch with references,
texts that are refused, and a text of 9 MB, and closes. Handshakes without a token, with an unknown one, or without the subprotocol come to nothing. Skipped with a line where the module
isn't there.

    examples/sockets.py [PATH_OF_THE_PROGRAM] [--silence]
"""

import base64
import contextlib
import hashlib
import json
import os
import socket
import struct
import subprocess
import sys
import time

from peers import CONFIGURATION, CORE, free_port, joined

try:
    import websocket
except ImportError:
    websocket = None

CALENDARS = "urn:ietf:params:jmap:calendars"
ERROR = "urn:ietf:params:jmap:error:"


def request(calls, **more):
    return json.dumps({"@type": "Request", "using": [CORE, CALENDARS], "methodCalls": calls, **more}, ensure_ascii=False)


def connected(port, token="t-ann", subprotocols=("jmap",), seconds=10):
    """A socket, for which a server that starts is given some time."""
    until = time.monotonic() + seconds
    fields = [f"Authorization: Bearer {token}"] if token else []
    while True:
        try:
            return websocket.create_connection(f"ws://127.0.0.1:{port}/jmap/ws", header=fields, subprotocols=list(subprotocols), timeout=60)
        except ConnectionRefusedError:
            if time.monotonic() > until:
                raise
            time.sleep(0.02)


def asked(peer, text):
    peer.send(text)
    return json.loads(peer.recv())


def refusal(kind, request_id, limit=None):
    """What a reply that refuses a request has to say."""
    problem = {"@type": "RequestError", "type": ERROR + kind, "status": 400, "requestId": request_id}
    return problem | ({"limit": limit} if limit else {})


def says(reply, wanted):
    return all(reply.get(key) == value for key, value in wanted.items())


def status_of_handshake(port, **how):
    try:
        connected(port, **how).close()
        return 101
    except websocket.WebSocketBadStatusException as error:
        return error.status_code


def handshakes(port):
    yield "no token", status_of_handshake(port, token=None) == 401
    yield "an unknown token", status_of_handshake(port, token="t-eve") == 401
    yield "no subprotocol", status_of_handshake(port, subprotocols=()) == 400
    yield "another subprotocol", status_of_handshake(port, subprotocols=("xmpp",)) == 400
    several = connected(port, subprotocols=("xmpp", "jmap"))
    yield "one of several subprotocols", several.getsubprotocol() == "jmap"
    several.close()


def requests(peer):
    echo = asked(peer, request([["Core/echo", {"a": 1}, "c0"]], id="r1"))
    yield "an echo", echo == {"@type": "Response", "requestId": "r1", "methodResponses": [["Core/echo", {"a": 1}, "c0"]], "sessionState": "1"}
    yield "a request without an id", "requestId" not in asked(peer, request([]))
    made = [["Calendar/set", {"accountId": "A1", "create": {"k": {"name": "Work"}}}, "s"]]
    found = [["Calendar/get", {"accountId": "A1", "#ids": {"resultOf": "s", "name": "Calendar/set", "path": "/created/k/id"}}, "g"]]
    yield "an id that is no list of ids", asked(peer, request(made + found))["methodResponses"][1][0] == "error"
    listed = [["CalendarEvent/query", {"accountId": "A1"}, "q"], ["CalendarEvent/get", {"accountId": "A1", "#ids": {"resultOf": "q", "name": "CalendarEvent/query", "path": "/ids"}}, "g"]]
    yield "a batch with a reference", [response[0] for response in asked(peer, request(listed))["methodResponses"]] == ["CalendarEvent/query", "CalendarEvent/get"]


def refusals(peer):
    yield "another type", says(asked(peer, '{"@type":"Foo","id":"r2"}'), refusal("notRequest", "r2"))
    yield "no type", says(asked(peer, '{"id":"r3"}'), refusal("notRequest", "r3"))
    yield "an id that is null", says(asked(peer, request([], id=None)), refusal("notRequest", None))
    yield "an id that is a number", says(asked(peer, request([], id=7)), refusal("notRequest", None))
    yield "no JSON", says(asked(peer, "{"), refusal("notJSON", None))
    long = request([["Core/echo", {"x": "x" * 10_000_000}, "c"]], id="r4")
    yield "more than 10,000,000 bytes", says(asked(peer, long), refusal("limit", None, "maxSizeRequest"))
    yield "an empty text", says(asked(peer, ""), refusal("notJSON", None))


def long_text(peer):
    words = "Grüezi " * 1_125_000
    reply = asked(peer, request([["Core/echo", {"words": words}, "c"]], id="long"))
    yield "a text of 9 MB", reply["methodResponses"] == [["Core/echo", {"words": words}, "c"]] and reply["requestId"] == "long"


def is_closed_politely(peer):
    """The server closes too, with the code that it was told."""
    peer.send_close(1000, b"bye")
    opcode, data = peer.recv_data()
    return opcode == websocket.ABNF.OPCODE_CLOSE and data[:2] == (1000).to_bytes(2, "big")


def other_client(port):
    yield from handshakes(port)
    peer = connected(port)
    yield from requests(peer)
    yield from refusals(peer)
    yield from long_text(peer)
    peer.ping(b"are you there")
    yield "a text behind a ping", "methodResponses" in asked(peer, request([]))
    yield "a close", is_closed_politely(peer)
    other = connected(port, token="t-bob")
    get = [["Calendar/get", {"accountId": "A1"}, "g"]]
    yield "another's account", asked(other, request(get))["methodResponses"][0][1]["type"] == "accountNotFound"
    other.close()


# ---- frame by frame

TEXT, BINARY, CLOSE, PING, PONG = 1, 2, 8, 9, 10
# what a close without a code is said to have (RFC 6455 section 7.1.5)
NO_CODE = 1005
ECHO = json.dumps({"@type": "Request", "id": "r1", "using": [CORE], "methodCalls": [["Core/echo", {"a": 1}, "c0"]]}).encode()
GUID = b"258EAFA5-E914-47DA-95CA-C5AB0DC85B11"


def head_of(port, key, version=13, connection="Upgrade", more=""):
    return (
        f"GET /jmap/ws HTTP/1.1\r\nHost: localhost:{port}\r\nUpgrade: websocket\r\nConnection: {connection}\r\nSec-WebSocket-Key: {key}\r\n"
        f"Sec-WebSocket-Version: {version}\r\nSec-WebSocket-Protocol: jmap\r\nAuthorization: Bearer t-ann\r\n{more}\r\n"
    ).encode()


class FramePeer:
    """A peer behind its handshake."""

    def __init__(self, port, **how):
        key = base64.b64encode(os.urandom(16)).decode()
        self.socket = joined(port)
        self.socket.settimeout(20)
        self.socket.sendall(head_of(port, key, **how))
        self.stream = self.socket.makefile("rb")
        self.head = b""
        while (line := self.stream.readline()) not in (b"\r\n", b""):
            self.head += line
        accept = base64.b64encode(hashlib.sha1(key.encode() + GUID).digest())
        self.is_open = self.head.startswith(b"HTTP/1.1 101") and accept in self.head

    def send(self, kind, payload=b"", is_last=True, is_masked=True, reserved=0):
        first = (0x80 if is_last else 0) | reserved | kind
        mask = 0x80 if is_masked else 0
        count = len(payload)
        if count < 126:
            front = struct.pack("!BB", first, mask | count)
        elif count < 65536:
            front = struct.pack("!BBH", first, mask | 126, count)
        else:
            front = struct.pack("!BBQ", first, mask | 127, count)
        # a mask of zeros leaves the payload as it is
        self.socket.sendall(front + (bytes(4) if is_masked else b"") + payload)

    def next(self):
        """The kind and the payload of the next frame, or None where the stream ended."""
        try:
            front = self.stream.read(2)
            if len(front) < 2:
                return None
            count = front[1] & 127
            if count == 126:
                (count,) = struct.unpack("!H", self.stream.read(2))
            elif count == 127:
                (count,) = struct.unpack("!Q", self.stream.read(8))
            return front[0] & 15, self.stream.read(count)
        except ConnectionResetError:
            return None

    def close_code(self):
        """The code with which the server closes, or NO_CODE; else what it sent."""
        frame = self.next()
        if frame is None or frame[0] != CLOSE:
            return frame
        return struct.unpack("!H", frame[1][:2])[0] if frame[1] else NO_CODE

    def end(self):
        self.stream.close()
        self.socket.close()


def is_reply(frame):
    return frame is not None and frame[0] == TEXT and json.loads(frame[1])["requestId"] == "r1"


def is_served(port):
    peer = FramePeer(port)
    peer.send(TEXT, ECHO)
    good = peer.is_open and is_reply(peer.next())
    peer.send(CLOSE, struct.pack("!H", 1000))
    good = good and peer.close_code() == 1000 and peer.next() is None
    peer.end()
    return good


def code_behind(port, *frames):
    """The code with which the server closes behind these frames."""
    peer = FramePeer(port)
    for frame in frames:
        try:
            peer.send(**frame)
        except (BrokenPipeError, ConnectionResetError):
            break
    code = peer.close_code()
    peer.end()
    return code


def fragments(port):
    peer = FramePeer(port)
    peer.send(TEXT, ECHO[:10], is_last=False)
    peer.send(PING, b"mid")
    peer.send(0, ECHO[10:])
    good = peer.next() == (PONG, b"mid") and is_reply(peer.next())
    peer.end()
    return good


def goes_without_a_close(port):
    peer = FramePeer(port)
    peer.send(TEXT, ECHO)
    peer.end()
    return True


def says_nothing_at_all(port):
    """1,000 peers connect and go before their handshakes; who comes behind them is served."""
    for _ in range(1000):
        joined(port).close()
    return is_served(port)


def never_reads(port):
    """Sends long texts and reads no reply; the server gives it up, and others are served."""
    peer = FramePeer(port)
    long = json.dumps({"@type": "Request", "using": [CORE], "methodCalls": [["Core/echo", {"x": "x" * 4_000_000}, "c"]]}).encode()
    peer.socket.settimeout(1)
    try:
        for _ in range(8):
            peer.send(TEXT, long)
    except OSError:
        pass
    begun = time.monotonic()
    good = is_served(port)
    peer.end()
    return good and time.monotonic() - begun < 20


def odd_handshakes(port):
    # a peer goes before the next one comes, who would wait for it
    other = FramePeer(port, version=8)
    other.end()
    yield "another version", not other.is_open
    proxied = FramePeer(port, connection="keep-alive, Upgrade", more="Sec-WebSocket-Extensions: permessage-deflate\r\nOrigin: http://x\r\n")
    proxied.send(CLOSE)
    proxied.end()
    yield "a proxy's head, and an extension", proxied.is_open and b"xtensions" not in proxied.head
    slow = joined(port)
    begun = time.monotonic()
    slow.sendall(b"GET /jmap/ws HTTP/1.1\r\n")
    yield "an ordinary peer behind a handshake that doesn't come", is_answered_late(port)
    yield "10 s for a handshake", 9 < time.monotonic() - begun < 15
    slow.close()


def is_answered_late(port):
    try:
        return is_served(port)
    except TimeoutError:
        return False


def broken(port):
    yield "not masked", code_behind(port, {"kind": TEXT, "payload": b"abc", "is_masked": False}) == 1002
    yield "a reserved bit", code_behind(port, {"kind": TEXT, "payload": b"abc", "reserved": 0x40}) == 1002
    yield "a long ping", code_behind(port, {"kind": PING, "payload": b"p" * 126}) == 1002
    yield "a text between fragments", code_behind(port, {"kind": TEXT, "payload": b"ab", "is_last": False}, {"kind": TEXT, "payload": b"cd"}) == 1002
    yield "no UTF-8", code_behind(port, {"kind": TEXT, "payload": b"\xff\xfe"}) == 1007
    yield "bytes that are no text", code_behind(port, {"kind": BINARY, "payload": b"abc"}) == 1003
    yield "more than 16 MiB", code_behind(port, {"kind": TEXT, "payload": b"x" * 16_777_217}) == 1009
    yield "a close without a code", code_behind(port, {"kind": CLOSE}) == NO_CODE


def silence(port):
    peer = FramePeer(port)
    peer.socket.settimeout(70)
    begun = time.monotonic()
    asked = []
    while (frame := peer.next()) is not None:
        asked.append(frame[0] == PING and time.monotonic() - begun)
    let_go = time.monotonic() - begun
    peer.end()
    yield "a ping behind 25 s and behind 50", len(asked) == 2 and 24 < asked[0] < 30 and 49 < asked[1] < 57
    yield "the end behind 60 s", 58 < let_go < 70


# ---- changes that are told (RFC 8887 section 4.3.5)


def enable(types, **more):
    return json.dumps({"@type": "WebSocketPushEnable", "dataTypes": types, **more}).encode()


class Watcher(FramePeer):
    """A peer that asks and is told of changes, in any order."""

    def __init__(self, port, types):
        super().__init__(port)
        self.told = {}
        self.changes = 0
        self.send(TEXT, enable(types))

    def take(self):
        """The next reply, or None behind a StateChange, whose states are noted."""
        frame = self.next()
        message = json.loads(frame[1]) if frame is not None and frame[0] == TEXT else {}
        if message.get("@type") != "StateChange":
            return message
        self.changes += 1
        for account, states in message["changed"].items():
            self.told.setdefault(account, {}).update(states)
        return None

    def ask(self, *calls):
        """The responses to a request."""
        self.send(TEXT, request(list(calls), id="r").encode())
        while (reply := self.take()) is None:
            pass
        return [response[1] for response in reply["methodResponses"]]

    def wait_for(self, account, kind, state, seconds):
        """Whether this state is told in time."""
        until = time.monotonic() + seconds
        try:
            while self.told.get(account, {}).get(kind) != state:
                self.socket.settimeout(max(0.01, until - time.monotonic()))
                if self.take() is not None:
                    return False
            return True
        except TimeoutError:
            return False
        finally:
            self.socket.settimeout(20)

    def is_told_nothing(self, seconds):
        """Whether nothing comes for so long. Nothing can be read behind it."""
        self.socket.settimeout(seconds)
        try:
            self.next()
            return False
        except TimeoutError:
            return True


def new_calendar(name):
    return ["Calendar/set", {"accountId": "A1", "create": {"k": {"name": name}}}, "s"]


def names_of(peer, ids=None):
    (found,) = peer.ask(["Calendar/get", {"accountId": "A1", "ids": ids, "properties": ["name"]}, "g"])
    return {it["id"]: it["name"] for it in found["list"]}, found["state"]


def synced(peer, known, since):
    """What is known, brought on by changes, and its state."""
    more = True
    while more:
        (changes,) = peer.ask(["Calendar/changes", {"accountId": "A1", "sinceState": since}, "c"])
        found, _ = names_of(peer, changes["created"] + changes["updated"])
        known = {key: name for key, name in (known | found).items() if key not in changes["destroyed"]}
        since, more = changes["newState"], changes["hasMoreChanges"]
    return known, since


def one_after_the_other(port):
    first = Watcher(port, None)
    yield "all states behind the switch", first.take() is None and {account: set(states) for account, states in first.told.items()} == {"A1": {"Calendar", "CalendarEvent"}, "A2": {"Calendar", "CalendarEvent"}}
    before = first.told["A1"]["Calendar"]
    (made,) = first.ask(new_calendar("Work"))
    yield "a change of its own", first.wait_for("A1", "Calendar", made["newState"], 2) and first.changes == 2
    yield "nothing where nothing changes", first.is_told_nothing(2)
    first.end()
    later = Watcher(port, ["Email", "Calendar"])
    yield "what was missed", later.wait_for("A1", "Calendar", made["newState"], 2) and set(later.told["A1"]) == {"Calendar"}
    yield "a sync by changes", synced(later, {}, before) == ({made["created"]["k"]["id"]: "Work"}, made["newState"])
    later.send(TEXT, b'{"@type":"WebSocketPushDisable"}')
    (made,) = later.ask(new_calendar("Home"))
    yield "nothing behind the other switch", later.is_told_nothing(2)
    later.end()
    none = Watcher(port, ["Email"])
    yield "nothing of types that aren't known", none.is_told_nothing(2)
    none.end()


def both_at_once(port, times=100):
    writer, reader = FramePeer(port), Watcher(port, ["Calendar"])
    deaf = Watcher(port, None)
    known, since = names_of(reader)
    late = 0
    for count in range(times):
        writer.send(TEXT, request([new_calendar(f"Calendar {count}")], id="r").encode())
        made = json.loads(writer.next()[1])["methodResponses"][0][1]
        late += not reader.wait_for("A1", "Calendar", made["newState"], 2)
        known, since = synced(reader, known, since)
    yield f"{times} changes of another peer, each told", late == 0
    yield "the same calendars by changes", (known, since) == names_of(reader) and len(known) >= times
    for peer in (writer, reader, deaf):
        peer.end()


def misbehaviour(port, with_silence):
    for way in [broken, odd_handshakes] + ([silence] if with_silence else []):
        for name, good in way(port):
            yield name, good
            yield f"an ordinary peer behind: {name}", is_served(port)
    for way in (fragments, goes_without_a_close, says_nothing_at_all, never_reads):
        yield way.__name__, way(port)
        yield f"an ordinary peer behind: {way.__name__}", is_served(port)


@contextlib.contextmanager
def serving(program, port, *words):
    command = [program, "websocket", "--config", CONFIGURATION, "--port", str(port), *words]
    server = subprocess.Popen(command, stderr=subprocess.PIPE)
    try:
        yield server
    finally:
        server.kill()
        server.wait()


def by_frames(program, with_silence):
    port = free_port()
    with serving(program, port):
        yield from misbehaviour(port, with_silence)
        yield from one_after_the_other(port)
        with serving(program, port) as second:
            second.wait(timeout=20)
            yield "a port that is taken", second.returncode == 6 and second.stderr.read() == b"jmapd: nothing is kept\njmapd: open fault\n"


def by_two_peers(program):
    http, port = free_port(), free_port()
    command = [program, "listen", "--config", CONFIGURATION, "--port", str(http), "--sockets-port", str(port)]
    with subprocess.Popen(command, stderr=subprocess.DEVNULL, stdout=subprocess.DEVNULL) as server:
        try:
            server.wait(timeout=1)
            print("examples/sockets.py: two peers at once are skipped, since the program has no `--sockets-port`")
        except subprocess.TimeoutExpired:
            yield from both_at_once(port)
        finally:
            server.kill()


def by_the_other_client(program):
    if websocket is None:
        print("examples/sockets.py: another client is skipped, since the Python module websocket isn't here")
        return
    port = free_port()
    # five handshakes, of which one comes to a socket, and two sockets more
    with serving(program, port, "--connections", "7") as server:
        yield from other_client(port)
        yield "the end", server.wait(timeout=20) == 0 and server.stderr.read() == b"jmapd: nothing is kept\n"


def main():
    words = [word for word in sys.argv[1:] if word != "--silence"]
    program = words[0] if words else "crates/jmapd/out/jmapd"
    tried, bad = 0, 0
    for name, good in (*by_frames(program, "--silence" in sys.argv), *by_two_peers(program), *by_the_other_client(program)):
        tried += 1
        if not good:
            bad += 1
            print(f"examples/sockets.py: {name}: another answer")
    if not bad:
        print(f"examples/sockets.py: all of {tried} came as the standards and API.md say")
    sys.exit(bad > 0)


if __name__ == "__main__":
    main()
