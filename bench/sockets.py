#!/usr/bin/env python3
"""Times `jmapd websocket` beside `jmapd listen`: echoes one after the other, and a text of 9 MB; and what idle sockets take that are told of changes, and how soon. README.md tells what it prints."""

import argparse
import base64
import json
import os
import socket
import statistics
import struct
import subprocess
import sys
import time

from measure import service_environment

CONFIGURATION = "examples/site.json"
CORE = "urn:ietf:params:jmap:core"
ECHO = {"title": "Meeting", "start": "2026-11-27T09:00:00", "duration": "PT1H", "participants": {"p1": {"name": "Chloe"}}}


def request(arguments, **more):
    return json.dumps({**more, "using": [CORE], "methodCalls": [["Core/echo", arguments, "c"]]}, separators=(",", ":")).encode()


def joined(port):
    until = time.monotonic() + 20
    while True:
        try:
            peer = socket.create_connection(("127.0.0.1", port), timeout=120)
            peer.setsockopt(socket.IPPROTO_TCP, socket.TCP_NODELAY, 1)
            return peer
        except ConnectionRefusedError:
            if time.monotonic() > until:
                raise
            time.sleep(0.02)


class Peer:
    """A kept connection."""

    def __init__(self, port):
        self.socket = joined(port)
        self.stream = self.socket.makefile("rb")

    def fields(self):
        """The status line and the fields of an answer's head."""
        first = self.stream.readline()
        fields = {}
        while (line := self.stream.readline()) not in (b"\r\n", b""):
            name, _, value = line.decode().partition(":")
            fields[name.lower()] = value.strip()
        return first.decode(), fields

    def end(self):
        self.stream.close()
        self.socket.close()


class HttpPeer(Peer):
    """Sends each text as the body of a message."""

    words = ("listen", "--workers", "1")
    marks = {}

    def exchange(self, text):
        head = f"POST /jmap HTTP/1.1\r\nHost: localhost\r\nAuthorization: Bearer t-ann\r\nContent-Length: {len(text)}\r\n\r\n"
        self.socket.sendall(head.encode() + text)
        _, fields = self.fields()
        return self.stream.read(int(fields["content-length"]))


class SocketPeer(Peer):
    """Sends each text as a message of a WebSocket."""

    words = ("websocket",)
    marks = {"@type": "Request", "id": "r"}

    def __init__(self, port, token="t-ann"):
        super().__init__(port)
        key = base64.b64encode(os.urandom(16)).decode()
        head = f"GET /jmap/ws HTTP/1.1\r\nHost: localhost\r\nUpgrade: websocket\r\nConnection: Upgrade\r\nSec-WebSocket-Key: {key}\r\nSec-WebSocket-Version: 13\r\n"
        self.socket.sendall((head + f"Sec-WebSocket-Protocol: jmap\r\nAuthorization: Bearer {token}\r\n\r\n").encode())
        status, _ = self.fields()
        if " 101 " not in status:
            sys.exit(f"answered {status!r}")

    def exchange(self, text):
        self.send(text)
        return self.take()

    def send(self, text):
        count = len(text)
        if count < 126:
            front = struct.pack("!BB", 0x81, 0x80 | count)
        elif count < 65536:
            front = struct.pack("!BBH", 0x81, 0xFE, count)
        else:
            front = struct.pack("!BBQ", 0x81, 0xFF, count)
        # a mask of zeros leaves the text as it is
        self.socket.sendall(front + bytes(4) + text)

    def take(self):
        front = self.stream.read(2)
        count = front[1]
        if count == 126:
            (count,) = struct.unpack("!H", self.stream.read(2))
        elif count == 127:
            (count,) = struct.unpack("!Q", self.stream.read(8))
        return self.stream.read(count)


def free_port():
    with socket.create_server(("127.0.0.1", 0)) as free:
        return free.getsockname()[1]


def peak(server):
    """The peak memory of a process, in bytes."""
    with open(f"/proc/{server.pid}/status", encoding="ascii") as lines:
        return next(int(line.split()[1]) * 1024 for line in lines if line.startswith("VmHWM"))


class Served:
    """A server, and a peer of this kind."""

    def __init__(self, program, kind):
        port = free_port()
        command, *more = kind.words
        words = [program, command, "--config", CONFIGURATION, "--port", str(port), *more]
        self.server = subprocess.Popen(words, stderr=subprocess.DEVNULL, env=service_environment())
        self.peer = kind(port)

    def __enter__(self):
        return self

    def __exit__(self, *_):
        self.peer.end()
        self.server.kill()
        self.server.wait()


def seconds_of(peer, text):
    begun = time.perf_counter()
    reply = peer.exchange(text)
    taken = time.perf_counter() - begun
    return taken, reply


def echoes(program, kind, count):
    """The median microseconds of an echo, over so many."""
    text = request(ECHO, **kind.marks)
    with Served(program, kind) as served:
        taken = []
        for _ in range(count):
            seconds, reply = seconds_of(served.peer, text)
            if json.loads(reply)["methodResponses"][0][1] != ECHO:
                sys.exit("another answer")
            taken.append(seconds)
        return statistics.median(taken) * 1e6


def long_text(program, kind, rounds):
    """The least seconds of an echo of 9 MB."""
    words = {"words": ["Grüezi, this is a meeting of the whole team"] * 190_000}
    text = json.dumps({**kind.marks, "using": [CORE], "methodCalls": [["Core/echo", words, "c"]]}, ensure_ascii=False).encode()
    with Served(program, kind) as served:
        times = []
        for _ in range(rounds):
            seconds, reply = seconds_of(served.peer, text)
            if json.loads(reply)["methodResponses"][0][1] != words:
                sys.exit("another answer")
            times.append(seconds)
        return min(times), len(text)


def memory_beside_the_tree(program, kind):
    """Bytes of memory for each byte of a text of 9 MB that is no JSON, so that no tree is made of it."""
    text = b"?" * 9_000_000
    with Served(program, kind) as served:
        served.peer.exchange(request(ECHO, **kind.marks))
        before = peak(served.server)
        served.peer.exchange(text)
        return (peak(served.server) - before) / len(text)


def used(server):
    """The seconds of processor that a process has used."""
    with open(f"/proc/{server.pid}/stat", encoding="ascii") as line:
        fields = line.read().rpartition(")")[2].split()
    return (int(fields[11]) + int(fields[12])) / os.sysconf("SC_CLK_TCK")


def resident(server):
    """The memory that a process has now, in bytes."""
    with open(f"/proc/{server.pid}/status", encoding="ascii") as lines:
        return next(int(line.split()[1]) * 1024 for line in lines if line.startswith("VmRSS"))


def watching(port):
    """A socket of a user of one account that is told of changes, and was told the states at the switch."""
    peer = SocketPeer(port, "t-bob")
    peer.send(b'{"@type":"WebSocketPushEnable","dataTypes":null}')
    peer.take()
    return peer


def until_told(writer, peers, count):
    """The seconds until a change came to all of so many sockets."""
    change = {"accountId": "A2", "create": {"k": {"name": "Work"}}}
    using = [CORE, "urn:ietf:params:jmap:calendars"]
    begun = time.perf_counter()
    writer.exchange(json.dumps({"@type": "Request", "using": using, "methodCalls": [["Calendar/set", change, "s"]]}).encode())
    for peer in peers[:count]:
        peer.take()
    return time.perf_counter() - begun


def idle(program, count, seconds=20):
    """What so many idle sockets take that are told of changes: memory and the part of a processor; and how soon 100 of them are told of one. None where the program serves one socket at a time."""
    port = free_port()
    words = [program, "listen", "--config", CONFIGURATION, "--port", str(free_port()), "--sockets-port", str(port), "--socket-workers", str(count + 1)]
    with subprocess.Popen(words, stderr=subprocess.DEVNULL, stdout=subprocess.DEVNULL, env=service_environment()) as server:
        try:
            server.wait(timeout=1)
            return None
        except subprocess.TimeoutExpired:
            pass
        try:
            peers = [watching(port) for _ in range(count)]
            writer = SocketPeer(port)
            before, memory = used(server), resident(server)
            time.sleep(seconds)
            part = (used(server) - before) / seconds
            return memory, part, until_told(writer, peers, 100)
        finally:
            server.kill()


def main():
    words = argparse.ArgumentParser(description=__doc__)
    words.add_argument("program", nargs="?", default="crates/jmapd/out/jmapd")
    words.add_argument("--rounds", type=int, default=5)
    words.add_argument("--echoes", type=int, default=3000)
    words.add_argument("--sockets", type=int, default=200)
    asked = words.parse_args()
    kinds = {"HTTP": HttpPeer, "WebSocket": SocketPeer}
    short = {name: min(echoes(asked.program, kind, asked.echoes) for _ in range(asked.rounds)) for name, kind in kinds.items()}
    long = {name: long_text(asked.program, kind, asked.rounds) for name, kind in kinds.items()}
    memory = {name: memory_beside_the_tree(asked.program, kind) for name, kind in kinds.items()}
    print(f"{'':12}{'echo, µs':>12}{'9 MB, s':>12}{'bytes':>12}{'memory a byte beside the tree':>32}")
    for name in kinds:
        print(f"{name:12}{short[name]:12.1f}{long[name][0]:12.3f}{long[name][1]:12,}{memory[name]:32.1f}")
    print(f"ratios: an echo {short['WebSocket'] / short['HTTP']:.2f} (goal 1.2), a text of 9 MB {long['WebSocket'][0] / long['HTTP'][0]:.2f} (goal 1.5); memory {memory['WebSocket']:.1f} (goal 5)")
    found = idle(asked.program, asked.sockets)
    if found is None:
        print("idle sockets: not measured, since the program serves one at a time")
    else:
        print(f"{asked.sockets} idle sockets: {found[0] / 1e6:.0f} MB (goal 100), {found[1]:.2%} of a processor (goal 2 %); a change at 100 sockets in {found[2]:.2f} s (goal 1)")


if __name__ == "__main__":
    main()
