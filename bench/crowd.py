#!/usr/bin/env python3
"""Times an ordinary client of `jmapd listen` beside crowds of peers that hold their connections; README.md tells what it prints."""

import argparse
import contextlib
import json
import resource
import selectors
import socket
import statistics
import subprocess
import sys
import threading
import time

CONFIGURATION = "examples/site.json"
TOKEN = "t-ann"
CORE = "urn:ietf:params:jmap:core"
HALF_A_HEAD = b"POST /jmap HTTP/1.1\r\nHost: localhost\r\n"
# What slow takers ask for, and how many bytes a second each of them takes.
LONG = 4_000_000
TAKEN_A_SECOND = 20_000
MOST_SECONDS, MEDIAN_SECONDS = 2.0, 0.005
IDLE_MEGABYTES = 64


def message(arguments, close=False):
    body = json.dumps({"using": [CORE], "methodCalls": [["Core/echo", arguments, "c"]]}, separators=(",", ":")).encode()
    ending = "Connection: close\r\n" if close else ""
    head = f"POST /jmap HTTP/1.1\r\nHost: localhost\r\nAuthorization: Bearer {TOKEN}\r\n{ending}Content-Length: {len(body)}\r\n\r\n"
    return head.encode() + body


def joined(port, seconds=70):
    return socket.create_connection(("127.0.0.1", port), timeout=seconds)


def answered(peer):
    """Whether the next answer is one of success, read whole."""
    stream = peer.makefile("rb")
    status = stream.readline()
    length = 0
    while (line := stream.readline()) not in (b"\r\n", b""):
        if line.lower().startswith(b"content-length:"):
            length = int(line.split(b":")[1])
    return status.startswith(b"HTTP/1.1 200") and len(stream.read(length)) == length


class Server:
    """A `jmapd listen` of its own, or another program with the same words that stand behind `--`."""

    def __init__(self, program, workers):
        with socket.create_server(("127.0.0.1", 0)) as free:
            self.port = free.getsockname()[1]
        words = [program, "listen", "--config", CONFIGURATION, "--port", str(self.port), "--workers", str(workers)]
        self.process = subprocess.Popen(words, stderr=subprocess.DEVNULL)
        until = time.monotonic() + 10
        while True:
            try:
                with joined(self.port) as peer:
                    peer.sendall(message({"a": 1}))
                    if not answered(peer):
                        sys.exit("jmapd answers otherwise")
                return
            except ConnectionRefusedError:
                if time.monotonic() > until:
                    sys.exit("jmapd doesn't listen")
                time.sleep(0.01)

    def __enter__(self):
        return self

    def __exit__(self, *_):
        self.process.terminate()
        self.process.wait()

    def megabytes(self):
        """What the process has in memory now."""
        with open(f"/proc/{self.process.pid}/status") as status:
            return next(int(line.split()[1]) for line in status if line.startswith("VmRSS")) / 1000


class Crowd:
    """Peers that hold their connections, each in its way; one that is closed comes again. A thread of its own serves them all."""

    def __init__(self, port, idle=0, half=0, slow=0, kept=0):
        self.port = port
        self.selector = selectors.DefaultSelector()
        self.ways = {}
        self.came_again = 0
        self.stopped = threading.Event()
        for way, count in (("idle", idle), ("half", half), ("slow", slow), ("kept", kept)):
            for _ in range(count):
                self.come(way)
        self.thread = threading.Thread(target=self.run)
        self.thread.start()

    def come(self, way):
        peer = socket.socket()
        if way == "slow":
            peer.setsockopt(socket.SOL_SOCKET, socket.SO_RCVBUF, 4096)
        peer.settimeout(60)
        peer.connect(("127.0.0.1", self.port))
        if way == "half":
            peer.sendall(HALF_A_HEAD)
        elif way == "slow":
            peer.sendall(message({"x": "x" * LONG}))
            peer.recv(1)
        elif way == "kept":
            peer.sendall(message({"a": 1}))
        peer.setblocking(False)
        self.ways[peer] = way
        if way != "slow":
            self.selector.register(peer, selectors.EVENT_READ)

    def go(self, peer):
        if peer not in self.ways:
            return
        way = self.ways.pop(peer)
        if way != "slow":
            self.selector.unregister(peer)
        peer.close()
        if not self.stopped.is_set():
            self.came_again += 1
            with contextlib.suppress(OSError):
                self.come(way)

    def take(self, peer, most):
        try:
            if not peer.recv(most):
                self.go(peer)
        except BlockingIOError:
            pass
        except OSError:
            self.go(peer)

    def run(self):
        last = time.monotonic()
        while not self.stopped.is_set():
            for key, _ in self.selector.select(0.05):
                self.take(key.fileobj, 65536)
            now = time.monotonic()
            if now - last >= 0.1:
                for peer in [peer for peer, way in self.ways.items() if way == "slow"]:
                    self.take(peer, int(TAKEN_A_SECOND * (now - last)))
                last = now

    def __enter__(self):
        return self

    def __exit__(self, *_):
        self.stopped.set()
        self.thread.join()
        for peer in list(self.ways):
            self.go(peer)


def requests(port, count):
    """The seconds of each of so many requests, each on a connection of its own."""
    taken = []
    text = message({"a": 1}, close=True)
    for _ in range(count):
        begun = time.perf_counter()
        with joined(port) as peer:
            peer.setsockopt(socket.IPPROTO_TCP, socket.TCP_NODELAY, 1)
            peer.sendall(text)
            if not answered(peer):
                sys.exit("a client got another answer")
        taken.append(time.perf_counter() - begun)
    return taken


def tell(name, taken, bad, crowd=None):
    most, median = max(taken), statistics.median(taken)
    again = f", of the crowd {crowd.came_again} came again" if crowd else ""
    print(f"{name}: {len(taken)} requests, median {median * 1000:.2f} ms, most {most * 1000:.1f} ms{again}", flush=True)
    if most > MOST_SECONDS or median > MEDIAN_SECONDS:
        bad.append(name)


def slow_body(port):
    """Whether a peer is answered that sends a body of 100 KB at 2 KB a second."""
    text = message({"x": "x" * 100_000})
    with joined(port, 90) as peer:
        head = text.index(b"\r\n\r\n") + 4
        peer.sendall(text[:head])
        for at in range(head, len(text), 400):
            peer.sendall(text[at : at + 400])
            time.sleep(0.2)
        return answered(peer)


def beside_crowds(program, count, bad):
    crowds = {
        "alone": {},
        "beside 64 idle, 64 with half a head and 16 slow takers": {"idle": 64, "half": 64, "slow": 16},
        "beside 1,000 idle": {"idle": 1000},
        "beside 64 that keep their connections": {"kept": 64},
    }
    for name, crowd in crowds.items():
        with Server(program, 4) as server, Crowd(server.port, **crowd) as peers:
            time.sleep(0.5 if crowd else 0)
            tell(name, requests(server.port, count), bad, peers)


def idle_workers(program, bad):
    with Server(program, 255) as server:
        requests(server.port, 1000)
        taken = server.megabytes()
    print(f"255 idle workers: {taken:.0f} MB")
    if taken > IDLE_MEGABYTES:
        bad.append("the memory of idle workers")


def main():
    parser = argparse.ArgumentParser(description=__doc__)
    parser.add_argument("program", nargs="?", default="crates/jmapd/out/jmapd")
    parser.add_argument("--requests", type=int, default=1000)
    parser.add_argument("--without-slow-body", action="store_true", help="leaves out the peer that sends for 50 seconds")
    asked = parser.parse_args()
    most = resource.getrlimit(resource.RLIMIT_NOFILE)[1]
    resource.setrlimit(resource.RLIMIT_NOFILE, (min(most, 4096), most))
    bad = []
    beside_crowds(asked.program, asked.requests, bad)
    idle_workers(asked.program, bad)
    if not asked.without_slow_body:
        with Server(asked.program, 4) as server:
            if slow_body(server.port):
                print("a body of 100 KB at 2 KB a second: answered")
            else:
                bad.append("a slow body")
    print(f"missed: {', '.join(bad)}" if bad else "all goals are met")


if __name__ == "__main__":
    main()
