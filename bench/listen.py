#!/usr/bin/env python3
"""Times `jmapd listen` under clients that keep their connections, and under many connections; README.md tells what it prints."""

import argparse
import json
import multiprocessing
import os
import re
import shutil
import signal
import socket
import subprocess
import sys
import tempfile
import time

CONFIGURATION = "examples/site.json"
TOKEN = "t-ann"
ECHO = {"title": "Meeting", "start": "2026-11-27T09:00:00", "duration": "PT1H", "participants": {"p1": {"name": "Chloe"}}}
# What is sent before a client looks for answers, so that the clients' own work decides less.
AT_ONCE = 50
# A connection may have 10,000 messages.
MAX_MESSAGES = 10_000
CORE = "urn:ietf:params:jmap:core"
CALENDARS = "urn:ietf:params:jmap:calendars"


def message(name, arguments):
    body = json.dumps({"using": [CORE, CALENDARS], "methodCalls": [[name, arguments, "c"]]}, separators=(",", ":")).encode()
    head = f"POST /jmap HTTP/1.1\r\nHost: localhost\r\nAuthorization: Bearer {TOKEN}\r\nContent-Length: {len(body)}\r\n\r\n"
    return head.encode() + body


class Peer:
    """A kept connection."""

    def __init__(self, port):
        self.socket = socket.create_connection(("127.0.0.1", port), timeout=60)
        self.socket.setsockopt(socket.IPPROTO_TCP, socket.TCP_NODELAY, 1)
        self.stream = self.socket.makefile("rb")

    def send(self, text, times=1):
        self.socket.sendall(text * times)

    def answer(self):
        """The body of the next answer."""
        status = self.stream.readline()
        if not status.startswith(b"HTTP/1.1 200"):
            sys.exit(f"answered {status!r}")
        length = 0
        while (line := self.stream.readline()) != b"\r\n":
            if line.lower().startswith(b"content-length:"):
                length = int(line.split(b":")[1])
        return self.stream.read(length)

    def close(self):
        self.stream.close()
        self.socket.close()


class Server:
    """A `jmapd listen` of its own, from its start to its first answer."""

    def __init__(self, program, workers, connections=1_000_000):
        with socket.create_server(("127.0.0.1", 0)) as free:
            self.port = free.getsockname()[1]
        words = [program, "listen", "--config", CONFIGURATION, "--port", str(self.port), "--workers", str(workers), "--connections", str(connections)]
        begun = time.perf_counter()
        self.process = subprocess.Popen(words)
        while True:
            try:
                peer = Peer(self.port)
                break
            except ConnectionRefusedError:
                if time.perf_counter() > begun + 10:
                    sys.exit("jmapd doesn't listen")
        peer.send(message("Core/echo", ECHO))
        peer.answer()
        self.first_answer = time.perf_counter() - begun
        peer.close()

    def seconds(self):
        """Seconds of processor so far."""
        with open(f"/proc/{self.process.pid}/stat") as stat:
            fields = stat.read().rsplit(")", 1)[1].split()
        return (int(fields[11]) + int(fields[12])) / os.sysconf("SC_CLK_TCK")

    def memory(self):
        """Kilobytes that it has in memory."""
        with open(f"/proc/{self.process.pid}/status") as status:
            return next(int(line.split()[1]) for line in status if line.startswith("VmRSS"))

    def stop(self):
        self.process.send_signal(signal.SIGTERM)
        self.process.wait()


def client(port, text, count, start):
    """Sends so many messages on kept connections, some at once, and takes each answer."""
    start.wait()
    left = count
    while left > 0:
        peer = Peer(port)
        on_this = min(left, MAX_MESSAGES - AT_ONCE)
        left -= on_this
        while on_this > 0:
            now = min(AT_ONCE, on_this)
            peer.send(text, now)
            for _ in range(now):
                peer.answer()
            on_this -= now
        peer.close()


def under_load(server, texts, clients, count):
    """Requests a second, and microseconds of the server's processor a request."""
    start = multiprocessing.Barrier(clients + 1)
    peers = [multiprocessing.Process(target=client, args=(server.port, texts[n % len(texts)], count, start)) for n in range(clients)]
    for peer in peers:
        peer.start()
    before = server.seconds()
    start.wait()
    begun = time.perf_counter()
    for peer in peers:
        peer.join()
        if peer.exitcode:
            sys.exit("a client failed")
    took = time.perf_counter() - begun
    return clients * count / took, (server.seconds() - before) / (clients * count) * 1e6


def echoes(program, count):
    print("clients  requests a second  microseconds of processor a request")
    for clients in (1, 4, 16):
        server = Server(program, 16)
        rate, each = under_load(server, [message("Core/echo", ECHO)], clients, count)
        server.stop()
        print(f"{clients:7}  {rate:17.0f}  {each:35.1f}")


def load(port, account, clients, count):
    """Starts `ab`, which gets the calendars of an account so many times over kept connections."""
    with open(os.path.join(tempfile.gettempdir(), f"get_{account}_{os.getpid()}.json"), "wb") as body:
        body.write(message("Calendar/get", {"accountId": account, "ids": None}).split(b"\r\n\r\n", 1)[1])
    words = ["ab", "-q", "-k", "-n", str(count), "-c", str(clients), "-p", body.name, "-T", "application/json", "-H", f"Authorization: Bearer {TOKEN}"]
    return subprocess.Popen([*words, f"http://127.0.0.1:{port}/jmap"], stdout=subprocess.PIPE, text=True), body.name


def finished(started):
    """Waits for an `ab`, none of whose requests may have failed."""
    process, body = started
    told = process.communicate()[0]
    os.remove(body)
    if process.returncode or not re.search(r"Failed requests: +0\n", told) or "Non-2xx" in told:
        sys.exit(f"ab failed: {told}")


def two_accounts(program, count):
    """Four clients of two accounts before four workers, and one client before one worker, on the first and then on the second account."""
    if not shutil.which("ab"):
        print("two accounts: skipped, since ab isn't here")
        return
    fill = [message("Calendar/set", {"accountId": account, "create": {f"c{n}": {"name": f"Calendar {n}"} for n in range(100)}}) for account in ("A1", "A2")]
    rates = {}
    for workers in (1, 4):
        server = Server(program, workers)
        for text in fill:
            peer = Peer(server.port)
            peer.send(text)
            peer.answer()
            peer.close()
        begun = time.perf_counter()
        if workers == 1:
            for account in ("A1", "A2"):
                finished(load(server.port, account, 1, count))
        else:
            for started in [load(server.port, account, 2, count) for account in ("A1", "A2")]:
                finished(started)
        rates[workers] = 2 * count / (time.perf_counter() - begun)
        server.stop()
        print(f"gets of 100 calendars on two accounts, {workers} workers: {rates[workers]:.0f} a second")
    print(f"four workers: {rates[4] / rates[1]:.2f} times as many as one")


def connections(program, count):
    server = Server(program, 4)
    text = message("Core/echo", ECHO)
    for number in range(count):
        peer = Peer(server.port)
        peer.send(text)
        peer.answer()
        peer.close()
        if number + 1 in (count // 10, count // 2, count):
            print(f"after {number + 1} connections: {server.memory()} KB")
    server.stop()


def starts(program, rounds):
    times = []
    for _ in range(rounds):
        server = Server(program, 4)
        times.append(server.first_answer)
        server.stop()
    print(f"from the start to the first answer: {min(times) * 1e3:.1f} ms at least, {max(times) * 1e3:.1f} ms at most")


def main():
    words = argparse.ArgumentParser(description=__doc__)
    words.add_argument("program", nargs="?", default="crates/jmapd/out/jmapd")
    words.add_argument("--count", type=int, default=20_000, help="requests of a client")
    words.add_argument("--connections", type=int, default=10_000)
    words.add_argument("--rounds", type=int, default=20)
    chosen = words.parse_args()
    starts(chosen.program, chosen.rounds)
    echoes(chosen.program, chosen.count)
    two_accounts(chosen.program, chosen.count)
    connections(chosen.program, chosen.connections)


if __name__ == "__main__":
    main()
