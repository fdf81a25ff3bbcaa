#!/usr/bin/env python3
"""Reads what `jmapd listen` tells an operator on standard error, and has it serve while nobody reads.

It tells where it listens. With --log each request has a line with its time, user, status, methods, bytes and microseconds, and nothing of what it asks or is told; without it none has. A
standard error that is closed, or full and never read, holds up nobody; what is dropped meanwhile is counted, and told once somebody reads.

    examples/standard_error.py [PATH_OF_THE_PROGRAM]
"""

import contextlib
import fcntl
import os
import re
import subprocess
import sys
import time

from peers import CONFIGURATION, answer, free_port, is_answered, joined, message

UNKEPT = "jmapd: nothing is kept: no --journals"
LINE = re.compile(r"\d{4}-\d\d-\d\dT\d\d:\d\d:\d\dZ (?P<user>\S+) (?P<status>\d{3}) (?P<names>\S+) (?P<taken>\d+) (?P<given>\d+) \d+")
DROPPED = re.compile(r"jmapd: (\d+) lines were dropped")
# More than a pipe and the program's own queue have room for.
MANY = 12_000


def posted(body, token="t-ann", path="/jmap"):
    shown = f"Authorization: Bearer {token}\r\n" if token else ""
    return f"POST {path} HTTP/1.1\r\nHost: localhost\r\n{shown}Content-Length: {len(body)}\r\n\r\n{body}".encode()


def calls(*methods):
    invocations = ",".join(f'["{method}",{arguments},"c"]' for method, arguments in methods)
    return f'{{"using":["urn:ietf:params:jmap:core","urn:ietf:params:jmap:calendars"],"methodCalls":[{invocations}]}}'


ECHOED = calls(("Core/echo", '{"secret":"word"}'))
TWO = calls(("Calendar/get", '{"accountId":"A2"}'), ("Nothing/get", "{}"))
# A request, and the user, the status, the methods and the bytes of its content that its line tells.
TOLD = [
    (posted(ECHOED), ("ann", "200", "Core/echo", len(ECHOED))),
    (posted(TWO, token="t-bob"), ("bob", "200", "Calendar/get,error:unknownMethod", len(TWO))),
    (posted("{", token="t-ann"), ("ann", "400", "-", 1)),
    (posted(ECHOED, token=None), ("-", "401", "-", len(ECHOED))),
    (posted("", path="/other"), ("ann", "404", "-", 0)),
    (b"GET /.well-known/jmap HTTP/1.1\r\nAuthorization: Bearer t-ann\r\n\r\n", ("ann", "200", "-", 0)),
    (b"no head\r\n\r\n", ("-", "400", "-", 0)),
]


@contextlib.contextmanager
def serving(program, *words):
    """A server with four workers, the end of its standard error that is read, and its port."""
    port = free_port()
    read, write = os.pipe()
    fcntl.fcntl(write, fcntl.F_SETPIPE_SZ, 4096)
    server = subprocess.Popen([program, "listen", "--config", CONFIGURATION, "--port", str(port), "--workers", "4", *words], stderr=write)
    os.close(write)
    with open(read, "rb", buffering=0) as told:
        try:
            with joined(port):
                pass
            yield told, port, server
        finally:
            server.kill()
            server.wait()


def given_to(port, text):
    """How many bytes the answer to a message has."""
    with joined(port) as peer:
        peer.sendall(text)
        stream = peer.makefile("rb")
        counted = 0
        length = 0
        while (line := stream.readline()) not in (b"\r\n", b""):
            counted += len(line)
            if line.lower().startswith(b"content-length:"):
                length = int(line.split(b":")[1])
        return counted + 2 + len(stream.read(length))


def lines_of(told, enough, seconds=10):
    """The lines that come until there are enough of them, or time is over."""
    os.set_blocking(told.fileno(), False)
    text = b""
    until = time.monotonic() + seconds
    while not enough(text) and time.monotonic() < until:
        came = told.read(65536)
        if came is None:
            time.sleep(0.01)
        elif not came:
            break
        else:
            text += came
    return text.decode().splitlines()


def many_requests(port):
    """Whether all of many requests are answered, on few connections, and the longest time that one took."""
    longest = 0
    for _ in range(MANY // 1000):
        with joined(port) as peer:
            stream = peer.makefile("rb")
            for _ in range(1000):
                begun = time.monotonic()
                peer.sendall(message({"a": 1}))
                if answer(stream)[0] != "HTTP/1.1 200 OK":
                    return False, longest
                longest = max(longest, time.monotonic() - begun)
    return True, longest


def lines_are_told(program):
    with serving(program, "--log") as (told, port, _):
        given = [given_to(port, text) for text, _ in TOLD]
        first, second, *lines = lines_of(told, lambda text: text.count(b"\n") >= 2 + len(TOLD))
    yield "the first line", first == UNKEPT
    yield "the line on who serves", second == f"listening on 127.0.0.1:{port}, 4 workers, 2 accounts"
    yield "one line a request", len(lines) == len(TOLD)
    for line, size, (_, (user, status, names, taken)) in zip(lines, given, TOLD):
        found = LINE.fullmatch(line)
        wanted = {"user": user, "status": status, "names": names, "taken": str(taken), "given": str(size)}
        yield line, found and found.groupdict() == wanted


def few_lines_without_a_log(program):
    with serving(program) as (told, port, _):
        answered = is_answered(port)
        time.sleep(0.3)
        lines = lines_of(told, lambda text: False, 0.3)
    yield "without --log", answered and lines == [UNKEPT, f"listening on 127.0.0.1:{port}, 4 workers, 2 accounts"]


def nobody_reads(program):
    with serving(program, "--log") as (told, port, server):
        told.close()
        good, longest = many_requests(port)
        yield f"a closed standard error, {longest:.3f} s", good and longest < 1 and server.poll() is None


def nobody_reads_in_time(program):
    with serving(program, "--log") as (told, port, _):
        good, longest = many_requests(port)
        yield f"a full standard error, {longest:.3f} s", good and longest < 1
        lines = lines_of(told, lambda text: DROPPED.search(text.decode()))
        dropped = sum(int(found[1]) for line in lines if (found := DROPPED.fullmatch(line)))
        came = sum(1 for line in lines if LINE.fullmatch(line))
        yield f"{came} lines and {dropped} dropped ones of {MANY}", dropped > 0 and came + dropped == MANY


def main():
    program = sys.argv[1] if sys.argv[1:] else "crates/jmapd/out/jmapd"
    bad = [what for case in (lines_are_told, few_lines_without_a_log, nobody_reads, nobody_reads_in_time) for what, good in case(program) if not good]
    for what in bad:
        print(f"examples/standard_error.py: {what}")
    if not bad:
        print("examples/standard_error.py: each line was told, and nobody waited for who reads them")
    sys.exit(1 if bad else 0)


if __name__ == "__main__":
    main()
