#!/usr/bin/env python3
"""Shows that a request that wants more memory than there is ends its own connection alone.

`jmapd listen` with four workers runs with a limit of its addresses (`ulimit -v`, as `LimitAS` of the systemd unit sets it). Three peers, one behind the other, send echoes of 10 MB of small
objects, which take more memory than the limit leaves. Beside them an ordinary client makes small requests, each of which is to be answered.

    examples/short_of_memory.py [PATH_OF_THE_PROGRAM] [--kilobytes N] [--seconds N]
"""

import argparse
import resource
import subprocess
import sys
import threading
import time

from peers import CONFIGURATION, CORE, answer, free_port, is_answered, joined

SMALL = '{"a":1},'


def heavy():
    """A request of a little less than 10,000,000 bytes that is one list of small objects."""
    before = '{"using":["' + CORE + '"],"methodCalls":[["Core/echo",{"list":['
    behind = '{"a":1}]},"c"]]}'
    body = before + SMALL * ((9_999_000 - len(before) - len(behind)) // len(SMALL)) + behind
    head = f"POST /jmap HTTP/1.1\r\nHost: localhost\r\nAuthorization: Bearer t-ann\r\nContent-Length: {len(body)}\r\n\r\n"
    return (head + body).encode()


class Counts:
    def __init__(self):
        self.answered = 0
        self.ended = 0


def send_heavy(port, text, until, counts):
    while time.monotonic() < until:
        try:
            with joined(port) as peer:
                peer.settimeout(120)
                peer.sendall(text)
                status, _ = answer(peer.makefile("rb"))
        except ConnectionError:
            status = ""
        if status == "HTTP/1.1 200 OK":
            counts.answered += 1
        else:
            counts.ended += 1


def main():
    words = argparse.ArgumentParser(description=__doc__, formatter_class=argparse.RawDescriptionHelpFormatter)
    words.add_argument("program", nargs="?", default="crates/jmapd/out/jmapd")
    words.add_argument("--kilobytes", type=int, default=600_000)
    words.add_argument("--seconds", type=int, default=20)
    chosen = words.parse_args()
    port = free_port()
    most = chosen.kilobytes * 1024
    server = subprocess.Popen(
        [chosen.program, "listen", "--config", CONFIGURATION, "--port", str(port), "--workers", "4"],
        preexec_fn=lambda: resource.setrlimit(resource.RLIMIT_AS, (most, most)),
    )
    counts = Counts()
    asked = missed = 0
    try:
        is_answered(port)
        until = time.monotonic() + chosen.seconds
        text = heavy()
        peers = [threading.Thread(target=send_heavy, args=(port, text, until, counts)) for _ in range(3)]
        for peer in peers:
            peer.start()
        while time.monotonic() < until:
            asked += 1
            try:
                missed += not is_answered(port, 120)
            except OSError:
                missed += 1
            time.sleep(0.01)
        for peer in peers:
            peer.join()
        is_alive = server.poll() is None and is_answered(port)
    finally:
        server.terminate()
        server.wait()
    print(f"large requests: {counts.answered} answered, {counts.ended} ended out of memory; of {asked} small ones {missed} not answered")
    if not is_alive or missed or not counts.ended:
        sys.exit("examples/short_of_memory.py: not so" if is_alive else "examples/short_of_memory.py: the server ended")


if __name__ == "__main__":
    main()
