#!/usr/bin/env python3
"""Tells what one request of a hostile user costs `jmapd stdio`, each on an account that is filled for it; README.md tells what it prints."""

import argparse
import re
import resource
import sys
import tempfile
import threading

from availability import USING
from calendars import Connection
from connections import CONFIGURATION, TOKEN, next_length
from hostile_requests import HOSTILE, site
from measure import compact

MEMORY = 4 << 30  # as examples/jmapd.service sets it
NOISE = 0.03  # seconds that a comparison of two times leaves out
END = 100_000  # bytes of the response that are looked at, at either end


class Guarded(Connection):
    """A connection whose program gets no more memory than in production."""

    def __init__(self, binary, configuration):
        super().__init__(binary, configuration)
        resource.prlimit(self.program.pid, resource.RLIMIT_AS, (MEMORY, MEMORY))

    def forget_peak(self):
        """From now on the peak is that of what is held from now on (Linux)."""
        with open(f"/proc/{self.program.pid}/clear_refs", "w", encoding="ascii") as file:
            file.write("5")

    def peak(self):
        """The most bytes of memory that the program has held (Linux), None where it has ended."""
        with open(f"/proc/{self.program.pid}/status", encoding="ascii") as file:
            found = re.search(r"VmHWM:\s+(\d+) kB", file.read())
        return found and 1024 * int(found[1])

    def read_ends(self, length):
        """The two ends of a body of so many bytes, None where it breaks off."""
        first, last = self.program.stdout.read(min(length, END)), b""
        left = length - len(first)
        while left > 0:
            piece = self.program.stdout.read(min(left, 1 << 20))
            if not piece:
                return None
            left -= len(piece)
            last = (last + piece)[-END:]
        return first + last if len(first) == min(length, END) else None

    def answer(self, body):
        """The two ends of the response to a request, None where none comes."""
        head = f"POST /jmap HTTP/1.1\r\nHost: localhost\r\nAuthorization: Bearer {TOKEN}\r\nContent-Length: {len(body)}\r\n\r\n"
        try:
            self.write(head.encode() + body, 1)
        except BrokenPipeError:
            return None
        length = next_length(self.program.stdout)
        return None if length is None else self.read_ends(length)

    def end(self):
        self.program.kill()
        self.program.communicate()


class Watch(threading.Thread):
    """Looks at what a program has taken, again and again, and ends it behind so many seconds of processor."""

    def __init__(self, connection, most):
        super().__init__(daemon=True)
        self.connection = connection
        connection.forget_peak()
        self.held = self.most_held = connection.peak()
        self.before = self.last = connection.milliseconds()
        self.most = self.before + 1_000 * most
        self.is_over = threading.Event()
        self.start()

    def look(self):
        self.last = max(self.last, self.connection.milliseconds())
        self.most_held = max(self.most_held, self.connection.peak() or 0)

    def run(self):
        while not self.is_over.wait(0.05):
            self.look()
            if self.last > self.most:
                self.connection.program.kill()
                return

    def stop(self):
        """The seconds of processor, the bytes that were held before, and the most that were held."""
        self.is_over.set()
        self.join()
        self.look()
        return (self.last - self.before) / 1_000, self.held, self.most_held


def body_of(row):
    made = row.calls()
    if isinstance(made, str):
        return made.encode()
    calls = [[*call, f"c{number}"] for number, call in enumerate(made)]
    created = row.created()
    return compact({"using": USING, "methodCalls": calls} | ({"createdIds": created} if created else {}))


def told(row, ends):
    """What came, in a word, and whether it is what may come."""
    if ends is None:
        return "nothing", False
    error = re.search(rb'\["error",\{"type":"(\w+)"', ends) or re.search(rb'"type":"urn:ietf:params:jmap:error:(\w+)"', ends)
    if error:
        name = error[1].decode()
        return name, name == row.error if row.error else row.may_refuse
    return ("answer", True) if row.wanted in ends and not row.error else ("otherwise", False)


def spent(binary, row, most):
    """The bytes of the request, the seconds that it took, the memory before and at most, and what came."""
    with tempfile.NamedTemporaryFile("wb", suffix=".json") as configuration:
        if row.zones:
            configuration.write(compact(site(row.zones)))
            configuration.flush()
        connection = Guarded(binary, configuration.name if row.zones else CONFIGURATION)
        try:
            row.fill(connection)
            body = body_of(row)
            watch = Watch(connection, most)
            ends = connection.answer(body)
            seconds, held, peak = watch.stop()
        except (BrokenPipeError, TypeError, ValueError):
            return 0, 0.0, 0, 0, "no account", False
        finally:
            connection.end()
    return len(body), seconds, held, peak, *told(row, ends)


def show(row, length, seconds, held, peak, came, most, is_met):
    figures = f"{length / 1e6:9.3f} {seconds:8.3f} {peak / 1e6:7.0f} {(peak - held) / 1e6:7.0f}"
    goals = f"{most:.2f} s, {row.megabytes} MB"
    print(f"{row.name:48} {figures}  {came:14} {goals:14} {'met' if is_met else 'missed'}", flush=True)


def options():
    parser = argparse.ArgumentParser(description=__doc__)
    parser.add_argument("binary", nargs="?", default="crates/jmapd/out/jmapd")
    parser.add_argument("--rounds", type=int, default=1)
    parser.add_argument("--only", default="", help="the rows whose names have this text")
    parser.add_argument("--most", type=float, default=60, help="the seconds of processor behind which a request is given up")
    return parser.parse_args()


def main():
    chosen = options()
    taken, missed = {}, []
    print(f"{'request':48} {'MB sent':>9} {'seconds':>8} {'MB most':>7} {'MB more':>7}  {'what came':14} {'goal':14}")
    for row in HOSTILE:
        if chosen.only not in row.name:
            continue
        rounds = [spent(chosen.binary, row, chosen.most) for _ in range(chosen.rounds)]
        length, seconds, held, peak, came, is_right = min(rounds, key=lambda round: round[1])
        taken[row.name] = seconds
        most = min(row.seconds, 2 * taken.get(row.beside, row.seconds) + NOISE)
        is_met = is_right and seconds <= most and peak - held <= 1e6 * row.megabytes
        show(row, length, seconds, held, peak, came, most, is_met)
        missed += [] if is_met else [row.name]
    print("all goals are met" if not missed else f"{len(missed)} of {len(taken)} missed: " + "; ".join(missed))
    sys.exit(1 if missed else 0)


if __name__ == "__main__":
    main()
