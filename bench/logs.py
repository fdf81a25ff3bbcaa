#!/usr/bin/env python3
"""Times calls of logs of objects behind a short and a long history; README.md tells what it prints.

With --gate it holds one thing alone, and ends with 1 where it isn't so: a change, and a look at what there is, cost the same however many changes there were. Each may take at most so many times after
a long history what it takes after a short one, in the same run, by turns, and by the least of them: what a loaded machine adds falls away."""

import argparse
import os
import subprocess
import sys

SHORT, LONG = 5_000, 200_000
BACK, IDS = 4_096, 500
# What is asked, of how many ids, how many states back, at most how many ids of a page, and the most nanoseconds that are wanted.
CALLS = (
    ("get", IDS, 0, "none", 200),
    ("get", None, 0, "none", 500),
    ("get_at", IDS, 16, "none", 1_000),
    ("get_at", IDS, BACK, "none", 10_000),
    ("put", IDS, 0, "none", 1_000),
    ("put", None, 0, "none", 1_000),
    ("live", IDS, 0, "none", None),
    ("changes", IDS, BACK, "none", 1_000_000),
    ("changes", IDS, BACK, "1", 1_000_000),
    ("changes", IDS, BACK, "500", 1_000_000),
    ("changes", None, BACK, "none", 1_000_000),
)
# How often the time after a short history may go into that after a long one.
HELD = ("get", "put")
MOST_TIMES = 3
# How many turns of both are taken at most, since on a loaded machine all of a few may be slow.
MOST_TURNS = 60


def nanoseconds(chosen, call, entries, ids, back, most):
    return min(one_round(chosen, call, entries, ids, back, most) for _ in range(chosen.rounds))


def one_round(chosen, call, entries, ids, back, most):
    words = [chosen.binary, call, str(entries), str(ids or entries), str(back), most]
    return int(subprocess.run(words, stdin=subprocess.DEVNULL, capture_output=True, check=True).stdout)


def peak(chosen, entries, ids):
    """The peak memory in bytes of a process that makes a log."""
    words = [chosen.binary, "put", str(entries), str(ids), "0", "none"]
    child = os.posix_spawn(chosen.binary, words, os.environ, file_actions=[(os.POSIX_SPAWN_OPEN, 1, os.devnull, os.O_WRONLY, 0)])
    _, status, usage = os.wait4(child, 0)
    if status != 0:
        sys.exit("put failed")
    return usage.ru_maxrss * (1 if sys.platform == "darwin" else 1024)


def tell_times(chosen):
    print(f"call            ids    back  maximum  ns of {SHORT:,}  ns of {LONG:,}  ratio  goal")
    for call, ids, back, most, goal in CALLS:
        short = nanoseconds(chosen, call, SHORT, ids, back, most)
        long = nanoseconds(chosen, call, LONG, ids, back, most)
        met = "" if goal is None else f"under {goal:,}: {'met' if long < goal else 'missed'}"
        print(f"{call:14} {ids or 'each':>5} {back:6} {most:>8} {short:12,} {long:13,} {long / max(short, 1):6.2f}  {met}")


def tell_memory(chosen):
    short, long = peak(chosen, SHORT, IDS), peak(chosen, LONG, IDS)
    print(f"a log of {IDS} ids: {short // 1024:,} kB after {SHORT:,} changes, {long // 1024:,} kB after {LONG:,}")


def gate(chosen):
    missed = 0
    for call in HELD:
        short, long = held(chosen, call)
        times = long / max(short, 1)
        missed += times > MOST_TIMES
        print(f"{call}: {short:,} ns after {SHORT:,} changes, {long:,} ns after {LONG:,}, {times:.1f} times (at most {MOST_TIMES}: {'met' if times <= MOST_TIMES else 'missed'})")
    return 1 if missed else 0


def held(chosen, call):
    """The least times of a call after a short and a long history, by turns, until they are near enough or so many turns were taken."""
    short = long = None
    for turn in range(MOST_TURNS):
        one, other = (one_round(chosen, call, entries, IDS, 0, "none") for entries in (SHORT, LONG))
        short, long = min(one, short or one), min(other, long or other)
        if turn >= chosen.rounds and long <= MOST_TIMES * max(short, 1):
            break
    return short, long


def main():
    parser = argparse.ArgumentParser(description=__doc__)
    parser.add_argument("--gate", action="store_true", help="hold what a change and a look cost alone")
    parser.add_argument("binary", nargs="?", default="crates/store_rows/out/store_rows")
    parser.add_argument("--rounds", type=int, default=5)
    chosen = parser.parse_args()
    if chosen.gate:
        sys.exit(gate(chosen))
    tell_times(chosen)
    tell_memory(chosen)


if __name__ == "__main__":
    main()
