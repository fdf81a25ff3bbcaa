#!/usr/bin/env python3
"""Measures how long heads take that come one byte at a time, by crates/text_rows, which gives each input in one piece, in pieces of
one byte and in pieces of seven bytes.

Build the program first, by `rt run < stdin` in crates/text_rows. Each line has heads of one length, always as many bytes in all; times are
of the processor, the least of three. The exit status is 0 whatever the figures, and 1 where the program failed or answered something else.
"""
import os
import resource
import subprocess
import sys

PROGRAM = os.path.join(os.path.dirname(__file__), "..", "crates", "text_rows", "out", "text_rows")
BYTES = 8_000_000
FIRST, LAST = "GET / HTTP/1.1\\r\\nX: ", "\\r\\n\\r\\n"
FIXED = 23


def spent(length, count):
    """Seconds of the processor that the program takes for so many heads of a length."""
    row = f'"{FIRST}`{length - FIXED} a`{LAST}"\n[{{"method":"GET","path":"/"}},"End"]\n\n'
    times = []
    for _ in range(3):
        before = resource.getrusage(resource.RUSAGE_CHILDREN)
        ran = subprocess.run([PROGRAM], input=("=== messages\n" + row * count).encode(), stdout=subprocess.PIPE)
        after = resource.getrusage(resource.RUSAGE_CHILDREN)
        if ran.returncode or f"messages: {count} rows, 0 of them" not in ran.stdout.decode():
            sys.exit(f"text_rows failed: {ran.stdout.decode()[:500]}")
        times.append(after.ru_utime + after.ru_stime - before.ru_utime - before.ru_stime)
    return min(times)


def main():
    for length in (2_000, 4_000, 8_000, 16_000):
        seconds = spent(length, BYTES // length)
        print(f"heads of {length:6} bytes: {seconds:.2f} s for {BYTES} bytes, {seconds / BYTES * 1e9:.0f} ns a byte")


main()
