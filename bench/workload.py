#!/usr/bin/env python3
"""Times the command `workload`; README.md tells what it prints."""

import tempfile

from measure import contents, measured, options, run_program
from rooms import booked, drawn

# The number that the generator begins with, the requests, and the goal in seconds, if there is one.
WORKLOADS = [(1, 400, None), (1, 2000, 1.5), (0, 2000, None), (65536, 2000, None)]


def lines(number, size):
    bookings = len(booked(drawn(number, size)))
    return f"bookings {bookings}\nclashes {size - bookings}\nentries {bookings + 1}\nchanged {bookings}\n"


def checked(wanted):
    def check(_, made):
        if contents(made).decode() != wanted:
            raise SystemExit(f"wrong: {contents(made).decode()}")

    return check


def main():
    words = options(__doc__)
    for number, size, goal in WORKLOADS:
        wanted = lines(number, size)
        asked = ["workload", "--number", str(number), "--size", str(size)]
        with tempfile.TemporaryFile() as nothing:
            seconds, peak = measured(lambda given, made: run_program(words.binary, given, made, *asked), words.rounds, nothing, checked(wanted))
        beside = f" (goal {goal})" if goal else ""
        print(f"number {number}, size {size}: {seconds:.3f} seconds{beside}, {peak / 1e6:.0f} MB")


if __name__ == "__main__":
    main()
