#!/usr/bin/env python3
"""Times results of queries, their changes and splices, at growing sizes, beside Python's; README.md tells what it prints."""

import random
import tempfile

from measure import contents, measured, options, run_program

BINARY = "crates/order_bench/out/order_bench"
SIZES = {"jmapd": ((5_000, 410), (50_000, 4_096), (500_000, 40_960)), "Python": ((5_000, 410), (50_000, 4_096))}
PARTS = ("result", "changes", "splice")


def rounds_of(who, part, count):
    """How often a part is done, so that it takes longer than one run differs from another."""
    often = 1_000_000 // count
    return 5 * often if who == "jmapd" and part != "result" else often


def splice(old, removed, added):
    taken = set(removed)
    ids = [number for number in old if number not in taken]
    for number, index in added:
        ids.insert(index, number)
    return ids


def changes_of(old, new, touched):
    named = set(touched)
    return [number for number in old if number in named], [(number, index) for index, number in enumerate(new) if number in named]


def made_up(chance):
    return 3600 * chance.randrange(278), f"Weekly meeting of the group {chance.randrange(500)}".encode()


def in_order(items):
    places = sorted(range(len(items)), key=lambda place: items[place][1], reverse=True)
    places.sort(key=lambda place: items[place][0])
    return places


def run_python(count, touched, rounds, made):
    chance = random.Random(1)
    before = [made_up(chance) for _ in range(count)]
    after = list(before)
    named = [chance.randrange(count) for _ in range(touched)]
    for place in named:
        after[place] = made_up(chance)
    old, new = in_order(before), in_order(after)
    removed, added = changes_of(old, new, named)
    for _ in range(rounds[0]):
        in_order(before)
    for _ in range(rounds[1]):
        changes_of(old, new, named)
    for _ in range(rounds[2]):
        splice(old, removed, added)
    made.write(b"true, true" if splice(old, removed, added) == new else b"false")


def check(_, made):
    if contents(made).count(b"true") != 2:
        raise ValueError("a splice isn't the later result")


def main():
    chosen = options(__doc__, BINARY)

    def seconds(who, count, touched, rounds):
        def program(given, made):
            run_program(chosen.binary, given, made, *map(str, (count, touched, *rounds)))

        def python(_, made):
            run_python(count, touched, rounds, made)

        with tempfile.TemporaryFile() as given:
            return measured(program if who == "jmapd" else python, chosen.rounds, given, check)

    print("who      events touched  peak MB  " + "  ".join(f"ms a {part}" for part in PARTS))
    for who in ("jmapd", "Python"):
        for count, touched in SIZES[who]:
            without, peak = seconds(who, count, touched, (0, 0, 0))
            line = f"{who:7} {count:7} {touched:7} {peak / 1e6:8.1f}"
            for part in PARTS:
                rounds = rounds_of(who, part, count)
                taken = seconds(who, count, touched, [rounds if part == other else 0 for other in PARTS])[0] - without
                line += f"  {taken / rounds * 1e3:{len('ms a ' + part)}.2f}"
            print(line)


if __name__ == "__main__":
    main()
