#!/usr/bin/env python3
"""Times patches of many keys; README.md tells what it prints."""

import argparse
import json
import subprocess
import tempfile

FEW, MANY = 16_000, 200_000
# The most milliseconds that are wanted for the few, and how many times as long the many may take: n log n gives 16.
GOAL, GROWTH = 100, 20


def numbered(prefix, count, value=lambda number: number):
    return {f"{prefix}{number:06}": value(number) for number in range(count)}


# Each makes a tree and a patch of so many keys.
SHAPES = {
    "new keys": lambda count: ({}, numbered("k", count)),
    "new keys among as many": lambda count: (numbered("k", count), {f"{key}x": 0 for key in numbered("k", count)}),
    "other values": lambda count: (numbered("k", count), numbered("k", count, lambda number: -number)),
    "removals": lambda count: (numbered("k", count), numbered("k", count, lambda number: None)),
    "two levels down": lambda count: (
        {"a": numbered("k", 1_000, lambda number: {})},
        {f"a/k{number % 1_000:06}/x{number:06}": 0 for number in range(count)},
    ),
    "out of order once unescaped": lambda count: ({}, numbered("aX", count // 2) | numbered("a~1", count // 2)),
    "keys that begin alike": lambda count: ({"a": {}}, numbered("a!", count) | {"a/b": 0}),
}


def compact(value):
    return json.dumps(value, separators=(",", ":"), ensure_ascii=False)


def nanoseconds(chosen, count, shape):
    tree, patch = shape(count)
    with tempfile.TemporaryFile("w+") as lines:
        lines.write(f"{compact(tree)}\n{compact(patch)}\n")
        lines.seek(0)
        ran = subprocess.run([chosen.binary, str(chosen.rounds)], stdin=lines, capture_output=True, check=True)
    return int(ran.stdout)


def main():
    parser = argparse.ArgumentParser(description=__doc__)
    parser.add_argument("binary", nargs="?", default="crates/text_rows/out/text_rows")
    parser.add_argument("--rounds", type=int, default=5)
    chosen = parser.parse_args()
    print(f"{'patch':28} ms of {FEW:,}  ms of {MANY:,}  ratio  goals: under {GOAL} ms, a ratio under {GROWTH}")
    for name, shape in SHAPES.items():
        few, many = (nanoseconds(chosen, count, shape) for count in (FEW, MANY))
        met = few < GOAL * 1e6 and many < GROWTH * few
        print(f"{name:28} {few / 1e6:12.1f} {many / 1e6:13.1f} {many / few:6.1f}  {'met' if met else 'missed'}")


if __name__ == "__main__":
    main()
