#!/usr/bin/env python3
"""Times `jmapd batch` on JSON texts of many shapes, each read whole and refused as no request; README.md tells what it prints."""

import json
import random
import sys
import tempfile

from echo import event
from measure import apart, compact, contents, length_of, measured, options, run_program

SIZE = 9_600_000
REFUSED = 1


def repeated(item):
    """A list of one text again and again."""
    return f"[{','.join([item] * (SIZE // (len(item) + 1)))}]"


def nested(opening, inner, closing, levels):
    return repeated(opening * levels + inner + closing * levels)


def one_name(name, value, last):
    """An object that has one name 600,000 times."""
    return f'{{{f"{json.dumps(name)}:{value}," * 599_999}{json.dumps(name)}:{last}}}'


def names(is_shuffled):
    """An object of 800,000 names."""
    members = [f'"{number:x}":0' for number in range(800_000)]
    if is_shuffled:
        random.Random(2026).shuffle(members)
    return f"{{{','.join(members)}}}"


def events():
    rng = random.Random(2026)
    made, length = [], 0
    while length < SIZE:
        made.append(event(rng))
        length += len(compact(made[-1])) + 1
    return compact(made).decode()


SHAPES = {
    "calendar events": events,
    '{"a":0}': lambda: repeated('{"a":0}'),
    '{"":0}': lambda: repeated('{"":0}'),
    '{"a":0,"b":0}': lambda: repeated('{"a":0,"b":0}'),
    '{"a":{"a":{"a":0}}}': lambda: nested('{"a":', "0", "}", 3),
    '{"": 100 deep': lambda: nested('{"":', "0", "}", 100),
    '{"":0,"a": 120 deep': lambda: nested('{"":0,"a":', "0", "}", 120),
    "[ 126 deep": lambda: nested("[", "0", "]", 126),
    "[0, 120 deep": lambda: nested("[0,", "0", "]", 120),
    '["", 120 deep': lambda: nested('["",', "0", "]", 120),
    '{"":[0, 60 deep': lambda: nested('{"":[0,', "0", "]}", 60),
    "[0]": lambda: repeated("[0]"),
    '["a"]': lambda: repeated('["a"]'),
    "5 short lists": lambda: repeated("[[0],[0],[0],[0],[0]]"),
    "lists of 4,097": lambda: repeated(f"[{'0,' * 4096}0]"),
    "numbers": lambda: repeated("0"),
    "short texts": lambda: repeated('"a"'),
    "126 levels, then 0s": lambda: f"{'[' * 126}{'0,' * (SIZE // 2)}0{']' * 126}",
    'one name, "a"': lambda: one_name("a", 0, 1),
    'one name, ""': lambda: one_name("", 0, 1),
    "one name, fractions": lambda: one_name("a", 0.5, 1),
    "fractions replaced": lambda: repeated('{"a":0.5,"a":0}'),
    "names in order": lambda: names(False),
    "names shuffled": lambda: names(True),
}


def write_text(make, out):
    out.write(make().encode())


def read_by_python(text, _):
    json.loads(contents(text))


def compare(_, answer):
    if not json.loads(contents(answer))["type"].endswith(":notRequest"):
        raise ValueError("the text isn't read")


def main():
    chosen = options(__doc__)

    def program(text, answer):
        run_program(chosen.binary, text, answer)

    print("shape                    bytes  seconds  Python  peak MB  bytes a byte")
    most = 0
    for name, make in SHAPES.items():
        with tempfile.TemporaryFile() as text:
            apart(write_text, make, text)
            length = length_of(text)
            seconds, peak = measured(program, chosen.rounds, text, compare, REFUSED)
            python, _ = measured(read_by_python, chosen.rounds, text)
            most = max(most, peak / length)
            print(f"{name:20} {length:9} {seconds:8.3f} {python:7.3f} {peak / 1e6:8.1f} {peak / length:13.1f}")
            sys.stdout.flush()
    print(f"no shape takes more than {most:.1f} bytes a byte")


if __name__ == "__main__":
    main()
