#!/usr/bin/env python3
"""Times `jmapd batch` on requests full of result references beside Python's json module; README.md tells what it prints."""

import json
import tempfile

from measure import CAPABILITY, Table, apart, compact, contents, length_of, measured, options, run_program, run_python

COUNTS = (10_000, 50_000)  # a whole answer stays within what the responses of a request may have
CALLS = 16


def item(number):
    return {"id": f"E{number}", "title": f"Meeting {number}", "isDraft": number % 7 == 0}


def write_request(count, out):
    """Writes an echo of so many objects, and further calls that refer to the ids of all of them."""
    reference = {"resultOf": "c0", "name": "Core/echo", "path": "/list/*/id"}
    first = ["Core/echo", {"list": [item(number) for number in range(count)]}, "c0"]
    others = [["Core/echo", {"#ids": reference}, f"c{call}"] for call in range(1, CALLS)]
    out.write(compact({"using": [CAPABILITY], "methodCalls": [first, *others]}))


def compare(request, answer):
    first = json.loads(contents(request))["methodCalls"][0]
    ids = [each["id"] for each in first[1]["list"]]
    others = [["Core/echo", {"ids": ids}, f"c{call}"] for call in range(1, CALLS)]
    if json.loads(contents(answer)) != {"methodResponses": [first, *others], "sessionState": "1"}:
        raise ValueError("the answer isn't what was referred to")


def main():
    chosen = options(__doc__)

    def program(request, answer):
        run_program(chosen.binary, request, answer)

    table = Table()
    for count in COUNTS:
        with tempfile.TemporaryFile() as request, tempfile.TemporaryFile() as answer:
            apart(write_request, count, request)
            request.seek(0)
            apart(program, request, answer)
            length = length_of(answer)
            table.add("jmapd", length, *measured(program, chosen.rounds, request, compare))
            table.add("Python", length, *measured(run_python, chosen.rounds, answer))
    table.compare()


if __name__ == "__main__":
    main()
