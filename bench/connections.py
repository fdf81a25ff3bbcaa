#!/usr/bin/env python3
"""Times `jmapd stdio` on pipelined echoes beside a plain loop in Python; README.md tells what it prints."""

import json
import tempfile

from measure import CAPABILITY, apart, compact, contents, length_of, measured, options, run_program

COUNTS = (1_000, 10_000)
CONFIGURATION = "examples/site.json"
TOKEN = "t-ann"


def call(number):
    title = f"Meeting {number}"
    arguments = {"title": title, "start": "2026-11-27T09:00:00", "duration": "PT1H", "participants": {"p1": {"name": "Chloé"}}}
    return ["Core/echo", arguments, f"c{number}"]


def write_messages(count, out):
    """Writes echoes one behind the other, of which the last asks to close."""
    for number in range(count):
        body = compact({"using": [CAPABILITY], "methodCalls": [call(number)]})
        close = "Connection: close\r\n" if number + 1 == count else ""
        head = f"POST /jmap HTTP/1.1\r\nHost: localhost\r\nAuthorization: Bearer {TOKEN}\r\n{close}Content-Length: {len(body)}\r\n\r\n"
        out.write(head.encode() + body)


def next_length(stream):
    """How many bytes the body has of the message that comes next, whose head is taken; None where none comes."""
    length = None
    line = stream.readline()
    while line not in (b"\r\n", b""):
        name, _, value = line.partition(b":")
        if name.lower() == b"content-length":
            length = int(value)
        line = stream.readline()
    return length


def next_body(stream):
    """The body of the message that comes next, None where none comes."""
    length = next_length(stream)
    return None if length is None else stream.read(length)


def run_python(messages, made):
    messages.seek(0)
    while (body := next_body(messages)) is not None:
        request = json.loads(body)
        text = compact({"methodResponses": request["methodCalls"], "sessionState": "1"})
        made.write(f"HTTP/1.1 200 OK\r\nContent-Type: application/json\r\nContent-Length: {len(text)}\r\n\r\n".encode() + text)


def compare(messages, made):
    count = contents(messages).count(b"POST ")
    made.seek(0)
    for number in range(count):
        if json.loads(next_body(made)) != {"methodResponses": [call(number)], "sessionState": "1"}:
            raise ValueError(f"response {number} isn't to its message")
    if next_body(made) is not None:
        raise ValueError("there are more responses than messages")


def main():
    chosen = options(__doc__)

    def program(messages, made):
        run_program(chosen.binary, messages, made, "stdio", "--config", CONFIGURATION)

    print("who     messages      bytes  seconds  microseconds a message  peak MB")
    for who, work in (("jmapd", program), ("Python", run_python)):
        for count in COUNTS:
            with tempfile.TemporaryFile() as messages:
                apart(write_messages, count, messages)
                seconds, peak = measured(work, chosen.rounds, messages, compare)
                print(f"{who:7} {count:8} {length_of(messages):10} {seconds:8.3f} {seconds / count * 1e6:23.1f} {peak / 1e6:8.1f}")


if __name__ == "__main__":
    main()
