"""Runs the program and other work in processes of their own, and tells what time and memory they took."""

import argparse
import json
import os
import sys
import tempfile

CAPABILITY = "urn:ietf:params:jmap:core"
SERVICE = os.path.join(os.path.dirname(os.path.dirname(os.path.abspath(__file__))), "examples/jmapd.service")


def compact(value):
    return json.dumps(value, ensure_ascii=False, separators=(",", ":")).encode()


def service_environment():
    """The environment with what the unit file sets in it, so that the C library is set as in production."""
    with open(SERVICE, encoding="utf-8") as file:
        lines = [line.removeprefix("Environment=").split() for line in file if line.startswith("Environment=")]
    return os.environ | dict(word.split("=", 1) for words in lines for word in words)


def contents(file):
    file.seek(0)
    return file.read()


def run_program(binary, request, answer, *words):
    os.dup2(request.fileno(), 0)
    os.dup2(answer.fileno(), 1)
    os.execv(binary, [binary, *(words or ["batch"])])


def run_python(text, copy):
    copy.write(compact(json.loads(contents(text))))


def apart(work, *arguments, wanted=0):
    """Does the work in a process of its own, which has to end with the wanted status, and gives what that process used.

    A new process's peak counts what its parent held when it began, so this one never holds a request.
    """
    child = os.fork()
    if child == 0:
        status = 1
        try:
            work(*arguments)
            arguments[-1].flush()
            status = 0
        except Exception as error:
            print(f"{work.__name__}: {error}", file=sys.stderr)
        os._exit(status)
    _, status, usage = os.wait4(child, 0)
    if os.waitstatus_to_exitcode(status) != wanted:
        sys.exit(f"{work.__name__} failed")
    return usage


def measured(work, rounds, given, check=None, wanted=0):
    """The least seconds of processor and the greatest peak memory in bytes of some rounds, each with the wanted status."""
    unit = 1 if sys.platform == "darwin" else 1024
    seconds, peaks = [], []
    for _ in range(rounds):
        with tempfile.TemporaryFile() as made:
            os.lseek(given.fileno(), 0, os.SEEK_SET)
            usage = apart(work, given, made, wanted=wanted)
            if check:
                apart(check, given, made)
        seconds.append(usage.ru_utime + usage.ru_stime)
        peaks.append(usage.ru_maxrss * unit)
    return min(seconds), max(peaks)


def length_of(file):
    return os.fstat(file.fileno()).st_size


class Table:
    """A line for each measurement, and the times beside each other."""

    def __init__(self):
        self.measured = {}
        print("who          bytes  seconds   MB/s  peak MB  bytes a byte")

    def add(self, who, length, seconds, peak):
        self.measured.setdefault(who, []).append((length, seconds))
        rate = length / seconds / 1e6
        print(f"{who:7} {length:10} {seconds:8.3f} {rate:6.1f} {peak / 1e6:8.1f} {peak / length:13.1f}")

    def compare(self):
        for who, ((length, seconds), (more, longer)) in self.measured.items():
            print(f"{who}: {longer / seconds:.1f} times the time for {more / length:.1f} times the bytes")
        jmapd, python = (self.measured[who][1][1] for who in ("jmapd", "Python"))
        print(f"jmapd takes {jmapd / python:.2f} of Python's time on the larger")


def options(description, binary="crates/jmapd/out/jmapd"):
    parser = argparse.ArgumentParser(description=description)
    parser.add_argument("binary", nargs="?", default=binary)
    parser.add_argument("--rounds", type=int, default=5)
    return parser.parse_args()
