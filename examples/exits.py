#!/usr/bin/env python3
"""Runs the program as it may end, and compares exit status, standard output and standard error of each run with examples/exits.json.

That file has the configurations by name, and of each run the words and the input, or the file that is read, and what the documents say of it. `listen` is run here too: with one worker
for one connection it ends when it has served it.

    examples/exits.py [PATH_OF_THE_PROGRAM]
"""

import json
import os
import resource
import subprocess
import sys
import tempfile

sys.dont_write_bytecode = True
from peers import free_port, is_answered  # noqa: E402

RUNS = "examples/exits.json"
PROGRAM = "crates/jmapd/out/jmapd"
SECONDS = 20


def build():
    """Proves and builds the program, where it isn't built."""
    if not os.path.exists(PROGRAM):
        with open("examples/first.json", "rb") as request:
            subprocess.run(["rt", "run", "--", "batch"], cwd="crates/jmapd", stdin=request, stdout=subprocess.DEVNULL, check=True)
    return PROGRAM


def input_of(run):
    text = run.get("input", "")
    if "repeated" in run:
        item, times = run["repeated"]
        text = text.replace("REPEATED", item * times)
    return text.encode()


def limited(run):
    """What sets the limit of the process's addresses, where the run has one."""
    if "kilobytes" not in run:
        return None
    most = run["kilobytes"] * 1024
    return lambda: resource.setrlimit(resource.RLIMIT_AS, (most, most))


def came(program, folder, run):
    """Exit status, standard output and standard error of a run."""
    with tempfile.TemporaryFile() as given, tempfile.TemporaryFile() as written:
        given.write(input_of(run))
        given.seek(0)
        source = os.open(run["input_file"], os.O_RDONLY) if "input_file" in run else given.fileno()
        sink = os.open(run["output_file"], os.O_WRONLY) if "output_file" in run else written.fileno()
        ended = subprocess.run(
            [program, *run["words"]], stdin=source, stdout=sink, stderr=subprocess.PIPE, cwd=folder, timeout=SECONDS, preexec_fn=limited(run)
        )
        written.seek(0)
        return ended.returncode, written.read().decode(), ended.stderr.decode()


def wanted(run):
    return run["status"], run.get("output", ""), run["error"]


def listen_ends(program, folder):
    """One worker that is to serve one connection."""
    port = free_port()
    words = ["listen", "--config", "site.json", "--port", str(port), "--workers", "1", "--connections", "1"]
    server = subprocess.Popen([program, *words], stdout=subprocess.PIPE, stderr=subprocess.PIPE, cwd=folder)
    try:
        if not is_answered(port):
            return "no answer"
        output, error = server.communicate(timeout=SECONDS)
        return server.returncode, output.decode(), error.decode().replace(str(port), "PORT")
    finally:
        server.kill()
        server.wait()


def main():
    program = os.path.abspath(sys.argv[1] if len(sys.argv) > 1 else build())
    with open(RUNS, encoding="utf-8") as file:
        table = json.load(file)
    bad = 0
    with tempfile.TemporaryDirectory() as folder:
        for name, configuration in table["files"].items():
            with open(os.path.join(folder, name), "w", encoding="utf-8") as file:
                json.dump(configuration, file)
        trials = [(run["what"], came(program, folder, run), wanted(run)) for run in table["runs"]]
        trials.append(("workers that have served", listen_ends(program, folder), (0, "", "jmapd: nothing is kept: no --journals\nlistening on 127.0.0.1:PORT, 1 worker, 1 account\n")))
    for what, it, want in trials:
        if it != want:
            bad += 1
            print(f"examples/exits.py: {what}: wanted {want}, came {it}")
    if not bad:
        print(f"examples/exits.py: {len(trials)} runs ended as the documents say")
    sys.exit(1 if bad else 0)


if __name__ == "__main__":
    main()
