#!/usr/bin/env python3
"""Runs `jmapd kept`, and `jmapd slot` beside it, over files as they may be, and compares exit status, responses and standard error with what the documents say.

Journals are damaged by Python's sqlite3, which reads what the program wrote. Then the program is killed at random moments, and what was answered is compared with what the next run finds.

    examples/kept.py [--rounds N] [PATH_OF_THE_PROGRAM]        40 kills by default
"""

import argparse
import json
import os
import random
import resource
import signal
import subprocess
import sys
import tempfile
import threading
import time

try:
    import sqlite3
except ImportError:
    print("kept.py: skipped, since this Python has no sqlite3")
    sys.exit(0)

PROGRAM = "crates/jmapd/out/jmapd"
SECONDS = 60
USING = ["urn:ietf:params:jmap:core", "urn:ietf:params:jmap:calendars"]
NOBODY = 65534
SITE = {
    "baseUrl": "http://localhost:8080",
    "accounts": [{"id": "A1", "name": "Team"}, {"id": "A2", "name": "Rooms"}],
    "users": [{"name": "ann", "token": "t-ann", "accounts": ["A1", "A2"]}, {"name": "bob", "token": "t-bob", "accounts": ["A2"]}],
    "zones": [],
}


WEEKLY = {"start": "2026-03-02T09:00:00", "duration": "PT1H", "timeZone": "Etc/UTC", "recurrenceRules": [{"frequency": "weekly"}]}
WISH = {"accountId": "A1", "calendarId": "C1", "duration": "PT1H", "after": "2026-03-02T09:30:00", "before": "2026-03-02T10:15:00", "recurrenceRules": [{"frequency": "weekly"}]}


def request(*calls):
    return json.dumps({"using": USING, "methodCalls": [[name, arguments, "c"] for name, arguments in calls]})


def create(*names, account="A1"):
    return request(("Calendar/set", {"accountId": account, "create": {f"k{i}": {"name": name} for i, name in enumerate(names)}}))


def destroy(*ids):
    return request(("Calendar/set", {"accountId": "A1", "destroy": list(ids)}))


def get(account="A1"):
    return request(("Calendar/get", {"accountId": account, "ids": None, "properties": ["name"]}))


def words(journal, *more):
    return ["kept", "--config", "site.json", "--journal", journal, *more]


class Room:
    """A folder with a configuration, in which the program is run."""

    def __init__(self, program, folder):
        self.program, self.folder = program, folder
        with open(self.path("site.json"), "w", encoding="utf-8") as file:
            json.dump(SITE, file)

    def path(self, name):
        return os.path.join(self.folder, name)

    def run(self, *lines, journal="a.db", more=(), prepare=None, output=subprocess.PIPE):
        ended = subprocess.run(
            [self.program, *words(journal, *more)],
            input="".join(line + "\n" for line in lines).encode(),
            stdout=output,
            stderr=subprocess.PIPE,
            cwd=self.folder,
            timeout=SECONDS,
            preexec_fn=prepare,
        )
        written = (ended.stdout or b"").decode().split("\n")
        return ended.returncode, [json.loads(line) for line in written[:-1]], ended.stderr.decode()

    def look(self, journal="a.db", **asked):
        """Exit status, what is written, and standard error of a look for a slot in a room that is taken for an hour each Monday from nine o'clock on."""
        ended = subprocess.run(
            [self.program, "slot", *words(journal)[1:]],
            input=json.dumps(WISH | asked).encode(),
            stdout=subprocess.PIPE,
            stderr=subprocess.PIPE,
            cwd=self.folder,
            timeout=SECONDS,
        )
        return ended.returncode, json.loads(ended.stdout or "null"), ended.stderr.decode()

    def change(self, script, *values, journal="a.db"):
        with sqlite3.connect(self.path(journal)) as base:
            base.execute(script, values)
        base.close()

    def entries(self, account="A1", journal="a.db"):
        base = sqlite3.connect(self.path(journal))
        rows = base.execute("SELECT text FROM entry WHERE account = ? ORDER BY place", (account,)).fetchall()
        base.close()
        return [row[0] for row in rows]


def names(response):
    return [item["name"] for item in response["methodResponses"][0][1]["list"]]


def created(response):
    return response["methodResponses"][0][1]


def expect(found, wanted):
    assert found == wanted, f"{found!r}, and not {wanted!r}"


def refused(room, status, error, **how):
    expect(room.run(get(), **how), (status, [], error + "\n"))


def unopened(room, why, journal="a.db", **how):
    refused(room, 6, f"jmapd: {why}: {journal}\njmapd: open fault", journal=journal, **how)


# ---- what is kept


def goes_on(room):
    status, answers, error = room.run(create("Work"), create("Home"))
    expect((status, error), (0, ""))
    expect([a["methodResponses"][0][1]["newState"] for a in answers], ["0-1", "0-2"])
    status, answers, error = room.run(create("Third"), get())
    expect((status, error), (0, ""))
    expect(created(answers[0])["created"]["k0"]["id"], "C3")
    expect(created(answers[0])["newState"], "0-3")
    expect(names(answers[1]), ["Work", "Home", "Third"])


def keeps_places(room):
    room.run(create("Work", "Home"), create("Room", account="A2"), destroy("C1"))
    for account, count in (("A1", 3), ("A2", 1)):
        base = sqlite3.connect(room.path("a.db"))
        places = [row[0] for row in base.execute("SELECT place FROM entry WHERE account = ? ORDER BY place", (account,))]
        base.close()
        expect(places, list(range(count)))
    expect(names(room.run(get("A2"))[1][0]), ["Room"])


def refused_lines_go_on(room):
    status, answers, error = room.run("{", create("Work"), "", get())
    expect((status, error, len(answers)), (0, "", 4))
    expect(answers[0]["type"], "urn:ietf:params:jmap:error:notJSON")
    expect(answers[2]["type"], "urn:ietf:params:jmap:error:notJSON")
    expect(names(answers[3]), ["Work"])


def last_line_feed_may_miss(room):
    ended = subprocess.run([room.program, *words("a.db")], input=create("Work").encode(), stdout=subprocess.PIPE, cwd=room.folder, timeout=SECONDS)
    expect((ended.returncode, ended.stdout.count(b"\n")), (0, 1))


def long_lines_are_cut(room):
    status, answers, error = room.run(create("Work"), " " * 10_000_001, create("Home"))
    expect((status, len(answers), error), (8, 1, "jmapd: connection cut\n"))
    expect(names(room.run(get())[1][0]), ["Work"])


def long_lines_are_answered(room):
    line = create("Work")
    status, answers, error = room.run(line + " " * (10_000_000 - len(line)), get())
    expect((status, error, names(answers[1])), (0, "", ["Work"]))


def accounts_are_found_by_id(room):
    room.run(create("Work"), create("Room", account="A2"))
    with open(room.path("site.json"), "w", encoding="utf-8") as file:
        json.dump(SITE | {"accounts": SITE["accounts"][::-1]}, file)
    expect([names(a) for a in room.run(get("A1"), get("A2"))[1]], [["Work"], ["Room"]])


def accounts_that_are_gone_stay_in_the_file(room):
    room.run(create("Work"), create("Room", account="A2"))
    with open(room.path("site.json"), "w", encoding="utf-8") as file:
        json.dump(SITE | {"accounts": SITE["accounts"][:1], "users": [SITE["users"][0] | {"accounts": ["A1"]}]}, file)
    expect(names(room.run(get())[1][0]), ["Work"])
    expect(len(room.entries("A2")), 1)


# ---- slots


def book(room):
    room.run(
        request(("Calendar/set", {"accountId": "A1", "create": {"r": {"name": "Room", "resourceZone": "Etc/UTC"}}})),
        request(("CalendarEvent/set", {"accountId": "A1", "create": {"b": WEEKLY | {"calendarIds": {"C1": True}}}})),
    )


def slots_are_found(room):
    book(room)
    before = room.entries()
    tried = [{"day": 20514, "second": second, "start": start, "with": "E1"} for second, start in ((34200, "2026-03-02T09:30:00"), (35100, "2026-03-02T09:45:00"))]
    expect(room.look(), (0, {"slot": "2026-03-02T10:00:00", "tried": tried}, ""))
    expect(room.look(before="2026-03-02T10:00:00"), (0, {"slot": None, "tried": tried}, ""))
    expect(room.look(accountId="A2"), (1, {"type": "calendarNotFound"}, "jmapd: request refused\n"))
    expect(room.entries(), before)


def slots_need_a_sound_journal(room):
    book(room)
    room.change("DELETE FROM entry WHERE place = 0")
    room.change("UPDATE entry SET place = 0")
    expect(room.look(), (11, None, "jmapd: bad journal: A1 object E1\n"))
    room.change("UPDATE entry SET text = SUBSTR(text, 1, 40)")
    expect(room.look(), (10, None, "jmapd: damaged entry: A1 0\n"))


# ---- words


def words_are_tested(room):
    for given in (["kept"], ["kept", "--config", "site.json"], ["kept", "--journal", "a.db"], words("a.db", "--port", "1")):
        ended = subprocess.run([room.program, *given], stdin=subprocess.DEVNULL, stdout=subprocess.PIPE, stderr=subprocess.PIPE, cwd=room.folder, timeout=SECONDS)
        expect((ended.returncode, ended.stdout), (2, b""))
        assert ended.stderr.startswith(b"usage: jmapd ")
    expect(os.path.exists(room.path("a.db")), False)


def users_are_named(room):
    expect(room.run(get("A2"), more=("--user", "bob"))[0], 0)
    status, answers, error = room.run(get("A2"), more=("--user", "eve"))
    expect((status, answers), (2, []))


def configurations_are_tested(room):
    with open(room.path("site.json"), "w", encoding="utf-8") as file:
        file.write("{}")
    status, answers, error = room.run(get())
    expect((status, answers, error), (3, [], "jmapd: configuration: baseUrl 0\n"))


# ---- files that aren't opened


def no_folder(room):
    unopened(room, "journal can't be opened", journal="nowhere/a.db")


def folder_in_its_place(room):
    os.mkdir(room.path("a.db"))
    unopened(room, "journal can't be opened")


def without_rights(mode_of_file, mode_of_folder):
    def tried(room):
        os.chmod(room.folder, 0o755)
        room.run(create("Work"))
        for name in ("a.db", "a.db-wal"):
            os.chmod(room.path(name), mode_of_file)
        os.chmod(room.folder, mode_of_folder)
        try:
            unopened(room, "journal can't be opened", prepare=(lambda: os.setuid(NOBODY)) if os.getuid() == 0 else None)
        finally:
            os.chmod(room.folder, 0o755)

    return tried


def read_only_file_system(room):
    room.run(create("Work"))
    if subprocess.run(["mount", "--bind", room.folder, room.folder], stderr=subprocess.DEVNULL).returncode:
        print("a read-only file system: skipped, since this user mounts nothing")
        return
    try:
        subprocess.run(["mount", "-o", "remount,ro,bind", room.folder], check=True)
        unopened(room, "journal can't be opened")
    finally:
        subprocess.run(["umount", room.folder], check=True)


def another_program(room):
    base = sqlite3.connect(room.path("a.db"))
    base.execute("CREATE TABLE note (title TEXT)")
    base.commit()
    base.close()
    unopened(room, "no journal")


def another_file(room):
    with open(room.path("a.db"), "w", encoding="utf-8") as file:
        file.write("This is no database. " * 500)
    unopened(room, "no journal")


def later_version(room):
    room.run(create("Work"))
    room.change("UPDATE about SET version = version + 1")
    unopened(room, "journal of a later version: open it with the program that made it, or a later one")


def two_processes(room):
    first = subprocess.Popen([room.program, *words("a.db")], stdin=subprocess.PIPE, stdout=subprocess.PIPE, cwd=room.folder)
    try:
        first.stdin.write((create("Work") + "\n").encode())
        first.stdin.flush()
        first.stdout.readline()
        unopened(room, "journal in use")
    finally:
        first.stdin.close()
        first.wait(SECONDS)
    expect(names(room.run(get())[1][0]), ["Work"])


# ---- texts that aren't sound


def three(room):
    room.run(create("One", "Two", "Three"))


def cut_text(room):
    three(room)
    room.change("UPDATE entry SET text = SUBSTR(text, 1, 40) WHERE place = 1")
    refused(room, 10, "jmapd: damaged entry: A1 1")


def missing_place(room):
    three(room)
    room.change("DELETE FROM entry WHERE place = 1")
    refused(room, 10, "jmapd: damaged entry: A1 1")


def first_place_gone(room):
    three(room)
    room.change("DELETE FROM entry WHERE place = 0")
    refused(room, 10, "jmapd: damaged entry: A1 0")


def missing_entry(room):
    three(room)
    room.change("DELETE FROM entry WHERE place = 1")
    room.change("UPDATE entry SET place = 1 WHERE place = 2")
    refused(room, 11, "jmapd: bad journal: A1 object C3")


def removal_twice(room):
    three(room)
    room.run(destroy("C1"))
    room.change("INSERT INTO entry SELECT account, 4, text FROM entry WHERE place = 3")
    refused(room, 11, "jmapd: bad journal: A1 object C1")


def another_first_id(room):
    room.run(create("One"), destroy("C1"), create("Two"))
    for place in (0, 1):
        room.change("DELETE FROM entry WHERE place = ?", place)
    room.change("UPDATE entry SET place = 0")
    refused(room, 11, "jmapd: bad journal: A1 object C2")


def another_author(room):
    three(room)
    text = json.loads(room.entries()[2]) | {"author": 1}
    room.change("UPDATE entry SET text = ? WHERE place = 2", json.dumps(text, separators=(",", ":")).encode())
    refused(room, 11, "jmapd: bad journal: A1 2")


def removal_that_an_event_forbids(room):
    event = {"@type": "Event", "calendarIds": {"C1": True}, "title": "Plan", "start": "2026-01-05T10:00:00", "duration": "PT1H"}
    status, answers, _ = room.run(create("One"), request(("CalendarEvent/set", {"accountId": "A1", "create": {"e": event}})))
    assert "e" in created(answers[1])["created"], answers
    text = json.loads(room.entries()[0]) | {"object": None, "turn": 9}
    room.change("INSERT INTO entry (account, place, text) VALUES ('A1', 2, ?)", json.dumps(text, separators=(",", ":")).encode())
    refused(room, 11, "jmapd: bad journal: A1 object E1")


# ---- faults


def full_disk(room):
    def small():
        signal.signal(signal.SIGXFSZ, signal.SIG_IGN)
        resource.setrlimit(resource.RLIMIT_FSIZE, (400_000, 400_000))

    lines = [create(*(f"{i} {j} {'x' * 200}" for j in range(50))) for i in range(40)]
    status, answers, error = room.run(*lines, prepare=small)
    expect((status, error), (9, "jmapd: keep fault\n"))
    assert 0 < len(answers) < 40, len(answers)
    found = len(names(room.run(get())[1][0]))
    assert found in (50 * len(answers), 50 * len(answers) + 50), (found, len(answers))


def full_output(room):
    with open("/dev/full", "wb") as full:
        status, _, error = room.run(create("Work"), create("Home"), output=full)
    expect((status, error), (5, "jmapd: write fault\n"))
    expect(names(room.run(get())[1][0]), ["Work"])


def killed(room, wait):
    """Kills the program while it answers lines, and gives how many it answered and what the next run finds."""
    process = subprocess.Popen([room.program, *words("a.db")], stdin=subprocess.PIPE, stdout=subprocess.PIPE, stderr=subprocess.DEVNULL, cwd=room.folder)

    def feed():
        try:
            for i in range(9000):
                process.stdin.write((create(f"n{i}") + "\n").encode())
            process.stdin.flush()
        except (BrokenPipeError, ValueError):
            pass

    feeder = threading.Thread(target=feed)
    feeder.start()
    timer = threading.Timer(wait, process.kill)
    timer.start()
    written = process.stdout.read()
    process.wait()
    timer.cancel()
    feeder.join()
    answered = written.count(b"\n")
    return answered, names_up_to(room, answered + 1)


def names_up_to(room, number):
    """The names of the calendars up to a number, by gets of as many as one takes."""
    ids = [f"C{i + 1}" for i in range(number)]
    lines = [request(("Calendar/get", {"accountId": "A1", "ids": ids[i : i + 500], "properties": ["name"]})) for i in range(0, number, 500)]
    status, answers, error = room.run(*lines)
    expect((status, error), (0, ""))
    return [name for answer in answers for name in names(answer)]


def kills(program, rounds, seed):
    rng = random.Random(seed)
    behind = 0
    for _ in range(rounds):
        with tempfile.TemporaryDirectory() as folder:
            answered, found = killed(Room(program, folder), rng.uniform(0.01, 1.0))
            expect(found, [f"n{i}" for i in range(len(found))])
            assert answered <= len(found) <= answered + 1, (answered, len(found))
            behind += len(found) - answered
    return behind


CASES = {
    "goes on": goes_on,
    "keeps places": keeps_places,
    "refused lines go on": refused_lines_go_on,
    "the last line feed may miss": last_line_feed_may_miss,
    "long lines are cut": long_lines_are_cut,
    "lines of 10,000,000 bytes are answered": long_lines_are_answered,
    "accounts are found by their ids": accounts_are_found_by_id,
    "accounts that are gone stay in the file": accounts_that_are_gone_stay_in_the_file,
    "slots are found": slots_are_found,
    "slots need a sound journal": slots_need_a_sound_journal,
    "words are tested": words_are_tested,
    "users are named": users_are_named,
    "configurations are tested": configurations_are_tested,
    "no such folder": no_folder,
    "a folder in its place": folder_in_its_place,
    "a file without rights": without_rights(0o000, 0o777),
    "a read-only file": without_rights(0o444, 0o777),
    "a read-only folder": without_rights(0o444, 0o555),
    "a read-only file system": read_only_file_system,
    "another program's database": another_program,
    "no database": another_file,
    "a later version": later_version,
    "two processes": two_processes,
    "a text cut in the middle": cut_text,
    "a place missing": missing_place,
    "the first place missing": first_place_gone,
    "an entry missing": missing_entry,
    "a removal twice": removal_twice,
    "a first id of 2": another_first_id,
    "another author": another_author,
    "a removal that an event forbids": removal_that_an_event_forbids,
    "a full disk": full_disk,
    "a full output": full_output,
}


def main():
    parser = argparse.ArgumentParser()
    parser.add_argument("program", nargs="?", default=PROGRAM)
    parser.add_argument("--rounds", type=int, default=40)
    parser.add_argument("--seed", type=int, default=0)
    asked = parser.parse_args()
    program = os.path.abspath(asked.program)
    wrong = 0
    for name, case in CASES.items():
        with tempfile.TemporaryDirectory() as folder:
            try:
                case(Room(program, folder))
            except Exception as error:
                wrong += 1
                print(f"{name}: {error}")
    started = time.monotonic()
    behind = kills(program, asked.rounds, asked.seed)
    print(f"{len(CASES) - wrong} of {len(CASES)} cases as the documents say; {asked.rounds} kills in {time.monotonic() - started:.0f} s, {behind} of them behind a keep whose answer wasn't written")
    sys.exit(wrong > 0)


if __name__ == "__main__":
    main()
