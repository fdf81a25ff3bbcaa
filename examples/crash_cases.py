"""The cases of crash.py: disks, folders, files and configurations as an operator may have them, each over a folder of its own."""

import contextlib
import os
import resource
import shutil
import signal
import sqlite3
import subprocess
import time

from crash_clients import ROOMS, TEAM, Team, fresh
from kept import NOBODY, expect
from served import SECONDS, configuration, event, fill, many_accounts

NOTHING_KEPT = "jmapd: nothing is kept: no --journals"
SERVER_FAIL = ("error", {"type": "serverFail"})
DISK_BYTES = 16_000_000
LEFT_BYTES = 400_000
FILE_BYTES = 400_000
LARGE_BYTES = 20_000
MAX_LARGE = 100
ZONED = {"timeZone": "America/New_York"}
BACKUP_EVENTS = 3_000
TERMINATED_BEHIND = 1.0


class Skipped(Exception):
    """A case that can't be tried here."""


# ---- what a case asks for


def make(caller, *names, account=TEAM, **members):
    """Makes calendars, and gives the state behind it."""
    create = {f"k{number}": {"name": name, **members} for number, name in enumerate(names)}
    return caller.did("Calendar/set", {"accountId": account, "create": create})["newState"]


def names(caller, account=TEAM):
    """The names of all calendars."""
    return [item["name"] for item in caller.did("Calendar/get", {"accountId": account, "ids": None})["list"]]


def found(site, account=TEAM, **how):
    """The names that a start finds."""
    with site.serving(**how) as server, server.calling() as caller:
        return names(caller, account)


def once(site, *made, account=TEAM):
    """A run that makes calendars and is killed."""
    with site.serving() as server, server.calling() as caller:
        make(caller, *made, account=account)


def unopened(site, why, account=TEAM, **how):
    expect(site.refusal(**how), (6, f"jmapd: {why}: {site.journal(account)}\njmapd: open fault\n"))


def change(site, script, account=TEAM):
    """Changes a file by hand."""
    base = sqlite3.connect(site.journal(account))
    with base:
        base.execute(script)
    base.close()


# ---- stops


def terminated(site):
    """SIGTERM ends it at once, or when it likes with 0, and takes nothing that was answered."""
    team = Team(0)
    with site.serving() as server:
        team.begin(server)
        status = team.load(server, TERMINATED_BEHIND, signal.SIGTERM)
    assert status in (0, -signal.SIGTERM), f"it ended with {status}"
    with site.serving() as server:
        team.check(server)
    return f"status {status}, {sum(writer.requests for writer in team.everybody())} requests"


# ---- what is told at a start


def tells_that_nothing_is_kept(site):
    with site.serving("--workers", "2") as server, server.calling() as caller:
        make(caller, "Work")
        assert NOTHING_KEPT in server.told_at_start(), f"it told {server.told()!r}"
    expect(os.listdir(site.journals), [])
    with site.serving() as server:
        assert NOTHING_KEPT not in server.told_at_start(), f"it told {server.told()!r}"


def no_folder(site):
    os.rmdir(site.journals)
    unopened(site, "journal can't be opened")


def two_processes(site):
    with site.serving() as server, server.calling() as caller:
        make(caller, "Work")
        unopened(site, "journal in use")
        make(caller, "Home")
        expect(names(caller), ["Work", "Home"])
    expect(found(site), ["Work", "Home"])


def loses_rights():
    """What a process does before it is a program without rights, where this one has all."""
    return (lambda: os.setuid(NOBODY)) if os.getuid() == 0 else None


def without_rights(mode_of_files, mode_of_folder, is_filled):
    """A start by a user without rights on the files, or on the folder."""

    def tried(site):
        os.chmod(site.folder, 0o755)
        if is_filled:
            once(site, "Work")
        for name in os.listdir(site.journals):
            os.chmod(os.path.join(site.journals, name), mode_of_files)
        os.chmod(site.journals, mode_of_folder)
        try:
            unopened(site, "journal can't be opened", preexec_fn=loses_rights())
        except PermissionError as error:
            raise Skipped("nobody may not run the program where it lies") from error
        finally:
            os.chmod(site.journals, 0o755)
        if is_filled and os.getuid() == 0:
            expect(found(site), ["Work"])

    return tried


# ---- files that aren't the account's own


def foreign(site):
    with open(site.journal(), "w", encoding="utf-8") as file:
        file.write("This is no database. " * 500)
    unopened(site, "no journal")


def newer(site):
    once(site, "Work")
    change(site, "UPDATE about SET version = version + 1")
    unopened(site, "journal of a later version: open it with the program that made it, or a later one")


def damaged(site):
    once(site, "One", "Two", "Three")
    change(site, "UPDATE entry SET text = SUBSTR(text, 1, 40) WHERE place = 1")
    expect(site.refusal(), (10, f"jmapd: damaged entry: {TEAM} 1\n"))


def unsound(site):
    once(site, "One", "Two", "Three")
    change(site, "DELETE FROM entry WHERE place = 1")
    change(site, "UPDATE entry SET place = 1 WHERE place = 2")
    expect(site.refusal(), (11, f"jmapd: bad journal: {TEAM} object C3\n"))


def swapped(*made):
    """The files of two accounts under each other's names, with these entries or none."""

    def tried(site):
        with site.serving() as server, server.calling() as caller:
            for account in (TEAM, ROOMS) if made else ():
                make(caller, *made, account=account)
        copy = site.copy_journals("copy")
        for account, other in ((TEAM, ROOMS), (ROOMS, TEAM)):
            for end in ("", "-wal"):
                with contextlib.suppress(FileNotFoundError):
                    shutil.copy(os.path.join(copy, f"{account}.db{end}"), site.journal(other) + end)
        unopened(site, "journal of another account")

    return tried


# ---- configurations


def zone_gone(site):
    """A zone that a kept event needs is no longer in the configuration."""
    with site.serving() as server, server.calling() as caller:
        make(caller, "Work")
        caller.did("CalendarEvent/set", {"accountId": TEAM, "create": {"e": event(**ZONED)}})
    site.configure(configuration(zones=[]))
    server, is_up = site.tried()
    if is_up:
        server.end()
        told = "it serves"
    else:
        expect(server.ended(), (11, f"jmapd: bad journal: {TEAM} object E1\n"))
        told = f"status 11: {server.told().strip()}"
    site.configure(configuration())
    with site.serving() as server, server.calling() as caller:
        [kept] = fresh(caller, TEAM).objects["CalendarEvent"].values()
        expect(kept["timeZone"], ZONED["timeZone"])
    return told


def reordered(site):
    once(site, "Work")
    once(site, "Room", account=ROOMS)
    site.configure(configuration((ROOMS, TEAM)))
    expect((found(site), found(site, ROOMS)), (["Work"], ["Room"]))


def left_alone(site):
    """The file of an account that the configuration lacks."""
    once(site, "Work")
    once(site, "Room", account=ROOMS)
    before = contents(site, ROOMS)
    site.configure(configuration((TEAM,)))
    with site.serving() as server, server.calling() as caller:
        make(caller, "Home")
        expect(server.told_at_start()[:-1], [f"jmapd: journal of no account: {site.journal(ROOMS)}"])
    assert contents(site, ROOMS) == before, f"the file of {ROOMS} is another"
    site.configure(configuration())
    expect((found(site), found(site, ROOMS)), (["Work", "Home"], ["Room"]))


def contents(site, account):
    """The bytes of the files of an account."""
    held = {}
    for name in sorted(os.listdir(site.journals)):
        if name.startswith(f"{account}."):
            with open(os.path.join(site.journals, name), "rb") as file:
                held[name] = file.read()
    return held


def older_copy(site):
    """An older copy is put back, and the generation raised: who knows a later state is told so once."""
    once(site, "Work")
    copy = site.copy_journals("copy")
    with site.serving() as server, server.calling() as caller:
        state = make(caller, "Home", "Third")
        query = caller.did("CalendarEvent/query", {"accountId": TEAM})["queryState"]
    site.put_back(copy)
    site.configure(configuration(generation=1))
    with site.serving() as server, server.calling() as caller:
        since = caller.ask(
            ("Calendar/changes", {"accountId": TEAM, "sinceState": state}),
            ("CalendarEvent/changes", {"accountId": TEAM, "sinceState": query}),
            ("CalendarEvent/queryChanges", {"accountId": TEAM, "sinceQueryState": query}),
        )
        expect(since, [("error", {"type": "cannotCalculateChanges"})] * 3)
        expect(names(caller), ["Work"])
        expect((state, make(caller, "Again")), ("0-3", "1-2"))
    expect(found(site), ["Work", "Again"])


# ---- faults while it runs


def removed_folder(site):
    """The folder is removed under it: it goes on without an end of the process, and the next start tells."""
    with site.serving() as server, server.calling() as caller:
        make(caller, "Work")
        shutil.rmtree(site.journals)
        told, _ = caller.ask(("Calendar/set", {"accountId": TEAM, "create": {"k": {"name": "Home"}}}))[0]
        assert names(caller) in (["Work", "Home"], ["Work"])
        assert server.process.poll() is None, f"it ended with {server.ended()}"
    unopened(site, "journal can't be opened")
    os.mkdir(site.journals)
    expect(found(site), [])
    return "a set goes on" if told != "error" else "a set is answered serverFail"


def large(number):
    return ("Calendar/set", {"accountId": TEAM, "create": {"k": {"name": f"n{number}", "description": "x" * LARGE_BYTES}}})


def until_refused(caller):
    """Makes large calendars until one isn't kept, and gives how many were."""
    for number in range(MAX_LARGE):
        [answer] = caller.ask(large(number))
        if answer[0] == "error":
            expect(answer, SERVER_FAIL)
            return number
        assert answer[1]["created"], answer
    raise AssertionError(f"{MAX_LARGE} large calendars were all kept")


def refuses_changes(caller, count):
    """What would change something is refused from now on, also where it is small, while reads go on and tell what was answered."""
    wanted = [f"n{number}" for number in range(count)]
    changes = [{"create": {"k": {"name": "small"}}}, {"update": {"C1": {"name": "other"}}}, {"destroy": ["C1"]}]
    for arguments in changes:
        read = {"accountId": TEAM, "ids": None, "properties": ["name"]}
        refused, (told, came) = caller.ask(("Calendar/set", {"accountId": TEAM, **arguments}), ("Calendar/get", read))
        expect((refused, told), (SERVER_FAIL, "Calendar/get"))
        expect((came["state"], [item["name"] for item in came["list"]]), (f"0-{count}", wanted))
    [(_, since)] = caller.ask(("Calendar/changes", {"accountId": TEAM, "sinceState": "0-0"}))
    expect((since["newState"], len(since["created"])), (f"0-{count}", count))
    expect(caller.did("CalendarEvent/query", {"accountId": TEAM})["ids"], [])


def goes_on_behind(site, count):
    """The next start finds what was answered, maybe with the first call that wasn't, and takes changes again."""
    with site.serving() as server, server.calling() as caller:
        there = len(names(caller))
        assert there in (count, count + 1), f"{there} calendars are there, and {count} were answered"
        expect(names(caller), [f"n{number}" for number in range(there)])
        expect(make(caller, "after"), f"0-{there + 1}")
    expect(found(site)[-1], "after")
    return f"{count} sets answered, {there} found"


def small_files():
    """From here on no file grows beyond some bytes, and a write that would is a fault and no end of the process."""
    signal.signal(signal.SIGXFSZ, signal.SIG_IGN)
    resource.setrlimit(resource.RLIMIT_FSIZE, (FILE_BYTES, FILE_BYTES))


def full_file(site):
    """A file can't grow: its account is closed for changes, and the other one isn't."""
    with site.serving(preexec_fn=small_files) as server, server.calling() as caller:
        count = until_refused(caller)
        refuses_changes(caller, count)
        make(caller, "Room", account=ROOMS)
    expect(found(site, ROOMS), ["Room"])
    return goes_on_behind(site, count)


@contextlib.contextmanager
def small_disk(site):
    """A small file system at the folder of journals."""
    if os.getuid() or not (shutil.which("mkfs.ext4") and shutil.which("mount")):
        raise Skipped("only root can mount a small disk, by mkfs.ext4 and mount")
    image = os.path.join(site.folder, "disk")
    with open(image, "wb") as file:
        file.truncate(DISK_BYTES)
    for words in (["mkfs.ext4", "-q", "-F", image], ["mount", "-o", "loop", image, site.journals]):
        told = subprocess.run(words, stdout=subprocess.DEVNULL, stderr=subprocess.PIPE, timeout=SECONDS)
        if told.returncode:
            raise Skipped(f"{words[0]} failed here: {told.stderr.decode().strip()}")
    try:
        yield
    finally:
        subprocess.run(["umount", site.journals], check=True, timeout=SECONDS)


def take_room(name):
    """Fills the disk by a file, but for some bytes."""
    with open(name, "wb", buffering=0) as file:
        with contextlib.suppress(OSError):
            while True:
                file.write(b"\0" * 4_096)
        os.fsync(file.fileno())
        file.truncate(file.tell() - LEFT_BYTES)
        os.fsync(file.fileno())


def full_disk(site):
    """The disk is full: changes are refused, also when there is room again, until the next start."""
    with small_disk(site):
        filler = os.path.join(site.journals, "filler")
        with site.serving() as server, server.calling() as caller:
            take_room(filler)
            count = until_refused(caller)
            refuses_changes(caller, count)
            os.remove(filler)
            refuses_changes(caller, count)
        return goes_on_behind(site, count)


def full_disk_at_a_start(site):
    """A new account finds no room for its file: it doesn't start, and then it does."""
    with small_disk(site):
        filler = os.path.join(site.journals, "filler")
        take_room(filler)
        with open(filler, "ab", buffering=0) as file, contextlib.suppress(OSError):
            while True:
                file.write(b"\0")
        status, told = site.refusal()
        assert (status, told.splitlines()[-1:]) in ((6, ["jmapd: open fault"]), (9, ["jmapd: keep fault"])), f"it ended with {status}: {told}"
        os.remove(filler)
        once(site, "Work")
        expect(found(site), ["Work"])
    return f"status {status}: {told.splitlines()[0]}"


# ---- backup


def backup(site):
    """Stops, copies and starts again, with the seconds that each takes for 16 accounts of 3,000 events."""
    site.configure(configuration(many_accounts()))
    with site.serving() as server, server.calling() as caller:
        for account in many_accounts():
            fill(caller, account, BACKUP_EVENTS)
        stop = seconds_of(lambda: server.end(signal.SIGTERM))
    taken = []
    copy = seconds_of(lambda: taken.append(site.copy_journals("copy")))
    start = start_seconds(site)
    site.put_back(taken[0])
    restored = start_seconds(site)
    megabytes = sum(file.stat().st_size for file in os.scandir(site.journals)) / 1e6
    return f"{megabytes:.0f} MB: stop {stop:.2f} s, copy {copy:.2f} s, start {start:.2f} s, start over the copy {restored:.2f} s"


def seconds_of(work):
    begun = time.perf_counter()
    work()
    return time.perf_counter() - begun


def start_seconds(site):
    """From a start until it serves, where it then has all accounts."""
    with site.serving() as server:
        seconds = time.perf_counter() - server.begun
        with server.calling() as caller:
            for account in many_accounts():
                state = caller.did("CalendarEvent/get", {"accountId": account, "ids": [f"E{BACKUP_EVENTS}"]})["state"]
                expect(state, f"0-{BACKUP_EVENTS}")
    return seconds


CASES = {
    "SIGTERM under load": terminated,
    "nothing is kept without --journals": tells_that_nothing_is_kept,
    "no folder": no_folder,
    "two processes on one folder": two_processes,
    "a read-only file": without_rights(0o444, 0o777, True),
    "a file without rights": without_rights(0o000, 0o777, True),
    "a read-only folder": without_rights(0o444, 0o555, False),
    "a folder without rights": without_rights(0o444, 0o000, False),
    "no database": foreign,
    "a later version": newer,
    "a damaged entry": damaged,
    "an entry missing": unsound,
    "files of two accounts swapped": swapped("Work"),
    "files of two accounts without an entry swapped": swapped(),
    "a zone gone from the configuration": zone_gone,
    "accounts reordered": reordered,
    "an account that the configuration lacks": left_alone,
    "an older copy with a higher generation": older_copy,
    "the folder removed while it runs": removed_folder,
    "a file that can't grow": full_file,
    "a full disk": full_disk,
    "a full disk at a start": full_disk_at_a_start,
}
