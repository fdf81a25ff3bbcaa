#!/usr/bin/env python3
"""Times `jmapd listen --journals` beside SQLite alone, which commits the same texts with a flush each: creates of one client and of 16 on accounts of their own, gets with and without
journals, a start with 16 accounts of 3,000 events, the size of a file, and the memory of a server at rest. It prints a table with what was asked beside each figure; the exit status is 1
where something was missed. TMPDIR says on which disk.

    bench/durable.py [--rounds N] [PATH_OF_THE_PROGRAM]
"""

import contextlib
import dataclasses
import multiprocessing
import os
import shutil
import signal
import sqlite3
import statistics
import sys
import tempfile
import time

from journal import insert, own_journal
from listen import Peer, Server, message, under_load
from measure import options, service_environment

sys.dont_write_bytecode = True
sys.path.insert(0, os.path.join(os.path.dirname(os.path.dirname(os.path.abspath(__file__))), "examples"))
from served import MAX_ACCOUNTS, Caller, Site, configuration, event, fill, many_accounts  # noqa: E402

# Each turn is short, and the least of many is taken, since other programs take the processors and the disk now and then.
CREATES = 50
CREATE_TURNS = 4
GETS = 200
GET_TURNS = 20
GOT = 100
EVENTS = 3_000
MAX_SECONDS = 120
MAX_CREATE = 1.3
LEAST_SCALE = 3
MAX_GET = 1.05
MAX_START_SECONDS = 1.0
MAX_SIZE = 1.5
MAX_MEMORY = 40


@dataclasses.dataclass
class Row:
    """A line of the table."""

    what: str
    came: str
    beside: str
    figure: str
    asked: str
    is_met: bool

    def show(self):
        print(f"{self.what:44} {self.came:26} {self.beside:36} {self.figure:>10}  {self.asked:14} {'met' if self.is_met else 'missed'}", flush=True)


class Timed:
    """What is read of a server's process."""

    def __init__(self, served):
        self.port, self.process = served.port, served.process

    def seconds(self):
        """Seconds of processor of all its threads so far, by the clock that Linux has for the process, whose number is made from the process's."""
        return time.clock_gettime(~self.process.pid << 3 | 2)

    memory = Server.memory


@contextlib.contextmanager
def site_of(program, accounts):
    with tempfile.TemporaryDirectory() as folder:
        site = Site(os.path.abspath(program), folder)
        site.configure(configuration(accounts))
        yield site


def serving(site, *words):
    return site.serving(*words, env=service_environment())


def side_by_side(work, arguments):
    """The seconds until as many processes as there are arguments have done the work, from when all are ready for it. Each meets the others twice: before its work and behind it."""
    meeting = multiprocessing.Barrier(len(arguments) + 1, timeout=MAX_SECONDS)
    workers = [multiprocessing.Process(target=work, args=(*given, meeting)) for given in arguments]
    for worker in workers:
        worker.start()
    meeting.wait()
    begun = time.perf_counter()
    meeting.wait()
    taken = time.perf_counter() - begun
    for worker in workers:
        worker.join()
    return taken


def create_each(port, account, meeting):
    """Makes events of an account, each when the one before it is answered."""
    peer = Peer(port)
    text = message("CalendarEvent/set", {"accountId": account, "create": {"k": event()}})
    meeting.wait()
    for _ in range(CREATES):
        peer.send(text)
        peer.answer()
    meeting.wait()
    peer.close()


def commit_each(path, texts, meeting):
    """Commits each text by itself."""
    base = own_journal(path)
    meeting.wait()
    for place, text in enumerate(texts):
        insert(base, [("A1", place, text)])
    meeting.wait()
    base.close()


@contextlib.contextmanager
def copy_of(site, account):
    """A copy of an account's journal, into whose file the log was taken. It is one state of it, since nobody writes meanwhile."""
    with tempfile.TemporaryDirectory() as folder:
        path = os.path.join(folder, "copy.db")
        for end in ("", "-wal"):
            if os.path.exists(site.journal(account) + end):
                shutil.copy(site.journal(account) + end, path + end)
        base = sqlite3.connect(path)
        base.execute("PRAGMA wal_checkpoint(TRUNCATE)").fetchall()
        yield path, base
        base.close()


def texts_of(site, account):
    with copy_of(site, account) as (_, base):
        return [text for (text,) in base.execute("SELECT text FROM entry ORDER BY place")]


def timed_creates(program, accounts, turns):
    """By turns, the seconds in which a client of each account makes its events, and those in which SQLite alone commits the same texts; the least of each."""
    taken, alone = [], []
    with site_of(program, accounts) as site, serving(site) as server:
        with server.calling() as caller:
            for account in accounts:
                fill(caller, account, 0)
        for turn in range(turns):
            taken.append(side_by_side(create_each, [(server.port, account) for account in accounts]))
            texts = {account: texts_of(site, account)[-CREATES:] for account in accounts}
            own = {account: os.path.join(site.folder, f"alone_{turn}_{account}.db") for account in accounts}
            alone.append(side_by_side(commit_each, [(own[account], texts[account]) for account in accounts]))
        with server.calling() as caller:
            check_states(caller, accounts, turns * CREATES)
    return min(taken), min(alone)


def check_states(caller, accounts, events):
    """Each account has all the events that were made, and no others."""
    for account in accounts:
        state = caller.did("CalendarEvent/get", {"accountId": account, "ids": [f"E{events}"], "properties": ["title"]})["state"]
        if state != f"0-{events}":
            sys.exit(f"{account} has the state {state}, and not that of {events} events")


def middle(work, things):
    """The median of the seconds that the work takes, on one thing after the other."""
    seconds = []
    for thing in things:
        begun = time.perf_counter()
        work(thing)
        seconds.append(time.perf_counter() - begun)
    return statistics.median(seconds)


def timed_one(program, turns):
    """By turns, the seconds of a create of one client, of a commit of its text by SQLite alone, and of an echo, which is the way there and back: the least median of each."""
    echo = message("Core/echo", {})
    text = message("CalendarEvent/set", {"accountId": "A1", "create": {"k": event()}})
    taken, alone, echoes = [], [], []
    with site_of(program, ["A1"]) as site, serving(site) as server, contextlib.closing(Peer(server.port)) as peer:
        with server.calling() as caller:
            fill(caller, "A1", 0)
        for turn in range(turns):
            echoes.append(middle(lambda message: (peer.send(message), peer.answer()), [echo] * CREATES))
            taken.append(middle(lambda message: (peer.send(message), peer.answer()), [text] * CREATES))
            rows = [("A1", place, kept) for place, kept in enumerate(texts_of(site, "A1")[-CREATES:])]
            with contextlib.closing(own_journal(os.path.join(site.folder, f"alone_{turn}.db"))) as base:
                alone.append(middle(lambda row: insert(base, [row]), rows))
        with server.calling() as caller:
            check_states(caller, ["A1"], turns * CREATES)
    return min(taken), min(alone), min(echoes)


def creates(program, rounds):
    """One client's creates, and those of 16 on as many accounts against one."""
    turns = rounds * CREATE_TURNS
    taken, alone, echo = timed_one(program, turns)
    ratio = taken / alone
    beside = f"SQLite alone {alone * 1e3:.2f} ms, echo {echo * 1e3:.2f} ms"
    yield Row("a create of one client", f"{taken * 1e3:.2f} ms", beside, f"{ratio:.2f}", f"at most {MAX_CREATE}", ratio <= MAX_CREATE)
    one, one_alone = timed_creates(program, ["A1"], turns)
    many, many_alone = timed_creates(program, many_accounts(), turns)
    rates = f"{MAX_ACCOUNTS * CREATES / many:.0f} to {CREATES / one:.0f} a second"
    beside = f"SQLite alone {MAX_ACCOUNTS * one_alone / many_alone:.1f} times"
    scale = MAX_ACCOUNTS * one / many
    yield Row(f"creates of {MAX_ACCOUNTS} clients against one", rates, beside, f"{scale:.1f}", f"at least {LEAST_SCALE}", scale >= LEAST_SCALE)


def gets(program, rounds):
    """Gets with journals beside gets without: the server's processor time of a request, by turns."""
    text = message("CalendarEvent/get", {"accountId": "A1", "ids": [f"E{number + 1}" for number in range(GOT)]})
    with site_of(program, ["A1"]) as site, serving(site) as with_journals, serving(site, "--workers", "16") as without:
        servers = [Timed(with_journals), Timed(without)]
        for server in servers:
            with contextlib.closing(Caller(server.port)) as caller:
                fill(caller, "A1", GOT)
        taken = [[under_load(server, [text], 1, GETS) for server in servers] for _ in range(rounds * GET_TURNS)]
    (rate, kept), (rate_without, plain) = ((max(rates), min(each)) for rates, each in (zip(*of_one) for of_one in zip(*taken)))
    beside = f"without {plain:.0f} us, {rate_without:.0f} a second"
    yield Row(f"gets of {GOT} events, processor", f"{kept:.0f} us, {rate:.0f} a second", beside, f"{kept / plain:.3f}", f"under {MAX_GET}", kept / plain < MAX_GET)


def start_seconds(site):
    """From a start until the port is there."""
    begun = time.perf_counter()
    with serving(site) as server:
        taken = time.perf_counter() - begun
        with server.calling() as caller:
            check_states(caller, many_accounts(), EVENTS)
    return taken


def read_seconds(site):
    """The seconds in which SQLite alone reads all texts of all accounts."""
    taken = 0.0
    for account in many_accounts():
        with copy_of(site, account) as (_, base):
            begun = time.perf_counter()
            base.execute("SELECT text FROM entry ORDER BY place").fetchall()
            taken += time.perf_counter() - begun
    return taken


def full_site(program, rounds):
    """Memory at rest, a start over full accounts, and the size of a file."""
    with site_of(program, many_accounts()) as site:
        with serving(site) as server:
            memory = Timed(server).memory() * 1_024 / 1e6
            with server.calling() as caller:
                for account in many_accounts():
                    fill(caller, account, EVENTS)
            server.end(signal.SIGTERM)
        start = min(start_seconds(site) for _ in range(rounds))
        alone = min(read_seconds(site) for _ in range(rounds))
        beside = f"SQLite alone reads in {alone:.2f} s"
        yield Row(f"start with {MAX_ACCOUNTS} accounts of {EVENTS:,}", f"{start:.2f} s", beside, f"{start / alone:.1f}", f"under {MAX_START_SECONDS:.0f} s", start < MAX_START_SECONDS)
        yield size_of_file(site)
    yield Row(f"memory of {MAX_ACCOUNTS} accounts with nothing in them", f"{memory:.0f} MB", "", "", f"under {MAX_MEMORY} MB", memory < MAX_MEMORY)


def size_of_file(site):
    """The file with all that was in its log, against the texts in it."""
    with copy_of(site, "A1") as (path, base):
        [(count, texts)] = base.execute("SELECT COUNT(*), SUM(LENGTH(text)) FROM entry")
        size = os.path.getsize(path)
    log = site.journal("A1") + "-wal"
    beside = f"log {os.path.getsize(log) / 1e6 if os.path.exists(log) else 0:.2f} MB"
    ratio = size / texts
    return Row(f"file of {count:,} texts of {texts / count:.0f} bytes", f"{size / 1e6:.2f} MB", beside, f"{ratio:.2f}", f"at most {MAX_SIZE}", ratio <= MAX_SIZE)


def main():
    chosen = options(__doc__)
    missed = 0
    print(f"{'what':44} {'jmapd':26} {'beside':36} {'ratio':>10}  asked")
    for measuring in (creates, gets, full_site):
        for row in measuring(chosen.binary, chosen.rounds):
            row.show()
            missed += not row.is_met
    print("all goals are met" if not missed else f"{missed} missed")
    sys.exit(1 if missed else 0)


if __name__ == "__main__":
    main()
