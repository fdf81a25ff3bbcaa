"""A `jmapd listen` over journals in a folder of its own, and callers that talk to it, for the scripts beside this file and for bench/durable.py."""

import contextlib
import json
import os
import shutil
import signal
import socket
import subprocess
import tempfile
import time

from kept import USING
from peers import answer, free_port, joined

PROGRAM = "crates/jmapd/out/jmapd"
SECONDS = 30
TOKEN = "t-ann"
ZONE = {"name": "America/New_York", "rule": "EST5EDT,M3.2.0,M11.1.0"}
MAX_ACCOUNTS = 16
MAX_OBJECTS = 500
# A port is free when it is asked for, and another program may take it before the server does.
PORTS_TRIED = 3
PORT_TAKEN = (6, "jmapd: open fault\n")


class Cut(Exception):
    """The server ended before a whole answer had come."""


def configuration(accounts=("A1", "A2"), **members):
    """A configuration with one user, who has these accounts."""
    listed = [{"id": account, "name": f"Account {account}"} for account in accounts]
    user = {"name": "ann", "token": TOKEN, "accounts": sorted(accounts)}
    return {"baseUrl": "http://localhost:8080", "accounts": listed, "users": [user], "zones": [ZONE]} | members


def many_accounts():
    """As many accounts as a configuration takes."""
    return [f"A{number + 1}" for number in range(MAX_ACCOUNTS)]


class Caller:
    """A kept connection of a client."""

    def __init__(self, port):
        self.peer = joined(port)
        self.peer.setsockopt(socket.IPPROTO_TCP, socket.TCP_NODELAY, 1)
        self.peer.settimeout(SECONDS)
        self.stream = self.peer.makefile("rb")

    def ask(self, *calls):
        """The responses to these calls, which are made by one request: of each its name and its arguments."""
        body = json.dumps({"using": USING, "methodCalls": [[name, arguments, f"c{place}"] for place, (name, arguments) in enumerate(calls)]}).encode()
        head = f"POST /jmap HTTP/1.1\r\nHost: localhost\r\nAuthorization: Bearer {TOKEN}\r\nContent-Length: {len(body)}\r\n\r\n"
        status, text = self.exchanged(head.encode() + body)
        if status != "HTTP/1.1 200 OK":
            raise AssertionError(f"answered {status!r}")
        try:
            responses = json.loads(text)["methodResponses"]
        except ValueError as error:
            raise Cut from error
        if [response[2] for response in responses] != [f"c{place}" for place in range(len(calls))]:
            raise AssertionError(f"other responses than calls: {text[:300]!r}")
        return [(name, arguments) for name, arguments, _ in responses]

    def exchanged(self, message):
        try:
            self.peer.sendall(message)
            status, text = answer(self.stream)
        except TimeoutError:
            raise
        except OSError as error:
            raise Cut from error
        if len(status) < len("HTTP/1.1 200 OK"):
            raise Cut
        return status, text

    def did(self, name, arguments):
        """The arguments of the response to one call, which may not be refused."""
        [(told, came)] = self.ask((name, arguments))
        if told != name or any(came.get(refused) for refused in ("notCreated", "notUpdated", "notDestroyed", "notFound")):
            raise AssertionError(f"{name} was answered {told} {json.dumps(came)[:300]}")
        return came

    def close(self):
        self.stream.close()
        self.peer.close()


class Served:
    """A server that was started. Whoever starts it ends it."""

    def __init__(self, words, folder, port, **how):
        self.port = port
        self.errors = tempfile.TemporaryFile()
        self.begun = time.perf_counter()
        self.process = subprocess.Popen([*words, "--port", str(port)], stdin=subprocess.DEVNULL, stderr=self.errors, cwd=folder, **how)

    def is_up(self):
        """Waits until it serves, which it doesn't where it ends instead."""
        until = time.monotonic() + SECONDS
        while self.process.poll() is None:
            try:
                socket.create_connection(("127.0.0.1", self.port), timeout=SECONDS).close()
                return True
            except ConnectionRefusedError:
                if time.monotonic() > until:
                    self.end()
                    raise TimeoutError("jmapd neither serves nor ends") from None
                time.sleep(0.002)
        return False

    def told(self):
        """What it wrote on standard error so far."""
        self.errors.seek(0)
        return self.errors.read().decode()

    def told_at_start(self):
        """The lines that it wrote until it told where it listens, and that line."""
        until = time.monotonic() + SECONDS
        while "listening on " not in (told := self.told()) and time.monotonic() < until:
            time.sleep(0.002)
        return told.splitlines()

    def ended(self):
        """Its exit status and what it wrote on standard error."""
        return self.process.returncode, self.told()

    def end(self, by=signal.SIGKILL):
        """Ends it by a signal, and gives its exit status."""
        self.process.send_signal(by)
        return self.process.wait(SECONDS)

    def caller(self):
        return Caller(self.port)

    @contextlib.contextmanager
    def calling(self):
        caller = self.caller()
        try:
            yield caller
        finally:
            caller.close()


class Site:
    """A folder with a configuration and a folder of journals, over which the program is started."""

    def __init__(self, program, folder):
        self.program, self.folder = program, folder
        self.journals = os.path.join(folder, "journals")
        os.mkdir(self.journals)
        self.configure(configuration())

    def configure(self, value):
        with open(os.path.join(self.folder, "site.json"), "w", encoding="utf-8") as file:
            json.dump(value, file)

    def journal(self, account="A1"):
        return os.path.join(self.journals, f"{account}.db")

    def begin(self, *words, **how):
        """Starts it, and doesn't wait."""
        given = words or ("--journals", self.journals, "--workers", "16")
        return Served([self.program, "listen", "--config", "site.json", *given], self.folder, free_port(), **how)

    def tried(self, *words, **how):
        """The server, and whether it serves."""
        for _ in range(PORTS_TRIED):
            server = self.begin(*words, **how)
            if server.is_up():
                return server, True
            if server.ended() != PORT_TAKEN:
                break
        return server, False

    def refusal(self, *words, **how):
        """The exit status of a start that comes to nothing, and what it wrote on standard error."""
        server, is_up = self.tried(*words, **how)
        if is_up:
            server.end()
            raise AssertionError(f"it serves, and told {server.told()!r}")
        return server.ended()

    @contextlib.contextmanager
    def serving(self, *words, **how):
        server, is_up = self.tried(*words, **how)
        if not is_up:
            raise AssertionError(f"it ended with {server.ended()}")
        try:
            yield server
        finally:
            server.end()

    def copy_journals(self, name):
        """A copy of the folder of journals, while nobody has them open."""
        copy = os.path.join(self.folder, name)
        shutil.copytree(self.journals, copy)
        return copy

    def put_back(self, copy):
        shutil.rmtree(self.journals)
        shutil.copytree(copy, self.journals)


def event(**members):
    """An event of the first calendar, whose entry has a text of about 330 bytes."""
    return {"calendarIds": {"C1": True}, "start": "2026-11-27T09:00:00", "duration": "PT1H", "title": "Planning", "description": "d" * 30} | members


def fill(caller, account, events):
    """Makes a calendar and so many events in an account that has nothing."""
    caller.did("Calendar/set", {"accountId": account, "create": {"c": {"name": "Team"}}})
    for first in range(0, events, MAX_OBJECTS):
        count = min(MAX_OBJECTS, events - first)
        caller.did("CalendarEvent/set", {"accountId": account, "create": {f"k{number}": event() for number in range(count)}})
