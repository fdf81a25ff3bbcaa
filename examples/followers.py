#!/usr/bin/env python3
"""Has two clients of other makes follow what a third changes, over journals, while `jmapd listen --journals --sockets-port` is killed and started again.

One is told over a WebSocket (the Python module websocket), the other by a stream of events (curl). Each time that one is told of a state it hasn't, it syncs by `/changes` and `/get`, and then
has just the events that the account has. The third creates, updates and destroys events, in an order that `--seed` decides. Now and then the program is killed by SIGKILL and started over the
same journals, and something changes before the two are back: they open a WebSocket, and a stream with the id of the last event, and miss nothing.

    examples/followers.py [PATH_OF_THE_PROGRAM] [--changes 60] [--kills 2] [--seed 1]
"""

import argparse
import contextlib
import json
import random
import shutil
import subprocess
import sys
import tempfile
import threading
import time

try:
    import websocket
except ImportError:
    websocket = None

from events import Writer, query
from peers import CONFIGURATION, free_port, joined

# How long a state may take to be told, in seconds: a socket looks each half of a second, and the machine may be busy.
TOLD_IN = 5
USER = "Authorization: Bearer t-ann"


class Server:
    """The program over journals in a folder, which may be killed and started again."""

    def __init__(self, program, folder):
        self.http, self.port = free_port(), free_port()
        ports = ["--port", str(self.http), "--sockets-port", str(self.port)]
        self.command = [program, "listen", "--config", CONFIGURATION, "--journals", folder, *ports]
        self.start()

    def start(self):
        self.process = subprocess.Popen(self.command, stderr=subprocess.DEVNULL)
        for port in (self.http, self.port):
            joined(port).close()

    def kill(self):
        self.process.kill()
        self.process.wait()


class Follower:
    """A copy of the events of an account, which is brought on where a state is told that it hasn't. How it is told is for those below to say."""

    def __init__(self, server):
        self.asker = Writer(server.http)
        self.port = server.port
        self.known, self.state = {}, None
        self.told = threading.Condition()
        self.newest = None
        self.states = 0

    def note(self, changed):
        """Notes what a StateChange tells."""
        state = changed.get("A1", {}).get("CalendarEvent")
        with self.told:
            self.states += 1
            self.newest = state or self.newest
            self.told.notify_all()

    def is_told(self, state):
        with self.told:
            return self.told.wait_for(lambda: self.newest == state, TOLD_IN)

    def sync(self):
        """Takes what changed since the state of the copy."""
        if self.state is None:
            self.known, self.state = titles(self.asker)
        more = True
        while more:
            (changes,) = self.asker.asked(["CalendarEvent/changes", {"accountId": "A1", "sinceState": self.state, "maxChanges": 7}, "c"])
            found, _ = titles(self.asker, changes["created"] + changes["updated"])
            self.known = {key: title for key, title in (self.known | found).items() if key not in changes["destroyed"]}
            self.state, more = changes["newState"], changes["hasMoreChanges"]


class BySocket(Follower):
    """Is told over a WebSocket (RFC 8887 section 4.3.5)."""

    def __init__(self, server):
        super().__init__(server)
        self.open()

    def open(self):
        self.socket = websocket.create_connection(f"ws://127.0.0.1:{self.port}/jmap/ws", subprotocols=["jmap"], header=[USER], timeout=60)
        self.socket.send(json.dumps({"@type": "WebSocketPushEnable", "dataTypes": ["CalendarEvent"]}))
        threading.Thread(target=self.listen, args=(self.socket,), daemon=True).start()

    def listen(self, socket):
        with contextlib.suppress(OSError, websocket.WebSocketException, ValueError):
            while text := socket.recv():
                self.note(json.loads(text)["changed"])

    def close(self):
        self.socket.shutdown()


class ByEvents(Follower):
    """Is told by a stream of events that curl reads (RFC 8620 section 7.3)."""

    def __init__(self, server):
        super().__init__(server)
        self.last = None
        self.open()

    def open(self):
        fields = ["-H", USER, *(["-H", f"Last-Event-ID: {self.last}"] if self.last else [])]
        command = [shutil.which("curl"), "--silent", "--no-buffer", *fields, f"http://127.0.0.1:{self.port}/events?{query(types='CalendarEvent')}"]
        self.curl = subprocess.Popen(command, stdout=subprocess.PIPE, text=True)
        threading.Thread(target=self.listen, args=(self.curl.stdout,), daemon=True).start()

    def listen(self, lines):
        for line in lines:
            if line.startswith("id: "):
                self.last = line[4:].rstrip("\n")
            elif line.startswith("data: "):
                self.note(json.loads(line[6:])["changed"])

    def close(self):
        self.curl.kill()
        self.curl.wait()


def titles(asker, ids=None):
    """The titles of events by id, and their state."""
    (found,) = asker.asked(["CalendarEvent/get", {"accountId": "A1", "ids": ids, "properties": ["title"]}, "g"])
    return {it["id"]: it["title"] for it in found["list"]}, found["state"]


class Changer:
    """Who changes events, and has a model of its own of what they are then."""

    def __init__(self, server, seed):
        self.asker = Writer(server.http)
        self.by_chance = random.Random(seed)
        self.count = 0
        self.titles = {}
        self.asker.makes("Team")

    def change(self):
        """Makes one change, and gives the state that it led to."""
        self.count += 1
        title, kind = f"Meeting {self.count}", self.by_chance.choice(["create", "create", "update", "destroy"])
        if not self.titles or kind == "create":
            made = {"calendarIds": {"C1": True}, "start": "2026-12-02T09:00:00", "duration": "PT1H", "title": title}
            given = self.set({"create": {"k": made}})
            self.titles[given["created"]["k"]["id"]] = title
        elif kind == "update":
            key = self.by_chance.choice(sorted(self.titles))
            given = self.set({"update": {key: {"title": title}}})
            self.titles[key] = title
        else:
            key = self.by_chance.choice(sorted(self.titles))
            given = self.set({"destroy": [key]})
            del self.titles[key]
        return given["newState"]

    def set(self, arguments):
        (given,) = self.asker.asked(["CalendarEvent/set", {"accountId": "A1", **arguments}, "s"])
        if any(given.get(refused) for refused in ("notCreated", "notUpdated", "notDestroyed")):
            sys.exit(f"examples/followers.py: refused: {given}")
        return given


def is_followed(follower, changer, state):
    """Whether a follower is told the state, and has what there is once it has synced."""
    told = follower.is_told(state)
    follower.sync()
    return told and (follower.known, follower.state) == (changer.titles, state)


def begun_again(server, followers, changer):
    """Kills the program, starts it again, and has something changed before the followers are back."""
    server.kill()
    for follower in followers:
        follower.close()
    server.start()
    state = changer.change()
    for follower in followers:
        follower.open()
    return state


def main():
    words = argparse.ArgumentParser()
    words.add_argument("program", nargs="?", default="crates/jmapd/out/jmapd")
    words.add_argument("--changes", type=int, default=60)
    words.add_argument("--kills", type=int, default=2)
    words.add_argument("--seed", type=int, default=1)
    asked = words.parse_args()
    if websocket is None or shutil.which("curl") is None:
        print("examples/followers.py: skipped, since the Python module websocket or curl isn't here")
        return
    with tempfile.TemporaryDirectory() as folder:
        server = Server(asked.program, folder)
        try:
            sys.exit(followed(server, asked))
        finally:
            server.kill()


def followed(server, asked):
    """Has all changes made, and gives 1 where one of them wasn't followed."""
    changer = Changer(server, asked.seed)
    followers = [BySocket(server), ByEvents(server)]
    killed = {asked.changes * (turn + 1) // (asked.kills + 1) for turn in range(asked.kills)}
    missed, slowest = [], 0
    for turn in range(asked.changes):
        state = begun_again(server, followers, changer) if turn in killed else changer.change()
        since = time.monotonic()
        missed += [f"change {turn}, {type(follower).__name__}" for follower in followers if not is_followed(follower, changer, state)]
        slowest = max(slowest, time.monotonic() - since)
    for follower in followers:
        follower.close()
    for each in missed[:20]:
        print(f"examples/followers.py: {each}: not followed")
    if not missed:
        print(f"examples/followers.py: both followed all of {asked.changes} changes, over {len(killed)} kills; the slowest took {slowest:.1f} s")
    return int(bool(missed))


if __name__ == "__main__":
    main()
