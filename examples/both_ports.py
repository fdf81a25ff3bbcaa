#!/usr/bin/env python3
"""Has clients talk to `jmapd listen --sockets-port` over HTTP and over WebSockets, on the same accounts.

What a socket changes a connection sees at once, and the other way round; of 400 calendars that four of each make at the same time each is there once, in the order of one history. The
session object lists the address of WebSockets that the configuration gives. Open sockets, as many as their workers, hold up no connection; the next one is served when one of them closes.
Handshakes that don't come hold a worker for 10 s and no longer. And with `--journals`, what was answered on either is there behind `kill -9` and a new start.

    examples/both_ports.py [PATH_OF_THE_PROGRAM]
"""

import base64
import contextlib
import http.client
import json
import os
import pathlib
import socket
import struct
import subprocess
import sys
import tempfile
import threading
import time

from peers import free_port, joined

CORE, CALENDARS, WEBSOCKET = ("urn:ietf:params:jmap:" + name for name in ("core", "calendars", "websocket"))
SITE = json.loads(pathlib.Path("examples/site.json").read_text(encoding="utf-8"))
URL = "wss://calendar.example/jmap/ws"
WORKERS = 4


def request(calls):
    return {"using": [CORE, CALENDARS, WEBSOCKET], "methodCalls": calls}


def made(name):
    return [["Calendar/set", {"accountId": "A1", "create": {"k": {"name": name}}}, "s"]]


LISTED = [["Calendar/get", {"accountId": "A1"}, "g"]]


class Http:
    """A client that opens a connection for each request."""

    def __init__(self, port):
        self.port = port

    def sent(self, method, path, body=None):
        peer = http.client.HTTPConnection("127.0.0.1", self.port, timeout=60)
        peer.request(method, path, body, {"Authorization": "Bearer t-ann"})
        answer = json.loads(peer.getresponse().read())
        peer.close()
        return answer

    def asked(self, calls):
        return self.sent("POST", "/jmap", json.dumps(request(calls)))["methodResponses"][0][1]

    def close(self):
        pass


class Socket:
    """A client over one WebSocket."""

    def __init__(self, port, seconds=60):
        self.peer = joined(port)
        self.peer.settimeout(seconds)
        self.stream = self.peer.makefile("rb")
        key = base64.b64encode(os.urandom(16)).decode()
        head = f"GET /jmap/ws HTTP/1.1\r\nHost: localhost\r\nUpgrade: websocket\r\nConnection: Upgrade\r\nSec-WebSocket-Key: {key}\r\nSec-WebSocket-Version: 13\r\n"
        self.peer.sendall((head + "Sec-WebSocket-Protocol: jmap\r\nAuthorization: Bearer t-ann\r\n\r\n").encode())
        self.status = self.stream.readline().split()[1:2]
        while self.stream.readline() not in (b"\r\n", b""):
            pass

    def framed(self, opcode, payload):
        """A frame, whose mask of zeros leaves the payload as it is."""
        length = struct.pack("!B", 0x80 | len(payload)) if len(payload) < 126 else struct.pack("!BH", 0xFE, len(payload))
        self.peer.sendall(bytes([0x80 | opcode]) + length + bytes(4) + payload)

    def read(self):
        first, count = self.stream.read(2)
        if count > 125:
            (count,) = struct.unpack("!H" if count == 126 else "!Q", self.stream.read(2 if count == 126 else 8))
        return first & 15, self.stream.read(count)

    def asked(self, calls):
        self.framed(1, json.dumps({"@type": "Request", "id": "r", **request(calls)}).encode())
        opcode, text = self.read()
        reply = json.loads(text)
        if (opcode, reply["@type"], reply["requestId"]) != (1, "Response", "r"):
            sys.exit(f"replied {text}")
        return reply["methodResponses"][0][1]

    def close(self):
        self.framed(8, struct.pack("!H", 1000))
        self.read()
        self.peer.close()


class Server:
    """The program, with a configuration that gives an address of WebSockets."""

    def __init__(self, program, folder, *more):
        self.program, self.more = program, more
        self.site = pathlib.Path(folder) / "site.json"
        self.site.write_text(json.dumps({**SITE, "webSocketUrl": URL}), encoding="utf-8")

    @contextlib.contextmanager
    def running(self):
        self.port, self.sockets_port = free_port(), free_port()
        words = [self.program, "listen", "--config", str(self.site), "--port", str(self.port), "--workers", "4", *self.more]
        words += ["--sockets-port", str(self.sockets_port), "--socket-workers", str(WORKERS)]
        server = subprocess.Popen(words, stderr=subprocess.PIPE, text=True)
        lines = [server.stderr.readline().strip() for _ in range(2 if "--journals" in self.more else 3)]
        self.told = lines[-2:] == [f"listening on 127.0.0.1:{self.port}, 4 workers, {len(SITE['accounts'])} accounts", f"sockets on 127.0.0.1:{self.sockets_port}, {WORKERS} workers"]
        try:
            yield self
        finally:
            server.kill()
            server.wait()
            server.stderr.close()


def names(client):
    return [calendar["name"] for calendar in client.asked(LISTED)["list"]]


def both_see_both(server):
    web, peer = Http(server.port), Socket(server.sockets_port)
    state = peer.asked(made("by socket"))["newState"]
    changes = web.asked([["Calendar/changes", {"accountId": "A1", "sinceState": state}, "c"]])
    yield "a connection sees what a socket changed", names(web) == ["by socket"] and changes["newState"] == state
    web.asked(made("by connection"))
    yield "a socket sees what a connection changed", names(peer) == ["by socket", "by connection"]
    peer.close()


def all_at_once(server):
    clients = [Http(server.port) for _ in range(4)] + [Socket(server.sockets_port) for _ in range(4)]
    states = [[] for _ in clients]

    def makes(number):
        for count in range(50):
            reply = clients[number].asked(made(f"{number} {count}"))
            states[number].append((reply["oldState"], reply["newState"]))

    threads = [threading.Thread(target=makes, args=(number,)) for number in range(len(clients))]
    for thread in threads:
        thread.start()
    for thread in threads:
        thread.join()
    found = names(clients[0])[2:]
    wanted = {f"{number} {count}" for number in range(len(clients)) for count in range(50)}
    yield "each of 400 calendars is there once", len(found) == 400 and set(found) == wanted
    yield "each client's own come in its order", all([name for name in found if name.startswith(f"{number} ")] == [f"{number} {count}" for count in range(50)] for number in range(len(clients)))
    steps = sorted((int(new.split("-")[1]), int(old.split("-")[1])) for own in states for old, new in own)
    yield "each was one step of one history", [new for new, _ in steps] == list(range(3, 403)) and all(new == old + 1 for new, old in steps)
    for client in clients:
        client.close()


def discovery(server):
    session = Http(server.port).sent("GET", "/.well-known/jmap")
    yield "the session object has the address", session["capabilities"][WEBSOCKET] == {"url": URL, "supportsPush": True}
    yield "it is no capability of an account", all(WEBSOCKET not in account["accountCapabilities"] for account in session["accounts"].values())


def open_sockets(server):
    held = [Socket(server.sockets_port) for _ in range(WORKERS)]
    yield "as many sockets as workers are open", all(peer.status == [b"101"] for peer in held)
    begun = time.monotonic()
    names(Http(server.port))
    yield "they hold up no connection", time.monotonic() - begun < 5
    came = []
    thread = threading.Thread(target=lambda: came.append(Socket(server.sockets_port)))
    thread.start()
    thread.join(1)
    waits = not came
    held.pop().close()
    thread.join(20)
    yield "one more waits until one of them closes", waits and came and came[0].status == [b"101"]
    for peer in held + came:
        peer.close()


def handshakes_that_do_not_come(server):
    silent = [socket.create_connection(("127.0.0.1", server.sockets_port)) for _ in range(WORKERS)]
    silent[0].sendall(b"GET /jmap/ws HTTP/1.1\r\n")
    time.sleep(0.5)
    begun = time.monotonic()
    peer = Socket(server.sockets_port)
    taken = time.monotonic() - begun
    yield f"they hold the next for at most 10 s ({taken:.1f} s)", peer.status == [b"101"] and taken < 11
    peer.close()
    for it in silent:
        it.close()


def killed(program, folder):
    journals = pathlib.Path(folder) / "journals"
    journals.mkdir()
    server = Server(program, folder, "--journals", str(journals))
    with server.running():
        web, peer = Http(server.port), Socket(server.sockets_port)
        for count in range(20):
            (web if count % 2 else peer).asked(made(str(count)))
    with server.running():
        peer = Socket(server.sockets_port)
        yield "what was answered is there behind kill -9", names(peer) == names(Http(server.port)) == [str(count) for count in range(20)]
        peer.close()


def main():
    program = sys.argv[1] if len(sys.argv) > 1 else "crates/jmapd/out/jmapd"
    results = []
    with tempfile.TemporaryDirectory() as folder:
        server = Server(program, folder)
        with server.running():
            results.append(("the lines tell of both ports", server.told))
            for part in (both_see_both, all_at_once, discovery, open_sockets, handshakes_that_do_not_come):
                results += part(server)
        results += killed(program, folder)
    for what, is_so in results:
        print(f"{'ok ' if is_so else 'NOT'} {what}")
    sys.exit(0 if all(is_so for _, is_so in results) else 1)


if __name__ == "__main__":
    main()
