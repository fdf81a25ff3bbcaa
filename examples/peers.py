#!/usr/bin/env python3
"""Has peers that misbehave talk to `jmapd listen`, beside an ordinary client who is to be answered each time.

A peer sends one byte after the other, closes in the middle of a body, resets its connection, never reads its answers, or sends no HTTP. Another address than 127.0.0.1 is refused. A port
that is taken ends the program with status 6, and words that it can't have with status 2. While the process may open no more files no peer is answered, and afterwards each is. Peers that
send nothing, half a head, or nothing behind an answer, and such as take no answer, hold up nobody on a server with one worker; those are cut off after 5 s, 10 s and 5 s. Half a body is cut
off after 10 s, and the next client is answered.

    examples/peers.py [PATH_OF_THE_PROGRAM]
"""

import contextlib
import json
import resource
import socket
import struct
import subprocess
import sys
import threading
import time

CONFIGURATION = "examples/site.json"
CORE = "urn:ietf:params:jmap:core"


def message(arguments):
    body = json.dumps({"using": [CORE], "methodCalls": [["Core/echo", arguments, "c"]]}).encode()
    head = f"POST /jmap HTTP/1.1\r\nHost: localhost\r\nAuthorization: Bearer t-ann\r\nContent-Length: {len(body)}\r\n\r\n"
    return head.encode() + body


def free_port():
    with socket.create_server(("127.0.0.1", 0)) as free:
        return free.getsockname()[1]


def joined(port, seconds=10):
    """A connection, for which a server that starts is given some time."""
    until = time.monotonic() + seconds
    while True:
        try:
            return socket.create_connection(("127.0.0.1", port), timeout=seconds)
        except ConnectionRefusedError:
            if time.monotonic() > until:
                raise
            time.sleep(0.02)


def answer(stream):
    """The status and the body of the next answer."""
    status = stream.readline()
    length = 0
    while (line := stream.readline()) not in (b"\r\n", b""):
        if line.lower().startswith(b"content-length:"):
            length = int(line.split(b":")[1])
    return status.decode().strip(), stream.read(length)


def is_answered(port, seconds=10):
    """An ordinary client asks for an echo on a connection of its own."""
    with joined(port, seconds) as peer:
        peer.settimeout(seconds)
        peer.sendall(message({"a": 1}))
        status, body = answer(peer.makefile("rb"))
        return status == "HTTP/1.1 200 OK" and json.loads(body)["methodResponses"][0][1] == {"a": 1}


def byte_by_byte(port):
    with joined(port) as peer:
        for byte in message({"slow": True}):
            peer.sendall(bytes([byte]))
            time.sleep(0.002)
        status, _ = answer(peer.makefile("rb"))
        return status == "HTTP/1.1 200 OK"


def cut_in_a_body(port):
    with joined(port) as peer:
        peer.sendall(message({"a": 1})[:-7])
    return True


def reset(port):
    peer = joined(port)
    peer.sendall(message({"a": 1})[:-7])
    peer.setsockopt(socket.SOL_SOCKET, socket.SO_LINGER, struct.pack("ii", 1, 0))
    peer.close()
    return True


def never_reads(port):
    """Sends what it can of messages with long answers, and goes away with the answers unread."""
    peer = joined(port)
    peer.settimeout(1)
    try:
        for _ in range(200):
            peer.sendall(message({"long": "x" * 100_000}))
    except OSError:
        pass
    peer.close()
    return True


def no_http(port):
    with joined(port) as peer:
        peer.sendall(bytes(range(256)) + b"\r\n\r\n")
        status, _ = answer(peer.makefile("rb"))
        return status == "HTTP/1.1 400 Bad Request"


def other_address(port):
    try:
        socket.create_connection(("127.0.0.2", port), timeout=5).close()
        return False
    except ConnectionRefusedError:
        return True


def first_byte(peer):
    """What comes first of an answer: nothing where the connection was ended, and None where it waits."""
    try:
        return peer.recv(1)
    except TimeoutError:
        return None
    except ConnectionResetError:
        return b""


def is_answered_late(peer):
    """The answer to a message that was sent before; the worker is free for another peer then."""
    with peer:
        peer.settimeout(10)
        return first_byte(peer) == b"H"


def no_more_files(server, port):
    """Peers that come while the process may open no more files: they wait."""
    kind = resource.RLIMIT_NOFILE
    soft, most = resource.prlimit(server.pid, kind)
    resource.prlimit(server.pid, kind, (4, most))
    try:
        peers = [joined(port) for _ in range(8)]
        for peer in peers:
            peer.settimeout(0.2)
            peer.sendall(message({"a": 1}))
        came = [first_byte(peer) for peer in peers]
    finally:
        resource.prlimit(server.pid, kind, (soft, most))
    answered = [is_answered_late(peer) for peer, byte in zip(peers, came) if byte is None]
    for peer in peers:
        peer.close()
    return b"H" not in came and bool(answered) and all(answered)


def cut_off_after(peer, begun):
    """After how many seconds a peer that does nothing more is cut off."""
    peer.settimeout(30)
    end = first_byte(peer)
    return time.monotonic() - begun if end == b"" else None


def is_answered_within(port, seconds):
    begun = time.monotonic()
    return is_answered(port) and time.monotonic() - begun < seconds


def long_taker(port):
    """A peer that asks for a long answer, and takes none of it."""
    peer = socket.socket()
    peer.setsockopt(socket.SOL_SOCKET, socket.SO_RCVBUF, 4096)
    peer.connect(("127.0.0.1", port))
    peer.sendall(message({"x": "x" * 8_000_000}))
    return peer


def quiet_peer(port):
    """A peer that was answered, and sends nothing more."""
    peer = joined(port)
    peer.sendall(message({"a": 1}))
    answer(peer.makefile("rb"))
    return peer


def half_a_message(port, size):
    """A peer that sends so many bytes of a message, and then nothing."""
    peer = joined(port)
    peer.sendall(message({"a": 1})[:size])
    return peer


def idle_peers(program, bad):
    """Peers that hold their connections hold up nobody on a server with one worker, and each is cut off in time."""
    port = free_port()
    with serving(program, port, 1), contextlib.ExitStack() as ended:
        begun = time.monotonic()
        ways = {"a silent peer": (half_a_message(port, 0), 5), "half a head": (half_a_message(port, 20), 10), "a quiet peer": (quiet_peer(port), 5)}
        taker = ended.enter_context(long_taker(port))
        for name, (peer, _) in ways.items():
            ended.enter_context(peer)
            if not is_answered_within(port, 2):
                bad.append(f"behind {name}: another answer, or a late one")
        if not is_answered_within(port, 2):
            bad.append("behind a peer that takes no answer: another answer, or a late one")
        for name, (peer, seconds) in sorted(ways.items(), key=lambda way: way[1][1]):
            after = cut_off_after(peer, begun)
            if after is None or not seconds - 1 < after < seconds + 3:
                bad.append(f"{name} was cut off after {after} s")
        taker.settimeout(1)
        half = ended.enter_context(half_a_message(port, -1))
        begun = time.monotonic()
        time.sleep(0.2)
        if not is_answered(port, 20) or not is_answered_within(port, 2):
            bad.append("behind half a body: another answer, or a late one")
        after = cut_off_after(half, begun)
        if after is None or not 9 < after < 15:
            bad.append(f"half a body was cut off after {after} s")


def idle_beside(program, bad):
    try:
        idle_peers(program, bad)
    except OSError as error:
        bad.append(f"idle peers: {error}")


def ended_with(program, *words):
    return subprocess.run([program, "listen", *words], stderr=subprocess.PIPE, timeout=20)


def words_and_ports(program, port):
    """The port is taken; and words that the program can't have."""
    config = ("--config", CONFIGURATION)
    taken = ended_with(program, *config, "--port", str(port))
    yield "a port that is taken", taken.returncode == 6 and taken.stderr == b"jmapd: nothing is kept: no --journals\njmapd: open fault\n"
    for words in (("--port", "0"), ("--port", str(port), "--workers", "0"), ("--port", str(port), "--workers", "256"), ("--port", str(port), "--connections", "0")):
        refused = ended_with(program, *config, *words)
        yield " ".join(words[-2:]), refused.returncode == 2 and refused.stderr.startswith(b"usage: jmapd ")


@contextlib.contextmanager
def serving(program, port, workers):
    """A server of a port, with so many workers."""
    server = subprocess.Popen([program, "listen", "--config", CONFIGURATION, "--port", str(port), "--workers", str(workers)])
    try:
        is_answered(port)
        yield server
    finally:
        server.terminate()
        server.wait()


def misbehave(program, port, server, bad):
    """All ways that take little time."""
    for way in [byte_by_byte, cut_in_a_body, reset, never_reads, no_http, other_address] * 3:
        if not way(port):
            bad.append(f"{way.__name__}: another answer")
        if not is_answered(port):
            bad.append(f"an ordinary client beside {way.__name__}")
    if not no_more_files(server, port) or not is_answered(port):
        bad.append("peers that came while no more files could be opened")
    bad += [what for what, good in words_and_ports(program, port) if not good]


def main():
    program = sys.argv[1] if sys.argv[1:] else "crates/jmapd/out/jmapd"
    port = free_port()
    bad = []
    with serving(program, port, 4) as server:
        idle = threading.Thread(target=idle_beside, args=(program, bad))
        idle.start()
        misbehave(program, port, server, bad)
        idle.join()
        if server.poll() is not None:
            bad.append(f"the server ended with {server.returncode}")
    for what in bad:
        print(f"examples/peers.py: {what}")
    if not bad:
        print("examples/peers.py: each ordinary client was answered")
    sys.exit(1 if bad else 0)


if __name__ == "__main__":
    main()
