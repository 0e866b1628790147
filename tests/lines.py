"""Holds every line that `batch`, `serve` and `send` write against a table: the notes of worked sessions, each fault with
its number alone, and the usage line. Programs read these lines, so nothing may be added to one. The table is written from
noticed-protocol(5) and noticed(8), never from what the program printed."""
import contextlib
import os
import pty
import tempfile
from pathlib import Path

from tests.support.daemon_and_clients import FIRST_FRAME, FRAMES, Daemon, append, closed_pipe, conversation, flush
from tests.support.running import HOST, Checks, Ran, batch, empty_outbox, run
from vectors import frames

USAGE = b"usage: noticed batch HOST | serve SOCKET HOST AGENTS MAX-USE | send SOCKET\n"
HINT = b"try 'noticed help'\n"
OPEN = b"open B A1B2C3 1\n"


def failed(number: int, queue_id=b"K1", recipient=b"x@y", service=1, action=1, status=b"5.0.0") -> bytes:
    """An append of a recipient."""
    return frames.append(number, service, queue_id, recipient, action, status)


def discarded(number: int, queue_id=b"K1") -> bytes:
    """A discard of a bounce log."""
    return frames.discard(number, 1, queue_id)


def cut(body: bytes, size: int) -> bytes:
    """The frame of a body whose first bytes alone are there."""
    return frames.frame(body[4:][:size])


# what a session's frames are, the notes, and the status; the outbox is the one without a notice
SESSIONS = {
    "no frame": ([], b"", 0),
    "a flush of an empty log": ([flush(0, b"K1"), failed(1)], b"0 nothing\n1 closed\n", 0),
    "a null return path": (
        [failed(0), flush(1, b"K1", return_path=b"")],
        b"0 logged 0\n1 no return 1\n",
        0,
    ),
    "a discard closes the log": (
        [failed(0), discarded(1), failed(2, recipient=b"z@y"), flush(3, b"K1")],
        b"0 logged 0\n1 discarded 1\n2 closed\n3 closed\n",
        0,
    ),
    "statuses that are refused": (
        [
            failed(0, status=b"5.01.1"),
            failed(1, status=b"3.0.0"),
            failed(2, status=b"5.1000.1"),
            failed(3, status=b"2.0.0"),
            failed(4, status=b"4.4.7"),
        ],
        b"0 refused 4\n1 refused 4\n2 refused 4\n3 refused 5\n4 logged 0\nopen B K1 1\n",
        0,
    ),
    "open logs in order": (
        [
            failed(0, b"Z9", service=3, action=3, status=b"2.0.0"),
            failed(1, b"b"),
            failed(2, b"A"),
        ],
        b"0 logged 0\n1 logged 0\n2 logged 0\nopen B A 1\nopen B b 1\nopen T Z9 1\n",
        0,
    ),
    "keys are sorted as bytes": (
        [failed(0, b"K2"), failed(1, b"K10"), failed(2, b"K1")],
        b"0 logged 0\n1 logged 0\n2 logged 0\nopen B K1 1\nopen B K10 1\nopen B K2 1\n",
        0,
    ),
    "a forgotten key": (
        [discarded(0), frames.forget(1, 1, b"K1"), frames.forget(2, 1, b"K1"), failed(3)],
        b"0 discarded 0\n1 forgotten\n2 not closed\n3 logged 0\nopen B K1 1\n",
        0,
    ),
    "a length of 0": ([bytes(4)], b"fault 12\n", 1),
    "a length that is too long": ([bytes.fromhex("00010001")], b"fault 11\n", 1),
    "three bytes of a length": ([bytes(3)], b"fault 13\n", 1),
    "the longest frame": ([bytes.fromhex("00010000") + bytes(65536)], b"0 refused 21\n", 0),
    "a number out of turn": ([failed(5), failed(1)], b"0 refused 46\nfault 46\n", 1),
    "an empty body's version": ([frames.frame(bytes(1))], b"0 refused 21\n", 0),
    "an unknown kind": ([frames.frame(b"\x01\x09" + bytes(20))], b"0 refused 22\n", 0),
    "a body that ends early": ([cut(failed(0), 20)], b"0 refused 23\n", 0),
    "a byte behind a body": ([frames.frame(failed(0)[4:] + b"\0")], b"0 refused 24\n", 0),
    "an unknown service": ([failed(0, service=4)], b"0 refused 25\n", 0),
    "a queue id of 33": ([failed(0, b"K" * 33)], b"0 refused 26\n", 0),
    "no recipient": ([failed(0, recipient=b"<")], b"0 refused 1\n", 0),
    "a delay of a bounce": ([failed(0, action=2, status=b"4.4.1")], b"0 refused 3\n", 0),
    "a moment that is too late": ([flush(0, b"K1", moment=253402300800)], b"0 refused 27\n", 0),
    "a header that is too long": ([flush(0, b"K1", header=b"x" * 32769)], b"0 refused 28\n", 0),
    "a return path that is no address": ([flush(0, b"K1", return_path=b"a b")], b"0 refused 29\n", 0),
    "an envelope id of 101": ([flush(0, b"K1", envelope=b"e" * 101)], b"0 refused 30\n", 0),
}


def sessions(checks: Checks):
    """Each session by `batch`."""
    for what, (given, notes, status) in SESSIONS.items():
        checks.equal(what, batch(b"".join(given)), Ran(empty_outbox(), notes, status))
    for size in range(len(FRAMES)):
        is_whole, answered = size in (0, FIRST_FRAME), b"0 logged 0\n" if size >= FIRST_FRAME else b""
        notes = answered + (b"" if is_whole else b"fault 13\n") + (OPEN if answered else b"")
        checks.equal(f"{size} bytes of two frames", batch(FRAMES[:size]), Ran(empty_outbox(), notes, 0 if is_whole else 1))


def devices(checks: Checks):
    """Devices that fail: the input can't be read (14), the outbox can't be written (31), nor a line of the notes (33)."""
    folder = os.open("/", os.O_RDONLY)
    checks.equal("an input that can't be read", batch(stdin=folder), Ran(empty_outbox(), b"fault 14\n", 1))
    os.close(folder)
    with open("/dev/full", "wb") as full:
        wanted = Ran(b"", b"0 logged 0\n1 sealed 1\nfault 31\nunsent B A1B2C3\n", 1)
        checks.equal("an outbox that is full", batch(FRAMES, stdout=full), wanted)
    pipe = closed_pipe()
    checks.equal("notes that nobody reads", batch(FRAMES, stderr=pipe), Ran(empty_outbox(), b"", 1))
    os.close(pipe)


def terminal(checks: Checks):
    """On a terminal, which no program reads, the number's words follow it."""
    reading, writing = pty.openpty()
    batch(FRAMES[:-1], stderr=writing)
    os.close(writing)
    lines = b""
    with contextlib.suppress(OSError):
        while more := os.read(reading, 4096):
            lines += more
    os.close(reading)
    wanted = b"0 logged 0\r\nfault 13: the input ends within a frame\r\nopen B A1B2C3 1\r\n"
    checks.equal("a terminal", lines, wanted)


def sockets(checks: Checks):
    """`serve` and `send`: the agents' lines, a socket that can't be had (61), and the first fault of a client."""
    with Daemon(1, 1) as daemon:
        checks.equal("a client", daemon.send(), Ran(b"0 logged 0\n1 sealed 1\n", b"", 0))
        checks.equal("its daemon", daemon.end().notes, b"agent 0 requests 2 connections 1 faults 0\n")
    with Daemon(1, 3) as daemon:
        for given in (frames.flush(5, 1, b"K1", b"a@b", 0, 0), bytes(4), discarded(0)):
            conversation(daemon.connect(), given)
        checks.equal("connections with faults", daemon.end().notes, b"agent 0 requests 1 connections 3 faults 2\n")
    with Daemon(1, 1) as daemon:
        conversation(daemon.connect(), append(0))
        wanted = b"agent 0 requests 1 connections 1 faults 0\nopen B Q1 1\n"
        checks.equal("an open log", daemon.end().notes, wanted)
    with tempfile.TemporaryDirectory() as room:
        for path in ("/nonexistent/s", f"{room}/" + "s" * 108, room, ""):
            about = f"a path of {len(path)} bytes"
            checks.equal(f"send: {about}", run(["send", path], FRAMES), Ran(b"", b"fault 61\n", 1))
            checks.equal(f"serve: {about}", run(["serve", path, HOST, "1", "1"]), Ran(b"", b"fault 61\n", 1))
        checks.equal("what they leave", os.listdir(room), [])


def usage(checks: Checks):
    """Wrong arguments: the reason in one line, the usage line, and where to find help."""
    for words in (
        [],
        ["batch"],
        ["batch", "a_b"],
        ["batch", HOST, HOST],
        ["serve", "/nonexistent/s", HOST, "17", "1"],
        ["serve", "/nonexistent/s", HOST, "1", "1000001"],
        ["serve", "/nonexistent/s", HOST, "01", "1"],
        ["serve", "/nonexistent/s", HOST],
        ["send"],
        ["send", "/nonexistent/s", HOST],
        ["bounce", HOST],
        ["batch", b"\xff"],
    ):
        ran = run(words)
        lines = ran.notes.splitlines(keepends=True)
        checks.equal(f"{words}", (ran.outbox, lines[1:], ran.status), (b"", [USAGE, HINT], 2))


def main():
    checks = Checks("lines: each line that the formats give, byte by byte")
    sessions(checks)
    devices(checks)
    terminal(checks)
    sockets(checks)
    usage(checks)
    checks.done()


if __name__ == "__main__":
    main()
