"""Lets each read and each write of the program's devices fail in turn, by a small library that is preloaded
(tests/support/fail.c, compiled here with gcc): with an error, interrupted, and as a write that takes no byte. What came
before stands, what is lost is told, and nothing comes after, as a plain reading of the pages has it. A daemon's
accept, or a read or write of its connections, that is interrupted is made again, and nobody sees it."""
import errno
import tempfile
from pathlib import Path
from typing import Optional

from tests.support.daemon_and_clients import Daemon, conversation, flush, line
from tests.support.faults import fault_line
from tests.support.formats import sessions
from tests.support.formats.logs import REFUSED, Limits, Logs
from tests.support.formats.notices import crlf, mail, outbox
from tests.support.preloading import built, preloading
from tests.support.running import HOST, VECTORS, Checks, Ran, batch
from vectors import frames

FAILS = {"an error": errno.EIO, "an interruption": errno.EINTR, "a write that takes no byte": 0}
MOST = 2000  # calls of a run; more than this and the sweep is broken


def messages() -> bytes:
    """Three messages that are flushed, the second with a letter of more than 64 KiB, and one that stays open."""
    header = 32 * (1023 * b"a" + b"\n")
    made = [frames.append(0, 1, b"K1", b"x@y", 1, b"5.0.0"), flush(1, b"K1")]
    made += [
        frames.append(it, 1, b"K2", b"x@y", 1, b"5.0.0", diagnostic=800 * b"d", reason=800 * b"r")
        for it in range(2, 26)
    ]
    made += [flush(26, b"K2", header=header), frames.append(27, 1, b"K3", b"x@y", 1, b"5.0.0")]
    return b"".join([*made, flush(28, b"K3"), frames.append(29, 1, b"K4", b"x@y", 1, b"5.0.0")])


def failing(library: Path, call: str, at: int, error: int, short: int = 0) -> dict:
    """The environment of a run whose call of that number fails."""
    return preloading(library, FAIL=call, FAIL_AT=at, FAIL_WITH=error, SHORT=short)


def check_reads(checks: Checks, library: Path):
    """Each read of the input, of one byte each, fails in turn: earlier frames are answered, and 14 is reported."""
    given = (VECTORS / "one-bounce.frames").read_bytes()
    for about, error in list(FAILS.items())[:2]:
        for at in range(1, len(given) + 3):
            wanted = sessions.batch(HOST.encode(), given[: at - 1], broken=at <= len(given) + 1)
            found = batch(given, env=failing(library, "read:0", at, error, 1))
            checks.equal(f"{about} at read {at} of the input", found, wanted)
    print(f"  the input: {len(given) + 1} reads, each failed twice")


def parts_of(given: bytes) -> list:
    """The outbox in its parts: the greeting with the first letter, each other letter, the end."""
    letters = []
    list(sessions.answers(given, Logs(Limits()), letters))
    sent = [mail(HOST.encode(), it) for it in letters]
    return [crlf([b"EHLO " + HOST.encode()]) + sent[0], *sent[1:], crlf([b"QUIT"])]


def after_outbox(written: bytes, given: bytes) -> Ran:
    """What a run gives whose outbox took these bytes and no more."""
    whole, parts = sessions.batch(HOST.encode(), given), parts_of(given)
    if written == whole.outbox:
        return whole
    ends = [sum(map(len, parts[: at + 1])) for at in range(len(parts) - 1)]
    unsent = [b"unsent B K%d\n" % (at + 1) for at, end in enumerate(ends) if end > len(written)]
    answers, is_open, rest = whole.notes.partition(b"open ")
    return Ran(written, answers + fault_line(31) + b"".join(unsent) + is_open + rest, 1)


def check_outbox(checks: Checks, library: Path):
    """Each write of the outbox fails in turn: what stands is a prefix that ends where that write began, the letters
    that aren't whole in it are told as unsent. An interrupted write is repeated by std's buffer, below the device."""
    given = messages()
    whole = sessions.batch(HOST.encode(), given)
    for about, error in FAILS.items():
        lengths, at = [], 0
        while at < MOST and (not lengths or lengths[-1] < len(whole.outbox)):
            at += 1
            found = batch(given, env=failing(library, "write:1", at, error))
            checks.true(f"{about} at write {at} of the outbox: a prefix", whole.outbox.startswith(found.outbox))
            checks.equal(f"{about} at write {at} of the outbox", found, after_outbox(found.outbox, given))
            lengths.append(len(found.outbox))
        checks.equal(f"{about}: each write begins after the one before", lengths, sorted(set(lengths)))
        print(f"  the outbox: {at - 1} writes, each failed with {about}")


def check_notes(checks: Checks, library: Path):
    """Each write of the notes fails in turn: earlier lines are there, no frame is read after it, the outbox ends."""
    given = messages()
    for about, error in FAILS.items():
        at, found, whole = 0, None, sessions.batch(HOST.encode(), given)
        while at < MOST and found != whole:
            at += 1
            found = batch(given, env=failing(library, "write:2", at, error))
            checks.equal(f"{about} at line {at} of the notes", found, sessions.batch(HOST.encode(), given, room=at - 1))
        print(f"  the notes: {at - 1} lines, each failed with {about}")


def served(given: bytes, broken: bool = False, room: Optional[int] = None):
    """The answers on one connection to one agent, at most as many as there is room for, and the daemon's end."""
    logs, letters, heard, requests, faults = Logs(Limits()), [], [], 0, 0
    try:
        for answered in sessions.answers(given, logs, letters, broken):
            requests += answered[1] != REFUSED
            if len(heard) == room:
                raise sessions.Fault(35)
            heard.append(sessions.answer(*answered))
    except sessions.Fault:
        faults = 1
    notes = line(0, requests, 1, faults) + b"".join(sessions.open_lines(logs))
    return b"".join(heard), Ran(outbox(HOST.encode(), letters), notes, 0)


def serve(library: Path, given: bytes, call: str, at: int, error: int, short: int = 0):
    """The answers of a session on a connection to one agent, and the daemon's end, where a call of the daemon fails."""
    with Daemon(1, 1, env=failing(library, call, at, error, short)) as daemon:
        return conversation(daemon.connect(), given), daemon.end()


def expected(given: bytes, error: int, **fails):
    """What such a session gives: as if nothing had been, where the call was interrupted."""
    return served(given) if error == errno.EINTR else served(given, **fails)


def check_connection(checks: Checks, library: Path):
    """Each read of a connection fails in turn, where each gives a byte, and each write of an answer: the session ends
    there, and what was logged and sealed stands. After an interruption it goes on."""
    given = (VECTORS / "one-bounce.frames").read_bytes()
    for about, error in list(FAILS.items())[:2]:
        for at in range(1, len(given) + 3):
            reads = given if error == errno.EINTR else given[: at - 1]
            wanted = expected(reads, error, broken=at <= len(given) + 1)
            checks.equal(
                f"{about} at read {at} of a connection", serve(library, given, "read:socket", at, error, 1), wanted
            )
    given = messages()
    for about, error in FAILS.items():
        for at in range(1, 32):
            found = serve(library, given, "write:socket", at, error)
            checks.equal(f"{about} at answer {at}", found, expected(given, error, room=at - 1))
    print("  a connection: 109 reads, each failed twice, and 30 answers, each failed three times")


def check_accept(checks: Checks, library: Path):
    """The first accept of a daemon fails: its agent accepts no more (61). After an interruption it does. The daemon's
    own socket has descriptor 4, behind the run's file; that of its status is accepted on, too."""
    given = (VECTORS / "one-bounce.frames").read_bytes()
    checks.equal("an interrupted accept", serve(library, given, "accept:4", 1, errno.EINTR), served(given))
    with Daemon(1, 1, env=failing(library, "accept:4", 1, errno.EMFILE)) as daemon:
        notes = line(0, 0, 0) + fault_line(61)
        checks.equal("an accept that fails", daemon.end(), Ran(outbox(HOST.encode(), []), notes, 1))


def main():
    checks = Checks("calls that fail: each read and each write of the devices in turn")
    with tempfile.TemporaryDirectory() as room:
        library = built(room, "fail")
        check_reads(checks, library)
        check_outbox(checks, library)
        check_notes(checks, library)
        check_connection(checks, library)
        check_accept(checks, library)
    checks.done()


if __name__ == "__main__":
    main()
