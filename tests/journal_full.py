"""Fills a journal under `noticed serve --hand-in` until a request can't be kept, with notices that no mail server takes
and with open logs, and kills the daemon there. No later start under the same limits may refuse the journal, and each
submits: once the mail server is back it has every notice that was answered sealed, and the daemon goes on taking
requests. Also if the server takes all notices but one. A daemon that isn't killed ends by itself and at once, also with
idle clients, says why, and lengthens the file up to a bound; a line says before that the file is nearly full.

    python3 -m tests.journal_full
"""
import contextlib
import re
import socket
import tempfile
import time
from pathlib import Path

from tests.support.daemon_and_clients import PATIENCE, Daemon, append, asked, flush, until
from tests.support.faults import worded
from tests.support.mail_servers import MailServer, comes_to
from tests.support.running import Checks, run

AGENTS, USES = 4, 1000
SIZE = 131_072  # bytes of a journal here
MOST = 1_048_576  # bytes up to which it grows
SOON = 20  # seconds that an end may take on a busy machine; idle clients stay for as long as they are let
HEADER = b"".join(b"X-Line-%d: %s\n" % (at, b"x" * 60) for at in range(16))
TURNS = 9  # in which a daemon is filled and killed
STARTS = 3  # over a full journal, without a mail server
REASON = "a journal has no room"


def sender(at: int) -> bytes:
    """The return path of a message."""
    return b"sender%d@example.com" % at


def free_port() -> int:
    """A port of loopback that nobody has."""
    with socket.create_server(("127.0.0.1", 0)) as it:
        return it.getsockname()[1]


class Journal:
    """A journal's folder, and daemons over it that submit to a port, at which a mail server is or isn't."""

    def __init__(self, room: Path, name: str):
        self.folder, self.port = room / name, free_port()
        self.folder.mkdir()
        (self.folder / "journal").write_bytes(bytes(SIZE))

    def daemon(self, *options: str) -> Daemon:
        """A daemon over the journal, whose file grows up to 1 MiB."""
        words = ("--journal", str(self.folder), "--hand-in", f"127.0.0.1:{self.port}", "--max-journal", "1", "--log")
        return Daemon(AGENTS, USES, options=(*words, *options))

    def size(self) -> int:
        """The bytes of its file."""
        return (self.folder / "journal").stat().st_size

    def lines(self, name: bytes) -> list:
        """The lines of `noticed journal` that begin with this word, without it."""
        lines = run(["journal", str(self.folder)]).outbox.splitlines()
        return [it.removeprefix(name + b" ") for it in lines if it.startswith(name + b" ")]

    def marked(self) -> int:
        """How many notices are settled."""
        return int((self.lines(b"marked") or [b"-1"])[0])


def seal(client: socket.socket, number: int, at: int) -> bool:
    """Logs a message's outcome and has its notice made. Whether both were answered so; not, once the daemon is gone."""
    given = append(number, b"K%d" % at) + flush(number + 1, b"K%d" % at, return_path=sender(at), header=HEADER)
    with contextlib.suppress(ConnectionError):
        answers = asked(client, given, 2)
        return (answers[5:6], answers[19:20]) == (b"\1", b"\7")
    return False


def filled(daemon: Daemon, first: int = 0) -> int:
    """Has notices made, from a message on, until the daemon keeps no more. How many were answered sealed."""
    with daemon.connect() as client:
        many = 0
        while seal(client, 2 * many, first + many):
            many += 1
    return many


def kill(daemon: Daemon):
    """Ends a daemon at once."""
    daemon.running.kill()
    daemon.running.wait()


def waiting(daemon: Daemon) -> int:
    """How many notices wait, by the daemon's status."""
    for line in run(["status", daemon.path]).outbox.splitlines():
        if line.startswith(b"notices_waiting "):
            return int(line.split()[1])
    return -1


def full(checks: Checks, about: str, room: Path, fill=filled) -> tuple:
    """A journal that was filled, whose daemon was killed before it could lengthen the file; and what filled it."""
    for turn in range(TURNS):
        journal = Journal(room, f"{about}-{turn}")
        with journal.daemon() as daemon:
            many = fill(daemon)
            kill(daemon)
        if journal.size() == SIZE:
            break
    checks.equal(f"{about}: its size", journal.size(), SIZE)
    checks.true(f"{about}: many fill it", many > 50)
    return journal, many


def check_starts(checks: Checks, about: str, journal: Journal, many: int):
    """Each start over a full journal begins, and has all notices to submit."""
    for turn in range(STARTS):
        with journal.daemon() as daemon:
            checks.true(f"{about}: start {turn} begins", daemon.listens())
            checks.true(f"{about}: start {turn} has all notices", comes_to(lambda: waiting(daemon), many))
            kill(daemon)


def check_goes_on(checks: Checks, about: str, journal: Journal, many: int):
    """A daemon takes further requests, and its end is a good one."""
    with journal.daemon() as daemon:
        with daemon.connect() as client:
            for place in range(many):
                checks.true(f"{about}: notice {place} more", seal(client, 2 * place, 1_000_000 + place))
        run(["stop", daemon.path])
        checks.equal(f"{about}: its end", daemon.end().status, 0)


def check_away(checks: Checks, room: Path):
    """The mail server is away while the journal gets full, and comes back."""
    journal, many = full(checks, "away", room)
    check_starts(checks, "away", journal, many)
    server = MailServer(port=journal.port)
    with journal.daemon() as daemon:
        checks.true("there: all are settled", comes_to(journal.marked, many, pause=0.1))
        kill(daemon)
    checks.equal("there: each notice", sorted({it for it, _ in server.taken}), sorted(sender(it) for it in range(many)))
    check_goes_on(checks, "there", journal, 2 * many)


def check_one_put_off(checks: Checks, room: Path):
    """The mail server takes all notices but the first. That one comes once the server takes it."""
    journal, many = full(checks, "put off", room)
    server = MailServer(port=journal.port)
    server.reply_to = lambda path: b"450 4.2.0 try again" if path == sender(0) else b"250 ok"
    for turn in range(STARTS):
        with journal.daemon() as daemon:
            checks.true(f"put off: start {turn} begins", daemon.listens())
            left = comes_to(lambda: waiting(daemon) == 1, True)
            checks.true(f"put off: start {turn} leaves one", left)
            kill(daemon)
    taken = sorted({it for it, _ in server.taken})
    checks.equal("put off: the others", taken, sorted(sender(it) for it in range(1, many)))
    del server.reply_to
    with journal.daemon() as daemon:
        checks.true("put off: all are settled", comes_to(journal.marked, many, pause=0.1))
        kill(daemon)
    checks.true("put off: it comes", sender(0) in {it for it, _ in server.taken})
    check_goes_on(checks, "put off", journal, 5)


def opened(daemon: Daemon) -> int:
    """Opens logs until the daemon keeps no more. How many."""
    with daemon.connect() as client:
        many = 0
        while asked(client, append(many, b"L%d" % many))[5:6] == b"\1":
            many += 1
    return many


def check_open_logs(checks: Checks, room: Path):
    """Open logs fill the journal: each later start has them all."""
    journal, many = full(checks, "open logs", room, opened)
    checks.true("open logs: many fill it", many > 1000)
    for turn in range(STARTS):
        with journal.daemon() as daemon:
            checks.true(f"open logs: start {turn} begins", daemon.listens())
            listed = ["status", "--open", daemon.path]
            has_all = comes_to(lambda: len(run(listed).outbox.splitlines()), many)
            checks.true(f"open logs: start {turn} has all", has_all)
            kill(daemon)


def check_ends_at_once(checks: Checks, room: Path):
    """A run that can't keep a request waits for no idle client. It says why, in its log and in its status."""
    journal = Journal(room, "idle")
    with journal.daemon() as daemon:
        idle = [daemon.connect() for _ in range(AGENTS - 1)]
        filled(daemon)
        line = worded(45, REASON)
        checks.true("idle: its line", until(lambda: line in daemon.said(0)))
        began = time.monotonic()
        faults = []
        while daemon.running.poll() is None and time.monotonic() - began < PATIENCE:
            if (told := run(["status", daemon.path])).status == 0:
                faults.append(b"last_fault 45: " in told.outbox)
        took = time.monotonic() - began
        checks.true(f"idle: it ends within {SOON} s: {took:.1f}", took < SOON)
        checks.true("idle: each status has the fault", all(faults))
        ran = daemon.end()
        checks.equal("idle: status", ran.status, 1)
        for it in idle:
            it.close()
    lines = ran.notes.splitlines()
    nearly = [it for it in lines if it.startswith(b"the journal is nearly full: ")]
    checks.equal("idle: one line before it is full", len(nearly), 1)
    used, size = (int(it) for it in re.findall(rb"\d+", nearly[0])[:2])
    checks.true(f"idle: at three quarters: {nearly}", size == SIZE and 0.75 <= used / size < 0.8)
    checks.equal("idle: the file grows", journal.size(), 2 * SIZE)
    checks.true("idle: its line", b"the journal has grown to %d bytes" % (2 * SIZE) in lines)


def check_grows(checks: Checks, room: Path):
    """Runs that fill the journal, one after another, make it grow up to its bound. None of them loses a notice, and the
    last goes on once the mail server is there."""
    journal, many, sizes = Journal(room, "grows"), 0, []
    for _ in range(4):
        with journal.daemon() as daemon:
            checks.true("grows: it begins", daemon.listens())
            checks.true("grows: it has all notices", comes_to(lambda: waiting(daemon), many))
            many += filled(daemon, many)
            checks.equal("grows: its end", daemon.end().status, 1)
        sizes.append(journal.size())
    checks.equal("grows: up to its bound", sizes, [2 * SIZE, 4 * SIZE, MOST, MOST])
    server = MailServer(port=journal.port)
    with journal.daemon() as daemon:
        checks.true("grown: all are settled", comes_to(journal.marked, many, pause=0.1))
        kill(daemon)
    checks.equal("grown: each notice", sorted({it for it, _ in server.taken}), sorted(sender(it) for it in range(many)))
    check_goes_on(checks, "grown", journal, 20)


def main():
    checks = Checks("journal_full: a full journal is no dead end")
    with tempfile.TemporaryDirectory(prefix="noticed-") as name:
        for check in (check_ends_at_once, check_away, check_one_put_off, check_open_logs, check_grows):
            check(checks, Path(name))
    checks.done()


if __name__ == "__main__":
    main()
