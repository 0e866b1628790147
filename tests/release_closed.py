"""A daemon with `--release-closed`, with a journal and without one, goes on past its limit of keys: the key that was
closed longest ago makes room for a new one, with a journal also after a kill, and a new key is refused only while each
log is open. Without the option it is refused.

    python3 -m tests.release_closed [MESSAGES]

Without an argument 6,000 messages use the 4,096 keys of the program.
"""
import os
import sys
import tempfile
from pathlib import Path

from tests.support.daemon_and_clients import Daemon, append, flush, frames
from tests.support.faults import fault_line
from tests.support.running import Checks, Ran, run

LOGS, FEW, BOUNCE = 4096, 64, 1
SIZE, SHORT = 8 << 20, 24 << 10  # bytes of a journal, and of one that a start compacts: over a quarter of it is used
FAST = "/dev/shm" if os.path.isdir("/dev/shm") else None  # a sync costs nothing there


def key(turn: int) -> bytes:
    """A queue id of its own for each turn."""
    return b"K%07d" % turn


def discarded(first: int, count: int):
    """So many messages, each logged and then discarded, and their answers."""
    given, answers = [], []
    for turn in range(first, first + count):
        at = len(given)
        given += [append(at, key(turn)), frames.discard(at + 1, BOUNCE, key(turn))]
        answers += [b"%d logged 0" % at, b"%d discarded 1" % (at + 1)]
    return b"".join(given), answers


def in_memory(logs: int, *options) -> Daemon:
    """A daemon without a journal, with so many keys."""
    return Daemon(1, 1000, options=("--logs", str(logs), *options))


class Folder:
    """A folder with a journal in it, and daemons over it, each with an outbox of its own."""

    def __init__(self, room: str, size: int = SIZE):
        self.room, self.runs = Path(room), 0
        self.journal = self.room / "journal"
        self.journal.mkdir()
        (self.journal / "journal").write_bytes(bytes(size))

    def daemon(self, logs: int, *options) -> Daemon:
        """A daemon over the journal with so many keys."""
        self.runs += 1
        outbox = self.room / f"outbox.{self.runs}"
        words = ("--journal", str(self.journal), "--outbox", str(outbox), "--logs", str(logs), *options)
        return Daemon(1, 1000, options=words)


def asked(daemon: Daemon, bodies: list) -> list:
    """The answers to some frames, each without its number."""
    ran = daemon.send(b"".join(make(number) for number, make in enumerate(bodies)))
    return [line.split(b" ", 1)[1] for line in ran.outbox.splitlines()]


def appends(turns) -> list:
    """An append about each of these keys."""
    return [lambda number, turn=turn: append(number, key(turn)) for turn in turns]


def goes_on(checks: Checks, daemon: Daemon, messages: int, about: str):
    """More messages than keys: none is refused, and a late outcome is refused for as long as its key is held."""
    given, answers = discarded(0, messages)
    ran = daemon.send(given)
    checks.equal(f"{messages:,} messages {about}: answers", ran.outbox.splitlines(), answers)
    late = asked(daemon, appends([messages - 1, messages - LOGS, messages - LOGS - 1]))
    checks.equal(f"late outcomes {about}", late, [b"closed", b"closed", b"logged 0"])


def goes_on_both_ways(checks: Checks, messages: int):
    """With a journal and without one."""
    with tempfile.TemporaryDirectory(dir=FAST, prefix="noticed-") as room:
        with Folder(room).daemon(LOGS, "--release-closed") as daemon:
            goes_on(checks, daemon, messages, "with a journal")
    with in_memory(LOGS, "--release-closed") as daemon:
        goes_on(checks, daemon, messages, "without a journal")


def makes_room(checks: Checks, daemon: Daemon, about: str):
    """Keys 10 to 73 are closed: which of them make room, until each log is open."""
    # A flush that expects an outcome of a new key holds none, so it releases none.
    said = asked(daemon, [lambda number: flush(number, key(99), expected=1), *appends([10])])
    checks.equal(f"{about}: a flush that expects an outcome", said, [b"differs 0", b"closed"])
    # 100 and 101 release 10 and 11; then 11 is a new key, which releases 12.
    said = asked(daemon, appends([12, 100, 101, 13, 11]))
    checks.equal(about, said, [b"closed", b"logged 0", b"logged 0", b"closed", b"logged 0"])
    opened = asked(daemon, appends(range(200, 200 + FEW)))
    checks.equal(f"{about}: only open logs are left", opened, [b"logged 0"] * (FEW - 3) + [b"table full"] * 3)
    bodies = [lambda number: frames.discard(number, BOUNCE, key(200)), *appends([300, 301])]
    checks.equal(f"{about}: one is closed", asked(daemon, bodies), [b"discarded 1", b"logged 0", b"table full"])


def order_in_memory(checks: Checks):
    """The order of closing without a journal; without the option a new key is refused."""
    with in_memory(FEW, "--release-closed") as daemon:
        daemon.send(discarded(0, FEW + 10)[0])
        makes_room(checks, daemon, "without a journal")
    with in_memory(FEW) as daemon:
        daemon.send(discarded(0, FEW)[0])
        checks.equal("without a journal and the option", asked(daemon, appends([FEW, 0])), [b"table full", b"closed"])


def order_survives(checks: Checks, size: int):
    """The order of closing outlives a kill, whether or not the next start writes a shorter journal."""
    with tempfile.TemporaryDirectory(dir=FAST, prefix="noticed-") as room:
        folder = Folder(room, size)
        with folder.daemon(FEW, "--release-closed") as daemon:
            daemon.send(discarded(0, FEW + 10)[0])
            daemon.running.kill()
            daemon.running.wait()
        with folder.daemon(FEW, "--release-closed") as daemon:
            makes_room(checks, daemon, "after a kill")
            daemon.running.kill()
            daemon.running.wait()
        with folder.daemon(FEW) as daemon:
            bodies = [lambda number: frames.discard(number, BOUNCE, key(300)), *appends([301, 300])]
            checks.equal("without the option", asked(daemon, bodies), [b"discarded 1", b"table full", b"closed"])
        ran = run(["journal", str(folder.journal)])
        checks.equal("the listing's status", ran.status, 0)
        checks.equal("the listing's open logs", ran.outbox.count(b"open "), FEW - 1)


def refused(checks: Checks):
    """A journal isn't opened under lower limits than those that it was made with."""
    with tempfile.TemporaryDirectory(dir=FAST, prefix="noticed-") as room:
        folder = Folder(room)
        with folder.daemon(FEW) as daemon:
            daemon.send(discarded(0, 1)[0])
        with folder.daemon(FEW - 1) as daemon:
            checks.equal("lower limits", daemon.end(), Ran(b"", fault_line(74), 1))


def main():
    messages = int(sys.argv[1]) if len(sys.argv) > 1 else 6_000
    checks = Checks(f"release_closed: {messages:,} messages within {LOGS:,} keys, and the order of closing")
    goes_on_both_ways(checks, messages)
    order_in_memory(checks)
    for size in (SIZE, SHORT):
        order_survives(checks, size)
    refused(checks)
    checks.done()


if __name__ == "__main__":
    main()
