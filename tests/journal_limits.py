"""Starts `noticed serve --journal` under other limits than those that its journal was made under. Under higher ones all
is there that a killed run left, its requests were answered as under the old ones, and the journal has the new ones from
then on. Under lower ones it isn't opened (74), and no byte changes. A machine that stops within any call of such a start
(by a small library that is preloaded, tests/support/power.c, compiled here with gcc) leaves a journal under the old limits
or under the new ones, with which the next start begins.

    python3 -m tests.journal_limits
"""
import os
import random
import re
import shutil
import tempfile
from pathlib import Path

from tests.support.daemon_and_clients import Daemon, append, frames
from tests.support.faults import fault_line
from tests.support.formats import journal
from tests.support.formats.logs import Limits
from tests.support.preloading import built, preloading
from tests.support.running import Checks, Ran, run

LOGS, MORE, FEWER = 10, 20, 5
ENTRIES = 3
BOUNCE = 1
SIZE = 65_536  # bytes of a journal here
STOPPED = 77  # the status of a daemon whose machine stopped
MOST = 100  # more calls than a start has
FAST = "/dev/shm" if os.path.isdir("/dev/shm") else None  # a sync costs nothing there
OPEN = range(6)  # keys with an open log, of one outcome more than the key's number, up to a full log
SHUT = range(6, LOGS)  # closed keys


def key(turn: int) -> bytes:
    """A queue id of its own for each turn."""
    return b"K%07d" % turn


def outcomes(turn: int) -> int:
    """How many outcomes the log of an open key has."""
    return min(turn + 1, ENTRIES)


class Folder:
    """A journal's folder, and daemons over it, each with an outbox of its own."""

    def __init__(self, room: Path, name: str):
        self.room, self.name, self.runs = room, name, 0
        self.folder = room / name
        self.folder.mkdir()
        (self.folder / "journal").write_bytes(bytes(SIZE))

    def daemon(self, logs: int, *options, entries: int = ENTRIES, **how) -> Daemon:
        """A daemon over the journal under these limits."""
        self.runs += 1
        self.outbox = self.room / f"{self.name}.outbox.{self.runs}"
        files = ("--journal", str(self.folder), "--outbox", str(self.outbox))
        return Daemon(1, 1000, options=(*files, "--logs", str(logs), "--entries", str(entries), *options), **how)

    def bytes(self) -> dict:
        """What its files have."""
        return {it.name: it.read_bytes() for it in self.folder.iterdir()}

    def header(self) -> bytes:
        """The first record of its journal."""
        return journal.records(self.bytes()["journal"])[0]

    def listed(self) -> list:
        """The lines of its open logs and closed keys."""
        ran = run(["journal", str(self.folder)])
        return [it for it in ran.outbox.splitlines() if re.match(rb"open |closed ", it)]


def asked(daemon: Daemon, bodies: list) -> list:
    """The answers to some frames, each without its number."""
    ran = daemon.send(b"".join(make(number) for number, make in enumerate(bodies)))
    return [line.split(b" ", 1)[1] for line in ran.outbox.splitlines()]


def appends(turns) -> list:
    """An append about each of these keys."""
    return [lambda number, turn=turn: append(number, key(turn)) for turn in turns]


def discards(turns) -> list:
    """A discard of each of these keys."""
    return [lambda number, turn=turn: frames.discard(number, BOUNCE, key(turn)) for turn in turns]


def kill(daemon: Daemon):
    """Ends a daemon at once."""
    daemon.running.kill()
    daemon.running.wait()


def left(room: Path, name: str) -> Folder:
    """A folder as a killed run left it, whose table was full: with open logs and closed keys, and a refused key."""
    folder = Folder(room, name)
    with folder.daemon(LOGS) as daemon:
        asked(daemon, [it for turn in OPEN for it in appends([turn] * outcomes(turn))])
        asked(daemon, [*discards(SHUT), *appends([LOGS])])
        kill(daemon)
    return folder


def check_all_there(checks: Checks, about: str, folder: Folder):
    """A run under more keys goes on with what was left, and takes that many keys more."""
    with folder.daemon(MORE) as daemon:
        said = asked(daemon, appends(OPEN))
        wanted = [b"logged %d" % outcomes(it) if outcomes(it) < ENTRIES else b"log full" for it in OPEN]
        checks.equal(f"{about}: the open logs", said, wanted)
        checks.equal(f"{about}: the closed keys", asked(daemon, appends(SHUT)), [b"closed"] * len(SHUT))
        said = asked(daemon, appends(range(LOGS, MORE + 1)))
        checks.equal(f"{about}: new keys", said, [b"logged 0"] * (MORE - LOGS) + [b"table full"])
        kill(daemon)
    checks.equal(f"{about}: the header", folder.header(), journal.header(Limits(MORE, ENTRIES)))


def check_refused(checks: Checks, about: str, folder: Folder, logs: int, entries: int = ENTRIES):
    """A run under these limits doesn't begin, and changes nothing."""
    before = folder.bytes()
    with folder.daemon(logs, entries=entries) as daemon:
        checks.equal(about, daemon.end(), Ran(b"", fault_line(74), 1))
    checks.equal(f"{about}: the files stay", folder.bytes(), before)


def raised(checks: Checks, room: Path):
    """More keys and fewer, and more outcomes and fewer."""
    folder = left(room, "raised")
    before = folder.listed()
    check_refused(checks, "fewer keys", folder, FEWER)
    check_refused(checks, "fewer outcomes", folder, MORE, entries=ENTRIES - 1)
    checks.equal("it is listed under its own limits", folder.listed(), before)
    check_all_there(checks, "more keys", folder)
    check_refused(checks, "as few keys as before", folder, LOGS)
    with folder.daemon(MORE, entries=ENTRIES + 1) as daemon:
        checks.equal("more outcomes", asked(daemon, appends([5, 5])), [b"logged %d" % ENTRIES, b"log full"])
        kill(daemon)
    with folder.daemon(MORE, entries=ENTRIES + 1) as daemon:
        checks.equal("the same limits again", asked(daemon, appends([5])), [b"log full"])


def released(checks: Checks, room: Path):
    """Keys that made room under the old limits are as they were."""
    folder = Folder(room, "released")
    with folder.daemon(LOGS, "--release-closed") as daemon:
        asked(daemon, discards(range(LOGS + 2)))
        kill(daemon)
    with folder.daemon(MORE, "--release-closed") as daemon:
        said = asked(daemon, appends([0, 1, 2, LOGS + 1]))
        checks.equal("keys that made room", said, [b"logged 0", b"logged 0", b"closed", b"closed"])


def stops(checks: Checks, room: Path, library: Path):
    """The machine stops within each call of a start under more keys, and of its first request."""
    made, dice, old, new = left(room, "made"), random.Random(7), 0, 0
    listed = made.listed()
    for number in range(1, MOST):
        for keep in ("none", "all", str(dice.randrange(1 << 32))):
            folder, shadow = Folder(room, f"stopped-{number}-{keep}"), room / f"shadow-{number}-{keep}"
            shadow.mkdir()
            for it in made.folder.iterdir():
                shutil.copy2(it, folder.folder / it.name)
            outbox = room / f"{folder.name}.outbox.1"
            with folder.daemon(
                MORE,
                env=preloading(library, FOLDER=folder.folder, OUTBOX=outbox, SHADOW=shadow, STOP_AT=number, KEEP=keep),
            ) as daemon:
                # It listens before it has begun. A request about a closed key changes nothing.
                if asked(daemon, discards(SHUT[:1])):
                    return told(checks, number - 1, old, new)
                ended = daemon.end().status
            about = f"call {number}, {keep}"
            checks.equal(f"{about}: stopped", ended, STOPPED)
            has = folder.header()
            old, new = old + (has == made.header()), new + (has == journal.header(Limits(MORE, ENTRIES)))
            checks.equal(f"{about}: all of it is there", folder.listed(), listed)
            check_all_there(checks, about, folder)
    checks.true("a start has an end", False)
    return None


def told(checks: Checks, calls: int, old: int, new: int):
    """What the stops within so many calls left."""
    checks.true("some stops left the old journal", old > 0)
    checks.true("some stops left the new journal", new > 0)
    print(f"  {calls} calls of a start: {old} times the old journal was left, {new} times the new one")


def main():
    checks = Checks("journal_limits: a journal under higher and lower limits")
    with tempfile.TemporaryDirectory(dir=FAST, prefix="noticed-") as name:
        room = Path(name)
        raised(checks, room)
        released(checks, room)
        stops(checks, room, built(room, "power"))
    checks.done()


if __name__ == "__main__":
    main()
