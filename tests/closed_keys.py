"""What a key costs that is closed and forgotten doesn't rise with the number of closed keys: neither a client's forget,
in whatever order, nor a stop that forgets all, nor the start after it. User instructions are counted (valgrind), so
the machine's load doesn't matter.

    python3 -m tests.closed_keys [FEW MANY]      so many closed keys, 1,000 and 8,000 unless said
"""
import random
import re
import shutil
import subprocess
import sys
import tempfile
from pathlib import Path

from tests.support.daemon_and_clients import Daemon, append, frames
from tests.support.running import Checks, program

FEW, MANY, LOGS, BOUNCE = 1000, 8_000, 65_536, 1
PATIENCE = 1_200  # seconds that a run may take below valgrind on a busy machine
SIZE = 8 << 20  # bytes of the journal, of which no run uses a quarter: so no start compacts it
RISE = 1.5  # a key may cost so much more at many closed keys: a search in order is longer by a few comparisons
COUNTING = ("valgrind", "--tool=cachegrind", "--cache-sim=no", "--cachegrind-out-file=/dev/null")
COUNTED = re.compile(r"I\s+refs:\s+([\d,]+)")


def key(turn: int) -> bytes:
    """A queue id of its own for each turn, in the order of the turns."""
    return b"K%07d" % turn


def shuffled(turns: range) -> list:
    """The turns in no order, the same in each run."""
    return random.Random(len(turns)).sample(turns, len(turns))


ORDERS = {"oldest first": list, "newest first": lambda turns: list(reversed(turns)), "in no order": shuffled}


def discards(turns) -> list:
    """A request to discard each key."""
    return [lambda number, turn=turn: frames.discard(number, BOUNCE, key(turn)) for turn in turns]


def forgets(turns) -> list:
    """A request to forget each key."""
    return [lambda number, turn=turn: frames.forget(number, BOUNCE, key(turn)) for turn in turns]


def appends(turns) -> list:
    """An append about each key."""
    return [lambda number, turn=turn: append(number, key(turn)) for turn in turns]


NOTHING = forgets([0])  # of a key that isn't held


class Folder:
    """A journal, and what runs over it cost."""

    def __init__(self, room: str):
        self.room, self.runs = Path(room), 0
        (self.room / "journal").write_bytes(bytes(SIZE))

    def instructions(self, checks: Checks, name: str, bodies=NOTHING) -> int:
        """User instructions of a run that is asked these requests, each answered, and then ends in order."""
        self.runs += 1
        counts, outbox = self.room / "counts", self.room / f"outbox.{self.runs}"
        under = (*COUNTING, f"--log-file={counts}")
        options = ("--journal", str(self.room), "--outbox", str(outbox), "--logs", str(LOGS))
        with Daemon(1, 1, options=options, under=under) as daemon:
            ran = daemon.send(b"".join(make(number) for number, make in enumerate(bodies)), timeout=PATIENCE)
            checks.equal(f"{name}: answers", len(ran.outbox.splitlines()), len(bodies))
            checks.equal(f"{name}: status", daemon.end().status, 0)
        return int(COUNTED.search(counts.read_text()).group(1).replace(",", ""))


def costs(checks: Checks, keys: int) -> dict:
    """What each of so many closed keys costs: by a client's forget, at the stop, and at the start after it."""
    turns, found = range(keys), {}
    with tempfile.TemporaryDirectory(prefix="noticed-") as room:
        folder = Folder(room)
        empty, again = (folder.instructions(checks, f"nothing, start {start}") for start in (1, 2))
    for order, placed in ORDERS.items():
        with tempfile.TemporaryDirectory(prefix="noticed-") as room:
            spent = Folder(room).instructions(checks, f"{keys} forgotten", discards(turns) + forgets(placed(turns)))
            found[f"forgotten {order}"] = (spent - empty) // keys
    with tempfile.TemporaryDirectory(prefix="noticed-") as room:
        folder = Folder(room)
        # A stop forgets keys in the order in which they were first named.
        spent = folder.instructions(checks, f"{keys} at the stop", appends(turns) + discards(shuffled(turns)))
        found["forgotten at the stop"] = (spent - empty) // keys
        found["at the next start"] = (folder.instructions(checks, f"{keys} at the start") - again) // keys
    return found


def main():
    few, many = (int(word) for word in sys.argv[1:3]) if len(sys.argv) > 2 else (FEW, MANY)
    checks = Checks(f"closed_keys: what a closed key costs among {few:,} and among {many:,}")
    if not shutil.which("valgrind"):
        checks.skip("no valgrind")
        checks.done()
    if subprocess.run([*COUNTING, program(), "help"], check=False, capture_output=True).returncode:
        checks.skip("valgrind can't run this program, which has checks of its own")
        checks.done()
    before, after = costs(checks, few), costs(checks, many)
    for what, spent in after.items():
        print(f"  {what}: {before[what]:,} instructions a key among {few:,}, {spent:,} among {many:,}")
        checks.true(f"{what}: {spent:,} is at most {RISE} times {before[what]:,}", spent <= RISE * before[what])
    checks.done()


if __name__ == "__main__":
    main()
