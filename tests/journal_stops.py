"""The machine of daemons that have a journal stops, again and again, under the load of tests/journal_kills.py: of what
no sync has put on the disk, of the journal, of the marks, of the outbox and of the names in their folder, all, some or
none is left, as a small library has it that is preloaded (tests/support/power.c, compiled here with gcc). After each
start all that was answered is there, and each sealed log has its notice. It stops within a start, within a request,
within a mark or within a notice, as it comes.

    python3 -m tests.journal_stops [STOPS [SEED]]

STOPS is the number of stops (default 60). Without a SEED a new one is taken; it is printed."""
import random
import sys
import tempfile
import time
from pathlib import Path

from tests.support.journal_load import HOSTILE, Load
from tests.support.preloading import built, preloading
from tests.support.running import Checks

SMALL = 262_144  # bytes of a journal: its start is soon over
SMALLEST = 98_304  # bytes of a journal that is soon full, and has room for what the clients hold
STOPPED = 77  # the status of a daemon whose machine stopped
PATIENCE = 60  # seconds until it is killed where it didn't come to the call: a slow disk takes 10 ms for one
OF_A_START, OF_A_RUN = 16, 1_000  # calls within which it stops: a first start makes 16
WRITES = 1  # calls that write the zeros of a journal which the daemon makes


def stopping(load: Load, library: Path, at: int, kept) -> dict:
    """The environment of a daemon whose machine stops within that call."""
    shadow = load.room / "shadow"
    shadow.mkdir(exist_ok=True)
    for it in shadow.iterdir():
        it.unlink()
    return preloading(library, FOLDER=load.folder, OUTBOX=load.room / "outbox", SHADOW=shadow, STOP_AT=at, KEEP=kept)


def stop(load: Load, library: Path):
    """One run, whose machine stops, while it starts or under load."""
    kept = load.dice.choice(["none", "all", load.dice.randrange(1, 1 << 31), load.dice.randrange(1, 1 << 31)])
    at = load.dice.randrange(1, load.dice.choice([OF_A_START, OF_A_RUN]))
    with load.daemon(env=stopping(load, library, at, kept)) as daemon:
        if load.serves(daemon):
            load.clean(daemon)
            load.work(daemon, 0, lambda ends: ended(daemon, ends))
        daemon.running.kill()
        ran = daemon.end()
        load.checks.true(f"its machine stopped: {ran}", load.is_ended_by(ran, STOPPED))
    load.outbox.end_run()


def first_starts(checks: Checks, library: Path, dice: random.Random):
    """The machine stops within a first start: while it makes the marks, or the journal too. The next one begins."""
    for made in (*6 * [SMALL], *3 * [0]):
        at, kept = dice.randrange(1, OF_A_START) + (0 if made else WRITES), dice.choice(
            ["none", dice.randrange(1, 1 << 31)]
        )
        with tempfile.TemporaryDirectory(prefix="noticed-stops-") as room:
            load = Load(checks, Path(room), dice, made)
            with load.daemon(env=stopping(load, library, at, kept)) as daemon:
                ran = daemon.end()
            checks.equal(
                f"a first start, the journal of {made} bytes, stopped within call {at}, kept {kept}: {ran}",
                ran.status,
                STOPPED,
            )
            load.outbox.end_run()
            load.ends_well(0)


def ended(daemon, _):
    """Waits until a daemon has ended, and kills it where it takes too long."""
    began = time.monotonic()
    while daemon.running.poll() is None and time.monotonic() - began < PATIENCE:
        time.sleep(0.005)
    daemon.running.kill()
    daemon.running.wait()


def main():
    words = sys.argv[1:]
    stops = int(words[0]) if words else 60
    seed = int(words[1]) if len(words) > 1 else time.time_ns() % 1_000_000
    checks = Checks(f"journal_stops: {stops} stops of the machine of a daemon that has a journal, seed {seed}")
    loads = (
        ("a journal and hostile clients", SMALL, HOSTILE, stops // 2),
        ("a smaller one, and no hostile clients", SMALLEST, 0, stops - stops // 2),
    )
    for what, size, hostile, count in loads:
        with tempfile.TemporaryDirectory(prefix="noticed-stops-") as room:
            load, library = Load(checks, Path(room), random.Random(f"{seed} {what}"), size, hostile), built(
                room, "power"
            )
            for _ in range(count):
                stop(load, library)
            load.ends_well(0.3, size == SMALLEST)
            checks.true(f"{what}: no more notices twice than stops", load.model.repeats <= count)
            if size == SMALLEST:
                load.check_full(what)
            load.told(what)
    with tempfile.TemporaryDirectory(prefix="noticed-stops-") as room:
        first_starts(checks, built(room, "power"), random.Random(seed))
    checks.done()


if __name__ == "__main__":
    main()
