"""Kills daemons that have a journal (SIGKILL), at any moment, under 16 clients of which some are hostile, and starts
the next one on the same folder, with a new outbox. After each start all that was answered is there, in the journal and
by what is answered from then on; of what was sent and not answered it may be there or not. Each sealed log has its
notice, byte for byte as a plain reading of the manual pages has it; the last one of a run may come again. A small
journal gets full again and again, and is put away for a shorter one: no run ends by it. So it does over an outbox
whose syncs are slow, and with large headers: then letters wait to be marked as it gets full, and none of them is lost.
And over a mail server in place of the outbox, where a letter may come again only as the first of a run, also with a
journal that gets full. Then a clean end, and a last start.

    python3 -m tests.journal_kills [KILLS [SEED]]

KILLS is the number of kills (default 40). Without a SEED a new one is taken; it is printed."""
import random
import signal
import sys
import tempfile
import time
from pathlib import Path

from tests.support.journal_load import Load
from tests.support.running import Checks

SMALL = 98_304  # bytes of a journal that is soon full, and has room for what the clients hold
IN_A_START = 0.25  # how often a daemon is killed while it starts
LONGEST_START, LONGEST_LOAD = 0.6, 0.5  # seconds until it is killed
LARGE = (150, 250)  # lines of a header
SLOW, LONGEST_SLOW = 40, 2.5  # milliseconds that a sync of the outbox takes more; seconds until it is killed


def kill(load: Load, longest: float):
    """One run, which is killed while it starts or under a load of at most so many seconds."""
    with load.daemon() as daemon:
        if load.dice.random() < IN_A_START:
            time.sleep(load.dice.random() * LONGEST_START)
        else:
            load.checks.true("a run after a kill serves", load.serves(daemon))
            load.clean(daemon)
            load.work(daemon, load.dice.random() * longest, lambda _: daemon.running.kill())
        daemon.running.kill()
        ran = daemon.end()
        load.checks.true(f"it was there until it was killed: {ran}", load.is_ended_by(ran, -signal.SIGKILL))
        load.outbox.end_run()


def main():
    words = sys.argv[1:]
    kills = int(words[0]) if words else 40
    seed = int(words[1]) if len(words) > 1 else time.time_ns() % 1_000_000
    checks = Checks(f"journal_kills: {kills} kills of daemons that have a journal, seed {seed}")
    loads = (
        ("a journal as the daemon makes it", {}, LONGEST_LOAD, kills // 2),
        ("a small journal", {"size": SMALL, "hostile": 0}, LONGEST_LOAD, kills - kills // 2),
        ("a slow outbox", {"size": 2 * SMALL, "hostile": 0, "lines": LARGE, "slow": SLOW}, LONGEST_SLOW, kills // 4),
        ("a mail server", {"submits": True}, LONGEST_LOAD, kills // 4),
        ("both", {"size": 2 * SMALL, "hostile": 0, "lines": LARGE, "submits": True}, LONGEST_SLOW, kills // 8),
    )
    for what, how, longest, count in loads:
        with tempfile.TemporaryDirectory(prefix="noticed-kills-") as room:
            load = Load(checks, Path(room), random.Random(f"{seed} {what}"), **how)
            for _ in range(count):
                kill(load, longest)
            load.ends_well(0.3, how.get("size", 0) > 0)
            checks.true(f"{what}: no more notices twice than kills", load.model.repeats <= count)
            if "size" in how:
                load.check_full(what)
            load.told(what)
    checks.done()


if __name__ == "__main__":
    main()
