"""Runs `noticed batch` on random sessions (tests/support/hostile.py) and compares outbox, notes and status with a plain
reading of the manual pages (tests/support/formats), which shares nothing with the program.

    python3 -m tests.fuzz_batch [--seconds S] [--sessions N] [--seed SEED] [--from INDEX]

A session follows from the seed and its index alone: what is printed of one that differs is enough to run it again."""
import argparse
import os
import random
import sys
import time

from tests.support.formats import sessions
from tests.support.hostile import Hostile
from tests.support.running import HOST, batch, shown

SECONDS = 5  # in make check


def session(seed: str, index: int) -> bytes:
    """The bytes of a session."""
    return Hostile(random.Random(f"{seed}/{index}")).session()


def difference(given: bytes):
    """What the program gives that the formats don't, on these bytes, or None."""
    wanted, found = sessions.batch(HOST.encode(), given), batch(given)
    if found == wanted:
        return None
    return "\n".join(
        f"  {it}\n    wanted {shown(getattr(wanted, it))}\n    found  {shown(getattr(found, it))}"
        for it in ("status", "notes", "outbox")
        if getattr(found, it) != getattr(wanted, it)
    )


def options():
    """The command line."""
    reader = argparse.ArgumentParser(description=__doc__.split("\n", maxsplit=1)[0])
    reader.add_argument("--seconds", type=float, default=SECONDS)
    reader.add_argument("--sessions", type=int, help="so many sessions, however long they take")
    reader.add_argument("--seed", default=os.urandom(4).hex())
    reader.add_argument("--from", type=int, default=0, dest="first")
    return reader.parse_args()


def main() -> int:
    given, began = options(), time.monotonic()
    print(f"fuzz_batch: random sessions of batch beside a plain reading of the formats, seed {given.seed}")
    index = given.first
    while index - given.first < given.sessions if given.sessions else time.monotonic() - began < given.seconds:
        told = difference(session(given.seed, index))
        if told:
            print(
                f"  FAILED: --seed {given.seed} --from {index} --sessions 1, "
                f"after {time.monotonic() - began:.1f} s\n{told}"
            )
            return 1
        index += 1
    print(f"  {index - given.first} sessions, no difference")
    return 0


if __name__ == "__main__":
    sys.exit(main())
