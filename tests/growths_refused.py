"""Refuses the first, the second, .. growth of memory by a small library that is preloaded (tests/support/refuse.c,
compiled here with gcc): of a run of `batch` until it is whole, each of whose ends is one that want of memory may have;
and of each public call that takes memory (the program probe makes the values before it, then the call), which
answers 9 (42 of a crew) until it succeeds. A call that takes no memory succeeds where each growth is refused."""
import os
import subprocess
import sys
import tempfile
from pathlib import Path

from tests.support.preloading import built, compare_ends, each_refused, preloading
from tests.support.faults import fault_line
from tests.support.running import ROOT, VECTORS, Checks, Ran, batch, empty_outbox

PROBE = os.environ.get("PROBE") or str(ROOT / "crates/probe/out/probe")
MOST = 500  # growths of a run; more than this and the sweep is broken
UNBEGUN = Ran(b"", fault_line(9), 1)  # nothing is read or written
FIRST_FRAME = 52  # bytes of the example's append


def ended(notes: bytes, status: int) -> Ran:
    """A run that made no notice."""
    return Ran(empty_outbox(), notes, status)


def sweep(library: Path, given: bytes) -> list:
    """How the run ends where its first growth is refused, its second, and so on up to the first run that is whole."""
    return each_refused(library, MOST, lambda environment: batch(given, env=environment), batch(given))


def longer_and_longer(checks: Checks, library: Path):
    """Frames that are each a byte longer than the last: what they are read into grows for the first, and then only
    where a frame is longer than twice what it was."""
    given = b"".join(size.to_bytes(4, "big") + b"\xff" * size for size in range(1, 1001))
    ends = sweep(library, given)
    checks.true("frames that are each longer: the last run is whole", ends[-1] == batch(given))
    refused = [it.notes.splitlines(keepends=True) for it in ends[:-1] if it != UNBEGUN]
    checks.equal("each growth that is refused ends it", {it[-1] for it in refused}, {fault_line(9)})
    answered = sorted({len(it) - 1 for it in refused})
    checks.equal("growths for frames, after so many", answered, [0, 1, 6, 16, 36, 76, 156, 316, 636])


# How often each public call grows its memory, at least; each growth is refused with 9, or 42 of a crew.
CALLS = {
    "address": 1,
    "mta-name": 1,
    "envelope-id": 1,
    "clean": 1,
    "raw-header": 1,
    "outcome": 2,
    "draft": 1,
    "book": 2,
    "open-lines": 1,
    "read-frame": 1,
    "read-next": 1,
    "decode-append": 2,
    "decode-flush": 2,
    "encode-append": 1,
    "encode-flush": 1,
    "site": 1,
    "notice": 1,
    "mail-data": 1,
    "open-lane": 2,
    "open-post": 2,
    "open-crew": 3,
}
# What the program is given beside the call's name, and the texts that are kept.
TEXTS = {"clean": ["550 5.1.1 no such\tuser"]}
KEPT = {
    "address": b"bob@example.org ",
    "mta-name": b"mail.example.org ",
    "envelope-id": b"QQ314159 ",
    "clean": b"550 5.1.1 no such?user ",
    "raw-header": b"Subject: hi ",
}
# What takes no memory, and what it comes to: lengths that no frame has, and a collector and an outbox at work.
WITHOUT_MEMORY = {"read-empty": b"refused 12", "read-too-long": b"refused 11", "collect": b"made"}


def called(library: Path, call: str, growth) -> bytes:
    """What a public call comes to whose growth of this number is refused; "all" of them, or None."""
    environment = None if growth is None else preloading(library, REFUSE=growth, REFUSE_AFTER="begin\n")
    words = [PROBE, "call", call, *TEXTS.get(call, ())]
    ended = subprocess.run(words, capture_output=True, env=environment, check=False)
    begun, _, came = ended.stdout.partition(b"begin\n")
    return (
        came.strip()
        if (begun, ended.stderr, ended.returncode) == (b"", b"", 0)
        else b"another end: " + str(ended).encode()
    )


def check_calls(checks: Checks, library: Path):
    """Each public call that takes memory is refused its first growth, its second, and so on, until it succeeds."""
    total = 0
    for call, least in CALLS.items():
        made = KEPT.get(call, b"") + b"made"
        checks.equal(f"{call} with ample memory", called(library, call, None), made)
        refusal = b"refused 42" if call == "open-crew" else b"refused 9"
        ends = [called(library, call, 1)]
        while ends[-1] == refusal and len(ends) < MOST:
            ends.append(called(library, call, len(ends) + 1))
        checks.equal(f"{call} after {len(ends) - 1} growths", ends[-1], made)
        checks.true(f"{call} has {least} growths at least: {len(ends) - 1}", len(ends) > least)
        checks.equal(f"{call} without memory", called(library, call, "all"), refusal)
        total += len(ends) - 1
    for call, end in WITHOUT_MEMORY.items():
        checks.equal(f"{call} without memory", called(library, call, "all"), end)
    print(f"  {len(CALLS)} public calls: {total} growths, each refused once; {len(WITHOUT_MEMORY)} that take no memory")


def main():
    checks = Checks("growths_refused: each growth of memory refused in turn")
    if not os.access(PROBE, os.X_OK):
        print(f"there is no program {PROBE}: run the gate, or name one in PROBE")
        sys.exit(1)
    given = (VECTORS / "one-bounce.frames").read_bytes()
    outbox, notes = ((VECTORS / f"one-bounce.{it}").read_bytes() for it in ("outbox", "notes"))
    with tempfile.TemporaryDirectory() as room:
        library = built(room, "refuse")
        check_calls(checks, library)
        compare_ends(
            checks,
            "an append and a flush",
            sweep(library, given),
            {
                "before the run": UNBEGUN,
                "for the book, or for the first frame": ended(fault_line(9), 1),
                "for the append": ended(b"0 refused 9\n1 nothing\n", 0),
                "for the second frame": ended(b"0 logged 0\n" + fault_line(9) + b"open B A1B2C3 1\n", 1),
                "for the flush": ended(b"0 logged 0\n1 refused 9\nopen B A1B2C3 1\n", 0),
                "none": Ran(outbox, notes, 0),
            },
        )
        compare_ends(
            checks,
            "the append alone",
            sweep(library, given[:FIRST_FRAME]),
            {
                "before the run": UNBEGUN,
                "for the book, or for the frame": ended(fault_line(9), 1),
                "for the append": ended(b"0 refused 9\n", 0),
                "for the list of open logs": ended(b"0 logged 0\n" + fault_line(9), 1),
                "none": ended(b"0 logged 0\nopen B A1B2C3 1\n", 0),
            },
        )
        longer_and_longer(checks, library)
    checks.done()


if __name__ == "__main__":
    main()
