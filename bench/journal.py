"""Measures a ledger over a real file (the program probe): requests a second, alone and in groups of 4 and of 16, each
group kept by one write and one sync. Beside it a program in C (bench/plain_journal.c) that writes the same bytes by as
many writes and syncs, and keeps nothing in memory. The two take turns, since a disk's rates swing: the median of the
runs is shown, and between which bounds they lay. And how long an opening of the file takes, empty and with the
requests, which are carried out again.

    python3 -m bench.journal [REQUESTS [FOLDER]]

REQUESTS is the number of requests (default 6,000). FOLDER is on the disk to be measured (default: the current folder).
"""
import os
import statistics
import subprocess
import sys
import tempfile
import time
from pathlib import Path

from tests.support.daemon_and_clients import flush, frames
from tests.support.running import ROOT

PROBE = os.environ.get("PROBE") or str(ROOT / "crates/probe/out/probe")
SIZE = 16 * 2**20  # bytes of the file
RUNS = 5
GROUPS = (1, 4, 16)
DIAGNOSTIC = b"550 5.1.1 <recipient@example.org>: Recipient address rejected: User unknown in local recipient table"


def request(number: int) -> bytes:
    """The frame of one of six requests about a message: four outcomes, its flush, and that its key is let go."""
    message, step = divmod(number, 6)
    queue_id = b"4B%08X" % message
    if step == 4:
        return flush(number, queue_id)
    if step == 5:
        return frames.forget(number, 1, queue_id)
    return frames.append(
        number,
        1,
        queue_id,
        b"recipient%d@example.org" % step,
        1,
        b"5.1.1",
        mta=b"mx.example.org",
        diagnostic=DIAGNOSTIC,
    )


def timed(path: Path, given: bytes, group: int) -> float:
    """The seconds of a run that keeps what is given."""
    words = [PROBE, "journal", path, SIZE, 4096, 1000, 1_000_000, group, 0]
    began = time.monotonic()
    ended = subprocess.run(list(map(str, words)), input=given, stdout=subprocess.PIPE, check=True)
    seconds = time.monotonic() - began
    if len(ended.stdout.partition(b"\n")[2]) != 14 * count_of(given):
        raise RuntimeError(ended.stdout[-80:])
    return seconds


def count_of(given: bytes) -> int:
    """How many frames are given."""
    count, at = 0, 0
    while at < len(given):
        at += 4 + int.from_bytes(given[at : at + 4], "big")
        count += 1
    return count


def show(what: str, count: int, seconds: list):
    """One line: so many requests, and the rates of the runs."""
    rates = [count / it for it in seconds]
    print(f"{what}: {statistics.median(rates):.0f} a second ({min(rates):.0f} to {max(rates):.0f})")
    sys.stdout.flush()


def main():
    count = int(sys.argv[1]) if len(sys.argv) > 1 else 6_000
    folder = sys.argv[2] if len(sys.argv) > 2 else "."
    given = b"".join(map(request, range(count)))
    with tempfile.TemporaryDirectory(prefix="noticed-journal-", dir=folder) as name:
        room = Path(name)
        plain = room / "plain_journal"
        subprocess.run(["gcc", "-O2", "-o", plain, ROOT / "bench/plain_journal.c"], check=True)
        for group in GROUPS:
            ours, theirs, openings, replays, syncs, used = [], [], [], [], 0, 0
            for _ in range(RUNS):
                path = room / "journal"
                path.unlink(missing_ok=True)
                timed(path, b"", group)  # makes the file
                openings.append(timed(path, b"", group))
                ours.append(timed(path, given, group) - openings[-1])
                replays.append(timed(path, b"", group))
                used = len(path.read_bytes().rstrip(b"\0"))
                records, syncs, seconds = subprocess.run(
                    [plain, path, room / "plain", str(group)], stdout=subprocess.PIPE, check=True
                ).stdout.split()
                theirs.append(float(seconds))
                if int(records) != 1 + count:  # the header, and a record a request
                    raise RuntimeError(f"{int(records)} records of a header and {count}")
            print(f"groups of {group}: {count} requests, {int(syncs)} syncs, {used / count:.0f} bytes a request")
            show("  the ledger", count, ours)
            show("  write and fdatasync of the same bytes in C", count, theirs)
        print(
            f"opening a file of {SIZE >> 20} MiB: {1e3 * statistics.median(openings):.0f} ms; "
            f"with {count} requests: {1e3 * statistics.median(replays):.0f} ms"
        )


if __name__ == "__main__":
    main()
