"""Measures `noticed batch` on the workloads of bench/workloads.py: frames, notices and MB a second, peak memory, reads
and writes (strace -c), user instructions an item (valgrind --tool=callgrind; those of an empty run are taken off),
beside `cat` of the same input and a plain reading of the formats in Python (bench/plain.py), whose outbox must be the
same.

    python3 -m bench.bench [WORD ..]      only the workloads whose names have one of these words

What needs strace, valgrind or GNU time is skipped if they aren't installed. The last line is 'within its limits' or
says what was over, and names what was skipped. The exit status is 1 if something was over.
"""
import re
import shutil
import subprocess
import sys
import tempfile
import time
from pathlib import Path

from bench.workloads import all_workloads
from tests.support.running import HOST, ROOT, program

BATCH = [program(), "batch", HOST]
PLAIN = [sys.executable, "-m", "bench.plain"]
COLLECTED = re.compile(r"Collected : (\d+)")
BLOCK = 8192  # bytes of input or output that one read or write may be counted for
KEPT = 8_000_000  # the most peak memory, in bytes, where logs are flushed as they come


def timed(words, source: Path, outbox: Path, notes: Path) -> float:
    """Runs a command: its seconds."""
    with source.open("rb") as given, outbox.open("wb") as out, notes.open("wb") as err:
        began = time.monotonic()
        subprocess.run(words, cwd=ROOT, stdin=given, stdout=out, stderr=err, check=False)
        return time.monotonic() - began


def peak_memory(source: Path):
    """The peak memory of a run in KiB, or None without GNU time. (getrusage would count this script as well.)"""
    if not shutil.which("time"):
        return None
    with tempfile.TemporaryDirectory() as room, source.open("rb") as given:
        told = Path(room) / "told"
        words = ["time", "-f", "%M", "-o", str(told), *BATCH]
        subprocess.run(words, stdin=given, stdout=subprocess.DEVNULL, stderr=subprocess.DEVNULL, check=False)
        return int(told.read_text().split()[-1])


def instructions(source: Path):
    """User instructions of a run, or None where valgrind isn't there."""
    if not shutil.which("valgrind"):
        return None
    with tempfile.TemporaryDirectory() as room, source.open("rb") as given:
        log = Path(room) / "log"
        words = ["valgrind", "--tool=callgrind", f"--callgrind-out-file={room}/out", f"--log-file={log}", *BATCH]
        subprocess.run(words, stdin=given, stdout=subprocess.DEVNULL, stderr=subprocess.DEVNULL, check=False)
        found = COLLECTED.search(log.read_text())
        return int(found.group(1)) if found else None


def calls(source: Path):
    """Reads and writes of a run, or None where strace isn't there."""
    if not shutil.which("strace"):
        return None
    with tempfile.TemporaryDirectory() as room, source.open("rb") as given:
        counts = Path(room) / "counts"
        words = ["strace", "-f", "-c", "-e", "trace=read,write", "-o", str(counts), *BATCH]
        subprocess.run(words, stdin=given, stdout=subprocess.DEVNULL, stderr=subprocess.DEVNULL, check=False)
        rows = [line.split() for line in counts.read_text().splitlines()]
        return {row[-1]: int(row[3]) for row in rows if row and row[-1] in ("read", "write")}


def measure(workload, room: Path, empty) -> list:
    """Prints what one workload takes; what was over a limit."""
    source, outbox, notes, plain = (room / name for name in ("frames", "outbox", "notes", "plain"))
    source.write_bytes(workload.stream)
    seconds = timed(BATCH, source, outbox, notes)
    cat_seconds = timed(["cat"], source, plain, room / "nothing")
    plain_seconds = timed(PLAIN, source, plain, room / "nothing")
    size, lines = outbox.stat().st_size, notes.read_bytes().count(b"\n")
    letters = outbox.read_bytes().count(b"\r\nMAIL FROM:<>\r\n")
    over = [] if outbox.read_bytes() == plain.read_bytes() else ["the plain reading's outbox differs"]
    print(
        f"{workload.name}: {workload.items} {workload.item}s in {workload.frames} frames of {len(workload.stream)} "
        f"bytes; {size} bytes out, {letters} notices, {lines} lines"
    )
    print(
        f"  {seconds:.2f} s: {workload.frames / seconds:.0f} frames, {letters / seconds:.0f} notices, "
        f"{size / seconds / 1e6:.1f} MB out a second; cat {cat_seconds:.2f} s, plain reading {plain_seconds:.2f} s"
    )
    memory = peak_memory(source)
    print(f"  peak memory {memory} KiB")
    if memory and letters == workload.items and memory * 1024 > KEPT:
        over.append(f"{memory} KiB of memory")
    counted = calls(source)
    if counted:
        reads, writes = counted.get("read", 0), counted.get("write", 0)
        most_reads, most_writes = len(workload.stream) // BLOCK + 20, letters + lines + size // BLOCK + 4
        print(f"  {reads} reads (at most {most_reads}), {writes} writes (at most {most_writes})")
        over += [] if reads <= most_reads and writes <= most_writes else ["reads or writes"]
    total = instructions(source)
    if total is not None and empty is not None:
        each = (total - empty) // workload.items
        print(f"  {each} user instructions for each {workload.item} (at most {workload.limit})")
        over += [] if each <= workload.limit else [f"{each} instructions for each {workload.item}"]
    sys.stdout.flush()
    return [f"{workload.name}: {what}" for what in over]


def main() -> int:
    wanted, over = sys.argv[1:], []
    with tempfile.TemporaryDirectory() as name:
        room = Path(name)
        (room / "empty").write_bytes(b"")
        empty = instructions(room / "empty")
        print(f"an empty run: {empty} user instructions")
        for workload in all_workloads():
            if not wanted or any(word in workload.name for word in wanted):
                over += measure(workload, room, empty)
    missing = [it for it in ("time", "strace", "valgrind") if not shutil.which(it)]
    skipped = f"; skipped: what needs {' or '.join(missing)}" if missing else ""
    print(("over: " + "; ".join(over) if over else "within its limits") + skipped)
    return 1 if over else 0


if __name__ == "__main__":
    sys.exit(main())
