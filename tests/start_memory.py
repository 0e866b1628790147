"""What memory a start takes over a journal that is as full and as long as dist/noticed.conf allows, against MemoryMax= of
the units: a start that is killed for its memory is killed again by each next one. The records are as short as the formats permit, since
what the daemon holds depends on their number: outcomes of as many open logs as there are keys; notices of one outcome that
wait for a mail server; and notices that have as many as a log may have. What is looked at is the most that the process had
(VmHWM), and the file, which is in the system's memory too while the start writes it.

So that it is short, starts are measured over a sixteenth and a quarter of the 64 MiB of a new journal, with as many of the
keys. What they take grows with the file, so one over the longest journal takes more in proportion.

    python3 -m tests.start_memory
"""
import itertools
import os
import re
import signal
import string
import tempfile
from pathlib import Path

from tests.support.daemon_and_clients import Daemon, frames
from tests.support.formats import journal
from tests.support.formats.logs import Limits
from tests.support.running import DIST, Checks, run

MEBIBYTE = 2**20
SIZE = 64 * MEBIBYTE  # a new journal's (noticed-journal(5))
LONGEST = 256 * MEBIBYTE  # the most that a journal grows to, unless its configuration says more (noticed-serve(8))
SMALL, LARGE = 16, 4  # which parts of a new journal are measured
STEPS = (LONGEST - SIZE // LARGE) // (SIZE // LARGE - SIZE // SMALL)  # from these two to the longest
FULL = 0.97  # of that: a start may add a byte to each record
BOUNCE, FAILED = 1, 1
ENTRIES = 1000  # outcomes in a log, unless said
PATIENCE = 600  # seconds of a start
FAST = "/dev/shm" if os.path.isdir("/dev/shm") else None
LETTERS = string.ascii_letters + string.digits


def setting(name: str) -> int:
    """A number of the configuration file."""
    return int(re.search(rf"^{name} = (\d+)$", (DIST / "noticed.conf").read_text(encoding="utf-8"), re.M)[1])


def bound(unit: str) -> int:
    """The bytes of a unit's MemoryMax=."""
    number, letter = re.search(r"^MemoryMax=(\d+)([MG])$", (DIST / unit).read_text(encoding="utf-8"), re.M).groups()
    return int(number) * {"M": MEBIBYTE, "G": 1024 * MEBIBYTE}[letter]


def record(frame: bytes) -> bytes:
    """The record of a request: the body of its frame."""
    return journal.spelled(journal.summed(frame[4:]))


def append(key: bytes) -> bytes:
    """The shortest append."""
    return record(frames.append(0, BOUNCE, key, b"a", FAILED, b"5.0.0"))


def flush(key: bytes) -> bytes:
    """The shortest flush."""
    return record(frames.flush(0, BOUNCE, key, b"a", 2**37 - 1, 2**37 - 1))


def forget(key: bytes) -> bytes:
    """A forget."""
    return record(frames.forget(0, BOUNCE, key))


def open_logs(room: int, logs: int) -> tuple:
    """Records of open logs, as many as there are keys, each with as many outcomes; and what is then there."""
    keys = ["".join(it).encode() for it in itertools.islice(itertools.product(LETTERS, repeat=3), logs)]
    appends = [append(it) for it in keys]
    times = room // sum(map(len, appends))
    return b"".join(it * times for it in appends), f"{logs} open logs of {times} outcomes"


def notices(room: int, outcomes: int) -> tuple:
    """Records of notices that wait, each of so many outcomes."""
    one = append(b"a") * outcomes + flush(b"a") + forget(b"a")
    return one * (room // len(one)), f"{room // len(one)} notices of {outcomes} outcomes"


def listing(folder: Path) -> str:
    """What `noticed journal` lists, as the states above are described."""
    lines = run(["journal", str(folder)]).outbox.decode().splitlines()
    kinds = {"open": "open logs", "unmarked": "notices"}
    found = {(it.split()[0], it.split()[3]) for it in lines if it.split()[0] in kinds}
    (kind, outcomes), *others = found
    number = sum(it.startswith(kind) for it in lines)
    return f"{number} {kinds[kind]} of {outcomes} outcomes{others or ''}"


def peak(folder: Path, logs: int) -> int:
    """The most bytes that a start over this journal had, with no mail server."""
    options = ("--journal", str(folder), "--hand-in", str(folder / "nobody"), "--logs", str(logs), "--release-closed")
    with Daemon(setting("agents"), setting("max-use"), options=options) as daemon:
        with daemon.connect() as client:
            client.settimeout(PATIENCE)
            client.sendall(b"\0\0\0\1\0")
            served = client.recv(14)  # a refusal: a worker is there
        status = Path(f"/proc/{daemon.running.pid}/status").read_text(encoding="ascii")
        daemon.running.send_signal(signal.SIGKILL)
        daemon.running.wait(PATIENCE)
    if not served:
        raise SystemExit("the start was not completed")
    return int(re.search(r"^VmHWM:\s+(\d+) kB$", status, re.M)[1]) * 1024


def measured(checks: Checks, state, part: int, logs: int) -> int:
    """What a start takes over a journal of this part of the size, in a state."""
    first = journal.spelled(journal.header(Limits(logs, ENTRIES, setting("max-use"))))
    size = SIZE // part
    kept, described = state(int(FULL * size) - len(first), logs // part)
    with tempfile.TemporaryDirectory(prefix="noticed-", dir=FAST) as name:
        folder = Path(name)
        (folder / "journal").write_bytes((first + kept).ljust(size, b"\0"))
        (folder / "marks").write_bytes(bytes(4096))
        if part == SMALL:
            checks.equal(f"{described}: what is listed", listing(folder), described)
        taken = peak(folder, logs)
    print(f"  {described}, a journal of {size // MEBIBYTE} MiB: {taken // MEBIBYTE} MiB")
    return taken


def main():
    checks = Checks("start_memory: a start over a full journal takes less memory than the units allow")
    logs, allowed = setting("logs"), min(map(bound, ("noticed.service", "noticed@.service")))
    for name, state in (
        ("open logs", open_logs),
        ("notices", lambda room, _: notices(room, 1)),
        ("notices of many outcomes", lambda room, _: notices(room, ENTRIES)),
    ):
        small, large = (measured(checks, state, part, logs) for part in (SMALL, LARGE))
        whole = large + STEPS * (large - small)
        print(f"  {name}: {whole // MEBIBYTE} MiB over a full journal, {whole / LONGEST:.1f} for each of it")
        checks.true(f"{name}: {whole // MEBIBYTE} MiB and the file are allowed", whole + LONGEST <= allowed)
    checks.done()


if __name__ == "__main__":
    main()
