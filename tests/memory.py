"""A daemon gives back what it takes for requests, letters and connections: its memory stays where it was while they
come, of each kind so much that one piece that was kept of each would show; so do its descriptors and threads. It takes
some seconds.

    python3 -m tests.memory [TIMES]      so many times as many rounds, 1 unless said
"""
import subprocess
import sys
from dataclasses import dataclass
from pathlib import Path
from typing import Callable

from tests.support.daemon_and_clients import Daemon, answers_to, asked, frames, heard
from tests.support.daemon_and_clients import flush as flush_of
from tests.support.formats.logs import (
    CLOSED,
    DISCARDED,
    FORGOTTEN,
    LOG_FULL,
    LOGGED,
    NO_RETURN,
    NOTHING,
    REFUSED,
    SEALED,
    TABLE_FULL,
)
from tests.support.running import Checks

BOUND = 3072  # KiB that the daemon's memory may grow by while the rounds of a kind go on
SHOWS = 3  # times the bound: what one piece kept of each round comes to, at least
WARM = 3  # rounds of each kind before memory is looked at
KEPT = 0.98  # of a text's bytes, what keeping it takes at least
LOGS, ENTRIES, BOUNCE, FAILED = 4096, 1000, 1, 1
TEXTS = {"original": b"o" * 256, "mta": b"m" * 255, "diagnostic": b"d" * 800, "reason": b"r" * 800}
OUTCOME = 2111  # bytes of these texts
HEADER = b"X-Field: " + b"h" * 989 + b"\n"
LONG = (HEADER * 33)[:32_768]
LONGEST_FRAME = 65_536
FIRST, CONNECTIONS = 10, 1000


class Client:
    """A connection that counts its frames."""

    def __init__(self, daemon: Daemon):
        self.stream, self.number = daemon.connect(), 0

    def ask(self, steps: list) -> bool:
        """Whether each of these requests gets its reply. A step is a frame without its number, and the reply."""
        given = [make(self.number + at) for at, (make, _) in enumerate(steps)]
        self.number += len(steps)
        got = answers_to(self.stream, given)
        return [got[at + 5] for at in range(0, len(got), 14)] == [reply for _, reply in steps]


def append(key: bytes) -> Callable:
    """An append of an outcome with long texts."""
    return lambda number: frames.append(number, BOUNCE, key, b"x@y", FAILED, b"5.0.0", **TEXTS)


def flush(key: bytes, **fields) -> Callable:
    """A flush with the longest header."""
    return lambda number: flush_of(number, key, header=LONG, **fields)


def discard(key: bytes) -> Callable:
    """A discard."""
    return lambda number: frames.discard(number, BOUNCE, key)


def forget(key: bytes) -> Callable:
    """A forget."""
    return lambda number: frames.forget(number, BOUNCE, key)


def log_of(count: int, end: Callable, reply: int) -> list:
    """A log of so many outcomes, how it ends, and its key let go."""
    return [(append(b"L"), LOGGED)] * count + [(end, reply), (forget(b"L"), FORGOTTEN)]


@dataclass
class Kind:
    """What a round asks, how many rounds there are, and the bytes that a round takes and gives back."""

    name: str
    steps: list
    rounds: int
    taken: int


def kinds_of_logs() -> list:
    """Rounds that find room for their keys."""
    return [
        Kind("discarded logs", log_of(50, discard(b"L"), DISCARDED), 100, 50 * OUTCOME),
        Kind("logs with a null return path", log_of(50, flush(b"L", return_path=b""), NO_RETURN), 100, 50 * OUTCOME),
        Kind("drafts with a null return path", log_of(1, flush(b"L", return_path=b""), NO_RETURN), 300, len(LONG)),
        Kind("letters of many outcomes", log_of(50, flush(b"L"), SEALED), 100, 50 * OUTCOME),
        Kind("letters with long headers", log_of(1, flush(b"L"), SEALED), 300, len(LONG)),
        Kind("full logs", log_of(ENTRIES, discard(b"L"), DISCARDED), 6, ENTRIES * OUTCOME),
        Kind("flushes of nothing", [(flush(b"L"), NOTHING), (forget(b"L"), FORGOTTEN)], 300, len(LONG)),
        Kind("drafts that are refused", [(flush(b"L", envelope=b"e" * 101), REFUSED)], 300, len(LONG)),
        Kind(
            "outcomes that are refused",
            [
                (
                    lambda number: frames.append(
                        number, BOUNCE, b"L", b"x@y", FAILED, b"5.0.0", **TEXTS, retry_until=1
                    ),
                    REFUSED,
                )
            ],
            5000,
            OUTCOME,
        ),
    ]


def kinds_without_room() -> list:
    """Rounds that find a log closed or full, or no room for a key."""
    return [
        Kind("appends to a closed log", [(append(b"C"), CLOSED)], 5000, OUTCOME),
        Kind("flushes of a closed log", [(flush(b"C"), CLOSED)], 300, len(LONG)),
        Kind("appends to a full log", [(append(b"F"), LOG_FULL)], 5000, OUTCOME),
        Kind("appends without room for a key", [(append(b"N"), TABLE_FULL)], 5000, OUTCOME),
        Kind("flushes without room for a key", [(flush(b"N"), TABLE_FULL)], 300, len(LONG)),
    ]


def kept(daemon: Daemon) -> int:
    """The KiB of memory that the daemon keeps."""
    status = Path(f"/proc/{daemon.running.pid}/status").read_text(encoding="ascii")
    return next(int(line.split()[1]) for line in status.splitlines() if line.startswith("VmRSS"))


def held(daemon: Daemon) -> tuple:
    """How many descriptors and threads the daemon has."""
    room = Path(f"/proc/{daemon.running.pid}")
    return len(list((room / "fd").iterdir())), len(list((room / "task").iterdir()))


def rounds(checks: Checks, daemon: Daemon, kinds: list, times: int):
    """The rounds of these kinds on a connection: first some of each, then of each so many that what they take would
    show."""
    client = Client(daemon)
    with client.stream:
        for it in kinds:
            checks.true(f"{it.name}: the first", all(client.ask(it.steps) for _ in range(WARM)))
        for it in kinds:
            before = kept(daemon)
            checks.true(f"{it.name}: answers", all(client.ask(it.steps) for _ in range(it.rounds * times)))
            grown, taken = kept(daemon) - before, int(KEPT * it.rounds * times * it.taken) // 1024
            checks.true(f"{it.name}: {taken} KiB kept would show", taken >= SHOWS * BOUND)
            checks.true(f"{it.name}: memory grew by {grown} KiB", grown <= BOUND)
            print(
                f"  {it.name}: {it.rounds * times} rounds, memory {before} KiB and {grown:+} KiB; kept, "
                f"they would be {taken} KiB"
            )


def fill(checks: Checks, daemon: Daemon):
    """Closes a log, fills one, and holds all other keys."""
    client = Client(daemon)
    with client.stream:
        steps = [(discard(b"C"), DISCARDED)] + [(append(b"F"), LOGGED)] * ENTRIES
        steps += [(discard(b"K%d" % at), DISCARDED) for at in range(LOGS - 2)]
        checks.true("every key is held", client.ask(steps))


def leave(daemon: Daemon, at: int) -> bool:
    """A connection with a frame of the greatest length, which is refused; then it ends, each second time in the middle
    of such a frame. Whether it was answered."""
    body = bytes(LONGEST_FRAME)
    with daemon.connect() as client:
        answered = asked(client, frames.frame(body))[5:6] == bytes([REFUSED])
        if at % 2:
            client.sendall(frames.frame(body)[: 10_000 + at])
        client.shutdown(1)
        heard(client, 1)
    return answered


def connections(checks: Checks, daemon: Daemon, times: int):
    """Connections that each make the daemon take a frame of the greatest length."""
    checks.true("connections: the first", all(leave(daemon, at) for at in range(FIRST)))
    before, had = kept(daemon), held(daemon)
    checks.true("connections: answers", all(leave(daemon, at) for at in range(CONNECTIONS * times)))
    grown = kept(daemon) - before
    checks.true(f"connections: memory grew by {grown} KiB", grown <= BOUND)
    checks.equal("connections: descriptors and threads", held(daemon), had)
    print(
        f"  connections: {CONNECTIONS * times}, memory {before} KiB and {grown:+} KiB; kept, "
        f"their buffers would be {CONNECTIONS * times * LONGEST_FRAME // 1024} KiB"
    )


def main():
    times = int(sys.argv[1]) if len(sys.argv) > 1 else 1
    checks = Checks("memory: what a daemon takes for requests, letters and connections it gives back")
    uses = 3 + FIRST + CONNECTIONS * times  # those of this script, so that the daemon ends in order
    with Daemon(1, uses, stdout=subprocess.DEVNULL) as daemon:
        rounds(checks, daemon, kinds_of_logs(), times)
        connections(checks, daemon, times)
        fill(checks, daemon)
        rounds(checks, daemon, kinds_without_room(), times)
        ended = daemon.end()
        checks.equal("the daemon's end", (ended.notes.splitlines()[1:], ended.status), ([b"open B F %d" % ENTRIES], 0))
    checks.done()


if __name__ == "__main__":
    main()
