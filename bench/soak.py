"""Runs a daemon of 16 agents for some minutes with clients that come and go: they append, flush, discard and forget,
hold their connections without a word, leave in the middle of a frame, or before an answer. At the end its memory,
descriptors and threads must be what they were after the first minute, and each of its agents must serve. It isn't part
of `make check`.

    python3 -m bench.soak [MINUTES]      8 unless said
"""
import random
import socket
import sys
import threading
import time
from pathlib import Path

from tests.support.daemon_and_clients import Daemon, asked, flush, frames, heard
from tests.support.formats.logs import (
    CLOSED,
    DISCARDED,
    FORGOTTEN,
    LOG_FULL,
    LOGGED,
    NO_RETURN,
    NOT_CLOSED,
    NOTHING,
    REFUSED,
    SEALED,
)
from tests.support.running import Checks, program

AGENTS, USES, CLIENTS, BOUNCE = 16, 1_000_000, 24, 1
WARM, EACH = 60, 60  # seconds before the first look, and between two lines
BOUND = 4096  # KiB that memory may grow by: what 64 frames of the greatest length take
KEYS = 50  # of each client
PAUSE = 0.02  # seconds that a client lets pass between two connections, at most
QUIET = 0.5  # seconds until the daemon has seen that its clients have left
LEGAL = {
    "append": (LOGGED, CLOSED, LOG_FULL),
    "flush": (SEALED, NOTHING, NO_RETURN, CLOSED),
    "discard": (DISCARDED, CLOSED),
    "forget": (FORGOTTEN, NOT_CLOSED),
    "refused": (REFUSED,),
}


class Client(threading.Thread):
    """A client that opens one connection after another until it is told to stop. Its keys are its own."""

    def __init__(self, daemon: Daemon, number: int, stop: threading.Event):
        super().__init__(daemon=True)
        self.daemon_under_test, self.number, self.stopping = daemon, number, stop
        self.dice = random.Random(number)
        self.connections, self.answers, self.wrong = 0, 0, []

    def frame(self, what: str, place: int, key: bytes) -> bytes:
        """A request of this kind."""
        if what == "append":
            long = b"r" * self.dice.choice([0, 10, 800])
            return frames.append(place, BOUNCE, key, b"x@y", 1, b"5.0.0", diagnostic=long, reason=long)
        if what == "flush":
            path = self.dice.choice([b"ann@example.com", b"ann@example.com", b""])
            return flush(place, key, return_path=path, header=b"X: y\n" * self.dice.choice([0, 10, 6000]))
        if what == "refused":
            return frames.frame(bytes(self.dice.choice([1, 100, 65_536])))
        return getattr(frames, what)(place, BOUNCE, key)

    def ask(self, stream: socket.socket, what: str, place: int, key: bytes):
        """Asks, and notes an answer that can't be."""
        got = asked(stream, self.frame(what, place, key))
        self.answers += 1
        if len(got) != 14 or got[5] not in LEGAL[what] or int.from_bytes(got[6:10], "big") != place:
            self.wrong.append(f"client {self.number}: {what}: {got.hex()}")

    def converse(self, stream: socket.socket):
        """One connection: a message's events, and then one of the ways to leave."""
        key = b"C%dK%d" % (self.number, self.dice.randrange(KEYS))
        events = ["append"] * self.dice.choice([0, 1, 1, 2, 30]) + self.dice.choice(
            [["flush", "forget"], ["discard", "forget"], ["refused"], []]
        )
        for place, what in enumerate(events):
            self.ask(stream, what, place, key)
        leaves = self.dice.random()
        frame = self.frame("flush", len(events), key)
        if leaves < 0.1:
            stream.sendall(frame[: self.dice.randrange(1, len(frame))])
        elif leaves < 0.2:
            stream.sendall(frame)
        if self.dice.random() < 0.02:
            self.stopping.wait(self.dice.uniform(0, 3))

    def run(self):
        """All its connections."""
        while not self.stopping.is_set():
            try:
                with self.daemon_under_test.connect() as stream:
                    stream.settimeout(60)
                    self.connections += 1
                    self.converse(stream)
            except OSError as why:
                self.wrong.append(f"client {self.number}: {why}")
                return
            self.stopping.wait(self.dice.uniform(0, PAUSE))


def look(daemon: Daemon) -> tuple:
    """The daemon's memory in KiB, its descriptors and its threads."""
    room = Path(f"/proc/{daemon.running.pid}")
    status = (room / "status").read_text(encoding="ascii").splitlines()
    memory = next(int(line.split()[1]) for line in status if line.startswith("VmRSS"))
    return memory, len(list((room / "fd").iterdir())), len(list((room / "task").iterdir()))


def run_clients(daemon: Daemon, seconds: float) -> list:
    """Lets clients come and go for this time, prints the figures each minute, and returns the clients at the end."""
    stop, began = threading.Event(), time.monotonic()
    clients = [Client(daemon, number, stop) for number in range(CLIENTS)]
    for it in clients:
        it.start()
    while time.monotonic() - began < seconds and daemon.running.poll() is None:
        time.sleep(min(EACH, max(0.0, seconds - (time.monotonic() - began))))
        done = sum(it.connections for it in clients), sum(it.answers for it in clients)
        memory, descriptors, threads = look(daemon)
        print(
            f"  {time.monotonic() - began:.0f} s: {done[0]} connections, {done[1]} answers; {memory} KiB, "
            f"{descriptors} descriptors, {threads} threads",
            flush=True,
        )
    stop.set()
    for it in clients:
        it.join()
    settle(daemon)
    return clients


def settle(daemon: Daemon):
    """Closes each log and lets its key go, so that no memory is kept for logs."""
    with daemon.connect() as stream:
        place = 0
        for key in (b"C%dK%d" % (client, number) for client in range(CLIENTS) for number in range(KEYS)):
            asked(stream, frames.discard(place, BOUNCE, key) + frames.forget(place + 1, BOUNCE, key), 2)
            place += 2
    time.sleep(QUIET)


def agents_serve(daemon: Daemon) -> int:
    """How many connections are answered at once, of as many as there are agents."""
    streams = [daemon.connect() for _ in range(AGENTS)]
    for it in streams:
        it.sendall(frames.frame(b"\0"))
    answered = sum(len(heard(it, 14)) == 14 for it in streams)
    for it in streams:
        it.close()
    time.sleep(QUIET)
    return answered


def main():
    minutes = float(sys.argv[1]) if len(sys.argv) > 1 else 8
    checks = Checks(f"soak: {program()}, {AGENTS} agents and {CLIENTS} clients for {minutes:g} minutes")
    with open("/dev/null", "wb") as outbox, Daemon(AGENTS, USES, stdout=outbox) as daemon:
        daemon.listens()
        clients = run_clients(daemon, WARM)
        checks.equal("agents that serve at the start", agents_serve(daemon), AGENTS)
        before = look(daemon)
        clients += run_clients(daemon, 60 * minutes)
        checks.equal("what went wrong", sum((it.wrong for it in clients), [])[:10], [])
        checks.equal("agents that serve at the end", agents_serve(daemon), AGENTS)
        after = look(daemon)
        print(f"  before {before}, after {after}: KiB of memory, descriptors, threads")
        checks.true("memory is as at the start", after[0] <= before[0] + BOUND)
        checks.equal("descriptors and threads are as at the start", after[1:], before[1:])
    checks.done()


if __name__ == "__main__":
    main()
