"""Measures `noticed serve --hand-in`: the time from a flush's answer to the server's end of the message; notices a
second to Postfix's smtp-sink; the daemon's memory once many notices were taken, and while as many wait; and the longest
answer while a server takes connections and says nothing.

    python3 -m bench.hand_in [NOTICES [SECONDS [FOLDER]]]

NOTICES is the number of notices of the memory (default 100,000), SECONDS how long the server is silent (default 60).
The journal is in FOLDER (default: the current folder). What needs smtp-sink is left out where that isn't installed."""
import contextlib
import os
import re
import shutil
import socket
import statistics
import sys
import tempfile
import threading
import time
from pathlib import Path

from bench.daemon import peak_memory, send_all
from bench.postfix import SINK, Sink
from tests.support.daemon_and_clients import Daemon, asked, flush, frames, until
from tests.support.mail_servers import MailServer
from tests.support.running import run

SINGLE, MANY, CLIENTS = 500, 10_000, 4  # notices one at a time, and of several clients at once
OPTIONS = ("--release-closed", "--logs", "65536")
PATIENCE = 600  # seconds until all notices of a part are taken


class TimedServer(MailServer):
    """A mail server that notes when each message has ended."""

    def __init__(self):
        self.moments = []
        super().__init__()

    def message(self, stream) -> bytes:
        text = super().message(stream)
        self.moments.append(time.monotonic())
        return text


class SilentServer:
    """A server that takes connections and says nothing."""

    def __init__(self):
        self.listener = socket.create_server(("127.0.0.1", 0))
        self.address = "127.0.0.1:%d" % self.listener.getsockname()[1]
        self.held = []
        threading.Thread(target=self.accept, daemon=True).start()

    def accept(self):
        with contextlib.suppress(OSError):
            while True:
                self.held.append(self.listener.accept())


def notice(number: int, name: bytes) -> bytes:
    """The frames that make a notice of one outcome, numbered from a number on."""
    return frames.append(number, 1, name, b"bob@example.org", 1, b"5.1.1") + flush(number + 1, name)


@contextlib.contextmanager
def daemon(folder: str, address: str):
    """A daemon over a journal of its own, which serves, and how many notices `noticed journal` says are marked."""
    with tempfile.TemporaryDirectory(prefix="noticed-hand-in-", dir=folder) as room:
        words = ("--journal", room, "--hand-in", address, *OPTIONS)
        with Daemon(CLIENTS, 1000, options=words) as it:
            with it.connect() as first:
                asked(first, frames.forget(0, 1, b"NONE"))  # it serves
            yield it, lambda: int(re.search(rb"^marked (\d+)$", run(["journal", room]).outbox, re.M)[1])


def delay(folder: str):
    """Notices one at a time."""
    server, answered = TimedServer(), []
    with daemon(folder, server.address) as (it, _), it.connect() as client:
        for at in range(SINGLE):
            asked(client, notice(2 * at, b"S%d" % at), 2)
            answered.append(time.monotonic())
            until(lambda: len(server.moments) > at)
    waits = sorted(1e3 * (end - begin) for begin, end in zip(answered, server.moments))
    print(
        f"from an answer to the end of the message: {statistics.median(waits):.2f} ms in the median, "
        f"{waits[len(waits) * 95 // 100]:.2f} ms for 95 of 100"
    )


def sent(it: Daemon, count: int, clients: int):
    """Has clients make so many notices in all."""
    with tempfile.TemporaryDirectory() as room:
        inputs = [Path(room) / f"client{at}" for at in range(clients)]
        for at, path in enumerate(inputs):
            mine = range(count // clients)
            path.write_bytes(b"".join(notice(2 * turn, b"C%dN%d" % (at, turn)) for turn in mine))
        send_all(it.path, inputs)


def rate(folder: str):
    """Notices of several clients, to smtp-sink."""
    with Sink() as sink, daemon(folder, f"127.0.0.1:{sink.port}") as (it, _):
        began = time.monotonic()
        sent(it, MANY, CLIENTS)
        answered = time.monotonic() - began
        if not until(lambda: sink.taken() >= MANY, PATIENCE):
            raise RuntimeError(f"{sink.taken()} of {MANY} notices were taken")
        seconds = time.monotonic() - began
    print(
        f"{MANY} notices to smtp-sink: {MANY / seconds:.0f} a second; "
        f"all were answered after {answered:.1f} of {seconds:.1f} s"
    )


def memory(folder: str, count: int):
    """Memory once a server took many notices, and while they wait."""
    with Sink() as sink, daemon(folder, f"127.0.0.1:{sink.port}") as (it, marked):
        before = peak_memory(it.running.pid)
        sent(it, count, 1)
        if not until(lambda: time.sleep(1) or marked() >= count, PATIENCE):
            raise RuntimeError(f"{marked()} of {count} notices are marked")
        print(f"{count} notices, all taken: {peak_memory(it.running.pid)} KiB, {before} KiB before")
    with daemon(folder, "127.0.0.1:9") as (it, _):
        before = peak_memory(it.running.pid)
        sent(it, count, 1)
        after = peak_memory(it.running.pid)
    print(
        f"{count} notices, all waiting: {after} KiB, {before} KiB before; {1024 * (after - before) // count} bytes each"
    )


def longest_answer(folder: str, address: str, seconds: float) -> tuple:
    """How many notices one client makes meanwhile, and the longest time of an answer, in seconds."""
    longest, made = 0.0, 0
    with daemon(folder, address) as (it, _), it.connect() as client:
        end = time.monotonic() + seconds
        while (began := time.monotonic()) < end:
            asked(client, notice(2 * made, b"L%d" % made), 2)
            longest, made = max(longest, time.monotonic() - began), made + 1
    return made, longest


def silent(folder: str, seconds: float):
    """Answers while a server says nothing, and beside one that takes all."""
    for what, server in (("a server that takes all", MailServer()), ("a server that is silent", SilentServer())):
        made, longest = longest_answer(folder, server.address, seconds)
        print(f"{what}, {seconds:.0f} s: {made} notices; an append and its flush took {1e3 * longest:.0f} ms at most")


def main():
    count = int(sys.argv[1]) if len(sys.argv) > 1 else 100_000
    seconds = float(sys.argv[2]) if len(sys.argv) > 2 else 60
    folder = sys.argv[3] if len(sys.argv) > 3 else "."
    print(f"{len(os.sched_getaffinity(0))} processors, load {os.getloadavg()[0]:.1f}")
    delay(folder)
    if shutil.which(SINK):
        rate(folder)
        memory(folder, count)
    else:
        print("skipped: notices a second, memory (needs Postfix's smtp-sink)")
    silent(folder, seconds)


if __name__ == "__main__":
    main()
