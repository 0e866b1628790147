"""Runs `noticed serve --inherited` over a socket that this script keeps, as systemd does: runs follow one another under
load, and no client sees an error or loses an answer; a journal keeps open logs over 10,000 empty connections; and the
service manager is notified of each state by its protocol (sd_notify(3))."""
import contextlib
import os
import re
import socket
import subprocess
import sys
import tempfile
import threading
import time
from pathlib import Path

from tests.support.daemon_and_clients import (
    PATIENCE,
    answer,
    append,
    asked,
    flush,
    heard,
    is_ended,
    logged_fault,
    until,
)
from tests.support.private_postfix import HANDS_ON
from tests.support.running import HOST, Checks, Ran, program, run

CLIENTS = 8
RESTARTS = 3
EMPTY = 10_000
JOURNAL = 2**20  # bytes


class Kept:
    """A folder with a journal, and a socket that outlives the runs of the daemon."""

    def __init__(self):
        self.room = tempfile.TemporaryDirectory(prefix="noticed-")
        self.folder = Path(self.room.name)
        self.path = str(self.folder / "socket")
        (self.folder / "journal").mkdir(mode=0o700)
        # a short journal: a start is quick
        (self.folder / "journal/journal").write_bytes(bytes(JOURNAL))
        (self.folder / "journal/marks").write_bytes(bytes(4096))
        self.listener = socket.socket(socket.AF_UNIX)
        self.listener.bind(self.path)
        self.listener.listen(4096)
        self.running, self.runs = None, 0

    def start(self, *options, uses: int = 1_000_000, **environment) -> subprocess.Popen:
        """Starts the next run, whose outbox is a file of its own."""
        self.runs += 1
        outbox = ["--journal", "journal", "--outbox", f"outbox.{self.runs}"]
        words = [program(), "serve", "--inherited", "--log", *outbox, *options, self.path, HOST, "4", str(uses)]
        held = [sys.executable, "-c", HANDS_ON, str(self.listener.fileno()), *words]
        with open(self.folder / "notes", "ab") as notes:
            self.running = subprocess.Popen(
                held,
                cwd=self.folder,
                stdin=subprocess.DEVNULL,
                stderr=notes,
                pass_fds=[self.listener.fileno()],
                env=os.environ | environment,
            )
        return self.running

    def stop(self) -> Ran:
        """Runs `noticed stop`."""
        return run(["stop", self.path], timeout=PATIENCE)

    def end(self) -> int:
        """The status of the run, once it has ended."""
        return self.running.wait(timeout=PATIENCE)

    def connect(self) -> socket.socket:
        """A connection, which waits for room in the socket's queue."""
        client = socket.socket(socket.AF_UNIX)
        client.connect(self.path)
        client.settimeout(PATIENCE)
        return client

    def notes(self) -> bytes:
        """What all runs wrote to standard error."""
        return (self.folder / "notes").read_bytes()

    def __enter__(self):
        return self

    def __exit__(self, *_):
        if self.running and self.running.poll() is None:
            self.running.kill()
            self.running.wait()
        self.listener.close()
        self.room.cleanup()


def bounce(kept: Kept, number: int, ending: threading.Event, sealed: set, errors: list):
    """One client: a connection for each message, which asks two requests one after the other."""
    for at in range(1_000_000):
        if ending.is_set():
            return
        name = b"C%dM%d" % (number, at)
        try:
            with kept.connect() as client:
                got = asked(client, append(0, name)) + asked(client, flush(1, name))
        except OSError as why:
            errors.append((name, why))
            continue
        if got == answer(1) + answer(7, 1, 1):
            sealed.add(name)
        else:
            errors.append((name, got))


def restarts(checks: Checks):
    """Runs follow one another while clients are at work: each request is answered, and each notice is written once."""
    with Kept() as kept:
        kept.start()
        ending, sealed, errors = threading.Event(), set(), []
        clients = [threading.Thread(target=bounce, args=(kept, it, ending, sealed, errors)) for it in range(CLIENTS)]
        for it in clients:
            it.start()
        for _ in range(RESTARTS):
            before = len(sealed)
            checks.true("clients are at work", until(lambda: len(sealed) >= before + 100))
            checks.equal("noticed stop", kept.stop(), Ran(b"", b"", 0))
            checks.equal("the run's status", kept.end(), 0)
            kept.start()
        before = len(sealed)
        checks.true("clients are at work after the last restart", until(lambda: len(sealed) >= before + 100))
        ending.set()
        for it in clients:
            it.join(timeout=PATIENCE)
        checks.equal("the last stop", (kept.stop(), kept.end()), (Ran(b"", b"", 0), 0))
        checks.equal("clients that saw an error", errors, [])
        made = [
            it
            for at in range(1, kept.runs + 1)
            for it in re.findall(rb"^Message-ID: <B\.(\w+)\.", (kept.folder / f"outbox.{at}").read_bytes(), re.M)
        ]
        checks.equal("each sealed notice is written once", sorted(made), sorted(sealed))
        checks.true("the socket's file stays", os.path.exists(kept.path))
        checks.true("the run's file is gone", not os.path.exists(f"{kept.path}.run"))
        print(f"  {len(sealed)} notices over {kept.runs} runs")


def waits(checks: Checks):
    """A client that comes while no run is there waits for the next one; so does one over an end by MAX-USE, and over a
    run that was killed."""
    with Kept() as kept, kept.connect() as early:
        early.sendall(append(0))
        time.sleep(0.2)
        kept.start(uses=1)
        checks.equal("a client that came before the run", heard(early, 14), answer(1))
        early.close()
        rest = [kept.connect() for _ in range(4)]
        for at, client in enumerate(rest):
            client.sendall(append(0, b"R%d" % at))
        answered = [heard(client, 14) for client in rest[:3]]
        checks.equal("the other uses", answered, [answer(1)] * 3)
        for client in rest[:3]:
            client.close()
        checks.equal("the run ends by itself", kept.end(), 0)
        kept.start()
        checks.equal("the next run answers who waited", heard(rest[3], 14), answer(1))
        kept.running.kill()
        kept.end()
        kept.start()
        with kept.connect() as client:
            checks.equal("after a kill, a log that is kept", asked(client, append(0)), answer(1, 0, 1))
        checks.equal("the stop", (kept.stop(), kept.end()), (Ran(b"", b"", 0), 0))


def lets_go(checks: Checks):
    """A client that is silent between two frames is let go at a stop, and learns of its next frame that it wasn't
    taken; one in the middle of a frame is answered first."""
    with Kept() as kept:
        kept.start()
        with kept.connect() as silent, kept.connect() as writing:
            checks.equal("a client", asked(silent, append(0)), answer(1))
            frame = append(0, b"Q2")
            writing.sendall(frame[:20])
            with subprocess.Popen([program(), "stop", kept.path]) as stopping:
                checks.true("the silent one is let go", is_ended(silent))
                with contextlib.suppress(BrokenPipeError):
                    silent.sendall(append(1))
                    checks.true("its next frame isn't taken", False)
                writing.sendall(frame[20:])
                checks.equal("the one in a frame is answered", heard(writing, 14), answer(1))
                checks.equal("the stop", stopping.wait(timeout=PATIENCE), 0)
        checks.equal("the run's status", kept.end(), 0)
        checks.true("the stop is told", b"\nending: the run was stopped\n" in kept.notes())


def empty_connections(checks: Checks):
    """Connections without a request end no run, and open logs stand."""
    with Kept() as kept:
        kept.start()
        with kept.connect() as client:
            checks.equal("an outcome", asked(client, append(0)), answer(1))
        for _ in range(EMPTY):
            kept.connect().close()
        with kept.connect() as client:
            checks.equal("its log stands", asked(client, append(0)), answer(1, 0, 1))
        checks.equal("the run goes on", kept.running.poll(), None)
        checks.equal("the stop", (kept.stop(), kept.end()), (Ran(b"", b"", 0), 0))
        kept.start()
        with kept.connect() as client:
            checks.equal("and over a restart", asked(client, append(0)), answer(1, 0, 2))


def refused(checks: Checks):
    """No socket, one at another path, and a file that is no socket aren't taken; a second run isn't begun."""
    with Kept() as kept:
        words = ["serve", "--inherited", "--log", kept.path, HOST, "1", "1"]
        bad = logged_fault(kept.path, "Bad file descriptor (os error 9)")
        checks.equal("no socket", run(words, timeout=PATIENCE), Ran(b"", bad, 1))
        other = kept.folder / "other"
        held = [sys.executable, "-c", HANDS_ON, str(kept.listener.fileno()), program()]
        how = {"stdin": subprocess.DEVNULL, "capture_output": True, "check": False, "timeout": PATIENCE}
        ended = subprocess.run(
            [*held, "serve", "--inherited", "--log", str(other), HOST, "1", "1"], pass_fds=[kept.listener.fileno()], **how
        )
        wanted = logged_fault(str(other), "the inherited socket is not at this path")
        checks.equal("another path", (ended.returncode, ended.stderr), (1, wanted))
        kept.start()
        with kept.connect() as client:
            checks.equal("a run", asked(client, append(0)), answer(1))
        ended = subprocess.run([*held, *words], pass_fds=[kept.listener.fileno()], **how)
        wanted = logged_fault(kept.path, "another daemon has this socket")
        checks.equal("a second run", (ended.returncode, ended.stderr), (1, wanted))
        with kept.connect() as client:
            checks.equal("the first goes on", asked(client, append(0)), answer(1, 0, 1))


def states(checks: Checks):
    """The service manager hears that the run is ready, that it goes on, and that it ends; by a path and by an abstract
    name. One that isn't there changes nothing."""
    for abstract in (False, True):
        with Kept() as kept, socket.socket(socket.AF_UNIX, socket.SOCK_DGRAM) as manager:
            name = f"{kept.folder}/notify"
            manager.bind("\0" + name if abstract else name)
            manager.settimeout(PATIENCE)
            kept.start(NOTIFY_SOCKET="@" + name if abstract else name, WATCHDOG_USEC="2000000")
            began = time.monotonic()
            heard_states = [manager.recv(100) for _ in range(5)]
            # A thread of its own says that the run goes on, and may be the first.
            checks.true("it is ready", b"READY=1" in heard_states[:2])
            checks.equal("it goes on", sorted(heard_states), [b"READY=1"] + [b"WATCHDOG=1"] * 4)
            checks.true("each second, about", 2 < time.monotonic() - began < 12)
            with kept.connect() as client:
                checks.equal("a client", asked(client, append(0)), answer(1))
            checks.equal("the stop", (kept.stop(), kept.end()), (Ran(b"", b"", 0), 0))
            manager.settimeout(0)
            rest = []
            with contextlib.suppress(BlockingIOError):
                while True:
                    rest.append(manager.recv(100))
            checks.equal("the end", [it for it in rest if it != b"WATCHDOG=1"], [b"STOPPING=1"])
    with Kept() as kept:
        kept.start(NOTIFY_SOCKET=f"{kept.folder}/none", WATCHDOG_USEC="x")
        with kept.connect() as client:
            checks.equal("no service manager", asked(client, append(0)), answer(1))


def main():
    checks = Checks("inherited: runs over a socket that outlives them, and the states of a run")
    for check in (restarts, waits, lets_go, empty_connections, refused, states):
        check(checks)
    checks.done()


if __name__ == "__main__":
    main()
