"""Runs `noticed serve` where something is wanting: the socket, an output, descriptors, memory or a thread. Each end is
one that is written down, and nobody waits for ever."""
import os
import resource
import tempfile
from pathlib import Path

from tests.support.daemon_and_clients import (
    FIRST_FRAME,
    FRAMES,
    NOTES,
    OUTBOX,
    PATIENCE,
    Daemon,
    answer,
    append,
    asked,
    closed_pipe,
    flush,
    line,
    logged_fault,
)
from tests.support.preloading import built, compare_ends, each_refused, preloading
from tests.support.faults import fault_line
from tests.support.running import HOST, Checks, Ran, empty_outbox, run

MOST = 500  # growths of a run; more than this and the sweep is broken
IN_USE = "another daemon has this socket"
NO_SOCKET = "is no socket, and is left alone"
NOT_THERE = "No such file or directory (os error 2)"
NO_FOLDER = "Not a directory (os error 20)"
TOO_MANY = "Too many open files (os error 24)"
NO_PLACE = Ran(b"", fault_line(61), 1)
UNBEGUN = Ran(b"", fault_line(9), 1)
REFUSED = Ran(b"", fault_line(42), 1)


def unbound(path: str, why: str) -> Ran:
    """The end of a daemon with --log that couldn't have its socket."""
    return Ran(b"", logged_fault(path, why), 1)


def sockets(checks: Checks):
    """A socket that can't be bound (61): nothing on standard output, and what stood there before stays."""
    with tempfile.TemporaryDirectory() as room:
        taken = Path(room) / "taken"
        taken.write_bytes(b"kept")
        longest = room + "/" + "s" * (107 - len(room) - 1)
        paths = {
            "a file that exists": (str(taken), NO_SOCKET),
            "a folder that isn't there": (f"{room}/none/socket", NOT_THERE),
            "a folder": (room, NO_SOCKET),
            "a folder under a file": (f"{taken}/socket", NO_FOLDER),
        }
        for what, (path, why) in paths.items():
            checks.equal(what, run(["serve", "--log", path, HOST, "2", "1"], timeout=PATIENCE), unbound(path, why))
        for length in (0, 108, 300):
            path = (longest + "s" * 193)[:length]
            checks.equal(f"a path of {length} bytes", run(["serve", path, HOST, "2", "1"], timeout=PATIENCE), NO_PLACE)
        checks.equal("the file is as it was", taken.read_bytes(), b"kept")
        with Daemon(1, 1, longest) as daemon:
            daemon.listens()
            checks.equal(
                "a second daemon on it",
                run(["serve", "--log", longest, HOST, "1", "1"], timeout=PATIENCE),
                unbound(longest, IN_USE),
            )
            checks.equal("a path of 107 bytes", daemon.send(), Ran(NOTES, b"", 0))
            checks.equal("its daemon", daemon.end(), Ran(OUTBOX, line(0, 2), 0))
        with Daemon(1, 1, longest) as daemon:
            checks.equal("a daemon where one has ended", daemon.send(), Ran(NOTES, b"", 0))


def bad_outboxes(checks: Checks):
    """An outbox that can't be written at all: the client is answered, and the letter is named as unsent."""
    for what, opened in (("closed", closed_pipe), ("full", lambda: os.open("/dev/full", os.O_WRONLY))):
        outbox = opened()
        try:
            with Daemon(1, 1, stdout=outbox) as daemon:
                checks.equal(f"{what} standard output, the client", daemon.send(), Ran(NOTES, b"", 0))
                checks.equal(
                    f"{what} standard output",
                    daemon.end(),
                    Ran(b"", line(0, 2) + fault_line(31) + b"unsent B A1B2C3\n", 1),
                )
            with Daemon(1, 1, stdout=outbox) as daemon:
                daemon.send(FRAMES[:FIRST_FRAME])
                checks.equal(
                    f"{what}, no letter", daemon.end(), Ran(b"", line(0, 1) + fault_line(31) + b"open B A1B2C3 1\n", 1)
                )
        finally:
            os.close(outbox)


def letter_from(reading: int) -> bytes:
    """The bytes of a pipe up to the end of a letter."""
    got = b""
    while not got.endswith(b"\r\n.\r\n"):
        got += os.read(reading, 65536)
    return got


def breaking_outbox(checks: Checks):
    """An outbox whose reader leaves after the first letter: the later ones are named as unsent, in their order."""
    reading, writing = os.pipe()
    with Daemon(1, 1, stdout=writing) as daemon:
        os.close(writing)
        with daemon.connect() as client:
            checks.equal("the first letter", asked(client, FRAMES, 2), answer(1) + answer(7, 1, 1))
            got = letter_from(reading)
            checks.equal("the outbox before it breaks", got, OUTBOX.removesuffix(b"QUIT\r\n"))
            os.close(reading)
            rest = append(2, b"K2") + flush(3, b"K2") + append(4, b"K3") + flush(5, b"K3")
            wanted = answer(1, 2) + answer(7, 3, 1) + answer(1, 4) + answer(7, 5, 1)
            checks.equal("later letters are sealed", asked(client, rest, 4), wanted)
        notes = line(0, 6) + fault_line(31) + b"unsent B K2\nunsent B K3\n"
        checks.equal("a pipe that breaks", daemon.end(), Ran(b"", notes, 1))


def bad_notes(checks: Checks):
    """Notes that can't be written: the outbox is whole, and the status tells."""
    for what, opened in (("closed", closed_pipe), ("full", lambda: os.open("/dev/full", os.O_WRONLY))):
        notes = opened()
        try:
            with Daemon(1, 1, stderr=notes) as daemon:
                checks.equal(f"{what} standard error, the client", daemon.send(), Ran(NOTES, b"", 0))
                checks.equal(f"{what} standard error", daemon.end(), Ran(OUTBOX, b"", 1))
        finally:
            os.close(notes)


def descriptors(count: int):
    """A limit on the files of a process."""
    return lambda: resource.setrlimit(resource.RLIMIT_NOFILE, (count, count))


def few_descriptors(checks: Checks):
    """One for the socket alone, which takes two; none for a connection beside these; and one for two agents. The ports
    that failed are told once. The socket of the status takes two as well, or there is none."""
    with Daemon(2, 1, options=["--log"], preexec_fn=descriptors(4)) as daemon:
        checks.equal("one for the socket", daemon.end(), unbound(daemon.path, TOO_MANY))
    with Daemon(2, 1, options=["--log"], preexec_fn=descriptors(5)) as daemon:
        checks.equal("one for the socket", daemon.end(), unbound(daemon.path, TOO_MANY))
    with Daemon(2, 1, preexec_fn=descriptors(5)) as daemon:
        checks.equal("the same without a log", daemon.end(), Ran(b"", fault_line(61), 1))
    with Daemon(2, 1, preexec_fn=descriptors(6)) as daemon:
        notes = line(0, 0, 0) + line(1, 0, 0) + fault_line(61)
        checks.equal("none for a connection", daemon.end(), Ran(empty_outbox(), notes, 1))
    with Daemon(2, 1, options=["--log"], preexec_fn=descriptors(7)) as daemon:
        begun = f"listening on {daemon.path} for {HOST}: 2 agents, 1 connections each\n"
        begun += f"the host's name {HOST} is one for examples\n"
        said = f"{begun}no status: {TOO_MANY}\naccept failed: {TOO_MANY}\n".encode()
        # (an agent that begins once the client was served would find the descriptor free again)
        checks.equal("one for two agents, the other", daemon.said(len(said)), said)
        checks.equal("one for two agents, the client", daemon.send(), Ran(NOTES, b"", 0))
        ended, fault = daemon.end(), fault_line(61)
        checks.true(
            "its notes", ended.notes.endswith((line(0, 2) + line(1, 0, 0) + fault, line(0, 0, 0) + line(1, 2) + fault))
        )
        checks.equal("its outbox", (ended.outbox, ended.status), (OUTBOX, 1))


def sweep(library: Path, given: bytes) -> list:
    """How a daemon with one agent ends if its first growth is refused, its second, and so on until a run is whole."""

    def ended(environment=None) -> Ran:
        with Daemon(1, 1, env=environment) as daemon:
            daemon.send(given)
            return daemon.end()

    return each_refused(library, MOST, ended, ended())


def growths(checks: Checks, library: Path):
    """Each growth of memory refused in turn, with a client that bounces a message, and one that leaves its log open."""
    is_open = b"open B A1B2C3 1\n"
    before_a_frame = {
        "before the run": UNBEGUN,
        "for the crew, or for the poster's thread": REFUSED,
        "for the agent's thread": Ran(empty_outbox(), fault_line(42), 1),
        "for the first frame": Ran(empty_outbox(), line(0, 0, 1, 1), 0),
    }
    # an append that is refused isn't a request; the flush after it is, of a log with nothing in it
    compare_ends(
        checks,
        "growths of a daemon",
        sweep(library, FRAMES),
        {
            **before_a_frame,
            "for the append": Ran(empty_outbox(), line(0, 1), 0),
            "for the second frame": Ran(empty_outbox(), line(0, 1, 1, 1) + is_open, 0),
            "for the flush": Ran(empty_outbox(), line(0, 1) + is_open, 0),
            "none": Ran(OUTBOX, line(0, 2), 0),
        },
    )
    compare_ends(
        checks,
        "growths of one with an open log",
        sweep(library, FRAMES[:FIRST_FRAME]),
        {
            **before_a_frame,
            "for the append": Ran(empty_outbox(), line(0, 0), 0),
            "for the list of open logs": Ran(empty_outbox(), line(0, 1) + fault_line(9), 1),
            "none": Ran(empty_outbox(), line(0, 1) + is_open, 0),
        },
    )


def threads(checks: Checks, library: Path):
    """Each start of a thread is refused in turn: without the status' all is as ever; without the poster nothing begins;
    without an agent others serve."""
    for agents in (1, 2, 4):
        for number in range(1, agents + 4):
            with Daemon(agents, 1, env=preloading(library, REFUSE_THREAD=number)) as daemon:
                served = 0 if number == 2 else agents - (3 <= number <= agents + 2)
                told = [daemon.send() for _ in range(served)]
                ended = daemon.end()
            about = f"{agents} agents, thread {number} refused"
            checks.equal(f"{about}: its clients", [it.status for it in told], [0] * served)
            if number == 2:
                checks.equal(about, ended, REFUSED)
            elif 3 <= number <= agents + 2:
                checks.equal(about, ended, Ran(OUTBOX if served else empty_outbox(), fault_line(42), 1))
            else:
                checks.equal(f"{about}: none", (ended.outbox, ended.status), (OUTBOX, 0))


def main():
    checks = Checks("daemon_faults: sockets, outputs, descriptors, memory and threads that a daemon wants")
    for check in (sockets, bad_outboxes, breaking_outbox, bad_notes, few_descriptors):
        check(checks)
    with tempfile.TemporaryDirectory() as room:
        growths(checks, built(room, "refuse"))
        threads(checks, built(room, "refuse_thread"))
    checks.done()


if __name__ == "__main__":
    main()
