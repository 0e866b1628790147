"""Stops daemons by `noticed stop`: agents finish what they have in hand and take no further connection, the outbox is
finished, the notes name what is open, the socket's file is gone, and nothing that was answered is lost. A daemon that
has the path by then goes on. A daemon whose file is removed ends too; one that is halted for a while (SIGSTOP) loses
nobody."""
import contextlib
import fcntl
import os
import re
import shutil
import signal
import socket
import subprocess
import sys
import tempfile
import termios
import threading
import time
from pathlib import Path

from tests.support.daemon_and_clients import (
    OUTBOX,
    PATIENCE,
    Daemon,
    answer,
    append,
    asked,
    flush,
    heard,
    is_ended,
    line,
    logged_fault,
    socket_fault,
    until,
)
from tests.support.running import Checks, Ran, empty_outbox, program, run

NOBODY = 65534
STOPPED = Ran(b"", b"", 0)
LONGEST = (65_536).to_bytes(4, "big")  # the beginning of the longest frame
GAP = 0.5  # seconds between two bytes of a client that holds a stop up
HALT = 0.3  # seconds that a daemon is halted


def stop(daemon: Daemon) -> Ran:
    """Runs `noticed stop` on a daemon's socket."""
    return run(["stop", daemon.path], timeout=PATIENCE)


def stopping(path: str) -> subprocess.Popen:
    """Begins `noticed stop` on a socket."""
    return subprocess.Popen([program(), "stop", path], stdout=subprocess.PIPE, stderr=subprocess.PIPE)


def is_read(client: socket.socket) -> bool:
    """Waits until the daemon has read all that a client sent: none of it stands in a queue (SIOCOUTQ, unix(7))."""
    return until(lambda: not int.from_bytes(fcntl.ioctl(client, termios.TIOCOUTQ, bytes(4)), sys.byteorder))


def ran(started: subprocess.Popen) -> Ran:
    """What a command that was begun gave at its end."""
    return Ran(*started.communicate(timeout=PATIENCE), started.returncode)


def no_clients(checks: Checks):
    """A daemon whose agents all wait for a connection ends."""
    for agents in (1, 2, 16):
        with Daemon(agents, 1000) as daemon:
            daemon.listens()
            checks.equal(f"{agents} idle agents", stop(daemon), STOPPED)
            ended = daemon.end()
            checks.equal(f"{agents} idle agents: its outbox", (ended.outbox, ended.status), (empty_outbox(), 0))
            checks.true(f"{agents} idle agents: the socket's file is gone", not os.path.exists(daemon.path))


def open_logs(checks: Checks):
    """What was logged and not flushed is named; what was flushed is in the outbox, which ends with QUIT."""
    with Daemon(1, 1000) as daemon:
        daemon.send()
        daemon.send(append(0))
        checks.equal("with an open log", stop(daemon), STOPPED)
        ended = daemon.end()
        checks.equal("with an open log: its outbox", (ended.outbox, ended.status), (OUTBOX, 0))
        notes = rb"agent 0 requests 3 connections \d+ faults 0\nopen B Q1 1\n"
        checks.true("with an open log: its notes", re.fullmatch(notes, ended.notes))


def held_connections(checks: Checks):
    """A client that is between two frames is let go; one in the middle of a frame is answered first. Pieces of the
    frame that came before the stop aren't counted."""
    with Daemon(3, 1000) as daemon:
        waiting, writing, last = daemon.connect(), daemon.connect(), daemon.connect()
        checks.equal("a client that waits", asked(waiting, append(0)), answer(1))
        frame = append(0, b"Q" * 32, b"x" * 100)
        for at in range(40):
            writing.sendall(frame[at : at + 1])
            is_read(writing)
        checks.equal("a third one", asked(last, append(0, b"Q3")), answer(1))
        with stopping(daemon.path) as stop_:
            checks.true("the client that waits is let go", is_ended(waiting))
            checks.true("so is the third", is_ended(last))
            checks.equal("the stop waits for the one in a frame", stop_.poll(), None)
            writing.sendall(frame[40:])
            checks.equal("the one in the middle of a frame is answered", heard(writing, 14), answer(1))
            checks.true("and then let go", is_ended(writing))
            checks.equal("the stop", ran(stop_), STOPPED)
        ended = daemon.end()
        checks.equal("open logs", re.findall(rb"^open B (\w+) 1$", ended.notes, re.M), [b"Q1", b"Q3", b"Q" * 32])
        checks.equal(
            "no fault", (b"faults 0" in ended.notes, b"faults 1" in ended.notes, ended.status), (True, False, 0)
        )


def silent_in_a_frame(checks: Checks):
    """A client that stays silent in the middle of a frame is cut off in the end, as a fault of its connection."""
    with Daemon(1, 1000) as daemon:
        with daemon.connect() as client:
            client.sendall(append(0)[:20])
            checks.true("silent in a frame: it has begun", is_read(client))
            checks.equal("silent in a frame: the stop", stop(daemon), STOPPED)
        ended = daemon.end()
        checks.equal("silent in a frame: a fault", (ended.notes, ended.status), (line(0, 0, 1, 1), 0))


def silent_between_frames(checks: Checks):
    """A client that has said nothing for longer than a stop's ten seconds, between two frames, is let go as any other:
    no fault, with a longer idle limit and without one."""
    for options in ((), ("--idle", "300")):
        with Daemon(1, 1000, options=options) as daemon:
            with daemon.connect() as client:
                checks.equal(f"silent between frames {options}: a client", asked(client, append(0)), answer(1))
                time.sleep(12)
                checks.equal(f"silent between frames {options}: the stop", stop(daemon), STOPPED)
                checks.true(f"silent between frames {options}: it is let go", is_ended(client))
            ended = daemon.end()
            checks.equal(
                f"silent between frames {options}: no fault",
                (re.findall(rb" faults (\d+)$", ended.notes, re.M), ended.status),
                ([b"0"], 0),
            )


def slow_in_a_frame(checks: Checks):
    """A client that sends a byte now and then can't hold a stop up: it would need nine hours for its frame."""
    with Daemon(1, 1000) as daemon:
        with daemon.connect() as client:
            client.sendall(LONGEST)
            checks.true("slow in a frame: it has begun", is_read(client))
            with stopping(daemon.path) as stop_:
                began, sent = time.monotonic(), 0
                with contextlib.suppress(ConnectionError):
                    while stop_.poll() is None and time.monotonic() - began < PATIENCE:
                        client.sendall(b"\0")
                        sent += 1
                        time.sleep(GAP)
                in_time = stop_.poll() is not None or until(lambda: stop_.poll() is not None)
                checks.true("slow in a frame: the stop ends", in_time and time.monotonic() - began < PATIENCE)
                checks.true(f"slow in a frame: {sent} bytes were sent", sent > 1)
                if not in_time:
                    stop_.kill()
                checks.equal("slow in a frame: the stop", ran(stop_), STOPPED)
        ended = daemon.end()
        checks.equal("slow in a frame: a fault", (ended.notes, ended.status), (line(0, 0, 1, 1), 0))


def busy_client(checks: Checks):
    """A client that never pauses is let go too, between two frames."""
    with Daemon(1, 1000) as daemon:
        answered = []

        def ask_on():
            with daemon.connect() as client:
                # the end may come after the next frame was sent: then the connection is reset
                with contextlib.suppress(ConnectionError):
                    for number in range(1_000_000):
                        if asked(client, append(number, b"S%d" % (number % 1000))) == b"":
                            return
                        answered.append(number)

        asking = threading.Thread(target=ask_on)
        asking.start()
        checks.true("a busy client is at work", until(lambda: len(answered) >= 100))
        checks.equal("a busy client", stop(daemon), STOPPED)
        asking.join(timeout=PATIENCE)
        ended = daemon.end()
        logged = sum(int(it) for it in re.findall(rb"^open B \w+ (\d+)$", ended.notes, re.M))
        checks.equal("a busy client: each answered outcome is logged", logged, len(answered))


def steady_client(checks: Checks):
    """A client that gives a whole frame in less than a second, again and again, is let go at the next one."""
    with Daemon(1, 1000) as daemon, daemon.connect() as client:
        checks.equal("a steady client", asked(client, append(0)), answer(1))
        with subprocess.Popen([program(), "stop", daemon.path]) as stopping:
            began, number, got = time.monotonic(), 1, b"-"
            with contextlib.suppress(ConnectionError):
                while got and time.monotonic() - began < PATIENCE:
                    time.sleep(0.6)
                    got = asked(client, append(number, b"S%d" % number))
                    number += 1
            checks.equal("a steady client: the stop", stopping.wait(timeout=PATIENCE), 0)
        checks.true(f"a steady client: {number} frames", number < 12)
        checks.equal("a steady client: its end", daemon.end().status, 0)


def at_load(checks: Checks):
    """Eight clients at work on four agents: each notice that was answered `sealed` is in the outbox, and no other."""
    with Daemon(4, 1_000_000) as daemon:
        sealed, seeing = set(), threading.Lock()

        def bounce(client_number: int):
            for at in range(1_000_000):
                name = b"C%dM%d" % (client_number, at)
                try:
                    with daemon.connect() as client:
                        got = asked(client, append(0, name) + flush(1, name), 2)
                except (ConnectionError, FileNotFoundError):
                    return
                if got == answer(1) + answer(7, 1, 1):
                    with seeing:
                        sealed.add(name)

        clients = [threading.Thread(target=bounce, args=(it,)) for it in range(8)]
        for it in clients:
            it.start()
        checks.true("at load: clients are at work", until(lambda: len(sealed) >= 200))
        stopped = stop(daemon)
        ended = daemon.end()
        for it in clients:
            it.join(timeout=PATIENCE)
        checks.equal("at load", stopped, STOPPED)
        made = re.findall(rb"^Message-ID: <B\.(\w+)\.", ended.outbox, re.M)
        checks.true("at load: each sealed notice is written", sealed <= set(made))
        checks.equal("at load: each once", len(made), len(set(made)))
        checks.true("at load: the outbox is whole", ended.outbox.endswith(b"\r\nQUIT\r\n") and ended.status == 0)


def not_allowed(checks: Checks):
    """Whoever may not remove the socket's file can't stop the daemon."""
    if os.geteuid() != 0:
        checks.skip("a stop by another account (needs root)")
        return
    with Daemon(1, 1000) as daemon:
        daemon.listens()
        # the program may lie where no other account gets to
        copied = shutil.copy(program(), daemon.room.name)
        for path in (daemon.room.name, daemon.path, copied):
            os.chmod(path, 0o777 if path == daemon.path else 0o755)
        words = [copied, "stop", daemon.path]
        refused = subprocess.run(
            words, capture_output=True, timeout=PATIENCE, check=False, user=NOBODY, group=NOBODY, extra_groups=[]
        )
        wanted = (1, socket_fault(daemon.path, "Permission denied (os error 13)"))
        checks.equal("another account", (refused.returncode, refused.stderr), wanted)
        checks.equal("the daemon goes on", asked(daemon.connect(), append(0)), answer(1))
        checks.true("its socket is there", os.path.exists(daemon.path))


def no_daemon(checks: Checks):
    """A socket on which nobody listens, and one that isn't there."""
    with Daemon(1, 1) as daemon:
        daemon.send()
        daemon.end()
        refused = Ran(b"", socket_fault(daemon.path, "Connection refused (os error 111)"), 1)
        checks.equal("a daemon that has ended", stop(daemon), refused)
        checks.true("the file is left", os.path.exists(daemon.path))


def two_stops(checks: Checks):
    """Two stops at once: one of them at least goes well, and the other goes well too or finds no daemon any more. The
    daemon ends in order. (Before a file that is gone was fine, the later one could end with 61 though it had
    connected.)
    """
    for agents in (1, 2, 16, 1, 2, 16):
        with Daemon(agents, 1000) as daemon:
            daemon.listens()
            with stopping(daemon.path) as one, stopping(daemon.path) as other:
                both = [ran(one), ran(other)]
            ended = daemon.end()
            late = [
                Ran(b"", socket_fault(daemon.path, why), 1)
                for why in ("No such file or directory (os error 2)", "Connection refused (os error 111)")
            ]
            checks.true(
                f"two stops of {agents} agents: {both}", STOPPED in both and all(it in (STOPPED, *late) for it in both)
            )
            checks.equal(f"two stops of {agents} agents: the outbox", (ended.outbox, ended.status), (empty_outbox(), 0))
            checks.true(f"two stops of {agents} agents: no fault", b"fault 61" not in ended.notes)


def is_blocked(process: subprocess.Popen) -> bool:
    """Whether a process waits for a lock."""
    with open("/proc/locks", encoding="ascii") as locks:
        return any("->" in it and f" {process.pid} " in it for it in locks)


def another_daemon(checks: Checks):
    """A stop ends the run whose file it found, and not a later one on the same path: it waits for that run alone."""
    with tempfile.TemporaryDirectory() as room:
        path = f"{room}/socket"
        with open(f"{path}.run", "wb") as held:
            fcntl.flock(held, fcntl.LOCK_EX)
            with stopping(path) as stop_:
                checks.true("a stop waits for its run", until(lambda: is_blocked(stop_)))
                checks.true("the run's file is gone", not os.path.exists(f"{path}.run"))
                with Daemon(1, 1000, path) as daemon:
                    daemon.listens()
                    its = os.stat(path).st_ino
                    fcntl.flock(held, fcntl.LOCK_UN)
                    checks.equal("another daemon: the stop", ran(stop_), STOPPED)
                    checks.equal("another daemon goes on", asked(daemon.connect(), append(0)), answer(1))
                    checks.equal("another daemon: its socket stays", os.stat(path).st_ino, its)


def killed(checks: Checks):
    """The socket of a run that was killed is replaced. That of a run that goes on isn't, nor one on which somebody else
    listens, nor another file."""
    with tempfile.TemporaryDirectory() as room:
        path = f"{room}/socket"
        with Daemon(1, 1000, path) as first:
            first.listens()
            first.running.kill()
            first.running.wait()
        with Daemon(1, 1000, path) as second:
            checks.equal("after a killed run", asked(second.connect(), append(0)), answer(1))
            taken = Ran(b"", logged_fault(path, "another daemon has this socket"), 1)
            with Daemon(1, 1000, path, options=["--log"]) as third:
                checks.equal("beside a daemon", third.end(), taken)
            checks.equal("it goes on", stop(second), STOPPED)
        with socket.socket(socket.AF_UNIX) as other:
            other.bind(path)
            other.listen()
            with Daemon(1, 1000, path, options=["--log"]) as daemon:
                checks.equal("beside another program", daemon.end().notes, logged_fault(path, "somebody listens there"))
        os.unlink(path)
        Path(path).write_text("mine")
        with Daemon(1, 1000, path, options=["--log"]) as daemon:
            wanted = Ran(b"", logged_fault(path, "is no socket, and is left alone"), 1)
            checks.equal("a file in its place", daemon.end(), wanted)
        checks.equal("and is left as it is", Path(path).read_text(), "mine")


def removed_file(checks: Checks):
    """A daemon whose socket's file is removed by hand ends too: nobody could reach it any more."""
    with Daemon(2, 1000) as daemon:
        with daemon.connect() as client:
            checks.equal("a removed file: a client", asked(client, append(0)), answer(1))
            os.unlink(daemon.path)
            checks.true("it is let go", is_ended(client))
        ended = daemon.end()
        checks.equal("the daemon ends", (ended.outbox, ended.status), (empty_outbox(), 0))


def removed_from_idle(checks: Checks):
    """So does one that has no client at all, and one whose path another file has. (Before idle agents looked, such a
    daemon went on until it was killed.)"""
    for agents in (1, 16):
        for another in (False, True):
            about = f"a removed file of {agents} idle agents, another there: {another}"
            with Daemon(agents, 1000) as daemon:
                daemon.listens()
                if another:
                    Path(daemon.path + ".new").touch()
                    os.replace(daemon.path + ".new", daemon.path)
                else:
                    os.unlink(daemon.path)
                notes = b"".join(line(it, 0, 0) for it in range(agents))
                checks.equal(about, daemon.end(), Ran(empty_outbox(), notes, 0))
                checks.equal(f"{about}: it stays", os.path.exists(daemon.path), another)


def is_halted(daemon: Daemon) -> bool:
    """Whether each thread of a daemon is halted."""
    threads = Path(f"/proc/{daemon.running.pid}/task").glob("*/stat")
    return all(it.read_text().rpartition(")")[2].split()[0] == "T" for it in threads)


def halt(daemon: Daemon):
    """Halts a daemon three times (SIGSTOP, SIGCONT), which interrupts each call that has a time limit (signal(7))."""
    for _ in range(3):
        daemon.running.send_signal(signal.SIGSTOP)
        until(lambda: is_halted(daemon))
        time.sleep(HALT)
        daemon.running.send_signal(signal.SIGCONT)
        until(lambda: not is_halted(daemon))
        time.sleep(HALT)


def interrupted(checks: Checks):
    """Nobody is cut off and no agent is lost where a daemon is halted: two clients wait, between frames and in the
    middle of one, and two agents are idle. (Before, an interrupted read was a fault of its connection.)"""
    with Daemon(4, 1000) as daemon:
        waiting, writing = daemon.connect(), daemon.connect()
        checks.equal("interrupted: a client", asked(waiting, append(0)), answer(1))
        writing.sendall(append(0)[:20])
        checks.true("interrupted: a frame has begun", is_read(writing))
        halt(daemon)
        checks.equal("interrupted between frames", asked(waiting, append(1)), answer(1, 1, 1))
        checks.equal("interrupted in a frame", asked(writing, append(0)[20:]), answer(1, 0, 2))
        halt(daemon)
        for it in (waiting, writing):
            it.close()
        with contextlib.ExitStack() as clients:
            later = [clients.enter_context(daemon.connect()) for _ in range(4)]
            checks.equal(
                "each agent serves a later client",
                [asked(it, append(0)) for it in later],
                [answer(1, 0, it) for it in (3, 4, 5, 6)],
            )
        checks.equal("interrupted: the stop", stop(daemon), STOPPED)
        ended = daemon.end()
        checks.equal(
            "interrupted: faults", (re.findall(rb" faults (\d+)$", ended.notes, re.M), ended.status), ([b"0"] * 4, 0)
        )
        checks.equal("interrupted: the outbox", ended.outbox, empty_outbox())


def interrupted_answers(checks: Checks):
    """A client that reads late has all its answers, though the daemon was halted while it waited to write them."""
    given = [append(it, b"K%d" % (it % 50)) for it in range(20_000)]
    with Daemon(1, 1) as daemon:
        with daemon.connect() as client:
            client.settimeout(1)
            text, sent = memoryview(b"".join(given)), 0
            with contextlib.suppress(TimeoutError):
                while sent < len(text):
                    sent += client.send(text[sent : sent + 4096])
            checks.true("both sides wait to write", sent < len(text))
            halt(daemon)
            client.settimeout(PATIENCE)
            ends = [0]
            for it in given:
                ends.append(ends[-1] + len(it))
            whole = sum(end <= sent for end in ends[1:])
            got = heard(client, 14 * whole)
            checks.true(f"{whole} answers", got == b"".join(answer(1, it, it // 50) for it in range(whole)))
            client.sendall(text[sent : ends[whole + 1]])
            checks.equal("one more", heard(client, 14), answer(1, whole, whole // 50))
        ended = daemon.end()
        checks.true("late answers: no fault", ended.notes.startswith(line(0, whole + 1)) and ended.status == 0)


def main():
    checks = Checks("stop: daemons that are idle, at work or held by clients end in order, and lose nothing")
    for check in (
        *(
            no_clients,
            open_logs,
            held_connections,
            silent_in_a_frame,
            silent_between_frames,
            slow_in_a_frame,
            busy_client,
            steady_client,
            at_load,
            not_allowed,
            no_daemon,
        ),
        *(two_stops, another_daemon, killed, removed_file, removed_from_idle, interrupted, interrupted_answers),
    ):
        check(checks)
    checks.done()


if __name__ == "__main__":
    main()
