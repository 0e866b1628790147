"""Checks `noticed status`: its numbers are what the clients counted, it answers while silent clients hold all agents,
and its open logs have their ages. Beside it nothing changes: who reads the status touches no log."""
import os
import re
import socket
import stat
import tempfile
import threading
import time
from collections import Counter
from pathlib import Path

from tests.support.daemon_and_clients import OUTBOX, Daemon, append, asked, flush, frames, until
from tests.support.faults import worded
from tests.support.running import Checks, run

CLIENTS, MESSAGES = 4, 150
SECOND = 1.0
METRIC = re.compile(rb'(# (HELP|TYPE) noticed_[a-z_]+ .+|noticed_[a-z_]+(\{(reply|kind)="[a-z_]+"\})? [0-9]+)')
REPLIES = {
    1: "logged",
    2: "closed",
    3: "table_full",
    4: "log_full",
    5: "nothing",
    6: "no_return_path",
    7: "sealed",
    8: "discarded",
    9: "goodbyes",
    10: "refused",
    11: "forgotten",
    12: "not_closed",
    13: "differs",
}


def status(daemon: Daemon, *options: str) -> bytes:
    """What the command prints."""
    return run(["status", *options, daemon.path]).outbox


def counts(daemon: Daemon) -> dict:
    """The lines of the status, by their names."""
    return dict(it.split(" ", 1) for it in status(daemon).decode().splitlines())


def requests_of(name: bytes) -> list:
    """Requests about one message whose answers are of many kinds, without their numbers."""
    return [
        lambda number: append(number, name),
        lambda number: append(number, name),
        lambda number: frames.forget(number, 1, name),
        lambda number: flush(number, name),
        lambda number: append(number, name),
        lambda number: frames.forget(number, 1, name),
        lambda number: frames.discard(number, 1, name),
        lambda number: flush(number, name + b"N"),
        lambda number: append(number, name + b"R"),
        lambda number: flush(number, name + b"R", return_path=b""),
        lambda number: append(number, name + b"O"),
        lambda number: append(number, name + b"-"),
    ]


KINDS = {"append": 5, "flush": 3, "forget": 2, "discard": 1}  # how many of them


def client_of(daemon: Daemon, at: int, replies: Counter):
    """A client that counts its answers by their replies."""
    with daemon.connect() as client:
        number = 0
        for message in range(MESSAGES):
            for request in requests_of(b"C%dM%d" % (at, message)):
                replies[REPLIES[asked(client, request(number))[5]]] += 1
                number += 1


def load(checks: Checks):
    """Under load of several clients, and afterwards: the numbers are the clients' own."""
    with Daemon(CLIENTS, 10) as daemon:
        daemon.listens()
        replies = [Counter() for _ in range(CLIENTS)]
        clients = [threading.Thread(target=client_of, args=(daemon, at, it)) for at, it in enumerate(replies)]
        for it in clients:
            it.start()
        while any(it.is_alive() for it in clients):
            counts(daemon)
        total = sum(replies, Counter())
        until(lambda: counts(daemon).get("notices_written") == str(total["sealed"]))
        told = counts(daemon)
        for name in REPLIES.values():
            checks.equal(f"answers: {name}", told[f"answered_{name}"], str(total[name]))
        many = CLIENTS * MESSAGES
        for kind, each in KINDS.items():
            checks.equal(f"requests: {kind}", told[f"requests_{kind}"], str(each * many))
        checks.true("no journal", "journal_size" not in told)
        checks.equal("open keys", told["keys_open"], str(many))
        checks.equal("closed keys", told["keys_closed"], str(3 * many))
        checks.equal("held keys", told["keys_held"], str(4 * many))
        checks.equal("limit", told["keys_limit"], "4096")
        checks.equal("notices", (told["notices_sealed"], told["notices_written"]), (str(many), str(many)))
        checks.equal("connections", told["connections"], str(CLIENTS))
        checks.equal("agents", told["agents"], str(CLIENTS))
        checks.equal("state", told["state"], "serving")
        checks.true("nothing failed", "last_fault" not in told)
        logs = status(daemon, "--open").splitlines()
        checks.equal("open logs", len(logs), many)
        checks.true("each has its line", all(re.fullmatch(rb"B C\dM\d+O 1 \d+", it) for it in logs))


def held_agents(checks: Checks):
    """Eight silent clients hold all eight agents, and a ninth waits: the status answers within a second."""
    with Daemon(8, 10) as daemon:
        daemon.listens()
        clients = [daemon.connect() for _ in range(9)]
        waiting = {"agents": "8", "agents_busy": "8", "clients_waiting": "1"}
        checks.true("all agents are busy, and a client waits", until(lambda: waiting.items() <= counts(daemon).items()))
        began = time.monotonic()
        counts(daemon)
        checks.true("it answers within a second", time.monotonic() - began < SECOND)
        for it in clients:
            it.close()


def ages(checks: Checks):
    """The open logs, the oldest first, with their numbers of outcomes and their ages."""
    with Daemon(1, 10) as daemon:
        with daemon.connect() as client:
            asked(client, append(0, b"OLD") + append(1, b"OLD"), 2)
            time.sleep(2.2)
            asked(client, append(2, b"NEW") + append(3, b"SHUT") + flush(4, b"SHUT"), 3)
            logs = [it.split() for it in status(daemon, "--open").splitlines()]
        checks.equal("the logs", [it[:3] for it in logs], [[b"B", b"OLD", b"2"], [b"B", b"NEW", b"1"]])
        checks.true("their ages", int(logs[0][3]) - int(logs[1][3]) in (2, 3))


def journal_bytes(checks: Checks):
    """How much of a journal has records: as many bytes as its file has."""
    with tempfile.TemporaryDirectory(prefix="noticed-") as room:
        folder = Path(room) / "journal"
        folder.mkdir()
        (folder / "journal").write_bytes(bytes(65_536))
        with Daemon(1, 10, options=("--journal", str(folder), "--outbox", str(Path(room) / "outbox"))) as daemon:
            with daemon.connect() as client:
                for at in range(3):
                    asked(client, append(at, b"K"))
                    used = len((folder / "journal").read_bytes().rstrip(b"\0"))
                    told = counts(daemon)
                    found = (told["journal_used"], told["journal_size"])
                    checks.equal("bytes of the journal", found, (str(used), "65536"))


def metrics(checks: Checks):
    """Each line is one of the text format, and each metric has its kind."""
    with Daemon(1, 10) as daemon:
        daemon.send()
        until(lambda: counts(daemon).get("notices_written") == "1")
        lines = status(daemon, "--prometheus").splitlines()
        checks.true("each line", all(METRIC.fullmatch(it) for it in lines))
        kinds = {it.split()[2] for it in lines if it.startswith(b"# TYPE")}
        named = {re.split(rb"[{ ]", it)[0] for it in lines if not it.startswith(b"#")}
        checks.equal("each metric has its kind", named, kinds)
        checks.true("a notice", b"noticed_notices_written_total 1" in lines)
        checks.true("its answer", b'noticed_answers_total{reply="sealed"} 1' in lines)
        checks.true("its request", b'noticed_requests_total{kind="flush"} 1' in lines)
        both = run(["status", "--open", "--prometheus", daemon.path])
        checks.equal("both options", both.status, 2)


def socket_files(checks: Checks):
    """The socket's file is its owner's alone, whatever the mask of the process. It is made in place of another socket,
    not of another file, and goes at the end."""
    with Daemon(1, 1, preexec_fn=lambda: os.umask(0)) as daemon:
        daemon.listens()
        path = Path(daemon.path + ".status")
        checks.true("it is there", until(path.is_socket))
        checks.true("its mode", until(lambda: stat.S_IMODE(path.stat().st_mode) == 0o700))
        daemon.send()
        checks.equal("nothing changes", daemon.end().outbox, OUTBOX)
        checks.true("it is gone", not path.exists())
        with socket.socket(socket.AF_UNIX, socket.SOCK_STREAM) as left:
            left.bind(str(path))
        os.unlink(daemon.path)
        with Daemon(1, 1, path=daemon.path) as second:
            checks.true("in place of a socket", until(lambda: run(["status", daemon.path]).status == 0))
            second.send()
            second.end()
        path.write_text("kept")
        os.unlink(daemon.path)
        with Daemon(1, 1, path=daemon.path) as third:
            third.send()
            checks.equal("not of a file: it serves all the same", third.end().status, 0)
        checks.equal("the file", path.read_text(), "kept")
    gone = run(["status", daemon.path])
    checks.equal("without a daemon", (gone.status, gone.notes.splitlines()[0]), (1, worded(61).strip()))


def slow_reader(checks: Checks):
    """A client that doesn't read holds nobody up for long."""
    with Daemon(1, 10) as daemon:
        with daemon.connect() as client:
            for at in range(4_000):
                asked(client, append(at, b"K%031d" % at))
            with socket.socket(socket.AF_UNIX, socket.SOCK_STREAM) as slow:
                slow.connect(daemon.path + ".status")
                began = time.monotonic()
                checks.equal("4,000 logs", len(status(daemon, "--open").splitlines()), 4_000)
                checks.true("within some seconds", time.monotonic() - began < 5 * SECOND)


def key_lines(checks: Checks):
    """The event log has a line once 75 % of the keys are in use, and one at 95 %."""
    with Daemon(1, 10, options=("--log",)) as daemon:
        with daemon.connect() as client:
            for at in range(4_000):
                asked(client, append(at, b"K%d" % at))
        run(["stop", daemon.path])
        lines = [it for it in daemon.end().notes.splitlines() if b"keys are in use" in it]
        wanted = [b"%d of 4096 keys are in use, %d of them with an open log" % (many, many) for many in (3_072, 3_892)]
        checks.equal("two lines", lines, wanted)


def main():
    checks = Checks("status: what a daemon says of itself beside its agents")
    for check in (load, held_agents, ages, journal_bytes, metrics, socket_files, slow_reader, key_lines):
        check(checks)
    checks.done()


if __name__ == "__main__":
    main()
