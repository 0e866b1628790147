"""Checks `serve --log`: a line on standard error for what happens, when it happens, before the notes; and
`serve --end-on-fault`: a daemon whose outbox can't be written ends at once, in order. Without them neither."""
import fcntl
import os
import re
import socket
import tempfile
import threading
import time

from tests.support.daemon_and_clients import OUTBOX, Daemon, answer, append, asked, flush, is_ended, line, until
from tests.support.faults import fault_line, worded
from tests.support.running import HOST, Checks, run

LOG = ("--log",)
FULL = worded(31, "No space left on device (os error 28)")

CUT_OFF = b"client cut off: silent for 1 s\n"



def start(daemon: Daemon, agents: int, uses: int) -> bytes:
    """The lines of a start, with the host that examples have."""
    listening = f"listening on {daemon.path} for {HOST}: {agents} agents, {uses} connections each\n"
    return f"{listening}the host's name {HOST} is one for examples\n".encode()


def notices(checks: Checks):
    """A line for each notice, once it is written; none for a flush that makes none."""
    with Daemon(1, 2, options=LOG) as daemon:
        begun = start(daemon, 1, 2)
        daemon.listens()
        checks.equal("the start", daemon.said(len(begun)), begun)
        daemon.send()
        first = begun + b"notice B.A1B2C3.0 to <ann@example.com>\n"
        checks.equal("the first notice, before the end", daemon.said(len(first)), first)
        longest = b"a" * 256
        with daemon.connect() as client:
            asked(client, append(0, b"K" * 32) + flush(1, b"K" * 32, return_path=longest), 2)
            asked(client, flush(2, b"K2"))
        second = b"notice B." + b"K" * 32 + b".1 to <" + longest + b">\n"
        ended = daemon.end()
        checks.equal("all lines, and then the notes", ended.notes, first + second + line(0, 5, 2))
        checks.equal("the outbox begins as it does without a log", ended.outbox[: len(OUTBOX) - 6], OUTBOX[:-6])


def each_notice(checks: Checks):
    """Two hundred notices of one connection: a line each, in order."""
    with Daemon(1, 1, options=LOG) as daemon:
        with daemon.connect() as client:
            for at in range(200):
                name = b"M%d" % at
                asked(client, append(2 * at, name) + flush(2 * at + 1, name), 2)
        lines = [it for it in daemon.end().notes.splitlines() if it.startswith(b"notice")]
        checks.equal(
            "two hundred notices", lines, [b"notice B.M%d.%d to <ann@example.com>" % (at, at) for at in range(200)]
        )


def other_hosts(checks: Checks):
    """A host's name that isn't one for examples has no line; others that are have one."""
    with Daemon(1, 1, options=LOG, host="mx.sincewagon.net") as daemon:
        daemon.listens()
        run(["stop", daemon.path])
        told = daemon.end().notes.splitlines()
        checks.equal(
            "a host of its own",
            told[0],
            f"listening on {daemon.path} for mx.sincewagon.net: 1 agents, 1 connections each".encode(),
        )
        checks.true("and nothing of examples", not any(b"examples" in it for it in told))
    for host in ("mx.test", "mx.localhost"):
        with Daemon(1, 1, options=LOG, host=host) as daemon:
            daemon.listens()
            run(["stop", daemon.path])
            checks.true(
                f"{host} is for examples",
                f"\nthe host's name {host} is one for examples\n".encode() in daemon.end().notes,
            )


def stops(checks: Checks):
    """The stop has a line, and so has a client that is cut off for its silence."""
    with Daemon(1, 10, options=(*LOG, "--idle", "1")) as daemon:
        with daemon.connect() as client:
            checks.true("a silent client", is_ended(client))
        run(["stop", daemon.path])
        told = daemon.end().notes
        checks.true("it is told as cut off", b"\nclient cut off: silent for 1 s\n" in told)
        checks.true("the stop is told", b"\nending: the run was stopped\n" in told)


def severities(checks: Checks):
    """Each line begins with its severity where standard error is the stream that JOURNAL_STREAM names, and else none
    does."""
    for about, is_stream in (("the journal's stream", True), ("another stream", False)):
        with open(os.devnull, "wb") if not is_stream else tempfile.TemporaryFile() as stream:
            of, options = os.fstat(stream.fileno()), (*LOG, "--idle", "1", "--outbox", "/dev/full")
            variables = {**os.environ, "JOURNAL_STREAM": f"{of.st_dev}:{of.st_ino}"}
            streams = {"stderr": stream} if is_stream else {}
            with Daemon(1, 10, options=options, env=variables, **streams) as daemon:
                with daemon.connect() as client:
                    asked(client, append(0) + flush(1), 2)
                    checks.true(f"{about}: a silent client", is_ended(client))
                run(["stop", daemon.path])
                told = daemon.end().notes
                if is_stream:
                    stream.seek(0)
                    told = stream.read()
        for severity, text in ((b"<3>", FULL), (b"<4>", CUT_OFF), (b"<6>", b"ending: the run was stopped\n")):
            wanted = b"\n" + (severity if is_stream else b"") + text
            checks.true(f"{about}: {wanted} in {told}", wanted in told)


def busy(checks: Checks):
    """That all agents have been busy for long has one line, and a client that goes away begins the time anew."""
    with Daemon(2, 10, options=LOG) as daemon:
        with daemon.connect() as one, daemon.connect() as other:
            checks.equal(
                "two clients are served",
                [asked(it, append(0)) for it in (one, other)],
                [answer(1, 0, it) for it in (0, 1)],
            )
            time.sleep(28)
            one.close()
            with daemon.connect() as third:
                checks.equal("a third one is served", asked(third, append(0)), answer(1, 0, 2))
                time.sleep(34)
        run(["stop", daemon.path])
        line_of_log = b"\nall agents have been busy for 30 s: clients wait\n"
        checks.equal("one line, once 30 seconds are over", daemon.end().notes.count(line_of_log), 1)


def unread(checks: Checks):
    """A standard error that nobody reads stops nobody: what finds no room is dropped and counted."""
    reading, writing = os.pipe()
    fcntl.fcntl(writing, fcntl.F_SETPIPE_SZ, 4096)
    with Daemon(2, 10, options=LOG, stderr=writing) as daemon, open(reading, "rb") as pipe:
        os.close(writing)
        with daemon.connect() as client:
            client.settimeout(5)
            for at in range(1500):
                name = b"M%d" % at
                answered = asked(client, append(2 * at, name) + flush(2 * at + 1, name), 2)
                if len(answered) < 28:
                    break
            checks.equal("1500 pairs of requests", answered, answer(1, 2998) + answer(7, 2999, 1))
        told = b""
        while b"lines were dropped\n" not in told and (more := pipe.read1()):
            told += more
        running = threading.Thread(target=run, args=(["stop", daemon.path],))
        running.start()
        told += pipe.read()
        running.join()
        dropped = sum(int(it) for it in re.findall(rb"^(\d+) lines were dropped$", told, re.MULTILINE))
        lines = told.splitlines(keepends=True)
        checks.equal("each line is there or counted", dropped + sum(it.startswith(b"notice") for it in lines), 1500)
        ends = ([line(0, 3000), line(1, 0, 0)], [line(0, 0, 0), line(1, 3000)])
        checks.true(f"the notes follow: {lines[-2:]}", lines[-2:] in ends)


def unread_end(checks: Checks):
    """A run whose standard error nobody reads ends all the same."""
    reading, writing = os.pipe()
    fcntl.fcntl(writing, fcntl.F_SETPIPE_SZ, 4096)
    with Daemon(1, 10, options=LOG, stderr=writing) as daemon, open(reading, "rb"):
        os.close(writing)
        with daemon.connect() as client:
            for at in range(200):
                name = b"M%d" % at
                asked(client, append(2 * at, name) + flush(2 * at + 1, name), 2)
        checks.equal("unread: the stop", run(["stop", daemon.path], timeout=60).status, 0)
        checks.equal("unread: the status", daemon.end().status, 1)


def refused_requests(checks: Checks):
    """A refused request has a line with its number and words, one a second at most; the next has how many had none."""
    with Daemon(1, 3, options=LOG) as daemon:
        begun = start(daemon, 1, 3)
        told = begun + b"request refused: 26: the queue id is malformed\n"
        with daemon.connect() as client:
            for number in range(5):
                checks.equal("refused", asked(client, append(number, b"K-1")), answer(10, number, 26))
            checks.equal("one line at once", daemon.said(len(told))[: len(told)], told)
            time.sleep(2)
            asked(client, append(5, recipient=b"<"))
        run(["stop", daemon.path])
        told = daemon.end().notes
        more = re.findall(rb"request refused: (?:1|26): .+; (\d+) more before it\n", told)
        lines = told.count(b"request refused: ")
        checks.equal("each is logged or counted", lines + sum(map(int, more)), 6)


def unreached_server(checks: Checks):
    """A mail server that isn't there is named by its cause, not by a missing reply."""
    with tempfile.TemporaryDirectory() as room, socket.socket() as unheard:
        unheard.bind(("127.0.0.1", 0))
        for server, why in (
            (f"127.0.0.1:{unheard.getsockname()[1]}", b"Connection refused (os error 111)"),
            (f"{room}/none", b"No such file or directory (os error 2)"),
        ):
            folder = tempfile.mkdtemp(dir=room)
            with Daemon(1, 3, options=(*LOG, "--journal", folder, "--hand-in", server)) as daemon:
                with daemon.connect() as client:
                    asked(client, append(0) + flush(1), 2)
                wanted = b"notice B.Q1.0 to <ann@example.com> not taken now: " + why + b"\n"
                checks.true(f"{why.decode()}", until(lambda: wanted in daemon.said(0), 20))
                run(["stop", daemon.path])


def full_outbox(checks: Checks):
    """The fault has a line at once; the run goes on, as without a log."""
    with open("/dev/full", "wb") as full, Daemon(1, 1, options=LOG, stdout=full) as daemon:
        with daemon.connect() as client:
            asked(client, append(0) + flush(1), 2)
            begun = start(daemon, 1, 1)
            checks.equal("the fault at once", daemon.said(len(begun + FULL)), begun + FULL)
            checks.equal(
                "the run goes on", asked(client, append(2, b"K2") + flush(3, b"K2"), 2), answer(1, 2) + answer(7, 3, 1)
            )
        ended = daemon.end()
        checks.equal(
            "the notes tell it too",
            (ended.notes, ended.status),
            (begun + FULL + line(0, 4) + fault_line(31) + b"unsent B Q1\nunsent B K2\n", 1),
        )


def ends_on_a_fault(checks: Checks):
    """With `--end-on-fault` the daemon ends, even if its agents wait for connections or for silent clients."""
    with open("/dev/full", "wb") as full, Daemon(4, 1000, options=("--end-on-fault", *LOG), stdout=full) as daemon:
        with daemon.connect() as silent, daemon.connect() as client:
            asked(client, append(0) + flush(1), 2)
            checks.true("the client is let go", is_ended(client))
            checks.true("a silent one too", is_ended(silent))
        ended = daemon.end()
        checks.true("the end is told", b"\nending: the outbox could not be written\n" in ended.notes)
        checks.true(
            "what is unsent is named", ended.notes.endswith(fault_line(31) + b"unsent B Q1\n") and ended.status == 1
        )
        checks.true("the socket's file stays", os.path.exists(daemon.path))
    with Daemon(1, 1, options=("--end-on-fault",)) as daemon:
        daemon.send()
        ended = daemon.end()
        checks.equal(
            "without a fault nothing changes", (ended.outbox, ended.notes, ended.status), (OUTBOX, line(0, 2), 0)
        )


def main():
    checks = Checks("log: a line for what happens, when it happens; an end at once where the outbox can't be written")
    for check in (
        notices,
        each_notice,
        other_hosts,
        stops,
        severities,
        busy,
        unread,
        unread_end,
        refused_requests,
        unreached_server,
        full_outbox,
        ends_on_a_fault,
    ):
        check(checks)
    checks.done()


if __name__ == "__main__":
    main()
