"""Runs `noticed discard` and `noticed forget` on a daemon at work, without one, and against daemons that answer
wrongly."""
from tests.send import Answering, fault
from tests.support.daemon_and_clients import Daemon, answer, append, asked, flush, frames, socket_fault
from tests.support.faults import worded
from tests.support.running import Checks, Ran, run

DISCARDED = b"discarded %d: the log is closed, and these outcomes are lost\n"
FORGOTTEN = b"forgotten: the key is free for a new log\n"
CLOSED = b"closed: the log was flushed or discarded before\n"
NOT_CLOSED = b"not closed: the log is open, or there is none\n"


def on_a_daemon(checks: Checks):
    """A log is discarded and its key is forgotten, each once; other logs stay as they are."""
    with Daemon(2, 20) as daemon:
        with daemon.connect() as client:
            given = append(0) + append(1) + append(2, b"K2") + flush(3, b"K2") + append(4, b"K3")
            heard = asked(client, given, 5)
            checks.equal("logs", heard, answer(1) + answer(1, 1, 1) + answer(1, 2) + answer(7, 3, 1) + answer(1, 4))
            for about, words, wanted in (
                ("an open log is not forgotten", ["forget", "bounce", "Q1"], (NOT_CLOSED, 1)),
                ("it is discarded", ["discard", "bounce", "Q1"], (DISCARDED % 2, 0)),
                ("not twice", ["discard", "bounce", "Q1"], (CLOSED, 1)),
                ("it is forgotten", ["forget", "bounce", "Q1"], (FORGOTTEN, 0)),
                ("not twice", ["forget", "bounce", "Q1"], (NOT_CLOSED, 1)),
                ("a log that was flushed", ["discard", "bounce", "K2"], (CLOSED, 1)),
                ("a log that isn't there", ["discard", "defer", "K3"], (DISCARDED % 0, 0)),
                ("and its key", ["forget", "defer", "K3"], (FORGOTTEN, 0)),
                ("a key of trace", ["forget", "trace", "K3"], (NOT_CLOSED, 1)),
            ):
                command, service, queue_id = words
                printed, status = wanted
                ran = run([command, daemon.path, service, queue_id])
                checks.equal(f"{about}: {' '.join(words)}", ran, Ran(printed, b"", status))
            checks.equal("another log stays", asked(client, append(5, b"K3")), answer(1, 5, 1))
            checks.equal("a forgotten key is free", asked(client, append(6)), answer(1, 6))


def sent(checks: Checks):
    """What is sent is one frame, as vectors/frames.py writes it."""
    for command, frame, told in (("discard", frames.discard, answer(8)), ("forget", frames.forget, answer(11))):
        with Answering([told], reads_on=True) as daemon:
            run([command, daemon.path, "trace", "K" * 32])
            daemon.thread.join()
            checks.equal(f"{command}: its frame", daemon.read, frame(0, 3, b"K" * 32))


def faults(checks: Checks):
    """Other answers, and none."""
    for about, text, wanted in (
        ("refused", answer(10, 0, 21), Ran(b"refused 21" + worded(21)[8:], b"", 1)),
        ("table full", answer(3), Ran(b"table full: no key can be added\n", b"", 1)),
        ("logged", answer(1), Ran(b"the answer is not one to this request\n", b"", 1)),
        ("the other's answer", answer(11), Ran(b"the answer is not one to this request\n", b"", 1)),
        ("no byte", b"", Ran(b"", worded(48), 1)),
        ("an answer for another place", answer(8, 5), Ran(b"", worded(46), 1)),
        ("a part of an answer", answer(8)[:6], Ran(b"", worded(13), 1)),
    ):
        with Answering([text], reads_on=True) as daemon:
            checks.equal(about, run(["discard", daemon.path, "bounce", "K1"]), wanted)
    why = socket_fault("/none", "No such file or directory (os error 2)")
    for command in ("discard", "forget"):
        checks.equal(f"{command} without a daemon", run([command, "/none", "bounce", "K1"]), Ran(b"", why, 1))
    with Answering([answer(8, 0, 2)], reads_on=True) as daemon, open("/dev/full", "wb") as full:
        ran = run(["discard", daemon.path, "bounce", "K1"], stdout=full)
        checks.equal("a line that can't be written", (ran.notes, ran.status), (b"", 1))


def main():
    checks = Checks("log_requests: noticed discard and noticed forget")
    on_a_daemon(checks)
    sent(checks)
    faults(checks)
    checks.done()


if __name__ == "__main__":
    main()
