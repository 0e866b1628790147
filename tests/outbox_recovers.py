"""Checks that an outbox that failed once gets nothing more, though it works again: not by a later letter, and not at
the end; in `batch` and in a daemon.

The outbox is a pipe that doesn't block and is full at the first letter, so that its write fails; then it is emptied.
"""
import os
import subprocess

from tests.support.daemon_and_clients import Daemon, answer, append, asked, flush, line
from tests.support.faults import fault_line
from tests.support.running import HOST, LIMIT, Checks, program

ON_THE_WAY = 18  # letters that a daemon may not have tried to write though their flushes are answered
LOGGED, SEALED = 1, 7


def full_pipe():
    """The two ends of a pipe that doesn't block, filled to its end, and how many bytes are in it."""
    reading, writing = os.pipe()
    os.set_blocking(writing, False)
    filled = 0
    for size in (65536, 1):
        try:
            while True:
                filled += os.write(writing, b"x" * size)
        except BlockingIOError:
            pass
    return reading, writing, filled


def empty(reading: int, filled: int):
    """Takes out of the pipe what filled it."""
    held = 0
    while held < filled:
        held += len(os.read(reading, filled - held))


def message(number: int, queue_id: bytes, header: bytes) -> bytes:
    """The frames of one message, the first of them with this number."""
    return append(number, queue_id) + flush(number + 1, queue_id, header=header)


def check_batch(checks: Checks, what: str, header: bytes):
    """Runs three messages, empties the outbox after the first of them, and looks at what reaches it then."""
    reading, writing, filled = full_pipe()
    ran = subprocess.Popen([program(), "batch", HOST], stdin=subprocess.PIPE, stdout=writing, stderr=subprocess.PIPE)
    os.close(writing)
    ran.stdin.write(message(0, b"K1", header))
    ran.stdin.flush()
    notes = ran.stderr.readline() + ran.stderr.readline()
    empty(reading, filled)
    ran.stdin.write(message(2, b"K2", header) + message(4, b"K3", b""))
    ran.stdin.close()
    notes += ran.stderr.read()
    with os.fdopen(reading, "rb") as outbox:
        checks.equal(f"{what}: the outbox after its failure", outbox.read(), b"")
    answers = b"0 logged 0\n1 sealed 1\n2 logged 0\n3 sealed 1\n4 logged 0\n5 sealed 1\n"
    checks.equal(f"{what}: notes", notes, answers + fault_line(31) + b"unsent B K1\nunsent B K2\nunsent B K3\n")
    checks.equal(f"{what}: status", ran.wait(timeout=LIMIT), 1)


def check_daemon(checks: Checks, what: str, header: bytes):
    """The same of a daemon, whose letters are written beside their answers: the first one was tried once so many more
    are answered that they can't all be on their way. Then the outbox is emptied, and two messages follow."""
    reading, writing, filled = full_pipe()
    before, after = ON_THE_WAY + 2, 2
    with Daemon(1, 1, stdout=writing) as daemon:
        os.close(writing)
        with daemon.connect() as client:
            for at in range(before + after):
                if at == before:
                    empty(reading, filled)
                wanted = answer(LOGGED, 2 * at) + answer(SEALED, 2 * at + 1, 1)
                checks.equal(
                    f"{what}: letter {at} is sealed", asked(client, message(2 * at, b"K%d" % at, header), 2), wanted
                )
        ended = daemon.end()
    with os.fdopen(reading, "rb") as outbox:
        checks.equal(f"{what}: the outbox after its failure", outbox.read(), b"")
    unsent = b"".join(b"unsent B K%d\n" % at for at in range(before + after))
    checks.equal(f"{what}: notes", ended.notes, line(0, 2 * (before + after)) + fault_line(31) + unsent)
    checks.equal(f"{what}: status", ended.status, 1)


def main():
    checks = Checks("an outbox that fails once and then works gets nothing more")
    for what, header in (("short letters", b""), ("letters of 33 KiB", 32 * (1023 * b"a" + b"\n"))):
        check_batch(checks, f"batch, {what}", header)
        check_daemon(checks, f"a daemon, {what}", header)
    checks.done()


if __name__ == "__main__":
    main()
