"""Checks what comes of input that arrives in pieces, is cut or can't be read, and of output that can't be written."""
import os
import subprocess
import time

from tests.support.faults import fault_line
from tests.support.running import HOST, LIMIT, VECTORS, Checks, Ran, batch, empty_outbox, examples, program

PAUSE = 0.0005  # seconds between two pieces, so that the program reads them one by one


def in_pieces(given: bytes, size: int) -> Ran:
    """Runs batch on a pipe that gives so many bytes at a time."""
    streams = {"stdin": subprocess.PIPE, "stdout": subprocess.PIPE, "stderr": subprocess.PIPE}
    with subprocess.Popen([program(), "batch", HOST], bufsize=0, **streams) as running:
        try:
            for at in range(0, len(given), size):
                running.stdin.write(given[at : at + size])
                time.sleep(PAUSE)
        except BrokenPipeError:
            pass  # after a fault the program reads no further
        finally:
            running.stdin.close()
            running.stdin = None
        outbox, notes = running.communicate(timeout=LIMIT)
    return Ran(outbox, notes, running.returncode)


def closed_pipe() -> int:
    """The writing end of a pipe that nobody reads."""
    reading, writing = os.pipe()
    os.close(reading)
    return writing


def check_pieces(checks: Checks):
    """The pieces in which the input arrives change nothing."""
    for it in examples():
        wanted = Ran(it.bytes("outbox"), it.bytes("notes"), it.status)
        for size in (1, 2, 3):
            checks.equal(f"{it.name}, {size} at a time", in_pieces(it.bytes("frames"), size), wanted)


def check_cuts(checks: Checks, given: bytes, whole: bytes):
    """The first n bytes of one append (52 bytes) and one flush (56 bytes), for each n."""
    logged, is_open, cut = b"0 logged 0\n", b"open B A1B2C3 1\n", fault_line(13)
    for n in range(len(given) + 1):
        if n == 0:
            wanted = Ran(empty_outbox(), b"", 0)
        elif n < 52:
            wanted = Ran(empty_outbox(), cut, 1)
        elif n == 52:
            wanted = Ran(empty_outbox(), logged + is_open, 0)
        elif n < 108:
            wanted = Ran(empty_outbox(), logged + cut + is_open, 1)
        else:
            wanted = Ran(whole, logged + b"1 sealed 1\n", 0)
        checks.equal(f"the first {n} bytes", batch(given[:n]), wanted)


def check_lengths(checks: Checks, given: bytes):
    """Bodies at the ends of the bounds of a length, and one with a byte too many."""
    largest = bytes.fromhex("00010000") + bytes(65536)
    checks.equal("a body of 65,536 zero bytes", batch(largest), Ran(empty_outbox(), b"0 refused 21\n", 0))
    checks.equal("the same twice", batch(largest * 2), Ran(empty_outbox(), b"0 refused 21\n1 refused 21\n", 0))
    checks.equal("the same cut by a byte", batch(largest[:-1]), Ran(empty_outbox(), fault_line(13), 1))
    checks.equal("a body of one byte", batch(bytes.fromhex("0000000101")), Ran(empty_outbox(), b"0 refused 23\n", 0))
    longer = bytes.fromhex("00000031") + given[4:52] + b"\0"
    checks.equal("a byte after the body", batch(longer), Ran(empty_outbox(), b"0 refused 24\n", 0))
    for length, fault in (("00000000", 12), ("00010001", 11), ("7fffffff", 11), ("80000000", 11), ("ffffffff", 11)):
        wanted = Ran(empty_outbox(), fault_line(fault), 1)
        checks.equal(f"length {length}, bytes after it", batch(bytes.fromhex(length) + given), wanted)


def check_broken_input(checks: Checks):
    """A folder can be opened for reading, but no read of it succeeds."""
    folder = os.open("/", os.O_RDONLY)
    try:
        checks.equal("input that can't be read", batch(stdin=folder), Ran(empty_outbox(), fault_line(14), 1))
    finally:
        os.close(folder)


def check_broken_outbox(checks: Checks, given: bytes):
    """Where the outbox can't be written the log is closed all the same, and the letter is named as unsent."""
    answers = b"0 logged 0\n1 sealed 1\n"
    for what, opened in (("closed", closed_pipe), ("full", lambda: os.open("/dev/full", os.O_WRONLY))):
        outbox = opened()
        try:
            unsent = Ran(b"", answers + fault_line(31) + b"unsent B A1B2C3\n", 1)
            checks.equal(f"{what} standard output", batch(given, stdout=outbox), unsent)
            checks.equal(f"{what} standard output, no input", batch(stdout=outbox), Ran(b"", fault_line(31), 1))
            both = Ran(b"", fault_line(12) + fault_line(31), 1)
            checks.equal(f"{what} standard output, bad length", batch(bytes(4), stdout=outbox), both)
        finally:
            os.close(outbox)


def check_broken_notes(checks: Checks, given: bytes):
    """Where a line can't be written no further frame is read, and the outbox is finished."""
    for what, opened in (("closed", closed_pipe), ("full", lambda: os.open("/dev/full", os.O_WRONLY))):
        notes = opened()
        try:
            checks.equal(f"{what} standard error", batch(given, stderr=notes), Ran(empty_outbox(), b"", 1))
            checks.equal(f"{what} standard error, no input", batch(stderr=notes), Ran(empty_outbox(), b"", 0))
        finally:
            os.close(notes)


def main():
    checks = Checks(
        "streams: input in pieces, cut at each byte, out of bounds, broken; outputs that are closed or full"
    )
    given, whole = ((VECTORS / f"one-bounce.{it}").read_bytes() for it in ("frames", "outbox"))
    check_pieces(checks)
    check_cuts(checks, given, whole)
    check_lengths(checks, given)
    check_broken_input(checks)
    check_broken_outbox(checks, given)
    check_broken_notes(checks, given)
    checks.done()


if __name__ == "__main__":
    main()
