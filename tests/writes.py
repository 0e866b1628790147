"""Counts the program's reads and writes on a thousand messages, by a small library that is preloaded
(tests/support/record.c, compiled here with gcc).

Each read of the input asks for 65,536 bytes; a letter is one write of the outbox; an answer's line is one write of
the notes; and a letter is out before its answer's line.
"""
import tempfile
import time
from pathlib import Path

from tests.support.daemon_and_clients import flush, frames
from tests.support.preloading import built, preloading
from tests.support.running import HOST, Checks, batch

MESSAGES = 1000
READ = 65536


def requests() -> bytes:
    """An append and a flush for each of a thousand messages."""
    made = []
    for message in range(MESSAGES):
        queue_id = b"M%04d" % message
        made.append(frames.append(2 * message, 1, queue_id, b"bob@example.org", 1, b"5.1.1"))
        made.append(flush(2 * message + 1, queue_id))
    return b"".join(made)


def recorded(given: bytes):
    """The run, and its reads and writes: (call, stream, bytes asked for, bytes answered, first bytes of a write)."""
    with tempfile.TemporaryDirectory() as room:
        record, source = (Path(room) / it for it in ("record", "frames"))
        source.write_bytes(given)
        environment = preloading(built(room, "record"), RECORD=record)
        with source.open("rb") as it:
            ran = batch(stdin=it, env=environment)
        lines = record.read_text().splitlines()
    fields = [(it.split(" ") + [""])[:5] for it in lines]
    return ran, [
        (call, int(stream), int(asked), int(answered), bytes.fromhex(text))
        for call, stream, asked, answered, text in fields
    ]


def check_calls(checks: Checks, given: bytes, calls):
    """Compares the counts, and prints them."""
    reads = [it for it in calls if it[:2] == ("read", 0)]
    letters = [it for it in calls if it[:2] == ("write", 1)]
    lines = [it for it in calls if it[:2] == ("write", 2)]
    print(
        f"  {len(given)} bytes of {2 * MESSAGES} frames: {len(reads)} reads, {len(letters)} writes of the outbox, "
        f"{len(lines)} writes of the notes"
    )
    checks.equal("bytes that each read asks for", {it[2] for it in reads}, {READ})
    checks.true("reads are few", len(reads) <= len(given) // READ + 2)
    checks.true("no write was short", all(it[2] == it[3] for it in letters + lines))
    # the greeting may go out with the first letter or by itself; QUIT comes after the last
    checks.true("a letter is one write", MESSAGES + 1 <= len(letters) <= MESSAGES + 2)
    checks.equal("writes that begin a letter", sum(begins_letter(it[4]) for it in letters), MESSAGES)
    checks.equal("a line of the notes is one write", len(lines), 2 * MESSAGES)
    checks.true("each ends its line", all(it[4].endswith(b"\n") for it in lines))
    check_order(checks, [it for it in calls if it[0] == "write"])


def begins_letter(text: bytes) -> bool:
    """Whether a write begins a letter, with the greeting before it or not."""
    return text.removeprefix(f"EHLO {HOST}\r\n".encode()).startswith(b"MAIL FROM")


def check_order(checks: Checks, writes):
    """A letter is written before the line that answers its flush, and after the line before that."""
    lines, before = 0, []
    for _, stream, _, _, text in writes:
        if stream == 2:
            lines += 1
        elif begins_letter(text):
            before.append(lines)
    checks.equal("lines written before each letter", before, [2 * message + 1 for message in range(MESSAGES)])


def main():
    checks = Checks("writes: reads of 64 KiB, one write a letter, one write a line, on a thousand messages")
    given = requests()
    began = time.monotonic()
    ran = batch(given)
    print(f"  {MESSAGES} messages took {time.monotonic() - began:.3f} s")
    notes = b"".join(b"%d logged 0\n%d sealed 1\n" % (2 * it, 2 * it + 1) for it in range(MESSAGES))
    checks.equal("status", ran.status, 0)
    checks.equal("notes", ran.notes, notes)
    checks.equal("letters", ran.outbox.count(b"\r\nMAIL FROM:<>\r\n"), MESSAGES)
    checks.equal("letters' ends", ran.outbox.count(b"\r\n.\r\n"), MESSAGES)
    again, calls = recorded(given)
    checks.equal("the run with its calls recorded", again == ran, True)
    check_calls(checks, given, calls)
    checks.done()


if __name__ == "__main__":
    main()
