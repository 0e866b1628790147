"""Takes the program to each of its limits and one step further: 4,096 keys, 1,000 outcomes in a log, 1,000,000
frames; letters that are longer than the program's buffers, up to the longest that it can make; and many letters, after
which logs are open."""
from itertools import chain

from tests.support.daemon_and_clients import flush, frames
from tests.support.faults import fault_line
from tests.support.running import HOST, Checks, batch, empty_outbox

LOGS, ENTRIES, FRAMES = 4096, 1000, 1_000_000
LETTERS, OPEN = 1000, 1000
BUFFER = 65_536  # bytes of each of the program's buffers
BOUNCE, FAILED, STATUS = 1, 1, b"5.1.1"


def queue_id(number: int) -> bytes:
    """A queue id of six characters, in the order of the numbers."""
    return b"K%05d" % number


def keys(checks: Checks):
    """4,096 keys are held; for the next one there is no room, until the run's end."""
    given = b"".join(frames.append(it, BOUNCE, queue_id(it), b"x@y", FAILED, STATUS) for it in range(LOGS))
    given += frames.append(LOGS, BOUNCE, b"K", b"x@y", FAILED, STATUS)
    given += flush(LOGS + 1, b"K") + frames.discard(LOGS + 2, BOUNCE, queue_id(0))
    given += frames.discard(LOGS + 3, BOUNCE, b"K") + flush(LOGS + 4, b"K", expected=1)
    answers = [b"%d logged 0" % it for it in range(LOGS)]
    answers += [
        b"%d table full" % LOGS,
        b"%d table full" % (LOGS + 1),
        b"%d discarded 1" % (LOGS + 2),
        b"%d table full" % (LOGS + 3),
        b"%d differs 0" % (LOGS + 4),
    ]
    open_logs = [b"open B %s 1" % queue_id(it) for it in range(1, LOGS)]
    ran = batch(given)
    checks.equal(f"{LOGS:,} keys, then others: notes", ran.notes.splitlines(), answers + open_logs)
    checks.equal("status", ran.status, 0)
    checks.equal("outbox", ran.outbox, empty_outbox())


def outcomes(checks: Checks):
    """A log takes 1,000 outcomes and no other, and its notice lists them in their order."""
    recipients = [b"r%04d@example.org" % it for it in range(ENTRIES + 1)]
    given = b"".join(frames.append(at, BOUNCE, b"FULL", it, FAILED, STATUS) for at, it in enumerate(recipients))
    ran = batch(given + flush(ENTRIES + 1, b"FULL"))
    answers = [b"%d logged %d" % (it, it) for it in range(ENTRIES)]
    checks.equal(
        f"{ENTRIES + 1:,} outcomes of one log: notes",
        ran.notes.splitlines(),
        answers + [b"%d log full" % ENTRIES, b"%d sealed %d" % (ENTRIES + 1, ENTRIES)],
    )
    lines = ran.outbox.split(b"\r\n")
    named = [it.removeprefix(b"Final-Recipient: rfc822; ") for it in lines if it.startswith(b"Final-Recipient: ")]
    checks.equal("the notice's recipients", named, recipients[:ENTRIES])
    checks.equal("its end", lines[-3:], [b".", b"QUIT", b""])
    checks.equal("status", ran.status, 0)


def requests(checks: Checks):
    """A run takes 1,000,000 frames, and no more; what follows isn't answered."""
    discards = [frames.discard(it, BOUNCE, b"K") for it in range(FRAMES + 1)]
    answers = chain([b"0 discarded 0\n"], (b"%d closed\n" % it for it in range(1, FRAMES)))
    wanted = b"".join(answers)
    given = b"".join(discards[:FRAMES])
    ran = batch(given)
    checks.true(f"{FRAMES:,} frames: notes", ran.notes == wanted)
    checks.equal("status", ran.status, 0)
    ran = batch(given + discards[FRAMES])
    checks.true(f"{FRAMES + 1:,} frames: notes", ran.notes == wanted + fault_line(47))
    checks.equal("status", ran.status, 1)
    checks.equal("outbox", ran.outbox, empty_outbox())
    ran = batch(given + b"\0\0\0")
    checks.true(f"{FRAMES:,} frames and a part of one: notes", ran.notes == wanted + fault_line(13))
    checks.equal("status", ran.status, 1)


def third_part(outbox: bytes) -> list:
    """The returned lines of a notice, as the outbox has them."""
    lines = outbox.split(b"\r\n")
    first = lines.index(b"Content-Type: text/rfc822-headers") + 2
    return lines[first : lines.index(b".") - 2]


def letters(checks: Checks):
    """Letters of 34 KB, of more than a buffer, and of many buffers have all their lines."""
    header = [b"X-Line-%04d: %s" % (it, b"h" * 112) for it in range(260)]
    text = b"".join(it + b"\n" for it in header)
    long = [b"h" * 998] * 32
    dots = [b"." * 998] * 32
    for what, lines, wanted in (
        ("34 KB", header, header),
        ("long lines", long, long),
        ("lines of dots", dots, [b"." + it for it in dots]),
    ):
        text = b"".join(it + b"\n" for it in lines)
        given = frames.append(0, BOUNCE, b"LONG", b"x@y", FAILED, STATUS) + flush(1, b"LONG", header=text)
        ran = batch(given)
        checks.equal(f"a letter of {what}: notes", (ran.status, ran.notes), (0, b"0 logged 0\n1 sealed 1\n"))
        checks.equal("its returned lines", third_part(ran.outbox), wanted)
    many = 500
    texts = dict(mta=b"mail.example.org", diagnostic=b"d" * 800, reason=b"r" * 800)
    given = b"".join(frames.append(it, BOUNCE, b"MANY", b"x%03d@y" % it, FAILED, STATUS, **texts) for it in range(many))
    ran = batch(given + flush(many, b"MANY", header=text))
    checks.true("a letter of many buffers", len(ran.outbox) > 8 * BUFFER)
    checks.equal("its reasons", ran.outbox.count(b"\r\n    " + b"r" * 800 + b"\r\n"), many)
    checks.equal("its diagnostics", ran.outbox.count(b"\r\nDiagnostic-Code: smtp; " + b"d" * 800 + b"\r\n"), many)
    checks.equal("its returned lines", third_part(ran.outbox), [b"." + it for it in dots])
    checks.true("its end", ran.outbox.endswith(b"--\r\n.\r\nQUIT\r\n"))
    checks.true("its beginning", ran.outbox.startswith(f"EHLO {HOST}\r\nMAIL FROM:<>\r\n".encode()))


def letters_and_open_logs(checks: Checks):
    """After 1,000 letters all logs that are open are listed."""
    given, answers = [], []
    for at in range(LETTERS):
        given += [
            frames.append(2 * at, BOUNCE, b"S%d" % at, b"x@y", FAILED, STATUS),
            flush(2 * at + 1, b"S%d" % at),
        ]
        answers += [b"%d logged 0" % (2 * at), b"%d sealed 1" % (2 * at + 1)]
    for at in range(OPEN):
        given.append(frames.append(2 * LETTERS + at, BOUNCE, queue_id(at), b"x@y", FAILED, STATUS))
        answers.append(b"%d logged 0" % (2 * LETTERS + at))
    ran = batch(b"".join(given))
    checks.equal(
        f"{LETTERS:,} letters, then open logs: notes",
        ran.notes.splitlines(),
        answers + [b"open B %s 1" % queue_id(it) for it in range(OPEN)],
    )
    checks.equal("status", ran.status, 0)
    checks.equal("letters", ran.outbox.count(b"\r\nMessage-ID: "), LETTERS)


def main():
    checks = Checks("limits: each limit of the program and one step further, and long letters")
    keys(checks)
    outcomes(checks)
    requests(checks)
    letters(checks)
    letters_and_open_logs(checks)
    checks.done()


if __name__ == "__main__":
    main()
