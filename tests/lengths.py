"""Runs `batch` with texts of each length that they may have, beside the plain reading: hosts, queue ids, addresses,
envelope ids, names of remote MTAs, diagnostics and reasons of each length, headers of some five hundred lengths, frames
and logs of many, and statuses in plain words. So memory that is refused at some lengths alone, or a text that is cut
there, shows. It takes some seconds."""
import random

from tests.support.daemon_and_clients import flush, frames
from tests.support.formats import sessions
from tests.support.formats.bodies import BY_OUTCOME, LONGEST_HEADER, LONGEST_TEXT
from tests.support.running import HOST, VECTORS, Checks, Ran, run

BOUNCE, DEFER, FAILED, DELAYED = 1, 2, 1, 2
ADDRESS, ID, MTA, HOST_NAME, ENVELOPE = 256, 32, 255, 255, 100  # the longest of each, in bytes
LONGEST_BODY = 65_536
STEP = 89  # bytes between two lengths of headers; those below it are all tried
ALONE = 331  # bytes between two lengths of the only frame of a run
EXAMPLE = (VECTORS / "all-optional-fields.frames").read_bytes()

dice = random.Random(20231114)


def some(length: int, alphabet: bytes = b"abcdefghijklmnopqrstuvwxyz0123456789") -> bytes:
    """A text of this length, in which no piece stands for another."""
    return bytes(dice.choices(alphabet, k=length))


def compare(checks: Checks, what: str, given: bytes, host: str = HOST):
    """Compares a run with the plain reading; of one that differs the first byte that does."""
    ran, wanted = run(["batch", host], given), sessions.batch(host.encode(), given)
    if ran != wanted:
        checks.equal(f"{what}: notes and status", (ran.notes, ran.status), (wanted.notes, wanted.status))
        at = next((at for at, pair in enumerate(zip(ran.outbox, wanted.outbox)) if pair[0] != pair[1]), -1)
        checks.equal(
            f"{what}: the outbox at its byte {at}", ran.outbox[at - 40 : at + 40], wanted.outbox[at - 40 : at + 40]
        )
    checks.true(what, ran == wanted)


def hosts(checks: Checks):
    """A host of each length, with a notice that has all its fields."""
    for length in range(1, HOST_NAME + 1):
        # a hyphen in front would begin an option
        name = (some(1) + some(length - 1, b"abcdefghijklmnopqrstuvwxyz0123456789.-ABC")).decode()
        compare(checks, f"a host of {length} bytes", EXAMPLE, name)
    checks.equal("a host of 256 bytes", run(["batch", some(HOST_NAME + 1).decode()]).status, 2)


def header(length: int) -> bytes:
    """A header of this length, in lines of some hundred bytes."""
    lines = b""
    while len(lines) < length:
        lines += b"X-Field: " + some(dice.randint(1, 160)) + b"\n"
    return lines[:length]


def headers(checks: Checks):
    """Headers of some five hundred lengths from none to the longest, each in a notice of its own."""
    lengths = sorted(
        {
            *range(0, STEP),
            *range(0, LONGEST_HEADER + 1, STEP),
            *(2**power + more for power in range(6, 16) for more in (-1, 0, 1)),
        }
    )
    lengths = [it for it in lengths if it <= LONGEST_HEADER]
    given = []
    for at, length in enumerate(lengths):
        given.append(frames.append(2 * at, BOUNCE, b"H%d" % length, b"x@y", FAILED, b"5.0.0"))
        given.append(flush(2 * at + 1, b"H%d" % length, header=header(length)))
    compare(checks, f"headers of {len(lengths)} lengths", b"".join(given))
    unbroken = [
        frames.append(0, BOUNCE, b"H", b"x@y", FAILED, b"5.0.0"),
        flush(1, b"H", header=some(LONGEST_HEADER)),
    ]
    compare(checks, "a header of one line", b"".join(unbroken))


def messages(outcomes: list) -> bytes:
    """The frames of messages of one outcome each, with these texts, and their flushes."""
    given = []
    for at, (queue_id, recipient, closing, texts) in enumerate(outcomes):
        given.append(frames.append(2 * at, DEFER, queue_id, recipient, DELAYED, b"4.0.0", **texts))
        given.append(flush(2 * at + 1, queue_id, DEFER, **closing))
    return b"".join(given)


def texts(checks: Checks):
    """Each other text at each of its lengths and one byte beyond the longest, alone and with all others."""
    each = {
        "recipients": [(b"R%d" % it, some(it), {}, {}) for it in range(1, ADDRESS + 2)],
        "original recipients": [(b"O%d" % it, b"x@y", {}, {"original": some(it)}) for it in range(ADDRESS + 2)],
        "return paths": [(b"P%d" % it, b"x@y", {"return_path": some(it)}, {}) for it in range(ADDRESS + 2)],
        "envelope ids": [(b"E%d" % it, b"x@y", {"envelope": some(it)}, {}) for it in range(ENVELOPE + 2)],
        "queue ids": [(some(it), b"x@y", {}, {}) for it in range(1, ID + 2)],
        "remote MTAs": [(b"M%d" % it, b"x@y", {}, {"mta": some(it)}) for it in range(MTA + 2)],
        "diagnostics": [(b"D%d" % it, b"x@y", {}, {"diagnostic": some(it)}) for it in range(LONGEST_TEXT + 2)],
        "reasons": [(b"S%d" % it, b"x@y", {}, {"reason": some(it)}) for it in range(LONGEST_TEXT + 2)],
    }
    for what, outcomes in each.items():
        compare(checks, f"{what} of each length", messages(outcomes))
    together = []
    for at in range(1000):
        long = {"original": ADDRESS, "mta": MTA, "diagnostic": LONGEST_TEXT, "reason": LONGEST_TEXT}
        flush = {"return_path": some(dice.randint(1, ADDRESS)), "envelope": some(dice.randint(0, ENVELOPE))}
        together.append(
            (
                b"T%d" % at,
                some(dice.randint(1, ADDRESS)),
                flush,
                {it: some(dice.randint(0, most)) for it, most in long.items()},
            )
        )
    compare(checks, "all of them at any length", messages(together))


def by_outcome(checks: Checks):
    """Notices worded by the outcome: each status of some subjects and details, and each remote MTA with a long reply,
    which every second reason has."""
    codes = [f"{5 - it % 2}.{it // 32}.{it % 32}".encode() for it in range(320)]
    given = [frames.append(at, BOUNCE, b"Q1", b"x@y", FAILED, code) for at, code in enumerate(codes)]
    compare(checks, "each status by the outcome", b"".join([*given, flush(len(given), b"Q1", wording=BY_OUTCOME)]))
    given = []
    for at in range(MTA + 1):
        reply = some(LONGEST_TEXT - at)
        reason = some(at // 2) + reply[at % 2 :] + some(at - at // 2)
        said = {"mta": some(at), "diagnostic": reply, "reason": reason}
        given.append(frames.append(at, BOUNCE, b"Q2", b"x@y", FAILED, b"5.1.1", **said))
    compare(checks, "each remote MTA by the outcome", b"".join([*given, flush(len(given), b"Q2", wording=BY_OUTCOME)]))


def bodies(checks: Checks):
    """Frames of many lengths, each the only one of its run: their bodies are refused, and not for want of memory."""
    for length in [*range(1, LONGEST_BODY, ALONE), LONGEST_BODY]:
        given = length.to_bytes(4, "big") + bytes(length)
        checks.equal(
            f"a frame of {length} bytes",
            run(["batch", HOST], given),
            Ran(sessions.batch(HOST.encode(), b"").outbox, b"0 refused 21\n", 0),
        )


def logs(checks: Checks):
    """Logs of many lengths, which are flushed, discarded or left open."""
    given, number = [], 0
    for count in [*range(1, 40), *range(41, 1000, 53), 1000]:
        for at in range(count):
            given.append(frames.append(number + at, BOUNCE, b"L%d" % count, b"%d@y" % at, FAILED, b"5.0.0"))
        number += count
        if count % 3:
            key = b"L%d" % count
            given.append(flush(number, key) if count % 3 == 1 else frames.discard(number, BOUNCE, key))
            number += 1
    compare(checks, "logs of many lengths", b"".join(given))


def main():
    checks = Checks("lengths: each text at each of its lengths, beside the plain reading")
    for check in (hosts, headers, texts, by_outcome, bodies, logs):
        check(checks)
    checks.done()


if __name__ == "__main__":
    main()
