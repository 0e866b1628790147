"""Bodies at the bounds of each field and one byte past them, one byte away from a legal one, or cut: whether the
program accepts each as its first request, and else the number of its refusal (noticed-protocol(5))."""
import os
from concurrent.futures import ThreadPoolExecutor

from tests.support.running import Checks, batch

ACCEPTED = 0
LAST_MOMENT = 253_402_300_799  # the last second of the year 9999
NONE = 2**64 - 1  # no moment
BOUNCE, DEFER, TRACE = 1, 2, 3

# An append of `T K1`, a flush of `B K1` and a discard of `D K1`, with every optional text.
APPEND = b"\x01\x01\0\0\0\0\x03\0\x02K1\0\x03o@p\0\x03x@y\x01\0\x055.1.1\0\x02mx\0\x02no\0\x02so"
FLUSH = b"\x01\x02\0\0\0\0\x01\0\x02K1\0\0\0\0\x65\x53\xf1\0\0\0\0\0\x65\x53\xe2\xf0\0\x03a@b\0\x02Q1\0\x01h"
DISCARD = b"\x01\x03\0\0\0\0\x02\0\x02K1"
# An append without optional texts.
SHORT_APPEND = b"\x01\x01\0\0\0\0\x01\0\x06A1B2C3\0\0\0\x0fbob@example.org\x01\0\x055.1.1\0\0\0\0\0\0"

# Another byte at a place, and what comes of it.
CHANGED_APPEND = [
    (0, 0, 21), (0, 2, 23), (0, 3, 23), (0, 4, 21), (0, 255, 21), (1, 0, 22), (1, 4, 22), (1, 2, 23), (1, 3, 24),
    (6, 0, 25), (6, 4, 25), (6, 1, 0), (6, 2, 3), (7, 1, 23), (8, 0, 23), (8, 1, 23), (8, 3, 23), (9, ord("-"), 26),
    (9, ord("_"), 26), (10, ord(" "), 26), (10, 0x80, 26), (11, 1, 23), (12, 2, 23), (12, 4, 23), (13, ord("<"), 2),
    (14, ord(" "), 2), (15, 0x7F, 2), (17, 2, 23), (18, ord(">"), 1), (19, ord(" "), 1), (20, 0x7F, 1),
    (20, ord("~"), 0), (21, 0, 3), (21, 6, 3), (21, 2, 5), (21, 3, 5), (21, 4, 5), (21, 5, 5), (23, 4, 23),
    (24, ord("3"), 4), (24, ord("0"), 4), (24, ord("2"), 5), (24, ord("4"), 0), (25, ord("-"), 4), (26, ord("x"), 4),
    (27, ord("1"), 4), (28, ord("."), 4), (28, ord("0"), 0), (30, 0, 23), (30, 1, 23), (31, ord(" "), 6), (32, 0xE9, 6),
    (34, 1, 23), (34, 3, 23), (35, 7, 0), (37, 1, 23), (38, 0, 24), (38, 1, 24), (38, 3, 23), (40, ord("\n"), 0),
]  # fmt: skip
CHANGED_FLUSH = [
    (0, 2, 0), (0, 3, 23), (0, 4, 21), (1, 1, 23), (6, 5, 25), (9, ord("."), 26), (11, 1, 27), (13, 1, 27),
    (14, 0x3B, 27), (14, 0x3A, 0), (19, 0x80, 27), (22, 0x3B, 27), (22, 0x3A, 0), (28, 2, 23), (29, ord("<"), 29),
    (30, ord(" "), 29), (31, 0, 29), (31, 0x7F, 29), (33, 1, 23), (34, 0x1F, 30), (34, 0xE9, 30), (35, 0x7F, 30),
    (35, ord(" "), 0), (36, 0x80, 23), (37, 0, 24), (37, 2, 23), (38, 0, 0),
]  # fmt: skip
CHANGED_DISCARD = [
    (0, 2, 0), (0, 3, 0), (0, 9, 21), (1, 1, 23), (1, 2, 23), (6, 9, 25), (8, 1, 24), (8, 3, 23), (10, ord("-"), 26),
]  # fmt: skip

# Bodies as they are.
WHOLE = [
    (b"\x00", 21),
    (b"\x01", 23),
    (b"\x01\x04", 22),
    (b"\x01\x09", 22),
    (b"\x01\x03", 23),
    (b"\x03\x01", 23),
    (b"\x02\x01", 23),
    (b"\x02\x05", 22),
    (b"\x02\x09", 22),
    (b"\x02\x04", 23),
    (b"\x03\x09", 22),
    (b"\x02\x04\0\0\0\0\x01\0\x02K1", ACCEPTED),
    (b"\x02\x04\0\0\0\0\x01\0\x02K1\0", 24),
    (b"\x02\x04\0\0\0\0\x01\0\x02K-", 26),
    (b"\x02\x03\0\0\0\0\x01\0\x02K1", ACCEPTED),
    (b"\x01\x04\0\0\0\0\x01\0\x02K1", 22),
    (b"\x03\x04\0\0\0\0\x01\0\x02K1", ACCEPTED),
    (b"\x01\x03\0\0\0\0\x01\0\x02K1", ACCEPTED),
    (b"\x01\x03\0\0\0\0\x01\0\x02K", 23),
    (b"\x01\x03\0\0\0\0\x01\0\x02K1\0", 24),
    (b"\x01\x03\0\0\0\0\x01\0\x02K-", 26),
    (b"\x01\x03\0\0\0\0\x04\0\x02K-", 25),
    (b"\x04\x01", 21),
    (b"\x04\x09", 21),
    (b"\x03\x05", 22),
    (b"\x03\x00", 22),
    (b"\x03\x04\0\0\0\0\x01\0\x02K1\0", 24),
    (b"\x03\x03\0\0\0\0\x01\0\x02K1\0", 24),
    (b"\x04\x04\0\0\0\0\x01\0\x02K1", 21),
]


def text(of: bytes) -> bytes:
    """A text on the wire: its length in two bytes, and it."""
    return len(of).to_bytes(2, "big") + of


def append(
    service=BOUNCE,
    original=b"",
    recipient=b"x@y",
    action=1,
    status=b"5.0.0",
    mta=b"",
    diagnostic=b"",
    reason=b"",
    moments=None,
) -> bytes:
    """An append to the log of this service and `K1`; of version 2 where it has moments."""
    version = 1 if moments is None else 2
    head = bytes([version, 1, 0, 0, 0, 0, service]) + text(b"K1") + text(original) + text(recipient) + bytes([action])
    return (
        head
        + b"".join(map(text, (status, mta, diagnostic, reason)))
        + b"".join(it.to_bytes(8, "big") for it in moments or ())
    )


def flush(
    moment=1_700_000_000, arrival=1_699_996_400, return_path=b"ann@example.com", envelope_id=b"", header=b""
) -> bytes:
    """A flush of `B K1`."""
    moments = moment.to_bytes(8, "big") + arrival.to_bytes(8, "big")
    return b"\x01\x02\0\0\0\0\x01" + text(b"K1") + moments + text(return_path) + text(envelope_id) + text(header)


def discard(queue_id: bytes) -> bytes:
    """A discard of a trace log."""
    return b"\x01\x03\0\0\0\0\x03" + text(queue_id)


# Fields at their bounds, and past them; where several are wrong the first in the order of checks is told.
BOUNDS = [
    (append(recipient=b"a" * 256), ACCEPTED),
    (append(recipient=b"a" * 257), 1),
    (append(original=b"<"), 2),
    (append(original=b"<", recipient=b"<"), 1),
    (append(mta=b"a b"), 6),
    (append(mta=b"a" * 255), ACCEPTED),
    (append(mta=b"a" * 256), 6),
    (append(diagnostic=b"a" * 800), ACCEPTED),
    (append(diagnostic=b"a" * 801, reason=b"a" * 801), 7),
    (append(reason=b"a" * 801), 8),
    (append(status=b"5.01.1"), 4),
    (append(status=b"3.0.0"), 4),
    (append(status=b"5.1000.1"), 4),
    (append(status=b"2.0.0"), 5),
    (append(status=b"4.4.7"), ACCEPTED),
    (append(BOUNCE, action=2), 3),
    (append(BOUNCE, action=6), 3),
    (append(DEFER, action=2, status=b"4.4.1"), ACCEPTED),
    (append(TRACE, action=5, status=b"2.0.0"), ACCEPTED),
    (flush(), ACCEPTED),
    (flush(moment=LAST_MOMENT), ACCEPTED),
    (flush(moment=LAST_MOMENT + 1), 27),
    (flush(arrival=LAST_MOMENT + 1, header=b"a" * 32_769), 27),
    (flush(header=b"a" * 32_768), ACCEPTED),
    (flush(return_path=b"a b", header=b"a" * 32_769), 28),
    (flush(return_path=b"a b", envelope_id=b"a" * 101), 29),
    (flush(envelope_id=b"a" * 100), ACCEPTED),
    (flush(envelope_id=b"a" * 101), 30),
    (flush(envelope_id=b"a\tb"), 30),
    (flush(return_path=b""), ACCEPTED),
    (discard(b""), 26),
    (discard(b"012345678901234567890123456789aB"), ACCEPTED),
    (discard(b"012345678901234567890123456789aBc"), 26),
]

# A flush of version 3, which ends with how many outcomes it expects, any number of four bytes, with what is returned,
# with the wording, and with extension fields.
COUNTED = b"\x03" + FLUSH[1:]
BAD_ENVELOPE_ID = COUNTED.replace(b"\0\x02Q1", b"\0\x02Q\n")
COUNTS = [
    (COUNTED + bytes(8), ACCEPTED),
    (COUNTED + b"\0\0\0\1" + bytes(4), ACCEPTED),
    (COUNTED + b"\xff" * 4 + bytes(4), ACCEPTED),
    (COUNTED + b"\xff\xff\xff\xfe" + bytes(4), ACCEPTED),
    (COUNTED, 23),
    (COUNTED + bytes(1), 23),
    (COUNTED + bytes(3), 23),
    (COUNTED + bytes(4), 23),
    (COUNTED + bytes(5), 23),
    (COUNTED + bytes(6), 23),
    (COUNTED + bytes(7), 23),
    (COUNTED + bytes(9), 24),
    (b"\x02" + FLUSH[1:] + bytes(8), 24),
    (COUNTED[:11] + b"\1" + COUNTED[12:] + bytes(8), 27),
    (COUNTED[:9] + b"-" + COUNTED[10:] + bytes(8), 26),
    (COUNTED + bytes(4) + b"\1\0\0\0", ACCEPTED),
    (COUNTED + bytes(4) + b"\0\1\0\0", ACCEPTED),
    (COUNTED + bytes(4) + b"\1\1\0\0", ACCEPTED),
    (COUNTED + bytes(4) + b"\2\0\0\0", ACCEPTED),
    (COUNTED + bytes(4) + b"\2\1\0\0", ACCEPTED),
    (COUNTED + bytes(4) + b"\3\0\0\0", 18),
    (COUNTED + bytes(4) + b"\xff\2\0\0", 18),
    (COUNTED + bytes(4) + b"\0\2\0\0", 19),
    (COUNTED + bytes(4) + b"\2\xff\0\0", 19),
    (BAD_ENVELOPE_ID + bytes(4) + b"\3\2\0\0", 30),
]

TYPED = {"original": b"o@p", "diagnostic": b"busy"}


def typed(*types: bytes, extensions=b"", after=b"", **fields) -> bytes:
    """An append of version 3 without moments, which ends with these types: of its recipient, of the original one and of
    its diagnostic; and with these extension fields."""
    return (
        b"\x03"
        + append(**TYPED | fields, moments=[NONE, NONE])[1:]
        + b"".join(map(text, types))
        + text(extensions)
        + after
    )


TYPES = [
    (typed(b"", b"", b""), ACCEPTED),
    (typed(b"fax", b"x400", b"X-Postfix"), ACCEPTED),
    (typed(b"a" * 32, b"a" * 32, b"a" * 32), ACCEPTED),
    (typed(b"a" * 33, b"", b""), 15),
    (typed(b"", b"a" * 33, b""), 16),
    (typed(b"", b"", b"a" * 33), 17),
    (typed(b"a;", b"b;", b"c;"), 15),
    (typed(b"", b"b;", b"c;"), 16),
    (typed(b"a b", b"", b""), 15),
    (typed(b"a\xe9", b"", b""), 15),
    (typed(b"", b"", b'"'), 17),
    (typed(b"", b"x400", b"", original=b""), 16),
    (typed(b"", b"", b"smtp", diagnostic=b""), 17),
    (typed(b"x", b"", b"", original=b"", diagnostic=b""), ACCEPTED),
    (typed(b"a;", b"", b"", recipient=b"<"), 1),
    (typed(b"", b"", b"", after=b"\0"), 24),
    (typed(b"", b"", b"")[:-1], 23),
    (typed(b"", b""), 23),
    (typed(), 23),
    (b"\x02" + typed(b"", b"", b"")[1:], 24),
]

LONGEST_LINE = b"X-%s: %s\n" % (b"a" * 62, b"b" * 255)


def extended(extensions: bytes, **fields) -> bytes:
    """An append of version 3 of the usual types with these extension fields."""
    return typed(b"", b"", b"", extensions=extensions, **fields)


EXTENSIONS = [
    (extended(b"X-A: b\n"), ACCEPTED),
    (extended(b"X-A: b\nX-A: : b \n"), ACCEPTED),
    (extended(LONGEST_LINE * 8), ACCEPTED),
    (extended(b"X-A: b\n" * 9), 20),
    (extended(b"X-%s: b\n" % (b"a" * 63)), 20),
    (extended(b"X-A: %s\n" % (b"b" * 256)), 20),
    (extended(b"A: b\n"), 20),
    (extended(b"x-A: b\n"), 20),
    (extended(b"X-: b\n"), 20),
    (extended(b"X-A:b\n"), 20),
    (extended(b"X-A: \n"), 20),
    (extended(b"X-A b\n"), 20),
    (extended(b"X-A:B: c\n"), 20),
    (extended(b"X-A : b\n"), 20),
    (extended(b"X-A: b"), 20),
    (extended(b"X-A: b\r\n"), 20),
    (extended(b"X-A: b\nX-C: d"), 20),
    (extended(b"X-A: \xe9\n"), 20),
    (extended(b"X-A: \t\n"), 20),
    (extended(b"X-A: b\n\n"), 20),
    (extended(b"\n"), 20),
    (extended(b"A", recipient=b"<"), 1),
    (extended(b"X-A: b\n", after=b"\0"), 24),
    (extended(b"X-A: b\n")[:-1], 23),
    (typed(b"", b"", b'"', extensions=b"A"), 17),
    (b"\x02" + extended(b"X-A: b\n")[1:], 24),
]


def described(extensions: bytes, wishes=b"\xff" * 4 + bytes(2), after=b"") -> bytes:
    """A flush of version 3 with these extension fields of its message."""
    return COUNTED + wishes + text(extensions) + after


MESSAGE_EXTENSIONS = [
    (described(b"X-A: b\n"), ACCEPTED),
    (described(b"X-A: b\nX-A: : b \n"), ACCEPTED),
    (described(LONGEST_LINE * 8), ACCEPTED),
    (described(LONGEST_LINE * 8, bytes(4) + b"\1\1"), ACCEPTED),
    (described(b"X-A: b\n" * 8), ACCEPTED),
    (described(b"X-A: b\n" * 9), 20),
    (described(b"X-%s: b\n" % (b"a" * 63)), 20),
    (described(b"X-A: %s\n" % (b"b" * 256)), 20),
    (described(b"A: b\n"), 20),
    (described(b"Reporting-MTA: b\n"), 20),
    (described(b"x-A: b\n"), 20),
    (described(b"X-A: b"), 20),
    (described(b"X-A: b\r\n"), 20),
    (described(b"X-A: b\nX-C: d"), 20),
    (described(b"X-A: b\n\n"), 20),
    (described(b"\n"), 20),
    (described(b"X-A: \xe9\n"), 20),
    (described(b"A", bytes(4) + b"\0\2"), 19),
    (described(b"A", bytes(4) + b"\3\0"), 18),
    (described(b"X-A: b\n", after=b"\0"), 24),
    (described(b"X-A: b\n")[:-1], 23),
    (BAD_ENVELOPE_ID + b"\xff" * 4 + bytes(2) + text(b"A"), 30),
    (b"\x02" + described(b"X-A: b\n")[1:], 24),
]

DELAYED = {"service": DEFER, "recipient": b"bob@example.org", "action": 2, "status": b"4.4.1"}
SPOILED = {**DELAYED, "recipient": b"<"}
MOMENTS = [
    (append(moments=[1_700_000_000, 1_700_432_000]), 10),
    (append(moments=[1_700_000_000, NONE]), ACCEPTED),
    (append(**SPOILED, moments=[LAST_MOMENT + 1, NONE]), 27),
    (append(**SPOILED, moments=[NONE, LAST_MOMENT + 1]), 27),
    (append(**SPOILED, moments=[NONE, LAST_MOMENT]), 1),
    (append(**DELAYED, moments=[LAST_MOMENT, LAST_MOMENT]), ACCEPTED),
    (append(**DELAYED, moments=[NONE, NONE - 1]), 27),
    (append(moments=[]), 23),
    (append(moments=[NONE]), 23),
    (append(moments=[NONE, NONE]), ACCEPTED),
    (append(moments=[NONE, NONE, NONE]), 24),
    (append(**{**SPOILED, "service": 4}, moments=[LAST_MOMENT + 1, NONE]), 25),
]


def changed(legal: bytes, changes: list) -> list:
    """A legal body, and the same with another byte at each of these places."""
    return [
        (legal, ACCEPTED),
        *((legal[:at] + bytes([byte]) + legal[at + 1 :], number) for at, byte, number in changes),
    ]


def cut_and_longer() -> list:
    """Legal bodies with a byte more and with a byte less, and an append cut after each byte."""
    near = [(it + b"\0", 24) for it in (APPEND, FLUSH, DISCARD)] + [(it[:-1], 23) for it in (APPEND, FLUSH, DISCARD)]
    return near + [(SHORT_APPEND[:end], 23) for end in range(1, len(SHORT_APPEND))]


def refusal(body: bytes) -> int:
    """The number that the program refuses this body with as its first request, or 0."""
    first = batch(len(body).to_bytes(4, "big") + body).notes.split(b"\n")[0].split()
    if first[0] != b"0":
        raise ValueError(first)
    return int(first[2]) if first[1] == b"refused" else ACCEPTED


def main():
    checks = Checks("refused bodies: bodies near a legal one and at the bounds of each field")
    cases = changed(APPEND, CHANGED_APPEND) + changed(FLUSH, CHANGED_FLUSH) + changed(DISCARD, CHANGED_DISCARD)
    cases += WHOLE + BOUNDS + COUNTS + TYPES + EXTENSIONS + MESSAGE_EXTENSIONS + MOMENTS + cut_and_longer()
    with ThreadPoolExecutor(os.cpu_count()) as pool:
        for (body, wanted), found in zip(cases, pool.map(refusal, [body for body, _ in cases])):
            checks.equal(f"{body[:80]!r} of {len(body)} bytes", found, wanted)
    checks.done()


if __name__ == "__main__":
    main()
