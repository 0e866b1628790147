"""Random sessions for the fuzzers: requests that are mostly legal over a few keys, texts at and beyond their bounds,
several faults in one body, bytes changed, frames cut. Everything follows from a `random.Random` that is handed in."""
import random

from tests.support.formats.bodies import (
    ACTIONS,
    ANY_COUNT,
    APPEND,
    CLASSES,
    DISCARD,
    FLUSH,
    FORGET,
    LAST_MOMENT,
    LONGEST_HEADER,
    LONGEST_TEXT,
    NO_MOMENT,
)

VISIBLE = bytes(range(33, 127))
ADDRESS_BYTES = VISIBLE.replace(b"<", b"").replace(b">", b"")
ATOM_BYTES = b"!#$%&'*+-/0123456789=?ABCXYZ^_`abcxyz{|}~"
LETTERS_AND_DIGITS = b"0123456789ABCDEFGHIJKLMNOPQRSTUVWXYZabcdefghijklmnopqrstuvwxyz"
KEYS = [b"K", b"K1", b"K10", b"K2", b"k1", b"A1B2C3", b"Z" * 31, b"Z" * 32]
STRANGE = [b"", b"<", b">", b"a b", b"\t", b"\x7f", b"\xe9", b"\0", b"\r\n", b"x@y\n"]
MOMENTS = [
    0,
    1,
    86_399,
    86_400,
    951_782_400,
    951_868_800,
    1_700_000_000,
    1_700_000_001,
    4_107_542_399,
    4_107_542_400,
    LAST_MOMENT,
]
BAD_MOMENTS = [LAST_MOMENT + 1, 2**32 + LAST_MOMENT + 1, 2**63, NO_MOMENT - 1, NO_MOMENT]
STATUSES = [b"5.1.1", b"4.4.7", b"2.0.0", b"5.0.0", b"4.0.0", b"5.999.999", b"4.10.100", b"2.1.5"]
BAD_STATUSES = [
    b"", b"5", b"5.1", b"5.1.", b"5.01.1", b"5.1.01", b"5.1000.1", b"5.1.1000", b"3.0.0", b"1.1.1", b"6.1.1",
    b"5.1.1 ", b" 5.1.1", b"5.1.1.1", b"5..1", b"5,1,1", b"5.-1.1", b"55.1.1", b"5.1.1\n", b"5.00.0", b"5.a.1",
]  # fmt: skip
FAULTY = 0.04  # how often a field is made illegal
STEM = b"--%s.%s.%d."


class Hostile:
    """Makes the frames of one session."""

    def __init__(self, dice: random.Random):
        self.dice = dice
        self.keys = [(dice.choice([1, 2, 3]), it) for it in dice.sample(KEYS, dice.randint(1, 4))]
        self.faulty = dice.choice([0, 0, FAULTY, FAULTY, 0.3])

    def chance(self, share: float) -> bool:
        """Whether something that happens so often happens now."""
        return self.dice.random() < share

    def size(self, longest: int) -> int:
        """A text's length, often at a bound."""
        return (
            self.dice.choice([1, 2, longest, longest - 1, longest + 1, self.dice.randint(1, 30)])
            if self.chance(0.1)
            else self.dice.randint(1, 12)
        )

    def bytes_of(self, alphabet: bytes, size: int) -> bytes:
        """So many bytes of an alphabet."""
        return bytes(self.dice.choices(alphabet, k=size))

    def text(self, alphabet: bytes, longest: int, missing: float = 0.5) -> bytes:
        """A text that may be missing, of these bytes, seldom a strange or a long one."""
        if self.chance(self.faulty):
            return self.dice.choice([*STRANGE, self.bytes_of(alphabet, longest + 1), self.bytes_of(alphabet, 3) + b" "])
        return b"" if self.chance(missing) else self.bytes_of(alphabet, self.size(longest))

    def moment(self) -> int:
        """A moment, seldom one that has no date."""
        return (
            self.dice.choice(BAD_MOMENTS)
            if self.chance(self.faulty)
            else self.dice.choice([*MOMENTS, self.dice.randint(0, LAST_MOMENT)])
        )

    def body(self, number: int) -> bytes:
        """A request's body."""
        version = self.dice.choices([1, 2, 3], [5, 3, 3])[0]
        kind = self.dice.choices(
            [APPEND, FLUSH, DISCARD, FORGET], [12, 6 if version == 3 else 3, 1, 0 if version == 1 else 3]
        )[0]
        service, queue_id = self.dice.choice(self.keys)
        layout = {APPEND: self.append, FLUSH: self.flush}.get(kind, lambda *_: b"")(version, service, queue_id)
        if self.chance(self.faulty):
            version, kind = self.dice.choice(
                [
                    (0, kind),
                    (3, kind),
                    (4, kind),
                    (version, 0),
                    (version, 5),
                    (1, FORGET),
                    (255, 255),
                    (version, self.dice.randint(1, 4)),
                ]
            )
        if self.chance(self.faulty):
            service = self.dice.choice([0, 4, 66, 255])
        if self.chance(self.faulty):
            queue_id = self.dice.choice([b"", b"K-", b"K 1", b"\xc3\xa9", b"K1\n", b"Z" * 33, b"a" * 300])
        return bytes([version, kind]) + number.to_bytes(4, "big") + bytes([service]) + text(queue_id) + layout

    def append(self, version: int, service: int, _queue_id: bytes) -> bytes:
        """What an append has after its key."""
        action = self.dice.choice(ACTIONS[service])
        status = self.dice.choice([it for it in STATUSES if it[0] in CLASSES[action]])
        if self.chance(self.faulty):
            action = self.dice.choice([0, 1, 2, 3, 4, 5, 6, 255])
        if self.chance(self.faulty):
            status = self.dice.choice(BAD_STATUSES + STATUSES)
        texts = [self.text(ADDRESS_BYTES, 256), self.text(ADDRESS_BYTES, 256, 0)]
        body = b"".join(text(it) for it in texts) + bytes([action]) + text(status) + text(self.text(VISIBLE, 255))
        diagnostic = self.spoken()
        body += text(diagnostic) + text(self.spoken())
        body += self.last_date() + self.last_date(action) if version > 1 else b""
        return body + (self.types(texts[0], diagnostic) + text(self.extensions()) if version > 2 else b"")

    def types(self, original: bytes, diagnostic: bytes) -> bytes:
        """The types of a recipient, of the original one and of a diagnostic; rarely one of a missing field."""
        there = [True, bool(original), bool(diagnostic)]
        return b"".join(text(self.text(ATOM_BYTES, 32, 0.6) if it or self.chance(self.faulty) else b"") for it in there)

    def extensions(self) -> bytes:
        """Extension fields: mostly none or a few, seldom as many or as long as may be, or lines that are none."""
        if self.chance(0.5):
            return b""
        count = self.dice.choice([1, 1, 2, 3, 8, 9 if self.chance(self.faulty) else 7])
        lines = [
            b"X-%s: %s\n"
            % (
                self.bytes_of(ATOM_BYTES, self.size(62) % 63 or 1),
                self.bytes_of(bytes(range(32, 127)), self.size(255) % 256 or 1),
            )
            for _ in range(count)
        ]
        if self.chance(self.faulty):
            lines[self.dice.randrange(count)] = self.dice.choice(
                [
                    b"A: b\n",
                    b"x-A: b\n",
                    b"X-: b\n",
                    b"X-A:b\n",
                    b"X-A: \n",
                    b"X-A b\n",
                    b"X-A:B: c\n",
                    b"X-A : b\n",
                    b"X-A: b",
                    b"X-A: b\r\n",
                    b"X-A: \xe9\n",
                    b"X-A: \t\n",
                    b"\n",
                    b"",
                    b"X-%s: b\n" % (b"a" * 63),
                    b"X-A: %s\n" % (b"b" * 256),
                ]
            )
        return b"".join(lines)

    def spoken(self) -> bytes:
        """A diagnostic or a reason: any bytes."""
        if self.chance(self.faulty):
            return b"x" * (LONGEST_TEXT + 1)
        return (
            b""
            if self.chance(0.5)
            else self.bytes_of(b"550 no such user\t\r\n.\x7f\x80\xff-~ ?", self.size(LONGEST_TEXT) % (LONGEST_TEXT + 1))
        )

    def last_date(self, action: int = 2) -> bytes:
        """A date that an append may have; one that only a delayed recipient has, seldom with another."""
        absent = 0.5 if action == 2 else 1 - self.faulty
        return (NO_MOMENT if self.chance(absent) else self.moment()).to_bytes(8, "big")

    def count(self) -> int:
        """How many outcomes a flush expects: often a number that a log may have, or any."""
        return self.dice.choice([ANY_COUNT, ANY_COUNT - 1, 1000, 256, 0, 1, 1, 2, 2, 3, 4, self.dice.randint(0, 12)])

    def wishes(self) -> bytes:
        """The other fields of a flush of version 3: a count, two bytes that are mostly 0 or 1, and extension fields."""
        returned = self.dice.choice([3, 4, 255] if self.chance(self.faulty) else [0, 1, 1, 2, 2])
        wording = self.dice.choice([2, 3, 255] if self.chance(self.faulty) else [0, 1, 1])
        return self.count().to_bytes(4, "big") + bytes([returned, wording]) + text(self.extensions())

    def flush(self, version: int, service: int, queue_id: bytes) -> bytes:
        """What a flush has after its key."""
        moment, arrival = self.moment(), self.moment()
        wishes = self.wishes() if version == 3 else b""
        stem = STEM % (b"?BDT"[service : service + 1], queue_id, moment)
        header = self.returned(stem, wishes[4:5]) if self.chance(0.5) else b""
        envelope = self.text(bytes(range(32, 127)), 100)
        texts = text(self.text(ADDRESS_BYTES, 256, 0.1)) + text(envelope) + text(header)
        return moment.to_bytes(8, "big") + arrival.to_bytes(8, "big") + texts + wishes

    def returned(self, stem: bytes, kind: bytes) -> bytes:
        """A message's header, or a message that may be returned in a 7bit mail or in an 8bit one."""
        high = {b"\1": b"", b"\2": b"\x80\xe9\xff"}.get(kind)
        return self.header(stem) if high is None else self.message(stem, high if self.chance(0.8) else b"")

    def message(self, stem: bytes, high: bytes) -> bytes:
        """A message: mostly lines that a mail has unchanged, with escapes, empty ones and these bytes; rarely others."""
        if self.chance(0.2):
            return self.header(stem)
        lines = []
        for at in range(self.dice.randint(0, 12)):
            begin = self.dice.choice(
                [b"", b".", b"..", b"--", stem + b"%04d" % self.dice.choice([0, at, at // 2]), b"\t", b"Subject: "]
            )
            size = self.dice.choice([997, 998, 999] if self.chance(0.03) else [0, 0, 1, 5, 40])
            lines.append(
                (begin + self.bytes_of(b"abc xyz.-\t\x1b\x7f\x01" + high, size))[: max(size, 40)]
                + self.dice.choice([b"\n", b"\n", b"\r\n"])
            )
        return b"".join(lines)

    def header(self, stem: bytes) -> bytes:
        """A message's header: lines that begin with dots or dashes, are long, exclude boundaries, or end otherwise."""
        lines = []
        for at in range(self.dice.randint(0, 12)):
            begin = self.dice.choice(
                [
                    b"",
                    b".",
                    b"..",
                    b"--",
                    b"-",
                    stem + b"%04d" % self.dice.choice([0, at, at // 2, 9999]),
                    stem,
                    b" ",
                    b"\t",
                    b"Subject: ",
                ]
            )
            rest = self.bytes_of(
                b"abc xyz.-\t\x80\xff\0\r",
                self.dice.choice([0, 1, 5, 40, 990, 998, 999] if self.chance(0.05) else [0, 1, 5, 40]),
            )
            lines.append(
                begin
                + rest
                + self.dice.choice([b"\n", b"\n", b"\r\n", b"\r\n", b"\r", b"\n\n" if self.chance(0.1) else b"\n"])
            )
        header = b"".join(lines)
        if self.chance(0.1):
            header = header.rstrip(b"\r\n")
        if self.chance(self.faulty / 4):
            header = (header or b"x\n") * (LONGEST_HEADER // (len(header) or 2) + 1)
            header = header[: LONGEST_HEADER + self.dice.choice([-1, 0, 1])]
        return header

    def changed(self, body: bytes) -> bytes:
        """A body with a byte changed, added or taken away, or cut."""
        at = self.dice.randrange(len(body))
        some = bytes([self.dice.randrange(256)])
        return self.dice.choice(
            [
                body[:at] + some + body[at + 1 :],
                body[:at] + some + body[at:],
                body[:at] + body[at + 1 :],
                body[:at],
                body + some,
            ]
        )

    def frames(self) -> list:
        """The frames of a session."""
        made = []
        for number in range(self.dice.choice([1, 2, 3, 5, 8, 13, 30])):
            body = self.body(
                number
                if not self.chance(self.faulty / 4)
                else self.dice.choice([number + 1, number ^ 1 << self.dice.randrange(32), 2**32 - 1])
            )
            if self.chance(self.faulty):
                body = self.changed(body) or b"\0"
            size = (
                len(body)
                if not self.chance(self.faulty / 10)
                else self.dice.choice([0, 65_536, 65_537, 2**32 - 1, len(body) + 1])
            )
            made.append(size.to_bytes(4, "big") + body)
        return made

    def session(self) -> bytes:
        """The bytes of a session, seldom cut or changed as a whole."""
        given = b"".join(self.frames())
        if self.chance(0.05):
            given = given[: self.dice.randrange(len(given) + 1)]
        if self.chance(0.05) and given:
            given = self.changed(given)
        return given


def text(value: bytes) -> bytes:
    """A text on the wire."""
    return len(value).to_bytes(2, "big") + value
