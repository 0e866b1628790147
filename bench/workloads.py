"""The workloads of `make bench`: request streams made from a seed, so that each run measures the same bytes."""
import random
from dataclasses import dataclass

from tests.support.daemon_and_clients import flush, frames

SEED = 20231114
BOUNCE, FAILED = 1, 1
LETTERS = "ABCDEFGHIJKLMNOPQRSTUVWXYZabcdefghijklmnopqrstuvwxyz0123456789"
LOGS, ENTRIES, FRAMES = 4096, 1000, 1_000_000  # the limits of `noticed batch`
MESSAGES = 4000
HEADER = 32_768  # the longest returned header, in bytes


@dataclass
class Workload:
    """A stream of frames, what its items are called, how many it has, and the most user instructions for one."""

    name: str
    item: str
    items: int
    limit: int
    stream: bytes
    frames: int


class Stream:
    """Frames numbered from 0, one after another."""

    def __init__(self):
        self.parts = []

    def append(self, queue_id: bytes, recipient: bytes, **texts):
        """An outcome: a failure with the status 5.1.1."""
        self.parts.append(frames.append(len(self.parts), BOUNCE, queue_id, recipient, FAILED, b"5.1.1", **texts))

    def flush(self, queue_id: bytes, **texts):
        """A flush, with the moments and the return path of the stored examples unless said."""
        self.parts.append(flush(len(self.parts), queue_id, **texts))

    def discard(self, queue_id: bytes):
        """A discard."""
        self.parts.append(frames.discard(len(self.parts), BOUNCE, queue_id))

    def broken(self):
        """A body whose status no table has."""
        self.parts.append(
            frames.append(len(self.parts), BOUNCE, b"REFUSED", b"somebody.else@mail.example.org", FAILED, b"5.01.1")
        )

    def bytes(self) -> bytes:
        """All of them."""
        return b"".join(self.parts)


def long_id(number: int) -> bytes:
    """A queue id of twelve characters."""
    return b"4XdK%08d" % number


def short_id(number: int) -> bytes:
    """A queue id of two characters."""
    return (LETTERS[number // len(LETTERS)] + LETTERS[number % len(LETTERS)]).encode()


def words(source: random.Random, least: int, most: int) -> bytes:
    """A text of words, so long."""
    text = b""
    while len(text) < most:
        text += b"".join(source.choice(LETTERS).lower().encode() for _ in range(source.randint(2, 9))) + b" "
    return text[: source.randint(least, most)].strip().ljust(least, b".")


def texts_of(source: random.Random) -> dict:
    """The optional texts of an outcome: a diagnostic of 64 to 96 bytes, a reason of 40 to 80, and names."""
    return {
        "original": b"alias%05d.of.a.list@example.org" % source.randrange(100_000),
        "mta": b"mx%03d.mail.example.org" % source.randrange(1000),
        "diagnostic": words(source, 64, 96),
        "reason": words(source, 40, 80),
    }


def header_of(source: random.Random, size: int) -> bytes:
    """A returned header of so many bytes, in lines of some 60."""
    lines = b""
    while len(lines) < size:
        lines += b"X-Field-%03d: " % source.randrange(1000) + words(source, 30, 60) + b"\n"
    return lines[: size - 1] + b"\n"


def short_messages() -> Workload:
    """Messages of one outcome without optional texts, each flushed."""
    stream = Stream()
    for number in range(MESSAGES):
        stream.append(long_id(number), b"user%05d@example.org" % number)
        stream.flush(long_id(number), return_path=b"sender%05d@example.com" % number)
    return Workload("short messages", "message", MESSAGES, 7_300, stream.bytes(), len(stream.parts))


def scattered_messages() -> Workload:
    """The same messages with their keys in any order, all appends before the first flush."""
    source, stream = random.Random(SEED), Stream()
    order = list(range(MESSAGES))
    source.shuffle(order)
    for number in order:
        stream.append(long_id(number), b"user%05d@example.org" % number)
    for number in order:
        stream.flush(long_id(number), return_path=b"sender%05d@example.com" % number)
    return Workload("scattered messages", "message", MESSAGES, 8_400, stream.bytes(), len(stream.parts))


def long_messages() -> Workload:
    """Messages of ten outcomes with all texts and a header of 2 KiB, each flushed."""
    source, stream = random.Random(SEED), Stream()
    for number in range(MESSAGES):
        for at in range(10):
            stream.append(long_id(number), b"user%02d-%05d@example.org" % (at, number), **texts_of(source))
        stream.flush(
            long_id(number),
            return_path=b"sender%05d@example.com" % number,
            envelope=b"envelope-%024d" % number,
            header=header_of(source, 2048),
        )
    return Workload("long messages", "message", MESSAGES, 54_500, stream.bytes(), len(stream.parts))


def full_logs() -> Workload:
    """Four logs of a thousand outcomes with all texts."""
    source, stream = random.Random(SEED), Stream()
    for number in range(4):
        for at in range(ENTRIES):
            stream.append(long_id(number), b"user%04d@example.org" % at, **texts_of(source))
        stream.flush(long_id(number))
    return Workload("full logs", "outcome", 4 * ENTRIES, 3_720, stream.bytes(), len(stream.parts))


def full_table() -> Workload:
    """A million frames on a table with every key in use: 45 of 100 are appends to open logs, 25 are for closed
    ones, 5 find the table full, 5 a log full, and 20 are refused."""
    source, stream = random.Random(SEED), Stream()
    order = list(range(LOGS))
    source.shuffle(order)
    full, open_ids, closed = order[:8], order[8 : LOGS // 2], order[LOGS // 2 :]
    for number in order:
        stream.append(long_id(number), b"somebody.else@mail.example.org")
    for number in closed:
        stream.discard(long_id(number))
    for number in full:
        for _ in range(ENTRIES - 1):
            stream.append(long_id(number), b"somebody.else@mail.example.org")
    while len(stream.parts) < FRAMES:
        kind = source.randrange(100)
        if kind < 45:
            stream.append(long_id(source.choice(open_ids)), b"somebody.else@mail.example.org")
        elif kind < 70:
            stream.append(long_id(source.choice(closed)), b"somebody.else@mail.example.org")
        elif kind < 75:
            stream.append(long_id(source.randrange(LOGS, 100 * LOGS)), b"somebody.else@mail.example.org")
        elif kind < 80:
            stream.append(long_id(source.choice(full)), b"somebody.else@mail.example.org")
        else:
            stream.broken()
    return Workload("full table", "frame", FRAMES, 2_160, stream.bytes(), len(stream.parts))


def touched_table() -> Workload:
    """Every key flushed empty, and then asked for again in any order, a million frames in all."""
    source, stream = random.Random(SEED), Stream()
    for number in range(LOGS):
        stream.flush(long_id(number))
    while len(stream.parts) < FRAMES:
        stream.discard(long_id(source.randrange(LOGS)))
    return Workload("touched table", "frame", FRAMES, 1_150, stream.bytes(), len(stream.parts))


def new_keys(name: str, limit: int, order) -> Workload:
    """Every key discarded once, in this order."""
    stream = Stream()
    for number in order:
        stream.discard(long_id(number))
    return Workload(name, "key", LOGS, limit, stream.bytes(), len(stream.parts))


def headers(name: str, limit: int, header_for) -> Workload:
    """Five hundred messages of one outcome with the longest header, made for each queue id."""
    stream = Stream()
    for number in range(500):
        stream.append(short_id(number), b"somebody.else@mail.example.org")
        stream.flush(short_id(number), moment=0, arrival=0, header=header_for(short_id(number)))
    return Workload(name, "header", 500, limit, stream.bytes(), len(stream.parts))


def ruled_out(queue_id: bytes) -> bytes:
    """Delimiters of the numbers 2339 to 0, highest first."""
    return b"".join(b"--B.%s.0.%04d\n" % (queue_id, number) for number in reversed(range(2340)))


def all_workloads():
    """Each workload, made when its turn comes."""
    yield short_messages()
    yield scattered_messages()
    yield long_messages()
    yield full_logs()
    yield full_table()
    yield touched_table()
    yield new_keys("ascending keys", 1_275, range(LOGS))
    yield new_keys("descending keys", 1_305, reversed(range(LOGS)))
    yield headers("headers of delimiters", 1_050_000, ruled_out)
    yield headers("headers of dots", 2_000_000, lambda _: b".\n" * (HEADER // 2))
