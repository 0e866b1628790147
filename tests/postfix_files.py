"""Files that Postfix wrote (tests/postfix/), read by the program probe: each log file is written again as it was, also
after a record that was cut short, which is told as damage; of each queue file the records that count come in the order
and with the bytes that Postfix's own postcat shows. A log of which the last write was cut short at any byte, and after
which another write came, has no record that wasn't written, but for one that lost the end that a record without a
reason lacks. Damaged at random, ten thousand times each (or DAMAGED), each is read to an end, without a crash."""
import os
import random
import re
import struct
import subprocess

from tests.support.running import ROOT, Checks

PROBE = os.environ.get("PROBE") or str(ROOT / "crates/probe/out/probe")
FILES = ROOT / "tests/postfix"
DAMAGED = int(os.environ.get("DAMAGED", "10000"))  # a file
UNKNOWN = b"(description unavailable)"  # what bounce(8) reads where no reason is said
ENDS = (b"action", b"diag_text", b"mta_mname")  # the fields with which a record without a reason may end
ODD_BYTES = bytes([0, 10, 32, 61, 62, 69, 77, 112, 127, 128, 255])
SERVICES = ("bounce", "defer", "trace")
CUT = ("without-words", "newer-form-without-words")  # of the messages in files/, those whose logs are cut at each byte


def read(kind: str, file: bytes) -> subprocess.CompletedProcess:
    """What the program makes of a file of this kind."""
    return subprocess.run(
        [PROBE, "postfix", kind], input=file, stdout=subprocess.PIPE, stderr=subprocess.PIPE, timeout=20
    )


# ---- logs


def without_end_spaces(log: bytes) -> bytes:
    """Spaces at a line's end don't count, and Postfix's reader drops them too."""
    return re.sub(rb" +$", b"", log, flags=re.M)


def record_of(lines: list[bytes]) -> bytes:
    """A record of these lines that say a field by its name, as the program writes it: with a line of the older form,
    and a reason."""
    said = dict(line.split(b"=", 1) for line in lines)
    more = [] if b"reason" in said else [b"reason=" + UNKNOWN]
    older = b"<" + said[b"recipient"] + b">: " + said.get(b"reason", UNKNOWN)
    return b"\n" + b"\n".join([older, *lines, *more]) + b"\n\n"


def as_written(log: bytes) -> bytes:
    """A log that Postfix wrote as the program writes it."""
    blocks = [it.strip(b"\n").split(b"\n") for it in without_end_spaces(log).split(b"\n\n") if it.strip(b"\n")]
    return b"".join(record_of([line for line in lines if not line.startswith(b"<")]) for lines in blocks)


def records_in(log: bytes) -> list[bytes]:
    """The records of a log as the program writes them."""
    return [b"\n" + it for it in re.findall(rb"(?:[^\n]+\n)+\n", log)]


def in_older_form(kind: str, record: bytes) -> bytes:
    """What the program makes of a record of which a write left its first line alone, one of the older form."""
    return read(kind, record[: record.index(b"\n", 1) + 1] + b"\n").stdout


def without_ends(record: bytes) -> set[bytes]:
    """A record in the newer form of which a write left the lines up to one with which a record without a reason may
    end."""
    lines = record.strip(b"\n").split(b"\n")[1:]
    return {
        record_of(lines[: at + 1]) for at, line in enumerate(lines) if line.startswith(tuple(it + b"=" for it in ENDS))
    }


def cut_at(kind: str, log: bytes, cut: int, after: bytes) -> set[bytes]:
    """The records that are read of a log's first bytes with another log after them, but for those of that log."""
    found = read(kind, log[:cut] + after).stdout
    assert found.endswith(after), found
    return set(records_in(re.sub(rb"^damaged at \d+\n", b"", found[: -len(after)], flags=re.M)))


def cuts(checks: Checks, name: str, kind: str, text: bytes):
    """Cuts a log at each byte; a record is read where it was written whole, or where its first line was."""
    records = records_in(text)
    written = set(records) | {in_older_form(kind, it) for it in records}
    newer = re.sub(rb"^<.*>: .*\n", b"", text, flags=re.M)
    last = records[-1]
    made_up = [cut for cut in range(len(text)) if not cut_at(kind, text, cut, last) <= written]
    checks.equal(f"{name}, cut at each byte: where a record is made up", made_up, [])
    written = set(records).union(*(without_ends(it) for it in records))
    made_up = [cut for cut in range(len(newer)) if not cut_at(kind, newer, cut, last) <= written]
    checks.equal(f"{name} without the older form, cut at each byte: where a record is made up", made_up, [])


def read_log(checks: Checks, name: str, kind: str, log: bytes, text: bytes, is_cut: bool):
    """A log is written again as it was, also after a write that was cut short."""
    checks.equal(name, read(kind, log).stdout, text)
    cut = text.index(b"\nstatus=") + 5
    checks.equal(
        f"{name} after a record that was cut short", read(kind, text[:cut] + text).stdout, b"damaged at 1\n" + text
    )
    if is_cut:
        cuts(checks, name, kind, text)


# ---- damage


def damaged(file: bytes, rand: random.Random) -> bytes:
    """A file with a few bytes changed, or cut short, or with a part of it twice, or without a part of it."""
    size, kind = len(file), rand.random()
    if kind < 0.6:
        changed = bytearray(file)
        for _ in range(1 + int(rand.random() * 4)):
            changed[int(rand.random() * size)] = (
                ODD_BYTES[int(rand.random() * 11)] if rand.random() < 0.6 else int(rand.random() * 256)
            )
        return bytes(changed)
    cut, place = int(rand.random() * size), int(rand.random() * size)
    return file[:cut] if kind < 0.75 else file[:place] + file[cut:]


def read_damaged(checks: Checks, name: str, kind: str, file: bytes, rand: random.Random):
    """Files damaged at random each get an answer: numbers; all readings of a queue file find the same ending."""
    given = b"".join(struct.pack(">I", len(it)) + it for it in (damaged(file, rand) for _ in range(DAMAGED)))
    found = subprocess.run(
        [PROBE, "postfix", "many", kind], input=given, stdout=subprocess.PIPE, stderr=subprocess.PIPE, timeout=300
    )
    line = rb"^\d+ (true|false) \d+ \1 \1 \d+ \d+$" if kind == "queue" else rb"^\d+ \d+$"
    lines = re.findall(line, found.stdout, flags=re.M)
    checks.equal(f"{name}, damaged: the status, and how many answers", (found.returncode, len(lines)), (0, DAMAGED))


def main():
    checks = Checks(
        "files of Postfix: its logs are written again as they were, its queue files read as postcat reads them"
    )
    logs = [
        (it.name, it.name.partition("-")[0], it)
        for it in sorted(FILES.iterdir())
        if re.match(r"(bounce|defer|trace)-[a-z-]+$", it.name) and not it.suffix
    ]
    rooms = [it for folder in ("files", "3.10") for it in sorted((FILES / folder).iterdir()) if it.is_dir()]
    more = [
        (f"{room.parent.name}/{room.name}, {kind}", kind, room / kind)
        for room in rooms
        for kind in SERVICES
        if (room / kind).exists()
    ]
    queues = sorted([*FILES.glob("queue-*.records"), *(room / "queue.records" for room in rooms)])
    checks.true(
        f"there are many logs and queue files: {len(logs) + len(more)}, {len(queues)}",
        len(logs) >= 5 and len(more) >= 44 and len(queues) >= 46,
    )
    for name, kind, path in logs:
        read_log(checks, name, kind, path.read_bytes(), without_end_spaces(path.read_bytes()), True)
    for name, kind, path in more:
        read_log(checks, name, kind, path.read_bytes(), as_written(path.read_bytes()), path.parent.name in CUT)
    for records in queues:
        checks.equal(
            f"{records.parent.name}/{records.stem}",
            read("queue", records.with_suffix("").read_bytes()).stdout,
            records.read_bytes(),
        )
    rand = random.Random(7)
    for name, kind, path in [*logs, *more]:
        read_damaged(checks, name, kind, path.read_bytes(), rand)
    for records in queues:
        path = records.with_suffix("")
        read_damaged(checks, f"{path.parent.name}/{path.name}", "queue", path.read_bytes(), rand)
    checks.done()


if __name__ == "__main__":
    main()
