"""A ledger over a real file (the program probe), beside a plain reading of noticed-journal(5): what is
answered and what the file has; a file without room, whose journal is put away for a shorter one; and by a small library
that is preloaded (tests/support/crash.c, compiled here with gcc) each call on the file failing in turn, and the machine
stopping within each in turn, where all, some or none of what wasn't synced is kept. Whatever is found then is the asked
requests in their order, up to one that stands after each answered one and within the group that was being kept, and the
ledger that is opened goes on from there."""
import os
import random
import subprocess
import tempfile
from dataclasses import dataclass, field
from pathlib import Path

from tests.support.daemon_and_clients import flush
from tests.support.formats import bodies, journal, sessions
from tests.support.formats.logs import Limits
from tests.support.preloading import built, preloading
from tests.support.running import ROOT, Checks
from vectors import frames

PROBE = os.environ.get("PROBE") or str(ROOT / "crates/probe/out/probe")
PATIENCE = 60  # seconds that a run may take
SIZE = 2_048  # bytes of a file: room for all that is asked here
SMALL = 700  # bytes of a file that is full after a few requests, and has room for all logs that may be open
GROUP = 3
STOPPED = 77  # the status of a run whose machine stopped
EIO, ENOSPC = 5, 28
LIMITS = Limits(logs=3, entries=3, requests=100)
KEYS = [(1, b"K1"), (1, b"K2"), (2, b"K3"), (3, b"K4")]
VALUES = {1: (1, b"5.1.1"), 2: (2, b"4.4.1"), 3: (3, b"2.0.0")}  # an action and a status of each service


def frame(number: int, asked: tuple) -> bytes:
    """The frame of a request: its kind and its key."""
    kind, (service, queue_id) = asked
    if kind == "append":
        return frames.append(number, service, queue_id, b"bob@example.org", *VALUES[service])
    if kind == "flush":
        return flush(number, queue_id, service)
    return {"discard": frames.discard, "forget": frames.forget}[kind](number, service, queue_id)


def record(asked: tuple) -> bytes:
    """The record of what is asked."""
    return journal.summed(frame(0, asked)[4:])


def request(asked: tuple) -> bodies.Request:
    """The request, as a record keeps it."""
    return bodies.decoded(frame(0, asked)[4:])


def any_requests(seed: int, count: int) -> list:
    """So many requests."""
    dice = random.Random(seed)
    return [(dice.choice(["append"] * 5 + ["flush", "discard", "forget"]), dice.choice(KEYS)) for _ in range(count)]


@dataclass
class Ran:
    """What a run showed: its lines, the answers' frames, and its status."""

    lines: list = field(default_factory=list)
    answers: list = field(default_factory=list)
    status: int = 0


def keep(
    path: Path, asked: list, size: int = SIZE, group: int = GROUP, limits: Limits = LIMITS, environment=None, mark=None
) -> Ran:
    """Runs a ledger over a file, under the given mark or that which counts what was posted when it was made."""
    given = b"".join(frame(number, it) for number, it in enumerate(asked))
    if mark is None:
        mark = journal.base_of(path.read_bytes()) & 0xFFFFFFFF if path.exists() else 0
    words = [path, size, limits.logs, limits.entries, limits.requests, group, mark]
    ended = subprocess.run(
        [PROBE, "journal", *map(str, words)],
        input=given,
        capture_output=True,
        timeout=PATIENCE,
        check=False,
        env=environment,
    )
    ran, rest = Ran(status=ended.returncode), ended.stdout
    if ended.stderr:
        raise RuntimeError(ended.stderr)
    while rest:
        if rest.startswith(b"\0\0\0\x0a"):
            ran.answers.append(rest[:14])
            rest = rest[14:]
        else:
            line, _, rest = rest.partition(b"\n")
            ran.lines.append(line)
    return ran


def wanted(kept: list, asked: list) -> list:
    """The answers to what is asked, where this is kept already."""
    logs = journal.replayed([request(it) for it in kept], LIMITS)
    return [sessions.answer(number, *logs.apply(request(it))[:2]) for number, it in enumerate(asked)]


def found(path: Path) -> list:
    """The requests that a file keeps; none where there is no file."""
    return journal.requests(path.read_bytes()) if path.exists() else []


def state(kept: list, base: int = 0) -> tuple:
    """What these requests lead to: the held keys with their logs, and how many letters were sealed in all."""
    logs = journal.replayed(kept, LIMITS)
    return logs.held, base + logs.sealed


def state_found(path: Path) -> tuple:
    """What a file's records lead to."""
    return state(found(path), journal.base_of(path.read_bytes())) if path.exists() else state([])


def check_answers(checks: Checks, room: Path):
    """Runs one after another over one file: the answers, and what the file has."""
    for group in (1, 2, 5, 16):
        path, kept = room / f"plain-{group}", []
        for seed in range(4):
            asked = any_requests(100 * group + seed, 5)
            ran = keep(path, asked, group=group)
            checks.equal(f"groups of {group}, run {seed}: answers", ran.answers, wanted(kept, asked))
            checks.equal(f"groups of {group}, run {seed}: status", ran.status, 0)
            kept += asked
            checks.equal(f"groups of {group}, run {seed}: kept", found(path), [request(it) for it in kept])
            file = path.read_bytes()
            checks.equal(f"groups of {group}, run {seed}: the file", file, journal.at_rest(journal.records(file), SIZE))
            checks.equal(f"groups of {group}, run {seed}: the header", journal.records(file)[0], journal.header(LIMITS))
        checks.true(f"groups of {group}: no file beside it", not Path(f"{path}.new").exists())


def check_full(checks: Checks, room: Path):
    """A file in which two groups have room, and then no group of two, also once it is put away for a shorter one, since
    nothing in it is of no use any more: one request alone has. And one without room for a header."""
    first, second = ("append", KEYS[0]), ("append", KEYS[1])
    asked, path = [first] * 3 + [second] * 3, room / "full"
    keep(path, [first], size=SIZE, group=1)
    header, each = map(journal.spelled, journal.records(path.read_bytes()))
    path.unlink()
    size = len(header) + 5 * len(each)
    checks.equal("full: answers", keep(path, asked, size=size, group=2).answers, wanted([], asked)[:4])
    before = path.read_bytes()
    ran = keep(path, [second] * 4, size=size, group=2)
    checks.equal("full: each group is refused", (ran.lines[1:], ran.answers, ran.status), ([b"full"] * 2, [], 0))
    checks.equal("full: nothing else is there", path.read_bytes(), before)
    ran = keep(path, [second], size=size, group=1)
    checks.equal("full: one has room", (ran.answers, ran.lines[1:]), (wanted(asked[:4], [second]), []))
    checks.equal("full: to the last byte", path.read_bytes(), header + each * 3 + journal.spelled(record(second)) * 2)
    for size, line in (
        (len(header) - 1, b"not opened: the journal is full"),
        (len(header), b"opened %d" % len(header)),
    ):
        path = room / f"small-{size}"
        checks.equal(f"a file of {size} bytes", keep(path, [], size=size).lines, [line])
        checks.equal(f"a file of {size} bytes, then", path.read_bytes(), header if size == len(header) else bytes(size))


def check_opening(checks: Checks, room: Path):
    """What isn't opened."""
    damaged, other = (
        b"a record of the journal is damaged",
        b"the journal is of another version, or was kept under other limits",
    )
    foreign, header = b"the file isn't a journal's", journal.header(LIMITS)
    for about, kept, why in (
        ("a record that keeps no body", [header, journal.summed(b"A")], damaged),
        ("a record without a check sum", [header, record(("discard", KEYS[0]))[:-4]], damaged),
        ("a record with another byte", [header, b"\3" + record(("discard", KEYS[0]))[1:]], damaged),
        ("a record that is empty", [header, b""], damaged),
        ("a header among the records", [header, header], damaged),
        ("no header", [b"A"], other),
        ("no header before a request", [record(("discard", KEYS[0]))], other),
        ("an empty record as a header", [b""], other),
        ("a header with a byte more", [journal.summed(header[:-4] + b"\0")], other),
        ("a header with a byte less", [journal.summed(header[:-5])], other),
        ("a header of version 1", [b"J\1" + header[2:-4]], other),
        ("a header with another byte", [header[:2] + b"\1" + header[3:]], other),
        ("a header of another version", [journal.summed(b"J\3" + header[2:-4])], other),
        ("a base of 2^63", [journal.header(LIMITS, 1 << 63)], other),
        ("other limits of logs", [journal.header(Limits(4, 3, 100))], other),
        ("other limits of entries", [journal.header(Limits(3, 4, 100))], other),
        ("other limits of requests", [journal.header(Limits(3, 3, 101))], other),
    ):
        path, file = room / "refused", journal.at_rest(kept, SIZE)
        path.write_bytes(file)
        ran = keep(path, [])
        checks.equal(about, (ran.lines, ran.status), ([b"not opened: " + why], 1))
        checks.equal(f"{about}: the file stays", path.read_bytes(), file)
    begun, of_others = journal.at_rest([header], SIZE), journal.at_rest([journal.header(Limits(4, 3, 100))], SIZE)
    end = begun.index(b"\2\0")
    for about, file in (
        ("a file of text", b"A file of text, and no journal.\n".ljust(SIZE, b"\0")),
        ("a file of text without an end", b"A" * SIZE),
        ("one byte among zeros", bytes(SIZE - 1) + b"A"),
        (
            "a journal whose first byte was lost",
            b"\0" + journal.at_rest([header, record(("discard", KEYS[0]))], SIZE)[1:],
        ),
        ("a header of other limits in part", of_others[: end - 1].ljust(SIZE, b"\0")),
        ("a header and a byte after its part", begun[: end - 1] + bytes(9) + b"\2" + bytes(SIZE - end - 9)),
    ):
        path.write_bytes(file)
        ran = keep(path, [])
        checks.equal(about, (ran.lines, ran.status), ([b"not opened: " + foreign], 1))
        checks.equal(f"{about}: the file stays", path.read_bytes(), file)
    for about, file in (
        ("a header in part", begun[: end - 1].ljust(SIZE, b"\0")),
        ("a header with a hole", b"\0" + begun[1:5] + b"\0" + begun[6:]),
    ):
        path.write_bytes(file)
        checks.equal(about, (keep(path, []).status, path.read_bytes()), (0, begun))
    two = journal.header(LIMITS, 2)
    for mark, why in (
        (1, b"the mark counts fewer letters than the journal's base"),
        (3, b"the mark counts more letters than the journal sealed"),
    ):
        path.write_bytes(journal.at_rest([two], SIZE))
        ran = keep(path, [], mark=mark)
        checks.equal(
            f"a mark of {mark} over a base of 2",
            (ran.lines, ran.status, path.read_bytes()),
            ([b"not opened: " + why], 1, journal.at_rest([two], SIZE)),
        )
    ran = keep(room / "none", [], size=0)
    checks.true("a file that isn't there", (len(ran.lines), ran.lines[0][:8], ran.status) == (1, b"no file:", 1))


def check_shorter(checks: Checks, room: Path):
    """A file that is too small for all that is asked, and large enough for what is held: it is put away for a shorter
    one as often as it is full. The answers are as if it never had been, and each run finds all."""
    path, kept, shortened = room / "shorter", [], 0
    for seed in range(30):
        asked = any_requests(300 + seed, 7)
        before = path.read_bytes() if path.exists() else b""
        ran = keep(path, asked, size=SMALL)
        checks.equal(
            f"shorter, run {seed}: answers", (ran.answers, ran.lines[1:], ran.status), (wanted(kept, asked), [], 0)
        )
        kept += asked
        checks.equal(f"shorter, run {seed}: what is found", state_found(path), state([request(it) for it in kept]))
        file = path.read_bytes()
        checks.equal(f"shorter, run {seed}: the file", file, journal.at_rest(journal.records(file), SMALL))
        shortened += not journal.records(file)[: len(journal.records(before))] == journal.records(before)
    checks.true(f"shorter: put away {shortened} times", shortened > 5)
    checks.true("shorter: no file beside it", not Path(f"{path}.next").exists())


def check_left_over(checks: Checks, room: Path):
    """A crash may leave the journal a second name beside it, of when it was made, or any file where the next one is
    made: neither is in the way, and the journal stays whole."""
    path, asked = room / "left-over", any_requests(500, 24)
    for name in ("new", "next"):
        path.unlink(missing_ok=True)
        keep(path, asked[:3], size=SMALL)
        os.link(path, f"{path}.{name}")
        ran = keep(path, asked[3:], size=SMALL)
        checks.equal(f"a second name .{name}: answers", (ran.answers, ran.status), (wanted(asked[:3], asked[3:]), 0))
        checks.equal(f"a second name .{name}: what is found", state_found(path), state([request(it) for it in asked]))
        Path(f"{path}.{name}").unlink(missing_ok=True)
        Path(f"{path}.{name}").write_bytes(b"left")
        ran = keep(path, asked, size=SMALL)
        checks.equal(f"a file .{name} left over: answers", (ran.answers, ran.status), (wanted(asked, asked), 0))


def count_found(path: Path, asked: list, least: int) -> int:
    """How many of the requests, so many or a group more, lead to what a file has; -1 where it has something else."""
    has = state_found(path)
    counts = range(least, min(least + GROUP, len(asked)) + 1)
    return next((it for it in counts if state([request(it) for it in asked[:it]]) == has), -1)


def check_shorter_stops(checks: Checks, room: Path, library: Path):
    """In a run whose journal is compacted, the machine stops within each call in turn, or the call fails."""
    path, stops = room / "shorter-stopping", 0
    for seed in range(2):
        asked = any_requests(400 + seed, 24)
        for how in ({"KEEP": "none"}, {"KEEP": "all"}, {"KEEP": "first"}, {"KEEP": 1}, {"KEEP": 2}, {"FAIL_WITH": EIO}):
            number, ran = 0, Ran(status=STOPPED)
            while ran.status and number < 100:
                number += 1
                ran = disturbed(
                    library, path, asked, size=SMALL, **{"FAIL_AT" if "FAIL_WITH" in how else "CRASH_AT": number}, **how
                )
                about = f"shorter, requests {seed}, call {number} with {how}"
                count = count_found(path, asked, len(ran.answers))
                checks.true(f"{about}: {len(ran.answers)} answered, found {state_found(path)}", count >= 0)
                more = asked[max(count, 0) :]
                checks.equal(
                    f"{about}: goes on", keep(path, more, size=SMALL).answers, wanted(asked[: max(count, 0)], more)
                )
            checks.equal(
                f"shorter, requests {seed}, {how}: the last run is whole",
                (ran.status, len(ran.answers)),
                (0, len(asked)),
            )
            stops += number - 1
    print(f"  {stops} stops and failures of runs whose journal is put away for shorter ones")


def check_found(checks: Checks, about: str, path: Path, asked: list, ran: Ran) -> int:
    """What a run that ended badly left: a prefix of the requests, all answered ones in it, at most one group more."""
    left = found(path)
    checks.equal(f"{about}: what is found", left, [request(it) for it in asked[: len(left)]])
    checks.true(
        f"{about}: answered {len(ran.answers)}, found {len(left)}",
        len(ran.answers) <= len(left) <= len(ran.answers) + GROUP,
    )
    checks.equal(f"{about}: answers", ran.answers, wanted([], asked)[: len(ran.answers)])
    return len(left)


def check_goes_on(checks: Checks, about: str, path: Path, asked: list, count: int):
    """A run that goes on where so many of the requests are kept."""
    more = asked[count:] + [("discard", key) for key in KEYS]
    ran = keep(path, more)
    checks.equal(f"{about}: goes on", (ran.answers, ran.status), (wanted(asked[:count], more), 0))
    checks.equal(f"{about}: goes on, and keeps", found(path), [request(it) for it in asked[:count] + more])


def disturbed(library: Path, path: Path, asked: list, size: int = SIZE, **how) -> Ran:
    """A run over a new file that is disturbed."""
    for it in (path, Path(f"{path}.new"), Path(f"{path}.next")):
        it.unlink(missing_ok=True)
    return keep(path, asked, size=size, environment=preloading(library, JOURNAL=path, **how))


def check_failures(checks: Checks, room: Path, library: Path):
    """Each call on the file fails in turn."""
    path, asked = room / "failing", any_requests(1, 7)
    for how in ({"FAIL_WITH": EIO}, {"FAIL_WITH": ENOSPC, "HALF": 1}):
        number, ran = 0, Ran(status=1)
        while ran.status and number < 100:
            number += 1
            ran = disturbed(library, path, asked, FAIL_AT=number, **how)
            about = f"call {number} failed with {how}"
            count = check_found(checks, about, path, asked, ran)
            if ran.status:
                told = ran.lines[-1].endswith(b"the journal's disk failed") or ran.lines[0].startswith(b"no file:")
                checks.true(f"{about}: told in {ran.lines}", told)
            check_goes_on(checks, about, path, asked, count)
        print(f"  {number - 1} calls, each failing once with {how}")


def check_crashes(checks: Checks, room: Path, library: Path):
    """The machine stops within each call in turn, and what wasn't synced is kept, lost or torn."""
    path, stops = room / "stopping", 0
    for seed in range(4):
        asked = any_requests(10 + seed, 7)
        for kept in ("none", "all", "first", *range(4)):
            number, ran = 0, Ran(status=STOPPED)
            while ran.status == STOPPED and number < 100:
                number += 1
                ran = disturbed(library, path, asked, CRASH_AT=number, KEEP=kept)
                about = f"requests {seed}, stopped within call {number}, kept {kept}"
                count = check_found(checks, about, path, asked, ran)
                check_goes_on(checks, about, path, asked, count)
            checks.equal(f"requests {seed}, kept {kept}: the last run is whole", ran.status, 0)
            stops += number - 1
    print(f"  {stops} stops")


def check_crashes_of_an_opening(checks: Checks, room: Path, library: Path):
    """The machine stops within a group, and again within each call of the opening after it."""
    path, asked = room / "opening", any_requests(20, 7)
    for kept in ("first", *range(4)):
        disturbed(library, path, asked, CRASH_AT=10, KEEP=kept)
        left, count = path.read_bytes(), len(found(path))
        for number in range(1, 5):
            for again in ("none", "all", *range(4)):
                path.write_bytes(left)
                ran = keep(path, [], environment=preloading(library, JOURNAL=path, CRASH_AT=number, KEEP=again))
                about = f"kept {kept}, opening stopped within call {number}, kept {again}"
                checks.equal(f"{about}: stopped", ran.status, STOPPED)
                checks.equal(f"{about}: what is found", found(path), [request(it) for it in asked[:count]])
                check_goes_on(checks, about, path, asked, count)


def main():
    checks = Checks("A ledger over a file, its calls failing and the machine stopping within each")
    with tempfile.TemporaryDirectory(prefix="noticed-journal-") as name:
        room = Path(name)
        library = built(room, "crash")
        check_answers(checks, room)
        check_full(checks, room)
        check_opening(checks, room)
        check_shorter(checks, room)
        check_left_over(checks, room)
        check_shorter_stops(checks, room, library)
        check_failures(checks, room, library)
        check_crashes(checks, room, library)
        check_crashes_of_an_opening(checks, room, library)
    checks.done()


if __name__ == "__main__":
    main()
