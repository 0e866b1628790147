"""Runs `noticed serve --journal` where something is wrong with its folder, a file of it or its outbox: another daemon
has it, it isn't there, it can't be written, it is another program's, damaged, older, too short or of another journal,
or a write or a sync fails, once or for good (by a small library that is preloaded, tests/support/power.c, compiled here
with gcc). Each has its number and status, what can't be opened stays as it was, and what was answered before is there
once the next daemon starts. Of runs that nothing is wrong with, that a clean end forgets which keys are closed, and a
kill doesn't; that a machine which stops while the files are made leaves ones that the next daemon begins with; and that
a run which is asked nothing needs no room in its journal."""
import contextlib
import os
import random
import re
import shutil
import subprocess
import tempfile
from pathlib import Path

from tests.support.daemon_and_clients import Daemon, answer, append, asked, flush, line
from tests.support.faults import fault_line, worded
from tests.support.formats import journal
from tests.support.formats.logs import Limits
from tests.support.preloading import built, preloading
from tests.support.running import HOST, Checks, Ran, program, run

SIZE = 65_536  # bytes of a journal here: its start is soon over
MARKS = 4_096
EIO, ENOSPC = 5, 28
NOBODY = 65_534  # a user who may write nowhere
NEW = {"journal": 67_108_864, "marks": 65_536}  # bytes of the files that a daemon makes
WRITES = 1  # calls that write the zeros of a new journal
STOPPED = 77  # the status of a daemon whose machine stopped
FAULT = re.compile(rb"^fault (\d+)", re.M)
MESSAGE_ID = re.compile(rb"^Message-ID: <B\.(\w+)\.\d+\.(\d+)@", re.M)


class Place:
    """A journal's folder with a small journal, and an outbox."""

    def __init__(self, room: Path, name: str):
        self.folder, self.outbox, self.earlier = room / name, room / f"{name}.outbox", b""
        self.folder.mkdir(mode=0o700)
        (self.folder / "journal").write_bytes(bytes(SIZE))

    def daemon(self, *options, agents: int = 1, uses: int = 1, outbox=None, **how) -> Daemon:
        """A daemon over both. The outbox of the run before is put away, as whoever starts a daemon has to."""
        if outbox is None:
            with contextlib.suppress(FileNotFoundError):
                self.earlier += self.outbox.read_bytes()
                self.outbox.unlink()
        return Daemon(
            agents, uses, options=("--journal", self.folder, "--outbox", outbox or self.outbox, *options), **how
        )

    def run(self, **how) -> Ran:
        """A daemon that ends by itself, since something is wrong."""
        with self.daemon(**how) as it:
            return it.end()

    def file(self, name: str) -> bytes:
        """What a file of the folder has."""
        return (self.folder / name).read_bytes()

    def letters(self) -> list:
        """The queue ids and serials of the notices in the outboxes of all runs."""
        last = self.outbox.read_bytes() if self.outbox.exists() else b""
        return MESSAGE_ID.findall(self.earlier + last)


def exchange(daemon: Daemon, given: bytes, count: int) -> bytes:
    """What is answered on a connection, as far as it goes."""
    with contextlib.suppress(OSError), daemon.connect() as it:
        return asked(it, given, count)
    return b""


def filled(room: Path, name: str, *options) -> Place:
    """A place where K1 was sealed and its notice posted, and K2 is open with one outcome."""
    place = Place(room, name)
    with place.daemon(*options) as it:
        exchange(it, append(0, b"K1") + flush(1, b"K1") + append(2, b"K2"), 3)
        it.end()
    return place


def check_still_there(checks: Checks, about: str, place: Place, count: int = 1):
    """A daemon starts, and K2 has so many outcomes; its notice comes after that of K1."""
    with place.daemon() as it:
        checks.equal(f"{about}: K2 is there", exchange(it, flush(0, b"K2"), 1), answer(7, 0, count))
        checks.equal(f"{about}: the next daemon", it.end().status, 0)
    checks.equal(f"{about}: the notices", place.letters(), [(b"K1", b"0"), (b"K2", b"1")])


def not_opened(place: Path, words: str, code: int = 72) -> Ran:
    """The end of a daemon that couldn't have a file: its path, and what the system said."""
    return Ran(b"", fault_line(code) + f"{place}: {words}\n".encode(), 1)


def folders(checks: Checks, room: Path):
    """A folder that another daemon has, that isn't there, or isn't one: 72."""
    place = filled(room, "taken")
    with place.daemon(uses=2) as first:
        exchange(first, b"", 0)
        with place.daemon(outbox=room / "second.outbox") as second:
            ended = second.end()
            checks.equal("a second daemon", ended, not_opened(place.folder, "operation would block"))
            checks.true("a second daemon makes no socket", not Path(second.path).exists())
        exchange(first, append(0, b"K2"), 1)
        checks.equal("the first one", first.end(), Ran(b"", line(0, 1, 2) + b"open B K2 2\n", 0))
    check_still_there(checks, "after a second daemon", place, 2)
    for what, path, words in (
        ("a folder that isn't there", room / "none", "No such file or directory (os error 2)"),
        ("a file in place of the folder", place.outbox, "Not a directory (os error 20)"),
    ):
        with Daemon(1, 1, options=("--journal", path, "--outbox", room / "none.outbox")) as it:
            checks.equal(what, it.end(), not_opened(path, words))
    checks.true("a folder isn't made", not (room / "none").exists())


def not_allowed(checks: Checks, room: Path):
    """A folder that this account may not write in; as root, another account's daemon."""
    if os.geteuid() == 0 and not shutil.which("setpriv"):
        checks.skip("a folder that can't be written (root may write everywhere, so it needs setpriv)")
        return
    with tempfile.TemporaryDirectory() as name:
        folder, copy = Path(name) / "journal", Path(name) / "noticed"
        folder.mkdir(mode=0o555)
        shutil.copy2(program(), copy)
        os.chmod(name, 0o755)
        (Path(name) / "out").mkdir()
        (Path(name) / "out").chmod(0o777)
        account = ["setpriv", f"--reuid={NOBODY}", f"--regid={NOBODY}", "--clear-groups"] if os.geteuid() == 0 else []
        words = [
            *account,
            str(copy),
            "serve",
            "--journal",
            str(folder),
            "--outbox",
            f"{name}/out/outbox",
            f"{name}/socket",
            HOST,
            "1",
            "1",
        ]
        ended = subprocess.run(words, capture_output=True, timeout=60, check=False)
        wanted = not_opened(folder, "Permission denied (os error 13)")
        checks.equal(
            "a folder that can't be written",
            (ended.stdout, ended.stderr, ended.returncode),
            (wanted.outbox, wanted.notes, 1),
        )
        folder.chmod(0o755)


def files(checks: Checks, room: Path):
    """A file that is another program's (73), another version's (74) or damaged (75); marks ahead of the journal (76) or
    behind it (77). Each stays as it was, nobody is served, and with the right files again the daemon goes on."""
    place = filled(room, "files", "--logs", "4095")
    kept, marks = place.file("journal"), place.file("marks")
    # the run before was ended in order, and a start under higher limits puts the journal away: its base is then the mark
    with place.daemon() as it:
        exchange(it, b"", 0)
        it.end()
    later = place.file("journal")
    checks.equal("the base of a journal that was put away", journal.base_of(later), 1)
    text = b"a file of text\n" * 300
    other = journal.at_rest([journal.header(Limits(logs=4097))], SIZE)
    damaged = journal.at_rest([*journal.records(kept), b"no body"], SIZE)
    for about, name, has, number in (
        ("a journal of text", "journal", text, 73),
        ("a journal whose first byte was lost", "journal", b"\0" + kept[1:], 73),
        ("a journal under higher limits", "journal", other, 74),
        ("a journal with a record that keeps no body", "journal", damaged, 75),
        ("a journal of zeros", "journal", bytes(SIZE), 76),
        ("a journal without room", "journal", bytes(20), 71),
        ("marks of text", "marks", text[:MARKS], 73),
        ("marks with a record that is none", "marks", journal.at_rest([b"no mark"], MARKS), 75),
        ("a mark without a check sum", "marks", journal.at_rest([journal.mark(1)[:-4]], MARKS), 75),
        ("a mark with another byte", "marks", journal.at_rest([b"\3" + journal.mark(1)[1:]], MARKS), 75),
        ("marks of another journal", "marks", journal.at_rest([journal.mark(9)], MARKS), 76),
        ("marks that are older", "marks", bytes(MARKS), 77),
    ):
        (place.folder / "journal").write_bytes(later)
        (place.folder / "marks").write_bytes(marks if number != 71 else bytes(MARKS))
        (place.folder / name).write_bytes(has)
        before = {it: place.file(it) for it in ("journal", "marks")}
        checks.equal(about, place.run(), Ran(b"", fault_line(number), 1))
        checks.equal(f"{about}: the files stay", {it: place.file(it) for it in before}, before)
    # zeros behind it make a journal longer, and nothing else
    (place.folder / "journal").write_bytes(later + bytes(SIZE))
    (place.folder / "marks").write_bytes(marks)
    check_still_there(checks, "with the right files", place)
    checks.equal("a longer journal stays as long", len(place.file("journal")), 2 * SIZE)


def not_listed(place: Path, words: str, code: int = 72) -> Ran:
    """The end of `noticed journal` of a folder that it couldn't list."""
    return Ran(b"", worded(code) + f"{place}: {words}\n".encode(), 1)


def listed(place: Place) -> Ran:
    """What `noticed journal` says of the folder."""
    return run(["journal", place.folder])


def short_marks(checks: Checks, room: Path):
    """Marks that are too short for a mark, which takes 25 bytes at most, beside a notice that none counts: 71 at each
    start, and the notice isn't written."""
    place = Place(room, "short")
    with place.daemon(outbox="/dev/full") as it:
        exchange(it, append(0, b"K1") + flush(1, b"K1"), 2)
        it.end()
    begun = place.file("journal")
    for has in (b"", b"\0", bytes(8), bytes(24), b"\1" * 15, journal.spelled(journal.mark(3))):
        (place.folder / "marks").write_bytes(has)
        for start in (1, 2):
            about = f"marks of {len(has)} bytes, start {start}"
            checks.equal(about, place.run(), Ran(b"", fault_line(71), 1))
            checks.equal(f"{about}: the outbox", place.outbox.read_bytes(), b"")
            files = (place.file("journal"), place.file("marks"))
            checks.equal(f"{about}: the files stay", files, (begun, has))
        wanted = not_listed(place.folder, "the file of marks is too short for a mark", 71)
        checks.equal(f"marks of {len(has)} bytes, listed", listed(place), wanted)
    (place.folder / "marks").write_bytes(bytes(25))
    with place.daemon() as it:
        exchange(it, b"", 0)
        checks.equal("marks of 25 bytes", it.end().status, 0)
    checks.equal("marks of 25 bytes: the notice is written", place.letters(), [(b"K1", b"0")])


def missing(checks: Checks, room: Path):
    """One file of two isn't there: 72, and nothing is made. Where both aren't, both are made."""
    place = filled(room, "missing")
    gone = "No such file or directory (os error 2)"
    for name, words in (
        ("journal", "the journal is missing, and its marks are there"),
        ("marks", "the marks are missing, and their journal is there"),
    ):
        kept = {it: place.file(it) for it in NEW}
        (place.folder / name).unlink()
        checks.equal(f"without {name}", place.run(), not_opened(place.folder, words))
        checks.equal(f"without {name}, listed", listed(place), not_listed(place.folder, gone))
        left = {it.name: it.read_bytes() for it in place.folder.iterdir()}
        checks.equal(f"without {name}: the other file stays alone", left, {it: kept[it] for it in NEW if it != name})
        (place.folder / name).write_bytes(kept[name])
    check_still_there(checks, "with both files again", place)
    for name in NEW:
        (place.folder / name).unlink()
    with place.daemon() as it:
        exchange(it, b"", 0)
        checks.equal("without both: the end", it.end().status, 0)
    checks.equal("without both: they are made", {it: len(place.file(it)) for it in NEW}, NEW)
    modes = [(place.folder / it).stat().st_mode & 0o777 for it in NEW]
    checks.equal("without both: they are their owner's alone", modes, [0o600, 0o600])


def stops_of_a_first_start(checks: Checks, room: Path, library: Path):
    """The machine stops within each call from the first for a new journal to the last but one for its marks: the next
    daemon begins. So it does with zeros as a journal, and no marks."""
    for number in range(WRITES, WRITES + 11):
        place, shadow = Place(room, f"stopped-{number}"), room / f"shadow-{number}"
        shadow.mkdir()
        (place.folder / "journal").unlink()
        stopping = preloading(
            library, FOLDER=place.folder, OUTBOX=place.outbox, SHADOW=shadow, STOP_AT=number, KEEP="all"
        )
        checks.equal(f"call {number} of a first start: stopped", place.run(env=stopping).status, STOPPED)
        with place.daemon() as it:
            exchange(it, b"", 0)
            checks.equal(f"call {number} of a first start: the next one", it.end().status, 0)
        checks.equal(f"call {number} of a first start: the files", {it: len(place.file(it)) for it in NEW}, NEW)
        (place.folder / "journal").unlink()


def nothing_asked(checks: Checks, room: Path):
    """A journal that has room for its header and no byte more: a run that is asked nothing ends in order, and one that
    is asked something can't keep it."""
    place = Place(room, "header")
    file = journal.spelled(journal.header(Limits()))
    (place.folder / "journal").write_bytes(bytes(len(file)))
    for about in ("a new journal", "one that was opened before"):
        with place.daemon() as it:
            exchange(it, b"", 0)
            checks.equal(f"{about} full of its header", it.end(), Ran(b"", line(0, 0), 0))
        checks.equal(f"{about} full of its header: the file", place.file("journal"), file)
    with place.daemon() as it:
        checks.equal("a full journal, asked something", exchange(it, append(0), 1), b"")
        checks.equal("a full journal, asked something: the end", it.end(), Ran(b"", fault_line(45), 1))


def begun(room: Path, name: str) -> Place:
    """A place whose journal has 40 appends, a flush of each key and 20 more appends, as a kill leaves it."""
    place = Place(room, name)
    with place.daemon(uses=2) as it:
        keys = [b"K%d" % number for number in range(40)]
        asks = (
            [(append, key) for key in keys] + [(flush, key) for key in keys] + [(append, b"L%d" % n) for n in range(20)]
        )
        exchange(it, b"".join(ask(number, key) for number, (ask, key) in enumerate(asks)), len(asks))
        it.running.kill()
        it.end()
    return place


def lost_bytes(checks: Checks, room: Path):
    """A byte of a journal, or of marks, made 0: if more records are behind it than one write has, the file isn't opened
    (75), and stays as it is. What a write may have left is cleared, and the records before it are there."""
    place = begun(room, "lost")
    whole = place.file("journal")
    used = sum(map(len, map(journal.spelled, journal.records(whole))))
    reported = 0
    for at in random.Random(7).sample(range(used), 400):
        file = whole[:at] + b"\0" + whole[at + 1 :]
        (place.folder / "journal").write_bytes(file)
        found = listed(place)
        if not journal.records(file):
            wanted = not_listed(place.folder, "the file isn't a journal's", 73)
        elif journal.counted_behind(file) >= 16:
            wanted = not_listed(place.folder, "a byte among the journal's records was lost", 75)
            reported += 1
        else:
            wanted = Ran(found.outbox, b"", 0)
        checks.equal(f"byte {at} made 0", found, wanted)
    checks.true(f"most lost bytes are reported: {reported} of 400", reported > 250)
    (place.folder / "journal").write_bytes(whole[:100] + b"\0" + whole[101:])
    before = place.file("journal")
    checks.equal("a start over a lost byte", place.run(), Ran(b"", fault_line(75), 1))
    checks.equal("a start over a lost byte: the file stays", place.file("journal"), before)
    (place.folder / "journal").write_bytes(whole)
    marks = [journal.mark(number) for number in (255, 256, 257)]
    for kept, words, code in (
        (0, "the file isn't one of marks", 73),
        (1, "a byte among the marks was lost", 75),
    ):
        at = sum(map(len, map(journal.spelled, marks[:kept]))) + 3
        file = journal.at_rest(marks, MARKS)
        (place.folder / "marks").write_bytes(file[:at] + b"\0" + file[at + 1 :])
        checks.equal(f"a byte of mark {kept} made 0", listed(place), not_listed(place.folder, words, code))


def torn_forgets(checks: Checks, room: Path):
    """The machine stops within the one write by which a run that ends in order forgets 40 closed keys: whichever bytes
    of it are left, the next daemon begins."""
    place = begun(room, "torn")
    with place.daemon() as it:
        exchange(it, b"", 0)
        it.end()
    whole, marks = place.file("journal"), place.file("marks")
    kept = journal.records(whole)
    start = sum(map(len, map(journal.spelled, kept[:-40])))
    checks.equal("the last 40 records are forgets", {it[:2] for it in kept[-40:]}, {b"\2\4"})
    for at in (0, 1, 5, 40, 100):
        (place.folder / "journal").write_bytes(whole[: start + at] + b"\0" + whole[start + at + 1 :])
        (place.folder / "marks").write_bytes(marks)
        checks.equal(f"without byte {at} of the forgets, listed", listed(place).status, 0)
        with place.daemon() as it:
            exchange(it, b"", 0)
            checks.equal(f"without byte {at} of the forgets", it.end().status, 0)


def outboxes(checks: Checks, room: Path):
    """An outbox that can't be opened or written (31): the next daemon posts the letters that it didn't take."""
    place = Place(room, "outboxes")
    for what, path, words in (
        ("an outbox in no folder", room / "none/outbox", "No such file or directory (os error 2)"),
        ("a folder as the outbox", room, "Is a directory (os error 21)"),
    ):
        checks.equal(what, place.run(outbox=path), not_opened(path, words, 31))
    with place.daemon(outbox="/dev/full") as it:
        checks.equal(
            "a full device: the client",
            exchange(it, append(0, b"K1") + flush(1, b"K1") + append(2, b"K2"), 3),
            answer(1) + answer(7, 1, 1) + answer(1, 2),
        )
        checks.equal(
            "a full device: the notes",
            it.end(),
            Ran(b"", line(0, 3) + fault_line(31) + b"unsent B K1\nopen B K2 1\n", 1),
        )
    checks.equal("a full device, first letters", place.run(outbox="/dev/full"), Ran(b"", fault_line(31), 1))
    (room / "some.outbox").write_bytes(b"EHLO mx.example.net\r\nMAIL FR")
    checks.equal(
        "an outbox that has something",
        place.run(outbox=room / "some.outbox"),
        not_opened(room / "some.outbox", "entity already exists", 31),
    )
    checks.equal("it stays as it was", (room / "some.outbox").read_bytes(), b"EHLO mx.example.net\r\nMAIL FR")
    check_still_there(checks, "after outboxes that failed", place)
    checks.equal("the outbox is its owner's alone", place.outbox.stat().st_mode & 0o777, 0o600)


def ends(checks: Checks, room: Path):
    """A clean end forgets which keys are closed, and a kill doesn't. Both keep the open logs."""
    for what, uses, reply in (("a clean end", 1, answer(1)), ("a kill", 2, answer(2))):
        place = Place(room, what)
        with place.daemon(uses=uses) as it:
            exchange(it, append(0, b"K1") + flush(1, b"K1") + append(2, b"K2"), 3)
            if uses > 1:
                it.running.kill()
            it.end()
        with place.daemon() as it:
            checks.equal(f"after {what}", exchange(it, append(0, b"K1") + append(1, b"K2"), 2), reply + answer(1, 1, 1))
            checks.equal(f"after {what}: the next daemon", it.end().status, 0)


def calls(checks: Checks, room: Path, library: Path):
    """Each write and sync of a file fails in turn, of a start that puts the journal away, since a limit rises, and of a
    run. A run whose request can't be kept ends with 45, and no answer is given that isn't true of the next daemon."""
    shadow = room / "shadow"
    shadow.mkdir()
    for name, most, how in (
        ("journal", 11, {"FAIL_WITH": EIO}),
        ("journal", 11, {"FAIL_WITH": ENOSPC, "FAIL_ALL": 1}),
        ("marks", 6, {"FAIL_WITH": EIO}),
        ("marks", 6, {"FAIL_WITH": ENOSPC, "FAIL_ALL": 1}),
        ("outbox", 4, {"FAIL_WITH": EIO}),
        ("outbox", 4, {"FAIL_WITH": ENOSPC, "FAIL_ALL": 1}),
    ):
        met, number, found = set(), 0, [b""]
        while found and number < 100:
            number += 1
            place = Place(room, f"{name}-{number}-{len(how)}")
            if name == "journal":
                with place.daemon("--logs", "4095") as it:
                    exchange(it, b"", 0)
                    it.end()
            with place.daemon(
                env=preloading(
                    library, FOLDER=place.folder, OUTBOX=place.outbox, SHADOW=shadow, ON=name, FAIL_AT=number, **how
                )
            ) as it:
                got, ended = exchange_singly(it, [append(0, b"K1"), flush(1, b"K1"), append(2, b"K2")]), it.end()
            found = FAULT.findall(ended.notes)
            met.update(found)
            check_ended(checks, f"call {number} on {name} fails, {how}", place, got, ended)
        checks.true(f"{number - 1} calls on {name}", number > most)
        print(f"  {number - 1} calls on {name}, each failing in turn, {how}: faults {b', '.join(sorted(met)).decode()}")


def check_ended(checks: Checks, about: str, place: Place, got: bytes, ended: Ran):
    """A run that ended so after these answers: its status, and what the next daemon has."""
    checks.equal(f"{about}: status", ended.status, 1 if FAULT.search(ended.notes) else 0)
    checks.true(f"{about}: no fault but these, {ended.notes}", set(FAULT.findall(ended.notes)) <= {b"31", b"45", b"72"})
    answered = len(got) // 14
    checks.equal(f"{about}: answers", got, (answer(1) + answer(7, 1, 1) + answer(1, 2))[: 14 * answered])
    check_kept(checks, about, place, answered, b"45" not in FAULT.findall(ended.notes))


def exchange_singly(daemon: Daemon, given: list) -> bytes:
    """The answers to frames that are sent one by one, as far as it goes."""
    got = b""
    with contextlib.suppress(OSError), daemon.connect() as it:
        for frame in given:
            got += asked(it, frame)
    return got


def check_kept(checks: Checks, about: str, place: Place, answered: int, in_order: bool):
    """What the next daemon says of K1 and K2, where so many of the three requests were answered: that one more may be
    kept. A run that ended in order may have forgotten that K1 is closed."""
    with place.daemon() as it:
        got = exchange(it, flush(0, b"K1") + flush(1, b"K2"), 2)
        checks.equal(f"{about}: the next daemon", it.end().status, 0)
    first = {0: [answer(5), answer(7, 0, 1)], 1: [answer(7, 0, 1), answer(2)]}.get(answered, [answer(2)])
    first += [answer(5)] if in_order and answered > 1 else []
    second = {2: [answer(5, 1), answer(7, 1, 1)], 3: [answer(7, 1, 1)]}.get(answered, [answer(5, 1)])
    checks.true(f"{about}: {answered} answered, then {got}", got in [one + other for one in first for other in second])
    has = {queue_id for queue_id, _ in place.letters()}
    sealed = {b"K1"} if answered > 1 or got[:14] in (answer(7, 0, 1), answer(2)) else set()
    checks.equal(f"{about}: the notices", has, sealed | ({b"K2"} if got[14:] == answer(7, 1, 1) else set()))


def main():
    checks = Checks("journal_faults: folders, files and outboxes that fail a daemon with a journal")
    with tempfile.TemporaryDirectory(prefix="noticed-faults-") as name:
        room = Path(name)
        for check in (
            folders,
            not_allowed,
            files,
            short_marks,
            missing,
            nothing_asked,
            lost_bytes,
            torn_forgets,
            outboxes,
            ends,
        ):
            check(checks, room)
        library = built(room, "power")
        stops_of_a_first_start(checks, room, library)
        calls(checks, room, library)
    checks.done()


if __name__ == "__main__":
    main()
