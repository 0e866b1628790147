"""Runs `noticed journal` on folders that daemons left, after a kill and after an end in order, and on random ones: it
prints what a plain reading of noticed-journal(5) has of them, and no byte, name, mode or time of a folder is changed.
Where a file isn't there or is none of a journal, a line can't be written, or memory is
refused, it has its number and status. It lists a folder on which a daemon is at work, and its backups, too."""
import os
import random
import subprocess
import sys
import tempfile
import threading
import time
from pathlib import Path

from tests.support.daemon_and_clients import Daemon, answer, append, asked, flush, frames, until
from tests.support.faults import fault_line, worded
from tests.support.formats import journal, listing
from tests.support.formats.bodies import Refused, decoded
from tests.support.formats.logs import Limits
from tests.support.hostile import Hostile
from tests.support.page import Page
from tests.support.preloading import built, each_refused
from tests.support.running import Checks, Ran, program, run

SIZE, MARKS = 16_384, 4_096  # bytes of a journal and of marks here
FOLDERS = 60  # random ones
CLIENTS, BACKUPS, ROOMY = 4, 20, 8 << 20  # and bytes of a journal that doesn't get full while it is copied
LISTINGS, SMALL = 20, 1 << 18  # and bytes of a journal that is made shorter again and again
MOST = 500  # growths of a listing; more than this and the sweep is broken


def state(folder: Path) -> dict:
    """What a folder has: the names in it, and of each its bytes, its mode, its links and when it was written."""
    kept = {}
    for it in [folder, *folder.rglob("*")] if folder.exists() else []:
        of = it.lstat()
        kept[it.name] = (
            it.read_bytes() if it.is_file() else b"",
            of.st_mode,
            of.st_ino,
            of.st_nlink,
            of.st_size,
            of.st_mtime_ns,
            of.st_ctime_ns,
        )
    return kept


def told(checks: Checks, about: str, folder: Path, **how) -> Ran:
    """What is printed of a folder, which stays as it was."""
    before = state(folder)
    ran = run(["journal", str(folder)], **how)
    checks.equal(f"{about}: the folder stays", state(folder), before)
    return ran


def check_told(checks: Checks, about: str, folder: Path, wanted: bytes):
    """These lines are printed of a folder, and they are those of the plain reading."""
    checks.equal(about, told(checks, about, folder), Ran(wanted, b"", 0))
    files = ((folder / it).read_bytes() for it in ("journal", "marks"))
    checks.equal(f"{about}, by the plain reading", listing.listed(*files), wanted)


def check_fault(checks: Checks, about: str, folder: Path, number: int, words: str):
    """Nothing is printed of a folder but this fault and these words."""
    wanted = Ran(b"", worded(number) + b"%s: %s\n" % (os.fsencode(folder), words.encode()), 1)
    checks.equal(about, told(checks, about, folder), wanted)


def used(folder: Path) -> int:
    """How many bytes the records of a journal take."""
    return sum(len(journal.spelled(it)) for it in journal.records((folder / "journal").read_bytes()))


def made(room: Path, name: str, size: int = SIZE) -> Path:
    """A folder with a journal of this size, a small one unless said, that no daemon had yet."""
    folder = room / name
    folder.mkdir(mode=0o700)
    (folder / "journal").write_bytes(bytes(size))
    return folder


def daemon(folder: Path, outbox: Path, uses: int = 1) -> Daemon:
    """A daemon over a folder."""
    return Daemon(1, uses, options=("--journal", folder, "--outbox", outbox))


def has_mark(folder: Path, mark: int) -> bool:
    """Whether the marks say this mark."""
    return b"".join(journal.records((folder / "marks").read_bytes())[-1:]) == journal.mark(mark)


def killed(checks: Checks, room: Path):
    """A daemon is killed once it has sealed and posted K1, discarded K3, and logged two outcomes of K2. Its
    folder is listed while it is there, and after. The next daemon goes on from what was listed."""
    folder = made(room, "killed")
    with daemon(folder, room / "killed.outbox", 2) as it:
        with it.connect() as client:
            given = (
                append(0, b"K1") + flush(1, b"K1") + append(2, b"K2") + append(3, b"K2") + frames.discard(4, 1, b"K3")
            )
            checks.equal(
                "a daemon that will be killed answers",
                asked(client, given, 5),
                answer(1) + answer(7, 1, 1) + answer(1, 2) + answer(1, 3, 1) + answer(8, 4),
            )
        checks.true("its notice is marked", until(lambda: has_mark(folder, 1)))
        lines = b"open B K2 2\nclosed B K1\nclosed B K3\nmarked 1\nsealed 1\nbytes %d %d\n" % (used(folder), SIZE)
        check_told(checks, "a folder that a daemon has", folder, lines)
        it.running.kill()
        it.end()
    check_told(checks, "after a kill", folder, lines)
    check_told(checks, "and once more", folder, lines)
    with daemon(folder, room / "killed.outbox.2") as it:
        with it.connect() as client:
            checks.equal(
                "the next daemon", asked(client, append(0, b"K1") + append(1, b"K2"), 2), answer(2) + answer(1, 1, 2)
            )
        checks.equal("it ends in order", it.end().status, 0)
    check_told(
        checks,
        "after an end in order",
        folder,
        b"open B K2 3\nmarked 1\nsealed 1\nbytes %d %d\n" % (used(folder), SIZE),
    )


def unposted(checks: Checks, room: Path):
    """Notices that no outbox took are told with their serials, until one did."""
    folder = made(room, "unposted")
    with daemon(folder, Path("/dev/full")) as it:
        with it.connect() as client:
            given = append(0, b"K1") + append(1, b"K1") + flush(2, b"K1") + append(3, b"K2") + flush(4, b"K2")
            checks.equal("a daemon whose outbox is full answers", asked(client, given, 5)[-14:], answer(7, 4, 1))
        checks.equal("it ends with its fault", it.end().status, 1)
    last = b"sealed 2\nbytes %d %d\n"
    lines = b"unmarked B K1 2 0\nunmarked B K2 1 1\nmarked 0\n" + last % (used(folder), SIZE)
    check_told(checks, "notices that were not posted", folder, lines)
    with daemon(folder, room / "unposted.outbox") as it:
        it.connect().close()
        checks.equal("the next daemon posts them", it.end().status, 0)
    check_told(checks, "notices that were posted", folder, b"marked 2\n" + last % (used(folder), SIZE))


def keep_busy(daemon_at_work: Daemon, place: int, over: threading.Event):
    """A client that has a notice made, and forgets it, until all is over."""
    with daemon_at_work.connect() as client:
        for number in range(0, 900_000, 3):
            if over.is_set():
                return
            key = b"P%dx%d" % (place, number)
            asked(client, append(number, key) + flush(number + 1, key) + frames.forget(number + 2, 1, key), 3)


def backed_up(checks: Checks, room: Path):
    """Each backup of a folder on which a daemon is at work can be opened: a command of docs/operating.md makes it, and
    the next one looks at it."""
    folder, ends, sealed = made(room, "busy", ROOMY), [], []
    commands = Page("docs/operating.md").take("cp -p ", "noticed journal BACKUP")
    commands = commands.replace("/var/lib/noticed/journal", str(folder)).replace("noticed ", f"{program()} ")
    with Daemon(CLIENTS, 1, options=("--journal", folder, "--outbox", room / "busy.outbox")) as it:
        it.listens()
        over = threading.Event()
        busy = [threading.Thread(target=keep_busy, args=(it, place, over)) for place in range(CLIENTS)]
        for thread in busy:
            thread.start()
        for number in range(BACKUPS):
            backup = room / f"backup.{number}"
            backup.mkdir(mode=0o700)
            words = ["sh", "-e", "-c", commands.replace("BACKUP", str(backup))]
            ran = subprocess.run(words, capture_output=True, check=False)
            ends.append((ran.returncode, ran.stderr))
            sealed += [int(line.split()[1]) for line in ran.stdout.splitlines() if line.startswith(b"sealed ")]
        over.set()
        for thread in busy:
            thread.join()
        checks.equal("a daemon that is copied ends in order", it.end().status, 0)
    checks.equal("each backup can be opened", ends, [(0, b"")] * BACKUPS)
    checks.true(f"while notices were sealed: {sealed}", sealed == sorted(sealed) and sealed[0] < sealed[-1])


def beside(checks: Checks, room: Path, about: str, size: int):
    """The folder of a daemon that is at work is listed again and again, and the daemon isn't held up."""
    folder, outbox = made(room, about.replace(" ", "-"), size), room / f"{size}.outbox"
    with Daemon(CLIENTS, 1, options=("--journal", folder, "--outbox", outbox)) as it:
        it.listens()
        over = threading.Event()
        busy = [threading.Thread(target=keep_busy, args=(it, place, over)) for place in range(CLIENTS)]
        for thread in busy:
            thread.start()
        listings = [run(["journal", str(folder)]) for _ in range(LISTINGS)]
        over.set()
        for thread in busy:
            thread.join()
        checks.equal(f"{about}: the daemon ends in order", it.end().status, 0)
    checks.equal(f"{about}: each is listed", [(ran.notes, ran.status) for ran in listings], [(b"", 0)] * LISTINGS)
    counts = [dict(it.split()[:2] for it in ran.outbox.splitlines()[-3:]) for ran in listings]
    sealed, marked = ([int(it.get(word, -1)) for it in counts] for word in (b"sealed", b"marked"))
    checks.true(f"{about}: while notices were sealed: {sealed}", sealed == sorted(sealed) and sealed[0] < sealed[-1])
    checks.true(f"{about}: and marked: {marked}", marked == sorted(marked) and 0 <= marked[0])
    made_by_then = outbox.read_bytes().count(b"\nMessage-ID: <")
    print(f"  {about}: {LISTINGS} listings while {made_by_then} notices were made")


def random_folder(dice: random.Random, folder: Path):
    """A folder of random requests, with a base and a mark, and with what a crash leaves behind the records."""
    hostile, base, records = Hostile(dice), dice.choice([0, 0, 1, 2**63 - 1000]), []
    for _ in range(dice.randint(0, 40)):
        body = hostile.body(0)
        try:
            decoded(body)
        except Refused:
            body = b""
        records.append(journal.summed(body))
    file = b"".join(map(journal.spelled, [journal.header(Limits(), base), *records]))
    count = int(listing.listed(file, b"").split(b"sealed ")[1].split()[0]) - base
    tail = dice.choice([b"", b"", b"\1\2\3", b"\1\0\3", b"\1\4\2", b"K1"])
    marks = journal.at_rest([journal.mark(it) for it in (3, base + dice.randint(0, count))], MARKS)
    (folder / "journal").write_bytes(file + tail + bytes(dice.choice([0, 1, 500])))
    (folder / "marks").write_bytes(marks)


def random_folders(checks: Checks, room: Path, seed: int):
    """Of random folders the program prints what the plain reading has."""
    folder, dice, total = room / "random", random.Random(seed), 0
    folder.mkdir()
    for number in range(FOLDERS):
        random_folder(dice, folder)
        wanted = listing.listed((folder / "journal").read_bytes(), (folder / "marks").read_bytes())
        checks.equal(f"folder {number} of seed {seed}", told(checks, f"folder {number}", folder), Ran(wanted, b"", 0))
        total += wanted.count(b"\n")
    print(f"  {FOLDERS} random folders, {total} lines")


def folders(checks: Checks, room: Path):
    """A folder, or a file of it, that isn't there, isn't one, or may not be read: 72. None is made."""
    check_fault(checks, "a folder that isn't there", room / "none", 72, "No such file or directory (os error 2)")
    checks.true("it isn't made", not (room / "none").exists())
    (room / "a-file").write_bytes(b"")
    check_fault(checks, "a file in place of the folder", room / "a-file", 72, "Not a directory (os error 20)")
    folder = made(room, "no-marks")
    check_fault(checks, "a folder without marks", folder, 72, "No such file or directory (os error 2)")
    (folder / "journal").rename(folder / "marks")
    check_fault(checks, "a folder without a journal", folder, 72, "No such file or directory (os error 2)")
    (folder / "journal").symlink_to(room / "none")
    check_fault(checks, "a link to nothing", folder, 72, "No such file or directory (os error 2)")


def files(checks: Checks, room: Path):
    """Files that are none of a journal, each with its number; where both are wrong the marks' one comes."""
    folder = made(room, "files")
    limits, text = Limits(), b"a file of text\n" * 30
    right = journal.at_rest([journal.header(limits, 1)], SIZE)
    marks = journal.at_rest([journal.mark(1)], MARKS)
    for about, journal_file, marks_file, number, words in (
        ("a journal of text", text, marks, 73, "the file isn't a journal's"),
        ("marks of text", right, text, 73, "the file isn't one of marks"),
        ("both of text", text, text, 73, "the file isn't one of marks"),
        (
            "a journal under limits that no run has",
            journal.at_rest([journal.header(Limits(logs=65_537))], SIZE),
            marks,
            74,
            "the journal is of another version, or was kept under other limits",
        ),
        (
            "a record that keeps no body",
            journal.at_rest([journal.header(limits, 1), b"no body"], SIZE),
            marks,
            75,
            "a record of the journal is damaged",
        ),
        (
            "a record of marks that is none",
            right,
            journal.at_rest([b"no mark"], MARKS),
            75,
            "the last record of the marks is damaged",
        ),
        (
            "a mark ahead of its journal",
            right,
            journal.at_rest([journal.mark(2)], MARKS),
            76,
            "the mark counts more letters than the journal sealed",
        ),
        (
            "a mark behind its journal's base",
            right,
            bytes(MARKS),
            77,
            "the mark counts fewer letters than the journal's base",
        ),
        ("a new journal without room for its header", bytes(20), bytes(MARKS), 71, "the journal is full"),
        ("an empty journal", b"", bytes(MARKS), 71, "the journal is full"),
    ):
        (folder / "journal").write_bytes(journal_file)
        (folder / "marks").write_bytes(marks_file)
        check_fault(checks, about, folder, number, words)
    (folder / "journal").write_bytes(bytes(SIZE))
    (folder / "marks").write_bytes(bytes(MARKS))
    check_told(
        checks,
        "new files",
        folder,
        b"marked 0\nsealed 0\nbytes %d %d\n" % (len(journal.spelled(journal.header(limits))), SIZE),
    )
    (folder / "marks").write_bytes(bytes(MARKS))
    (folder / "journal").write_bytes(right)
    check_fault(
        checks, "marks without a mark, and a base", folder, 77, "the mark counts fewer letters than the journal's base"
    )


def lost_lines(checks: Checks, room: Path):
    """Where the lines can't be written: 33, and no more."""
    folder = room / "killed"
    with open("/dev/full", "wb") as full:
        checks.equal("a full device", told(checks, "a full device", folder, stdout=full), Ran(b"", worded(33), 1))
    shell = ["sh", "-c", 'exec "$0" journal "$1" >&-', program(), str(folder)]
    ended = subprocess.run(shell, capture_output=True, check=False)
    checks.equal("standard output that is closed", (ended.stderr, ended.returncode), (worded(33), 1))
    for word in ("stderr", "stdout"):
        reading, writing = os.pipe()
        os.close(reading)
        status = told(
            checks,
            f"a pipe for {word} that nobody reads",
            folder if word == "stdout" else room / "none",
            **{word: writing},
        ).status
        os.close(writing)
        checks.equal(f"a pipe for {word} that nobody reads: status", status, 1)


def without_memory(checks: Checks, room: Path, library: Path):
    """Each growth of memory is refused in turn: 9, or 72 if a file could not be read for it; or all lines are there."""
    folder = room / "killed"
    whole = told(checks, "a listing with ample memory", folder)
    ends = each_refused(
        library, MOST, lambda environment: told(checks, "a listing without memory", folder, env=environment), whole
    )
    checks.equal("the last one is whole", ends[-1], whole)
    met = {it.notes.splitlines(keepends=True)[0] for it in ends[:-1]}
    # Before it is known what is asked, a fault's line has its number alone.
    checks.equal("no fault but 9 and 72", met, {fault_line(9), worded(9), worded(72)})
    checks.equal("and no line", {(it.outbox, it.status) for it in ends[:-1]}, {(b"", 1)})
    print(f"  {len(ends) - 1} growths, each refused once")


def main():
    seed = int(sys.argv[1]) if len(sys.argv) > 1 else time.time_ns() % 1_000_000
    checks = Checks(f"journal_listing: what noticed journal prints of folders, seed {seed}")
    with tempfile.TemporaryDirectory(prefix="noticed-listing-") as name:
        room = Path(name)
        for check in (killed, unposted, backed_up, folders, files, lost_lines):
            check(checks, room)
        beside(checks, room, "a roomy journal", ROOMY)
        beside(checks, room, "a journal that is made shorter", SMALL)
        random_folders(checks, room, seed)
        without_memory(checks, room, built(room, "refuse"))
    checks.done()


if __name__ == "__main__":
    main()
