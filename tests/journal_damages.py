"""Damages the two files of a journal's folder 4,600 times, and has `noticed journal` list each: one bit turned, one
byte made 0, one sector of 0, of 255 or of noise. Each damage is told (a fault, words, and no byte of a file is
changed), or changes nothing that is listed, or lies within the last 17 records (two marks), which may pass for a record
and a write behind it that a crash cut. A file that was cut, and marks of an earlier time or of none, aren't told: they
are right files."""
import random
import tempfile
from pathlib import Path

from tests.support.daemon_and_clients import Daemon, append, asked, flush
from tests.support.formats import journal
from tests.support.running import Checks, Ran, run

SIZE, MARKS = 65_536, 4_096  # bytes of the files
SECTOR = 512
LAST = {"journal": 17, "marks": 2}  # records at the end that a write and a record before it may have
SEED = 20_261_128
KEYS = [b"K%d" % number for number in range(60)]


class Folder:
    """A journal's folder as a daemon left it that was killed."""

    def __init__(self, room: Path):
        self.path = room / "journal"
        self.path.mkdir(mode=0o700)
        (self.path / "journal").write_bytes(bytes(SIZE))
        with Daemon(1, 2, options=("--journal", self.path, "--outbox", room / "outbox")) as daemon:
            with daemon.connect() as client:
                for number, key in enumerate(KEYS):
                    asked(client, append(2 * number, key))
                    asked(client, flush(2 * number + 1, key) if number % 5 == 0 else append(2 * number + 1, key))
            daemon.running.kill()
            daemon.end()
        self.whole = {name: (self.path / name).read_bytes() for name in ("journal", "marks")}
        self.listed = self.list()

    def list(self) -> Ran:
        """What the command lists."""
        return run(["journal", self.path])

    def list_with(self, name: str, file: bytes) -> Ran:
        """What it lists with this file in the other's place, which stays as it is."""
        (self.path / name).write_bytes(file)
        found = self.list()
        left = (self.path / name).read_bytes()
        (self.path / name).write_bytes(self.whole[name])
        return found if left == file else Ran(b"", b"the file was changed", -1)


def used(file: bytes) -> int:
    """How many bytes the records of a file take."""
    return sum(map(len, map(journal.spelled, journal.records(file))))


def damages(dice: random.Random, file: bytes, count: int):
    """Damaged files, a third of them each way: what was done, and the file. All are within the bytes that the records
    take."""
    end = used(file)
    for number in range(count):
        at, bit = dice.randrange(end), dice.randrange(8)
        yield f"bit {bit} of byte {at} turned", file[:at] + bytes([file[at] ^ 1 << bit]) + file[at + 1 :]
        yield f"byte {at} made 0", file[:at] + b"\0" + file[at + 1 :]
        at -= at % SECTOR
        filled = (bytes(SECTOR), b"\xff" * SECTOR, dice.randbytes(SECTOR))[number % 3]
        yield f"the sector at {at}, way {number % 3}", file[:at] + filled + file[at + SECTOR :]


def may_pass(file: bytes, damaged: bytes, last: int) -> bool:
    """Whether nothing was changed before so many last records, or no byte but zeros is left."""
    before = used(journal.at_rest(journal.records(file)[:-last], len(file)))
    return damaged[:before] == file[:before] or not damaged.strip(b"\0")


def main():
    checks = Checks("journal_damages: no damage of a journal's folder passes in silence")
    dice, counts = random.Random(SEED), {"told": 0, "nothing changed": 0, "at the end": 0}
    with tempfile.TemporaryDirectory(prefix="noticed-damages-") as room:
        folder = Folder(Path(room))
        checks.equal("the folder is listed", folder.listed.status, 0)
        for name, count in (("journal", 1_234), ("marks", 300)):
            for about, damaged in damages(dice, folder.whole[name], count):
                found = folder.list_with(name, damaged)
                told = found.status == 1 and found.notes.startswith(b"fault 7") and found.notes.count(b"\n") == 2
                same = found == folder.listed
                passes = not told and not same and may_pass(folder.whole[name], damaged, LAST[name])
                for word, is_so in zip(counts, (told, same, passes)):
                    counts[word] += is_so
                checks.true(f"{name}, {about}: {found}", told or same or passes)
    print(f"  {counts}")
    checks.done()


if __name__ == "__main__":
    main()
