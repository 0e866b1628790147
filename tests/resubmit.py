"""Runs `noticed resubmit` over refused notices, also beside the daemon that keeps them: each is submitted again once,
what is refused once more is kept again, what is put off waits for the next run, and none is lost; the file of refused
notices has a largest size, and nothing is appended to a notice that a crash cut short."""
import os
import tempfile
import threading
from pathlib import Path

from tests.serve_hand_in import Journal, journal_for, sealed, sender, stopped, wanted
from tests.support.mail_servers import MailServer, comes_to, outbox_for
from tests.support.running import HOST, Checks, run

REFUSAL = b"NOOP 550 5.1.1 no such user\r\nMAIL FROM:<>\r\n"
MOST_BYTES = 64 << 20  # of the file (noticed-journal(5))
NOBODY = 65_534
TURNS = 60  # notices that are refused while they are taken away


def kept(at: int) -> bytes:
    """What is kept of the notice of a message that was refused."""
    return REFUSAL + outbox_for([sender(turn) for turn in range(at + 1)]).split(b"MAIL FROM:<>\r\n")[at + 1].removesuffix(b"QUIT\r\n")


def resubmit(folder: Path, server: MailServer):
    """A run over a journal's folder."""
    return run(["resubmit", str(folder), HOST, server.address])


def names(folder: Path) -> list:
    """The files about refused notices in a folder."""
    return sorted(it.name for it in folder.iterdir() if it.name.startswith("re"))


def check_again(checks: Checks):
    """While the daemon runs, all that it keeps are submitted again, once; what it keeps later is in a file of its own."""
    server, again = MailServer(refused={sender(0), sender(1), sender(2)}), MailServer()
    with journal_for(server.address) as journal, journal.daemon() as daemon:
        sealed(checks, "again", daemon, range(2))
        checks.true("again: refused", journal.is_settled(2))
        ran = resubmit(journal.folder, again)
        checks.equal("again: status", ran.status, 0)
        lines = [b"accepted %d %s: 250 taken" % (at + 1, sender(at)) for at in range(2)]
        checks.equal("again: lines", ran.notes.splitlines(), lines)
        checks.equal("again: each, in order", again.taken, wanted(2))
        checks.equal("again: no file is left", names(journal.folder), ["refused"])
        checks.equal("again: none is kept", journal.refused(), b"")
        sealed(checks, "later", daemon, range(2, 3))
        checks.true("later: refused", journal.is_settled(3))
        checks.equal("later: kept", journal.refused(), kept(2))
        ran = resubmit(journal.folder, again)
        checks.equal("later: submitted", (ran.status, again.taken), (0, wanted(3)))
        ran = resubmit(journal.folder, again)
        checks.equal("none: status", (ran.status, ran.notes, len(again.taken)), (0, b"", 3))
        checks.equal("the daemon's status", stopped(daemon).status, 0)


def folder_of(room: str, many: int) -> Path:
    """A folder with so many refused notices."""
    folder = Path(room)
    (folder / "refused").write_bytes(b"".join(kept(at) for at in range(many)))
    return folder


def check_once_more(checks: Checks):
    """One that is refused once more is kept again, and the others are settled."""
    with tempfile.TemporaryDirectory(prefix="noticed-") as room:
        folder = folder_of(room, 3)
        again = MailServer(refused={sender(1)})
        checks.equal("once more: status", resubmit(folder, again).status, 0)
        checks.equal("once more: the others", again.taken, wanted(3)[::2])
        checks.equal("once more: kept", (folder / "refused").read_bytes(), kept(1))
        checks.equal("once more: files", names(folder), ["refused"])
        checks.equal("once more: mode", (folder / "refused").stat().st_mode & 0o777, 0o600)


def check_put_off(checks: Checks):
    """What a server doesn't take now stays for the next run, which begins where this one ended."""
    with tempfile.TemporaryDirectory(prefix="noticed-") as room:
        folder = folder_of(room, 3)
        ran = run(["resubmit", str(folder), HOST, "127.0.0.1:1"])
        checks.equal("away: status", ran.status, 75)
        checks.equal("away: files", names(folder), ["refused", "resubmit"])
        (folder / "refused").write_bytes(kept(3))
        again = MailServer()
        checks.equal("there: status", resubmit(folder, again).status, 0)
        checks.equal("there: each once", again.taken, wanted(3))
        checks.equal("there: later ones stay", (folder / "refused").read_bytes(), kept(3))
        checks.equal("there: then these", (resubmit(folder, again).status, again.taken), (0, wanted(4)))


def check_killed(checks: Checks):
    """After a run that was killed the next one goes on behind its mark; a mark of other notices is not taken."""
    with tempfile.TemporaryDirectory(prefix="noticed-") as room:
        folder = folder_of(room, 3)
        (folder / "refused").rename(folder / "resubmit")
        (folder / "resubmit.done").write_bytes(b"2\n")
        again = MailServer()
        checks.equal("killed: status", resubmit(folder, again).status, 0)
        checks.equal("killed: the rest", again.taken, wanted(3)[2:])
        checks.equal("killed: files", names(folder), ["refused"])
        folder_of(room, 3)
        (folder / "resubmit.done").write_bytes(b"2\n")
        checks.equal("killed at its end: status", resubmit(folder, again).status, 0)
        checks.equal("killed at its end: all", again.taken[1:], wanted(3))


def check_meanwhile(checks: Checks):
    """Of notices that are refused while runs take them away, none is lost and none doubled."""
    every = {sender(at) for at in range(TURNS)}
    server, again = MailServer(refused=every), MailServer()
    with journal_for(server.address) as journal, journal.daemon() as daemon:
        thread = threading.Thread(target=sealed, args=(checks, "meanwhile", daemon, range(TURNS)))
        thread.start()
        statuses = set()
        while thread.is_alive():
            statuses.add(resubmit(journal.folder, again).status)
        thread.join()
        checks.true("meanwhile: refused", journal.is_settled(TURNS))
        statuses.add(resubmit(journal.folder, again).status)
        checks.equal("meanwhile: statuses", statuses, {0})
        checks.equal("meanwhile: each once", sorted(again.taken), sorted(wanted(TURNS)))


def check_sizes(checks: Checks):
    """A file with no room, or with a notice that was cut short, is put aside, whole."""
    for about, before in (("full", b"\0" * (MOST_BYTES - 5) + b"\r\n.\r\n"), ("cut short", kept(1)[:-1])):
        server = MailServer(refused={sender(0)})
        with journal_for(server.address) as journal:
            (journal.folder / "refused").write_bytes(before)
            with journal.daemon() as daemon:
                sealed(checks, about, daemon, range(1))
                checks.true(f"{about}: settled", journal.is_settled(1))
                stopped(daemon)
            checks.equal(f"{about}: kept", journal.refused(), kept(0))
            checks.true(f"{about}: put aside", (journal.folder / "refused.old").read_bytes() == before)


def check_owner(checks: Checks):
    """Run by root, it leaves files to which the daemon's account can append."""
    if os.geteuid() != 0:
        checks.skip("another owner: not root")
        return
    with tempfile.TemporaryDirectory(prefix="noticed-") as room:
        folder = folder_of(room, 1)
        for path in (folder, folder / "refused"):
            os.chown(path, NOBODY, NOBODY)
        checks.equal("as root: status", resubmit(folder, MailServer(refused={sender(0)})).status, 0)
        found = (folder / "refused").stat()
        checks.equal("as root: owner", (found.st_uid, found.st_gid, found.st_mode & 0o777), (NOBODY, NOBODY, 0o600))


def check_faults(checks: Checks):
    """A folder that isn't there, and a file that is cut short."""
    nowhere = run(["resubmit", "/nowhere", HOST, "127.0.0.1:25"])
    checks.equal("nowhere", (nowhere.status, nowhere.notes), (1, b"/nowhere: No such file or directory (os error 2)\n"))
    with tempfile.TemporaryDirectory(prefix="noticed-") as room:
        folder = folder_of(room, 1)
        (folder / "refused").write_bytes(kept(0) + kept(1)[:-1])
        again = MailServer()
        ran = resubmit(folder, again)
        checks.equal("cut short: status", ran.status, 1)
        checks.equal("cut short: the whole one", again.taken, wanted(1))
        checks.true("cut short: its line", b"the outbox is cut short" in ran.notes.splitlines())
        checks.true("cut short: it stays", (folder / "resubmit").exists())


def main():
    checks = Checks("resubmit: refused notices are submitted again, also beside the daemon")
    for check in (check_again, check_once_more, check_put_off, check_killed, check_meanwhile, check_sizes, check_owner, check_faults):
        check(checks)
    checks.done()


if __name__ == "__main__":
    main()
