"""Refuses `noticed postfix` one growth of its memory after another, from the moment at which it listens, within an
append and within a flush: it goes on, what isn't carried out is answered -1 or not at all and leaves the log as it was,
and asked again it is carried out. So no recipient is lost."""
import os
import tempfile
from pathlib import Path

from tests.support.postfix_folder import HOST, Postfix, append, asked_in
from tests.support.preloading import built
from tests.support.running import Checks

FAILED = 4294967295
MOST = 400  # growths, of which no two requests have so many
WHOLE = 20  # requests in a row that are carried out at once: no further growth is theirs
FEWEST = 5  # growths that are refused to a request at least
# A request that is answered so wasn't carried out, or its status couldn't be said.
ANSWERS = (0, FAILED, None)


def asked_twice(it: Postfix) -> tuple:
    """The answers to a request for a notice, repeated until it is carried out, and what each leaves of the log."""
    request, log = asked_in("one", "failure"), it.at(f"bounce/{it.put('one', 'bounce')}")
    whole, found = log.read_bytes(), []
    while log.exists() and len(found) < 3:
        found.append((it.ask("bounce", request), log.read_bytes() if log.exists() else None))
    return whole, found


def logged_twice(it: Postfix) -> tuple:
    """The answers to an append, which is asked until it is carried out, and how many records there are each time."""
    log, found = it.at("bounce/6BB87A7E6A1"), []
    while len(found) < 3 and (not found or found[-1][0] != 0):
        status = it.ask("bounce", append("6BB87A7E6A1"))
        found.append((status, log.read_bytes().count(b"\nrecipient=no.bob@example.org\n") if log.exists() else 0))
    return log.read_bytes(), found


def check_append(checks: Checks, it: Postfix, number: int) -> bool:
    """An append that is answered 0 stands, and one that isn't may stand whole: whether it was carried out at once."""
    log, found = logged_twice(it)
    checks.true(
        f"growth {number}: answers to an append", all(status in ANSWERS for status, _ in found) and found[-1][0] == 0
    )
    checks.true(
        f"growth {number}: records", all(1 <= count <= at for at, (status, count) in enumerate(found, 1) if status == 0)
    )
    checks.true(
        f"growth {number}: no part of a record", log.endswith(b"\n\n") and log.count(b"\nreason=") == found[-1][1]
    )
    return len(found) == 1


def check_refused(checks: Checks, library: Path, number: int) -> bool:
    """Refuses the growth of this number: whether none was refused."""
    with Postfix(start=False) as it:
        os.environ.update(
            LD_PRELOAD=str(library), REFUSE=str(number), REFUSE_AFTER=f"listening in {it.folder} for {HOST}\n"
        )
        try:
            it.start()
        finally:
            for name in ("LD_PRELOAD", "REFUSE", "REFUSE_AFTER"):
                del os.environ[name]
        logged = check_append(checks, it, number)
        whole, found = asked_twice(it)
        checks.true(f"growth {number}: answers", all(status in ANSWERS for status, _ in found))
        checks.true(
            f"growth {number}: the log stays whole, or is gone", all(left in (whole, None) for _, left in found)
        )
        checks.equal(
            f"growth {number}: how often it is asked, and told",
            (len(found) in (1, 2), len(it.server.taken) in (1, 2), it.running.poll()),
            (True, True, None),
        )
        return logged and len(found) == 1 and found[0][0] == 0


def main():
    checks = Checks("Growths of memory are refused to noticed postfix: no recipient is lost")
    with tempfile.TemporaryDirectory() as room:
        library, refused, whole = built(room, "refuse"), 0, 0
        for number in range(1, MOST):
            # a thread that has just begun may have had the growth, and then the request is carried out: threads that
            # begin late have the first growths of many runs
            whole = whole + 1 if check_refused(checks, library, number) else 0
            refused = number if not whole else refused
            if whole >= WHOLE and refused >= FEWEST:
                break
        checks.true("some growths are refused, and not without end", FEWEST <= refused < MOST - WHOLE)
        print(f"  {refused} growths, each refused once")
    checks.done()


if __name__ == "__main__":
    main()
