"""Takes a daemon to each of its limits and one step further: 4,096 keys, 1,000 outcomes in a log, 1,000,000 frames of a
connection, 1,000,000 requests of an agent, the connections of an agent (3, and 60,000); and 70,000 letters through one
daemon, each of which is in the outbox, with open logs at its end. It takes half a minute."""
import contextlib
import socket
import struct

from tests.support.daemon_and_clients import (
    PATIENCE,
    Daemon,
    answer,
    answers_to,
    append,
    asked,
    flush,
    frames,
    heard,
    is_ended,
    line,
)
from tests.support.formats.bodies import FAILED, Draft, Outcome
from tests.support.formats.logs import (
    CLOSED,
    DISCARDED,
    FORGOTTEN,
    LOG_FULL,
    LOGGED,
    REFUSED,
    SEALED,
    TABLE_FULL,
    Letter,
)
from tests.support.formats.notices import mail
from tests.support.running import HOST, Checks, Ran, empty_outbox

LOGS, ENTRIES, REQUESTS = 4096, 1000, 1_000_000
LETTERS, OPEN = 70_000, 500
CONNECTIONS, AT_ONCE = 60_000, 50
BOUNCE, VERSION, USED_UP = 1, 21, 44
BAD_FRAME = frames.frame(b"\0")  # its body is refused, which no collector is asked for


def queue_id(number: int) -> bytes:
    """A queue id of six characters, in the order of the numbers."""
    return b"K%05d" % number


def keys(checks: Checks):
    """4,096 keys are held; for the next one there is no room, until one is let go."""
    with Daemon(1, 1) as daemon:
        with daemon.connect() as client:
            got = answers_to(client, [append(it, queue_id(it)) for it in range(LOGS)])
            checks.true(f"{LOGS:,} keys", got == b"".join(answer(LOGGED, it) for it in range(LOGS)))
            rest = [
                append(LOGS, b"K"),
                flush(LOGS + 1, b"K"),
                frames.discard(LOGS + 2, BOUNCE, queue_id(0)),
                append(LOGS + 3, b"K"),
            ]
            rest += [frames.forget(LOGS + 4, BOUNCE, queue_id(0)), append(LOGS + 5, b"K"), append(LOGS + 6, b"L")]
            wanted = [
                (TABLE_FULL, 0),
                (TABLE_FULL, 0),
                (DISCARDED, 1),
                (TABLE_FULL, 0),
                (FORGOTTEN, 0),
                (LOGGED, 0),
                (TABLE_FULL, 0),
            ]
            checks.equal(
                "then others",
                answers_to(client, rest),
                b"".join(answer(reply, LOGS + at, value) for at, (reply, value) in enumerate(wanted)),
            )
        lines = b"".join(b"open B %s 1\n" % it for it in [b"K", *(queue_id(it) for it in range(1, LOGS))])
        checks.equal("its daemon", daemon.end(), Ran(empty_outbox(), line(0, LOGS + 7) + lines, 0))


def outcomes(checks: Checks):
    """A log takes 1,000 outcomes and no other, and its notice lists them in their order."""
    recipients = [b"r%04d@example.org" % it for it in range(ENTRIES + 1)]
    with Daemon(1, 1) as daemon:
        with daemon.connect() as client:
            given = [append(at, b"FULL", it) for at, it in enumerate(recipients)] + [flush(ENTRIES + 1, b"FULL")]
            wanted = [answer(LOGGED, it, it) for it in range(ENTRIES)] + [
                answer(LOG_FULL, ENTRIES),
                answer(SEALED, ENTRIES + 1, ENTRIES),
            ]
            checks.true(f"{ENTRIES + 1:,} outcomes of one log", answers_to(client, given) == b"".join(wanted))
        ended = daemon.end()
    lines = ended.outbox.split(b"\r\n")
    named = [it.removeprefix(b"Final-Recipient: rfc822; ") for it in lines if it.startswith(b"Final-Recipient: ")]
    checks.equal("the notice's recipients", named, recipients[:ENTRIES])
    checks.equal("its daemon", (lines[-3:], ended.notes, ended.status), ([b".", b"QUIT", b""], line(0, ENTRIES + 2), 0))


def requests(checks: Checks):
    """A connection has 1,000,000 frames: one more ends it without an answer (47). The agent has had as many requests by
    then, so each of a later connection is refused with 44, and a body with a fault of its own with that; another agent
    goes on."""
    with Daemon(2, 2) as daemon:
        with daemon.connect() as client:
            got = answers_to(client, [frames.discard(it, BOUNCE, b"K") for it in range(REQUESTS)])
            wanted = answer(DISCARDED) + b"".join(answer(CLOSED, it) for it in range(1, REQUESTS))
            checks.true(f"{REQUESTS:,} frames of a connection", got == wanted)
            client.sendall(frames.discard(REQUESTS, BOUNCE, b"K"))
            checks.true("one more ends it", is_ended(client))
        told = []
        for _ in range(3):
            with daemon.connect() as client:
                told.append(
                    asked(client, frames.discard(0, BOUNCE, b"K") + BAD_FRAME + frames.discard(2, BOUNCE, b"K"), 3)
                )
        used = answer(REFUSED, 0, USED_UP) + answer(REFUSED, 1, VERSION) + answer(REFUSED, 2, USED_UP)
        served = answer(CLOSED) + answer(REFUSED, 1, VERSION) + answer(CLOSED, 2)
        checks.equal("three connections after it", sorted(told), sorted([used, served, served]))
        ended = daemon.end()
        both = (line(0, REQUESTS, 2, 1) + line(1, 4, 2), line(0, 4, 2) + line(1, REQUESTS, 2, 1))
        checks.true(f"its daemon: {ended}", ended.notes in both and (ended.outbox, ended.status) == (empty_outbox(), 0))


def quick(daemon: Daemon) -> socket.socket:
    """A connection that waits for its turn as long as the daemon's queue is full."""
    client = socket.socket(socket.AF_UNIX, socket.SOCK_STREAM)
    for it in (socket.SO_RCVTIMEO, socket.SO_SNDTIMEO):
        client.setsockopt(socket.SOL_SOCKET, it, struct.pack("ll", PATIENCE, 0))
    client.connect(daemon.path)
    return client


def served(daemon: Daemon) -> int:
    """How many of some connections, which wait for their turn side by side, are served."""
    with contextlib.ExitStack() as left, contextlib.suppress(OSError):
        clients = [left.enter_context(quick(daemon)) for _ in range(AT_ONCE)]
        for it in clients:
            it.sendall(BAD_FRAME)
        count = 0
        for it in clients:
            count += heard(it, 14) == answer(REFUSED, 0, VERSION)
            it.close()
        return count
    return 0


def connections(checks: Checks):
    """Each of an agent's connections is served, and none after the last."""
    with Daemon(1, 3) as daemon:
        for at in range(3):
            with daemon.connect() as client:
                checks.equal(f"connection {at + 1} of 3", asked(client, append(0)), answer(LOGGED, 0, at))
        checks.equal("its daemon", daemon.end(), Ran(empty_outbox(), line(0, 3, 3) + b"open B Q1 3\n", 0))
    with Daemon(1, CONNECTIONS) as daemon:
        daemon.listens()
        checks.equal(
            f"{CONNECTIONS:,} connections", sum(served(daemon) for _ in range(CONNECTIONS // AT_ONCE)), CONNECTIONS
        )
        checks.equal("their daemon", daemon.end(), Ran(empty_outbox(), line(0, 0, CONNECTIONS), 0))


def letter(number: int) -> bytes:
    """What the outbox has of the letter of this number."""
    outcome = Outcome(b"", b"x@y", FAILED, b"5.0.0", b"", b"", b"", None, None)
    return mail(
        HOST.encode(),
        Letter(
            (BOUNCE, queue_id(number)), Draft(1700000000, 1699996400, b"ann@example.com", b"", b""), (outcome,), number
        ),
    )


def letters(checks: Checks):
    """70,000 letters, each of whose keys is let go, and then logs that stay open: every letter is in the outbox, in
    order, and every open log in the notes."""
    with Daemon(1, 1) as daemon:
        with daemon.connect() as client:
            given, wanted = [], []
            for at in range(LETTERS):
                given += [
                    append(3 * at, queue_id(at)),
                    flush(3 * at + 1, queue_id(at)),
                    frames.forget(3 * at + 2, BOUNCE, queue_id(at)),
                ]
                wanted += [answer(LOGGED, 3 * at), answer(SEALED, 3 * at + 1, 1), answer(FORGOTTEN, 3 * at + 2)]
            for at in range(OPEN):
                given.append(append(3 * LETTERS + at, queue_id(at)))
                wanted.append(answer(LOGGED, 3 * LETTERS + at))
            checks.true(f"{LETTERS:,} letters", answers_to(client, given) == b"".join(wanted))
        ended = daemon.end()
    first = letter(0)
    checks.true("the first", ended.outbox.startswith(empty_outbox().removesuffix(b"QUIT\r\n") + first))
    sealed = b"".join(first.replace(queue_id(0), queue_id(at)).replace(b".0@", b".%d@" % at) for at in range(LETTERS))
    checks.true("all of them, in order", ended.outbox == empty_outbox().replace(b"QUIT\r\n", sealed + b"QUIT\r\n"))
    checks.equal("their number", ended.outbox.count(b"\r\nMessage-ID: "), LETTERS)
    lines = b"".join(b"open B %s 1\n" % queue_id(at) for at in range(OPEN))
    checks.equal("their daemon's notes", ended.notes, line(0, 3 * LETTERS + OPEN) + lines)
    checks.equal("its status", ended.status, 0)


def main():
    checks = Checks("daemon_limits: each limit of a daemon and one step further, and 70,000 letters")
    for check in (keys, outcomes, connections, letters, requests):
        check(checks)
    checks.done()


if __name__ == "__main__":
    main()
