"""Runs `noticed serve` on real sockets, with `noticed send` and with clients of this script's own: one after another,
many at once, and some that send slowly, leave in the middle of a frame, or never read."""
import re
import threading
from pathlib import Path

from tests.support.daemon_and_clients import (
    FRAMES,
    NOTES,
    OUTBOX,
    Daemon,
    answer,
    append,
    asked,
    flush,
    frames,
    heard,
    is_ended,
    line,
)
from tests.support.running import Checks, Ran, empty_outbox


def socket_end_to_end(checks: Checks):
    """An agent and a connection: the client is answered, and the daemon ends with the notice."""
    with Daemon(1, 1) as daemon:
        checks.equal("one client", daemon.send(), Ran(NOTES, b"", 0))
        checks.equal("its daemon", daemon.end(), Ran(OUTBOX, line(0, 2), 0))
        checks.true("the socket's file stays", Path(daemon.path).is_socket())


def two_agents_on_a_socket(checks: Checks):
    """Two agents of one connection each: a client that bounces a message, then one that asks nothing."""
    with Daemon(2, 1) as daemon:
        checks.equal("the first of two clients", daemon.send(), Ran(NOTES, b"", 0))
        checks.equal("the second", daemon.send(b""), Ran(b"", b"", 0))
        ended = daemon.end()
        checks.true("each was another's", ended.notes in (line(0, 2) + line(1, 0), line(0, 0) + line(1, 2)))
        checks.equal("their daemon", (ended.outbox, ended.status), (OUTBOX, 0))


def one_after_another(checks: Checks):
    """One agent serves its connections in turn: the second client waits until the first has left."""
    with Daemon(1, 3) as daemon:
        with daemon.connect() as first, daemon.connect() as second:
            second.sendall(append(0))
            checks.equal("the first is served", asked(first, append(0)), answer(1))
            second.settimeout(0.05)
            try:
                checks.equal("the second is answered too early", second.recv(14), None)
            except TimeoutError:
                checks.true("the second waits", True)
            second.settimeout(5)
            first.close()
            checks.equal("then it is served", heard(second, 14), answer(1, value=1))
        checks.equal(
            "the log goes on over connections", daemon.send(append(0) + flush(1)).outbox, b"0 logged 2\n1 sealed 3\n"
        )
        ended = daemon.end()
        checks.equal("their daemon", (ended.notes, ended.status), (line(0, 4, 3), 0))
        checks.equal(
            "one notice of three outcomes",
            (ended.outbox.count(b"DATA\r\n"), ended.outbox.count(b"Final-Recipient:")),
            (1, 3),
        )


def sixteen(checks: Checks):
    """Sixteen clients at once: each is answered before any of them leaves."""
    with Daemon(16, 1) as daemon:
        daemon.listens()
        clients = [daemon.connect() for _ in range(16)]
        all_in, got = threading.Barrier(16), []

        def ask(client):
            places = [asked(client, append(0))]
            all_in.wait(timeout=10)
            places += [asked(client, append(number)) for number in range(1, 10)]
            client.close()
            got.append(places)

        threads = [threading.Thread(target=ask, args=(client,)) for client in clients]
        for it in threads:
            it.start()
        for it in threads:
            it.join()
        places = [[int.from_bytes(it[-4:], "big") for it in answers] for answers in got]
        checks.true("each client's places rise", all(it == sorted(it) for it in places))
        checks.equal("all places", sorted(sum(places, [])), list(range(160)))
        notes = b"".join(line(agent, 10) for agent in range(16)) + b"open B Q1 160\n"
        checks.equal("their daemon", daemon.end(), Ran(empty_outbox(), notes, 0))


def many_sends(checks: Checks):
    """Eight clients of `noticed send` at once on four agents, a message each."""
    with Daemon(4, 2) as daemon:
        daemon.listens()
        ran = {}

        def send(at):
            ran[at] = daemon.send(append(0, b"M%d" % at) + flush(1, b"M%d" % at))

        threads = [threading.Thread(target=send, args=(at,)) for at in range(8)]
        for it in threads:
            it.start()
        for it in threads:
            it.join()
        checks.equal("eight clients", [ran[at] for at in range(8)], [Ran(b"0 logged 0\n1 sealed 1\n", b"", 0)] * 8)
        ended = daemon.end()
        made = re.findall(rb"Message-ID: <B\.(M\d)\.", ended.outbox)
        checks.equal("a notice each", sorted(made), [b"M%d" % at for at in range(8)])
        checks.equal("their daemon", (ended.notes, ended.status), (b"".join(line(it, 4, 2) for it in range(4)), 0))


def sent_ahead(checks: Checks):
    """A client that sends frames of all lengths before it reads an answer, in pieces of any size: each is answered."""
    reasons = [0, 1, 400, 475, 476, 477, 600, 800, 0, 0, 0, 2, 450]
    sent = [frames.append(at, 1, b"Q1", b"x@y", 1, b"5.0.0", reason=b"r" * it) for at, it in enumerate(reasons)]
    given, pieces = b"".join(sent), (8192, 511, 512, 513, 7)
    with Daemon(1, len(pieces)) as daemon:
        for before, piece in zip(range(0, 1000, len(sent)), pieces):
            with daemon.connect() as client:
                for at in range(0, len(given), piece):
                    client.sendall(given[at : at + piece])
                wanted = b"".join(answer(1, at, before + at) for at in range(len(sent)))
                checks.equal(f"{len(given)} bytes in pieces of {piece}", heard(client, len(wanted)), wanted)
        count = len(sent) * len(pieces)
        checks.equal("their daemon", daemon.end().notes, line(0, count, len(pieces)) + b"open B Q1 %d\n" % count)


def odd_clients(checks: Checks):
    """One agent, five connections: single bytes, a cut frame, a bad length, a number out of turn, and a flush."""
    with Daemon(1, 5) as daemon:
        with daemon.connect() as client:
            for at in range(len(FRAMES) - 56):
                client.sendall(FRAMES[at : at + 1])
            checks.equal("bytes one by one", heard(client, 14), answer(1))
        with daemon.connect() as client:
            client.sendall(append(0) + flush(1)[:8])
            checks.equal("a client that leaves in the middle of a frame", heard(client, 14), answer(1))
        with daemon.connect() as client:
            client.sendall(bytes(4))
            checks.true("an empty frame", is_ended(client))
        with daemon.connect() as client:
            checks.equal("a number out of turn", asked(client, flush(5)), answer(10, 0, 46))
            checks.true("ends the connection", is_ended(client))
        with daemon.connect() as client:
            refused = frames.frame(bytes(9))
            checks.equal("a body that is refused", asked(client, refused), answer(10, 0, 21))
            checks.equal("leaves the connection", asked(client, flush(1)), answer(7, 1, 1))
        ended = daemon.end()
        checks.equal("their daemon", (ended.notes, ended.status), (line(0, 3, 5, 3) + b"open B A1B2C3 1\n", 0))
        checks.equal("a notice", ended.outbox.count(b"DATA\r\n"), 1)


def cut_and_flushed(checks: Checks):
    """A first connection that is cut within its second frame, and a second one that flushes the log."""
    with Daemon(1, 2) as daemon:
        with daemon.connect() as client:
            checks.equal("the cut one", asked(client, FRAMES[:60]), answer(1))
        with daemon.connect() as client:
            checks.equal("the second", asked(client, flush(0, b"A1B2C3")), answer(7, 0, 1))
        checks.equal("their daemon", daemon.end(), Ran(OUTBOX, line(0, 2, 2, 1), 0))


def never_reads(checks: Checks):
    """A client that asks and never reads holds up its own agent alone; once it has left, that counts as a fault."""
    with Daemon(2, 1) as daemon:
        silent = daemon.connect()
        silent.settimeout(0.2)
        sent = 0
        try:
            for number in range(100_000):
                silent.sendall(append(number, b"S1"))
                sent += 1
        except TimeoutError:
            checks.true("its agent stops to read", sent > 10)
        checks.equal("the other agent serves", daemon.send(append(0) + flush(1)).outbox, b"0 logged 0\n1 sealed 1\n")
        checks.equal("the daemon waits", daemon.running.poll(), None)
        silent.close()
        ended = daemon.end()
        found = re.fullmatch(
            rb"agent 0 requests (\d+) connections 1 faults (\d)\n"
            rb"agent 1 requests (\d+) connections 1 faults (\d)\n"
            rb"open B S1 (\d+)\n",
            ended.notes,
        )
        checks.true("its notes", found and ended.status == 0)
        if found:
            counts = sorted([(int(found[2]), int(found[1])), (int(found[4]), int(found[3]))])
            checks.equal("the other client", counts[0], (0, 2))
            checks.true("a fault of the silent one", counts[1][0] == 1 and 1 <= counts[1][1] <= sent + 1)
            checks.equal("what it asked is logged", int(found[5]), min(counts[1][1], 1000))


def stopped(checks: Checks):
    """A daemon that is stopped by a signal keeps the notices that it wrote, and says nothing."""
    with Daemon(1, 2) as daemon:
        daemon.send()
        with daemon.connect() as client:
            checks.equal("an open log", asked(client, append(0)), answer(1))
            daemon.has_written(len(OUTBOX) - len(b"QUIT\r\n"))
            ended = daemon.stop()
        checks.equal("stopped by a signal", ended, Ran(OUTBOX.removesuffix(b"QUIT\r\n"), b"", -15))


def main():
    checks = Checks("daemon: serve and send over real sockets, clients in turn, at once, slow, cut off and silent")
    for check in (
        socket_end_to_end,
        two_agents_on_a_socket,
        one_after_another,
        sixteen,
        many_sends,
        sent_ahead,
        odd_clients,
        cut_and_flushed,
        never_reads,
        stopped,
    ):
        check(checks)
    checks.done()


if __name__ == "__main__":
    main()
