"""Checks `serve --idle`: a client that says nothing, reads nothing, or is at one frame for so long is cut off, and its
agent serves the next one; while others wait, a connection that has had its turn makes room for one of them. Without the
option no connection is ended."""
import contextlib
import threading
import time

from tests.support.daemon_and_clients import Daemon, answer, append, asked, flush, is_ended, line, until
from tests.support.running import Checks, run

IDLE = ("--idle", "2")
LONG = ("--idle", "120")
MANY = 80  # clients that hold connections
GAP = 1.2  # seconds between two bytes of a slow client, of which each is more than one look of the daemon's


def silent(checks: Checks):
    """A client that never says anything, and one that does so after an answer: each is a connection with a fault."""
    with Daemon(1, 3, options=IDLE) as daemon:
        daemon.listens()
        began = time.monotonic()
        with daemon.connect() as client:
            checks.true("a client that says nothing is cut off", is_ended(client))
            checks.true("after two seconds, and not after one", time.monotonic() - began > 1.5)
        with daemon.connect() as next_one:
            checks.equal("the next one is served", asked(next_one, append(0)), answer(1))
            checks.true("and cut off too", is_ended(next_one))
        with daemon.connect() as client:
            checks.equal("the log is as it was", asked(client, flush(0)), answer(7, 0, 1))
        ended = daemon.end()
        checks.equal("the notes", (ended.notes, ended.status), (line(0, 2, 3, 2), 0))


def silent_in_a_frame(checks: Checks):
    """A client that stops in the middle of a frame."""
    with Daemon(1, 1, options=IDLE) as daemon:
        with daemon.connect() as client:
            client.sendall(append(0)[:-1])
            checks.true("in the middle of a frame", is_ended(client))
        checks.equal("in the middle of a frame: the notes", daemon.end().notes, line(0, 0, 1, 1))


def slow(checks: Checks):
    """A client that is silent for almost the limit before each frame, and takes almost the limit for it, is served."""
    with Daemon(1, 1, options=("--idle", "5")) as daemon:
        with daemon.connect() as client:
            for number in range(2):
                time.sleep(3)
                for at in range(3):
                    client.sendall(append(number)[at : at + 1])
                    time.sleep(GAP)
                checks.equal(
                    f"a slow client: frame {number}", asked(client, append(number)[3:]), answer(1, number, number)
                )
        checks.equal("a slow client: no fault", daemon.end().notes, line(0, 2) + b"open B Q1 2\n")


def trickle(client):
    """Sends a frame a byte at a time, until the daemon cuts it off."""
    with contextlib.suppress(ConnectionError):
        for at in range(200):
            client.sendall(append(0)[at % 20 : at % 20 + 1])
            time.sleep(0.3)


def slow_clients(checks: Checks):
    """Eight clients that give a byte now and then hold all eight agents: each is cut off once it has had the limit for
    one frame, so a good client is answered soon after."""
    with Daemon(8, 100, options=("--idle", "2", "--log")) as daemon, contextlib.ExitStack() as stack:
        daemon.listens()
        slow_ones = [stack.enter_context(daemon.connect()) for _ in range(8)]
        threads = [threading.Thread(target=trickle, args=(client,)) for client in slow_ones]
        for thread in threads:
            thread.start()
        time.sleep(0.5)
        began = time.monotonic()
        with daemon.connect() as good:
            checks.equal("a good client beside eight slow ones", asked(good, append(0)), answer(1))
        checks.true("within the limit, and a second to look", time.monotonic() - began < 4)
        for thread in threads:
            thread.join()
        run(["stop", daemon.path])
        cut_off = daemon.end().notes.splitlines().count(b"client cut off: no whole frame for 2 s")
        checks.equal("each slow client has a line", cut_off, 8)


class Holder(threading.Thread):
    """A client that asks now and then, each time about a key of its own, and connects anew if the daemon ended its
    connection. It counts the answers: each request that isn't answered is asked again."""

    def __init__(self, daemon: Daemon, name: bytes, pause: float):
        super().__init__()
        self.daemon_at, self.named, self.pause = daemon, name, pause
        self.over, self.answers, self.ended = threading.Event(), [], 0

    def run(self):
        while not self.over.is_set():
            with self.daemon_at.connect() as client:
                self.ask_on(client)

    def ask_on(self, client):
        """Asks on one connection until it ends, or all is over."""
        number = 0
        while not self.over.is_set():
            got = b""
            with contextlib.suppress(ConnectionError):
                got = asked(client, append(number, self.named))
            if got == b"":
                self.ended += 1
                return
            self.answers.append(int.from_bytes(got[10:], "big"))
            number += 1
            self.over.wait(self.pause)


def turns(checks: Checks):
    """Eight clients that ask now and then hold all eight agents: while others wait, a connection that has had its turn
    ends between two frames. A good client is served soon, and no outcome of the others is lost or logged twice."""
    for pause in (0.3, 30):
        with Daemon(8, 1000, options=LONG) as daemon:
            daemon.listens()
            holders = [Holder(daemon, b"H%d" % at, pause) for at in range(8)]
            for holder in holders:
                holder.start()
            checks.true("all eight are served", until(lambda: all(it.answers for it in holders)))
            waits = []
            for at in range(3):
                began = time.monotonic()
                with daemon.connect() as good:
                    checks.equal(f"a good client, pause {pause}", asked(good, append(0, b"G%d" % at)), answer(1))
                waits.append(time.monotonic() - began)
            checks.true(f"soon: {waits}", max(waits) < 5)
            if pause < 1:
                checks.true("some made room", until(lambda: any(it.ended for it in holders)))
            for holder in holders:
                holder.over.set()
            for holder in holders:
                holder.join()
            run(["stop", daemon.path])
            checks.true(
                "each outcome stands once, in its order",
                all(it.answers == list(range(len(it.answers))) for it in holders),
            )
            notes = daemon.end().notes
            checks.true("no connection had a fault", all(it.endswith(b" faults 0") for it in notes.splitlines()[:8]))


def turns_of_many(checks: Checks):
    """Many clients that hold connections, and wait for agents, don't keep a good client waiting for long."""
    with Daemon(8, 100_000, options=LONG) as daemon:
        daemon.listens()
        holders = [Holder(daemon, b"H%d" % at, 5) for at in range(MANY)]
        for holder in holders:
            holder.start()
        checks.true("each is served", until(lambda: all(it.answers for it in holders)))
        began = time.monotonic()
        with daemon.connect() as good:
            checks.equal(f"a good client beside {MANY}", asked(good, append(0, b"G")), answer(1))
        took = time.monotonic() - began
        checks.true(f"soon: {took:.1f}", took < 10)
        for holder in holders:
            holder.over.set()
        for holder in holders:
            holder.join()
        orders = [it.answers == list(range(len(it.answers))) for it in holders]
        checks.true("each outcome stands once, in its order, beside many", all(orders))
        run(["stop", daemon.path])
        daemon.end()


def turns_of_fewer_agents(checks: Checks):
    """An agent that has had all its connections isn't waited for: the other one makes room."""
    with Daemon(2, 3, options=LONG) as daemon, daemon.connect() as holder:
        checks.equal("the one that holds", asked(holder, append(0, b"H")), answer(1))
        for at in range(3):
            with daemon.connect() as other:
                checks.equal(f"client {at}", asked(other, append(0, b"O%d" % at)), answer(1))
        began = time.monotonic()
        with daemon.connect() as good:
            checks.equal("one more", asked(good, append(0, b"G")), answer(1))
        took = time.monotonic() - began
        checks.true(f"one more, soon: {took:.1f}", took < 5)
        checks.true("the one that held made room", is_ended(holder))


def kept_without(checks: Checks):
    """Without the option a connection goes on although others wait."""
    with Daemon(1, 2) as daemon, daemon.connect() as one:
        checks.equal("the first request", asked(one, append(0)), answer(1))
        with daemon.connect() as other:
            other.sendall(append(0, b"O"))
            for at in range(1, 4):
                time.sleep(0.7)
                checks.equal("a later one, while another waits", asked(one, append(at)), answer(1, at, at))
            one.close()
            checks.equal("then the other", asked(other, b""), answer(1))


def no_turns(checks: Checks):
    """While nobody waits, a silent client is kept, also beside an agent that is free."""
    with Daemon(2, 10, options=LONG) as daemon, daemon.connect() as one:
        checks.equal("the first request", asked(one, append(0)), answer(1))
        for at in range(1, 4):
            time.sleep(1.1)
            with daemon.connect() as other:
                asked(other, append(0, b"O%d" % at))
            checks.equal("a later one", asked(one, append(at)), answer(1, at, at))


def never_reads(checks: Checks):
    """A client that asks and never reads its answers: both sides wait to write, and the daemon ends it."""
    with Daemon(1, 1, options=IDLE) as daemon:
        with daemon.connect() as client:
            cut_off = False
            try:
                client.sendall(b"".join(append(number) for number in range(100_000)))
            except ConnectionError:
                cut_off = True
            checks.true("a client that never reads is cut off", cut_off)
            ended = daemon.end()
        checks.true(
            "a client that never reads: the notes",
            ended.notes.startswith(b"agent 0 requests") and b"connections 1 faults 1\n" in ended.notes,
        )


def no_limit(checks: Checks):
    """Without the option a silent client is waited for."""
    with Daemon(1, 1) as daemon:
        with daemon.connect() as client:
            time.sleep(3.5)
            checks.equal("without a limit", asked(client, append(0)), answer(1))
        checks.equal("without a limit: no fault", daemon.end().notes, line(0, 1) + b"open B Q1 1\n")


def main():
    checks = Checks("idle: clients that say or read nothing are cut off where a limit is given")
    turning = (turns, turns_of_many, turns_of_fewer_agents, no_turns, kept_without)
    for check in (silent, silent_in_a_frame, slow, slow_clients, *turning, never_reads, no_limit):
        check(checks)
    checks.done()


if __name__ == "__main__":
    main()
