"""Runs `noticed serve` with many clients at once, random and hostile: they ask what other clients ask too, dribble,
leave within a frame or before an answer, and send what isn't legal. Afterwards the answers, the open logs and the
outbox must be those of one history of requests (tests/support/histories.py).

    python3 -m tests.fuzz_serve [--seconds S] [--runs N] [--seed SEED] [--from INDEX]

What clients send follows from the seed and the run's index; which of them is served first doesn't."""
import argparse
import os
import random
import re
import socket
import sys
import threading
import time

from tests.support.daemon_and_clients import Daemon, heard
from tests.support.formats.bodies import Refused, decoded
from tests.support.formats.logs import REFUSED, SEALED
from tests.support.formats.notices import SERVICE_LETTERS
from tests.support.formats.sessions import OUT_OF_TURN, answer
from tests.support.histories import Asked
from tests.support.histories import Daemon as Done
from tests.support.hostile import Hostile
from tests.support.running import HOST, shown

SECONDS = 5  # in make check
SERIAL_FOLLOWS = b"\0\0\0\x12"  # the length of an answer with a serial
LINE = re.compile(rb"agent (\d+) requests (\d+) connections (\d+) faults (\d+)")
OPEN = re.compile(rb"open (.) (\S+) (\d+)")
SERVICES = {letter: service for service, letter in SERVICE_LETTERS.items()}


class Client:
    """One connection: what it asked, whether its session ended with a fault (None: not known), and what was wrong."""

    def __init__(self, dice: random.Random, keys: list):
        self.dice, self.hostile = dice, Hostile(dice)
        self.hostile.keys = keys
        self.asked, self.fault, self.wrong = [], False, []

    def send(self, stream: socket.socket, given: bytes):
        """Sends bytes, seldom in pieces."""
        if self.dice.random() < 0.1:
            for at in range(0, len(given), 7):
                stream.sendall(given[at : at + 7])
        else:
            stream.sendall(given)

    def end(self, stream: socket.socket, about: str):
        """The daemon must end the session here, with a fault."""
        self.fault = True
        if stream.recv(1) != b"":
            self.wrong.append(f"{about}: the session goes on")

    def expect(self, about: str, found: bytes, wanted: bytes) -> bool:
        """Whether an answer is the one that is due."""
        if found != wanted:
            self.wrong.append(f"{about}: wanted {wanted.hex()}, found {found.hex()}")
        return found == wanted

    def ask(self, stream: socket.socket, position: int) -> bool:
        """Sends the frame of one position and hears the answer; false where the connection is over."""
        number = position if self.dice.random() < 0.98 else position + 1
        body = self.hostile.body(number)
        if self.hostile.chance(self.hostile.faulty / 4):
            body = self.hostile.changed(body) or b"\0"
        frame = len(body).to_bytes(4, "big") + body
        leaves = self.dice.random()
        if leaves < 0.01:
            size = self.dice.choice([0, 65_537, 2**32 - 1])
            self.send(stream, size.to_bytes(4, "big"))
            self.end(stream, f"a length of {size}")
            return False
        if leaves < 0.02:
            self.send(stream, frame[: self.dice.randrange(1, len(frame))])
            self.fault = True
            return False
        return self.whole(stream, position, frame, leaves < 0.04)

    def whole(self, stream: socket.socket, position: int, frame: bytes, leaves: bool) -> bool:
        """Sends a whole frame, and hears its answer unless the client leaves."""
        begun = time.monotonic_ns()
        self.send(stream, frame)
        try:
            request, refused = decoded(frame[4:]), None
        except Refused as why:
            request, refused = None, why.number
        if request and request.number != position:
            refused = OUT_OF_TURN
        if leaves:
            self.fault = True if refused == OUT_OF_TURN else None
            self.asked += [] if refused else [Asked(request, begun)]
            return False
        found = heard(stream, 14)
        found += heard(stream, 8) if found[:4] == SERIAL_FOLLOWS else b""
        if refused:
            goes_on = self.expect("a refusal", found, answer(position, REFUSED, refused)) and refused != OUT_OF_TURN
            if refused == OUT_OF_TURN:
                self.end(stream, "a number out of turn")
            return goes_on
        reply, value = found[5] if len(found) >= 14 else 0, int.from_bytes(found[10:14], "big")
        serial = int.from_bytes(found[14:], "big") if reply == SEALED and frame[4] == 3 else None
        self.asked.append(Asked(request, begun, (reply, value, serial), time.monotonic_ns(), frame[4] == 3))
        return self.expect("an answer", found, answer(position, reply, value, serial))

    def converse(self, stream: socket.socket):
        """The whole connection."""
        with stream:
            for position in range(self.dice.choice([0, 1, 4, 12])):
                if not self.ask(stream, position):
                    return


def converse_all(daemon: Daemon, clients: list):
    """Clients that come one after another, each on a connection of its own."""
    for it in clients:
        try:
            it.converse(daemon.connect())
        except OSError as why:
            it.wrong.append(f"{type(why).__name__}: {why}")


def wrong_counts(lines: list, clients: list, agents: int, uses: int) -> list:
    """What is wrong with the lines of the agents."""
    counted = [tuple(int(it) for it in line.groups()) for line in lines]
    sure, unsure = sum(it.fault is True for it in clients), sum(it.fault is None for it in clients)
    faults = sum(it[3] for it in counted)
    wrong = (
        []
        if [(it[0], it[2]) for it in counted] == [(at, uses) for at in range(agents)]
        else [f"the agents' lines {counted}"]
    )
    return wrong + (
        [] if sure <= faults <= sure + unsure else [f"{faults} faults, where {sure} to {sure + unsure} are due"]
    )


def judged(ran, clients: list, agents: int, uses: int) -> list:
    """What is wrong with a run."""
    wrong = [it for client in clients for it in client.wrong]
    lines = ran.notes.split(b"\n")[:-1]
    lines, others = [LINE.fullmatch(it) for it in lines[:agents]], [OPEN.fullmatch(it) for it in lines[agents:]]
    if ran.status != 0 or None in lines or None in others:
        return [*wrong, f"status {ran.status}, notes {shown(ran.notes)}"]
    wrong += wrong_counts(lines, clients, agents, uses)
    logs = [((SERVICES[it[1]], it[2]), int(it[3])) for it in others]
    done = Done(HOST.encode(), [it.asked for it in clients], sum(int(it[2]) for it in lines), ran.outbox, logs)
    return wrong if wrong or done.is_one_history() else ["no history gives these answers, open logs and outbox"]


def run(seed: str, index: int) -> list:
    """One daemon with its clients: what was wrong."""
    dice = random.Random(f"{seed}/{index}")
    agents, uses = dice.choice([1, 2, 3, 4, 16]), dice.choice([1, 2, 3])
    keys = Hostile(dice).keys[: dice.randint(1, 3)]
    clients = [Client(random.Random(f"{seed}/{index}/{it}"), keys) for it in range(agents * uses)]
    with Daemon(agents, uses) as daemon:
        daemon.listens()
        # as many at once as there are agents, or all of them, so that some wait for an agent
        at_once = dice.choice([agents, len(clients)])
        threads = [threading.Thread(target=converse_all, args=(daemon, clients[at::at_once])) for at in range(at_once)]
        for it in threads:
            it.start()
        for it in threads:
            it.join()
        return judged(daemon.end(), clients, agents, uses)


def options():
    """The command line."""
    reader = argparse.ArgumentParser(description=__doc__.split("\n", maxsplit=1)[0])
    reader.add_argument("--seconds", type=float, default=SECONDS)
    reader.add_argument("--runs", type=int, help="so many daemons, however long they take")
    reader.add_argument("--seed", default=os.urandom(4).hex())
    reader.add_argument("--from", type=int, default=0, dest="first")
    return reader.parse_args()


def main() -> int:
    given, began = options(), time.monotonic()
    print(f"fuzz_serve: random clients of a daemon, whose answers must be one history's, seed {given.seed}")
    index = given.first
    while index - given.first < given.runs if given.runs else time.monotonic() - began < given.seconds:
        wrong = run(given.seed, index)
        if wrong:
            print(f"  FAILED: --seed {given.seed} --from {index} --runs 1, after {time.monotonic() - began:.1f} s")
            print("\n".join(f"    {it}" for it in wrong[:5]))
            return 1
        index += 1
    print(f"  {index - given.first} daemons, each with one history")
    return 0


if __name__ == "__main__":
    sys.exit(main())
