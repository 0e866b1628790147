"""A daemon whose clients forget what they close goes on within 4,096 keys: its memory stays where it was, and a request
costs no more late than early.

    python3 -m tests.forgetting [REQUESTS]

Without an argument it makes 60,000 requests. With 10000000 it makes ten million, which takes some minutes.
"""
import os
import sys

from tests.support.daemon_and_clients import Daemon
from tests.support.running import Checks
from vectors import frames

LOGS, MOST, BOUNCE = 4096, 1_000_000, 1
SLACK = 256  # KiB that a process may gain beside what it keeps of requests



def queue_id(turn: int) -> bytes:
    """A queue id of its own for each turn, in no order."""
    return b"K%08d" % (turn * 40_503 % 99_999_989)


def requests(first: int, count: int):
    """The given number of requests and their answers: each key is discarded, and forgotten 4,096 keys later."""
    turn, given, answers = first, [], []
    while len(given) + 1 < count:
        if turn >= LOGS:
            answers.append(b"%d forgotten" % len(given))
            given.append(frames.forget(len(given), BOUNCE, queue_id(turn - LOGS)))
        answers.append(b"%d discarded 0" % len(given))
        given.append(frames.discard(len(given), BOUNCE, queue_id(turn)))
        turn += 1
    return turn, b"".join(given), answers


def used(pid: int):
    """The KiB of memory that a process keeps, and the ticks of processor time that it used."""
    with open(f"/proc/{pid}/status", encoding="ascii") as status:
        kept = next(int(line.split()[1]) for line in status if line.startswith("VmRSS"))
    with open(f"/proc/{pid}/stat", encoding="ascii") as stat:
        times = stat.read().rpartition(")")[2].split()
    return kept, int(times[11]) + int(times[12])


def main():
    asked = int(sys.argv[1]) if len(sys.argv) > 1 else 60_000
    clients = max(3, -(-asked // MOST))
    checks = Checks(f"forgetting: {asked:,} requests in {clients} connections, within {LOGS:,} keys")
    turn, spent = 0, []
    with Daemon(clients, 1) as daemon:
        for client in range(clients):
            turn, given, answers = requests(turn, asked // clients)
            ran = daemon.send(given)
            checks.equal(f"client {client}: answers", ran.outbox.splitlines(), answers)
            checks.equal(f"client {client}: status", ran.status, 0)
            if client + 1 < clients:
                spent.append((*used(daemon.running.pid), len(answers)))
        ended = daemon.end()
    checks.equal("the daemon's status", ended.status, 0)
    checks.true(f"memory stays: {[it[0] for it in spent]} KiB", spent[-1][0] <= spent[0][0] + SLACK)
    seconds = [later[1] - before[1] for before, later in zip([(0, 0, 0), *spent], spent)]
    print(f"  seconds of processor time: {[it / os.sysconf('SC_CLK_TCK') for it in seconds]}")
    checks.done()


if __name__ == "__main__":
    main()
