"""Changes each byte of the first exchange to each other value, and compares what comes of it with a plain reading of
noticed-protocol(5): on standard input, and on connections to a daemon, one after another."""
import os
from concurrent.futures import ThreadPoolExecutor

from tests.support.daemon_and_clients import Daemon, conversation, line
from tests.support.formats import sessions
from tests.support.formats.logs import REFUSED, Limits, Logs
from tests.support.formats.notices import outbox
from tests.support.running import HOST, VECTORS, Checks, Ran, batch


def changes(given: bytes) -> list:
    """All texts that differ from one in a byte."""
    return [
        given[:at] + bytes([byte]) + given[at + 1 :]
        for at in range(len(given))
        for byte in range(256)
        if byte != given[at]
    ]


def check_batch(checks: Checks, changed: list):
    """Each change on standard input."""
    with ThreadPoolExecutor(os.cpu_count()) as pool:
        for given, found in zip(changed, pool.map(batch, changed)):
            checks.equal(f"batch: {given.hex()}", found, sessions.batch(HOST.encode(), given))


def session(given: bytes, logs: Logs, letters: list):
    """The answers on a connection, how many requests it had accepted, and whether it ended with a fault."""
    answers, accepted, fault = [], 0, 0
    try:
        for answered in sessions.answers(given, logs, letters):
            answers.append(sessions.answer(*answered))
            accepted += answered[1] != REFUSED
    except sessions.Fault:
        fault = 1
    return b"".join(answers), accepted, fault


def check_daemon(checks: Checks, changed: list):
    """Each change on a connection of its own to one agent, whose logs stay from one connection to the next."""
    logs, letters, requests, faults = Logs(Limits()), [], 0, 0
    with Daemon(1, len(changed)) as daemon:
        for given in changed:
            wanted, accepted, fault = session(given, logs, letters)
            requests, faults = requests + accepted, faults + fault
            checks.equal(f"serve: {given.hex()}", conversation(daemon.connect(), given), wanted)
        notes = line(0, requests, len(changed), faults) + b"".join(sessions.open_lines(logs))
        checks.equal("serve: the end", daemon.end(), Ran(outbox(HOST.encode(), letters), notes, 0))


def main():
    checks = Checks("changed bytes: each byte of the first exchange as each other byte")
    changed = changes((VECTORS / "one-bounce.frames").read_bytes())
    check_batch(checks, changed)
    check_daemon(checks, changed)
    checks.done()


if __name__ == "__main__":
    main()
