"""Runs the program with standard streams that are closed: no socket gets the descriptor of one, so that no client reads
another sender's notices, and `send` neither reads frames from its socket nor writes its lines into it."""
import itertools
import os
import socket
import subprocess
import tempfile

from tests.support.daemon_and_clients import FRAMES, NOTES, PATIENCE, Daemon, answer, asked, until
from tests.support.faults import fault_line
from tests.support.running import HOST, Checks, program

STREAMS = (0, 1, 2)


def without(streams, words) -> list:
    """The program's words, run by a shell that closes these standard streams."""
    closing = " ".join(f"{it}<&-" if it == 0 else f"{it}>&-" for it in streams)
    return ["sh", "-c", f'exec "$@" {closing}', "sh", program(), *words]


def sockets_of(process: int) -> list:
    """The standard descriptors of a process that are sockets."""
    links = {
        it: os.readlink(f"/proc/{process}/fd/{it}") for it in STREAMS if os.path.exists(f"/proc/{process}/fd/{it}")
    }
    return [it for it, link in links.items() if link.startswith("socket:")]


def daemons(checks: Checks):
    """A daemon without some of its streams: with a client on it, none of these descriptors is a socket, and the client
    hears its answers alone."""
    for streams in itertools.chain.from_iterable(itertools.combinations(STREAMS, count) for count in (1, 2, 3)):
        with tempfile.TemporaryDirectory() as room:
            path = room + "/socket"
            # standard streams that aren't closed are files, so that only sockets of the daemon's own are seen
            with open(os.devnull, "r+b") as null:
                running = subprocess.Popen(
                    without(streams, ["serve", path, HOST, "1", "1"]), stdin=null, stdout=null, stderr=null
                )
            with socket.socket(socket.AF_UNIX) as client:
                client.settimeout(PATIENCE)
                if not until(lambda: client.connect_ex(path) == 0):
                    checks.true(f"without {streams}: a daemon", False)
                    running.kill()
                    continue
                checks.equal(f"without {streams}: the answers", asked(client, FRAMES, 2), answer(1) + answer(7, 1, 1))
                checks.equal(f"without {streams}: sockets", sockets_of(running.pid), [])
                client.shutdown(socket.SHUT_WR)
                checks.equal(f"without {streams}: nothing more comes", client.recv(4096), b"")
            running.wait(timeout=PATIENCE)
            lost = 1 in streams or 2 in streams
            checks.equal(f"without {streams}: the status", running.returncode, 1 if lost else 0)


def sends(checks: Checks):
    """`send` without standard input sends no request and says so; without output its lines are lost."""
    with Daemon(1, 3) as daemon:
        daemon.listens()
        words = ["send", daemon.path]
        asked_nothing = subprocess.run(without([0], words), capture_output=True, timeout=PATIENCE, check=False)
        checks.equal("without its input", (asked_nothing.returncode, asked_nothing.stderr), (1, fault_line(14)))
        told_nothing = subprocess.run(
            without([1], words), input=FRAMES, stderr=subprocess.PIPE, timeout=PATIENCE, check=False
        )
        checks.equal("without its output", (told_nothing.returncode, told_nothing.stderr), (1, fault_line(33)))
        whole = subprocess.run(without([2], words), input=FRAMES, stdout=subprocess.PIPE, timeout=PATIENCE, check=False)
        checks.equal(
            "without standard error", (whole.returncode, len(whole.stdout.splitlines())), (0, len(NOTES.splitlines()))
        )
        daemon.end()


def main():
    checks = Checks("closed_streams: no socket takes the place of a standard stream that is closed")
    for check in (daemons, sends):
        check(checks)
    checks.done()


if __name__ == "__main__":
    main()
