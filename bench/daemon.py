"""Measures `noticed serve` over real sockets, with clients of `noticed send`: requests a second and the daemon's
processor time a request with 1, 4 and 16 clients at once; its memory with 4,096 logs of ten outcomes; and reads and
writes a request (strace -c, left out where that isn't installed).

    python3 -m bench.daemon [REQUESTS]      so many requests in all, 200,000 unless said
"""
import os
import re
import shutil
import subprocess
import sys
import tempfile
import time
from pathlib import Path

from tests.support.daemon_and_clients import Daemon, frames
from tests.support.running import program

LOG = 1000  # outcomes of a log, as many as it takes
KEYS, OUTCOMES = 4096, 10  # of the daemon whose memory is told
TRACED = 2000  # requests that strace counts
TICK = os.sysconf("SC_CLK_TCK")
CALLS = ("read", "write", "recvfrom", "sendto", "recvmsg", "sendmsg")


def appends(client: int, count: int) -> bytes:
    """So many appends of a client, to logs of its own."""
    made = (
        frames.append(at, 1, b"C%dL%d" % (client, at // LOG), b"bob@example.org", 1, b"5.1.1") for at in range(count)
    )
    return b"".join(made)


def send_all(path: str, inputs: list) -> float:
    """Runs a client for each of these inputs, all at once: the seconds until the last has ended."""
    began = time.monotonic()
    clients = []
    for it in inputs:
        with it.open("rb") as given:
            clients.append(subprocess.Popen([program(), "send", path], stdin=given, stdout=subprocess.DEVNULL))
    if any(it.wait() for it in clients):
        raise RuntimeError("a client failed")
    return time.monotonic() - began


def processor_time(pid: int) -> tuple:
    """The processor seconds of a process so far, its own and the system's for it."""
    fields = Path(f"/proc/{pid}/stat").read_text().rpartition(")")[2].split()
    return int(fields[11]) / TICK, int(fields[12]) / TICK


def peak_memory(pid: int) -> int:
    """The most memory that a process has had, in KiB."""
    return int(re.search(r"VmHWM:\s+(\d+)", Path(f"/proc/{pid}/status").read_text())[1])


def speed(room: Path, clients: int, total: int):
    """So many clients at once. (One more agent keeps the daemon there until it was looked at.)"""
    count = total // clients
    inputs = [room / f"client{it}" for it in range(clients)]
    for at, it in enumerate(inputs):
        it.write_bytes(appends(at, count))
    spare = clients < 16
    with Daemon(clients + spare, 1 if spare else 2) as daemon:
        daemon.listens()
        seconds = send_all(daemon.path, inputs)
        own, system = processor_time(daemon.running.pid)
    done = count * clients
    each = 1e6 * (own + system) / done
    print(
        f"{clients} clients: {done} requests in {seconds:.2f} s, {done / seconds:.0f} a second; "
        f"{each:.1f} us of the daemon's processor time each ({1e6 * own / done:.1f} its own, "
        f"{1e6 * system / done:.1f} the system's)"
    )
    sys.stdout.flush()


def memory(room: Path):
    """A daemon with as many logs as it takes, each with ten outcomes."""
    given = room / "logs"
    made = (
        frames.append(at, 1, b"K%d" % (at % KEYS), b"bob@example.org", 1, b"5.1.1") for at in range(KEYS * OUTCOMES)
    )
    given.write_bytes(b"".join(made))
    with Daemon(2, 1) as daemon:
        daemon.listens()
        before = peak_memory(daemon.running.pid)
        send_all(daemon.path, [given])
        after = peak_memory(daemon.running.pid)
        daemon.connect().close()
        lines = daemon.end().notes.count(b"open B K")
    print(
        f"{lines} open logs of {OUTCOMES} outcomes: {after} KiB, {before} KiB before; "
        f"{1024 * (after - before) // (KEYS * OUTCOMES)} bytes an outcome"
    )


def counted(words, **how) -> tuple:
    """A process that is traced, and the file with its counts."""
    counts = tempfile.NamedTemporaryFile()
    trace = ["strace", "-f", "-c", "-e", "trace=" + ",".join(CALLS), "-o", counts.name, *words]
    return subprocess.Popen(trace, **how), counts


def calls_of(counts) -> dict:
    """How often each call was made."""
    rows = [line.split() for line in counts.read().decode().splitlines()]
    return {row[-1]: int(row[3]) for row in rows if row and row[-1] in CALLS}


def calls(room: Path):
    """Reads and writes of a daemon and its client, a request."""
    if not shutil.which("strace"):
        print("skipped: reads and writes (needs strace)")
        return
    given, path = room / "traced", room / "socket"
    given.write_bytes(appends(0, TRACED))
    quiet = {"stdout": subprocess.DEVNULL, "stderr": subprocess.DEVNULL}
    daemon, of_daemon = counted([program(), "serve", str(path), "mx.example.net", "1", "1"], **quiet)
    while not path.exists():
        time.sleep(0.01)
    with given.open("rb") as it:
        client, of_client = counted([program(), "send", str(path)], stdin=it, **quiet)
        client.wait()
    daemon.wait()
    for name, counts in (("daemon", of_daemon), ("client", of_client)):
        found = ", ".join(f"{count / TRACED:.2f} {call}" for call, count in calls_of(counts).items())
        print(f"calls of the {name} a request: {found}")


def main():
    total = int(sys.argv[1]) if len(sys.argv) > 1 else 200_000
    print(f"{len(os.sched_getaffinity(0))} processors, load {os.getloadavg()[0]:.1f}")
    with tempfile.TemporaryDirectory() as name:
        room = Path(name)
        for clients in (1, 4, 16):
            speed(room, clients, total)
        memory(room)
        calls(room)


if __name__ == "__main__":
    main()
