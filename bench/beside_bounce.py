"""Measures appends that are kept: `noticed serve --journal` beside Postfix's own bounce(8), on the same disk, with 1, 4
and 16 clients at once (bench/appends.c), each of which waits for an answer before it asks again. A client of bounce(8)
makes a connection for each request, as Postfix's programs do; those of the daemon keep theirs, and in runs of their own
make one for each request too. All take turns, since a disk's rates swing: the median of the runs is shown, and between
which bounds they lay. It needs gcc, and as root Debian's postfix, of which it runs an instance of its own, without mail.

    python3 -m bench.beside_bounce [REQUESTS [FOLDER [MILLISECONDS]]]

REQUESTS is the number of requests of a run (default 8,000). FOLDER is on the disk to be measured (default /var/tmp);
Postfix's account must be able to reach it. Each sync takes MILLISECONDS more (default 0).
"""
import os
import shutil
import statistics
import subprocess
import sys
import tempfile
import time
from pathlib import Path

from tests.support.preloading import slow_syncs
from tests.support.running import ROOT, program
from vectors import frames

CLIENTS, RUNS, LOG = (1, 4, 16), 5, 100  # a log has so many outcomes
HEARD = b"550 5.1.1 <no.bob>: no such user here"
REASON = b"host 127.0.0.1[127.0.0.1] said: " + HEARD + b" (in reply to RCPT TO command)"
MAIN = """compatibility_level = 3.6
queue_directory = {room}/queue
data_directory = {room}/data
daemon_directory = /usr/lib/postfix/sbin
command_directory = /usr/sbin
mail_owner = postfix
setgid_group = postdrop
myhostname = mx.example.net
mydestination =
inet_interfaces = loopback-only
alias_maps =
maillog_file = {room}/log
maillog_file_prefixes = {room}
import_environment = MAIL_CONFIG {slow}
"""
MASTER = "bounce unix - - n - 0 bounce\npostlog unix-dgram n - n - 1 postlogd\n"


def queue_id(run: int, client: int, at: int) -> bytes:
    """The id of the message that an outcome is of: no two runs or clients share one."""
    return b"4%03X%02X%06X" % (run, client, at // LOG)


def frame(run: int, client: int, at: int, number: int | None = None) -> bytes:
    """An append as the daemon takes it, with the number that it has in its session."""
    recipient = b"no.bob%d@example.org" % at
    return frames.append(
        at if number is None else number,
        1,
        queue_id(run, client, at),
        recipient,
        1,
        b"5.1.1",
        b"rfc822;" + recipient,
        b"127.0.0.1",
        HEARD,
        b"",
    )


def first_frame(run: int, client: int, at: int) -> bytes:
    """The same append as the first of its session."""
    return frame(run, client, at, 0)


def request(run: int, client: int, at: int) -> bytes:
    """The same append as bounce(8) takes it, behind its length."""
    recipient = b"no.bob%d@example.org" % at
    names = [
        (b"nrequest", b"0"),
        (b"flags", b"0"),
        (b"queue_id", queue_id(run, client, at)),
        (b"original_recipient", recipient),
        (b"recipient", recipient),
        (b"offset", b"727"),
        (b"dsn_orig_rcpt", b"rfc822;" + recipient),
        (b"notify_flags", b"0"),
        (b"status", b"5.1.1"),
        (b"diag_type", b"smtp"),
        (b"diag_text", HEARD),
        (b"mta_type", b"dns"),
        (b"mta_mname", b"127.0.0.1"),
        (b"action", b"failed"),
        (b"reason", REASON),
    ]
    body = b"".join(name + b"\0" + value + b"\0" for name, value in names) + b"\0"
    return len(body).to_bytes(4, "big") + body


def rate(room: Path, kind: str, socket: Path, made, run: int, clients: int, total: int) -> float:
    """So many clients ask at once: the requests a second that were kept."""
    files = [room / f"{kind}{it}" for it in range(clients)]
    for client, file in enumerate(files):
        file.write_bytes(b"".join(made(run, client, at) for at in range(total // clients)))
    ended = subprocess.run([room / "appends", kind, socket, *files], stdout=subprocess.PIPE, check=True, text=True)
    kept, seconds = ended.stdout.split()
    if int(kept) != total // clients * clients:
        raise RuntimeError(f"{kept} of {total} requests were kept")
    return int(kept) / float(seconds)


def of_daemon(room: Path, kind: str, made, run: int, clients: int, total: int) -> float:
    """Those of a daemon over a new journal, once it has answered a first request."""
    folder, socket = Path(tempfile.mkdtemp(dir=room)), room / "socket"
    words = [program(), "serve", "--journal", folder, "--outbox", folder / "outbox"]
    words += [socket, "mx.example.net", clients, total + 1]
    with subprocess.Popen(list(map(str, words)), stdout=subprocess.DEVNULL, stderr=subprocess.DEVNULL) as daemon:
        while not socket.exists():
            time.sleep(0.01)
        rate(room, "sessions", socket, first_frame, 0, 1, 1)
        found = rate(room, kind, socket, made, 1 + run, clients, total)
        daemon.kill()
    shutil.rmtree(folder)
    socket.unlink()
    return found


class Postfix:
    """An instance of Postfix that has no more than its bounce(8)."""

    def __init__(self, room: Path, slow: str):
        self.conf, self.queue = room / "conf", room / "queue"
        for it in (self.conf, self.queue, room / "data"):
            it.mkdir()
        shutil.chown(room / "data", "postfix")
        (self.conf / "main.cf").write_text(MAIN.format(room=room, slow=slow))
        (self.conf / "master.cf").write_text(MASTER)

    def ask(self, word: str):
        subprocess.run(
            ["postfix", "-c", self.conf, word], check=True, stdout=subprocess.DEVNULL, stderr=subprocess.DEVNULL
        )

    def __enter__(self):
        self.ask("start")
        while not (self.queue / "private/bounce").exists():
            time.sleep(0.01)
        return self.queue / "private/bounce"

    def __exit__(self, *how):
        self.ask("stop")


def shown(rates: list) -> str:
    """The median of some rates, and their bounds."""
    return f"{statistics.median(rates):,.0f} ({min(rates):,.0f} to {max(rates):,.0f})"


def compare(room: Path, bounce: Path, clients: int, total: int):
    """Runs of all sides in turns with so many clients, and what they gave."""
    found = {"noticed": [], "noticed, reconnecting": [], "bounce(8)": []}
    for run in range(RUNS):
        found["noticed"].append(of_daemon(room, "frames", frame, run, clients, total))
        found["noticed, reconnecting"].append(of_daemon(room, "sessions", first_frame, run, clients, total))
        found["bounce(8)"].append(rate(room, "requests", bounce, request, 16 * clients + run, clients, total))
    rates = "; ".join(f"{name} {shown(rates)} a second" for name, rates in found.items())
    print(f"{clients} clients: {rates}", flush=True)


def main():
    given = dict(enumerate(sys.argv[1:]))
    total, place, more = int(given.get(0, 8_000)), given.get(1, "/var/tmp"), given.get(2, "0")
    if os.geteuid() or not shutil.which("postfix") or not shutil.which("gcc"):
        sys.exit("this needs root, gcc and Debian's postfix: apt-get install postfix gcc")
    print(f"{len(os.sched_getaffinity(0))} processors, load {os.getloadavg()[0]:.1f}")
    with tempfile.TemporaryDirectory(dir=place) as name:
        room = Path(name).resolve()
        room.chmod(0o755)
        subprocess.run(
            ["gcc", "-O2", "-Wall", "-Wextra", "-pthread", "-o", room / "appends", ROOT / "bench/appends.c"], check=True
        )
        with Postfix(room, "" if more == "0" else slow_syncs(room, more)) as bounce:
            for clients in CLIENTS:
                compare(room, bounce, clients, total)


if __name__ == "__main__":
    main()
