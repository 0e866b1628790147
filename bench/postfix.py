"""Measures a Postfix at load, of this script's own on loopback: messages of one failing recipient each, from the first
that is sent to the last notice that arrives. One side makes the notices by bounce(8), the other by `noticed postfix` in
front of it; they take turns, since a disk's rates swing, and the median of the runs is shown with the bounds between
which they lay. The processor time is that of all of Postfix's processes, and the service's own apart. Postfix's own
smtp-sink takes the place of the servers that refuse the messages and take the notices, so that these cost little. It
needs root and Debian's postfix.

    python3 -m bench.postfix [MESSAGES [RUNS [FOLDER [MILLISECONDS]]]]

MESSAGES is the number of messages of a run (default 2,000), RUNS the number of runs of each side (default 3). The queue
is in FOLDER: with /dev/shm the disk isn't measured. Each sync takes MILLISECONDS more, of Postfix and of the program
(default 0); this needs gcc."""
import os
import re
import signal
import statistics
import subprocess
import sys
import tempfile
import time
from pathlib import Path

from tests.support.preloading import slow_syncs
from tests.support.private_postfix import Postfix, comes_true, free_ports, is_open, lacks
from tests.support.running import program, run

SOURCE, SINK, CLIENTS, PATIENCE = "/usr/sbin/smtp-source", "/usr/sbin/smtp-sink", 8, 300
TICK = os.sysconf("SC_CLK_TCK")
# Where the messages go that are refused; all other mail goes to the sink that takes it.
REFUSED_BY = "inline:{{ {{ example.org = smtp:[127.0.0.1]:{} }} }}"
# What smtp-sink counts: sessions, QUITs, and the messages that it took.
COUNTED = re.compile(rb"mesg=\s*(\d+)")


class Sink:
    """A server that takes all messages, or refuses each recipient, and counts what it took."""

    def __init__(self, refuses=False):
        self.port, self.said = free_ports(1)[0], tempfile.TemporaryFile()
        words = [SINK, "-c", "-u", "nobody", *(["-f", "RCPT"] if refuses else []), f"127.0.0.1:{self.port}", "1000"]
        self.running = subprocess.Popen(words, stdin=subprocess.DEVNULL, stdout=self.said, stderr=subprocess.DEVNULL)

    def taken(self) -> int:
        """How many messages it took so far."""
        # (no seek: the sink writes at the same place of the file)
        size = os.fstat(self.said.fileno()).st_size
        found = COUNTED.findall(os.pread(self.said.fileno(), 200, max(0, size - 200)))
        return int(found[-1]) if found else 0

    def __enter__(self):
        if not comes_true(lambda: is_open(self.port)):
            self.__exit__()
            raise RuntimeError("smtp-sink doesn't listen")
        return self

    def __exit__(self, *_):
        self.running.kill()
        self.running.wait()
        self.said.close()


def processor_time(process: int) -> tuple:
    """The processor seconds of a process so far, and those of its children that have ended."""
    fields = Path(f"/proc/{process}/stat").read_text().rpartition(")")[2].split()
    return (int(fields[11]) + int(fields[12])) / TICK, (int(fields[13]) + int(fields[14])) / TICK


def of_postfix(postfix: Postfix) -> float:
    """The processor seconds of all processes of a Postfix, with those that ended: all are children of its master."""
    return sum(processor_time(it)[0] for it in postfix.processes()) + processor_time(postfix.master.pid)[1]


def of_front(postfix: Postfix) -> float:
    """The processor seconds of the program in front."""
    return sum(processor_time(postfix.front.running.pid)) if postfix.front else 0.0


def one_run(serves, messages: int, place, settings: dict) -> tuple:
    """One run of a side: messages a second, and processor milliseconds a message of Postfix and of the program."""
    with Sink() as box, Sink(refuses=True) as refusing, Postfix(
        box, serves, place=place, transport_maps=REFUSED_BY.format(refusing.port), **settings
    ) as postfix:
        postfix.start()
        before, began = (of_postfix(postfix), of_front(postfix)), time.monotonic()
        words = [
            SOURCE,
            "-d",
            "-s",
            str(CLIENTS),
            "-m",
            str(messages),
            "-l",
            "1000",
            "-f",
            "ann@example.com",
            "-t",
            "no.bob@example.org",
            f"127.0.0.1:{postfix.smtp}",
        ]
        subprocess.run(words, check=True, timeout=PATIENCE, stdout=subprocess.DEVNULL)
        if not comes_true(lambda: box.taken() >= messages, PATIENCE, 0.02):
            raise RuntimeError(f"{box.taken()} notices of {messages}")
        took = time.monotonic() - began
        spent = [
            (after - first) * 1000 / messages for after, first in zip((of_postfix(postfix), of_front(postfix)), before)
        ]
        left = postfix.left(30, empty=True)
        if postfix.front and re.search(
            r"VmSize:\s+\d{10}", Path(f"/proc/{postfix.front.running.pid}/status").read_text()
        ):
            print("  the program was built with a sanitizer: its figures say little", flush=True)
        if left or box.taken() != messages:
            raise RuntimeError(f"{box.taken()} notices of {messages}; left {left[:5]}")
        return (messages / took, *spent)


def shown(figures: list) -> str:
    """The median of the runs, and their bounds."""
    return f"{statistics.median(figures):8.2f} ({min(figures):.2f} to {max(figures):.2f})"


def main():
    missing = lacks() or next((it for it in (SOURCE, SINK) if not os.access(it, os.X_OK)), None)
    if missing:
        sys.exit(f"it needs {missing}")
    signal.signal(signal.SIGTERM, lambda *_: sys.exit(1))
    messages, runs, place, more = [*sys.argv[1:], *("2000", "3", None, "0")[len(sys.argv) - 1 :]]
    sides = {"bounce(8)": None}
    if b"postfix" in run(["postfix"]).notes:
        sides["noticed"] = program()
    figures = {name: [] for name in sides}
    with tempfile.TemporaryDirectory() as room:
        Path(room).chmod(0o755)  # Postfix's account reads the library there
        settings = {} if more == "0" else {"import_environment": f"MAIL_CONFIG {slow_syncs(room, more)}"}
        for _ in range(int(runs)):
            for name, serves in sides.items():
                figures[name].append(one_run(serves, int(messages), place, settings))
    print(
        f"{messages} messages of one failing recipient each, {CLIENTS} clients, {runs} runs of each side: "
        "the median, and the bounds"
    )
    for name, all_of_it in figures.items():
        rate, postfix, front = (shown([it[at] for it in all_of_it]) for at in range(3))
        print(f"  {name}: {rate} messages a second; processor a message: Postfix {postfix} ms, the service {front} ms")
    if "noticed" not in sides:
        print("skipped: noticed (the program has no command `postfix`)")


if __name__ == "__main__":
    main()
