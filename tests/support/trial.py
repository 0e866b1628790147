"""What `make try` runs: the demo without a proof. `rt try` compiles the program once, with checks that stop it at an
index out of bounds, an overflow or a bad access, and runs it twice: `batch` on an example, then a daemon of two agents.
The daemon's two clients are this script's, in the place of `noticed send`. Nothing is proved by it, and no program is
kept. Its status is 0 if both runs ended with status 0."""
import os
import re
import shutil
import socket
import struct
import subprocess
import sys
import tempfile
import threading
import time
from pathlib import Path

from tests.support.daemon_and_clients import heard
from tests.support.formats.sessions import WORDS
from tests.support.running import EXAMPLES, HOST, ROOT, VECTORS
from vectors import frames

RT = os.environ.get("RT") or "rt"
EXAMPLE = "one-bounce.frames"
RUNS = ("batch", "daemon")  # in this order
MOMENT = 0.05  # seconds between two looks for the socket
PATIENCE = 60  # seconds that an answer may take
CASE = re.compile(r"^case=(\w+) run=(.*)\n", re.MULTILINE)


def prepared(room: Path):
    """Writes what the two runs are given: the input, and the arguments."""
    cases = room / "cases"
    cases.mkdir()
    shutil.copy(VECTORS / EXAMPLE, cases / "batch")
    (cases / "batch.args").write_text(f"batch\n{HOST}\n")
    (cases / "daemon").touch()
    (cases / "daemon.args").write_text(f"serve\n{room}/socket\n{HOST}\n2\n1\n")


class Client(threading.Thread):
    """A client of the daemon: it asks the requests of a file of examples/demo, one at a time."""

    def __init__(self, name: str, room: Path, tried: subprocess.Popen):
        super().__init__(daemon=True)
        self.lines = (EXAMPLES / "demo" / f"{name}.requests").read_text().splitlines()
        self.named, self.socket, self.tried, self.answers = name, room / "socket", tried, []

    def run(self):
        while not self.socket.exists():
            if self.tried.poll() is not None:
                return
            time.sleep(MOMENT)
        try:
            self.ask()
        except OSError as why:
            self.answers.append(f"no answer: {why}")

    def ask(self):
        """Asks all, once the daemon is there."""
        with socket.socket(socket.AF_UNIX, socket.SOCK_STREAM) as stream:
            stream.settimeout(PATIENCE)
            stream.connect(str(self.socket))
            for frame in frames.frames_in(self.lines):
                stream.sendall(frame)
                size = int.from_bytes(heard(stream, 4), "big")  # that of version 3 has the notice's serial, too
                answer = heard(stream, size)
                if size < 10 or len(answer) < size:
                    raise ConnectionError("the connection ended")
                reply, _, value = struct.unpack(">BII", answer[1:10])
                words = WORDS[reply].decode()
                self.answers.append(words % value if "%" in words else words)

    def show(self):
        """Prints each request with its answer."""
        print(f"\n== The {self.named} client of two at once, and its answers")
        for at, line in enumerate(self.lines):
            print(f"{line}\n    -> {self.answers[at] if at < len(self.answers) else 'none'}")


def parts_of(said: str, notes: str) -> dict:
    """What each run wrote to standard output and to standard error, and how it ended: `rt try` shows the first under
    headings, and a line that begins with case= after each of the second."""
    found = re.split(r"^== (\w+)\n", said, flags=re.MULTILINE)
    outboxes = dict(zip(found[1::2], found[2::2]))
    parts, begun = {}, 0
    for it in CASE.finditer(notes):
        parts[it[1]] = outboxes.get(it[1], ""), notes[begun : it.start()], it[2]
        begun = it.end()
    return parts


def show(parts: dict, clients: list):
    """Prints both runs."""
    outbox, notes, end = parts["batch"]
    print(f"\n== Answers: standard error of 'noticed batch {HOST}' on vectors/{EXAMPLE}\n{notes}")
    print(f"== Outbox: standard output, an SMTP client's side with the notice in it\n{outbox}")
    print(f"== End: {end}\n\n== Daemon: noticed serve socket {HOST} 2 1")
    for it in clients:
        it.show()
    outbox, notes, end = parts["daemon"]
    print(f"\n== Notes of the daemon, which has served its connections\n{notes}\n== Outbox\n{outbox}\n== End: {end}")


def main() -> int:
    print(
        "make try proves NOTHING: the program is compiled with checks and run, by rt try; "
        "that takes a minute or two ..",
        flush=True,
    )
    with tempfile.TemporaryDirectory(prefix="noticed-try-") as name:
        room = Path(name)
        prepared(room)
        words = [RT, "try", "--cases", str(room / "cases")]
        how = {
            "stdin": subprocess.DEVNULL,
            "stdout": subprocess.PIPE,
            "stderr": subprocess.PIPE,
            "text": True,
            "errors": "replace",
        }
        with subprocess.Popen(words, cwd=ROOT / "crates/noticed", **how) as tried:
            clients = [Client(it, room, tried) for it in ("first", "second")]
            for it in clients:
                it.start()
            said, notes = tried.communicate()
            for it in clients:
                it.join()
    parts = parts_of(said, notes)
    ended = (
        tried.returncode == 0
        and set(parts) == set(RUNS)
        and all("run=ended status=0" in f"run={it[2]}" for it in parts.values())
    )
    if not ended:
        print(f"{said}{notes}the program could not be compiled or run, or a run failed")
        return 1
    show(parts, clients)
    print("\nNothing was proved. make demo proves and builds the program, and shows the same.")
    return 0


if __name__ == "__main__":
    sys.exit(main())
