"""What the scripts of tests/ share: the program under test, running it, and counting what failed."""
import json
import os
import subprocess
import sys
from dataclasses import dataclass
from pathlib import Path

sys.dont_write_bytecode = True

ROOT = Path(__file__).resolve().parents[2]
EXAMPLES = ROOT / "examples"
DIST = ROOT / "dist"
VECTORS = ROOT / "vectors"
HOST = "mx.example.net"
LIMIT = 120  # seconds that one run may take


def program() -> str:
    """The program under test: what NOTICED names, else the one that the gate or `make build` left."""
    path = os.environ.get("NOTICED") or str(ROOT / "crates/noticed/out/noticed")
    if not os.access(path, os.X_OK):
        print(f"there is no program {path}: run make build, or name one in NOTICED")
        sys.exit(1)
    return path


@dataclass
class Ran:
    """What one run gave: standard output, standard error and the exit status (negative: stopped by a signal)."""

    outbox: bytes
    notes: bytes
    status: int


def run(words, given=b"", **how) -> Ran:
    """Runs the program with these arguments (text or bytes) on these bytes."""
    if "stdin" not in how:
        how["input"] = given
    how.setdefault("stdout", subprocess.PIPE)
    how.setdefault("stderr", subprocess.PIPE)
    how.setdefault("timeout", LIMIT)
    ended = subprocess.run([program(), *words], check=False, **how)
    return Ran(ended.stdout or b"", ended.stderr or b"", ended.returncode)


def batch(given=b"", **how) -> Ran:
    """Runs `noticed batch mx.example.net` on these bytes."""
    return run(["batch", HOST], given, **how)


@dataclass
class Example:
    """A worked example of vectors/, as its index.json has it."""

    name: str
    shows: str
    files: list
    host: str
    status: int

    def path(self, suffix: str) -> Path:
        """One of its files."""
        return VECTORS / f"{self.name}.{suffix}"

    def bytes(self, suffix: str) -> bytes:
        """What one of its files has."""
        return self.path(suffix).read_bytes()


def examples() -> list:
    """The worked examples."""
    return [Example(**it) for it in json.loads((VECTORS / "index.json").read_text(encoding="utf-8"))["examples"]]


def empty_outbox(host=HOST) -> bytes:
    """The outbox of a run that made no notice."""
    return f"EHLO {host}\r\nQUIT\r\n".encode()


class Checks:
    """Counts what holds, prints what doesn't, and names what was skipped in the last line."""

    def __init__(self, about: str):
        print(about)
        self.held, self.failed, self.skipped = 0, 0, []

    def equal(self, what: str, found, wanted):
        """Checks that two values are equal, and prints both where they aren't."""
        if found == wanted:
            self.held += 1
            return
        self.failed += 1
        print(f"  FAILED: {what}\n    wanted {shown(wanted)}\n    found  {shown(found)}")

    def true(self, what: str, holds):
        """Checks that something holds."""
        self.equal(what, bool(holds), True)

    def skip(self, what: str):
        """Records a part that can't be checked on this machine, and why: such a run must not pass for a whole one."""
        if what not in self.skipped:
            self.skipped.append(what)

    def done(self):
        """Prints the counts, and what was skipped, in one line, and ends the script."""
        skipped = f"; skipped: {'; '.join(self.skipped)}" if self.skipped else ""
        print(f"  {self.held} held, {self.failed} failed{skipped}")
        sys.exit(1 if self.failed else 0)


def shown(value) -> str:
    """A value for a line of a report, cut where it is long."""
    text = repr(value)
    return text if len(text) <= 2000 else f"{text[:2000]}.. ({len(text)} characters)"
