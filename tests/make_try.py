"""Checks `make try`, with a stand-in for `rt try` that runs the built program on the same two cases: it shows the
answers and the notices of both, says before and after them that nothing was proved, and fails where a run fails."""
import os
import subprocess
import tempfile
from pathlib import Path

from tests.support.running import ROOT, VECTORS, Checks, program

PATIENCE = 120  # seconds that one run of make may take
TRIES = """#!/usr/bin/env python3
import os, subprocess, sys
assert sys.argv[1:3] == ["try", "--cases"] and os.path.isfile("src/main.rt")
status = int(os.environ["STATUS"])
for name in sorted(it for it in os.listdir(sys.argv[3]) if not it.endswith(".args")):
    path = f"{sys.argv[3]}/{name}"
    with open(path, "rb") as given, open(f"{path}.args") as arguments:
        words = [os.environ["TRIED"], *arguments.read().splitlines()]
        ran = subprocess.run(words, stdin=given, capture_output=True, text=True, check=False)
    print(f"== {name}\\n{ran.stdout}", end="")
    print(f"{ran.stderr}case={name} run=ended status={status or ran.returncode} runners=1 proved=no", file=sys.stderr)
print("cases=2 ended=2 proved=no", file=sys.stderr)
"""
ANSWERS = [
    "flush . bounce A1B2C3 return=ann@example.com moment=1700000000 arrival=1699996400 wording=outcome\n"
    "    -> sealed 2\n",
    "flush . defer D4E5F6 return=sue@example.com moment=1700000000 arrival=1699996400 wording=outcome\n"
    "    -> sealed 1\n"
    "append . defer D4E5F6 kim@example.net delayed 4.4.1\n    -> closed\n",
]


def tried(status: int) -> subprocess.CompletedProcess:
    """A run of `make try` whose runs have this status."""
    with tempfile.TemporaryDirectory(prefix="noticed-") as name:
        stand_in = Path(name) / "rt"
        stand_in.write_text(TRIES)
        stand_in.chmod(0o755)
        environment = {**os.environ, "STATUS": str(status), "TRIED": program()}
        words = ["make", "--silent", "try", f"RT={stand_in}"]
        return subprocess.run(
            words, cwd=ROOT, env=environment, capture_output=True, text=True, check=False, timeout=PATIENCE
        )


def main():
    checks = Checks("make try: what it shows, and that it says that nothing was proved")
    ran = tried(0)
    lines = ran.stdout.splitlines()
    checks.equal("its status", (ran.returncode, ran.stderr), (0, ""))
    checks.true("first it says that nothing is proved", "proves NOTHING" in lines[0])
    checks.true("and last", lines[-1].startswith("Nothing was proved."))
    checks.true("the answers of batch", (VECTORS / "one-bounce.notes").read_text() in ran.stdout)
    checks.true("its outbox", (VECTORS / "one-bounce.outbox").read_text().replace("\r\n", "\n") in ran.stdout)
    for it in ANSWERS:
        checks.true(f"the daemon's answers: {it.splitlines()[0]}", it in ran.stdout)
    for it in ("ann@example.com", "sue@example.com"):
        checks.true(f"the daemon's notice to {it}", f"RCPT TO:<{it}>" in ran.stdout.partition("== Daemon")[2])
    ran = tried(1)
    checks.equal(
        "a run that fails",
        (ran.returncode, ran.stdout.splitlines()[-1]),
        (2, "the program could not be compiled or run, or a run failed"),
    )
    checks.done()


if __name__ == "__main__":
    main()
