"""Measures crews of 1, 4 and 16 agents over connections in memory (the program probe): requests a second, and
processor time a request.

    python3 -m bench.crew [REQUESTS]      so many requests in all, 400,000 unless said
"""
import os
import resource
import subprocess
import sys
import time
from pathlib import Path

ROOT = Path(__file__).resolve().parents[1]
PROBE = os.environ.get("PROBE") or str(ROOT / "crates/probe/out/probe")


def measured(words) -> tuple:
    """Runs the program: its seconds, and its processor seconds (of its own and of the system for it)."""
    before, began = resource.getrusage(resource.RUSAGE_CHILDREN), time.monotonic()
    ended = subprocess.run([PROBE, *words], stdout=subprocess.PIPE, check=True)
    seconds, after = time.monotonic() - began, resource.getrusage(resource.RUSAGE_CHILDREN)
    if not ended.stdout.startswith(b"ok\n"):
        raise RuntimeError(ended.stdout[:80])
    return seconds, after.ru_utime - before.ru_utime, after.ru_stime - before.ru_stime


def show(what: str, count: int, measure: tuple):
    """One line: so many items of a kind, with what they took."""
    seconds, own, system = measure
    each = 1e6 * (own + system) / count
    print(
        f"{what}: {count} in {seconds:.2f} s, {count / seconds:.0f} a second; "
        f"{each:.2f} us of processor time each ({1e6 * own / count:.2f} its own, "
        f"{1e6 * system / count:.2f} the system's)"
    )
    sys.stdout.flush()


def main():
    total = int(sys.argv[1]) if len(sys.argv) > 1 else 400_000
    print(f"{len(os.sched_getaffinity(0))} processors")
    for agents in (1, 4, 16):
        show(f"requests of {agents} agents", total, measured(["crew", str(agents), str(total // agents)]))


if __name__ == "__main__":
    main()
