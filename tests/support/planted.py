"""Shows that the fuzzers find faults: plants small wrong edits into a copy of the plain reading, one at a time, and
runs the fuzzer that must tell it from the program within ten seconds. `make planted` runs it; it isn't part of
`make check`."""
import os
import shutil
import subprocess
import sys
import tempfile
import time
from pathlib import Path

from tests.support.running import program

TESTS = Path(__file__).resolve().parents[1]
SECONDS = 10

# (fuzzer, file below tests/support/, what stands there once, what is put in its place)
EDITS = [
    ("batch", "formats/bodies.py", 'rb"[!-;=?-~]{1,256}"', 'rb"[!-;=?-~]{1,255}"'),
    ("batch", "formats/bodies.py", 'rb"[!-;=?-~]{1,256}"', 'rb"[!-;=-~]{1,256}"'),
    ("batch", "formats/bodies.py", 'rb"[0-9A-Za-z]{1,32}"', 'rb"[0-9A-Za-z]{1,31}"'),
    ("batch", "formats/bodies.py", "(0|[1-9][0-9]{0,2})\\.(0|", "([0-9]{1,3})\\.(0|"),
    ("batch", "formats/bodies.py", 'rb"[!-~]{1,255}"', 'rb"[ -~]{1,255}"'),
    ("batch", "formats/bodies.py", 'rb"[ -~]{1,100}"', 'rb"[ -~]{1,101}"'),
    (
        "batch",
        "formats/bodies.py",
        'NOT_PRINTABLE = re.compile(rb"[^ -~]")',
        'NOT_PRINTABLE = re.compile(rb"[^\\t -~]")',
    ),
    ("batch", "formats/bodies.py", "LONGEST_TEXT = 800", "LONGEST_TEXT = 801"),
    ("batch", "formats/bodies.py", "LAST_MOMENT = 253_402_300_799", "LAST_MOMENT = 253_402_300_800"),
    ("batch", "formats/bodies.py", 'FAILED: b"45"', 'FAILED: b"5"'),
    ("batch", "formats/bodies.py", "DEFER: (DELAYED,)", "DEFER: (DELAYED, FAILED)"),
    ("batch", "formats/bodies.py", "is_moment(it) for it in dates), 27)", "is_moment(it) for it in dates[:1]), 27)"),
    ("batch", "formats/bodies.py", "is None or action == DELAYED, 10", "is None or action != DELIVERED, 10"),
    ("batch", "formats/bodies.py", "fields.at == len(body), 24", "fields.at <= len(body), 24"),
    ("batch", "formats/bodies.py", "KINDS = {1: (1, 2, 3), 2", "KINDS = {1: (1, 2, 3, 4), 2"),
    ("batch", "formats/logs.py", "return FORGOTTEN, 0, None", "return NOT_CLOSED, 0, None"),
    ("batch", "formats/logs.py", "        del self.held[key]\n", ""),
    (
        "batch",
        "formats/logs.py",
        "if not log:\n            return NOTHING",
        "if not log and request.draft.return_path:\n            return NOTHING",
    ),
    (
        "batch",
        "formats/logs.py",
        "        self.held[request.key] = None\n",
        "        self.held[request.key] = log and None\n",
    ),
    ("batch", "formats/logs.py", "        self.sealed += 1\n", "        self.sealed = 1\n"),
    ("batch", "formats/logs.py", "return sorted((key, len(log))", "return list((key, len(log))"),
    (
        "batch",
        "formats/notices.py",
        "if line.startswith(start)}",
        "if line.startswith(start) and len(line) == len(start) + 4}",
    ),
    (
        "batch",
        "formats/notices.py",
        "range(10_000)) if it not in ruled_out)",
        "range(len(ruled_out), 10_000)) if it not in ruled_out)",
    ),
    ("batch", "formats/notices.py", "LONGEST_LINE = 998", "LONGEST_LINE = 997"),
    ("batch", "formats/notices.py", 'rb"[^\\t -~]"', 'rb"[^ -~]"'),
    ("batch", "formats/notices.py", "+ ([last] if last else [])", ""),
    ("batch", "formats/notices.py", 'it[:-1] if it.endswith(b"\\r") else it', 'it.rstrip(b"\\r")'),
    ("batch", "formats/notices.py", 'b"." + it if it.startswith(b".")', 'b"." + it if it == b"."'),
    ("batch", "formats/notices.py", '"Will-Retry-Until: "', '"Will-Retry-Until:"'),
    ("batch", "formats/sessions.py", "if request.number != position:", "if request.number < position:"),
    ("batch", "formats/sessions.py", "LONGEST_FRAME = 65_536", "LONGEST_FRAME = 65_535"),
    ("serve", "formats/logs.py", "return LOGGED, len(log) - 1, None", "return LOGGED, len(log), None"),
    ("serve", "formats/logs.py", "return NO_RETURN, len(log), None", "return SEALED, len(log), None"),
    (
        "serve",
        "formats/logs.py",
        "        self.held[request.key] = None\n",
        "        self.held.pop(request.key, None)\n",
    ),
    ("serve", "formats/logs.py", "tuple(log), self.sealed - 1", "tuple(log[::-1]), self.sealed - 1"),
    ("serve", "formats/logs.py", "tuple(log), self.sealed - 1", "tuple(log), 0"),
    ("serve", "histories.py", "it.taken == self.taken", "it.taken + 1 == self.taken"),
    (
        "serve",
        "histories.py",
        'self.outbox[it.written :] == b"QUIT\\r\\n"',
        'self.outbox[it.written :] != b"QUIT\\r\\n"',
    ),
]


def is_found(fuzzer: str, file: str, old: str, new: str) -> bool:
    """Whether the fuzzer tells the edited reading from the program; prints what was tried and how long it took."""
    with tempfile.TemporaryDirectory() as room:
        copy = Path(room) / "tests"
        shutil.copytree(TESTS, copy, ignore=shutil.ignore_patterns("__pycache__"))
        shutil.copytree(TESTS.parent / "examples", Path(room) / "examples")
        text = (copy / "support" / file).read_text()
        assert text.count(old) == 1, f"{file} doesn't have once: {old}"
        (copy / "support" / file).write_text(text.replace(old, new))
        began = time.monotonic()
        words = [sys.executable, "-m", f"tests.fuzz_{fuzzer}", "--seconds", str(SECONDS), *sys.argv[1:]]
        ended = subprocess.run(
            words,
            cwd=room,
            check=False,
            capture_output=True,
            text=True,
            env={**os.environ, "NOTICED": os.path.abspath(program())},
        )
        found = ended.returncode == 1 and "FAILED" in ended.stdout
        print(
            f"  {'found' if found else 'NOT FOUND'} in {time.monotonic() - began:.1f} s by fuzz_{fuzzer}: {file}: "
            f"{old!r} -> {new!r}"
        )
        return found


def main() -> int:
    found = [is_found(*it) for it in EDITS]
    print(f"{sum(found)} of {len(found)} planted faults found within {SECONDS} seconds each")
    return 0 if all(found) else 1


if __name__ == "__main__":
    sys.exit(main())
