"""Checks that vectors/index.json has each worked example with its files, that the stored request frames match their
descriptions, that the stored answers are those of the second reading of noticed-protocol(5), that vectors/noticed.ksy
describes both, that the stored run is the first example, and that a flush without a return path or a moment of its own
is refused: nothing is made up in its place."""
import subprocess
import sys

try:
    import yaml
except ImportError:
    yaml = None

from tests.support.formats import sessions
from tests.support.formats.logs import Limits, Logs
from tests.support.kaitai import Reader
from tests.support.running import ROOT, VECTORS, Checks, examples
from vectors import frames

APPEND = "append . bounce Q1 x@y failed 5.0.0\n"
SAYS = {"return path": "return=ann@example.com", "moment": "moment=now", "arrival": "arrival=now"}
FILES = ["requests", "frames", "answers", "outbox", "notes"]
TOOLS = {"__pycache__", "frames.py", "index.json", "noticed.ksy"}
WORDINGS = {"by_service": 0, "by_outcome": 1}
UNSAID = {b"", 0, frames.NO_MOMENT, frames.ANY_COUNT}  # the values of fields that a description leaves out


def check_index(checks: Checks):
    """The index has each file of the folder, once."""
    indexed = [f"{it.name}.{suffix}" for it in examples() for suffix in it.files]
    found = {it.name for it in VECTORS.iterdir()} - TOOLS
    checks.equal("the files of vectors/index.json", sorted(indexed), sorted(found))
    for it in examples():
        checks.equal(f"{it.name}: its files", it.files, FILES)


def answers_to(given: bytes) -> bytes:
    """The answers to these frames, as noticed-protocol(5) has them."""
    made = b""
    try:
        for it in sessions.answers(given, Logs(Limits()), []):
            made += sessions.answer(*it)
    except sessions.Fault:
        pass
    return made


def fields_of(line: str) -> dict:
    """The fields of a request in words, as the Kaitai description names them."""
    kind, _, fields = frames.request_of_line(line)
    names = {"original": "original_recipient", "mta": "remote_mta", "envelope": "envelope_id", "expected": "expected"}
    return {"kind": kind} | {names.get(name, name): value for name, value in fields.items()}


def said_by(body: dict) -> dict:
    """The fields that the Kaitai description finds in a request, flat, with the numbers of names."""
    fields = {**body["fields"], **(body["fields"]["about"] or {})}
    del fields["about"], fields["number"]
    numbers = {"service": frames.SERVICES, "action": frames.ACTIONS, "returned": frames.RETURNED, "wording": WORDINGS}
    fields = {name: numbers[name][it] if name in numbers else it for name, it in fields.items()}
    return {name: it["value"] if isinstance(it, dict) else it for name, it in fields.items()}


def check_kaitai(checks: Checks):
    """vectors/noticed.ksy reads each field of the requests of version 3, and each answer."""
    if yaml is None:
        checks.skip("noticed.ksy (needs python3-yaml)")
        return
    reader, read = Reader(yaml.safe_load((VECTORS / "noticed.ksy").read_text(encoding="utf-8"))), 0
    for it in examples():
        lines = it.path("requests").read_text(encoding="utf-8").splitlines()
        lines = [line for line in lines if line and not line.startswith(("#", "version "))]
        if any(line.startswith("hex ") for line in lines):
            continue
        for line, found in zip(lines, reader.read(it.bytes("frames"))["frames"]):
            if found["body"]["version"] == 3:
                wanted, said = fields_of(line), said_by(found["body"])
                checks.equal(f"{it.name}: noticed.ksy: {line}", {name: said.get(name) for name in wanted}, wanted)
                unsaid = [said[name] for name in said.keys() - wanted.keys()]
                checks.equal(f"{it.name}: noticed.ksy: what {line} does not say", set(unsaid) - UNSAID, set())
                read += 1
        answers = reader.read(it.bytes("answers"), "answers")["frames"]
        notes = [f"{each['number']} {each['reply'].replace('_', ' ')}" for each in (found["body"] for found in answers)]
        written = [line.rstrip(" 0123456789") for line in it.bytes("notes").decode().splitlines() if line[0].isdigit()]
        checks.equal(f"{it.name}: noticed.ksy: answers", notes, written)
    checks.true("noticed.ksy reads requests", read > 30)


def check_flushes(checks: Checks):
    """A flush says all three, in a description and where its frame is made of fields."""
    for lacks in SAYS:
        line = " ".join(["flush . bounce Q1", *(said for it, said in SAYS.items() if it != lacks)])
        ran = subprocess.run(
            [sys.executable, str(VECTORS / "frames.py"), "-"],
            input=f"{APPEND}{line}\n".encode(),
            capture_output=True,
            check=False,
        )
        why = f"frames.py: line 2: a flush must say its {lacks}: {line}\n".encode()
        checks.equal(
            f"a flush without its {lacks}",
            (ran.stdout, ran.stderr, ran.returncode),
            (frames.frames_of(APPEND), why, 1),
        )
    try:
        made = frames.frame_of("flush", 0, {"service": 1, "queue_id": b"Q1"})
    except ValueError as why:
        made = str(why)
    checks.equal("a flush that says none of them", made, f"a flush must say its {', '.join(SAYS)}")


def main():
    checks = Checks("stored frames: each .frames file of vectors/ against its description, and its answers")
    check_index(checks)
    for it in examples():
        made = frames.frames_of(it.path("requests").read_text(encoding="utf-8"))
        checks.equal(f"{it.name}.frames", it.bytes("frames"), made)
        checks.equal(f"{it.name}.answers", it.bytes("answers"), answers_to(made))
    check_kaitai(checks)
    check_flushes(checks)
    crate = ROOT / "crates/noticed"
    for stored, name in (("stdin", "one-bounce.frames"), ("stdout", "one-bounce.outbox")):
        checks.equal(f"crates/noticed/{stored}", (crate / stored).read_bytes(), (VECTORS / name).read_bytes())
    checks.equal("one-bounce.frames is 108 bytes", len((VECTORS / "one-bounce.frames").read_bytes()), 108)
    checks.equal("crates/noticed/args", (crate / "args").read_bytes(), b"batch\nmx.example.net\n")
    checks.done()


if __name__ == "__main__":
    main()
