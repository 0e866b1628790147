"""Checks the configuration file of `noticed serve`: each key, the command line above it, and what is wrong with a line,
which is named with the file. And dist/noticed.conf, which the unit uses."""
import tempfile
from pathlib import Path

from tests.support.daemon_and_clients import FRAMES, OUTBOX, Daemon, logged_fault
from tests.support.faults import fault_line
from tests.support.running import DIST, HOST, Checks, run

ALL = {
    "socket": "/nonexistent/noticed.socket",
    "host": HOST,
    "agents": "2",
    "max-use": "1",
    "journal": "/nonexistent/journal",
    "max-journal": "1024",
    "outbox": "/dev/null",
    "release-closed": "no",
    "logs": "65536",
    "entries": "1000",
    "idle": "300",
    "end-on-fault": "yes",
    "log": "yes",
    "inherited": "no",
}
# a wrong line, and what is said of it
WRONG = {
    "agents": "is not of the form 'key = value': 'agents'",
    "agent = 2": "has an unknown key: 'agent'",
    "Host = x": "has an unknown key: 'Host'",
    "idle =": "has no value: 'idle'",
    "agents = 17": "AGENTS must be 1 to 16, not '17'",
    "max-use = 01": "MAX-USE must be 1 to 1000000, not '01'",
    "logs = 65537": "logs must be 1 to 65536, not '65537'",
    "max-journal = 4097": "max-journal must be 1 to 4096, not '4097'",
    "idle = 5m": "idle must be 1 to 86400, not '5m'",
    "host = a_b": "HOST must be 1 to 255 letters, digits, dots and hyphens, not 'a_b'",
    "log = true": "log must be yes or no, not 'true'",
}


def text_of(values: dict) -> str:
    """A file with these values."""
    return "".join(f"{key} = {value}\n" for key, value in values.items())


def reason_of(words: list) -> tuple:
    """The reason that is given for wrong arguments, without the hint and the usage line, and the status."""
    ran = run(words)
    return ran.notes.decode().partition("\nusage: ")[0], ran.status


def wrong(checks: Checks, file: Path):
    """Wrong lines are named with their file."""
    words = ["serve", "--config", str(file)]
    for line, why in WRONG.items():
        key = line.split()[0]
        file.write_text("# a comment\n\n" + line + "\n" + text_of({it: ALL[it] for it in ALL if it != key}))
        checks.equal(line[:40], reason_of(words), (f"error: {file}:3: {why}", 2))
    file.write_text(text_of(ALL) + "host = other\n")
    checks.equal("a key twice", reason_of(words), (f"error: {file}:15: has a key that was set before: 'host'", 2))
    for key in ("socket", "host", "agents", "max-use"):
        file.write_text(text_of({it: ALL[it] for it in ALL if it != key}))
        checks.equal(f"no {key}", reason_of(words), (f"error: {file}: {key} is not set", 2))
    file.write_text(text_of({it: ALL[it] for it in ALL if it != "outbox"}))
    checks.equal(
        "no outbox",
        reason_of(words),
        ("error: a journal requires an outbox or a mail server: --outbox PATH or --hand-in HAND-IN", 2),
    )
    file.write_text(text_of(ALL | {"hand-in": "localhost:25"}))
    checks.equal("a mail server too", reason_of(words), ("error: --hand-in takes the place of --outbox", 2))
    file.write_text(text_of({"hand-in": "localhost"} | {it: ALL[it] for it in ALL if it != "outbox"}))
    checks.true("a mail server without a port", reason_of(words)[0].startswith(f"error: {file}:1: HAND-IN must be "))
    file.unlink()
    checks.equal("no file", reason_of(words), (f"error: {file}: No such file or directory (os error 2)", 2))
    file.write_bytes(b"# one\nhost = \xff\n")
    checks.equal("no text", reason_of(words), (f"error: {file}:2: is not UTF-8", 2))


def right(checks: Checks, file: Path):
    """The file alone, and the command line above it."""
    file.write_text("\t" + text_of(ALL).replace("\njournal = ", "\n# ").replace(" = ", "=", 1))
    words = ["serve", "--config", str(file)]
    why = "No such file or directory (os error 2)"
    checks.equal("each key", run(words).notes, logged_fault(ALL["socket"], why))
    checks.equal("another socket", run([*words, "/nonexistent/s"]).notes, logged_fault("/nonexistent/s", why))
    checks.equal("wrong agents", reason_of([*words, "/s", HOST, "17"])[0], "error: AGENTS must be 1 to 16, not '17'")
    checks.equal("a wrong option", reason_of([*words, "--idle", "0"])[0], "error: idle must be 1 to 86400, not '0'")
    file.write_text(text_of({"agents": "1", "max-use": "1", "log": "yes"}))
    with tempfile.TemporaryDirectory() as room:
        path = f"{room}/socket"
        with Daemon(1, 1, path, options=("--config", str(file))) as daemon:
            daemon.send(FRAMES)
            ended = daemon.end()
            checks.equal("a daemon", (ended.outbox, ended.status), (OUTBOX, 0))
            checks.true("its log is the file's", b"listening on " in ended.notes)


def main():
    checks = Checks("config: the values of `serve` in a file")
    with tempfile.TemporaryDirectory() as room:
        wrong(checks, Path(room) / "noticed.conf")
        right(checks, Path(room) / "noticed.conf")
    words = ["serve", "--config", str(DIST / "noticed.conf"), "--journal", "/nonexistent"]
    fault = fault_line(72) + b"/nonexistent: No such file or directory (os error 2)\n"
    checks.equal("the example", run([*words, "/nonexistent/socket"]).notes, fault)
    checks.done()


if __name__ == "__main__":
    main()
