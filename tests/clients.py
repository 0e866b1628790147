"""Runs the clients of clients/, in each language whose tools this machine has: on the worked examples of vectors/,
whose requests they encode and whose answers they decode; on headers and messages that are too long, and on replies of
several lines; against small false daemons, one for each way in which a connection ends, or an answer is a refusal or not
one; at paths where no daemon is; and beside a real daemon with a journal that is killed and started again in the middle,
after which each outcome is in one notice, once. The languages' own tools have nothing to say of the sources.

    python3 -m tests.clients [LANGUAGE]...

Each language has a driver in tests/support/clients/, which carries out lines of text."""
import contextlib
import os
import random
import re
import shutil
import socket
import subprocess
import sys
import tempfile
import threading
import time
from dataclasses import dataclass
from pathlib import Path

from tests.support.daemon_and_clients import PATIENCE, Daemon, answer, heard, is_listened_on, until
from tests.support.faults import words as fault_words
from tests.support.formats import sessions
from tests.support.formats.logs import (
    CLOSED,
    DIFFERS,
    DISCARDED,
    FORGOTTEN,
    LOGGED,
    NO_RETURN,
    NOT_CLOSED,
    NOTHING,
    REFUSED,
    SEALED,
    TABLE_FULL,
    Limits,
    Logs,
)
from tests.support.mail_servers import messages_of
from tests.support.running import ROOT, Checks, examples, run
from vectors import frames

DRIVERS = ROOT / "tests/support/clients"
CLIENTS = ROOT / "clients"
# Seconds to connect, send, for a worker, an answer and a request, and for that while no daemon was reached.
LIMITS = ("20", "20", "20", "20", "60", "60")
MOMENT, ARRIVAL = 1_700_000_000, 1_699_996_400
LONGEST = 32_768  # bytes of a header or message
HEADER, MESSAGE, EIGHT_BIT_MESSAGE, MESSAGE_OR_HEADER = 0, 1, 2, 3
UNCOUNTED = 2**32 - 2  # a number of outcomes that no log has
GREETING, GREETED = b"\0", (REFUSED, 21)
END, SILENCE = "end", "silence"  # what a false daemon may do in place of an answer
# Names of fields in frames.py, and in clients.
NAMES = {"original": "original_recipient", "mta": "remote_mta", "envelope": "envelope_id"}
MESSAGES, RECIPIENTS = 12, 5  # of the run beside a daemon that is killed
RESTARTS = 3
OF_LINES = re.compile(r" (?:diagnostic|reason)=(?:[0-9a-f]{2})*0[ad]")  # which clients send as one line
LONGEST_PATH = 107  # bytes of a socket's path: sockaddr_un has 108, of which the last is 0 (unix(7))
REACHED = 10  # seconds for a request while no daemon was ever reached
OUTCOME_WORDS = 1  # the wording by the outcome
REFUSALS = (*range(1, 11), *range(15, 31))  # of a Refused (noticed-protocol(5), "Fault numbers"), but for 44 and 46
# Texts of several lines, and what is sent: RFC 5321 section 4.2.1 has the form of a reply. Libraries that join its lines
# with LF, without their codes, leave the status (RFC 3463) in each.
SAID = (
    (b"550 5.1.1 no such user", b"550 5.1.1 no such user"),
    (
        b"550-5.1.1 The address\r\n550-5.1.1 does not exist.\r\n550 5.1.1 gsmtp",
        b"550 5.1.1 The address does not exist. gsmtp",
    ),
    (
        b"5.1.1 The email account does not exist.\n5.1.1 Please try ..\n5.1.1 gsmtp",
        b"5.1.1 The email account does not exist. Please try .. gsmtp",
    ),
    (b"550 5.1.1 The account\n5.1.1 does not exist", b"550 5.1.1 The account does not exist"),
    (b"550-no such\r\n550 user", b"550 no such user"),
    (b"550-no such\r550 user", b"550 no such user"),
    (b"554-\r\n554 5.7.1 no", b"554 5.7.1 no"),
    (b"554-5.7.1 no\r\n554-\r\n554", b"554 5.7.1 no"),
    (b"550 no\r\n", b"550 no"),
    (b"\r\n\n550-no such\r\n\r\n550 user\n", b"550 no such user"),
    (b"550-5.1.1 no such \t\r\n550 5.1.1  user", b"550 5.1.1 no such user"),
    (b"550-5.1.1 no such user\r\n550 5.7.1 no right", b"550 5.1.1 no such user 5.7.1 no right"),
    (b"550-first\r\n451 second", b"550 first 451 second"),
    (b"5.1.1 one\n5.1.10 two", b"5.1.1 one 5.1.10 two"),
    (b"5.1.10 one\n5.1.1 two", b"5.1.10 one 5.1.1 two"),
    (b"5500 one\n5500 two", b"5500 one 5500 two"),
    (b"650 one\n650 two", b"650 one 650 two"),
    (b"3.1.1 one\n3.1.1 two", b"3.1.1 one 3.1.1 two"),
    (b"no\nno such user", b"no no such user"),
    (b"550-no such user", b"550-no such user"),
    (b" a  b ", b" a  b "),
    (b"\r\n", b""),
    (b"\xc3\xbc\n\xc3\xbc", b"\xc3\xbc \xc3\xbc"),
    (b"550-" + 500 * b"x" + b"\r\n550 " + 500 * b"y", b"550 " + 500 * b"x" + b" " + 295 * b"y"),
    (900 * b"\n" + b"550 no", b"550 no"),
)


@dataclass
class Language:
    """A language: what it needs, the commands that build its driver, as a function of a folder, and the tools that read
    its sources without a word."""

    name: str
    tools: tuple
    build: object
    readers: tuple


def of_python(_) -> list:
    """The driver in Python."""
    return [sys.executable, str(DRIVERS / "driver.py")]


def of_perl(_) -> list:
    """The driver in Perl."""
    return ["perl", str(DRIVERS / "driver.pl")]


def of_c(room: Path) -> list:
    """The driver in C, built as strictly as gcc has it."""
    strict = ["-std=c99", "-Wall", "-Wextra", "-Wpedantic", "-Wconversion", "-Werror", "-O2"]
    files = [str(CLIENTS / "c/noticed.c"), str(DRIVERS / "driver.c")]
    built(["gcc", *strict, f"-I{CLIENTS}/c", "-o", str(room / "c"), *files])
    return [str(room / "c")]


def of_go(room: Path) -> list:
    """The driver in Go, in a module of its own."""
    (room / "go").mkdir()
    shutil.copy(DRIVERS / "driver.go", room / "go/driver.go")
    module = f"module driver\n\ngo 1.19\n\nrequire noticed v0.0.0\n\nreplace noticed => {CLIENTS}/go\n"
    (room / "go/go.mod").write_text(module)
    os.environ |= {"GOFLAGS": "-mod=mod", "GOPROXY": "off", "GOCACHE": str(room / "gocache")}
    built(["go", "build", "-o", str(room / "go/driver"), "."], cwd=room / "go")
    return [str(room / "go/driver")]


def of_rust(room: Path) -> list:
    """The driver in Rust, without a warning."""
    words = ["rustc", "--edition", "2021", "-D", "warnings", "--out-dir", str(room)]
    built([*words, "--crate-type", "rlib", "--crate-name", "noticed", str(CLIENTS / "rust/noticed.rs")])
    built([*words, "--extern", f"noticed={room}/libnoticed.rlib", str(DRIVERS / "driver.rs")])
    return [str(room / "driver")]


STRICT = "-std=c99 -Wall -Wextra -Wpedantic -Wconversion -Werror -fsyntax-only".split()
# (py_compile would leave a file)
COMPILE = "import pathlib; compile(pathlib.Path('noticed.py').read_text(), 'noticed.py', 'exec')"
LANGUAGES = [
    Language("python", (), of_python, ([sys.executable, "-W", "error", "-c", COMPILE],)),
    Language("c", ("gcc",), of_c, (["gcc", *STRICT, "noticed.c"], ["g++", "-fsyntax-only", "-Wall", "noticed.h"])),
    Language("go", ("go",), of_go, (["gofmt", "-l", "."], ["go", "vet", "./..."])),
    Language("rust", ("rustc",), of_rust, (["rustfmt", "--edition", "2021", "--check", "noticed.rs"],)),
    Language("perl", ("perl",), of_perl, (["perl", "-wc", "Noticed.pm"], ["podchecker", "Noticed.pm"])),
]
QUIET = {"Noticed.pm syntax OK\n", "Noticed.pm pod syntax OK.\n"}


def built(words: list, **how):
    """Runs a compiler; what it says is shown if it fails."""
    ran = subprocess.run(words, capture_output=True, text=True, check=False, timeout=600, **how)
    if ran.returncode:
        print(f"{ran.stdout}{ran.stderr}")
        raise SystemExit(f"{' '.join(words)} failed")


class Driver:
    """A driver that runs; `say` gives the line that it prints for a line."""

    def __init__(self, words: list, *command):
        how = {"stdin": subprocess.PIPE, "stdout": subprocess.PIPE, "text": True}
        self.running = subprocess.Popen([*words, *map(str, command)], **how)

    def say(self, line: str) -> str:
        """What it prints for a line."""
        self.running.stdin.write(f"{line}\n")
        self.running.stdin.flush()
        return self.running.stdout.readline().rstrip("\n")

    def __enter__(self):
        return self

    def __exit__(self, *_):
        self.running.stdin.close()
        self.running.wait(timeout=PATIENCE)
        self.running.stdout.close()


def line_of(kind: str, number: int = 0, **fields) -> str:
    """A line of a driver."""
    words = [f"{name}={value.hex() if isinstance(value, bytes) else value}" for name, value in fields.items()]
    return " ".join([kind, str(number), *words])


def append(number: int = 0, recipient: bytes = b"x@y", **fields) -> str:
    """The line of an append to the bounce log of Q1."""
    said = {"service": 1, "queue_id": b"Q1", "recipient": recipient, "action": 1, "status": b"5.0.0"}
    return line_of("append", number, **said | fields)


def flush(number: int = 0, **fields) -> str:
    """The line of a flush of the same log."""
    said = {"return_path": b"ann@example.com", "moment": MOMENT, "arrival": ARRIVAL, "expected": 1}
    return line_of("flush", number, **{"service": 1, "queue_id": b"Q1"} | said | fields)


def key(kind: str) -> str:
    """The line of a discard or forget of the same log."""
    return line_of(kind, service=1, queue_id=b"Q1")


def append_frame(number: int, recipient: bytes = b"x@y", **fields) -> bytes:
    """The frame of an append, in version 3."""
    return frames.append(number, 1, b"Q1", recipient, 1, b"5.0.0", version=3, **fields)


def flush_frame(number: int, expected=1, return_path: bytes = b"ann@example.com", **fields) -> bytes:
    """The frame of a flush, in version 3, worded as clients do unless they are told."""
    fields = {"wording": OUTCOME_WORDS} | fields
    return frames.flush(number, 1, b"Q1", return_path, MOMENT, ARRIVAL, expected=expected, version=3, **fields)


def requests_in(description: str):
    """The requests of an example, each as a line of a driver with its place; None for bytes that no client sends."""
    lines = [it for it in description.splitlines() if it.strip() and not it.startswith(("#", "version "))]
    for place, line in enumerate(lines):
        if line.startswith("hex "):
            yield None
            continue
        kind, number, fields = frames.request_of_line(line)
        fields = {NAMES.get(name, name): value for name, value in fields.items()}
        if kind == "flush":
            fields["return_path"] = fields["return_path"] or b"<>"
            fields.setdefault("expected", frames.ANY_COUNT)
            fields.setdefault("wording", 0)
        yield line_of(kind, place if number is None else number, **fields)


def vectors(checks: Checks, name: str, words: list):
    """The requests of the examples that are of version 3, without texts of several lines, and all answers."""
    compared = 0
    with Driver(words, "encode") as driver:
        for it in examples():
            lines = list(requests_in(it.path("requests").read_text(encoding="utf-8")))
            if None in lines and it.name != "exchange-with-refusal":
                continue
            for line, body in zip(lines, sessions.frames(it.bytes("frames"), False)):
                if line and body[0] == 3 and not OF_LINES.search(line):
                    wanted = frames.frame(body).hex()
                    checks.equal(f"{name}: {it.name}: {line}", driver.say(line), wanted)
                    compared += 1
    checks.true(f"{name}: requests of version 3 are compared", compared > 30)
    with Driver(words, "decode") as driver:
        for it in examples():
            said = [driver.say(frames.frame(body).hex()) for body in sessions.frames(it.bytes("answers"), False)]
            wanted = []
            with contextlib.suppress(sessions.Fault):
                for number, reply, value, serial in sessions.answers(it.bytes("frames"), Logs(Limits()), []):
                    wanted.append(f"{number} {reply} {value} {'-' if serial is None else serial}")
            checks.equal(f"{name}: {it.name}: its answers", said, wanted)


def answers(checks: Checks, name: str, words: list):
    """Every reply, and frames that are no answers (noticed-protocol(5), "Answers")."""
    with Driver(words, "decode") as driver:
        for reply in range(1, 14):
            said = driver.say(f"0000000a01{reply:02x}000f423f00000005")
            checks.equal(f"{name}: reply {reply}", said, f"999999 {reply} 5 -")
        said = driver.say("000000120107000f423f000000050000000000000102")
        checks.equal(f"{name}: a serial", said, "999999 7 5 258")
        for digits in (
            "0000000a 0200 00000000 00000000",
            "0000000a 0207 00000000 00000000",
            "0000000a 0100 00000000 00000000",
            "0000000a 010e 00000000 00000000",
            "0000000b 0107 00000000 00000000 00",
            "00000012 0108 00000000 00000005 0000000000000102",
            "00000013 0107 00000000 00000005 0000000000000102 00",
            "00000009 0107 00000000 000000",
        ):
            checks.equal(f"{name}: no answer: {digits}", driver.say(digits.replace(" ", "")), "invalid")


def bounds(checks: Checks, name: str, words: list):
    """Headers and messages around the bound, texts that are cut, and requests that cannot be encoded."""
    head, crlf = b"Subject: hi\nX: y\n", b"Subject: hi\r\nX: y\r\n"
    most, either = head + b"\n" + b"b" * (LONGEST - len(head) - 1), {"returned": MESSAGE_OR_HEADER}
    eight_bit = {"returned": EIGHT_BIT_MESSAGE}
    with Driver(words, "encode") as driver:
        for what, fields, wanted in (
            ("a message as long as it may be", {"header": most, "returned": MESSAGE}, {"header": most, "returned": 1}),
            ("the same, or its header", either | {"header": most}, {"header": most, "returned": 1}),
            ("the same for an 8bit mail", eight_bit | {"header": most}, {"header": most, "returned": 2}),
            ("the same and a byte more", eight_bit | {"header": most + b"b"}, None),
            ("a message of a byte more", {"header": most + b"b", "returned": MESSAGE}, None),
            ("the same, or its header", either | {"header": most + b"b"}, {"header": head, "returned": 0}),
            ("the same as a header", {"header": most + b"b"}, {"header": head}),
            ("with CR", either | {"header": crlf + b"\r\n" + most}, {"header": crlf}),
            ("without a header", either | {"header": b"\n" + most}, {"header": b""}),
            ("a header that is too long", {"header": b"X: " + b"h" * LONGEST}, None),
            ("the same of a message", either | {"header": b"X: " + b"h" * LONGEST + b"\n\nb"}, None),
            ("a message that no text holds", {"header": b"X: y\n\n" + b"b" * 70_000, "returned": MESSAGE}, None),
            ("the null return path", {"return_path": b"<>"}, {"return_path": b""}),
            ("an empty return path", {"return_path": b""}, None),
            ("extensions that no frame holds", {"extensions": b"x" * 65_535, "header": most}, None),
        ):
            made = flush_frame(7, **wanted).hex() if wanted is not None else "invalid"
            checks.equal(f"{name}: {what}", driver.say(flush(7, **fields)), made)
        long = {"diagnostic": b"d" * 801, "reason": b"r" * 900}
        cut = append_frame(7, diagnostic=b"d" * 800, reason=b"r" * 800).hex()
        checks.equal(f"{name}: long texts", driver.say(append(7, **long)), cut)
        checks.equal(f"{name}: a text of 65,536 bytes", driver.say(append(7, extensions=b"x" * 65_536)), "invalid")
        for wording in (0, OUTCOME_WORDS):
            made = flush_frame(7, wording=wording).hex()
            checks.equal(f"{name}: wording {wording}", driver.say(flush(7, wording=wording)), made)
        for text, sent in SAID:
            made = append_frame(7, diagnostic=sent, reason=sent).hex()
            checks.equal(f"{name}: {text[:90]}", driver.say(append(7, diagnostic=text, reason=text)), made)
    if name != "rust":  # whose types have no flush without them
        with Driver(words, "encode") as driver:
            for lacks in ("return_path", "moment", "arrival"):
                line = " ".join(it for it in flush(7).split() if not it.startswith(f"{lacks}="))
                checks.equal(f"{name}: a flush without its {lacks}", driver.say(line), "invalid")
    if name in ("perl", "python"):  # the others have no such field
        with Driver(words, "encode") as driver:
            for line in (append(7, diagnostics=b"550 no"), append(7, Action=1), flush(7, last_attempt=MOMENT)):
                checks.equal(f"{name}: a name that is unknown: {line}", driver.say(line), "invalid")
    if name == "perl":
        made = [*words[:1], f"-I{CLIENTS}/perl", "-MNoticed", "-e", "Noticed->new('socket', wait => 1)"]
        ran = subprocess.run(made, capture_output=True, text=True, check=False, timeout=PATIENCE)
        checks.true(f"{name}: a limit that is unknown", ran.stderr.startswith("invalid: unknown wait at "))


class Pretender:
    """A daemon that serves one connection after another. For each it has a list: what it does for each frame that
    comes, the greeting's among them. `read` has each connection's frames."""

    def __init__(self, connections: list, after: float = 0.0, path: str = ""):
        self.connections, self.after, self.read = connections, after, []
        self.room = tempfile.TemporaryDirectory(prefix="noticed-")
        self.path = path or f"{self.room.name}/socket"
        self.listener = socket.socket(socket.AF_UNIX, socket.SOCK_STREAM)
        self.listener.settimeout(PATIENCE)
        if not after:
            self.listen()
        self.thread = threading.Thread(target=self.serve)
        self.thread.start()

    def listen(self):
        """Binds the socket."""
        self.listener.bind(self.path)
        self.listener.listen()

    def serve(self):
        """Serves all its connections."""
        if self.after:
            time.sleep(self.after)
            self.listen()
        with contextlib.suppress(TimeoutError):
            for steps in self.connections:
                stream, _ = self.listener.accept()
                stream.settimeout(PATIENCE)
                self.read.append([])
                with stream, contextlib.suppress(BrokenPipeError, ConnectionResetError, TimeoutError):
                    self.converse(stream, steps)

    def converse(self, stream: socket.socket, steps: list):
        """Answers each frame as its step says."""
        for number, step in enumerate(steps):
            size = int.from_bytes(heard(stream, 4), "big")
            if not size:
                return
            self.read[-1].append(frames.frame(heard(stream, size)))
            if step == END:
                return
            if step != SILENCE:
                stream.sendall(step if isinstance(step, bytes) else answer(step[0], number, step[1]))
        heard(stream, 1)

    def __enter__(self):
        return self

    def close(self):
        """Ends it once its connections have ended."""
        self.thread.join(PATIENCE)
        self.listener.close()

    def __exit__(self, *_):
        self.close()
        self.room.cleanup()


def count(number: int) -> bytes:
    """The frame by which a client counts a log, with the moments left out: any will do."""
    return without_moments(flush_frame(number, UNCOUNTED, b""))


def without_moments(frame: bytes) -> bytes:
    """A frame, with the moments 0 if it counts a log."""
    is_count = frame[5:6] == b"\2" and frame[-8:-4] == UNCOUNTED.to_bytes(4, "big")
    return frame[:15] + bytes(16) + frame[31:] if is_count else frame


def talk(checks: Checks, what: str, words: list, lines: list, connections: list, wanted: list, limits=LIMITS, after=0):
    """Runs a client's lines against a false daemon: what each says, and what the daemon reads. A line is given with
    what it says; what is read is a list of frames for each connection, behind the greeting."""
    with Pretender(connections, after) as daemon:
        with Driver(words, "carry", daemon.path, *limits) as driver:
            said = [driver.say(line) for line, _ in lines]
    checks.equal(f"{what}: what it says", said, [it for _, it in lines])
    read = [[without_moments(it) for it in frames_read] for frames_read in daemon.read]
    greeted = [[frames.frame(GREETING), *(make(at) for at, make in enumerate(it, 1))] for it in wanted]
    checks.equal(f"{what}: what is sent", read, greeted)


def discard_frame(number: int) -> bytes:
    """The frame of a discard."""
    return frames.discard(number, 1, b"Q1", version=3)


def forget_frame(number: int) -> bytes:
    """The frame of a forget."""
    return frames.forget(number, 1, b"Q1", version=3)


def endings(checks: Checks, name: str, words: list):
    """Connections that end or are silent, answers that are none, and what is repeated then."""
    one, logged, sealed = append_frame, f"{LOGGED} 0 -", f"{SEALED} 1 -"
    every = [(append(), logged), (flush(), f"{SEALED} 1 3")]
    every += [(key("forget"), f"{FORGOTTEN} 0 -"), (key("discard"), f"{DISCARDED} 0 -")]
    serial = sessions.answer(2, SEALED, 1, 3)
    steps = [GREETED, (LOGGED, 0), serial, (FORGOTTEN, 0), (DISCARDED, 0)]
    talk(checks, f"{name}: every kind", words, every, [steps], [(one, flush_frame, forget_frame, discard_frame)])
    done = [GREETED, (LOGGED, 0)]
    only = [(append(), logged)]
    talk(checks, f"{name}: ended before the greeting's answer", words, only, [[END], done], [(), (one,)])
    talk(checks, f"{name}: a daemon that comes later", words, only, [done], [(one,)], after=0.3)
    silent = ("20", "20", "2", "2", "20")
    talk(checks, f"{name}: no free worker at first", words, only, [[SILENCE], done], [(), (one,)], silent)
    closed = [(append(), logged), ("close", "closed"), (flush(), sealed)]
    talk(checks, f"{name}: closed meanwhile", words, closed, [done, [GREETED, (SEALED, 1)]], [(one,), (flush_frame,)])
    for value in (44, 46):
        refused = [GREETED, (REFUSED, value)]
        talk(checks, f"{name}: refused {value}", words, only, [refused, refused, done], [(one,)] * 3)
    for reply in (TABLE_FULL, CLOSED):
        said = [(append(), f"{reply} 0 -")]
        talk(checks, f"{name}: answered {reply}", words, said, [[GREETED, (reply, 0)]], [(one,)])
    for reply, value in ((NOTHING, 0), (NO_RETURN, 1), (DIFFERS, 2), (CLOSED, 0)):
        said = [(flush(), f"{reply} {value} -")]
        talk(checks, f"{name}: a flush is answered {reply}", words, said, [[GREETED, (reply, value)]], [(flush_frame,)])
    for what, step in (
        ("ended", END),
        ("cut", answer(CLOSED, 1)[:9]),
        ("for another place", answer(CLOSED, 0)),
        ("of version 2", b"\0\0\0\x0a\x02" + answer(CLOSED, 1)[5:]),
        ("reply 14", answer(14, 1)),
        ("reply 0", answer(0, 1)),
    ):
        steps = [[GREETED, step], [GREETED, (CLOSED, 0)]]
        # a daemon that writes a part of an answer ends then
        steps[0] += [END] if step != END else []
        said = [(flush(), f"{CLOSED} 0 -")]
        talk(checks, f"{name}: a flush whose answer is {what}", words, said, steps, [(flush_frame,)] * 2, silent)
        lost = [(append(), "unanswered")]
        talk(checks, f"{name}: an append whose answer is {what}", words, lost, steps[:1], [(one,)], silent)
    for kind, make, reply in (("discard", discard_frame, CLOSED), ("forget", forget_frame, NOT_CLOSED)):
        said = [(key(kind), f"{reply} 0 -")]
        talk(checks, f"{name}: a {kind} again", words, said, [[GREETED, END], [GREETED, (reply, 0)]], [(make,)] * 2)


def refusals(checks: Checks, name: str, words: list):
    """A refused request is an error with the words of the fault."""
    said = [(append(), f"refused {number}: {fault_words()[number]}") for number in REFUSALS]
    steps = [GREETED, *((REFUSED, number) for number in REFUSALS)]
    talk(checks, f"{name}: refusals", words, said, [steps], [(append_frame,) * len(REFUSALS)])
    for line, make in ((flush(), flush_frame), (key("discard"), discard_frame), (key("forget"), forget_frame)):
        said = [(line, f"refused 26: {fault_words()[26]}")]
        talk(checks, f"{name}: a refusal", words, said, [[GREETED, (REFUSED, 26)]], [(make,)])
    wanted = [(append_frame,), (count,)]
    lost = [(append(place=2), "unanswered")]
    steps = [[GREETED, END], [GREETED, (REFUSED, 9)]]
    talk(checks, f"{name}: a count that is refused", words, lost, steps, wanted)


def places(checks: Checks, name: str, words: list):
    """An append without an answer, whose place is known: the log is counted, and it is sent again if it is missing."""
    one, third = append_frame, append(place=2)
    ended = [GREETED, END]
    for what, found, said, more in (
        ("is missing", (DIFFERS, 2), f"{LOGGED} 2 -", True),
        ("is there", (DIFFERS, 3), f"{LOGGED} 2 -", False),
        ("is there, with others'", (DIFFERS, 4), "unanswered", False),
        ("is lost with earlier ones", (DIFFERS, 0), f"{LOGGED} 0 -", True),
        ("is of a closed log", (CLOSED, 0), f"{CLOSED} 0 -", True),
    ):
        reply = (CLOSED, 0) if found[0] == CLOSED else (LOGGED, int(said.split()[1]) if said != "unanswered" else 0)
        second = [GREETED, found, *([reply] if more else [])]
        wanted = [(one,), (count, one) if more else (count,)]
        talk(checks, f"{name}: an outcome that {what}", words, [(third, said)], [ended, second], wanted)
    silent = ("20", "20", "20", "2", "20")
    nobody = ("2", "2", "2", "2", "2")
    talk(checks, f"{name}: no daemon after that", words, [(third, "unanswered")], [ended], [(one,)], nobody)
    talk(checks, f"{name}: silence", words, [(third, "unanswered")], [[GREETED, SILENCE]], [(one,)], silent)


def unreachable(checks: Checks, name: str, words: list):
    """No socket, one that nobody listens on, and one whose queue is full."""
    limits = ("0.3", "1", "1", "1", "0.5", "0.5")
    with tempfile.TemporaryDirectory() as room, contextlib.ExitStack() as left:
        unheard = socket.socket(socket.AF_UNIX, socket.SOCK_STREAM)
        unheard.bind(f"{room}/unheard")
        unheard.close()
        full = left.enter_context(socket.socket(socket.AF_UNIX, socket.SOCK_STREAM))
        full.bind(f"{room}/full")
        full.listen(0)
        with contextlib.suppress(BlockingIOError):
            while True:
                waits = left.enter_context(socket.socket(socket.AF_UNIX, socket.SOCK_STREAM))
                waits.setblocking(False)
                waits.connect(f"{room}/full")
        for what in ("none", "unheard", "full"):
            with Driver(words, "carry", f"{room}/{what}", *limits) as driver:
                checks.equal(f"{name}: {what}", [driver.say(append(place=0)), driver.say(flush())], ["unreachable"] * 2)


def paths(checks: Checks, name: str, words: list):
    """A path of 107 bytes has a daemon, a longer one none at once. While no daemon was reached a request has a limit of
    its own, and once one was reached the longer one."""
    with tempfile.TemporaryDirectory(prefix="noticed-") as room:
        longest = f"{room}/{'s' * (LONGEST_PATH - len(room) - 1)}"
        with Pretender([[GREETED, (LOGGED, 0)]], path=longest), Driver(words, "carry", longest, *LIMITS) as driver:
            checks.equal(f"{name}: a path of {LONGEST_PATH} bytes", driver.say(append()), f"{LOGGED} 0 -")
        began = time.monotonic()
        with Driver(words, "carry", f"{longest}s", *LIMITS) as driver:
            checks.equal(f"{name}: a longer one", [driver.say(append()), driver.say(flush())], ["path"] * 2)
        checks.true(f"{name}: at once", time.monotonic() - began < 5)
    with Pretender([[GREETED, (LOGGED, 0)]]) as daemon:
        with Driver(words, "carry", daemon.path, "2", "2", "2", "2", "3", "0.2") as driver:
            checks.equal(f"{name}: a daemon", [driver.say(append()), driver.say("close")], [f"{LOGGED} 0 -", "closed"])
            daemon.close()
            began = time.monotonic()
            checks.equal(f"{name}: that is gone", driver.say(flush()), "unreachable")
            checks.true(f"{name}: the longer limit", 1 < time.monotonic() - began < PATIENCE)


class NeverReached(threading.Thread):
    """A client with its own limits, which asks where no daemon is."""

    def __init__(self, words: list):
        super().__init__()
        self.words, self.said, self.took = words, "", 0.0

    def run(self):
        with tempfile.TemporaryDirectory(prefix="noticed-") as room:
            with Driver(self.words, "carry", f"{room}/none") as driver:
                began = time.monotonic()
                self.said = driver.say(append())
                self.took = time.monotonic() - began


def killed(checks: Checks, name: str, words: list):
    """A daemon with a journal is killed and started again, while a client logs and flushes messages: each of them has
    one notice, of its outcomes in their order."""
    with tempfile.TemporaryDirectory(prefix="noticed-") as folder:
        room, said, wanted = Path(folder), [], []
        (room / "journal").mkdir(mode=0o700)
        (room / "journal/journal").write_bytes(bytes(2**20))
        (room / "journal/marks").write_bytes(bytes(4096))
        ends, runs = threading.Event(), []

        def client():
            """Carries out all requests."""
            with contextlib.ExitStack() as left:
                left.callback(ends.set)
                driver = left.enter_context(Driver(words, "carry", str(room / "socket"), *LIMITS))
                for message in range(MESSAGES):
                    log = {"queue_id": b"M%d" % message}
                    for place in range(RECIPIENTS):
                        line = append(recipient=b"r%d@m%d" % (place, message), place=place, **log)
                        said.append(driver.say(line))
                        wanted.append(f"{LOGGED} {place} -")
                        time.sleep(0.01)
                    end = driver.say(flush(expected=RECIPIENTS, **log))
                    is_made = re.fullmatch(rf"{SEALED} {RECIPIENTS} \d+|{CLOSED} 0 -", end)
                    said.append("made" if is_made else end)
                    wanted.append("made")
                    driver.say("close")

        thread = threading.Thread(target=client)
        thread.start()
        while not ends.is_set() and len(runs) < 100:
            options = ("--journal", str(room / "journal"), "--outbox", str(room / f"outbox{len(runs)}"))
            with Daemon(2, 1_000_000, path=room / "socket", options=options) as daemon:
                runs.append(until(lambda: is_listened_on(daemon.path)))
                before = len(said)
                if len(runs) <= RESTARTS:
                    # in the middle of the requests, as it comes
                    until(lambda: len(said) >= before + MESSAGES * RECIPIENTS // (RESTARTS + 2) or ends.is_set())
                    time.sleep(random.uniform(0, 0.02))
                    daemon.running.kill()
                else:
                    until(ends.is_set, 10 * PATIENCE)
                    # in order: an end by a signal leaves the last notices to the next run
                    run(["stop", daemon.path])
                daemon.running.wait(timeout=PATIENCE)
        thread.join(PATIENCE)
        checks.equal(f"{name}: the answers beside daemons that are killed", said, wanted)
        checks.true(f"{name}: daemons were killed: {runs}", len(runs) > RESTARTS and all(runs))
        notices = {}
        for at in range(len(runs)):
            outbox = (room / f"outbox{at}").read_bytes()
            for it in messages_of(outbox[: outbox.rfind(b"\r\n.\r\n") + 5]):
                name_of = re.search(rb"^Message-ID: (\S+)", it, re.M)[1]
                checks.equal(f"{name}: {name_of.decode()} again", notices.setdefault(name_of, it), it)
        found = sorted(tuple(re.findall(rb"^Final-Recipient: rfc822; (\S+)\r$", it, re.M)) for it in notices.values())
        made = sorted(tuple(b"r%d@m%d" % (place, at) for place in range(RECIPIENTS)) for at in range(MESSAGES))
        checks.equal(f"{name}: each outcome is in one notice, once", found, made)


def read_over(checks: Checks, language: Language):
    """The tools of a language read its client, as strictly as they can, and have nothing to say."""
    for words in language.readers:
        if not shutil.which(words[0]):
            checks.skip(f"{language.name} as {words[0]} reads it")
            continue
        how = {"capture_output": True, "text": True, "check": False, "timeout": 600}
        ran = subprocess.run(words, cwd=CLIENTS / language.name, **how)
        said = "" if ran.stdout + ran.stderr in QUIET else ran.stdout + ran.stderr
        checks.equal(f"{language.name}: {' '.join(words[:2])}", (ran.returncode, said), (0, ""))


def main():
    checks = Checks("clients: those of clients/ on the examples, against false daemons, and beside one that is killed")
    named = sys.argv[1:]
    for it in LANGUAGES:
        lacking = [tool for tool in it.tools if not shutil.which(tool)]
        if named and it.name not in named:
            continue
        if lacking:
            checks.skip(f"{it.name} (needs {' and '.join(lacking)})")
            continue
        with tempfile.TemporaryDirectory(prefix="noticed-clients-") as room:
            words, began = it.build(Path(room)), time.monotonic()
            read_over(checks, it)
            never = NeverReached(words)
            never.start()
            for check in (vectors, answers, bounds, endings, refusals, places, unreachable, paths, killed):
                check(checks, it.name, words)
            never.join(PATIENCE)
            checks.equal(f"{it.name}: no daemon, with its own limits", never.said, "unreachable")
            checks.true(f"{it.name}: after {never.took:.1f} seconds", REACHED / 2 < never.took < 2 * REACHED)
            print(f"  {it.name}: {time.monotonic() - began:.0f} seconds", flush=True)
    checks.done()


if __name__ == "__main__":
    main()
