"""A crew of one agent over connections in memory (the program probe), with reads of one, two, three and many bytes,
beside a plain reading of noticed-protocol(5): the first exchange cut after each byte, with each byte changed to each other,
with lengths that no frame has, and without an end; and each read, each write, each post and each flush of a run
failing in turn: with an error, interrupted (which is a failure like any other), and taking or giving no byte."""
import os
import struct
import subprocess
import sys
from dataclasses import dataclass, field
from typing import Optional

from tests.support.daemon_and_clients import flush
from tests.support.formats import sessions
from tests.support.formats.logs import CLOSED, DISCARDED, REFUSED, Limits, Logs
from tests.support.formats.notices import crlf, mail, outbox
from tests.support.running import HOST, ROOT, VECTORS, Checks
from vectors import frames

PROBE = os.environ.get("PROBE") or str(ROOT / "crates/probe/out/probe")
PATIENCE = 120  # seconds that a run may take
MANY = 65_536  # more bytes than a connection of these runs sends
FAILURES = ("error", "interruption", "nothing")
FIRST = (VECTORS / "one-bounce.frames").read_bytes()


@dataclass
class Failing:
    """The call of this kind and number, from 1, fails so; 0 for none."""

    call: str = "read"
    number: int = 0
    failure: str = "error"


@dataclass
class Ended:
    """What a run showed: the answers of each connection, the account's lines, the outbox."""

    heard: list = field(default_factory=list)
    account: list = field(default_factory=list)
    outbox: bytes = b""


def crew(sent: list, most: int = MANY, failing: Failing = Failing()) -> Optional[Ended]:
    """Runs a crew of one agent over connections that send these bytes; None where the program failed."""
    given = b"".join(struct.pack(">I", len(it)) + it for it in sent)
    words = [PROBE, "given", str(most), failing.call, str(failing.number), failing.failure]
    ran = subprocess.run(words, input=given, capture_output=True, timeout=PATIENCE, check=False)
    if (ran.stderr, ran.returncode) != (b"", 0):
        return None
    shown, heard, at = ran.stdout, [], 0
    while shown[at : at + 4] in (b"conn", b"\0\0\0\x0a"):
        if shown[at : at + 4] == b"conn":
            heard.append(bytearray())
            at += 4
        else:
            heard[-1] += shown[at : at + 14]
            at += 14
    *account, text = shown[at:].split(b"\n", 4)
    return Ended([bytes(it) for it in heard], account, text)


class Expected:
    """What a crew of one agent comes to, by the plain reading, one connection after another."""

    def __init__(self):
        self.logs, self.letters, self.heard = Logs(Limits()), [], []
        self.requests, self.faults = 0, 0

    def serve(self, given: bytes, broken: bool = False, lost: Optional[int] = None):
        """A connection with these bytes, after which a read fails; or the answer of this number can't be written."""
        self.heard.append(b"")
        try:
            for at, answered in enumerate(sessions.answers(given, self.logs, self.letters, broken)):
                self.requests += answered[1] != REFUSED
                if at == lost:
                    raise sessions.Fault(35)
                self.heard[-1] += sessions.answer(*answered)
        except sessions.Fault:
            self.faults += 1

    def ended(self) -> Ended:
        """What a run shows whose outbox doesn't fail."""
        return Ended(self.heard, self.account(len(self.letters), True), outbox(HOST.encode(), self.letters))

    def account(self, posted: int, whole: bool) -> list:
        """The lines of the account of a run that posted so many letters."""
        agent = b"requests %d connections %d faults %d" % (self.requests, len(self.heard), self.faults)
        unsent = len(self.letters) - posted
        told = b"letters %d unsent %d whole %s" % (posted, unsent, b"true" if whole else b"false")
        return [b"ok", b"answered %d" % self.requests, agent, told]


def expected(sent: list) -> Expected:
    """What these connections come to where nothing fails."""
    wanted = Expected()
    for given in sent:
        wanted.serve(given)
    return wanted


def check_all(checks: Checks, about: str, sent: list):
    """Compares a run over these connections with the plain reading, with reads of one, two, three and many bytes."""
    wanted = expected(sent).ended()
    for most in (1, 2, 3, MANY):
        found = crew(sent, most)
        checks.true(f"{about}, reads of {most} bytes: a run", found)
        for at, (given, told) in enumerate(zip(sent, wanted.heard)):
            if found and found.heard[at : at + 1] != [told]:
                checks.equal(f"{about}, reads of {most} bytes: {given.hex()}", found.heard[at : at + 1], [told])
                break
        else:
            checks.true(f"{about}, reads of {most} bytes: account and outbox", found == wanted)


def check_cuts(checks: Checks):
    """The first n bytes of the first exchange, each followed by a whole connection; and all of them in one run."""
    rest = flush(0, b"A1B2C3")
    for count in range(len(FIRST) + 1):
        for most in (1, 2, 3, MANY):
            found = crew([FIRST[:count], rest], most)
            checks.equal(f"the first {count} bytes, reads of {most}", found, expected([FIRST[:count], rest]).ended())
    print(f"  {len(FIRST) + 1} cuts, each with reads of 1, 2, 3 and many bytes")


def changes() -> list:
    """The first exchange with each byte as each other."""
    return [
        FIRST[:at] + bytes([byte]) + FIRST[at + 1 :]
        for at in range(len(FIRST))
        for byte in range(256)
        if byte != FIRST[at]
    ]


def odd_lengths() -> list:
    """Frames whose lengths no frame has, bodies of the longest length, frames out of turn, requests after a goodbye."""
    bodies = [b"\0\0\0\0", b"\0\1\0\1", b"\xff\xff\xff\xff", b"\0\1\0\0" + bytes(65_536), b"\0\1\0\0" + bytes(65_535)]
    turns = [
        flush(5, b"K1"),
        frames.discard(0, 1, b"K1"),
        frames.discard(0, 1, b"K1") + frames.discard(0, 1, b"K1"),
    ]
    return [*bodies, *[it + FIRST for it in bodies[:3]], *turns, b""]


def check_endless(checks: Checks):
    """A peer that asks on and on is answered a million times; after it the agent's requests are used up."""
    limit = Limits().requests
    head, tail = frames.discard(0, 1, b"K1")[:6], frames.discard(0, 1, b"K1")[10:]
    found = crew(
        [b"".join(head + struct.pack(">I", it) + tail for it in range(limit + 1)), frames.discard(0, 1, b"K1")]
    )
    answered = [sessions.answer(0, DISCARDED, 0), *(sessions.answer(it, CLOSED, 0) for it in range(1, limit))]
    checks.true("a peer without end: its answers", found.heard[0] == b"".join(answered))
    checks.equal("the next peer's answer", found.heard[1], sessions.answer(0, REFUSED, 44))
    agent = b"requests %d connections 2 faults 1" % limit
    checks.equal("the account", found.account, [b"ok", b"answered %d" % limit, agent, b"letters 0 unsent 0 whole true"])


def messages() -> list:
    """Two connections, which flush three logs between them."""
    first = [
        frames.append(0, 1, b"K1", b"x@y", 1, b"5.0.0"),
        flush(1, b"K1"),
        frames.append(2, 1, b"K2", b"x@y", 1, b"5.0.0"),
    ]
    second = [flush(0, b"K2"), frames.append(1, 1, b"K3", b"x@y", 1, b"5.0.0"), flush(2, b"K3")]
    return [b"".join(first), b"".join(second)]


def reads_of(given: bytes, most: int) -> list:
    """How many bytes came before each read of a connection whose frames are whole, its last read included."""
    found, at = [], 0
    while at < len(given):
        for size in (4, int.from_bytes(given[at : at + 4], "big")):
            found += range(at, at + size, most)
            at += size
    return [*found, at]


def check_reads(checks: Checks, sent: list):
    """Each read of the first connection fails in turn, or gives nothing, as at the end: the frames before it are
    answered, and the next connection is served."""
    for most in (1, 2, 3, MANY):
        reads = reads_of(sent[0], most)
        for number, before in enumerate(reads, 1):
            for failure in FAILURES:
                wanted = Expected()
                wanted.serve(sent[0][:before], broken=failure != "nothing")
                wanted.serve(sent[1])
                found = crew(sent, most, Failing("read", number, failure))
                checks.equal(f"read {number} of {most} bytes: {failure}", found, wanted.ended())
        print(f"  {len(reads)} reads of {most} bytes, each failed three times")


def check_writes(checks: Checks, sent: list):
    """Each answer fails in turn: it ends its connection, what it answers stands, and the next connection is served."""
    for number in range(1, 8):
        for failure in FAILURES:
            wanted = Expected()
            wanted.serve(sent[0], lost=number - 1)
            wanted.serve(sent[1], lost=number - 4 if number > 3 else None)
            checks.equal(
                f"answer {number}: {failure}", crew(sent, MANY, Failing("write", number, failure)), wanted.ended()
            )
    print("  6 answers, each failed three times, and none")


def parts_of(letters: list) -> list:
    """The outbox in its parts: the greeting with the first letter, each other letter, the end."""
    posted = [mail(HOST.encode(), it) for it in letters]
    return [crlf([b"EHLO " + HOST.encode()]) + posted[0], *posted[1:], crlf([b"QUIT"])]


def check_posts(checks: Checks, sent: list, failure: str):
    """Each write to the outbox fails in turn: earlier letters are there, those from the failed one on are unsent."""
    wanted, number = expected(sent), 1
    whole, parts = wanted.ended(), parts_of(wanted.letters)
    while number < 2000:
        found = crew(sent, MANY, Failing("post", number, failure))
        if found == whole:
            break
        posted = sum(found.outbox.startswith(b"".join(parts[: at + 1])) for at in range(len(wanted.letters)))
        checks.true(
            f"post {number}, {failure}: a prefix",
            whole.outbox.startswith(found.outbox) and found.outbox != whole.outbox,
        )
        checks.equal(f"post {number}, {failure}: answers", found.heard, whole.heard)
        checks.equal(f"post {number}, {failure}: account", found.account, wanted.account(posted, False))
        number += 1
    checks.true(f"posts, {failure}: one at least for each letter and the end: {number - 1}", number > len(parts))
    print(f"  {number - 1} posts failed, {failure}")


def check_flushes(checks: Checks, sent: list):
    """Each flush of the outbox fails in turn: the letter is written but unsent; at the end, whole is false."""
    wanted = expected(sent)
    parts = parts_of(wanted.letters)
    for number in range(1, len(parts) + 2):
        found, text = crew(sent, MANY, Failing("flush", number, "error")), b"".join(parts[:number])
        if number <= len(parts):
            account = wanted.account(min(number - 1, len(wanted.letters)), False)
            checks.equal(f"flush {number} fails", found, Ended(wanted.heard, account, text))
        else:
            checks.equal("no flush fails", found, wanted.ended())
    print(f"  {len(parts)} flushes, each failed once")


def main():
    checks = Checks(
        "crew_connections: cut and changed frames over a crew, and its reads, writes and flushes failing in turn"
    )
    if not os.access(PROBE, os.X_OK):
        print(f"there is no program {PROBE}: run the gate, or name one in PROBE")
        sys.exit(1)
    check_cuts(checks)
    check_all(checks, "odd lengths and turns", odd_lengths())
    check_all(checks, "each byte changed", changes())
    check_endless(checks)
    sent = messages()
    check_reads(checks, sent)
    check_writes(checks, sent)
    for failure in FAILURES:
        check_posts(checks, sent, failure)
    check_flushes(checks, sent)
    checks.done()


if __name__ == "__main__":
    main()
