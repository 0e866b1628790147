"""Reads the program's own notices with the email package of Python's standard library, as a mail program would.

Each notice has to parse without a defect, and its header, its parts, each field of its delivery status and its returned
header have to be the values that stand beside the input here. Spoiled notices have to be rejected, or the checks
themselves would be worth nothing.
"""
from dataclasses import dataclass, field
from email import policy
from email.parser import BytesParser
from email.utils import parsedate_to_datetime

from tests.support.daemon_and_clients import flush
from tests.support.running import HOST, Checks, batch
from vectors import frames

SERVICES = frames.SERVICES
ACTIONS = frames.ACTIONS

# the moment and the arrival of each flush, as a mail program reads the two dates
MOMENT, ARRIVAL = "2023-11-14T22:13:20+00:00", "Tue, 14 Nov 2023 21:13:20 +0000"

# what a person reads first, and the subject (this project's profile)
WORDING = {
    "bounce": ("Undelivered Mail Returned to Sender", "Your message could not be delivered to the recipients below."),
    "defer": ("Delayed Mail (still being retried)", "Your message has not yet been delivered to the recipients below."),
    "trace": ("Mail Delivery Status Report", "This is the delivery report for your message."),
}


@dataclass
class Recipient:
    """One append, and what is to be read of it: the lines for a person, and the group's fields in order."""

    given: dict
    lines: list
    fields: list


@dataclass
class Case:
    """A log of a service, its flush, and what is to be read of its notice."""

    name: str
    service: str
    queue_id: str
    recipients: list
    flush: dict = field(default_factory=dict)
    to: str = "ann@example.com"
    message_fields: list = field(default_factory=list)
    returned: bytes = None
    body: bytes = None  # of a message that is returned whole in an 8bit mail
    boundary: str = "0000"


def plain(recipient, action, status):
    """A recipient without optional texts."""
    return Recipient(
        given={"recipient": recipient.encode(), "action": ACTIONS[action], "status": status.encode()},
        lines=[f"<{recipient}>: {action} ({status})"],
        fields=[("Final-Recipient", f"rfc822; {recipient}"), ("Action", action), ("Status", status)],
    )


ALL_FIELDS = Recipient(
    given={
        "recipient": b"bob@example.org",
        "action": ACTIONS["failed"],
        "status": b"5.1.1",
        "original": b"bob.alias@example.org",
        "mta": b"mail.example.org",
        "diagnostic": b"550 5.1.1 no such user",
        "reason": b"host said:\nno such user",
    },
    lines=["<bob@example.org>: failed (5.1.1)", "    host said:?no such user"],
    fields=[
        ("Original-Recipient", "rfc822; bob.alias@example.org"),
        ("Final-Recipient", "rfc822; bob@example.org"),
        ("Action", "failed"),
        ("Status", "5.1.1"),
        ("Remote-MTA", "dns; mail.example.org"),
        ("Diagnostic-Code", "smtp; 550 5.1.1 no such user"),
    ],
)

# a delayed recipient with both of its moments (RFC 3464 sections 2.3.7 and 2.3.9)
RETRIED = Recipient(
    given={
        "recipient": b"bob@example.org",
        "action": ACTIONS["delayed"],
        "status": b"4.4.1",
        "last_attempt": 1_700_000_000,
        "retry_until": 1_700_432_000,
    },
    lines=["<bob@example.org>: delayed (4.4.1)"],
    fields=[
        ("Final-Recipient", "rfc822; bob@example.org"),
        ("Action", "delayed"),
        ("Status", "4.4.1"),
        ("Last-Attempt-Date", "Tue, 14 Nov 2023 22:13:20 +0000"),
        ("Will-Retry-Until", "Sun, 19 Nov 2023 22:13:20 +0000"),
    ],
)

# texts that try to end a line, the message, a part or the session
HOSTILE = Recipient(
    given={
        "recipient": b".@example.org",
        "action": ACTIONS["failed"],
        "status": b"5.0.0",
        "diagnostic": b"550 \r\n.\r\nQUIT\r\n\r\n--B.H1.1700000000.0000--",
        "reason": b"\r\n--B.H1.1700000000.0000--\r\n\xff\x00\x7f\x09tab",
    },
    lines=["<.@example.org>: failed (5.0.0)", "    ??--B.H1.1700000000.0000--??????tab"],
    fields=[
        ("Final-Recipient", "rfc822; .@example.org"),
        ("Action", "failed"),
        ("Status", "5.0.0"),
        ("Diagnostic-Code", "smtp; 550 ??.??QUIT????--B.H1.1700000000.0000--"),
    ],
)

# The header of a message in ISO 8859-1.
TEXT = b"""MIME-Version: 1.0
Content-Type: text/plain; charset=iso-8859-1
Content-Transfer-Encoding: 8bit
"""

CASES = [
    Case("one recipient without optional texts", "bounce", "A1B2C3", [plain("bob@example.org", "failed", "5.1.1")]),
    Case(
        "all optional fields",
        "bounce",
        "A1B2C3",
        [ALL_FIELDS],
        flush={"envelope": b"QQ314159", "header": b"Subject: hi\nX: y\r\n\r\nbody"},
        message_fields=[("Original-Envelope-Id", "QQ314159")],
        returned=b"Subject: hi\r\nX: y\r\n",
    ),
    Case(
        "two delayed recipients, oldest first",
        "defer",
        "D42",
        [plain("zoe@example.org", "delayed", "4.4.1"), plain("amy@example.net", "delayed", "4.2.2")],
        flush={"return_path": b"list-owner@lists.example.com", "header": b"From: <a@b>\n"},
        to="list-owner@lists.example.com",
        returned=b"From: <a@b>\r\n",
    ),
    Case(
        "a delayed recipient with its two dates",
        "defer",
        "D43",
        [RETRIED, plain("amy@example.net", "delayed", "4.2.2")],
    ),
    Case(
        "a trace of each action",
        "trace",
        "Trace0123456789abcdefghijklmnopq",
        [
            plain("a@example.org", "failed", "5.999.0"),
            plain("b@example.org", "delayed", "4.0.10"),
            plain("c@example.org", "delivered", "2.0.0"),
            plain("d@example.org", "relayed", "2.1.9"),
            plain("e@example.org", "expanded", "2.5.100"),
        ],
    ),
    Case(
        "dots, a long line and bytes that are no text",
        "bounce",
        "A1B2C3",
        [plain("bob@example.org", "failed", "5.1.1")],
        flush={"header": b".x\n" + 1200 * b"a" + b"\nb\xe9\rc\n\ttab\n"},
        returned=b".x\r\n" + 998 * b"a" + b"\r\nb??c\r\n\ttab\r\n",
    ),
    Case(
        "returned lines that look like delimiters",
        "bounce",
        "A1B2C3",
        [plain("bob@example.org", "failed", "5.1.1")],
        flush={"header": b"--B.A1B2C3.1700000000.0000x\n--\n--B.A1B2C3.1700000000.0001--\r\nSubject: hi\r\n\r\nbody"},
        returned=b"--B.A1B2C3.1700000000.0000x\r\n--\r\n--B.A1B2C3.1700000000.0001--\r\nSubject: hi\r\n",
        boundary="0002",
    ),
    Case(
        "a message with 8bit bytes",
        "bounce",
        "A1B2C3",
        [plain("bob@example.org", "failed", "5.1.1")],
        flush={"header": TEXT + b"\n" + "d\xe9j\xe0\n.\xff\n".encode("latin-1"), "returned": 2, "version": 3},
        body="d\xe9j\xe0\r\n.\xff\r\n".encode("latin-1"),
    ),
    Case("texts that try to end a part", "bounce", "H1", [HOSTILE]),
    Case(
        "three hundred recipients",
        "bounce",
        "MANY",
        [plain(f"r{at:03}@example.org", "failed", f"5.{at}.0") for at in range(300)],
    ),
]


def frames_of(case):
    """The request frames of a case."""
    service, queue_id = SERVICES[case.service], case.queue_id.encode()
    appends = [frames.append(at, service, queue_id, **it.given) for at, it in enumerate(case.recipients)]
    return b"".join([*appends, flush(len(appends), queue_id, service, **case.flush)])


def messages_of(outbox):
    """The messages of an outbox as their receiver gets them, one dot taken from each line that begins with one."""
    lines = outbox.split(b"\r\n")
    messages, at = [], 0
    while b"DATA" in lines[at:]:
        at = lines.index(b"DATA", at) + 1
        end = lines.index(b".", at)
        messages.append(b"".join((it[1:] if it.startswith(b".") else it) + b"\r\n" for it in lines[at:end]))
        at = end + 1
    return messages


def byte_faults(notice, eight_bit):
    """What is wrong with a notice's bytes: lines of at most 998 bytes, each ended by CRLF; an 8bit mail has bytes above
    127."""
    if not notice.endswith(b"\r\n"):
        yield "the last line has no end"
    for line in notice[:-2].split(b"\r\n"):
        if len(line) > 998:
            yield f"a line of {len(line)} bytes"
        if any(byte != 9 and not 32 <= byte <= 126 and not (eight_bit and byte > 127) for byte in line):
            yield f"a byte that is neither a tab nor printable in {line[:60]!r}"


def defects_of(message):
    """The parser's defects in a message, its parts and its fields."""
    for part in message.walk():
        yield from (f"defect {type(it).__name__} in {part.get_content_type()}" for it in part.defects)
        for name, value in part.items():
            yield from (f"defect {type(it).__name__} in {name}" for it in getattr(value, "defects", ()))


def differences(message, case):
    """Where a parsed notice isn't the case's."""

    def differs(what, found, wanted):
        if found != wanted:
            yield f"{what}: wanted {wanted!r}, found {found!r}"

    subject, opening = WORDING[case.service]
    letter = {"bounce": "B", "defer": "D", "trace": "T"}[case.service]
    name = f"{letter}.{case.queue_id}.1700000000"
    yield from differs("From", message["From"], f"Mail Delivery System <MAILER-DAEMON@{HOST}>")
    yield from differs("To", message["To"].addresses[0].addr_spec if message["To"] else None, case.to)
    yield from differs("Subject", message["Subject"], subject)
    yield from differs("Date", parsedate_to_datetime(message["Date"]).isoformat() if message["Date"] else None, MOMENT)
    yield from differs("Message-ID", message["Message-ID"], f"<{name}.0@{HOST}>")
    yield from differs("Auto-Submitted", message["Auto-Submitted"], "auto-replied")
    yield from differs("MIME-Version", message["MIME-Version"], "1.0")
    yield from differs("the content's type", message.get_content_type(), "multipart/report")
    yield from differs("the report's type", message.get_param("report-type"), "delivery-status")
    yield from differs("the boundary", message.get_boundary(), f"{name}.{case.boundary}")
    yield from differs("what stands before the parts", message.preamble or "", "")
    yield from differs("what stands after them", message.epilogue or "", "")
    parts = message.get_payload() if message.is_multipart() else []
    types = ["text/plain", "message/delivery-status"] + (["text/rfc822-headers"] if case.returned is not None else [])
    types += ["message/rfc822"] if case.body is not None else []
    yield from differs("the parts' types", [it.get_content_type() for it in parts], types)
    if len(parts) != len(types):
        return
    lines = [
        f"This is the mail system at host {HOST}.",
        "",
        opening,
        "",
        *(line for it in case.recipients for line in it.lines),
    ]
    yield from differs(
        "what a person reads", parts[0].get_payload(decode=True), "".join(f"{it}\r\n" for it in lines).encode()
    )
    groups = [*case.message_fields, ("Reporting-MTA", f"dns; {HOST}"), ("Arrival-Date", ARRIVAL)], *(
        it.fields for it in case.recipients
    )
    yield from differs(
        "the delivery status",
        [[(it, str(value)) for it, value in group.items()] for group in parts[1].get_payload()],
        [list(it) for it in groups],
    )
    encoding = "8bit" if case.body is not None else None
    yield from differs("the notice's encoding", message["Content-Transfer-Encoding"], encoding)
    if case.returned is not None:
        yield from differs("the returned header", parts[2].get_payload(decode=True), case.returned)
    if case.body is not None:
        yield from differs("the part's encoding", parts[2]["Content-Transfer-Encoding"], encoding)
        yield from differs("the returned body", parts[2].get_payload(0).get_payload(decode=True), case.body)


def faults_of(notice, case):
    """All that is wrong with a notice."""
    message = BytesParser(policy=policy.default).parsebytes(notice)
    return [*byte_faults(notice, case.body is not None), *defects_of(message), *differences(message, case)]


def without(notice, text):
    """The notice without a text that stands in it once, or once at its end."""
    front, found, back = notice.rpartition(text)
    if not found:
        raise ValueError(f"the notice has no {text!r}")
    return front + back


# how a notice is spoiled, and a word of the fault that has to be found
SPOILED = {
    "the last delimiter cut off": (
        lambda it: without(it, b"--B.A1B2C3.1700000000.0000--\r\n"),
        "CloseBoundaryNotFoundDefect",
    ),
    "another boundary in the header": (lambda it: it.replace(b'.0000"', b'.0001"'), "StartBoundaryNotFoundDefect"),
    "a group without its action": (lambda it: without(it, b"Action: failed\r\n"), "the delivery status"),
    "an empty line within a group": (lambda it: it.replace(b"Action: ", b"\r\nAction: "), "the delivery status"),
    "a line feed alone": (lambda it: it.replace(b"X: y\r\n", b"X: y\n"), "neither a tab nor printable"),
    "a byte of eight bits": (
        lambda it: it.replace(b"no such user\r\n", b"no such us\xe9r\r\n", 1),
        "neither a tab nor printable",
    ),
    "a header's line that isn't one": (lambda it: it.replace(b"MIME-Version: 1.0\r\n", b"MIME-Version\r\n"), "defect"),
    "a delimiter in a returned header": (
        lambda it: it.replace(b"X: y\r\n", b"--B.A1B2C3.1700000000.0000\r\n"),
        "the parts' types",
    ),
}


def main():
    checks = Checks("the notices, read by Python's email package")
    for case in CASES:
        ran = batch(frames_of(case))
        checks.equal(f"{case.name}: status", ran.status, 0)
        notices = messages_of(ran.outbox)
        checks.equal(f"{case.name}: notices", len(notices), 1)
        for notice in notices:
            checks.equal(f"{case.name}: faults", faults_of(notice, case), [])
    case = CASES[1]
    notice = messages_of(batch(frames_of(case)).outbox)[0]
    for what, (spoil, fault) in SPOILED.items():
        spoiled = spoil(notice)
        checks.true(f"{what}: spoils the notice", spoiled != notice)
        found = faults_of(spoiled, case)
        checks.true(f"{what}: rejected for it, not only for {found}", any(fault in it for it in found))
    print(f"  {len(CASES)} notices read, {len(SPOILED)} spoiled ones rejected")
    checks.done()


if __name__ == "__main__":
    main()
