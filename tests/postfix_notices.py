"""What Postfix keeps of 85 messages, and the notices that its bounce(8) made of that (tests/postfix/files/): the
program probe plans the notices of the same requests from the same logs and queue files, and writes them. They go to the
same addresses, tell of the same recipients with the same fields, and give back the same text or header; where Postfix
made none, none is planned. What differs is named here."""
import email
import email.policy
import email.utils
import os
import re
import struct
import subprocess
from pathlib import Path

from tests.support.running import ROOT, Checks

PROBE = os.environ.get("PROBE") or str(ROOT / "crates/probe/out/probe")
FILES = ROOT / "tests/postfix/files"
LOG_OF = {"failure": "bounce", "delay": "defer", "expired": "defer", "success": "trace"}
MANY = 100_000  # recipients of one alias
LIFETIME = 5 * 24 * 3600  # seconds for which Postfix tries, as it stands in a warning
# What can't be said here, so that Postfix's own service makes the notice: SMTPUTF8, and what `sendmail -bv` asks.
UNSAID = {"utf8", "utf8-sender", "later-utf8", "asked-before"}
# Why a notice that is planned is not written, so that Postfix's own service makes it.
NO_ADDRESS = "the recipient is no address"
NO_TEXT = {
    "long-address": NO_ADDRESS,
    "newer-form-quoted": NO_ADDRESS,
    "quoted": NO_ADDRESS,
    "verp-quoted": "the address of the notice needs quotes",
    "orcpt-utf8": "the original recipient is neither empty nor an address",
}
# A field of more than one record of the queue file: bounce(8) ends the header after the first of these records.
CUT_BY_POSTFIX = {"long-words", "long-field"}


def planned(service: str, request: bytes, log: bytes, queue: bytes) -> tuple[dict, list[dict]]:
    """What is said of the message, and each notice, by the names of their parts; where none can be said, `unsaid`
    stands with the first."""
    given = b"".join(struct.pack(">I", len(it)) + it for it in (request, log, queue))
    found = subprocess.run(
        [PROBE, "postfix", "plan", service], input=given, stdout=subprocess.PIPE, check=True, timeout=20
    ).stdout
    message, notices = {}, []
    while found:
        line, _, rest = found.partition(b"\n")
        name, size = line.decode().split()
        value, found = rest[: int(size)], rest[int(size) + 1 :]
        if name == "to":
            notices.append({})
        (notices[-1] if notices else message)[name] = value
    return message, notices


def fields_of(record: bytes) -> dict:
    """The fields of a record of a log."""
    lines = [it.split(b"=", 1) for it in record.strip(b"\n").split(b"\n")[1:]]
    return {name.decode(): value for name, value in lines}


def words(text: bytes) -> bytes:
    """A text with single spaces, since Postfix folds its lines."""
    return b" ".join(text.split())


def date(seconds: int) -> bytes:
    """A moment as Postfix writes it: the day of the month has no zero in front."""
    return email.utils.formatdate(seconds).replace("-0000", "+0000 (UTC)").replace(", 0", ", ").encode()


def told(it: dict, kind: bytes, arrival: int) -> list[bytes]:
    """The lines in which bounce(8) tells of a record's recipient (bounce_notify_util.c)."""
    lines = [b"Final-Recipient: rfc822; " + it["recipient"]]
    if "dsn_orig_rcpt" in it:
        lines.append(b"Original-Recipient: " + it["dsn_orig_rcpt"])
    elif "original_recipient" in it:
        lines.append(b"Original-Recipient: rfc822; " + it["original_recipient"])
    lines += [b"Action: " + it["action"], b"Status: " + it["status"]]
    if "mta_type" in it:
        lines.append(b"Remote-MTA: " + it["mta_type"] + b"; " + it["mta_mname"])
    if "diag_type" in it:
        lines.append(b"Diagnostic-Code: " + it["diag_type"] + b"; " + it["diag_text"])
    else:
        lines.append(b"Diagnostic-Code: X-Postfix; " + it["reason"])
    if kind == b"delay":
        lines.append(b"Will-Retry-Until: " + date(arrival + LIFETIME))
    return [words(line) for line in lines]


class Made:
    """A notice that Postfix made."""

    def __init__(self, file: Path):
        first, _, text = file.read_bytes().partition(b"\n")
        self.to = unquoted(first[3:])
        boundary = re.search(rb'boundary="([^"]*)"', text)[1]
        _, _, status, returned, _ = text.split(b"\n--" + boundary)
        groups = re.sub(rb"\n[ \t]+", b" ", status).strip(b"\n").split(b"\n\n")[1:]
        self.message = groups[0].split(b"\n")
        self.recipients = [[words(line) for line in group.split(b"\n")] for group in groups[1:]]
        content = returned.partition(b"\n\n")[2]
        self.line, _, self.back = content.partition(b"\n")  # the Return-Path, and the text behind it

    def said(self, name: bytes) -> bytes:
        found = [it.partition(b": ")[2] for it in self.message if it.startswith(name + b": ")]
        return found[0] if found else b""


def unquoted(address: bytes) -> bytes:
    """An address as it is without the quotes that SMTP wants."""
    found = re.fullmatch(rb'"((?:[^"\\]|\\.)*)"(@.*)?', address)
    return re.sub(rb"\\(.)", rb"\1", found[1]) + (found[2] or b"") if found else address


def typed(line: bytes) -> bytes:
    """A field's line with one space before each text that has a type before it, and a date without its comment."""
    name, _, value = line.partition(b": ")
    kind, semicolon, text = value.partition(b";")
    value = kind.lower() + b"; " + text.strip() if semicolon and b" " not in kind else value.replace(b" (UTC)", b"")
    return name + b": " + re.sub(rb", (\d) ", rb", 0\1 ", value)


def as_written(record: bytes) -> dict:
    """The fields of a record as a notice of ours has them: of a remark 800 bytes at most, each of which is printable,
    a status without zeros in front of its numbers, and no original recipient that is the final one."""
    it = fields_of(record)
    if it.get("dsn_orig_rcpt") == b"rfc822;" + it["recipient"]:
        it = {name: value for name, value in it.items() if name not in ("dsn_orig_rcpt", "original_recipient")}
    for name in ("diag_text", "reason"):
        it[name] = bytes(byte if 32 <= byte < 127 else 63 for byte in it.get(name, b"")[:800])
    return it | {"status": re.sub(rb"\b0+(?=\d)", b"", it["status"])}


def written(text: bytes) -> tuple[list[bytes], list[list[bytes]], bytes]:
    """The fields of the message and of each recipient in a notice of ours, and what it gives back."""
    boundary = re.search(rb'boundary="([^"]*)"', text)[1]
    _, _, status, *returned = text.split(b"\r\n--" + boundary)
    groups = [it.split(b"\r\n") for it in status.partition(b"\r\n\r\n")[2].strip(b"\r\n").split(b"\r\n\r\n")]
    return groups[0], groups[1:], returned[0].partition(b"\r\n\r\n")[2] if len(returned) > 1 else b""


def compare_text(checks: Checks, what: str, message: dict, notice: dict, made: Made):
    """Compares a notice that was written with the one that Postfix made, whose recipients are those of the records."""
    if "text" not in notice:
        checks.equal(f"{what}: why it has no text", notice["no-text"].decode(), NO_TEXT.get(what.split(",")[0]))
        return
    fields, recipients, back = written(notice["text"])
    own = [it for it in made.message if it.startswith((b"X-Postfix", b"Arrival-Date", b"Original-Envelope-Id"))]
    checks.equal(
        f"{what}: the fields of the message",
        sorted(it for it in fields if not it.startswith(b"Reporting-MTA")),
        sorted(map(typed, own)),
    )
    records = [b"\n" + it for it in re.findall(rb"(?:[^\n]+\n)+\n", notice["records"])]
    told_there = [
        [typed(it) for it in told(as_written(record), notice["kind"], int(message["arrival"]))] for record in records
    ]
    told_here = [[typed(it) for it in group] for group in recipients]
    checks.equal(
        f"{what}: the fields of the recipients",
        [sorted(map(words, it)) for it in told_here],
        [sorted(map(words, it)) for it in told_there],
    )
    line, _, behind = back.partition(b"\r\n")
    checks.equal(f"{what}: the line in front of what it gives back", line, made.line)
    checks.true(f"{what}: something is given back", bool(behind) == bool(made.back))


def compare(checks: Checks, what: str, case: str, message: dict, notice: dict, made: Made):
    """Compares a planned notice with the one that Postfix made."""
    arrival = int(message["arrival"])
    checks.equal(f"{what}: its address", notice["to"], made.to)
    records = [b"\n" + it for it in re.findall(rb"(?:[^\n]+\n)+\n", notice["records"])]
    checks.equal(
        f"{what}: its recipients", [told(fields_of(it), notice["kind"], arrival) for it in records], made.recipients
    )
    checks.equal(f"{what}: when the message came", date(arrival), made.said(b"Arrival-Date"))
    checks.equal(f"{what}: the envelope id", message["id"], made.said(b"Original-Envelope-Id"))
    back = notice.get("whole", notice.get("header"))
    if case in CUT_BY_POSTFIX and "header" in notice:
        checks.true(
            f"{what}: the header begins as there, and has more",
            back.startswith(made.back.rstrip(b"\n")) and len(back) > len(made.back),
        )
    else:
        checks.equal(f"{what}: what it gives back", back, made.back)


def of_one_alias(checks: Checks):
    """A log of very many recipients of one alias is planned in a time that doesn't grow with their square."""
    record = b"\nrecipient=u%d@example.org\noffset=7\nstatus=5.1.1\naction=failed\nreason=no\n\n"
    log = b"".join(record % it for it in range(MANY))
    request, queue = ((FILES / "one" / it).read_bytes() for it in ("failure.request", "queue"))
    _, notices = planned("bounce", request, log, queue)
    told_of = sum(it["records"].count(b"\nrecipient=") for it in notices)
    checks.equal(
        f"{MANY} recipients of one alias: the notices, and of how many they tell",
        (len(notices), told_of),
        (MANY // 1000, MANY),
    )


def main():
    checks = Checks("messages of Postfix: the notices that are planned are those that Postfix made")
    cases = sorted(it for it in FILES.iterdir() if it.is_dir())
    checks.true("there are messages", len(cases) >= 80)
    count = 0
    for case in cases:
        for request in sorted(case.glob("*.request")):
            asked, what = request.stem, f"{case.name}, {request.stem}"
            log = LOG_OF[asked]
            message, notices = planned(
                log, request.read_bytes(), (case / log).read_bytes(), (case / "queue").read_bytes()
            )
            if case.name in UNSAID:
                checks.true(f"{what}: can't be said", "unsaid" in message and not notices)
                continue
            made = [Made(it) for it in sorted(case.iterdir()) if re.fullmatch(rf"{asked}(-\d+)?", it.name)]
            checks.true(f"{what}: can be said", "unsaid" not in message)
            checks.equal(f"{what}: how many notices", len(notices), len(made))
            for notice, other in zip(sorted(notices, key=lambda it: it["to"]), sorted(made, key=lambda it: it.to)):
                compare(checks, what, case.name, message, notice, other)
                compare_text(checks, what, message, notice, other)
                count += 1
    checks.true(f"many notices were compared: {count}", count >= 80)
    of_one_alias(checks)
    checks.done()


if __name__ == "__main__":
    main()
