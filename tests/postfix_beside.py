"""Sends the same messages, of over 200 kinds, to two private Postfixes on loopback. One has its own bounce(8), the
other `noticed postfix` in front. Some runs only relay mail; the sandbox also delivers it, by local(8), pipe(8),
virtual(8) and lmtp(8). The notices and the mail of both sides are compared field by field, and the notices as programs
read them: they may differ only in what is named here. Needs root and Debian's package postfix, and is skipped without
them.

    python3 -m tests.postfix_beside [--itself] [NAME]...

With --itself both sides have bounce(8), and nothing may differ. NAME is a kind of message (default: all)."""
import contextlib
import re
import sys
import time
from collections import Counter
from dataclasses import dataclass

from tests.postfix.capture import cases
from tests.postfix.capture.cases import Case
from tests.postfix.capture.submit import by_sendmail, by_smtp
from tests.support import sandbox_cases
from tests.support.private_postfix import Delivery, Mailbox, Postfix, comes_true, lacks, mail_filter
from tests.support.readers import compare_readers
from tests.support.running import ROOT, Checks, program, run
from tests.support.sandbox import Sandbox
from tests.support.told import Told, differences, name_in, retry_seconds, taken_apart

# What error(8) says of these has a byte past the end of a text, which may be any.
UNEVEN = {"without-words", "words-of-none"}
LIFETIME = 9  # seconds for which what is put off is tried, where it is to expire
HOPS = b"".join(
    b"Received: from a%d.example.com by b%d.example.com; Thu, 26 Nov 2026 05:36:03 +0000\n" % (it, it)
    for it in range(60)
)
AT_ONCE = [
    Case("from-nobody-refused", "bounce", ["no.bob@example.org"], sender=b""),
    Case("double-bounce-refused", "bounce", ["no.bob@example.org"], sender=b"double-bounce@mx.example.net"),
    Case("over-the-limit", "bounce", ["no.bob@example.org"], body=b"A line of a long message.\n" * 2300),
    Case("rather-long", "bounce", ["no.bob@example.org"], body=b"A line of a long message.\n" * 1500),
    Case(
        "over-the-limit-full",
        "bounce",
        ["no.bob@example.org"],
        options="RET=FULL",
        body=b"A line of a long message.\n" * 2300,
    ),
    Case("many-more", "bounce", [f"no.number{it}@example.org" for it in range(300)]),
    Case("too-many-hops", "bounce", ["no.bob@example.org"], command=["-f", "ann@example.com"], header=HOPS),
    Case(
        "several-replies",
        "bounce",
        [f"{it}.a@example.org" for it in ("utf", "long", "lines", "no", "ok")],
        options="RET=HDRS ENVID=several",
    ),
    Case("quoted-sender", "bounce", ["no.bob@example.org"], sender=b'"ann smith"@example.com'),
    Case("quoted-original", "bounce", [("no.bob@example.org", 'ORCPT=rfc822;"bob+20b"@example.org')]),
    Case(
        "success-and-failure",
        "bounce",
        [("ok.ann@example.org", "NOTIFY=SUCCESS,FAILURE"), ("no.bob@example.org", "NOTIFY=SUCCESS,FAILURE")],
        options="ENVID=both",
    ),
]
TOLD = ("ok.ann@example.org", "NOTIFY=SUCCESS")
EXPIRING = [
    Case("late-and-refused", "defer", ["no.bob@example.org", "later.eve@example.org", "ok.ann@example.org"]),
    Case(
        "late-and-told",
        "defer",
        [("later.eve@example.org", "NOTIFY=SUCCESS,FAILURE,DELAY ORCPT=rfc822;eve@example.net"), TOLD],
        options="ENVID=x RET=FULL",
    ),
    Case(
        "late-by-sendmail", "defer", ["later.bob@example.org"], command=["-f", "ann@example.com", "-N", "failure,delay"]
    ),
]


@dataclass
class Run:
    """Settings, and the messages that are sent under them; whether all of them are gone at the end."""

    name: str
    settings: dict
    messages: list
    expires: bool = False
    sandbox: bool = False  # whether Postfix also delivers mail


# Two seconds lie between two attempts. After one second the last delivery may still have the file locked: then the
# queue manager leaves the message alone for a minute.
HURRIED = {
    "queue_run_delay": "1s",
    "minimal_backoff_time": "2s",
    "maximal_backoff_time": "2s",
    "delay_warning_time": "2s",
}
HURRIED |= {"maximal_queue_lifetime": f"{LIFETIME}s", "bounce_queue_lifetime": f"{LIFETIME}s"}
# The third delivery attempt succeeds after a warning, so the message lives longer.
CONFIRMED = {"confirm_delay_cleared": "yes"} | dict.fromkeys(("maximal_queue_lifetime", "bounce_queue_lifetime"), "14s")
LONG_IDS = {
    "enable_long_queue_ids": "yes",
    "hash_queue_names": "deferred, defer, bounce, trace",
    "hash_queue_depth": "2",
}
SMALL = [
    Case("under-the-size-limit", "bounce", ["no.bob@example.org"]),
    Case("over-the-size-limit", "bounce", ["no.bob@example.org"], body=b"A line of a short message.\n" * 100),
    Case("header-over-it", "bounce", ["no.bob@example.org"], options="RET=FULL", header=b"X-Field: value\n" * 200),
]
NO_FIELDS = b"From: Ann <ann@example.com>\nSubject: hello\n%s\nHello.\n"
IDS = {
    "id-in-small-letters": b"message-id:\t<small@client.example.com> \t\n",
    "id-without-brackets": b"Message-ID: bare@client.example.com\n",
    "id-on-the-next-line": b"Message-ID:\n <next@client.example.com>\n",
    "two-ids": b"Message-ID: <first@client.example.com>\nMessage-ID: <second@client.example.com>\n",
    "id-with-words": b"Message-ID: <some words> <and@client.example.com>\n",
    "id-before-a-colon": b"Message-ID : <old@client.example.com>\n",
    "id-of-its-own": b"",
}
THREADED = [
    Case("id-of-client", "bounce", ["no.bob@example.org"]),
    *(Case(name, "bounce", ["no.bob@example.org"], whole=NO_FIELDS % field) for name, field in IDS.items()),
]
TEMPLATED = [
    Case("templates-failure", "bounce", ["no.bob@example.org"]),
    Case("templates-late", "defer", ["later.bob@example.org"]),
    Case("templates-success", "trace", [TOLD]),
]
RUNS = [
    Run("at once", {}, cases.BOUNCED + AT_ONCE + cases.TRACED),
    Run("size limit", {"bounce_size_limit": "2000"}, SMALL),
    Run("threads", {"enable_threaded_bounces": "yes"}, THREADED),
    Run("put off", HURRIED, cases.DEFERRED + EXPIRING, expires=True),
    Run("templates", HURRIED | {"bounce_template_file": str(ROOT / "tests/support/bounce.cf")}, TEMPLATED, expires=True),
    Run("long ids", LONG_IDS | HURRIED, cases.RUNS[1][1] + cases.RUNS[2][1], expires=True),
    Run("sandbox", {}, sandbox_cases.AT_ONCE, sandbox=True),
    Run("sandbox, put off", HURRIED | CONFIRMED, sandbox_cases.DELAYED, expires=True, sandbox=True),
]
# Messages whose notices bounce(8) makes on both sides: addresses that need quotes or have other types, long addresses
# and envelope ids, SMTPUTF8, and `sendmail -bv`. All other notices are made by noticed.
PASSED_ON = set(
    "quoted quoted-sender quoted-original verp-quoted newer-form-quoted local-quoted alias-later-and-odd utf8 "
    "utf8-sender later-utf8 text-utf8 long-address orcpt-utf8 original-unknown long-envelope-id asked-before".split()
)
ORIGINAL, ARRIVAL = b"Original-Recipient", "from whom, and where it arrives"


@dataclass
class Difference:
    """A difference that is allowed: the part of a notice, why it differs, and what becomes of the other side's part, by
    that part, the one that is met, and the other side's notice."""

    name: str
    part: str
    why: str
    change: object


def printable(text: bytes, kept=b"") -> bytes:
    return bytes(it if 32 <= it < 127 or it in kept else 63 for it in text)


def of_field(name: bytes, change):
    """A change of one field of each recipient."""
    return lambda groups, *_: sorted(
        [(found, change(value) if found == name else value) for found, value in group] for group in groups
    )


def repeats(group: list) -> bool:
    """Whether the original recipient is the final one."""
    said = dict(group)
    return said.get(ORIGINAL) == said[b"Final-Recipient"]


def without_repeated_originals(groups: list, met: list, _) -> list:
    shorter = [[it for it in group if it[0] != ORIGINAL] if repeats(group) else group for group in groups]
    return sorted(short if short in met else group for short, group in zip(shorter, groups))


def cut_remarks(groups: list, met: list, _) -> list:
    """Diagnostics that are cut after 800 bytes of the log, which may have had more spaces than are compared."""
    cut = [value for group in met for name, value in group if name == b"Diagnostic-Code" and len(value) > 780]
    return of_field(
        b"Diagnostic-Code",
        lambda value: next((it for it in cut if len(value) > len(it) and value.startswith(it)), value),
    )(groups)


def is_whole(there: Told) -> bool:
    """Whether noticed gives the text back as it is: it is short, and each line can stand in an 8bit mail, or in a 7bit
    one if it is the header alone."""
    text, kind = there.parts.get("given back", b""), there.parts.get("type of what is given back")
    allowed = rb"[\x01-\x0c\x0e-\xff]*" if kind == b"message/rfc822" else rb"[\x01-\x0c\x0e-\x7f]*"
    return len(text) <= 32_768 and all(len(it) <= 998 and re.fullmatch(allowed, it) for it in text.split(b"\n"))


def header(text: bytes) -> bytes:
    """A message's header as noticed gives it back."""
    lines = []
    for line in text.split(b"\n"):
        if not (re.match(rb"[!-9;-~]+[ \t]*:", line[:2048]) or (lines and line[:1] in (b" ", b"\t"))):
            break
        lines.append(printable(line, b"\t")[:998] + b"\n")
    return b"".join(lines)


def given_back(text: bytes, _, there: Told) -> bytes:
    return text if is_whole(there) else header(text)


def after_a_long_field(text: bytes, met: bytes, _) -> bytes:
    """A header that bounce(8) ends within a long field: noticed has more."""
    return met if text.endswith(b"\n") and len(text.split(b"\n")[-2]) == 998 and met.startswith(text) else text


def header_in_place(change):
    """A change of what is said of the part that is given back, where it is the header in place of the message."""
    return (
        lambda text, _, there: change(text)
        if there.parts.get("type of what is given back") == b"message/rfc822" and not is_whole(there)
        else text
    )


def templated(words: list) -> list:
    """The lines of tests/support/bounce.cf."""
    return [it for it in words if it.startswith(b"T: ")]


STATUS, DIAGNOSTIC = b"Status", b"Diagnostic-Code"
DESCRIPTION, TYPE = "description of what is given back", "type of what is given back"
ALLOWED = [
    Difference(
        "angle brackets",
        "To",
        "an address may stand in angle brackets",
        lambda there, *_: [b"<" + it.strip(b"<>") + b">" for it in there],
    ),
    Difference(
        "no sender",
        "message: X-Postfix-Sender",
        "of a message from nobody bounce(8) names MAILER-DAEMON as the sender, noticed names none",
        lambda there, met, _: met if there.startswith(b"rfc822; MAILER-DAEMON@") else there,
    ),
    Difference(
        "no sender",
        "given back",
        "as above, in the Return-Path",
        lambda there, *_: re.sub(rb"\AReturn-Path: <MAILER-DAEMON@[^\n]*>\n", b"Return-Path: <>\n", there),
    ),
    Difference(
        "words for people",
        "words",
        "noticed has its own but for the lines of a template, which begin with T",
        lambda there, met, _: met if templated(met) == templated(there) else there,
    ),
    Difference(
        "subject of a success",
        "Subject",
        "noticed goes by what became of the recipients, bounce(8) by what was asked (sendmail -v)",
        lambda it, _, there: [b"Successful Mail Delivery Report"]
        if set(there.actions()) <= {b"delivered", b"relayed", b"expanded"}
        else it,
    ),
    Difference(
        "question marks",
        "recipients",
        "? for a byte of a diagnostic that isn't printable ASCII",
        of_field(DIAGNOSTIC, printable),
    ),
    Difference("cut remark", "recipients", "800 bytes of a diagnostic are kept", cut_remarks),
    Difference(
        "zeros of a status",
        "recipients",
        "RFC 3463 has no zeros in front",
        of_field(STATUS, lambda it: re.sub(rb"\b0+(?=\d)", b"", it)),
    ),
    Difference(
        "repeated Original-Recipient",
        "recipients",
        "noticed names the original recipient if it isn't the final one, bounce(8) always",
        without_repeated_originals,
    ),
    Difference(
        "header in place of the message",
        "given back",
        "noticed gives a message back that is short and can stand in an 8bit mail",
        given_back,
    ),
    Difference("header in place of the message", TYPE, "as above", header_in_place(lambda _: b"text/rfc822-headers")),
    Difference("header in place of the message", DESCRIPTION, "as above", header_in_place(lambda it: it + b" Headers")),
    Difference(
        "header after a long field",
        "given back",
        "bounce(8) ends the header where a field has over 2,048 bytes",
        after_a_long_field,
    ),
    Difference(
        "header of a delay",
        DESCRIPTION,
        "bounce(8) calls a message that is put off undelivered, where it gives back the header alone",
        lambda it, _, there: it.replace(b"Undelivered", b"Delayed") if there.actions() == [b"delayed"] else it,
    ),
]


class Side:
    """One of the two Postfixes, with the messages that it has taken, by their ids."""

    def __init__(self, stack: contextlib.ExitStack, serves, run: Run):
        self.mailbox = stack.enter_context(Mailbox())
        self.milter = mail_filter_of(stack)
        kind = Sandbox if run.sandbox else Postfix
        self.postfix = stack.enter_context(kind(self.mailbox, serves, self.milter.server_address[1], **run.settings))
        self.known, self.wrong = {}, []

    def send(self, case: Case):
        ports = self.postfix.ports
        taken = (
            by_sendmail(self.postfix, case)
            if case.command
            else by_smtp(ports[case.port or ("filtered" if case.filtered else "smtp")], case)
        )
        self.known[taken.encode()] = case.name

    def told(self) -> dict:
        """The notices that came of each message, by its name."""
        found = {}
        for delivery in filter(is_notice, self.postfix.deliveries()):
            try:
                it = taken_apart(delivery.recipients, delivery.text, self.postfix.varying())
            except (ValueError, TypeError) as fault:
                self.wrong.append((repr(fault), delivery.text[:2000]))
                continue
            it.parts[ARRIVAL] = (delivery.sender, delivery.place)
            name = self.known.get(it.queue_id) or name_in(delivery.text)
            found.setdefault(name or f"unknown {it.queue_id.decode()}", []).append(it)
        return {
            name: sorted(notices, key=lambda it: (it.key, it.parts["recipients"])) for name, notices in found.items()
        }

    def delivered(self) -> Counter:
        """How often each message but notices was delivered, by its name, the place, and the recipient."""
        mail = [it for it in self.postfix.deliveries() if not is_notice(it)]
        return Counter((name_in(it.text), it.place, to) for it in mail for to in it.recipients)


def is_notice(it: Delivery) -> bool:
    """Whether a message is a report of deliveries."""
    return b"report-type=delivery-status" in it.text.partition(b"\n\n")[0]


def mail_filter_of(stack: contextlib.ExitStack):
    """A mail filter that ends with the run."""
    it = mail_filter()
    stack.callback(it.server_close)
    stack.callback(it.shutdown)
    return it


def compare(checks: Checks, what: str, there: Told, here: Told, used: Counter | None):
    """Compares two notices of one message; where `used` is None nothing may differ."""
    for part, wanted, found in differences(there, here):
        for it in ALLOWED if used is not None else ():
            if it.part == part and wanted is not None:
                changed = it.change(wanted, found, there)
                used[it.name] += changed != wanted
                wanted = changed
        checks.equal(f"{what}: {part}", found, wanted)
    checks.true(f"{what}: it was compared", True)
    checks.equal(f"{what}: for how long it is tried", retry_seconds(here), retry_seconds(there))


def twice(notices: list) -> list:
    """Whom notices of one message tell of the same thing more than once."""
    return [it for it, times in Counter(name for notice in notices for name in notice.names()).items() if times > 1]


def summary(notices: list) -> str:
    """The notices of a message in words. Each has its address, unless that is ann@example.com, and how many recipients
    have an action and status."""
    words = []
    for it in notices:
        found = Counter(f"{group[b'Action'].decode()} {group[b'Status'].decode()}" for group in it.recipients)
        of_one = ", ".join(f"{times} {what}" if times > 1 else what for what, times in sorted(found.items()))
        to = ", ".join(address.decode() for address in it.to)
        words.append(of_one if to == "ann@example.com" else f"{to}: {of_one}")
    return "; ".join(sorted(words))


def compare_case(checks: Checks, name: str, case: Case, notices: list, others: list, used: Counter | None) -> list:
    """Compares the notices of one message on both sides. Returns those that noticed made, beside those of bounce(8)."""
    pairs = []
    if case.told is not None:
        checks.equal(f"{name}: what bounce(8) tells", summary(notices), case.told)
    checks.equal(f"{name}: who is told", [it.key for it in others], [it.key for it in notices])
    checks.equal(f"{name}: who is told twice", twice(others), twice(notices))
    for other in others:
        like = next((it for it in notices if it.key == other.key), None)
        if like:
            notices.remove(like)
            compare(checks, name, like, other, used)
            pairs += [(name, like.text, other.text)] * other.is_own
    return pairs


def compare_own(checks: Checks, run: Run, notices: dict):
    """Checks which notices the program made itself: all, except those that it has to pass on to bounce(8)."""
    own = [(name, it) for name, of_one in notices.items() for it in of_one if it.is_own]
    repeated = [(name, group) for name, it in own for group in it.parts["recipients"] if repeats(group)]
    checks.equal(f"{run.name}: original recipients that repeat the final ones", repeated, [])
    passed_on = {name for name, of_one in notices.items() for it in of_one if not it.is_own}
    checks.equal(
        f"{run.name}: which messages are passed on to bounce(8)",
        passed_on,
        PASSED_ON & {it.name for it in run.messages},
    )


def compare_sides(checks: Checks, run: Run, sides: list, used: Counter | None):
    """Compares what came of each message on both sides."""
    there, here = (it.told() for it in sides)
    counts = sum(map(len, there.values())), sum(len(it.recipients) for of_one in there.values() for it in of_one)
    pairs = []
    for case in run.messages:
        of_one = [list(it.get(case.name, [])) for it in (there, here)]
        pairs += compare_case(checks, f"{run.name}, {case.name}", case, *of_one, used)
    if used is not None:
        compare_readers(checks, pairs, used)
        compare_own(checks, run, here)
    known = {case.name for case in run.messages}
    for side, found in zip(sides, (there, here)):
        checks.equal(f"{run.name}: notices of no message", [it for it in found if it not in known], [])
        checks.equal(f"{run.name}: notices that can't be read", side.wrong, [])
        senders = {it.parts[ARRIVAL][0] for of_one in found.values() for it in of_one}
        checks.equal(f"{run.name}: senders of notices", senders - {b""}, set())
    mail = [it.delivered() for it in sides]
    checks.equal(
        f"{run.name}: mail that one side alone delivered",
        (mail[0] - mail[1], mail[1] - mail[0]),
        (Counter(), Counter()),
    )
    checks.equal(f"{run.name}: copies of mail", [it for it, times in mail[1].items() if times > 1], [])
    return counts


def one_run(checks: Checks, run: Run, serves, used: Counter | None):
    """Both sides with the messages of a run."""
    began = time.monotonic()
    with contextlib.ExitStack() as stack:
        sides = [Side(stack, it, run) for it in (None, serves)]
        for it in sides:
            it.postfix.start()
        for case in run.messages:
            for it in sides:
                it.send(case)
        for it, name in zip(sides, ("bounce(8)", "the other side")):
            checks.equal(f"{run.name}: what {name} leaves", it.postfix.left(90, empty=run.expires), [])
            checks.equal(f"{run.name}: complaints in the log of {name}", it.postfix.complaints(), [])
        notices, recipients = compare_sides(checks, run, sides, used)
    print(
        f"  {run.name}: {len(run.messages)} messages, {notices} notices of {recipients} recipients, "
        f"{time.monotonic() - began:.0f} seconds",
        flush=True,
    )


def late_flush(checks: Checks, serves, used: Counter | None):
    """A message expires after the notice of an earlier failure could not be handed in: both recipients are told."""
    case = Case("expired-with-failure", "defer", ["no.bob@example.org", "later.eve@example.org"])
    with contextlib.ExitStack() as stack:
        sides = [Side(stack, it, Run("", {"maximal_queue_lifetime": "432000s"}, [])) for it in (None, serves)]
        for it in sides:
            it.postfix.mute = True
            it.postfix.start()
            it.send(case)
        for it in sides:
            checks.true("late flush: both logs are there", comes_true(it.postfix.has_both_logs))
            it.postfix.stop()
            it.postfix.mute = False
            it.postfix.settings |= {"maximal_queue_lifetime": "1s", "bounce_queue_lifetime": "1s"}
        time.sleep(1.5)
        for it in sides:
            it.postfix.start()
            it.postfix.command("postqueue", "-f")
            checks.equal("late flush: what is left", it.postfix.left(empty=True), [])
        compare_sides(checks, Run("late flush", {}, [case]), sides, used)
        found = sorted(name for notice in sides[1].told().get(case.name, []) for name in notice.names())
        checks.equal(
            "late flush: who is told",
            found,
            [(b"rfc822; later.eve@example.org", b"failed"), (b"rfc822; no.bob@example.org", b"failed")],
        )


def very_many(checks: Checks, serves):
    """A message of more failures than one notice of noticed has: each recipient is told once, on both sides."""
    names = [f"no.number{it}@example.org" for it in range(1100)]
    with contextlib.ExitStack() as stack:
        sides = [Side(stack, it, Run("", {}, [])) for it in (None, serves)]
        for it in sides:
            it.postfix.start()
            it.send(Case("very-many", "bounce", names))
        for it in sides:
            checks.equal("very many: what is left", it.postfix.left(empty=True), [])
            told = [name for notice in it.told().get("very-many", []) for name, _ in notice.names()]
            checks.equal("very many: who is told", sorted(told), sorted(b"rfc822; " + it.encode() for it in names))


def has_command() -> bool:
    """Whether the program has the command at all."""
    return b"postfix" in run(["postfix"]).notes


def main():
    checks = Checks("Postfix: the notices of the same messages beside those of its own bounce(8)")
    options = {it for it in sys.argv[1:] if it.startswith("--")}
    if lacks():
        checks.skip(f"everything (needs {lacks()})")
        checks.done()
    named = [it for it in sys.argv[1:] if it not in options]
    serves = None if "--itself" in options else program()
    if serves and not has_command():
        checks.skip("noticed postfix (the program has no such command), so bounce(8) was compared with itself")
        serves = None
    used = Counter({it.name: 0 for it in ALLOWED}) if serves else None
    for it in RUNS:
        it.messages = [case for case in it.messages if case.name not in UNEVEN and (not named or case.name in named)]
        if it.messages:
            one_run(checks, it, serves, used)
    if not named:
        late_flush(checks, serves, used)
        very_many(checks, serves)
    if used is not None:
        print("  allowed differences: " + ", ".join(f"{name} {times}" for name, times in used.items()))
    checks.done()


if __name__ == "__main__":
    main()
