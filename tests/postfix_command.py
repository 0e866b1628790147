"""`noticed postfix` without a Postfix: a queue folder made up of what Postfix wrote (tests/postfix/files/), clients
that ask as its programs do, a mail server that refuses at each step, and services of its own that take what is passed
on. What was asked is answered 0 only once the server took the notice; else the log stays. And kills, two processes, a
log that is locked, a disk that is full, and requests that are none."""
import email
import email.utils
import fcntl
import os
import random
import re
import resource
import signal
import socket
import tempfile
import threading
import time
from pathlib import Path

from tests.support.daemon_and_clients import until
from tests.support.postfix_folder import (
    ANNOUNCEMENT,
    FAILED,
    FILES,
    SERVICES,
    Client,
    MailServer,
    OwnService,
    Postfix,
    append,
    asked_in,
    at_once,
    heard,
    heard_to_end,
    listed,
    mode_of,
    notice,
    reported,
)
from tests.support.faults import worded
from tests.support.running import HOST, Checks, Ran, run

ONE = "090B8A85C9C"  # the queue id of the message `one`
LOG_OF_ONE = {"bounce": f"bounce/{ONE}", "defer": f"defer/0/{ONE}", "trace": f"trace/{ONE}"}
LOG_OF = {"failure": "bounce", "delay": "defer", "expired": "defer", "success": "trace"}
# Messages of which no notice can be made here (tests/postfix_notices.py says why), so that Postfix's own service is
# asked.
PASSED_ON = {
    "utf8",
    "utf8-sender",
    "later-utf8",
    "asked-before",
    "long-address",
    "newer-form-quoted",
    "quoted",
    "verp-quoted",
    "orcpt-utf8",
}
STEPS = ("connect", "EHLO", "MAIL", "RCPT", "DATA", "message")
SECONDS_FOR_LOCK = 20
MESSAGES = 150  # that are told of while the program is killed
UNREAD, SECONDS_AT_MOST = 1_000, 10  # requests while nobody reads their lines; how long each step may take
NOBODY = 65_534  # a user that isn't this script's
LAST_LINE = f"noticed-bounce: request not carried out: status {FAILED}"
WRONG_IDS = ("../bounce/A1", "A/B", ".", "..", "A1.", "", "A" * 33, "A1 ", "Ä1")


# ---- what goes well


def check_append_and_flush(checks: Checks):
    """An append, the flush, and the notice that comes of them."""
    with Postfix() as it:
        checks.true("its first line", until(lambda: it.lines() == [f"listening in {it.folder} for {HOST}"]))
        it.put("one")
        checks.equal("an append", it.ask("bounce", append(ONE, offset=6)), 0)
        record = it.at(f"bounce/{ONE}").read_text()
        checks.true(
            "the record",
            record.startswith("\n<no.bob@example.org>: it said: ")
            and "\noffset=6\nstatus=5.1.1\naction=failed\n" in record,
        )
        checks.equal("a flush", it.ask("bounce", asked_in("one", "failure")), 0)
        checks.true("the log is removed", not it.at(f"bounce/{ONE}").exists())
        said = [
            b"EHLO mx.example.net\r\n",
            b"MAIL FROM:<>\r\n",
            b"RCPT TO:<ann@example.com>\r\n",
            b"DATA\r\n",
            b"QUIT\r\n",
        ]
        checks.true("the transaction", until(lambda: it.server.said == [said]))
        text = it.server.taken[0][2]
        for line in (
            b"To: <ann@example.com>",
            b"Final-Recipient: rfc822; no.bob@example.org",
            b"Status: 5.1.1",
            b"Diagnostic-Code: smtp; 550 5.1.1 no such user",
            b"Remote-MTA: dns; mx.example.org",
            b"X-Postfix-Queue-ID: 090B8A85C9C",
            b"Content-Type: message/rfc822",
            b"Subject: hello",
        ):
            checks.true(f"the notice has {line}", b"\r\n" + line + b"\r\n" in text)
        wanted = [f"listening in {it.folder} for {HOST}", f"{ONE}: sender non-delivery notification: NEW1"]
        checks.equal("bounce(8)'s line", (it.last_lines(*wanted), len(it.lines())), (wanted, 2))
        checks.equal(
            "what is left",
            sorted(str(path.relative_to(it.folder)) for path in it.folder.rglob("*") if not path.is_dir()),
            ["deferred/0/" + ONE, *(f"private/noticed{name}" for name in ("-bounce", "-defer", "-trace", ".lock"))],
        )


def dated(text: bytes) -> tuple:
    """The Message-ID of a notice, and its date in seconds since 1970."""
    head = email.message_from_bytes(text)
    return head["Message-ID"], email.utils.parsedate_to_datetime(head["Date"]).timestamp()


def check_dates(checks: Checks):
    """A notice is dated by its log. Of the same log it has the same bytes, whichever process makes it; of a log that has
    another time, or has grown, it has another Message-ID. One without a log is dated by the clock, and like no other."""
    moment = int(time.time()) - 86_400
    with Postfix() as it:

        def told(seconds: int, appends: int = 0) -> bytes:
            it.put("one", "bounce")
            for _ in range(appends):
                checks.equal("an append", it.ask("bounce", append(ONE, offset=6)), 0)
            os.utime(it.at(f"bounce/{ONE}"), (moment + seconds, moment + seconds))
            checks.equal("a flush", it.ask("bounce", asked_in("one", "failure")), 0)
            return it.server.taken[-1][2]

        first, again, later, grown = told(0), told(0), told(1), told(0, appends=1)
        it.kill()
        it.start()
        checks.equal("the same log again", again, first)
        checks.equal("the same log, in another process", told(0), first)
        checks.equal("their date", dated(first)[1], moment)
        checks.equal("the date of a later log", dated(later)[1], moment + 1)
        checks.equal("the date of a longer log", dated(grown)[1], moment)
        checks.equal("Message-IDs", len({dated(text)[0] for text in (first, later, grown)}), 3)
    with Postfix() as it:
        it.put("one", "bounce")
        began = int(time.time())
        for _ in range(4):
            checks.equal("without a log", it.ask("bounce", notice(4, ONE, **reported())), 0)
        heads = [dated(text) for *_, text in it.server.taken]
        checks.equal("Message-IDs without a log", len({name for name, _ in heads}), 4)
        for name, date in heads:
            checks.true(f"{name} is by the clock", began <= date <= time.time())


def check_modes(checks: Checks):
    """The modes of what is made, whatever the umask."""
    for umask in (0, 0o077):
        with Postfix(start=False) as it:
            it.start(umask=umask)
            it.put("one")
            for service in SERVICES:
                checks.equal(f"umask {umask:o}: an append to {service}", it.ask(service, append(ONE)), 0)
            checks.equal(
                f"umask {umask:o}: sockets",
                [mode_of(it.at(f"private/noticed-{name}")) for name in SERVICES],
                ["140666"] * 3,
            )
            checks.equal(f"umask {umask:o}: the lock", mode_of(it.at("private/noticed.lock")), "100600")
            checks.equal(
                f"umask {umask:o}: logs",
                [mode_of(it.at(name)) for name in (f"bounce/{ONE}", f"defer/0/{ONE}", f"trace/{ONE}")],
                ["100600"] * 3,
            )
            checks.equal(f"umask {umask:o}: a hashed folder", mode_of(it.at("defer/0")), "40700")


def check_hashing(checks: Checks):
    """Where logs stand, by the options."""
    long_id = "4jZlfk4Kjfz1btWg"
    for options, place, long_place in (
        ((), f"defer/0/{ONE}", "defer/9/4"),
        (("--hash-queue-depth", "2"), f"defer/0/9/{ONE}", "defer/9/"),
        (("--hash-queue-names", ""), f"defer/{ONE}", "defer/4"),
        (("--hash-queue-names", "active,BOUNCE"), f"defer/{ONE}", "defer/4"),
    ):
        with Postfix(*options) as it:
            checks.equal(f"{options}: appends", [it.ask("defer", append(name)) for name in (ONE, long_id)], [0, 0])
            found = sorted(str(path.relative_to(it.folder)) for path in it.at("defer").rglob("*") if path.is_file())
            checks.true(
                f"{options}: {found}",
                place in found and any(name.startswith(long_place) and name.endswith(long_id) for name in found),
            )


def put_in(it: Postfix, place: str):
    """Puts a log or another file into the queue folder, or a folder if its name ends with a slash."""
    folder = it.at(place if place.endswith("/") else place.rpartition("/")[0])
    folder.mkdir(parents=True, exist_ok=True, mode=0o700)
    if not place.endswith("/"):
        it.at(place).write_bytes((FILES / "one/bounce").read_bytes())


def check_hashing_at_start(checks: Checks):
    """A start that finds in the queues what can't be there with its options makes nothing."""
    depth_2, bounce = ("--hash-queue-depth", "2"), ("--hash-queue-names", "defer,deferred,bounce")
    for options, place, seen, depths in (
        (depth_2, f"defer/0/{ONE}", f"defer/0/{ONE}", (1, 2)),
        ((), f"defer/{ONE}", f"defer/{ONE}", (0, 1)),
        ((), "deferred/4jZlfk4Kjfz1btWg", "deferred/4jZlfk4Kjfz1btWg", (0, 1)),
        ((), "defer/0/9/", "defer/0/9", (2, 1)),
        ((), "bounce/_/", "bounce/_", (1, 0)),
        ((), f"bounce/0/{ONE}", "bounce/0", (1, 0)),
        ((), "active/0/", "active/0", (1, 0)),
        ((), f"trace/0/{ONE}", f"trace/0/{ONE}", (1, 0)),
        (bounce, f"bounce/{ONE}", f"bounce/{ONE}", (0, 1)),
    ):
        with Postfix(start=False) as it:
            put_in(it, place)
            line = f"{seen}: the queue is hashed to a depth of {depths[0]}, and the options say {depths[1]}"
            checks.equal(
                f"{place}, with {options}",
                run(["postfix", *options, str(it.folder), HOST, it.server.address], timeout=SECONDS_AT_MOST),
                Ran(b"", worded(61) + f"{it.folder}/{line}\n".encode(), 1),
            )
            checks.equal(f"{place}: nothing is made", [*it.at("private").iterdir()], [])
    # what other settings leave behind, what is as it should be, and what is no file or folder of Postfix's
    fine = ("trace/0/", "defer/0/", f"defer/1/{ONE}", f"bounce/{ONE}", "bounce/core.1234", "active/a", f"hold/{ONE}A/")
    with Postfix(start=False) as it:
        for place in fine:
            put_in(it, place)
        it.start()
        checks.equal(f"it starts with {fine}", it.ask("bounce", append(ONE)), 0)


def check_hashing_at_run(checks: Checks):
    """A log that is found elsewhere than the options say has a line, and no other is made beside it."""
    with Postfix() as it:
        own = {name: OwnService(it.folder, name) for name in SERVICES}
        it.put("one")
        put_in(it, f"bounce/0/{ONE}")
        line = f"{ONE}: a log stands at {it.folder}/bounce/0/{ONE}, where the options have none"
        found = (it.ask("bounce", notice(1, ONE)), own["bounce"].asked)
        checks.equal("a flush is passed on", found, (0, [notice(1, ONE)]))
        wanted = [line, f"{ONE}: bounce: passed on: the log is missing"]
        checks.equal("its lines", it.last_lines(*wanted), wanted)
        found = (it.ask("bounce", append(ONE)), it.at(f"bounce/{ONE}").exists())
        checks.equal("an append fails", found, (FAILED, False))
        wanted = [line, f"{ONE}: noticed-bounce: request not carried out: status {FAILED}"]
        checks.equal("its lines", it.last_lines(*wanted), wanted)
        checks.equal("an append to another log", it.ask("trace", append(ONE)), 0)
        message = it.put("mixed", "bounce", "defer")
        it.at("bounce/1").mkdir()
        it.at(f"bounce/{message}").rename(it.at(f"bounce/1/{message}"))
        checks.equal("a flush of the defer log", it.ask("defer", asked_in("mixed", "expired")), 0)
        line = f"{message}: a log stands at {it.folder}/bounce/1/{message}, where the options have none"
        wanted = [line, f"{message}: sender non-delivery notification: NEW1"]
        checks.equal("its lines", it.last_lines(*wanted), wanted)


def check_kinds(checks: Checks):
    """A warning keeps the log; an expired message's is removed; what else is answered 0 without a notice."""
    with Postfix("--lifetime", "3600") as it:
        message = it.put("later", "defer")
        log = it.at(f"defer/E/{message}")
        checks.equal("a warning", (it.ask("defer", asked_in("later", "delay")), log.exists()), (0, True))
        text = it.server.taken[-1][2]
        arrival = re.search(rb"Arrival-Date: \w+, \d+ \w+ \d+ (\d+):(.*)\r", text)
        checks.true(
            "retried for the lifetime",
            b" %02d:%s" % ((int(arrival[1]) + 1) % 24, arrival[2]) in re.search(rb"Will-Retry-Until: (.*)\r", text)[1],
        )
        wanted = f"{message}: sender delay notification: NEW1"
        checks.equal("its line", it.last_lines(wanted), [wanted])
        checks.equal("it expired", (it.ask("defer", asked_in("later", "expired")), log.exists()), (0, False))
        wanted = f"{message}: sender non-delivery notification: NEW2"
        checks.equal("its line", it.last_lines(wanted), [wanted])
        message = it.put("relayed", "trace")
        checks.equal(
            "a trace", (it.ask("trace", asked_in("relayed", "success")), it.at(f"trace/{message}").exists()), (0, False)
        )
        wanted = f"{message}: sender delivery status notification: NEW3"
        checks.equal("its line", it.last_lines(wanted), [wanted])
        checks.equal("a trace without a log", it.ask("trace", asked_in("relayed", "success")), 0)
        for sender in ("", f"double-bounce@{HOST}"):
            it.put("one", "bounce")
            checks.equal(
                f"from <{sender}>",
                (it.ask("bounce", notice(1, ONE, sender=sender)), it.at(f"bounce/{ONE}").exists()),
                (0, False),
            )
        dropped = f"warning: {ONE}: undeliverable postmaster notification discarded"
        checks.equal("its line", it.last_lines(wanted, dropped), [wanted, dropped])
        it.put("one", "bounce")
        checks.equal("in another case", it.ask("bounce", notice(1, ONE, sender=f"Double-Bounce@{HOST}")), 0)
        checks.equal("its line", it.last_lines(dropped, dropped), [dropped, dropped])
        checks.equal("a warning", it.ask("defer", notice(2, ONE, sender=f"double-bounce@{HOST}")), 0)
        checks.equal("has none", it.last_lines(wanted, dropped, dropped), [wanted, dropped, dropped])
        checks.equal("notices in all", len(it.server.taken), 3)
    with Postfix("--double-bounce", "nobody@example.com") as it:
        for sender, notices in (("nobody@example.com", 0), (f"double-bounce@{HOST}", 1)):
            it.put("one", "bounce")
            checks.equal(
                f"from <{sender}>, with an option",
                (it.ask("bounce", notice(1, ONE, sender=sender)), len(it.server.taken)),
                (0, notices),
            )


def check_size_limit(checks: Checks):
    """A message of more bytes than `bounce_size_limit` gives back its header, all of it, as with bounce(8)."""
    records = (FILES / "one/queue.records").read_bytes().splitlines()
    lines = [it[1:] for it in records if it.startswith(b"N")]
    size, header = sum(len(it) + 1 for it in lines), lines[: lines.index(b"")]
    for limit in (2147483647, size, size - 1, 1):
        with Postfix("--bounce-size-limit", str(limit)) as it:
            it.put("one", "bounce")
            checks.equal(f"limit {limit} of {size} bytes: asked", it.ask("bounce", asked_in("one", "failure")), 0)
            part = it.server.taken[0][2].split(b"\r\n--")[3]
            kind, wanted = (b"message/rfc822", lines) if size <= limit else (b"text/rfc822-headers", header)
            whole = [b"Return-Path: <ann@example.com>", *wanted]
            returned = b"Content-Type: %s\r\n\r\n" % kind + b"".join(line + b"\r\n" for line in whole)
            checks.true(f"limit {limit} of {size} bytes: {kind}", part.endswith(returned))


def check_sender(checks: Checks):
    """A notice for the owner of a list, which local(8) requests in the owner's name, says the sender of the queue file;
    only if the file says none, the one of the request."""
    request = notice(4, ONE, sender="owner-list@example.com", **reported())
    with Postfix() as it:
        it.put("one")
        file = it.at(f"deferred/0/{ONE}")
        without = file.read_bytes().replace(b"S\x0fann@example.com", b"X\x0fann@example.com")
        for what, sender in (("a sender", b"ann@example.com"), ("no sender", b"owner-list@example.com")):
            checks.equal(f"{what}: asked", it.ask("bounce", request), 0)
            _, path, text = it.server.taken[-1]
            found = (path.strip(), re.findall(rb"\r\n(?:X-Postfix-Sender|Return-Path): (.*?)\r\n", text))
            named = [b"rfc822; " + sender, b"<" + sender + b">"]
            checks.equal(f"{what}: told", found, (b"RCPT TO:<owner-list@example.com>", named))
            file.write_bytes(without)


def check_original_recipient(checks: Checks):
    """A recipient that was rewritten, or named otherwise by its sender, is told with that; of others Postfix says the
    address of RCPT itself, and a notice nothing."""
    for fields, original in (
        ({"dsn_orig_rcpt": "rfc822;no.bob@example.org"}, b""),
        ({"dsn_orig_rcpt": "RFC822;no.bob@example.org"}, b""),
        ({"dsn_orig_rcpt": "rfc822;no.bob@example.org", "original_recipient": "staff@example.org"}, b""),
        ({}, b""),
        ({"original_recipient": "staff@example.org"}, b"rfc822; staff@example.org"),
        ({"dsn_orig_rcpt": "rfc822;No.Bob@example.org"}, b"rfc822; No.Bob@example.org"),
        ({"dsn_orig_rcpt": "x400;no.bob@example.org"}, b"x400; no.bob@example.org"),
    ):
        with Postfix() as it:
            it.put("one")
            checks.equal(f"{fields}: an append", it.ask("bounce", append(ONE, **fields)), 0)
            checks.equal(f"{fields}: a flush", it.ask("bounce", asked_in("one", "failure")), 0)
            text = it.server.taken[0][2]
            found = b"".join(re.findall(rb"\r\nOriginal-Recipient: (.*?)\r\n", text))
            checks.equal(f"{fields}: the original recipient", found, original)
            address = original.partition(b"; ")[2]
            words = b"<no.bob@example.org> (expanded from <%s>)" % address
            checks.equal(f"{fields}: the words", words in text, address not in (b"", b"no.bob@example.org"))


def check_expired_with_bounces(checks: Checks):
    """A message that expires while its bounce log is still there: that log is told first, and the message goes only
    with both told."""
    with Postfix() as it:
        message = it.put("mixed", "bounce", "defer")
        logs = [it.at(f"bounce/{message}"), it.at(f"defer/1/{message}")]
        it.server.replies["RCPT"] = b"450 4.2.0 later"
        checks.equal(
            "refused for now",
            (it.ask("defer", asked_in("mixed", "expired")), [log.exists() for log in logs]),
            (FAILED, [True, True]),
        )
        del it.server.replies["RCPT"]
        checks.equal(
            "taken",
            (it.ask("defer", asked_in("mixed", "expired")), [log.exists() for log in logs]),
            (0, [False, False]),
        )
        told = [re.findall(rb"Final-Recipient: rfc822; (\w+)", text) for _, _, text in it.server.taken]
        checks.true(
            f"both are told, the bounces first: {told}",
            len(told) == 2 and b"later" in told[1] and b"later" not in told[0],
        )
        own = OwnService(it.folder, "bounce", status=b"status\x00%d\0\0" % FAILED)
        for status, wanted in ((FAILED, (FAILED, 2, True)), (0, (0, 3, False))):
            own.status, own.asked = b"status\x00%d\0\0" % status, []
            it.put("mixed", "bounce", "defer")
            logs[0].write_bytes(b"damaged\n\n")
            found = (it.ask("defer", asked_in("mixed", "expired")), len(it.server.taken), logs[1].exists())
            checks.equal(
                f"bounces that can't be said, and bounce(8) answers {status}",
                (found, own.asked),
                (wanted, [asked_in("mixed", "expired")]),
            )
        it.put("mixed", "defer")
        logs[0].write_bytes(b"")
        own.asked = []
        found = (it.ask("defer", asked_in("mixed", "expired")), len(it.server.taken), logs[1].exists(), own.asked)
        checks.equal("an empty bounce log counts as none", found, (0, 4, False, []))


def check_flags_of_both_logs(checks: Checks):
    """CLEAN (1) and DELRCPT (2) of a flush of the defer log are about that log: the flush of a bounce log that comes
    first, and is passed on, has neither. bounce(8) would mark the places of the bounce log as done, where a deferred
    recipient of the same alias has one of them, and nobody would be told of that recipient."""
    with Postfix() as it:
        own = OwnService(it.folder, "bounce")
        for status in (0, FAILED):
            own.status = b"status\x00%d\0\0" % status
            for flags in range(4):
                message, own.asked = it.put("mixed", "bounce", "defer"), []
                logs = [it.at(f"bounce/{message}"), it.at(f"defer/1/{message}")]
                logs[0].write_bytes(b"damaged\n\n")
                how = {"options": ("sendopts" if flags % 2 else "smtputf8", 2)}
                asked = notice(1, message, flags=flags, **how)
                found = (it.ask("defer", asked), own.asked, [log.exists() for log in logs])
                wanted = (status, [notice(1, message, **how)], [True, status == FAILED])
                checks.equal(f"flags {flags}, and bounce(8) answers {status}", found, wanted)


def check_marks(checks: Checks):
    """Recipients are marked as done in the queue file where that is asked, once the notice was taken."""
    with Postfix() as it:
        message = it.put("later", "defer")
        queue, place = it.at(f"deferred/E/{message}"), int(
            re.search(rb"offset=(\d+)", (FILES / "later/defer").read_bytes())[1]
        )
        before = queue.read_bytes()
        it.server.replies["message"] = b"451 4.3.0 later"
        checks.equal(
            "not taken", (it.ask("defer", notice(1, message, flags=2)), queue.read_bytes() == before), (FAILED, True)
        )
        del it.server.replies["message"]
        checks.equal("taken", it.ask("defer", notice(1, message, flags=2)), 0)
        checks.equal("one byte is written", queue.read_bytes(), before[:place] + b"D" + before[place + 1 :])


def check_all_messages(checks: Checks):
    """Each message that Postfix wrote, with each request that its queue manager makes: a notice for each that bounce(8)
    made, or, where it can't be said, one request that is passed on."""
    for depth, names in ((1, "defer deferred"), (2, "deferred, defer, bounce, trace")):
        with Postfix("--hash-queue-names", names, "--hash-queue-depth", str(depth)) as it:
            own = {name: OwnService(it.folder, name) for name in SERVICES}
            count = 0
            for case in sorted(FILES.iterdir()):
                stood = (case / "places").read_text().split()[0]
                if stood.count("/") - 1 == depth:
                    count += sum(
                        check_message(checks, it, own, case, request) for request in sorted(case.glob("*.request"))
                    )
            checks.true(
                f"many requests of messages in folders {depth} deep: {count}", count >= (10 if depth == 2 else 80)
            )


def check_message(checks: Checks, it: Postfix, own: dict, case: Path, request: Path) -> int:
    """One request about one message."""
    service, what = LOG_OF[request.stem], f"{case.name}, {request.stem}"
    it.put(case.name, service)
    taken, asked = len(it.server.taken), len(own[service].asked)
    checks.equal(f"{what}: status", it.ask(service, request.read_bytes()), 0)
    made = [name for name in os.listdir(case) if re.fullmatch(rf"{request.stem}(-\d+)?", name)]
    wanted = [0, [request.read_bytes()]] if case.name in PASSED_ON else [len(made), []]
    checks.equal(
        f"{what}: notices, and what is passed on", [len(it.server.taken) - taken, own[service].asked[asked:]], wanted
    )
    return 1


# ---- what goes wrong


def check_refusals(checks: Checks):
    """A server that refuses at a step, for now or for good, or leaves, where Postfix's own service isn't there: -1, and
    the log stays; asked again, it is told."""
    with Postfix() as it:
        for step in STEPS:
            for reply in (
                b"450 4.2.0 later",
                b"550 5.7.1 no",
                b"421 4.3.2 closing",
                b"",
                b"what?",
                b"250-more\r\n550 other",
                b"250 ok\r\n250 too soon",
            ):
                if reply.startswith(b"250 ok") and step in ("connect", "DATA"):
                    continue  # a wrong reply there, as others
                it.put("one", "bounce")
                it.server.replies = {step: reply}
                taken = len(it.server.taken)
                found = (it.ask("bounce", asked_in("one", "failure")), it.at(f"bounce/{ONE}").read_bytes())
                checks.equal(f"{reply} at {step}", found, (FAILED, (FILES / "one/bounce").read_bytes()))
                checks.true(
                    f"{reply} at {step}: nothing more is said than one transaction", len(it.server.taken) - taken <= 1
                )
        it.server.replies = {}
        checks.true(
            "lines on standard error",
            until(lambda: f"{ONE}: noticed-bounce: request not carried out: status 4294967295" in it.lines())
            and any(f"{ONE}: notice not accepted: refused: " in line for line in it.lines()),
        )
        taken = len(it.server.taken)
        checks.equal(
            "asked again",
            (
                it.ask("bounce", asked_in("one", "failure")),
                len(it.server.taken) - taken,
                it.at(f"bounce/{ONE}").exists(),
            ),
            (0, 1, False),
        )
        it.put("one", "bounce")
        it.server.replies = {"RCPT": b"550 no"}
        checks.equal(
            "CLEAN removes the log all the same",
            (it.ask("bounce", notice(1, ONE, flags=1)), it.at(f"bounce/{ONE}").exists()),
            (FAILED, False),
        )


HELLO, TRANSACTION, GOODBYE = (
    [b"EHLO mx.example.net\r\n"],
    [b"MAIL FROM:<>\r\n", b"RCPT TO:<ann@example.com>\r\n", b"DATA\r\n"],
    [b"QUIT\r\n"],
)
KEPT = 2  # seconds for which a session is kept at least


class Sessions:
    """A Postfix of which notice after notice is asked for, and the longest time between two."""

    def __init__(self, postfix: Postfix):
        self.postfix, self.server, self.all_told = postfix, postfix.server, True
        self.asked, self.longest = time.monotonic(), 0.0

    def tell(self, count=1, wanted=(0, False)):
        """Has so many notices made, one after another: each is to be answered so, with its log there or not."""
        for _ in range(count):
            self.postfix.put("one", "bounce")
            found = (self.postfix.ask("bounce", asked_in("one", "failure")), self.postfix.at(f"bounce/{ONE}").exists())
            self.all_told &= found == wanted
            now = time.monotonic()
            self.asked, self.longest = now, max(self.longest, now - self.asked)

    def hung_up(self):
        """The server ends the session without a word."""
        self.tell()
        self.server.hang_up()
        self.tell()

    def closing(self):
        """The server answers the second MAIL by 421."""
        asked = []
        self.server.waits["MAIL"] = lambda: asked.append(
            self.server.replies.update({"MAIL": b"421 4.3.2 closing" if len(asked) == 1 else b"250 ok"})
        )
        self.tell(2)

    def refused(self):
        """The server refuses the second notice for now."""
        self.tell()
        self.server.replies = {"RCPT": b"450 4.2.0 later"}
        self.tell(wanted=(FAILED, True))


def check_sessions(checks: Checks):
    """Notices are handed in in one session, one after another. One that the server has ended, by 421 or without a word,
    is followed by another for the same notice, and so is one that was used 100 times; one that nobody uses is ended by
    QUIT, whose reply changes nothing. Where this machine is so busy that a session may have been ended meanwhile, it is
    tried again."""
    for name, play, wanted in (
        ("two notices", lambda it: it.tell(2), [HELLO + 2 * TRANSACTION]),
        ("the server hung up", Sessions.hung_up, [HELLO + TRANSACTION, HELLO + TRANSACTION]),
        (
            "421 in place of the next sender",
            Sessions.closing,
            [HELLO + TRANSACTION + TRANSACTION[:1] + GOODBYE, HELLO + TRANSACTION],
        ),
        (
            "as often as it may be used",
            lambda it: it.tell(101),
            [HELLO + 100 * TRANSACTION + GOODBYE, HELLO + TRANSACTION],
        ),
        ("a notice that is refused", Sessions.refused, [HELLO + TRANSACTION + TRANSACTION[:2] + GOODBYE]),
    ):
        for _ in range(10):
            with Postfix() as postfix:
                it = Sessions(postfix)
                play(it)
                seen = until(lambda: postfix.server.said == wanted, KEPT / 2)
                if seen or it.longest < KEPT / 2:
                    break
        checks.equal(f"sessions: {name}", (it.all_told, seen), (True, True))
    with Postfix() as postfix:
        it = Sessions(postfix)
        postfix.server.replies = {"QUIT": b"550 no"}
        it.tell()
        checks.true(
            "a session that nobody uses is ended", until(lambda: postfix.server.said == [HELLO + TRANSACTION + GOODBYE])
        )
        it.tell()
        checks.equal(
            "the reply to QUIT changes nothing", (it.all_told, postfix.server.said[1][:4]), (True, HELLO + TRANSACTION)
        )


class GroupServer:
    """A mail server that offers PIPELINING. It answers nothing before DATA is there; then it says `replies` at once, and
    closes if they are no three. It keeps what came after DATA, up to a line of one dot, which it takes, or QUIT."""

    def __init__(self, replies: bytes):
        self.replies, self.group, self.rest = replies, b"", b""
        self.listening = socket.create_server(("127.0.0.1", 0))
        self.address = "127.0.0.1:%d" % self.listening.getsockname()[1]
        threading.Thread(target=self.serve, daemon=True).start()

    def serve(self):
        with self.listening.accept()[0] as peer, peer.makefile("rb") as lines:
            peer.sendall(b"220 mx.example.net ESMTP\r\n")
            lines.readline()
            peer.sendall(b"250-mx.example.net\r\n250-SIZE 1000\r\n250 Pipelining\r\n")
            while not self.group.endswith(b"DATA\r\n"):
                self.group += lines.readline()
            peer.sendall(self.replies)
            while self.replies.count(b"\n") > 2 and (line := lines.readline()) not in (b"QUIT\r\n", b""):
                self.rest += line
                if line == b".\r\n":
                    peer.sendall(b"250 2.0.0 Ok: queued as NEW1\r\n")


def check_groups(checks: Checks):
    """With a server that offers PIPELINING, MAIL, RCPT and DATA are sent before their replies, which may come in one
    piece. What is refused stays refused, whatever the other replies say, and the message isn't sent then. Bytes behind
    the last reply are a fault."""
    group = b"".join(TRANSACTION[:3])
    told = f"{ONE}: sender non-delivery notification: NEW1"
    refused = f"{ONE}: notice not accepted: refused: "
    unheard = f"{ONE}: notice not accepted: no reply was heard: "
    for name, replies, wanted in (
        ("taken", b"250 a\r\n250 b\r\n354 c\r\n", (0, True, told)),
        ("refused", b"250 a\r\n450 b\r\n554 c\r\n", (FAILED, b"", refused + "b")),
        ("refused, and DATA accepted", b"250 a\r\n450 b\r\n354 c\r\n", (FAILED, b".\r\n", refused + "b")),
        ("the sender refused", b"450 a\r\n503 b\r\n503 c\r\n", (FAILED, b"", refused + "a")),
        ("cut off", b"250 a\r\n", (FAILED, b"", unheard)),
        ("bytes behind", b"250 a\r\n250 b\r\n354 c\r\n250 d\r\n", (FAILED, b"", unheard)),
    ):
        server = GroupServer(replies)
        with Postfix(hand_in=server.address) as it:
            it.put("one", "bounce")
            status = it.ask("bounce", asked_in("one", "failure"))
            rest = server.rest.endswith(b"\r\n.\r\n") if wanted[1] is True else server.rest
            lines = until(lambda: any(line.startswith(wanted[2]) for line in it.lines()))
            checks.equal(f"a group: {name}", (status, server.group, rest, lines), (wanted[0], group, wanted[1], True))
        server.listening.close()


def check_refused_for_good(checks: Checks):
    """What is refused for good before a notice of the request was taken goes to Postfix's own service as it is, with
    the log, and its status comes back; what is refused for now, or after one was taken, is answered -1."""
    with Postfix() as it:
        own = OwnService(it.folder, "bounce")
        request, log = asked_in("one", "failure"), (FILES / "one/bounce").read_bytes()
        for step in STEPS:
            for reply, wanted in ((b"550 5.7.1 no", (0, [request], log)), (b"450 4.2.0 later", (FAILED, [], log))):
                it.put("one", "bounce")
                it.server.replies, own.asked = {step: reply}, []
                checks.equal(
                    f"{reply} at {step}, beside bounce(8)",
                    (it.ask("bounce", request), own.asked, it.at(f"bounce/{ONE}").read_bytes()),
                    wanted,
                )
        own.status, own.asked = b"status\x00%d\0\0" % FAILED, []
        it.server.replies = {"RCPT": b"550 no"}
        checks.equal(
            "bounce(8) fails",
            (it.ask("bounce", request), own.asked, it.at(f"bounce/{ONE}").read_bytes()),
            (FAILED, [request], log),
        )
        it.server.replies, own.asked = {}, []
        message, taken = it.put("verp", "bounce"), len(it.server.taken)
        it.server.waits["RCPT"] = lambda: it.server.replies.update(
            {"RCPT": b"550 no"} if len(it.server.taken) > taken else {}
        )
        found = (
            it.ask("bounce", asked_in("verp", "failure")),
            len(it.server.taken) - taken,
            own.asked,
            it.at(f"bounce/{message}").exists(),
        )
        checks.equal("refused for good after one was taken", found, (FAILED, 1, [], True))


def check_twice(checks: Checks):
    """A flush that is asked twice at once: one notice is handed in, and the second request is passed on."""
    with Postfix() as it:
        own = OwnService(it.folder, "bounce")
        it.put("one", "bounce")
        it.server.waits["message"] = lambda: time.sleep(0.5)
        found = at_once(*2 * [lambda: it.ask("bounce", asked_in("one", "failure"))])
        checks.equal("twice", (found, len(it.server.taken), own.asked), ([0, 0], 1, [asked_in("one", "failure")]))


def check_no_server(checks: Checks):
    """Nobody listens where notices are handed in: appends are logged, flushes are answered -1."""
    with socket.create_server(("127.0.0.1", 0)) as found:
        address = "127.0.0.1:%d" % found.getsockname()[1]
    with Postfix(hand_in=address) as it:
        it.put("one")
        checks.equal("an append", it.ask("bounce", append(ONE)), 0)
        checks.equal(
            "a flush", (it.ask("bounce", asked_in("one", "failure")), it.at(f"bounce/{ONE}").exists()), (FAILED, True)
        )


def check_unix_server(checks: Checks):
    """The mail server is at the path of a Unix socket: a notice is taken. If nobody listens there, a flush is answered
    -1, and a line says why."""
    with Postfix(start=False) as it:
        it.server.close()
        it.hand_in = str(it.at("private/submit"))
        it.server = MailServer(it.hand_in)
        it.start()
        it.put("one", "bounce")
        asked = it.ask("bounce", asked_in("one", "failure"))
        checks.equal("a notice by a Unix socket", (asked, len(it.server.taken)), (0, 1))
        it.server.hang_up()
        Path(it.hand_in).unlink()
        it.put("one", "bounce")
        checks.equal("no Unix socket", it.ask("bounce", asked_in("one", "failure")), FAILED)
        checks.true("its line", until(lambda: f"{it.hand_in}: No such file or directory (os error 2)" in it.lines()))


def check_passed_on(checks: Checks):
    """What is no request, or can't be said, goes to Postfix's own service as it is, and its status comes back; without
    such a service it is -1."""
    wrong = [
        listed(nrequest=1, flags=0),
        listed(what="ever"),
        b"\0",
        b"what is this\0\0\0",
        notice(1, ONE, options=("sendoptions", 0)),
        notice(9, ONE),
    ]
    wrong += (
        [notice(1, it) for it in WRONG_IDS]
        + [append(it) for it in WRONG_IDS]
        + [notice(1, ONE, queue="../active"), append(ONE, '"bob smith"@example.org'), append(ONE, "a b@example.org")]
    )
    for options in ((), ("own",)):
        with Postfix() as it:
            own = {name: OwnService(it.folder, name) for name in SERVICES} if options else {}
            for request in wrong:
                for service in SERVICES:
                    checks.equal(
                        f"{request[:60]} to {service}, with {options}", it.ask(service, request), 0 if own else FAILED
                    )
                    checks.equal(
                        f"{request[:60]}: what is passed on", own[service].asked[-1] if own else request, request
                    )
            checks.equal(
                "nothing is written",
                [str(path) for path in it.folder.rglob("*") if path.is_file() and not path.name.endswith(".lock")],
                [],
            )
            if own:
                check_own_service(checks, it, own["bounce"])


def check_reasons(checks: Checks):
    """Each request that is passed on has a line with its reason."""
    quoted, whole = '"bob smith"@example.org', (FILES / "one/bounce").read_bytes()
    for about, log, request, wanted in (
        ("no request", None, listed(what="ever"), "no request: bounce: passed on: an attribute has another name"),
        ("no queue id", None, notice(1, "A/B"), "no request: bounce: passed on: the queue id is malformed"),
        ("an append", None, append(ONE, quoted), "the recipient can't be said in a log"),
        ("no log", None, notice(1, ONE), "the log is missing"),
        ("a damaged log", whole + b"what?\n\n", notice(1, ONE), f"the log is damaged at byte {len(whole)}"),
        ("SMTPUTF8", whole, notice(1, ONE).replace(b"smtputf8\0000", b"smtputf8\0001"), "the message needs SMTPUTF8"),
        ("a quoted sender", whole, notice(1, ONE, sender=quoted), "the address of the notice needs quotes"),
        ("no queue file", whole, notice(1, ONE, queue="active"), "it is unknown when the message came"),
        ("refused for good", whole, notice(1, ONE), "the mail server refused its notice for good"),
    ):
        with Postfix() as it:
            own = OwnService(it.folder, "bounce")
            it.put("one")
            if log:
                it.at(f"bounce/{ONE}").write_bytes(log)
            if about == "refused for good":
                it.server.replies["RCPT"] = b"550 5.1.1 no"
            line = wanted if wanted.startswith("no request") else f"{ONE}: bounce: passed on: {wanted}"
            checks.equal(f"{about}: what is passed on", (it.ask("bounce", request), own.asked), (0, [request]))
            checks.equal(f"{about}: its line", it.last_lines(line), [line])
    with Postfix() as it:
        it.ask("trace", listed(what="ever"))
        wanted = [
            "no request: trace: passed on: an attribute has another name",
            "trace: No such file or directory (os error 2)",
            f"no request: noticed-trace: request not carried out: status {FAILED}",
        ]
        checks.equal("without the service: its lines", it.last_lines(*wanted), wanted)


def check_copies(checks: Checks):
    """With classes of notify_classes, exactly the requests of whose notices bounce(8) sends the postmaster a copy are
    passed on, as they are (bounce_notify_service.c, bounce_notify_verp.c, bounce_one_service.c, bounce_warn_service.c
    and bounce_trace_service.c of Postfix). Before a defer log that is passed on, the bounce log is."""
    ann, nobody, itself = "ann@example.com", "", f"Double-Bounce@{HOST}"
    more = {3: {"verp_delimiters": "+="}, 4: reported()}
    services = {1: "bounce", 2: "defer", 3: "bounce", 4: "bounce", 5: "trace"}
    for classes, copied in (
        ("bounce", {(kind, sender) for kind in (1, 3, 4) for sender in (ann, nobody)}),
        ("2bounce", {(kind, nobody) for kind in (1, 3, 4, 5)}),
        ("delay", {(2, ann), (2, nobody)}),
        ("", set()),
    ):
        with Postfix("--pass-on", classes) as it:
            own = {name: OwnService(it.folder, name) for name in SERVICES}
            for kind, sender in ((kind, sender) for kind in services for sender in (ann, nobody, itself)):
                service, request = services[kind], notice(kind, ONE, sender=sender, **more.get(kind, {}))
                it.put("one")
                put_in(it, LOG_OF_ONE[service])
                own[service].asked.clear()
                what = f"{classes}: request {kind} from <{sender}>"
                checks.equal(f"{what}: its answer", it.ask(service, request), 0)
                wanted = [request] if (kind, sender) in copied else []
                checks.equal(f"{what}: what is passed on", own[service].asked, wanted)
                it.at(LOG_OF_ONE[service]).unlink(missing_ok=True)
            if classes == "bounce":
                line = f"{ONE}: bounce: passed on: the postmaster gets a copy"
                checks.true("its line", until(lambda: line in it.lines()))
                check_copies_of_both(checks, it, own)


def check_copies_of_both(checks: Checks, it: Postfix, own: dict):
    """A defer log with a copy, whose message has a bounce log."""
    put_in(it, LOG_OF_ONE["bounce"])
    put_in(it, LOG_OF_ONE["defer"])
    own["bounce"].asked.clear()
    own["defer"].asked.clear()
    request, taken = notice(1, ONE, flags=2), len(it.server.taken)
    checks.equal("both logs: the answer", it.ask("defer", request), 0)
    passed_on = (own["bounce"].asked, own["defer"].asked)
    checks.equal("both logs: what is passed on", passed_on, ([notice(1, ONE)], [request]))
    checks.equal("both logs: notices of noticed", len(it.server.taken), taken)


def check_own_service(checks: Checks, it: Postfix, own: OwnService):
    """The status of Postfix's own service is the answer; a malformed one is -1. The log isn't locked meanwhile."""
    for status, wanted in (
        (b"status\x00%d\0\0" % FAILED, FAILED),
        (b"status\x007\0\0", 7),
        (b"", FAILED),
        (b"state\x000\0\0", FAILED),
        (b"status\x000\0", FAILED),
    ):
        own.status = status
        checks.equal(f"its status {status}", it.ask("bounce", listed(what="ever")), wanted)
    own.status, own.announcement = b"status\x000\0\0", b"protocol\0another_protocol\0\0"
    checks.equal("another protocol", it.ask("bounce", listed(what="ever")), FAILED)
    own.announcement, unlocked = ANNOUNCEMENT, []
    message = it.put("quoted", "bounce")

    def lock():
        with open(it.at(f"bounce/{message}"), "rb+") as log:
            fcntl.flock(log, fcntl.LOCK_EX | fcntl.LOCK_NB)
            unlocked.append(True)

    own.during = lock
    checks.equal("a quoted recipient", (it.ask("bounce", asked_in("quoted", "failure")), unlocked), (0, [True]))
    it.at(f"deferred/1/{message}").unlink()
    checks.equal(
        "a missing queue file",
        (it.ask("bounce", asked_in("quoted", "failure")), len(unlocked), it.at(f"bounce/{message}").exists()),
        (0, 2, True),
    )


def check_send_options(checks: Checks):
    """The options to send by are served by both of their names; where a notice can't keep one of them, the request is
    passed on as it came. `TLS-Required: no` is kept, in front of each notice."""
    with Postfix() as it:
        own = OwnService(it.folder, "bounce")
        for name in ("smtputf8", "sendopts"):
            for value in (0, 2, 4, 8, 14, 16, 18, 30, 1, 7, 17, 32, 48, 64, 2**31):
                it.put("one", "bounce")
                asked, taken, passed_on = notice(1, ONE, options=(name, value)), len(it.server.taken), len(own.asked)
                found = (it.ask("bounce", asked), len(it.server.taken) - taken, own.asked[passed_on:])
                kept = value < 32 and value % 2 == 0
                checks.equal(f"{name} {value}", found, (0, 1, []) if kept else (0, 0, [asked]))
                if kept:
                    head = email.message_from_bytes(it.server.taken[-1][2])
                    found = (head.keys()[0] == "TLS-Required", head.get_all("TLS-Required", []), len(head.get_all("From")))
                    wanted = (True, ["no"], 1) if value >= 16 else (False, [], 1)
                    checks.equal(f"{name} {value}: TLS-Required", found, wanted)


def fields_in_front(text: bytes) -> list:
    """The fields of a notice before its Received and its Date, in their order."""
    found = email.message_from_bytes(text).items()
    return [it for it in found if it[0] in ("References", "In-Reply-To", "TLS-Required")]


def threaded(name: str) -> list:
    """The fields that refer to a message, as bounce(8) has them."""
    return [("References", name), ("In-Reply-To", name)]


def check_threads(checks: Checks):
    """With --threaded a notice refers to the Message-ID of its message: that of the queue file's attribute, or else that
    of the header. One that can't be in a line is left out."""
    field, own = b"Message-ID: <one@client.example.com>", "<one@client.example.com>"
    changes = {
        "as it was": (field, own),
        "in small letters": (b"message-id:\t<12@client.example.com>\t", "<12@client.example.com>"),
        "without brackets": (b"Message-ID:  one@client.example.com ", None),
        "with another byte": (b"Message-ID: <\x7fne@client.example.com>", None),
        "empty": (b"Message-ID: <>" + b" " * 22, None),
        "another field": (b"Message-Id2 :<one@client.example.com", None),
        "in the body": (b"\nMessage-ID: <ne@client.example.com>", None),
    }
    with Postfix("--threaded") as it:

        def told(change: bytes, noted: bytes = b"", options: int = 0) -> list:
            place = it.at(f"deferred/0/{it.put('one', 'bounce')}")
            text = place.read_bytes().replace(field, change)
            noted = noted and b"A" + bytes([len(noted)]) + noted
            place.write_bytes(text[: text.rindex(b"E\0")] + noted + text[text.rindex(b"E\0") :])
            checks.equal(f"{change} {noted}: a flush", it.ask("bounce", notice(1, ONE, options=("sendopts", options))), 0)
            return fields_in_front(it.server.taken[-1][2])

        for what, (change, wanted) in changes.items():
            checks.equal(f"an id {what}", told(change), threaded(wanted) if wanted else [])
        noted = b"message_id=<noted@example.com>"
        checks.equal("an id that cleanup(8) noted", told(field, noted), threaded("<noted@example.com>"))
        checks.equal("one that it noted badly", told(field, b"message_id=noted"), [])
        wanted = [*threaded(own), ("TLS-Required", "no")]
        checks.equal("with TLS-Required", told(field, options=16), wanted)
        checks.equal("they are the first", it.server.taken[-1][2].index(b"References: "), 0)
    with Postfix() as it:
        it.put("one", "bounce")
        checks.equal("without the option: a flush", it.ask("bounce", notice(1, ONE)), 0)
        checks.equal("without the option", fields_in_front(it.server.taken[-1][2]), [])


GERMAN = (
    b"Charset: utf-8\nFrom: Postmeister <postmaster@example.net>\nSubject: Unzustellbar\n\n"
    b"Ihre Nachricht kam zur\xc3\xbcck.\n\n.Hilfe\n-- \nPostmeister\n"
)


def check_templates(checks: Checks):
    """With --templates a notice of failure has the template's From, subject, charset and text before the recipients, as
    an 8bit mail; one of delay, for which there is no template, is as ever. A server without 8BITMIME gets no 8bit one."""
    with tempfile.TemporaryDirectory() as folder:
        Path(folder, "failure").write_bytes(GERMAN)
        with Postfix("--templates", folder) as it:
            it.server.replies["EHLO"] = b"250-mx.example.net\r\n250 8BITMIME"
            it.put("one", "bounce")
            checks.equal("a flush with a template", it.ask("bounce", notice(1, ONE)), 0)
            found = email.message_from_bytes(it.server.taken[-1][2])
            first = found.get_payload(0)
            fields = [found["From"], found["Subject"], found["Content-Transfer-Encoding"]]
            wanted = ["Postmeister <postmaster@example.net>", "Unzustellbar", "8bit"]
            checks.equal("its From, subject and encoding", fields, wanted)
            checks.equal("its charset", first.get_content_charset(), "utf-8")
            lines = first.get_payload(decode=True).decode().splitlines()
            wanted = ["Ihre Nachricht kam zur\u00fcck.", "", ".Hilfe", "-- ", "Postmeister", ""]
            checks.equal("its text", lines[: len(wanted)], wanted)
            checks.true("then the recipients", lines[len(wanted)].startswith("<"))
            checks.true("not in English", not any(it.startswith("For help") for it in lines))
            it.put("later", "defer")
            checks.equal("a delay without a template", it.ask("defer", asked_in("later", "delay")), 0)
            found = email.message_from_bytes(it.server.taken[-1][2])
            checks.equal("its subject", found["Subject"], "Delayed Mail (still being retried)")
        with Postfix("--templates", folder) as it:
            it.put("one", "bounce")
            checks.equal("a server without 8BITMIME", it.ask("bounce", notice(1, ONE)), FAILED)
            line = f"{ONE}: bounce: passed on: the mail server refused its notice for good"
            checks.true("then it is bounce(8)'s", until(lambda: line in it.lines()))
        for name in ("failure", "delay", "success", "verify"):
            Path(folder, name).write_text(f"Charset: us-ascii\nFrom: a\nSubject: {name}\n\ntext\n")
        with Postfix("--templates", folder) as it:
            it.put("one", "bounce")
            it.put("later", "defer")
            message = it.put("relayed", "trace")
            asked = [("bounce", notice(1, ONE)), ("defer", asked_in("later", "delay"))]
            checks.equal("all four", [it.ask(*each) for each in asked], [0, 0])
            log = it.at(f"trace/{message}")
            text = log.read_text()
            for action, status in ("relayed", 2), ("failed", 5):
                log.write_text(text.replace("action=relayed", f"action={action}").replace("status=2", f"status={status}"))
                log.chmod(0o600)
                checks.equal(f"a report, {action}", it.ask("trace", asked_in("relayed", "success")), 0)
            found = [email.message_from_bytes(text)["Subject"] for *_, text in it.server.taken]
            checks.equal("a template each", found, ["failure", "delay", "success", "verify"])


def check_outcomes(checks: Checks):
    """Two commands of one alias have its address and its place: each outcome is told, and one that was logged twice in
    the same words is told once."""
    alias = {"recipient": "staff@example.org", "offset": 6}
    for service, kind, outcome, others in (
        ("bounce", 1, {"status": "5.3.0", "action": "failed"}, [{"status": "5.2.0"}, {"reason": "another"}]),
        ("defer", 2, {"status": "4.3.0", "action": "delayed"}, [{"status": "4.2.0"}, {"reason": "another"}]),
        ("trace", 5, {"status": "2.0.0", "action": "delivered"}, [{"action": "relayed"}, {"reason": "another"}]),
        ("trace", 5, {"status": "5.3.0", "action": "failed"}, [{"status": "2.0.0", "action": "delivered"}]),
    ):
        for other in others:
            with Postfix() as it:
                it.put("one")
                for report in (outcome, outcome | other, outcome, outcome | other):
                    it.ask(service, append(ONE, **alias, **report))
                checks.equal(f"{service}, {other}: asked", it.ask(service, notice(kind, ONE)), 0)
                told = [text.count(b"Final-Recipient: rfc822; staff@example.org\r\n") for _, _, text in it.server.taken]
                checks.equal(f"{service}, {other}: outcomes that are told", told, [2])


def check_broken_clients(checks: Checks):
    """Requests that are cut short, or too long: nothing is done, and the next client is served."""
    request = append(ONE)
    with Postfix() as it:
        for cut in (0, 1, 40, len(request) // 2, len(request) - 1):
            with Client(it.folder, "bounce") as client:
                client.peer.sendall(request[:cut])
                client.peer.shutdown(socket.SHUT_WR)
                checks.equal(f"cut after {cut} bytes: what it is said", heard_to_end(client.peer), ANNOUNCEMENT)
        checks.equal("too long a request", it.ask("bounce", append(ONE, text="5" * 70_000)), None)
        checks.equal("nothing is logged", os.listdir(it.at("bounce")), [])
        checks.true(
            "lines on standard error",
            until(
                lambda: sum(
                    line.startswith("noticed-bounce: client not served: no list was read: ") for line in it.lines()
                )
                == 6
            ),
        )
        with Client(it.folder, "bounce") as client:
            heard(client.peer)
            client.peer.sendall(request)
        checks.true("a client that leaves is served all the same", until(lambda: it.at(f"bounce/{ONE}").exists()))
        for cut in range(3):
            with Client(it.folder, "bounce") as client:
                for byte in (request[:cut], request[cut:]):
                    client.peer.sendall(byte)
                    time.sleep(0.01)
                checks.equal(f"in pieces, after {cut}", heard_to_end(client.peer), ANNOUNCEMENT + b"status\x000\0\0")


def check_locked_log(checks: Checks):
    """A log that somebody has locked is waited for; after twenty seconds the request fails."""
    with Postfix() as it:
        it.put("one", "bounce")
        with open(it.at(f"bounce/{ONE}"), "rb+") as log:
            fcntl.flock(log, fcntl.LOCK_EX)
            threading.Timer(1, fcntl.flock, (log, fcntl.LOCK_UN)).start()
            began = time.monotonic()
            checks.equal("an append, after a second", it.ask("bounce", append(ONE)), 0)
            checks.true("it waited", 0.9 < time.monotonic() - began < 10)
        log = open(it.at(f"bounce/{ONE}"), "rb+")
        fcntl.flock(log, fcntl.LOCK_EX)
        size = os.fstat(log.fileno()).st_size
        began = time.monotonic()
        found = at_once(lambda: it.ask("bounce", append(ONE)), lambda: it.ask("bounce", asked_in("one", "failure")))
        checks.equal(
            "for good: an append and a flush", (found, os.fstat(log.fileno()).st_size), ([FAILED, FAILED], size)
        )
        checks.true(
            f"they waited: {time.monotonic() - began}",
            SECONDS_FOR_LOCK - 1 < time.monotonic() - began < 3 * SECONDS_FOR_LOCK,
        )
        log.close()


def check_full_disk(checks: Checks):
    """A write that the system cuts short: -1, and the log is unchanged. No file may exceed a thousand bytes."""

    def limit():
        signal.signal(signal.SIGXFSZ, signal.SIG_IGN)
        resource.setrlimit(resource.RLIMIT_FSIZE, (1000, 1000))

    with Postfix(start=False) as it:
        it.limits = limit
        it.start()
        found = [(it.ask("bounce", append(ONE)), it.at(f"bounce/{ONE}").stat().st_size) for _ in range(6)]
        size = found[0][1]
        fit = 1000 // size
        checks.equal(
            "appends up to the bound, and after it",
            found,
            [(0, size * (1 + it)) if it < fit else (FAILED, size * fit) for it in range(6)],
        )


def check_kills(checks: Checks):
    """Killed by SIGKILL or SIGTERM while a notice is handed in: its log stays, and the next process hands in the same
    bytes."""
    for how in (signal.SIGKILL, signal.SIGTERM):
        with Postfix() as it:
            it.put("one")
            arrived, go = threading.Event(), threading.Event()
            it.server.waits["message"] = lambda: (arrived.set(), go.wait(30))
            checks.equal(f"{how.name}: an append", it.ask("bounce", append(ONE, offset=6)), 0)
            asking = threading.Thread(target=lambda: it.ask("bounce", asked_in("one", "failure")))
            asking.start()
            checks.true(f"{how.name}: the message is said", arrived.wait(30))
            checks.equal(f"{how.name}: it ends", it.kill(how), -how)
            asking.join()
            go.set()
            it.server.waits.clear()
            until(lambda: it.server.taken)  # from the process that is gone
            checks.true(f"{how.name}: the log stays", it.at(f"bounce/{ONE}").exists())
            checks.equal(f"{how.name}: its sockets stay", len(list(it.at("private").iterdir())), 4)
            it.start()
            taken = len(it.server.taken)
            checks.equal(
                f"{how.name}: asked again",
                (
                    it.ask("bounce", asked_in("one", "failure")),
                    len(it.server.taken) - taken,
                    it.at(f"bounce/{ONE}").exists(),
                ),
                (0, 1, False),
            )
            checks.equal(f"{how.name}: the same notice", it.server.taken[taken:], it.server.taken[:1])


def asked_until_done(it: Postfix, message: str):
    """Logs a recipient of a message and asks for its notice, as Postfix's programs do: each until it is answered 0, and
    the notice as long as the log is there."""
    log, is_logged = it.at(f"bounce/{message}"), False
    while not is_logged or log.exists():
        try:
            status = it.ask("bounce", notice(1, message) if is_logged else append(message, f"{message}@example.org"))
        except OSError:
            time.sleep(0.01)
            continue
        is_logged = is_logged or status == 0


def check_kills_at_work(checks: Checks):
    """Killed again and again while it works: each sender gets at least one notice, of its own recipients alone, and it
    has the same bytes if it comes again."""
    messages = [f"A{number}" for number in range(MESSAGES)]
    with Postfix() as it:
        it.at("deferred/A").mkdir()
        for message in messages:
            it.at(f"deferred/A/{message}").write_bytes((FILES / "one/queue").read_bytes())
        going, waiting = [True], iter(messages)
        lock = threading.Lock()

        def work():
            while True:
                with lock:
                    message = next(waiting, None)
                if message is None:
                    return
                asked_until_done(it, message)

        def kill():
            while going:
                time.sleep(random.uniform(0, 0.06))
                it.kill()
                it.start()

        killing = threading.Thread(target=kill)
        killing.start()
        at_once(*16 * [work])
        going.clear()
        killing.join()
        told = [re.findall(rb"Final-Recipient: rfc822; (\w+)@", text) for _, _, text in it.server.taken]
        print(f"  {MESSAGES} messages, {len(it.lines())} starts and notices, {len(told)} told")
        checks.equal("each is told", sorted({name.decode() for names in told for name in names}), sorted(messages))
        checks.true("and only of its own recipient", all(len(set(names)) == 1 for names in told))
        texts = {text for _, _, text in it.server.taken}
        checks.equal("and by the same bytes each time", len(texts), len(messages))
        checks.equal("no log is left", os.listdir(it.at("bounce")), [])


def check_inherited(checks: Checks):
    """Sockets that the program inherits: who asks while none runs is served by the next; sockets in another order, or
    none, aren't taken."""
    with Postfix("--inherited", start=False) as it:
        it.put("one")
        listening = [socket.socket(socket.AF_UNIX) for _ in SERVICES]
        for one, name in zip(listening, SERVICES):
            one.bind(str(it.at(f"private/noticed-{name}")))
            one.listen(100)
        high = [fcntl.fcntl(one.fileno(), fcntl.F_DUPFD, 100) for one in listening]
        order = [0, 1, 2]

        def give():
            for number, place in enumerate(order):
                os.dup2(high[place], 3 + number)

        words = ["postfix", "--inherited", str(it.folder), HOST, it.server.address]
        checks.equal("without sockets", run(words).notes.splitlines(keepends=True)[:1], [worded(61)])
        order[:] = [1, 0, 2]
        ended = run(words, preexec_fn=give, close_fds=False)
        checks.equal("in another order", (ended.status, ended.notes.splitlines(keepends=True)[0]), (1, worded(61)))
        order[:] = [0, 1, 2]
        it.limits, it.close_fds = give, False
        for number in range(3):
            asked = []
            asking = threading.Thread(
                target=lambda found=asked: found.extend(it.ask(name, append(ONE)) for name in SERVICES)
            )
            asking.start()
            time.sleep(0.2)
            checks.equal("who asks while none runs waits", asked, [])
            it.start()
            asking.join()
            checks.equal("and is served by the next", asked, [0, 0, 0])
            it.kill()
        checks.equal("its logs", it.at(f"bounce/{ONE}").read_text().count("\nrecipient="), 3)
        for one in listening:
            one.close()
        for number in high:
            os.close(number)


def check_start(checks: Checks):
    """What a start finds in the folder: a second process doesn't begin, what stands at a socket's name gives way but
    for a folder."""
    with Postfix() as it:
        second = run(["postfix", str(it.folder), HOST, it.server.address])
        checks.equal(
            "a second process",
            second,
            Ran(b"", worded(61) + f"{it.folder}/private: operation would block\n".encode(), 1),
        )
        checks.equal("the first one serves", it.ask("bounce", append(ONE)), 0)
        it.kill()
        for name in SERVICES:
            it.at(f"private/noticed-{name}").unlink()
        it.at("private/noticed-defer").write_text("a file")
        it.start()
        checks.equal("a file in the way", it.ask("defer", append(ONE)), 0)
        it.kill()
        it.at("private/noticed-trace").unlink()
        it.at("private/noticed-trace").mkdir()
        checks.equal(
            "a folder in the way",
            run(["postfix", str(it.folder), HOST, it.server.address]),
            Ran(b"", worded(61) + f"{it.folder}/private: Is a directory (os error 21)\n".encode(), 1),
        )
    for closed in ("0<&-", "1>&-", "2>&-", "0<&- 1>&- 2>&-"):
        with Postfix(start=False) as it:
            it.start(closed=closed)
            it.put("one", "bounce")
            checks.equal(
                f"with {closed}",
                (it.ask("bounce", append(ONE)), it.ask("bounce", asked_in("one", "failure")), len(it.server.taken)),
                (0, 0, 1),
            )
            links = [os.readlink(f"/proc/{it.running.pid}/fd/{number}") for number in range(3)]
            checks.true(
                f"with {closed}: no socket is a standard stream: {links}",
                not any(link.startswith("socket:") for link in links),
            )
    with tempfile.TemporaryDirectory(prefix="noticed-") as room:
        checks.equal(
            "no private/",
            run(["postfix", room, HOST, "127.0.0.1:25"]),
            Ran(b"", worded(61) + f"{room}/private: No such file or directory (os error 2)\n".encode(), 1),
        )


def check_account(checks: Checks):
    """Started as another account than the owner of private/, as root above all, it makes and removes nothing."""
    if os.geteuid():
        checks.skip("another account (needs root)")
        return
    for options in ((), ("--inherited",)):
        with Postfix(start=False) as it:
            at_socket = it.at("private/noticed-defer")
            at_socket.write_text("a file")
            os.chown(it.at("private"), NOBODY, NOBODY)
            words = f"belongs to another account (user {NOBODY}); noticed runs as user 0: start it as the owner"
            checks.equal(
                f"root on nobody's folder, with {options}",
                run(["postfix", *options, str(it.folder), HOST, it.server.address], timeout=SECONDS_AT_MOST),
                Ran(b"", worded(61) + f"{it.folder}/private: {words}\n".encode(), 1),
            )
            checks.equal("nothing is made or removed", [*it.at("private").iterdir()], [at_socket])
            checks.equal("no folder of logs is touched", [*it.at("defer").iterdir()], [])


# ---- lines


def read_lines(pipe: int, seconds: float = 1) -> list:
    """The lines that come from a pipe until none has come for a second."""
    text, last = b"", time.monotonic()
    while time.monotonic() - last < seconds:
        try:
            piece = os.read(pipe, 65536)
        except BlockingIOError:
            time.sleep(0.01)
            continue
        text, last = text + piece, time.monotonic()
    return text.decode().splitlines()


def answers_unread(it: Postfix, requests: list) -> list:
    """What requests are answered, up to the first that isn't answered within seconds."""
    found = []
    for request in requests:
        try:
            with Client(it.folder, "bounce") as client:
                client.peer.settimeout(SECONDS_AT_MOST)
                found.append(client.ask(request))
        except TimeoutError:
            break
    return found


def check_unread_lines(checks: Checks):
    """A standard error that nobody reads stops nothing: what is too much is dropped, and once the rest was read, a line
    says how many lines were."""
    with Postfix(start=False) as it:
        path = Path(it.room.name) / "unread"
        os.mkfifo(path)
        pipe = os.open(path, os.O_RDONLY | os.O_NONBLOCK)
        fcntl.fcntl(pipe, fcntl.F_SETPIPE_SZ, 4096)
        it.start(closed=f"2>{path}")
        it.put("one", "bounce")
        damaged = [listed(what="ever")] * UNREAD
        answers = answers_unread(it, damaged)
        checks.equal("unread: requests are answered", (len(answers), set(answers)), (UNREAD, {FAILED}))
        checks.equal("unread: a notice is made", answers_unread(it, [asked_in("one", "failure")]), [0])
        lines = read_lines(pipe)
        checks.true("unread: it has begun", f"listening in {it.folder} for {HOST}" in lines)
        dropped = [re.fullmatch(r"(\d+) lines were dropped", line) for line in lines]
        counts = [int(match[1]) for match in dropped if match]
        checks.equal("unread: how often it is said that lines were dropped", len(counts), 1)
        checks.true("unread: in the last line", dropped and dropped[-1])
        lost = sum(line.endswith(LAST_LINE) for line in lines)
        checks.true(f"unread: some lines wait, {lost} of {UNREAD} last ones", 100 < lost < UNREAD)
        answers_unread(it, damaged[:1])
        more = read_lines(pipe)
        found, wanted = len(lines) - 1 + sum(counts), 2 + UNREAD * len(more)  # and the first line, and the notice's
        checks.equal("unread: no line is lost that isn't counted", found, wanted)
        checks.equal("unread: lines that are read again", more[-1:], [f"no request: {LAST_LINE}"])
        os.close(pipe)


def main():
    checks = Checks(
        "postfix_command: requests of Postfix's programs, their logs and their notices, "
        "in a queue folder without a Postfix"
    )
    for check in (
        check_append_and_flush,
        check_dates,
        check_modes,
        check_hashing,
        check_hashing_at_start,
        check_hashing_at_run,
        check_kinds,
        check_size_limit,
        check_sender,
        check_original_recipient,
        check_expired_with_bounces,
        check_flags_of_both_logs,
        check_marks,
        check_all_messages,
        check_refusals,
        check_refused_for_good,
        check_sessions,
        check_groups,
        check_twice,
        check_no_server,
        check_unix_server,
        check_passed_on,
        check_reasons,
        check_copies,
        check_send_options,
        check_threads,
        check_templates,
        check_outcomes,
        check_broken_clients,
        check_locked_log,
        check_full_disk,
        check_kills,
        check_kills_at_work,
        check_inherited,
        check_start,
        check_account,
        check_unread_lines,
    ):
        check(checks)
    checks.done()


if __name__ == "__main__":
    main()
