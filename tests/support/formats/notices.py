"""A notice, and the outbox of the notices (noticed-notice(5))."""
import re
from datetime import datetime, timedelta

from .bodies import BOUNCE, BY_OUTCOME, DEFER, DELIVERED, EIGHT_BIT_MESSAGE, EXPANDED, MESSAGE, RELAYED, TRACE, Draft
from .logs import Letter

SERVICE_LETTERS = {BOUNCE: b"B", DEFER: b"D", TRACE: b"T"}
ACTION_WORDS = {1: b"failed", 2: b"delayed", 3: b"delivered", 4: b"relayed", 5: b"expanded"}
SUCCESS = 0  # in place of a trace's service, where all outcomes are successes and the wording is by outcome
SUBJECTS = {
    BOUNCE: b"Undelivered Mail Returned to Sender",
    DEFER: b"Delayed Mail (still being retried)",
    TRACE: b"Mail Delivery Status Report",
    SUCCESS: b"Successful Mail Delivery Report",
}
PARAGRAPHS = {
    BOUNCE: b"Your message could not be delivered to the recipients below.",
    DEFER: b"Your message has not yet been delivered to the recipients below.",
    TRACE: b"This is the delivery report for your message.",
    SUCCESS: b"Your message was delivered to the recipients below.",
}
CONSEQUENCES = {
    BOUNCE: b"No further attempt will be made.",
    DEFER: b"You do not need to send it again.",
    TRACE: b"You or your mail program requested this report.",
    SUCCESS: b"You or your mail program requested this report.",
}
NOT_YOU = "Your own address was not accepted as the sender of the message."
# What a status means, by its subject and detail, and else by its subject (RFC 3463 section 3).
MEANINGS = {
    "1.1": "The address does not exist. Check how it is spelled.",
    "1.2": "The part after the @ does not exist. Check how it is spelled.",
    "1.3": "The address is not written correctly. Check how it is spelled.",
    "1.4": "The address matches more than one recipient.",
    "1.6": "The recipient has moved, and the new address is not known.",
    "1.7": NOT_YOU,
    "1.8": NOT_YOU,
    "1.10": "The part after the @ accepts no mail. Check how it is spelled.",
    "1": "There is a problem with the address.",
    "2.1": "The mailbox is disabled, or does not accept messages now.",
    "2.2": "The mailbox is full.",
    "2.3": "The message is larger than the mailbox accepts.",
    "2.4": "There is a problem with the mailing list of this address.",
    "2": "There is a problem with the recipient's mailbox.",
    "3.1": "The recipient's mail system has no space left.",
    "3.2": "The recipient's mail system does not accept messages now.",
    "3.4": "The message is too large for the recipient's mail system.",
    "3.5": "The recipient's mail system is not configured correctly.",
    "3": "There is a problem in the recipient's mail system.",
    "4.1": "The recipient's mail server could not be reached.",
    "4.2": "The connection to the recipient's mail server was lost.",
    "4.3": "The recipient's mail server could not be looked up.",
    "4.4": "No mail server was found for the address. Check how it is spelled.",
    "4.5": "The recipient's mail server is too busy.",
    "4.6": "The message went in a circle between mail servers.",
    "4.7": "The message could not be delivered in time.",
    "4": "There is a problem on the way to the recipient's mail server.",
    "5.3": "The message has too many recipients.",
    "5": "The mail servers did not understand each other.",
    "6.1": "The recipient's mail system does not accept this kind of content.",
    "6": "The recipient's mail system cannot handle the content of the message.",
    "7.2": "You are not permitted to write to this mailing list.",
    "7.26": "The recipient's mail system could not verify that you sent the message.",
    "7": "The recipient's mail system refused the message under one of its rules.",
}
NO_MEANING = "The mail system could not deliver the message."
SUCCESSES = {
    DELIVERED: b"The message was delivered.",
    RELAYED: b"The message was passed to a mail system that does not report deliveries.",
    EXPANDED: b"The message was delivered, and passed on to other recipients.",
}
RETURNED_OF = {BOUNCE: b"Undelivered Message", DEFER: b"Delayed Message", TRACE: b"Message", SUCCESS: b"Message"}
WEEKDAYS = "Mon Tue Wed Thu Fri Sat Sun".split()
MONTHS = "Jan Feb Mar Apr May Jun Jul Aug Sep Oct Nov Dec".split()
NOT_RETURNED = re.compile(rb"[^\t -~]")
# The lines of a message that is returned whole (RFC 2045 sections 2.7 and 2.8).
LINES = {
    MESSAGE: re.compile(rb"[\x01-\x09\x0b\x0c\x0e-\x7f]{0,998}"),
    EIGHT_BIT_MESSAGE: re.compile(rb"[\x01-\x09\x0b\x0c\x0e-\xff]{0,998}"),
}
ENCODING = b"Content-Transfer-Encoding: 8bit"  # RFC 2045 section 6.1
LONGEST_LINE = 998


def date(moment: int) -> bytes:
    """The date of a moment (RFC 5322 section 3.3)."""
    it = datetime(1970, 1, 1) + timedelta(seconds=moment)
    day = f"{WEEKDAYS[it.weekday()]}, {it.day:02} {MONTHS[it.month - 1]} {it.year:04}"
    return f"{day} {it.hour:02}:{it.minute:02}:{it.second:02} +0000".encode()


def lines_of(text: bytes) -> list:
    """The lines of a text, without their ends."""
    lines = text.split(b"\n")
    whole, last = lines[:-1], lines[-1]
    return [it[:-1] if it.endswith(b"\r") else it for it in whole] + ([last] if last else [])


def returns_message(draft: Draft) -> bool:
    """Whether the message is returned, and not its header."""
    line = LINES.get(draft.returned)
    return line is not None and all(line.fullmatch(it) for it in lines_of(draft.header))


def encoding(returned: list) -> list:
    """The line of a header whose body is 8bit."""
    return [] if all(it.isascii() for it in returned) else [ENCODING]


def returned_lines(draft: Draft) -> list:
    """The lines that a notice returns: those of the message as they are, or those of a header."""
    lines = lines_of(draft.header)
    if returns_message(draft):
        return lines
    before = lines[: lines.index(b"")] if b"" in lines else lines
    return [NOT_RETURNED.sub(b"?", it)[:LONGEST_LINE] for it in before]


def boundary(stem: bytes, returned: list) -> bytes:
    """The boundary of the least number that no returned line rules out."""
    start = b"--" + stem + b"."
    ruled_out = {line[len(start) : len(start) + 4] for line in returned if line.startswith(start)}
    return stem + b"." + next(it for it in (b"%04d" % number for number in range(10_000)) if it not in ruled_out)


def worded_as(letter: Letter) -> int:
    """The row of the words: the letter's service, or SUCCESS."""
    succeeds = all(it.action in (DELIVERED, RELAYED, EXPANDED) for it in letter.outcomes)
    return SUCCESS if letter.draft.wording == BY_OUTCOME and letter.key[0] == TRACE and succeeds else letter.key[0]


def meaning(outcome) -> bytes:
    """What happened to a recipient, in plain words."""
    if outcome.action in SUCCESSES:
        return SUCCESSES[outcome.action]
    _, subject, detail = outcome.status.decode().split(".")
    return MEANINGS.get(f"{subject}.{detail}", MEANINGS.get(subject, NO_MEANING)).encode()


def explained(outcome) -> list:
    """The lines on what happened to a recipient, where the wording is by outcome."""
    lines = [b"    " + meaning(outcome)] + [b"    " + it for it in [outcome.reason] if it]
    if outcome.diagnostic and outcome.diagnostic not in (outcome.reason or b""):
        lines += [b"    %s said:" % (outcome.mta or b"The recipient's mail system"), b"      " + outcome.diagnostic]
    if outcome.retry_until is not None:
        lines.append(b"    It will be tried again until " + date(outcome.retry_until))
    return lines


def first_part(host: bytes, letter: Letter) -> list:
    """The lines for people."""
    lines = [b"Content-Description: Notification", b"Content-Type: text/plain; charset=us-ascii", b""]
    lines += [b"This is the mail system at host " + host + b".", b"", PARAGRAPHS[worded_as(letter)]]
    by_outcome = letter.draft.wording == BY_OUTCOME
    if by_outcome:
        help_line = b"For help, write to <postmaster@%s> and include this notice." % host
        lines += [CONSEQUENCES[worded_as(letter)], help_line]
    lines.append(b"")
    for it in letter.outcomes:
        told = by_outcome and it.original and it.original != it.recipient
        origin = b" (expanded from <%s>)" % it.original if told else b""
        lines.append(b"<%s>%s: %s (%s)" % (it.recipient, origin, ACTION_WORDS[it.action], it.status))
        if by_outcome:
            lines += explained(it)
        elif it.reason:
            lines.append(b"    " + it.reason)
    return lines + [b""]


def second_part(host: bytes, letter: Letter) -> list:
    """The lines for programs (RFC 3464 section 2)."""
    lines = [b"Content-Description: Delivery report", b"Content-Type: message/delivery-status", b""]
    if letter.draft.envelope_id:
        lines.append(b"Original-Envelope-Id: " + letter.draft.envelope_id)
    lines += [b"Reporting-MTA: dns; " + host, b"Arrival-Date: " + date(letter.draft.arrival)]
    lines += letter.draft.extensions.split(b"\n")[:-1]
    for it in letter.outcomes:
        lines.append(b"")
        if it.original:
            lines.append(b"Original-Recipient: %s; %s" % (it.original_type or b"rfc822", it.original))
        lines += [
            b"Final-Recipient: %s; %s" % (it.recipient_type or b"rfc822", it.recipient),
            b"Action: " + ACTION_WORDS[it.action],
            b"Status: " + it.status,
        ]
        if it.mta:
            lines.append(b"Remote-MTA: dns; " + it.mta)
        if it.diagnostic:
            lines.append(b"Diagnostic-Code: %s; %s" % (it.diagnostic_type or b"smtp", it.diagnostic))
        if it.last_attempt is not None:
            lines.append(b"Last-Attempt-Date: " + date(it.last_attempt))
        if it.retry_until is not None:
            lines.append(b"Will-Retry-Until: " + date(it.retry_until))
        lines += it.extensions.split(b"\n")[:-1]
    return lines + [b""]


def third_part(letter: Letter, returned: list) -> list:
    """The returned lines with their header."""
    whole = returns_message(letter.draft)
    description = RETURNED_OF[worded_as(letter) if letter.draft.wording == BY_OUTCOME else BOUNCE] + (
        b"" if whole else b" Headers"
    )
    content_type = b"message/rfc822" if whole else b"text/rfc822-headers"
    lines = [b"Content-Description: " + description, b"Content-Type: " + content_type, *encoding(returned)]
    return [*lines, b"", *returned, b""]


def notice(host: bytes, letter: Letter) -> list:
    """The lines of a notice."""
    service, queue_id = letter.key
    returned = returned_lines(letter.draft)
    stem = b"%s.%s.%d" % (SERVICE_LETTERS[service], queue_id, letter.draft.moment)
    bound = boundary(stem, returned)
    lines = [
        b"From: Mail Delivery System <MAILER-DAEMON@" + host + b">",
        b"To: <" + letter.draft.return_path + b">",
        b"Subject: " + SUBJECTS[worded_as(letter)],
        b"Date: " + date(letter.draft.moment),
        b"Message-ID: <%s.%d@%s>" % (stem, letter.serial, host),
        b"Auto-Submitted: auto-replied",
        b"MIME-Version: 1.0",
        b"Content-Type: multipart/report; report-type=delivery-status;",
        b' boundary="' + bound + b'"',
        *encoding(returned),
        b"",
    ]
    parts = [first_part(host, letter), second_part(host, letter)] + ([third_part(letter, returned)] if returned else [])
    for part in parts:
        lines += [b"--" + bound, *part]
    return lines + [b"--" + bound + b"--"]


def mail(host: bytes, letter: Letter) -> bytes:
    """One notice as an SMTP client sends it, dots doubled (RFC 5321 section 4.5.2)."""
    sent = [b"." + it if it.startswith(b".") else it for it in notice(host, letter)]
    body = b" BODY=8BITMIME" if encoding(returned_lines(letter.draft)) else b""  # RFC 6152 section 3
    return crlf([b"MAIL FROM:<>" + body, b"RCPT TO:<" + letter.draft.return_path + b">", b"DATA", *sent, b"."])


def outbox(host: bytes, letters: list) -> bytes:
    """The whole outbox of these letters."""
    return crlf([b"EHLO " + host]) + b"".join(mail(host, it) for it in letters) + crlf([b"QUIT"])


def crlf(lines: list) -> bytes:
    """Lines with their ends."""
    return b"".join(it + b"\r\n" for it in lines)
