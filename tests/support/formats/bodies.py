"""What a request's body says, or the refusal that it gets (noticed-protocol(5))."""
import re
from dataclasses import dataclass, replace
from typing import Optional

KINDS = {1: (1, 2, 3), 2: (1, 2, 3, 4), 3: (1, 2, 3, 4)}  # of each version
APPEND, FLUSH, DISCARD, FORGET = 1, 2, 3, 4
BOUNCE, DEFER, TRACE = 1, 2, 3
FAILED, DELAYED, DELIVERED, RELAYED, EXPANDED = 1, 2, 3, 4, 5
ACTIONS = {BOUNCE: (FAILED,), DEFER: (DELAYED,), TRACE: (FAILED, DELAYED, DELIVERED, RELAYED, EXPANDED)}
CLASSES = {FAILED: b"45", DELAYED: b"4", DELIVERED: b"2", RELAYED: b"2", EXPANDED: b"2"}

ADDRESS = re.compile(rb"[!-;=?-~]{1,256}")
QUEUE_ID = re.compile(rb"[0-9A-Za-z]{1,32}")
STATUS = re.compile(rb"[245]\.(0|[1-9][0-9]{0,2})\.(0|[1-9][0-9]{0,2})")
MTA = re.compile(rb"[!-~]{1,255}")
# The bytes of an atom, as RFC 5322 section 3.2.3 lists them.
TYPE_NAME = re.compile(rb"[!#$%&'*+/0-9=?A-Z^_`a-z{|}~-]{1,32}")
EXTENSIONS = re.compile(rb"(X-[!#$%&'*+/0-9=?A-Z^_`a-z{|}~-]{1,62}: [ -~]{1,255}\n){0,8}")
ENVELOPE_ID = re.compile(rb"[ -~]{1,100}")
NOT_PRINTABLE = re.compile(rb"[^ -~]")

LONGEST_TEXT = 800  # of a diagnostic and a reason
LONGEST_HEADER = 32_768
LAST_MOMENT = 253_402_300_799
NO_MOMENT = 2**64 - 1
ANY_COUNT = 2**32 - 1
HEADER, MESSAGE, EIGHT_BIT_MESSAGE = 0, 1, 2  # what is returned
BY_SERVICE, BY_OUTCOME = 0, 1  # how a notice is worded


class Refused(Exception):
    """A body that is refused, with the number of the refusal."""

    def __init__(self, number: int):
        super().__init__(f"refused {number}")
        self.number = number


@dataclass(frozen=True)
class Outcome:
    """What became of one recipient. A text that isn't there is empty."""

    original: bytes
    recipient: bytes
    action: int
    status: bytes
    mta: bytes
    diagnostic: bytes
    reason: bytes
    last_attempt: Optional[int]
    retry_until: Optional[int]
    recipient_type: bytes = b""
    original_type: bytes = b""
    diagnostic_type: bytes = b""
    extensions: bytes = b""


@dataclass(frozen=True)
class Draft:
    """What a flush says beside its key; None expects any number. `header` is the message if that is returned."""

    moment: int
    arrival: int
    return_path: bytes
    envelope_id: bytes
    header: bytes
    expected: Optional[int] = None
    returned: int = HEADER
    wording: int = BY_SERVICE
    extensions: bytes = b""


@dataclass(frozen=True)
class Request:
    """A request: its kind, number and key (service and queue id), an append's outcome, a flush's draft."""

    kind: int
    number: int
    key: tuple
    outcome: Optional[Outcome] = None
    draft: Optional[Draft] = None


class Fields:
    """The fields of a body, one after another; refused 23 where it ends before them."""

    def __init__(self, body: bytes):
        self.body, self.at = body, 0

    def take(self, size: int) -> bytes:
        """So many bytes."""
        if len(self.body) - self.at < size:
            raise Refused(23)
        self.at += size
        return self.body[self.at - size : self.at]

    def number(self, size: int) -> int:
        """A number of so many bytes."""
        return int.from_bytes(self.take(size), "big")

    def text(self) -> bytes:
        """A text, by its length."""
        return self.take(self.number(2))


def refuse_unless(holds, number: int):
    """Refuses with this number what doesn't hold."""
    if not holds:
        raise Refused(number)


def is_moment(value: int) -> bool:
    """Whether there is a date for a moment."""
    return value <= LAST_MOMENT


def counted(value: int) -> Optional[int]:
    """How many outcomes a flush expects; None for any number."""
    return None if value == ANY_COUNT else value


def empty_or(legal: re.Pattern, text: bytes) -> bool:
    """Whether a text is missing or legal."""
    return not text or bool(legal.fullmatch(text))


def outcome_of(service: int, fields: dict) -> Outcome:
    """The outcome of an append, by the order of its refusals."""
    dates = [fields["last_attempt"], fields["retry_until"]]
    refuse_unless(all(it == NO_MOMENT or is_moment(it) for it in dates), 27)
    last_attempt, retry_until = (None if it == NO_MOMENT else it for it in dates)
    action, status = fields["action"], fields["status"]
    refuse_unless(ADDRESS.fullmatch(fields["recipient"]), 1)
    refuse_unless(empty_or(ADDRESS, fields["original"]), 2)
    refuse_unless(action in ACTIONS[service], 3)
    refuse_unless(STATUS.fullmatch(status), 4)
    refuse_unless(status[0] in CLASSES[action], 5)
    refuse_unless(empty_or(MTA, fields["mta"]), 6)
    refuse_unless(len(fields["diagnostic"]) <= LONGEST_TEXT, 7)
    refuse_unless(len(fields["reason"]) <= LONGEST_TEXT, 8)
    refuse_unless(retry_until is None or action == DELAYED, 10)
    refuse_unless(empty_or(TYPE_NAME, fields["recipient_type"]), 15)
    refuse_unless(
        empty_or(TYPE_NAME, fields["original_type"]) and (fields["original"] or not fields["original_type"]), 16
    )
    refuse_unless(
        empty_or(TYPE_NAME, fields["diagnostic_type"]) and (fields["diagnostic"] or not fields["diagnostic_type"]), 17
    )
    refuse_unless(EXTENSIONS.fullmatch(fields["extensions"]), 20)
    cleaned = {it: NOT_PRINTABLE.sub(b"?", fields[it]) for it in ("diagnostic", "reason")}
    return Outcome(**{**fields, **cleaned, "last_attempt": last_attempt, "retry_until": retry_until})


def draft_of(draft: Draft) -> Draft:
    """The draft of a flush, by the order of its refusals."""
    refuse_unless(is_moment(draft.moment) and is_moment(draft.arrival), 27)
    refuse_unless(len(draft.header) <= LONGEST_HEADER, 28)
    refuse_unless(empty_or(ADDRESS, draft.return_path), 29)
    refuse_unless(empty_or(ENVELOPE_ID, draft.envelope_id), 30)
    refuse_unless(draft.returned in (HEADER, MESSAGE, EIGHT_BIT_MESSAGE), 18)
    refuse_unless(draft.wording in (BY_SERVICE, BY_OUTCOME), 19)
    refuse_unless(EXTENSIONS.fullmatch(draft.extensions), 20)
    return draft


def decoded(body: bytes) -> Request:
    """What a body says; Refused with the first refusal that applies."""
    refuse_unless(not body or body[0] in KINDS, 21)
    refuse_unless(len(body) < 2 or body[1] in KINDS[body[0]], 22)
    fields = Fields(body)
    version, kind, number, service, queue_id = (
        fields.number(1),
        fields.number(1),
        fields.number(4),
        fields.number(1),
        fields.text(),
    )
    parts, draft = {}, None
    if kind == APPEND:
        parts = {"original": fields.text(), "recipient": fields.text(), "action": fields.number(1)}
        parts |= {it: fields.text() for it in ("status", "mta", "diagnostic", "reason")}
        parts |= {it: fields.number(8) if version > 1 else NO_MOMENT for it in ("last_attempt", "retry_until")}
        parts |= {
            it: fields.text() if version == 3 else b""
            for it in ("recipient_type", "original_type", "diagnostic_type", "extensions")
        }
    elif kind == FLUSH:
        draft = Draft(fields.number(8), fields.number(8), fields.text(), fields.text(), fields.text())
        if version == 3:
            draft = replace(
                draft,
                expected=counted(fields.number(4)),
                returned=fields.number(1),
                wording=fields.number(1),
                extensions=fields.text(),
            )
    refuse_unless(fields.at == len(body), 24)
    refuse_unless(service in ACTIONS, 25)
    refuse_unless(QUEUE_ID.fullmatch(queue_id), 26)
    outcome = outcome_of(service, parts) if kind == APPEND else None
    return Request(kind, number, (service, queue_id), outcome, draft_of(draft) if draft else None)
