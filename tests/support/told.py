"""What a notice says, taken apart so that two of them can be compared, without what differs from one message to the
next: ids of messages, moments, ports and folders."""
import email.utils
import re
from dataclasses import dataclass, field

MOMENT = re.compile(rb"\w{3}, +\d{1,2} \w{3} \d{4} \d\d:\d\d:\d\d [+-]\d{4}(?: \(UTC\))?")
OWN_MESSAGE_ID = re.compile(rb"<\d{14}\.\w+@")
OTHER_QUEUE_ID = re.compile(rb"(\bid |queued as |forwarded as )[0-9A-Za-z]{9,}\b")
NAME = re.compile(rb"(?mi)^Message-ID: <([\w-]+)@client\.example\.com>")
DATES = (b"Arrival-Date", b"Will-Retry-Until", b"Last-Attempt-Date")


def fields(group: bytes) -> list[tuple[bytes, bytes]]:
    """The fields of a group of lines, in one line each, and without spaces that say nothing."""
    lines = re.sub(rb"\n[ \t]+", b" ", group.strip(b"\n")).split(b"\n")
    return [(name, b" ".join(value.split())) for name, _, value in (it.partition(b":") for it in lines if it)]


def typed(value: bytes) -> bytes:
    """A value that has a type before it, with one space behind the semicolon."""
    kind, semicolon, text = value.partition(b";")
    return kind + b"; " + text.strip() if semicolon and b" " not in kind else value


def moment(value: bytes) -> float:
    """A date as seconds."""
    return email.utils.parsedate_to_datetime(re.sub(r" \(.*", "", value.decode())).timestamp()


@dataclass
class Told:
    """A notice: to whom it went, and its parts by name. What is in `parts` is compared."""

    to: tuple
    text: bytes
    queue_id: bytes = b""
    parts: dict = field(default_factory=dict)
    recipients: list = field(default_factory=list)
    dates: dict = field(default_factory=dict)

    @property
    def key(self):
        """The key by which the two sides' notices are matched: address, actions and names of the recipients."""
        return self.to, self.actions(), sorted(it.get(b"Final-Recipient", b"") for it in self.recipients)

    @property
    def is_own(self) -> bool:
        """Whether noticed made it, and not bounce(8)."""
        return re.search(rb"(?mi)^Message-ID: <[BDT]\.", self.text.partition(b"\n\n")[0]) is not None

    def actions(self) -> list:
        return sorted({it.get(b"Action", b"") for it in self.recipients})

    def names(self) -> list:
        """Each recipient that it tells of, with what became of it."""
        return sorted((it.get(b"Final-Recipient", b""), it.get(b"Action", b"")) for it in self.recipients)


def cleaned(text: bytes, queue_id: bytes, varying: dict) -> bytes:
    """A text without what differs between two instances: ids of messages, moments, and what `varying` names."""
    if queue_id:
        text = re.sub(rb"\b" + re.escape(queue_id) + rb"\b", b"ID", text)
    for value, name in varying.items():
        text = re.sub(rb"(?<!\w)" + re.escape(value.encode()) + rb"\b", name.encode(), text)
    return OWN_MESSAGE_ID.sub(b"<MOMENT.ID@", MOMENT.sub(b"MOMENT", OTHER_QUEUE_ID.sub(rb"\1ID", text)))


def name_in(text: bytes) -> str:
    """The name of a message, from its header or from a notice that returns the header; empty if there is none."""
    found = NAME.search(text)
    return found[1].decode() if found else ""


def taken_apart(to: list, text: bytes, varying: dict) -> Told:
    """A notice's parts. Raises where it isn't a report of three parts, or of two."""
    header, _, _ = text.partition(b"\n\n")
    boundary = re.search(rb'boundary="([^"]*)"', header)[1]
    _, words, status, *returned, end = text.split(b"\n--" + boundary)
    if not end.startswith(b"--") or len(returned) > 1:
        raise ValueError("the parts of a notice")
    kind, _, groups = status.lstrip(b"\n").partition(b"\n\n")
    message, *recipients = [dict(fields(it)) for it in groups.strip(b"\n").split(b"\n\n")]
    it = Told(tuple(sorted(to)), text, message.get(b"X-Postfix-Queue-ID", b""), recipients=recipients)
    it.dates = {name: [group.pop(name) for group in (message, *recipients) if name in group] for name in DATES}
    head = fields(header)
    for name in (b"From", b"To", b"Subject", b"Auto-Submitted", b"MIME-Version"):
        it.parts[name.decode()] = [value for found, value in head if found.lower() == name.lower()]
    for name in (b"References", b"In-Reply-To", b"TLS-Required"):
        found = [cleaned(value, it.queue_id, varying) for given, value in head if given.lower() == name.lower()]
        it.parts[name.decode()] = found
    it.parts["Date, Message-ID"] = [
        len([1 for found, _ in head if found.lower() == name]) for name in (b"date", b"message-id")
    ]
    it.parts["report-type"] = re.search(rb"report-type=([\w-]+)", header)[1]
    it.parts["type of the status"] = dict(fields(kind)).get(b"Content-Type")
    for name, value in message.items():
        it.parts[f"message: {name.decode()}"] = typed(cleaned(value, it.queue_id, varying))
    it.parts["recipients"] = sorted(
        (
            [(name, typed(cleaned(value, it.queue_id, varying))) for name, value in sorted(group.items())]
            for group in recipients
        )
    )
    return with_texts(it, words, returned, varying)


def with_texts(it: Told, words: bytes, returned: list, varying: dict) -> Told:
    """A notice with what it says to people, whose lines are compared in any order, and what it gives back."""
    it.parts["words"] = sorted(cleaned(words.partition(b"\n\n")[2], it.queue_id, varying).split(b"\n"))
    for part in returned:
        about, _, content = part.lstrip(b"\n").partition(b"\n\n")
        about = dict(fields(about))
        it.parts["type of what is given back"] = about.get(b"Content-Type")
        it.parts["description of what is given back"] = about.get(b"Content-Description")
        it.parts["given back"] = cleaned(content, it.queue_id, varying)
    return it


def retry_seconds(it: Told) -> set:
    """How many seconds lie between when the message came and until when it is tried, as the notice says."""
    came = {moment(date) for date in it.dates[b"Arrival-Date"]}
    return {moment(until) - at for until in it.dates[b"Will-Retry-Until"] for at in came}


def differences(there: Told, here: Told) -> list:
    """What differs between two notices: the name of the part, and the part of each, or None."""
    names = [*there.parts, *(it for it in here.parts if it not in there.parts)]
    return [(it, there.parts.get(it), here.parts.get(it)) for it in names if there.parts.get(it) != here.parts.get(it)]
