"""A client of noticed(8): it logs what happened to each recipient of a mail, and has the notice made. Python 3.10.

    key = BOUNCE, "A1B2C3"
    with Client("/run/noticed/socket") as client:
        logged = client.append(key, Outcome("bob@example.org", FAILED, "5.1.1", diagnostic="550 no such user"), place=0)
        if logged.reply == Reply.LOGGED:
            made = client.flush(key, Notice("ann@example.com", moment=now, arrival=arrived, expected=1, header=header))

Reply says what each answer means, and what to do. A request that the daemon refuses raises Refused.

The fields are those of noticed-protocol(5), version 3: the daemon tests their values. A str is sent as UTF-8. Open a
client for one message, then close it: it occupies a worker of the daemon. Threads cannot share one.

When may a request be repeated? The client waits for a daemon, connects again, and repeats what is safe: a request that
was not sent whole, and a flush, discard or forget without an answer (a repeated flush is answered CLOSED then). An
append without an answer may have been logged. If this client alone appends to the log, give append its `place`: how
many outcomes you logged there before. When the connection has ended, the client counts the log, and appends again if
the outcome is missing. Otherwise append raises Unanswered: discard and forget the log, then append all again."""
import contextlib
import enum
import os
import re
import socket
import struct
import time
from typing import NamedTuple

Text = str | bytes
Key = tuple[int, Text]  # of a log: service and queue id
BOUNCE, DEFER, TRACE = 1, 2, 3  # services: for failures, for delays, for other reports
FAILED, DELAYED, DELIVERED, RELAYED, EXPANDED = 1, 2, 3, 4, 5  # actions
NULL_PATH = "<>"  # the null return path, which gets no notice; an empty path is an error
ANY = 0xFFFFFFFF  # expected: any number of outcomes
HEADER, MESSAGE, EIGHT_BIT_MESSAGE, MESSAGE_OR_HEADER = range(4)  # third: for 8BITMIME; last: its header if too long
BY_SERVICE, BY_OUTCOME = 0, 1  # `wording`: how words are chosen; by the outcome they say why and what to do
LONGEST_FRAME, LONGEST_HEADER, LONGEST_TEXT = 65_536, 32_768, 800  # bytes; a longer diagnostic or reason is cut
LONGEST_PATH = 107  # bytes of the socket's path


class Reply(enum.IntEnum):  # what an answer says, and what to do
    LOGGED = 1  # behind `value` others. If that is below `place`, the daemon lost outcomes: append them again
    CLOSED = 2  # the log takes no more. After a flush: the notice is made
    TABLE_FULL = 3  # no key is free: forget one, or try later
    LOG_FULL = 4  # flush, forget, and append the rest for a notice of its own
    NOTHING = 5  # the log is empty. If it should not be, the daemon lost outcomes: forget, append, flush
    NO_RETURN = 6  # the log is dropped, since the return path is null
    SEALED = 7  # a notice of `value` outcomes is made
    DISCARDED = 8  # the log of `value` outcomes is dropped
    GONE = 9  # never sent
    REFUSED = 10  # nothing was changed; raises Refused
    FORGOTTEN = 11  # the key is free
    NOT_CLOSED = 12  # the log is open, or was forgotten before
    DIFFERS = 13  # nothing was changed. The log has `value` outcomes: if too few, append what is missing, and flush


class Unreachable(Exception):
    """No daemon carried the request out in time: keep the message, and try again with the next run of your queue."""


class Unanswered(Exception):
    """An append was sent and not answered: it may be logged."""


class PathTooLong(ValueError):
    """No socket has so long a path."""


class Refused(Exception):
    """The daemon refused the request, which changed nothing. If `number` is 9 try later; otherwise correct the request."""

    def __init__(self, number: int):
        super().__init__(f"refused {number}: {FAULTS.get(number, 'see noticed help faults')}")
        self.number = number


FAULTS = {  # the numbers of a Refused
    1: "the final recipient is not an address",
    2: "the original recipient is neither empty nor an address",
    3: "the action is unknown, or the service's log takes none of it",
    4: "the status is not a status code",
    5: "the class of the status does not fit the action",
    6: "the remote system's name is neither empty nor a name",
    7: "the diagnostic is too long",
    8: "the reason is too long",
    9: "memory was refused",
    10: "a time until which delivery is retried, for a recipient that is not delayed",
    15: "the type of the final recipient is neither empty nor the name of a type",
    16: "the type of the original recipient is malformed, or there is no original recipient",
    17: "the type of the diagnostic is malformed, or there is no diagnostic",
    18: "it is unknown whether the header field holds the header or the message",
    19: "the wording of a notice is unknown",
    20: "the extension fields are malformed",
    21: "the version of a request is unknown",
    22: "the kind of a request, or of an answer's reply, is unknown",
    23: "a request ends before its fields do",
    24: "bytes follow the last field of a request",
    25: "the service is unknown",
    26: "the queue id is malformed",
    27: "a moment is after the year 9999",
    28: "the returned header is too long",
    29: "the return path is neither empty nor an address",
    30: "the envelope id is neither empty nor valid",
}


class Answer(NamedTuple):
    """An answer; that of a notice has its serial, which is part of the Message-ID."""

    reply: Reply
    value: int
    serial: int | None = None


class Limits(NamedTuple):
    """Seconds: to connect, to send a request, until a worker is free, until an answer, for all tries of a request, and
    for all of them while no daemon was ever reached."""

    connect: float = 5
    send: float = 30
    worker: float = 60
    answer: float = 30
    request: float = 300
    reach: float = 10


class Outcome(NamedTuple):
    """What happened to a recipient. A moment is seconds since 1970; extensions are lines that LF ends. A diagnostic or
    reason of several lines is sent as one line."""

    recipient: Text
    action: int
    status: Text
    original_recipient: Text = ""
    remote_mta: Text = ""
    diagnostic: Text = ""
    reason: Text = ""
    last_attempt: int | None = None
    retry_until: int | None = None
    recipient_type: Text = ""
    original_type: Text = ""
    diagnostic_type: Text = ""
    extensions: Text = ""

    def fields(self) -> bytes:
        """What an append has behind its key."""
        moments = [2**64 - 1 if it is None else it for it in (self.last_attempt, self.retry_until)]
        said = [_one_line(it)[:LONGEST_TEXT] for it in (self.diagnostic, self.reason)]
        made = _texts(self.original_recipient, self.recipient) + struct.pack(">B", self.action)
        made += _texts(self.status, self.remote_mta, *said) + struct.pack(">QQ", *moments)
        return made + _texts(self.recipient_type, self.original_type, self.diagnostic_type, self.extensions)


class Notice(NamedTuple):
    """What a flush says: `moment` is the notice's date, `expected` how many outcomes the log must have."""

    return_path: Text
    moment: int
    arrival: int
    expected: int
    envelope_id: Text = ""
    header: Text = ""
    returned: int = HEADER
    wording: int = BY_OUTCOME
    extensions: Text = ""

    def fields(self) -> bytes:
        """What a flush has behind its key. ValueError without a return path, or if header or message is too long."""
        path, header, returned = _bytes(self.return_path), _bytes(self.header), self.returned
        if not path:
            raise ValueError("there is no return path; the null one is NULL_PATH")
        if len(header) > LONGEST_HEADER and returned in (HEADER, MESSAGE_OR_HEADER):
            header, returned = re.split(rb"(?m)^\r?\n", header, maxsplit=1)[0], HEADER
        if len(header) > LONGEST_HEADER:
            raise ValueError(f"the header or message is longer than {LONGEST_HEADER} bytes")
        made, kind = struct.pack(">QQ", self.moment, self.arrival), {MESSAGE_OR_HEADER: MESSAGE}.get(returned, returned)
        made += _texts(b"" if path == b"<>" else path, self.envelope_id, header)
        return made + struct.pack(">IBB", self.expected, kind, self.wording) + _texts(self.extensions)


def _bytes(value: Text) -> bytes:
    return value.encode() if isinstance(value, str) else value


CODES = re.compile(rb"(?:([2-5]\d\d)(?:[ -] *|\Z))?(?:([245]\.\d{1,3}\.\d{1,3})(?:[ -]|\Z))?")  # 550 5.1.1


def _one_line(text: Text) -> bytes:
    """A text of several lines as one. Each line of a reply repeats the reply code (RFC 5321 section 4.2.1), and often the
    status: both are kept once. Line ends become a space; the daemon would make each of their bytes a question mark."""
    said = _bytes(text)
    if not re.search(rb"[\r\n]", said):
        return said
    lines = [it for it in (line.strip(b" \t") for line in re.split(rb"[\r\n]+", said)) if it] or [b""]
    code, status = CODES.findall(lines[0])[0]
    first, *others = (_behind(it, code) for it in lines)
    return b" ".join(it for it in (code, first, *(_behind(it, status) for it in others)) if it)


def _behind(line: bytes, code: bytes) -> bytes:
    """A line without a code that it begins with."""
    return re.sub(rb"\A" + re.escape(code) + rb"(?:[ -] *|\Z)", b"", line) if code else line


def _texts(*values: Text) -> bytes:
    return b"".join(struct.pack(">H", len(it)) + it for it in map(_bytes, values))


def encode(kind: int, number: int, key: Key, fields: bytes = b"") -> bytes:
    """The frame of a request: 1 append, 2 flush, 3 discard, 4 forget. ValueError or struct.error if it has no room."""
    body = struct.pack(">BBIB", 3, kind, number, key[0]) + _texts(key[1]) + fields
    if len(body) > LONGEST_FRAME:
        raise ValueError("the request is longer than a frame")
    return struct.pack(">I", len(body)) + body


def decode(body: bytes) -> tuple[int, Answer]:
    """The number of the request, and the answer, of a frame without its length. ValueError if it is not an answer."""
    if len(body) not in (10, 18) or body[0] != 1 or len(body) == 18 and body[1] != Reply.SEALED:
        raise ValueError(f"not an answer: {body.hex()}")
    number, value, serial = (int.from_bytes(it, "big") for it in (body[2:6], body[6:10], body[10:]))
    return number, Answer(Reply(body[1]), value, serial if len(body) == 18 else None)


class Client:
    """Carries requests out. Its methods return the answer, or raise Refused, Unreachable, PermissionError, or as encode
    does. PathTooLong if the path of the socket is."""

    def __init__(self, path: str, limits: Limits = Limits()):
        if len(os.fsencode(path)) > LONGEST_PATH:
            raise PathTooLong(f"the socket's path is longer than {LONGEST_PATH} bytes: {path}")
        self._path, self._limits, self._number = path, limits, 0
        self._stream: socket.socket | None = None
        self._is_reached = False  # whether a daemon ever was

    def __enter__(self) -> "Client":
        return self

    def __exit__(self, *_: object) -> None:
        self.close()

    def close(self) -> None:
        """Ends the connection; the next request opens another."""
        if self._stream:
            self._stream.close()
        self._stream = None

    def append(self, key: Key, outcome: Outcome, place: int | None = None) -> Answer:
        """Logs an outcome. Unanswered if it may be logged; with a place only if a daemon is silent or others append."""
        while True:
            try:
                return self._ask(encode(1, 0, key, outcome.fields()), again=False)
            except Unanswered as why:
                if place is None or isinstance(why.__cause__, TimeoutError):
                    raise
                found = place + 2  # unless a daemon says
                with contextlib.suppress(Unreachable, Refused):
                    found = self.flush(key, Notice(NULL_PATH, 0, 0, ANY - 1)).value  # DIFFERS: no log has so many
                if found == place + 1:
                    return Answer(Reply.LOGGED, place)
                if found > place:
                    raise

    def flush(self, key: Key, notice: Notice) -> Answer:
        """Closes a log and has its notice made."""
        return self._ask(encode(2, 0, key, notice.fields()))

    def discard(self, key: Key) -> Answer:
        """Closes a log without a notice."""
        return self._ask(encode(3, 0, key))

    def forget(self, key: Key) -> Answer:
        """Releases the key of a closed log: do it when no late outcome of the message can come."""
        return self._ask(encode(4, 0, key))

    def _ask(self, frame: bytes, again: bool = True) -> Answer:
        pause, began = 0.05, time.monotonic()
        while True:
            try:
                if not self._stream:
                    self._connect()
                frame = frame[:6] + struct.pack(">I", self._number) + frame[10:]
                answer = self._exchange(frame, self._limits.answer)
                if answer.reply != Reply.REFUSED:
                    return answer
                if answer.value not in (44, 46):  # after these two another connection serves
                    raise Refused(answer.value)
                self.close()
                why: object = answer
            except (OSError, Unanswered) as failed:
                self.close()
                if isinstance(failed, PermissionError) or isinstance(failed, Unanswered) and not again:
                    raise
                why = failed
            limit = self._limits.request if self._is_reached else min(self._limits.reach, self._limits.request)
            if time.monotonic() + pause > began + limit:
                raise Unreachable(f"{self._path}: {why}")
            time.sleep(pause)
            pause = min(2 * pause, 5)

    def _connect(self) -> None:
        self._stream, self._number = socket.socket(socket.AF_UNIX, socket.SOCK_STREAM), 0
        self._stream.settimeout(self._limits.connect)
        try:
            self._stream.connect(self._path)
        except (BlockingIOError, TimeoutError):  # the queue of the socket is full: a daemon listens
            self._is_reached = True
            raise
        self._is_reached = True
        try:
            # a frame that is refused: its answer says that a worker is there
            self._exchange(b"\0\0\0\1\0", self._limits.worker)
        except Unanswered as why:
            raise ConnectionError(f"no worker: {why}") from why

    def _exchange(self, frame: bytes, limit: float) -> Answer:
        """The answer to a frame: an OSError if that was not sent whole, Unanswered if it was."""
        self._stream.settimeout(self._limits.send)
        self._stream.sendall(frame)
        self._stream.settimeout(limit)
        try:
            number, answer = decode(self._read(min(int.from_bytes(self._read(4), "big"), LONGEST_FRAME)))
            if number != self._number:
                raise ValueError(f"an answer to request {number}, not {self._number}")
        except (OSError, ValueError) as why:
            raise Unanswered(str(why)) from why
        self._number += 1
        return answer

    def _read(self, size: int) -> bytes:
        got = b""
        while len(got) < size:
            got += (more := self._stream.recv(size - len(got)))
            if not more:
                raise ConnectionError("the connection ended")
        return got
