"""Frames, answers, and a whole run of `batch` (noticed-protocol(5))."""
import struct
from typing import Optional

from tests.support.faults import fault_line
from tests.support.running import Ran

from .bodies import Refused, decoded
from .logs import (
    CLOSED,
    DIFFERS,
    DISCARDED,
    FORGOTTEN,
    GONE,
    LOG_FULL,
    LOGGED,
    NO_RETURN,
    NOT_CLOSED,
    NOTHING,
    REFUSED,
    SEALED,
    TABLE_FULL,
    Limits,
    Logs,
)
from .notices import SERVICE_LETTERS, outbox

LONGEST_FRAME = 65_536
OUT_OF_TURN, TOO_MANY = 46, 47
WORDS = {
    LOGGED: b"logged %d",
    CLOSED: b"closed",
    TABLE_FULL: b"table full",
    LOG_FULL: b"log full",
    NOTHING: b"nothing",
    NO_RETURN: b"no return %d",
    SEALED: b"sealed %d",
    DISCARDED: b"discarded %d",
    GONE: b"gone",
    REFUSED: b"refused %d",
    FORGOTTEN: b"forgotten",
    NOT_CLOSED: b"not closed",
    DIFFERS: b"differs %d",
}


class Fault(Exception):
    """What ends a session, with its number."""

    def __init__(self, number: int):
        super().__init__(f"fault {number}")
        self.number = number


def answer(number: int, reply: int, value: int, serial: Optional[int] = None) -> bytes:
    """The frame of an answer, with the serial of a notice, if one is told."""
    if serial is not None:
        return struct.pack(">IBBIIQ", 18, 1, reply, number, value, serial)
    return struct.pack(">IBBII", 10, 1, reply, number, value)


def line(number: int, reply: int, value: int, _serial: Optional[int] = None) -> bytes:
    """The line of an answer: it says no serial."""
    words = WORDS[reply]
    return b"%d %s\n" % (number, words % value if b"%d" in words else words)


def frames(given: bytes, broken: bool):
    """The bodies of the frames, one after another; Fault where they end badly. Of a broken input the read after these
    bytes fails."""
    at, cut = 0, Fault(14 if broken else 13)
    while at < len(given):
        if len(given) - at < 4:
            raise cut
        size = int.from_bytes(given[at : at + 4], "big")
        if size > LONGEST_FRAME:
            raise Fault(11)
        if size == 0:
            raise Fault(12)
        if len(given) - at - 4 < size:
            raise cut
        yield given[at + 4 : at + 4 + size]
        at += 4 + size
    if broken:
        raise cut


def answers(given: bytes, logs: Logs, letters: list, broken: bool = False):
    """The answers of a session on these bytes, one after another: number, reply, value, and the serial where a frame of
    version 3 made a notice. Fault where it ends badly."""
    for position, body in enumerate(frames(given, broken)):
        if position == logs.limits.requests:
            raise Fault(TOO_MANY)
        try:
            request = decoded(body)
        except Refused as refused:
            yield position, REFUSED, refused.number, None
            continue
        if request.number != position:
            yield position, REFUSED, OUT_OF_TURN, None
            raise Fault(OUT_OF_TURN)
        reply, value, letter = logs.apply(request)
        letters += [letter] if letter else []
        yield position, reply, value, letter.serial if letter and body[0] == 3 else None


def open_lines(logs: Logs) -> list:
    """The lines of the logs that are open."""
    return [b"open %s %s %d\n" % (SERVICE_LETTERS[key[0]], key[1], count) for key, count in logs.open_logs()]


class Notes:
    """The lines of a run, of which only the first so many can be written, if that is said; what comes after one that
    can't isn't written either."""

    def __init__(self, room: Optional[int]):
        self.room, self.lines, self.lost = room, [], False

    def write(self, lines: list):
        """Writes lines as far as there is room."""
        for it in lines:
            self.lost = self.lost or len(self.lines) == self.room
            self.lines += [] if self.lost else [it]


def batch(
    host: bytes, given: bytes, limits: Limits = Limits(), broken: bool = False, room: Optional[int] = None
) -> Ran:
    """What `noticed batch` gives on these bytes: of a broken input the read after them fails, and of the notes there is
    room for so many lines, if that is said."""
    logs, letters, notes, faults = Logs(limits), [], Notes(room), []
    try:
        for answered in answers(given, logs, letters, broken):
            notes.write([line(*answered)])
            if notes.lost:
                break
    except Fault as fault:
        faults = [fault_line(fault.number)]
    notes.write(faults + open_lines(logs))
    return Ran(outbox(host, letters), b"".join(notes.lines), 1 if faults or notes.lost else 0)
