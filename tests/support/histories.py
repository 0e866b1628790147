"""Whether what a daemon did is one history: an order of all requests taken that keeps each connection's order and what
was answered before something else was asked, in which each answer is what the logs give (noticed-protocol(5)),
and whose letters and open logs are those that the daemon wrote."""
from dataclasses import dataclass
from typing import Optional

from tests.support.formats.bodies import Request
from tests.support.formats.logs import Letter, Limits, Logs
from tests.support.formats.notices import mail


@dataclass
class Asked:
    """A request that a client sent whole, when it began to, and its answer (reply and value, and the serial of a notice
    if one was told) with the time when it was there; no answer where the client left before: then nobody knows whether
    the request was taken. Whether its frame was of version 3, whose answer tells of a notice by its serial."""

    request: Request
    begun: int
    answer: Optional[tuple] = None
    ended: Optional[int] = None
    is_third: bool = False


class History:
    """A history as far as it goes: how many requests of each connection stand in it, the logs, and how many bytes of
    the outbox its letters are."""

    def __init__(self, places: tuple, taken: int, logs: Logs, written: int):
        self.places, self.taken, self.logs, self.written = places, taken, logs, written

    def state(self) -> tuple:
        """What decides about all that may follow."""
        held = frozenset((key, log if log is None else tuple(log)) for key, log in self.logs.held.items())
        return self.places, self.taken, self.written, held


@dataclass
class Daemon:
    """What a daemon was asked, by connection, and what it left: how many requests it took, outbox and open logs."""

    host: bytes
    connections: list
    taken: int
    outbox: bytes
    open_lines: list

    def begin(self) -> History:
        """The empty history."""
        greeting = b"EHLO " + self.host + b"\r\n"
        return History(
            (0,) * len(self.connections), 0, Logs(Limits()), len(greeting) if self.outbox.startswith(greeting) else -1
        )

    def is_whole(self, it: History) -> bool:
        """Whether a history is all of what the daemon did."""
        answered = all(
            place == len(asked) or asked[place].answer is None for place, asked in zip(it.places, self.connections)
        )
        return (
            answered
            and it.taken == self.taken
            and self.outbox[it.written :] == b"QUIT\r\n"
            and it.logs.open_logs() == self.open_lines
        )

    def next_of(self, it: History) -> list:
        """The connections whose next request may be the next one of the history: no other that isn't in it was answered
        before this one began. Those with an answer first, by its time."""
        waiting = [
            (asked[place], at)
            for at, (place, asked) in enumerate(zip(it.places, self.connections))
            if place < len(asked)
        ]
        ends = sorted(asked.ended for asked, _ in waiting if asked.answer)
        # (a request begins before it ends, so it doesn't stand in its own way)
        free = [(asked, at) for asked, at in waiting if not ends or asked.begun <= ends[0]]
        return [at for asked, at in sorted(free, key=lambda it: (it[0].answer is None, it[0].ended or 0))]

    def longer(self, it: History, at: int) -> Optional[History]:
        """The history with the next request of a connection, if what came of it is what the history gives."""
        asked = self.connections[at][it.places[at]]
        logs = Logs(it.logs.limits)
        logs.held, logs.sealed = {key: log and list(log) for key, log in it.logs.held.items()}, it.logs.sealed
        reply, value, letter = logs.apply(asked.request)
        if asked.answer and asked.answer != (reply, value, letter.serial if letter and asked.is_third else None):
            return None
        sent = self.sent(letter)
        if not self.outbox.startswith(sent, it.written):
            return None
        places = it.places[:at] + (it.places[at] + 1,) + it.places[at + 1 :]
        return History(places, it.taken + 1, logs, it.written + len(sent))

    def sent(self, letter: Optional[Letter]) -> bytes:
        """What the outbox has of a letter."""
        return mail(self.host, letter) if letter else b""

    def is_one_history(self) -> bool:
        """Whether there is such a history: a search that goes back where it can't go on."""
        seen, left = set(), [self.begin()]
        while left:
            it = left.pop()
            if self.is_whole(it):
                return True
            if it.state() not in seen:
                seen.add(it.state())
                left += [more for at in reversed(self.next_of(it)) if (more := self.longer(it, at))]
        return False
