"""A load on daemons over one journal, each with an outbox of its own or all with one mail server, which are killed one
after another: clients of which some are hostile, and the model of what the journal must have kept. Of each key it has
the worlds that may be: one, where each request about it was answered; and where one was sent and not answered, that
with it and that without. What is answered, what the journal has and what the outbox has takes worlds away, and one must
be left."""
import contextlib
import hashlib
import random
import re
import socket
import struct
import sys
import threading
import time
from pathlib import Path

from tests.support.daemon_and_clients import Daemon, flush, heard, until
from tests.support.faults import fault_line
from tests.support.formats import journal
from tests.support.formats.bodies import APPEND, DISCARD, FLUSH, Request, decoded
from tests.support.formats.logs import CLOSED, FORGOTTEN, NOT_CLOSED, Letter, Limits, Logs
from tests.support.formats.notices import SERVICE_LETTERS, mail
from tests.support.formats.sessions import Fault, answer, answers
from tests.support.hostile import LETTERS_AND_DIGITS, Hostile
from tests.support.mail_servers import MailServer
from tests.support.preloading import built, preloading
from tests.support.running import HOST, Checks, Ran, run
from vectors import frames

CLIENTS, HOSTILE = 16, 4  # clients, and how many of them are hostile
SWITCH = 0.0002  # seconds that one of them may keep the others waiting
LOOK = 0.005  # seconds between two looks at the journal's file
PUT_AWAY, PATIENCE = 5, 60  # how often a full journal is to be put away in one run, and within how many seconds
GREETING = f"EHLO {HOST}\r\n".encode()
END = b"\r\n.\r\n"
MESSAGE_ID = re.compile(rb"^Message-ID: <([BDT])\.([0-9A-Za-z]+)\.\d+\.(\d+)@", re.M)
OPEN_LINE = re.compile(rb"^open ([BDT]) (\w+) (\d+)$", re.M)
LONGEST_REPLY = 0.004  # seconds until a mail server replies to a message
SERVICE_OF = {letter: service for service, letter in SERVICE_LETTERS.items()}
FREE = ((), ())  # the world of a key that was never used: no log, no letters


def applied(world: tuple, request: Request) -> tuple:
    """What a request does to its key's log and to the letters made of it: reply, value, and the world after it."""
    log, letters = world
    logs = Logs(Limits())
    if log is None or log:
        logs.held[request.key] = log if log is None else list(log)
    reply, value, letter = logs.apply(request)
    after = logs.held.get(request.key, [])
    more = ((letter.draft, letter.outcomes),) if letter else ()
    return (reply, value), (after if after is None else tuple(after), letters + more)


def answers_heard(stream: socket.socket, count: int) -> list:
    """The frames of so many answers, or those that came whole."""
    whole = []
    for _ in range(count):
        head = heard(stream, 4)
        body = heard(stream, int.from_bytes(head, "big")) if len(head) == 4 else b""
        if not body or len(body) < int.from_bytes(head, "big"):
            break
        whole.append(head + body)
    return whole


def whole_answers(got: bytes) -> list:
    """The frames of answers that are whole in what was heard."""
    whole, at = [], 0
    while at + 4 <= len(got) and at + 4 + int.from_bytes(got[at : at + 4], "big") <= len(got):
        end = at + 4 + int.from_bytes(got[at : at + 4], "big")
        whole.append(got[at:end])
        at = end
    return whole


def said(frame: bytes) -> tuple:
    """What an answer's frame says, and how long its body is: its serial apart, which goes by what others do."""
    return struct.unpack(">IBBII", frame[:14])


class Model:
    """What was asked and answered, by key, and the letters that the outbox has had."""

    def __init__(self, checks: Checks):
        self.checks, self.lock = checks, threading.RLock()
        self.worlds, self.found, self.told = {}, {}, set()
        self.sums, self.last, self.repeats, self.cut, self.asked = [], b"", 0, 0, 0

    def of(self, key: tuple) -> set:
        """The worlds of a key."""
        return self.worlds.get(key, {FREE})

    def narrow(self, about: str, key: tuple, left: set):
        """Takes the worlds away that these leave."""
        self.checks.true(f"{about} of {key}, where {self.of(key)}", left)
        if left and left != {FREE}:
            self.worlds[key] = left
        elif left:
            self.worlds.pop(key, None)

    def answered(self, request: Request, given: tuple):
        """A request was answered so."""
        with self.lock:
            self.asked += 1
            ends = [applied(it, request) for it in self.of(request.key)]
            self.narrow(f"{given} answered {request}", request.key, {after for said, after in ends if said == given})

    def tell(self, answers: list):
        """Takes in the serials that the frames of answers tell: none is told twice, in any run."""
        with self.lock:
            for serial in (int.from_bytes(it[14:], "big") for it in answers if len(it) > 14):
                self.checks.true(f"serial {serial} is told once", serial not in self.told)
                self.told.add(serial)

    def unanswered(self, requests: list):
        """These were sent one after another, and some of the first ones may have been carried out."""
        with self.lock:
            chains = {}
            for it in requests:
                chain = chains.get(it.key) or self.of(it.key)
                chains[it.key] = {applied(world, it)[1] for world in chain}
                self.worlds[it.key] = self.of(it.key) | chains[it.key]

    def letter(self, text: bytes, is_first: bool):
        """This letter comes next, as the first of a run or a later one."""
        service, queue_id, serial = MESSAGE_ID.search(text).groups()
        key, serial, digest = (SERVICE_OF[service], queue_id), int(serial), hashlib.sha256(text).digest()
        if serial == len(self.sums):
            self.sums.append(digest)
            self.found.setdefault(key, []).append((serial, text))
            return
        self.repeats += 1
        self.checks.true(
            f"letter {serial} comes again as the first of a run, and is the last of {len(self.sums)}",
            is_first and serial == len(self.sums) - 1,
        )
        self.checks.equal(f"letter {serial}, again", digest, self.sums[serial] if serial < len(self.sums) else None)

    def check_letters(self):
        """All letters that were made have come, and no others."""
        for key in [*self.worlds, *(set(self.found) - set(self.worlds))]:
            found = self.found.get(key, [])
            left = set()
            for log, letters in self.of(key):
                if len(letters) == len(found) and all(
                    text == mail(HOST.encode(), Letter(key, *it, serial)) for it, (serial, text) in zip(letters, found)
                ):
                    left.add((log, ()))
            self.narrow(f"{len(found)} letters", key, left)
        self.found.clear()
        self.checks.true("each serial that was told is a letter's", all(it < len(self.sums) for it in self.told))

    def check_logs(self, about: str, held: dict, forgets: bool = False):
        """These logs are held, by their keys: those that may be. After a clean end closed keys may be forgotten."""
        for key in set(self.worlds) | set(held):
            has = held.get(key, ())
            has = has if has is None else tuple(has)
            left = {it for it in self.of(key) if it[0] == has}
            if forgets and has == () and not left:
                left = {((), letters) for log, letters in self.of(key) if log is None}
            self.narrow(f"{about}: {has}", key, left)

    def check_open_lines(self, notes: bytes):
        """The notes of a clean end name the logs that may be open, with so many outcomes, and no others."""
        told = {(SERVICE_OF[it[0]], it[1]): int(it[2]) for it in OPEN_LINE.findall(notes)}
        for key in set(self.worlds) | set(told):
            self.narrow(
                f"open {told.get(key, 0)}", key, {it for it in self.of(key) if len(it[0] or ()) == told.get(key, 0)}
            )


class Outbox:
    """The outboxes of all runs, in turn at one path. Each begins with a greeting, and may be cut within a letter."""

    def __init__(self, path: Path, model: Model):
        self.path, self.model, self.at, self.greeted, self.first, self.cut = path, model, 0, False, True, b""
        self.options = ("--outbox", path)

    def read(self) -> bytes:
        """Takes the letters that are whole, and what stands after them."""
        with contextlib.suppress(FileNotFoundError), self.path.open("rb") as it:
            it.seek(self.at)
            text = it.read()
            if not self.greeted and text.startswith(GREETING):
                text, self.greeted, self.at = text[len(GREETING) :], True, self.at + len(GREETING)
            while self.greeted and (end := text.find(END)) >= 0:
                self.take(text[: end + len(END)])
                text = text[end + len(END) :]
            return text
        return b""

    def take(self, letter: bytes):
        """Takes a letter; the first one of a run is that which the run before was cut in."""
        if self.cut:
            self.model.checks.true(
                f"a letter that was cut after {len(self.cut)} bytes comes again", letter.startswith(self.cut)
            )
        self.model.letter(letter, self.first)
        self.at, self.first, self.cut = self.at + len(letter), False, b""

    def end_run(self) -> bytes:
        """Reads to the end of a run that was ended, and gives what stands after its last letter. The file is put away,
        as whoever starts a daemon has to: one that has something is refused."""
        rest = self.read()
        checks = self.model.checks
        if rest and rest != b"QUIT\r\n":
            checks.true(
                f"{rest[:100]} is a front of a letter",
                rest.startswith(b"MAIL FROM:<>\r\n"[: len(rest)]) if self.greeted else GREETING.startswith(rest),
            )
            self.model.cut += 1
            self.cut = rest if self.greeted else b""
        self.path.unlink(missing_ok=True)
        self.at, self.greeted, self.first = 0, False, True
        return rest

    def check_end(self, notes: bytes):
        """An orderly end finished the outbox, with all letters."""
        self.model.checks.equal("the outbox ends", self.end_run(), b"QUIT\r\n")
        self.model.check_letters()


class Mailbox(MailServer):
    """A mail server that takes all letters of all runs, also 8bit ones, and replies a moment later: a run may be killed
    before."""

    def __init__(self, folder: Path, model: Model, dice: random.Random):
        self.folder, self.model, self.dice, self.first = folder, model, dice, True
        super().__init__()
        self.options = ("--hand-in", self.address)

    def say(self, stream, reply: bytes):
        """A reply; the one to EHLO offers 8BITMIME."""
        is_hello = reply == b"250 ok" and self.commands[-1].upper().startswith(b"EHLO")
        super().say(stream, b"250-test\r\n250 8BITMIME" if is_hello else reply)

    def message(self, stream) -> bytes:
        """A message in the form of an outbox."""
        lines = [b"".join(it + b"\r\n" for it in self.commands[-3:])]
        while lines[-1] != b".\r\n":
            lines.append(stream.readline())
            if not lines[-1].endswith(b"\r\n"):
                raise EOFError
        self.model.letter(b"".join(lines), self.first)
        self.first = False
        time.sleep(self.dice.random() * LONGEST_REPLY)
        return b""

    def read(self) -> bytes:
        """Waits until all letters of a run have come and are marked."""
        until(lambda: b"unmarked " not in run(["journal", self.folder]).outbox)
        return b""

    def end_run(self):
        """Waits until all that a run sent was read: connections are served one after another."""
        host, port = self.address.split(":")
        with socket.create_connection((host, int(port))) as it:
            heard(it, 1)
        self.first = True

    def check_end(self, notes: bytes):
        """After an orderly end some letters may wait, which the next run submits."""
        self.end_run()


class Client:
    """A client that keeps to the rules, but leaves now and then: its keys are its own."""

    def __init__(self, place: int, model: Model, dice: random.Random, lines: tuple):
        self.place, self.model, self.dice, self.lines = place, model, dice, lines
        self.made, self.open, self.closed, self.aside = 0, [], [], []

    def begin(self):
        """Takes up again what it left in a run that has ended."""
        self.open += self.aside
        self.aside = []

    def new_key(self) -> tuple:
        """A key that was never used."""
        self.made += 1
        return self.dice.choice([1, 2, 3]), b"M%dx%d" % (self.place, self.made)

    def request(self, number: int) -> bytes:
        """The frame of a request."""
        if len(self.closed) > 8:
            return frames.forget(number, *self.closed[0])
        if self.closed and self.dice.random() < 0.05:
            return self.append(number, self.dice.choice(self.closed))
        if len(self.open) < 2 or len(self.open) < 4 and self.dice.random() < 0.3:
            self.open.append(self.new_key())
            return self.append(number, self.open[-1])
        key, kind = self.dice.choice(self.open), self.dice.random()
        if kind < 0.6:
            return self.append(number, key)
        if kind > 0.95:
            return frames.discard(number, *key)
        header = b"Subject: %d\n" % number * self.dice.choice(self.lines)
        service, queue_id = key
        return flush(
            number,
            queue_id,
            service,
            return_path=b"" if kind > 0.92 else b"ann%d@example.com" % self.place,
            moment=self.dice.randrange(1 << 31),
            header=header,
        )

    def append(self, number: int, key: tuple) -> bytes:
        """The frame of an append."""
        action, status = {1: (1, b"5.1.1"), 2: (2, b"4.4.1"), 3: (3, b"2.0.0")}[key[0]]
        return frames.append(
            number,
            *key,
            b"bob%d@example.org" % self.dice.randrange(1000),
            action,
            status,
            diagnostic=b"550 no" * self.dice.choice([0, 1, 40]),
        )

    def note(self, request: Request, given: tuple):
        """Takes an answer in."""
        self.model.answered(request, given)
        key, reply = request.key, given[0]
        is_closed = reply == CLOSED or request.kind in (FLUSH, DISCARD)
        for has, wants in (
            (self.open, reply == NOT_CLOSED or request.kind == APPEND and reply != CLOSED),
            (self.closed, is_closed),
        ):
            while key in has:
                has.remove(key)
            has += [key] if wants else []
        if reply == FORGOTTEN and self.dice.random() < 0.2:
            self.open.append(key)

    def leave_open(self, requests: list):
        """Requests that nobody answered: their keys rest until the run has ended."""
        self.model.unanswered(requests)
        for key in {it.key for it in requests}:
            self.open, self.closed = [it for it in self.open if it != key], [it for it in self.closed if it != key]
            self.aside.append(key)

    def converse(self, stream: socket.socket, ends: threading.Event):
        """One connection."""
        number = 0
        for _ in range(self.dice.randrange(1, 30)):
            if ends.is_set():
                return
            made = [self.request(number + it) for it in range(self.dice.choice([1, 1, 2, 4, 8]))]
            requests, end = [decoded(it[4:]) for it in made], self.dice.random()
            if end < 0.02:
                with contextlib.suppress(OSError):
                    stream.sendall(made[0][: self.dice.randrange(1, len(made[0]))])
                return
            whole = []
            with contextlib.suppress(OSError):
                stream.sendall(b"".join(made))
                whole = answers_heard(stream, len(made)) if end > 0.04 else []
            self.model.tell(whole)
            for it, (_, _, reply, place, value) in zip(requests, map(said, whole)):
                self.model.checks.equal("an answer's number", place, number)
                self.note(it, (reply, value))
                number += 1
            if len(whole) < len(requests):
                self.leave_open(requests[len(whole) :])
                return


class Recorded(Logs):
    """The logs of one session, and its last request."""

    def __init__(self):
        super().__init__(Limits())
        self.request = None

    def apply(self, request: Request):
        self.request = request
        return super().apply(request)


class HostileClient:
    """A client that sends malformed input, on keys that are new in each session, and leaves at any time."""

    def __init__(self, place: int, model: Model, dice: random.Random):
        self.place, self.model, self.dice = place, model, dice
        self.keys = []

    def begin(self):
        """A run begins."""

    def session(self) -> tuple:
        """The bytes of a session, and the answers of the plain reading, each with its request if it has one."""
        hostile = Hostile(self.dice)
        hostile.keys = [
            (self.dice.choice([1, 2, 3]), b"HH%d" % self.place + hostile.bytes_of(LETTERS_AND_DIGITS, 16))
            for _ in range(3)
        ]
        given, logs, wanted = hostile.session(), Recorded(), []
        with contextlib.suppress(Fault):
            for it in answers(given, logs, []):
                wanted.append((answer(*it), logs.request))
                logs.request = None
        return given, wanted

    def converse(self, stream: socket.socket, ends: threading.Event):
        """One connection."""
        given, wanted = self.session()
        self.keys += {it.key for _, it in wanted if it}
        end, got = self.dice.random(), b""
        with contextlib.suppress(OSError):
            stream.sendall(given)
            if end < 0.7:
                stream.shutdown(socket.SHUT_WR)
            if end < 0.6:
                while more := stream.recv(4096):
                    got += more
            elif end > 0.9:
                stream.settimeout(0.2)  # it says nothing more, and stays for a while
                while more := stream.recv(4096):
                    got += more
        whole = whole_answers(got)
        count = len(whole)
        self.model.tell(whole)
        self.model.checks.equal(
            "answers to a hostile session", [*map(said, whole)], [said(it) for it, _ in wanted[:count]]
        )
        for it, request in wanted[:count]:
            if request:
                self.model.answered(request, said(it)[2::2])
        self.model.unanswered([it for _, it in wanted[count:] if it])

    def let_go(self, ask):
        """Closes its logs and forgets them, once their run has ended; no more of them than a table holds are so held at
        once."""
        for key in self.keys:
            for frame in (frames.discard(0, *key), frames.forget(0, *key)):
                ask(frame)
        self.keys = []


class Load:
    """A journal's folder, an outbox or a mail server, and daemons over both, one after another. The journal's file has
    `size` bytes, or is the daemon's own. A header has one of these numbers of `lines`. A sync of the outbox takes
    `slow` milliseconds more."""

    def __init__(
        self,
        checks: Checks,
        room: Path,
        dice: random.Random,
        size=0,
        hostile=HOSTILE,
        lines=(0, 0, 0, 2, 60),
        slow=0,
        submits=False,
    ):
        self.checks, self.room, self.dice, self.model = checks, room, dice, Model(checks)
        self.slow = preloading(built(room, "slow"), SLOW=room / "outbox", MILLISECONDS=slow) if slow else None
        self.folder, self.runs, self.full, self.shortened = room / "journal", 0, 0, 0
        self.folder.mkdir(mode=0o700)
        if size:
            (self.folder / "journal").write_bytes(bytes(size))
        outbox = room / "outbox"
        self.outbox = Mailbox(self.folder, self.model, dice) if submits else Outbox(outbox, self.model)
        self.clients = [Client(it, self.model, dice, lines) for it in range(CLIENTS - hostile)]
        self.hostile = [HostileClient(it, self.model, dice) for it in range(hostile)]

    def daemon(self, **how) -> Daemon:
        """A daemon over both."""
        self.runs += 1
        options = ("--journal", self.folder, *self.outbox.options)
        return Daemon(16, 1_000_000, options=options, **{"env": self.slow, **how})

    def serves(self, daemon: Daemon, forgets: bool = False) -> bool:
        """Waits until a daemon serves: by then all letters of earlier runs stand in the outbox, or come to the mail
        server soon, and the journal has all that was answered. False where it ended before."""
        try:
            with daemon.connect() as it:
                it.sendall(frames.forget(0, 1, b"NEVER"))
                if heard(it, 14) != answer(0, NOT_CLOSED, 0):
                    return False
        except OSError:
            return False
        self.model.checks.equal("after the first letters", self.outbox.read(), b"")
        self.model.check_letters()
        self.check_journal(forgets)
        return True

    def check_journal(self, forgets: bool):
        """Holds what the journal keeps against the model."""
        kept = journal.requests((self.folder / "journal").read_bytes())
        self.model.check_logs("kept", journal.replayed(kept, Limits()).held, forgets)

    def clean(self, daemon: Daemon):
        """Lets the keys of the hostile clients go."""
        with daemon.connect() as stream:
            place = 0

            def ask(frame: bytes):
                nonlocal place
                request = decoded(frame[4:])
                if request.key not in self.model.worlds:
                    return
                numbered = (
                    frames.discard(place, *request.key)
                    if request.kind == DISCARD
                    else frames.forget(place, *request.key)
                )
                stream.sendall(numbered)
                got = answers_heard(stream, 1)
                if got:
                    self.model.answered(request, said(got[0])[2::2])
                else:
                    self.model.unanswered([request])
                place += 1

            with contextlib.suppress(OSError):
                for it in self.hostile:
                    it.let_go(ask)

    def work(self, daemon: Daemon, seconds: float, end):
        """The clients ask for so long, and until the daemon was ended. Counts how often the journal is seen put away
        for a shorter one."""
        sys.setswitchinterval(SWITCH)
        over = threading.Event()
        watching = threading.Thread(target=self.watch, args=(over,))
        watching.start()
        ends = threading.Event()
        threads = [threading.Thread(target=self.talk, args=(it, daemon, ends)) for it in self.clients + self.hostile]
        for it in threads:
            it.start()
        time.sleep(seconds)
        end(ends)
        for it in threads:
            it.join()
        over.set()
        watching.join()

    def watch(self, over: threading.Event):
        """Looks at which file the journal is, until all is over."""
        file = self.folder / "journal"
        before = file.stat().st_ino
        while not over.wait(LOOK):
            now = file.stat().st_ino
            self.shortened += now != before
            before = now

    def wait_shortened(self, ends: threading.Event):
        """Waits until the journal was put away a few times more."""
        wanted, began = self.shortened + PUT_AWAY, time.monotonic()
        while self.shortened < wanted and time.monotonic() - began < PATIENCE:
            time.sleep(LOOK)
        self.checks.true(
            f"a journal that gets full is put away {PUT_AWAY} times in one run, {self.shortened + PUT_AWAY - wanted}",
            self.shortened >= wanted,
        )
        ends.set()

    def talk(self, client, daemon: Daemon, ends: threading.Event):
        """One connection of a client after another."""
        client.begin()
        while not ends.is_set():
            try:
                stream = daemon.connect()
            except OSError:
                return
            with stream:
                client.converse(stream, ends)

    def flush_all(self, daemon: Daemon):
        """Flushes each log that is open."""
        with daemon.connect() as stream:
            keys = sorted(key for key, worlds in self.model.worlds.items() if any(log for log, _ in worlds))
            for place, (service, queue_id) in enumerate(keys):
                frame = flush(place, queue_id, service)
                stream.sendall(frame)
                got = answers_heard(stream, 1)
                self.checks.equal("a flush is answered", len(got), 1)
                self.model.answered(decoded(frame[4:]), said(got[0])[2::2])

    def is_ended_by(self, ran: Ran, status: int) -> bool:
        """Whether a run was ended by this status, or by a journal that was full: counts these."""
        is_full = ran.status == 1 and ran.notes.startswith(fault_line(45))
        self.full += is_full
        return is_full or ran.status == status

    def ends_well(self, seconds: float, is_small: bool = False):
        """A load of so many seconds without a kill, or until a small journal got full a few times, and a clean end;
        then a last start, which still has all that was open."""
        with self.daemon() as daemon:
            self.checks.true("the run after the last kill serves", self.serves(daemon))
            self.work(daemon, seconds, self.wait_shortened if is_small else threading.Event.set)
            self.stop(daemon)
        with self.daemon() as daemon:
            self.checks.true("the last run serves", self.serves(daemon, forgets=True))
            self.flush_all(daemon)
            self.outbox.read()
            self.stop(daemon)
        self.model.check_letters()

    def stop(self, daemon: Daemon):
        """Ends a daemon in order: its status, the end of its outbox, and its open logs. One that a full journal ended
        before names no logs, and the next run writes what its outbox lacks."""
        stopped = run(["stop", daemon.path]).status
        ended = daemon.end()
        self.checks.true(f"a clean end, {ended.status}", self.is_ended_by(ended, 0))
        self.checks.true(f"noticed stop, {stopped}", stopped == 0 or ended.status != 0)
        if ended.status != 0:
            self.outbox.end_run()
            return
        self.outbox.check_end(ended.notes)
        self.model.check_open_lines(ended.notes)

    def check_full(self, what: str):
        """A journal that got full ended no run."""
        self.checks.equal(f"{what}: runs that a full journal ended", self.full, 0)

    def told(self, what: str):
        """Prints what came of it."""
        it = self.model
        print(
            f"  {what}: {self.runs} runs, {it.asked} requests answered, {len(it.sums)} notices, "
            f"{it.repeats} of them twice, {it.cut} cut, "
            f"a full journal put away {self.shortened} times, {self.full} runs ended by one"
        )
