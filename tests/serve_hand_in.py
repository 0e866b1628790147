"""Runs `noticed serve --hand-in` beside small mail servers that take, refuse, put off, hang up, say too much or aren't
there: each sealed log's notice reaches the server once, byte for byte as an outbox would have it; what is refused for
good is kept beside the journal; no answer waits for the server; what waits outlives the daemon's end and its kills."""
import contextlib
import random
import socket
import tempfile
import time
from collections import Counter
from pathlib import Path

from tests.support.daemon_and_clients import Daemon, asked, flush, frames
from tests.support.faults import fault_line
from tests.support.mail_servers import MailServer, StrictServer, comes_to, messages_of, outbox_for
from tests.support.running import HOST, Checks, run

AGENTS, USES = 2, 1000
SOON = 2.0  # seconds that nothing takes which waits for no server
SIZE = 1 << 20  # bytes of a journal here
KILLS = 12


def sender(at: int) -> bytes:
    """The return path of a message."""
    return b"sender%d@example.com" % at


def wanted(many: int) -> list:
    """What a server must be given of so many messages that were sealed one after another."""
    senders = [sender(at) for at in range(many)]
    return list(zip(senders, messages_of(outbox_for(senders))))


def seal(client: socket.socket, number: int, at: int) -> bool:
    """Logs a message's outcome and has its notice made, by frames from a number on. Whether both were answered so."""
    name = b"K%d" % at
    given = frames.append(number, 1, name, b"bob@example.org", 1, b"5.1.1")
    given += flush(number + 1, name, return_path=sender(at), header=b".dots\n..\n.\n")
    answers = asked(client, given, 2)
    return (answers[5:6], answers[19:20]) == (b"\1", b"\7")


class Journal:
    """A journal's folder, and daemons over it that submit to one address."""

    def __init__(self, room: str, address: str):
        self.folder, self.address = Path(room) / "journal", address
        self.folder.mkdir()
        (self.folder / "journal").write_bytes(bytes(SIZE))

    def daemon(self, *options: str) -> Daemon:
        """A daemon over the journal."""
        words = ("--journal", str(self.folder), "--hand-in", self.address, *options)
        return Daemon(AGENTS, USES, options=words)

    def refused(self) -> bytes:
        """What was refused for good."""
        path = self.folder / "refused"
        return path.read_bytes() if path.exists() else b""

    def count(self, name: bytes) -> int:
        """The number that a line of `noticed journal` has, or how many lines begin with its name."""
        lines = [it for it in run(["journal", str(self.folder)]).outbox.splitlines() if it.startswith(name + b" ")]
        return int(lines[0].split()[1]) if name in (b"marked", b"sealed") else len(lines)

    def is_settled(self, many: int) -> bool:
        """Waits until so many notices are marked."""
        return comes_to(lambda: self.count(b"marked"), many, pause=0.1)


@contextlib.contextmanager
def journal_for(address: str):
    """A journal in a folder of its own."""
    with tempfile.TemporaryDirectory(prefix="noticed-") as room:
        yield Journal(room, address)


def sealed(checks: Checks, about: str, daemon: Daemon, turns):
    """Has these messages' notices made. No answer takes long, once the daemon serves."""
    with daemon.connect() as first:
        asked(first, frames.forget(0, 1, b"NONE"))
    with daemon.connect() as client:
        for place, at in enumerate(turns):
            began = time.monotonic()
            checks.true(f"{about}: message {at} is sealed", seal(client, 2 * place, at))
            checks.true(f"{about}: its answers don't wait", time.monotonic() - began < SOON)


def check_taken(checks: Checks):
    """All are taken while the daemon runs, in order, over one session, and marked."""
    server = MailServer()
    with journal_for(server.address) as journal, journal.daemon("--log") as daemon:
        sealed(checks, "taken", daemon, range(5))
        checks.true("taken: all", comes_to(lambda: len(server.taken), 5))
        checks.equal("taken: each, in order", server.taken, wanted(5))
        checks.true("taken: marked", journal.is_settled(5))
        greetings = [it for it in server.commands if it.upper().startswith(b"EHLO")]
        checks.equal("taken: one session", greetings, [b"EHLO " + HOST.encode()])
        checks.true("taken: it is ended with QUIT", comes_to(lambda: server.commands.count(b"QUIT"), 1))
        sealed(checks, "taken later", daemon, range(5, 7))
        checks.true("taken later: all", comes_to(lambda: len(server.taken), 7))
        ran = stopped(daemon)
    checks.equal("taken: status", ran.status, 0)
    checks.equal("taken: no outbox", ran.outbox, b"")
    lines = [it for it in ran.notes.splitlines() if it.startswith(b"notice ")]
    named = [b"notice B.K%d.%d to <%s> accepted: 250 taken" % (at, at, sender(at)) for at in range(7)]
    checks.equal("taken: lines", lines, named)


def stopped(daemon: Daemon):
    """Ends a daemon in order."""
    run(["stop", daemon.path])
    return daemon.end()


def check_refused(checks: Checks):
    """One that is refused for good is kept with the reply, and is settled; the others are taken."""
    server = MailServer(refused={sender(1)})
    with journal_for(server.address) as journal, journal.daemon("--log") as daemon:
        sealed(checks, "refused", daemon, range(3))
        checks.true("refused: settled", journal.is_settled(3))
        checks.equal("refused: the others", server.taken, wanted(3)[::2])
        checks.equal("refused: tried once", server.tries[sender(1)], 1)
        outbox = outbox_for([sender(at) for at in range(3)])
        text = outbox.split(b"MAIL FROM:<>\r\n")[2]
        kept = b"NOOP 550 5.1.1 no such user\r\nMAIL FROM:<>\r\n" + text
        checks.equal("refused: kept", journal.refused(), kept)
        mode = (journal.folder / "refused").stat().st_mode
        checks.equal("refused: for its owner alone", mode & 0o777, 0o600)
        lines = run(["status", daemon.path]).outbox.splitlines()
        for line in (b"notices_accepted 2", b"notices_refused 1", b"notices_waiting 0"):
            checks.true(f"refused: the status has {line}", line in lines)
        metrics = run(["status", "--prometheus", daemon.path]).outbox.splitlines()
        for name, count in ((b"accepted_total", 2), (b"refused_total", 1), (b"waiting", 0)):
            checks.true(f"refused: the metrics have {name}", b"noticed_notices_%s %d" % (name, count) in metrics)
        ran = stopped(daemon)
        again = MailServer()
        resent = run(["hand-in", again.address], f"EHLO {HOST}\r\n".encode() + kept + b"QUIT\r\n")
        checks.equal("refused: submitted again by hand", (resent.status, again.taken), (0, wanted(3)[1:2]))
    line = b"notice B.K1.1 to <%s> refused: 550 5.1.1 no such user" % sender(1)
    checks.true("refused: its line", line in ran.notes.splitlines())


def check_put_off(checks: Checks):
    """What is put off is tried again, and later ones don't wait for it."""
    server = MailServer(greylists=1)
    with journal_for(server.address) as journal, journal.daemon() as daemon:
        sealed(checks, "put off", daemon, range(3))
        checks.true("put off: all come", comes_to(lambda: len(server.taken), 3))
        checks.equal("put off: each", sorted(server.taken), wanted(3))
        checks.true("put off: marked", journal.is_settled(3))
        checks.true("put off: two tries each", all(server.tries[sender(at)] == 2 for at in range(3)))


def check_many_put_off(checks: Checks):
    """However many are put off, those after them are taken, also if the server always hangs up at one."""
    many = 130
    slow = {sender(at) for at in range(120)}
    server = StrictServer()
    server.hangs_up_at = sender(120)
    server.refuses = slow
    with journal_for(server.address) as journal, journal.daemon() as daemon:
        sealed(checks, "many are put off", daemon, range(many))
        checks.true("many are put off: the others come", comes_to(lambda: len(server.taken), many - 121))
        checks.equal("many are put off: what came", server.taken, wanted(many)[121:])
        checks.equal("many are put off: none is marked", journal.count(b"marked"), 0)
        server.refuses, server.hangs_up_at = (), b""
        checks.true("many are put off: at last all come", journal.is_settled(many))
        checks.equal("many are put off: each once", sorted(server.taken), sorted(wanted(many)))


def check_behind_one(checks: Checks):
    """What is taken behind one that is put off isn't submitted again, however often the daemon starts."""
    many = 30
    server = StrictServer()
    server.refuses = {sender(0)}
    with journal_for(server.address) as journal:
        with journal.daemon() as daemon:
            sealed(checks, "behind one", daemon, range(many))
            checks.true("behind one: the others come", comes_to(lambda: len(server.taken), many - 1))
            stopped(daemon)
        for start in range(3):
            with journal.daemon() as daemon:
                tries = server.commands.count(b"RCPT TO:<%s>" % sender(0))
                tried = lambda: int(server.commands.count(b"RCPT TO:<%s>" % sender(0)) > tries)
                checks.true(f"behind one, start {start}: it is tried again", comes_to(tried, 1))
                stopped(daemon)
            checks.equal(f"behind one, start {start}: nothing comes twice", server.taken, wanted(many)[1:])
        checks.equal("behind one: it alone waits", (journal.count(b"marked"), journal.count(b"unmarked")), (0, 1))
        server.refuses = ()
        with journal.daemon() as daemon:
            checks.true("behind one: at last it comes", journal.is_settled(many))
            stopped(daemon)
    checks.equal("behind one: each once", server.taken, [*wanted(many)[1:], wanted(many)[0]])


def check_strict(checks: Checks):
    """A server gets no command that it need not get."""
    server = StrictServer()
    with journal_for(server.address) as journal, journal.daemon() as daemon:
        sealed(checks, "a strict server", daemon, range(3))
        checks.true("a strict server: settled", journal.is_settled(3))
        stopped(daemon)
    checks.true("a strict server: its session is over", server.is_idle())
    words = [it.split()[0] for it in server.commands]
    once = [b"EHLO", *[b"MAIL", b"RCPT", b"DATA"] * 3, b"QUIT"]
    # (a session that nobody used for a while is ended)
    checks.equal("a strict server: commands", [it for it in words if it not in (b"EHLO", b"QUIT")], once[1:-1])
    checks.equal("a strict server: sessions", words.count(b"QUIT"), server.connections)


def check_given_up(checks: Checks):
    """What is put off for too long is kept as one that is refused."""
    server = MailServer(greylists=100)
    with journal_for(server.address) as journal, journal.daemon("--give-up", "2") as daemon:
        sealed(checks, "given up", daemon, range(1))
        checks.true("given up: settled", journal.is_settled(1))
        checks.equal("given up: not taken", server.taken, [])
        checks.true("given up: kept", journal.refused().startswith(b"NOOP 450 4.2.0 try again\r\nMAIL FROM:<>\r\n"))


def free_port() -> int:
    """A port of loopback that nobody has."""
    with socket.create_server(("127.0.0.1", 0)) as it:
        return it.getsockname()[1]


def check_away(checks: Checks):
    """Without a server nothing waits for it, not even a daemon's end; the next daemon goes on, and gets all in
    order."""
    port = free_port()
    with journal_for(f"127.0.0.1:{port}") as journal:
        with journal.daemon("--log") as daemon:
            sealed(checks, "away", daemon, range(40))
            ran = stopped(daemon)
        checks.equal("away: status", ran.status, 0)
        checks.true("away: its line", b"notices waiting for the mail server: 40" in ran.notes.splitlines())
        checks.equal("away: none is marked", (journal.count(b"marked"), journal.count(b"unmarked")), (0, 40))
        with journal.daemon() as daemon:
            sealed(checks, "away again", daemon, range(40, 42))
            daemon.running.kill()
        server = MailServer(port=port)
        with journal.daemon() as daemon:
            sealed(checks, "there", daemon, range(42, 44))
            checks.true("there: all come", comes_to(lambda: len(server.taken), 44))
            checks.equal("there: each once, in order", server.taken, wanted(44))
            checks.true("there: marked", journal.is_settled(44))
            stopped(daemon)


def check_gone(checks: Checks):
    """A server that took a notice and is gone: the line of the next says why, and has no reply of before."""
    server = MailServer(hangs_up_after=1)
    with journal_for(server.address) as journal, journal.daemon("--log") as daemon:
        sealed(checks, "gone", daemon, range(1))
        checks.true("gone: the first is settled", journal.is_settled(1))
        server.listener.shutdown(socket.SHUT_RDWR)
        server.listener.close()
        sealed(checks, "gone", daemon, range(1, 2))
        line = b"notice B.K1.1 to <%s> not taken now: " % sender(1)
        checks.true("gone: its line", comes_to(lambda: int(line in daemon.said(0)), 1))
        checks.true("gone: why", line + b"Connection refused (os error 111)\n" in daemon.said(0))


class LateServer(MailServer):
    """A server that greets a second late, in pieces, and says its replies in pieces."""

    def serve(self, stream):
        time.sleep(1)
        super().serve(stream)

    @staticmethod
    def say(stream, reply: bytes):
        for it in (reply[:3], reply[3:], b"\r\n"):
            stream.write(it)
            stream.flush()


class HalfServer(StrictServer):
    """A server that says half a reply to MAIL and hangs up, so many times."""

    halves = 2

    def answer(self, stream, word: str, code: bytes):
        if word == "MAIL" and self.halves:
            self.halves -= 1
            stream.write(b"25")
            stream.flush()
            raise EOFError
        super().answer(stream, word, code)


class TalkativeServer(StrictServer):
    """A server that says a reply too many once it took a message: the session isn't used again."""

    def answer(self, stream, word: str, code: bytes):
        super().answer(stream, word, code)
        if word == "end":
            self.say(stream, b"550 what")


def check_misbehaving(checks: Checks):
    """Servers that close, hang up, greet late, say half a reply or a reply too many get each notice once."""
    servers = {
        "closes once at EHLO": StrictServer(closes=["EHLO"]),
        "closes once at MAIL": StrictServer(closes=["MAIL"]),
        "hangs up once at MAIL": StrictServer(hangs_up=["MAIL"]),
        "hangs up once at RCPT": StrictServer(hangs_up=["RCPT"]),
        "hangs up once at DATA": StrictServer(hangs_up=["DATA"]),
        "closes once at a message's end": StrictServer(closes=["end"]),
        "hangs up once after a message's end": MailServer(lost_replies=1),
        "closes after each": MailServer(closes_after=1),
        "hangs up after each": MailServer(hangs_up_after=1),
        "greets late, in pieces": LateServer(),
        "half a reply": HalfServer(),
        "a reply too many": TalkativeServer(),
    }
    for about, server in servers.items():
        with journal_for(server.address) as journal, journal.daemon() as daemon:
            sealed(checks, about, daemon, range(3))
            checks.true(f"{about}: all are settled", journal.is_settled(3))
            taken = [it for it in dict.fromkeys(server.taken)] if "message's end" in about else server.taken
            checks.equal(f"{about}: each", sorted(taken), wanted(3))
            checks.equal(f"{about}: none is refused", journal.refused(), b"")


def check_killed(checks: Checks):
    """Daemons that are killed at any moment, under a server that puts some off: none is lost, and what comes twice is
    the same."""
    dice = random.Random(time.time_ns())
    server, turns = MailServer(), 0
    tries = Counter()

    def reply(path: bytes) -> bytes:
        tries[path] += 1
        return b"450 4.2.0 try again" if tries[path] % 3 == 1 and path[6:7] == b"3" else b"250 ok"

    server.reply_to = reply
    with journal_for(server.address) as journal:
        for _ in range(KILLS):
            with journal.daemon() as daemon:
                with daemon.connect() as client:
                    for place in range(20):
                        checks.true("killed: sealed", seal(client, 2 * place, turns))
                        turns += 1
                time.sleep(dice.random() * 0.2)
                daemon.running.kill()
        with journal.daemon():
            checks.true("killed: all are settled", journal.is_settled(turns))
    counted, all_of_them = Counter(server.taken), wanted(turns)
    checks.equal("killed: missing", [it for it in all_of_them if it not in counted], [])
    checks.equal("killed: not sealed, or with other bytes", [it for it in counted if it not in all_of_them], [])
    twice = sum(counted.values()) - len(counted)
    print(f"  {KILLS} kills, {turns} notices, {twice} taken twice")


def check_arguments(checks: Checks):
    """It wants a journal, and takes the place of an outbox."""
    words = ["serve", "--hand-in", "127.0.0.1:25", "/nowhere/socket", HOST, "1", "1"]
    checks.equal("without a journal", run(words).status, 2)
    checks.equal("beside an outbox", run([*words[:1], "--journal", "/nowhere", "--outbox", "o", *words[1:]]).status, 2)
    checks.equal("--give-up alone", run(["serve", "--give-up", "1", *words[3:]]).status, 2)
    gone = run([*words[:1], "--journal", "/nowhere", *words[1:]])
    checks.equal("a folder that isn't there", (gone.status, gone.notes.splitlines(True)[0]), (1, fault_line(72)))


def main():
    checks = Checks("serve_hand_in: a daemon's notices reach a mail server, or are kept")
    for check in (
        check_behind_one,
        check_arguments,
        check_taken,
        check_refused,
        check_put_off,
        check_many_put_off,
        check_strict,
        check_given_up,
        check_away,
        check_gone,
        check_misbehaving,
        check_killed,
    ):
        check(checks)
    checks.done()


if __name__ == "__main__":
    main()
