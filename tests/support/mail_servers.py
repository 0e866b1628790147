"""What the scripts share that give notices to a mail server: outboxes, and small servers that misbehave as they are
told."""
import contextlib
import socket
import threading
import time
from collections import Counter

from tests.support.daemon_and_clients import flush, frames
from tests.support.running import batch

PATIENCE = 120  # seconds that anything may take that is waited for, on a machine that is slow or busy


def outbox_of(messages: int, names: bytes = b"K") -> bytes:
    """An outbox of so many notices, each for a sender of its own; returned headers have lines that begin with a dot."""
    return outbox_for([b"sender%d@example.com" % at for at in range(messages)], names)


def outbox_for(senders: list, names: bytes = b"K") -> bytes:
    """An outbox of a notice for each of these senders, of messages whose queue ids begin so."""
    made = b""
    for at, sender in enumerate(senders):
        made += frames.append(2 * at, 1, names + b"%d" % at, b"bob@example.org", 1, b"5.1.1")
        made += flush(2 * at + 1, names + b"%d" % at, return_path=sender, header=b".dots\n..\n.\n")
    return batch(made).outbox


def messages_of(outbox: bytes) -> list:
    """The messages of an outbox as a receiver has them (RFC 5321 section 4.5.2)."""
    parts = outbox.split(b"\r\nDATA\r\n")[1:]
    lines = [part[: part.index(b"\r\n.\r\n")].split(b"\r\n") for part in parts]
    return [b"".join(line.removeprefix(b".") + b"\r\n" for line in it) for it in lines]


class MailServer:
    """A mail server that takes connections until it is closed: it refuses each recipient of a set, or each one's first
    tries (450, or `put_off`), hangs up after so many messages, in place of its first replies to them or not, or gives up the
    connection (421), and keeps what it was told and given."""

    put_off = b"450 4.2.0 try again"

    def __init__(self, refused=(), hangs_up_after=None, closes_after=None, greylists=0, lost_replies=0, port=0):
        self.refused, self.hangs_up_after, self.closes_after = refused, hangs_up_after, closes_after
        self.lost_replies = lost_replies
        self.greylists, self.tries = greylists, Counter()
        self.taken, self.commands, self.serving = [], [], 0
        self.listener = socket.create_server(("127.0.0.1", port))
        self.address = "127.0.0.1:%d" % self.listener.getsockname()[1]
        threading.Thread(target=self.accept, daemon=True).start()

    def accept(self):
        while True:
            try:
                connection, _ = self.listener.accept()
            except OSError:
                return
            self.serving = 1
            with contextlib.suppress(OSError, EOFError), connection, connection.makefile("rwb") as stream:
                self.serve(stream)
            self.serving = 0

    def is_idle(self) -> bool:
        """Whether the connection that was served is over: a client that leaves doesn't wait until its QUIT is read."""
        return comes_to(lambda: 1 - self.serving, 1)

    def serve(self, stream):
        """One connection: a reply to each command before the next is read."""
        recipient, given = b"", 0
        self.say(stream, b"220 test")
        while line := stream.readline():
            command = line.strip()
            self.commands.append(command)
            if given == self.closes_after:
                self.say(stream, b"421 closing")
                return
            if command.upper().startswith(b"RCPT TO:<"):
                recipient = command[9:-1]
                self.say(stream, self.reply_to(recipient))
            elif command.upper() == b"DATA":
                self.say(stream, b"354 go on")
                self.taken.append((recipient, self.message(stream)))
                given += 1
                if len(self.taken) <= self.lost_replies:
                    return
                self.say(stream, b"250 taken")
                if given == self.hangs_up_after:
                    return
            else:
                self.say(stream, b"221 bye" if command.upper() == b"QUIT" else b"250 ok")

    def reply_to(self, recipient: bytes) -> bytes:
        """The reply to RCPT."""
        self.tries[recipient] += 1
        if recipient in self.refused:
            return b"550 5.1.1 no such user"
        return self.put_off if self.tries[recipient] <= self.greylists else b"250 ok"

    @staticmethod
    def message(stream) -> bytes:
        """A message up to its line of one dot; EOFError where the client leaves before."""
        lines = []
        while (line := stream.readline()) != b".\r\n":
            if not line:
                raise EOFError
            lines.append(line.removeprefix(b"."))
        return b"".join(lines)

    def say(self, stream, reply: bytes):
        self.write(stream, reply)

    @staticmethod
    def write(stream, reply: bytes):
        stream.write(reply + b"\r\n")
        stream.flush()


class Recorded:
    """A stream, and the lines that were read from it."""

    def __init__(self, stream, lines: list):
        self.stream, self.lines = stream, lines

    def readline(self) -> bytes:
        self.lines.append(self.stream.readline())
        return self.lines[-1]

    def write(self, text: bytes):
        self.stream.write(text)

    def flush(self):
        self.stream.flush()


class OfferingServer(MailServer):
    """A mail server that offers these extensions in its reply to EHLO, and keeps each line that it was sent."""

    def __init__(self, offers=(), **rest):
        self.offers, self.lines = offers, []
        super().__init__(**rest)

    def serve(self, stream):
        super().serve(Recorded(stream, self.lines))

    def say(self, stream, reply: bytes):
        """A reply; the one to EHLO has a line for each extension."""
        if self.commands and self.commands[-1].upper().startswith(b"EHLO") and self.offers:
            reply = b"250-test\r\n" + b"".join(b"250-%s\r\n" % it for it in self.offers[:-1]) + b"250 " + self.offers[-1]
        MailServer.write(stream, reply)

    def sent(self) -> bytes:
        """All that was sent, once the connection is over."""
        return b"".join(self.lines) if self.is_idle() else b""


class StrictServer(MailServer):
    """A mail server that knows EHLO, MAIL, RCPT, DATA and QUIT alone: at any other command it hangs up. Each of its
    replies has two lines. So many times it closes (421), or hangs up (no reply), in place of its reply to a word; `end`
    is that of a message's end. At one recipient it always hangs up, and it puts off those of a set."""

    hangs_up_at, refuses = b"", ()

    def __init__(self, closes=(), hangs_up=(), port=0):
        self.closes, self.hangs_up, self.connections = Counter(closes), Counter(hangs_up), 0
        super().__init__(port=port)

    def serve(self, stream):
        self.connections += 1
        self.say(stream, b"220 test")
        while line := stream.readline():
            self.commands.append(line.strip())
            self.one(stream, line.strip())

    def one(self, stream, command: bytes):
        """A command and its reply, and after DATA the message."""
        word = command.split()[0].decode().upper()
        if word not in ("EHLO", "MAIL", "RCPT", "DATA", "QUIT"):
            self.say(stream, b"500 what")
            raise EOFError
        if word == "RCPT":
            self.recipient = command[9:-1]
            if self.recipient == self.hangs_up_at:
                raise EOFError
            if self.recipient in self.refuses:
                self.say(stream, b"450 4.2.0 try again")
                return
        self.answer(stream, word, {"DATA": b"354", "QUIT": b"221"}.get(word, b"250"))
        if word == "DATA":
            self.given = (self.recipient, self.message(stream))
            self.answer(stream, "end", b"250")

    def answer(self, stream, word: str, code: bytes):
        """A reply, unless the connection ends here. What was given is taken before its reply, after which a client looks."""
        for ends, reply in ((self.closes, b"421-bye\r\n421 now"), (self.hangs_up, b"")):
            if ends[word] > 0:
                ends[word] -= 1
                if reply:
                    self.say(stream, reply)
                raise EOFError
        if word == "end":
            self.taken.append(self.given)
        self.say(stream, code + b"-more\r\n" + code + b" ok")


def comes_to(count, wanted: int, patience: float = PATIENCE, pause: float = 0.01) -> bool:
    """Whether a count comes to a number in time. There is a pause between two looks."""
    began = time.monotonic()
    while time.monotonic() - began < patience:
        if (now := count()) >= wanted:
            return now == wanted
        time.sleep(pause)
    return False
