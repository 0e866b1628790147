"""What the script of `noticed postfix` shares: a queue folder as Postfix has it, with messages that Postfix wrote; the
program that serves it; its clients, as Postfix's programs are; a mail server that takes the notices; and one of
Postfix's own services."""
import contextlib
import os
import re
import signal
import socket
import subprocess
import tempfile
import threading
from pathlib import Path

from tests.support.daemon_and_clients import PATIENCE, is_listened_on, until
from tests.support.running import HOST, ROOT, program

FILES = ROOT / "tests/postfix/files"
SERVICES = ("bounce", "defer", "trace")
ANNOUNCEMENT = b"protocol\0delivery_status_protocol\0\0"
FAILED = 4294967295  # -1, as Postfix's programs send it
SECONDS_FOR_LINE = 5  # at most, until a line is written about what was answered


# ---- requests


def listed(**attributes) -> bytes:
    """A list of attributes, which a 0 ends."""
    return b"".join(name.encode() + b"\0" + str(value).encode() + b"\0" for name, value in attributes.items()) + b"\0"


def notice(
    kind: int,
    message: str,
    flags: int = 0,
    sender: str = "ann@example.com",
    queue: str = "deferred",
    options: tuple[str, int] = ("smtputf8", 0),
    **more,
) -> bytes:
    """A request for a notice: 1 flush, 2 warn, 5 trace. The options to send by have a name and a value."""
    words = {
        "flags": flags,
        "queue_name": queue,
        "queue_id": message,
        "encoding": "",
        options[0]: options[1],
        "sender": sender,
        "envelope_id": "",
        "ret_flags": 0,
    }
    return listed(nrequest=kind, **words, **more)


def reported(
    recipient: str = "no.bob@example.org", offset: int = 0, text: str = "550 5.1.1 no such user", **more
) -> dict:
    """What a request says of a recipient that was refused, or what else the report says."""
    who = {
        "original_recipient": recipient,
        "recipient": recipient,
        "offset": offset,
        "dsn_orig_rcpt": "",
        "notify_flags": 0,
    }
    what = {
        "status": "5.1.1",
        "diag_type": "smtp",
        "diag_text": text,
        "mta_type": "dns",
        "mta_mname": "mx.example.org",
        "action": "failed",
        "reason": f"it said: {text}",
    }
    return who | what | more


def append(message: str, recipient: str = "no.bob@example.org", flags: int = 0, **more) -> bytes:
    """A request to log that a recipient was refused, or what else the report says."""
    return listed(nrequest=0, flags=flags, queue_id=message, **reported(recipient, **more))


# ---- the mail server


class MailServer:
    """A mail server on loopback, or at a socket's path, that takes notices, and says at each step what `replies` has
    for it, 0 for nothing and a close. What `waits` has for a step is called before the reply. It notes what was said in
    each session, and each message that it took.
    """

    GOOD = {
        "connect": b"220 mx.example.net ESMTP",
        "EHLO": b"250 mx.example.net",
        "MAIL": b"250 ok",
        "RCPT": b"250 ok",
        "DATA": b"354 go on",
        "QUIT": b"221 bye",
    }

    def __init__(self, path: str = ""):
        self.replies, self.waits, self.taken, self.said, self.count, self.peers = {}, {}, [], [], 0, []
        self.lock = threading.Lock()
        if path:
            self.listening, self.address = socket.socket(socket.AF_UNIX), path
            self.listening.bind(path)
            self.listening.listen(200)
        else:
            self.listening = socket.create_server(("127.0.0.1", 0), backlog=200)
            self.address = "127.0.0.1:%d" % self.listening.getsockname()[1]
        threading.Thread(target=self.accept, daemon=True).start()

    def accept(self):
        with contextlib.suppress(OSError):
            while True:
                peer = self.listening.accept()[0]
                threading.Thread(target=self.serve, args=(peer,), daemon=True).start()

    def reply(self, peer, step: str, usual: bytes) -> bool:
        """Says the reply of a step, and whether the connection goes on."""
        if step in self.waits:
            self.waits[step]()
        text = self.replies.get(step, usual)
        if text:
            peer.sendall(text + b"\r\n")
        return bool(text)

    def serve(self, peer):
        with contextlib.suppress(OSError), peer, peer.makefile("rb") as lines:
            said = []
            with self.lock:
                self.said.append(said)
                self.peers.append(peer)
            going = self.reply(peer, "connect", self.GOOD["connect"])
            while going and (line := lines.readline()):
                said.append(line)
                step = line[:4].decode().upper().strip()
                going = self.reply(peer, step, self.GOOD.get(step, b"500 what"))
                if step == "DATA" and self.replies.get("DATA", b"354").startswith(b"354") and going:
                    going = self.take(peer, said, lines)

    def take(self, peer, said: list, lines) -> bool:
        """Takes a message up to its dot."""
        text = b""
        while (line := lines.readline()) not in (b".\r\n", b""):
            text += line[1:] if line.startswith(b".") else line
        if not line:
            return False
        with self.lock:
            self.count += 1
            name = b"NEW%d" % self.count
            # before the reply: once it is heard all is done
            if self.replies.get("message", b"250").startswith(b"250"):
                self.taken.append((said[-3], said[-2], text))
        return self.reply(peer, "message", b"250 2.0.0 Ok: queued as " + name)

    def hang_up(self):
        """Ends all sessions."""
        with self.lock:
            for peer in self.peers:
                with contextlib.suppress(OSError):
                    peer.shutdown(socket.SHUT_RDWR)

    def close(self):
        self.listening.close()


class OwnService:
    """One of Postfix's own services in the queue folder: it keeps what it is asked, and answers a status."""

    def __init__(
        self, folder: Path, name: str, status: bytes = b"status\x000\x00\x00", announcement: bytes = ANNOUNCEMENT
    ):
        self.asked, self.status, self.announcement, self.during = [], status, announcement, None
        path = folder / "private" / name
        path.unlink(missing_ok=True)
        self.listening = socket.socket(socket.AF_UNIX)
        self.listening.bind(str(path))
        self.listening.listen(100)
        threading.Thread(target=self.accept, daemon=True).start()

    def accept(self):
        while True:
            with self.listening.accept()[0] as peer, contextlib.suppress(OSError):
                peer.sendall(self.announcement)
                asked = heard(peer)
                if asked and self.during:
                    self.during()
                self.asked.append(asked)
                peer.sendall(self.status)


# ---- clients


def is_list(text: bytes) -> bool:
    """Whether a text is a whole list: names and values by turns, each ended by a 0, up to an empty name."""
    *parts, rest = text.split(b"\0")
    return not rest and b"" in parts[::2]


def heard(peer) -> bytes:
    """One list of attributes, or what comes before the connection ends."""
    text = b""
    while not is_list(text) and (piece := peer.recv(65536)):
        text += piece
    return text


def heard_to_end(peer) -> bytes:
    """What comes before the connection ends."""
    text = b""
    while piece := peer.recv(65536):
        text += piece
    return text


class Client:
    """A program of Postfix: a connection to one of the sockets."""

    def __init__(self, folder: Path, service: str):
        self.peer = socket.socket(socket.AF_UNIX)
        self.peer.settimeout(PATIENCE)
        self.peer.connect(str(folder / "private" / f"noticed-{service}"))

    def __enter__(self):
        return self

    def __exit__(self, *_):
        self.peer.close()

    def ask(self, request: bytes):
        """The status that a request is answered; None where there is none."""
        if heard(self.peer) != ANNOUNCEMENT:
            return None
        with contextlib.suppress(BrokenPipeError):
            self.peer.sendall(request)
        try:
            found = re.fullmatch(rb"status\x00(\d+)\x00\x00", heard(self.peer))
            ended = self.peer.recv(1) == b""
        except ConnectionResetError:
            return None
        return int(found[1]) if found and ended else None


def at_once(*calls) -> list:
    """What calls give that are made at the same time."""
    found = [None] * len(calls)

    def one(place, call):
        found[place] = call()

    threads = [threading.Thread(target=one, args=it) for it in enumerate(calls)]
    for it in threads:
        it.start()
    for it in threads:
        it.join()
    return found


# ---- the folder


class Postfix:
    """A queue folder in a folder of its own, and the program that serves it until the end."""

    def __init__(self, *options: str, hand_in: str = "", folder: Path | None = None, start: bool = True):
        self.room = tempfile.TemporaryDirectory(prefix="noticed-")
        self.folder = folder or Path(self.room.name) / "queue"
        self.server, self.running, self.limits, self.close_fds = MailServer(), None, None, True
        self.environment = None
        self.options, self.hand_in = options, hand_in or self.server.address
        self.errors = Path(self.room.name) / "errors"
        if not folder:
            for name in ("private", "active", "deferred", *SERVICES):
                (self.folder / name).mkdir(parents=True, mode=0o700)
        if start:
            self.start()

    def __enter__(self):
        return self

    def __exit__(self, *_):
        self.kill()
        self.server.close()
        self.room.cleanup()

    def start(self, umask: int = 0o027, closed: str = ""):
        """Starts the program, with streams that a shell closes, and waits until it listens, or ends."""
        words = [
            "sh",
            "-c",
            f'exec "$@" {closed}',
            "sh",
            program(),
            "postfix",
            *self.options,
            str(self.folder),
            HOST,
            self.hand_in,
        ]
        with open(self.errors, "ab") as errors:
            self.running = subprocess.Popen(
                words,
                stdin=subprocess.DEVNULL,
                stdout=errors,
                stderr=errors,
                env=self.environment,
                umask=umask,
                preexec_fn=self.limits,
                close_fds=self.close_fds,
            )
        if not until(
            lambda: is_listened_on(self.at("private/noticed-trace"))
            and (closed or self.has_said())
            or self.running.poll() is not None
        ):
            raise TimeoutError(self.lines())

    def kill(self, how: int = signal.SIGKILL) -> int:
        """Ends the program by a signal: what it ended by."""
        if self.running and self.running.poll() is None:
            self.running.send_signal(how)
        return self.running.wait(timeout=PATIENCE) if self.running else 0

    def has_said(self) -> bool:
        """Whether its first line is there, which it writes once it listens: a request may be served before."""
        return any(line.startswith("listening in ") for line in self.lines())

    def lines(self) -> list:
        """What was written to standard error."""
        return self.errors.read_text().splitlines() if self.errors.exists() else []

    def last_lines(self, *wanted: str) -> list:
        """Its last lines, as many as are wanted, once they are those or don't come: a line may be written after the
        answer."""
        until(lambda: self.lines()[-len(wanted) :] == [*wanted], SECONDS_FOR_LINE)
        return self.lines()[-len(wanted) :]

    def ask(self, service: str, request: bytes):
        """The status that a request to a service is answered."""
        with Client(self.folder, service) as client:
            return client.ask(request)

    def at(self, place: str) -> Path:
        """A file of the folder."""
        return self.folder / place

    def put(self, case: str, *names: str) -> str:
        """Puts a message that Postfix wrote, and the logs of these names, to where they stood: its queue id."""
        places = {it.split("/")[0]: it for it in (FILES / case / "places").read_text().split()}
        for name in ("queue", *names):
            place = self.at(places["deferred" if name == "queue" else name])
            place.parent.mkdir(parents=True, exist_ok=True, mode=0o700)
            place.write_bytes((FILES / case / name).read_bytes())
            place.chmod(0o700 if name == "queue" else 0o600)
        return places["deferred"].rpartition("/")[2]


def asked_in(case: str, name: str) -> bytes:
    """The request for a notice of a message that Postfix wrote."""
    return (FILES / case / f"{name}.request").read_bytes()


def mode_of(path: Path) -> str:
    """A file's kind and mode, in octal."""
    return oct(os.lstat(path).st_mode)[2:]
