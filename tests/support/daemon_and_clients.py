"""What the scripts that run `noticed serve` and `noticed send` share: a daemon on a socket of its own, and clients."""
import contextlib
import os
import signal
import socket
import struct
import subprocess
import tempfile
import time
from pathlib import Path

from tests.support.faults import fault_line, worded
from tests.support.running import HOST, VECTORS, Ran, program, run
from vectors import frames

PATIENCE = 60  # seconds that a daemon or a client may take for one step, on a slow and busy machine; more is a hang
PIECE = 32_768  # bytes that are written to a socket at once: less than its buffer holds
MOMENT = 0.002  # seconds between two looks at something that is about to happen

FRAMES = (VECTORS / "one-bounce.frames").read_bytes()
OUTBOX = (VECTORS / "one-bounce.outbox").read_bytes()
NOTES = (VECTORS / "one-bounce.notes").read_bytes()
FIRST_FRAME = 52  # bytes of the example's append



def answer(reply: int, number: int = 0, value: int = 0) -> bytes:
    """The frame of an answer."""
    return struct.pack(">IBBII", 10, 1, reply, number, value)


def line(agent: int, requests: int, connections: int = 1, faults: int = 0) -> bytes:
    """The line of an agent in the notes."""
    return b"agent %d requests %d connections %d faults %d\n" % (agent, requests, connections, faults)


def append(number: int, message: bytes = b"Q1", recipient: bytes = b"x@y") -> bytes:
    """An append of a failed recipient to a bounce log."""
    return frames.append(number, 1, message, recipient, 1, b"5.0.0")


def flush(number: int, message: bytes = b"Q1", service: int = 1, **fields) -> bytes:
    """A flush of a log, a bounce log unless said, with the return path and the moments of the stored examples."""
    said = {"return_path": b"ann@example.com", "moment": 1700000000, "arrival": 1699996400} | fields
    return frames.flush(number, service, message, **said)


def until(holds, patience=PATIENCE) -> bool:
    """Waits until something holds; false where it takes too long."""
    began = time.monotonic()
    while not holds():
        if time.monotonic() - began > patience:
            return False
        time.sleep(MOMENT)
    return True


def is_listened_on(path) -> bool:
    """Whether somebody listens on a socket: its flags in /proc/net/unix are 00010000."""
    with open("/proc/net/unix", encoding="ascii") as sockets:
        return any(it.split()[3] == "00010000" for it in sockets if it.rstrip().endswith(f" {path}"))


def socket_fault(path: str, why: str) -> bytes:
    """What standard error of a command has where a socket can't be had: the fault in words, the path, and what the
    system said."""
    return worded(61) + f"{path}: {why}\n".encode()


def logged_fault(path: str, why: str) -> bytes:
    """The same of `serve --log`, whose fault has its number alone. Without --log, and of `send`, it is that line."""
    return fault_line(61) + f"{path}: {why}\n".encode()


class Daemon:
    """`noticed serve` with so many agents and connections, on a socket in a folder that is removed at the end. Its
    outputs go to files, unless `stdout` or `stderr` say otherwise; a daemon that is still there at the end is killed.
    With `under` it runs below another program, as valgrind.
    """

    def __init__(self, agents: int, uses: int, path=None, options=(), host=HOST, under=(), **how):
        self.room = tempfile.TemporaryDirectory(prefix="noticed-")
        self.path = str(path or Path(self.room.name) / "socket")
        self.files = {it: open(Path(self.room.name) / it, "w+b") for it in ("stdout", "stderr")}
        streams = {"stdin": subprocess.DEVNULL, **self.files, **how}
        words = [*under, program(), "serve", *options, self.path, host, str(agents), str(uses)]
        self.running = subprocess.Popen(words, **streams)
        self.earlier = 2 if "--log" in options else 1  # threads before the daemon knows its socket's file

    def __enter__(self):
        return self

    def __exit__(self, *_):
        if self.running.poll() is None:
            self.running.kill()
            self.running.wait()
        for it in self.files.values():
            it.close()
        self.room.cleanup()

    def connect(self) -> socket.socket:
        """A connection, as soon as the daemon listens; ConnectionRefusedError where it has ended."""
        began = time.monotonic()
        while True:
            client = socket.socket(socket.AF_UNIX, socket.SOCK_STREAM)
            client.settimeout(PATIENCE)
            try:
                client.connect(self.path)
                return client
            except (FileNotFoundError, ConnectionRefusedError) as why:
                client.close()
                if self.running.poll() is not None or time.monotonic() - began > PATIENCE:
                    raise ConnectionRefusedError from why
                time.sleep(MOMENT)

    def has_begun(self) -> bool:
        """Whether the socket is listened on and its threads run: by then the daemon knows its socket's file."""
        try:
            return is_listened_on(self.path) and len(os.listdir(f"/proc/{self.running.pid}/task")) > self.earlier
        except FileNotFoundError:
            return False

    def listens(self) -> bool:
        """Waits until the daemon serves, without a connection; false where it has ended."""
        until(lambda: self.has_begun() or self.running.poll() is not None)
        return self.running.poll() is None

    def send(self, given: bytes = FRAMES, **how) -> Ran:
        """Runs `noticed send` on these frames, once the daemon listens."""
        self.listens()
        return run(["send", self.path], given, **how)

    def has_written(self, size: int) -> bool:
        """Waits until the outbox has so many bytes: a letter is written beside the answer of its flush."""
        return until(lambda: os.fstat(self.files["stdout"].fileno()).st_size >= size)

    def said(self, size: int) -> bytes:
        """Standard error once it has so many bytes."""
        path = Path(self.room.name) / "stderr"
        until(lambda: path.stat().st_size >= size)
        return path.read_bytes()

    def end(self) -> Ran:
        """Waits for the daemon's end: what it wrote, and its status."""
        status = self.running.wait(timeout=PATIENCE)
        written = []
        for it in self.files.values():
            it.seek(0)
            written.append(it.read())
        return Ran(*written, status)

    def stop(self) -> Ran:
        """Ends the daemon by a signal, which it doesn't handle."""
        self.running.send_signal(signal.SIGTERM)
        return self.end()


def heard(client: socket.socket, size: int) -> bytes:
    """So many bytes of a connection, or what there is before its end."""
    got = b""
    while len(got) < size:
        more = client.recv(size - len(got))
        if not more:
            break
        got += more
    return got


def asked(client: socket.socket, given: bytes, answers: int = 1) -> bytes:
    """The bytes of so many answers to these frames."""
    client.sendall(given)
    return heard(client, 14 * answers)


def answers_to(client: socket.socket, given: list) -> bytes:
    """The bytes of the answers to many frames, which are written in pieces: so many at once as a socket's buffers hold,
    and the answers are read before the next piece, so that neither side waits for ever for the other to read."""
    heard_so_far, piece = [], max(1, PIECE // max(map(len, given), default=1))
    for at in range(0, len(given), piece):
        part = given[at : at + piece]
        heard_so_far.append(asked(client, b"".join(part), len(part)))
        if len(heard_so_far[-1]) < 14 * len(part):
            break
    return b"".join(heard_so_far)


def conversation(client: socket.socket, given: bytes) -> bytes:
    """What a client hears that sends all of a session, then closes its side. The daemon may end the session before all
    of it is sent, or read: what it answered is heard all the same."""
    with client:
        with contextlib.suppress(ConnectionError):
            client.sendall(given)
            client.shutdown(socket.SHUT_WR)
        got = b""
        with contextlib.suppress(ConnectionResetError):
            while more := client.recv(4096):
                got += more
        return got


def is_ended(client: socket.socket) -> bool:
    """Whether the daemon has closed a connection: it is at its end, or was reset."""
    try:
        return client.recv(1) == b""
    except ConnectionResetError:
        return True


def closed_pipe() -> int:
    """The writing end of a pipe that nobody reads."""
    reading, writing = os.pipe()
    os.close(reading)
    return writing
