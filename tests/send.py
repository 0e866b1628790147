"""Runs `noticed send` against small daemons of this script's own, which answer wrongly, cut off, or not at all; with
broken inputs and outputs; with no daemon; and with each growth of its memory refused in turn."""
import contextlib
import os
import socket
import tempfile
import threading
from pathlib import Path

from tests.support.daemon_and_clients import (
    FIRST_FRAME,
    FRAMES,
    NOTES,
    PATIENCE,
    answer,
    closed_pipe,
    heard,
)
from tests.support.preloading import built, each_refused
from tests.support.faults import fault_line
from tests.support.running import Checks, Ran, run

MOST = 500  # growths of a run; more than this and the sweep is broken


class Answering:
    """A daemon of one connection: for each of the texts it reads a frame and writes the text; then it closes the
    connection, or reads on and closes after its client did. `read` is what it was sent."""

    def __init__(self, texts, reads_on=False):
        self.texts, self.reads_on, self.read = texts, reads_on, b""
        self.room = tempfile.TemporaryDirectory(prefix="noticed-")
        self.path = f"{self.room.name}/socket"
        self.listener = socket.socket(socket.AF_UNIX, socket.SOCK_STREAM)
        self.listener.bind(self.path)
        self.listener.listen()
        self.listener.settimeout(PATIENCE)
        self.thread = threading.Thread(target=self.serve)
        self.thread.start()

    def serve(self):
        client, _ = self.listener.accept()
        client.settimeout(PATIENCE)
        # a client may leave before it has read its answer, or before it is sent
        with client, contextlib.suppress(BrokenPipeError, ConnectionResetError):
            for text in self.texts:
                self.frame(client)
                client.sendall(text)
            if self.reads_on:
                client.shutdown(socket.SHUT_WR)
                while more := client.recv(65536):
                    self.read += more

    def frame(self, client):
        length = heard(client, 4)
        self.read += length + heard(client, int.from_bytes(length, "big"))

    def __enter__(self):
        return self

    def __exit__(self, *_):
        with socket.socket(socket.AF_UNIX) as last:  # where no client came
            last.connect(self.path)
        self.thread.join(PATIENCE)
        self.listener.close()
        self.room.cleanup()


def fault(number: int, lines: bytes = b"") -> Ran:
    """A run that ended with a fault, after these lines."""
    return Ran(lines, fault_line(number), 1)


def answers(checks: Checks):
    """What comes back for the first frame of the example, and for the second."""
    first = b"0 logged 0\n"
    for what, texts, wanted in (
        ("no byte", [b""], fault(48)),
        ("an answer for another place", [answer(1, 5)], fault(46)),
        ("an answer for the place before", [answer(1), answer(7, 0, 1)], fault(46, first)),
        ("six bytes of an answer", [answer(1)[:6]], fault(13)),
        ("two bytes of a length", [answer(1)[:2]], fault(13)),
        ("an empty answer", [bytes(4)], fault(12)),
        ("an answer that is too long", [bytes.fromhex("00010001")], fault(11)),
        ("version 2", [bytes.fromhex("0000000a02010000000000000000")], fault(21)),
        ("reply 14", [bytes.fromhex("0000000a010e0000000000000000")], fault(22)),
        ("reply 0", [bytes.fromhex("0000000a01000000000000000000")], fault(22)),
        ("an answer of nine bytes", [bytes.fromhex("00000009010100000000000000")], fault(23)),
        ("an answer of eleven bytes", [bytes.fromhex("0000000b010100000000000000000000")[:15]], fault(24)),
        ("a value where there is none", [answer(2, 0, 5)], fault(34)),
        ("a version before its length", [bytes.fromhex("0000000102")], fault(21)),
        ("no byte for the second frame", [answer(1), b""], fault(48, first)),
        ("both answers", [answer(1), answer(7, 1, 1)], Ran(NOTES, b"", 0)),
        ("every reply", [answer(10, 0, 24), answer(3, 1)], Ran(b"0 refused 24\n1 table full\n", b"", 0)),
    ):
        with Answering(texts, reads_on=True) as daemon:
            checks.equal(what, run(["send", daemon.path], FRAMES), wanted)
    for reply, value, words in (
        (1, 7, b"logged 7"),
        (2, 0, b"closed"),
        (3, 0, b"table full"),
        (4, 0, b"log full"),
        (5, 0, b"nothing"),
        (6, 2, b"no return 2"),
        (7, 3, b"sealed 3"),
        (8, 0, b"discarded 0"),
        (9, 0, b"gone"),
        (10, 46, b"refused 46"),
        (11, 0, b"forgotten"),
        (12, 0, b"not closed"),
        (13, 2, b"differs 2"),
    ):
        with Answering([answer(reply, 0, value)], reads_on=True) as daemon:
            checks.equal(
                f"reply {reply}", run(["send", daemon.path], FRAMES[:FIRST_FRAME]), Ran(b"0 " + words + b"\n", b"", 0)
            )


def connections(checks: Checks):
    """No daemon (61); one that closes at once; and that what is sent is the input, a frame after each answer."""
    with tempfile.TemporaryDirectory() as room:
        unheard = socket.socket(socket.AF_UNIX, socket.SOCK_STREAM)
        unheard.bind(f"{room}/unheard")
        Path(room, "file").write_bytes(b"")
        unconnected = {
            "no socket": "/none",
            "a socket that nobody listens on": "/unheard",
            "a file": "/file",
            "a folder": "",
        }
        for what, path in unconnected.items():
            checks.equal(what, run(["send", room + path], FRAMES), fault(61))
        unheard.close()
    for what, path in (
        ("an empty path", ""),
        ("a path of 108 bytes", "/" + "s" * 107),
        ("a path of 300 bytes", "s" * 300),
    ):
        checks.equal(what, run(["send", path], FRAMES), fault(61))
    with Answering([]) as daemon:
        ended = run(["send", daemon.path], FRAMES)
        # the connection may be closed before the frame is written, while it is, or before the answer is read
        checks.true("a daemon that closes at once", ended in (fault(35), fault(48), fault(14)))
    with Answering([answer(1), answer(7, 1, 1)], reads_on=True) as daemon:
        checks.equal("the client of a whole run", run(["send", daemon.path], FRAMES), Ran(NOTES, b"", 0))
    checks.equal("what was sent", daemon.read, FRAMES)
    with Answering([], reads_on=True) as daemon:
        checks.equal("no input", run(["send", daemon.path], b""), Ran(b"", b"", 0))
    checks.equal("nothing was sent", daemon.read, b"")


def inputs(checks: Checks):
    """Input that is cut, has a bad length or can't be read."""
    first = b"0 logged 0\n"
    for what, given, texts, wanted in (
        ("a cut length", FRAMES[:2], [], fault(13)),
        ("a cut frame", FRAMES[:40], [], fault(13)),
        ("a cut second frame", FRAMES[:60], [answer(1)], fault(13, first)),
        ("an empty frame", bytes(4), [], fault(12)),
        ("a frame that is too long", bytes.fromhex("00010001"), [], fault(11)),
        (
            "the longest frame",
            bytes.fromhex("00010000") + bytes(65536),
            [answer(10, 0, 21)],
            Ran(b"0 refused 21\n", b"", 0),
        ),
    ):
        with Answering(texts, reads_on=True) as daemon:
            checks.equal(what, run(["send", daemon.path], given), wanted)
        checks.equal(
            f"{what}: what was sent", daemon.read, given if wanted.status == 0 else FRAMES[: FIRST_FRAME * len(texts)]
        )
    folder = os.open("/", os.O_RDONLY)
    with Answering([], reads_on=True) as daemon:
        checks.equal("input that can't be read", run(["send", daemon.path], stdin=folder), fault(14))
    os.close(folder)


def outputs(checks: Checks):
    """Lines that can't be written end the client; faults that can't be told leave the status."""
    for what, opened in (("closed", closed_pipe), ("full", lambda: os.open("/dev/full", os.O_WRONLY))):
        broken = opened()
        with Answering([answer(1)], reads_on=True) as daemon:
            checks.equal(f"{what} standard output", run(["send", daemon.path], FRAMES, stdout=broken), fault(33))
        checks.equal(f"{what} standard output: what was sent", daemon.read, FRAMES[:FIRST_FRAME])
        with Answering([answer(1, 5)], reads_on=True) as daemon:
            checks.equal(f"{what} standard error", run(["send", daemon.path], FRAMES, stderr=broken), Ran(b"", b"", 1))
        os.close(broken)


def growths(checks: Checks):
    """Each growth of memory refused in turn: what was told, what was sent, and the fault. The second frame is longer
    than the first and so wants memory; the second answer is as long as the first and wants none."""
    first, whole = FRAMES[:FIRST_FRAME], (Ran(NOTES, b"", 0), FRAMES)

    def ended(environment: dict):
        with Answering([answer(1), answer(7, 1, 1)], reads_on=True) as daemon:
            ran = run(["send", daemon.path], FRAMES, env=environment)
        return ran, daemon.read

    with tempfile.TemporaryDirectory() as room:
        ends = each_refused(built(room, "refuse"), MOST, ended, whole)
    met = [end for at, end in enumerate(ends) if at == 0 or ends[at - 1] != end]
    line = b"0 logged 0\n"
    checks.equal("growths", met, [(fault(9), b""), (fault(9), first), (fault(9, line), first), whole])
    print(f"  {len(ends) - 1} growths, each refused once")


def main():
    checks = Checks(
        "send: the client against daemons that answer wrongly, cut off or not at all; broken inputs and outputs"
    )
    for check in (answers, connections, inputs, outputs, growths):
        check(checks)
    checks.done()


if __name__ == "__main__":
    main()
