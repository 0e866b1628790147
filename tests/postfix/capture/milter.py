"""A mail filter: what it changes of a message is asked by the message's field X-Change, a few words."""
import socketserver
import struct
import threading

# each word's changes, as the filter's answers at the end of a message
CHANGES = {
    "sender": [b"e<changed@example.com>\0"],
    "more": [b"+<no.added@example.org>\0", b"+<later.added@example.org>\0"],
    "more-dsn": [b"2<no.asked@example.org>\0NOTIFY=FAILURE,DELAY ORCPT=rfc822;asked@example.net\0"],
    "fewer": [b"-<no.taken@example.org>\0"],
    "field": [b"m" + struct.pack(">I", 1) + b"Subject\0changed by a filter\0"],
    "long-field": [
        b"m" + struct.pack(">I", 1) + b"Subject\0" + b"changed to one that is much longer than it was " * 6 + b"\0"
    ],
    "no-field": [b"m" + struct.pack(">I", 1) + b"Subject\0\0"],
    "new-field": [b"hX-Added\0at the end\0", b"i" + struct.pack(">I", 0) + b"X-First\0at the beginning\0"],
    "body": [
        b"bA body that a filter wrote.\r\nIt is longer than the one that was here before it, by some lines.\r\n" * 4
    ],
    "short-body": [b"bx\r\n"],
    "no-body": [b"b"],
}
ACTIONS, VERSION = 0xFF, 6
NO_STEPS = 1 | 2 | 4 | 8 | 16 | 64 | 512  # connection, hello, sender, recipients, body, end of the header, DATA


class Filter(socketserver.BaseRequestHandler):
    """One connection of Postfix."""

    def read(self, size: int) -> bytes:
        found = b""
        while len(found) < size:
            more = self.request.recv(size - len(found))
            if not more:
                raise ConnectionAbortedError
            found += more
        return found

    def say(self, answer: bytes):
        self.request.sendall(struct.pack(">I", len(answer)) + answer)

    def handle(self):
        asked = []
        while True:
            command = self.read(struct.unpack(">I", self.read(4))[0])
            kind, rest = command[:1], command[1:]
            if kind == b"O":
                self.say(b"O" + struct.pack(">III", VERSION, ACTIONS, NO_STEPS | 256))
            elif kind == b"L":
                name, value, _ = rest.split(b"\0", 2)
                asked += value.decode().split() if name == b"X-Change" else []
                self.say(b"c")
            elif kind == b"E":
                for word in asked:
                    for answer in CHANGES[word]:
                        self.say(answer)
                asked = []
                self.say(b"c")
            elif kind == b"A":
                asked = []
            elif kind == b"Q":
                return
            elif kind not in (b"D", b"K"):
                self.say(b"c")


class Server(socketserver.ThreadingTCPServer):
    """The filter."""

    allow_reuse_address, daemon_threads = True, True

    def __init__(self, port: int):
        super().__init__(("127.0.0.1", port), Filter)
        threading.Thread(target=self.serve_forever, daemon=True).start()

    def handle_error(self, request, client_address):
        """A connection that is given up is given up."""
