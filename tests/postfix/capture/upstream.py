"""The mail server to which the private Postfix relays: it answers each RCPT by the first word of the recipient's local
part, keeps the notices that come from nobody, apart from all other mail. It speaks LMTP (RFC 2033) to a client that
greets it by LHLO: each recipient then has a reply of its own to the message."""
import socketserver
import threading

# what is said of a recipient whose local part begins with this word; a word that isn't here is taken
REPLIES = {
    "no": b"550 5.1.1 <%s>: no such user here",
    "later": b"450 4.2.1 mailbox busy, try later",
    "bare": b"550 without a status",
    "spaces": b"550 5.2.2 over quota   ",
    "angle": b"550 5.7.1 <odd>: see <rule>: not >: allowed",
    "equals": b"550 5.0.0 status=2.0.0 recipient=other@example.org",
    "eight": b"550 5.1.1 kein Empf\xe4nger",
    "utf": b"550 5.1.1 kein Empf\xc3\xa4nger",
    "control": b"550 5.6.0 a tab\there, a bell\x07 and a \x1b[1mcolour",
    "lines": b"550-5.7.1 first line\r\n550-5.7.1 second line\r\n550 5.7.1 and the last",
    "long": b"\r\n".join([b"550-5.7.1 " + b"very long words " * 30] * 3 + [b"550 5.7.1 and more of them"]),
    "word": b"550 5.7.1 " + b"w" * 700,
    "empty": b"550 ",
    "short": b"550 5.7.1",
    "zeros": b"550 5.01.1 with a zero in front",
    "busy": b"421 4.3.2 closing down",
    "contrary": b"550 4.7.1 it says later, and means never",
    "never": b"450 5.7.1 it says never, and means later",
    "large": b"550 5.999.999 numbers of three digits",
}
EXTENSIONS = ["mail.example.org", "8BITMIME", "SMTPUTF8", "ENHANCEDSTATUSCODES", "SIZE 10000000"]


class Upstream(socketserver.StreamRequestHandler):
    """One connection."""

    def say(self, reply: bytes):
        self.wfile.write(reply + b"\r\n")

    def hello(self):
        lines = [*EXTENSIONS, *(["DSN"] if self.server.has_dsn else [])]
        for at, line in enumerate(lines):
            self.say(f"250{' ' if at == len(lines) - 1 else '-'}{line}".encode())

    def recipient(self, line: bytes):
        address = line[line.index(b"<") + 1 : line.rindex(b">")]
        word = address.strip(b'"').split(b".")[0].split(b" ")[0].split(b"+")[0].lower().decode("ascii", "replace")
        if word == "drop":
            raise ConnectionAbortedError
        reply = REPLIES.get(word, b"250 2.1.5 ok")
        if reply.startswith(b"250"):
            self.taken.append(address)
        self.say(reply.replace(b"%s", address.split(b"@")[0]))

    def data(self):
        self.say(b"354 go on")
        text = []
        while (line := self.rfile.readline()) not in (b".\r\n", b""):
            text.append((line[1:] if line.startswith(b".") else line).replace(b"\r\n", b"\n"))
        refused = [it for it in self.taken if it.lower().startswith(b"data")]
        kept = [it for it in self.taken if it not in refused] if self.speaks_lmtp or not refused else []
        if kept and self.sender:
            self.server.others.append((self.sender, kept, b"".join(text)))
        elif kept:
            self.server.notices.append((kept, b"".join(text)))
        for it in self.taken if self.speaks_lmtp else [(refused or kept)[0]]:
            self.say(b"554 5.6.0 not with this text" if it in refused else b"250 2.0.0 taken")
        self.taken = []

    def handle(self):
        self.sender, self.taken, self.speaks_lmtp = b"", [], False
        self.say(b"220 mail.example.org ESMTP")
        for line in self.rfile:
            verb = line[:4].upper()
            if verb in (b"EHLO", b"HELO", b"LHLO"):
                self.speaks_lmtp = verb == b"LHLO"
                self.hello()
            elif verb == b"MAIL":
                self.sender, self.taken = line[line.index(b"<") + 1 : line.rindex(b">")], []
                self.say(b"250 2.1.0 ok")
            elif verb == b"RCPT":
                self.recipient(line)
            elif verb == b"DATA" and not self.taken:
                self.say(b"554 5.5.1 nobody to write to")
            elif verb == b"DATA":
                self.data()
            elif verb == b"QUIT":
                self.say(b"221 2.0.0 bye")
                return
            else:
                self.say(b"250 2.0.0 ok")


class Server(socketserver.ThreadingTCPServer):
    """The server, with the notices that it took: of each its recipients and its text; and all else that it took, with
    the sender."""

    allow_reuse_address, daemon_threads, request_queue_size = True, True, 100

    def __init__(self, port: int, has_dsn: bool):
        self.notices, self.others, self.has_dsn = [], [], has_dsn
        super().__init__(("127.0.0.1", port), Upstream)
        threading.Thread(target=self.serve_forever, daemon=True).start()

    def handle_error(self, request, client_address):
        """A connection that is given up is given up."""
