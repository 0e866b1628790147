"""A server between a program and the mail server to which it hands in: it passes all on, or is away, answers 450, or
leaves without the reply to a message that the server behind it has taken."""
import contextlib
import socket
import threading

OPEN, AWAY, LATER, SILENT = "open", "away", "later", "silent"


class Gate:
    """The server, at a free port of loopback. `way` says how it behaves from now on: a session that began in another
    way ends at its next transaction."""

    def __init__(self, behind: int):
        self.behind, self.way, self.met = behind, OPEN, 0
        self.listener = socket.create_server(("127.0.0.1", 0), backlog=200)
        self.port = self.listener.getsockname()[1]
        threading.Thread(target=self.accept, daemon=True).start()

    def accept(self):
        with contextlib.suppress(OSError):
            while True:
                client, _ = self.listener.accept()
                threading.Thread(target=self.serve, args=(client, self.way), daemon=True).start()

    def serve(self, client: socket.socket, way: str):
        """One connection."""
        self.met += 1
        with contextlib.suppress(OSError), client:
            if way == LATER:
                self.put_off(client)
            elif way != AWAY:
                with socket.create_connection(("127.0.0.1", self.behind)) as server:
                    self.pass_on(client, server, way)

    def put_off(self, client: socket.socket):
        """Answers 450 to each sender."""
        with client.makefile("rwb") as stream:
            stream.write(b"220 gate.example.net\r\n")
            stream.flush()
            for line in stream:
                verb = line[:4].upper()
                stream.write(
                    b"250 gate.example.net\r\n"
                    if verb in (b"EHLO", b"HELO", b"RSET", b"NOOP")
                    else b"221 bye\r\n"
                    if verb == b"QUIT"
                    else b"450 4.3.2 not now\r\n"
                )
                stream.flush()

    def pass_on(self, client: socket.socket, server: socket.socket, way: str):
        """Passes each command and each reply on; the reply to a message is kept back where that is asked."""
        silent = way == SILENT
        with client.makefile("rwb") as near, server.makefile("rwb") as far:
            copy_reply(far, near)
            for line in near:
                if line[:4].upper() == b"MAIL" and self.way != way:
                    return
                far.write(line)
                far.flush()
                reply = copy_reply(far, near)
                if line[:4].upper() == b"DATA" and reply.startswith(b"354"):
                    while (text := near.readline()) not in (b".\r\n", b""):
                        far.write(text)
                    if not text:
                        return
                    far.write(text)
                    far.flush()
                    copy_reply(far, None if silent else near)
                    if silent:
                        return

    def close(self):
        self.listener.close()


def copy_reply(far, near) -> bytes:
    """Passes a reply on, if anybody is to have it; its last line."""
    while line := far.readline():
        if near:
            near.write(line)
        if line[3:4] != b"-":
            break
    if near:
        near.flush()
    return line
