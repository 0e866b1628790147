#!/usr/bin/env python3
"""Stands in for `noticed postfix` where the scripts that run a Postfix are tried themselves: it listens at
private/noticed-NAME, and passes each request on to Postfix's own service of that name. The variable DROPS has it answer
one append in so many without passing it on: then recipients are lost, and the scripts must say so.

    passing_on.py postfix [OPTION]... QUEUE-FOLDER HOST HAND-IN"""
import contextlib
import os
import socket
import sys
import threading

DROPS = int(os.environ.get("DROPS", "0"))
HELLO = b"protocol\0delivery_status_protocol\0\0"
seen = 0


def whole_list(stream: socket.socket) -> bytes:
    """A list of attributes: an empty name ends it."""
    found = b""
    while not found.endswith(b"\0\0") or len(found.split(b"\0")) % 2:
        more = stream.recv(4096)
        if not more:
            raise ConnectionAbortedError
        found += more
    return found


def serve(asked: socket.socket, own: str):
    """One request."""
    global seen
    with contextlib.suppress(OSError), asked:
        asked.sendall(HELLO)
        request = whole_list(asked)
        seen += 1
        if DROPS and seen % DROPS == 0 and b"nrequest\x000\0" in request:
            asked.sendall(b"status\x000\0\0")
            return
        with socket.socket(socket.AF_UNIX) as other:
            other.connect(own)
            whole_list(other)
            other.sendall(request)
            asked.sendall(whole_list(other))


def listen(folder: str, name: str):
    path = f"{folder}/private/noticed-{name}"
    with contextlib.suppress(FileNotFoundError):
        os.unlink(path)
    listener = socket.socket(socket.AF_UNIX)
    listener.bind(path)
    os.chmod(path, 0o666)
    listener.listen(500)
    while True:
        asked, _ = listener.accept()
        threading.Thread(target=serve, args=(asked, f"{folder}/private/{name}"), daemon=True).start()


def main():
    if len(sys.argv) < 5 or sys.argv[1] != "postfix":
        sys.exit("passing_on.py postfix [OPTION]... QUEUE-FOLDER HOST HAND-IN")
    folder, host, _ = sys.argv[-3:]
    threads = [threading.Thread(target=listen, args=(folder, it)) for it in ("bounce", "defer", "trace")]
    for it in threads:
        it.start()
    print(f"listening in {folder} for {host}", file=sys.stderr, flush=True)


if __name__ == "__main__":
    main()
