"""Makes tests/postfix/files/: what a real Postfix keeps of each message of cases.py, and the notices that its bounce(8)
makes of that.

Runs as root where Debian's package `postfix` is installed, on ports of loopback; nothing of it is in the gate. Twice
for each of the settings: first bounce(8) can't hand in a notice, so its logs stay, and they are copied with the queue
files while Postfix is stopped; then it can, and is asked for the notices as the queue manager would ask.
"""
import re
import shutil
import subprocess
import sys
import time
from pathlib import Path

from tests.postfix.capture import cases, milter, upstream
from tests.postfix.capture.instance import FILTERED, MILTER, SMTP, UPSTREAM, Instance, has_postfix, request_bytes
from tests.postfix.capture.submit import by_sendmail, by_smtp

FILES = Path(__file__).parents[1] / "files"
SERVICES = ("bounce", "defer", "trace")
# what is asked of each log: the file's name, the service, the number of what is asked
ASKED = {
    "bounce": [("failure", "bounce", 1)],
    "defer": [("delay", "defer", 2), ("expired", "defer", 1)],
    "trace": [("success", "trace", 5)],
}


def records_of(postfix: Instance, file: Path) -> list[tuple[bytes, bytes]]:
    """Type and bytes of each record that Postfix's postcat shows but pointers and the end: it shows where each begins,
    and the bytes are the file's."""
    shown = subprocess.run(
        ["postcat", "-c", str(postfix.room / "etc"), "-vo", str(file)], capture_output=True, check=True
    ).stdout
    text, records = file.read_bytes(), []
    for line in shown.split(b"\n"):
        if not (found := re.match(rb" *(\d+) (?:[a-z_]+: |\*\*\* )", line)):
            continue
        at = int(found[1])
        size, shift, begins = 0, 0, at + 1
        while True:
            size |= (text[begins] & 127) << shift
            shift, begins = shift + 7, begins + 1
            if text[begins - 1] < 128:
                break
        records.append((text[at : at + 1], text[begins : begins + size]))
    return [it for it in records if it[0] not in b"pE"]


def said(records: list, kind: bytes, name: bytes = b"\0") -> bytes | None:
    """What the first record says that is of a type, or an attribute of a name."""
    for found, text in records:
        if found == kind:
            return text
        if found == b"A" and text.startswith(name + b"="):
            return text[len(name) + 1 :]
    return None


def request_of(case: cases.Case, asked: int, queue_id: str, queue_name: str, records: list) -> list[tuple[str, bytes]]:
    """What the queue manager would send for a notice of a message (qmgr_message.c, bounce.c)."""
    verp = said(records, b"V", b"verp_delimiters")
    flags = said(records, b"\0", b"trace_flags") or b"0"
    request = [
        ("nrequest", b"3" if asked == 1 and verp else b"%d" % asked),
        ("flags", flags if asked == 5 else b"0"),
        ("queue_name", queue_name.encode()),
        ("queue_id", queue_id.encode()),
        ("encoding", said(records, b"\0", b"encoding") or b""),
        ("smtputf8", said(records, b"C").split()[5]),
        ("sender", said(records, b"S")),
        ("envelope_id", said(records, b"i", b"envelope_id") or b""),
        ("ret_flags", said(records, b"<", b"ret_flags") or b"0"),
    ]
    return request + ([("verp_delimiters", verp)] if asked == 1 and verp else [])


def settled(postfix: Instance, known: dict) -> bool:
    """Whether each message has the log that it is to have, and none is at work."""
    at_work = [
        it
        for name in ("active", "incoming", "maildrop")
        for it in (postfix.room / "queue" / name).rglob("*")
        if it.is_file()
    ]
    return not at_work and all(
        postfix.log_file(case.log, found) and postfix.queue_file(found) for found, case in known.items()
    )


def keep(postfix: Instance, known: dict):
    """Copies what Postfix keeps of each message."""
    for queue_id, case in known.items():
        room = FILES / case.name
        room.mkdir(parents=True)
        file = postfix.queue_file(queue_id)
        shutil.copyfile(file, room / "queue")
        (room / "queue.records").write_bytes(b"".join(kind + text + b"\n" for kind, text in records_of(postfix, file)))
        where = [str(file.relative_to(postfix.room / "queue"))]
        for service in SERVICES:
            if log := postfix.log_file(service, queue_id):
                shutil.copyfile(log, room / service)
                where.append(str(log.relative_to(postfix.room / "queue")))
        (room / "places").write_text("".join(f"{it}\n" for it in where))


def ask_for_notices(postfix: Instance, known: dict, server: upstream.Server):
    """Asks for the notices of each message, and writes the requests and the notices: recipient, then text."""
    for queue_id, case in known.items():
        room = FILES / case.name
        file = postfix.queue_file(queue_id)
        records, queue_name = records_of(postfix, file), file.relative_to(postfix.room / "queue").parts[0]
        for log in [it for it in SERVICES if (room / it).exists()]:
            for name, service, number in ASKED[log]:
                request = request_of(case, number, queue_id, queue_name, records)
                answer = postfix.ask(service, request)
                assert answer.endswith(b"status\x000\0\0"), (case.name, answer)
                (room / f"{name}.request").write_bytes(request_bytes(request))
                time.sleep(0.6)
                mine = [it for it in server.notices if b"X-Postfix-Queue-ID: " + queue_id.encode() + b"\n" in it[1]]
                server.notices[:] = [it for it in server.notices if it not in mine]
                for at, (to, text) in enumerate(mine):
                    (room / (name if len(mine) == 1 else f"{name}-{at + 1}")).write_bytes(
                        b"to " + b" ".join(to) + b"\n" + text
                    )


def run(settings: str, messages: list, server: upstream.Server):
    """One Postfix with its messages."""
    postfix = Instance(settings)
    try:
        postfix.start(keeps_logs=True)
        known = {}
        for case in messages:
            known[
                by_sendmail(postfix, case) if case.command else by_smtp(FILTERED if case.filtered else SMTP, case)
            ] = case
        for _ in range(60):
            if settled(postfix, known):
                break
            time.sleep(1)
        else:
            lacking = [
                case.name
                for found, case in known.items()
                if not (postfix.log_file(case.log, found) and postfix.queue_file(found))
            ]
            raise RuntimeError(f"not settled: {lacking}; {postfix.room}/maillog")
        postfix.stop()
        keep(postfix, known)
        postfix.start(keeps_logs=False)
        ask_for_notices(postfix, known, server)
    finally:
        postfix.stop()
        time.sleep(1)
    postfix.remove()


def main():
    if not has_postfix():
        sys.exit("no Postfix is installed here")
    shutil.rmtree(FILES, ignore_errors=True)
    server, _ = upstream.Server(UPSTREAM, has_dsn=False), milter.Server(MILTER)
    for settings, messages in cases.RUNS:
        run(settings, messages, server)
    print(f"{len(list(FILES.iterdir()))} messages in {FILES}")


if __name__ == "__main__":
    main()
