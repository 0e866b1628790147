"""How a message comes to Postfix: over SMTP, with any options of RCPT, or by sendmail(1)."""
import re
import socket
import subprocess
import time

from tests.postfix.capture.cases import Case
from tests.postfix.capture.instance import Instance


def say(stream, line: bytes) -> bytes:
    """Sends a line, and returns the reply's last one."""
    stream.write(line + b"\r\n")
    stream.flush()
    return reply(stream)


def reply(stream) -> bytes:
    while True:
        line = stream.readline()
        if line[3:4] != b"-":
            break
    if not line.startswith((b"2", b"3")):
        raise RuntimeError(line)
    return line


def by_smtp(port: int, case: Case) -> str:
    """Hands a message in, and returns its queue id."""
    with socket.create_connection(("127.0.0.1", port), timeout=60) as connection, connection.makefile("rwb") as stream:
        reply(stream)
        say(stream, b"EHLO client.example.com")
        say(stream, b"MAIL FROM:<" + case.sender + b"> " + case.options.encode())
        for recipient in case.recipients:
            address, options = recipient if isinstance(recipient, tuple) else (recipient, "")
            say(stream, f"RCPT TO:<{address}> {options}".encode())
        say(stream, b"DATA")
        stream.write(re.sub(rb"(?m)^\.", b"..", case.text()).replace(b"\n", b"\r\n"))
        taken = say(stream, b".")
        return re.search(rb"queued as (\w+)", taken)[1].decode()


def by_sendmail(postfix: Instance, case: Case) -> str:
    """The same with a message that sendmail(1) takes."""
    log = postfix.room / "maillog"
    before = log.read_text().count("uid=")
    addresses = [it[0] if isinstance(it, tuple) else it for it in case.recipients]
    subprocess.run(
        ["/usr/sbin/sendmail", "-C", str(postfix.room / "etc"), *case.command, *addresses],
        input=case.text(),
        check=True,
        stdout=subprocess.DEVNULL,
        timeout=60,
    )
    for _ in range(100):
        found = re.findall(r"pickup\[\d+\]: (\w+): uid=", log.read_text())
        if len(found) > before:
            return found[-1]
        time.sleep(0.1)
    raise RuntimeError("pickup took nothing")
