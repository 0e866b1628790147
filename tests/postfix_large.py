"""`noticed postfix` holds one large message at a time: of 32 messages of 50 MB, for which its three services are asked
at once, each has its notice, and the program takes up at most 64 MB of memory."""
import os
import re

from tests.support.postfix_folder import FILES, SERVICES, Client, Postfix, at_once, notice
from tests.support.running import Checks

MESSAGES, SIZE, MOST = 32, 50_000_000, 64_000_000
SECONDS = 120  # for which a client waits: the messages are read one after another
LINE = b"N\xe8\x07" + 1000 * b"x"  # a record of the message's text
KINDS = {"bounce": 1, "defer": 1, "trace": 5}  # of the requests


def put_messages(it: Postfix) -> dict:
    """Makes messages of one large file, with a log each, and returns their queue ids, each with the log's service."""
    services = {f"A{number}": SERVICES[number % len(SERVICES)] for number in range(MESSAGES)}
    queued = (FILES / "one/queue").read_bytes().replace(b"D\x12no.bob@", b"R\x12no.bob@")
    head, empty_line, body = queued.partition(b"N\0N")
    for folder in ("deferred/A", "defer/A"):
        it.at(folder).mkdir()
    large = it.at("deferred/A/large")
    with open(large, "wb") as file:
        file.write(head + b"N\0")
        for _ in range(SIZE // len(LINE)):
            file.write(LINE)
        file.write(empty_line[2:] + body)
    for message, service in services.items():
        os.link(large, it.at(f"deferred/A/{message}"))
        log = it.at(f"{service}/A/{message}" if service == "defer" else f"{service}/{message}")
        log.write_bytes((FILES / "one/bounce").read_bytes())
    return services


def asked(it: Postfix, message: str, service: str):
    """The status that a service answers to the request for the notice of a message."""
    with Client(it.folder, service) as client:
        client.peer.settimeout(SECONDS)
        return client.ask(notice(KINDS[service], message))


def peak(it: Postfix) -> int:
    """How many bytes of memory the program had at most."""
    with open(f"/proc/{it.running.pid}/status") as status:
        return 1024 * int(re.search(r"VmHWM:\s+(\d+) kB", status.read())[1])


def main():
    checks = Checks(f"postfix_large: {MESSAGES} messages of {SIZE:,} bytes, asked for at once")
    with Postfix() as it:
        services = put_messages(it)
        statuses = at_once(*(lambda item=item: asked(it, *item) for item in services.items()))
        checks.equal("each is answered", statuses, [0] * MESSAGES)
        told = [re.search(rb"X-Postfix-Queue-ID: (\w+)", text)[1].decode() for _, _, text in it.server.taken]
        checks.equal("each is told of, once", sorted(told), sorted(services))
        most = peak(it)
        checks.true(f"at most {MOST:,} bytes of memory: {most:,}", most < MOST)
    checks.done()


if __name__ == "__main__":
    main()
