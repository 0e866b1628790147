"""Runs `noticed hand-in` on outboxes of `noticed batch`, against small mail servers that take, refuse, put off and hang
up: what each is told and given, in which order, what is printed and kept, and the exit status."""
import socket
import tempfile
import threading
import time
from pathlib import Path

from tests.support.mail_servers import MailServer, OfferingServer, StrictServer, messages_of, outbox_for, outbox_of
from tests.support.preloading import built, preloading
from tests.support.running import Checks, HOST, run

NUMBER = 3  # notices of an outbox
PATHS = [b"sender%d@example.com" % at for at in range(NUMBER)]
# Paths that a program could take for several, for an option, or for another address.
ODD_PATHS = [
    b"bea,ann@example.com",
    b"a:b@example.com",
    b"x:bea@example.com,ann@example.com;root@example.com",
    b'"a,b"@example.com',
    b'a"b\\c@example.com',
    b"-n@example.com",
    b"a!b%c@example.com",
    b"ann@[192.0.2.1]",
    b"ann@[IPv6:2001:db8::1]",
    b"postmaster",
    b"-oQ/tmp",
    b"a|b",
    b"ann@[a;b]",
]


def taken_by(server) -> list:
    """The recipients of what a server was given, and the messages."""
    return [(path, message) for path, message in server.taken]


def wanted_of(outbox: bytes) -> list:
    """What a server must be given of an outbox."""
    return list(zip(PATHS, messages_of(outbox)))


def lines_of(ran) -> list:
    return ran.notes.decode().splitlines()


def accepted(*numbers) -> list:
    return [f"accepted {at} {PATHS[at - 1].decode()}: 250 taken" for at in numbers]


def check_taken(checks: Checks, outbox: bytes):
    """All are taken, in order, over one session that ends with QUIT."""
    server = MailServer()
    ran = run(["hand-in", server.address], outbox)
    checks.equal("all are taken: status", ran.status, 0)
    checks.equal("all are taken: lines", lines_of(ran), accepted(1, 2, 3))
    checks.equal("all are taken: messages", taken_by(server), wanted_of(outbox))
    checks.equal(
        "all are taken: one greeting",
        [it for it in server.commands if it.startswith(b"EHLO")],
        [b"EHLO " + HOST.encode()],
    )
    checks.equal("all are taken: nothing on standard output", ran.outbox, b"")


def check_refused(checks: Checks, outbox: bytes):
    """One that is refused for good is kept with the reply, and the others are taken."""
    server = MailServer(refused={PATHS[1]})
    ran = run(["hand-in", server.address], outbox)
    wanted = wanted_of(outbox)
    checks.equal("one is refused: status", ran.status, 0)
    checks.equal("one is refused: messages", taken_by(server), [wanted[0], wanted[2]])
    lines = accepted(1) + [f"refused 2 {PATHS[1].decode()}: 550 5.1.1 no such user"] + accepted(3)
    checks.equal("one is refused: lines", lines_of(ran), lines)
    parts = outbox.split(b"MAIL FROM:<>\r\n")
    checks.equal("one is refused: kept", ran.outbox, b"NOOP 550 5.1.1 no such user\r\nMAIL FROM:<>\r\n" + parts[2])


def check_put_off(checks: Checks, outbox: bytes):
    """Those that are put off are tried again after a second, in order."""
    server = MailServer(greylists=1)
    ran = run(["hand-in", server.address], outbox)
    checks.equal("all are put off once: status", ran.status, 0)
    put_off = [f"put off {at} {PATHS[at - 1].decode()}: 450 4.2.0 try again" for at in (1, 2, 3)]
    checks.equal("all are put off once: lines", lines_of(ran), put_off + accepted(1, 2, 3))
    checks.equal("all are put off once: messages", taken_by(server), wanted_of(outbox))


def check_client_refused(checks: Checks, outbox: bytes):
    """A 5yz to RCPT that isn't a mailbox's (550 to 553) refuses the client, and no notice is refused for good by it."""
    for reply in (b"554 5.7.1 client host rejected", b"530 5.7.0 authentication required", b"521 no mail here"):
        server = MailServer(greylists=1)
        server.put_off = reply
        ran = run(["hand-in", server.address], outbox)
        about = reply[:3].decode()
        checks.equal(f"{about}: status", (ran.status, ran.outbox), (0, b""))
        put_off = [f"put off {at} {PATHS[at - 1].decode()}: {reply.decode()}" for at in (1, 2, 3)]
        checks.equal(f"{about}: lines", lines_of(ran), put_off + accepted(1, 2, 3))
        checks.equal(f"{about}: messages", taken_by(server), wanted_of(outbox))
    for reply in (b"550 no such user", b"551 not local", b"552 5.2.2 over quota", b"553 no such name"):
        server = MailServer(greylists=1)
        server.put_off = reply
        ran = run(["hand-in", server.address], outbox)
        wanted = [f"refused {at} {PATHS[at - 1].decode()}: {reply.decode()}" for at in (1, 2, 3)]
        checks.equal(f"{reply[:3].decode()}: each is refused", (ran.status, lines_of(ran)), (0, wanted))


def check_hang_up(checks: Checks, outbox: bytes):
    """One at which the server hangs up doesn't keep the others."""
    server = StrictServer(hangs_up=["RCPT"])
    ran = run(["hand-in", server.address], outbox)
    wanted = wanted_of(outbox)
    checks.equal("the server hangs up once: status", ran.status, 0)
    checks.equal("the server hangs up once: order", [it[0] for it in taken_by(server)], [PATHS[1], PATHS[2], PATHS[0]])
    checks.equal("the server hangs up once: messages", sorted(taken_by(server)), sorted(wanted))


def check_strict(checks: Checks, outbox: bytes):
    """A server gets no command that it need not get, over one session."""
    server = StrictServer()
    ran = run(["hand-in", server.address], outbox)
    checks.equal("a strict server: status", ran.status, 0)
    checks.true("a strict server: its session is over", server.is_idle())
    words = [it.split()[0] for it in server.commands]
    checks.equal("a strict server: commands", words, [b"EHLO", *[b"MAIL", b"RCPT", b"DATA"] * NUMBER, b"QUIT"])
    checks.equal("a strict server: one session", server.connections, 1)


def check_limits(checks: Checks, outbox: bytes, room: Path):
    """The reply to a message is waited for longer than any other: its server may have the message."""
    record, server = room / "record", StrictServer()
    ran = run(["hand-in", server.address], outbox, env=preloading(built(room, "record"), RECORD=record))
    checks.equal("limits: status", ran.status, 0)
    calls = [it.split(" ") for it in record.read_text().splitlines()]
    # from the connection on; with each message's last bytes; with the command after it, at last QUIT
    wanted = ["60"] + NUMBER * ["600", "60"]
    checks.equal("limits of time for a reply", [asked for call, _, asked, *_ in calls if call == "limit"], wanted)


def check_lost_reply(checks: Checks, outbox: bytes):
    """One whose reply is lost isn't submitted again at once, since the server may have taken it."""
    server = MailServer(lost_replies=1)
    ran = run(["hand-in", server.address], outbox)
    wanted = wanted_of(outbox)
    checks.equal("a lost reply: status", ran.status, 0)
    checks.equal("a lost reply: messages", taken_by(server), [*wanted, wanted[0]])


def check_always(checks: Checks, outbox: bytes):
    """One at which the server always hangs up is kept once it is too old."""
    server = StrictServer()
    server.hangs_up_at = PATHS[1]
    ran = run(["hand-in", "--give-up", "2", server.address], outbox)
    wanted = wanted_of(outbox)
    checks.equal("it always hangs up at one: status", ran.status, 0)
    checks.equal("it always hangs up at one: messages", taken_by(server), wanted[::2])
    checks.true("it always hangs up at one: kept", ran.outbox.endswith(outbox.split(b"MAIL FROM:<>\r\n")[2]))


def check_not_too_old(checks: Checks, outbox: bytes):
    """One that is put off twice within the time after which it is given up is submitted, and not kept."""
    server = StrictServer()
    server.hangs_up_at = PATHS[1]
    # The second attempt is after 1 second, the third 2 seconds later.
    timer = threading.Timer(1.6, setattr, (server, "hangs_up_at", b""))
    timer.start()
    ran = run(["hand-in", "--give-up", "60", server.address], outbox)
    timer.join()
    wanted = wanted_of(outbox)
    checks.equal("put off twice within a minute: status", ran.status, 0)
    checks.equal("put off twice within a minute: messages", taken_by(server), [*wanted[::2], wanted[1]])
    checks.equal("put off twice within a minute: kept", ran.outbox, b"")


def check_paths(checks: Checks):
    """A recipient's path is that of the outbox, byte for byte."""
    server = MailServer()
    ran = run(["hand-in", server.address], outbox_for(ODD_PATHS))
    checks.equal("paths: status", ran.status, 0)
    given = [it for it in server.commands if it.startswith(b"RCPT")]
    checks.equal("paths", given, [b"RCPT TO:<" + it + b">" for it in ODD_PATHS])


def check_away(checks: Checks, outbox: bytes):
    """A server that isn't there is asked again after a second, and gets all in order."""
    free = socket.create_server(("127.0.0.1", 0))
    port = free.getsockname()[1]
    free.close()
    servers = []

    def come():
        time.sleep(0.5)
        servers.append(MailServer(port=port))

    coming = threading.Thread(target=come)
    coming.start()
    ran = run(["hand-in", f"127.0.0.1:{port}"], outbox)
    coming.join()
    checks.equal("the server comes later: status", ran.status, 0)
    checks.equal("the server comes later: messages", taken_by(servers[0]), wanted_of(outbox))
    said = lines_of(ran)[0]
    checks.true("the server comes later: said", said.startswith("not taken now 1 "))
    checks.true("and why", "Connection refused" in said or "No such file" in said)


def check_done(checks: Checks, outbox: bytes, room: Path):
    """A run goes on where the file of --done says."""
    done = room / "done"
    server = MailServer(refused={PATHS[2]})
    done.write_text("1\n")
    ran = run(["hand-in", "--done", str(done), server.address], outbox)
    checks.equal("with --done: status", ran.status, 0)
    checks.equal("with --done: messages", taken_by(server), wanted_of(outbox)[1:2])
    checks.equal("with --done: the mark", done.read_text(), "3\n")
    kept = (room / "done.refused").read_bytes()
    checks.true(
        "with --done: the refused notice is kept", kept.startswith(b"NOOP 550 5.1.1 no such user\r\nMAIL FROM:<>\r\n")
    )
    checks.equal("with --done: nothing on standard output", ran.outbox, b"")
    again = run(["hand-in", "--done", str(done), server.address], outbox)
    checks.equal("with --done again", (again.status, again.notes, len(server.taken)), (0, b"", 1))
    done.write_text("no number\n")
    checks.equal("a malformed mark", run(["hand-in", "--done", str(done), server.address], outbox).status, 1)


def check_done_behind(checks: Checks, outbox: bytes, room: Path):
    """What is taken behind one that is put off isn't submitted by the next run with the same file of --done."""
    done = room / "done_behind"
    server = MailServer(greylists=100)
    server.reply_to = lambda path: b"450 4.2.0 try again" if path == PATHS[0] else b"250 ok"
    ran = run(["hand-in", "--done", str(done), server.address], outbox)
    checks.equal("behind one: status", ran.status, 75)
    checks.equal("behind one: messages", taken_by(server), wanted_of(outbox)[1:])
    checks.equal("behind one: the file", done.read_text(), "0 1 3\n")
    del server.reply_to
    server.greylists = 0
    again = run(["hand-in", "--done", str(done), server.address], outbox)
    checks.equal("behind one: the next run", (again.status, lines_of(again)), (0, accepted(1)))
    checks.equal("behind one: each once", taken_by(server), [*wanted_of(outbox)[1:], wanted_of(outbox)[0]])
    checks.equal("behind one: the file then", done.read_text(), "3\n")
    for text in ("0 1\n", "0 2 1\n", "0  1 3\n", "0 1 3", "1 1 3\n"):
        done.write_text(text)
        ran = run(["hand-in", "--done", str(done), server.address], outbox)
        checks.equal(f"a malformed file: {text!r}", (ran.status, len(server.taken)), (1, NUMBER))


def transaction(path: bytes, message: bytes, body=None) -> bytes:
    """A mail transaction with a message that has no line of a dot (RFC 5321 section 3.3). MAIL says BODY=8BITMIME if the
    message has a byte above 127 (RFC 6152), or has these words."""
    words = (b" BODY=8BITMIME" if max(message) > 127 else b"") if body is None else body
    return b"MAIL FROM:<>%s\r\nRCPT TO:<%s>\r\nDATA\r\n%s.\r\n" % (words, path, message)


def between(transactions: list) -> bytes:
    """An outbox of these transactions, which is also what a server is sent."""
    return b"EHLO " + HOST.encode() + b"\r\n" + b"".join(transactions) + b"QUIT\r\n"


IN_ASCII = b"Subject: no\r\n\r\ncafe\x7f\r\n"
IN_UTF8 = b"Subject: no\r\n\r\ncaf\xc3\xa9\r\n"
NO_8BITMIME = "the server has no 8BITMIME, and the notice has 8bit bytes"


def check_eight_bit(checks: Checks):
    """A notice with bytes above 127 is submitted with BODY=8BITMIME, to a server that offers 8BITMIME. Any other server
    is sent nothing for it, over a session that is kept; the notice is refused for good."""
    parts = [transaction(PATHS[0], IN_ASCII), transaction(PATHS[1], IN_UTF8), transaction(PATHS[2], IN_ASCII)]
    for offers in ([b"8BITMIME"], [b"SIZE 10000000", b"8bitmime"], [b"PIPELINING", b"8BITMIME", b"ENHANCEDSTATUSCODES"]):
        server = OfferingServer(offers)
        ran = run(["hand-in", server.address], between(parts))
        checks.equal(f"8bit, {offers}: status and lines", (ran.status, lines_of(ran)), (0, accepted(1, 2, 3)))
        checks.equal(f"8bit, {offers}: sent", server.sent(), between(parts))
    refused = f"refused 2 {PATHS[1].decode()}: {NO_8BITMIME}"
    for offers in ([], [b"PIPELINING"], [b"8BITMIME2", b"X 8BITMIME"]):
        server = OfferingServer(offers)
        ran = run(["hand-in", server.address], between(parts))
        lines = accepted(1) + [refused] + accepted(3)
        checks.equal(f"no 8BITMIME, {offers}: status and lines", (ran.status, lines_of(ran)), (0, lines))
        checks.equal(f"no 8BITMIME, {offers}: sent", server.sent(), between([parts[0], parts[2]]))
        kept = b"NOOP " + NO_8BITMIME.encode() + b"\r\n" + parts[1]
        checks.equal(f"no 8BITMIME, {offers}: kept", ran.outbox, kept)
    server = OfferingServer([b"8BITMIME"])
    again = run(["hand-in", server.address], between([kept]))
    checks.equal("a kept notice: status", again.status, 0)
    checks.equal("a kept notice: sent", server.sent(), between(parts[1:2]))


def check_new_session(checks: Checks):
    """The first notice of a session, if the server lacks 8BITMIME: the session goes on with the next."""
    parts = [transaction(PATHS[0], IN_UTF8), transaction(PATHS[1], IN_ASCII)]
    server = OfferingServer()
    ran = run(["hand-in", server.address], between(parts))
    lines = [f"refused 1 {PATHS[0].decode()}: {NO_8BITMIME}"] + accepted(2)
    checks.equal("first without 8BITMIME: status and lines", (ran.status, lines_of(ran)), (0, lines))
    checks.equal("first without 8BITMIME: sent", server.sent(), between(parts[1:]))


def check_body(checks: Checks):
    """BODY is said by the bytes of the message, whatever the outbox says; no other word is read."""
    said = [transaction(PATHS[0], IN_ASCII, b" BODY=8BITMIME"), transaction(PATHS[1], IN_UTF8, b"")]
    sent = [transaction(PATHS[0], IN_ASCII), transaction(PATHS[1], IN_UTF8)]
    server = OfferingServer([b"8BITMIME"])
    ran = run(["hand-in", server.address], between(said))
    checks.equal("BODY by the bytes: status and lines", (ran.status, lines_of(ran)), (0, accepted(1, 2)))
    checks.equal("BODY by the bytes: sent", server.sent(), between(sent))
    for words in (b" BODY=7BIT", b" body=8bitmime", b" BODY=8BITMIME SIZE=1", b"  BODY=8BITMIME", b" BODY=8BITMIME "):
        ran = run(["hand-in", server.address], between([transaction(PATHS[0], IN_ASCII, words)]))
        checks.equal(f"MAIL with {words}", (ran.status, lines_of(ran)), (1, ["the outbox is cut short"]))


def check_malformed(checks: Checks, outbox: bytes):
    """Of an outbox that is cut short, the whole notices are submitted."""
    server = MailServer()
    ran = run(["hand-in", server.address], outbox[: outbox.rindex(b"DATA\r\n") + 20])
    checks.equal("cut short: status", ran.status, 1)
    checks.equal("cut short: lines", lines_of(ran), ["the outbox is cut short"] + accepted(1, 2))
    for text in (b"", b"MAIL FROM:<>\r\n", b"EHLO \r\nQUIT\r\n"):
        checks.equal(f"no outbox: {text}", run(["hand-in", server.address], text).status, 1)
    checks.equal("an empty outbox", run(["hand-in", server.address], b"EHLO a.example\r\nQUIT\r\n").status, 0)
    for words in (["hand-in"], ["hand-in", "localhost"], ["hand-in", "--give-up", "0", server.address]):
        checks.equal(f"wrong arguments: {words}", run(words, outbox).status, 2)


def main():
    checks = Checks("hand-in: an outbox's notices reach a mail server, or are kept")
    outbox = outbox_of(NUMBER)
    with tempfile.TemporaryDirectory(prefix="noticed-") as room:
        check_done_behind(checks, outbox, Path(room))
    check_taken(checks, outbox)
    check_refused(checks, outbox)
    check_put_off(checks, outbox)
    check_client_refused(checks, outbox)
    check_hang_up(checks, outbox)
    check_strict(checks, outbox)
    check_lost_reply(checks, outbox)
    check_always(checks, outbox)
    check_not_too_old(checks, outbox)
    check_paths(checks)
    check_eight_bit(checks)
    check_new_session(checks)
    check_body(checks)
    check_away(checks, outbox)
    with tempfile.TemporaryDirectory(prefix="noticed-") as room:
        check_limits(checks, outbox, Path(room))
        check_done(checks, outbox, Path(room))
    check_malformed(checks, outbox)
    checks.done()


if __name__ == "__main__":
    main()
