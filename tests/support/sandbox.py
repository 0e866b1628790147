"""A private Postfix that delivers mail itself. It has local(8) with aliases, owners, commands and files, pipe(8),
virtual(8), lmtp(8) over TCP and over a socket, and content filters. Its myorigin differs from its myhostname. Delivered
mail is read back from mailboxes, from the servers of the script, and from what the commands wrote."""
import re
import shutil
import socketserver
import threading
from pathlib import Path

from tests.postfix.capture import upstream
from tests.support.private_postfix import MAIN, Delivery, Mailbox, Postfix, free_ports, taken_by

HOME = "home.example.net"  # the domain of local(8), and myorigin
SIZE_LIMIT = 200_000  # bytes of a message and of a mailbox
RETURNED = 20_000  # the bytes of a message that a notice may return (bounce_size_limit)
NOBODY = 65534
INBOX = "inbox"  # the virtual mailbox of all senders, in which notices arrive

# What a command writes before it ends, by the word behind its exit status.
SAID = {
    "words": b"no room left\n",
    "lines": b"the first line\n  the second line\n\nthe last line\n",
    "status": b"5.2.3 too long for this box\n",
    "later": b"4.2.1 come back tomorrow\n",
    "utf": "kein Empfänger\n".encode(),
    "latin": b"kein Empf\xe4nger\n",
    "control": b"a tab\there, a bell\x07 and a \x1b[1mcolour\n",
    "long": b"very many words " * 120 + b"\n",
    "unbroken": b"w" * 1500 + b"\n",
    "angle": b"<odd>: see <rule>: not >: allowed\n",
    "fields": b"status=2.0.0\nrecipient=other@example.org\n\n",
}
# The command of pipe(8) and local(8), `ends CODE[.WORD] PLACE`. It writes the text of WORD and ends with status CODE.
# If that is 0, it records the message. `third` is 75 for the first two attempts at a message, then 0.
ENDS = """#!/bin/sh
name=$(sed -n 's/^Message-ID: //p')
case $1 in *.*) cat "{etc}/said/${{1#*.}}";; esac
code=${{1%%.*}}
[ "$code" = killed ] && kill -KILL $$
if [ "$code" = third ]; then
    echo >>"{room}/files/$name"
    [ "$(wc -l <"{room}/files/$name")" -ge 3 ] && code=0 || code=75
fi
[ "$code" = 0 ] && echo "$2 $name" >>"{taken}"
exit "$code"
"""
ALIASES = {
    "works": '"|{ends} 0 works"',
    "fails": '"|{ends} 69.words"',
    "busy": '"|{ends} 75.words"',
    "denied": '"|{ends} 77"',
    "two-fail": '"|{ends} 69.words", "|{ends} 77.lines"',
    "two-work": '"|{ends} 0 first", "|{ends} 0 second"',
    "one-fails": '"|{ends} 69.words", "|{ends} 0 beside"',
    "one-is-later": '"|{ends} 69.words", "|{ends} 75.later"',
    "file": "{room}/files/one",
    "folder": "{room}/files",
    "file-and-command": '{room}/files, "|{ends} 69.words"',
    "some": ":include:{etc}/members",
    "some-commands": ":include:{etc}/member-commands",
    "nowhere": ":include:{etc}/missing",
    "people": "games, nobody.there, ok.zoe@example.org",
    "away": "no.away@example.org",
    "around": "away, no.around@example.org",
    "shell": '"|cat >/dev/null; echo said by a shell; exit 69"',
    "missing": '"|cat >/dev/null; /nonexistent/program"',
    "third": '"|{ends} third again"',
    "odd..one": '"|{ends} 69.words"',
    "later-and-odd": f'"|{{ends}} 75.words", "no body"@{HOME}',
    # With an owner- alias: local(8) requests a notice of the one recipient for the owner, while it delivers.
    "list-command": '"|{ends} 69.words"',
    "list-two": '"|{ends} 69.words", "|{ends} 77.lines"',
    "list-mixed": '"|{ends} 69.words", "|{ends} 0 mixed", ok.list@example.org, no.list@example.org',
    "list-file": "{room}/files",
    "list-later": '"|{ends} 75.later"',
    "list-odd": '"|{ends} 69.utf"',
    "list-local": "games",
}
OWNERS = ("command", "two", "mixed", "file", "later", "odd", "local")
ALIASES |= {f"owner-list-{it}": "owner@example.com" for it in OWNERS}
# The notices of this owner arrive in a local mailbox.
ALIASES |= {"list-of-irc": '"|{ends} 69.words"', "owner-list-of-irc": "irc"}
FORWARDS = {"news": '"|{ends} 77.words"', "proxy": "no.proxy@example.org", "backup": '"|{ends} 0 forward"'}
MEMBERS = {"members": "games, ok.member@example.org, nobody.member", "member-commands": '"|{ends} 0 never"'}
SERVICES = """
127.0.0.1:{scanned} inet n - n - - smtpd
    -o content_filter=smtp:[127.0.0.1]:{again}
127.0.0.1:{plain} inet n - n - - smtpd
    -o content_filter=plain:[127.0.0.1]:{again}
127.0.0.1:{again} inet n - n - - smtpd
    -o myhostname=filter.example.net
    -o content_filter=
    -o receive_override_options=no_header_body_checks
local unix - n n - - local
virtual unix - n n - - virtual
lmtp unix - - n - - lmtp
plain unix - - n - - smtp
    -o smtp_discard_ehlo_keywords=dsn
ends unix - n n - - pipe
    flags=DORq user=nobody argv={room}/etc/ends $user pipe
scan unix - n n - - pipe
    flags=q null_sender= user=nobody argv={room}/etc/ends $nexthop scan
"""
HEADER_CHECKS = """
/^X-Scan: refused/ FILTER scan:69.status
/^X-Scan: later/ FILTER scan:75.words
/^X-Scan: server/ FILTER smtp:[127.0.0.1]:{upstream}
"""


class SocketServer(socketserver.ThreadingUnixStreamServer):
    """An LMTP server at a path."""

    daemon_threads, request_queue_size = True, 100

    def __init__(self, path: Path):
        self.notices, self.others, self.has_dsn = [], [], False
        super().__init__(str(path), upstream.Upstream)
        shutil.chown(path, "postfix")
        threading.Thread(target=self.serve_forever, daemon=True).start()

    def handle_error(self, request, client_address):
        """A connection that is given up is given up."""


def table(entries: dict) -> str:
    """A lookup table in the value of a setting (inline)."""
    return "inline:{ " + " ".join(f"{{ {key} = {value} }}" for key, value in entries.items()) + " }"


def settings_of(room: Path, ports: dict) -> dict:
    """The settings that are not those of MAIN."""
    transports = {
        "pipe.example.org": "ends:",
        "lmtp.example.org": f"lmtp:inet:127.0.0.1:{ports['lmtp']}",
        "box.example.org": "lmtp:unix:private/box",
        "shut.example.org": "lmtp:unix:private/nobody",
        "myself.example.org": f"smtp:[127.0.0.1]:{ports['smtp']}",
    }
    mailboxes = {"@example.com": f"{INBOX}/", "@lists.example.com": f"{INBOX}/"}
    mailboxes |= {"known@virtual.example.org": "known/", "full@virtual.example.org": "full"}
    mailboxes |= {"broken@virtual.example.org": "file/below/it"}
    aliases = {"team@virtual.example.org": "x@virtual.example.org, known@virtual.example.org"}
    return {
        "myorigin": HOME,
        "mydestination": HOME,
        "alias_maps": f"texthash:{room}/etc/aliases",
        "recipient_delimiter": "+",
        "biff": "no",
        "forward_path": f"{room}/etc/forward/$user",
        "mail_spool_directory": f"{room}/mail",
        "mailbox_transport_maps": table({"uucp": transports["lmtp.example.org"], "list": "lmtp:unix:private/box"}),
        "fallback_transport_maps": table({"no.longer": "error:5.1.6 the user has moved"}),
        "transport_maps": f"{MAIN['transport_maps']}, {table(transports)}",
        "virtual_alias_maps": f"{MAIN['virtual_alias_maps']}, {table(aliases)}",
        "virtual_mailbox_domains": "example.com, lists.example.com, virtual.example.org",
        "virtual_mailbox_maps": table(mailboxes),
        "virtual_mailbox_base": f"{room}/virtual",
        "virtual_uid_maps": f"static:{NOBODY}",
        "virtual_gid_maps": f"static:{NOBODY}",
        "ends_destination_recipient_limit": "1",
        "message_size_limit": str(SIZE_LIMIT),
        "mailbox_size_limit": str(SIZE_LIMIT),
        "virtual_mailbox_limit": str(SIZE_LIMIT),
        "bounce_size_limit": str(RETURNED),
    }


class Sandbox(Postfix):
    """The instance, with two LMTP servers beside the mail server to which it relays."""

    def __init__(self, mailbox: Mailbox, serves: str | None = None, milter_port=9, **settings):
        super().__init__(mailbox, serves, milter_port)
        self.lmtp = Mailbox()
        names = ("scanned", "plain", "again")
        self.ports |= dict(zip(names, free_ports(len(names)))) | {"lmtp": self.lmtp.port}
        self.settings |= settings_of(self.room, self.ports) | settings
        self.box = None
        self.prepare()

    def prepare(self):
        """Writes what local(8), pipe(8) and virtual(8) read, and makes the mailboxes."""
        room, etc = self.room, self.room / "etc"
        words = {"room": room, "etc": etc, "ends": etc / "ends", "taken": room / "taken"}
        for name, mode in {"mail": 0o1777, "files": 0o1777, "virtual": 0o777}.items():
            (room / name).mkdir()
            (room / name).chmod(mode)
        for name, texts in {"said": SAID, "forward": FORWARDS}.items():
            (etc / name).mkdir()
            for key, text in texts.items():
                (etc / name / key).write_bytes(
                    text if isinstance(text, bytes) else f"{text.format(**words)}\n".encode()
                )
        for name, text in MEMBERS.items():
            (etc / name).write_text(f"{text.format(**words)}\n")
        (etc / "aliases").write_text("".join(f"{key} {value.format(**words)}\n" for key, value in ALIASES.items()))
        (etc / "ends").write_text(ENDS.format(**words))
        (etc / "ends").chmod(0o755)
        for path, owner in {"mail/lp": "lp", "virtual/full": NOBODY, "virtual/file": NOBODY, "taken": NOBODY}.items():
            (room / path).write_bytes(b"x" * (SIZE_LIMIT - 100) if path in ("mail/lp", "virtual/full") else b"")
            shutil.chown(room / path, owner)

    def services(self) -> str:
        return super().services() + SERVICES.format(room=self.room, **self.ports)

    def write(self):
        super().write()
        checks = self.room / "etc/header_checks"
        checks.write_text(checks.read_text() + HEADER_CHECKS.format(**self.ports))

    def start(self, front=True):
        super().start(front)
        self.box = self.box or SocketServer(self.queue / "private/box")

    def deliveries(self) -> list[Delivery]:
        found = super().deliveries() + taken_by("lmtp", self.lmtp) + taken_by("box", self.box)
        for path in sorted((self.room / "virtual").glob("*/new/*")):
            found.append(in_mailbox(path.parent.parent.name, path.read_bytes()))
        for path in sorted([*(self.room / "mail").iterdir(), self.room / "files/one"]):
            if path.is_file():
                texts = re.split(rb"(?m)^From [^\n]*\n", path.read_bytes())[1:]
                found += [in_mailbox(path.name, it) for it in texts]
        for line in (self.room / "taken").read_bytes().splitlines():
            place, _, name = line.partition(b" ")
            found.append(Delivery("command", b"", [place], b"Message-ID: " + name + b"\n\n"))
        return found

    def __exit__(self, *_):
        super().__exit__(*_)
        for it in (self.lmtp, self.box):
            if it:
                it.shutdown()
                it.server_close()


def in_mailbox(place: str, text: bytes) -> Delivery:
    """A message as local(8) or virtual(8) wrote it, with its envelope in two fields of the header."""
    sender, recipient = (re.search(rb"(?m)^%s: <?([^>\n]*)" % it, text)[1] for it in (b"Return-Path", b"Delivered-To"))
    return Delivery(place, sender, [recipient], text)
