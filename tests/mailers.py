"""Has daemons submit their notices to the mail servers that this machine has: aiosmtpd, Postfix, exim and OpenSMTPD,
each with a configuration of this script's own. They relay to a small server of this script, and each notice arrives
once, for its one recipient, byte for byte behind what a server put in front. What is missing is skipped.

    python3 -m tests.mailers [--full] [--apart] [NAME]...

There are two runs of the daemon for each server, 20 with --full. With --apart each server is installed from its package
in a root of its own, as root."""
import contextlib
import os
import re
import shutil
import signal
import socket
import subprocess
import sys
import tempfile
import threading
import time
from collections import Counter
from pathlib import Path

try:
    from aiosmtpd.controller import Controller
except ImportError:
    Controller = None

from tests.serve_hand_in import Journal, free_port, journal_for
from tests.support.daemon_and_clients import Daemon, flush, frames
from tests.support.mail_servers import messages_of
from tests.support.running import ROOT, Checks, batch, program
from tests.support.system import KEPT, Layer, base_system, installed, lacking, until

RUN = 12  # notices of a run
TOOLS = {"debootstrap": "debootstrap", "unshare": "util-linux"}
PATIENCE = 120  # seconds until all of them have arrived
# What a server may put in front: whole header fields.
FRONT = re.compile(rb"(?:[A-Za-z-]+: [^\r\n]*\r\n(?:[ \t][^\r\n]*\r\n)*)*")
PLAIN = [b"sender%%d.%d@example.com" % at for at in range(RUN)]
QUOTED = [b'"bea,ann%d"@example.com', b'"a:b%d"@example.com', b'"ann(x)%d"@example.com']
LITERAL = b"ann%d@[192.0.2.1]"


class Sink:
    """The server that all mail is relayed to: it accepts everything, and keeps each message and its paths."""

    def __init__(self):
        self.arrived, self.refused = [], []
        self.listener = socket.create_server(("127.0.0.1", 0), backlog=64)
        self.port = self.listener.getsockname()[1]
        threading.Thread(target=self.accept, daemon=True).start()

    def accept(self):
        while True:
            connection, _ = self.listener.accept()
            threading.Thread(target=self.serve, args=(connection,), daemon=True).start()

    def serve(self, connection):
        """One connection."""
        with contextlib.suppress(OSError), connection, connection.makefile("rwb") as stream:
            sender, paths = None, []
            stream.write(b"220 sink.example.net\r\n")
            stream.flush()
            while line := stream.readline():
                word = line[:4].upper()
                reply = b"250 ok"
                if word == b"MAIL":
                    sender, paths = line, []
                elif word == b"RCPT":
                    paths.append(line.strip().partition(b":")[2].strip()[1:].partition(b"> ")[0].removesuffix(b">"))
                elif word == b"DATA":
                    stream.write(b"354 go on\r\n")
                    stream.flush()
                    lines = iter(stream.readline, b".\r\n")
                    self.take(sender, paths, b"".join(it.removeprefix(b".") for it in lines))
                elif word == b"QUIT":
                    reply = b"221 bye"
                elif word not in (b"EHLO", b"HELO", b"RSET", b"NOOP"):
                    self.refused.append(line)
                    reply = b"500 what"
                stream.write(reply + b"\r\n")
                stream.flush()

    def take(self, sender: bytes, paths: list, message: bytes):
        """A message; one that isn't from the null sender is named."""
        if sender.upper().startswith(b"MAIL FROM:<>"):
            self.arrived.append((tuple(map(unquoted, paths)), message))
        else:
            self.refused.append(sender + message)


def unquoted(path: bytes) -> bytes:
    """A path without the quotes of its local part (RFC 5321 section 4.1.2)."""
    local, at, domain = path.rpartition(b"@")
    if local.startswith(b'"') and local.endswith(b'"'):
        local = re.sub(rb"\\(.)", rb"\1", local[1:-1])
    return local + at + domain


class Handler:
    """What aiosmtpd asks: it is the sink itself."""

    def __init__(self, sink: Sink):
        self.sink = sink

    async def handle_DATA(self, server, session, envelope):
        self.sink.take(
            b"MAIL FROM:<" + (envelope.mail_from or "").strip("<>").encode() + b">",
            [it.encode() for it in envelope.rcpt_tos],
            envelope.content,
        )
        return "250 taken"


@contextlib.contextmanager
def running(*words, port=None):
    """A program that runs meanwhile; it is waited for until somebody listens on its port."""
    with subprocess.Popen(words, stdout=subprocess.DEVNULL, stderr=subprocess.DEVNULL) as it:
        began = time.monotonic()
        while port and time.monotonic() - began < PATIENCE:
            with contextlib.suppress(OSError), socket.create_connection(("127.0.0.1", port)):
                break
            time.sleep(0.05)
        try:
            yield
        finally:
            it.terminate()
            it.wait(timeout=PATIENCE)


@contextlib.contextmanager
def aiosmtpd(sink: Sink, room: Path):
    """aiosmtpd, in this process."""
    server = Controller(Handler(sink), hostname="127.0.0.1", port=free_port(), ready_timeout=PATIENCE)
    server.start()
    try:
        yield f"127.0.0.1:{server.port}"
    finally:
        server.stop()


@contextlib.contextmanager
def exim(sink: Sink, room: Path):
    """exim's daemon, which queues each message and delivers it at once."""
    (room / "spool").mkdir()
    port = free_port()
    (room / "exim.conf").write_text(
        f"""primary_hostname = mx.example.net
spool_directory = {room}/spool
log_file_path = {room}/spool/%slog
pid_file_path = {room}/spool/pid
keep_environment =
tls_advertise_hosts =
local_interfaces = 127.0.0.1
daemon_smtp_ports = {port}
smtp_accept_queue_per_connection = 0
rfc1413_query_timeout = 0s
host_lookup =
acl_smtp_rcpt = taken
begin acl
taken:
  accept
begin routers
all:
  driver = manualroute
  transport = sink
  route_list = * 127.0.0.1 byname
  self = send
begin transports
sink:
  driver = smtp
  port = {sink.port}
  allow_localhost
begin retry
* * F,1h,1s
"""
    )
    room.chmod(0o755)
    shutil.chown(room / "spool", "Debian-exim")
    with running("exim4", "-C", str(room / "exim.conf"), "-bdf", "-q2s", port=port):
        yield f"127.0.0.1:{port}"


@contextlib.contextmanager
def opensmtpd(sink: Sink, room: Path):
    """OpenSMTPD's daemon, over its own queue."""
    port = free_port()
    (room / "smtpd.conf").write_text(
        f"""listen on 127.0.0.1 port {port} hostname mx.example.net
action "sink" relay host smtp://127.0.0.1:{sink.port}
match from any for any action "sink"
"""
    )
    with running("smtpd", "-d", "-f", str(room / "smtpd.conf"), port=port):
        yield f"127.0.0.1:{port}"


@contextlib.contextmanager
def postfix(sink: Sink, room: Path):
    """Postfix's smtpd, and the daemons that take what it queues."""
    for name in ("etc", "queue", "data"):
        (room / name).mkdir()
    room.chmod(0o755)
    shutil.chown(room / "data", "postfix")
    port = free_port()
    services = Path("/usr/share/postfix/master.cf.dist")
    services = services if services.exists() else Path("/etc/postfix/master.cf.proto")
    text = re.sub(r"^smtp( +inet)", rf"127.0.0.1:{port}\1", services.read_text(), flags=re.M)
    (room / "etc/master.cf").write_text(
        re.sub(r"^([\w.:]+ +(?:inet|unix|fifo) +[-yn]+ +[-yn]+ +)y", r"\1n", text, flags=re.M)
    )
    (room / "etc/main.cf").write_text(
        f"""compatibility_level = 3.6
queue_directory = {room}/queue
data_directory = {room}/data
myhostname = mx.example.net
mydestination =
mynetworks = 127.0.0.0/8
inet_interfaces = loopback-only
inet_protocols = ipv4
relayhost = [127.0.0.1]:{sink.port}
smtp_tls_security_level = none
smtpd_peername_lookup = no
smtp_dns_support_level = disabled
smtp_host_lookup = native
alias_maps =
alias_database =
maillog_file = {room}/log
maillog_file_prefixes = {room}
"""
    )
    words = ["postfix", "-c", str(room / "etc")]
    subprocess.run([*words, "start"], check=True, capture_output=True, timeout=PATIENCE)
    try:
        yield f"127.0.0.1:{port}"
    finally:
        subprocess.run([*words, "stop"], check=False, capture_output=True, timeout=PATIENCE)


# Each with what it needs, its package, whether it must be root's, and the addresses that it takes beside plain ones.
MAILERS = {
    aiosmtpd: (lambda: Controller is not None, "python3-aiosmtpd", False, QUOTED),
    postfix: (lambda: shutil.which("postfix"), "postfix", True, [*QUOTED, LITERAL]),
    exim: (lambda: shutil.which("exim4"), "exim4-daemon-light", True, QUOTED),
    opensmtpd: (lambda: shutil.which("smtpd"), "opensmtpd", True, []),
}


def senders(run: int, odd: list) -> list:
    """The recipients of a run's notices."""
    return [it % run for it in [*odd, *PLAIN][:RUN]]


def requests(run: int, odd: list, number: int = 0) -> bytes:
    """The frames of a run, numbered from a number on."""
    made = b""
    for at, sender in enumerate(senders(run, odd)):
        key = b"R%dx%d" % (run, at)
        made += frames.append(number + 2 * at, 1, key, b"bob@example.org", 1, b"5.1.1")
        made += flush(number + 2 * at + 1, key, return_path=sender, header=b"Subject: hi\n.dots\n..\n.\n")
    return made


def wanted(runs: int, odd: list) -> list:
    """What arrives of so many runs: the recipients of each notice, and its text."""
    outbox = batch(b"".join(requests(run, odd, 2 * RUN * run) for run in range(runs))).outbox
    paths = [(unquoted(to),) for run in range(runs) for to in senders(run, odd)]
    return sorted(zip(paths, messages_of(outbox)))


def without_front(message: bytes) -> bytes:
    """A message without the header fields that a server put in front of the notice's first one."""
    front, first, rest = message.partition(b"From: Mail Delivery System ")
    return first + rest if FRONT.fullmatch(front) else message


def one_run(journal: Journal, run: int, odd: list):
    """A daemon and its one client. It ends with the client, so some notices may wait for the next."""
    options = ("--journal", journal.folder, "--hand-in", journal.address)
    with Daemon(1, 1, options=options) as daemon:
        daemon.send(requests(run, odd))
        daemon.running.wait(timeout=PATIENCE)


def submitted(checks: Checks, mailer, runs: int, odd: list):
    """The notices of so many runs, and what arrives of them."""
    sink, name, count = Sink(), mailer.__name__, runs * RUN
    with tempfile.TemporaryDirectory(prefix="mailer-", ignore_cleanup_errors=True) as folder:
        with mailer(sink, Path(folder)) as address, journal_for(address) as journal:
            began = time.monotonic()
            for run in range(runs):
                one_run(journal, run, odd)
            with journal.daemon():
                checks.true(f"{name}: all are settled", journal.is_settled(count))
            took = time.monotonic() - began
            until(lambda: len(sink.arrived) >= count, PATIENCE)
            time.sleep(1)  # nothing more comes
            checks.equal(f"{name}: none is refused", journal.refused(), b"")
    print(f"  {name}: {count} notices of {runs} runs in {took:.0f} seconds, {len(sink.arrived)} arrived")
    arrived, all_of_them = Counter((paths, without_front(it)) for paths, it in sink.arrived), wanted(runs, odd)
    checks.equal(f"{name}: missing, or with other bytes", [it for it in all_of_them if not arrived[it]], [])
    checks.equal(f"{name}: more than once", [paths for (paths, _), times in arrived.items() if times > 1], [])
    checks.equal(f"{name}: what else came", [it for it in arrived if it not in all_of_them] + sink.refused, [])


def apart(checks: Checks, name: str, package: str, words: list):
    """This script for one mailer, in a root of its own."""
    with Layer(base_system(KEPT)) as it:
        it.bind(ROOT, "/noticed")
        it.bind(Path(program()), "/usr/local/bin/noticed")
        failed = installed(it, package)
        checks.equal(f"{name}: {package} is installed", failed, "")
        if not failed:
            script = ["env", "--chdir=/noticed", "/usr/bin/python3", "-m", "tests.mailers", *words, name]
            ran = it.inside(*script, NOTICED="/usr/local/bin/noticed")
            print("".join(f"{line}\n" for line in ran.stdout.splitlines() if line.startswith("  ")), end="", flush=True)
            counted = re.search(r"^  (\d+) held, 0 failed$", ran.stdout, re.MULTILINE)
            checks.true(f"{name}: each notice arrives once", ran.returncode == 0 and counted and int(counted[1]) > 0)


def main():
    checks = Checks("mailers: each notice that is submitted to a real mail server arrives once")
    options = {it for it in sys.argv[1:] if it.startswith("--")}
    runs = 20 if "--full" in options else 2
    named = [it for it in sys.argv[1:] if it not in options]
    if "--apart" in options and lacking(TOOLS):
        checks.skip(f"everything (needs {' and '.join(lacking(TOOLS))})")
        checks.done()
    signal.signal(signal.SIGTERM, lambda *_: sys.exit(1))
    for mailer, (is_there, package, is_of_root, odd) in MAILERS.items():
        name = mailer.__name__
        if named and name not in named:
            continue
        if "--apart" in options:
            apart(checks, name, package, sorted(options - {"--apart"}))
        elif not is_there():
            checks.skip(f"{name} (needs {package})")
        elif is_of_root and os.geteuid():
            checks.skip(f"{name} (needs root)")
        else:
            submitted(checks, mailer, runs, odd)
    checks.done()


if __name__ == "__main__":
    main()
