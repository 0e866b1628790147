"""A Postfix of its own on loopback for the scripts that need one, in a temporary folder: its queue, configuration, log
and ports are its own, it runs without systemd, and it ends with the script, also with one that is killed. Its notices
are made by its own bounce(8), or by a program in front of it that is given as `serves`. All mail goes to a server of
the script (tests/postfix/capture/upstream.py)."""
import contextlib
import grp
import os
import pwd
import random
import runpy
import shutil
import signal
import socket
import subprocess
import sys
import tempfile
import time
from dataclasses import dataclass
from pathlib import Path
from unittest import mock

from tests.postfix.capture import milter, upstream
from tests.support.running import DIST, program

HOST = "mx.example.net"
SBIN = Path("/usr/lib/postfix/sbin")
PATIENCE = 60  # seconds until a daemon listens, or has ended
QUEUES = ("maildrop", "incoming", "active", "deferred", "hold", "corrupt")
LOGS = ("bounce", "defer", "trace")
MAIN = {
    "compatibility_level": "3.6",
    "command_directory": "/usr/sbin",
    "daemon_directory": str(SBIN),
    "mail_owner": "postfix",
    "setgid_group": "postdrop",
    "inet_interfaces": "loopback-only",
    "inet_protocols": "ipv4",
    "myhostname": HOST,
    "mydestination": "",
    "mynetworks": "127.0.0.0/8",
    "alias_maps": "",
    "alias_database": "",
    "smtp_dns_support_level": "disabled",
    "smtp_host_lookup": "native",
    "smtpd_relay_restrictions": "permit_mynetworks, reject",
    "smtpd_recipient_restrictions": "",
    "smtpd_authorized_verp_clients": "127.0.0.1",
    "smtpd_hard_error_limit": "1000",
    "smtpd_reject_unlisted_recipient": "no",
    "smtpd_discard_ehlo_keywords": "",
    "smtpd_client_connection_count_limit": "0",
    "smtpd_peername_lookup": "no",
    "smtpd_tls_security_level": "none",
    "smtp_tls_security_level": "none",
    "virtual_alias_maps": "inline:{ { alias@example.org = no.behind@example.org }"
    " { everybody@example.org = no.one@example.org, no.two@example.org, later.three@example.org }"
    " { glad@example.org = ok.one@example.org, ok.two@example.org } }",
    "transport_maps": "inline:{ { gone.example.org = error:5.1.6 the domain has moved }"
    " { silent.example.org = error:5.7.1 }"
    " { paused.example.org = retry:4.3.2 deliveries are paused } { closed.example.org = smtp:[127.0.0.1]:9 } }",
    # nobody pauses where more mail comes in than goes out, neither a program in front nor bounce(8)
    "in_flow_delay": "0",
    "milter_default_action": "tempfail",
    "smtp_destination_concurrency_limit": "20",
    "smtp_connection_cache_on_demand": "no",
    "smtp_line_length_limit": "0",
    "smtpd_recipient_limit": "5000",
    "smtp_destination_concurrency_failed_cohort_limit": "0",
    "default_destination_concurrency_failed_cohort_limit": "0",
    # what is put off stays put off, unless the settings of an instance say otherwise
    "minimal_backoff_time": "4000s",
    "maximal_backoff_time": "4000s",
    "queue_run_delay": "3000s",
}
HEADER_CHECKS = """
/^X-Check: redirect/ REDIRECT later.redirected@example.org
/^X-Check: filter/ FILTER smtp:[127.0.0.1]:{upstream}
/^X-Check: prepend/ PREPEND X-Prepended: by a rule
/^X-Check: bcc/ BCC later.copy@example.org
"""
# A program in front submits its notices to this server, which refuses and changes none. Its cleanup(8) is that of
# dist/noticed-postfix.
HAND_IN = """
127.0.0.1:{hand_in} inet n - n - - smtpd
    -o syslog_name=postfix/hand-in
    -o smtpd_recipient_restrictions=permit_mynetworks,reject
    -o smtpd_milters=
    -o content_filter=
    -o receive_override_options=no_header_body_checks,no_milters,no_unknown_recipient_checks
    -o cleanup_service_name=noticed-cleanup
noticed-cleanup unix n - n - 0 cleanup
    -o always_bcc=
    -o sender_bcc_maps=
    -o recipient_bcc_maps=
    -o message_size_limit=0
    -o in_flow_delay=0
    {of_origin}
"""
SCRIPT = runpy.run_path(str(DIST / "noticed-postfix"))
OF_ORIGIN = SCRIPT["of_origin"]  # the options of its cleanup(8) for From
NO_TABLES = {"sender_canonical_maps": "", "sender_canonical_classes": ""}
# The queue manager is woken often. It puts a message whose file is locked back to those that came in, for a minute. It
# looks at these only if it is woken or mail comes.
MUTE = "    -o cleanup_service_name=nowhere"  # of bounce(8), so that it can't hand a notice in
MASTER = """
127.0.0.1:{smtp} inet n - n - - smtpd
127.0.0.1:{filtered} inet n - n - - smtpd
    -o smtpd_milters=inet:127.0.0.1:{milter}
pickup unix n - n 60 1 pickup
cleanup unix n - n - 0 cleanup
qmgr unix n - n 2 1 qmgr
rewrite unix - - n - - trivial-rewrite
bounce unix - - n - 0 bounce
{override}
defer unix - - n - 0 bounce
{override}
trace unix - - n - 0 bounce
{override}
verify unix - - n - 1 verify
flush unix n - n 1000? 0 flush
proxymap unix - - n - - proxymap
smtp unix - - n - - smtp
showq unix n - n - - showq
error unix - - n - - error
retry unix - - n - - error
postlog unix-dgram n - n - 1 postlogd
"""
HELD = []  # sockets that are bound to the ports of this script's instances, and don't listen
FRONT = {f"{it}_service_name": f"noticed-{it}" for it in LOGS}


def lacks() -> str:
    """What is missing here of what these scripts need, or nothing."""
    if os.geteuid():
        return "root"
    with contextlib.suppress(KeyError):
        if (
            pwd.getpwnam("postfix")
            and grp.getgrnam("postdrop")
            and (SBIN / "master").exists()
            and shutil.which("postfix")
        ):
            return ""
    return "the package postfix"


def free_ports(count: int) -> list[int]:
    """Ports of loopback that nobody has, below those that the system gives to others meanwhile. They stay bound until
    the script ends: Postfix sets SO_REUSEPORT, so two instances with one port would share its mail unnoticed."""
    found, dice = [], random.Random()
    while len(found) < count:
        port = dice.randrange(20_000, 32_000)
        with contextlib.suppress(OSError):
            socket.create_server(("127.0.0.1", port)).close()
            held = socket.socket()
            HELD.append(held)
            held.setsockopt(socket.SOL_SOCKET, socket.SO_REUSEPORT, 1)
            held.bind(("127.0.0.1", port))
            found.append(port)
    return found


def asked(path: Path, request: bytes, seconds=60.0) -> bytes:
    """What a service sends on a whole request of one of Postfix's programs: its announcement and its answer."""
    with socket.socket(socket.AF_UNIX) as stream:
        stream.settimeout(seconds)
        stream.connect(str(path))
        stream.sendall(request)
        said = b""
        while more := stream.recv(4096):
            said += more
        return said


def attributes(pairs) -> bytes:
    """A list of attributes as it is sent."""
    return (
        b"".join(
            name.encode() + b"\0" + (value if isinstance(value, bytes) else str(value).encode()) + b"\0"
            for name, value in pairs
        )
        + b"\0"
    )


def comes_true(holds, seconds=PATIENCE, every=0.05) -> bool:
    """Whether something holds before so many seconds are over."""
    until = time.monotonic() + seconds
    while not (so := holds()) and time.monotonic() < until:
        time.sleep(every)
    return bool(so)


def is_open(port: int) -> bool:
    with socket.socket() as probe:
        return probe.connect_ex(("127.0.0.1", port)) == 0


@dataclass
class Delivery:
    """A message as it was delivered: the place, its envelope, and its text."""

    place: str
    sender: bytes
    recipients: list
    text: bytes


def taken_by(place: str, server) -> list[Delivery]:
    """The messages that a mail server of the script accepted."""
    return [Delivery(place, b"", *it) for it in list(server.notices)] + [
        Delivery(place, *it) for it in list(server.others)
    ]


class Mailbox(upstream.Server):
    """The server to which all mail goes. Notices are kept as they came: to whom, and the text."""

    def __init__(self, has_dsn=False):
        super().__init__(0, has_dsn)
        self.port = self.server_address[1]

    def __enter__(self):
        return self

    def __exit__(self, *_):
        self.shutdown()
        self.server_close()


# Gives a program the descriptors that its first word names, as 3 and what follows: as systemd gives a service its
# sockets.
HANDS_ON = """
import fcntl, os, sys
given = [fcntl.fcntl(int(it), fcntl.F_DUPFD, 100) for it in sys.argv[1].split(",")]
for at, descriptor in enumerate(given, 3):
    os.dup2(descriptor, at)
    os.close(descriptor)
os.execvp(sys.argv[2], sys.argv[2:])
"""


class Front:
    """A program that serves in place of bounce(8): `PROGRAM postfix [OPTION].. QUEUE-FOLDER HOST HAND-IN`, run as
    Postfix's user. It inherits its sockets where it can (`--inherited`): so they take clients also while it is started
    anew."""

    def __init__(self, program: str, room: Path, hand_in: str):
        self.said, self.running, self.options = room / "front.log", None, []
        self.sockets = []
        self.queue, self.hand_in = room / "queue", hand_in
        self.program = room / Path(program).name
        if not self.program.exists():
            shutil.copy(program, self.program)  # where Postfix's user can reach it
            self.program.chmod(0o755)

    def start(self):
        """Starts it, and waits until it listens."""
        before = self.times_listening()
        held, inherited = [], []
        if self.has("--inherited"):
            self.sockets = self.sockets or [self.listens(f"noticed-{name}") for name in LOGS]
            descriptors = [it.fileno() for it in self.sockets]
            held, inherited = [sys.executable, "-c", HANDS_ON, ",".join(map(str, descriptors))], ["--inherited"]
        drop = ["setpriv", "--reuid=postfix", "--regid=postfix", "--clear-groups", "--pdeathsig=KILL", "--"]
        with self.said.open("ab") as out:
            words = [
                *held,
                *drop,
                str(self.program),
                "postfix",
                *self.options,
                *inherited,
                str(self.queue),
                HOST,
                self.hand_in,
            ]
            kept = [it.fileno() for it in self.sockets]
            self.running = subprocess.Popen(
                words, cwd="/", stdin=subprocess.DEVNULL, stdout=out, stderr=out, pass_fds=kept
            )
        if (
            not comes_true(lambda: self.times_listening() > before or self.running.poll() is not None)
            or self.running.poll() is not None
        ):
            raise RuntimeError(f"{self.program} doesn't listen: {self.said.read_text()[-2000:]}")

    def has(self, option: str) -> bool:
        """Whether the program has an option, as its usage says."""
        said = subprocess.run([str(self.program), "postfix"], capture_output=True, check=False, timeout=PATIENCE)
        return f"[{option}".encode() in said.stderr

    def listens(self, name: str) -> socket.socket:
        """A socket in the folder of Postfix's own ones, as a unit of systemd makes it."""
        path = self.queue / "private" / name
        path.unlink(missing_ok=True)
        listening = socket.socket(socket.AF_UNIX, socket.SOCK_STREAM)
        listening.bind(str(path))
        shutil.chown(path, "postfix")
        path.chmod(0o666)
        listening.listen(socket.SOMAXCONN)
        return listening

    def times_listening(self) -> int:
        return self.said.read_bytes().count(b"listening in ") if self.said.exists() else 0

    def kill(self, how=signal.SIGKILL):
        """Ends it by a signal; its status."""
        if self.running is None:
            return None
        if self.running.poll() is None:
            self.running.send_signal(how)
        return self.running.wait(timeout=PATIENCE)


class Postfix:
    """One instance. `serves` is the program in front of bounce(8), or None; `settings` are added to MAIN's."""

    def __init__(self, mailbox: Mailbox, serves: str | None = None, milter_port=9, place=None, **settings):
        self.room = Path(tempfile.mkdtemp(prefix="noticed-postfix-", dir=place))
        self.room.chmod(0o755)
        self.queue, self.mailbox, self.master, self.watcher = self.room / "queue", mailbox, None, None
        for name in ("etc", "queue", "data"):
            (self.room / name).mkdir()
        shutil.chown(self.room / "data", "postfix")
        self.smtp, self.filtered, self.hand_in = free_ports(3)
        self.ports = {
            "smtp": self.smtp,
            "filtered": self.filtered,
            "hand_in": self.hand_in,
            "milter": milter_port,
            "upstream": mailbox.port,
        }
        self.settings = (
            MAIN
            | {
                "queue_directory": str(self.queue),
                "data_directory": str(self.room / "data"),
                "maillog_file": str(self.room / "maillog"),
                "maillog_file_prefixes": str(self.room),
                "relayhost": f"[127.0.0.1]:{mailbox.port}",
                "header_checks": f"regexp:{self.room}/etc/header_checks",
            }
            | settings
        )
        self.mute = False  # whether no notice can be handed in, by bounce(8) or by a program in front
        self.front = Front(serves, self.room, f"127.0.0.1:{self.hand_in}") if serves else None
        self.settings |= FRONT if serves else {}

    def options(self) -> list:
        """The options of a program in front, which are what main.cf says."""
        named = {
            "maximal_queue_lifetime": "--lifetime",
            "bounce_size_limit": "--bounce-size-limit",
            "hash_queue_names": "--hash-queue-names",
            "hash_queue_depth": "--hash-queue-depth",
        }
        found = [(option, self.settings[name]) for name, option in named.items() if name in self.settings]
        return [
            word
            for option, value in found
            for word in (
                option,
                value.replace(" ", "").removesuffix("s") if option == "--lifetime" else value.replace(" ", ""),
            )
        ] + ["--threaded"] * (self.settings.get("enable_threaded_bounces") == "yes") + self.templates()

    def templates(self) -> list:
        """The option with the templates that noticed-postfix makes of bounce_template_file, if there is one."""
        if "bounce_template_file" not in self.settings:
            return []
        OF_ORIGIN.__globals__["program"] = program
        with mock.patch.dict(os.environ, MAIL_CONFIG=str(self.room / "etc")):
            files, wrong = SCRIPT["templates"](self.settings["bounce_template_file"], "postfix")
        (self.room / "templates").mkdir(exist_ok=True)
        for name, file in files.items():
            (self.room / "templates" / name).write_bytes(file)
        return ["--templates", str(self.room / "templates"), *wrong]

    def write(self):
        """Writes the configuration."""
        etc = self.room / "etc"
        (etc / "main.cf").write_text("".join(f"{name} = {value}\n" for name, value in self.settings.items()))
        settings = NO_TABLES | {"myorigin": HOST} | self.settings
        words = {"of_origin": "".join(f"-o {it} " for it in OF_ORIGIN(settings))} | self.ports
        (etc / "master.cf").write_text(self.services() + ("" if self.mute else HAND_IN.format(**words)))
        (etc / "header_checks").write_text(HEADER_CHECKS.format(**self.ports))
        # postfix(1) looks for these beside main.cf
        for name in ("postfix-files", "postfix-files.d", "dynamicmaps.cf", "dynamicmaps.cf.d"):
            if not (etc / name).is_symlink():
                (etc / name).symlink_to(f"/etc/postfix/{name}")

    def services(self) -> str:
        """The entries of master.cf, without those for a program in front."""
        return MASTER.format(override=MUTE if self.mute else "", **self.ports)

    def deliveries(self) -> list[Delivery]:
        """The messages that were delivered so far."""
        return taken_by("relay", self.mailbox)

    def varying(self) -> dict:
        """The texts that differ between two instances, each with its replacement."""
        return {str(port): name for name, port in self.ports.items()} | {str(self.room): "/room"}

    def command(self, *words: str, **how) -> subprocess.CompletedProcess:
        """Runs one of Postfix's commands on this instance."""
        name, *rest = words
        option = "-C" if name == "sendmail" else "-c"
        return subprocess.run(
            [f"/usr/sbin/{name}", option, str(self.room / "etc"), *rest],
            capture_output=True,
            check=False,
            timeout=PATIENCE,
            **how,
        )

    def start(self, front=True):
        """Starts it, with the program in front, and waits until it takes mail."""
        self.write()
        ran = self.command("postfix", "check")
        if ran.returncode:
            raise RuntimeError(f"postfix check: {ran.stderr.decode()}{self.log()[-2000:]}")
        if front and self.front:
            self.front.options = self.options()
            self.front.start()
        self.master = subprocess.Popen(
            [str(SBIN / "master"), "-c", str(self.room / "etc"), "-s"],
            cwd=self.queue,
            stdin=subprocess.DEVNULL,
            stdout=subprocess.DEVNULL,
            stderr=subprocess.DEVNULL,
            env={"PATH": os.environ["PATH"], "MAIL_CONFIG": str(self.room / "etc")},
        )
        self.watch()
        if not comes_true(lambda: (self.mute or is_open(self.hand_in)) and is_open(self.smtp)):
            raise RuntimeError(f"Postfix doesn't listen: {self.log()[-2000:]}")

    def watch(self):
        """Has a process wait for this script's end, also by a signal, and end Postfix then: its master forgets a signal
        that it is to get at the death of its parent, since it changes its user."""
        words = ["sh", "-c", 'cat; kill -s KILL -- "-$0"; rm -rf "$1"', str(self.master.pid), str(self.room)]
        self.watcher = subprocess.Popen(
            words, stdin=subprocess.PIPE, stdout=subprocess.DEVNULL, stderr=subprocess.DEVNULL, start_new_session=True
        )

    def reload(self):
        """Has it read its configuration again."""
        self.write()
        self.command("postfix", "reload")

    def stop(self, how=signal.SIGTERM, front=True):
        """Ends Postfix with all of its processes, and then the program in front."""
        if self.watcher:
            os.killpg(self.watcher.pid, signal.SIGKILL)
            self.watcher.communicate()
            self.watcher = None
        if self.master and self.master.poll() is None:
            self.master.send_signal(how)
            with contextlib.suppress(subprocess.TimeoutExpired):
                self.master.wait(timeout=10)
            with contextlib.suppress(ProcessLookupError):
                os.killpg(self.master.pid, signal.SIGKILL)
            self.master.wait(timeout=PATIENCE)
        comes_true(lambda: not self.processes())
        if front and self.front:
            self.front.kill(signal.SIGTERM)

    def processes(self, named="") -> list[int]:
        """The processes of this instance, or those of one of Postfix's programs: its master's session has them."""
        found = []
        for it in Path("/proc").iterdir():
            if self.master and it.name.isdigit():
                with contextlib.suppress(OSError, IndexError):
                    name, _, rest = (it / "stat").read_text().partition("(")[2].rpartition(")")
                    words = rest.split()
                    if int(words[3]) == self.master.pid and words[0] != "Z" and named in ("", name):
                        found.append(int(it.name))
        return found

    def log(self) -> str:
        path = self.room / "maillog"
        return path.read_text(errors="replace") if path.exists() else ""

    def service(self, name: str) -> Path:
        """The socket of the service that makes notices, of this name in Postfix."""
        return self.queue / "private" / self.settings.get(f"{name}_service_name", name)

    def complaints(self) -> list:
        """What it logged of things that went wrong in its programs."""
        return [
            it for it in self.log().splitlines() if any(word in it for word in (" fatal: ", " panic: ", " error: "))
        ]

    def queued(self, *queues) -> list[Path]:
        """The files of messages in these queues, or in all."""
        return self.files(queues or QUEUES)

    def logs(self, *kinds) -> list[Path]:
        """The log files of these kinds, or all."""
        return self.files(kinds or LOGS)

    def files(self, folders) -> list[Path]:
        found = []
        for folder in folders:
            with contextlib.suppress(FileNotFoundError):
                found += [it for it in (self.queue / folder).rglob("*") if it.is_file()]
        return found

    def has_both_logs(self) -> bool:
        """Whether the one message is deferred, with a log of refused recipients and one of those still tried."""
        return len(self.logs("bounce")) == len(self.logs("defer")) == len(self.queued("deferred")) == 1

    def at_work(self, empty=False) -> list[str]:
        """The files of messages that aren't deferred, and logs of no such message; with `empty`, all files."""
        kept = set() if empty else {it.name for it in self.queued("deferred")}
        held = self.queued("maildrop", "incoming", "active") + [
            it for it in self.queued() + self.logs() if it.name not in kept
        ]
        return sorted({str(it.relative_to(self.queue)) for it in held})

    def left(self, seconds=PATIENCE, empty=False) -> list[str]:
        """What is still at work when it has come to rest, or when so many seconds are over."""
        comes_true(lambda: not self.at_work(empty) and not time.sleep(0.3) and not self.at_work(empty), seconds, 0.2)
        return self.at_work(empty)

    def __enter__(self):
        return self

    def __exit__(self, *_):
        try:
            self.stop()
        finally:
            if self.master and self.processes():
                os.killpg(self.master.pid, signal.SIGKILL)
            if "KEEP" not in os.environ:
                shutil.rmtree(self.room, ignore_errors=True)


def mail_filter() -> milter.Server:
    """A mail filter at a free port, which changes what a message asks it to change."""
    return milter.Server(0)
