"""Checks dist/noticed.service and its socket without systemd: their keys, by a parser; their steps in systemd's own
order (the folders are made, then the commands run), in a folder of this script's own with nothing there; the modes and
owners that come of it; the runs that follow one another, and their ends; and the whole of it by `systemd-analyze
verify` and `security` where that is installed. As root the daemon runs as an account of its own, and others try to get
at its socket and its journal. Its notices go to a mail server of this script. tests/boot.py tries them under systemd.
And dist/noticed-postfix.socket and .service: their keys, and that the command takes the sockets in a queue folder
of this script's, which a main.cf names. tests/boot_postfix.py tries both under systemd."""
import contextlib
import os
import pwd
import re
import shlex
import shutil
import signal
import socket
import stat
import subprocess
import sys
import tempfile
from dataclasses import dataclass
from pathlib import Path

from tests.support.daemon_and_clients import FIRST_FRAME, FRAMES, NOTES, PATIENCE
from tests.support.mail_servers import MailServer, comes_to
from tests.support.private_postfix import HANDS_ON
from tests.support.running import DIST, HOST, ROOT, Checks, Ran, program

UNIT, SOCKET = DIST / "noticed.service", DIST / "noticed.socket"
INSTANCE, INSTANCE_SOCKET = DIST / "noticed@.service", DIST / "noticed@.socket"
POSTFIX, SOCKETS = DIST / "noticed-postfix.service", DIST / "noticed-postfix.socket"
AGAIN = DIST / "noticed-postfix.timer"
QUEUE = "/var/spool/postfix"  # Postfix's folder, as Debian has it
DAEMON, AGENT, STRANGER = 64801, 64802, 64803  # accounts that no machine has; the daemon's group has its number
WANTED = {
    "Type": ["notify"],
    "User": ["noticed"],
    "Group": ["noticed"],
    "StateDirectory": ["noticed noticed/journal"],
    "StateDirectoryMode": ["0700"],
    "WorkingDirectory": ["/var/lib/noticed"],
    "ReadWritePaths": ["/run/noticed"],
    "EnvironmentFile": ["-/etc/default/noticed"],
    "StandardError": ["journal"],
    "LogRateLimitIntervalSec": ["0"],
    "Restart": ["always"],
    "RestartSec": ["1s"],
    "RestartPreventExitStatus": ["2"],
    "NoNewPrivileges": ["yes"],
    "ProtectSystem": ["strict"],
    "RestrictAddressFamilies": ["AF_UNIX AF_INET AF_INET6"],
    "IPAddressDeny": ["any"],
    "IPAddressAllow": ["localhost"],
}
WANTED_OF_SOCKET = {
    "ListenStream": ["/run/noticed/socket"],
    "SocketUser": ["noticed"],
    "SocketGroup": ["noticed"],
    "SocketMode": ["0660"],
}
MANUAL = re.compile(r"man:([\w-]+)\((\d)\)")  # what a unit's documentation names
EXPOSURE = 1.0  # what `systemd-analyze security` may say at most

# Of the unit for Postfix: its account, that it is there before Postfix asks, and what it may get at.
WANTED_OF_POSTFIX = {
    "User": ["postfix"],
    "Group": ["postfix"],
    "Restart": ["always"],
    "RestartSec": ["100ms"],
    "StandardError": ["journal"],
    "SyslogFacility": ["mail"],
    "LogRateLimitIntervalSec": ["0"],
    "NoNewPrivileges": ["yes"],
    "CapabilityBoundingSet": [""],
    "ProtectSystem": ["strict"],
    "ReadWritePaths": [QUEUE, "-/var/lib/postfix"],  # the second is data_directory, for templates
    "RestrictAddressFamilies": ["AF_UNIX"],
    "IPAddressDeny": ["any"],
}

# A service that can't begin gives its sockets up after three tries, and is tried again later.
WANTED_OF_FAILED = {
    "StartLimitIntervalSec": ["10s"],
    "StartLimitBurst": ["3"],
    "OnFailure": [AGAIN.name],
}

# Of the unit of its sockets: whose they are, and that systemd makes no folder for them, which would be root's.
WANTED_OF_SOCKETS = {
    "Unit": {"ConditionPathIsDirectory": [f"{QUEUE}/private"]},
    "Socket": {
        "ListenStream": [f"{QUEUE}/private/noticed-{name}" for name in ("bounce", "defer", "trace")],
        "SocketUser": ["postfix"],
        "SocketMode": ["0666"],
    },
    "Install": {"WantedBy": ["sockets.target"]},
}


# the installed pages
GUIDES = ("postfix.md", "bounce-features.md", "operating.md", "troubleshooting.md", "first-client.md")


def sections_of(text: str) -> dict:
    """The sections of a unit: for each key all its values, in their order."""
    sections, keys = {}, {}
    for line in text.splitlines():
        if line.startswith("[") and line.endswith("]"):
            keys = sections.setdefault(line[1:-1], {})
        elif line and not line.startswith(("#", ";")):
            key, _, value = line.partition("=")
            keys.setdefault(key, []).append(value)
    return sections


def words_of(command: str) -> list:
    """The words of a command line, with what systemd makes of `$$` and `%%`."""
    return [it.replace("$$", "$").replace("%%", "%") for it in shlex.split(command)]


@dataclass
class Machine:
    """A folder that stands for a machine where the unit was never started: `make install` was done, and there is
    nothing in /run and /var/lib. With `account` the daemon's commands run as an account of its own."""

    room: Path
    service: dict
    account: bool

    def __post_init__(self):
        self.room.chmod(0o777)
        for folder in ("run", "var/lib"):
            (self.room / folder).mkdir(parents=True)
        install(self.room)
        self.server, self.options = MailServer(), ""
        self.configure((self.room / "etc/noticed/noticed.conf").read_text())
        self.listener = socket.socket(socket.AF_UNIX)
        self.manager = socket.socket(socket.AF_UNIX, socket.SOCK_DGRAM)
        self.manager.settimeout(PATIENCE)

    def __enter__(self):
        """Makes what tmpfiles.d and the socket unit have."""
        line = (self.room / "usr/lib/tmpfiles.d/noticed.conf").read_text().splitlines()[-1].split()
        folder = self.path(line[1])
        folder.mkdir(parents=True)
        folder.chmod(int(line[2], 8))
        self.listener.bind(str(self.socket))
        self.socket.chmod(int(WANTED_OF_SOCKET["SocketMode"][0], 8))
        self.listener.listen()
        self.manager.bind(str(self.room / "notify"))
        (self.room / "notify").chmod(0o777)
        if self.account:
            for it in (folder, self.socket):
                os.chown(it, DAEMON, DAEMON)
        return self

    def __exit__(self, *_):
        self.listener.close()
        self.manager.close()

    def configure(self, text: str):
        """Writes the configuration file, with this machine's mail server."""
        text = text.replace("hand-in = localhost:25", f"hand-in = {self.server.address}")
        (self.room / "etc/noticed/noticed.conf").write_text(text)

    def path(self, name: str) -> Path:
        """Where a path of the unit is on this machine."""
        return self.room / name.lstrip("/")

    def here(self, command: str, values: dict) -> list:
        """The words of a command of the unit, with this machine's paths, and with these variables."""
        words = []
        for it in words_of(command.removeprefix("-")):
            if re.fullmatch(r"\$\w+", it):
                words += values.get(it[1:], "").split()
            else:
                words.append(re.sub(r"\$\{(\w+)\}", lambda found: values.get(found[1], ""), it))
        return [re.sub(r"(?<![\w/])/(?=(run|var|etc|usr)/)", f"{self.room}/", it) for it in words]

    def one(self, key: str, default: str = "") -> str:
        """The value of a key that stands once."""
        return self.service.get(key, [default])[-1]

    def folders(self):
        """Makes the folders as systemd does, which sets the mode of one that is there too."""
        for name in self.one("StateDirectory").split():
            folder = self.room / "var/lib" / name
            folder.mkdir(exist_ok=True)
            folder.chmod(int(self.one("StateDirectoryMode", "0755"), 8))
            if self.account:
                os.chown(folder, DAEMON, DAEMON)
        # a short journal: a start is quick
        for name, size in (("journal", 2**20), ("marks", 4096)):
            path = self.room / "var/lib/noticed/journal" / name
            if not path.exists():
                path.write_bytes(bytes(size))
                if self.account:
                    os.chown(path, DAEMON, DAEMON)

    def begin(self, command: str) -> subprocess.Popen:
        """Begins a command of the unit, in systemd's order, with the socket as its descriptor 3."""
        self.folders()
        # (the interpreter may lie where that account can't get to)
        drop = ["setpriv", f"--reuid={DAEMON}", f"--regid={DAEMON}", "--clear-groups", "--"] if self.account else []
        values = {"NOTICED_OPTIONS": self.options}
        words = [sys.executable, "-c", HANDS_ON, str(self.listener.fileno()), *drop, *self.here(command, values)]
        with open(self.room / "journal", "ab") as journal:
            return subprocess.Popen(
                words,
                stdin=subprocess.DEVNULL,
                stdout=journal,
                stderr=journal,
                cwd=self.path(self.one("WorkingDirectory")),
                env={**os.environ, "NOTIFY_SOCKET": str(self.room / "notify")},
                pass_fds=[self.listener.fileno()],
                umask=int(self.one("UMask", "0022"), 8),
            )

    def started(self, checks: Checks) -> subprocess.Popen:
        """A start, which is over once the daemon says so."""
        daemon = self.begin(self.one("ExecStart"))
        told = b""
        with contextlib.suppress(TimeoutError):
            while told != b"READY=1":
                told = self.manager.recv(100)
        checks.equal("the start is over", (told, daemon.poll()), (b"READY=1", None))
        return daemon

    def stop(self) -> int:
        """Runs the command that stops the unit: its status."""
        return self.begin(self.one("ExecStop")).wait(timeout=PATIENCE)

    @property
    def socket(self) -> Path:
        return self.room / "run/noticed/socket"

    @property
    def journal(self) -> Path:
        return self.room / "var/lib/noticed/journal"

    def notes(self) -> bytes:
        """What the daemon wrote to the journal."""
        return (self.room / "journal").read_bytes()

    def send(self, given: bytes = FRAMES, account: int = AGENT, groups=(DAEMON,)) -> Ran:
        """Runs `noticed send` as an account with these groups."""
        how = {"user": account, "group": account, "extra_groups": groups} if self.account else {}
        words = [str(self.room / "usr/bin/noticed"), "send", str(self.socket)]
        ended = subprocess.run(words, input=given, capture_output=True, check=False, timeout=PATIENCE, **how)
        return Ran(ended.stdout, ended.stderr, ended.returncode)

    def shell(self, command: str, account: int) -> int:
        """The status of a shell's command as an account of the daemon's group."""
        how = {"user": account, "group": account, "extra_groups": [DAEMON]} if self.account else {}
        words = ["sh", "-c", command]
        ended = subprocess.run(words, cwd=self.room, capture_output=True, check=False, timeout=PATIENCE, **how)
        return ended.returncode


def install(room: Path):
    """`make install` into a folder."""
    words = ["make", "--silent", f"--old-file={program()}", "install", f"BUILT={program()}", f"DESTDIR={room}"]
    subprocess.run([*words, "PREFIX=/usr"], cwd=ROOT, stdout=subprocess.DEVNULL, check=True, timeout=PATIENCE)


def has_accounts(checks: Checks) -> bool:
    """Whether commands can be run as other accounts here."""
    if os.geteuid():
        checks.skip("other accounts at the journal (needs root)")
        return False
    try:
        return subprocess.run(["true"], check=False, user=DAEMON, group=DAEMON, extra_groups=[AGENT]).returncode == 0
    except (OSError, subprocess.SubprocessError):
        checks.skip("other accounts at the journal (no command can be run as another account here)")
        return False


def mode_of(path: Path) -> str:
    """A file's kind and mode, as `ls` writes it."""
    return stat.filemode(path.lstat().st_mode)


def check_keys(checks: Checks, sections: dict):
    """The sections, and the keys that the daemon leans on."""
    checks.equal("sections", list(sections), ["Unit", "Service", "Install"])
    for key, value in WANTED.items():
        checks.equal(key, sections["Service"].get(key), value)
    unit = sections["Unit"]
    checks.equal("the count of starts has no limit", unit.get("StartLimitIntervalSec"), ["0"])
    checks.equal("its socket is there first", unit.get("Requires"), [SOCKET.name])
    given = sections_of(SOCKET.read_text())["Socket"]
    for key, value in WANTED_OF_SOCKET.items():
        checks.equal(f"the socket: {key}", given.get(key), value)
    commands = [it for key, values in sections["Service"].items() if key.startswith("Exec") for it in values]
    programs = {words_of(it.lstrip("-"))[0] for it in commands}
    checks.equal("no other program runs", programs, {"/usr/bin/noticed"})


def check_instance(checks: Checks):
    """The units of an instance are those of the daemon, with names of its own."""
    for plain, template in ((UNIT, INSTANCE), (SOCKET, INSTANCE_SOCKET)):
        told = [it for it in template.read_text().splitlines() if not it.startswith("#")]
        text = "\n".join(it for it in plain.read_text().splitlines() if not it.startswith("#"))
        for old, new in (
            ("notices\n", "notices (%i)\n"),
            ("noticed.socket", "noticed@%i.socket"),
            ("/etc/noticed/noticed.conf", "/etc/noticed/%i.conf"),
            ("/etc/default/noticed", "/etc/default/noticed-%i"),
            ("/run/noticed/socket", "/run/noticed/%i.socket"),
            ("noticed noticed/journal", "noticed noticed/%i noticed/%i/journal"),
            ("/var/lib/noticed", "/var/lib/noticed/%i"),
        ):
            text = text.replace(old, new)
        checks.equal(template.name, told, text.splitlines())


def check_access(checks: Checks, machine: Machine):
    """A first start as the unit has it, and who can do what then."""
    daemon = machine.started(checks)
    journal = machine.journal
    paths = [machine.socket.parent, machine.socket, journal.parent, journal, journal / "refused"]
    modes = ["drwxr-x---", "srw-rw----", "drwx------", "drwx------", "-rw-------"]
    checks.equal("modes", [mode_of(it) for it in paths], modes)
    checks.equal("an agent's account sends a message", machine.send(), Ran(NOTES, b"", 0))
    checks.true("the mail server has its notice", comes_to(lambda: len(machine.server.taken), 1))
    if machine.account:
        checks.equal("owners", {(it.stat().st_uid, it.stat().st_gid) for it in paths}, {(DAEMON, DAEMON)})
        checks.equal("an account that isn't in the group", machine.send(account=STRANGER, groups=[]).status, 1)
        check_others(checks, machine)
    checks.equal("the daemon is still there", daemon.poll(), None)
    checks.equal("the stop, and the daemon's status", (machine.stop(), daemon.wait(timeout=PATIENCE)), (0, 0))


def check_others(checks: Checks, machine: Machine):
    """What an agent's account can't do, though it is in the group that may connect."""
    tries = {
        "read the journal": f"cat {machine.journal}/journal",
        "cut the journal": f": > {machine.journal}/journal",
        "read what was refused": f"cat {machine.journal}/refused",
        "list the folder": f"ls {machine.journal.parent}",
        "remove the socket": f"rm {machine.socket}",
        "move the socket": f"mv {machine.socket} {machine.socket}.stopping",
        "put a file beside the socket": f": > {machine.socket}.mine",
        "lock the run's file": f"flock --nonblock {machine.socket}.run true",
        "stop the daemon": f"{machine.room}/usr/bin/noticed stop {machine.socket}",
    }
    for what, command in tries.items():
        checks.true(f"an agent can't {what}", machine.shell(command, AGENT) != 0)
    checks.true("the daemon's account can read it", machine.shell(f"cat {machine.journal}/refused", DAEMON) == 0)


def check_runs(checks: Checks, machine: Machine):
    """Two runs to their last connections, whose notices come once each; then a stop, and a kill."""
    machine.configure("host = mx.example.net\nagents = 1\nmax-use = 2\njournal = journal\nhand-in = localhost:25\n")
    for runs in (1, 2):
        daemon = machine.started(checks)
        frames = FRAMES.replace(b"A1B2C3", b"A1B2C%d" % runs)
        checks.equal("an agent's account sends a message", machine.send(frames).status, 0)
        checks.true("its notice comes", comes_to(lambda: len(machine.server.taken), runs))
        checks.equal("the run's last connection", machine.send(b""), Ran(b"", b"", 0))
        checks.equal("the run ends", daemon.wait(timeout=PATIENCE), 0)
        checks.equal("systemd's command after it", machine.stop(), 1)
    machine.options = "--end-on-fault --log"
    daemon = machine.started(checks)
    checks.equal("an outcome that nobody flushes", machine.send(FRAMES[:FIRST_FRAME]).outbox, b"0 logged 0\n")
    checks.equal("an orderly stop", (machine.stop(), daemon.wait(timeout=PATIENCE)), (0, 0))
    checks.true("what is open is named", b"open B A1B2C3 1\n" in machine.notes())
    checks.true("options of the environment", b"\nending: the run was stopped\n" in machine.notes())
    daemon = machine.started(checks)
    daemon.kill()
    daemon.wait()
    daemon = machine.started(checks)
    checks.equal("after a kill, the log is kept", machine.send(FRAMES[:FIRST_FRAME]).outbox, b"0 logged 1\n")
    checks.equal("the stop", (machine.stop(), daemon.wait(timeout=PATIENCE)), (0, 0))
    ids = [it.partition(b"Message-ID: <")[2].partition(b".17")[0] for _, it in machine.server.taken]
    checks.equal("each notice came once", ids, [b"B.A1B2C1", b"B.A1B2C2"])
    checks.equal("the socket's folder", [it.name for it in machine.socket.parent.iterdir()], ["socket"])


def check_wrong(checks: Checks, machine: Machine):
    """A wrong value ends the start with the status at which systemd tries no more."""
    machine.path("/etc/noticed/noticed.conf").write_text("host = mx.example.net\nagent = 1\n")
    daemon = machine.begin(machine.one("ExecStart"))
    checks.equal("a wrong key", str(daemon.wait(timeout=PATIENCE)), machine.one("RestartPreventExitStatus"))
    checks.true("is named with its line", b"noticed.conf:2: has an unknown key: 'agent'\n" in machine.notes())


def check_installed(checks: Checks, machine: Machine, *commands: str):
    """`make install` puts the units there, each file that they name, and what the pages for operators name."""
    named = [it for command in commands for it in words_of(command) if it.startswith(("/usr/", "/etc/noticed/"))]
    checks.equal(
        "files that the units name and that aren't installed",
        [it for it in named if not machine.path(it).is_file()],
        [],
    )
    units, folder = machine.path("/usr/lib/systemd/system"), machine.path("/usr/share/doc/noticed")
    wanted = {it.name for kind in ("service", "socket", "timer") for it in DIST.glob(f"noticed*.{kind}")}
    checks.equal("units that are installed", {it.name for it in units.iterdir()}, wanted)
    manual = machine.path("/usr/share/man")
    for name, section in {it for unit in units.iterdir() for it in MANUAL.findall(unit.read_text())}:
        checks.true(f"{name}({section}) is installed", (manual / f"man{section}/{name}.{section}").is_file())
    folders = ("share/noticed/clients/python", "lib/sysusers.d", "lib/tmpfiles.d")
    places = [units, folder, *(machine.path(f"/usr/{it}") for it in folders), machine.path("/etc/noticed")]
    there = {it.name for place in places for it in place.iterdir()}
    for page in GUIDES:
        text = (folder / page).read_text()
        files = set(re.findall(r"(?<![\w/.@-])[\w-]+\.(?:py|sh|conf|service|socket|c|frames|md)\b", text))
        made = set(re.findall(r"^\$ cat > (\S+)", text, re.M))
        checks.equal(f"files that {page} names and that aren't installed", sorted(files - there - made), [])
        elsewhere = re.findall(r"(?<![\w/])(?:docs|dist|examples|tests|bench|crates)[/.]\w+", text)
        checks.equal(f"places of the repository that {page} names", elsewhere, [])


def check_postfix(checks: Checks, machine: Machine):
    """The units for Postfix: the service has its account and its folder, the sockets are in that folder, and the
    command takes them; without them it is tried again."""
    given, sockets = sections_of(POSTFIX.read_text()), sections_of(SOCKETS.read_text())
    for name, keys in WANTED_OF_SOCKETS.items():
        for key, value in keys.items():
            checks.equal(f"for Postfix: {key}", sockets[name].get(key), value)
    checks.equal("for Postfix: sections", list(given), ["Unit", "Service", "Install"])
    for key, value in WANTED_OF_POSTFIX.items():
        checks.equal(f"for Postfix: {key}", given["Service"].get(key), value)
    checks.equal(
        "for Postfix: it is there before Postfix", given["Unit"].get("Before"), ["postfix.service postfix@-.service"]
    )
    for key, value in WANTED_OF_FAILED.items():
        checks.equal(f"for Postfix: {key}", given["Unit"].get(key), value)
    again = sections_of(AGAIN.read_text())
    checks.equal("for Postfix: it ends with the service", again["Unit"].get("PartOf"), [POSTFIX.name])
    checks.equal("for Postfix: when it is tried again", again["Timer"].get("OnUnitInactiveSec"), ["15s"])
    checks.equal("for Postfix: its sockets are there first", given["Unit"].get("Requires"), [SOCKETS.name])
    if not shutil.which("postconf") or not os.access("/usr/bin/python3", os.X_OK):
        checks.skip("the command for Postfix (needs Postfix's postconf and /usr/bin/python3)")
        return
    (command,) = given["Service"]["ExecStart"]
    queue, account = machine.path(QUEUE), pwd.getpwnam("nobody") if not os.geteuid() else pwd.getpwuid(os.geteuid())
    queue.mkdir(parents=True)
    (queue / "master.cf").touch()
    (queue / "main.cf").write_text(f"queue_directory = {queue}\nmyhostname = {HOST}\nmail_owner = {account.pw_name}\n")
    drop = ["setpriv", f"--reuid={account.pw_uid}", f"--regid={account.pw_gid}", "--clear-groups"]
    words = [*([] if os.geteuid() else drop), *machine.here(command, {})]
    words = ["env", "--ignore-environment", f"MAIL_CONFIG={queue}", "PATH=/usr/sbin:/usr/bin", *words]
    ended = subprocess.run(words, stdin=subprocess.DEVNULL, capture_output=True, check=False, timeout=PATIENCE)
    why = b"noticed-postfix: nobody can reach the sockets that it was given: noticed-bounce, noticed-defer, noticed-trace\n"
    checks.equal("for Postfix: without sockets", (ended.returncode, ended.stderr), (1, why))
    (queue / "private").mkdir()
    os.chown(queue / "private", account.pw_uid, account.pw_gid)
    check_inherits(checks, words, queue, [it.replace(QUEUE, str(queue)) for it in sockets["Socket"]["ListenStream"]])


def check_inherits(checks: Checks, words: list, folder: Path, paths: list):
    """A command for Postfix takes sockets that were made for it, and is ended by a signal."""
    with contextlib.ExitStack() as kept:
        given = [kept.enter_context(socket.socket(socket.AF_UNIX)) for _ in paths]
        for it, path in zip(given, paths):
            it.bind(path)
            os.chmod(path, int(WANTED_OF_SOCKETS["Socket"]["SocketMode"][0], 8))
            it.listen()
        descriptors = [it.fileno() for it in given]
        held = [sys.executable, "-c", HANDS_ON, ",".join(map(str, descriptors)), *words]
        how = {"stdin": subprocess.DEVNULL, "stderr": subprocess.PIPE, "pass_fds": descriptors}
        serving = kept.enter_context(subprocess.Popen(held, **how))
        checks.equal(
            "for Postfix: its first line", serving.stderr.readline(), f"listening in {folder} for {HOST}\n".encode()
        )
        serving.terminate()
        checks.equal("for Postfix: SIGTERM ends it", serving.wait(timeout=PATIENCE), -signal.SIGTERM)


def check_verify(checks: Checks, room: Path):
    """What systemd itself says of the installed units, and how exposed it finds the services."""
    if not shutil.which("systemd-analyze"):
        checks.skip("systemd-analyze (needs systemd)")
        return
    how = {"capture_output": True, "text": True, "check": False, "timeout": PATIENCE}
    how["env"] = {**os.environ, "LC_ALL": "C"}
    folder = room / "units"
    folder.mkdir()
    for it in (room / "usr/lib/systemd/system").iterdir():
        # (systemd asks for the program and the manual page where `make install` puts them)
        text = it.read_text().replace("/usr/bin/noticed ", f"{program()} ")
        text = text.replace("/usr/sbin/", f"{room}/usr/sbin/")
        text = re.sub(r"^Documentation=.*\n", "", text, flags=re.M)
        (folder / it.name.replace("@.", "@west.")).write_text(text)
    for it in sorted(folder.iterdir()):
        verified = subprocess.run(["systemd-analyze", "verify", "--man=no", str(it)], **how)
        checks.equal(f"verify {it.name}", (verified.returncode, verified.stdout + verified.stderr), (0, ""))
    for name in ("noticed.service", "noticed@west.service"):
        words = ["systemd-analyze", "security", "--offline=true", "--no-pager", str(folder / name)]
        said = subprocess.run(words, **how).stdout
        level = re.search(r"exposure level for \S+: ([\d.]+)", said)
        checks.true(f"security {name}: {level and level[1]}", level and float(level[1]) <= EXPOSURE)


def main():
    checks = Checks("unit: the systemd units of dist/, and the steps of the daemon's without systemd")
    sections = sections_of(UNIT.read_text())
    account = has_accounts(checks)
    check_keys(checks, sections)
    check_instance(checks)
    for check in (check_access, check_runs, check_wrong):
        with tempfile.TemporaryDirectory(prefix="noticed-") as name:
            with Machine(Path(name), sections["Service"], account) as machine:
                check(checks, machine)
    with tempfile.TemporaryDirectory(prefix="noticed-") as name:
        machine = Machine(Path(name), sections["Service"], account)
        commands = [sections_of(it.read_text())["Service"]["ExecStart"][0] for it in (UNIT, POSTFIX)]
        check_installed(checks, machine, *commands)
        check_verify(checks, machine.room)
        check_postfix(checks, machine)
    checks.done()


if __name__ == "__main__":
    main()
