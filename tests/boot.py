"""Boots a real systemd in a container, where `make install` was done, runs each of root's commands of the installed
operating.md there, and checks their results: the units start where nothing is there, an agent's account gets its notice
made and can't read it, runs follow one another, a stop and a reboot are orderly, and a daemon that can't start isn't
tried too often. A small mail server in the container gets each notice once, over all of that.

    make boot
    NOTICED=/path/to/noticed python3 -m tests.boot FOLDER

It needs root and Debian's packages systemd-container and debootstrap. FOLDER is Debian's base system: debootstrap makes
it the first time, in a minute or two and 300 MB (`make boot` has it in /var/cache/noticed-boot). A run takes about a
minute, on an overlay over FOLDER, which it leaves as it is. Without a FOLDER, as in `make check`, it boots nothing.
tests/unit.py takes the unit's steps without systemd."""
import re
import signal
import subprocess
import sys
import time
from pathlib import Path

from tests.support.daemon_and_clients import FRAMES, NOTES, OUTBOX, append, flush, frames
from tests.support.page import Page
from tests.support.running import ROOT, Checks, program
from tests.support.system import Container, base_system, lacking, until

TOOLS = {"systemd-nspawn": "systemd-container", "debootstrap": "debootstrap", "nsenter": "util-linux", "make": "make"}
PATIENCE = 60  # seconds that one step in the container may take
CONNECTIONS = 10_000  # clients that ask nothing
PAGE = "/usr/local/share/doc/noticed/operating.md"
SOCKET, STATE = "/run/noticed/socket", "/var/lib/noticed"
KEPT, TAKEN = f"{STATE}/journal/refused", "/var/spool/sink"
MODES = [f"{mode} noticed noticed" for mode in ("drwxr-x---", "srw-rw----", "drwx------", "drwx------", "-rw-------")]
# The mail server of the container: each message that it takes is a file, of the recipient's line and the message.
SINK = f"""
import os
import socketserver
import time


class Sink(socketserver.StreamRequestHandler):
    def handle(self):
        self.wfile.write(b"220 sink\\r\\n")
        for line in self.rfile:
            word = line[:4].upper()
            if word == b"RCPT":
                to = line
            if word == b"DATA":
                self.wfile.write(b"354 go on\\r\\n")
                text = b"".join(iter(self.rfile.readline, b".\\r\\n"))
                name = "{TAKEN}/%d" % time.time_ns()
                with open(name + ".part", "wb") as it:
                    it.write(to + text)
                os.rename(name + ".part", name)
            self.wfile.write(b"250 ok\\r\\n")


socketserver.ThreadingTCPServer.allow_reuse_address = True
with socketserver.ThreadingTCPServer(("127.0.0.1", 25), Sink) as it:
    it.serve_forever()
"""
SINK_UNIT = """[Service]
ExecStart=/usr/bin/python3 /usr/local/libexec/sink.py
[Install]
WantedBy=multi-user.target
"""
USE_UP = f"""
import socket
for _ in range({CONNECTIONS}):
    try:
        with socket.socket(socket.AF_UNIX) as it:
            it.connect("{SOCKET}")
    except OSError:
        break
"""


def renamed(queue_id: bytes) -> bytes:
    """The example's frames, for a message of another queue id."""
    return append(0, queue_id) + flush(1, queue_id)


def open_log(number: int) -> bytes:
    """An outcome for a log of its own, which nobody flushes."""
    return frames.append(0, 2, b"OPEN%d" % number, b"x@y", 2, b"4.4.1")


class Machine(Container):
    """A container in which the daemon's unit is installed, and the page whose commands it runs."""

    page = None

    def shell(self, command: str) -> subprocess.CompletedProcess:
        """Runs commands of a page, as root's shell does."""
        return self.run("sh", "-c", f"set -e\n{command}")

    def sent(self, given: bytes, account="agent") -> bytes:
        """What `noticed send` answers an account of the container."""
        return self.run("runuser", "-u", account, "--", "noticed", "send", SOCKET, given=given).stdout

    def modes(self) -> list:
        """The modes and owners of the socket, the journal, what it keeps of refused notices, and their folders."""
        names = ("/run/noticed", SOCKET, STATE, f"{STATE}/journal", KEPT)
        return self.said("stat", "--format=%A %U %G", *names).splitlines()

    def taken(self, queue_id: bytes) -> list:
        """The messages that the mail server has about a message, each with its recipient's line."""
        names = sorted(self.file(TAKEN).glob("*[0-9]"))
        return [it for it in (name.read_bytes() for name in names) if b"\nMessage-ID: <B.%s." % queue_id in it]

    def gets(self, queue_id: bytes, patience: float = 15) -> bool:
        """Waits until the mail server has the notice about a message, and it is marked: then nothing submits it
        again."""
        return until(lambda: self.taken(queue_id) and self.marks()[0] == self.marks()[1], patience)

    def marks(self) -> list:
        """How many notices are marked, and how many were sealed."""
        said = self.said("runuser", "-u", "noticed", "--", "noticed", "journal", f"{STATE}/journal")
        return re.findall(r"^(?:marked|sealed) (\d+)$", said, re.M) or ["0", "1"]

    def runs(self) -> int:
        """How many runs of the daemon have begun."""
        return self.said("journalctl", "--unit=noticed", "--output=cat").count("listening on ")

    def listens(self) -> bool:
        """Waits until an agent's account can connect, which takes one of the daemon's connections."""
        return until(lambda: self.run("runuser", "-u", "agent", "--", "noticed", "send", SOCKET).returncode == 0, 20)

    def shows(self, key: str) -> str:
        """A property of the daemon's unit."""
        return self.said("systemctl", "show", "--value", f"--property={key}", "noticed")


def make_install(it: Machine):
    """`make install` into the container."""
    words = ["make", "install", "--silent", f"--old-file={program()}", f"BUILT={program()}", f"DESTDIR={it.root}"]
    subprocess.run([*words, "PREFIX=/usr/local"], cwd=ROOT, stdout=subprocess.DEVNULL, check=True)


def install(it: Machine):
    """The commands of the page up to the start of the units; and the mail server."""
    make_install(it)
    it.page = Page(str(it.file(PAGE)))
    it.page.take("make install")
    for name in ("agent", "stranger"):
        it.run("useradd", "--system", name).check_returncode()
    steps = it.page.take("systemd-sysusers ", "usermod ", "editor ").replace("CLIENT", "agent")
    it.shell(steps.replace("editor ", "test -w ")).check_returncode()
    it.run("mkdir", "--parents", TAKEN).check_returncode()
    it.file("/usr/local/libexec/sink.py").write_text(SINK)
    it.file("/etc/systemd/system/sink.service").write_text(SINK_UNIT)
    it.run("systemctl", "daemon-reload")
    it.run("systemctl", "enable", "--now", "sink").check_returncode()


def check_first_start(checks: Checks, it: Machine):
    """The unit comes up where nothing is there, and an agent's account has a notice made that it can't read."""
    steps = it.page.take("systemctl enable", "noticed status /")
    checks.equal("the start was over once it served", it.shell(steps).returncode, 0)
    checks.equal("systemctl is-active", it.said("systemctl", "is-active", "noticed"), "active")
    checks.equal("modes and owners", it.modes(), MODES)
    checks.equal("an agent's answers", it.sent(FRAMES), NOTES)
    checks.true("the mail server gets the notice", it.gets(b"A1B2C3"))
    text = OUTBOX.partition(b"RCPT TO:")[2].replace(b"DATA\r\n", b"", 1).partition(b"\r\n.\r\n")[0]
    checks.equal("byte for byte", it.taken(b"A1B2C3"), [b"RCPT TO:" + text + b"\r\n"])
    checks.equal("an account that isn't in the group", it.sent(FRAMES, "stranger"), b"")
    for command in (f"cat {KEPT}", f"ls {STATE}", f"rm {SOCKET}", f"noticed stop {SOCKET}"):
        checks.true(
            f"an agent can't {command}", it.run("runuser", "-u", "agent", "--", *command.split()).returncode != 0
        )
    checks.true("a line for the notice", "notice B.A1B2C3." in it.said("journalctl", "--unit=noticed", "--output=cat"))


def check_next_run(checks: Checks, it: Machine):
    """Clients that ask nothing end no run, and an open log stands, also over a restart at which a client waits."""
    checks.equal("an outcome", it.sent(open_log(0)), b"0 logged 0\n")
    checks.equal("empty connections", it.run("runuser", "-u", "agent", "--", "python3", "-c", USE_UP).stderr, b"")
    checks.equal("the log stands", it.sent(open_log(0)), b"0 logged 1\n")
    checks.equal("the unit wasn't started anew", it.shows("NRestarts"), "0")
    it.run("systemctl", "stop", "sink")
    checks.equal("an agent's answers without a mail server", it.sent(renamed(b"WAITS")), NOTES)
    before = it.runs()
    it.run("systemctl", "restart", "--no-block", "noticed")
    checks.equal("an agent's answer over a restart", it.sent(open_log(0)), b"0 logged 2\n")
    checks.true("the next run has begun", until(lambda: it.runs() > before, 10))
    said = it.said("journalctl", "--unit=noticed", "--output=cat").splitlines()
    checks.true("a line says that it waits", "notices waiting for the mail server: 1" in said)
    it.run("systemctl", "start", "sink")
    checks.true("once the mail server is there it comes", it.gets(b"WAITS", 30))


def check_by_hand(checks: Checks, it: Machine):
    """A message by hand, a log that is closed by hand, and what the page has to watch; and `noticed stop`, after which
    the next run begins at once."""
    typed = "".join(command.text for command in it.page.commands if command.prompt == "$")
    typed = typed.replace("A1B2C3", "HAND")  # a key that isn't closed in this run
    said = it.said("runuser", "-u", "agent", "--", "sh", "-c", f"cd /tmp\n{typed}")
    answers = [line.partition(", serial")[0] for line in said.splitlines()]
    wanted = ["Answer(reply=<Reply.LOGGED: 1>, value=0", "Answer(reply=<Reply.SEALED: 7>, value=1"]
    checks.equal("by hand", answers, wanted)
    checks.true("its notice comes", it.gets(b"HAND"))
    it.sent(frames.forget(0, 1, b"A1B2C3") + append(1, b"A1B2C3"))
    ran = it.shell(it.page.take("noticed discard ", "noticed forget "))
    words = [it.partition(b":")[0] for it in ran.stdout.splitlines()]
    checks.equal("a log that is closed by hand", (ran.returncode, words), (0, [b"discarded 1", b"forgotten"]))
    starts = ("noticed status /", "noticed status --open", "noticed status --prom", "journalctl ", "noticed journal /")
    for start in starts:
        ran = it.shell(it.page.take(start))
        checks.true(f"to watch: {start}: {ran.stderr}", not ran.returncode and ran.stdout)
    before = it.runs()
    checks.equal("noticed stop", it.run("runuser", "-u", "noticed", "--", "noticed", "stop", SOCKET).returncode, 0)
    checks.true("the next run begins at once", until(lambda: it.runs() > before, 5) and it.listens())


def check_refused(checks: Checks, it: Machine):
    """A notice that was refused is submitted again by the page's command, while the daemon runs; the daemon's account
    owns the file of later ones."""
    letter = OUTBOX.partition(b"\r\n")[2].removesuffix(b"QUIT\r\n").replace(b"A1B2C3", b"KEPT")
    it.file(KEPT).write_bytes(b"NOOP 550 no\r\n" + letter)
    checks.equal("submitted again", it.shell(it.page.take("noticed resubmit")).returncode, 0)
    checks.equal("the mail server has it", len(it.taken(b"KEPT")), 1)
    checks.equal("its file's owner", it.said("stat", "-c", "%U %a", KEPT), "noticed 600")


def check_kept(checks: Checks, it: Machine):
    """A backup and an upgrade: an open log stands over these."""
    checks.equal("an outcome", it.sent(open_log(2)), b"0 logged 0\n")
    it.run("mkdir", "/root/backup")
    ran = it.shell(it.page.take("cp -p ", "noticed journal BACKUP").replace("BACKUP", "/root/backup"))
    checks.true(f"a backup: {ran.stderr}", not ran.returncode and b"open D OPEN2 1\n" in ran.stdout)
    it.page.take("make install")
    make_install(it)
    ran = it.shell(it.page.take("systemctl daemon-reload && systemctl restart"))
    checks.equal("an upgrade", (ran.returncode, ran.stderr), (0, b""))
    checks.equal("the log stands", it.sent(open_log(2)), b"0 logged 1\n")
    it.page.all_run(checks, "#")


def check_run_file(checks: Checks, it: Machine):
    """The `run` file of the page, without systemd: a first start where nothing is there, and an orderly stop."""
    it.run("systemctl", "stop", "noticed.socket", "noticed")
    it.run("rm", "-rf", "/run/noticed", STATE)
    it.file("/root/run").write_text(it.page.file("#!/bin/sh\n"))
    words = ["nsenter", f"--target={it.leader()}", "--all", "--", "sh", "-c", "echo $$ > /root/pid; exec sh /root/run"]
    with subprocess.Popen(words, stdin=subprocess.DEVNULL, stdout=subprocess.PIPE) as running:
        try:
            checks.true("the run file: it listens", it.listens())
            checks.equal(
                "the run file: modes and owners", it.modes(), [MODES[0], "srwxrwx--- noticed noticed", *MODES[2:]]
            )
            checks.equal("the run file: an agent's answers", it.sent(renamed(b"RUNFILE")), NOTES)
            checks.true("the run file: the notice comes", it.gets(b"RUNFILE"))
        finally:
            it.run("noticed", "stop", SOCKET)
        notes = running.communicate(timeout=PATIENCE)[0]
    checks.equal("the run file: an orderly stop", running.returncode, 0)
    checks.true("the run file: its lines", b"notice B.RUNFILE.0 to <ann@example.com> accepted: 250 ok\n" in notes)


def check_killed(checks: Checks, it: Machine):
    """A daemon that was killed is started anew, and nothing that was answered is lost."""
    checks.equal("an agent's answers before the daemon is killed", it.sent(renamed(b"KILLED")), NOTES)
    checks.equal("an outcome that nobody flushes", it.sent(open_log(1)), b"0 logged 0\n")
    checks.true("its notice comes", it.gets(b"KILLED"))
    it.run("systemctl", "stop", "sink")
    checks.equal("answers without a mail server, before the kill", it.sent(renamed(b"UNSENT")), NOTES)
    it.run("systemctl", "kill", "--signal=KILL", "noticed")
    checks.equal("the log is kept", it.sent(open_log(1)), b"0 logged 1\n")
    it.run("systemctl", "start", "sink")
    checks.true("the notice that waited comes", it.gets(b"UNSENT", 30))


def check_stop(checks: Checks, it: Machine):
    """`systemctl stop` is orderly: what is open is named."""
    began = time.monotonic()
    checks.equal("systemctl stop", it.run("systemctl", "stop", "noticed.socket", "noticed").returncode, 0)
    checks.true("it took no long time", time.monotonic() - began < 10)
    checks.equal("the unit's result", (it.shows("Result"), it.shows("ActiveState")), ("success", "inactive"))
    checks.true(
        "the journal names what is open",
        "open D OPEN1 2" in it.said("journalctl", "--unit=noticed", "--output=cat").splitlines(),
    )
    it.run("systemctl", "start", "noticed.socket")
    checks.equal("the socket alone starts it for a client", it.sent(open_log(1)), b"0 logged 2\n")


def check_wrong(checks: Checks, it: Machine):
    """A wrong line of the configuration file is named, and the daemon isn't tried again; once it is right it starts."""
    path = it.file("/etc/noticed/noticed.conf")
    text = path.read_text()
    path.write_text(f"{text}agent = 1\n")
    checks.true("a restart fails", it.run("systemctl", "restart", "noticed").returncode != 0)
    checks.equal("the unit's state", it.shows("ActiveState"), "failed")
    checks.true("the line is named", "has an unknown key: 'agent'" in it.said("journalctl", "--unit=noticed"))
    path.write_text(text)
    checks.equal("a start", it.run("systemctl", "restart", "noticed").returncode, 0)
    checks.true("it serves", it.listens())


def check_reboot(checks: Checks, it: Machine):
    """A reboot is orderly, and the daemon is there after it, with the notice of before; and the mode of its folder is
    the unit's, also where it was another."""
    checks.equal("systemctl enable", it.run("systemctl", "enable", "noticed.socket", "noticed").returncode, 0)
    checks.equal("an agent's answers before the reboot", it.sent(renamed(b"BEFORE")), NOTES)
    it.run("chmod", "0755", STATE)
    checks.true("the container is up again", it.reboot() and it.listens())
    checks.equal("the daemon after the reboot", it.said("systemctl", "is-active", "noticed"), "active")
    checks.true("the notice of before the reboot comes", it.gets(b"BEFORE", 30))
    checks.equal("the folder's mode", it.said("stat", "--format=%A", STATE), "drwx------")
    checks.equal(
        "units that failed", it.said("systemctl", "list-units", "--failed", "--plain", "--no-legend", "noticed*"), ""
    )


def check_each_once(checks: Checks, it: Machine):
    """What is sealed after the reboot comes too; and no notice came twice, over all the runs before."""
    checks.equal("an agent's answers after the reboot", it.sent(renamed(b"AFTER")), NOTES)
    checks.true("its notice comes", it.gets(b"AFTER"))
    names = (b"A1B2C3", b"WAITS", b"HAND", b"KILLED", b"UNSENT", b"BEFORE", b"AFTER")
    checks.equal("how often each came", {name: len(it.taken(name)) for name in names}, dict.fromkeys(names, 1))
    checks.equal("none was refused", it.file(KEPT).read_bytes(), b"")


def check_all(checks: Checks, it: Machine):
    """Each part, with what the journal says where one fails; the first only, where the unit doesn't start."""
    parts = (
        check_first_start,
        check_next_run,
        check_by_hand,
        check_killed,
        check_stop,
        check_wrong,
        check_reboot,
        check_each_once,
        check_refused,
        check_kept,
        check_run_file,
    )
    for check in parts:
        failed = checks.failed
        check(checks, it)
        if checks.failed > failed:
            print(it.said("journalctl", "--unit=noticed*", "--no-pager", "--lines=30"))
        if checks.failed and check is check_first_start:
            return


def main():
    checks = Checks("boot: the units under a systemd of their own")
    if len(sys.argv) != 2:
        checks.skip("everything (name a FOLDER in which Debian's base system is made)")
        checks.done()
    if lacking(TOOLS):
        checks.skip(f"everything (needs {' and '.join(lacking(TOOLS))})")
        checks.done()
    signal.signal(signal.SIGTERM, lambda *_: sys.exit(1))
    with Machine(base_system(Path(sys.argv[1]).resolve())) as it:
        checks.true("the container boots", it.boot())
        install(it)
        check_all(checks, it)
    checks.done()


if __name__ == "__main__":
    main()
