"""Installs the Debian package in containers with a systemd of their own and Debian's Postfix: this machine's Debian,
and the next one. README.md's commands, six at most, bring the first notice to root's mailbox. noticed-postfix puts it in
front of Postfix, and removing the package puts bounce(8) back. An upgrade from a package of another number restarts the
daemon and an instance over their journals, and no socket; open logs and the configuration file stay. Removing keeps the
journal, purging leaves nothing, and neither asks anything.

    NOTICED=/path/to/noticed python3 -m tests.boot_package FOLDER [SUITE ..]

It needs what tests/boot_postfix.py needs, and debhelper. FOLDER is that of tests/boot.py. Without a FOLDER, as in
`make check`, it boots nothing."""
import re
import signal
import subprocess
import sys
import tempfile
import time
from pathlib import Path

from tests.boot import open_log
from tests.boot_postfix import TOOLS, add_postfix
from tests.package import version
from tests.support.page import Page
from tests.support.running import ROOT, Checks, program
from tests.support.system import Container, base_system, lacking, suite, until

OLDER, NEXT = "0.9.9", "trixie"
SOCKETS = ("/run/noticed/socket", "/run/noticed/west.socket")
UNITS = ("noticed.service", "noticed.socket", "noticed@west.service", "noticed@west.socket")
COMMANDS, PATIENCE = 6, 120  # how many and how long from README to the first notice


class Machine(Container):
    """A container in which the package is installed."""

    def shell(self, command: str) -> subprocess.CompletedProcess:
        """Runs commands as root's shell does, beside the packages."""
        return self.run("sh", "-c", f"set -e; cd /root\n{command}")

    def apt(self, checks: Checks, *words: str):
        """Runs apt, which has nobody to ask."""
        ran = self.run("apt", "--yes", *words)
        checks.equal(f"apt {' '.join(words)}: {ran.stdout[-500:]} {ran.stderr[-500:]}", ran.returncode, 0)

    def mailbox(self) -> str:
        """Root's mailbox."""
        path = self.file("/var/mail/root")
        return path.read_text() if path.exists() else ""

    def logs(self, name: int) -> list:
        """Logs an outcome at the daemon and at the instance: what they answer."""
        return [self.run("noticed", "send", it, given=open_log(name)).stdout for it in SOCKETS]

    def runs(self) -> bool:
        """Whether a process of the program is there."""
        return "noticed" in self.said("sh", "-c", "cat /proc/[0-9]*/comm").split()

    def shows(self, key: str) -> list:
        """A property of each unit."""
        return [self.said("systemctl", "show", "--value", f"--property={key}", it) for it in UNITS]


def packages(room: Path) -> list:
    """The package, and one of another number with the same content."""
    words = ["make", "--silent", "deb", f"--old-file={program()}", f"BUILT={program()}"]
    subprocess.run(words, cwd=ROOT, stdout=subprocess.DEVNULL, check=True)
    newer, older = (f"noticed_{it}_amd64.deb" for it in (version(), OLDER))
    subprocess.run(["dpkg-deb", "--raw-extract", ROOT / "out" / newer, room / "older"], check=True)
    control = room / "older/DEBIAN/control"
    control.write_text(re.sub(r"^Version: .*", f"Version: {OLDER}", control.read_text(), flags=re.M))
    words = ["dpkg-deb", "--root-owner-group", "--build", room / "older", room / older]
    subprocess.run(words, stdout=subprocess.DEVNULL, check=True)
    return [ROOT / "out" / newer, room / older]


def check_first(checks: Checks, it: Machine):
    """README's commands, from nothing to the first notice."""
    page, began = Page("README.md", "Install"), time.monotonic()
    checks.true(f"README's commands: {len(page.commands)}", len(page.commands) <= COMMANDS)
    text = page.take(*(it.text for it in page.commands)).replace("editor ", "sed -i s/mx.example.net/mx.boot.example/ ")
    ran = it.shell(text)
    checks.equal(f"README's commands: {ran.stderr}", ran.returncode, 0)
    came = until(lambda: "Message-ID: <B.A1B2C3." in it.mailbox())
    took = time.monotonic() - began
    print(f"  from README's first command to the notice in the mailbox: {took:.0f} seconds")
    checks.true("the first notice is in the mailbox", came and took < PATIENCE)
    checks.true("it says what happened", "    The address does not exist." in it.mailbox())
    checks.true("it has the host's name", "Reporting-MTA: dns; mx.boot.example" in it.mailbox())
    checks.equal("units", it.shows("UnitFileState")[:2], ["enabled", "enabled"])
    checks.equal("units that failed", it.said("systemctl", "list-units", "--failed", "--no-legend", "noticed*"), "")


def check_postfix(checks: Checks, it: Machine):
    """In front of Postfix, and bounce(8) again once the package is removed."""
    it.shell("postconf -e myhostname=mx.boot.example; systemctl enable --now noticed-postfix").check_returncode()
    ran = it.shell("noticed-postfix enable && noticed-postfix test")
    lines = ran.stdout.decode().splitlines()
    checks.equal(f"noticed-postfix: {ran.stderr}", lines[-1:], ["right: notice to root in /var/mail/root"])
    print(f"  Postfix {it.said('postconf', '-h', 'mail_version')}: {lines[-1:]}")
    it.apt(checks, "remove", "noticed")
    asked = it.said("postconf", "-h", "bounce_service_name", "defer_service_name", "trace_service_name")
    checks.equal("Postfix asks bounce(8)", asked.split(), ["bounce", "defer", "trace"])
    it.shell("printf 'Subject: x\\n\\nx\\n' | sendmail -f root nosuch@mx.boot.example").check_returncode()
    checks.true("which makes notices", until(lambda: "rfc822; nosuch@mx.boot.example" in it.mailbox()))


def check_upgrade(checks: Checks, it: Machine, newer: str, older: str):
    """An upgrade, while the daemon and an instance have open logs."""
    it.apt(checks, "purge", "noticed")
    it.apt(checks, "install", f"/root/{older}")
    it.shell("sed -i s/mx.example.net/mx.boot.example/ /etc/noticed/noticed.conf").check_returncode()
    it.shell("cp /etc/noticed/noticed.conf /etc/noticed/west.conf").check_returncode()
    checks.true("nothing was started", not it.runs())
    it.shell("systemctl enable --now noticed noticed@west").check_returncode()
    checks.equal("outcomes", it.logs(1), 2 * [b"0 logged 0\n"])
    processes, since = it.shows("MainPID"), it.shows("ActiveEnterTimestampMonotonic")
    it.apt(checks, "install", f"/root/{newer}")
    checks.equal("the package", it.said("dpkg-query", "--showformat=${Version}", "--show", "noticed"), version())
    checks.equal("the logs stand", it.logs(1), 2 * [b"0 logged 1\n"])
    checks.equal("units", it.shows("ActiveState"), 4 * ["active"])
    restarted = [before != after for before, after in zip(processes, it.shows("MainPID"))]
    checks.equal("services are restarted", restarted[::2], [True, True])
    checks.equal("sockets aren't", it.shows("ActiveEnterTimestampMonotonic")[1::2], since[1::2])
    checks.true("the configuration file stays", "mx.boot.example" in it.file("/etc/noticed/noticed.conf").read_text())


def check_removal(checks: Checks, it: Machine, newer: str):
    """Removed, installed again, and purged."""
    it.apt(checks, "remove", "noticed")
    checks.true("nothing runs", not it.runs())
    checks.true("the journal is kept", it.file("/var/lib/noticed/journal/journal").exists())
    it.apt(checks, "install", f"/root/{newer}")
    it.shell("systemctl start noticed noticed@west").check_returncode()
    checks.equal("the logs stand", it.logs(1), 2 * [b"0 logged 2\n"])
    it.apt(checks, "purge", "noticed")
    checks.true("nothing runs after a purge", not it.runs())
    left = it.said("find", "/etc", "/usr", "/var/lib", "/var/cache", "/run", "-path", "*noticed*").splitlines()
    checks.equal("what a purge leaves", left, ["/etc/noticed", "/etc/noticed/west.conf"])


def main():
    checks = Checks("boot_package: the Debian package, from its installation to its removal")
    if len(sys.argv) < 2:
        checks.skip("everything (name a FOLDER in which Debian's base system is made)")
        checks.done()
    tools = TOOLS | {"dh": "debhelper"}
    if lacking(tools):
        checks.skip(f"everything (needs {' and '.join(lacking(tools))})")
        checks.done()
    signal.signal(signal.SIGTERM, lambda *_: sys.exit(1))
    folder = Path(sys.argv[1]).resolve()
    with tempfile.TemporaryDirectory(prefix="noticed-") as room:
        files = packages(Path(room))
        for named in sys.argv[2:] or [suite(), NEXT]:
            print(f"  Debian {named}", flush=True)
            with Machine(base_system(folder if named == suite() else folder / named, named)) as it:
                checks.equal(f"{named}: Postfix is installed", add_postfix(it), "")
                it.file("/usr/sbin/policy-rc.d").unlink()
                for file in files:
                    subprocess.run(["install", "-m", "644", file, it.file(f"/root/{file.name}")], check=True)
                checks.true(f"{named}: the container boots", it.boot())
                check_first(checks, it)
                check_postfix(checks, it)
                check_upgrade(checks, it, *(file.name for file in files))
                check_removal(checks, it, files[0].name)
                if checks.failed:
                    print(it.said("journalctl", "--no-pager", "--lines=60"))
    checks.done()


if __name__ == "__main__":
    main()
