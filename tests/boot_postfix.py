"""Boots a real systemd in a container with Debian's Postfix, and runs there each command of docs/postfix.md, and those
of README.md, to put `noticed postfix` in front of it: the first notice arrives, what can't be said comes from
bounce(8), nothing is lost over a kill, a stop and a reboot, a service that can't begin holds up no good mail, a main.cf
that refuses everything keeps no notice out, and bounce(8) goes on with the logs that wait.

    NOTICED=/path/to/noticed python3 -m tests.boot_postfix FOLDER

It needs root, Debian's packages systemd-container and debootstrap, and a mirror of Debian, from which Postfix comes.
FOLDER is that of tests/boot.py. Without a FOLDER, as in `make check`, it boots nothing."""
import re
import signal
import subprocess
import sys
import time
from pathlib import Path

from tests.support.page import Page
from tests.support.running import HOST, ROOT, Checks, program
from tests.support.system import Container, base_system, installed, lacking, until

TOOLS = {"systemd-nspawn": "systemd-container", "debootstrap": "debootstrap", "nsenter": "util-linux", "make": "make"}
ANSWERS = f"postfix postfix/main_mailer_type select Internet Site\npostfix postfix/mailname string {HOST}\n"
QUEUE = "/var/spool/postfix"
DROP_IN = "/run/systemd/system/noticed-postfix.service.d/hindered.conf"
# What keeps the service from its start, each with how it is undone.
HINDERED = {
    "no postconf": ("mv /usr/sbin/postconf /root/postconf", "mv /root/postconf /usr/sbin/postconf"),
    "no python3": ("mv /usr/bin/python3 /root/python3", "mv /root/python3 /usr/bin/python3"),
    "a value that it doesn't take": (
        "postconf -e maximal_queue_lifetime=200d",
        "postconf -e maximal_queue_lifetime=5d",
    ),
    "a folder that isn't there": ("hinder ReadWritePaths=/nowhere", "unhinder"),
    "no memory": ("hinder LimitAS=4M", "unhinder"),
}
HINDER = r"""
hinder() { mkdir -p ${0%/*}; printf '[Service]\n%s\n' "$1" > $0; systemctl daemon-reload; }
unhinder() { rm $0; systemctl daemon-reload; }
"""
# Two messages at once to this machine, whoever its recipients are, as to a relay: two that hang hold up all others.
ONE_BY_ONE = (
    "minimal_backoff_time=2s",
    "maximal_backoff_time=2s",
    "queue_run_delay=2s",
    "local_destination_recipient_limit=2",
    "local_destination_concurrency_limit=2",
)
HELD = 2  # seconds for which good mail may be held up
# Settings of main.cf each of which would keep a notice out, or change it.
AGAINST = (
    "smtpd_milters=inet:127.0.0.1:9",
    "non_smtpd_milters=inet:127.0.0.1:9",
    "milter_default_action=tempfail",
    "header_checks=static:REJECT",
    "body_checks=static:REJECT",
    "nested_header_checks=static:REJECT",
    "mime_header_checks=static:REJECT",
    "content_filter=smtp:[127.0.0.1]:9",
    "smtpd_client_restrictions=reject",
    "smtpd_helo_restrictions=reject",
    "smtpd_sender_restrictions=reject",
    "smtpd_relay_restrictions=reject",
    "smtpd_recipient_restrictions=reject",
    "smtpd_data_restrictions=reject",
    "smtpd_end_of_data_restrictions=reject",
    "smtpd_helo_required=yes",
    "smtpd_delay_reject=no",
    "smtpd_reject_unlisted_recipient=yes",
    "smtpd_proxy_filter=127.0.0.1:9",
    "smtpd_command_filter=static:QUIT",
    "smtpd_client_connection_count_limit=1",
    "smtpd_client_connection_rate_limit=1",
    "smtpd_client_message_rate_limit=1",
    "smtpd_client_event_limit_exceptions=",
    "smtpd_tls_security_level=encrypt",
    "smtpd_upstream_proxy_protocol=haproxy",
    "mynetworks=10.0.0.0/8",
    "message_size_limit=100",
    f"always_bcc=copy@{HOST}",
)
HAND_IN = """
import smtplib, socket
class Session(smtplib.SMTP):
    def _get_socket(self, host, port, timeout):
        stream = socket.socket(socket.AF_UNIX)
        stream.connect(host)
        return stream
for to in ("root", "nosuch"):
    with Session("QUEUE/private/noticed-submit", 25, local_hostname="HOST") as server:
        server.sendmail("", [to + "@HOST"], "Subject: by hand\\r\\n\\r\\n" + 100 * "a notice\\r\\n")
""".replace(
    "HOST", HOST
).replace(
    "QUEUE", QUEUE
)


def add_postfix(it: Container) -> str:
    """Installs Debian's Postfix in a container that isn't booted yet: what failed."""
    it.file("/root/answers").write_text(ANSWERS)
    return (
        installed(it, "debconf")
        or it.inside("debconf-set-selections", "/root/answers").stdout
        or installed(it, "postfix")
    )


class Machine(Container):
    """A container with Postfix, and the page whose commands it runs."""

    page = Page("docs/postfix.md")

    def shell(self, command: str) -> subprocess.CompletedProcess:
        """Runs a command of a page, as root's shell does."""
        return self.run("sh", "-c", f"set -e\n{command}")

    def mailbox(self) -> str:
        """Root's mailbox."""
        path = self.file("/var/mail/root")
        return path.read_text() if path.exists() else ""

    def notices(self) -> list:
        """The queue ids of the messages of which a notice was taken, and the processes that said so, in their order."""
        said = self.said("journalctl", "--identifier=postfix/bounce", "--no-pager", "--output=short")
        return re.findall(r"postfix/bounce\[(\d+)\]: (\w+): sender non-delivery notification: \w+", said)

    def bounces(self, name: str) -> tuple:
        """Sends a message to nobody of that name, and waits until its notice is in the mailbox: who made it."""
        before = len(self.notices())
        self.shell(
            f"printf 'Subject: to {name}\\n\\nx\\n' | sendmail -f root@{HOST} '{name}@{HOST}'"
        ).check_returncode()
        came = until(
            lambda: f"Final-Recipient: rfc822; {name}@{HOST}" in self.mailbox() and len(self.notices()) > before
        )
        return self.notices()[-1] if came else ("", "")

    def main_process(self) -> str:
        """The process of the unit."""
        return self.said("systemctl", "show", "--value", "--property=MainPID", "noticed-postfix")

    def is_empty(self) -> bool:
        """Whether nothing is in the queue, and no log is left."""
        return self.said("mailq") == "Mail queue is empty" and not self.said(
            "find", f"{QUEUE}/bounce", f"{QUEUE}/defer", "-type", "f"
        )


def check_readme(checks: Checks, it: Machine):
    """README's commands, to noticed and back: at first something is missing, and at last all is as it was."""
    page, files = Page("README.md", "With Postfix"), ("/etc/postfix/main.cf", "/etc/postfix/master.cf")
    it.shell("postconf -e myhostname=mx.example.net").check_returncode()
    before = it.said("cat", *files)
    starts = ("systemctl ", "noticed-postfix check", "noticed-postfix enable", "noticed-postfix test")
    ends = [it.shell(page.take(start)).returncode for start in (*starts, "noticed-postfix disable")]
    checks.equal("README's commands", ends, [0, 1, 0, 0, 0])
    checks.equal("main.cf and master.cf", it.said("cat", *files), before)
    page.all_run(checks, "#")


def check_steps(checks: Checks, it: Machine):
    """The page's steps, from Debian's Postfix to the first notice; a change of main.cf; an upgrade."""
    starts = ("systemctl enable", "noticed-postfix enable", "noticed-postfix test")
    ran = it.shell(it.page.take(*starts))
    last = ran.stdout.decode().rstrip().rpartition("\n")[2]
    checks.equal("the steps", (ran.returncode, last), (0, "right: notice to root in /var/mail/root"))
    lines = it.said("journalctl", "--unit=noticed-postfix", "--output=cat")
    checks.true("it listens", f"listening in {QUEUE} for {HOST}" in lines)
    checks.equal("postfix check", it.run("postfix", "check").stderr, b"")
    checks.true("the first notice is there", "Final-Recipient: rfc822; refused@" in it.mailbox())
    made = it.notices()[-1:]
    checks.equal("its line", [process for process, _ in made], [it.main_process()])
    checks.true("its Message-ID", made and f"Message-ID: <B.{made[0][1]}." in it.mailbox())
    checks.true("nothing is left", until(it.is_empty, 10))
    it.shell("postconf -e maximal_queue_lifetime=6d").check_returncode()
    checks.equal("a change of main.cf is seen", it.shell("noticed-postfix check").returncode, 1)
    change = it.page.take("postfix reload", "systemctl restart noticed-postfix")
    it.shell(change).check_returncode()
    check = it.page.take("noticed-postfix check")
    checks.true("and is in effect", until(lambda: not it.shell(check).returncode, 10))
    upgrade = it.page.take("systemctl daemon-reload && systemctl restart")
    it.shell(upgrade).check_returncode()
    enable = it.page.take("noticed-postfix enable")
    checks.true("an upgrade", until(lambda: not it.shell(enable).returncode, 10))


def check_passed_on(checks: Checks, it: Machine):
    """What can't be said comes from bounce(8)."""
    made = it.bounces('"no body"')
    checks.true(f"a quoted recipient: {made}", made[0] and made[0] != it.main_process())
    checks.equal("another one", it.bounces("unquoted")[0], it.main_process())


def check_templates(checks: Checks, it: Machine):
    """A template is in the notices from the next start on, and out of them after one more: the unit may write its file."""
    template = "failure_template = <<END\nCharset: utf-8\nSubject: Nicht zugestellt\n\nZur\u00fcck von $myhostname.\nEND\n"
    write = f"cat > /etc/postfix/bounce.cf <<'EOF'\n{template}EOF\npostconf -e bounce_template_file=/etc/postfix/bounce.cf"
    for name, change, count in ("templated", write, 1), ("plain", "postconf -X bounce_template_file", 1):
        it.shell(f"{change}; systemctl restart noticed-postfix").check_returncode()
        checks.true(f"{name}: check", until(lambda: not it.shell("noticed-postfix check").returncode, 10))
        checks.equal(f"{name}: a notice", it.bounces(name)[0], it.main_process())
        found = it.mailbox().count("Subject: Nicht zugestellt"), it.mailbox().count(f"\nZur\u00fcck von {HOST}.\n")
        checks.equal(f"{name}: its words", found, (count, count))


def check_ends(checks: Checks, it: Machine):
    """Over a kill, a stop and a reboot each message has its notice; over a kill none is deferred: systemd keeps the
    sockets."""
    it.run("systemctl", "kill", "--signal=KILL", "noticed-postfix")
    checks.equal("after a kill", it.bounces("killed")[0], it.main_process())
    look = "journalctl --identifier=postfix/local --output=cat | grep 'to=<killed@' | grep -c status=deferred || true"
    checks.equal("it wasn't deferred", it.said("sh", "-c", look), "0")
    names = ["private", *(f"private/noticed-{name}" for name in ("bounce", "defer", "trace"))]
    modes = it.said("stat", "--format=%A %U", *(f"{QUEUE}/{name}" for name in names))
    checks.equal("modes", modes.splitlines(), ["drwx------ postfix", *3 * ["srw-rw-rw- postfix"]])
    it.shell("postconf -e minimal_backoff_time=2s maximal_backoff_time=2s queue_run_delay=2s; postfix reload")
    it.run("systemctl", "stop", "noticed-postfix.socket", "noticed-postfix")
    it.shell(f"printf 'Subject: x\n\nx\n' | sendmail -f root@{HOST} stopped@{HOST}")
    checks.true(
        "while it is stopped the message is kept",
        until(lambda: "deferred (noticed-bounce" in it.said("journalctl", "--identifier=postfix/local")),
    )
    it.run("systemctl", "start", "noticed-postfix")
    checks.true("and is told then", until(lambda: f"rfc822; stopped@{HOST}" in it.mailbox()))
    checks.true("a reboot", it.reboot())
    checks.equal("after a reboot", it.bounces("rebooted")[0], it.main_process())
    checks.true("nothing is left", until(it.is_empty, 10))


def arrives(it: Machine, name: str) -> float:
    """For how many seconds a message to root is on its way."""
    began = time.monotonic()
    it.shell(f"printf 'Subject: {name}\\n\\nx\\n' | sendmail -f root@{HOST} root@{HOST}").check_returncode()
    until(lambda: f"Subject: {name}\n" in it.mailbox())
    return time.monotonic() - began


def refusals(it: Machine) -> int:
    """How many lines of Postfix say that noticed can't be asked."""
    said = it.said("journalctl", "--no-pager", "--output=cat")
    return said.count("warning: connect to private/noticed-bounce: Connection refused")


def check_hindered(checks: Checks, it: Machine):
    """A service that can't begin holds no good mail up; what was refused meanwhile is told once it can."""
    it.shell(f"postconf -e {' '.join(ONE_BY_ONE)}; postfix reload").check_returncode()
    for at, (name, (hinder, mend)) in enumerate(HINDERED.items()):
        before = refusals(it)
        it.run("bash", "-c", f"{HINDER}{hinder}", DROP_IN).check_returncode()
        it.run("systemctl", "kill", "--signal=KILL", "noticed-postfix")
        for client in range(6):
            it.shell(f"printf 'Subject: x\n\nx\n' | sendmail -f root@{HOST} hindered{at}{client}@{HOST}")
        took = [arrives(it, f"good {at} {good}") for good in range(8)]
        checks.true(f"{name}: good mail takes {max(took):.1f} s, at most {HELD}", max(took) <= HELD)
        checks.true(f"{name}: Postfix says so", refusals(it) > before)
        it.run("bash", "-c", f"{HINDER}{mend}", DROP_IN).check_returncode()
        told = [f"Final-Recipient: rfc822; hindered{at}{client}@{HOST}" for client in range(6)]
        checks.true(f"{name}: all are told", until(lambda: all(one in it.mailbox() for one in told)))
    it.run("postconf", "-X", *(setting.partition("=")[0] for setting in ONE_BY_ONE)).check_returncode()
    it.run("postfix", "reload")
    checks.true("nothing is left", until(it.is_empty, 10))


def check_lost_sockets(checks: Checks, it: Machine):
    """Sockets whose files were removed are made anew."""
    it.run("rm", *(f"{QUEUE}/private/noticed-{name}" for name in ("bounce", "defer", "trace"))).check_returncode()
    it.run("systemctl", "restart", "noticed-postfix")
    checks.true("lost sockets: they are made anew", until(lambda: not it.shell("noticed-postfix check").returncode))
    checks.equal("lost sockets: a notice", it.bounces("lost")[0], it.main_process())


def check_before_postfix(checks: Checks, it: Machine):
    """Before the first start of Postfix there is no folder for the sockets: the units make none, and are there once
    Postfix has made it."""
    units = ("noticed-postfix.socket", "noticed-postfix", "postfix@-", "postfix")
    it.run("systemctl", "stop", *units).check_returncode()
    it.run("mv", f"{QUEUE}/private", "/root/private").check_returncode()
    it.run("systemctl", "start", "noticed-postfix")
    restarts = ("systemctl", "show", "--value", "--property=NRestarts", "noticed-postfix")
    checks.true("it is tried again", until(lambda: int(it.said(*restarts)) > 1))
    checks.true("no folder is made", it.run("test", "-e", f"{QUEUE}/private").returncode)
    it.run("systemctl", "start", "postfix").check_returncode()
    listening = ("systemctl", "is-active", "noticed-postfix.socket", "noticed-postfix")
    checks.true("it is there once Postfix is", until(lambda: it.said(*listening) == "active\nactive"))
    checks.equal("and makes a notice", it.bounces("first")[0], it.main_process())
    checks.true("nothing is left", until(it.is_empty, 10))


def check_against(checks: Checks, it: Machine):
    """The entry of master.cf takes a notice whatever main.cf says; one to nobody is dropped."""
    it.run("postconf", "-e", *AGAINST).check_returncode()
    it.run("postfix", "reload")
    handed = it.run("python3", "-c", HAND_IN)
    checks.equal("notices are taken", (handed.returncode, handed.stderr), (0, b""))
    checks.true("one arrives", until(lambda: "Subject: by hand" in it.mailbox()))
    checks.true("nothing is left", until(it.is_empty, 10))
    it.run("postconf", "-X", *(setting.partition("=")[0] for setting in AGAINST)).check_returncode()
    it.run("postfix", "reload")


def check_back(checks: Checks, it: Machine):
    """bounce(8) goes on with the logs that wait."""
    it.shell("postconf -P noticed-submit/unix/smtpd_client_restrictions=defer; postfix reload")
    it.shell(f"printf 'Subject: x\n\nx\n' | sendmail -f root@{HOST} waiting@{HOST}")
    checks.true("a log waits", until(lambda: it.said("find", f"{QUEUE}/bounce", "-type", "f")))
    checks.equal("back", it.shell(it.page.take("noticed-postfix disable", "systemctl disable ")).returncode, 0)
    it.page.all_run(checks, "#")
    checks.true("it is told", until(lambda: f"rfc822; waiting@{HOST}" in it.mailbox()))
    checks.true("nothing is left", until(it.is_empty, 10))


def main():
    checks = Checks("boot_postfix: from Debian's Postfix to noticed and back, under a systemd of its own")
    if len(sys.argv) != 2:
        checks.skip("everything (name a FOLDER in which Debian's base system is made)")
        checks.done()
    if lacking(TOOLS):
        checks.skip(f"everything (needs {' and '.join(lacking(TOOLS))})")
        checks.done()
    signal.signal(signal.SIGTERM, lambda *_: sys.exit(1))
    with Machine(base_system(Path(sys.argv[1]).resolve())) as it:
        checks.equal("Postfix is installed", add_postfix(it), "")
        words = [
            "make",
            "--silent",
            f"--old-file={program()}",
            "install",
            f"BUILT={program()}",
            f"DESTDIR={it.root}",
            "PREFIX=/usr/local",
        ]
        subprocess.run(words, cwd=ROOT, stdout=subprocess.DEVNULL, check=True)
        checks.true("the container boots", it.boot())
        first = (check_readme, check_steps, check_passed_on, check_templates)
        last = (check_hindered, check_lost_sockets, check_before_postfix, check_against, check_back)
        for check in (*first, check_ends, *last):
            failed = checks.failed
            check(checks, it)
            if checks.failed > failed:
                print(it.said("journalctl", "--no-pager", "--lines=40"))
    checks.done()


if __name__ == "__main__":
    main()
