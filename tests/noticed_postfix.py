"""dist/noticed-postfix in front of a private Postfix: its commands, as an administrator types them. main.cf and
master.cf are compared byte for byte before and after. A later change of hash_queue_names is honoured at the next start,
root is refused as the account of the service, each setting that isn't honoured is named, a main.cf that refuses
everything keeps no notice out. Notices are from MAILER-DAEMON at myorigin. They are filtered only if
internal_mail_filter_classes says so. bounce(8) makes those of which notify_classes copies the postmaster. Needs root
and Debian's package postfix, and is skipped without them."""
import os
import pwd
import re
import shutil
import signal
import subprocess
import sys
from pathlib import Path

from tests.support.private_postfix import (
    HANDS_ON,
    LOGS,
    PATIENCE,
    Front,
    Mailbox,
    Postfix,
    comes_true,
    lacks,
    mail_filter,
)
from tests.support.running import DIST, HOST, Checks, program

SWITCH = {f"{it}_service_name": f"noticed-{it}" for it in LOGS}
FILES = ("main.cf", "master.cf")
PYTHON = "/usr/bin/python3"  # one that Postfix's account can run
# Settings in use that noticed doesn't honour. This Postfix has `maillog_file` anyway.
USED = {
    "bounce_template_file": "/etc/postfix/bounce.cf",
    "mail_name": "Mailer",
    "header_from_format": "obsolete",
    "bounce_size_limit": "100000",
    "backwards_bounce_logfile_compatibility": "no",
    "deliver_lock_attempts": "5",
    "deliver_lock_delay": "2s",
    "syslog_name": "mta",
    "syslog_facility": "local1",
}
# Other classes, which aren't noticed's.
HARMLESS = {
    "notify_classes": "resource, protocol",
    "internal_mail_filter_classes": "notify",
    "bounce_size_limit": "2000",
}
WRONG = {
    "mail_owner": ("root", "nosuchaccount"),
    "queue_directory": ("/nonexistent", "/" + "q" * 84),
    "myhostname": ("a_b.example.net",),
    "maximal_queue_lifetime": ("101d", "soon"),
    "bounce_size_limit": ("0", "2147483648", "many"),
    "double_bounce_sender": ('"double bounce"',),
    "hash_queue_names": ("defer;bounce",),
    "hash_queue_depth": ("0", "17"),
}
ORIGIN = "home.example.net"
RENAMED = f"inline:{{ {{ MAILER-DAEMON@{ORIGIN} = mail@example.net }}, {{ mail@{HOST} = wrong }} }}"
# Whom a notice is from, by what else main.cf says if it has `myorigin = /etc/mailname`.
ORIGINS = {
    f"MAILER-DAEMON@{ORIGIN}": {"mydestination": f"{HOST}, {ORIGIN}, example.net"},
    "mail@example.net": {"sender_canonical_maps": RENAMED, "local_header_rewrite_clients": "", "syslog_name": "mta"},
    f"mailer-daemon@{ORIGIN}": {
        "sender_canonical_classes": "envelope_sender",
        "canonical_maps": f"inline:{{ MAILER-DAEMON@{ORIGIN}=mailer-daemon@{ORIGIN} }}",
    },
    "mailer-daemon@example.net": {"masquerade_domains": "example.net"},
}
# Each would keep a notice out.
AGAINST = {
    "smtpd_milters": "inet:127.0.0.1:9",
    "header_checks": "static:REJECT",
    "content_filter": "smtp:[127.0.0.1]:9",
    "smtpd_client_restrictions": "reject",
    "smtpd_helo_required": "yes",
    "smtpd_helo_restrictions": "reject",
    "smtpd_sender_restrictions": "reject",
    "smtpd_recipient_restrictions": "reject",
    "smtpd_data_restrictions": "reject",
    "smtpd_end_of_data_restrictions": "reject",
    "smtpd_delay_reject": "no",
    "smtpd_reject_unlisted_recipient": "yes",
    "smtpd_proxy_filter": "127.0.0.1:9",
    "smtpd_command_filter": "static:QUIT",
    "smtpd_client_connection_count_limit": "1",
    "smtpd_client_connection_rate_limit": "1",
    "smtpd_client_message_rate_limit": "1",
    "smtpd_client_event_limit_exceptions": "",
    "smtpd_tls_security_level": "encrypt",
    "smtpd_upstream_proxy_protocol": "haproxy",
    "mynetworks": "10.0.0.0/8",
}


class Service(Front):
    """`noticed-postfix run --inherited`, as the unit starts it: as Postfix's account, with its sockets."""

    def start(self):
        self.sockets = self.sockets or [self.listens(f"noticed-{name}") for name in LOGS]
        kept = [it.fileno() for it in self.sockets]
        held = [sys.executable, "-c", HANDS_ON, ",".join(map(str, kept)), *as_account("postfix")]
        words = [*held, *self.script("run", "--inherited")]
        with self.said.open("wb") as out:
            self.running = subprocess.Popen(
                words, cwd="/", stdin=subprocess.DEVNULL, stdout=out, stderr=out, pass_fds=kept
            )
        comes_true(lambda: self.times_listening() or self.running.poll() is not None)

    def lines(self) -> list:
        """What it wrote to standard error."""
        return self.said.read_text().splitlines()

    def script(self, *words: str) -> list:
        """The command line of the script."""
        room = self.queue.parent
        return [PYTHON, str(room / "sbin/noticed-postfix"), "-c", str(room / "etc"), *words]


class Stock(Postfix):
    """A Postfix that nobody put anything in front of. It delivers local mail to mailboxes."""

    def __init__(self, mailbox: Mailbox):
        super().__init__(mailbox, mydestination=HOST)
        self.hand_in, self.service = self.smtp, Service(program(), self.room, "")
        self.settings["mail_spool_directory"] = str(self.room / "mail")
        (self.room / "mail").mkdir()
        (self.room / "mail").chmod(0o1777)
        for name, given in {"bin/noticed": program(), "sbin/noticed-postfix": DIST / "noticed-postfix"}.items():
            (self.room / name).parent.mkdir()
            shutil.copy(given, self.room / name)
            (self.room / name).chmod(0o755)

    def write(self):
        super().write()
        main, master = (self.room / "etc" / name for name in FILES)
        main.write_text(f"# as it was written\n#bounce_service_name = x\n\n{main.read_text()}# the end\n")
        services = self.services().replace("cleanup unix n - n", "cleanup unix n - y")  # chrooted, as Debian's
        master.write_text(f"# the services\n{services}local   unix - n n - - local\n# the end\n")

    def texts(self) -> tuple:
        """What main.cf and master.cf say now."""
        return tuple((self.room / "etc" / name).read_text() for name in FILES)

    def script(self, *words: str, account="root") -> tuple:
        """Runs the script: its status, and the lines that it wrote."""
        how = {"stdout": subprocess.PIPE, "stderr": subprocess.STDOUT, "text": True}
        given = [*as_account(account), *self.service.script(*words)]
        ran = subprocess.run(given, cwd="/", check=False, timeout=2 * PATIENCE, **how)
        return ran.returncode, ran.stdout.splitlines()

    def restart(self):
        """Ends the service, and starts it anew."""
        self.service.kill(signal.SIGTERM)
        self.service.start()

    def set(self, **settings):
        """Changes main.cf."""
        self.command("postconf", "-e", *(f"{name}={value}" for name, value in settings.items()))

    def restore(self, texts: tuple):
        """Writes main.cf and master.cf as they were."""
        for name, text in zip(FILES, texts):
            (self.room / "etc" / name).write_text(text)

    def stop(self, *given, **how):
        super().stop(*given, **how)
        self.service.kill(signal.SIGTERM)


def as_account(name: str) -> list:
    """Runs a command as another account."""
    group = pwd.getpwnam(name).pw_gid
    return ["setpriv", f"--reuid={name}", f"--regid={group}", "--clear-groups", "--pdeathsig=KILL", "--"]


def beginning(lines: list, word: str) -> list:
    """The lines that begin with a word, without it."""
    return [it.removeprefix(f"{word}: ") for it in lines if it.startswith(f"{word}: ")]


def check_before(checks: Checks, it: Stock):
    """A Postfix with nothing in front of it, and no service that could be asked."""
    before = it.texts()
    status, lines = it.script("check")
    named = [line.split()[0] for line in beginning(lines, "wrong")]
    checks.equal("check: what is wrong", (status, named), (1, ["hand-in", *3 * ["service"], "values", *SWITCH]))
    checks.equal("check: what isn't honoured", names_of(lines), ["maillog_file"])
    status, lines = it.script("enable")
    checks.equal("enable without a service", (status, it.texts()[0]), (1, before[0]))
    checks.true("its hand-in takes a notice", f"right: hand-in at {it.queue}/private/noticed-submit" in lines)
    chroots = it.command("postconf", "-F", "-h", "noticed-submit/unix/chroot", "noticed-cleanup/unix/chroot").stdout
    checks.equal("with the chroot of cleanup(8)", chroots.split(), [b"y", b"y"])
    checks.equal("disable", (it.script("disable")[0], it.texts()), (0, before))
    for command in ("enable", "disable"):
        status, lines = it.script(command, account="postfix")
        checks.equal(f"{command} as another account", (status, lines), (1, ["noticed-postfix: only root can do that"]))
    checks.equal("and nothing changed", it.texts(), before)


def names_of(lines: list) -> list:
    """The settings that these lines name as not honoured."""
    return [line.split(" = ")[0] for line in beginning(lines, "not honoured")]


def check_account(checks: Checks, it: Stock):
    """`run` as root, and as an account that isn't Postfix's."""
    for account in ("root", "nobody"):
        number = pwd.getpwnam(account).pw_uid
        wanted = f"noticed-postfix: it runs as postfix (mail_owner), and never as root: this is user {number}"
        checks.equal(f"run as {account}", it.script("run", account=account), (1, [wanted]))
    before = it.texts()
    it.set(mail_owner="root")
    status, lines = it.script("run")
    checks.equal("run as root, where that is mail_owner", (status, "never as root" in lines[-1]), (1, True))
    it.restore(before)


def check_enabled(checks: Checks, it: Stock):
    """The service, the switch, and a notice."""
    it.service.start()
    checks.equal("run: its last line", it.service.lines()[-1], f"listening in {it.queue} for {HOST}")
    checks.equal("run: what isn't honoured", names_of(beginning(it.service.lines(), "warning")), ["maillog_file"])
    checks.equal("enable: its status", it.script("enable")[0], 0)
    texts = it.texts()
    checks.equal("enable once more", (it.script("enable")[0], it.texts()), (0, texts))
    status, lines = it.script("check")
    checks.equal("check: nothing is wrong", (status, beginning(lines, "wrong")), (0, []))
    notice_comes(checks, it, "at first")


def notice_comes(checks: Checks, it: Stock, when: str) -> list:
    """`test` shows a notice that noticed made, and nothing is left. Returns the lines."""
    status, lines = it.script("test")
    wanted = f"right: notice to root in {it.room}/mail/root"
    checks.equal(f"test {when}: its status and its last line", (status, lines[-1]), (0, wanted))
    shown = any(line.startswith("Final-Recipient: rfc822; refused@-") for line in lines)
    checks.true(f"test {when}: it shows the notice", shown)
    checks.equal(f"test {when}: what is left", it.left(empty=True), [])
    return lines


def check_hashing(checks: Checks, it: Stock):
    """A change of main.cf is seen by `check`, and honoured at the next start."""
    before = it.texts()
    it.set(hash_queue_names="deferred, defer, bounce", hash_queue_depth="2", maximal_queue_lifetime="90m")
    it.set(enable_threaded_bounces="yes")
    it.command("postfix", "reload")
    status, lines = it.script("check")
    named = [line.partition(":")[0] for line in beginning(lines, "wrong")]
    checks.equal("check: the service has other values", (status, named), (1, ["values of the service"]))
    last = it.script("enable")[1][-1]
    checks.equal("so enable refuses", last.partition(",")[0], "noticed-postfix: start the service anew")
    it.restart()
    words = Path(f"/proc/{it.service.running.pid}/cmdline").read_text().split("\0")
    wanted = ["--lifetime", "5400", "--bounce-size-limit", "50000", "--double-bounce", f"double-bounce@{HOST}"]
    wanted += ["--hash-queue-names", "deferred defer bounce", "--hash-queue-depth", "2", "--threaded"]
    wanted += [str(it.queue), HOST, f"{it.queue}/private/noticed-submit"]
    checks.equal("its arguments", words[1:-1], ["postfix", "--inherited", *wanted])
    checks.equal("check: they are right", it.script("check")[0], 0)
    notice_comes(checks, it, "with logs in hashed folders")
    checks.true("bounce/ has such folders", any(len(path.name) == 1 for path in (it.queue / "bounce").iterdir()))
    it.restore(before)
    it.command("postfix", "reload")
    it.restart()


def check_named(checks: Checks, it: Stock):
    """Each setting that isn't honoured is named if it is in use, by `check` and by `run`, and no other is."""
    before, wanted = it.texts(), {*USED, "maillog_file"}
    it.set(**USED)
    it.command("postconf", "-P", "-e", "bounce/unix/bounce_size_limit=1000")
    named = it.script("check")[1]
    in_master = "master.cf: bounce/unix/bounce_size_limit"
    checks.equal("check names all, once", sorted(names_of(named)), sorted({*wanted, in_master}))
    it.restart()
    lines = beginning(it.service.lines(), "warning")
    checks.equal("run names all, once", sorted(names_of(lines)), sorted({*wanted, in_master}))
    checks.equal("run: its last line", it.service.lines()[-1], f"listening in {it.queue} for {HOST}")
    it.restore(before)
    (it.room / "etc/mailname").write_text(f"{HOST}\n")
    it.set(**HARMLESS, myorigin=str(it.room / "etc/mailname"))
    checks.equal("others aren't named", names_of(it.script("check")[1]), ["maillog_file"])
    it.restore(before)
    it.restart()


TEMPLATES = """failure_template = <<EOF
Charset: utf-8
Subject: Unzustellbar

Zur\u00fcck von $myhostname, f\u00fcr $$5.
EOF

delay_template = <<EOF
Subject: Versp\u00e4tet

text
EOF

success_template = <<EOF
Subject: Angekommen

--B.1
EOF

verify_template = <<EOF
Subject: CR

a\rb
EOF
"""
IGNORED = 'non-ASCII "Subject" header value in delay template -- ignoring this template'


def check_templates(checks: Checks, it: Stock):
    """A template is that of the notices from the next start on, with bounce(8)'s From of header_from_format. One that
    noticed can't take is named, as is one that bounce(8) ignores, and a file that Postfix's account can't read."""
    before, path = it.texts(), it.room / "etc/bounce.cf"
    path.write_text(TEMPLATES, newline="")
    it.set(bounce_template_file=str(path), header_from_format="obsolete")
    named = [f"bounce_template_file = {path}: {IGNORED}"]
    named += ["success_template: a line of its text begins with --B., --D. or --T."]
    named += ["verify_template: a line of its text has more than 998 bytes, a NUL or a CR"]
    later = f"bounce_template_file = {path}: restart the service: it has others"
    status, lines = it.script("check")
    found = [it for it in beginning(lines, "not honoured") if "_template" in it]
    checks.equal("check: the service has no templates", (status, found), (0, [*named, later]))
    it.restart()
    status, lines = it.script("check")
    found = [it for it in beginning(lines, "not honoured") if "_template" in it]
    checks.equal("check: all but three", (status, found), (0, named))
    text = "\n".join(notice_comes(checks, it, "with a template"))
    for line in ("Subject: Unzustellbar", f"Zur\u00fcck von {HOST}, f\u00fcr $5.", "Content-Transfer-Encoding: 8bit"):
        checks.true(f"the notice has {line}", f"\n{line}\n" in text)
    sender = re.search(r"^From: MAILER-DAEMON@\S+ \(Mail Delivery System\)$", text, re.M)
    checks.true("its From has the form of header_from_format", sender)
    path.write_text(TEMPLATES.replace("Unzustellbar", "Fehler"), newline="")
    checks.true("check: a template was changed", f"not honoured: {later}" in it.script("check")[1])
    for what, change in ("a file for root alone", path.chmod), ("a file that isn't there", lambda _: path.unlink()):
        change(0o600)
        it.restart()
        status, lines = it.script("check")
        checks.equal(what, (status, "bounce_template_file" in names_of(lines)), (0, True))
        text = "\n".join(notice_comes(checks, it, what))
        checks.true(f"{what}: its notice is in noticed's words", "\nSubject: Undelivered Mail Returned to Sender\n" in text)
    it.restore(before)
    it.restart()


def check_wrong(checks: Checks, it: Stock):
    """Values that noticed can't take are wrong, and nothing is enabled with them."""
    before = it.texts()
    for count in range(max(map(len, WRONG.values()))):
        values = {name: given[count] for name, given in WRONG.items() if count < len(given)}
        it.set(**values)
        changed = it.texts()
        status, lines = it.script("check")
        for name, value in values.items():
            found = [line for line in beginning(lines, "wrong") if line.startswith(f"{name} = {value}: ")]
            checks.equal(f"{name} = {value} is wrong", (status, len(found)), (1, 1))
        checks.equal("enable with such values", (it.script("enable")[0], it.texts()), (1, changed))
        it.restore(before)
    (it.room / "other/private").mkdir(parents=True)
    it.set(queue_directory=str(it.room / "other"))
    checks.true("a private/ of another account", "private/ isn't for postfix alone" in "".join(it.script("check")[1]))
    it.restore(before)
    it.command("postconf", "-M", "-X", "trace/unix")
    lacks_it = "wrong: bounce, defer and trace of Postfix: master.cf has no trace"
    checks.true("master.cf without trace", lacks_it in it.script("check")[1])
    it.restore(before)


def ran(it: Stock, folder: Path, path: str, *words: str) -> tuple:
    """Runs the script in a folder with this PATH: its status, and the lines that it wrote."""
    how = {"stdout": subprocess.PIPE, "stderr": subprocess.STDOUT, "text": True, "env": {"PATH": path}}
    done = subprocess.run(it.service.script(*words), cwd=folder, check=False, timeout=PATIENCE, **how)
    return done.returncode, done.stdout.splitlines()


def check_places(checks: Checks, it: Stock):
    """A folder with a postconf of its own, which a PATH with an empty part names, and that Postfix's account can't
    enter. Root runs Postfix's postconf, and all is right."""
    folder = it.room / "planted"
    folder.mkdir(mode=0o700)
    (folder / "postconf").write_text(f"#!/bin/sh\ntouch {folder}/ran\n")
    (folder / "postconf").chmod(0o755)
    for path in ("", ":/usr/bin", "."):
        status, lines = ran(it, folder, path, "check")
        found = (status, beginning(lines, "wrong"), names_of(lines), (folder / "ran").exists())
        checks.equal(f"check with PATH={path!r}", found, (0, [], ["maillog_file"], False))


def check_pretender(checks: Checks, it: Stock):
    """A process of another account that is named like the service is not taken for it."""
    folder = it.room / "pretender"
    folder.mkdir()
    (folder / "postfix").write_text("import time\ntime.sleep(600)\n")
    other = [PYTHON, "postfix", "--lifetime", "1", str(it.queue), HOST, "x"]
    with subprocess.Popen([*as_account("nobody"), *other], cwd=folder) as running:
        comes_true(lambda: b"--lifetime" in Path(f"/proc/{running.pid}/cmdline").read_bytes())
        it.restart()
        checks.equal("a pretender: check", it.script("check")[0], 0)
        running.kill()


def check_fifo(checks: Checks, it: Stock):
    """A FIFO among the files of the templates, where root reads them, ends nobody's check."""
    folder = Path(it.command("postconf", "-h", "data_directory").stdout.decode().strip()) / "noticed-templates"
    folder.mkdir(exist_ok=True)
    os.mkfifo(folder / "failure")
    status, lines = it.script("check")
    checks.equal("a FIFO: check", (status, names_of(lines)), (0, ["maillog_file", "bounce_template_file"]))
    shutil.rmtree(folder)


def check_broken(checks: Checks, it: Stock):
    """Values that would break master.cf, and files without a newline at their end, to which postconf(1) glues what it
    adds: nothing is changed."""
    before = it.texts()
    it.set(syslog_name="a{b")
    changed = it.texts()
    status, lines = it.script("enable")
    wrong = [line for line in beginning(lines, "wrong") if line.startswith("syslog_name = a{b: ")]
    checks.equal("a syslog_name with a brace", (status, len(wrong), it.texts()), (1, 1, changed))
    it.restore(before)
    (it.room / "etc/mailname").write_text(f"{ORIGIN}\n")
    it.set(myorigin=str(it.room / "etc/mailname"), sender_canonical_maps="static:{x")
    changed = it.texts()
    status, lines = it.script("enable")
    checks.equal("a table with a brace", (status, it.texts()), (1, changed))
    checks.true(f"it says so: {lines[-1]}", "master.cf" in lines[-1])
    it.restore(before)
    for at, name in enumerate(FILES):
        path = it.room / "etc" / name
        for end in ("x_y = z" if at == 0 else "", "# a comment"):
            path.write_text(before[at] + end if end else before[at].rstrip("\n"))
            changed = it.texts()
            status, lines = it.script("enable")
            wrong = [line for line in beginning(lines, "wrong") if line.startswith(f"{path}: ")]
            checks.equal(f"{name} that ends with {end!r}", (status, len(wrong), it.texts()), (1, 1, changed))
        it.restore(before)


def check_against(checks: Checks, it: Stock):
    """The hand-in takes a notice whatever main.cf says."""
    before = it.texts()
    it.set(**AGAINST)
    it.command("postfix", "reload")
    notice_comes(checks, it, "with a main.cf that refuses everything")
    it.restore(before)
    it.command("postfix", "reload")


def check_filtered(checks: Checks, it: Stock):
    """With `bounce` in internal_mail_filter_classes a notice passes header_checks and non_smtpd_milters, as one of
    bounce(8) does; otherwise neither. A change of that setting takes effect with `enable`, and `check` says so."""
    before, rules = it.texts(), it.room / "etc/prepends"
    rules.write_text("/^Subject: Undelivered/ PREPEND X-Change: new-field\n")
    seen = {"by header_checks": "X-Change: new-field", "by the milter": "X-Added: at the end"}
    anew = f"hand-in at {it.queue}/private/noticed-submit: enable writes noticed-submit of master.cf anew"
    with mail_filter() as server:
        milters = f"inet:127.0.0.1:{server.server_address[1]}"
        it.set(header_checks=f"regexp:{rules}", non_smtpd_milters=milters, smtpd_milters="inet:127.0.0.1:9")
        for classes, wanted in (("notify, bounce", True), ("notify", False)):
            it.set(internal_mail_filter_classes=classes)
            status, lines = it.script("check")
            checks.equal(f"{classes}: check", (status, beginning(lines, "wrong")), (1, [anew]))
            checks.equal(f"{classes}: enable", it.script("enable")[0], 0)
            checks.equal(f"{classes}: check after that", it.script("check")[0], 0)
            shown = notice_comes(checks, it, f"with {classes}")
            for what, field in seen.items():
                checks.equal(f"{classes}: a notice is changed {what}", field in shown, wanted)
    it.restore(before)
    it.command("postfix", "reload")


def check_origin(checks: Checks, it: Stock):
    """If myorigin is another name than myhostname, a notice is from whom one of bounce(8) is, also with tables of the
    site. All else in it has myhostname. A change takes effect with `enable`, and `check` says so."""
    before = it.texts()
    (it.room / "etc/mailname").write_text(f"{ORIGIN}\n")
    it.set(myorigin=str(it.room / "etc/mailname"))
    for address, settings in ORIGINS.items():
        it.set(**settings)
        checks.equal(f"{address}: check", it.script("check")[0], 0 if "masquerade_domains" in settings else 1)
        checks.equal(f"{address}: enable", it.script("enable")[0], 0)
        status, lines = it.script("check")
        named = {*names_of(lines)} - {"syslog_name"}
        checks.equal(f"{address}: check after that", (status, named), (0, {"maillog_file"}))
        shown = notice_comes(checks, it, f"from {address}")
        it.set(bounce_service_name="bounce")
        it.command("postfix", "reload")
        wanted = f"From: Mail Delivery System <{address}>"
        for who, lines in {"noticed": shown, "bounce(8)": it.script("test")[1]}.items():
            found = [line for line in lines if line.startswith("From: Mail Delivery")]
            checks.equal(f"{address}: From of {who}", found, [wanted])
        others = {f"Reporting-MTA: dns; {HOST}", f"For help, write to <postmaster@{HOST}> and include this notice."}
        checks.true(f"{address}: myhostname in all else", others <= {*shown})
        ids = [line for line in shown if line.startswith("Message-ID: <B.") and line.endswith(f"@{HOST}>")]
        checks.equal(f"{address}: one Message-ID with myhostname", len(ids), 1)
        it.set(bounce_service_name=SWITCH["bounce_service_name"])
    checks.true("lines of the hand-in are named after syslog_name", "mta/notices/smtpd[" in it.log())
    it.set(myorigin="[10.0.0.1]", syslog_name="postfix")
    checks.true("a name that no table has", "myorigin" in names_of(it.script("check")[1]))
    it.restore(before)
    checks.equal("enable without it", (it.script("enable")[0], it.script("check")[0]), (0, 0))


def check_copies(checks: Checks, it: Stock):
    """With `bounce` in notify_classes bounce(8) makes the notice, and a copy of it for the postmaster."""
    before, box = it.texts(), it.room / "mail/root"
    it.set(notify_classes="resource, 2bounce, bounce", bounce_notice_recipient=f"root@{HOST}")
    it.command("postfix", "reload")
    it.restart()
    words = Path(f"/proc/{it.service.running.pid}/cmdline").read_text().split("\0")
    checks.equal("notify_classes: the option", words[words.index("--pass-on") + 1], "2bounce,bounce")
    status, lines = it.script("test")
    checks.equal("notify_classes: bounce(8) made it", (status, lines[-1].split(": ")[-1]), (1, "bounce(8) made it"))
    copy = "\nSubject: Postmaster Copy: Undelivered Mail\n"
    checks.true("notify_classes: the copy", comes_true(lambda: copy in box.read_text()))
    it.restore(before)
    it.command("postfix", "reload")
    it.restart()


def check_disabled(checks: Checks, it: Stock, before: tuple):
    """The way back, with values that main.cf had, and without."""
    checks.equal("disable", (it.script("disable")[0], it.texts()), (0, before))
    status, lines = it.script("test")
    checks.equal("test: bounce(8) made it", (status, lines[-1].split(": ")[-1]), (1, "bounce(8) made it"))
    it.set(bounce_service_name="trace", defer_service_name="$bounce_service_name")
    given = it.texts()
    for times in ("once", "twice"):
        checks.equal(f"enable over values, {times}", it.script("enable")[0], 0)
    notice_comes(checks, it, "over values")
    checks.equal("disable brings them back", (it.script("disable")[0], it.texts()), (0, given))
    checks.equal("and once more", (it.script("disable")[0], it.texts()), (0, given))
    checks.true("and leaves no file", not (it.room / "etc/noticed-postfix.saved").exists())
    it.stop()
    status, lines = it.script("enable")
    checks.equal("enable without Postfix", (status, it.texts()), (1, given))
    checks.equal("it says so", lines[-1], "noticed-postfix: Postfix isn't running: nothing was changed")


def main():
    checks = Checks("noticed_postfix: check, enable, test, run and disable in front of a private Postfix")
    lacking = lacks() or ("" if os.access(PYTHON, os.X_OK) else PYTHON)
    if lacking:
        checks.skip(f"everything (needs {lacking})")
        checks.done()
    with Mailbox() as mailbox, Stock(mailbox) as it:
        it.start()
        before = it.texts()
        parts = (check_before, check_account, check_enabled, check_hashing, check_named, check_wrong, check_against)
        safe = (check_places, check_pretender, check_fifo, check_broken)
        for check in (*parts, *safe, check_templates, check_filtered, check_origin, check_copies):
            check(checks, it)
        checks.equal("complaints of Postfix", it.complaints(), [])
        check_disabled(checks, it, before)
    checks.done()


if __name__ == "__main__":
    main()
