"""A Postfix of its own on loopback, in a folder of its own, whose bounce(8) can be kept from handing in a notice: then
its logs stay."""
import grp
import os
import pwd
import shutil
import socket
import subprocess
import tempfile
import time
from pathlib import Path

SMTP, FILTERED, UPSTREAM, MILTER = 2525, 2526, 2626, 2627
MAIN = """
compatibility_level = 3.6
queue_directory = {room}/queue
data_directory = {room}/data
command_directory = /usr/sbin
daemon_directory = /usr/lib/postfix/sbin
mail_owner = postfix
setgid_group = postdrop
maillog_file = {room}/maillog
maillog_file_prefixes = /tmp
inet_interfaces = loopback-only
inet_protocols = ipv4
myhostname = mx.example.net
mydestination =
mynetworks = 127.0.0.0/8
smtpd_relay_restrictions = permit_mynetworks, reject
smtpd_recipient_restrictions =
smtpd_authorized_verp_clients = 127.0.0.1
smtpd_hard_error_limit = 1000
smtpd_reject_unlisted_recipient = no
smtpd_discard_ehlo_keywords =
relayhost = [127.0.0.1]:2626
transport_maps = inline:{{
    {{ gone.example.org = error:5.1.6 the domain has moved }}
    {{ silent.example.org = error:5.7.1 }}
    {{ paused.example.org = retry:4.3.2 deliveries are paused }}
    {{ closed.example.org = smtp:[127.0.0.1]:9 }} }}
virtual_alias_maps = inline:{{
    {{ alias@example.org = no.behind@example.org }}
    {{ everybody@example.org = no.one@example.org, no.two@example.org, later.three@example.org }}
    {{ glad@example.org = ok.one@example.org, ok.two@example.org }} }}
header_checks = regexp:{room}/etc/header_checks
milter_default_action = tempfail
smtpd_tls_security_level = none
smtp_tls_security_level = none
smtp_destination_concurrency_limit = 5
minimal_backoff_time = 4000s
maximal_backoff_time = 4000s
queue_run_delay = 3000s
smtp_destination_recipient_limit = 50
smtp_line_length_limit = 0
default_destination_recipient_limit = 50
default_destination_concurrency_failed_cohort_limit = 0
smtp_destination_concurrency_failed_cohort_limit = 0
{settings}
"""
HEADER_CHECKS = r"""
/^X-Check: redirect/ REDIRECT later.redirected@example.org
/^X-Check: filter/ FILTER smtp:[127.0.0.1]:2626
/^X-Check: prepend/ PREPEND X-Prepended: by a rule
/^X-Check: bcc/ BCC later.copy@example.org
"""
MASTER = """
2525 inet n - n - - smtpd
2526 inet n - n - - smtpd
    -o smtpd_milters=inet:127.0.0.1:2627
pickup unix n - n 60 1 pickup
cleanup unix n - n - 0 cleanup
qmgr unix n - n 300 1 qmgr
rewrite unix - - n - - trivial-rewrite
bounce unix - - n - 0 bounce
    {kept}
defer unix - - n - 0 bounce
    {kept}
trace unix - - n - 0 bounce
    {kept}
verify unix - - n - 1 verify
flush unix n - n 1000? 0 flush
proxymap unix - - n - - proxymap
smtp unix - - n - - smtp
scache unix - - n - 1 scache
showq unix n - n - - showq
error unix - - n - - error
retry unix - - n - - error
postlog unix-dgram n - n - 1 postlogd
"""
KEPT = "-o cleanup_service_name=nowhere"


class Instance:
    """A Postfix with these settings."""

    def __init__(self, settings: str):
        self.room = Path(tempfile.mkdtemp(prefix="postfix-", dir="/tmp"))
        self.settings = settings
        self.room.chmod(0o755)
        for name in ("etc", "queue", "data"):
            (self.room / name).mkdir()
        shutil.chown(self.room / "data", "postfix")
        (self.room / "etc/header_checks").write_text(HEADER_CHECKS)
        # postfix looks for these two beside main.cf
        for name in ("postfix-files", "postfix-files.d", "dynamicmaps.cf", "dynamicmaps.cf.d"):
            os.symlink(f"/etc/postfix/{name}", self.room / "etc" / name)

    def run(self, *words: str, **more) -> subprocess.CompletedProcess:
        return subprocess.run(words, capture_output=True, timeout=60, **more)

    def postfix(self, word: str):
        done = self.run("postfix", "-c", str(self.room / "etc"), word)
        if done.returncode:
            raise RuntimeError(f"postfix {word}: {done.stderr.decode()}")

    def start(self, keeps_logs: bool):
        """Starts it, with notices or without."""
        (self.room / "etc/main.cf").write_text(MAIN.format(room=self.room, settings=self.settings))
        (self.room / "etc/master.cf").write_text(MASTER.format(kept=KEPT if keeps_logs else ""))
        self.postfix("start")
        for _ in range(100):
            with socket.socket() as probe:
                if probe.connect_ex(("127.0.0.1", SMTP)) == 0:
                    return
            time.sleep(0.1)
        raise RuntimeError((self.room / "maillog").read_text())

    def stop(self):
        self.run("postfix", "-c", str(self.room / "etc"), "stop")

    def queue_file(self, queue_id: str) -> Path | None:
        found = [
            it
            for it in (self.room / "queue").rglob(queue_id)
            if it.relative_to(self.room / "queue").parts[0] in ("active", "deferred", "incoming", "hold")
        ]
        return found[0] if found else None

    def log_file(self, service: str, queue_id: str) -> Path | None:
        found = [it for it in (self.room / "queue" / service).rglob(queue_id) if it.stat().st_size]
        return found[0] if found else None

    def ask(self, service: str, attributes: list[tuple[str, bytes]]) -> bytes:
        """What a service answers, as one of Postfix's programs would ask it."""
        with socket.socket(socket.AF_UNIX) as asking:
            asking.settimeout(30)
            asking.connect(str(self.room / "queue/private" / service))
            asking.sendall(request_bytes(attributes))
            answer = b""
            while more := asking.recv(4096):
                answer += more
        return answer

    def remove(self):
        shutil.rmtree(self.room)


def request_bytes(attributes: list[tuple[str, bytes]]) -> bytes:
    """A request as it is sent."""
    return b"".join(name.encode() + b"\0" + value + b"\0" for name, value in attributes) + b"\0"


def has_postfix() -> bool:
    try:
        return bool(pwd.getpwnam("postfix") and grp.getgrnam("postdrop") and shutil.which("postfix"))
    except KeyError:
        return False
