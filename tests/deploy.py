"""Runs what README.md, docs/operating.md and docs/first-client.md describe, each in a folder of this script's own: the
commands for anybody, whose output is compared with the page's; and of docs/operating.md the lines of the `run` file,
one daemon after another, over one journal, with a mail server, which gets each notice once, the one that it refuses by
the page's commands. tests/boot.py and tests/boot_postfix.py run the commands for root."""
import os
import re
import shutil
import subprocess
import sys
import tempfile
from pathlib import Path

from tests.support.daemon_and_clients import PATIENCE, line, until
from tests.support.mail_servers import MailServer
from tests.support.page import Page
from tests.support.running import DIST, ROOT, VECTORS, Checks, program

FRAMES = [sys.executable, str(VECTORS / "frames.py"), "-"]
# Of make only what it would run is seen here: tests/make_try.py has `make try`, and the gate has the others.
MAKE = f"#!/bin/sh\nexec {shutil.which('make')} --directory={ROOT} --dry-run \"$@\"\n"


def tools(room: Path) -> dict:
    """An environment in which this program is `noticed`."""
    (room / "bin").mkdir()
    (room / "bin/noticed").symlink_to(program())
    (room / "bin/make").write_text(MAKE)
    (room / "bin/make").chmod(0o755)
    return {"PATH": f"{room}/bin:{Path(sys.executable).parent}:{os.environ['PATH']}"}


def page_alone(checks: Checks, name: str, places: dict):
    """The commands of a page that needs no daemon, in a folder that has the vectors."""
    with tempfile.TemporaryDirectory(prefix="noticed-") as folder:
        room = Path(folder)
        (room / "here").mkdir()
        (room / "here/vectors").symlink_to(VECTORS)
        Page(name).session(checks, room / "here", places, tools(room))


def sent(room: Path, requests: str) -> list:
    """Sends a description's frames to the daemon: the lines that come back."""
    with subprocess.Popen(FRAMES, stdin=subprocess.PIPE, stdout=subprocess.PIPE) as writing:
        with subprocess.Popen(
            [program(), "send", str(room / "socket")], stdin=writing.stdout, stdout=subprocess.PIPE
        ) as sending:
            writing.stdin.write(requests.encode())
            writing.stdin.close()
            return sending.communicate(timeout=PATIENCE)[0].decode().splitlines()


def run_file(page: Page) -> list:
    """The `run` file of the page, without its accounts, in this folder and with this program."""
    text = page.file("#!/bin/sh\n")
    text = re.sub(r"^(install|cd|setpriv) .*\n", "", text, flags=re.M).replace("exec 2>&1", "exec 2>> notes")
    text = re.sub(r"exec setpriv .*\\\n +/usr/bin/noticed", f"exec {program()}", text)
    text = text.replace("/etc/noticed/noticed.conf", "noticed.conf").replace("/run/noticed/socket", "socket")
    return ["sh", "-c", text]


def next_run(checks: Checks, room: Path, runs: int):
    """Waits until so many runs have begun, each of which says what it listens on."""
    checks.true(
        f"run {runs} begins", until(lambda: (room / "notes").read_bytes().count(b"listening on socket ") == runs)
    )


def one_run(checks: Checks, room: Path, server: MailServer, message: str):
    """The clients of a daemon of one agent and two connections: one bounces a message, one is late."""
    requests = f'append . bounce {message} bob@example.org failed 5.1.1 "reason=no such user"\n'
    requests += f"flush . bounce {message} return={message}@example.com moment=now arrival=now\n"
    checks.equal(f"{message}: answers", sent(room, requests), ["0 logged 0", "1 sealed 1"])
    checks.true(f"{message}: its notice comes", until(lambda: message_to(server, message) or is_kept(room, message)))
    checks.equal(
        f"{message}: a late outcome",
        sent(room, f"append . bounce {message} joe@example.org failed 5.1.1\n"),
        ["0 closed"],
    )


def message_to(server: MailServer, name: str) -> bytes:
    """The message that a server has for a sender."""
    return dict(server.taken).get(f"{name}@example.com".encode(), b"")


def is_kept(room: Path, name: str) -> bool:
    """Whether a notice to this sender was refused for good."""
    return f"RCPT TO:<{name}@example.com>\r\n".encode() in (room / "journal/refused").read_bytes()


def three_runs(checks: Checks, room: Path, server: MailServer, page: Page):
    """Two daemons one after another, and a third that has the page's client, and is stopped."""
    for runs, message in ((1, "M1"), (2, "M2")):
        with subprocess.Popen(run_file(page), cwd=room, stdin=subprocess.DEVNULL) as running:
            next_run(checks, room, runs)
            one_run(checks, room, server, message)
            checks.equal(f"run {runs}: its status", running.wait(timeout=PATIENCE), 0)
    with subprocess.Popen(run_file(page), cwd=room, stdin=subprocess.DEVNULL) as running:
        next_run(checks, room, 3)
        (room / "here").mkdir()
        places = {"/usr/share/noticed": ROOT, "/run/noticed/socket": room / "socket"}
        page.session(checks, room / "here", places, tools(room))
        checks.true("the notice of its message comes", until(lambda: message_to(server, "ann")))
        stopped = subprocess.run([program(), "stop", "socket"], cwd=room, check=False, timeout=PATIENCE).returncode
        checks.equal("the status of a stop", (stopped, running.wait(timeout=PATIENCE)), (0, 0))
    told = (room / "notes").read_bytes().splitlines(keepends=True)
    checks.equal("the agents", [it for it in told if it.startswith(b"agent ")], [*2 * [line(0, 3, 2)], line(0, 2, 1)])
    checks.equal("faults", [it for it in told if it.startswith((b"fault ", b"open ", b"unsent "))], [])


def served(checks: Checks):
    """The runs, with a mail server that refuses the second notice; and that notice once more, by hand."""
    with tempfile.TemporaryDirectory(prefix="noticed-") as name:
        room, server, page = Path(name), MailServer(refused={b"M2@example.com"}), Page("docs/operating.md")
        (room / "journal").mkdir(mode=0o700)
        # a short journal: a start is quick
        (room / "journal/journal").write_bytes(bytes(2**20))
        (room / "journal/marks").write_bytes(bytes(4096))
        (room / "notes").touch()
        text = (DIST / "noticed.conf").read_text()
        text = text.replace("agents = 8", "agents = 1").replace("max-use = 1000000", "max-use = 2")
        (room / "noticed.conf").write_text(text.replace("localhost:25", server.address))
        three_runs(checks, room, server, page)
        checks.equal("the one that was refused isn't tried again", server.tries[b"M2@example.com"], 1)
        server.refused = ()
        again = page.take("noticed resubmit").replace("localhost:25", server.address)
        again = again.replace("/var/lib/noticed", str(room)).replace("noticed resubmit", f"{program()} resubmit")
        ran = subprocess.run(["sh", "-e", "-c", again], capture_output=True, check=False)
        checks.equal("submitted again by hand", (ran.returncode, (room / "journal/refused").read_bytes()), (0, b""))
        wanted = [b"M1@example.com", b"M2@example.com", b"ann@example.com"]
        checks.equal("each notice came once", sorted(it for it, _ in server.taken), wanted)
        for message in ("M1", "M2"):
            notice = message_to(server, message)
            is_one = (
                notice.startswith(b"From: Mail Delivery System <MAILER-DAEMON@") and b"\n    no such user\r\n" in notice
            )
            checks.true(f"{message}: the notice", is_one)


def main():
    checks = Checks("deploy: the commands of the pages, daemons one after another, their clients, and a mail server")
    page_alone(checks, "README.md", {})
    page_alone(checks, "docs/first-client.md", {"/usr/share/noticed": ROOT})
    served(checks)
    checks.done()


if __name__ == "__main__":
    main()
