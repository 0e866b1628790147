"""Runs a Postfix of this script's own on loopback with `noticed postfix` in front of its bounce(8), and harms it: the
service is killed at load, mail can't be handed in, Postfix is loaded anew or stopped while logs wait, logs and queue
files are damaged, locked, or meet a full disk, and clients send what no program of Postfix sends. No recipient is lost,
and few are told twice. Needs root and Debian's package postfix, and is skipped without them.

    python3 -m tests.postfix_faults [--itself] [--full] [NAME]...

With --itself bounce(8) serves alone, with --full there are 50 kills instead of 12. NAME is a check (default: all)."""
import contextlib
import fcntl
import os
import pwd
import random
import re
import signal
import socket
import subprocess
import sys
import threading
import time
from collections import Counter
from pathlib import Path

from tests.postfix.capture.cases import Case
from tests.postfix.capture.submit import by_smtp
from tests.support.hand_in_gate import AWAY, LATER, OPEN, SILENT, Gate
from tests.support.private_postfix import FRONT, Mailbox, Postfix, asked, attributes, comes_true, is_open, lacks
from tests.support.running import Checks, program, run
from tests.support.sandbox import HOME, Sandbox

SLOW = {"queue_run_delay": "3000s", "minimal_backoff_time": "4000s", "maximal_backoff_time": "4000s"}
# Postfix leaves a message alone for a minute if it comes back to it while a delivery has the file locked, so not after
# one second.
QUICK = {
    "queue_run_delay": "1s",
    "minimal_backoff_time": "2s",
    "maximal_backoff_time": "2s",
    "service_throttle_time": "1s",
}
SENDERS, WAITING = 4, 20  # clients that send at load; messages whose logs wait
# Messages whose logs are asked for at once, and that expire; connections of clients that say nothing.
MANY, EXPIRING, HELD = 150, 60, 300
BETWEEN = (0.05, 0.4)  # seconds from one kill to the next
GROWTH = 8192  # KiB that hostile clients may leave behind in the service
SANITIZED = 1 << 30  # KiB of addresses that only a program with a sanitizer asks for
TOLD = re.compile(rb"^Final-Recipient: *rfc822; *(.*)\n(?:.+\n)*?Action: (\w+)", re.M)


class Tried:
    """A Postfix that is to be harmed, a gate before the server that takes the notices, and what is expected."""

    def __init__(self, serves, kind=Postfix, **settings):
        self.stack = contextlib.ExitStack()
        self.mailbox = self.stack.enter_context(Mailbox())
        self.postfix = self.stack.enter_context(kind(self.mailbox, serves, **(QUICK | settings)))
        self.gate = self.stack.enter_context(contextlib.closing(Gate(self.postfix.hand_in)))
        if self.postfix.front:
            self.postfix.front.hand_in = f"127.0.0.1:{self.gate.port}"
        self.wanted, self.sent, self.lock = [], [], threading.Lock()

    def __enter__(self):
        self.postfix.start()
        return self

    def __exit__(self, *_):
        self.stack.close()

    def send(self, name: str, relayed=True):
        """Sends a message of two recipients who are refused, and one who is told that it was relayed."""
        recipients = [f"no.{name}a@example.org", f"no.{name}b@example.org"] + [
            (f"ok.{name}c@example.org", "NOTIFY=SUCCESS")
        ] * relayed
        taken = by_smtp(self.postfix.smtp, Case(name, "bounce", recipients))
        with self.lock:
            self.wanted += [(f"no.{name}{it}@example.org", "failed") for it in "ab"] + [
                (f"ok.{name}c@example.org", "relayed")
            ] * relayed
            self.sent.append(taken)

    def say_nothing(self, way):
        """From now on notices can't be handed in, or again they can: by the gate where a program is in front, and by
        bounce(8)'s settings where it has none."""
        if self.postfix.front:
            self.gate.way = way
        else:
            self.postfix.mute = way != OPEN
            self.postfix.reload()

    def told(self) -> Counter:
        """Each recipient that notices told of, with what became of it, and how many times."""
        notices = [it.text for it in self.postfix.deliveries() if not it.sender]
        return Counter((who.decode(), what.decode()) for text in notices for who, what in TOLD.findall(text))

    def judged(self, checks: Checks, what: str, seconds=100, most=0) -> int:
        """Waits until all is done: nobody is lost, and so many at most are told twice. How many are."""
        checks.equal(f"{what}: what is left", self.postfix.left(seconds, empty=True), [])
        told = self.told()
        checks.equal(f"{what}: who is lost", [it for it in self.wanted if it not in told][:20], [])
        checks.equal(f"{what}: who wasn't to be told", [it for it in told if it not in set(self.wanted)][:20], [])
        twice = sorted(it for it, times in told.items() if times > 1)
        checks.true(f"{what}: {len(twice)} told twice, of {len(self.wanted)}, at most {most}", len(twice) <= most)
        if self.postfix.front:
            checks.equal(f"{what}: the service runs", self.postfix.front.running.poll(), None)
        return len(twice)

    def wait_for_logs(self, checks: Checks, what: str, count: int):
        """Waits until so many messages are put off with a log of those who were refused."""
        checks.true(
            f"{what}: logs wait",
            comes_true(
                lambda: len(self.postfix.logs("bounce")) >= count
                and not self.postfix.queued("incoming", "active", "maildrop"),
                30,
            ),
        )


def at_load(tried: Tried, stop: threading.Event) -> list:
    """Clients that send messages until they are told to stop."""

    def send(client: int):
        for at in range(100_000):
            if stop.is_set():
                return
            tried.send(f"c{client}m{at}")

    threads = [threading.Thread(target=send, args=(it,)) for it in range(SENDERS)]
    for it in threads:
        it.start()
    return threads


def killed(serves, kills: int, checks: Checks, name: str, most) -> tuple:
    """The service, or the processes of bounce(8), killed at load so many times: how many recipients were told twice,
    and of how many."""
    dice, stop = random.Random(kills), threading.Event()
    with Tried(serves) as it:
        threads = at_load(it, stop)
        for _ in range(kills):
            time.sleep(dice.uniform(*BETWEEN))
            if it.postfix.front:
                it.postfix.front.kill()
                it.postfix.front.start()
                continue
            for process in it.postfix.processes("bounce"):
                with contextlib.suppress(ProcessLookupError):
                    os.kill(process, signal.SIGKILL)
        stop.set()
        for thread in threads:
            thread.join()
        twice = it.judged(checks, f"{kills} kills of {name}", 120, len(it.wanted) if most is None else most)
        relayed = Counter(to for _, all_of_them, _ in it.mailbox.others for to in all_of_them)
        again = sum(times > 1 for times in relayed.values())
        print(
            f"  {kills} kills of {name}: {len(it.sent)} messages, {len(it.wanted)} recipients to be told, "
            f"{twice} of them told twice, {again} delivered twice",
            flush=True,
        )
        return twice, len(it.wanted)


def kills(checks: Checks, serves, full: bool):
    """Killed at load: none is lost, and few are told twice: those of the notices that were taken at a kill, of two in
    hand at most, and whose log was still there. A notice of these messages tells of up to three, so a kill makes six at
    most."""
    count = 50 if full else 12
    twice, _ = killed(None, count, checks, "bounce(8)", None)
    if serves:
        killed(serves, count, checks, "noticed", max(twice, 6 * count))


def hand_in_fails(checks: Checks, serves, full: bool):
    """The server to which notices are handed in is away, puts them off, or doesn't say that it has them."""
    for way in (AWAY, LATER, SILENT) if serves else (AWAY,):
        with Tried(serves) as it:
            it.say_nothing(way)
            for at in range(WAITING):
                it.send(f"{way}{at}")
            if way == SILENT:
                comes_true(lambda: len(it.mailbox.notices) >= 2 * WAITING)
            else:
                it.wait_for_logs(checks, f"the hand-in is {way}", WAITING)
                time.sleep(2)
                checks.equal(f"the hand-in is {way}: notices", len(it.mailbox.notices), 0)
            it.say_nothing(OPEN)
            it.judged(checks, f"the hand-in was {way}", most=len(it.wanted) if way == SILENT else 0)


def loaded_anew(checks: Checks, serves, full: bool):
    """Postfix is reloaded, and restarted, while logs wait; then the notices of all of them are requested at once."""
    with Tried(serves, **SLOW) as it:
        it.say_nothing(AWAY)
        for at in range(MANY):
            it.send(f"anew{at}")
        it.wait_for_logs(checks, "loaded anew", MANY)
        it.postfix.reload()
        it.send("after")
        it.wait_for_logs(checks, "loaded anew, and one more", MANY + 1)
        it.postfix.stop()
        it.postfix.mute = False
        it.gate.way = OPEN
        it.postfix.start()
        for _ in range(5):
            it.postfix.command("postqueue", "-f")
            if not it.postfix.left(10, empty=True):
                break
        it.judged(checks, "loaded anew, stopped and started")


def back_and_forth(checks: Checks, serves, full: bool):
    """Back to bounce(8) while logs of the service wait, and to the service while logs of bounce(8) wait."""
    if not serves:
        return
    with Tried(serves) as it:
        it.gate.way = AWAY
        for at in range(WAITING):
            it.send(f"back{at}")
        it.wait_for_logs(checks, "back to bounce(8)", WAITING)
        for name in FRONT:
            del it.postfix.settings[name]
        it.postfix.reload()
        it.postfix.front.kill()
        front, it.postfix.front = it.postfix.front, None
        it.judged(checks, "back to bounce(8)")
        it.say_nothing(AWAY)
        for at in range(WAITING):
            it.send(f"forth{at}")
        it.wait_for_logs(checks, "forth to the service", WAITING)
        it.postfix.mute, it.postfix.front = False, front
        it.postfix.settings |= FRONT
        it.gate.way = OPEN
        front.start()
        it.postfix.reload()
        it.judged(checks, "forth to the service")


# what is done to the log of a message of which two recipients were refused
DAMAGES = {
    "garbage between": lambda log: log.replace(b"\n\n\n", b"\n\nrubbish without a sign\n\n\n", 1),
    "cut short": lambda log: log[: len(log) * 3 // 4],
    "cut in the first record": lambda log: log[: len(log) // 4],
    "bytes of zero": lambda log: log[: len(log) // 2] + bytes(64) + log[len(log) // 2 :],
    "a field without its name": lambda log: re.sub(rb"(?m)^recipient=", b"recipent=", log, count=1),
}


def damaged_logs(checks: Checks, serves, full: bool):
    """Damaged logs: nobody is forgotten whom bounce(8) tells of the same log, and the message leaves the queue."""
    found = {}
    for kind in (None, serves)[: 2 if serves else 1]:
        with Tried(kind) as it:
            it.say_nothing(AWAY)
            for name in DAMAGES:
                it.send(name.replace(" ", "-"), relayed=False)
            it.wait_for_logs(checks, "damaged logs", len(DAMAGES))
            it.postfix.stop()
            for log in it.postfix.logs("bounce"):
                text = log.read_bytes()
                name = re.search(rb"recipient=no\.([\w-]+)a@", text)[1].decode()
                log.write_bytes(DAMAGES[name.replace("-", " ")](text))
            it.postfix.mute = False
            it.gate.way = OPEN
            it.postfix.start()
            checks.equal("damaged logs: what is left", it.postfix.left(60, empty=True), [])
            found[kind] = it.told()
            checks.true("damaged logs: somebody is told of each", len(it.mailbox.notices) >= len(DAMAGES) - 1)
    if serves:
        checks.equal(
            "damaged logs: whom bounce(8) alone tells", [name for name in found[None] if name not in found[serves]], []
        )
        checks.equal(
            "damaged logs: who is told twice",
            [name for name, times in found[serves].items() if times > found[None].get(name, 1)],
            [],
        )


def flush_request(queue_id: str, queue_name="deferred", number=1, flags=0) -> bytes:
    """A request for the notice of a message, as the queue manager of 3.7 sends it."""
    of_message = [
        ("queue_name", queue_name),
        ("queue_id", queue_id),
        ("encoding", ""),
        ("smtputf8", 0),
        ("sender", "ann@example.com"),
    ]
    return attributes([("nrequest", number), ("flags", flags), *of_message, ("envelope_id", ""), ("ret_flags", 0)])


def append_request(queue_id: str, recipient: str, reason="host said: 550 5.1.1 no such user here") -> bytes:
    """A request to log a recipient who was refused, as smtp(8) of 3.7 sends it."""
    told = [
        ("original_recipient", recipient),
        ("recipient", recipient),
        ("offset", 727),
        ("dsn_orig_rcpt", ""),
        ("notify_flags", 0),
    ]
    became = [
        ("status", "5.1.1"),
        ("diag_type", ""),
        ("diag_text", ""),
        ("mta_type", ""),
        ("mta_mname", ""),
        ("action", "failed"),
        ("reason", reason),
    ]
    return attributes([("nrequest", 0), ("flags", 0), ("queue_id", queue_id), *told, *became])


def asked_again(it, name: str, request: bytes) -> bytes:
    """The status that bounce(8) alone answers a request, asked again as the queue manager would: one that has begun
    before may still have no cleanup service to hand a notice to."""
    for _ in range(10):
        status = asked_status(it, name, request)
        if status == b"0":
            break
        time.sleep(0.5)
    return status


def damaged_queue_files(checks: Checks, serves, full: bool):
    """Damaged queue files: the service is asked for the notice of each as the queue manager would ask, answers as
    bounce(8) does, and goes on."""
    damages = {
        "cut": lambda it: it[: len(it) // 2],
        "cut to nothing": lambda _: b"",
        "zeros": lambda it: bytes(len(it)),
    }
    damages["torn"] = lambda it: it[:100] + b"\xff" * 40 + it[140:]
    found = {}
    for kind in (None, serves)[: 2 if serves else 1]:
        with Tried(kind, **SLOW) as it:
            it.say_nothing(AWAY)
            for name in damages:
                it.send(name.replace(" ", "-"), relayed=False)
            it.wait_for_logs(checks, "damaged queue files", len(damages))
            it.postfix.mute = False
            it.say_nothing(OPEN)
            for queue_id, damage in zip(it.sent, damages.values()):
                file = next(path for path in it.postfix.queued("deferred") if path.name == queue_id)
                text = damage(file.read_bytes())
                file.write_bytes(text)
            asks = asked_again if kind is None else asked_status  # the reference alone is asked again
            answers = [asks(it, "bounce", flush_request(it_id)) for it_id in it.sent]
            comes_true(lambda: len(it.mailbox.notices) >= len(damages), 15)
            found[kind] = (answers, it.told(), len(it.postfix.logs("bounce")))
            if it.postfix.front:
                checks.equal("damaged queue files: the service runs", it.postfix.front.running.poll(), None)
    checks.equal("damaged queue files: bounce(8)'s answers", found[None][0], [b"0"] * len(damages))
    if serves:
        checks.equal("damaged queue files: answers, who is told, and logs that are left", found[serves], found[None])


def asked_status(it: Tried, service: str, request: bytes) -> bytes:
    """The status of an answer, or nothing."""
    try:
        found = re.search(rb"status\0(\d+)\0\0\Z", asked(it.postfix.service(service), request))
    except OSError:
        return b""
    return found[1] if found else b""


def both_logs(checks: Checks, serves, full: bool):
    """The flush of an expired message whose earlier failure was never told: the service tells both logs before it says
    that it is done."""
    if not serves:
        return
    with Tried(serves, **SLOW) as it:
        it.gate.way = AWAY
        queue_id = by_smtp(it.postfix.smtp, Case("both", "defer", ["no.both@example.org", "later.both@example.org"]))
        checks.true("both logs: they are there", comes_true(it.postfix.has_both_logs))
        it.gate.way = OPEN
        checks.equal("both logs: the answer", asked_status(it, "defer", flush_request(queue_id, flags=2)), b"0")
        comes_true(lambda: len(it.told()) >= 2, 10)
        checks.equal(
            "both logs: who is told",
            it.told(),
            Counter({("no.both@example.org", "failed"): 1, ("later.both@example.org", "failed"): 1}),
        )


def of_an_owner(checks: Checks, serves, full: bool):
    """local(8) requests the notice for the owner of a list, and the hand-in isn't possible yet. Then the message waits,
    and the owner gets one notice later."""
    with Tried(serves, Sandbox) as it:
        it.say_nothing(LATER)
        by_smtp(it.postfix.smtp, Case("owned", "bounce", [f"list-command@{HOME}"]))
        it.wanted.append((f"list-command@{HOME}", "failed"))
        checks.true("an owner: the message waits", comes_true(lambda: it.postfix.queued("deferred")))
        checks.equal("an owner: who is told", it.told(), Counter())
        it.say_nothing(OPEN)
        it.judged(checks, "an owner")


def marked(checks: Checks, serves, full: bool):
    """The flush of an expired message requests that recipients are marked as done. Its one alias has a failure, whose
    notice only bounce(8) can make, and a command that was tried again. The failure marks nobody, so both are told."""
    if not serves:
        return
    tried = Tried(serves, Sandbox, **SLOW)
    tried.postfix.mute = True
    with tried as it:
        it.gate.way = AWAY
        queue_id = by_smtp(it.postfix.smtp, Case("marked", "defer", [f"later-and-odd@{HOME}"]))
        checks.true("marked recipients: both logs are there", comes_true(it.postfix.has_both_logs))
        it.postfix.mute, it.gate.way = False, OPEN
        it.postfix.reload()
        checks.true("marked recipients: notices can be handed in", comes_true(lambda: is_open(it.postfix.hand_in)))
        checks.equal("marked recipients: the answer", asked_again(it, "defer", flush_request(queue_id, flags=2)), b"0")
        comes_true(lambda: len(it.told()) >= 2, 10)
        wanted = {(f'"no body"@{HOME}', "failed"): 1, (f"later-and-odd@{HOME}", "failed"): 1}
        checks.equal("marked recipients: who is told", it.told(), Counter(wanted))


def expiring(checks: Checks, serves, full: bool):
    """Messages expire while the hand-in comes and goes, so that a notice of a failure may fail where that of the expiry
    goes well: nobody is lost, and no log is left of a message that is gone."""
    if not serves:
        return
    dice, lifetime = random.Random(11), {"maximal_queue_lifetime": "6s", "bounce_queue_lifetime": "6s"}
    with Tried(serves, **lifetime) as it:
        it.gate.way, began = AWAY, time.monotonic()
        for at in range(EXPIRING):
            names = [f"no.expired{at}@example.org", f"later.expired{at}@example.org"]
            by_smtp(it.postfix.smtp, Case(f"expired{at}", "defer", names))
            it.wanted += [(name, "failed") for name in names]
        while time.monotonic() - began < (30 if full else 15):
            time.sleep(dice.uniform(0.02, 0.2))
            it.gate.way = dice.choice([OPEN, AWAY, LATER])
        it.gate.way = OPEN
        it.judged(checks, "expiring while the hand-in comes and goes", most=0)


def locked(checks: Checks, serves, full: bool):
    """A log that another process has locked for some seconds, while its notice is asked, for which bounce(8) takes no
    lock, and while a recipient is appended to it."""
    with Tried(serves) as it:
        it.say_nothing(AWAY)
        it.send("locked")
        it.wait_for_logs(checks, "a locked log", 1)
        with it.postfix.logs("bounce")[0].open("r+b") as log:
            fcntl.flock(log, fcntl.LOCK_EX)
            it.say_nothing(OPEN)
            time.sleep(3)
            fcntl.flock(log, fcntl.LOCK_UN)
        it.judged(checks, "a locked log")
    with Tried(serves, **SLOW) as it:
        checks.equal("an append", asked_status(it, "bounce", append_request("ABC123", "one@example.org")), b"0")
        [log] = it.postfix.logs("bounce")
        before = log.read_bytes()
        with log.open("r+b") as held:
            fcntl.flock(held, fcntl.LOCK_EX)
            answer, asking = [], threading.Thread(
                target=lambda: answer.append(asked_status(it, "bounce", append_request("ABC123", "two@example.org")))
            )
            asking.start()
            time.sleep(2)
            checks.equal("an append to a locked log waits", (answer, log.read_bytes()), ([], before))
        asking.join()
        checks.equal("then it is done", answer, [b"0"])
        checks.true(
            "and the log has both", log.read_bytes().startswith(before) and b"two@example.org" in log.read_bytes()
        )


@contextlib.contextmanager
def small_disk(folder: Path):
    """A file system of 64 KiB in memory over a folder of Postfix's; whether it could be mounted."""
    owner = pwd.getpwnam("postfix")
    words = [
        "mount",
        "-t",
        "tmpfs",
        "-o",
        f"size=64k,mode=700,uid={owner.pw_uid},gid={owner.pw_gid}",
        "tmpfs",
        str(folder),
    ]
    mounted = subprocess.run(words, check=False, capture_output=True).returncode == 0
    try:
        yield mounted
    finally:
        if mounted:
            subprocess.run(["umount", "-l", str(folder)], check=False)


def fill(path: Path):
    """Takes all the room that is left beside a file."""
    with contextlib.suppress(OSError), path.open("wb", buffering=0) as out:
        while out.write(b"x" * 4096):
            pass


def full_disk(checks: Checks, serves, full: bool):
    """A full disk at an append: it is refused, the log is as it was before, and once there is room the recipient is
    logged, and told."""
    with contextlib.ExitStack() as stack:
        it = stack.enter_context(Tried(serves))
        if not stack.enter_context(small_disk(it.postfix.queue / "bounce")):
            checks.skip("a full disk (nothing can be mounted here)")
            return
        queue_id, room = "ABC123", it.postfix.queue / "bounce"
        for at in range(9):
            checks.equal(
                "an append while there is room",
                asked_status(it, "bounce", append_request(queue_id, f"one{at}@example.org", "x" * 150)),
                b"0",
            )
        fill(room / "filling")
        before, statuses = (room / queue_id).read_bytes(), []
        for at in range(40):
            statuses.append(asked_status(it, "bounce", append_request(queue_id, f"two{at}@example.org", "x" * 700)))
            if statuses[-1] != b"0":
                break
            before = (room / queue_id).read_bytes()
        checks.true("an append fails on a full disk", statuses[-1] != b"0")
        checks.equal("and leaves the log as it was", (room / queue_id).read_bytes(), before)
        it.send("full")
        time.sleep(2)
        checks.equal(
            "a message meets a full disk: it stays", len(it.postfix.queued("deferred", "active", "incoming")), 1
        )
        checks.equal("and nobody is told of its failures", [name for name, what in it.told() if what == "failed"], [])
        (room / "filling").unlink()
        checks.true(
            "there is room again",
            comes_true(lambda: asked_status(it, "bounce", append_request(queue_id, "three@example.org")) == b"0"),
        )
        checks.true("and the log goes on", (room / queue_id).read_bytes().startswith(before))
        (room / queue_id).unlink()
        it.judged(checks, "a full disk")


def memory(process: int, what="VmRSS") -> int:
    """The KiB that a process has in memory."""
    return int(re.search(rf"{what}:\s+(\d+)", Path(f"/proc/{process}/status").read_text())[1])


def hostile_requests() -> list:
    """What no program of Postfix sends."""
    ids = ["../../etc/x", "a/b", "..", ".", "", "A" * 300, "ABC\r\n", "../bounce/ABC"]
    dice = random.Random(7)
    return [
        *[dice.randbytes(size) for size in (1, 10, 1000, 100_000)],
        bytes(10),
        bytes(100_001),
        b"nrequest",
        b"nrequest\0",
        b"nrequest\0" + b"9" * 1000 + b"\0\0",
        b"a\0b\0" * 50_000,
        attributes([("nrequest", 77)]),
        *[append_request(it, "a@example.org") for it in ids],
        *[flush_request(it) for it in ids],
        *[flush_request("ABC123", it) for it in ids],
        flush_request("ABC123", flags=4294967295),
        append_request("ABC124", "a@example.org", "x" * 1_000_000),
    ]


def send_badly(path: Path, request: bytes, dice: random.Random):
    """A client that sends a part, or all in pieces, and leaves, or waits for an answer."""
    with contextlib.suppress(OSError), socket.socket(socket.AF_UNIX) as asking:
        asking.settimeout(2)
        asking.connect(str(path))
        if dice.random() < 0.5:
            asking.sendall(request[: dice.randrange(len(request) + 1)])
            return
        for at in range(0, len(request), 8192):
            asking.sendall(request[at : at + 8192])
        asking.shutdown(1)
        while asking.recv(4096):
            pass


def hostile(checks: Checks, serves, full: bool):
    """Hostile clients of the sockets: the service goes on, keeps no memory, and writes nothing but logs of ids."""
    if not serves:
        return
    with Tried(serves) as it:
        it.send("first")
        it.judged(checks, "before hostile clients")
        service, dice = it.postfix.front.running.pid, random.Random(5)
        for rounds, kind in ((2, "warm"), (60 if full else 20, "all")):
            before = (memory(service), len(os.listdir(f"/proc/{service}/fd")), threads_of(service))
            for _ in range(rounds):
                for request in hostile_requests():
                    send_badly(it.postfix.service(dice.choice(["bounce", "defer", "trace"])), request, dice)
            comes_true(
                lambda: threads_of(service) <= before[2] and len(os.listdir(f"/proc/{service}/fd")) <= before[1], 10
            )
        after = (memory(service), len(os.listdir(f"/proc/{service}/fd")), threads_of(service))
        print(
            f"  hostile clients: memory {before[0]} KiB before and {after[0]} after, "
            f"{before[1]} and {after[1]} files, {before[2]} and {after[2]} threads"
        )
        if memory(service, "VmSize") > SANITIZED:
            checks.skip("memory after hostile clients (the program has a sanitizer, which keeps what is freed)")
        else:
            checks.true("hostile clients: memory doesn't grow", after[0] - before[0] <= GROWTH)
        fewer = after[1] <= before[1] and after[2] <= before[2]  # a session with the mail server may have ended
        checks.true(f"hostile clients: files and threads stay: {before[1:]}, {after[1:]}", fewer)
        checks.equal("hostile clients: the service runs", it.postfix.front.running.poll(), None)
        comes_true(lambda: not it.postfix.queued(), 15)
        checks.equal(
            "hostile clients: what was written",
            [
                name
                for name in it.postfix.at_work(empty=True)
                if not re.fullmatch(r"(bounce|trace)/\w+|defer/\w/\w+", name)
            ],
            [],
        )
        elsewhere = ["-type", "f", "-user", "postfix", "-not", "-path", "*/queue/*", "-not", "-path", "*/data/*"]
        found = subprocess.run(["find", str(it.postfix.room), *elsewhere], capture_output=True, check=True).stdout
        checks.equal("hostile clients: files elsewhere", found, b"")
        for log in it.postfix.logs():
            log.unlink()
        it.send("last")
        it.judged(checks, "after hostile clients")


def silent(checks: Checks, serves, full: bool):
    """Many clients connect and send nothing for some seconds: a message that comes meanwhile gets its notice."""
    if not serves:
        return
    with Tried(serves) as it, contextlib.ExitStack() as held:
        for _ in range(HELD):
            client = held.enter_context(socket.socket(socket.AF_UNIX))
            client.setblocking(False)
            with contextlib.suppress(OSError):
                client.connect(str(it.postfix.service("bounce")))
        it.send("meanwhile")
        time.sleep(4)
        held.close()
        it.judged(checks, "silent clients")


def threads_of(process: int) -> int:
    return len(os.listdir(f"/proc/{process}/task"))


CHECKS = (
    kills,
    hand_in_fails,
    loaded_anew,
    back_and_forth,
    damaged_logs,
    damaged_queue_files,
    both_logs,
    of_an_owner,
    marked,
    expiring,
    locked,
    full_disk,
    hostile,
    silent,
)


def main():
    checks = Checks("Postfix with noticed in front, harmed: no recipient is lost, and few are told twice")
    options = {it for it in sys.argv[1:] if it.startswith("--")}
    if lacks():
        checks.skip(f"everything (needs {lacks()})")
        checks.done()
    serves = None if "--itself" in options else program()
    if serves and b"postfix" not in run(["postfix"]).notes:
        checks.skip("noticed postfix (the program has no such command), so bounce(8) served alone")
        serves = None
    named = [it for it in sys.argv[1:] if it not in options]
    for check in CHECKS:
        if not named or check.__name__ in named:
            began = time.monotonic()
            check(checks, serves, "--full" in options)
            print(f"  {check.__name__}: {time.monotonic() - began:.0f} seconds, {checks.held} held so far", flush=True)
    checks.done()


if __name__ == "__main__":
    main()
