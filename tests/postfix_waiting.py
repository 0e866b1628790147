"""What `noticed postfix` does where a mail server, or other clients, are slow. An append is answered within a second
all the same; a request for notices waits for its turn, for a limited time, or is told soon that it can't be done now
if none is carried out; and a client that doesn't say its list at once is cut off. An append is answered only once its record is synced."""
import os
import re
import threading
import time

from tests.support.daemon_and_clients import until
from tests.support.postfix_folder import (
    ANNOUNCEMENT,
    FAILED,
    FILES,
    Client,
    Postfix,
    append,
    at_once,
    heard_to_end,
    notice,
)
from tests.support.preloading import built, preloading
from tests.support.running import Checks

ONE = "090B8A85C9C"  # the queue id of the message `one`
AT_ONCE = 8  # notices that are handed in at once
TELLING, WAITING = 8, 200  # of one service: threads that make notices, and requests that wait for one
SECONDS_FOR_LIST, SECONDS_FOR_TURN, SECONDS_FOR_ROOM = 5, 60, 10  # a reply has as long as a turn
FURTHER, OTHERS = 20, 4  # requests for notices beyond those that wait; of another service
MANY = 2 * (TELLING + WAITING)  # requests for notices of which half find no room
SLOW_SYNC = 500  # milliseconds


def put_messages(it: Postfix, count: int) -> list:
    """Makes messages with a bounce log each, and returns their queue ids."""
    ids = [f"A{number}" for number in range(count)]
    it.at("deferred/A").mkdir()
    for message in ids:
        it.at(f"deferred/A/{message}").write_bytes((FILES / "one/queue").read_bytes())
        it.at(f"bounce/{message}").write_bytes((FILES / "one/bounce").read_bytes())
    return ids


def put_deferred(it: Postfix, messages: list):
    """Gives messages a defer log in place of their bounce log."""
    it.at("defer/A").mkdir()
    for message in messages:
        it.at(f"bounce/{message}").unlink()
        for place, name in ((f"deferred/A/{message}", "queue"), (f"defer/A/{message}", "defer")):
            it.at(place).write_bytes((FILES / "later" / name).read_bytes())


def expect_appends(checks: Checks, it: Postfix, while_: str, services=("bounce", "defer", "trace")):
    """An append to each service is answered within a second."""
    for service in services:
        began = time.monotonic()
        status = it.ask(service, append(ONE))
        seconds = time.monotonic() - began
        checks.true(f"{while_}: an append to {service}: {status} after {seconds:.2f} s", status == 0 and seconds < 1)


def check_synced(checks: Checks):
    """The sync of a log is slow: so is the answer to an append, since it comes after it."""
    for log, service in ((f"bounce/{ONE}", "bounce"), (f"defer/0/{ONE}", "defer"), (f"trace/{ONE}", "trace")):
        with Postfix(start=False) as it:
            library = built(it.room.name, "slow")
            it.environment = preloading(library, SLOW=it.at(log), MILLISECONDS=SLOW_SYNC)
            it.start()
            began = time.monotonic()
            status = it.ask(service, append(ONE))
            seconds = time.monotonic() - began
            checks.equal(f"an append to {service}", (status, it.at(log).exists()), (0, True))
            checks.true(f"an append to {service} waits for the sync: {seconds:.2f} s", seconds >= SLOW_SYNC / 1000)


def check_one_log(checks: Checks):
    """Appends to one log at once: all stand in it, each whole."""
    with Postfix() as it:
        found = at_once(
            *(lambda text=f"550 number {number}": it.ask("bounce", append(ONE, text=text)) for number in range(40))
        )
        log = it.at(f"bounce/{ONE}").read_text()
        numbers = sorted(map(int, re.findall(r"diag_text=550 number (\d+)", log)))
        checks.equal("appends to one log", (found, numbers), ([0] * 40, list(range(40))))
        one = re.sub(r"number \d+", "number", log[: log.index("\n\n", 1) + 2])
        checks.true("its records are whole", re.sub(r"number \d+", "number", log) == 40 * one)


def check_slow_server(checks: Checks):
    """A server that takes its time: some notices of two services are handed in side by side, and others wait; no append
    does."""
    with Postfix() as it:
        go, waiting, statuses = threading.Event(), [], []
        it.server.waits["message"] = lambda: (waiting.append(1), go.wait(30))
        ids = put_messages(it, 60)
        put_deferred(it, ids[:30])
        asked = [*(("defer", message) for message in ids[:30]), *(("bounce", message) for message in ids[30:])]
        asking = threading.Thread(
            target=lambda: statuses.extend(
                at_once(*(lambda of=of, message=message: it.ask(of, notice(1, message)) for of, message in asked))
            )
        )
        asking.start()
        checks.true("notices that are handed in side by side", until(lambda: len(waiting) >= AT_ONCE))
        time.sleep(0.5)
        checks.equal("and no more", len(waiting), AT_ONCE)
        expect_appends(checks, it, "60 notices wait")
        go.set()
        asking.join()
        checks.equal("all are told", (statuses, len(it.server.taken)), ([0] * len(ids), len(ids)))


def check_many(checks: Checks):
    """More notices than wait, of a server that takes one after another: none is refused."""
    with Postfix() as it:
        it.server.waits["message"] = lambda: time.sleep(0.01)
        ids = put_messages(it, MANY)
        asked = [lambda message=message: it.ask("bounce", notice(1, message)) for message in ids]
        checks.equal("many are told", (at_once(*asked), len(it.server.taken)), ([0] * len(ids), len(ids)))


class Hanging:
    """A mail server that accepts connections and says nothing, and more requests for notices than wait, from the first
    step of this script to its last."""

    def __init__(self):
        self.postfix, self.end = Postfix(), threading.Event()
        self.postfix.server.waits["connect"] = self.end.wait
        ids = put_messages(self.postfix, TELLING + WAITING + FURTHER + OTHERS)
        self.ids, self.others = ids[:-OTHERS], ids[-OTHERS:]
        put_deferred(self.postfix, self.others)
        self.statuses = self.ask("bounce", self.ids)

    def ask(self, service: str, messages: list) -> list:
        """Asks for a notice of each message. The list grows by the seconds and the status of each answer."""
        statuses, began = [], time.monotonic()

        def ask_one(message: str):
            with Client(self.postfix.folder, service) as client:
                client.peer.settimeout(4 * SECONDS_FOR_TURN)
                status = client.ask(notice(1, message))
                statuses.append((time.monotonic() - began, status))

        for message in messages:
            threading.Thread(target=ask_one, args=(message,), daemon=True).start()
        return statuses

    def check_refused(self, checks: Checks):
        """Those beyond the ones that wait are answered soon, and appends at once."""
        expect_appends(checks, self.postfix, "the mail server hangs")
        checks.true(
            f"further requests are answered soon: {len(self.statuses)}",
            until(lambda: len(self.statuses) >= FURTHER, 2 * SECONDS_FOR_ROOM),
        )
        after = min(seconds for seconds, _ in self.statuses)
        checks.true(f"not before some seconds have passed: {after:.1f} s", after > SECONDS_FOR_ROOM - 1)
        checks.equal("that they weren't carried out", {status for _, status in self.statuses}, {FAILED})
        checks.true(
            "each has a line",
            until(
                lambda: sum(line.endswith(f"request not carried out: status {FAILED}") for line in self.postfix.lines())
                == FURTHER
            ),
        )
        checks.equal("and no other", len(self.statuses), FURTHER)
        began = time.monotonic()
        checks.equal("then one is answered at once", self.postfix.ask("bounce", notice(1, self.ids[0])), FAILED)
        checks.true(f"in {time.monotonic() - began:.2f} s", time.monotonic() - began < 1)
        self.turns = self.ask("defer", self.others)

    def check_turns(self, checks: Checks):
        """Whom the server doesn't answer for a minute is answered that it wasn't carried out, and so is whoever waits
        for a turn meanwhile; the logs stay."""
        least = FURTHER + AT_ONCE
        checks.true(
            "a reply is waited for for a minute", until(lambda: len(self.statuses) >= least, 2 * SECONDS_FOR_TURN)
        )
        after = sorted(self.statuses)[FURTHER][0]
        checks.true(f"and no less: {after:.1f} s", SECONDS_FOR_TURN - 1 < after < SECONDS_FOR_TURN + 20)
        checks.true(
            "a turn is waited for for a minute",
            until(lambda: len(self.turns) == OTHERS, 3 * SECONDS_FOR_TURN),
        )
        after = min(seconds for seconds, _ in self.turns)
        checks.true(f"a turn and a reply: {after:.1f} s", SECONDS_FOR_TURN - 1 < after < 2 * SECONDS_FOR_TURN + 20)
        checks.equal("nobody is told that it was done", {it for _, it in self.statuses + self.turns}, {FAILED})
        logs = {*os.listdir(self.postfix.at("bounce")), *os.listdir(self.postfix.at("defer/A"))}
        checks.true("all logs are left", logs.issuperset(self.ids + self.others))
        self.end.set()


def check_silent_clients(checks: Checks):
    """Clients that say nothing, or a byte each second: they are cut off after seconds, and no append waits for them."""
    with Postfix() as it:
        clients = [Client(it.folder, "bounce") for _ in range(100)]
        began, ended = time.monotonic(), []

        def wait(number: int, client: Client):
            request, peer = append("SILENT"), client.peer
            peer.settimeout(0.9)
            text, at = b"", 0
            while True:
                try:
                    piece = peer.recv(1000)
                    text += piece
                    if not piece:
                        break
                except TimeoutError:
                    if number % 2:
                        peer.sendall(request[at : at + 1])
                        at += 1
                except OSError:
                    break
            ended.append((text, time.monotonic() - began))

        for it_is in enumerate(clients):
            threading.Thread(target=wait, args=it_is, daemon=True).start()
        expect_appends(checks, it, "100 clients are slow")
        checks.true("all are cut off", until(lambda: len(ended) == len(clients), 3 * SECONDS_FOR_LIST))
        seconds = sorted(seconds for _, seconds in ended)
        checks.true(f"within seconds: {seconds[-1]:.1f}", seconds[-1] < SECONDS_FOR_LIST + 2)
        checks.equal("they were announced the protocol", {text for text, _ in ended}, {ANNOUNCEMENT})
        checks.equal("nothing is logged of them", os.listdir(it.at("bounce")), [ONE])


def check_one_slow_client(checks: Checks):
    """A client that is alone has seconds for its list, and not more."""
    with Postfix() as it:
        with Client(it.folder, "bounce") as client:
            request = append(ONE)
            for piece in (request[:40], request[40:80], request[80:]):
                client.peer.sendall(piece)
                time.sleep(1)
            checks.equal("in pieces", heard_to_end(client.peer), ANNOUNCEMENT + b"status\x000\0\0")
        with Client(it.folder, "bounce") as client:
            began = time.monotonic()
            checks.equal("silent", heard_to_end(client.peer), ANNOUNCEMENT)
            seconds = time.monotonic() - began
            checks.true(f"after {seconds:.1f} s", SECONDS_FOR_LIST - 1 < seconds < SECONDS_FOR_LIST + 5)


def main():
    checks = Checks("postfix_waiting: slow clients and slow mail servers, in a queue folder without a Postfix")
    hanging = Hanging()
    with hanging.postfix:
        for check in (
            hanging.check_refused,
            check_synced,
            check_one_log,
            check_slow_server,
            check_many,
            check_silent_clients,
            check_one_slow_client,
            hanging.check_turns,
        ):
            check(checks)
    checks.done()


if __name__ == "__main__":
    main()
