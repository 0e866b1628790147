"""Refuses the first, the second, .. start of a thread, and the first, the second, .. growth of memory, of a crew over
connections in memory (the program probe), by small libraries that are preloaded (tests/support/refuse_thread.c and
refuse.c, compiled here with gcc). Each run ends, and as it should: without its poster nothing is begun, without an
agent the others are served to their ends. `noticed serve --log` has a line for each agent without a thread."""
import os
import subprocess
import sys
import tempfile
from pathlib import Path
from typing import Optional

from tests.support.daemon_and_clients import Daemon, answer, append, asked
from tests.support.preloading import built, compare_ends, each_refused, preloading
from tests.support.faults import fault_line
from tests.support.running import HOST, ROOT, VECTORS, Checks, Ran, empty_outbox

PROBE = os.environ.get("PROBE") or str(ROOT / "crates/probe/out/probe")
PATIENCE = 20  # seconds that a run may take
MOST = 300  # growths of a run; more than this and the sweep is broken

# the notice that agent 0's log comes to
OUTBOX = (VECTORS / "one-bounce.outbox").read_bytes().replace(b"ann@example.com", b"ann@example")
UNBEGUN = Ran(b"", b"", 1)  # the program's own memory was refused


def crew(agents: int, environment: Optional[dict] = None) -> Ran:
    """A crew of so many agents: each appends once to a log of its own, and agent 0 then flushes it."""
    ended = subprocess.run(
        [PROBE, "crew", str(agents), "1"], capture_output=True, env=environment, timeout=PATIENCE, check=False
    )
    return Ran(ended.stdout, ended.stderr, ended.returncode)


def shown(answered: int, agents: list, letters: int, outbox: bytes) -> Ran:
    """What a run shows that ended well: the requests and faults of each agent, the letters, the outbox."""
    lines = b"".join(b"requests %d connections 1 faults %d\n" % it for it in agents)
    return Ran(b"ok\nanswered %d\n" % answered + lines + b"letters %d unsent 0 whole true\n" % letters + outbox, b"", 0)


def refused(answered: int, outbox: bytes) -> Ran:
    """What a run shows that was refused memory or a thread."""
    return Ran(b"fault 42\nanswered %d\nunsent 0\n" % answered + outbox, b"", 0)


def whole(agents: int) -> Ran:
    """What a run shows that was refused nothing."""
    return shown(agents + 1, [(2, 0)] + [(1, 0)] * (agents - 1), 1, OUTBOX)


def threads(checks: Checks, library: Path, agents: int):
    """The poster's thread is refused, then each agent's in turn, then none."""
    wanted = [refused(0, b""), refused(agents - 1, empty_outbox())]
    wanted += [refused(agents, OUTBOX)] * (agents - 1) + [whole(agents)]
    for number, end in enumerate(wanted, 1):
        checks.equal(
            f"{agents} agents, thread {number} refused", crew(agents, preloading(library, REFUSE_THREAD=number)), end
        )


def growths_of_one(checks: Checks, ends: list):
    """The ends of a crew of one agent come in the order of its growths, and each of them is met. The second frame is as
    long as the first, so what the first was read into has room for it."""
    wanted = {
        "before the run": UNBEGUN,
        "for the crew, or for the poster's thread": refused(0, b""),
        "for the agent's thread": refused(0, empty_outbox()),
        "for the first frame": shown(0, [(0, 1)], 0, empty_outbox()),
        "for a body": shown(1, [(1, 0)], 0, empty_outbox()),
        "none": whole(1),
    }
    compare_ends(checks, "growths of a crew of one agent", ends, wanted)


def growths_of_many(checks: Checks, agents: int, ends: list):
    """Up to the first thread every growth that is refused ends the run with nothing written; later ones end it by a
    refused start, or refuse one request or one connection of an agent."""
    begun = next(at for at, end in enumerate(ends) if end not in (UNBEGUN, refused(0, b"")))
    checks.true(f"{agents} agents: growths before the first thread", ends[:begun].count(refused(0, b"")) > 4)
    for number, end in enumerate(ends[begun:], begun + 1):
        is_known = end.outbox.startswith((b"ok\n", b"fault 42\n")) and end.outbox.endswith((OUTBOX, empty_outbox()))
        checks.true(
            f"{agents} agents, growth {number} refused: {end}", is_known and (end.notes, end.status) == (b"", 0)
        )


def logged(checks: Checks, library: Path):
    """A daemon of three agents, of which one has no thread: a line at once, if lines are wanted. The others serve, and
    the run ends with 42. (Before theirs come the threads of the status and of the poster, and with --log first that of
    the lines.)"""
    for agent in range(3):
        for options in ((), ("--log",)):
            number = 3 + len(options) + agent
            about = f"{' '.join(options)} thread {number} of a daemon refused"
            with Daemon(3, 1, options=options, env=preloading(library, REFUSE_THREAD=number)) as daemon:
                said = f"listening on {daemon.path} for {HOST}: 3 agents, 1 connections each\n"
                said += f"the host's name {HOST} is one for examples\n"
                said = f"{said}a thread was refused: an agent does not serve\n".encode() if options else b""
                daemon.listens()
                checks.equal(f"{about}: the line", daemon.said(len(said)), said)
                for _ in range(2):
                    with daemon.connect() as client:
                        checks.equal(f"{about}: an answer", len(asked(client, append(0))), len(answer(0)))
                checks.equal(f"{about}: the end", daemon.end(), Ran(empty_outbox(), said + fault_line(42), 1))
    with Daemon(1, 1, options=("--log",), env=preloading(library, REFUSE_THREAD=1)) as daemon:
        checks.equal("without a thread for the lines", daemon.end(), Ran(b"", fault_line(42), 1))
    with Daemon(1, 1, env=preloading(library, REFUSE_THREAD=1)) as daemon:
        daemon.send()
        checks.equal("without a thread for the status", daemon.end().status, 0)


def main():
    checks = Checks("threads: each start of a thread of a crew refused in turn, and each growth of its memory")
    if not os.access(PROBE, os.X_OK):
        print(f"there is no program {PROBE}: run the gate, or name one in PROBE")
        sys.exit(1)
    with tempfile.TemporaryDirectory() as room:
        growth, start = built(room, "refuse"), built(room, "refuse_thread")
        for agents in (1, 2, 4):
            checks.equal(f"{agents} agents", crew(agents), whole(agents))
            threads(checks, start, agents)
            ends = each_refused(
                growth, MOST, lambda environment, agents=agents: crew(agents, environment), whole(agents)
            )
            checks.equal(f"{agents} agents: the last growth is passed", ends[-1], whole(agents))
            growths_of_one(checks, ends) if agents == 1 else growths_of_many(checks, agents, ends)
            print(f"  {agents} agents: {agents + 1} threads and {len(ends) - 1} growths, each refused once")
        logged(checks, start)
    checks.equal("no agent", crew(0), Ran(b"fault 43\nanswered 0\nunsent 0\n", b"", 0))
    checks.equal("17 agents", crew(17), Ran(b"fault 43\nanswered 0\nunsent 0\n", b"", 0))
    checks.done()


if __name__ == "__main__":
    main()
