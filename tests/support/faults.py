"""The lines of faults."""
import functools

from tests.support.running import run


@functools.cache
def words() -> dict:
    """The words of each number, as the program lists them."""
    lines = run(["faults"]).outbox.decode().splitlines()
    return {int(number): text for number, text in (line.split(maxsplit=1) for line in lines)}


def fault_line(number: int) -> bytes:
    """The line of a fault of `batch`, `serve` or `send`, whose bytes noticed-protocol(5) gives: its number alone."""
    return b"fault %d\n" % number


def worded(number: int, reason: str = "") -> bytes:
    """The line of a fault in the event log or of another command: its number and words, and the system's reason if the
    line has one."""
    parts = [f"fault {number}", words()[number], *([reason] if reason else [])]
    return ": ".join(parts).encode() + b"\n"
