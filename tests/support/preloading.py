"""What the scripts share that refuse the program something from outside: the small libraries in C beside this file,
which are loaded before the program's own (LD_PRELOAD), and the ends of runs in each of which one more thing is
refused."""
import os
import subprocess
from pathlib import Path

from tests.support.running import Checks

SUPPORT = Path(__file__).resolve().parent
SURELY_NONE = 9  # runs after another that are whole, before one more that shows that no growth is left


def built(room, name: str) -> Path:
    """The library of this folder with that name, compiled into a folder."""
    library = Path(room) / f"{name}.so"
    subprocess.run(
        ["gcc", "-O2", "-shared", "-fPIC", "-o", str(library), str(SUPPORT / f"{name}.c"), "-ldl"], check=True
    )
    return library


def slow_syncs(room, milliseconds: str) -> str:
    """Makes each sync of a file take so much more, in the processes that are started from here. Returns the variables
    as Postfix imports them."""
    slow = {"LD_PRELOAD": str(built(room, "slow")), "MILLISECONDS": milliseconds}
    os.environ.update(slow)
    return " ".join(f"{name}={value}" for name, value in slow.items())


def preloading(library: Path, **variables) -> dict:
    """The environment of a run with this library, which reads what it is to do from variables."""
    return {**os.environ, "LD_PRELOAD": str(library), **{name: str(value) for name, value in variables.items()}}


def each_refused(library: Path, most: int, run, whole) -> list:
    """How a run ends if its first growth of memory is refused, its second, and so on until none is left, or so many.
    A refusal that changes nothing is left out (the parser of the command line has one, a daemon's status some): none is
    left once ten runs after another are whole. `run` is given the environment."""
    ends, unchanged = [], 0
    for number in range(1, most):
        end = run(preloading(library, REFUSE=number))
        if end != whole:
            ends.append(end)
            unchanged = 0
        elif unchanged == SURELY_NONE:
            return [*ends, whole]
        else:
            unchanged += 1
    return ends


def compare_ends(checks: Checks, about: str, ends: list, wanted: dict):
    """Compares ends with the wanted ones, by their names: they come in this order, and each is met."""

    def parts(end):
        return (end.outbox, end.notes, end.status)

    names = {parts(end): name for name, end in wanted.items()}
    met = [names.get(parts(it), f"another end: {it}") for it in ends]
    checks.equal(about, [name for at, name in enumerate(met) if at == 0 or met[at - 1] != name], list(wanted))
    print(f"  {about}: {len(ends) - 1} growths, each refused once")
