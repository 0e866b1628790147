"""Tries the wrong edits of mutants/ (`make mutants`), which the gate doesn't: those of all crates, of the crates that
are named, or those named as CRATE/NAME. It copies the repository to a scratch folder, puts the edits and their
controls in the place of the crate's must-fail/, and has the kit try them there by `rt must-fail`. The kit says the
first of what refuses an edit: a clause of a contract, a worked example or a definition, or an error in a proof that
was written by hand. The last of these says little by itself, since a right body of another shape may get the same
error; where the edit has a control, the control must be accepted.

The status is 1 if an edit is still proved, can't be read or wasn't tried, or if a control is refused."""
import os
import re
import shutil
import subprocess
import sys
import tempfile
from collections import Counter
from pathlib import Path

from tests.support.edits import MUTANTS
from tests.support.running import ROOT

RT = os.environ.get("RT") or "rt"
CONTROL = "control-"
SAID = re.compile(r"^rt: must-fail \w+/(?P<name>[\w.-]+)\.edit: (?P<said>.*)$")
# What the kit says of an edit, by how it goes on; the first that fits counts.
ENDS = (
    ("still proved", r"NOT REFUSED"),
    ("can't be read", r"BAD EDIT"),
    ("not tried", r"NOT TRIED"),
    ("refused by a limit of the prover", r"refused, as it must be \(only by a limit"),
    ("refused by a proof that names what the edit took away", r"refused, as it must be \(only because"),
    ("refused by a worked example or a definition", r"refused, as it must be: (\./)?(specs/|proofs/\S*Examples\.antt)"),
    ("refused by a proof first", r"refused, as it must be: (\./)?proofs/"),
    ("refused by a clause", r"refused, as it must be"),
)
FAILURES = {"still proved", "can't be read", "not tried"}
QUIET = {"refused by a clause", "refused by a worked example or a definition"}


def chosen(words: list) -> dict:
    """The edits to try, by their crates: all, or those of the crates and of the single edits that are named."""
    found = {}
    for edit in sorted(MUTANTS.glob("*/*.edit")):
        crate = edit.parent.name
        if not words or crate in words or f"{crate}/{edit.stem}" in words:
            found.setdefault(crate, []).append(edit)
    known = {it for crate, edits in found.items() for it in [crate, *(f"{crate}/{edit.stem}" for edit in edits)]}
    lacking = [it for it in words if it not in known]
    if lacking:
        sys.exit(f"mutants/ has no {', '.join(lacking)}")
    return found


def scratch(room: Path):
    """Copies what the kit reads of the repository."""
    left_out = shutil.ignore_patterns("out", "must-fail")
    shutil.copytree(ROOT / "crates", room / "crates", ignore=left_out)
    for name in ("crates.txt", "HANDLES"):
        shutil.copy(ROOT / name, room)


def put(edits: list, folder: Path):
    """Puts edits into a crate's must-fail/, each with its control under a name of its own."""
    folder.mkdir()
    for edit in edits:
        shutil.copy(edit, folder)
        control = edit.parent / "controls" / edit.name
        if control.is_file():
            shutil.copy(control, folder / f"{CONTROL}{edit.name}")


def end_of(said: str) -> str:
    """How the try of an edit ended."""
    return next(end for end, pattern in ENDS if re.match(pattern, said))


def tried(room: Path, crate: str) -> dict:
    """What the kit says of each edit and control in a crate's must-fail/, by their names."""
    words = [RT, "must-fail", crate]
    with subprocess.Popen(words, cwd=room, stdout=subprocess.PIPE, stderr=subprocess.STDOUT, text=True) as running:
        lines = [SAID.match(line) for line in running.stdout]
    return {it["name"]: it["said"] for it in lines if it}


def count(crate: str, edits: list, said: dict) -> bool:
    """Prints what came of a crate's edits, and says whether all is as it must be."""
    ends, is_well, controlled = Counter(), True, 0
    for edit in edits:
        words = said.get(edit.stem, "NOT TRIED")
        end = end_of(words)
        ends[end] += 1
        control = said.get(f"{CONTROL}{edit.stem}")
        is_accepted = control is None or end_of(control) == "still proved"
        controlled += control is not None and is_accepted
        if end in FAILURES or not is_accepted:
            is_well = False
            print(f"  {edit.stem}: {words}" + ("" if is_accepted else f"; its CONTROL IS NOT ACCEPTED: {control}"))
        elif end not in QUIET:
            print(f"  {edit.stem}: {end}" + ("; its control is accepted" if control else ""))
    told = ", ".join(f"{number} {end}" for end, number in ends.most_common())
    print(f"{crate}: {len(edits)} edits: {told}; {controlled} controls accepted", flush=True)
    return is_well


def main() -> int:
    is_well = True
    with tempfile.TemporaryDirectory(prefix="noticed-mutants-") as name:
        room = Path(name)
        scratch(room)
        for crate, edits in chosen(sys.argv[1:]).items():
            put(edits, room / "crates" / crate / "must-fail")
            is_well = count(crate, edits, tried(room, crate)) and is_well
    return 0 if is_well else 1


if __name__ == "__main__":
    sys.exit(main())
