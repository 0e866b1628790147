"""Wrong edits: files that change a crate's text into a wrong one, which the prover must refuse. Those of
crates/CRATE/must-fail/ are tried by `rt ci`, those of mutants/CRATE/ by `make mutants`. A control,
mutants/CRATE/controls/NAME.edit, changes the same places into a right text, which the prover must accept. A line
`file: PATH` begins the changes of a file, each a line `old: TEXT` and a line `new: TEXT`; the old text is in the file
exactly once."""
from dataclasses import dataclass
from pathlib import Path

from tests.support.running import ROOT

CRATES, MUTANTS = ROOT / "crates", ROOT / "mutants"


@dataclass
class Change:
    """One text that an edit replaces in a file of a crate."""

    file: str
    old: str
    new: str


def changes(edit: Path) -> list:
    """The changes of an edit, in their order."""
    found, file, old = [], "", ""
    for line in edit.read_text(encoding="utf-8").splitlines():
        word, _, text = line.partition(": ")
        if word == "file":
            file = text.strip()
        elif word == "old":
            old = text
        elif word in ("new", "new:"):
            found.append(Change(file, old, text))
    return found


def why_not(edit: Path, crate: str) -> str:
    """Why an edit can't be applied to its crate, or nothing."""
    texts = {}
    for it in changes(edit):
        path = CRATES / crate / it.file
        if it.file not in texts:
            if not path.is_file():
                return f"there is no {it.file}"
            texts[it.file] = path.read_text(encoding="utf-8")
        count = texts[it.file].count(it.old)
        if count != 1 or it.old == it.new:
            return f"an old text is in {it.file} {count} times, or is the new one"
        texts[it.file] = texts[it.file].replace(it.old, it.new)
    return "" if texts else "it changes nothing"
