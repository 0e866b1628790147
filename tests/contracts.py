"""Prints what no page has: `make contracts` writes out/contracts.md. It has each public function of the shipped crates
with the first sentence of its docstring and the names of its clauses; the definitions to believe, in order (tests/believed.py); and which test meets
which refusal (tests/refusals.py). Each public function has a docstring."""
import re
from dataclasses import dataclass
from pathlib import Path

from tests.believed import TESTS, Graph, page
from tests.refusals import table
from tests.support.definitions import CRATES, FUNCTION, IMPL, TRAIT, end_of, exports, owner_in
from tests.support.running import ROOT, Checks

WRITTEN = ROOT / "out/contracts.md"
COLUMNS = "| Function | File | What it does | Clauses |\n|---|---|---|---|\n"
CLAUSE = re.compile(r" *(requires|ensures)\b ?(\w*)")
TEXT = """# Contracts, definitions and refusals

Printed from the sources by `python3 -m tests.contracts`. docs/proofs.md says what the contracts promise.

## What must be believed

A contract says no more than its definitions. Compare those that it names with the RFCs and the manual pages. Nobody has
to read `proofs/`, which the prover checks, nor `specs/inner/`, which no public contract names.

{believed}
## Which test meets which refusal

{refusals}

## Public functions

{count} functions of {crates} crates. Files are below the crate's `src/`. `-` is a clause without a name; those after
`requires` are preconditions.
{index}"""


@dataclass
class Call:
    """A public function: its name with its type or trait, its file within src/, its docstring, and its clauses."""

    name: str
    file: str
    text: str
    clauses: str

    def about(self) -> str:
        """The first sentence of the docstring."""
        return re.split(r"(?<=\.) ", self.text)[0].replace("|", "\\|")


def calls_in(file: Path, exported: set) -> list:
    """The exported functions of a file, and those of its exported traits."""
    lines, found, owner = file.read_text().splitlines(), [], ("", "")
    for number, line in enumerate(lines):
        if IMPL.match(line) or TRAIT.match(line):
            end = end_of(lines, number, lambda it: it.endswith(("{", "}")))
            owner = owner_in(" ".join(lines[number:end]))[:2]
        elif line == "}":
            owner = ("", "")
        elif match := FUNCTION.match(line):
            is_public = owner[0] == owner[1] if owner[1] else (match[2] or "").strip() == "pub"
            if is_public and (owner[0] or match[3]) in exported:
                name = f"{owner[0]}::{match[3]}" if owner[0] else match[3]
                text = docstring(lines[:number])
                found.append(Call(name, str(file).rpartition("/src/")[2], text, clauses(lines[number:])))
    return found


def docstring(lines: list) -> str:
    """The docstring at the end of some lines, before attributes."""
    said = []
    for line in map(str.strip, reversed(lines)):
        if line.startswith("///"):
            said.insert(0, line[3:].strip())
        elif said or not line.startswith(("#[", "//")):
            break
    return " ".join(said)


def clauses(lines: list) -> str:
    """The names of the clauses of the function whose text begins with these lines: its promises, then what it requires."""
    said = {"ensures": [], "requires": []}
    for line in lines:
        if match := CLAUSE.match(line):
            said[match[1]].append(match[2] or "-")
        if re.fullmatch(r" *\{.*|.*;|.* \{", line):
            break
    requires = f"requires `{'`, `'.join(said['requires'])}`" if said["requires"] else ""
    return "; ".join(filter(None, [", ".join(said["ensures"]), requires]))


def index() -> dict:
    """The public functions of each crate that isn't of tests."""
    crates = [line.split(":")[0].split()[0] for line in (ROOT / "crates.txt").read_text().splitlines()]
    found = {}
    for crate in crates:
        if crate not in TESTS and (CRATES / crate / "src/lib.rt").exists():
            files = sorted((CRATES / crate / "src").rglob("*.rt"))
            found[crate] = [call for file in files for call in calls_in(file, exports(crate))]
    return found


def main():
    checks = Checks("contracts: each public function has a docstring; writes out/contracts.md")
    found = index()
    for crate, calls in found.items():
        for call in calls:
            checks.true(f"{crate}: {call.name} ({call.file}) has a docstring", call.text)
    parts = []
    for crate, calls in found.items():
        rows = "".join(f"| `{it.name}` | {it.file} | {it.about()} | {it.clauses} |\n" for it in calls)
        parts.append(f"\n### {crate}\n\n{COLUMNS}{rows}")
    WRITTEN.parent.mkdir(exist_ok=True)
    WRITTEN.write_text(
        TEXT.format(
            believed=page(Graph()),
            refusals=table(),
            count=sum(map(len, found.values())),
            crates=len(found),
            index="".join(parts),
        )
    )
    checks.done()


if __name__ == "__main__":
    main()
