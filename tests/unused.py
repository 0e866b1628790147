"""No definition's name stands in two modules of specs/, of one crate or of two, so that a contract can be read by its
words alone. And nothing in specs/ and proofs/ of a crate is there for nobody: each definition and each lemma is used
outside its own text, by a contract, by another definition or by a proof. The worked examples, which nothing cites,
stand in modules named after them; the answers to the prover's goals (Answers.antt, Invariants.antt) are used by the
prover."""
import re
from pathlib import Path

from tests.support.definitions import CRATES, definitions, module_of, names_imported, sources, words_in
from tests.support.running import ROOT, Checks

PATH = re.compile(r"\b(\w+)::(specs|proofs)::([\w:]+)::([^\s:,()]+)")
NOT_CITED = {"Lib", "Answers", "Invariants", "Dates"}
# Lemmas that nothing uses, and a name that two crates have: they go when their crates change next, since without
# another change all crates above would be proved again for them.
TO_REMOVE = {"EdgeBytes.bytes_more", *(f"Marking.{it}" for it in ("no_last", "also_left", "also_still"))}
TO_REMOVE |= {f"SettledEdges.{it}" for it in ("also_settled", "still_settled")}
TWICE = {"next_serial": ["crates/dsn_submission/specs/Waiting.antt"]}


def words_of(text: str, without: set = frozenset()) -> set:
    """The words of a text but for these of its lines: of `a.b` also `a` and `b`."""
    words = words_in("\n".join(line for number, line in enumerate(text.splitlines()) if number not in without))
    return words | {part for word in words for part in word.split(".")}


def used_from_elsewhere(file: Path, text: str) -> set:
    """What a file uses of others, as (module, name): what it imports and then says, and the paths in its tactics."""
    words, names = words_of(text), names_imported(text)
    found = {it for word, homes in names.words.items() if word in words or "◌" in word for it in homes}
    found |= {
        (module, word.split(".")[1])
        for word in words
        for alias, module in names.aliases.items()
        if word.startswith(alias + ".")
    }
    crate = file.relative_to(CRATES).parts[0]
    for home, room, way, name in PATH.findall(text):
        home = crate if home == "crate" else home
        found.add((".".join(["Rattle", home, room, *way.split("::")]), name))
    return found


def check_names(checks: Checks, texts: dict):
    """Sees that each definition's name stands in one module of the contracts."""
    homes = {}
    for file, text in sorted(texts.items()):
        if file.suffix == ".antt" and file.relative_to(CRATES).parts[1] == "specs":
            for name in definitions(text):
                homes.setdefault(name, []).append(str(file.relative_to(ROOT)))
    for name, files in homes.items():
        checks.equal(f"modules that define {name}", files, [*files[:1], *TWICE.get(name, ())])


def main():
    checks = Checks("unused: each definition and each lemma is used, and has a name of its own")
    texts = sources(".rt", ".antt")
    check_names(checks, texts)
    elsewhere = set().union(*(used_from_elsewhere(file, text) for file, text in texts.items()))
    for file, text in sorted(texts.items()):
        way = file.relative_to(CRATES).parts
        if (
            file.suffix != ".antt"
            or way[1] not in ("specs", "proofs")
            or file.stem in NOT_CITED
            or file.stem.endswith("Examples")
        ):
            continue
        for name, lines in definitions(text).items():
            used = name in words_of(text, lines) or (module_of(file), name) in elsewhere
            checks.equal(f"{file.relative_to(ROOT)}: {name} is used", used, f"{file.stem}.{name}" not in TO_REMOVE)
    checks.done()


if __name__ == "__main__":
    main()
