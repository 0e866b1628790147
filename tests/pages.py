"""Keeps pages true where the sources say the same. The table of crates in docs/architecture.md is that of crates.txt
and of each crate's head, and docs/testing.md has the numbers of tests and wrong edits; `python3 -m tests.pages --write`
writes both. docs/testing.md has each script of tests/. docs/proofs.md has each clause of `run_crew`, and no other, and
each name and file that it has in code is in the crates. The manual pages have the commands and options of the usage that
the program prints, and why a run ends. The bytes of the examples in noticed-protocol(5) and noticed-journal(5) are
right, the words of a fault are those that the program lists, mandoc(1) and man(1) find nothing in a manual page, each
page or section that a source cites is there, and each file that a page names by its path. docs/bounce-features.md
counts its rows, and has the settings that dist/noticed-postfix reads, and what docs/postfix.md says is passed on. The
logic of the kit is the one that pages name."""
import os
import re
import runpy
import shutil
import subprocess
import sys
from collections import Counter

from tests.support.definitions import sources
from tests.support.faults import words
from tests.support.formats import journal
from tests.support.formats.logs import Limits
from tests.support.formats.sessions import WORDS
from tests.support.running import DIST, ROOT, VECTORS, Checks, run

PAGES = [ROOT / "README.md", *sorted(it for it in (ROOT / "docs").iterdir() if it.suffix in (".md", ".5", ".8"))]
# of a command; of others noticed.8
MANUAL = {"serve": "noticed-serve.8", "postfix": "noticed-postfix.8", "preview": "noticed-postfix.8"}
ENDING = re.compile(r'self\.end\("([^"]+)"\)')
OPTION = re.compile(r"--[a-z][a-z-]*")
HEX = re.compile(r"^(?:[0-9a-f]{2})+(?: (?:[0-9a-f]{2})+)*")
DISCARD = bytes.fromhex("0103 00000000 01 0002 4b31")  # of the bounce log of K1
MAP = ROOT / "docs/architecture.md"
TABLE = re.compile(r"^\| Crate \|.*\n(?:\|.*\n)+", re.M)
PROOFS = ROOT / "docs/proofs.md"
TESTING = ROOT / "docs/testing.md"
COUNTS = re.compile(r"^\| In this repository \|.*\n(?:\|.*\n)+", re.M)
NAME = re.compile(r"[A-Za-z_]\w*(?:(?:\.|::)[A-Za-z_]\w*)*")
OWNER = re.compile(r"^ *(?:pub )?(?:record|data|trait|struct) (\w+)", re.M)
SPECS = re.compile(r"(?<![\w/.])\w+/(?:specs|src)/[\w/]+(?:\.\w+)?")
NO_NAMES = {"serve --journal F --hand-in HOST:PORT", "make contracts", "--release-closed", "crates/", "specs/"}
HEAD = re.compile(r"\A(?://! .*\n)+")
CITED = re.compile(r"\b(noticed(?:-[a-z]+)?)\((\d)\)")
SECTION = re.compile(r'postfix-internals\.md, "([^"]+)"')
COMMENT = re.compile(r"\n *(?://[/!]?|--|#|\*) *")  # the end of a comment's line, and the mark of the next
CLAUSE = re.compile(r"^    ensures (\w+) \{", re.M)
USAGE = re.compile(r'"usage: noticed (.*)"')
PATH = re.compile(r"(?<![\w/.])(?:crates|tests|clients|docs|examples|bench|mutants|vectors)/[\w./-]*\w")
FAULT = re.compile(r"`(?:fault )?(\d+): ([^`]+)`")
NOT_KEPT = re.compile(r"/(?:[A-Z]+|out)(?:/|\.py$|$)")  # any file, as examples/FILE, or one that is built
VERDICTS = {"same": "same", "better": "better", "passed on": "passed on", "differs": "differ", "not there": "not there"}
SETTING = re.compile(r"`([a-z0-9]+(?:_[a-z0-9]+)+)`")


def text(name: str) -> str:
    """A file of the repository."""
    return (ROOT / name).read_text(encoding="utf-8")


def manual(name: str) -> str:
    """A manual page, with the hyphens that roff escapes."""
    return text(f"docs/{name}").replace("\\-", "-")


def between(whole: str, start: str, end: str) -> str:
    """The part of a text after a start, up to an end."""
    return whole.split(start, 1)[1].split(end, 1)[0]


def purpose(crate: str) -> str:
    """What a crate is for: the first sentence of its head."""
    root = next(it for it in (ROOT / f"crates/{crate}/src/{name}.rt" for name in ("lib", "main")) if it.exists())
    head = HEAD.search(root.read_text(encoding="utf-8")).group().replace("//! ", "").replace("\n", " ")
    return re.split(r"(?<=\.) ", head)[0].removesuffix(".")


def crate_table(uses: dict) -> str:
    """The table of the crates, except those of tests: what each uses, without what another of these uses."""
    below, rows = {}, []
    for crate, direct in uses.items():
        own = [it for it in direct if it in uses]
        below[crate] = set(own).union(*(below[it] for it in own))
        named = [it for it in own if not any(it in below[other] for other in own)]
        if not crate.endswith("_tests"):
            rows.append(f"| `{crate}` | {purpose(crate)} | {', '.join(named)} |\n")
    return "| Crate | What it is | Uses |\n|---|---|---|\n" + "".join(rows)


def check_crates(checks: Checks, writes: bool):
    """The table of the crates."""
    uses = {crate: it.split() for crate, it in re.findall(r"^(\w+)(?: staticlib)?: (.*)$", text("crates.txt"), re.M)}
    page, table = MAP.read_text(encoding="utf-8"), crate_table(uses)
    if writes:
        page = TABLE.sub(lambda _: table, page)
        MAP.write_text(page, encoding="utf-8")
    checks.equal("the table of docs/architecture.md (--write mends it)", TABLE.findall(page), [table])


def check_clauses(checks: Checks):
    """The table of the clauses of `run_crew`, and what else docs/proofs.md names: a word of the crates' sources, or a
    member after its record, and files below crates/."""
    page = PROOFS.read_text(encoding="utf-8")
    contract = between(text("crates/dsn_crew/src/crew_run.rt"), "pub fn run_crew<", "\n{")
    table = between(page, "| Clause | When |", "\n\n")
    checks.equal("the clauses of run_crew", re.findall(r"^\| `(\w+)` \|", table, re.M), CLAUSE.findall(contract))
    texts = [text("crates.txt"), *sources(".rt", ".antt").values()]
    words = set().union(*(re.findall(r"\w+", it) for it in texts))
    for name in sorted(set(re.findall(r"`([^`]+)`", page)) - NO_NAMES):
        parts = re.split(r"\.|::", name)
        known = NAME.fullmatch(name.split()[0]) and {*parts[0].split(), *parts[1:]} <= words
        checks.true(f"proofs.md: {name} is in the sources", known)
        if "." in name:
            member = rf"^ +(?:pub )?(?:ghost )?{parts[1]}\b"
            owners = [it for it in texts if parts[0] in OWNER.findall(it)]
            checks.true(f"proofs.md: {name} is a member", any(re.search(member, it, re.M) for it in owners))
    for path in sorted(set(SPECS.findall(page))):
        checks.true(f"proofs.md: {path} is there", (ROOT / "crates" / path).exists())


def count_of(pattern: str) -> int:
    """How many files of the repository have such a path."""
    return len(list(ROOT.glob(pattern)))


def counts() -> str:
    """The table of the numbers in docs/testing.md."""
    rows = {
        "scripts in `tests/`": count_of("tests/*.py") - 1,
        "tests in Rattle, in the crates named `_tests`": sum(
            it.read_text(encoding="utf-8").count("#[test]") for it in ROOT.glob("crates/*_tests/src/**/*.rt")
        ),
        "wrong edits that the gate tries": count_of("crates/*/must-fail/*.edit"),
        "wrong edits that `make mutants` tries": count_of("mutants/*/*.edit"),
        "right edits beside these": count_of("mutants/*/controls/*.edit"),
        "worked examples in `vectors/`": count_of("vectors/*.frames"),
    }
    lines = "".join(f"| {what} | {number} |\n" for what, number in rows.items())
    return f"| In this repository | Number |\n|---|---|\n{lines}"


def check_testing(checks: Checks, writes: bool):
    """The numbers of docs/testing.md, and its table of the scripts."""
    page, table = TESTING.read_text(encoding="utf-8"), counts()
    if writes:
        page = COUNTS.sub(lambda _: table, page)
        TESTING.write_text(page, encoding="utf-8")
    checks.equal("the numbers of docs/testing.md (--write mends them)", COUNTS.findall(page), [table])
    named = re.findall(r"`(\w+)`", between(page, "| What is tried | Scripts |", "\n\n"))
    scripts = [it.stem for it in ROOT.glob("tests/*.py") if it.stem != "__init__"]
    checks.equal("the scripts in docs/testing.md, each once", sorted(named), sorted(scripts))


def check_usage(checks: Checks):
    """The usage lines: the arguments of each command are in noticed(8), and the options that its help has in its page."""
    lines = USAGE.findall(text("crates/noticed/src/usage.rt"))
    for command in [it for line in lines for it in re.split(r" \| (?=[a-z])", line)]:
        name = command.split()[0]
        called = f"{name} {command.split(']')[-1].removeprefix(name).strip()}".strip()
        checks.true(f"noticed(8) has '{called}'", re.search(rf"^{called}(?:\t|\nT}})", manual("noticed.8"), re.M))
        page = MANUAL.get(name, "noticed.8")
        options = set(OPTION.findall(run(["help", name]).outbox.decode())) - {"--help"}
        checks.equal(f"options of {name} that {page} lacks", options - set(OPTION.findall(manual(page))), set())


def check_endings(checks: Checks):
    """Why a run ends: lines of the event log."""
    endings = ENDING.findall(text("crates/noticed_lib/src/daemon/socket_watch.rt"))
    checks.true("a run has reasons to end", endings)
    for ending in endings:
        checks.true(f"noticed-serve(8) has '{ending}'", f"\n{ending}\n" in manual("noticed-serve.8"))


def check_roff(checks: Checks):
    """The manual pages are ASCII, and neither mandoc(1) nor man(1) has anything to say of them."""
    pages = [it for it in PAGES if it.suffix != ".md"]
    for page in pages:
        checks.true(f"{page.name} is ASCII", page.read_bytes().isascii())
    for words in (["mandoc", "-T", "lint"], ["man", "--warnings", "--local-file"]):
        if not shutil.which(words[0]):
            checks.skip(f"the form of manual pages (needs {words[0]})")
            continue
        for page in pages:
            how = {"capture_output": True, "text": True, "check": False, "timeout": 60}
            lint = subprocess.run([*words, page], env={**os.environ, "MANWIDTH": "80"}, **how)
            said = lint.stderr if words[0] == "man" else lint.stdout + lint.stderr
            checks.equal(f"{page.name}: {words[0]}", said, "")


def bytes_in(page: str) -> bytes:
    """The bytes in the last example of a manual page: what a line begins with in hexadecimal."""
    lines = page.split("\n.EX\n")[-1].split("\n.EE\n")[0].splitlines()
    return b"".join(bytes.fromhex(it[0]) for it in map(HEX.match, lines) if it)


def check_replies(checks: Checks):
    """The table of replies: their numbers and their words."""
    rows = re.findall(r"^(\d+)\t\w+\t([a-z ]+?)(?: V)?\t", manual("noticed-protocol.5"), re.M)
    wanted = [(str(number), words.decode().removesuffix(" %d")) for number, words in WORDS.items()]
    checks.equal("the replies of noticed-protocol(5)", rows, sorted(wanted, key=lambda it: int(it[0])))


def check_examples(checks: Checks):
    """The bytes of an exchange, and of a journal."""
    exchange = VECTORS / "first-exchange.frames"
    wanted = exchange.read_bytes() + exchange.with_suffix(".answers").read_bytes()
    checks.equal("the bytes of noticed-protocol(5)", bytes_in(manual("noticed-protocol.5")), wanted)
    kept = journal.at_rest([journal.header(Limits(3, 256, 100)), journal.summed(DISCARD)], 72)
    checks.equal("the bytes of noticed-journal(5)", bytes_in(manual("noticed-journal.5")), kept)


def check_citations(checks: Checks):
    """The manual pages that sources cite, and the sections of docs/postfix-internals.md."""
    endings = {".rt", ".antt", ".py", ".c", ".h", ".go", ".rs", ".pm", ".ksy", ".service", ".socket", ".md", ".5", ".8"}
    folders = [ROOT / it for it in ("clients", "crates", "tests", "bench", "examples", "docs", "vectors")]
    files = [it for folder in folders for it in folder.rglob("*") if it.suffix in endings and "out" not in it.parts]
    whole = "\n".join(COMMENT.sub(" ", it.read_text(encoding="utf-8", errors="replace")) for it in files)
    for name, section in sorted(set(CITED.findall(whole))):
        checks.true(f"{name}({section}) is there", (ROOT / f"docs/{name}.{section}").is_file())
    headings = set(re.findall(r"^#+ (.*)$", text("docs/postfix-internals.md"), re.M))
    checks.equal("sections that are cited and missing", set(SECTION.findall(whole)) - headings, set())


def check_paths(checks: Checks):
    """The files that pages name by their paths."""
    for page in PAGES:
        for path in sorted(set(PATH.findall(page.read_text(encoding="utf-8").replace("\\-", "-")))):
            if not NOT_KEPT.search(path):
                checks.true(f"{page.name}: {path} is there", (ROOT / path).exists())


def check_faults(checks: Checks):
    """The words behind the number of a fault, in which `..` is any text."""
    for page in PAGES:
        for number, said in FAULT.findall(page.read_text(encoding="utf-8")):
            pattern = re.escape(said).replace(r"\.\.", ".*")
            checks.true(f"{page.name}: fault {number}: {said}", re.fullmatch(pattern, words().get(int(number), "")))


def check_kit(checks: Checks):
    """The logic that README.md and docs/contributing.md name is the kit's: its name says less, as one logic has several."""
    rt = shutil.which(os.environ.get("RT") or "rt") or "/opt/rattle/bin/rt"
    if not os.access(rt, os.X_OK):
        checks.skip("the kit that pages name (needs rt)")
        return
    ran = subprocess.run([rt, "version"], capture_output=True, text=True, check=False, timeout=60)
    logic = re.search(r"logic (\w+)", ran.stdout)[1]
    for name in ("README.md", "docs/contributing.md"):
        checks.true(f"{name} names the logic {logic}", f"logic `{logic}`" in text(name))
        checks.equal(f"kits that {name} names", re.findall(r"rattle-kit-\w+", text(name)), [])


def check_features(checks: Checks):
    """The features of bounce(8): the counts of the rows, and the settings. A setting in a row that
    says `same` is read by the script, unless another program of Postfix has it. The script warns of a setting in use
    only if its row says that it isn't honoured, and of each such setting."""
    page = text("docs/bounce-features.md")
    rows = [[cell.strip() for cell in line.split("|")] for line in page.splitlines() if line.count("|") == 3]
    rows = [it for it in rows if it[2] in VERDICTS]
    counts = Counter(it[2] for it in rows)
    said = ", ".join(f"{counts[verdict]} {word}" for verdict, word in VERDICTS.items())
    checks.true(f"bounce-features.md says: {len(rows)} features: {said}.", f"\n{len(rows)} features: {said}.\n" in page)
    script = runpy.run_path(str(DIST / "noticed-postfix"))
    found = {verdict: set() for verdict in VERDICTS}
    for what, where, verdict, how in rows:
        checks.true(f"bounce-features.md: {what}: it says how", how)
        found[verdict] |= set() if "Postfix's" in how else set(SETTING.findall(where))
    read, warned = {*script["NAMES"], "sender_canonical_maps"}, set(script["NOT_HONOURED"])
    checks.equal("settings that are said to be honoured, and aren't read", found["same"] - read, set())
    checks.equal("settings that are said to be honoured, and warned of", found["same"] & warned, set())
    checks.equal("settings that are warned of, and not named", warned - found["differs"] - found["not there"], set())


def main():
    checks = Checks("pages: crates, clauses, numbers, usage, examples and paths of the pages are those of the sources")
    writes = "--write" in sys.argv[1:]
    check_crates(checks, writes)
    check_clauses(checks)
    check_testing(checks, writes)
    check_usage(checks)
    check_endings(checks)
    check_replies(checks)
    check_examples(checks)
    check_roff(checks)
    check_citations(checks)
    check_faults(checks)
    check_paths(checks)
    check_features(checks)
    check_kit(checks)
    checks.done()


if __name__ == "__main__":
    main()
