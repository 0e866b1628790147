"""A contract says no more than its definitions: those of specs/ that it names, and those that these name. This script
finds them. A definition that some public contract reaches is outside specs/inner/, and one that none reaches is within
it. `python3 -m tests.believed CRATE::CALL` prints which definitions to read for one public call, in order, with their
lines; `python3 -m tests.contracts` prints them for the theorem."""
import re
import sys
from dataclasses import dataclass

from tests.support.definitions import (
    CRATES,
    Names,
    definitions,
    exports,
    items,
    module_of,
    names_imported,
    sources,
    words_in,
)
from tests.support.definitions import MEMBER
from tests.support.running import ROOT, Checks

TESTS = {"dsn_fakes", "dsn_bytes_tests", "dsn_crew_tests", "noticed_lib_tests", "probe", "noticed"}
DATA = re.compile(r"^ *(?:pub )?data ")
GENERATED = re.compile(r"Rattle\.(\w+)\.specs\.(?:declared|contracts)\.(.*)$")
# What holds of a lane at each moment of a run: the theorem is about that too, though nobody outside the crate names it.
LANE_RULE = ("impl", "dsn_crew", "LaneRule")
# Definitions that only private contracts name, and that move to specs/inner/ when their crate changes next: the move
# alone has all crates above proved again.
TO_MOVE = {f"dsn_journal/specs/Marks.antt: {it}" for it in ("IsLeftByMarking", "KeepsOrMarks")}
# What the rows of the table are about: some words, and the public calls and types whose contracts they are.
ROWS = [
    ("`run_crew`: the concurrency theorem", ["dsn_crew::run_crew", "dsn_crew::LaneRule"]),
    ("`run_crew_over`: the same over a journal", ["dsn_crew::run_crew_over", "dsn_crew::LaneRule"]),
    ("`notice`: the text of a notice", ["dsn_report::notice"]),
    ("`batch`", ["noticed_lib::batch"]),
    ("`send`", ["noticed_lib::send"]),
    (
        "`serve`, `serve_watched`, `serve_journaled`",
        ["noticed_lib::serve", "noticed_lib::serve_watched", "noticed_lib::serve_journaled"],
    ),
    (
        "`serve_submitting`, with the laws of a mail outlet",
        [
            "noticed_lib::serve_submitting",
            "dsn_hand_in::outlet_keeps_letters",
            "dsn_hand_in::only_deeds_settle",
            "dsn_hand_in::crashes_count_only_settled",
        ],
    ),
    ("`answer_client`: one request of Postfix's programs", ["dsn_postfix_service::answer_client"]),
]
TEXT = """The theorem takes {theorem:,} lines. All public contracts take {public:,} of the {all:,} lines of definitions.
Imports and comments aren't counted, nor are the kit's definitions (`Rattle.std`, `mathlib`, `lib`), which are trusted.
"This project's profile" is noticed-protocol(5).

| From the contract of | Definitions | Lines | Modules |
|---|---|---|---|
{rows}

The order for `run_crew`: each module comes after those that it uses. `python3 -m tests.believed CRATE::CALL` prints it
for another call.

{order}
"""


@dataclass
class Module:
    """A file of specs/: its lines, its definitions with the numbers of their lines, the data of each constructor."""

    lines: list
    definitions: dict
    members: dict
    names: Names
    about: str


def read_modules() -> dict:
    """The modules of specs/ of all crates."""
    modules = {}
    for file, text in sources(".antt").items():
        if file.relative_to(CRATES).parts[1] != "specs":
            continue
        lines, found, members = text.splitlines(), definitions(text), {}
        for name, numbers in found.items():
            own = [lines[it] for it in sorted(numbers)]
            for member in filter(None, map(MEMBER.match, own if any(map(DATA.match, own)) else [])):
                members.setdefault(member[1], set()).add(name)
        modules[module_of(file)] = Module(lines, found, members, names_imported(text), head_of(file))
    return modules


def head_of(file) -> str:
    """The first sentence of the comment at the head of a file."""
    lines = [it[2:].strip() for it in re.split(r"^(?!--).*$", file.read_text(), maxsplit=1, flags=re.M)[0].splitlines()]
    return re.split(r"(?<=\.) ", " ".join(lines))[0]


class Graph:
    """Which definition, type or public call names which others. A type is its model or its fields; a trait is its
    contracts."""

    def __init__(self):
        self.modules = read_modules()
        self.edges, self.public = {}, set()
        self.crates = [
            it.name for it in sorted(CRATES.iterdir()) if it.name not in TESTS and (it / "src/lib.rt").exists()
        ]
        self.exports = {it: exports(it) for it in self.crates}
        self.files = {
            file: (file.relative_to(CRATES).parts[0], text, items(text)) for file, text in sources(".rt").items()
        }
        self.files = {file: it for file, it in self.files.items() if it[0] in self.crates}
        self.types = {}
        for crate, _, found in self.files.values():
            for item in found:
                for name in [item.name] * (item.kind == "type") + [item.owner] * (item.owner == item.of_trait != ""):
                    self.types.setdefault(name, set()).add(crate)
        for name, module in self.modules.items():
            for definition, numbers in module.definitions.items():
                text = "\n".join(module.lines[it] for it in sorted(numbers))
                node = ("definition", name, definition)
                self.edges[node] = self.named(words_in(text), module.names, name) - {node}
        for crate, text, found in self.files.values():
            self.read_items(crate, names_imported(text), found)

    def read_items(self, crate: str, names: Names, found: list):
        """Adds what the items of one file name."""
        modelled = {it.owner for it in found if it.of_trait == "Model"}
        for item in found:
            node = self.node_of(crate, item, modelled)
            if node:
                self.edges.setdefault(node, set()).update(self.said_by(crate, names, item.text))
                is_exported = (item.owner or item.name) in self.exports[crate]
                if (is_exported and (node[0] != "call" or item.is_public)) or node == LANE_RULE:
                    self.public.add(node)

    def node_of(self, crate: str, item, modelled: set):
        """The node that an item's words are about, or None where nobody outside its module sees them."""
        if item.kind == "type":
            return None if item.name in modelled else ("type", crate, item.name)
        if item.of_trait == "Model":
            return ("type", crate, item.owner) if item.name == "Value" else None
        if item.of_trait:
            return ("type" if item.of_trait == item.owner else "impl", crate, item.owner)
        return ("call", crate, f"{item.owner}::{item.name}" if item.owner else item.name)

    def said_by(self, crate: str, names: Names, text: str) -> set:
        """What the text of an item names: definitions by its imports, and types by their own names."""
        words = words_in(text)
        found = self.named(words, names, None)
        for word in {it.split(".")[0] for it in words} & self.types.keys():
            homes = self.types[word]
            home = (
                crate
                if crate in homes
                else next((it for it in self.crates if it in homes and word in self.exports[it]), None)
            )
            found |= {("type", home, word)} if home else set()
        return found

    def named(self, words: set, names: Names, local) -> set:
        """The nodes that some words mean, by a file's imports and by its own definitions."""
        module = self.modules.get(local)
        found = set()
        for word in words | {it.split(".")[0] for it in words}:
            first, _, rest = word.partition(".")
            for home, name in names.words.get(word, ()):
                found |= self.nodes(home, name)
            if first in names.aliases:
                found |= self.nodes(names.aliases[first], rest.split(".")[0] or first)
            if module:
                found |= self.nodes(local, word)
        infix = [it for it in [*names.words, *(module.definitions if module else ())] if "◌" in it]
        for name in infix:
            if all(it in words for it in name.split("◌") if it):
                homes = names.words.get(name, {(local, name)})
                found = found.union(*(self.nodes(home, it) for home, it in homes))
        return found

    def nodes(self, home: str, name: str) -> set:
        """The nodes that a module's name means: a definition, the data of a constructor, or a type of src/."""
        if match := GENERATED.match(home):
            kinds = [it for it in match[2].split(".") if it[0].isupper()] or [name]
            return {("type", match[1], kinds[0])}
        if home in self.modules:
            module = self.modules[home]
            owners = {name} if name in module.definitions else module.members.get(name, set())
            return {("definition", home, it) for it in owners}
        above, _, last = home.rpartition(".")
        return self.nodes(above, last) if above in self.modules else set()

    def reached(self, start: set) -> set:
        """The definitions that some nodes name, and those that these name."""
        seen, left = set(start), list(start)
        while left:
            new = self.edges.get(left.pop(), set()) - seen
            seen |= new
            left += new
        return {it for it in seen if it[0] == "definition"}

    def called(self, call: str) -> set:
        """The node of a public call, given as CRATE::CALL."""
        crate, _, name = call.partition("::")
        nodes = {("call", crate, name), ("impl", crate, name)} & self.public
        if not nodes:
            raise SystemExit(f"{call} is no public call")
        return nodes

    def lines_of(self, found: set) -> int:
        """How many lines some definitions have."""
        return len({(module, number) for _, module, name in found for number in self.modules[module].definitions[name]})

    def in_order(self, found: set) -> list:
        """The modules of some definitions, each after those that its definitions name."""
        homes = {it[1] for it in found}
        below = {
            it: {other[1] for node in found if node[1] == it for other in self.edges[node] if other in found} - {it}
            for it in homes
        }
        crates = [line.split(":")[0].split()[0] for line in (ROOT / "crates.txt").read_text().splitlines()]
        left, done = sorted(homes, key=lambda it: (crates.index(it.split(".")[1]), it)), []
        while left:
            following = next((it for it in left if below[it] <= set(done)), left[0])
            left.remove(following)
            done.append(following)
        return done


def shown(module: str) -> str:
    """The file of a module, as a page names it."""
    _, crate, _, *way = module.split(".")
    return f"{crate}/specs/{'/'.join(way)}.antt"


def order(graph: Graph, found: set) -> list:
    """The rows of a reading order: each module, its lines, and what it is about."""
    rows = ["| | Module | Lines | About |", "|---|---|---|---|"]
    for number, module in enumerate(graph.in_order(found), 1):
        lines = graph.lines_of({it for it in found if it[1] == module})
        rows.append(f"| {number} | {shown(module)} | {lines} | {graph.modules[module].about} |")
    return rows


def page(graph: Graph) -> str:
    """What is believed of the calls of ROWS, and the order for the first of them."""
    found = {words: graph.reached(set().union(*map(graph.called, calls))) for words, calls in ROWS}
    every = graph.reached(graph.public)
    theorem = found[ROWS[0][0]]
    found["every public call, trait and law"] = every
    rows = [
        f"| {words} | {len(it)} | {graph.lines_of(it):,} | {len({module for _, module, _ in it})} |"
        for words, it in found.items()
    ]
    return TEXT.format(
        theorem=graph.lines_of(theorem),
        public=graph.lines_of(every),
        all=graph.lines_of({it for it in graph.edges if it[0] == "definition"}),
        rows="\n".join(rows),
        order="\n".join(order(graph, theorem)),
    )


def main():
    graph = Graph()
    if sys.argv[1:]:
        print("\n".join(order(graph, graph.reached(set().union(*map(graph.called, sys.argv[1:]))))))
        return
    checks = Checks("believed: what no public contract names stands in specs/inner/, and nothing else does")
    believed = graph.reached(graph.public)
    for node in sorted(it for it in graph.edges if it[0] == "definition"):
        _, module, name = node
        if module.split(".")[1] in graph.crates:
            is_inner = module.split(".")[3] == "inner"
            said = f"{shown(module)}: {name} is named by {'no' if is_inner else 'a'} public contract"
            checks.equal(said, (node in believed) != is_inner, f"{shown(module)}: {name}" not in TO_MOVE)
    checks.done()


if __name__ == "__main__":
    main()
