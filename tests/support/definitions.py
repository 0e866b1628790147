"""A reader of this repository's definitions and contracts: what each module of specs/ and proofs/ defines, and what
each item of src/ names. It knows no more of the language than the layout that `rt fmt` gives a file."""
import re
from dataclasses import dataclass, field
from pathlib import Path

from tests.support.running import ROOT

CRATES = ROOT / "crates"
COMMENT = re.compile(r"^[ \t]*(?:--|//).*$|[ \t]-- (?=[^\"]*$).*$", re.M)
IMPORT = re.compile(r"^\s*(?:ghost )?(?:pub )?use (Rattle\.[\w.]+?)(?:\.\{([^}]*)\}|\s+as\s+(\w+))?;?\s*$", re.M)
WHOLE_IMPORT = re.compile(r"^\s*(?:ghost )?(?:pub )?use .*$", re.M)
HEAD = re.compile(r"^((?:(?:abbrev|unfoldable|opaque|pub|record|data|mutual|ruleset) )*)([^\s(){}\[\];:,]+)( :)?")
MEMBER = re.compile(r"^ +(?:pub )?([^\s(){}\[\];:,]+) :")
SPACED = re.compile(r"[^\s(){}\[\],;λ\"]+")
BETWEEN_SIGNS = re.compile(r"[^\s(){}\[\],;λ\"&<>?:!|#*]+")
NO_NAME = {"use", "unfolding", "infixl", "infixr", "infix", "mutual", "where", "mod", "module", "pub"}
NO_DEFINITION = ("use ", "#", "mod ", "pub mod ")
FUNCTION = re.compile(r'^( *)(pub(?:\(\w+\))? )?(?:const )?(?:unsafe )?(?:extern "C" )?fn (\w+)')
TYPE = re.compile(r"^(pub(?:\(\w+\))? )?(?:struct|enum) (\w+)")
TRAIT = re.compile(r"^(pub(?:\(\w+\))? )?trait (\w+)")
IMPL = re.compile(r"^impl\b")
GHOST = re.compile(r"^    ghost (?!use)(\w+)")
EXPORT = re.compile(r'pub use [\w:]+::(\{[^}]*\}|\w+);|^pub extern "C" fn (\w+)', re.M)
LAST_NAME = re.compile(r"&?(?:'\w+ )?(?:mut )?\[?([\w:]+)")


def sources(*suffixes) -> dict:
    """The text of each source file of Rattle with one of these suffixes, without comments."""
    files = [it for it in sorted(CRATES.rglob("*")) if it.suffix in suffixes and "out" not in it.parts]
    return {it: COMMENT.sub("", it.read_text()) for it in files}


def module_of(file: Path) -> str:
    """The module that a file of specs/ or proofs/ is, as imports name it."""
    crate, *way = file.relative_to(CRATES).with_suffix("").parts
    return ".".join(["Rattle", crate, *way])


def definitions(text: str) -> dict:
    """The names that a file defines, each with the numbers of its lines. A definition within a module of parameters
    has the lines of that module's head too."""
    found, name, heads, is_open = {}, None, [], False
    for number, line in enumerate(text.splitlines()):
        words = line.strip()
        indent = len(line) - len(line.lstrip())
        if not words:
            continue
        if not is_open:
            del heads[indent // 2 :]
        starts = not is_open and indent == 2 * len(heads)
        if is_open or (starts and words.startswith(("module ", "pub module "))):
            heads = heads[:-1] + [heads[-1] | {number}] if is_open else heads + [{number}]
            is_open, name = not words.endswith("where"), None
            continue
        head = HEAD.match(words) if starts else None
        if head and head[2] not in NO_NAME and (head[1] or head[3] or not name):
            name = head[2]
        if starts and words.startswith(NO_DEFINITION):
            name = None
        if name:
            found.setdefault(name, set()).update({number}.union(*heads))
    return found


@dataclass
class Names:
    """The names that a file has from others: (module, name) by the word for it, and modules by their aliases."""

    words: dict = field(default_factory=dict)
    aliases: dict = field(default_factory=dict)


def names_imported(text: str) -> Names:
    """What the imports of a file name."""
    names = Names()
    for module, words, alias in IMPORT.findall(text):
        if not words.strip():
            names.aliases[alias or module.split(".")[-1]] = module
        for word in filter(None, re.split(r",\s*", words.strip())):
            name, _, other = word.partition(" as ")
            names.words.setdefault((other or name).strip(), set()).add((module, name.strip()))
    return names


def words_in(text: str) -> set:
    """The words of a text without its imports: names, with what follows their dots, and signs."""
    text = WHOLE_IMPORT.sub("", text)
    return {it.strip(".") for it in SPACED.findall(text) + BETWEEN_SIGNS.findall(text)}


@dataclass
class Item:
    """An item of a .rt file: a function or a ghost member with its contract, or a type with its fields."""

    kind: str
    name: str
    is_public: bool
    text: str
    owner: str = ""  # the type or the trait that it belongs to
    of_trait: str = ""  # the trait that its impl is of; a trait's own name within the trait


def items(text: str) -> list:
    """The items of a .rt file without comments."""
    lines, found, number, owner = text.splitlines(), [], 0, ("", "", "")
    while number < len(lines):
        line, end = lines[number], number + 1
        if IMPL.match(line) or TRAIT.match(line):
            end = end_of(lines, number, lambda it: it.endswith(("{", "}")))
            owner = owner_in(" ".join(lines[number:end]))
        elif line == "}":
            owner = ("", "", "")
        elif match := FUNCTION.match(line):
            end = end_of_contract(lines, number, match[1])
            is_public = (match[2] or "").strip() == "pub"
            found.append(Item("fn", match[3], is_public, "\n".join(lines[number:end]), *owner[:2]))
        elif owner[0] and (match := GHOST.match(line)):
            end = end_of(lines, number, lambda it: it.endswith(";"))
            text = "\n".join([owner[2], *lines[number:end]])
            found.append(Item("ghost", match[1], False, text, *owner[:2]))
        elif match := TYPE.match(line):
            end = (
                number + 1
                if line.endswith((";", "}"))
                else end_of(lines, number, lambda it: it == "}" or it.endswith(");"))
            )
            found.append(Item("type", match[2], (match[1] or "").strip() == "pub", "\n".join(lines[number:end])))
        number = end
    return found


def end_of(lines: list, number: int, is_last) -> int:
    """The number behind the first line from one on that is a last one."""
    while not is_last(lines[number].rstrip()):
        number += 1
    return number + 1


def end_of_contract(lines: list, number: int, indent: str) -> int:
    """The number behind the last line of a function's signature and contract."""
    depth, has_contract = 0, False
    for end in range(number, len(lines)):
        line = lines[end]
        has_contract = has_contract or line.strip().startswith(("ensures", "requires"))
        depth += line.count("{") - line.count("}")
        if line in (indent + "{", indent + "{}") or (depth == 0 and line.endswith((";", "}")) and not has_contract):
            return end + 1
        if (not has_contract and line.endswith("{")) or (has_contract and depth == 0 and line.endswith(";")):
            return end + 1
    raise ValueError(f"no end of {lines[number]}")


def owner_in(head: str) -> tuple:
    """The type and the trait of an impl's head, or a trait's name twice, with that head."""
    head = re.sub(r"\s+", " ", head)
    if match := TRAIT.match(head):
        return match[2], match[2], head
    rest, depth = re.sub(r"^impl ?", "", head), 0
    if rest.startswith("<"):
        for place, letter in enumerate(rest):
            depth += (letter == "<") - (letter == ">" and rest[place - 1] != "-")
            if depth == 0:
                rest = rest[place + 1 :].strip()
                break
    of, _, whom = rest.rpartition(" for ") if " for " in rest else ("", "", rest)
    return last_name(whom), last_name(of) if of else "", head


def last_name(path: str) -> str:
    """The last name of a type's path, without what comes after it."""
    return LAST_NAME.match(path.strip())[1].split("::")[-1]


def exports(crate: str) -> set:
    """The names that a crate's lib.rt exports."""
    text = COMMENT.sub("", (CRATES / crate / "src/lib.rt").read_text())
    names = [used or call for used, call in EXPORT.findall(text)]
    return {it.strip() for found in names for it in found.strip("{}").split(",") if it.strip()}
