"""Keeps the printed parts of pages true: the table of faults in noticed-protocol(5) has the numbers of fault_code and
the words of fault_table, which `noticed help faults` prints too. `python3 -m tests.printed --write` prints it anew."""
import re
import sys

from tests.support.running import ROOT, Checks

PAGE = ROOT / "docs/noticed-protocol.5"
SOURCES = ROOT / "crates/dsn_text/src"
NUMBER = re.compile(r"^pub const (\w+): u32 = (\d+);$", re.M)
WORDS = re.compile(r'fault_code::(\w+),\s*"([^"]*)"')
BEGINS, ENDS = '.\\" printed by tests/printed.py\n', '.\\" end of the printed part\n'
WIDEST = 62  # of a row that fits beside its number on a terminal of 80 columns


def fault_words() -> dict:
    """The words of each number, in ascending order."""
    numbers = {name: int(number) for name, number in NUMBER.findall((SOURCES / "fault_code.rt").read_text())}
    words = {numbers[name]: words for name, words in WORDS.findall((SOURCES / "fault_table.rt").read_text())}
    return dict(sorted(words.items()))


def cell(words: str) -> str:
    """Words as a cell of a table, which is a block if they need two lines."""
    words = words.replace("\\", "\\e").replace("'", "\\(aq")
    return words if len(words) <= WIDEST else f"T{{\n{words}\nT}}"


def table() -> str:
    """The table of faults, in the language of tbl(1)."""
    rows = "".join(f"{number}\t{cell(words)}\n" for number, words in fault_words().items())
    return f".TS\nr lx.\n{rows}.TE\n"


def page() -> str:
    """The text of the page with its printed part."""
    before, _, rest = PAGE.read_text().partition(BEGINS)
    return before + BEGINS + table() + ENDS + rest.partition(ENDS)[2]


def main():
    if sys.argv[1:] == ["--write"]:
        PAGE.write_text(page())
        return
    checks = Checks("printed: the table of faults in noticed-protocol(5) is that of the code")
    numbers = NUMBER.findall((SOURCES / "fault_code.rt").read_text())
    checks.equal("each number has words", sorted(fault_words()), sorted(int(number) for _, number in numbers))
    checks.equal("docs/noticed-protocol.5, written by `python3 -m tests.printed --write`", PAGE.read_text(), page())
    checks.done()


if __name__ == "__main__":
    main()
