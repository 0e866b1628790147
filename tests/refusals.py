"""Each number of noticed-protocol(5) is met by a test, which exists in a file that has the number; what a test asserts
isn't read. A number has one home in the code, the module fault_code, and one in the contracts, FaultCode: both have
exactly these numbers under the same names, each is named by a shipped crate, and no other file says a number where a
refusal or a fault is meant. `python3 -m tests.contracts` prints which test meets which number."""
import re
from pathlib import Path

from tests.printed import fault_words
from tests.support.running import ROOT, Checks

# The numbers that a test meets, by its file and function. A file of a crate is named without `crates/`.
MEETS = {
    "dsn_bytes_tests/src/report.rt: nothing_after_the_fault": [32],
    "dsn_crew_tests/src/crew/keepers.rt: refused_request_ends_a_crew": [45],
    "dsn_crew_tests/src/desk/gone.rt: agent_without_its_collector_is_lost": [41],
    "noticed_lib_tests/src/batch.rt: devices_that_fail_in_mid_stream": [14, 31],
    "noticed_lib_tests/src/batch.rt: host_with_an_underscore": [51],
    "tests/arguments.py: main": [61],
    "tests/crew_connections.py: check_endless": [44],
    "tests/crew_connections.py: serve": [35],
    "tests/daemon.py: odd_clients": [46],
    "tests/daemon_faults.py: sockets": [61],
    "tests/daemon_limits.py: requests": [44, 47],
    "tests/growths_refused.py: check_calls": [9, 42],
    "tests/growths_refused.py: main": [9],
    "tests/journal_faults.py: check_ended": [45],
    "tests/journal_faults.py: files": [71, 73, 74, 75, 76, 77],
    "tests/journal_faults.py: lost_bytes": [75],
    "tests/journal_faults.py: not_opened": [72],
    "tests/journal_faults.py: outboxes": [31],
    "tests/journal_faults.py: short_marks": [71],
    "tests/journal_limits.py: raised": [74],
    "tests/journal_listing.py: files": [71, 73, 74, 75, 76, 77],
    "tests/journal_listing.py: folders": [72],
    "tests/journal_listing.py: lost_lines": [33],
    "tests/limits.py: requests": [47],
    "tests/refused_bodies.py: main": [*range(1, 9), 10, *range(15, 31)],
    "tests/send.py: answers": [11, 12, 21, 22, 23, 24, 34, 46, 48],
    "tests/send.py: connections": [35, 61],
    "tests/send.py: inputs": [13, 14],
    "tests/send.py: outputs": [33],
    "tests/streams.py: check_broken_input": [14],
    "tests/streams.py: check_broken_outbox": [31],
    "tests/streams.py: check_cuts": [13],
    "tests/streams.py: check_lengths": [11, 12],
    "tests/threads.py: main": [43],
    "tests/threads.py: refused": [42],
}
HOMES = {"src": ROOT / "crates/dsn_text/src/fault_code.rt", "specs": ROOT / "crates/dsn_text/specs/FaultCode.antt"}
CONSTANT = re.compile(r"^pub const (\w+): u32 = (\d+);$", re.M)
DEFINITION = re.compile(r"^(\w+)_code = (\d+)$", re.M)
# Where a bare number would be that of a refusal or of a fault: returned by a `code`, answered, reported, or the end of
# a session. In the contracts an end is an optional number, and no other optional number is written there as digits.
IN_CODE = re.compile(
    r"Refused\((\d+)|\bfault (\d+)"
    r"|(?:Fault|Refusal|Cause|End)::\w+(?:\(_\))? => (?:Some\()?(\d+)"
    r"|fn code\(&?self\)[^}]*^        (\d+)$",
    re.M,
)
IN_CONTRACTS = re.compile(
    r"Refused (\d+)|\w*(?:_code|_end)\b[^=\n]*= (?:Some )?(\d+)|\bend ≢ Some (\d+)"
    r"|\(Some (\d+)|ended_with (\d+)|fault_line (\d+)|code == (\d+)"
)
COMMENT = re.compile(r"^\s*(?://|--).*$", re.M)


def shipped(part: str) -> list:
    """The files of a part (src, specs) of the shipped crates, except its home of numbers; their texts lack comments."""
    paths = sorted(it for ending in ("rt", "antt") for it in ROOT.glob(f"crates/*/{part}/**/*.{ending}"))
    return [
        (it, COMMENT.sub("", it.read_text()))
        for it in paths
        if it != HOMES[part] and not it.relative_to(ROOT).parts[1].endswith(("_tests", "probe"))
    ]


def check_homes(checks: Checks, told: dict):
    """Sees that the code and the contracts have each number once, under one name, and use it by that name."""
    constants = {name: int(number) for name, number in CONSTANT.findall(HOMES["src"].read_text())}
    definitions = {name.upper(): int(number) for name, number in DEFINITION.findall(HOMES["specs"].read_text())}
    checks.equal("the numbers of the code", sorted(constants.values()), sorted(told))
    checks.equal("the numbers of the contracts, and their names", definitions, constants)
    for part, pattern, spelled in (("src", IN_CODE, "fault_code::{}"), ("specs", IN_CONTRACTS, "{}_code")):
        files = shipped(part)
        whole = "\n".join(text for _, text in files)
        for name in constants:
            word = spelled.format(name if part == "src" else name.lower())
            checks.true(f"{part} name {word}", re.search(rf"\b{word}\b", whole))
        for path, text in files:
            checks.equal(f"numbers in {path.relative_to(ROOT)}", [it.group() for it in pattern.finditer(text)], [])


def meets(path: Path, name: str, number: int) -> bool:
    """Whether a file has a function of that name, and the number in it or in the file's constants and helpers."""
    text = path.read_text()
    return bool(re.search(rf"(?:fn|def) {name}\b", text) and re.search(rf"(?<![\d.]){number}(?![\d.])", text))


def table() -> str:
    """A row for each number: its words, and the tests that meet it."""
    rows = ["| Number | Refusal or fault | Tests |", "|---|---|---|"]
    for number, words in fault_words().items():
        tests = ", ".join(f"`{test}`" for test, numbers in MEETS.items() if number in numbers)
        rows.append(f"| {number} | {words} | {tests} |")
    return "\n".join(rows)


def main():
    checks = Checks("refusals: a test meets each number, which has one home in the code and one in the contracts")
    told, met = fault_words(), set().union(*MEETS.values())
    checks.equal("the numbers that have words and those that a test meets", sorted(met), sorted(told))
    check_homes(checks, told)
    for test, numbers in MEETS.items():
        file, _, name = test.partition(": ")
        path = ROOT / (file if file.startswith("tests/") else f"crates/{file}")
        for number in numbers:
            checks.true(f"{file} has {name} and {number}", path.is_file() and meets(path, name, number))
    checks.done()


if __name__ == "__main__":
    main()
