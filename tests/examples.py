"""Runs each stored example and compares outbox, notes and exit status with the stored ones, byte by byte. The outboxes
that tests of the crates compare with, which can read no file, must be those of the examples."""
import re
from pathlib import Path

from tests.support.running import ROOT, VECTORS, Checks, examples, run

# The examples of docs/embedding.md, each with the test that runs it.
IN_PAGE = {
    "One notice": "dsn_bytes_tests/src/one_notice.rt",
    "A whole example": "noticed_lib_tests/src/embedding.rt",
}
TEXT = re.compile(r'const (\w+): &\[u8(?:; \d+)?\] = b"((?:[^"\\]|\\.|\\\n)*)";', re.DOTALL)


def outboxes_in(source: Path):
    """The whole outboxes that a source file of a crate has as constants: their names and bytes."""
    for name, text in TEXT.findall(source.read_text()):
        made = re.sub(r"\\\n\s*", "", text).encode().decode("unicode_escape").encode("latin-1")
        if made.startswith(b"EHLO ") and made.endswith(b"QUIT\r\n"):
            yield name, made


def in_tests(checks: Checks):
    """Compares the outboxes that the crates' tests expect with those of the examples."""
    stored = {it.read_bytes() for it in VECTORS.glob("*.outbox")}
    sources = [it for crate in ("*_tests", "dsn_fakes") for it in sorted(ROOT.glob(f"crates/{crate}/src/**/*.rt"))]
    found = [(source, *it) for source in sources for it in outboxes_in(source)]
    checks.true("the tests expect outboxes", found)
    for source, name, made in found:
        checks.true(f"{source.relative_to(ROOT)}: {name} is an example's outbox", made in stored)


def in_page(checks: Checks):
    """Compares the examples of docs/embedding.md with the tests that run them."""
    page = (ROOT / "docs/embedding.md").read_text()
    for title, test in IN_PAGE.items():
        part = page.partition(f"## {title}\n")[2].partition("\n## ")[0]
        told = [line[4:] for line in part.splitlines() if line.startswith("    ")]
        text = (ROOT / "crates" / test).read_text().partition("\n#[test]")[0]
        ran = [line for line in text.splitlines() if line and not line.startswith(("//!", "use crate::"))]
        checks.equal(f"{title} of docs/embedding.md is what a test runs", told, ran)


def main():
    checks = Checks("examples: outbox, notes and status of each stored input")
    for it in examples():
        ran = run(["batch", it.host], it.bytes("frames"))
        checks.equal(f"{it.name}: outbox", ran.outbox, it.bytes("outbox"))
        checks.equal(f"{it.name}: notes", ran.notes, it.bytes("notes"))
        checks.equal(f"{it.name}: status", ran.status, it.status)
        print(f"  {it.name}")
    in_tests(checks)
    in_page(checks)
    checks.done()


if __name__ == "__main__":
    main()
