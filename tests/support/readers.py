"""What programs read in notices: Python's email, flufl.bounce (of Mailman) and Sisimai. All read the notices of
bounce(8) and of noticed about the same messages, and find the same in both, except for what is named here. A reader
that isn't installed is skipped."""
import email
import json
import re
import subprocess
import sys
import tempfile
from collections import Counter
from pathlib import Path

from tests.support.running import Checks

FLUFL = """
import email, json, pathlib, sys
from flufl.bounce import all_failures
for path in sorted(pathlib.Path(sys.argv[1]).iterdir()):
    told = all_failures(email.message_from_bytes(path.read_bytes()))
    print(json.dumps([sorted(it.decode("latin-1") for it in some) for some in told]))
"""
SISIMAI = """
use Sisimai; use JSON::PP;
for my $path (sort glob "$ARGV[0]/*") {
    my $told = Sisimai->make($path, delivered => 1) || [];
    print encode_json([sort { $a->[0] cmp $b->[0] || $a->[2] cmp $b->[2] } map {
        [map { "$_" } $_->recipient->address, $_->action, $_->deliverystatus, $_->reason]
    } @$told]), "\\n";
}
"""


def lines_of(command: list, texts: list) -> list | None:
    """What a reader prints of each text, which it finds in a folder, or None if it isn't there."""
    with tempfile.TemporaryDirectory() as folder:
        for count, text in enumerate(texts):
            (Path(folder) / f"{count:06}").write_bytes(b"From MAILER-DAEMON Thu Nov 26 05:36:03 2026\n" + text)
        try:
            ran = subprocess.run([*command, folder], capture_output=True, check=False, timeout=600)
        except FileNotFoundError:
            return None
    return None if ran.returncode else [json.loads(it) for it in ran.stdout.splitlines()]


def by_email(texts: list) -> list:
    """Recipients, actions and statuses, as Python's email takes a report apart."""
    reports = [[it for it in email.message_from_bytes(text).walk()] for text in texts]
    status = [next(it for it in parts if it.get_content_type() == "message/delivery-status") for parts in reports]
    names = ("Final-Recipient", "Action", "Status")
    return [sorted([group[it] for it in names] for group in part.get_payload()[1:]) for part in status]


def by_flufl(texts: list) -> list | None:
    """Recipients with a temporary failure, and with a permanent one."""
    found = (lines_of([it, "-c", FLUFL], texts) for it in (sys.executable, "/usr/bin/python3"))
    return next((it for it in found if it is not None), None)


def by_sisimai(texts: list) -> list | None:
    """Recipients, actions, statuses and reasons."""
    return lines_of(["perl", "-e", SISIMAI], texts)


READERS = {"python3": by_email, "python3-flufl.bounce": by_flufl, "libsisimai-perl": by_sisimai}


def without_zeros(told: list) -> list:
    """Statuses as RFC 3463 has them: noticed drops leading zeros, which Python's email shows."""
    return [[re.sub(r"\b0+(?=\d)", "", text) if re.match(r"\d\.", text) else text for text in it] for it in told]


def addresses(told: list) -> set:
    """Whom Sisimai found. In a notice of several outcomes it may take the words for people about the last recipient for
    another, if they are longer than its diagnostic and have a code: so on both sides, by the order of the log."""
    return {it[0] for it in told}


def compare_readers(checks: Checks, pairs: list, used: Counter):
    """Compares what each reader finds in pairs of notices: a message's name, bounce(8)'s text, and noticed's. Counts
    the differences that are allowed."""
    mixed = [len({tuple(it[1:]) for it in told}) > 1 for told in by_email([there for _, there, _ in pairs])]
    for package, reads in READERS.items():
        sides = [reads([pair[side] for pair in pairs]) for side in (1, 2)]
        if None in sides:
            checks.skip(f"what a reader finds in notices (needs {package})")
            continue
        checks.true(f"{package} reads notices", any(map(any, sides[0])) or not pairs)
        for (name, *_), several, there, here in zip(pairs, mixed, *sides, strict=True):
            changes = {"python3": without_zeros, "libsisimai-perl": addresses if several else list}
            same = changes.get(package, list)
            if same is not list:
                used[f"{package}, {same.__name__.replace('_', ' ')}"] += there != here
            checks.equal(f"{name}: what {package} reads", same(here), same(there))
