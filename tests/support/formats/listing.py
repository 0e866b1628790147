"""What `noticed journal` prints of a journal's file and its marks (noticed-journal(5))."""
from . import journal
from .bodies import decoded
from .logs import Limits, Logs
from .notices import SERVICE_LETTERS


def named(key: tuple) -> bytes:
    """A key in a line: its service's letter and its queue id."""
    return SERVICE_LETTERS[key[0]] + b" " + key[1]


def listed(file: bytes, marks: bytes, limits: Limits = Limits()) -> bytes:
    """The lines of a journal that can be opened under its marks."""
    kept = journal.records(file) or [journal.header(limits)]
    header, *texts = map(journal.text_of, kept)
    base = int.from_bytes(header[-8:], "big")
    mark = int.from_bytes(b"".join(map(journal.text_of, journal.records(marks)[-1:])), "big")
    logs, letters = Logs(limits), []
    for text in filter(None, texts):
        letters += filter(None, logs.apply(decoded(text))[2:])
    lines = [b"open %s %d" % (named(key), count) for key, count in logs.open_logs()]
    lines += [b"closed " + named(key) for key in sorted(key for key, log in logs.held.items() if log is None)]
    for it in letters:
        if base + it.serial >= mark:
            lines.append(b"unmarked %s %d %d" % (named(it.key), len(it.outcomes), base + it.serial))
    used = sum(len(journal.spelled(it)) for it in kept)
    lines += [b"marked %d" % mark, b"sealed %d" % (base + len(letters)), b"bytes %d %d" % (used, len(file))]
    return b"".join(it + b"\n" for it in lines)
