#!/usr/bin/env python3
r"""Writes request frames for `noticed` from a description in words.

    python3 vectors/frames.py NAME.requests > NAME.frames
    python3 vectors/frames.py NAME.requests | noticed batch mx.example.net
    python3 vectors/frames.py - | noticed send /run/noticed/socket

A description has one frame a line; empty lines and lines that begin with '#' are left out. With - it is read from
standard input, and each frame is written as soon as its line is there.

    append NUMBER SERVICE ID RECIPIENT ACTION STATUS [original=T] [mta=T] [diagnostic=T] [reason=T]
           [attempt=N] [retry=N] [type=T] [original-type=T] [diagnostic-type=T]
           [extension="X-Name: value"] ..
    flush NUMBER SERVICE ID return=T moment=N arrival=N [envelope=T] [header=T] [expects=N]
          [returns=header|message|eight_bit_message] [wording=service|outcome] [extension="X-Name: value"] ..
    discard NUMBER SERVICE ID
    forget NUMBER SERVICE ID
    hex DIGITS               these bytes as they are, for input that is not as it should be
    version N                no frame: those behind it are of this version, else of the least that has their fields

NUMBER is the frame's place, from 0; a dot stands for it. SERVICE is bounce, defer or trace, ACTION is failed, delayed,
delivered, relayed or expanded (or either is the byte's number). A word may stand in quotes, as in a shell, and in a
text T, RECIPIENT, STATUS and ID these stand for other bytes: \n LF, \r CR, \t tab, \s space, \\ a backslash, \xE9 the
byte of that number, \{1200*a} the one character 1200 times. A flush without return=, moment= or arrival= is refused;
return= is the null return path, moment=now and arrival=now are this moment. With expects=N it is carried out only if
its log has N outcomes. With returns=message the text of header= is the message, which is returned whole if it can be;
with returns=eight_bit_message its notice may be an 8bit mail. The word extension may be repeated; LF follows each.

noticed-protocol(5) has the layout of the frames. Nothing here tests a value: the daemon does.
"""
import re
import shlex
import struct
import sys
import time

SERVICES = {"bounce": 1, "defer": 2, "trace": 3}
ACTIONS = {"failed": 1, "delayed": 2, "delivered": 3, "relayed": 4, "expanded": 5}
APPEND, FLUSH, DISCARD, FORGET = 1, 2, 3, 4
NO_MOMENT = 2**64 - 1
ANY_COUNT = 2**32 - 1
OF_A_FLUSH = ("return_path", "moment", "arrival")  # fields that each flush has
RETURNED = {"header": 0, "message": 1, "eight_bit_message": 2}
WORDINGS = {"service": 0, "outcome": 1}


def text(value: bytes) -> bytes:
    """A text on the wire: its length as a u16, then its bytes."""
    return struct.pack(">H", len(value)) + value


def frame(body: bytes) -> bytes:
    """A frame: the body's length as a u32, then the body."""
    return struct.pack(">I", len(body)) + body


def start(kind: int, number: int, service: int, queue_id: bytes, version: int) -> bytes:
    """The part that all bodies begin with."""
    return struct.pack(">BBIB", version, kind, number, service) + text(queue_id)


def append(
    number,
    service,
    queue_id,
    recipient,
    action,
    status,
    original=b"",
    mta=b"",
    diagnostic=b"",
    reason=b"",
    last_attempt=None,
    retry_until=None,
    recipient_type=b"",
    original_type=b"",
    diagnostic_type=b"",
    extensions=b"",
    version=1,
):
    """The frame of a request to add one recipient's outcome to a log. It is of version 3 if it says a type or has
    extension fields (each a line that LF ends), else of version 2 if it has one of the two moments; or of a later one
    that the caller names."""
    moments = [NO_MOMENT if it is None else it for it in (last_attempt, retry_until)]
    types = [recipient_type, original_type, diagnostic_type, extensions]
    version = max(version, 3 if any(types) else 1 if moments == [NO_MOMENT, NO_MOMENT] else 2)
    body = start(APPEND, number, service, queue_id, version) + text(original) + text(recipient) + bytes([action])
    body += text(status) + text(mta) + text(diagnostic) + text(reason)
    body += struct.pack(">QQ", *moments) if version > 1 else b""
    return frame(body + (b"".join(map(text, types)) if version > 2 else b""))


def flush(
    number,
    service,
    queue_id,
    return_path,
    moment,
    arrival,
    envelope=b"",
    header=b"",
    expected=None,
    returned=0,
    wording=0,
    extensions=b"",
    version=1,
):
    """The frame of a request to close a log and to make its notice. It is of version 3 if it says how many outcomes the
    log is to have, that the header is a message, or that the words go by the outcome, or has extension fields (each a
    line that LF ends); or of a later version than 1 that the caller names."""
    wishes = struct.pack(">IBB", ANY_COUNT if expected is None else expected, returned, wording) + text(extensions)
    usual = wishes == struct.pack(">IBB", ANY_COUNT, 0, 0) + text(b"")
    version = version if usual else 3
    body = start(FLUSH, number, service, queue_id, version) + struct.pack(">QQ", moment, arrival)
    return frame(body + text(return_path) + text(envelope) + text(header) + (wishes if version > 2 else b""))


def discard(number, service, queue_id, version=1):
    """The frame of a request to close a log without a notice."""
    return frame(start(DISCARD, number, service, queue_id, version))


def forget(number, service, queue_id, version=1):
    """The frame of a request to release a closed log's key; it is of version 2 or a later one."""
    return frame(start(FORGET, number, service, queue_id, max(version, 2)))


ESCAPE = re.compile(rb"\\(?:x([0-9A-Fa-f]{2})|\{(\d+)\*([^}])\}|(.))", re.DOTALL)
SHORT = {b"n": b"\n", b"r": b"\r", b"t": b"\t", b"s": b" ", b"\\": b"\\"}


def unescaped(word: str) -> bytes:
    """The bytes that a word of a description stands for."""

    def stands_for(found):
        number, times, repeated, short = found.groups()
        if number:
            return bytes([int(number, 16)])
        if times:
            return repeated * int(times)
        if short not in SHORT:
            raise ValueError(f"unknown escape \\{short.decode(errors='replace')}")
        return SHORT[short]

    return ESCAPE.sub(stands_for, word.encode())


def words_of(line: str) -> list:
    """The words of a line, quotes taken off and backslashes kept."""
    lexer = shlex.shlex(line, posix=True, punctuation_chars=False)
    lexer.whitespace_split, lexer.commenters, lexer.escape = True, "", ""
    return list(lexer)


def moment_of(word: str) -> int:
    """The seconds since 1970 that a word stands for."""
    return int(time.time()) if word == "now" else int(word)


# The options of a description that fields have other names for.
NAMES = {
    "return": "return_path",
    "type": "recipient_type",
    "original-type": "original_type",
    "diagnostic-type": "diagnostic_type",
}


def request_of_line(line: str) -> tuple:
    """What one line of a description asks: the request, its number (None for a dot), and its fields as append, flush,
    discard and forget take them."""
    kind, *words = words_of(line)
    named = {"append": 6, "flush": 3, "discard": 3, "forget": 3}.get(kind)
    if named is None or len(words) < named:
        raise ValueError("not a request")
    fixed, given = words[:named], [it.partition("=")[::2] for it in words[named:]]
    options = {it: value for it, value in given if it != "extension"}
    extensions = [value for it, value in given if it == "extension"]
    number = None if fixed[0] == "." else int(fixed[0])
    fields = {"service": SERVICES.get(fixed[1]) or int(fixed[1]), "queue_id": unescaped(fixed[2])}
    fields |= {"extensions": b"".join(unescaped(it) + b"\n" for it in extensions)} if extensions else {}
    if kind == "append":
        fields |= {
            "recipient": unescaped(fixed[3]),
            "action": ACTIONS.get(fixed[4]) or int(fixed[4]),
            "status": unescaped(fixed[5]),
        }
        fields |= {
            name: moment_of(options.pop(it))
            for it, name in (("attempt", "last_attempt"), ("retry", "retry_until"))
            if it in options
        }
    elif kind == "flush":
        fields |= {it: moment_of(options.pop(it)) for it in ("moment", "arrival") if it in options}
        fields |= {"expected": int(options.pop("expects"))} if "expects" in options else {}
        for name, field, values in (("returns", "returned", RETURNED), ("wording", "wording", WORDINGS)):
            if name in options:
                word = options.pop(name)
                fields[field] = values[word] if word in values else int(word)
    if extensions and kind not in ("append", "flush"):
        raise ValueError(f"a {kind} has no extension fields")
    if kind not in ("append", "flush") and options:
        raise ValueError(f"a {kind} has nothing after the queue id")
    return kind, number, fields | {NAMES.get(it, it): unescaped(value) for it, value in options.items()}


def frame_of(kind: str, number: int, fields: dict) -> bytes:
    """The frame of a request with these fields. ValueError if a flush lacks one that each has."""
    lacking = [it.replace("_", " ") for it in OF_A_FLUSH if kind == "flush" and it not in fields]
    if lacking:
        raise ValueError(f"a flush must say its {', '.join(lacking)}")
    return {"append": append, "flush": flush, "discard": discard, "forget": forget}[kind](number, **fields)


def frame_of_line(line: str, place: int, version: int = 1) -> bytes:
    """The frame that one line of a description stands for, at this place among the frames."""
    kind, *words = words_of(line)
    if kind == "hex":
        return bytes.fromhex("".join(words))
    kind, number, fields = request_of_line(line)
    return frame_of(kind, place if number is None else number, fields | {"version": version})


def frames_in(lines):
    """The frames of a description's lines, each as soon as its line is there."""
    place, version = 0, 1
    for at, line in enumerate(lines, 1):
        if not line.strip() or line.lstrip().startswith("#"):
            continue
        try:
            if line.startswith("version "):
                version = int(line.split()[1])
                continue
            made = frame_of_line(line, place, version)
        except (ValueError, TypeError, struct.error) as why:
            raise ValueError(f"line {at}: {why}: {line.rstrip()}") from why
        yield made
        place += 1


def frames_of(description: str) -> bytes:
    """All frames of a description, one after another."""
    return b"".join(frames_in(description.splitlines()))


def main() -> int:
    if len(sys.argv) != 2:
        print("usage: frames.py NAME.requests > NAME.frames, or frames.py - for standard input", file=sys.stderr)
        return 2
    try:
        # a description of a file is written whole or not at all, one on standard input line by line
        with open(0 if sys.argv[1] == "-" else sys.argv[1], encoding="utf-8") as it:
            for frames in frames_in(it) if sys.argv[1] == "-" else [frames_of(it.read())]:
                sys.stdout.buffer.write(frames)
                sys.stdout.buffer.flush()
    except BrokenPipeError:
        sys.stdout = None
        return 1
    except (OSError, ValueError) as why:
        print(f"frames.py: {why}", file=sys.stderr)
        return 1
    return 0


if __name__ == "__main__":
    sys.exit(main())
