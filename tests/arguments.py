"""Checks wrong arguments (status 2, no standard output, the reason, the usage line and where to find help on standard
error), unusual correct ones, the help and the version."""

import re
import tempfile
from pathlib import Path

from tests.support.faults import fault_line, worded
from tests.support.running import ROOT, VECTORS, Checks, Ran, empty_outbox, run

FAULT_CODES = ROOT / "crates/dsn_text/src/fault_code.rt"

# the usage line of `batch`, `serve` and `send`, and of a command that isn't known
FRAMES = b"usage: noticed batch HOST | serve SOCKET HOST AGENTS MAX-USE | send SOCKET\n"
# those of the other commands
OTHERS = {
    "stop": b"usage: noticed stop SOCKET\n",
    "status": b"usage: noticed status [--open|--prometheus] SOCKET\n",
    "discard": b"usage: noticed discard SOCKET SERVICE ID\n",
    "forget": b"usage: noticed forget SOCKET SERVICE ID\n",
    "journal": b"usage: noticed journal FOLDER\n",
    "hand-in": b"usage: noticed hand-in [--done FILE] [--give-up SECONDS] HAND-IN\n",
    "resubmit": b"usage: noticed resubmit FOLDER HOST HAND-IN\n",
    "postfix": b"usage: noticed postfix [OPTIONS] QUEUE-FOLDER HOST HAND-IN\n",
    "preview": b"usage: noticed preview [OPTIONS] QUEUE-FOLDER HOST ID\n",
    "faults": b"usage: noticed faults\n",
}
HINT = b"try 'noticed help'\n"
HOST = "mx.example.net"
SOCKET = "/nonexistent/noticed.socket"
JOURNAL = ["--journal", "/nonexistent"]
QUEUE, HAND_IN = "/nonexistent/queue", "127.0.0.1:10025"

WRONG = {
    "no argument": [],
    "an empty command": [""],
    "an unknown command": ["bounce", HOST],
    "a command in capitals": ["BATCH", HOST],
    "a command with a space": ["batch ", HOST],
    "an option before the command": ["--", "batch", HOST],
    "the host alone": [HOST],
    "batch with no host": ["batch"],
    "batch with two hosts": ["batch", HOST, HOST],
    "batch with a host and an empty word": ["batch", HOST, ""],
    "host with an underscore": ["batch", "a_b"],
    "empty host": ["batch", ""],
    "host of 256 bytes": ["batch", "a" * 256],
    "host with a space": ["batch", "mx example"],
    "host with a space at its end": ["batch", HOST + " "],
    "host with a line's end": ["batch", HOST + "\n"],
    "host with a CR": ["batch", HOST + "\r\nRCPT TO:<x@y>"],
    "host with a colon": ["batch", "mx:25"],
    "host in brackets": ["batch", "[127.0.0.1]"],
    "host with a letter beyond ASCII": ["batch", "m\u00fcx.example.net"],
    "host that is no UTF-8": ["batch", b"\xff"],
    "host with a byte that is no UTF-8": ["batch", b"mx.example.net\xff"],
    "command that is no UTF-8": [b"\xff", HOST],
    "an argument too many that is no UTF-8": ["batch", HOST, b"\xff"],
    "serve with nothing": ["serve"],
    "serve with a socket": ["serve", SOCKET],
    "serve with a socket and a host": ["serve", SOCKET, HOST],
    "serve without MAX-USE": ["serve", SOCKET, HOST, "2"],
    "serve with a word too many": ["serve", SOCKET, HOST, "2", "1", "1"],
    "serve with an empty word too many": ["serve", SOCKET, HOST, "2", "1", ""],
    "serve with its words exchanged": ["serve", HOST, SOCKET, "2", "1"],
    "serve with a bad host": ["serve", SOCKET, "a_b", "2", "1"],
    "serve with an empty host": ["serve", SOCKET, "", "2", "1"],
    "serve with a host of 256 bytes": ["serve", SOCKET, "a" * 256, "2", "1"],
    "serve with a socket that is no UTF-8": ["serve", b"\xff", HOST, "2", "1"],
    "serve with an unknown option": ["serve", "--verbose", SOCKET, HOST, "2", "1"],
    "serve with a host like an option": ["serve", SOCKET, "--verbose", "2", "1"],
    "stop with a socket like an option": ["stop", "--log"],
    "postfix with a host like an option": ["postfix", QUEUE, "--lifetime", HAND_IN],
    "batch with a host like an option": ["batch", "--"],
    "serve with a log twice": ["serve", "--log", "--log", SOCKET, HOST, "2", "1"],
    "serve with an end on a fault twice": ["serve", "--end-on-fault", "--end-on-fault", SOCKET, HOST, "2", "1"],
    "serve with two idle limits": ["serve", "--idle", "1", "--idle", "1", SOCKET, HOST, "2", "1"],
    "serve with an idle limit without seconds": ["serve", "--idle", SOCKET, HOST, "2", "1"],
    "serve with an outbox and no path": ["serve", "--outbox", SOCKET, HOST, "2", "1"],
    "serve with a journal whose folder is no UTF-8": [
        "serve",
        "--journal",
        b"/\xff",
        "--outbox",
        "/nonexistent/o",
        SOCKET,
        HOST,
        "2",
        "1",
    ],
    "serve with an option and no socket": ["serve", "--end-on-fault", "--log", HOST, "2"],
    "serve with a journal and no outbox": ["serve", "--journal", "/nonexistent", SOCKET, HOST, "2", "1"],
    **{
        f"serve with {what}": ["serve", *words, SOCKET, HOST, "2", "1"]
        for what, words in {
            "a mail server and no journal": ["--hand-in", "127.0.0.1:25"],
            "a mail server and an outbox": [*JOURNAL, "--hand-in", "127.0.0.1:25", "--outbox", "/nonexistent/o"],
            "a mail server without a port": [*JOURNAL, "--hand-in", "127.0.0.1"],
            "a mail server with the port 0": [*JOURNAL, "--hand-in", "127.0.0.1:0"],
            "a mail server that is a name": [*JOURNAL, "--hand-in", "mx.example.net:25"],
            "a mail server whose path is too long": [*JOURNAL, "--hand-in", "/" + "s" * 107],
            "two mail servers": [*JOURNAL, "--hand-in", "127.0.0.1:25", "--hand-in", "127.0.0.1:25"],
            "a time to give up, and no mail server": [*JOURNAL, "--outbox", "/nonexistent/o", "--give-up", "1"],
            "a time to give up of 0": [*JOURNAL, "--hand-in", "127.0.0.1:25", "--give-up", "0"],
            "a time to give up that is too long": [*JOURNAL, "--hand-in", "127.0.0.1:25", "--give-up", "8640001"],
        }.items()
    },
    "serve with two journals": [
        "serve",
        "--journal",
        "/nonexistent",
        "--journal",
        "/nonexistent",
        "--outbox",
        "/nonexistent/o",
        SOCKET,
        HOST,
        "2",
        "1",
    ],
    "serve with two outboxes": [
        "serve",
        "--outbox",
        "/nonexistent/o",
        "--outbox",
        "/nonexistent/o",
        SOCKET,
        HOST,
        "2",
        "1",
    ],
    "serve with a journal without a folder": [
        "serve",
        "--outbox",
        "/nonexistent/o",
        "--journal",
        SOCKET,
        HOST,
        "2",
        "1",
    ],
    "serve with an empty folder": ["serve", "--journal", "", "--outbox", "/nonexistent/o", SOCKET, HOST, "2", "1"],
    "serve with an empty outbox": ["serve", "--outbox", "", SOCKET, HOST, "2", "1"],
    "SERVE in capitals": ["SERVE", SOCKET, HOST, "2", "1"],
    "stop with nothing": ["stop"],
    "stop with a word too many": ["stop", SOCKET, HOST],
    "stop with an option": ["stop", "--log", SOCKET],
    "stop with a socket that is no UTF-8": ["stop", b"/\xff"],
    "send with nothing": ["send"],
    "send with a word too many": ["send", SOCKET, HOST],
    "send with an empty word too many": ["send", SOCKET, ""],
    "send with a socket that is no UTF-8": ["send", b"/\xff"],
    "discard with nothing": ["discard"],
    "discard without a queue id": ["discard", SOCKET, "bounce"],
    "discard with a word too many": ["discard", SOCKET, "bounce", "K1", "K2"],
    "discard with a service in capitals": ["discard", SOCKET, "BOUNCE", "K1"],
    "discard with a letter as service": ["discard", SOCKET, "B", "K1"],
    "discard with an empty queue id": ["discard", SOCKET, "bounce", ""],
    "discard with a queue id of 33 letters": ["discard", SOCKET, "bounce", "K" * 33],
    "forget with nothing": ["forget"],
    "forget with an unknown service": ["forget", SOCKET, "verify", "K1"],
    "forget with a queue id with a dot": ["forget", SOCKET, "defer", "K.1"],
    "forget with a queue id that is no UTF-8": ["forget", SOCKET, "trace", b"K\xff"],
    "status with nothing": ["status"],
    "status with a word too many": ["status", SOCKET, HOST],
    "status with two options": ["status", "--open", "--prometheus", SOCKET],
    "status with an option of another command": ["status", "--log", SOCKET],
    "journal with nothing": ["journal"],
    "journal with an empty folder": ["journal", ""],
    "journal with a word too many": ["journal", "/nonexistent", HOST],
    "journal with an empty word too many": ["journal", "/nonexistent", ""],
    "journal with a folder that is no UTF-8": ["journal", b"/\xff"],
    "preview with nothing": ["preview"],
    "preview without ID": ["preview", QUEUE, HOST],
    "preview with a bad id": ["preview", QUEUE, HOST, "A-1"],
    "preview with a mail server": ["preview", QUEUE, HOST, "A1", "127.0.0.1:25"],
    "preview with --inherited": ["preview", "--inherited", QUEUE, HOST, "A1"],
    "postfix with nothing": ["postfix"],
    "postfix with a folder": ["postfix", QUEUE],
    "postfix without HAND-IN": ["postfix", QUEUE, HOST],
    "postfix with a word too many": ["postfix", QUEUE, HOST, HAND_IN, HOST],
    "postfix with an empty word too many": ["postfix", QUEUE, HOST, HAND_IN, ""],
    "postfix with an empty folder": ["postfix", "", HOST, HAND_IN],
    "postfix with a folder that is no UTF-8": ["postfix", b"/\xff", HOST, HAND_IN],
    "postfix with its words exchanged": ["postfix", HOST, QUEUE, HAND_IN],
    "postfix with a bad host": ["postfix", QUEUE, "a_b", HAND_IN],
    "postfix with an empty host": ["postfix", QUEUE, "", HAND_IN],
    "postfix with a host of 256 bytes": ["postfix", QUEUE, "a" * 256, HAND_IN],
    "postfix with a host that is no UTF-8": ["postfix", QUEUE, b"\xff", HAND_IN],
    "postfix with an unknown option": ["postfix", "--verbose", "1", QUEUE, HOST, HAND_IN],
    "postfix with an option of serve": ["postfix", "--log", QUEUE, HOST, HAND_IN],
    "postfix with a version": ["postfix", "--postfix", "3.7", QUEUE, HOST, HAND_IN],
    "postfix with --inherited twice": ["postfix", "--inherited", "--inherited", QUEUE, HOST, HAND_IN],
    "postfix with --threaded and a value": ["postfix", "--threaded", "yes", QUEUE, HOST, HAND_IN],
    "postfix with --inherited and a value": ["postfix", "--inherited", "yes", QUEUE, HOST, HAND_IN],
    "postfix with an option in capitals": ["postfix", "--LIFETIME", "1", QUEUE, HOST, HAND_IN],
    "POSTFIX in capitals": ["POSTFIX", QUEUE, HOST, HAND_IN],
}

# the options of `postfix`, with a value that is right
POSTFIX_OPTIONS = {
    "--lifetime": "1",
    "--bounce-size-limit": "1",
    "--double-bounce": "a@b",
    "--hash-queue-names": "defer",
    "--hash-queue-depth": "1",
    "--pass-on": "2bounce",
    "--templates": "/",  # it has none
}
NO_NAMES = ["defer;bounce", "../defer", "a_b", "defer\n", "d\u00e9fer", "x" * 101, "defer, " + "x" * 101]
NO_CLASSES = ["resource", "Bounce", "bounce;delay", "2bounces", "delay\n"]
# wrong as HAND-IN: no IP address with a port, and no path
NO_HAND_INS = [
    "",
    "25",
    ":25",
    "127.0.0.1",
    "127.0.0.1:",
    "127.0.0.1:x",
    "127.0.0.1:-1",
    "127.0.0.1:+1",
    "127.0.0.1:65536",
    "127.0.0.1:25 ",
    " 127.0.0.1:25",
    "127.0.0.1:25\n",
    "127.1:25",
    "127.0.0.256:25",
    "0127.0.0.1:25",
    "mx.example.net:25",
    "::1:25",
    "[::1]",
    "[::1:25",
    "inet:127.0.0.1:25",
    "unix:private/smtp",
    "run/socket",
    "./socket",
    "@socket",
    "/" + 107 * "x",
    b"\xff:25",
]

# wrong as AGENTS and as MAX-USE: not a decimal number of at least 1 without leading zeros
NO_NUMBERS = [
    "",
    "0",
    "00",
    "01",
    "001",
    "+1",
    "-1",
    " 1",
    "1 ",
    "1\n",
    "1.0",
    "1.",
    "1e3",
    "0x1",
    "1_0",
    "1,0",
    "two",
    "\u0661",
    "18446744073709551617",
    "4294967297",
    "340282366920938463463374607431768211457",
]
NO_AGENTS = [*NO_NUMBERS, "17", "100", "016"]
NO_USES = [*NO_NUMBERS, "1000001", "01000000", "4294967296"]
NO_SECONDS = [*NO_NUMBERS, "86401", "4294967296"]
NO_LIFETIMES = [*NO_NUMBERS, "8640001", "5d", "4294967296"]
# Postfix itself refuses a limit of 0
NO_SIZE_LIMITS = [*NO_NUMBERS, "2147483648", "50k", "4294967296"]
NO_DEPTHS = [*NO_NUMBERS, "17", "4294967296"]

# a socket's path that is empty, or longer than the system takes
NO_PATHS = ["", "s" * 108, "/" + "s" * 300]

# right, but no socket can be bound there, or nobody listens: fault 61 with the path and the system's words, and nothing
# on standard output
RIGHT = {
    "one agent, one connection": ["serve", SOCKET, HOST, "1", "1"],
    "the most of both": ["serve", SOCKET, HOST, "16", "1000000"],
    "an idle limit": ["serve", "--idle", "86400", SOCKET, HOST, "2", "1"],
    "all options": ["serve", "--log", "--idle", "1", "--end-on-fault", SOCKET, HOST, "2", "1"],
    "an option in one word": ["serve", "--idle=1", SOCKET, HOST, "2", "1"],
    "an option after the socket": ["serve", SOCKET, "--log", HOST, "2", "1"],
    "an option at the end": ["serve", SOCKET, HOST, "2", "1", "--log"],
    "a socket after --": ["stop", "--", SOCKET],
    "an outbox": ["serve", "--outbox", "/dev/null", SOCKET, HOST, "2", "1"],
    "a client": ["send", SOCKET],
    "a stop": ["stop", SOCKET],
}

# right, but there is no such folder: fault 61 with the folder of Postfix's sockets
RIGHT_OF_POSTFIX = {
    "a folder": [QUEUE, HOST, HAND_IN],
    "an IPv6 address": [QUEUE, HOST, "[::1]:10025"],
    "the least and the most": ["--lifetime", "1", "--hash-queue-depth", "16", QUEUE, HOST, "127.0.0.1:65535"],
    "the most of a lifetime": ["--lifetime", "8640000", QUEUE, HOST, HAND_IN],
    "the most of a size limit": ["--bounce-size-limit", "2147483647", QUEUE, HOST, HAND_IN],
    "no hashed queue": ["--hash-queue-names", "", QUEUE, HOST, HAND_IN],
    "a list of hashed queues": ["--hash-queue-names", "deferred, defer\tbounce", QUEUE, HOST, HAND_IN],
    "no classes": ["--pass-on", "", QUEUE, HOST, HAND_IN],
    "a list of classes": ["--pass-on", "bounce, 2bounce\tdelay", QUEUE, HOST, HAND_IN],
    "an address without a domain": ["--double-bounce", "double-bounce", QUEUE, HOST, HAND_IN],
    "threads": ["--threaded", QUEUE, HOST, HAND_IN],
    "inherited sockets": ["--inherited", QUEUE, HOST, HAND_IN],
    "inherited sockets before another option": ["--inherited", "--lifetime", "1", QUEUE, HOST, HAND_IN],
    "all options": [*(word for it in POSTFIX_OPTIONS.items() for word in it), QUEUE, HOST, HAND_IN],
}

# hosts that look like something else
ODD_HOSTS = ["-", ".", "..", "0", "a", "A" * 255]

# what the reason of wrong arguments says, word for word
REASONS = {
    b"error: AGENTS must be 1 to 16, not '17'": ["serve", SOCKET, HOST, "17", "1"],
    b"error: MAX-USE must be 1 to 1000000, not '01'": ["serve", SOCKET, HOST, "1", "01"],
    b"error: idle must be 1 to 86400, not '5m'": ["serve", "--idle", "5m", SOCKET, HOST, "1", "1"],
    b"error: HOST must be 1 to 255 letters, digits, dots and hyphens, not 'a_b'": ["batch", "a_b"],
    b"error: HAND-IN must be an IP address or localhost with a port, or a path of at most 107 bytes, not 'mx.example.net:25'": [
        "postfix",
        QUEUE,
        HOST,
        "mx.example.net:25",
    ],
    b"error: an argument is not UTF-8": ["batch", b"\xff"],
    b"error: unexpected argument '--hlep' found": ["batch", "--hlep"],
    b"error: unrecognized subcommand 'bounce'": ["bounce", HOST],
    b"error: the following required arguments were not provided: <HOST>": ["batch"],
}

# files that are no templates, and what is wrong with each
HEAD = b"Charset: utf-8\nFrom: a\nSubject: b\n\n"
NO_TEMPLATES = {
    b"": "it does not begin with lines Charset, From and Subject and an empty line",
    b"From: a\nCharset: utf-8\nSubject: b\n\ntext\n": "it does not begin with lines Charset, From and Subject and an empty line",
    b"Charset: utf 8\nFrom: a\nSubject: b\n\ntext\n": "its Charset is not the name of a charset",
    b"Charset: utf-8\nFrom: \xc3\xa4\nSubject: b\n\ntext\n": "its From is not 1 to 989 bytes of printable ASCII",
    b"Charset: utf-8\nFrom: a\nSubject: " + b"b" * 990 + b"\n\ntext\n": "its Subject is not 1 to 989 bytes of printable ASCII",
    HEAD: "it has no text",
    HEAD + b"a\n" * 16385: "its text has more than 32,768 bytes",
    HEAD + b"a" * 999: "a line of its text has more than 998 bytes, a NUL or a CR",
    HEAD + b"a\n--T.b\n": "a line of its text begins with --B., --D. or --T.",
    HEAD.replace(b"utf-8", b"US-ASCII") + b"\xff\n": "its text has bytes above 127, and its Charset is us-ascii",
}

# words that ask for something to read, and what it begins with and has
READ = {
    "noticed --help": (["--help"], b"Logs outcomes of deliveries", b"\nUsage: noticed <COMMAND>\n"),
    "noticed -h": (["-h"], b"Logs outcomes of deliveries", b"\n  postfix   Serves a Postfix in place of bounce(8)\n"),
    "noticed help": (["help"], b"Logs outcomes of deliveries", b"\n  batch    "),
    "noticed help serve": (
        ["help", "serve"],
        b"Answers clients",
        b"\nUsage: noticed serve [OPTIONS] [SOCKET] [HOST] [AGENTS] [MAX-USE]\n",
    ),
    "noticed postfix --help": (["postfix", "--help"], b"Serves a Postfix", b"[default: 432000]"),
    "noticed help discard": (["help", "discard"], b"Closes one log without a notice", b"its outcomes are lost"),
    "noticed help forget": (["help", "forget"], b"Releases the key", b"a second notice"),
    "noticed batch --help": (["batch", "--help"], b"Answers the request frames", b"<HOST>"),
    "noticed --version": (["--version"], b"noticed ", b"."),
    "noticed help faults": (
        ["help", "faults"],
        b" 1  ",
        b"\n61  a socket could not be bound, connected or removed, or an accept failed\n",
    ),
    "noticed faults": (["faults"], b" 1  ", b"\n31  the outbox could not be written\n"),
}


def wrong_of_postfix() -> dict:
    """Wrong arguments of `postfix`: its options, and HAND-IN."""
    place = [QUEUE, HOST, HAND_IN]
    wrong = {f"postfix with {it!r} as HAND-IN": ["postfix", QUEUE, HOST, it] for it in NO_HAND_INS}
    for option, value in POSTFIX_OPTIONS.items():
        wrong[f"postfix with {option} twice"] = ["postfix", option, value, option, value, *place]
        wrong[f"postfix with {option} without a value"] = ["postfix", option, *place]
        wrong[f"postfix with {option} alone"] = ["postfix", option, value]
    for option, values in (
        ("--lifetime", NO_LIFETIMES),
        ("--bounce-size-limit", NO_SIZE_LIMITS),
        ("--hash-queue-depth", NO_DEPTHS),
        ("--hash-queue-names", NO_NAMES),
        ("--pass-on", NO_CLASSES),
    ):
        wrong |= {f"postfix with {option} {it!r}": ["postfix", option, it, *place] for it in values}
    return wrong


def refused(words: list, reason: bytes) -> bytes:
    """What standard error has for wrong arguments: the reason in one line, the usage line of the command, which is that
    of the commands over frames if these words can't be read or name none, and where to find help."""
    is_text = all(isinstance(it, str) for it in words)
    usage = OTHERS.get(words[0], FRAMES) if words and is_text else FRAMES
    return reason + b"\n" + usage + HINT


def check_templates(checks: Checks):
    """A file that is no template is wrong, with its path and the reason; a folder that isn't there is wrong too."""
    with tempfile.TemporaryDirectory() as folder:
        words = ["postfix", "--templates", folder, QUEUE, HOST, HAND_IN]
        for number, (text, why) in enumerate(NO_TEMPLATES.items()):
            path = Path(folder, ("failure", "delay", "success", "verify")[number % 4])
            path.write_bytes(text)
            wanted = Ran(b"", refused(words, f"error: {path}: {why}".encode()), 2)
            checks.equal(f"a template {text[:30]}..: {why}", run(words, b""), wanted)
            path.unlink()
    why = f"error: {folder}: No such file or directory (os error 2)"
    checks.equal("templates of a folder that isn't there", run(words, b""), Ran(b"", refused(words, why.encode()), 2))


def main():
    checks = Checks(
        "arguments: status 2, the reason and the usage line for wrong ones; odd ones that are right run; help"
    )
    given = (VECTORS / "one-bounce.frames").read_bytes()
    wrong = dict(WRONG)
    wrong |= {f"{it!r} agents": ["serve", SOCKET, HOST, it, "1"] for it in NO_AGENTS}
    wrong |= {f"{it!r} connections": ["serve", SOCKET, HOST, "2", it] for it in NO_USES}
    wrong |= {f"{it!r} seconds": ["serve", "--idle", it, SOCKET, HOST, "2", "1"] for it in NO_SECONDS}
    wrong |= wrong_of_postfix()
    for what, words in wrong.items():
        ran = run(words, given)
        reason = ran.notes.partition(b"\n")[0]
        checks.equal(what, (ran.outbox, ran.notes, ran.status), (b"", refused(words, reason), 2))
        checks.true(f"{what}: a reason", reason.startswith(b"error: ") and len(reason) > 20)
    for reason, words in REASONS.items():
        checks.equal(reason.decode(), run(words, given), Ran(b"", refused(words, reason), 2))
    check_templates(checks)
    for what, (words, begins, has) in READ.items():
        ran = run(words, given)
        checks.equal(
            what, (ran.outbox.startswith(begins), has in ran.outbox, ran.notes, ran.status), (True, True, b"", 0)
        )
    listed = [int(line.split()[0]) for line in run(["faults"]).outbox.splitlines()]
    codes = [int(it) for it in re.findall(r"^pub const \w+: u32 = (\d+);$", FAULT_CODES.read_text(), re.M)]
    checks.equal("each number is listed once, in order", listed, sorted(codes))
    for path in NO_PATHS:
        for words in (["serve", path, HOST, "2", "1"], ["send", path]):
            checks.equal(f"{words[0]} with a path of {len(path)} bytes", run(words, given), Ran(b"", fault_line(61), 1))
        logged = run(["serve", "--log", path, HOST, "2", "1"])
        wanted = fault_line(61) + f"{path}: the path must have 1 to 107 bytes\n".encode()
        checks.equal(f"serve --log with a path of {len(path)} bytes", logged, Ran(b"", wanted, 1))
    why = "No such file or directory (os error 2)"
    cause = f"{SOCKET}: {why}\n".encode()
    for what, words in RIGHT.items():
        wanted = worded(61) + cause if words[0] == "stop" else fault_line(61) + cause * ("--log" in words)
        checks.equal(what, run(words, given), Ran(b"", wanted, 1))
    for what, words in RIGHT_OF_POSTFIX.items():
        checks.equal(
            f"postfix with {what}",
            run(["postfix", *words], given),
            Ran(b"", worded(61) + f"{QUEUE}/private: {why}\n".encode(), 1),
        )
    for host in ODD_HOSTS:
        checks.equal(f"batch {host[:20]}", run(["batch", host]), Ran(empty_outbox(host), b"", 0))
    print(f"  {len(wrong)} wrong, {len(RIGHT) + len(RIGHT_OF_POSTFIX) + len(ODD_HOSTS)} odd and right")
    checks.done()


if __name__ == "__main__":
    main()
