"""Calls the writer of notices as a library (lib/noticed_dsn.h): the notice of each log of vectors/ is the one of its
outbox, whole and with SMTP's dots; each kind of fault; rooms that are too short, and too few allocations; and the
examples in C and Python. Builds the library over what the gate left in crates/*/out, unless `make lib` has built it."""
import contextlib
import ctypes
import importlib.util
import os
import re
import shutil
import subprocess
import sys
import tempfile
from pathlib import Path

from tests.support.formats import notices, sessions
from tests.support.formats.logs import LOGGED, SEALED, Limits, Logs
from tests.support.mail_servers import messages_of
from tests.support.running import HOST, ROOT, Checks, examples
from vectors import frames

CRATE = ROOT / "crates/noticed_dsn"
ARCHIVE = CRATE / "out/libnoticed_dsn.a"
APPEND, FLUSH = 1, 2
MOMENT, ARRIVAL = 1_700_000_000, 1_699_996_400
STRICT = ["-std=c99", "-Wall", "-Wextra", "-Wpedantic", "-Wconversion", "-Werror"]
# A malloc that fails from the N-th call on.
REFUSING = """#include <errno.h>
#include <stdlib.h>
void *__libc_malloc(size_t size);
static long left = -1;
void *malloc(size_t size)
{
    const char *given = left < 0 ? getenv("MALLOCS") : NULL;
    if (given != NULL)
        left = atol(given);
    if (left == 0) {
        errno = ENOMEM;
        return NULL;
    }
    left -= left > 0;
    return __libc_malloc(size);
}
"""


def kit() -> Path:
    """The folder of the kit."""
    found = shutil.which(os.environ.get("RT") or "rt") or "/opt/rattle/bin/rt"
    return Path(found).resolve().parents[1]


def below(name: str, uses: dict) -> list:
    """The repository's crates that a crate stands on, lowest first."""
    found = []
    for it in uses[name]:
        found += [other for other in [*below(it, uses), it] if it in uses and other not in found]
    return found


def archive() -> bool:
    """Has the crate's archive built from its sources as they are. The gate only checks it, and leaves what is below."""
    lines = re.findall(r"^(\w+)(?: staticlib)?: (.*)$", (ROOT / "crates.txt").read_text(), re.M)
    uses = {name: it.split() for name, it in lines}
    uses = {name: [it for it in used if it in uses] for name, used in uses.items()}
    parts = below("noticed_dsn", uses)
    folders = [CRATE.parent / it / part for it in [*parts, CRATE.name] for part in ("src", "specs", "proofs")]
    sources = [file for folder in folders for file in folder.rglob("*.*")]
    if ARCHIVE.exists() and ARCHIVE.stat().st_mtime >= max(it.stat().st_mtime for it in sources):
        return True
    room = {it: CRATE.parent / it / "out/rlib" for it in parts}
    if not all((folder / f"{it}.rlib").exists() for it, folder in room.items()) or not (kit() / "bin/rattle").exists():
        return False
    words = [f"{kit()}/bin/rattle", "build", "--crate-name", "noticed_dsn", "src/lib.rt", "--crate-type", "staticlib"]
    words += ["--extern", f"std={kit()}/rlibs/std.rlib", "-L", f"dependency={kit()}/rlibs"]
    words += [word for it in uses["noticed_dsn"] for word in ("--extern", f"{it}={room[it]}/{it}.rlib")]
    words += [word for it in parts for word in ("-L", f"dependency={room[it]}")]
    words += ["--antt-project", f"{kit()}/rattle/logic/antt-project.json", "--logic-built", f"{kit()}/logic_built"]
    words += ["--toolchain", f"{kit()}/toolchain", "--links", "noticed_dsn=", "--jobs", "1"]
    words += ["-o", "out/libnoticed_dsn.a"]
    (CRATE / "out").mkdir(exist_ok=True)
    ran = subprocess.run(words, cwd=CRATE, capture_output=True, text=True, check=False)
    if ran.returncode:
        print(ran.stdout[-2000:], ran.stderr[-2000:])
    return ran.returncode == 0


def compiled(words: list):
    """Runs a compiler; the script ends if it fails."""
    subprocess.run(words, check=True, timeout=120)


def example_in_python():
    """The module lib/notice.py."""
    found = importlib.util.spec_from_file_location("notice", ROOT / "lib/notice.py")
    module = importlib.util.module_from_spec(found)
    found.loader.exec_module(module)
    return module


def numbered(bodies: list) -> bytes:
    """The frames of these bodies, numbered from 0."""
    return b"".join(frames.frame(it[:2] + place.to_bytes(4, "big") + it[6:]) for place, it in enumerate(bodies))


def key_of(body: bytes) -> bytes:
    """The service and the queue id of a request."""
    return body[6 : 9 + int.from_bytes(body[7:9], "big")]


def logs_of(it):
    """The logs of an example of which a notice was made: the frames of each, and its serial."""
    given, logs, serial = it.bytes("frames"), {}, 0
    with contextlib.suppress(sessions.Fault):
        replies = sessions.answers(given, Logs(Limits()), [])
        for body, (_, reply, _, _) in zip(sessions.frames(given, False), replies):
            if reply == LOGGED:
                logs.setdefault(key_of(body), []).append(body)
            elif reply == SEALED:
                yield numbered([*logs.pop(key_of(body)), body]), serial
                serial += 1


def vectors(checks: Checks, library):
    """The notices of the examples."""
    compared = 0
    for it in examples():
        outbox = it.bytes("outbox")
        data = [part[: part.index(b"\r\n.\r\n") + 5] for part in outbox.split(b"\r\nDATA\r\n")[1:]]
        paths = re.findall(rb"^RCPT TO:<(.*)>", outbox, re.M)
        made = list(logs_of(it))
        host = it.host.encode()
        checks.equal(f"{it.name}: its notices", [library.notice(host, *one) for one in made], messages_of(outbox))
        checks.equal(f"{it.name}: as mail data", [library.mail_data(host, *one) for one in made], data)
        checks.equal(f"{it.name}: their return paths", [library.return_path(one) for one, _ in made], paths)
        compared += len(made)
    checks.true(f"notices are compared: {compared}", compared >= 15)


def append(number: int, queue_id: bytes = b"Q1", service: int = 1) -> bytes:
    """The frame of an append: a recipient that failed, or in the log of delays one that is delayed."""
    action, status = (2, b"4.0.0") if service == 2 else (1, b"5.0.0")
    return frames.append(number, service, queue_id, b"x@y", action, status)


def flush(number: int, queue_id: bytes = b"Q1", return_path: bytes = b"ann@example.com", **fields) -> bytes:
    """The frame of a flush."""
    return frames.flush(number, 1, queue_id, return_path, MOMENT, ARRIVAL, **fields)


def refused(library, given: bytes, host: bytes = HOST.encode()) -> tuple:
    """The fault of a call and its words; none if it made a notice."""
    try:
        library.notice(host, given, 0)
    except ValueError as fault:
        return fault.args
    return ()


def faults(checks: Checks, library):
    """Each kind of fault, and the first of several."""
    one = append(0) + flush(1)
    for host in (b"", b"a_b", b"a" * 256):
        checks.equal(f"the host {host[:9]}", refused(library, one, host)[:1], (51,))
    checks.equal("a log", refused(library, one), ())
    for what, given, wanted in (
        ("nothing", b"", 101),
        ("an append alone", append(0), 101),
        ("appends to two messages", append(0) + append(1, b"Q2") + flush(2), 101),
        ("appends to two services", append(0) + append(1, service=2) + flush(2), 101),
        ("the flush of another log", append(0) + flush(1, b"Q2"), 101),
        ("a discard", append(0) + frames.discard(1, 1, b"Q1"), 101),
        ("a forget", append(0) + frames.forget(1, 1, b"Q1"), 101),
        ("an append after the flush", one + append(2), 101),
        ("a byte after the flush", one + b"\0", 101),
        ("1,001 outcomes", b"".join(map(append, range(1001))) + flush(1001), 101),
        ("a flush alone", flush(0), 102),
        ("a flush alone, with a null return path", flush(0, return_path=b""), 102),
        ("another number expected", append(0) + flush(1, version=3, expected=2), 103),
        ("the same, with a null return path", append(0) + flush(1, return_path=b"", version=3, expected=2), 103),
        ("a null return path", append(0) + flush(1, return_path=b""), 104),
        ("a frame that is too long", append(0) + b"\0\1\0\1", 11),
        ("an empty frame", append(0) + bytes(4), 12),
        ("a frame that is cut short", append(0) + flush(1)[:-1], 13),
        ("a length that is cut short", append(0) + b"\0\0", 13),
        ("a status that is none", frames.append(0, 1, b"Q1", b"x@y", 1, b"5") + flush(1), 4),
        ("a byte behind a body", frames.frame(append(0)[4:] + b"\0") + flush(1), 24),
        ("a number out of turn", append(0) + flush(2), 46),
    ):
        fault = refused(library, given)
        checks.equal(what, fault[:1], (wanted,))
        checks.true(f"{what}: the words of {wanted}", fault[1:] == (library.words(wanted),) and fault[1])
    checks.equal("no words of no fault", [library.words(it) for it in (0, 99, 100, 105, 2**32 - 1)], [""] * 5)
    whole = b"".join(map(append, range(1000))) + flush(1000)
    checks.equal("1,000 outcomes are one notice", refused(library, whole), ())


def rooms(checks: Checks, library):
    """Rooms that are too short are left as they are, and one that is just long enough is filled."""
    given, host = append(0) + flush(1), HOST.encode()
    text, size, fault = library.notice(host, given, 7), ctypes.c_size_t, ctypes.c_uint32(5)
    for room in (0, 1, len(text) - 1, len(text), len(text) + 9):
        out = ctypes.create_string_buffer(b"*" * (len(text) + 10), len(text) + 10)
        found = library.calls.noticed_dsn_notice(
            host, size(len(host)), given, size(len(given)), ctypes.c_uint64(7), out, size(room), ctypes.byref(fault)
        )
        wanted = text if room >= len(text) else b""
        checks.equal(f"a room of {room} bytes", (found, fault.value), (len(text), 0))
        checks.equal(f"what is in it, {room}", out.raw, wanted.ljust(len(text) + 10, b"*"))
    out = ctypes.create_string_buffer(b"*" * 9, 9)
    words = (host, size(len(host)), b"", size(0), ctypes.c_uint64(7), out, size(9), ctypes.byref(fault))
    found = library.calls.noticed_dsn_notice(*words)
    checks.equal("a room at a fault", (found, fault.value, out.raw), (0, 101, b"*" * 9))


def example_notice() -> bytes:
    """The notice of the examples' log, as noticed-notice(5) has it, in the words that clients choose: by the outcome."""
    given = frames.append(0, 1, b"A1B2C3", b"bob@example.org", 1, b"5.1.1", version=3)
    given += frames.flush(1, 1, b"A1B2C3", b"ann@example.com", MOMENT, ARRIVAL, expected=1, wording=1)
    letters = []
    list(sessions.answers(given, Logs(Limits()), letters))
    return messages_of(notices.outbox(HOST.encode(), letters))[0]


def in_c(checks: Checks, room: Path):
    """The example in C, also with each of its allocations refused."""
    program, clients = str(room / "notice"), ROOT / "clients/c"
    files = [str(ROOT / "lib/notice.c"), str(clients / "noticed.c"), str(room / "libnoticed_dsn.a")]
    compiled(["gcc", *STRICT, f"-I{ROOT}/lib", f"-I{clients}", "-o", program, *files])
    wanted = example_notice()
    checks.equal("the example in C", subprocess.run([program], capture_output=True, check=False).stdout, wanted)
    (room / "refusing.c").write_text(REFUSING)
    compiled(["gcc", "-shared", "-fPIC", "-o", str(room / "refusing.so"), str(room / "refusing.c")])
    refusals = 0
    for count in range(100):
        environment = {"LD_PRELOAD": str(room / "refusing.so"), "MALLOCS": str(count)}
        ran = subprocess.run([program], capture_output=True, check=False, env=environment)
        if ran.returncode == 0:
            checks.equal(f"the example with {count} allocations", ran.stdout, wanted)
            break
        refusals += 1
        checks.equal(f"{count} allocations", ran.stderr, b"no notice: fault 9: memory was refused\n")
    checks.true(f"allocations were refused: {refusals}", 3 < refusals < 99)


def main():
    checks = Checks("library: the notices of libnoticed_dsn, its faults and rooms, and the examples in C and Python")
    if not shutil.which("gcc") or not shutil.which("ar"):
        checks.skip("all (needs gcc and ar)")
        checks.done()
    if not archive():
        checks.skip("all (needs crates/noticed_dsn/out/libnoticed_dsn.a: make lib)")
        checks.done()
    with tempfile.TemporaryDirectory(prefix="noticed-library-") as folder:
        room = Path(folder)
        built = ARCHIVE.relative_to(ROOT)
        compiled(["make", "--silent", "-C", str(ROOT), f"--old-file={built}", "lib", f"LIBS={folder}"])
        library = example_in_python().Library(str(room / "libnoticed_dsn.so"))
        for check in (vectors, faults, rooms):
            check(checks, library)
        in_c(checks, room)
        words = [sys.executable, str(ROOT / "lib/notice.py"), str(room / "libnoticed_dsn.so")]
        ran = subprocess.run(words, capture_output=True, check=False)
        checks.equal("the example in Python", ran.stdout, example_notice())
    checks.done()


if __name__ == "__main__":
    main()
