"""Makes notices by libnoticed_dsn.so. `python3 notice.py LIBRARY HOST SERIAL < FRAMES` prints that of one log; with no
other argument than the library it prints that of a recipient that was refused, whose frames the client encodes."""
import ctypes
import sys
from pathlib import Path

SIZE, NUMBER = ctypes.c_size_t, ctypes.c_uint32


class Library:
    """The library in this file."""

    def __init__(self, path: str):
        self.calls = ctypes.CDLL(str(Path(path).resolve()))
        for name in ("notice", "mail_data", "return_path", "fault"):
            getattr(self.calls, f"noticed_dsn_{name}").restype = SIZE

    def notice(self, host: bytes, frames: bytes, serial: int) -> bytes:
        """The notice of the log in frames."""
        return self._text("notice", host, SIZE(len(host)), frames, SIZE(len(frames)), ctypes.c_uint64(serial))

    def mail_data(self, host: bytes, frames: bytes, serial: int) -> bytes:
        """The same as mail data, with SMTP's dots."""
        return self._text("mail_data", host, SIZE(len(host)), frames, SIZE(len(frames)), ctypes.c_uint64(serial))

    def return_path(self, frames: bytes) -> bytes:
        """The address that the notice is sent to."""
        return self._text("return_path", frames, SIZE(len(frames)))

    def words(self, fault: int) -> str:
        """The words of a fault."""
        out = ctypes.create_string_buffer(90)
        size = self.calls.noticed_dsn_fault(NUMBER(fault), out, SIZE(90))
        return out.raw[:size].decode()

    def _text(self, name: str, *given) -> bytes:
        """What a call writes, in as much room as it takes; ValueError with the fault and its words if none."""
        room, fault = 4096, NUMBER()
        while True:
            out = ctypes.create_string_buffer(room)
            size = getattr(self.calls, f"noticed_dsn_{name}")(*given, out, SIZE(room), ctypes.byref(fault))
            if fault.value:
                raise ValueError(fault.value, self.words(fault.value))
            if size <= room:
                return out.raw[:size]
            room = size


def example() -> bytes:
    """The frames of a log: a recipient that was refused, and the flush."""
    sys.path.insert(0, str(Path(__file__).resolve().parents[1] / "clients/python"))
    from noticed import BOUNCE, FAILED, Notice, Outcome, encode  # pylint: disable=import-outside-toplevel

    key = BOUNCE, "A1B2C3"
    outcome = Outcome("bob@example.org", FAILED, "5.1.1")
    notice = Notice("ann@example.com", moment=1_700_000_000, arrival=1_699_996_400, expected=1)
    return encode(1, 0, key, outcome.fields()) + encode(2, 1, key, notice.fields())


if __name__ == "__main__":
    library = Library(sys.argv[1])
    if len(sys.argv) == 2:
        made = library.notice(b"mx.example.net", example(), 0)
    else:
        made = library.notice(sys.argv[2].encode(), sys.stdin.buffer.read(), int(sys.argv[3]))
    sys.stdout.buffer.write(made)
