"""Reads bytes as a Kaitai Struct description says (https://doc.kaitai.io/user_guide.html): as much of that language as
vectors/noticed.ksy uses."""
import io

WIDTHS = {"u1": 1, "u2": 2, "u4": 4, "u8": 8}


class Reader:
    """Reads types of a description, which is given as PyYAML has it."""

    def __init__(self, description: dict):
        self.types = {**description["types"], "": {"seq": description["seq"]}}
        self.enums = description["enums"]

    def read(self, given: bytes, kind: str = "") -> dict:
        """The fields of a type, the root unless said. EOFError or KeyError if the bytes are not of it."""
        stream = io.BytesIO(given)
        fields = self.fields(stream, kind)
        if stream.read(1):
            raise ValueError("bytes are left")
        return fields

    def fields(self, stream: io.BytesIO, kind: str) -> dict:
        """The fields of a type, one after another."""
        found = {}
        for it in self.types[kind]["seq"]:
            if "if" in it and not holds(it["if"], found, stream):
                continue
            if it.get("repeat") == "eos":
                found[it["id"]] = []
                while not at_end(stream):
                    found[it["id"]].append(self.one(stream, it, found))
            else:
                found[it["id"]] = self.one(stream, it, found)
        return found

    def one(self, stream: io.BytesIO, it: dict, found: dict):
        """One field: bytes, a number, the name of a number, or the fields of a type."""
        kind = it.get("type")
        if isinstance(kind, dict):
            cases = {name.rpartition(":")[2]: made for name, made in kind["cases"].items()}
            kind = cases.get(found[kind["switch-on"]], "")
            return self.fields(stream, kind) if kind else None
        if kind in WIDTHS:
            number = int.from_bytes(taken(stream, WIDTHS[kind]), "big")
            return self.enums[it["enum"]][number] if "enum" in it else number
        whole = stream.read() if "size-eos" in it else taken(stream, found[it["size"]]) if "size" in it else None
        if kind is None:
            return whole
        return self.fields(stream, kind) if whole is None else self.read(whole, kind)


def at_end(stream: io.BytesIO) -> bool:
    """Whether no byte is left."""
    return stream.tell() == len(stream.getbuffer())


def taken(stream: io.BytesIO, size: int) -> bytes:
    """The next bytes."""
    got = stream.read(size)
    if len(got) < size:
        raise EOFError
    return got


def holds(condition: str, found: dict, stream: io.BytesIO) -> bool:
    """Whether a condition holds: one on the end of the stream, or on a field."""
    if condition == "not _io.eof":
        return not at_end(stream)
    name, sign, number = condition.split()
    return (found[name] == int(number)) == {"==": True, "!=": False}[sign]
