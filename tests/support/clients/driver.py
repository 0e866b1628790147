"""Has the client in Python do what tests/clients.py says: `encode`, `decode`, or `carry SOCKET` and limits. A
line of standard input is a request, as KIND NUMBER and its fields NAME=VALUE with texts in hexadecimal, or for decode
the hexadecimal bytes of a frame. For each a line has the result. The drivers in other languages do the same."""
import contextlib
import struct
import sys
from pathlib import Path

sys.path.insert(0, str(Path(__file__).resolve().parents[3] / "clients/python"))
import noticed  # noqa: E402

NUMBERS = {"service", "action", "last_attempt", "retry_until", "moment", "arrival", "expected", "returned", "wording"}
NUMBERS.add("place")
KINDS = {"append": 1, "flush": 2, "discard": 3, "forget": 4}


def request(line: str) -> tuple:
    """A request's kind, number, key, what it is about, and place."""
    kind, number, *words = line.split()
    given = [it.split("=") for it in words]
    fields = {name: int(value) if name in NUMBERS else bytes.fromhex(value) for name, value in given}
    key, place = (fields.pop("service"), fields.pop("queue_id")), fields.pop("place", None)
    about = noticed.Outcome(**fields) if kind == "append" else noticed.Notice(**fields) if kind == "flush" else None
    return kind, int(number), key, about, place


def encoded(line: str) -> str:
    """The frame of a request."""
    try:
        kind, number, key, about, _ = request(line)
        return noticed.encode(KINDS[kind], number, key, about.fields() if about else b"").hex()
    except (TypeError, ValueError, struct.error):
        return "invalid"


def shown(answer: noticed.Answer) -> str:
    """An answer, with its serial."""
    return f"{answer.reply.value} {answer.value} {'-' if answer.serial is None else answer.serial}"


def decoded(line: str) -> str:
    """The answer in a frame, behind the number of its request."""
    try:
        number, answer = noticed.decode(bytes.fromhex(line)[4:])
        return f"{number} {shown(answer)}"
    except ValueError:
        return "invalid"


def carried(client: noticed.Client, line: str) -> str:
    """What becomes of a request."""
    try:
        if line == "close":
            client.close()
            return "closed"
        kind, _, key, about, place = request(line)
        if kind == "append":
            return shown(client.append(key, about, place))
        return shown(client.flush(key, about) if about else getattr(client, kind)(key))
    except (TypeError, ValueError, struct.error):
        return "invalid"
    except noticed.Unreachable:
        return "unreachable"
    except noticed.Unanswered:
        return "unanswered"
    except PermissionError:
        return "denied"
    except noticed.Refused as why:
        return str(why)


the_client = None
if sys.argv[1] == "carry":
    with contextlib.suppress(noticed.PathTooLong):
        the_client = noticed.Client(sys.argv[2], noticed.Limits(*map(float, sys.argv[3:])))
does = {"encode": encoded, "decode": decoded, "carry": lambda line: carried(the_client, line) if the_client else "path"}[sys.argv[1]]
for it in sys.stdin:
    print(does(it.strip()), flush=True)
