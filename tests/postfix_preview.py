"""`noticed preview`: of each message that Postfix wrote it prints the bytes that `noticed postfix` then submits, or why
that passes the request on. It changes no file."""
from tests.support.daemon_and_clients import until
from tests.support.postfix_folder import FILES, SERVICES, OwnService, Postfix, asked_in
from tests.support.running import HOST, Checks, run

# The request that is previewed for a log, by the name of the log; and what the preview calls its notices.
ASKED = {"bounce": "failure", "defer": "delay", "trace": "success"}
KIND = {
    "failure": "sender non-delivery notification",
    "delay": "sender delay notification",
    "success": "sender delivery status notification",
}
# Messages of which only the request says that they came with SMTPUTF8. (VERP too is only in the request.)
BY_REQUEST = {"utf8", "utf8-sender", "later-utf8", "asked-before"}


def files_of(it: Postfix) -> dict:
    """Each file of a queue folder but the sockets, with its bytes, its mode and its time."""
    paths = [path for path in it.folder.rglob("*") if path.is_file()]
    return {path: (path.read_bytes(), path.stat().st_mode, path.stat().st_mtime_ns) for path in paths}


def shown_of(kind: str, taken: list) -> bytes:
    """What the preview prints of notices that were taken."""
    return b"".join(
        b"%s: to %s\n\n%s\n" % (KIND[kind].encode(), recipient[8:].strip(), text.replace(b"\r\n", b"\n"))
        for _, recipient, text in taken
    )


def reason_said(it: Postfix, message: str, log: str) -> str:
    """Why a request about a message was passed on, by its line, which may be written after the answer."""
    head = f"{message}: {log}: passed on: "
    until(lambda: any(line.startswith(head) for line in it.lines()))
    return "".join(line.removeprefix(head) for line in it.lines() if line.startswith(head))


def check_messages(checks: Checks):
    """Each message with each of its logs, previewed and then asked for."""
    count = 0
    for depth, names in ((1, "defer deferred"), (2, "deferred, defer, bounce, trace")):
        options = ("--hash-queue-names", names, "--hash-queue-depth", str(depth))
        with Postfix(*options) as it:
            own = {name: OwnService(it.folder, name) for name in SERVICES}
            for case in sorted(FILES.iterdir()):
                if (case / "places").read_text().split()[0].count("/") - 1 == depth:
                    count += check_message(checks, it, own, case, options)
    checks.true(f"many logs: {count}", count >= 80)


def check_message(checks: Checks, it: Postfix, own: dict, case, options: tuple) -> int:
    """One message: how many of its logs were previewed."""
    asked = [(log, kind) for log, kind in ASKED.items() if (case / f"{kind}.request").exists() and (case / log).exists()]
    for log, kind in asked:
        message = it.put(case.name, log)
        before = files_of(it)
        ran = run(["preview", *options, str(it.folder), HOST, message])
        checks.equal(f"{case.name}, {kind}: status", ran.status, 0)
        checks.equal(f"{case.name}, {kind}: nothing is changed", files_of(it), before)
        taken, passed = len(it.server.taken), len(own[log].asked)
        it.ask(log, asked_in(case.name, kind))
        if case.name in BY_REQUEST or "verp" in case.name:
            continue
        if len(own[log].asked) > passed:
            wanted = f"{KIND[kind]}: passed on: {reason_said(it, message, log)}\n".encode()
        else:
            wanted = shown_of(kind, it.server.taken[taken:]) or f"{KIND[kind]}: nobody is notified\n".encode()
        checks.equal(f"{case.name}, {kind}: what is shown", ran.outbox, wanted)
        for path in it.at(log).rglob(message):
            path.unlink()
    return len(asked)


def check_nothing(checks: Checks):
    """A message that has no log, and none at all."""
    with Postfix(start=False) as it:
        message = it.put("one")
        for what, name, line in (
            ("no log", message, b"the message has no log\n"),
            ("no message", "ABCDEF", b"no such message in the queues\n"),
        ):
            ran = run(["preview", str(it.folder), HOST, name])
            checks.equal(what, (ran.status, ran.outbox, ran.notes), (1, b"", line))


def main():
    checks = Checks("postfix_preview: what a preview prints is what is submitted then, and nothing is changed")
    check_messages(checks)
    check_nothing(checks)
    checks.done()


if __name__ == "__main__":
    main()
