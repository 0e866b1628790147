"""The messages of the sandbox (tests/support/sandbox.py). Each has the notices that Postfix's own bounce(8) sends, in
the words of `summary` in tests/postfix_beside.py. They follow from RFC 3461, the sysexits of pipe(8) and local(8)."""
from tests.postfix.capture.cases import Case
from tests.support.sandbox import HOME, RETURNED

LINE = b"A line of a long message.\n"
NEVER, SUCCESS, BOTH = "NOTIFY=NEVER", "NOTIFY=SUCCESS", "NOTIFY=SUCCESS,FAILURE"
NOBODY = f"nobody.there@{HOME}"
BY_ANN = ["-f", "ann@example.com"]


def kind(name: str, to, told="", **how) -> Case:
    """A message, and its notices."""
    return Case(name, "", to if isinstance(to, list) else [to], told=told, **how)


def home(*names: str) -> list:
    return [f"{it}@{HOME}" for it in names]


def at(domain: str, *names: str) -> list:
    return [f"{it}@{domain}.example.org" for it in names]


def asked(addresses: list, *options: str) -> list:
    """Each address with these options."""
    return [(it, " ".join(options)) for it in addresses]


def verped(outcomes: dict, delimiters="+=") -> str:
    """The notices of a message from list@lists.example.com with VERP: the outcome of each recipient."""
    first, second = delimiters
    return "; ".join(
        f"list{first}{address.replace('@', second)}@lists.example.com: {outcome}"
        for address, outcome in sorted(outcomes.items())
    )


LOCAL = [
    kind("local", home("games")),
    kind("local-told", asked(home("games+tag"), SUCCESS, "ORCPT=rfc822;games@example.net"), "delivered 2.0.0"),
    kind("local-unknown", NOBODY, "failed 5.1.1"),
    kind("local-unknown-hdrs", NOBODY, "failed 5.1.1", options="RET=HDRS ENVID=local"),
    kind("local-unknown-never", asked([NOBODY], NEVER)),
    kind("local-unknown-delay", asked([NOBODY], "NOTIFY=DELAY")),
    kind("local-full", home("lp"), "failed 5.2.2"),
    kind("local-loop", home("games"), "failed 5.4.6", header=f"Delivered-To: games@{HOME}\n".encode()),
    kind("local-without-domain", "nobody.there", "failed 5.1.1", command=BY_ANN),
    kind("local-from-local", NOBODY, "games@home.example.net: failed 5.1.1", command=["-f", "games"]),
    kind("local-quoted", [f'"nobody there"@{HOME}', NOBODY], "2 failed 5.1.1"),
    kind(
        "local-verp",
        home("fails", "games", "nobody.a", "nobody.b"),
        verped(dict(zip(home("fails", "nobody.a", "nobody.b"), ("failed 5.3.0", "failed 5.1.1", "failed 5.1.1")))),
        sender=b"list@lists.example.com",
        options="XVERP",
    ),
    kind(
        "local-verp-sendmail",
        [NOBODY, *home("works")],
        verped({NOBODY: "failed 5.1.1"}),
        command=["-f", "list@lists.example.com", "-XV"],
    ),
    kind("local-from-nobody", NOBODY, sender=b""),
    kind("local-double-bounce", NOBODY, sender=b"double-bounce@mx.example.net"),
    kind("local-double-bounce-of-home", NOBODY, sender=f"double-bounce@{HOME}".encode()),
    kind("local-from-bare", NOBODY, "games@home.example.net: failed 5.1.1", sender=b"games"),
    kind("local-twice", [NOBODY, NOBODY, *home("fails", "fails")], "failed 5.1.1, failed 5.3.0"),
    kind(
        "local-verp-told",
        asked([NOBODY, *home("games")], BOTH),
        verped({NOBODY: "failed 5.1.1"}) + "; list@lists.example.com: delivered 2.0.0",
        sender=b"list@lists.example.com",
        options="XVERP",
    ),
    kind("local-sendmail-hdrs", NOBODY, "failed 5.1.1", command=[*BY_ANN, "-R", "hdrs", "-V", "QQ123"]),
    kind("local-sendmail-never", NOBODY, command=[*BY_ANN, "-N", "never"]),
    kind("local-passed-on", home("uucp", "list")),
    kind("local-passed-on-told", asked(home("uucp", "list"), SUCCESS), "2 relayed 2.0.0"),
    kind("local-fallback", home("no.longer"), "failed 5.1.6"),
    kind("local-forward-fails", home("news"), "failed 5.7.0"),
    kind("local-forward-away", home("proxy"), "failed 5.1.1"),
    kind("local-forward-told", asked(home("backup"), SUCCESS), "expanded 2.0.0"),
]
ALIASED = [
    kind("alias-command", home("works")),
    kind("alias-command-told", asked(home("works"), SUCCESS), "expanded 2.0.0", options="ENVID=works"),
    kind("alias-fails", home("fails"), "failed 5.3.0"),
    kind("alias-denied", home("denied"), "failed 5.7.0"),
    kind("alias-two-fail", home("two-fail"), "failed 5.3.0, failed 5.7.0"),
    kind(
        "alias-two-fail-told",
        asked(home("two-fail"), BOTH, "ORCPT=rfc822;two@example.net"),
        "expanded 2.0.0; failed 5.3.0, failed 5.7.0",
    ),
    kind("alias-two-work-told", asked(home("two-work"), SUCCESS), "expanded 2.0.0"),
    kind("alias-one-fails", home("one-fails"), "failed 5.3.0"),
    kind("alias-one-fails-told", asked(home("one-fails"), BOTH), "expanded 2.0.0; failed 5.3.0"),
    kind("alias-one-is-later", home("one-is-later"), "failed 5.3.0"),
    kind("alias-file", asked(home("file"), SUCCESS), "expanded 2.0.0"),
    kind("alias-folder", home("folder"), "failed 5.2.0"),
    kind("alias-file-and-command", home("file-and-command"), "failed 5.2.0, failed 5.3.0"),
    kind("alias-include", home("some"), "failed 5.1.1"),
    kind("alias-include-commands", home("some-commands"), "failed 5.7.1"),
    kind("alias-include-missing", home("nowhere"), "failed 5.3.5"),
    kind("alias-people", home("people"), "failed 5.1.1"),
    kind(
        "alias-people-told",
        asked(home("people"), BOTH),
        "expanded 2.0.0; failed 5.1.1",
        options="RET=HDRS ENVID=people",
    ),
    kind("alias-away", home("away"), "failed 5.1.1"),
    kind("alias-around", asked(home("around"), BOTH), "2 failed 5.1.1; expanded 2.0.0"),
    kind(
        "alias-chain",
        asked(home("around", "people"), BOTH, "ORCPT=rfc822;chain@example.net"),
        "2 expanded 2.0.0; 2 failed 5.1.1; failed 5.1.1",
        options="RET=FULL",
    ),
    kind("alias-shell", home("shell"), "failed 5.3.0"),
    kind("alias-missing", home("missing"), "failed 5.3.0"),
    kind("alias-quoted", [f'"odd..one"@{HOME}'], "failed 5.3.0"),
    kind("alias-later-and-odd", home("later-and-odd"), "failed 5.1.1"),
]
OWNED = [
    kind("owner-command", home("list-command"), "owner@example.com: failed 5.3.0"),
    kind("owner-command-never", asked(home("list-command"), NEVER)),
    kind(
        "owner-command-told",
        asked(home("list-command"), BOTH, "ORCPT=rfc822;all@example.net"),
        "delivered 2.0.0; owner@example.com: failed 5.3.0",
        options="RET=HDRS ENVID=owned",
    ),
    kind("owner-command-nobody", home("list-command"), "owner@example.com: failed 5.3.0", sender=b""),
    kind(
        "owner-command-spoken",
        home("list-command"),
        "failed 5.3.0; owner@example.com: failed 5.3.0",
        command=[*BY_ANN, "-v"],
    ),
    kind("owner-two", home("list-two"), "owner@example.com: failed 5.3.0; owner@example.com: failed 5.7.0"),
    kind("owner-mixed", home("list-mixed"), "owner@example.com: failed 5.1.1; owner@example.com: failed 5.3.0"),
    kind("owner-mixed-told", asked(home("list-mixed"), SUCCESS), "delivered 2.0.0"),
    kind("owner-file", home("list-file"), "owner@example.com: failed 5.2.0"),
    kind("owner-later", home("list-later")),
    kind("owner-odd", home("list-odd"), "owner@example.com: failed 5.3.0"),
    kind(
        "owner-loop",
        home("list-command"),
        "owner@example.com: failed 5.4.6",
        header=f"Delivered-To: list-command@{HOME}\n".encode(),
    ),
    kind("owner-member-loop", home("list-local"), "failed 5.4.6", header=f"Delivered-To: games@{HOME}\n".encode()),
    kind("owner-is-local", home("list-of-irc"), "owner-list-of-irc@home.example.net: failed 5.3.0"),
    kind(
        "owner-two-lists",
        home("list-command", "list-file", "fails"),
        "failed 5.3.0; owner@example.com: failed 5.2.0; owner@example.com: failed 5.3.0",
    ),
    kind(
        "owner-verp",
        home("list-command", "fails"),
        verped({f"fails@{HOME}": "failed 5.3.0"}) + "; owner@example.com: failed 5.3.0",
        sender=b"list@lists.example.com",
        options="XVERP=+=",
    ),
]
PIPED = [
    kind("pipe", at("pipe", "0")),
    kind("pipe-told", asked(at("pipe", "0"), SUCCESS), "relayed 2.0.0"),
    kind("pipe-unavailable", at("pipe", "69.words"), "failed 5.3.0"),
    kind("pipe-denied", at("pipe", "77.words"), "failed 5.7.0"),
    kind("pipe-later", at("pipe", "75.words")),
    kind(
        "pipe-codes",
        at("pipe", *map(str, (1, 64, 65, 66, 67, 68, 70, 72, 73, 74, 76, 78, 99))),
        "failed 5.1.1, failed 5.1.2, failed 5.2.0, 7 failed 5.3.0, failed 5.3.5, failed 5.5.0, failed 5.6.0",
    ),
    kind("pipe-killed", at("pipe", "killed")),
    kind("pipe-lines", at("pipe", "69.lines", "69.status", "77.later", "69.angle"), "failed 5.2.3, 2 failed 5.3.0"),
    kind("pipe-bytes", at("pipe", "69.utf", "69.latin", "69.control"), "3 failed 5.3.0"),
    kind("pipe-long", at("pipe", "69.long", "69.unbroken", "69.fields"), "3 failed 5.3.0"),
    kind("pipe-loop", at("pipe", "0"), "failed 5.4.6", header=b"Delivered-To: 0@pipe.example.org\n"),
    kind(
        "pipe-verp",
        at("pipe", "69.words", "77"),
        verped({"69.words@pipe.example.org": "failed 5.3.0", "77@pipe.example.org": "failed 5.7.0"}, "-="),
        sender=b"list@lists.example.com",
        options="XVERP=-=",
    ),
    kind(
        "pipe-notify",
        [
            *asked(at("pipe", "69.words"), NEVER),
            *asked(at("pipe", "77"), "NOTIFY=FAILURE,DELAY"),
            *asked(at("pipe", "0"), SUCCESS),
        ],
        "failed 5.7.0; relayed 2.0.0",
    ),
    kind(
        "pipe-many",
        at("pipe", *(f"{code}.words" for code in (69, 77)), *(f"69+{it}" for it in range(2))),
        "3 failed 5.3.0, failed 5.7.0",
    ),
]
VIRTUAL = [
    kind("virtual", at("virtual", "known")),
    kind(
        "virtual-told", asked(at("virtual", "known"), SUCCESS, "ORCPT=rfc822;me+2Bmore@example.net"), "delivered 2.0.0"
    ),
    kind("virtual-unknown", at("virtual", "x"), "failed 5.1.1"),
    kind("virtual-full", at("virtual", "full"), "failed 5.2.2"),
    kind("virtual-broken", at("virtual", "broken")),
    kind(
        "virtual-team",
        asked(at("virtual", "team"), BOTH, "ORCPT=rfc822;team@example.net"),
        "expanded 2.0.0; failed 5.1.1",
        options="ENVID=team",
    ),
    kind(
        "virtual-verp",
        at("virtual", "x", "known", "y"),
        verped({"x@virtual.example.org": "failed 5.1.1", "y@virtual.example.org": "failed 5.1.1"}),
        sender=b"list@lists.example.com",
        options="XVERP",
    ),
]
LMTP = [
    kind("lmtp", at("lmtp", "ann")),
    kind("lmtp-told", asked(at("lmtp", "ann", "eve"), SUCCESS), "2 relayed 2.0.0", options="ENVID=lmtp"),
    kind("lmtp-refused", at("lmtp", "no.bob", "ann"), "failed 5.1.1"),
    kind("lmtp-after-data", at("lmtp", "data.bob", "ann", "data.eve"), "2 failed 5.6.0"),
    kind(
        "lmtp-after-data-told",
        asked(at("lmtp", "data.bob", "ann"), BOTH),
        "failed 5.6.0; relayed 2.0.0",
        options="RET=HDRS",
    ),
    kind(
        "lmtp-replies",
        at(
            "lmtp",
            *(
                f"{it}.a"
                for it in ("lines", "bare", "utf", "eight", "long", "word", "contrary", "large", "empty", "short")
            ),
        ),
        "3 failed 5.0.0, 2 failed 5.1.1, 4 failed 5.7.1, failed 5.999.999",
    ),
    kind("lmtp-later", at("lmtp", "later.bob", "never.eve")),
    kind(
        "lmtp-verp",
        at("lmtp", "no.bob", "data.eve"),
        verped({"data.eve@lmtp.example.org": "failed 5.6.0", "no.bob@lmtp.example.org": "failed 5.1.1"}),
        sender=b"list@lists.example.com",
        options="XVERP",
    ),
    kind("box", asked(at("box", "ann"), SUCCESS), "relayed 2.0.0"),
    kind(
        "box-refused",
        at("box", "no.bob", "data.eve", "spaces.fay"),
        "failed 5.1.1, failed 5.2.2, failed 5.6.0",
        options="RET=HDRS",
    ),
    kind("box-shut", at("shut", "ann")),
    kind(
        "smtp-replies",
        at("relay", *(f"{it}.a" for it in ("contrary", "never", "large", "control", "zeros", "equals", "angle"))),
        "2 failed 5.0.0, failed 5.01.1, failed 5.6.0, failed 5.7.1, failed 5.999.999",
    ),
]
FILTERED = [
    kind("scan-refused", ["ok.ann@example.org", *home("games")], "2 failed 5.2.3", header=b"X-Scan: refused\n"),
    kind(
        "scan-refused-told",
        asked(["ok.ann@example.org"], BOTH, "ORCPT=rfc822;a@example.net"),
        "failed 5.2.3",
        header=b"X-Scan: refused\n",
        options="RET=HDRS ENVID=scan",
    ),
    kind("scan-later", ["ok.ann@example.org"], header=b"X-Scan: later\n"),
    kind("scan-by-server", ["no.bob@example.org", *home("games")], "failed 5.1.1", header=b"X-Scan: server\n"),
    kind(
        "scanned",
        ["no.bob@example.org", "ok.ann@example.org", NOBODY, *home("games")],
        "2 failed 5.1.1",
        port="scanned",
    ),
    kind(
        "scanned-told",
        asked(["no.bob@example.org", *home("games"), *at("pipe", "0")], BOTH),
        "delivered 2.0.0, relayed 2.0.0; failed 5.1.1",
        port="scanned",
        options="ENVID=scanned RET=HDRS",
    ),
    kind(
        "scanned-plain",
        asked(["no.bob@example.org", *home("games")], BOTH, "ORCPT=rfc822;x@example.net"),
        "2 relayed 2.0.0; failed 5.1.1",
        port="plain",
    ),
]
SPOKEN = [
    kind(
        "spoken",
        [NOBODY, *home("games"), "no.bob@example.org", *at("pipe", "69.words", "0")],
        "2 failed 5.1.1, failed 5.3.0; delivered 2.0.0, 2 failed 5.1.1, failed 5.3.0, relayed 2.0.0",
        command=[*BY_ANN, "-v"],
    ),
    kind("spoken-two", home("one-fails"), "delivered 2.0.0, failed 5.3.0; failed 5.3.0", command=[*BY_ANN, "-v"]),
    kind("spoken-never", home("two-fail"), "failed 5.3.0, failed 5.7.0", command=[*BY_ANN, "-N", "never", "-v"]),
    kind(
        "spoken-told",
        [*home("two-work", "works"), NOBODY],
        "3 delivered 2.0.0, 2 expanded 2.0.0, failed 5.1.1; failed 5.1.1",
        command=[*BY_ANN, "-N", "success,failure", "-v"],
    ),
    kind(
        "spoken-owners",
        home("list-two", "list-mixed"),
        "delivered 2.0.0, 2 failed 5.3.0, failed 5.7.0, relayed 2.0.0"
        + "".join(f"; owner@example.com: failed {it}" for it in ("5.1.1", "5.3.0", "5.3.0", "5.7.0")),
        command=[*BY_ANN, "-v"],
    ),
    kind(
        "spoken-works",
        [*home("works", "file"), *at("virtual", "known"), *at("lmtp", "ann")],
        "3 delivered 2.0.0, relayed 2.0.0",
        command=[*BY_ANN, "-v"],
    ),
    kind(
        "spoken-later", [*home("busy"), *at("lmtp", "later.a")], "delayed 4.2.1, delayed 4.3.0", command=[*BY_ANN, "-v"]
    ),
    kind(
        "asked-before",
        [NOBODY, *home("works"), *at("virtual", "x"), *at("lmtp", "no.bob")],
        "deliverable 2.0.0, 3 undeliverable 5.1.1",
        command=[*BY_ANN, "-bv"],
    ),
]
ORIGINALS = {
    "local": "local;bob",
    "unknown": "unknown;somebody+20else",
    "plus": "rfc822;a+2Bb+3D@example.net",
    "word": "rfc822;bob",
    "letters": "RFC822;Bob@Example.NET",
    "long": f"rfc822;{'l' * 200}@example.net",
}
REPORT = b"""Message-ID: <text-nested@client.example.com>
MIME-Version: 1.0
Content-Type: multipart/report; report-type=delivery-status; boundary="inner"

--inner

It failed.
--inner
Content-Type: message/delivery-status

Reporting-MTA: dns; elsewhere.example.com

Final-Recipient: rfc822; else@example.org
Action: failed
Status: 5.0.0

--inner--
"""
TEXTS = [
    kind("text-short", NOBODY, "failed 5.1.1", body=LINE * (RETURNED * 9 // 10 // len(LINE)), options="RET=FULL"),
    kind(
        "text-over-the-limit", NOBODY, "failed 5.1.1", body=LINE * (RETURNED * 5 // 4 // len(LINE)), options="RET=FULL"
    ),
    kind("text-far-over-the-limit", NOBODY, "failed 5.1.1", body=LINE * 4000),
    kind(
        "text-of-bytes",
        NOBODY,
        "failed 5.1.1",
        options="BODY=8BITMIME",
        body="Grüße\n".encode() * 9 + bytes(range(128, 256)) + b"\n",
    ),
    kind("text-long-lines", NOBODY, "failed 5.1.1", body=b"x" * 3000 + b"\n" + b"y" * 990 + b"\n"),
    kind(
        "text-many-fields", NOBODY, "failed 5.1.1", header=b"".join(b"X-Field-%d: of many\n" % it for it in range(400))
    ),
    kind("text-tls", NOBODY, "failed 5.1.1", header=b"TLS-Required: no\n"),
    kind(
        "text-utf8",
        ["nobodü@" + HOME, *at("lmtp", "ürs")],
        "failed 5.1.1",
        options="SMTPUTF8",
        header="X-Utf8: grüße\n".encode(),
    ),
    kind(
        "many",
        [
            *home(*(f"nobody.{it}" for it in range(40))),
            *at("lmtp", *(f"no.{it}" for it in range(40))),
            *at("virtual", *(f"x{it}" for it in range(40))),
        ],
        "120 failed 5.1.1",
    ),
    *(kind(f"original-{name}", asked([NOBODY], f"ORCPT={it}"), "failed 5.1.1") for name, it in ORIGINALS.items()),
    kind("text-nested", NOBODY, "failed 5.1.1", whole=REPORT),
    kind("long-envelope-id", NOBODY, "failed 5.1.1", options=f"ENVID={'e' * 101}"),
    kind("envelope-id", NOBODY, "failed 5.1.1", options="ENVID=+3C+3E+22+5Ca+20b"),
]
DELAYED = [
    kind("late", home("busy"), "delayed 4.3.0; failed 4.3.0"),
    kind(
        "late-hdrs",
        asked(home("busy"), "ORCPT=rfc822;late@example.net"),
        "delayed 4.3.0; failed 4.3.0",
        options="RET=HDRS ENVID=late",
    ),
    kind("late-full", home("busy"), "delayed 4.3.0; failed 4.3.0", options="RET=FULL", body=LINE * 100),
    kind(
        "late-over-the-limit",
        home("busy"),
        "delayed 4.3.0; failed 4.3.0",
        options="RET=FULL",
        body=LINE * (RETURNED * 5 // 4 // len(LINE)),
    ),
    kind(
        "late-notify",
        [
            *asked(home("busy"), "NOTIFY=DELAY"),
            *asked(at("pipe", "75.utf"), "NOTIFY=FAILURE"),
            *asked(at("lmtp", "later.b"), NEVER),
            *asked(at("pipe", "75.later"), "NOTIFY=SUCCESS,DELAY"),
        ],
        "delayed 4.2.1, delayed 4.3.0; failed 4.3.0",
    ),
    kind("late-sendmail", home("busy"), "delayed 4.3.0; failed 4.3.0", command=[*BY_ANN, "-N", "failure,delay"]),
    kind("late-pipe", at("pipe", "75.words", "75.long", "75.lines", "killed"), "4 delayed 4.3.0; 4 failed 4.3.0"),
    kind("late-lmtp", at("lmtp", "later.bob", "never.eve"), "delayed 4.0.0, delayed 4.2.1; failed 4.0.0, failed 4.2.1"),
    kind("late-dropped", at("lmtp", "drop.fay"), "delayed 4.4.2; failed 4.4.2"),
    kind(
        "late-box",
        [*at("shut", "bob"), *at("box", "later.bob")],
        "delayed 4.2.1, delayed 4.4.1; failed 4.2.1, failed 4.4.1",
    ),
    kind("late-virtual", at("virtual", "broken", "known"), "delayed 4.2.0; failed 4.2.0"),
    kind(
        "late-smtp",
        ["later.bob@example.org", *at("closed", "bob"), *at("paused", "bob"), "busy.bob@example.org"],
        "delayed 4.2.1, 2 delayed 4.3.2, delayed 4.4.1; failed 4.2.1, 2 failed 4.3.2, failed 4.4.1",
    ),
    kind(
        "late-scan",
        ["ok.ann@example.org", *home("games")],
        "2 delayed 4.3.0; 2 failed 4.3.0",
        header=b"X-Scan: later\n",
    ),
    kind(
        "late-scanned",
        ["later.bob@example.org", *home("busy")],
        "delayed 4.2.1, delayed 4.3.0; failed 4.2.1, failed 4.3.0",
        port="scanned",
        options="ENVID=late",
    ),
    kind(
        "late-mixed",
        [*home("busy", "games", "fails"), *asked(at("pipe", "0"), SUCCESS)],
        "delayed 4.3.0; failed 4.3.0; failed 5.3.0; relayed 2.0.0",
    ),
    kind(
        "late-verp",
        [*home("busy"), *at("pipe", "75.words")],
        verped({"75.words@pipe.example.org": "failed 4.3.0", f"busy@{HOME}": "failed 4.3.0"})
        + "; list@lists.example.com: 2 delayed 4.3.0",
        sender=b"list@lists.example.com",
        options="XVERP",
    ),
    kind("late-owner", home("list-later"), "delayed 4.2.1; failed 4.2.1"),
    kind("late-from-nobody", home("busy"), sender=b""),
    kind("late-double-bounce", home("busy"), sender=b"double-bounce@mx.example.net"),
    kind(
        "late-from-local",
        home("busy"),
        "games@home.example.net: delayed 4.3.0; games@home.example.net: failed 4.3.0",
        command=["-f", "games"],
    ),
    kind("late-and-told", asked(at("pipe", "75.words"), "NOTIFY=SUCCESS,FAILURE,DELAY"), "delayed 4.3.0; failed 4.3.0"),
    kind("late-then-delivered", home("third"), "delayed 4.3.0; delivered 2.0.0"),
    kind(
        "late-then-told",
        asked(home("third"), "NOTIFY=SUCCESS,FAILURE,DELAY"),
        "delayed 4.3.0; delivered 2.0.0, expanded 2.0.0; expanded 2.0.0; expanded 2.0.0",
        options="ENVID=third",
    ),
    kind("late-then-never", asked(home("third"), NEVER)),
]
AT_ONCE = LOCAL + ALIASED + OWNED + PIPED + VIRTUAL + LMTP + FILTERED + SPOKEN + TEXTS
