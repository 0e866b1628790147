"""The messages of which the files are: who sends each, to whom, with which options, and what it has."""
from dataclasses import dataclass, field

HELLO = (
    b"From: Ann <ann@example.com>\nTo: someone@mx.example.net\nSubject: hello\n"
    b"Message-ID: <%s@client.example.com>\nDate: Thu, 26 Nov 2026 05:36:03 +0000\n"
)
BODY = b"Hello.\n"


@dataclass
class Case:
    """A message. `recipients` are addresses, each with options of RCPT; a notice is requested of the log `log`."""

    name: str
    log: str
    recipients: list
    sender: bytes = b"ann@example.com"
    options: str = ""
    header: bytes = b""
    body: bytes = BODY
    whole: bytes | None = None  # all of the message, in place of header and body
    filtered: bool = False  # whether it comes through the mail filter
    command: list = field(default_factory=list)  # options of sendmail(1), where the message comes by that
    port: str = ""  # the name of the port, if it is neither of the two
    told: str | None = None  # the notices that bounce(8) sends, in words, if they are checked

    def text(self) -> bytes:
        if self.whole is not None:
            return self.whole
        return HELLO % self.name.encode() + self.header + b"\n" + self.body


LONG_FIELD = b"X-Long: " + b"a word and " * 260 + b"the end\n"
FOLDED = b"X-Folded: first\n" + b"".join(b"\tline %d of many\n" % it for it in range(40))

BOUNCED = [
    Case("one", "bounce", ["no.bob@example.org"]),
    Case(
        "notify",
        "bounce",
        [
            ("no.bob@example.org", "NOTIFY=FAILURE,DELAY ORCPT=rfc822;bob@example.org"),
            ("no.eve@example.org", "NOTIFY=SUCCESS,FAILURE,DELAY"),
        ],
    ),
    Case(
        "notify-never",
        "bounce",
        [("no.quiet@example.org", "NOTIFY=NEVER"), "no.loud@example.org", ("no.glad@example.org", "NOTIFY=SUCCESS")],
    ),
    Case("notify-none", "bounce", [("no.quiet@example.org", "NOTIFY=NEVER"), ("no.delay@example.org", "NOTIFY=DELAY")]),
    Case("header-back", "bounce", ["no.bob@example.org"], options="RET=HDRS ENVID=QQ314159"),
    Case("whole-back", "bounce", ["no.bob@example.org"], options="RET=FULL ENVID=a+20b+2B+3D+28c+29"),
    Case("many", "bounce", [f"no.number{it}@example.org" for it in range(24)]),
    Case(
        "mixed",
        "bounce",
        ["no.bob@example.org", "ok.ann@example.org", "later.fay@example.org", "bare.gus@example.org"],
        options="RET=HDRS",
    ),
    Case(
        "quoted",
        "bounce",
        ['"no.a bob"@example.org', '"no..dots"@example.org', '"no.\\"quote\\""@example.org', "no.plain@example.org"],
    ),
    Case("utf8", "bounce", ["no.ürs@example.org", "no.plain@example.org"], options="SMTPUTF8"),
    Case(
        "utf8-sender",
        "bounce",
        ["no.bob@example.org"],
        sender="änn@example.com".encode(),
        options="SMTPUTF8",
        header="X-Utf8: grüße\n".encode(),
    ),
    Case(
        "alias", "bounce", ["alias@example.org", ("alias@example.org", "NOTIFY=FAILURE ORCPT=rfc822;asked@example.net")]
    ),
    Case("everybody", "bounce", ["everybody@example.org", "no.other@example.org"]),
    Case(
        "expanded", "bounce", [("everybody@example.org", "NOTIFY=SUCCESS,FAILURE ORCPT=rfc822;everybody@example.org")]
    ),
    Case("long-reply", "bounce", ["long.bob@example.org", "word.bob@example.org"]),
    Case(
        "odd-replies",
        "bounce",
        [
            "lines.a@example.org",
            "spaces.b@example.org",
            "angle.c@example.org",
            "equals.d@example.org",
            "zeros.e@example.org",
            "short.f@example.org",
            "empty.g@example.org",
            "bare.h@example.org",
        ],
    ),
    Case("bytes-in-replies", "bounce", ["eight.a@example.org", "utf.b@example.org", "control.c@example.org"]),
    Case("without-words", "bounce", ["bob@silent.example.org", "eve@gone.example.org", "no.hal@example.org"]),
    Case("words-of-none", "bounce", ["bob@silent.example.org"]),
    Case("moved", "bounce", ["bob@gone.example.org"], options="RET=FULL"),
    Case("text-refused", "bounce", ["data.bob@example.org", "data.eve@example.org"]),
    Case("long-address", "bounce", ["no." + "l" * 60 + "@" + ".".join(["d" * 60] * 3) + ".example.org"]),
    Case(
        "case-of-letters", "bounce", ["No.Bob@EXAMPLE.org", ("no.BOB@example.org", "ORCPT=rfc822;No.Bob@Example.ORG")]
    ),
    Case(
        "orcpt-utf8",
        "bounce",
        [
            ("no.bob@example.org", "ORCPT=utf-8;b+C3+B6b@example.org"),
            ("no.eve@example.org", "ORCPT=x400;/c=us/admd=+20/o=x/s=eve/"),
        ],
    ),
    Case(
        "percent-and-plus",
        "bounce",
        ["no.bob%example.net@example.org", "no+tag=x@example.org", "no.a!b@example.org", "no.{c}|d@example.org"],
    ),
    Case("without-domain", "bounce", ["no.bob"]),
    Case(
        "verp",
        "bounce",
        ["no.bob@example.org", "alias@example.org", ("no.quiet@example.org", "NOTIFY=NEVER")],
        sender=b"list-owner@lists.example.com",
        options="XVERP=+=",
    ),
    Case(
        "verp-quoted",
        "bounce",
        ["no+tag@example.org", '"no.a bob"@example.org', "no.x=y@example.org"],
        sender=b"list@example.com",
        options="XVERP=-=",
    ),
    Case("by-sendmail", "bounce", ["no.bob@example.org"], command=["-f", "ann@example.com"]),
    Case("by-sendmail-verp", "bounce", ["no.bob@example.org"], command=["-f", "list@example.com", "-XV"]),
    Case(
        "filtered",
        "bounce",
        ["no.bob@example.org", "no.taken@example.org"],
        filtered=True,
        header=b"X-Change: more fewer field\n",
    ),
    Case(
        "filtered-sender",
        "bounce",
        ["no.bob@example.org"],
        filtered=True,
        header=b"X-Change: sender long-field new-field\n",
    ),
    Case(
        "filtered-body",
        "bounce",
        ["no.bob@example.org"],
        filtered=True,
        header=b"X-Change: body more-dsn\n",
        options="ENVID=before",
    ),
    Case("filtered-short", "bounce", ["no.bob@example.org"], filtered=True, header=b"X-Change: short-body no-field\n"),
    Case(
        "filtered-empty",
        "bounce",
        ["no.bob@example.org"],
        filtered=True,
        header=b"X-Change: no-body new-field long-field field\n",
    ),
    Case("prepended", "bounce", ["no.bob@example.org"], header=b"X-Check: prepend\n"),
    Case("blind-copy", "bounce", ["no.bob@example.org"], header=b"X-Check: bcc\n"),
    Case("folded", "bounce", ["no.bob@example.org"], options="RET=HDRS", header=FOLDED),
    Case(
        "long-field",
        "bounce",
        ["no.bob@example.org"],
        options="RET=HDRS",
        header=LONG_FIELD + b"X-After: the long one\n",
    ),
    Case(
        "long-words",
        "bounce",
        ["no.bob@example.org"],
        options="RET=HDRS",
        header=b"X-Long: " + b"w" * 5000 + b"\nX-After: the long one\n",
    ),
    Case(
        "odd-header",
        "bounce",
        ["no.bob@example.org"],
        options="RET=HDRS",
        whole=b"Subject : with a space\nX-Empty:\nX_under.score/!: odd name\n: no name\nX-Never: seen\n\nBody.\n",
    ),
    Case(
        "no-empty-line",
        "bounce",
        ["no.bob@example.org"],
        options="RET=HDRS",
        whole=b"Subject: then a body\nno colon stands in this line\nX-Never: a field\n\nMore.\n",
    ),
    Case(
        "mbox-line",
        "bounce",
        ["no.bob@example.org"],
        options="RET=HDRS",
        whole=b"From ann@example.com Thu Nov 26 05:36:03 2026\nSubject: after it\n\nBody.\n",
    ),
    Case("no-header", "bounce", ["no.bob@example.org"], options="RET=HDRS", whole=b"\nA body alone.\n"),
    Case("header-alone", "bounce", ["no.bob@example.org"], options="RET=HDRS", whole=b"Subject: no body\n"),
    Case("empty", "bounce", ["no.bob@example.org"], whole=b""),
    Case(
        "bytes-in-header",
        "bounce",
        ["no.bob@example.org"],
        options="RET=HDRS BODY=8BITMIME",
        header="X-Utf8: grüße\nX-Tabs:\t\tand\n\tmore\n".encode()
        + b"X-Latin: \xfc\xff\nX-Nul: a\0b\nX-Control: \x01\x7f\n",
    ),
    Case(
        "name-of-bytes",
        "bounce",
        ["no.bob@example.org"],
        options="RET=HDRS BODY=8BITMIME",
        whole=b"Subject: x\nX-\xc3\xbc: a name with bytes\nX-After: it\n\nBody.\n",
    ),
    Case(
        "body-of-bytes",
        "bounce",
        ["no.bob@example.org"],
        options="BODY=8BITMIME",
        body=bytes(it for it in range(256) if it not in (10, 13)) + b"\n.\n..\nFrom here\n\n\n",
    ),
    Case(
        "long-lines",
        "bounce",
        ["no.bob@example.org"],
        body=b"x" * 2047 + b"\n" + b"y" * 2048 + b"\n" + b"z" * 2049 + b"\n" + b"a" * 4096 + b"\nend\n",
    ),
]
DEFERRED = [
    Case("later", "defer", ["later.bob@example.org"]),
    Case(
        "later-mixed",
        "defer",
        [
            "later.bob@example.org",
            "ok.ann@example.org",
            ("later.eve@example.org", "NOTIFY=FAILURE"),
            ("later.hal@example.org", "NOTIFY=DELAY"),
            ("later.ida@example.org", "NOTIFY=NEVER"),
        ],
    ),
    Case("later-header", "defer", ["later.bob@example.org"], options="RET=HDRS ENVID=late"),
    Case("closed", "defer", ["bob@closed.example.org"]),
    Case("paused", "defer", ["bob@paused.example.org"]),
    Case("dropped", "defer", ["drop.bob@example.org"]),
    Case("busy", "defer", ["busy.bob@example.org"]),
    Case("redirected", "defer", ["no.bob@example.org", "ok.ann@example.org"], header=b"X-Check: redirect\n"),
    Case("other-way", "defer", ["later.bob@example.org"], header=b"X-Check: filter\n"),
    Case("later-verp", "defer", ["later.bob@example.org"], sender=b"list@example.com", options="XVERP=+="),
    Case("later-utf8", "defer", ["later.ürs@example.org"], sender="änn@example.com".encode(), options="SMTPUTF8"),
    Case("from-nobody", "defer", ["later.bob@example.org"], sender=b""),
    Case("double-bounce", "defer", ["later.bob@example.org"], sender=b"double-bounce@mx.example.net"),
    Case(
        "later-filtered",
        "defer",
        ["later.bob@example.org", "no.taken@example.org"],
        filtered=True,
        header=b"X-Change: more fewer sender\n",
    ),
]
TRACED = [
    Case("relayed", "trace", [("ok.ann@example.org", "NOTIFY=SUCCESS")]),
    Case(
        "relayed-two",
        "trace",
        [
            ("ok.ann@example.org", "NOTIFY=SUCCESS,FAILURE ORCPT=rfc822;ann@example.org"),
            ("ok.eve@example.org", "NOTIFY=FAILURE"),
            ("ok.hal@example.org", "NOTIFY=SUCCESS"),
        ],
        options="ENVID=told",
    ),
    Case("opened", "trace", [("glad@example.org", "NOTIFY=SUCCESS")]),
    Case("spoken", "trace", ["ok.ann@example.org", "ok.eve@example.org"], command=["-f", "ann@example.com", "-v"]),
    Case(
        "asked-before", "trace", ["ok.ann@example.org", "no.bob@example.org"], command=["-f", "ann@example.com", "-bv"]
    ),
]


def named(cases: list, names: str, prefix: str) -> list:
    """Some of the cases again, under other names."""
    return [Case(**{**it.__dict__, "name": prefix + it.name}) for it in cases if it.name in names.split()]


# each run's settings and messages
RUNS = [
    ("", BOUNCED + DEFERRED + TRACED),
    (
        "enable_long_queue_ids = yes\nhash_queue_names = deferred, defer, bounce, trace\nhash_queue_depth = 2",
        named(BOUNCED, "one notify alias verp filtered", "long-id-")
        + named(DEFERRED, "later-mixed redirected", "long-id-")
        + named(TRACED, "relayed-two", "long-id-"),
    ),
    (
        "backwards_bounce_logfile_compatibility = no",
        named(BOUNCED, "one notify alias odd-replies without-words quoted", "newer-form-")
        + named(DEFERRED, "later-mixed", "newer-form-"),
    ),
    ("smtputf8_enable = no", named(BOUNCED, "bytes-in-replies", "without-utf8-")),
]
