"""Builds the Debian package and the archive (`make deb`, `make dist`) of the program under test in two copies of the
repository that differ in times, modes, language and time zone: both give the same bytes, with the commit's date. Then
their contents: the program without a change, every unit, page and script at its place, the configuration files, the kit
that built it, and nothing that runs from /usr/share/doc. lintian has neither an error nor a warning, and each override
has its reason. The version is the same in the program, its status, the manual pages, the change logs and the pages. The
completions offer what the usage has, and the AppArmor profile can be read. tests/boot_package.py installs the
package."""
import gzip
import hashlib
import os
import re
import shutil
import stat
import subprocess
import tarfile
import tempfile
from pathlib import Path

from tests.support.daemon_and_clients import Daemon, until
from tests.support.running import DIST, ROOT, Checks, program, run

TOOLS = {"dh": "debhelper", "objcopy": "binutils", "lintian": "lintian"}
MOMENT = 1_700_000_000  # of the copies' one commit
NOT_COPIED = {".git", "out", "crates", "mutants", "bench", "tests"}
SOURCE = "crates/noticed/src/command_line.rt"  # the one place of the version
SENTENCES = "crates/dsn_report/specs/PlainWords.antt"  # those of a notice, which noticed-notice(5) names
COPIES = {  # umask, age of the files in seconds, and what else may differ
    "one": (0o022, 0, {"LC_ALL": "C", "TZ": "UTC"}),
    "other": (0o077, 10**8, {"LC_ALL": "C.UTF-8", "TZ": "Pacific/Auckland"}),
}
CONFFILES = ["/etc/apparmor.d/noticed", "/etc/noticed/noticed.conf"]
COMPLETE = 'source "$0"; COMP_WORDS=("$@"); COMP_CWORD=$(($# - 1)); _noticed "$1"; printf "%s\\n" "${COMPREPLY[@]}"'
COMPLETE_Z = 'compadd() { print -l -- ${@:#--} }; words=("$@"); CURRENT=$#; service=$1; source "$0"'


def version() -> str:
    """The version in the sources."""
    return re.search(r'VERSION: &str = "(.+)";', (ROOT / SOURCE).read_text())[1]


def copied(room: Path, name: str) -> Path:
    """A copy of the repository with one commit."""
    umask, age, _ = COPIES[name]
    copy = room / name
    os.umask(umask)
    copy.mkdir()
    for it in ROOT.iterdir():
        if it.name not in NOT_COPIED:
            (shutil.copytree if it.is_dir() else shutil.copy)(it, copy / it.name)
    for it in (SOURCE, SENTENCES):
        (copy / it).parent.mkdir(parents=True)
        shutil.copy(ROOT / it, copy / it)
    for it in copy.rglob("*"):
        os.utime(it, (MOMENT - age, MOMENT - age))
    dated = {f"GIT_{who}_DATE": f"@{MOMENT} +0000" for who in ("AUTHOR", "COMMITTER")}
    git = ["git", "-c", "user.name=noticed", "-c", "user.email=noticed@localhost", "-c", "core.hooksPath=/dev/null"]
    for words in (["init", "--quiet"], ["commit", "--quiet", "--allow-empty", "--message=all"]):
        subprocess.run([*git, *words], cwd=copy, env={**os.environ, **dated}, check=True)
    return copy


def built(checks: Checks, room: Path, name: str, targets: list) -> Path:
    """The folder `out` of a copy, once `make` made these."""
    copy = copied(room, name)
    words = ["make", f"--old-file={program()}", f"BUILT={program()}", *targets]
    environment = {**os.environ, **COPIES[name][2]}
    environment.pop("SOURCE_DATE_EPOCH", None)
    ran = subprocess.run(words, cwd=copy, env=environment, capture_output=True, text=True, check=False)
    checks.equal(f"make {' '.join(targets)}: {ran.stderr[-2000:]}", ran.returncode, 0)
    os.umask(0o022)
    return copy / "out"


def output_of(*words) -> str:
    """What a command prints, which must succeed."""
    plain = {**os.environ, "LC_ALL": "C", "TZ": "UTC"}
    return subprocess.run(words, capture_output=True, text=True, check=True, timeout=120, env=plain).stdout


def image(path: Path) -> bytes:
    """What of a program is in memory: all but symbols."""
    with tempfile.NamedTemporaryFile() as it:
        subprocess.run(["objcopy", "--output-target=binary", path, it.name], check=True)
        return Path(it.name).read_bytes()


def check_versions(checks: Checks, named: str):
    """The places that say a version."""
    checks.equal("noticed --version", run(["--version"]).outbox, f"noticed {named}\n".encode())
    with Daemon(1, 1) as daemon:
        until(daemon.has_begun)
        said = run(["status", daemon.path]).outbox
    checks.true(f"the status: {said}", f"version {named}\n".encode() in said)
    for page in sorted((ROOT / "docs").glob("noticed*.[58]")):
        titled = re.search(r'^\.TH \S+ \d \S+ "noticed (.+?)"', page.read_text(), re.M)
        checks.equal(f"the title of {page.name}", titled and titled[1], named)
    first = re.search(r"^## \[(.+)\] - (\S+)$", (ROOT / "CHANGELOG.md").read_text(), re.M)
    checks.equal("the first entry of CHANGELOG.md", first[1], named)
    packaged = re.match(r"noticed \((.+)\) ", (DIST / "debian/changelog").read_text())
    checks.equal("the first entry of the package's change log", packaged[1], named)
    for page in [ROOT / "README.md", *(ROOT / "docs").glob("*.md")]:
        for it in re.findall(r"noticed[-_](\d[\d.]*\d)", page.read_text()):
            checks.equal(f"{page.name}: the file of a release", it, named)


def installed(kind: str) -> set:
    """The paths of the package that follow from the repository."""
    units = {f"lib/systemd/system/{it.name}" for end in ("service", "socket") for it in DIST.glob(f"noticed*.{end}")}
    pages = {f"share/man/man{it.suffix[1]}/{it.name}" for it in (ROOT / "docs").glob("noticed*.[58]")}
    zipped = ".gz" if kind == "deb" else ""
    zsh = "vendor-completions" if kind == "deb" else "site-functions"
    licence = {"deb": ["copyright", "changelog.gz"], "archive": ["LICENSE", "CHANGELOG.md"]}[kind]
    guides = ("operating.md", "postfix.md", "bounce-features.md", "PlainWords.antt")
    doc = {f"share/doc/noticed/{it}" for it in ("BUILD", *guides, *licence)}
    own = {"bin/noticed", "sbin/noticed-postfix", "share/noticed/clients/python/noticed.py", f"share/zsh/{zsh}/_noticed"}
    own |= {"share/bash-completion/completions/noticed", "lib/sysusers.d/noticed.conf", "lib/tmpfiles.d/noticed.conf"}
    return units | doc | own | {it + zipped for it in pages}


def check_tree(checks: Checks, kind: str, root: Path, prefix: str):
    """What both artefacts have in a folder: files, the program, paths in texts, and the kit."""
    here = {str(it.relative_to(root)) for it in root.rglob("*") if it.is_file()}
    checks.equal(f"{kind}: missing files", installed(kind) - here, set())
    checks.true(f"{kind}: the program", image(root / "bin/noticed") == image(Path(program())))
    texts = {it: (root / it).read_bytes() for it in here - {"bin/noticed"}}
    texts = {it: gzip.decompress(text) if it.endswith(".gz") else text for it, text in texts.items()}
    texts = {it: text.decode(errors="replace") for it, text in texts.items()}
    found = re.compile(r"(/usr(?:/local)?)/(?:s?bin|share|share/doc)/noticed")
    elsewhere = {it: set(found.findall(text)) - {prefix} for it, text in texts.items()}
    checks.equal(f"{kind}: paths elsewhere", {it: paths for it, paths in elsewhere.items() if paths}, {})
    runs = [f"{it}: {line}" for it, text in texts.items() for line in text.splitlines() if line.startswith("Exec")]
    checks.equal(f"{kind}: what runs from share/doc", [it for it in runs if "share/doc" in it], [])
    runnable = [it for it in here if (root / it).stat().st_mode & 0o111 and it.startswith("share/")]
    checks.equal(f"{kind}: programs in share", runnable, [])
    kit = output_of(os.environ.get("RT") or shutil.which("rt") or "/opt/rattle/bin/rt", "version")
    checks.equal(f"{kind}: BUILD", texts["share/doc/noticed/BUILD"], f"noticed {version()}\nbuilt with {kit}")


def check_deb(checks: Checks, package: Path, room: Path):
    """The package: its fields, owners, configuration files, scripts, and lintian."""
    fields = ("Package", "Version", "Architecture")
    wanted = ["noticed", version(), output_of("dpkg", "--print-architecture").strip()]
    checks.equal("deb: fields", [output_of("dpkg-deb", "-f", package, it).strip() for it in fields], wanted)
    root = room / "deb"
    subprocess.run(["dpkg-deb", "--raw-extract", package, root], check=True)
    checks.equal("deb: conffiles", sorted((root / "DEBIAN/conffiles").read_text().split()), CONFFILES)
    for name in ("postinst", "prerm", "postrm"):
        subprocess.run(["sh", "-n", root / "DEBIAN" / name], check=True)
    listed = [it.split()[:6] for it in output_of("dpkg-deb", "--contents", package).splitlines()]
    checks.equal("deb: owners", {it[1] for it in listed}, {"root/root"})
    checks.true("deb: dates", all(it[3] == "2023-11-14" for it in listed))
    check_tree(checks, "deb", root / "usr", "/usr")
    ran = subprocess.run(["lintian", package], capture_output=True, text=True, check=False, timeout=120)
    tags = [it for it in ran.stdout.splitlines() if it.startswith(("E:", "W:"))]
    checks.equal("lintian", (ran.returncode, tags), (0, []))
    overrides = DIST / "debian/noticed.lintian-overrides"
    lines = overrides.read_text().splitlines() if overrides.exists() else []
    bare = [it for before, it in zip(["", *lines], lines) if not it.startswith("#") and not before.startswith("#")]
    checks.equal("overrides without a reason", bare, [])


def check_archive(checks: Checks, archive: Path, room: Path):
    """The archive: one folder, whose files are root's, have the commit's date and are in order."""
    checks.equal("archive: no time, no name", archive.read_bytes()[3:8], bytes(5))
    with tarfile.open(archive) as it:
        members = it.getmembers()
        it.extractall(room / "archive")
    checks.equal("archive: folder", {it.name.split("/")[0] for it in members}, {f"noticed-{version()}"})
    checks.equal("archive: owners and dates", {(it.uid, it.gid, it.mtime) for it in members}, {(0, 0, MOMENT)})
    modes = {stat.S_IMODE(it.mode) for it in members}
    checks.equal("archive: modes", modes, {0o755, 0o644})
    root = room / "archive" / f"noticed-{version()}"
    check_tree(checks, "archive", root, "/usr/local")
    checks.true("archive: licence", (root / "share/doc/noticed/LICENSE").read_text().startswith("MIT License\n"))


COMMANDS = "batch serve stop send discard forget status journal hand-in resubmit postfix preview faults".split()
OPTIONS = {
    "serve": "config inherited journal max-journal release-closed logs entries hand-in give-up outbox idle end-on-fault log",
    "status": "open prometheus",
    "hand-in": "done give-up",
    "resubmit": "",
    "postfix": "lifetime bounce-size-limit double-bounce hash-queue-names hash-queue-depth pass-on templates threaded "
    "inherited",
}


def check_completions(checks: Checks, room: Path):
    """The completions offer every command, and every option of these commands and no other."""
    (room / "bin").mkdir()
    (room / "bin/noticed").symlink_to(program())
    environment = {**os.environ, "PATH": f"{room}/bin:{os.environ['PATH']}"}
    for shell, words in {"bash": ["-c", COMPLETE], "zsh": ["-fc", COMPLETE_Z]}.items():
        if not shutil.which(shell):
            checks.skip(f"completion of {shell} (needs {shell})")
            continue

        def offered(*typed: str, shell=shell, words=tuple(words)) -> set:
            given = [shell, *words, DIST / f"noticed.{shell}", *typed]
            ran = subprocess.run(given, env=environment, capture_output=True, text=True, check=False, timeout=60)
            return set(ran.stdout.split())

        checks.equal(f"{shell}: commands that it lacks", set(COMMANDS) - offered("noticed", ""), set())
        for command, options in OPTIONS.items():
            found = offered("noticed", command, "--") - {"--help"}
            checks.equal(f"{shell}: options of {command}", found, {f"--{it}" for it in options.split()})
        wanted = {"check", "enable", "test", "disable", "run"}
        checks.equal(f"{shell}: noticed-postfix", offered("noticed-postfix", ""), wanted)


def check_profile(checks: Checks):
    """The AppArmor profile can be read, and the units enter it."""
    named = re.search(r"^profile (\S+) \{", (DIST / "noticed.apparmor").read_text(), re.M)[1]
    for unit in ("noticed.service", "noticed@.service"):
        checks.true(f"{unit} enters it", f"\nAppArmorProfile=-{named}\n" in (DIST / unit).read_text())
    parser = shutil.which("apparmor_parser", path="/usr/sbin:/sbin")
    if not parser:
        checks.skip("the AppArmor profile (needs apparmor)")
        return
    words = [parser, "--skip-kernel-load", "--skip-cache", DIST / "noticed.apparmor"]
    ran = subprocess.run(words, capture_output=True, text=True, check=False, timeout=60)
    checks.equal("the AppArmor profile", (ran.returncode, "rror" in ran.stderr), (0, False))


def main():
    checks = Checks("package: the Debian package and the archive, their contents, versions and reproducibility")
    lacking = [package for tool, package in TOOLS.items() if not shutil.which(tool)]
    if lacking:
        checks.skip(f"the Debian package (needs {' and '.join(lacking)})")
    check_versions(checks, version())
    check_profile(checks)
    with tempfile.TemporaryDirectory(prefix="noticed-") as folder:
        room = Path(folder)
        check_completions(checks, room)
        names = [f"noticed-{version()}.tar.gz", *([] if lacking else [f"noticed_{version()}_amd64.deb"])]
        outs = [built(checks, room, it, ["dist", *([] if lacking else ["deb"])]) for it in COPIES]
        sums = [{name: hashlib.sha256((out / name).read_bytes()).hexdigest() for name in names} for out in outs]
        checks.equal("the same bytes", sums[0], sums[1])
        listed = dict(reversed(it.split()) for it in (outs[0] / "SHA256SUMS").read_text().splitlines())
        checks.equal("SHA256SUMS", listed, sums[0])
        check_archive(checks, outs[0] / names[0], room)
        if not lacking:
            check_deb(checks, outs[0] / names[1], room)
    checks.done()


if __name__ == "__main__":
    main()
