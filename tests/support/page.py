"""The commands of a page, byte for byte as somebody copies them. In a fenced block a line that begins with `$ ` is a
command for anybody, and one with `# ` is for root; `\\` and a here-document continue it. The lines behind it are what
it prints: `..` is any text there, and a line of `..` alone is any lines. A block without a prompt is a file."""
import os
import re
import signal
import subprocess
from dataclasses import dataclass
from pathlib import Path

from tests.support.running import ROOT, Checks

BLOCK = re.compile(r"^```\w*\n(.*?)^```$", re.M | re.S)
PROMPT = re.compile(r"([$#]) (.*)")
HERE = re.compile(r"<<'(\w+)'")
PATIENCE = 120  # seconds that the commands of a page may take
MARK = "--- command "


@dataclass
class Command:
    """A command, for anybody ($) or root (#), and the lines that it prints."""

    prompt: str
    text: str
    printed: str


def commands_of(block: str) -> list:
    """The commands of a block, and what each prints."""
    found, until = [], None
    for line in block.splitlines():
        given = PROMPT.fullmatch(line)
        if until or found and found[-1].text.endswith("\\\n"):
            found[-1].text += f"{line}\n"
            until = None if line == until else until
        elif given:
            found.append(Command(given[1], f"{given[2]}\n", ""))
            until = HERE.search(line) and HERE.search(line)[1]
        elif found:
            found[-1].printed += f"{line}\n"
    return found


def pattern_of(printed: str) -> str:
    """The pattern of what a command prints."""
    lines = printed.splitlines()
    return "".join(r"(?:.*\n)*" if it == ".." else re.escape(it).replace(r"\.\.", ".*") + r"\n" for it in lines)


class Page:
    """A page, and which of its commands weren't run yet."""

    def __init__(self, name: str, section=""):
        """The page, or one section of it, whose heading begins so."""
        self.name = f"{name}{': ' * bool(section)}{section}"
        text = (ROOT / name).read_text()
        if section:
            (text,) = [it for it in re.split(r"^## ", text, flags=re.M) if it.startswith(section)]
        blocks = BLOCK.findall(text)
        self.files = [it for it in blocks if not commands_of(it)]
        self.commands = [it for block in blocks for it in commands_of(block)]
        self.left = list(self.commands)

    def file(self, start: str) -> str:
        """The one block that is a file and begins so."""
        (found,) = [it for it in self.files if it.startswith(start)]
        return found

    def take(self, *starts: str) -> str:
        """The commands that begin so, as a script: for each start the first that wasn't run yet."""
        script = ""
        for start in starts:
            found = [it for it in self.left if it.text.startswith(start)]
            if len({it.text for it in found}) != 1:
                raise ValueError(f"{self.name} has {len(found)} commands that begin with '{start}'")
            self.left.remove(found[0])
            script += found[0].text
        return script

    def all_run(self, checks: Checks, prompt: str):
        """Checks that each command of this prompt was run."""
        left = [it.text for it in self.left if it.prompt == prompt]
        checks.equal(f"{self.name}: commands that nothing ran", left, [])

    def session(self, checks: Checks, folder: Path, places: dict, environment: dict):
        """Runs the commands for anybody in one shell, and compares what they print. `places` has what is elsewhere on
        this machine. What still runs at the end is killed."""
        given = [it for it in self.commands if it.prompt == "$"]
        script = "exec 2>&1\n"
        for at, it in enumerate(given):
            script += f"echo '{MARK}{at}'\n{it.text}"
        for name, place in places.items():
            script = script.replace(name, str(place))
        with open(folder.parent / "said", "w+b") as said:
            how = {"stdin": subprocess.DEVNULL, "stdout": said, "cwd": folder, "start_new_session": True}
            with subprocess.Popen(["sh", "-e", "-c", script], env={**os.environ, **environment}, **how) as shell:
                try:
                    status = shell.wait(timeout=PATIENCE)
                except subprocess.TimeoutExpired:
                    status = "none: it hangs"
                try:
                    os.killpg(shell.pid, signal.SIGKILL)
                except ProcessLookupError:
                    pass
            said.seek(0)
            parts = re.split(rf"^{MARK}\d+\n", said.read().decode().replace("\r\n", "\n"), flags=re.M)[1:]
        checks.equal(f"{self.name}: the status", status, 0)
        for it, printed in zip(given, parts):
            holds = re.fullmatch(pattern_of(it.printed), printed)
            checks.equal(f"{self.name}: $ {it.text.strip()}", it.printed if holds else printed, it.printed)
        checks.equal(f"{self.name}: commands that were reached", len(parts), len(given))
        self.left = [it for it in self.left if it.prompt != "$"]
