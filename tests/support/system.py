"""A Debian of their own for the scripts that need one: a base system, which debootstrap makes once in a folder that is
kept (a minute or two, 300 MB), and layers over it."""
import os
import re
import shutil
import signal
import subprocess
import tempfile
import time
from pathlib import Path

KEPT = Path("/var/cache/noticed-boot")  # where it is kept, unless another folder is named
PACKAGES = "systemd,systemd-sysv,dbus,python3"
PATIENCE = 60  # seconds that one step in a container may take
MOMENT = 0.05  # seconds between two looks
WITHIN = {"PATH": "/usr/local/sbin:/usr/local/bin:/usr/sbin:/usr/bin:/sbin:/bin", "HOME": "/root", "LC_ALL": "C.UTF-8"}


def suite() -> str:
    """The suite of this machine's Debian, so that the program finds a C library that it can use."""
    found = re.search(r"^VERSION_CODENAME=(\w+)", Path("/etc/os-release").read_text(), re.M)
    return found[1] if found else "bookworm"


def base_system(folder: Path, named: str = suite()) -> Path:
    """The base system of a suite of Debian, which is made in a folder, unless it is there. One that was cut off is made
    anew."""
    system = folder / "system"
    if (folder / "made").exists():
        return system
    print(f"  debootstrap makes Debian {named} in {folder} ..", flush=True)
    folder.mkdir(parents=True, exist_ok=True)
    shutil.rmtree(system, ignore_errors=True)
    with open(folder / "debootstrap.log", "wb") as log:
        words = ["debootstrap", "--variant=minbase", f"--include={PACKAGES}", named, str(system)]
        subprocess.run(words, stdout=log, stderr=log, check=True)
    (folder / "made").touch()
    return system


class Layer:
    """A root over another: what is written in it goes to memory, and is gone at its end."""

    def __init__(self, lower: Path):
        self.room = Path(tempfile.mkdtemp(prefix="noticed-root-"))
        self.root, self.mounts = self.room / "root", []
        try:
            self.mount("tmpfs", "tmpfs", self.room, "mode=755")
            for it in ("root", "upper", "work"):
                (self.room / it).mkdir()
            self.mount(
                "overlay", "overlay", self.root, f"lowerdir={lower},upperdir={self.room}/upper,workdir={self.room}/work"
            )
        except BaseException:
            self.leave()
            raise

    def mount(self, kind: str, device: str, folder: Path, options: str):
        """Mounts a file system, until the end."""
        subprocess.run(["mount", "-t", kind, "-o", options, device, str(folder)], check=True)
        self.mounts.append(folder)

    def bind(self, what: Path, to: str):
        """Shows a file or folder of this machine in the root, to be read."""
        place = self.root / to.lstrip("/")
        place.parent.mkdir(parents=True, exist_ok=True)
        if what.is_dir():
            place.mkdir(exist_ok=True)
        else:
            place.touch()
        subprocess.run(["mount", "--bind", str(what), str(place)], check=True)
        self.mounts.append(place)
        subprocess.run(["mount", "-o", "remount,bind,ro", str(place)], check=True)

    def inside(self, *words, **variables) -> subprocess.CompletedProcess:
        """Runs a command in the root, with processes and mounts of its own: what it leaves running ends with it."""
        enter = 'mount -t proc proc "$0/proc" && mount --rbind /dev "$0/dev" && exec chroot "$0" "$@"'
        entering = [
            "unshare",
            "--mount",
            "--pid",
            "--fork",
            "--kill-child",
            "sh",
            "-c",
            enter,
            str(self.root),
            *map(str, words),
        ]
        how = {
            "env": WITHIN | variables,
            "stdin": subprocess.DEVNULL,
            "stdout": subprocess.PIPE,
            "stderr": subprocess.STDOUT,
        }
        return subprocess.run(entering, check=False, text=True, errors="replace", **how)

    def leave(self):
        """Ends it."""
        for folder in reversed(self.mounts):
            subprocess.run(["umount", str(folder)], check=False)
        self.room.rmdir()

    def __enter__(self):
        return self

    def __exit__(self, *_):
        self.leave()


def installed(it: Layer, package: str) -> str:
    """Installs a package in a root, where no service is started: what failed."""
    (it.root / "usr/sbin/policy-rc.d").write_text("#!/bin/sh\nexit 101\n")
    (it.root / "usr/sbin/policy-rc.d").chmod(0o755)
    (it.root / "etc/resolv.conf").unlink(missing_ok=True)
    shutil.copy("/etc/resolv.conf", it.root / "etc/resolv.conf")
    (it.root / "etc/hosts").write_text("127.0.0.1 localhost mx.example.net mx\n")
    for words in (["update"], ["install", "--yes", "--no-install-recommends", package]):
        ran = it.inside("apt-get", "--quiet=2", *words, DEBIAN_FRONTEND="noninteractive")
        if ran.returncode:
            return ran.stdout
    return ""


def until(holds, patience=PATIENCE) -> bool:
    """Waits until something holds."""
    began = time.monotonic()
    while not holds():
        if time.monotonic() - began > patience:
            return False
        time.sleep(MOMENT)
    return True


class Container(Layer):
    """A container over a base system: what is written in it stays in memory over a reboot, and is gone at the end."""

    running = None

    def boot(self) -> bool:
        """Boots it, and waits until systemd has started what it starts."""
        words = [
            "systemd-nspawn",
            "--quiet",
            "--boot",
            f"--directory={self.root}",
            "--machine=noticed-boot",
            "--private-network",
            "--console=pipe",
        ]
        if not Path("/run/systemd/system").is_dir():
            words += ["--register=no", "--keep-unit"]  # no systemd runs on this machine that could be asked for a scope
        with open(self.room / "console", "wb") as console:
            self.running = subprocess.Popen(
                words, stdin=subprocess.DEVNULL, stdout=console, stderr=console, start_new_session=True
            )
        wanted = ("running", "degraded")
        return until(lambda: self.leader() and self.said("systemctl", "is-system-running") in wanted)

    def __exit__(self, *_):
        if self.running and self.running.poll() is None:
            self.running.terminate()
            try:
                self.running.wait(timeout=PATIENCE)
            except subprocess.TimeoutExpired:
                os.kill(self.leader(), signal.SIGKILL)  # the first of its processes: the others end with it
                self.running.wait()
        self.leave()

    def leader(self) -> int:
        """The process of the container's systemd, 0 where there is none now."""
        children = Path(f"/proc/{self.running.pid}/task/{self.running.pid}/children").read_text().split()
        return int(children[0]) if children else 0

    def reboot(self) -> bool:
        """Has systemd end all and turn the machine off, and boots it anew. (`systemctl reboot` is the same to the
        units; systemd-nspawn can't begin anew on each machine.)"""
        self.run("systemctl", "poweroff")
        self.running.wait(timeout=PATIENCE)
        return self.boot()

    def run(self, *words, given=b"") -> subprocess.CompletedProcess:
        """Runs a command in the container."""
        entering = ["nsenter", f"--target={self.leader()}", "--all", "--", *words]
        return subprocess.run(entering, input=given, capture_output=True, check=False, timeout=PATIENCE, env=WITHIN)

    def said(self, *words, given=b"") -> str:
        """What a command in the container wrote to its standard output."""
        return self.run(*words, given=given).stdout.decode().strip()

    def file(self, name: str) -> Path:
        """A file of the container's disk, as it is seen from here."""
        return self.root / name.lstrip("/")


def lacking(tools: dict) -> list:
    """The packages of these tools that are missing here, and `root` where this isn't root."""
    return ["root"] * bool(os.geteuid()) + [package for tool, package in tools.items() if not shutil.which(tool)]
