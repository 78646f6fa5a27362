"""Contains functions that all scripts share: paths, what to do if something is missing, checksums of the sources, and
times."""
from __future__ import annotations

import contextlib
import fcntl
import hashlib
import os
import pathlib
import re
import shutil
import signal
import subprocess
import sys
import tempfile
import time
from collections.abc import Callable, Iterable, Iterator
from typing import IO, Any, NoReturn

import processes

TOP = os.path.dirname(os.path.dirname(os.path.abspath(__file__)))
BINARY = os.path.join(TOP, "bin", "ob0")
STAMP = BINARY + ".stamp"

# the signals that end a script: sent by Ctrl-C, by a cancelled job, and when a terminal closes
ENDING = (signal.SIGINT, signal.SIGTERM, signal.SIGHUP)
HELD: list[IO[str]] = []  # the lock of this checkout, while this script holds it
LONGEST_TEMPORARY = 50  # bytes: a socket in a folder below it has a path of at most 107

HOW_TO_GET = {
    "rt": "it is the command of the Rattle toolchain, with which this repository is proved: install the "
    "toolchain, and put the folder that holds rt on PATH",
    "debootstrap": "it makes the root that another release's editors are in: apt-get install debootstrap",
    "apt-get": "it installs Debian's packages: on another system install what is missing by hand",
}


def stop(why: str, status: int = 2) -> NoReturn:
    print(f"{os.path.basename(sys.argv[0])}: {why}", file=sys.stderr)
    sys.exit(status)


def settle() -> None:
    """Makes child processes independent of the user's shell: everybody can read the files that they make, and Git finds
    the repository by the current folder. (In a hook and in `git rebase -x`, Git's variables can point to another
    repository.)"""
    os.umask(0o022)
    for name in [it for it in os.environ if it.startswith("GIT_")]:
        del os.environ[name]


def unfit(folder: str) -> str:
    """Returns why tests can't keep their temporary files in a folder, or "" if they can."""
    if not os.access(folder, os.W_OK | os.X_OK):
        return "it can't be written"
    if os.statvfs(folder).f_flag & os.ST_NOEXEC:
        return "it is mounted noexec"
    if re.search(r"\s", folder):
        return "its path has a blank"
    if len(os.fsencode(folder)) > LONGEST_TEMPORARY:
        return f"its path has more than {LONGEST_TEMPORARY} bytes"
    above = [folder, *(str(it) for it in pathlib.PurePath(folder).parents)]
    closed = next((it for it in above if not os.stat(it).st_mode & 0o001), None)
    # (only root runs programs there as another user)
    return f"other users can't enter {closed}" if closed and os.geteuid() == 0 else ""


def choose_temporary() -> None:
    """Chooses the folder for temporary files: the user's, or a standard one if tests would fail in that. Ends the
    script if no folder is suitable."""
    whys: list[str] = []
    for folder in dict.fromkeys([tempfile.gettempdir(), "/tmp", "/var/tmp"]):
        why = unfit(folder)
        if not why:
            if whys:
                print(f"temporary files are in {folder}: {'; '.join(whys)}", file=sys.stderr, flush=True)
            tempfile.tempdir = os.environ["TMPDIR"] = folder
            return
        whys.append(f"{folder} isn't used, since {why}")
    stop(f"no folder for temporary files: {'; '.join(whys)}. Set TMPDIR to one that fits")


@contextlib.contextmanager
def one_at_a_time() -> Iterator[None]:
    """Holds this checkout's lock during a `with` block, because `make build`, `check`, `test` and `wrong-bodies` move
    the kept work of crates and remove bin/rooms. Other scripts wait for the lock; the same script may enter again."""
    if HELD:
        yield
        return
    os.makedirs(os.path.dirname(BINARY), exist_ok=True)
    with open(os.path.join(os.path.dirname(BINARY), "lock"), "w", encoding="utf-8") as file:
        try:
            fcntl.flock(file, fcntl.LOCK_EX | fcntl.LOCK_NB)
        except OSError:
            print("waiting until another `make` that proves something in this checkout has ended", flush=True)
            fcntl.flock(file, fcntl.LOCK_EX)
        HELD.append(file)
        try:
            yield
        finally:
            HELD.remove(file)


@contextlib.contextmanager
def ended_by_signals(where: Callable[[], str]) -> Iterator[None]:
    """Makes Ctrl-C, a cancelled job or a closed terminal end all processes that this script started, and then the
    script. Also prints the script's progress, which `where` returns. (A signal that `nohup` ignores has no effect.)"""

    def end(number: int, _: object) -> None:
        for it in ENDING:
            signal.signal(it, signal.SIG_IGN)
        print(f"ended by {signal.Signals(number).name} {where()}", flush=True)
        processes.interrupt(os.getpid())
        sys.exit(128 + number)

    processes.adopt_orphans()
    for it in (it for it in ENDING if signal.getsignal(it) != signal.SIG_IGN):
        signal.signal(it, end)
    yield


def need(command: str) -> str:
    """Returns the path of a command. If the command is missing, ends the script with a message that says how to get
    it."""
    found = shutil.which(command)
    if not found:
        stop(f"{command} is missing: {HOW_TO_GET.get(command, 'install it')}")
    return found


def clock(seconds: float) -> str:
    """Formats a time as minutes and seconds."""
    return f"{int(seconds) // 60}:{int(seconds) % 60:02d}"


class Timer:
    def __init__(self) -> None:
        self.start = time.monotonic()

    def __str__(self) -> str:
        return clock(time.monotonic() - self.start)


def listed() -> dict[str, list[str]]:
    """Returns the crates of crates.txt, each with all the names after the colon on its line."""
    lines = {}
    with open(os.path.join(TOP, "crates.txt"), encoding="utf-8") as file:
        for line in file:
            line = line.partition("#")[0].strip()
            if not line:
                continue
            head, _, after = line.partition(":")
            lines[head.split()[0]] = after.split()
    return lines


def match_of(pattern: str, text: str, flags: int = 0) -> re.Match[str]:
    """Returns the first match of a pattern in a text. Raises LookupError if there is none."""
    found = re.search(pattern, text, flags)
    if not found:
        raise LookupError(f"nothing matches {pattern!r} in {text[:300]!r}")
    return found


def libraries() -> dict[str, list[str]]:
    """Returns the crates of crates.txt, each with the crates of this repository that it depends on directly."""
    lines = listed()
    return {name: [it for it in given if it in lines] for name, given in lines.items()}


def write_list(path: str, names: Iterable[str]) -> None:
    """Writes a crates.txt that contains only these crates."""
    lines = listed()
    with open(path, "w", encoding="utf-8") as file:
        file.writelines(f"{name}: {' '.join(lines[name])}\n" for name in names)


def below(name: str, named: dict[str, list[str]] | None = None, found: list[str] | None = None) -> list[str]:
    """Returns a crate and all crates that it depends on, each after its own dependencies."""
    named = libraries() if named is None else named
    found = [] if found is None else found
    for lower in named.get(name, []):
        below(lower, named, found)
    if name not in found:
        found.append(name)
    return found


def sources(names: Iterable[str]) -> list[str]:
    """Returns the paths of all files that determine how these crates are proved and built."""
    files = [os.path.join(TOP, "crates.txt"), os.path.join(TOP, "HANDLES")]
    for name in names:
        for part in ("src", "specs", "proofs"):
            for at, folders, inside in os.walk(os.path.join(TOP, "crates", name, part)):
                folders.sort()
                files += [os.path.join(at, it) for it in sorted(inside)]
    return files


def sum_of(files: Iterable[str]) -> str:
    """Returns the SHA-256 checksum of files: of their paths and their bytes."""
    total = hashlib.sha256()
    for file in files:
        total.update(os.path.relpath(file, TOP).encode() + b"\0")
        with open(file, "rb") as opened:
            total.update(opened.read() + b"\0")
    return total.hexdigest()


def file_sum(path: str) -> str:
    with open(path, "rb") as file:
        return hashlib.sha256(file.read()).hexdigest()


def kit() -> str | None:
    """Returns the toolchain's version, or None if it isn't installed."""
    if not shutil.which("rt"):
        return None
    how: dict[str, Any] = {"stdout": subprocess.PIPE, "stderr": subprocess.DEVNULL, "stdin": subprocess.DEVNULL}
    ran: subprocess.CompletedProcess[bytes] = subprocess.run(["rt", "version"], check=False, **how)
    return ran.stdout.decode(errors="replace").strip()


def commit() -> str:
    """Returns the hash of HEAD, even if another user owns the repository. Returns "0" outside a Git repository, or if
    git isn't installed."""
    # (if a git hook starts this script, git's variables can point to another repository)
    own = {name: value for name, value in os.environ.items() if not name.startswith("GIT_")}
    words = ["git", "-c", f"safe.directory={TOP}", "-C", TOP, "rev-parse", "HEAD"]
    how: dict[str, Any] = {"stdin": subprocess.DEVNULL, "stdout": subprocess.PIPE, "stderr": subprocess.DEVNULL, "env": own}
    if not shutil.which("git"):
        return "0"
    ran: subprocess.CompletedProcess[bytes] = subprocess.run(words, check=False, **how)
    return ran.stdout.decode().strip() or "0"


def stamp() -> dict[str, str]:
    """Reads bin/ob0.stamp: the toolchain that proved bin/ob0, checksums of its sources and of the program, and the last
    line of `make test` if that has tested the program. Returns an empty dict if the file doesn't exist."""
    try:
        with open(STAMP, encoding="utf-8") as file:
            return dict(line.rstrip("\n").split(" ", 1) for line in file if " " in line)
    except OSError:
        return {}


def is_current() -> bool:
    """Returns whether bin/ob0 was proved and built from the present sources, by the installed toolchain if there is
    one."""
    if not os.access(BINARY, os.X_OK):
        return False
    found, here = stamp(), kit()
    return (
        found.get("program") == file_sum(BINARY)
        and found.get("sources") == sum_of(sources(below("ob0")))
        and (here is None or found.get("kit") == here)
    )


def keep(linked: str) -> None:
    """Copies a linked program to bin/ob0, and writes its stamp: the toolchain, and checksums of the sources and the
    program. As long as these stay the same, nothing is proved again."""
    os.makedirs(os.path.dirname(BINARY), exist_ok=True)
    shutil.copyfile(linked, BINARY + ".new")
    os.chmod(BINARY + ".new", 0o755)
    os.replace(BINARY + ".new", BINARY)
    write_stamp({"kit": kit() or "", "sources": sum_of(sources(below("ob0"))), "program": file_sum(BINARY)})


def keep_verdict(line: str, share: str = "") -> None:
    """Adds the last line of `make test`, and how many proofs it made, to the stamp. Does nothing unless bin/ob0 is up
    to date."""
    if is_current():
        write_stamp({**stamp(), "gate": line, "proofs": share})


def write_stamp(lines: dict[str, str]) -> None:
    with open(STAMP, "w", encoding="utf-8") as file:
        file.writelines(f"{name} {value}\n" for name, value in lines.items() if value)
