"""Sets up a separate home directory for an editor or a shell, and runs the program in a terminal or without one."""
from __future__ import annotations

import contextlib
import os
import shutil
import signal
import stat
import subprocess
import sys
import tempfile
from collections.abc import Iterator
from typing import Any

import editors
import harness
import holding
import watched
from harness import TOP, Failed
from screen import Screen
from snippets import snippets

SECONDS = 900  # the longest that an editor may take, even on a busy machine


@contextlib.contextmanager
def temporary() -> Iterator[str]:
    """Makes a temporary folder, and removes it at the end. Fails if ob0-watch watched an editor there and reports a
    rule broken that wasn't expected. (tests/run.py removes files that programs write later.)"""
    room = tempfile.mkdtemp()
    try:
        yield room
        watched.expect(room)
    finally:
        shutil.rmtree(room, ignore_errors=True)


def at_home(room: str, editor: str) -> dict[str, str]:
    """Sets up an editor in a separate home directory with the commands of its page. Returns the environment variables
    to start it with."""
    own = {key: value for key, value in os.environ.items() if not key.startswith("XDG_")}
    watched.put_program(room, [os.path.abspath(harness.BINARY)])
    own.update(HOME=room, XDG_RUNTIME_DIR=room, LC_ALL="C.UTF-8", PATH=os.path.join(room, "bin") + os.pathsep + os.environ["PATH"], TERM="xterm")
    for line in snippets(editor, "sh"):
        status, said = run_plainly(["sh", "-e", "-c", line], own, TOP)
        if status:
            raise Failed(f"a command of editors/{editor}/README.md ended with {status}: {said}\n{line}")
    return own


def put_between(room: str) -> str:
    """Puts tests/lib/holding.py, which can delay answers, between the editor in this folder and the server. Returns the
    path of the program that the editor then starts."""
    return watched.put_program(room, [sys.executable, holding.__file__, room, os.path.abspath(harness.BINARY)])


def write(path: str, text: str) -> None:
    os.makedirs(os.path.dirname(path), exist_ok=True)
    with open(path, "w", encoding="utf-8", newline="") as file:
        file.write(text)


def copy(source: str, target: str, *ignored: str) -> None:
    """Copies a file, or a folder without the names that match these patterns. The copy is readable by everybody, even
    if the source was cloned with umask 077."""
    if os.path.isdir(source):
        shutil.copytree(source, target, ignore=shutil.ignore_patterns("__pycache__", *ignored), dirs_exist_ok=True)
    else:
        target = shutil.copy(source, target)
    open_up(target)


def open_up(path: str) -> None:
    """Gives a file, or a folder and everything in it, the permissions of a clone with umask 022."""
    for at in [path, *(os.path.join(at, it) for at, folders, files in os.walk(path) for it in folders + files)]:
        mode = os.lstat(at).st_mode
        if not stat.S_ISLNK(mode):
            os.chmod(at, 0o755 if stat.S_ISDIR(mode) or mode & 0o100 else 0o644)


def as_another() -> list[str]:
    """Returns words to put before a command that refuses to run as root: they switch to another user. Returns an empty
    list if the user isn't root."""
    harness.want("another user")
    return [sys.executable, "-c", f"{editors.BECOME}; os.execvp(sys.argv[1], sys.argv[1:])"] if os.geteuid() == 0 else []


def run_plainly(words: list[str], own: dict[str, str], cwd: str) -> tuple[int, str]:
    """Runs a program without a terminal. Returns its exit status and its output. Its child processes are killed when it
    ends."""
    how: dict[str, Any] = {"stdin": subprocess.DEVNULL, "stdout": subprocess.PIPE, "stderr": subprocess.STDOUT, "cwd": cwd, "env": own}
    with subprocess.Popen(words, start_new_session=True, **how) as process:
        try:
            said, _ = process.communicate(timeout=SECONDS)
        except subprocess.TimeoutExpired:
            raise Failed(f"{words[0]} had not ended after {SECONDS} seconds") from None
        finally:
            with contextlib.suppress(ProcessLookupError):
                os.killpg(process.pid, signal.SIGKILL)
    return process.returncode, said.decode(errors="replace")


def run_in_terminal(words: list[str], own: dict[str, str], cwd: str) -> tuple[int, str]:
    """Runs an editor in a terminal until it ends. Returns its exit status and the bytes that it drew."""
    with Screen(words, own, cwd) as screen:
        status = screen.ends(words[0], SECONDS)
        return status, screen.drawn.decode(errors="replace")
