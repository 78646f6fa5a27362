"""Runs a program in a terminal, for the tests of editors and shells."""
from __future__ import annotations

import contextlib
import fcntl
import os
import pty
import re
import select
import signal
import struct
import termios
import time

from harness import DRIVEN, Failed


class Screen:
    """Runs a program in a terminal of a given size. Tests send keys to it and wait for its output."""

    def __init__(
        self, words: list[str], environment: dict[str, str], cwd: str, size: tuple[int, int] | None = None
    ) -> None:
        self.drawn = b""
        self.status: int | None = None
        DRIVEN.append(words[0])
        self.process, self.terminal = pty.fork()
        if self.process == 0:
            if size:
                fcntl.ioctl(0, termios.TIOCSWINSZ, struct.pack("HHHH", *size, 0, 0))
            os.chdir(cwd)
            os.execvpe(words[0], words, environment)

    def __enter__(self) -> Screen:
        return self

    def __exit__(self, *why: object) -> None:
        if self.status is None:
            os.kill(self.process, signal.SIGKILL)
            self.take_status()
        os.close(self.terminal)

    def read(self, seconds: float) -> bool:
        """Waits at most this many seconds for output, and stores it. Returns False if the terminal is closed."""
        if select.select([self.terminal], [], [], seconds)[0]:
            try:
                self.drawn += os.read(self.terminal, 1 << 16)
            except OSError:
                time.sleep(seconds)
                return False
        return True

    def ends(self, what: str, seconds: float) -> int:
        """Waits until the program ends, and returns its exit status. Fails if it doesn't end in time."""
        end = time.monotonic() + seconds
        # (the terminal can be closed before the program ends, and remains open while a child of the program runs)
        while not self.has_ended():
            if time.monotonic() > end:
                raise Failed(f"{what} had not ended after {seconds} seconds: {self.drawn[-500:]!r}")
            self.read(0.1)
        while select.select([self.terminal], [], [], 0)[0] and self.read(0):
            pass
        assert self.status is not None
        return self.status

    def has_ended(self) -> bool:
        """Returns whether the program has ended. If so, its exit status is stored."""
        if self.status is None and os.waitid(os.P_PID, self.process, os.WEXITED | os.WNOHANG | os.WNOWAIT):
            self.take_status()
        return self.status is not None

    def take_status(self) -> None:
        """Kills the program's child processes, waits for the program, and stores its exit status."""
        with contextlib.suppress(ProcessLookupError):
            os.killpg(self.process, signal.SIGKILL)
        ended = os.waitpid(self.process, 0)[1]
        self.status = os.WEXITSTATUS(ended) if os.WIFEXITED(ended) else -os.WTERMSIG(ended)

    def shows(self, pattern: bytes, what: str, seconds: float = 300) -> None:
        """Waits until the output since the last keys matches this pattern. Fails if it doesn't in time."""
        end = time.monotonic() + seconds
        while not re.search(pattern, self.drawn):
            if time.monotonic() > end:
                raise Failed(f"{what}: {pattern!r} was waited for in vain: {self.drawn[-800:]!r}")
            self.read(0.2)

    def keys(self, keys: bytes) -> None:
        self.drawn = b""
        os.write(self.terminal, keys)
