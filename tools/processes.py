"""Finds and ends the processes that a test has started, including the ones whose parents have ended. So a test that is
stopped leaves no editor running."""
from __future__ import annotations

import ctypes
import os
import signal
import time
from contextlib import suppress
from typing import Dict, List

SET_CHILD_SUBREAPER = 36  # (of prctl, linux/prctl.h)
SECONDS = 10  # how long to wait for killed processes to end


def adopt_orphans() -> None:
    """Makes this process the parent of each descendant whose own parent ends."""
    ctypes.CDLL(None).prctl(SET_CHILD_SUBREAPER, 1, 0, 0, 0)


def parents() -> Dict[int, int]:
    """Returns the parent of each running process, by process number."""
    found = {}
    for name in os.listdir("/proc"):
        with suppress(OSError, ValueError):
            with open(f"/proc/{int(name)}/stat", encoding="utf-8", errors="replace") as file:
                state, parent = file.read().rpartition(")")[2].split()[:2]
            if state not in "ZX":
                found[int(name)] = int(parent)
    return found


def descendants(top: int) -> List[int]:
    """Returns all descendants of a process."""
    known, found = parents(), [top]
    for above in found:
        found += [it for it, parent in known.items() if parent == above]
    return found[1:]


def end_descendants(top: int) -> None:
    """Kills all descendants of a process, and waits until they have ended, for at most SECONDS."""
    end = time.monotonic() + SECONDS
    while (left := descendants(top)) and time.monotonic() < end:
        for it in left:
            with suppress(OSError):
                os.kill(it, signal.SIGKILL)
        time.sleep(0.01)


def interrupt(top: int) -> None:
    """Ends all descendants of a process. Its children get SIGINT, so that they can restore what they moved; other
    descendants are killed, so that no child waits for them."""
    children = [it for it, parent in parents().items() if parent == top]
    for it in children:
        with suppress(OSError):
            os.kill(it, signal.SIGINT)
    end = time.monotonic() + SECONDS
    while set(left := descendants(top)) & set(children) and time.monotonic() < end:
        for it in (it for it in left if it not in children):
            with suppress(OSError):
                os.kill(it, signal.SIGKILL)
        time.sleep(0.05)
    end_descendants(top)


def end_tree(top: int) -> None:
    """Kills a process and all its descendants. The process must have called `adopt_orphans`, because otherwise
    orphaned descendants aren't found. (It is stopped first, so that it starts no more processes.)"""
    with suppress(OSError):
        os.kill(top, signal.SIGSTOP)
    end_descendants(top)
    with suppress(OSError):
        os.kill(top, signal.SIGKILL)
