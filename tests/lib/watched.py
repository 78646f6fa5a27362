"""Watches editors with ob0-watch: makes the program that starts their server through it, and reads its reports. If the
variable OB0_REPORTS is a folder, the reports are also kept there, grouped by editor."""
from __future__ import annotations

import contextlib
import glob
import importlib.machinery
import importlib.util
import os
import re
import shlex
import shutil
import sys
import time
from typing import Any, NamedTuple

import harness
from harness import TOP, Failed, same

SCRIPT = os.path.join(TOP, "share", "ob0-watch")
LAST = ("The server ended ", "It stopped watching, ", "ob0-watch was killed.")  # the last line of a report begins with one of these
SECONDS = 300  # a test waits at most this long for a report, once its editor has ended


def load() -> Any:
    """Loads the script ob0-watch as a module, and returns it."""
    loader = importlib.machinery.SourceFileLoader("ob0_watch", SCRIPT)
    spec = importlib.util.spec_from_loader("ob0_watch", loader)
    assert spec
    found = sys.modules["ob0_watch"] = importlib.util.module_from_spec(spec)
    loader.exec_module(found)
    return found


def put_program(room: str, server: list[str]) -> str:
    """Creates bin/ob0 in a folder, and returns its path. `ob0 serve` starts `server` under ob0-watch; any other command
    goes to the real program. The scripts that editors call are put next to it; servers that they start aren't
    watched."""
    program = os.path.join(room, "bin", "ob0")
    os.makedirs(os.path.join(room, "bin"), exist_ok=True)
    report = f"{shlex.quote(os.path.join(room, 'watched'))}/$$"
    os.makedirs(os.path.join(room, "watched"), exist_ok=True)
    words = f"{shlex.join([sys.executable, SCRIPT])} --report {report} -- {shlex.join(server)}"
    # (without the program nothing is watched, and a report would never be complete)
    watches = f'[ "$1" = serve ] && : >{report} && exec {words} "$@"\n' if os.path.exists(harness.BINARY) else ""
    with open(program, "w", encoding="utf-8") as file:
        file.write(f"#!/bin/sh\n{watches}")
        file.write(f'exec {shlex.quote(os.path.abspath(harness.BINARY))} "$@"\n')
    os.chmod(program, 0o755)
    beside = shlex.quote(os.path.dirname(os.path.abspath(harness.BINARY)))
    for name in ("ob0-check", "ob0-format"):
        script = os.path.join(room, "bin", name)
        with open(script, "w", encoding="utf-8") as file:
            file.write(f'#!/bin/sh\nPATH={beside}:$PATH exec {shlex.quote(os.path.join(TOP, "share", name))} "$@"\n')
        os.chmod(script, 0o755)
    return program


class Count(NamedTuple):
    """Counts how many messages were judged by a rule, and how many findings of each kind there were."""

    watched: int
    broken: int
    notes: int


class Report(NamedTuple):
    text: str
    counts: dict[str, Count]

    def broken(self) -> set[str]:
        return {rule for rule, it in self.counts.items() if it.broken}


def complete(path: str) -> str:
    """Waits until a report is complete, and returns it."""
    end = time.monotonic() + SECONDS
    text = ""
    while time.monotonic() < end:
        with contextlib.suppress(FileNotFoundError), open(path, encoding="utf-8") as file:
            text = file.read()
        if text and text.splitlines()[-1].startswith(LAST):
            return text
        time.sleep(0.02)
    raise Failed(f"a report isn't complete: {text}")


def reports(room: str) -> list[Report]:
    """Waits until all reports in a folder are complete, and returns the reports."""
    found = []
    for path in sorted(glob.glob(os.path.join(glob.escape(room), "watched", "*[0-9]"))):
        text = complete(path)
        rows = re.findall(r"^([\w-]+): watched (\d+), broken (\d+), notes (\d+) ", text, re.M)
        found.append(Report(text, {rule: Count(*map(int, counts)) for rule, *counts in rows}))
    return found


def expect(room: str) -> None:
    """Fails unless the editors in a folder kept all rules, except the ones listed in the file `breaks`, which they must
    break. Also fails if ob0-watch stopped watching."""
    breaks: set[str] = set()
    if os.path.exists(os.path.join(room, "breaks")):
        with open(os.path.join(room, "breaks"), encoding="utf-8") as file:
            breaks = {*file.read().split()}
    found = reports(room)
    if found and os.environ.get("OB0_REPORTS"):
        folder = os.path.join(os.environ["OB0_REPORTS"], " ".join(dict.fromkeys(harness.DRIVEN)))
        shutil.copytree(os.path.join(room, "watched"), folder, dirs_exist_ok=True)
    if any("stopped watching" in it.text for it in found):
        raise Failed("\n".join(it.text for it in found))
    same(set().union(*(it.broken() for it in found)), breaks, "the broken rules of\n" + "\n".join(it.text for it in found))
