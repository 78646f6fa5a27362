#!/usr/bin/env python3
"""Proves crates, each after the crates that it depends on, and reuses the work that earlier checks kept in
crates/*/out.
  tools/build.py           proves the program's crates, and builds bin/ob0
  tools/build.py --check   proves all crates and their tests; builds no program, and runs no test
It prints which crate is being proved, how many are left, and the time so far. If a proof fails, a build ends. --check
continues with the crates that don't need the failed one; its last line lists the failures. A crate is skipped if it was
proved here by the same toolchain, from the same sources, with the same sources of the crates that it depends on.
--check also skips a crate if nothing changed in those crates that its proofs have read. To know that, it reads the
heads of kept files: a kept proof lists the modules that the checker read for it, and a module of a library contains a
checksum of its statements without comments. --check also prints how many modules of each crate were loaded and how many
were proved again. Kept work is trusted, so `make test` is still needed. Two runs of rt in one tree wait for each other
if they depend on the same crate. So each crate is proved in a separate folder of bin/rooms. It contains a copy of the
crate's sources, and hard links to the sources and the proved library of each crate that it depends on."""
from __future__ import annotations

import hashlib
import json
import os
import re
import shutil
import signal
import subprocess
import sys
import time
from collections.abc import Callable, Iterable
from typing import Any, NamedTuple

import common
import edits
import notices
from common import TOP, BINARY

STEP = 15  # seconds between two lines about a crate that takes long
ROOMS = os.path.join(TOP, "bin", "rooms")
# The last parts of the names of modules that rattle makes from a function's body or its proof. No crate above can name
# these. (A program and the tests also see TheLink and the code that they reach; the gate checks that.)
OF_BODIES = frozenset({"Code", "Mir", "Layout", "Lts", "View", "Given", "Goals", "Named", "Proof", "Tie", "TheLink"})
# The beginning of each line in the header that the checker writes into a kept module; and how many bytes to read of a
# module to find the checksum of its statements.
HEAD, CONTENT = b"--@ ", 2048


def processors() -> int:
    return len(os.sched_getaffinity(0)) if hasattr(os, "sched_getaffinity") else (os.cpu_count() or 1)


def lanes() -> int:
    """Returns how many crates to prove at the same time: one for each processor, but at most one for each 3.5 GB of
    free memory, and at least one. (A check takes 1 to 3 GB.)"""
    free = os.sysconf("SC_PAGE_SIZE") * os.sysconf("SC_PHYS_PAGES")
    try:
        with open("/proc/meminfo", encoding="ascii") as file:
            found = re.search(r"MemAvailable:\s+(\d+)", file.read())
            free = 1024 * int(found[1]) if found else free
    except OSError:
        pass
    return max(1, min(processors(), free // 3_500_000_000))


def link(old: str, new: str) -> None:
    """Makes a hard link to a file, or a copy if linking fails."""
    try:
        os.link(old, new)
    except OSError:
        shutil.copy2(old, new)


def chain(name: str, named: dict[str, list[str]]) -> int:
    """Returns the length of the longest chain of crates above this one, in which each crate depends on the one before
    it."""
    return max((1 + chain(it, named) for it in named if name in named[it]), default=0)


def furnish(room: str, name: str, named: dict[str, list[str]]) -> None:
    """Creates the folder in which a crate is proved: its sources, and the crates that it depends on, with their proved
    libraries."""
    shutil.rmtree(room, ignore_errors=True)
    os.makedirs(os.path.join(room, "crates"))
    shutil.copy2(os.path.join(TOP, "HANDLES"), room)
    common.write_list(os.path.join(room, "crates.txt"), common.below(name, named))
    for below in common.below(name, named):
        crate, inside = os.path.join(TOP, "crates", below), os.path.join(room, "crates", below)
        if below == name:
            shutil.copytree(crate, inside, ignore=shutil.ignore_patterns("out", *edits.PLACES))
        else:
            link_tree(crate, inside, ["out", *edits.PLACES])
            link_tree(os.path.join(crate, "out", "rlib"), os.path.join(inside, "out", "rlib"), [])


def link_tree(old: str, new: str, without: list[str]) -> None:
    """Creates the folder `new` with hard links to all files of the folder `old`, except the files and folders directly
    in `old` whose names are in `without`. (`rt` follows no symbolic links. A library contains about 300 files, so this
    has to be fast.)"""
    os.makedirs(new)
    for it in os.scandir(old):
        if it.name in without:
            continue
        if it.is_dir():
            link_tree(it.path, os.path.join(new, it.name), [])
        else:
            link(it.path, os.path.join(new, it.name))


def command(name: str, named: dict[str, list[str]], is_check: bool) -> list[str]:
    """Returns the command that proves a crate. The command also builds the crate's library if other crates need it, and
    for `ob0` the program, unless `is_check`."""
    if name == "ob0" and not is_check:
        return ["rt", "run", "--", "--help"]
    if any(name in below for below in named.values()):
        return ["rt", "lib"]
    return ["rt", "check", *["--test"] * name.startswith("ob0_tests_")]


class Sums:
    """Computes checksums of everything that a crate's proof depends on: the toolchain, HANDLES, the crate's sources,
    the lines of crates.txt for the crate and for the crates that it depends on, and either all sources of these crates
    or the parts of them that its proofs have read."""

    def __init__(self, named: dict[str, list[str]]) -> None:
        self.named, self.lines, self.kit = named, common.listed(), common.kit()
        self.own = {it: common.sum_of(common.sources([it])[2:]) for it in named}
        self.shown: dict[str, Shown | None] = {}
        with open(os.path.join(TOP, "HANDLES"), encoding="utf-8") as file:
            self.handles = file.read()

    def sum_over(self, name: str, sum_of: Callable[[str], object]) -> str:
        rests = [(it, self.lines[it], sum_of(it)) for it in common.below(name, self.named)]
        return hashlib.sha256(repr((self.kit, self.handles, rests)).encode()).hexdigest()

    def of_sources(self, name: str) -> str:
        return self.sum_over(name, lambda it: self.own[it])

    def of_read(self, name: str) -> str:
        """Returns the checksum of everything that the crate's proofs have read. Returns "" if that isn't known, or if a
        library is missing."""
        for it in common.below(name, self.named)[:-1]:
            if it not in self.shown:
                self.shown[it] = Shown.by(it)
        seen = text_of(seen_path(name)).split()
        if not seen or not all(self.shown[it] for it in common.below(name, self.named)[:-1]):
            return ""
        of_crate: dict[str, list[str]] = {}
        for it in seen:
            of_crate.setdefault(crate_of(it), []).append(it)
        return self.sum_over(name, lambda it: self.own[it] if it == name else self.shown_to(it, of_crate.get(it, [])))

    def shown_to(self, name: str, seen: list[str]) -> tuple[str, list[tuple[str, str]]]:
        """Returns what a proof in another crate depends on: the checksum of this crate's interface, and the checksums
        of the modules in `seen`, which the proof reads."""
        shown = self.shown[name]
        return (shown.face, [(it, shown.contents.get(it, "")) for it in seen]) if shown else ("", [])


def marks(names: list[str]) -> list[tuple[str, int, int]]:
    """Returns the path, the modification time and the size of each source of these crates. If they differ after a
    proof, somebody edited the sources while it ran."""
    stats = [(it, os.stat(it)) for it in common.sources(names)]
    return [(it, found.st_mtime_ns, found.st_size) for it, found in stats]


def library_of(name: str) -> str:
    return os.path.join(TOP, "crates", name, "out", "rlib", f"{name}.rlib")


class Shown(NamedTuple):
    """Checksums of the parts of a library that other crates can read. `face` covers the files that the compiler reads;
    `contents` has the checker's checksum of each module. (The checker's `exports`, a checksum of names and types, can't
    be used: it doesn't change with the body of a definition.)"""

    face: str
    contents: dict[str, str]

    @classmethod
    def by(cls, name: str) -> Shown | None:
        """Reads the checksums of a crate's built library. Returns None if it doesn't exist or can't be read."""
        library = library_of(name)
        files = []
        for part in ("interface", "below"):
            for at, folders, names in os.walk(os.path.join(library, part)):
                folders.sort()
                files += [os.path.join(at, it) for it in sorted(names)]
        contents = {}
        try:
            made = os.path.join(library, "toolchain", "checked")
            with open(f"{made}.json", encoding="utf-8") as rows, open(f"{made}.a", "rb") as modules:
                for module, start, length in map(json.loads, rows):
                    if crate_of(module):  # (the last row is a checksum over all modules)
                        modules.seek(start)
                        head = modules.read(min(length, CONTENT)).splitlines()
                        contents[module] = " ".join(said_at_head(head, "content"))
            return cls(common.sum_of(files), contents) if all(contents.values()) else None
        except (OSError, ValueError, TypeError):
            return None


def said_at_head(lines: Iterable[bytes], word: str) -> list[str]:
    """Returns the texts after this word in the header lines of a kept module. Reads no lines after the header except
    the first."""
    found, begin = [], HEAD + word.encode() + b" "
    for line in lines:
        if not line.startswith(HEAD):
            break
        if line.startswith(begin):
            found.append(line[len(begin) :].decode().rstrip("\n"))
    return found


def crate_of(module: str) -> str:
    """Returns the crate's name in the checker's name of a module, such as `Rattle-ob0_text-specs.Texts`. Returns "" if
    there is none."""
    found = re.match(r"Rattle-(\w+)", module)
    return found[1] if found else ""


def seen_path(name: str) -> str:
    return os.path.join(TOP, "crates", name, "out", "seen")


def keep_seen(name: str, below: list[str]) -> None:
    """Writes the list of the modules of other crates that the checker read for a crate's proofs. Modules that it makes
    from functions' bodies are left out. The kept proofs contain these names."""
    seen = {"none"}
    for at, _, names in os.walk(os.path.join(TOP, "crates", name, "out", "incremental")):
        for it in names:
            with open(os.path.join(at, it), "rb") as file:
                seen.update(line.split(" ")[0] for line in said_at_head(file, "saw"))
    with open(seen_path(name), "w", encoding="utf-8") as file:
        rests = (it for it in seen if it == "none" or crate_of(it) in below and it.rpartition(".")[2] not in OF_BODIES)
        file.write("\n".join(sorted(rests)) + "\n")


class Proved:
    """The record in crates/NAME/out/proved that a crate was proved: the command, the checksum of the sources, the
    library's stamp, and the checksum of the parts of other crates that its proofs have read."""

    def __init__(self, name: str, words: list[str], sum_of_all: str, rests: list[str]) -> None:
        self.name, self.words, self.sum, self.rests = name, words, sum_of_all, rests
        self.marks = marks(rests)

    @property
    def path(self) -> str:
        return os.path.join(TOP, "crates", self.name, "out", "proved")

    @property
    def text(self) -> str:
        """Returns the text with which `out/proved` begins if the crate is up to date."""
        return "\n".join([" ".join(self.words), self.sum, text_of(self.library), ""])

    @property
    def library(self) -> str:
        """Returns the path of the library's stamp, in which `rt` records the library's sources."""
        return os.path.join(TOP, "crates", self.name, "out", "rlib", "stamp")

    def is_current(self) -> bool:
        """Returns whether the crate was proved from the present sources. If other crates need its library, the library
        must also exist."""
        has_library = os.path.isdir(library_of(self.name)) and text_of(self.library)
        return text_of(self.path).startswith(self.text) and bool(has_library or self.words[1] != "lib")

    def has_read(self, read: str) -> bool:
        """Returns whether the crate was last proved by the same command, and its proofs read parts of other crates with
        this checksum."""
        lines = text_of(self.path).split("\n")
        return bool(read) and len(lines) > 3 and (lines[0], lines[3]) == (" ".join(self.words), read)

    def keep(self, read: str) -> None:
        """Records that the crate was proved. Does nothing if a file that its proof depends on was written during the
        proof."""
        if marks(self.rests) == self.marks:
            with open(self.path, "w", encoding="utf-8") as file:
                file.write(f"{self.text}{read}\n")


def text_of(path: str) -> str:
    """Returns a file's text, or "" if it can't be read."""
    try:
        with open(path, encoding="utf-8") as file:
            return file.read()
    except OSError:
        return ""


class Modules(NamedTuple):
    """The number of a crate's modules that a check loaded, and the number that it proved."""

    loaded: int
    checked: int

    def __str__(self) -> str:
        return f"{self.loaded} modules loaded, {self.checked} proved again" if any(self) else "up to date"


def modules_of(name: str, said: str) -> Modules:
    """Returns the counts of modules that a check printed about a crate, or zeros if it printed none."""
    found = re.findall(rf"^crate {name}: modules loaded=(\d+) checked=(\d+)", said, re.M)
    return Modules(*map(int, found[-1])) if found else Modules(0, 0)


class Work:
    """One crate that is being proved, in a separate folder."""

    def __init__(self, name: str, named: dict[str, list[str]], jobs: int, is_check: bool) -> None:
        self.name, self.room = name, os.path.join(ROOMS, name)
        self.out, self.moved = os.path.join(TOP, "crates", name, "out"), os.path.join(self.room, "crates", name, "out")
        self.furnish(named)
        self.log = os.path.join(self.moved, "build.log")
        words = command(name, named, is_check)
        words += ["--jobs", str(jobs)] if "--" not in words else []
        with open(self.log, "wb") as out:
            how: dict[str, Any] = {"cwd": os.path.join(self.room, "crates", name), "stdin": subprocess.DEVNULL, "stdout": out}
            # (a separate group, so that it can be ended as a whole. In a separate session `nice` would have no effect:
            # the system divides the processors among sessions first)
            self.process = subprocess.Popen(words, preexec_fn=os.setpgrp, stderr=subprocess.STDOUT, **how)

    def furnish(self, named: dict[str, list[str]]) -> None:
        """Creates the folder in which the crate is proved, and moves the crate's kept proofs there."""
        furnish(self.room, self.name, named)
        if os.path.isdir(self.out):
            os.rename(self.out, self.moved)
        os.makedirs(self.moved, exist_ok=True)

    def leave(self) -> None:
        """Moves the folder with the kept proofs back to the crate's own folder, and removes the separate folder."""
        if os.path.isdir(self.moved):
            shutil.rmtree(self.out, ignore_errors=True)
            os.rename(self.moved, self.out)
            self.log = os.path.join(self.out, "build.log")
        shutil.rmtree(self.room, ignore_errors=True)

    def end(self) -> None:
        """Stops this check and its processes, and moves its work back."""
        try:
            os.killpg(self.process.pid, signal.SIGTERM)
            self.process.wait()
        except OSError:
            pass
        self.leave()

    def said(self) -> str:
        with open(self.log, encoding="utf-8", errors="replace") as file:
            return file.read()

    def modules(self) -> Modules:
        """Returns how many of the crate's modules were loaded, and how many were proved again. Both are 0 if its
        library is up to date."""
        return modules_of(self.name, self.said())

    def errors(self) -> str:
        """Returns the lines of the log that contain an error or an unproved goal, or the end of the log if there are
        none."""
        said = self.said()
        return "\n".join(it for it in said.split("\n") if re.search(r": error\b|\berror\[|it is not proved", it)) or said[-4000:]

    def at(self) -> str:
        """Returns the progress that the check last printed, or "" if it hasn't printed any."""
        found = re.findall(r"^so far: (\d+ of \d+ functions) checked", self.said(), re.M)
        return f", {found[-1]} checked" if found else ""


def end_all(running: dict[str, Work]) -> None:
    while running:
        running.popitem()[1].end()


def main(words: list[str]) -> int:
    """Proves the crates, and builds the program unless `--check` is given. Returns the exit status."""
    is_check = "--check" in words
    # (if the program is up to date, no toolchain is needed)
    if not is_check and common.is_current():
        print("bin/ob0 is up to date", flush=True)
        if common.kit():
            notices.of_program()
        return 0
    common.need("rt")
    with common.one_at_a_time():
        return carry_out(Plan(is_check))


def prove_libraries(names: Iterable[str]) -> int:
    """Proves some crates and the crates that they depend on, as --check does. Also builds each library that isn't made
    from the present sources. Returns the exit status."""
    return carry_out(Plan(True, names, True))


def carry_out(plan: Plan) -> int:
    """Carries out a plan, and returns the exit status. If a signal arrives, the running checks are stopped and the
    proved work is moved back first. (A signal that `nohup` ignores has no effect.)"""
    running: dict[str, Work] = {}
    came: list[int] = []
    others = {it: signal.getsignal(it) for it in common.ENDING}
    for it in (it for it in common.ENDING if others[it] != signal.SIG_IGN):
        signal.signal(it, lambda number, _: came.append(number))
    try:
        return prove_all(running, plan, came)
    finally:
        end_all(running)
        shutil.rmtree(ROOMS, ignore_errors=True)
        for it in common.ENDING:
            signal.signal(it, others[it])


class Plan:
    """Records which crates are done and which are left. A crate is left if it has to be proved, or if its library has
    to be built again because another crate needs it. An exact plan rebuilds every library that isn't made from the
    present sources."""

    def __init__(self, is_check: bool, tops: Iterable[str] = (), is_exact: bool = False) -> None:
        self.named, self.is_check, self.is_exact, self.timer = common.libraries(), is_check, is_exact, common.Timer()
        tops = tops or (self.named if is_check else ["ob0"])
        self.all = list(dict.fromkeys(it for top in tops for it in common.below(top, self.named)))
        self.sums = Sums(self.named)
        self.kept = {it: Proved(it, self.command(it), self.sums.of_sources(it), common.below(it, self.named)) for it in self.all}
        # (the crate with the longest chain above it goes first)
        self.heights = {name: chain(name, self.named) for name in self.all}
        self.done: dict[str, Modules] = {}
        self.built: set[str] = set()  # the crates with a library that is made from the present sources
        self.again: set[str] = set()  # the crates with a library that is to be built again
        self.alike: set[str] = set()  # the crates whose proofs have read nothing that changed
        self.open: set[str] = set()  # the crates that aren't recorded as proved

    def command(self, name: str) -> list[str]:
        return command(name, self.named, self.is_check)

    def is_kept(self, name: str) -> bool:
        """Returns whether a crate needn't be proved again, provided that the crates it depends on are done, and records
        the answer in `built`, `alike` or `open`. (Only `rt` knows whether the program's executable is up to date.)"""
        kept = self.kept[name]
        if name not in self.open and kept.words[1] != "run":
            if kept.is_current():
                self.built.add(name)
                return True
            if self.is_check and not self.is_exact and kept.has_read(self.sums.of_read(name)):
                self.alike.add(name)
                return True
        self.open.add(name)
        return False

    def ready(self, running: Iterable[str]) -> list[str]:
        """Returns the crates that can be proved, or whose library can be built again, now. The crates on which the
        longest chain of crates depends come first. Also records the crates that needn't be proved as done, and the
        libraries that have to be built again before a crate can be proved."""
        found = []
        for name in self.all:
            if name in running or name in self.done and name not in self.again:
                continue
            if not all(low in self.done for low in self.named[name]):
                continue
            if name not in self.done and self.is_kept(name):
                self.done[name] = Modules(0, 0)
                continue
            stale = {it for it in self.kept[name].rests if it != name and it not in self.built}
            self.again |= stale
            found += [name] * (not stale)
        return sorted(found, key=lambda it: -self.heights[it])

    def take(self, name: str, modules: Modules) -> None:
        """Records that a crate was proved, or its library built again."""
        self.done[name] = modules
        self.built.add(name)
        self.again.discard(name)
        self.sums.shown.pop(name, None)
        keep_seen(name, self.kept[name].rests[:-1])
        self.kept[name].keep(self.sums.of_read(name))

    @property
    def is_done(self) -> bool:
        return len(self.done) == len(self.all) and not self.again

    def say(self, text: str) -> None:
        print(f"[{self.timer}] {text}", flush=True)

    def left(self) -> str:
        return f"{len(self.all) - len(self.done)} of {len(self.all)} crates are left"


def prove_all(running: dict[str, Work], plan: Plan, came: list[int]) -> int:
    """Proves the crates of a plan. Stops early if a signal arrives or, in a build, at the first failure. Returns the
    exit status."""
    failed: list[str] = []
    ready, most, shown_at = plan.ready(running), lanes(), time.monotonic()
    plan.say(f"{len(plan.done)} of {len(plan.all)} crates are up to date")
    while not plan.is_done:
        # (a check with more jobs takes more processor time in all, so it only gets idle processors)
        jobs = max(1, processors() // max(1, min(most, len(ready) + len(running))))
        for name in ready:
            if len(running) < most:
                running[name] = Work(name, plan.named, jobs, plan.is_check)
                plan.say(f"{name}: {'building its library again' if name in plan.done else 'proving it'}; {plan.left()}")
        time.sleep(0.2)
        if came:
            return 128 + came[0]
        for name, work in list(running.items()):
            if work.process.poll() is None:
                continue
            del running[name]
            work.leave()
            if work.process.returncode:
                failed.append(name)
                print(work.errors() if plan.is_check else work.said()[-4000:], file=sys.stderr)
                plan.say(f"{name}: NOT PROVED; above are lines of crates/{name}/out/build.log")
                if not plan.is_check:
                    return 1
                continue
            plan.take(name, work.modules())
            plan.say(f"{name}: proved{f', {plan.done[name]}' if plan.is_check else ''}; {plan.left()}")
        ready = [it for it in plan.ready(running) if it not in failed]
        if failed and not ready and not running:
            plan.say(f"NOT PROVED: {', '.join(failed)}; {plan.left()}, with the crates that need them")
            return 1
        if time.monotonic() - shown_at > STEP and running:
            shown_at = time.monotonic()
            plan.say(f"at {'; '.join(f'{it.name}{it.at()}' for it in running.values())}; {plan.left()}")
    return end(plan)


def end(plan: Plan) -> int:
    """Prints what was done, and copies the program to bin/ob0 if one was built. Returns the exit status."""
    if plan.is_check:
        found = plan.done.values()
        again = sum(it.checked > 0 for it in found)
        total = Modules(*(sum(it) for it in zip(*found)))
        plan.say(f"{len(plan.all)} crates are proved over kept work: {total}, the latter in {again} of them")
        if plan.alike:
            plan.say(f"{len(plan.alike)} were skipped, since nothing that their proofs have read below them changed")
        plan.say("this is not the gate: `make test` is")
        return 0
    common.keep(os.path.join(TOP, "crates", "ob0", "out", "ob0"))
    notices.keep()
    plan.say(f"built {os.path.relpath(BINARY, TOP)}")
    return 0


if __name__ == "__main__":
    sys.exit(main(sys.argv[1:]))
