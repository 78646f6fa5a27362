#!/usr/bin/env python3
"""Lists the modules on which a crate's proof spends its time, judged by the files that its last check from scratch left
in out/incremental.
  tools/costs.py [--least SECONDS] CRATE..   the modules that took at least so long (2 seconds, if no number is given)
A check with one job writes a file as soon as a module is proved, so a module took the time since the previous file. The
figures mean nothing for a crate that was checked in parts or by several jobs. If other work ran, they are too high, but
still show which module costs most. (`make build` and `make check` give a crate one job while as many crates as possible
are being proved.)"""
import argparse
import collections
import glob
import os
import re
import sys
from typing import Dict, Iterator, List, NamedTuple

import common

# If no file was written for longer than this, the next file belongs to another check.
PAUSE = 120.0
# (what rattle makes for a function, by the last part of its module's name; all else of it is 'other modules')
OF_FUNCTIONS = ("Lts", "Proof", "Tie", "Answers", "Invariants")


class Module(NamedTuple):
    """A proved module, and how many seconds its proof took."""

    name: str
    seconds: float

    def kind(self, lemmas: List[str]) -> str:
        """Returns the kind of a module: definitions, lemmas, the kind of module that the toolchain makes for functions,
        or "other modules"."""
        part, _, inside = self.name.partition(".")
        if part == "specs" and "." not in inside:
            return "definitions"
        if inside in lemmas:
            return "lemmas"
        last = re.match(r"[A-Za-z]*", inside.rpartition(".")[2])
        return last[0] if last and last[0] in OF_FUNCTIONS else "other modules"

    @property
    def function(self) -> str:
        """Returns the path of the function that the module belongs to, or the module's name if it belongs to none."""
        part, _, inside = self.name.partition(".")
        path = inside.split(".")
        if part != "proofs" or len(path) < 2:
            return self.name
        # (a type's name is part of a function's path, the words after the function aren't)
        end = len(path)
        while end > 1 and re.match(r"[A-Z]\w*(?:-[\w-]+)?$", path[end - 1]):
            end -= 1
        return ".".join(path[:end])


def modules_of(crate: str) -> List[Module]:
    """Returns the modules of a crate in the order in which they were proved, each with the time since the previous
    module's file. Leaves out the first one, and each module whose file was written PAUSE seconds or more after the
    previous one."""
    kept = os.path.join(common.TOP, "crates", crate, "out", "incremental", "*", f"Rattle-{crate}[-.]*.oantt")
    files = sorted((os.stat(it).st_mtime, it) for it in glob.glob(kept))
    found = []
    for (before, _), (now, path) in zip(files, files[1:]):
        name = os.path.basename(path)[len(f"Rattle-{crate}") + 1 : -len(".oantt")]
        if now - before < PAUSE:
            found.append(Module(name, now - before))
    return found


def lemmas_of(crate: str) -> List[str]:
    """Returns the names of the files of lemmas that are directly in the folder proofs/ of a crate."""
    return [os.path.basename(it)[: -len(".antt")] for it in glob.glob(os.path.join(common.TOP, "crates", crate, "proofs", "*.antt"))]


def rows(sums: Dict[str, float], least: float, whole: float) -> Iterator[str]:
    for name, seconds in sorted(sums.items(), key=lambda it: -it[1]):
        if seconds >= least:
            yield f"  {seconds:7.1f} s  {100 * seconds / whole:3.0f} %  {name}"


def show(crate: str, least: float) -> bool:
    """Prints what the modules of one crate cost. Returns False if its last check left no files."""
    modules, lemmas = modules_of(crate), lemmas_of(crate)
    whole = sum(it.seconds for it in modules)
    if not modules:
        print(f"{crate}: nothing is kept of a check of it")
        return False
    kinds: Dict[str, float] = collections.defaultdict(float)
    functions: Dict[str, float] = collections.defaultdict(float)
    for it in modules:
        kinds[it.kind(lemmas)] += it.seconds
        functions[it.function] += it.seconds
    print(f"{crate}: {len(modules)} modules, {whole:.0f} s", *rows(kinds, 0, whole), sep="\n")
    print(f"modules of at least {least:g} s:", *rows({it.name: it.seconds for it in modules}, least, whole), sep="\n")
    print(f"functions of at least {2 * least:g} s:", *rows(functions, 2 * least, whole), sep="\n")
    return True


def main() -> int:
    words = argparse.ArgumentParser(description="Lists the modules on which the proof of a crate spends its time.")
    words.add_argument("--least", type=float, default=2.0, metavar="SECONDS")
    words.add_argument("crates", nargs="+", metavar="CRATE")
    chosen = words.parse_args()
    unknown = [it for it in chosen.crates if it not in common.listed()]
    if unknown:
        common.stop(f"crates.txt has no {', '.join(unknown)}")
    return 0 if all([show(it, chosen.least) for it in chosen.crates]) else 1


if __name__ == "__main__":
    sys.exit(main())
