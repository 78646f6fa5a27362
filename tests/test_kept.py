"""Tests which crates `make check` proves again and which it skips. tools/build.py works on a made-up repository."""
from __future__ import annotations

import contextlib
import json
import os
import shutil
import tempfile
from typing import Callable, Dict, Iterator, List
from unittest import mock

import build
import common
from harness import holds, same, test

CRATES: Dict[str, List[str]] = {"low": [], "high": ["low"], "other": []}
# The same with a chain of three crates: `top` depends on `high`, and `high` depends on `low`.
CHAIN: Dict[str, List[str]] = {"low": [], "high": ["low"], "top": ["high", "low"], "other": []}


def write(path: str, text: str) -> None:
    path = os.path.join(common.TOP, path)
    os.makedirs(os.path.dirname(path), exist_ok=True)
    with open(path, "w", encoding="utf-8") as file:
        file.write(text)


def module(name: str, says: str, *seen: str) -> str:
    """Returns a module as the checker stores it. Its head contains a checksum of its statements, and the modules that
    it has read (`seen`)."""
    saw = "".join(f"--@ saw {it} part part\n" for it in seen)
    return f"--@ module {name}\n--@ content sha256:{says.replace(' ', '-')}\n--@ exports sha256:names\n{saw}--@ axioms []\nwhat else is kept\n--@ saw Rattle-other-specs.Lib\n"


def library(name: str, stamp: str, body: str = "a body", contract: str = "a contract", unseen: str = "a definition") -> None:
    """Writes a crate's library as `rt lib` does, with the modules that the checker stored."""
    folder = f"crates/{name}/out/rlib/{name}.rlib"
    says = {f"Rattle-{name}-proofs.f.Lts": body, f"Rattle-{name}-specs.contracts.f": contract, f"Rattle-{name}-specs.Unseen": unseen}
    modules = {it: module(it, says[it]) for it in says}
    starts = [sum(len(it) for it in [*modules.values()][:at]) for at in range(len(modules))]
    write(f"{folder}/interface/lang/src/lib.rt", "pub fn f();")
    write(f"{folder}/toolchain/checked.a", "".join(modules.values()))
    rows = [*([it, at, len(modules[it])] for it, at in zip(modules, starts)), ["sum/all", 0, 4]]
    write(f"{folder}/toolchain/checked.json", "".join(json.dumps(it) + "\n" for it in rows))
    write(f"crates/{name}/out/rlib/stamp", stamp)


def kept() -> Dict[str, build.Proved]:
    sums = build.Sums(CRATES)
    return {it: build.Proved(it, ["rt", "lib"], sums.of_sources(it), common.below(it, CRATES)) for it in CRATES}


def keep_all(found: Dict[str, build.Proved]) -> None:
    for name, it in found.items():
        build.keep_seen(name, it.rests[:-1])
        it.keep(build.Sums(CRATES).of_read(name))


def current() -> List[str]:
    return [name for name, it in kept().items() if it.is_current()]


def plan() -> build.Plan:
    """Returns the plan that `make check` makes at its start."""
    found = build.Plan(True)
    found.ready([])
    return found


@contextlib.contextmanager
def repository() -> Iterator[str]:
    """Makes a folder with the crates of CRATES and their libraries, uses it in place of the repository, and yields its
    path."""
    with tempfile.TemporaryDirectory() as top, mock.patch.object(common, "TOP", top), mock.patch.object(build, "TOP", top):
        with mock.patch.object(common, "kit", lambda: "a kit"), mock.patch.object(build, "command", lambda *given: ["rt", "lib"]):
            write("HANDLES", "Handles allowed: none.\n")
            write("crates.txt", "".join(f"{it}: {' '.join(CRATES[it])}\n" for it in CRATES))
            for name in CRATES:
                write(f"crates/{name}/src/lib.rt", "")
                library(name, "first")
                seen = [f"Rattle-{it}-{part}" for it in (*CRATES[name], name) for part in ("specs.contracts.f", "proofs.f.Lts")]
                write(f"crates/{name}/out/incremental/checker/g.Proof.oantt", module("g.Proof", "a proof", *seen))
            yield top


@test("kept: `make check` skips a proved crate until the crate's sources, dependencies or library change")
def left_as_it_is() -> None:
    with repository() as top:
        same(current(), [], "before anything was proved")
        keep_all(kept())
        same(current(), ["low", "high", "other"], "after all was proved")
        write("crates/low/specs/Lib.antt", "-- a definition\n")
        same(current(), ["other"], "after a change in the lowest")
        os.remove(os.path.join(top, "crates/low/specs/Lib.antt"))
        same(current(), ["low", "high", "other"], "after the change was taken back")
        library("low", "second")
        same(current(), ["high", "other"], "a library is of other sources")
        shutil.rmtree(os.path.join(top, "crates/high/out/rlib"))
        same(current(), ["other"], "a library is missing")
        with mock.patch.object(common, "kit", lambda: "another kit"):
            same(current(), [], "with another kit")
        write("HANDLES", "Handles allowed: Threads.\n")
        same(current(), [], "after a change of what programs may use")


@test("kept: a crate doesn't count as proved if one of its sources changed during its proof")
def written_meanwhile() -> None:
    with repository():
        before = kept()
        write("crates/low/src/lib.rt", "// another\n")
        keep_all(before)
        write("crates/low/src/lib.rt", "")
        same(current(), ["other"], "what rests on no source that was written")


@test("kept: if only bodies changed, dependent crates aren't proved again, and their libraries are rebuilt when needed")
def bodies_alone() -> None:
    with mock.patch.dict(CRATES, CHAIN), repository():
        keep_all(kept())
        same([*plan().done], ["low", "high", "other", "top"], "nothing changed")
        write("crates/low/src/lib.rt", "// another body\n")
        first = plan()
        same(([*first.done], first.ready([])), (["other"], ["low"]), "after a change of a body")
        library("low", "second", "another body")
        first.take("low", build.Modules(5, 1))
        same((first.ready([]), first.is_done), ([], True), "after it was proved again")
        same([*plan().done], ["low", "high", "other", "top"], "a second time")
        exact = build.Plan(True, ["high"], True)
        same((exact.ready([]), [*exact.done], exact.all), (["high"], ["low"], ["low", "high"]), "where mutants are tried over its library")
        write("crates/top/src/lib.rt", "// another body\n")
        second = plan()
        same((second.ready([]), second.is_done), (["high"], False), "the library below one that changed is built first")
        library("high", "second")
        second.take("high", build.Modules(5, 0))
        same(second.ready([]), ["top"], "then it is proved")
        second.take("top", build.Modules(5, 1))
        same(second.is_done, True, "and nothing else is")


@test("kept: a crate is proved again if a contract that its proofs read has changed, or if those contracts are unknown")
def contracts_too() -> None:
    with repository():
        keep_all(kept())
        path = "crates/low/out/rlib/low.rlib/"
        changes: Dict[str, Callable[[], None]] = {
            "a contract": lambda: library("low", "second", contract="another contract"),
            "a file of the interface": lambda: write(f"{path}interface/lang/src/lib.rt", "pub fn g();"),
            "a module less": lambda: write(f"{path}toolchain/checked.json", ""),
            "an unknown form": lambda: write(f"{path}toolchain/checked.json", "modules\n"),
            "no library": lambda: shutil.rmtree(os.path.join(common.TOP, path)),
            "no list of read modules": lambda: os.remove(os.path.join(common.TOP, "crates/high/out/seen")),
        }
        for what, change in changes.items():
            library("low", "first")
            holds(plan().kept["high"].has_read(build.Sums(CRATES).of_read("high")), f"before {what}")
            change()
            holds(not plan().kept["high"].has_read(build.Sums(CRATES).of_read("high")), what)


@test("kept: a crate is skipped if only definitions that its proofs don't read have changed")
def definitions_of_others() -> None:
    with repository():
        keep_all(kept())
        library("low", "second", unseen="another definition")
        holds(plan().kept["high"].has_read(build.Sums(CRATES).of_read("high")), "high hasn't read the definition")
