"""Tests in which cases the scripts of tools/ fail, and what they count. `make test` itself doesn't run editors_of.py,
faults.py, roots.py and try_cases.py. editors.py is tested with stand-ins for the package manager."""
from __future__ import annotations

import contextlib
import importlib
import io
import os
from typing import Any, Callable, Dict, Iterator, List, Tuple
from unittest import mock

import editors
import harness
from harness import Failed, holds, same, test
from homes import temporary, write


def tool(name: str) -> Any:
    """Imports a script of tools/ while a test runs. The script may import tests, which must all be loaded before."""
    return importlib.import_module(name)


def printed(function: Callable[[], object]) -> Tuple[object, List[str]]:
    """Calls a function. Returns its result, or the status if it exits the script, and the lines that it prints."""
    with contextlib.redirect_stdout(io.StringIO()) as said, contextlib.redirect_stderr(said):
        try:
            found = function()
        except SystemExit as why:
            found = why.code
    return found, said.getvalue().splitlines()


def raises(why: Exception) -> Callable[[], str]:
    def fails() -> str:
        raise why

    return fails


@test("deciding: `make faults` counts passed, failed and skipped cases, and fails if a given word matches no case")
def faults_count() -> None:
    faults = tool("faults")
    rows: List[Tuple[str, Callable[[], str]]] = [
        ("random texts", lambda: "3 texts"),
        ("random runs", raises(Failed("another end"))),
        ("changes by keys", raises(harness.Skipped("no Kate"))),
    ]
    with mock.patch.object(faults, "all_of_it", lambda: iter(rows)), mock.patch.object(faults.figures, "keep"):
        for words, status, last in (
            ([], 1, "1 passed, 1 failed, 1 skipped"),
            (["random texts"], 0, "1 passed, 0 failed"),
            (["random"], 1, "1 passed, 1 failed"),
            (["changes"], 1, "0 passed, 1 failed, 1 skipped"),
            (["random texts", "changes"], 0, "1 passed, 0 failed, 1 skipped"),
            (["random text runs"], 1, "0 passed, 1 failed"),
        ):
            found, said = printed(lambda: faults.main(words))  # pylint: disable=cell-var-from-loop
            same((found, said[-1]), (status, last), f"with {words}")


@test("deciding: `make try` fails if a test fails or no test runs, and lists the skipped tests")
def tries_judged() -> None:
    try_cases = tool("try_cases")
    good: Tuple[str, harness.Test] = ("good", lambda: None)
    bad: Tuple[str, harness.Test] = ("bad", raises(Failed("another text")))
    long: Tuple[str, harness.Test] = ("long", lambda: None)
    unknown = {"long": try_cases.Unknown("a long file")}
    rows: List[Tuple[List[Tuple[str, harness.Test]], int, str]] = [
        ([good, long], 0, "1 passed, 0 failed, 1 skipped"),
        ([good, bad], 1, "1 passed, 1 failed"),
        ([long], 1, "0 passed, 1 failed, 1 skipped"),
        ([], 1, "0 passed, 1 failed"),
    ]
    for chosen, status, last in rows:
        found, said = printed(lambda: try_cases.judge(chosen, unknown))  # pylint: disable=cell-var-from-loop
        same((found, said[-1]), (status, last), str([name for name, _ in chosen]))
        same("left out long: it needs a long file" in said, long in chosen, "the name of the test that is left out")


@test("deciding: `make try` assigns each part of `rt try`'s output to its case, and a stopped case has no status")
def tries_taken() -> None:
    try_cases = tool("try_cases")
    cases = try_cases.Cases()
    one, other = (try_cases.Case(("check", "FILE"), text, b"") for text in (b"MODULE M; END M.", b"MODULE"))
    out = b"== case0000\n== case0001\n0:6: Syntax: expected identifier\n"
    err = b"a warning\ncase=case0000 run=ended status=0 ms=1\ncase=case0001 run=stopped ms=9\n"
    cases.take(out, err, {"case0000": one, "case0001": other})
    found = {it: (ended.out, ended.status) for it, ended in cases.found.items()}
    same(found, {one: (b"", 0), other: (b"", None)}, "the accepted results")
    same(cases.found[one].err, b"a warning\n", "what is on standard error")


@contextlib.contextmanager
def commands(scripts: Dict[str, str]) -> Iterator[str]:
    """Puts these shell scripts into a temporary folder, puts the folder first on PATH, and yields the folder. In a
    script, ROOM stands for the folder."""
    with temporary() as room:
        for name, text in scripts.items():
            write(os.path.join(room, name), "#!/bin/sh\n" + text.replace("ROOM", room))
            os.chmod(os.path.join(room, name), 0o755)
        with mock.patch.dict(os.environ, {"PATH": room + os.pathsep + os.environ["PATH"]}):
            yield room


# (the command that is run in the root comes after ten words: unshare's own, the root and the repository)
UNSHARE = """shift 10
echo "$*" >> 'ROOM/called'
case "$*" in
  "python3 tests/run.py"*) exit $TESTS ;;
  "sh -c command -v python3"*) exit $PYTHON ;;
  dpkg-query*) echo 'kate 4:22.12'; echo 'neovim' ;;
esac
"""


@test("deciding: `make editors RELEASE=..` prints editors' versions, and fails if a test or debootstrap fails")
def editors_of_release() -> None:
    editors_of = tool("editors_of")
    for made, python, tests, status in ((0, 0, 0, 0), (0, 0, 1, 1), (0, 1, 0, 1), (1, 0, 0, 1)):
        with commands({"unshare": UNSHARE, "debootstrap": f"exit {made}\n"}) as room:
            program = os.path.join(room, "unshare")
            root = os.path.join(room, "roots")
            os.makedirs(os.path.join(root, "sid", "opt"))
            own = {"OB0": program, "TESTS": str(tests), "PYTHON": str(python)}
            with mock.patch.dict(os.environ, own), mock.patch.object(editors_of, "ROOTS", root), mock.patch.object(os, "geteuid", lambda: 0):
                found, said = printed(lambda: editors_of.main("sid", "Kate"))
            same(found, status, f"the status: {said}")
            if not made and not python:
                same(said[-1], "kate 4:22.12", "the versions that were driven")
                holds("python3 tests/run.py Kate" in harness.text_of(room, "called").splitlines(), "the tests that are run")
    with commands({"unshare": "", "debootstrap": ""}), mock.patch.object(os, "geteuid", lambda: 1000):
        same(printed(lambda: editors_of.main("sid"))[0], 2, "the status for a user who isn't root")


@test("deciding: tools/roots.py reports each changed path, mode, link or byte of a root, except below /var")
def roots_compared() -> None:
    roots = tool("roots")
    changes: Dict[str, Tuple[Callable[[str], object], bool]] = {
        "nothing": (lambda at: None, True),
        "a log": (lambda at: write(os.path.join(at, "var", "log"), "x"), True),
        "another path": (lambda at: write(os.path.join(at, "usr", "new"), ""), False),
        "a path fewer": (lambda at: os.unlink(os.path.join(at, "usr", "old")), False),
        "another mode": (lambda at: os.chmod(os.path.join(at, "usr"), 0o700), False),
        "another byte": (lambda at: write(os.path.join(at, "usr", "old"), "odd"), False),
        "another link": (lambda at: os.replace(os.path.join(at, "usr", "other"), os.path.join(at, "usr", "link")), False),
    }
    for what, (change, is_same) in changes.items():
        with temporary() as room:
            write(os.path.join(room, "usr", "old"), "old")
            os.symlink("old", os.path.join(room, "usr", "link"))
            os.symlink("new", os.path.join(room, "usr", "other"))
            os.makedirs(os.path.join(room, "var"))
            before = roots.state(room)
            change(room)
            found, said = printed(lambda: roots.same_state(room, before, what))  # pylint: disable=cell-var-from-loop
            same(found, None if is_same else 1, f"{what}: {said}")
    same(printed(lambda: roots.ran(["sh", "-c", "exit 3"]))[0], 1, "the status after a command that fails")
    same(roots.ran(["sh", "-c", "echo well"]), "well\n", "what a command prints")


@test("deciding: `make editors` tries each package by itself if installing all fails, and stops after 15 minutes")
def installing() -> None:
    apt = """echo "$5 $6 $7 $8 $9" >> 'ROOM/called'
case "$*" in *bad*) exit 1 ;; esac
for it in good better; do case "$*" in *$it*) touch "ROOM/has-$it" ;; esac; done
"""
    with commands({"apt-get": apt, "sudo": 'shift 1; exec "$@"\n'}) as room:
        has: Callable[[str], Callable[[], bool]] = lambda name: lambda: os.path.exists(os.path.join(room, f"has-{name}"))
        table = {name: (has(name), name) for name in ("good", "bad", "better")}
        table["none"] = (lambda: False, "")
        with mock.patch.object(editors, "TOOLS", table):
            editors.is_here.cache_clear()
            found, said = printed(lambda: editors.main([]))
            same((found, said[-1]), (0, "missing: bad, none; `make test` lists the tests that need them"), str(said))
            with mock.patch.object(editors, "LONGEST", -1):
                editors.is_here.cache_clear()
                called = len(harness.text_of(room, "called").splitlines())
                found, said = printed(lambda: editors.main([]))
                holds(any("bad could not be installed" in it for it in said), str(said))
                holds(len(harness.text_of(room, "called").splitlines()) <= called + 2, "what is tried when the time is over")
        editors.is_here.cache_clear()
