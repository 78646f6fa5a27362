"""Tests how the numbers of random tests are chosen, and how a failing text is shortened."""
from __future__ import annotations

import contextlib
import io
import os
from typing import Callable, List, Optional, Tuple
from unittest import mock

import against_reference
import random_texts
import seeds
from harness import Failed, Server, holds, need_program, same, test
from shrinking import fail_shortly, shrunk

TEXT = "MODULE M; (* a comment *)\nVAR x: INTEGER;\nBEGIN\n  x := 0;\n  WHILE x < 7 DO x := x + 1 END; (* é *)\n  Write(x)\nEND M.\n"


def begun(count: int, given: Optional[str]) -> Tuple[List[int], str]:
    """Returns the first `count` numbers and the text printed about them, if the commit's first number is 5000 and
    OB0_SEED is `given`."""
    with mock.patch.dict(os.environ), mock.patch.object(seeds, "of_commit", lambda: 5000), contextlib.redirect_stdout(io.StringIO()) as said:
        os.environ.pop("OB0_SEED", None)
        if given:
            os.environ["OB0_SEED"] = given
        return seeds.seeds(count), said.getvalue()


@test("seeds: half of the seeds depend on the commit unless OB0_SEED is set, and the first seeds are printed")
def half_of_them() -> None:
    same(begun(6, None), ([0, 1, 2, 5000, 5001, 5002], "    seeds begin at 0 and 5000\n"))
    same(begun(1, None)[0], [0, 5000], "for one of each")
    same(begun(3, "77"), ([77, 78, 79], "    seeds begin at 77\n"), "with OB0_SEED=77")


@test("seeds: a failing text is shortened by whole lexemes as long as the shorter text still fails")
def shorter() -> None:
    rows: List[Tuple[Callable[[str], bool], str]] = [
        (lambda it: "WHILE" in it and "+" in it, "WHILE +"),
        (lambda it: "é" in it, "(* é *)"),
        (lambda it: it.count("x") > 3, "x x x x"),
        (lambda it: True, ""),
    ]
    for fails, wanted in rows:
        found = shrunk(TEXT, fails)
        holds(fails(found), f"{found!r} doesn't fail")
        same("".join(found.split()), "".join(wanted.split()), "the shortest text")


@test("seeds: a check that fails only once isn't reported as failing on a shorter text")
def by_chance() -> None:
    times = [0]

    def check(text: str) -> None:
        times[0] += 1
        holds(times[0] > 1, text)

    fail_shortly(TEXT, lambda text: None)
    fail_shortly(TEXT, check)


@test("seeds: a result that differs from the reference's is shown with a shortened text and its seed")
def against_another() -> None:
    need_program()
    diagnostics, run = against_reference.diagnostics_of, against_reference.Short
    wrong = lambda text: [] if "DIV" in text else diagnostics(text)

    class Wrong(run):  # type: ignore[misc, valid-type]
        def output(self) -> str:
            found: str = super().output()
            return found.replace("7", "8")

    module = "MODULE M; VAR x: INTEGER;\nBEGIN x := 7; Write(x); x := y DIV 3 END M."
    with Server() as server, mock.patch.object(against_reference, "diagnostics_of", wrong):
        fails_on(lambda: against_reference.same_diagnostics(server, module, 5), "seed 5 (OB0_SEED=5 tries it again)", "\nDIV \n")
    program: random_texts.Program = (module.replace("y DIV 3", "x DIV 3"), [], 3, 3)
    with mock.patch.object(against_reference, "Short", Wrong):
        fails_on(lambda: against_reference.run_of(lambda _: program, 6), "seed 6 (OB0_SEED=6 tries it again)", "BEGIN x := 7; Write(x)END M.\n")


def fails_on(check: Callable[[], object], *words: str) -> None:
    """Requires a check to fail with a message that contains each of these words."""
    try:
        check()
    except Failed as why:
        for it in words:
            holds(it in str(why), f"no {it!r} in {why}")
    else:
        raise Failed("the check didn't fail")
