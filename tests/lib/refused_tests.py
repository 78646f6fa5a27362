"""Runs the tests of the crates whose names begin with `a_refused_`, and makes each of their allocations fail, one at a
time. The programs that contain these tests are the ones that `rt ci` and `rt test` leave in crates/NAME/out."""
from __future__ import annotations

import functools
import itertools
import os
import subprocess
from collections.abc import Callable, Iterator

import failing
from harness import TOP, holds, leave_out, need_program, same

CRATES = ("ob0_tests_low", "ob0_tests_language", "ob0_tests_session", "ob0_tests_world")


def program_of(crate: str) -> str:
    """Returns the path of the program that contains a crate's tests. Skips this test if it doesn't exist."""
    need_program()  # (`make test` makes the program and the program of the tests)
    program = os.path.join(TOP, "crates", crate, "out", f"{crate}_tests")
    if not os.access(program, os.X_OK):
        leave_out(f"the program of the tests of {crate} isn't here (`make test`, or `rt test` in its folder, makes it)")
    return program


def tests_of(crate: str) -> list[str]:
    """Returns the names of a crate's tests that begin with `a_refused_`."""
    ran = subprocess.run([program_of(crate), "--list"], stdout=subprocess.PIPE, check=True)
    names = [line.partition(": test")[0] for line in ran.stdout.decode().splitlines()]
    return [it for it in names if it.rpartition("::")[2].startswith("a_refused_")]


def played(out: bytes) -> list[tuple[int, ...]]:
    """Returns the numbers on each line of a test's output that begins with `played`: the events that were made, and
    their results."""
    lines = [it for it in out.decode().splitlines() if it.startswith("played ")]
    return [tuple(map(int, it.split()[1:])) for it in lines]


# two tests that print the events made before an allocation fails: by `play` all at once, and one by one
PLAYED, STEPPED = "world::a_refused_event_keeps_earlier_results", "world::a_refused_step_keeps_earlier_results"


def refusals(crate: str, test: str) -> list[list[tuple[int, ...]]]:
    """Runs a test once for each of its allocations, and makes that allocation fail; then once without failures. Returns
    the numbers that each run prints after `played`."""
    words = [program_of(crate), test]
    plain = failing.undisturbed(words)
    numbers = range(1, plain.calls["memory"] + 1)
    found = [played(it.out) for it in failing.walk(words, b"", None, "memory", numbers) for _ in it.numbers]
    holds(all(found), f"{test} doesn't print what was played")
    return [*found, played(plain.out)]


def plays_exactly(crate: str) -> str:
    """Checks that playing events at once gives the same results as making them one by one, whichever allocation fails.
    Returns a line of statistics."""
    ones, others = refusals(crate, PLAYED), refusals(crate, STEPPED)
    whole = others[-1]
    same(ones[-1], whole, "the results if nothing is refused")
    for number, (one, other) in enumerate(itertools.zip_longest(ones, others, fillvalue=whole), 1):
        same(one, other, f"what was played with allocation {number} refused")
    holds(len({it[0][0] for it in others}) > whole[0][0] // 2, "hardly any event was refused")
    return f"{len(others):,} allocations"


def walk(crate: str, test: str, most: int) -> str:
    """Runs a test once for each of its allocations, and makes that allocation fail. If there are more than `most`,
    tries only every second, third and so on. Returns a line of statistics."""
    words = [program_of(crate), test]
    plain = failing.undisturbed(words)
    calls = plain.calls["memory"]
    holds(plain.status == 0 and calls, f"{test} fails though nothing is refused, or takes no memory")
    numbers = range(1, calls + 1, max(1, calls // most))
    for run in failing.walk(words, b"", None, "memory", numbers):
        where = f"{test}, allocation {run.numbers[0]} of {calls}"
        holds(run.is_touched, f"{where} wasn't refused")
        same((run.status, run.out.endswith(b"test result: ok\n")), (0, True), f"{where}: {run.err.decode(errors='replace')}")
    return f"{len(numbers):,} allocations" + (f"; {calls:,} in all" if len(numbers) < calls else "")


def checks(crate: str, most: int) -> Iterator[tuple[str, Callable[[], str]]]:
    """Yields the checks of a crate's tests: a name, and a function that carries out the check and returns a line of
    statistics."""
    found = tests_of(crate)
    for test in found:
        yield test, functools.partial(walk, crate, test, most)
    if STEPPED in found:
        yield "what was played, exactly", functools.partial(plays_exactly, crate)
