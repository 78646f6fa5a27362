"""Tests that tests/run.py repeats failed tests, ends slow ones, skips tests and counts results. The tables of tests are
made up."""
from __future__ import annotations

import contextlib
import io
import os
import signal
import subprocess
import sys
import tempfile
import time
from typing import Callable, Dict, Iterator, List, Tuple
from unittest import mock

import editors
import harness
import processes
import run
from harness import Failed, holds, same, test


def note(path: str, line: str) -> List[str]:
    """Appends a line to a file, and returns the lines that the file had before."""
    with open(path, "a+", encoding="utf-8") as file:
        file.seek(0)
        before = file.read().splitlines()
        file.write(line + "\n")
    return before


def drives(path: str, name: str, *failing: int) -> None:
    """Fails in the runs with these numbers, counted from 1. Stands in for a test that needs an editor."""
    harness.want("Kate")
    time_ = note(path, name).count(name) + 1
    if time_ in failing:
        raise Failed(f"{name} fails, time {time_}")


def alone(path: str, name: str, *tools: str) -> None:
    """Fails in its first run. Stands in for a test that needs these tools but no editor."""
    harness.want(*tools)
    holds(note(path, name).count(name), f"{name} fails")


def waits(path: str, name: str, first: List[str]) -> None:
    """Waits until the tests in `first` have written their names to the file, and writes its own. Stands in for a slow
    test."""
    while not set(first) <= set(note(path, "waiting")):
        time.sleep(0.01)
    note(path, name)


def gone(path: str, name: str) -> None:
    """Exits the process without a result. Stands in for a test that crashes."""
    note(path, name)
    os._exit(3)


@contextlib.contextmanager
def whole(is_whole: bool) -> Iterator[None]:
    """Sets OB0_WHOLE, as `make test` does, or removes it, during a `with` block. OB0_MAY_LACK is removed in both
    cases."""
    with mock.patch.dict(os.environ):
        for name in ("OB0_WHOLE", "OB0_MAY_LACK"):
            os.environ.pop(name, None)
        if is_whole:
            os.environ["OB0_WHOLE"] = "1"
        yield


def counted(tests: Dict[str, harness.Test], lacks: Tuple[str, ...] = (), is_whole: bool = False, is_first: bool = False) -> Tuple[str, str, str]:
    """Runs these tests as if the tools in `lacks` were missing. Returns the counts, the output, and the lines written
    to bin/results."""
    with tempfile.TemporaryDirectory() as room, whole(is_whole):
        results = os.path.join(room, "results")
        note(results, "")
        with mock.patch.object(harness, "TESTS", [*tests.items()]), mock.patch.object(editors, "is_here", lambda name: name not in lacks):
            with mock.patch.object(run, "RESULTS", results), contextlib.redirect_stdout(io.StringIO()) as said:
                counts = run.counted([*range(len(tests))], is_first)
        with open(results, encoding="utf-8") as file:
            return str(counts), said.getvalue(), file.read().strip()


@test("again: a test that drives an editor runs three more times if it fails, and counts as failed after two failures")
def three_more_times() -> None:
    with tempfile.TemporaryDirectory() as room:
        path = os.path.join(room, "order")
        counts, said, kept = counted({
            "once": lambda: drives(path, "once", 1),
            "twice": lambda: drives(path, "twice", 1, 4),
            "never": lambda: drives(path, "never"),
            "last": lambda: waits(path, "last", ["once", "twice", "never"]),
        }, is_whole=True)  # fmt: skip
        order = [it for it in note(path, "") if it != "waiting"]
    same(counts, "3 passed, 1 failed", said)
    same((sorted(order[:3]), order[3], sorted(order[4:])), (["never", "once", "twice"], "last", ["once"] * 3 + ["twice"] * 3), "the order")
    for it, count in (("once", 1), ("twice", 2)):
        holds(f"again    {it}: it failed while other tests ran:\n    {it} fails, time 1\n" in said, said)
        holds(f"again    {it}: failed {count} of 4 times\n" in said, said)
    for line in ("FAILED   twice\n    it failed 2 of 4 times; the last: twice fails, time 4\n", "2 run 3 more times"):
        holds(line in said, f"no {line!r} in {said}")
    same(said.splitlines()[-1], "1 failed once: once", "the last line")
    holds("ok       " not in said, f"a line for a test that passed: {said}")
    rows = {row[2]: (row[0], *row[3:]) for row in (line.split("\t") for line in kept.splitlines())}
    wanted = {"once": ("ok", "failed 1 of 4 times", "it failed 1 of 4 times; the last: once fails, time 1"), "never": ("ok",)}
    wanted["twice"] = ("FAILED", "failed 2 of 4 times", "it failed 2 of 4 times; the last: twice fails, time 4")
    wanted["last"] = ("ok",)
    same(rows, wanted, "the lines of bin/results")


@test("again: a failed test that drives no editor isn't repeated, and a test whose process exits counts as failed")
def not_once_more() -> None:
    with tempfile.TemporaryDirectory() as room:
        path = os.path.join(room, "order")
        tests = {"plain": lambda: alone(path, "plain"), "gone": lambda: gone(path, "gone")}
        tools = {it: lambda it=it: alone(path, it, it) for it in ("cc", "mypy", "lintian", "mandoc")}
        counts, said, _ = counted({**tests, **tools})
        ran = ["cc", "gone", "lintian", "mandoc", "mypy", "plain"]
        same((counts, sorted(note(path, ""))), ("0 passed, 6 failed", ran), said)
    failed = (line for it in ("plain", *tools) for line in (f"FAILED   {it}", f"    {it} fails"))
    lines = ["FAILED   gone", "    its process ended with 3", *failed]
    same(sorted(said.splitlines()), sorted(lines), "the output")


@test("again: `make test` skips tests only if an editor or desktop tool is missing, and names and counts these tests")
def left_out() -> None:
    def no_program() -> None:
        raise FileNotFoundError(2, "No such file", harness.BINARY)

    def not_proved() -> None:
        with mock.patch.object(harness, "BINARY", "/no/such/program"):
            harness.want_proved()

    tests: Dict[str, harness.Test] = {
        "editor": lambda: harness.want("Kate"),
        "tool": lambda: harness.want("mandoc"),
        "compiler": lambda: harness.want("cc"),
        "git": lambda: harness.want("git"),
        "both": lambda: harness.want("Kate", "cc"),
        "program": no_program,
        "proof": not_proved,
        "reason": lambda: harness.leave_out("it is late"),
    }
    lacks = ("Kate", "mandoc", "cc", "git")
    same(counted(tests, lacks)[0], "0 passed, 0 failed, 8 skipped", "a run of some tests")
    counts, said, kept = counted(tests, lacks, is_whole=True)
    same(counts, "0 passed, 6 failed, 2 skipped", said)
    same(sorted(it.split("\t")[2] for it in kept.splitlines() if it.startswith("left out")), ["editor", "tool"], "those that are left out")
    holds("2 left out, each named above. Missing: Kate (kate), mandoc (mandoc)." in said, said)
    for listed, lacking in (("", []), ("Kate", ["Kate"]), ("mandoc, Kate,cc", ["Kate", "mandoc"])):
        with whole(True), mock.patch.dict(os.environ, {"OB0_MAY_LACK": listed}):
            same([it for it in lacks if editors.may_lack(it)], lacking, f"what may lack with {listed!r}")


@test("again: `--first` omits the tests that need the program, and `--rest` runs the tests without a result so far")
def first_and_rest() -> None:
    def runs() -> None:
        with mock.patch.object(harness, "BINARY", "/no/such/program"):
            harness.need_program()

    counts, said, kept = counted({"page": lambda: None, "runs": runs}, is_whole=True, is_first=True)
    same((counts, [it.split("\t")[2] for it in kept.splitlines()]), ("1 passed, 0 failed", ["page"]), said)
    with tempfile.TemporaryDirectory() as room, mock.patch.object(run, "RESULTS", os.path.join(room, "results")):
        note(run.RESULTS, "ok\t0.1 s\tpage")
        note(run.RESULTS, "FAILED\t0.1 s\tpages\tfailed 2 of 4 times")
        with mock.patch.object(harness, "TESTS", [(it, runs) for it in ("page", "page two", "pages", "runs")]):
            same(run.chosen_by(["--rest"]), [1, 3], "those that are left")


@test("again: tests/run.py fails if no test's name contains one of the given words")
def none_at_all() -> None:
    words = [sys.executable, os.path.join(harness.TOP, "tests", "run.py"), "no test has these words"]
    found = subprocess.run(words, stdout=subprocess.PIPE, stderr=subprocess.DEVNULL, check=False)
    same((found.stdout.decode(), found.returncode), ("no test has such a name\n0 passed, 1 failed\n", 1))


# Leaves a process in another session, which writes its number to a file once its parent has ended.
LEAVES = """import os, sys, time
parent = os.getpid()
if os.fork() == 0:
    os.setsid()
    while os.getppid() == parent:
        time.sleep(0.01)
    with open(sys.argv[1], "w") as file:
        file.write(str(os.getpid()))
    time.sleep(600)
"""


def leaves_a_child(path: str) -> None:
    """Starts a process that outlives its parent, and then waits ten minutes."""
    subprocess.run([sys.executable, "-c", LEAVES, path], check=True)
    time.sleep(600)


@test("again: a test over its time limit is killed with its child processes, and no test starts after the run's limit")
def ended_in_time() -> None:
    with tempfile.TemporaryDirectory() as room:
        path = os.path.join(room, "child")
        # (on a busy machine the child may start late)
        is_late: Callable[[run.Running], bool] = lambda it: time.monotonic() > it.end and os.path.exists(path) and os.path.getsize(path) > 0
        with mock.patch.object(run, "LONGEST", 1), mock.patch.object(run.Running, "has_ended", is_late):
            counts, said, _ = counted({"long": lambda: leaves_a_child(path)})
        same((counts, "it had not ended after" in said), ("0 passed, 1 failed", True), said)
        child = int(harness.text_of(path))
        holds(child not in processes.parents(), f"process {child} still runs")
    with mock.patch.object(run, "LONGEST", 1):
        counts, said, _ = counted({"long": lambda: time.sleep(600)})
    same((counts, "it had not ended after" in said), ("0 passed, 1 failed", True), said)
    with mock.patch.object(run, "IN_ALL", 0):
        counts, said, _ = counted({"late": lambda: None})
    same((counts, "it wasn't run: 0 minutes for all tests were over" in said), ("0 passed, 1 failed", True), said)


@test("again: a test's child processes are ended when the test ends, even if it passed")
def ends_with_it() -> None:
    with tempfile.TemporaryDirectory() as room:
        path = os.path.join(room, "child")

        def starts() -> None:
            words = [sys.executable, "-c", "import os, sys, time; open(sys.argv[1], 'w').write(str(os.getpid())); time.sleep(600)", path]
            subprocess.Popen(words, start_new_session=True)  # pylint: disable=consider-using-with
            while not os.path.exists(path) or not os.path.getsize(path):
                time.sleep(0.01)

        same(counted({"starts": starts})[0], "1 passed, 0 failed", "the count")
        holds(int(harness.text_of(path)) not in processes.parents(), "its process still runs")


@test("again: the message of a failed comparison shows the first difference between the two texts or lists")
def differing() -> None:
    long = "x" * 1000
    for got, wanted, said in (
        (long + "a", long + "b", f"they differ at 1000: wanted '{'x' * 40}b', got '{'x' * 40}a'"),
        (long.encode(), long.encode() + b"y", f"they differ at 1000: wanted {b'x' * 40 + b'y'!r}, got {b'x' * 40!r}"),
        ([1, [2, long]], [1, [2, long + "y"]], f"they differ at item 1\n    they differ at item 1\n    they differ at 1000: wanted '{'x' * 40}y', got '{'x' * 40}'"),
        ([1, 2], [1, 3, 4], "they differ at item 1: wanted 3, got 2"),
        ([1], [1, 2], "wanted 2 items, got 1"),
    ):
        try:
            same(got, wanted)
        except Failed as why:
            holds(str(why).endswith(said), f"no {said!r} in {why}")
        else:
            raise Failed(f"{got!r:.60} and {wanted!r:.60} are the same")


@test("again: a signal that ends tests/run.py also ends the running tests and their child processes")
def interrupted() -> None:
    parent = os.getpid()

    def interrupts(path: str, number: int) -> None:
        if os.fork() == 0:
            leaves_a_child(path)
        while not os.path.exists(path) or not os.path.getsize(path):
            time.sleep(0.01)
        os.kill(parent, number)
        time.sleep(600)

    run.end_by_signal()
    for number in (signal.SIGINT, signal.SIGTERM):
        with tempfile.TemporaryDirectory() as room:
            path = os.path.join(room, "child")
            try:
                counted({"interrupts": lambda: interrupts(path, number)})  # pylint: disable=cell-var-from-loop
            except (KeyboardInterrupt, SystemExit):
                pass
            else:
                raise Failed("the run didn't end")
            holds(int(harness.text_of(path)) not in processes.parents(), "a process still runs")
