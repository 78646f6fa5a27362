#!/usr/bin/env python3
"""Runs the end-to-end tests on bin/ob0 (or on the program in the variable OB0).

  tests/run.py [WORD..]   all tests, or the tests with one of the words in the name
  tests/run.py --first    the tests that need no program
  tests/run.py --rest     the tests that have no line in bin/results
  tests/run.py --list     prints the names of the tests

If an editor, a tool or the program is missing, its tests are left out, by name. `make test` sets the variable
OB0_WHOLE: then only a missing tool is a reason to leave a test out (one of OB0_MAY_LACK, if that is set), and any other
reason is a failure.

If a test that drives an editor fails, it runs three more times after all others, with no test at the same time. Two
failures in four runs are a failure; after one failure its name is in the line 'N failed once: ..'.

The run may take OB0_MINUTES (45). With OB0_WHOLE, bin/results gets a line for each test, and passed tests aren't
printed. The last line is 'N passed, M failed', and ', K skipped' if tests were left out. A run of no test fails."""
from __future__ import annotations

import glob
import importlib
import io
import multiprocessing
import multiprocessing.connection
import os
import shutil
import signal
import sys
import tempfile
import time
import traceback
from collections.abc import Iterator
from typing import List, NamedTuple, Optional, Tuple

sys.dont_write_bytecode = True
HERE = os.path.dirname(os.path.abspath(__file__))
sys.path.insert(0, os.path.join(HERE, "lib"))

import harness  # noqa: E402 (it puts the folders of scripts on the path)
import common  # noqa: E402
import editors  # noqa: E402
import processes  # noqa: E402

FORK = multiprocessing.get_context("fork")
LONGEST = 1200  # seconds that a test may take
IN_ALL = 60 * int(os.environ.get("OB0_MINUTES", "45"))  # seconds that a run of tests may take
MORE = 3  # how many more times a test that drives an editor is run after a failure
FAILURES = 2  # failures, among all runs of a test that drives an editor, that make it fail
STEP = 50  # `make test` prints a line each time that this many tests have ended
RESULTS = os.path.join(harness.TOP, "bin", "results")


def load() -> None:
    for file in sorted(glob.glob(os.path.join(HERE, "test_*.py"))):
        importlib.import_module(os.path.basename(file)[:-3])
    names = [name for name, _ in harness.TESTS]
    assert len({*names}) == len(names), "two tests have one name"


class Outcome(NamedTuple):
    """Stores the outcome of a test: whether it passed (None if it was skipped), its message, its seconds, whether it
    drives an editor, whether it needs a program that doesn't exist, and the missing tools."""

    passed: Optional[bool]
    said: str
    seconds: float = 0
    drives: bool = False
    needs_program: bool = False
    missing: Tuple[str, ...] = ()

    @property
    def word(self) -> str:
        return {True: "ok", False: "FAILED", None: "left out"}[self.passed]

    def line(self, name: str) -> str:
        if self.passed:
            return f"ok       {name}{f' ({self.seconds:.1f} s)' if self.seconds >= 1 else ''}"
        return f"left out {name}: {self.said}" if self.passed is None else f"FAILED   {name}\n    {self.said}"


def tried(function: harness.Test) -> Outcome:
    """Runs a test in this process, and returns its outcome."""
    start = time.monotonic()
    harness.DRIVEN.clear()
    harness.WANTED.clear()
    try:
        function()
        return Outcome(True, "", time.monotonic() - start)
    except harness.NoProgram as why:
        return Outcome(None, str(why), needs_program=True)
    except harness.Skipped as why:
        return Outcome(None, str(why), missing=tuple(it for it in harness.WANTED if not editors.is_here(it)))
    except Exception as why:  # pylint: disable=broad-except
        if isinstance(why, FileNotFoundError) and why.filename == harness.BINARY:
            return Outcome(None, "it runs the program", needs_program=True)
        said = str(why) if isinstance(why, harness.Failed) else traceback.format_exc()
        return Outcome(False, said, time.monotonic() - start, bool(harness.DRIVEN))


class Running:
    """Runs a test in a separate process, which reports the outcome. The test has its own folder for temporary files,
    and the locale C.UTF-8."""

    def __init__(self, at: int, end: float) -> None:
        self.at, self.start = at, time.monotonic()
        self.end = min(end, self.start + LONGEST)
        self.room = tempfile.mkdtemp(prefix="ob0-")
        os.chmod(self.room, 0o711)  # (another user has to get through the folder if a test runs a program as that user)
        self.told, telling = FORK.Pipe(duplex=False)

        def tell() -> None:
            # (otherwise children of the test would ignore signals under `nohup` or in the background of a shell)
            signal.signal(signal.SIGHUP, signal.SIG_DFL)
            signal.signal(signal.SIGTERM, signal.SIG_DFL)
            signal.signal(signal.SIGINT, signal.default_int_handler)
            processes.adopt_orphans()
            tempfile.tempdir = os.environ["TMPDIR"] = self.room
            os.environ.update(LC_ALL="C.UTF-8", LANG="C.UTF-8")
            os.environ.pop("LANGUAGE", None)
            telling.send(tried(harness.TESTS[at][1]))
            processes.end_descendants(os.getpid())

        self.process = FORK.Process(target=tell)
        self.process.start()
        telling.close()

    def has_ended(self) -> bool:
        """Returns whether the test has reported its outcome, its process has ended, or its time is over."""
        return self.told.poll() or time.monotonic() > self.end

    def outcome(self) -> Outcome:
        """Returns the outcome of a test that has ended, and removes its processes and files."""
        seconds = time.monotonic() - self.start
        found = Outcome(False, f"it had not ended after {seconds:.0f} seconds", seconds)
        try:
            if self.told.poll():
                found = self.told.recv()
                self.process.join(60)
        except (EOFError, OSError):
            self.process.join(60)
            found = Outcome(False, f"its process ended with {self.process.exitcode}", seconds)
        self.end_now()
        return found

    def end_now(self) -> None:
        """Kills the test's process and everything that it has started, and removes its folder."""
        if self.process.pid and self.process.is_alive():
            processes.end_tree(self.process.pid)
        self.process.join()
        self.told.close()
        shutil.rmtree(self.room, ignore_errors=True)


def all_tried(places: list[int], processors: int, end: float) -> Iterator[tuple[int, Outcome]]:
    """Runs the tests with these indexes, as many at the same time as there are processors. Yields each outcome as its
    test ends. Starts no test after the time `end`, and yields a failure for it instead."""
    left = places[::-1]
    running: List[Running] = []
    try:
        while left or running:
            while left and len(running) < processors and time.monotonic() < end:
                running.append(Running(left.pop(), end))
            if not running:
                yield from ((at, Outcome(False, f"it wasn't run: {IN_ALL // 60} minutes for all tests were over")) for at in left[::-1])
                return
            soonest = max(0.0, min(60.0, min(it.end for it in running) - time.monotonic()))
            multiprocessing.connection.wait([it.told for it in running], timeout=soonest + 0.1)
            for it in [it for it in running if it.has_ended()]:
                running.remove(it)
                yield it.at, it.outcome()
    finally:
        for it in running:
            it.end_now()


def played(places: list[int], end: float) -> Iterator[tuple[int, Outcome, str]]:
    """Yields the index and the outcome of each test, and for a repeated test how often it failed. A failed test that
    drives an editor runs again after all others, with no other test at the same time."""
    again: List[Tuple[int, Outcome]] = []
    for at, found in all_tried(places, len(os.sched_getaffinity(0)), end):
        if found.passed is False and found.drives:
            again.append((at, found))
            print(f"again    {harness.TESTS[at][0]}: it failed while other tests ran:\n    {found.said}", flush=True)
        else:
            yield at, found, ""
    for at, first in again:
        tries = [first, *(found for _, found in all_tried([at] * MORE, 1, end))]
        failed = [it for it in tries if not it.passed]
        how = f"failed {len(failed)} of {len(tries)} times"
        print("\n    ".join([f"again    {harness.TESTS[at][0]}: {how}", *(it.said for it in failed[1:])]), flush=True)
        seconds = sum(it.seconds for it in tries)
        yield at, Outcome(len(failed) < FAILURES, f"it {how}; the last: {failed[-1].said}", seconds, True), how


class Counts:
    """Counts the tests that passed, that failed and that were skipped."""

    def __init__(self) -> None:
        self.passed = self.failed = self.skipped = 0

    def take(self, passed: Optional[bool]) -> None:
        self.passed += passed is True
        self.failed += passed is False
        self.skipped += passed is None

    @property
    def all(self) -> int:
        return self.passed + self.failed + self.skipped

    def __str__(self) -> str:
        return f"{self.passed} passed, {self.failed} failed" + (f", {self.skipped} skipped" if self.skipped else "")


def keep(name: str, found: Outcome, how: str) -> None:
    """Appends a test's line to bin/results. If the test failed, even once, the last cell is its message."""
    cells = [found.word, f"{found.seconds:.1f} s", name]
    if how or found.passed is False:
        cells += [how, found.said.replace("\\", "\\\\").replace("\n", "\\n").replace("\t", "\\t")]
    with open(RESULTS, "a", encoding="utf-8") as file:
        file.write("\t".join(cells) + "\n")


def kept() -> set[str]:
    """Returns the names of the tests that have a line in bin/results."""
    if not os.path.exists(RESULTS):
        return set()
    with open(RESULTS, encoding="utf-8") as file:
        rows = [line.rstrip("\n").split("\t") for line in file]
    return {row[2] for row in rows if len(row) > 2}


def counted(places: list[int], is_first: bool = False) -> Counts:
    """Runs the tests with these indexes, and counts their outcomes. With `is_first`, tests that need a program are left
    out of the counts."""
    is_whole, counts, later = bool(os.environ.get("OB0_WHOLE")), Counts(), 0
    missing: set[str] = set()
    again: List[str] = []
    once: List[str] = []
    for at, found, how in played(places, time.monotonic() + IN_ALL):
        if found.needs_program and is_first:
            later += 1
            continue
        if found.needs_program and is_whole:
            found = Outcome(False, "there is no program to run")
        name = harness.TESTS[at][0]
        missing.update(found.missing)
        counts.take(found.passed)
        if not (is_whole and found.passed):
            print(found.line(name), flush=True)
        elif counts.all % STEP == 0:
            print(f"{counts.all} tests have ended, {counts.failed} of them failed", flush=True)
        again += [f"{name} {how}"] if how else []
        once += [name] if how and found.passed else []
        if is_whole:
            keep(name, found, how)
    if counts.skipped:
        tools = ", ".join(f"{it} ({editors.TOOLS[it][1] or 'no package'})" for it in sorted(missing))
        print(f"{counts.skipped} left out, each named above" + (f". Missing: {tools}. `make editors` installs what Debian has" if missing else ""))
    if again:
        print("\n    ".join([f"{len(again)} run {MORE} more times, one after another:", *again]))
    if later:
        print(f"{later} wait for a program to run")
    if once:
        print(f"{len(once)} failed once: {', '.join(once)}")
    return counts


def chosen_by(words: list[str]) -> list[int]:
    """Returns the indexes of the tests that the command line selects."""
    given = [it for it in words if not it.startswith("--")]
    done = kept() if "--rest" in words else set()
    return [at for at, (name, _) in enumerate(harness.TESTS) if name not in done and (not given or any(it in name for it in given))]


def settle() -> None:
    """Makes the tests independent of the user's environment. Replaces the user's Git configuration, which may sign
    commits or refuse another user's repository, and removes the flags of a `make` that runs the tests."""
    common.settle()
    common.choose_temporary()
    for name in [it for it in os.environ if it.startswith(("MAKE", "MFLAGS"))]:
        del os.environ[name]
    os.environ.update(GIT_CONFIG_NOSYSTEM="1", GIT_CONFIG_GLOBAL=os.path.join(HERE, "lib", "gitconfig"))


def end_by_signal() -> None:
    """Makes SIGTERM stop the run and its tests, as Ctrl-C does."""
    signal.signal(signal.SIGTERM, lambda number, _: sys.exit(128 + number))


def main(words: list[str]) -> int:
    end_by_signal()
    settle()
    if isinstance(sys.stdout, io.TextIOWrapper):
        sys.stdout.reconfigure(errors="backslashreplace")
    if "--help" in words:
        print(__doc__)
        return 0
    is_first = "--first" in words
    if is_first:
        harness.BINARY = os.path.join(harness.TOP, "bin", "no program yet")
    load()
    chosen = chosen_by(words)
    if "--list" in words:
        for at in chosen:
            print(harness.TESTS[at][0])
        return 0
    if not is_first and not os.access(harness.BINARY, os.X_OK):
        print(f"there is no program {os.path.relpath(harness.BINARY)}: make it with `make build`", file=sys.stderr)
        if not words:
            print("0 passed, 1 failed")
            return 1
    if len(chosen) > 50:
        # (searches for each tool once, instead of in each test that needs it)
        for tool in editors.TOOLS:
            editors.is_here(tool)
    counts = counted(chosen, is_first)
    if not counts.passed + counts.failed:
        print("no test ran" if chosen else "no test has such a name")
        counts.take(False)
    print(counts)
    return 1 if counts.failed else 0


if __name__ == "__main__":
    sys.exit(main(sys.argv[1:]))
