#!/usr/bin/env python3
"""Runs the whole test: the end-to-end tests that need no program, the gate (`rt ci`), and the other tests on the
program that the gate built.

  tools/test.py [--anew]   --anew ignores everything that an earlier run on this machine passed

The gate consists of every proof, the edits that must fail, the tests of the crates, and two compilations of the
program. This compares the kit's line about each edit with the edit's first line, and the assumptions that `rt ci`
prints with docs/PROMISES.md. It also tries some of the other mutants (tools/mutants.py).

bin/gate.log gets the whole output of `rt ci`, and bin/results a line for each end-to-end test; the screen shows the
progress. At the end each failure is repeated with its first lines, and the screen shows how many proofs were made in
this run. The last line is 'N passed, M failed' over everything, and ', K skipped' if tests of missing editors were left
out; bin/results and bin/ob0.stamp contain it also. A run with fewer tests than LEAST fails."""
from __future__ import annotations

import contextlib
import io
import os
import re
import shutil
import signal
import subprocess
import sys
import tempfile
from collections.abc import Callable, Iterator
from typing import Any, NamedTuple

import build
import common
import editors
import mutants
import notices
import package
import trusted
from common import TOP

LINE = re.compile(r"^(\d+) passed, (\d+) failed(?:, (\d+) skipped)?$")
RESULTS = os.path.join(TOP, "bin", "results")
GATE_LOG = os.path.join(TOP, "bin", "gate.log")
# The numbers of tests, which a test compares, and how many of them may be left out if OB0_MAY_LACK lists the tools that
# may be missing.
LEAST = {"the gate": 94, "end to end": 659}
MOST_LEFT_OUT = 15
# The variables OB0_.. and RT_.. that have an effect here. (With other variables a developer tries some of the tests, or
# another mode of the kit.)
KEPT_VARIABLES = {"OB0_MAY_LACK", "OB0_MINUTES", "RT_JOBS"}
# The kit's last line about a crate.
ENDED = re.compile(r"rt: (ob0\w*) (?:(proved)|is kept|NOT PROVED)\b")
FAILED_NAMES = re.compile(r"\S+(?: \((?:tests|run)\))?")
SHARE = re.compile(r"done in this run: .*|every proof and must-fail edit was done in this run")
WRONG = re.compile(r"\berror\b|it is not proved|no proof:|panicked|FAILED|\bfailed\b")
# A line of tools/refusals.py, or one of tools/mutants.py, whose word isn't `refused` or, for a right form, `proved`.
FAILED_MUTANT = re.compile(r"^(?:FAILED: |  (?!(?:refused|proved) {2})\w[\w ]*? +)(\S+/\S+): (.*)$", re.M)
LONGEST_LINE = 300  # the number of characters of a line that the screen shows


class Failure(NamedTuple):
    """The name of a failed test or proof, and its message."""

    name: str
    lines: list[str]

    def __str__(self) -> str:
        return "\n    ".join([f"FAILED   {self.name}", *(it.strip()[:LONGEST_LINE] for it in self.lines[:3])])


class Counts(NamedTuple):
    """The numbers of tests that passed, that failed and that were left out."""

    passed: int
    failed: int
    skipped: int = 0

    def with_(self, other: Counts) -> Counts:
        return Counts(self.passed + other.passed, self.failed + other.failed, self.skipped + other.skipped)

    def at_least(self, what: str) -> Counts:
        """Returns these counts, with one more failure if fewer tests ran than the repository has. A test that was left
        out for a missing tool counts as run; if OB0_MAY_LACK is set, only MOST_LEFT_OUT of them do."""
        left_out = min(self.skipped, MOST_LEFT_OUT) if "OB0_MAY_LACK" in os.environ else self.skipped
        if self.passed + self.failed + left_out >= LEAST[what]:
            return self
        RUN.fail(what, [f"{self.passed + self.failed} tests ran, {self.skipped} were left out, and there are {LEAST[what]}"])
        return self.with_(Counts(0, 1))

    def __str__(self) -> str:
        return f"{self.passed} passed, {self.failed} failed" + (f", {self.skipped} skipped" if self.skipped else "")


class Run:
    """The state of this run: its time, its failures, its present part, and the kit's line about how many proofs it
    made."""

    def __init__(self) -> None:
        self.timer = common.Timer()
        self.failures: list[Failure] = []
        self.share = ""
        self.at = "the start"

    def step(self, what: str) -> None:
        """Begins a part of the run."""
        self.at = what
        print(f"== {what}", flush=True)

    def fail(self, name: str, lines: list[str]) -> None:
        self.failures.append(Failure(name, lines))
        print(self.failures[-1], flush=True)


RUN = Run()


class Gate:
    """Reads the output of `rt ci` line by line. The log gets all lines. The screen gets the lines about a crate, with
    the number of crates left, and for a failed crate the first lines with the reason."""

    def __init__(self, log: io.TextIOBase) -> None:
        self.log, self.all = log, common.listed()
        self.left = {*self.all}
        self.block: list[str] = []
        self.told: dict[str, list[str]] = {}
        self.libraries, self.refusals = mutants.Libraries(os.path.join(build.ROOMS, "libraries")), mutants.Refusals()
        self.rests = trusted.Trusted()

    def take(self, line: str) -> str:
        """Handles a line of `rt ci`'s output. Returns the text to show on the screen, or "" if there is none."""
        self.log.write(line)
        self.libraries.take(line)
        self.refusals.take(line)
        self.rests.take(line)
        if LINE.match(line.strip()):
            return f"rt: {line}"
        if not line.startswith("rt: "):
            self.block.append(line)
            return ""
        block, self.block = self.block, []
        return self.of_kit(line, block)

    def of_kit(self, line: str, block: list[str]) -> str:
        """Handles a line that begins with `rt:`, and returns the text to show on the screen. `block` contains the lines
        since the previous such line."""
        text = line.rstrip("\n")
        ended, share = ENDED.match(line), SHARE.search(line)
        crate = re.match(r"rt: (?:must-fail )?(ob0\w*)", line)
        RUN.share = share[0] if share else RUN.share
        if ended:
            self.left.discard(ended[1])
            RUN.at = f"{ended[1]} of the gate, with {len(self.left)} of {len(self.all)} crates left"
            text += f"; {len(self.left)} of {len(self.all)} left"
        if crate and re.search("NOT PROVED|FAILED|NOT REFUSED", line):
            wrong = [it for it in block if WRONG.search(it)] or block[-3:]
            self.told.setdefault(crate[1], []).extend([*wrong, line])
        if line.startswith("rt: FAILED: "):
            self.fail(FAILED_NAMES.findall(text[len("rt: FAILED: ") :]))
            return ""
        return "" if ": refused, as it must be" in line else f"[{RUN.timer}] {text[:LONGEST_LINE]}\n"

    def fail(self, names: list[str]) -> None:
        """Records failures. The kit lists their names at the end."""
        for name in names:
            RUN.fail(name, self.told.get(re.split(r"[ /]", name)[0], ["bin/gate.log has what was printed"]))


class Heard(io.StringIO):
    """A stream that passes text on to the standard output, and also stores it."""

    def write(self, text: str) -> int:
        if sys.__stdout__:
            sys.__stdout__.write(text)
            sys.__stdout__.flush()
        return super().write(text)


def environment(**named: str) -> dict[str, str]:
    """Returns the environment without the variables that leave tests out or change the kit's mode, and with the
    variables in `named`."""
    own = {key: it for key, it in os.environ.items() if not re.match("OB0|RT_", key) or key in KEPT_VARIABLES}
    return {**own, **named}


def as_first_in_group() -> None:
    """Puts a new process in its own group, so that Ctrl-C in the terminal doesn't reach it, and restores SIGINT's
    default action, which ends it."""
    os.setpgrp()
    signal.signal(signal.SIGINT, signal.SIG_DFL)


def stream(words: list[str], show: Callable[[str], str], **named: str) -> Counts:
    """Runs a command, prints what `show` returns for each line, and returns the counts of its last verdict line. Adds a
    failure if no test passed, or if the command failed and counted no failed test."""
    counts = Counts(0, 0)
    how: dict[str, Any] = {"cwd": TOP, "stdin": subprocess.DEVNULL, "stdout": subprocess.PIPE, "stderr": subprocess.STDOUT}
    with subprocess.Popen(words, env=environment(**named), preexec_fn=as_first_in_group, **how) as process:
        assert process.stdout
        for line in process.stdout:
            text = line.decode(errors="replace")
            found = LINE.match(text.strip())
            counts = Counts(*(int(it or 0) for it in found.groups())) if found else counts
            print(show(text), end="", flush=True)
    if not counts.failed and (process.returncode or not counts.passed):
        RUN.fail(" ".join(words), [f"it ended with {process.returncode}, and {counts}: that is a failure"])
        return counts.with_(Counts(0, 1))
    return counts


def jobs() -> dict[str, str]:
    """Returns RT_JOBS for the gate, the number of checks that run at the same time. (By default `rt ci` reserves up to
    5 GB for a check.) Returns nothing if the user has set RT_JOBS, or if there are more than four processors, because
    `rt ci` then gives idle processors to the running checks."""
    if "RT_JOBS" in os.environ or build.processors() > 4:
        return {}
    return {"RT_JOBS": str(build.lanes())}


def gate(flags: list[str]) -> Counts:
    """Runs the gate and the mutants, and returns their counts. The program that the gate builds becomes bin/ob0."""
    linked = os.path.join(TOP, "crates", "ob0", "out", "ob0")
    package.remove_untested()
    for old in (linked, common.BINARY):
        if os.path.exists(old):
            os.remove(old)
    with open(GATE_LOG, "w", encoding="utf-8") as log:
        taken = Gate(log)
        counts = stream(["rt", "ci", *flags], taken.take, **jobs()).at_least("the gate")
    wrong = taken.rests.difference()
    if wrong:
        RUN.fail("what is trusted, in docs/PROMISES.md, isn't what the gate prints", wrong)
        counts = counts.with_(Counts(0, 1))
    if os.path.isfile(linked):
        common.keep(linked)
        notices.keep()
    print(f"== the gate: {counts}, {RUN.timer}, of the processors {common.clock(spent())}", flush=True)
    return counts.with_(of_mutants(taken))


def of_mutants(taken: Gate) -> Counts:
    """Tries mutants, and returns their counts. Each edit that the kit didn't refuse by the clause in its first line
    also counts as a failure."""
    RUN.at = "the mutants"
    said = Heard()
    with contextlib.redirect_stdout(said):
        # (the kit has already counted the edits that it refused)
        refused, others = taken.refusals.end()
        tried = Counts(*mutants.try_some(taken.libraries))
    shutil.rmtree(build.ROOMS, ignore_errors=True)
    for path, why in FAILED_MUTANT.findall(said.getvalue()):
        RUN.failures.append(Failure(path, [why]))
    of_kit = f"{refused} refused by the kit, {others} not as they have to be"
    print(f"== mutants: {of_kit}; of the others {tried}, {RUN.timer}", flush=True)
    return Counts(0, others).with_(tried)


def spent() -> float:
    """Returns how many seconds of processor time this run has used so far."""
    times = os.times()
    return times.children_user + times.children_system


def say_missing() -> None:
    """Prints which tools are missing, how to get them, and what happens to their tests."""
    missing = [it for it in editors.TOOLS if not editors.is_here(it)]
    required = [it for it in missing if not editors.may_lack(it)]
    others = [it for it in missing if it not in required]
    if required:
        print(f"missing: {', '.join(required)}. `make editors` installs what Debian has; without it tests fail, and this run doesn't pass")
    if others:
        advice = "Their tests are left out, by name; `make editors` installs what Debian has"
        print(f"missing: {', '.join(others)}. {advice}")
    for name in (it for it in missing if it in editors.HOW_TO_GET):
        print(f"{name}: {editors.HOW_TO_GET[name]}")
    sys.stdout.flush()


def known(flags: list[str]) -> list[str]:
    """Returns the flags that this kit knows. A kit without `--anew` keeps nothing, and proves everything each time."""
    said = subprocess.run(["rt", "help"], stdout=subprocess.PIPE, stderr=subprocess.STDOUT, check=False).stdout
    return [it for it in flags if it.encode() in said]


def tests(part: str) -> Counts:
    """Runs a part of the end-to-end tests, and returns its counts."""
    show: Callable[[str], str] = lambda text: f"end to end: {text}" if LINE.match(text.strip()) else text
    return stream([sys.executable, os.path.join("tests", "run.py"), part], show, OB0_WHOLE="1")


def kept_results() -> Iterator[list[str]]:
    """Yields the cells of each line of bin/results about a test: its outcome, time, name, how often it failed, and its
    message."""
    with open(RESULTS, encoding="utf-8") as file:
        for row in (line.rstrip("\n").split("\t") for line in file):
            if len(row) > 2:
                yield row


def message_of(row: list[str]) -> list[str]:
    """Returns the lines of a test's message."""
    return re.sub(r"\\(.)", lambda it: {"n": "\n", "t": "\t"}.get(it[1], it[1]), row[-1]).split("\n")


def say_failures() -> None:
    """Prints each failure again with its first lines, the tests that failed only once, and how many proofs were
    made."""
    rows = [*kept_results()]
    failures = [Failure(row[2], message_of(row)) for row in rows if row[0] == "FAILED"]
    for it in RUN.failures + failures:
        print(it)
    once = [row[2] for row in rows if row[0] == "ok" and len(row) > 3]
    if once:
        print(f"{len(once)} failed once: {', '.join(once)} (bin/results has the message)")
    print(f"== proofs: {RUN.share or 'the gate did not say how many were made in this run'}")


def whole(flags: list[str]) -> Counts:
    """Runs all parts, and returns their counts together."""
    RUN.step("tests that need no program")
    ran = tests("--first")
    print(f"== these tests: {ran}, {RUN.timer}", flush=True)
    RUN.step("the gate")
    counts = gate(known(flags))
    if os.path.isfile(common.BINARY):
        RUN.step("the other tests")
        return counts.with_(ran.with_(tests("--rest")).at_least("end to end"))
    RUN.fail("the tests of the program", ["the gate built no program, so no test of it ran"])
    return counts.with_(ran).with_(Counts(0, 1))


def end(counts: Counts) -> int:
    """Ends the run: writes its verdict to bin/results, the program's stamp and the screen; returns the status."""
    line = str(counts)
    with open(RESULTS, "a", encoding="utf-8") as file:
        file.write(f"== proofs: {RUN.share}\n{line}\n")
    common.keep_verdict(line, RUN.share)
    # (a high load, of the last 15 minutes, explains long times)
    took = f"{RUN.timer}, of the processors {common.clock(spent())}, load {os.getloadavg()[2]:.1f}"
    say_failures()
    print(f"== all of it took {took}\n{line}", flush=True)
    return 1 if counts.failed else 0


def main(flags: list[str]) -> int:
    common.settle()
    common.choose_temporary()
    os.makedirs(os.path.dirname(RESULTS), exist_ok=True)
    with common.one_at_a_time(), common.ended_by_signals(lambda: f"at {RUN.at}, after {RUN.timer}"):
        with tempfile.TemporaryDirectory(prefix="ob0-") as room:
            # (a program that `rt` or a test runs as another user must be able to enter the folder)
            os.chmod(room, 0o711)
            tempfile.tempdir = os.environ["TMPDIR"] = room
            with open(RESULTS, "w", encoding="utf-8"):
                pass
            # (a killed build leaves rooms, and the gate refuses sources outside crates/)
            shutil.rmtree(build.ROOMS, ignore_errors=True)
            common.need("rt")
            if not editors.is_here("another user"):
                # (if root runs `rt ci`, it runs programs and tests as another user at its end)
                common.stop(f"root can't become another user here, as `rt ci` needs: {editors.HOW_TO_GET['another user']}")
            say_missing()
            return end(whole(flags))


if __name__ == "__main__":
    sys.exit(main([it for it in sys.argv[1:] if it == "--anew"]))
