#!/usr/bin/env python3
"""Tries the mutants of the crates: the prover has to refuse each by the clause in its first line, and to prove its
right form.

  tools/mutants.py [--lanes N] [--quiet] [CRATE..]  the mutants of these (or all) crates whose rows are stale
  tools/mutants.py CRATE/WORD..                     the mutants of a crate with this word in their path
  tools/mutants.py --all [CRATE..]                  all mutants
  tools/mutants.py --from N                         the mutants that a run of `make test` tried: it printed N
  tools/mutants.py --left [CRATE..]                 lists the mutants whose rows are stale, and tries none
  tools/mutants.py --renamed COMMIT                 keeps the rows of a commit if only names have changed since

A row of tools/mutants.txt is stale if its mutant, or something that its verdict depends on, has changed.

First the crates and the crates below them are proved over kept work, as `make check` does. Then each check takes about
twenty mutants of a crate (`rattle check --only` the changed functions, over a copy of the crate's kept proofs), because
the checker judges each function separately. --lanes sets how many checks run at the same time; without it processors
and memory do. If a function calls an unproved one and its clause doesn't refuse it, it is tried again in a check
without such calls. A function that still isn't judged, or that is proved, is tried in a separate check.

A mutant is refused by its clause if a goal of that clause isn't proved, or if an answer no longer proves such a goal.
If only something else refuses it, such as a callee's `requires`, it is listed as refused elsewhere. Right forms are in
checks without wrong ones, and have to be proved. Each result is written into tools/mutants.txt after its check
(tools/verdicts.py), so an interrupted run can be resumed.

`make test` calls `try_some` after `rt ci`, over the libraries that this has just proved. It tries 24 mutants with their
right forms, stale or not. The run draws the first one at random, so no committer chooses which rows are tested. `rt ci`
itself also tries the edits of crates/*/must-fail (tools/refusals.py).

The status is 1 if a form has a wrong result or could not be tried; with --left, if any row is stale."""
from __future__ import annotations

import argparse
import os
import re
import secrets
import shutil
import sys
import tempfile
import time
from concurrent.futures import FIRST_COMPLETED, Future, ThreadPoolExecutor, wait
from collections.abc import Callable, Iterable
from typing import Dict, List, NamedTuple, Optional, Set, Tuple

import build
import checks
import common
import edits
import processes
import reading
import renaming
import sums
from checks import Said
from common import TOP
from edits import Edit
from refusals import Refusals as Refusals
from verdicts import Mutants, is_met

# The folders in which `make check` and a run of `try_some` keep a crate's proofs.
OF_CRATE, OF_RUN = os.path.join(TOP, "crates", "{}", "out", "incremental"), os.path.join(build.ROOMS, "kept", "{}")
DRAWN = 24  # how many mutants `make test` draws
MOST = 24  # mutants in one check: with more it takes much memory, and the others wait for it
REFUSED, ELSEWHERE, PROVED, NOT_JUDGED = "refused", "elsewhere", "PROVED", "not judged"
RIGHT, RIGHT_REFUSED = "proved", "RIGHT FORM REFUSED"  # the results of right forms
WORDS = {
    REFUSED: "refused by their clause", RIGHT: "right forms proved", ELSEWHERE: "refused elsewhere", PROVED: "proved",
    RIGHT_REFUSED: "right forms not proved", NOT_JUDGED: "not judged",
}  # fmt: skip
AS_IT_MUST_BE = (REFUSED, RIGHT)
# A mutant is tried in a check with others, with others that don't depend on each other, or by itself.
AMONG, APART, ALONE = range(3)


class Verdict(NamedTuple):
    """The result of trying a mutant: a word, the reason, and a refused goal, 'GOAL of PROOF', if possible one of the
    claimed clause."""

    word: str
    why: str
    goal: str = ""

    @property
    def row(self) -> str:
        """Returns the verdict in the form of tools/mutants.txt."""
        return self.goal if self.word == REFUSED else f"{self.word} {self.goal}".rstrip()

    @property
    def is_well(self) -> bool:
        return self.word in AS_IT_MUST_BE

    def line(self, path: str) -> str:
        """Returns the line that a run prints about the mutant at this path. tools/test.py finds the failures among
        these lines."""
        return f"  {self.word:<10}  {path}: {self.why}"


# (the line that `rt ci` prints about a crate that this run, or an earlier run on the machine, has proved)
HAS_PROVED = re.compile(r"rt: (\w+) (?:proved$|is kept: )")


class Libraries(checks.Libraries):
    """The libraries that `rt ci` proves. Each is copied when `rt ci` reports it, because at its end `rt ci` restores
    the crates' folders."""

    def take(self, line: str) -> None:
        """Copies a crate's library if this line of `rt ci` says that the crate is proved."""
        found = HAS_PROVED.match(line.rstrip())
        if found:
            self.add(found[1])


def judge(edit: Edit, said: Said, source: reading.Source, alone: bool) -> Optional[Verdict]:
    """Returns a check's verdict on one mutant, or None if it has to be tried again. If `alone`, the check tried no
    other mutant, and the result is always a verdict."""
    error = checks.unreadable(said, edit)
    if error:
        return Verdict(NOT_JUDGED, f"it can't be read, so no contract was tried: {error}")
    symbols = checks.symbols_of(said, source.proved_with(edit.turned or ()))
    refused = [(it, proof) for it, proof in symbols.items() if said.own(it)]
    if edit.is_right:
        added = [it for it in said.verdicts if any(it.endswith(f"::{name}") for name in edit.checked_as)]
        return judge_right(said, {**dict.fromkeys(added, ""), **symbols}, alone)
    if refused:
        found = refusal(edit, said, refused)
        # (if a function calls an unproved one, some of its goals may not have been tried)
        is_whole = alone or not any(said.waits(it) for it in symbols)
        return found if found.word == REFUSED or is_whole else None
    if not alone:
        return None
    if not said.ended:
        return Verdict(NOT_JUDGED, f"the check did not reach the prover: {said.text[-300:]}")
    if symbols and said.is_proved():
        return Verdict(PROVED, "each function that it changes is still proved")
    others = [(it, "") for it in said.verdicts if said.own(it)]
    return refusal(edit, said, others) if others else Verdict(NOT_JUDGED, f"no function was judged: {said.text[-300:]}")


def judge_right(said: Said, symbols: Dict[str, str], alone: bool) -> Optional[Verdict]:
    """Returns a check's verdict on a right form, or None if it has to be tried again, because it may call another form
    that isn't proved. If `alone`, the check tried no other form, and the result is always a verdict."""
    if symbols and all(said.verdicts[it].startswith("proved") for it in symbols) and (said.ended or not alone):
        return Verdict(RIGHT, "proved")
    if not alone:
        return None
    if not said.ended:
        return Verdict(NOT_JUDGED, f"the check did not reach the prover: {said.text[-300:]}")
    unproved = [(it, proof) for it, proof in symbols.items() if not said.verdicts[it].startswith("proved")]
    if not unproved:
        return Verdict(NOT_JUDGED, f"no function was judged: {said.text[-300:]}")
    goals = [f"{edits.name_of(goal)} of {proof or '?'}" for it, proof in unproved for goal in said.refusing(it, proof)]
    return Verdict(RIGHT_REFUSED, f"{unproved[0][0].partition('::')[2]}: {said.why(*unproved[0])}", goals[0] if goals else "")


def refusal(edit: Edit, said: Said, refused: List[Tuple[str, str]]) -> Verdict:
    """Returns the verdict on a mutant whose functions are refused, and not only the functions that they call."""
    uncovered = [it for it, _ in refused if "does not cover" in said.verdicts[it]]
    if len(uncovered) == len(refused):
        reason = said.verdicts[uncovered[0]][:200]
        return Verdict(NOT_JUDGED, f"the checker doesn't cover such a body, so no contract was tried: {reason}")
    named = next((it for it in refused if said.refusing(*it)), refused[0])
    goals = [f"{edits.name_of(goal)} of {proof or '?'}" for it, proof in refused for goal in said.refusing(it, proof)]
    met = [it for it in goals if is_met(edit, *it.split(" of "))]
    why = f"{named[0].partition('::')[2]}: {said.why(*named)}"
    return Verdict(REFUSED, why, met[0]) if met else Verdict(ELSEWHERE, why, goals[0] if goals else "")


class Group(NamedTuple):
    """Mutants of a crate that share a check, and how they are tried."""

    edits: List[Edit]
    how: int


class Crate:
    """The mutants of a crate that are tried in this run, and their verdicts so far."""

    def __init__(self, name: str, chosen: List[Edit], source: reading.Source, most: int = MOST) -> None:
        self.name, self.source, self.chosen, self.most = name, source, chosen, most
        self.below, self.size = source.below(), sum(map(len, source.words.values()))
        self.found = {it: Verdict(NOT_JUDGED, it.why) for it in chosen if it.why}
        self.next: Dict[Edit, int] = {}  # the mutants to be tried again, and how
        self.running, self.checks = 0, 0

    def first(self) -> List[Group]:
        """Returns the first groups; no group contains both right and wrong forms."""
        forms = [[it for it in self.chosen if not it.why and it.is_right == is_right] for is_right in (False, True)]
        return [Group(it, AMONG) for some in forms if some for it in self.groups(some, False)]

    def groups(self, left: List[Edit], is_apart: bool) -> List[List[Edit]]:
        """Returns groups of mutants, each for one check. No two mutants of a group share a proof, and few depend on
        each other; none do if `is_apart`."""
        found: List[List[Edit]] = []
        if not is_apart:
            counts = [sum(proofs(it) == proofs(other) for other in left) for it in left]
            found = [[] for _ in range(max([-(-len(left) // self.most), *counts]))]
        for edit in left:
            joined: Callable[[List[Edit]], int] = lambda it: sum(self.are_joined(edit, other) for other in it)
            open_ones = [it for it in found if len(it) < self.most and not any(proofs(edit) & proofs(other) for other in it)]
            open_ones = [it for it in open_ones if proofs(edit) and not (is_apart and joined(it))]
            if open_ones:
                min(open_ones, key=lambda it: (joined(it), len(it))).append(edit)
            else:
                found.append([edit])
        return [it for it in found if it]

    def are_joined(self, one: Edit, other: Edit) -> bool:
        """Returns whether a function that one mutant changes depends on a function that the other changes."""
        return any(a in self.below[b] or b in self.below[a] for a in proofs(one) for b in proofs(other))

    def take(self, group: Group, said: Said) -> Tuple[Dict[Edit, Verdict], List[Group]]:
        """Records the verdicts that a check's output gives. Returns them, and the groups to try next."""
        self.running -= 1
        self.checks += 1
        is_alone = len(group.edits) == 1
        judged = {it: judge(it, said, self.source, is_alone) for it in group.edits}
        settled = {it: verdict for it, verdict in judged.items() if verdict}
        self.found.update(settled)
        again = [it for it, verdict in judged.items() if not verdict]
        if not said.ended and again:
            # (if the compiler doesn't say which mutant it can't read, each half of the group is tried)
            middle = len(again) // 2 if len(again) == len(group.edits) else 0
            return settled, [Group(it, group.how) for it in (again[:middle], again[middle:]) if it]
        for edit in again:
            symbols = checks.symbols_of(said, self.source.proved_with(edit.turned or ()))
            is_held = any(said.waits(it) for it in symbols)
            self.next[edit] = APART if is_held and group.how == AMONG else ALONE
        return settled, self.later() if not self.running else []

    def later(self) -> List[Group]:
        """Returns the groups to be tried again, after each mutant of the crate was tried once."""
        apart = [it for it, how in self.next.items() if how == APART]
        alone = [it for it, how in self.next.items() if how == ALONE]
        self.next = {}
        found = [Group([it], ALONE) for it in alone]
        for is_right in (False, True):
            found += [Group(it, APART) for it in self.groups([it for it in apart if it.is_right == is_right], True)]
        return found

    def counts(self) -> Dict[str, int]:
        return {word: sum(it.word == word for it in self.found.values()) for word in WORDS}


def check(crate: str, chosen: List[Edit], libraries: checks.Libraries, keeps: str) -> Said:
    """Applies the mutants `chosen` to a copy of a crate, and checks the functions that they change over hard links to
    the kept proofs. (A check writes only new files, so the kept ones don't change.) A run of `try_some` keeps the
    proofs of its first check of a crate."""
    asked: List[List[str]] = [sorted({name for edit in chosen for name in edit.checked_as}), []]
    said, kept = Said("a library that it rests on is missing", 2), keeps.format(crate)
    for only in asked:
        words = libraries.words(crate, only)
        if not words:
            return said
        with tempfile.TemporaryDirectory(dir=build.ROOMS) as room:
            checks.furnish(room, crate, chosen)
            if os.path.isdir(kept):
                shutil.copytree(kept, os.path.join(room, "kept"), copy_function=build.link)
            said = checks.check([*words, "--incremental", "kept"], room)
            if keeps == OF_RUN and not os.path.isdir(kept) and os.path.isdir(os.path.join(room, "kept")):
                os.makedirs(os.path.dirname(kept), exist_ok=True)
                os.rename(os.path.join(room, "kept"), kept)
        # (if the checker doesn't find a function by its name, all functions are checked)
        if said.ended or not re.search(r"^rattle: error: ", said.text, re.M):
            return said
    return said


def libraries_of(crates: Iterable[str]) -> checks.Libraries:
    """Returns the proved libraries of these crates and of the crates below them."""
    found = checks.Libraries(os.path.join(build.ROOMS, "libraries"))
    for name in dict.fromkeys(it for crate in crates for it in common.below(crate)):
        found.add(name)
    return found


def proofs(edit: Edit) -> Set[str]:
    """Returns the proofs of the functions that a mutant changes."""
    return {it.proof for it in edit.turned or ()}


def said_of(counts: Dict[str, int]) -> str:
    """Formats the counts of a run as a line of words."""
    return ", ".join(f"{count} {WORDS[word]}" for word, count in counts.items())


class Run:
    """Tries the mutants of several crates. Calls `keep` with the verdicts of each check."""

    def __init__(self, crates: List[Crate], lanes: int, keep: Callable[[Dict[Edit, Verdict]], object], is_quiet: bool = False) -> None:
        self.crates, self.lanes, self.keep, self.is_quiet = crates, lanes, keep, is_quiet
        self.timer, self.left = common.Timer(), sum(len(it.chosen) for it in crates)
        self.running: Dict[Future[Said], Tuple[Crate, Group]] = {}

    def try_all(self, libraries: checks.Libraries, keeps: str) -> None:
        """Tries the mutants of all crates, and begins with the crates that are likely to take longest."""
        os.makedirs(build.ROOMS, exist_ok=True)
        with ThreadPoolExecutor(self.lanes) as pool:

            def start(crate: Crate, groups: List[Group]) -> None:
                for group in groups:
                    crate.running += 1
                    self.running[pool.submit(check, crate.name, group.edits, libraries, keeps)] = crate, group

            try:
                for crate in sorted(self.crates, key=lambda it: -it.size * len(it.chosen)):
                    start(crate, crate.first())
                while self.running:
                    for done in wait(self.running, return_when=FIRST_COMPLETED).done:
                        crate, group = self.running.pop(done)
                        start(crate, self.take(crate, group, done.result()))
                        if not crate.running:
                            self.say(crate)
            except BaseException:
                self.end_checks()
                raise

    def end_checks(self) -> None:
        """Ends the running checks, and the checks that a lane still starts from its queue."""
        for it in self.running:
            it.cancel()
        while any(it.running() for it in self.running):
            processes.end_descendants(os.getpid())
            time.sleep(0.05)

    def take(self, crate: Crate, group: Group, said: Said) -> List[Group]:
        """Records the verdicts that a check's output gives, and returns the groups to try next."""
        settled, groups = crate.take(group, said)
        self.left -= len(settled)
        self.keep(settled)
        print(f"[{self.timer}] {crate.name}: of {len(group.edits)} in one check {len(settled)} are judged; {self.left} are left", flush=True)
        return groups

    def say(self, crate: Crate) -> None:
        """Prints the verdicts on the mutants of a crate."""
        for edit in crate.chosen:
            verdict = crate.found[edit]
            if not self.is_quiet or not verdict.is_well:
                print(verdict.line(edit.path))
        print(f"{crate.name}: {said_of(crate.counts())}, in {crate.checks} checks", flush=True)

    def counts(self) -> Dict[str, int]:
        """Returns how many mutants of all crates have each verdict, by its word."""
        return {word: sum(it.counts()[word] for it in self.crates) for word in WORDS}

    def failed(self) -> int:
        """Returns how many mutants don't have the verdict that they must have."""
        return sum(count for word, count in self.counts().items() if word not in AS_IT_MUST_BE)


def crates_of(chosen: Iterable[Edit], parts: sums.Parts, most: int = MOST) -> List[Crate]:
    """Groups these mutants by crate. Each crate tries at most `most` of them in one check."""
    found: Dict[str, List[Edit]] = {}
    for edit in chosen:
        found.setdefault(edit.crate, []).append(edit)
    return [Crate(name, own, parts.source(name), most) for name, own in found.items()]


def draw(mutants: Mutants) -> int:
    """Draws the number of a mutant, counted from 1. It comes from the system's random source, so no commit, option or
    environment variable can choose it."""
    return secrets.randbelow(len(mutants.mutants)) + 1


def drawn_from(mutants: Mutants, number: int) -> List[Edit]:
    """Returns the first DRAWN mutants with a current row, each with its right form. Starts at this number, and
    continues with the first mutant after the last one. Neighbours belong to one or two crates, so they need few
    checks."""
    found = mutants.mutants
    ordered = [*found[number - 1 :], *found[: number - 1]]
    # (`make wrong-bodies` tries stale ones)
    paths = [it for it in ordered if mutants.is_current(it)][:DRAWN]
    forms = [it for path in paths for it in (path, path + edits.RIGHT) if it in mutants.edits]
    return [mutants.edits[it] for it in forms if mutants.is_current(it)]


def try_some(libraries: checks.Libraries) -> Tuple[int, int]:
    """Tries drawn mutants over the libraries that `rt ci` proved. Returns how many forms have the verdict that they
    must have, and how many don't, including mutants over a crate that isn't proved. Writes nothing."""
    mutants = Mutants()
    number = draw(mutants)
    chosen = drawn_from(mutants, number)
    print(f"{DRAWN} of {len(mutants.mutants)} mutants with their right forms, from number {number}, drawn in this run; "
          f"`tools/mutants.py --from {number}` tries them again", flush=True)  # fmt: skip
    # (each check gets few mutants, so that all processors are busy)
    lanes = build.lanes()
    run = Run(crates_of(chosen, mutants.parts, -(-len(chosen) // (2 * lanes))), lanes, lambda settled: None)
    run.try_all(libraries, OF_RUN)
    return len(chosen) - run.failed(), run.failed()


def chosen_of(named: Dict[str, List[str]], mutants: Mutants, takes_all: bool) -> List[Edit]:
    """Returns the forms to try: in each crate the forms whose path contains one of its words. If no word is given for a
    crate, returns its forms with a stale row, or all its forms if `takes_all`."""
    found = []
    for path, edit in sorted(mutants.edits.items()):
        wanted = named.get(edit.crate, [])
        by_word = any(word and word in edit.name for word in wanted)
        is_left = "" in wanted and (takes_all or not mutants.is_current(path))
        found += [edit] * (by_word or is_left)
    return found


def try_chosen(chosen: List[Edit], mutants: Mutants, options: argparse.Namespace) -> int:
    """Tries these mutants, and writes their verdicts. Returns the exit status."""
    crates = crates_of(chosen, mutants.parts)
    status = build.prove_libraries([it.name for it in crates]) if crates else 0
    if status:
        return status

    def keep(settled: Dict[Edit, Verdict]) -> None:
        for edit, verdict in settled.items():
            mutants.keep(edit.path, mutants.sums[edit.path], verdict.row)
        mutants.write()

    run = Run(crates, options.lanes, keep, options.quiet)
    try:
        run.try_all(libraries_of(it.name for it in crates), OF_CRATE)
    finally:
        shutil.rmtree(build.ROOMS, ignore_errors=True)
    spent = os.times()
    took = f"{run.timer}, of the processors {common.clock(spent.children_user + spent.children_system)}"
    print(f"{said_of(run.counts())}, in {sum(it.checks for it in crates)} checks, {options.lanes} side by side: {took}")
    return 1 if run.failed() else 0


def list_left(chosen: List[Edit], mutants: Mutants) -> int:
    """Prints the rows of these forms, which are stale, and their number. Returns the exit status: 1 if there are
    any."""
    for edit in chosen:
        print(mutants.row(edit.path).line)
    of_right = len(mutants.edits) - len(mutants.mutants)
    print(f"{len(chosen)} of {len(mutants.mutants)} mutants and {of_right} right forms have no row of their present form")
    return 1 if chosen else 0


def options_of(given: List[str]) -> argparse.Namespace:
    """Parses the command line."""
    words = argparse.ArgumentParser(description="Tries the mutants of crates: the prover has to refuse each.")
    words.add_argument("--lanes", type=int, default=build.lanes(), metavar="N")
    words.add_argument("--quiet", action="store_true")
    words.add_argument("--all", action="store_true")
    words.add_argument("--left", action="store_true")
    words.add_argument("--from", type=int, dest="start", metavar="N")
    words.add_argument("--renamed", metavar="COMMIT")
    words.add_argument("crates", nargs="*", metavar="CRATE[/WORD]")
    return words.parse_args(given)


def carry_out(options: argparse.Namespace, named: Dict[str, List[str]], mutants: Mutants) -> int:
    """Carries over the rows of a commit, or tries the chosen mutants. Returns the exit status."""
    if options.renamed:
        return renaming.keep_rows(options.renamed, mutants)
    if options.start is None:
        return try_chosen(chosen_of(named, mutants, options.all), mutants, options)
    if options.crates or options.start not in range(1, len(mutants.mutants) + 1):
        common.stop(f"--from takes 1 to {len(mutants.mutants)}, and no crates")
    return try_chosen(drawn_from(mutants, options.start), mutants, options)


def main(given: List[str]) -> int:
    options = options_of(given)
    common.need("rt")
    named: Dict[str, List[str]] = {}
    for it in options.crates or common.libraries():
        name, _, word = it.partition("/")
        named.setdefault(name, []).append(word)
    unknown = [it for it in named if it not in common.libraries()]
    if unknown:
        common.stop(f"crates.txt doesn't list {', '.join(unknown)}")
    if options.left:
        mutants = Mutants()
        return list_left(chosen_of(named, mutants, False), mutants)
    with common.one_at_a_time(), common.ended_by_signals(lambda: "while it tried mutants"):
        return carry_out(options, named, Mutants())


if __name__ == "__main__":
    sys.exit(main(sys.argv[1:]))
