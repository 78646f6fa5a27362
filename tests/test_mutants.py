"""Tests how tools/mutants.py judges recorded output of the prover: which mutants count as refused, which are tried
again, and which lines of tools/mutants.txt are stale."""
from __future__ import annotations

import contextlib
import io
import os
import random
import re
import shutil
import signal
import subprocess
import sys
import tempfile
from typing import Callable, Dict, Iterable, Iterator, List, Optional, Tuple
from unittest import mock

import build
import checks
import common
import definitions
import edits
import mutants
import reading
import renaming
import sums
import verdicts
from checks import Said
from harness import TOP, Failed, awaited, holds, is_running, same, test, text_of, want
from homes import copy, write

# If this is True, no line of mutants.txt may be stale.
ALL_ARE_TRIED = False
MUTANT = "units_are_characters"
GOAL = "note: src/passes.rt:120:1: it is not proved that what the function ensures holds when it returns (`returns-in-Utf16`)\n"
REFUSED = GOAL + (
    "fn ob0_text::passes::character_width: no proof: expected answers in ./proofs/passes/character_width/Answers.antt; `search` did not prove `returns-in-Utf16`\n"
    "only=1 proved=0\n"
)
CLAIM = "# Offsets count characters: refused by the clause of `character_width`, the units of a character.\n"


def edit_of(crate: str, word: str, source: reading.Source) -> edits.Edit:
    """Returns the crate's first mutant whose name contains the word."""
    return next(it for it in edits.edits_of(crate, source) if word in it.name)


def judged(said: str, status: int = 1, first_line: str = CLAIM, alone: bool = True) -> Optional[str]:
    """Returns the verdict's word for a mutant of `character_width` after a check with this output, or None if the
    mutant has to be tried again."""
    source = reading.Source("ob0_text")
    edit = edit_of("ob0_text", MUTANT, source)
    edit.claim = edits.claim_of(first_line)
    found = mutants.judge(edit, Said(said, status), source, alone)
    return found.word if found else None


@test("mutants: a mutant counts as refused if a goal of the clause and function in its first line is unproved")
def refused() -> None:
    same(judged(REFUSED), mutants.REFUSED, "a goal of the clause")
    named = "# Wrong: refused by `ok` and `reused` of `character_width`, since.\n"
    same(judged(REFUSED.replace("returns-in-Utf16", "returns-clause-reused"), first_line=named), mutants.REFUSED, "a goal of a named clause")
    loop = "# Wrong: refused by the loop of `character_width`.\n"
    same(judged(REFUSED.replace("returns-in-Utf16", "loop-c-preserved"), first_line=loop), mutants.REFUSED, "a goal of a loop")
    same(judged(REFUSED, first_line="# Wrong: refused by the one goal of `character_width`.\n"), mutants.REFUSED, "the one goal of several clauses")


@test("mutants: an error in an answer to the clause's goal counts as a refusal, unless the answer cites a missing name")
def refused_by_answer() -> None:
    error = "./proofs/passes/character_width/Answers.antt:9:3: error: `returns-in-Utf16`: "
    end = "fn ob0_text::passes::character_width: not proved\nonly=1 proved=0\n"
    differ = "as printed, the two types differ only where one has `c.end` (expected)\n"
    same(judged(error + differ + end), mutants.REFUSED, "types that differ")
    same(judged(error.replace("returns-in-Utf16", "loop-c-preserved") + differ + end), mutants.ELSEWHERE, "another goal's answer")
    same(judged(error + "record `View` has no field `len_utf16`\n" + end), mutants.ELSEWHERE, "a name that is gone")


# An answer about a goal that the edit removed: the prover continues the message on further lines.
GONE = """./proofs/{at}/Answers.antt:25:23: error: `{goal}`: `goal.{goal}`: module
  `Rattle.{crate}.proofs.{at}`
  has no `{goal}` that can be named from here
"""


@test("mutants: a missing name is recognized even if the prover's message about the name spans several lines")
def gone_in_later_line() -> None:
    end = "fn ob0_text::passes::character_width: not proved\nonly=1 proved=0\n"
    said = GONE.format(at="passes/character_width", goal="returns-in-Utf16", crate="ob0_text") + end
    same(judged(said), mutants.ELSEWHERE, "a goal that is gone")
    same(judged(said.replace("module\n  ", "module ")), mutants.ELSEWHERE, "in two lines")
    other = "./proofs/passes/character_width/Answers.antt:9:3: error: `returns-in-Utf16`: the two types differ\n"
    same(judged(said.replace(end, other + end)), mutants.REFUSED, "another answer that fails")
    same(checks.messages_of("a\n  b\nc\n\n d\n"), ["a b", "c", "", " d", ""], "messages")


@test("mutants: an error in the proof of functions that call each other or themselves is found in the right folder")
def proof_of_cycle() -> None:
    errors = [f"./proofs/{at}/+blocks/Answers.antt:9:3: error: `block-returns`: a type" for at in ("low/Visit", "low", "other/Visit")]
    said = Said("\n".join(errors), 1)
    same(said.proof_errors("ob0_text::low::Visit::block", "low::+blocks"), errors[:1], "of methods")
    same(said.proof_errors("ob0_text::low::block", "low::+blocks"), errors[1:2], "of functions")
    errors = [f"./proofs/calls/{at}/Answers.antt:9:3: error: `returns`: a type" for at in ("+call+fn-call-enter", "call", "+called+fn-called-enter")]
    said = Said("\n".join(errors), 1)
    same(said.proof_errors("ob0_run_machine::calls::call", "calls::call"), errors[:2], "of a function and its closure")
    errors = [f"./proofs/programs/{at}/Answers.antt:9:3: error: `returns`: a type" for at in ("+count", "+counted", "other/+count")]
    said = Said("\n".join(errors), 1)
    same(said.proof_errors("ob0_run_lowering::programs::count", "programs::count"), errors[:1], "of a function that calls itself")


@test("mutants: a mutant doesn't count as refused if it is still proved, doesn't compile or gets no verdict")
def not_refused() -> None:
    proved = "fn ob0_text::passes::character_width: proved\nonly=1 proved=1\n"
    found = judged(proved, 0), judged(proved, 0, alone=False)
    same(found, (mutants.PROVED, None), "a function that is proved, by itself and among others")
    line = edit_of("ob0_text", MUTANT, reading.Source("ob0_text")).lines.popitem()[0][1]
    said = f"src/passes.rt:{line}:9: error[unresolved-name]: cannot find `units` in this scope\n"
    same(judged(said), mutants.NOT_JUDGED, "an error of the compiler")
    said = f"src/passes.rt:{line}:9: error: `returns-in-Utf16`: `c.len` is not in scope\n" + REFUSED
    same(judged(said), mutants.NOT_JUDGED, "an error in a goal that can't be read")
    same(judged("", -9), mutants.NOT_JUDGED, "a check that was killed")
    same(judged(GOAL, -9), mutants.NOT_JUDGED, "a check that was killed on the way")
    same(judged("rattle: an unknown flag\n", 2), mutants.NOT_JUDGED, "a check that didn't begin")
    said = "fn ob0_text::passes::character_width: could not tell\nrattle: no verdict: antt ran out of the steps that the check of one declaration may take\n"
    same(judged(said, 3), mutants.NOT_JUDGED, "a limit of the prover")
    same(judged("fn ob0_text::passes::character_width: no proof: it calls other, which is not proved\nonly=1 proved=0\n"), mutants.NOT_JUDGED, "a consequence")
    uncovered = "fn ob0_text::passes::character_width: no proof: the checker does not cover such a body\nonly=1 proved=0\n"
    same(judged(uncovered), mutants.NOT_JUDGED, "a body that the checker doesn't cover")


@test("mutants: a goal of another clause, function or callee, or a missing name, isn't a refusal by a mutant's clause")
def elsewhere() -> None:
    for goal in ("returns-clause-ok", "loop-c-preserved", "count-requires-clause-few", "count-requires-returns"):
        same(judged(REFUSED.replace("returns-in-Utf16", goal)), mutants.ELSEWHERE, goal)
    lost = "proofs/passes/character_width/Answers.antt:9:3: error: `returns-in-Utf16`: `len_utf16` has no field\n"
    same(judged(lost + "fn ob0_text::passes::character_width: not proved\nonly=1 proved=0\n"), mutants.ELSEWHERE, "names that were lost")
    same(judged(REFUSED.replace("passes::character_width", "passes::other")), mutants.ELSEWHERE, "another function")


@test("mutants: a first line that cites no clause makes no claim, and a claim's function is matched by whole names")
def claims() -> None:
    width = next(it for it in reading.Source("ob0_text").functions if it.path == "passes::character_width")
    same(edits.claim_of("# Wrong: refused.\n"), None, "no clause")
    same(edits.claim_of("# Refused by the clause `ok` of `f`.\n"), edits.Claim("f", ("ok",)), "a clause after its word, and no other words")
    same(edits.claim_of("file: src/lib.rt\n"), None, "no first line")
    claim = edits.claim_of(CLAIM)
    same(claim, edits.Claim("character_width", ("the clause",)), "a clause without a name")
    holds(claim and claim.is_of(width) and not edits.Claim("idth", ()).is_of(width), "a function by the end of its path")
    words = {"returns-in-Some": "the clause", "returns-then-x-clause-ok": "`ok`", "loop-c-preserved": "the loop", "count-requires-returns": ""}
    same({it: edits.clause_of(it) for it in words}, words, "the words for goals")


@test("mutants: a trait's method is checked under the checker's name for the method, which is also its proof's folder")
def asked_of_trait() -> None:
    found = 0
    for crate in ("ob0_text", "ob0_rpc", "ob0_session_answers"):
        proofs, source = os.path.join(TOP, "crates", crate, "proofs"), reading.Source(crate)
        for it in source.functions:
            # (the checker makes up a name for a type without a name, such as a slice)
            if it.trait and it.trait != it.owner and it.owner in source.types:
                folders = [at for at, _, _ in os.walk(os.path.join(proofs, *it.module)) if os.path.basename(at) == it.name]
                named = [os.path.relpath(at, proofs).replace(os.sep, "::") for at in folders]
                own = [at for at in named if it.is_named(f"{crate}::{at}")]
                holds(not own or it.checked_as in own, f"{crate}: {it.checked_as} has its proof in one of {own}")
                found += it.checked_as in own
    holds(found > 5, f"{found} methods")
    turned = edit_of("ob0_session_answers", "diagnostics_always_empty", source).turned
    same([it.checked_as for it in turned or ()], ["diagnostics::PublishDiagnosticsRequestDocumentRequest::answer"], "of a type with a lifetime")


@test("mutants: a method is checked under the module of its type, even if another file implements the method")
def asked_of_type() -> None:
    found = [it for it in reading.Source("ob0_run_lowering").functions if it.name in ("locate_var_argument", "number_or_zero")]
    same([it.file for it in found], ["src/statement_operands.rt"] * 2, "their files")
    same(sorted(it.checked_as for it in found), ["scene::Scene::locate_var_argument", "statement_operands::number_or_zero"], "their names")
    named = {it.name: it.is_named("ob0_run_lowering::scene::Scene::locate_var_argument") for it in found}
    same(named, {"locate_var_argument": True, "number_or_zero": False}, "which of them is meant")


# A crate of two functions and a type, and a mutant of one of them.
SOURCE = """//! A crate.
#![tactic(auto)]

ghost use Rattle.ob0_small.specs.Numbers.{{next_of}};

/// The next number, as it is {said}.
pub fn next({name}: u64) -> u64
    requires {{ {name} < {limit} }}
    ensures more {{ result ≡ next_of {name} }}
{{
    {name} + 1
}}

/// How it ends.
#[derive(Drop)]
pub enum End {{
    #[error("done")]
    Done,
    Fault {{ place: usize, of: Vec<u8> }},
    Both(usize, Option<u64>),
}}

/// The number after the next one.
pub fn other(n: u64) -> u64
    requires {{ n < 5 }}
    ensures {{ result ≡ n + {steps} }}
{{
    next(next(n))
}}
"""
EDIT = "# The number is unchanged: refused by `more` of `next`.\nfile: src/lib.rt\nold:     n + 1\nnew:     n\n"


@contextlib.contextmanager
def small_crate(**changed: str) -> Iterator[str]:
    """Makes a temporary folder with one made-up crate stand in for the repository, and yields the folder."""
    with tempfile.TemporaryDirectory() as top, mock.patch.object(common, "TOP", top):
        with mock.patch.object(definitions, "CRATES", os.path.join(top, "crates")):
            write_crate(top, **changed)
            yield top


def write_crate(top: str, edit: str = EDIT, **changed: str) -> None:
    """Writes the files of the made-up crate into a folder, with the given changes."""
    specs = changed.pop("specs", SPECS).format(size=1)
    for folder in ("src", "specs", edits.OTHERS, edits.OF_KIT):
        os.makedirs(os.path.join(top, "crates", "ob0_small", folder), exist_ok=True)
    texts = {"crates.txt": "ob0_small:\n", f"crates/ob0_small/{edits.OTHERS}/unchanged.edit": edit}
    texts["crates/ob0_small/src/lib.rt"] = SOURCE.format(**{"said": "counted", "limit": "9", "steps": "2", "name": "n", **changed})
    texts["crates/ob0_small/specs/Numbers.antt"] = specs
    for name, text in texts.items():
        with open(os.path.join(top, name), "w", encoding="utf-8") as file:
            file.write(text)


PATH = f"ob0_small/{edits.OTHERS}/unchanged.edit"
REFUSED_BY = "returns-clause-more of next"
# A definition that a contract cites, one that the first definition cites, and one that nothing cites.
SPECS = """pub abbrev next_of : N → N
next_of n = step n

abbrev step : N → N
step n = n + {size}

abbrev other : N → N
other n = n
"""


@test("mutants: a line of mutants.txt is stale if its mutant, function, contract or a cited definition changes")
def current() -> None:
    with small_crate() as top:
        rows = os.path.join(top, "mutants.txt")
        found = verdicts.Mutants(rows)
        same((found.stale, found.row(PATH).verdict), ([PATH], verdicts.NOT_TRIED), "one that was never tried")
        found.keep(PATH, found.sums[PATH], REFUSED_BY)
        found.write()
        stales: Dict[str, Tuple[Dict[str, str], bool]] = {
            "nothing": ({}, False),
            "a comment": ({"said": "written here"}, False),
            "another function": ({"steps": "1 + 1"}, False),
            "a local name": ({"name": "count", "edit": EDIT.replace(" n", " count")}, False),
            "a definition that it doesn't name": ({"specs": SPECS.replace("other n = n", "other n = 0")}, False),
            "a comment of a definition": ({"specs": SPECS + "-- more\n"}, False),
            "a definition": ({"specs": SPECS.replace("= step n", "= step (step n)")}, True),
            "a definition of the same crate below it": ({"specs": SPECS.replace("n + ", "1 + n + ")}, True),
            "its contract": ({"limit": "8"}, True),
            "the words of its first line": ({"edit": EDIT.replace("unchanged", "the same")}, False),
            "the clause of its first line": ({"edit": EDIT.replace("`more`", "`few`")}, True),
            "the mutant": ({"edit": EDIT.replace("new:     n", "new:     n + 2")}, True),
        }
        for what, (changed, is_stale) in stales.items():
            write_crate(top, **changed)
            same(verdicts.Mutants(rows).stale, [PATH] * is_stale, f"after a change of {what}")
        write_crate(top)
        found.keep(PATH, found.sums[PATH], mutants.PROVED)
        same(found.stale, [PATH], "one that was proved later")
        found.keep(PATH, found.sums[PATH], "returns-clause-more of other")
        same(found.stale, [PATH], "one whose row is of a function that it doesn't change")


@test("mutants: local names are a function's parameters and the names in its patterns, not fields, paths or functions")
def local_names() -> None:
    words = sums.EDIT_WORD.findall(
        "fn f(a: T, mut b: U) { let (c, d) = a.e; match c { Some(g) if h => g, Pair { i, j: k } | l::m(n) => o, } list.map(|p, q| p + r) }"
    )
    same(sums.binders(words), ["a", "b", "c", "d", "g", "i", "k", "n", "p", "q"], "the bound names")
    names = sums.Names()
    names.take("abc")
    same(names.numbered(sums.EDIT_WORD.findall("a.b + b.a(c) + c() + x::a + d")), "$0 . b + $1 . a ( $2 ) + c ( ) + x : : a + d".split(), "numbers")


def row_after(top: str, path: str, names: Dict[str, str], **changed: str) -> Tuple[str, int, str]:
    """Commits a crate whose line in mutants.txt is up to date, renames names in its files, and carries over the
    committed lines that still hold. Returns the mutant's verdict, the exit status and the output."""
    own = {name: value for name, value in os.environ.items() if not name.startswith("GIT_")}
    git = ["git", "-c", "user.name=a", "-c", "user.email=b", "-c", "commit.gpgsign=false", "-C", top]
    write_crate(top)
    before = verdicts.Mutants(os.path.join(top, "tools", "mutants.txt"))
    before.keep(PATH, before.sums[PATH], REFUSED_BY)
    before.write()
    for words in (["init", "-q"], ["add", "."], ["commit", "-qm", "x"]):
        subprocess.run([*git, *words], check=True, env=own)
    write_crate(top, **changed)
    for at, _, files in os.walk(os.path.join(top, "crates")):
        for it in (os.path.join(at, name) for name in files):
            with open(it, encoding="utf-8") as file:
                text = re.sub(r"[A-Za-z_]+", lambda word: names.get(word[0], word[0]), file.read())
            with open(it, "w", encoding="utf-8") as file:
                file.write(text)
    with contextlib.redirect_stdout(io.StringIO()) as said:
        found = verdicts.Mutants(os.path.join(top, "tools", "mutants.txt"))
        status = renaming.keep_rows("HEAD", found)
    return found.row(path).verdict, status, said.getvalue()


@test("mutants: a renaming doesn't make a line of mutants.txt stale, unless more changes or two names become one")
def kept_over_renaming() -> None:
    want("git")
    names = {"next": "following", "more": "larger", "next_of": "successor", "step": "advance"}
    cases: Dict[str, Tuple[Dict[str, str], Dict[str, str], bool]] = {
        "names": (names, {}, True),
        "two names that became one": ({"next_of": "step"}, {}, False),
        "a number": (names, {"limit": "8"}, False),
        "a definition": (names, {"specs": SPECS.replace("n + ", "n - ")}, False),
    }
    for what, (exchanged, changed, is_kept) in cases.items():
        with small_crate() as top:
            os.makedirs(os.path.join(top, "tools"))
            verdict, status, said = row_after(top, PATH, exchanged, **changed)
            same(status, 0 if is_kept else 1, f"{what}: the status; {said}")
            same(verdict, "returns-clause-larger of following" if is_kept else REFUSED_BY, f"{what}: the row")


# A mutant that adds a branch, and right forms of it.
BRANCH = EDIT.replace("new:     n", "new:     if n == 7 { n } else { n + 1 }")


@test("mutants: a `right:` text must contain the mutant's new branch or closure, and differ from the old text")
def right_forms() -> None:
    def why(right: str, edit: str = BRANCH) -> Optional[str]:
        with small_crate(edit=f"{edit}# right: {right}\n"):
            found = {it.is_right: it for it in edits.forms_of("ob0_small", reading.Source("ob0_small"))}
            same((found[False].needs_right_form, found[False].why), (True, None), "the wrong form")
            return found[True].why

    same(why("    if n == 7 { 8 } else { n + 1 }"), None, "the right value in the new branch")
    lacks = "the right texts lack a branch of the new ones, so their form wasn't tried"
    same(why("    1 + n"), lacks, "no branch")
    same(why("    n + 1"), "the right form is the old text, so the new form wasn't tried", "the old text")
    same(why("    if n == 7 { n } else { n + 1 }"), "the right form is the wrong one", "the wrong text")
    same(why("    1 + n", BRANCH.replace("if n == 7 { n } else { n + 1 }", "(|m: u64| m)(n)")), lacks.replace("branch", "closure"), "no closure")
    same(edits.pairs_of("# right: 1\nfile: src/lib.rt\n")[1], "a right form isn't after its 'new:' line", "one before it")


@test("mutants: each edit of `rt ci`, and each mutant that adds a branch, return or function, has a `right:` text")
def have_right_forms() -> None:
    found = [it for crate in common.listed() for it in edits.forms_of(crate)]
    lacking = [it.path for it in found if (it.is_of_kit or it.needs_right_form) and not it.has_right_form]
    same(lacking, [], "mutants without one")
    same([(it.path, it.why) for it in found if it.is_right and it.why], [], "right forms that aren't in the form")


@test("mutants: a `right:` text is accepted if proved, retried if refused among others, and fails if refused by itself")
def right_judged() -> None:
    with small_crate(edit=BRANCH + "# right:     if n == 7 { 8 } else { n + 1 }\n"):
        source = reading.Source("ob0_small")
        right = next(it for it in edits.forms_of("ob0_small", source) if it.is_right)
        own = "fn ob0_small::next: "

        def word(said: str, alone: bool = True, status: int = 1) -> Optional[str]:
            found = mutants.judge(right, Said(said, status), source, alone)
            return found.word if found else None

        same(word(f"{own}proved\nonly=2 proved=1\n", False), mutants.RIGHT, "a proved one among others")
        refused = f"note: src/lib.rt:5:1: it is not proved that it holds (`returns-clause-more`)\n{own}no proof: `search` did not prove it\n"
        same(word(f"{refused}only=1 proved=0\n"), mutants.RIGHT_REFUSED, "a refused one")
        same(word(f"{refused}only=2 proved=0\n", False), None, "a refused one among others")
        same(word("only=1 proved=0\n"), mutants.NOT_JUDGED, "no verdict")
        crate = mutants.Crate("ob0_small", edits.forms_of("ob0_small", source), source)
        same([[it.is_right for it in group.edits] for group in crate.first()], [[False], [True]], "the forms are in two checks")


@test("mutants: mutants.txt lists each mutant and `right:` text once, in order, without stale lines once all are tried")
def rows() -> None:
    found = verdicts.Mutants()
    same([it.path for it in verdicts.rows_of(verdicts.PATH)], sorted(found.edits), "its lines (tools/mutants.py writes them)")
    # (a line is also stale if its goal belongs to another clause, or to a function that the mutant doesn't change)
    same(found.stale if ALL_ARE_TRIED else [], [], "those whose row is stale: `make wrong-bodies` tries them")


class Unread(Dict[str, str]):
    """Stands in for `os.environ`. Reading any variable fails the test."""

    def __getitem__(self, name: str) -> str:
        raise Failed(f"{name} was read")

    get = __contains__ = __iter__ = __getitem__  # type: ignore[assignment]


@test("mutants: each run of `make test` draws other mutants, whatever the commit and the environment are")
def drawn() -> None:
    names = [f"{at:03}" for at in range(300)]
    found = mock.Mock(mutants=names, edits={it: it for it in [*names, "299:right"]})
    with mock.patch.object(os, "environ", Unread()), mock.patch.object(common, "commit", lambda: Unread()["the commit"]):
        runs = []
        for _ in range(2):
            random.seed(0)
            runs.append([mutants.draw(found) for _ in range(60)])
    holds(runs[0] != runs[1], f"both times {runs[0]} was drawn")
    numbers = {it for run in runs for it in run}
    holds(len(numbers) > 60 and numbers <= {*range(1, 301)}, f"these were drawn: {numbers}")
    same(mutants.drawn_from(found, 299), ["298", "299", "299:right", *names[:22]], "24 of them, with their right forms")
    few = mock.Mock(mutants=["b", "c"], edits={"b": "b", "c": "c"})
    same(mutants.drawn_from(few, 2), ["c", "b"], "each of a few once")


def tried_by(function: Callable[[], object]) -> Tuple[List[str], str]:
    """Returns the sorted paths of the mutants and right forms that a function would try, and its output."""
    tried: List[str] = []

    def note(run: mutants.Run, *_: object) -> None:
        tried.extend(it.path for crate in run.crates for it in crate.chosen)

    # (`make test` holds the lock of this checkout while it runs this)
    with mock.patch.object(mutants.Run, "try_all", note), mock.patch.multiple(
        common, one_at_a_time=contextlib.nullcontext, ended_by_signals=lambda where: contextlib.nullcontext()
    ), mock.patch.object(build, "prove_libraries", lambda names: 0):
        with mock.patch.object(mutants, "libraries_of", lambda names: None), contextlib.redirect_stdout(io.StringIO()) as said:
            function()
    return sorted(tried), said.getvalue()


@test("mutants: `make test` tries the mutants that it drew, and prints the option that tries the same mutants again")
def drawn_again() -> None:
    found = verdicts.Mutants()
    with mock.patch.object(mutants, "Mutants", lambda: found):
        tried, said = tried_by(lambda: mutants.try_some(mutants.Libraries("no folder")))
        start = common.match_of(r"--from (\d+)", said)[1]
        same(sorted(it.path for it in mutants.drawn_from(found, int(start))), tried, said)
        holds(0 < len([it for it in tried if not it.endswith(edits.RIGHT)]) <= mutants.DRAWN, said)
        same(tried_by(lambda: mutants.main(["--from", start]))[0], tried, "those that are tried again")
        for words in (["--from", "0"], ["--from", str(len(found.mutants) + 1)], ["--from", "1", "ob0_text"]):
            with contextlib.redirect_stderr(io.StringIO()) as wrong:
                try:
                    tried_by(lambda: mutants.main(words))
                except SystemExit as why:
                    same(why.code, 2, f"the status of {words}")
                else:
                    raise Failed(f"{words} were taken")
            holds(f"--from takes 1 to {len(found.mutants)}" in wrong.getvalue(), wrong.getvalue())


@test("mutants: the commit's hash is read from this repository, whatever Git's environment variables contain")
def of_this_repository() -> None:
    want("git")
    found = common.commit()
    with mock.patch.dict(os.environ, {"GIT_DIR": "/no/such/folder", "GIT_CONFIG_COUNT": "x"}):
        same(common.commit(), found, "with other variables")
    with mock.patch.object(common, "TOP", tempfile.gettempdir()):
        same(common.commit(), "0", "outside a repository")
    with mock.patch.object(shutil, "which", lambda name: None):
        same(common.commit(), "0", "without git")


@test("mutants: if one check tries many mutants, each mutant is judged by the clause in its own first line")
def many_judged() -> None:
    source = reading.Source("ob0_frame")
    edit = edit_of("ob0_frame", "goes_on_after_bad_head", source)
    end = "fn ob0_frame::framer::Framer::feed: no proof: `search` did not prove it\nlogic=not-proved functions=2\n"

    def word(goal: str) -> Tuple[str, str]:
        said = f"note: src/framer.rt:60:9: it is not proved that what the function ensures holds (`{goal}`)\n{end}"
        found = mutants.judge(edit, Said(said, 1), source, False)
        assert found
        return found.word, found.row

    row = "returns-clause-bad-in-Err of framer::Framer::feed"
    same(word("returns-clause-bad-in-Err"), (mutants.REFUSED, row), "a goal of the clause")
    same(word("returns-clause-broken")[0], mutants.ELSEWHERE, "a goal of another clause")
    same(word("split_messages-requires-clause-bad")[0], mutants.ELSEWHERE, "what a callee requires")
    edit.claim = None
    for goal in ("returns-clause-bad-in-Err", "split_messages-requires-clause-bad"):
        same(word(goal)[0], mutants.ELSEWHERE, f"{goal}, if the first line has no clause")


@test("mutants: a mutant whose function calls an unproved function is retried, unless the mutant's clause refuses it")
def many_waiting() -> None:
    source = reading.Source("ob0_frame")
    crate = mutants.Crate("ob0_frame", edits.edits_of("ob0_frame", source), source)
    edit, other = (next(it for it in crate.chosen if word in it.name) for word in ("goes_on_after_bad_head", "takes_a_longer_head"))
    waits = "fn ob0_frame::framer::Framer::feed: not proved; it calls `ob0_frame::head::message_stage`, which is not proved"
    refused_stage = "fn ob0_frame::head::message_stage: no proof: `search` did not prove it"

    def taken(goal: str, how: int = mutants.AMONG, chosen: Tuple[edits.Edit, ...] = (edit, other)) -> Tuple[Optional[str], List[int]]:
        crate.running = 1
        note = f"note: src/framer.rt:60:9: it is not proved that what the function ensures holds (`{goal}`)"
        said = Said("\n".join([refused_stage, note, waits, "only=2 proved=0", ""]), 1)
        settled, groups = crate.take(mutants.Group(list(chosen), how), said)
        return settled[edit].word if edit in settled else None, [it.how for it in groups if edit in it.edits]

    same(taken("returns-clause-bad"), (mutants.REFUSED, []), "its clause")
    same(taken("returns-clause-broken"), (None, [mutants.APART]), "another clause, among others")
    again = taken("returns-clause-broken", mutants.APART)
    same(again, (None, [mutants.ALONE]), "another clause, among independent ones")
    same(taken("returns-clause-broken", mutants.ALONE, (edit,)), (mutants.ELSEWHERE, []), "another clause, by itself")


@test("mutants: mutants in one check never share a proof, and mutants that are tried apart don't depend on each other")
def groups() -> None:
    source = reading.Source("ob0_frame")
    crate = mutants.Crate("ob0_frame", edits.edits_of("ob0_frame", source), source)
    holds("head::message_stage" in crate.below["framer::Framer::feed"], "what a function stands on")
    for is_apart in (False, True):
        found = crate.groups(crate.chosen, is_apart)
        same(sorted(it.path for group in found for it in group), sorted(it.path for it in crate.chosen), "each once")
        pairs = [(one, other) for group in found for at, one in enumerate(group) for other in group[:at]]
        same([(a.name, b.name) for a, b in pairs if mutants.proofs(a) & mutants.proofs(b)], [], "of one proof")
        holds(not is_apart or not any(crate.are_joined(*it) for it in pairs), "that stand on each other")
    same([len(it) > mutants.MOST for it in found], [False] * len(found), "more than go into one check")


@test("mutants: all functions of a crate are checked if the checker can't find the mutant's function by its name")
def asked_for_all() -> None:
    edit = edit_of("ob0_frame", "takes_a_longer_head", reading.Source("ob0_frame"))
    asked: List[List[str]] = []

    class Named(checks.Libraries):
        def words(self, crate: str, only: Iterable[str]) -> Optional[List[str]]:
            asked.append(list(only))
            print_line = "print('rattle: error: `ob0_frame` has no function')" if asked[-1] else "print('logic=not-proved')"
            return [sys.executable, "-c", print_line]

    os.makedirs(build.ROOMS, exist_ok=True)
    said = mutants.check("ob0_frame", [edit], Named(os.path.join(build.ROOMS, "libraries-of-a-test")), mutants.OF_RUN)
    same((asked, said.text), ([["head::message_stage"], []], "logic=not-proved\n"), "what is asked for")


@test("mutants: a crate's proved library is used only if `rt ci` reports that the crate is proved")
def libraries() -> None:
    taken = mutants.Libraries(os.path.join(TOP, "bin", "rooms", "libraries-of-a-test"))
    for line in ("rt: ob0_text proved\n", "rt: ob0_scan is kept: an earlier run on this machine proved the same files\n"):
        taken.take(line)
    for line in ("rt: ob0_tree NOT PROVED\n", "rt: ob0_rpc: its tests are proved\n", "rt: ob0_frame: trying its must-fail edits (2)\n"):
        taken.take(line)
    same(taken.proved, {"ob0_text", "ob0_scan"}, "the crates")
    same(taken.words("ob0_parse", ["parse"]), None, "the check of a crate over a missing library")
    shutil.rmtree(taken.folder, ignore_errors=True)


# Prints a check's verdict on `ends_in_empty_line` of ob0_frame, which depends on the patterns in its body.
CHECK = r"""
import sys
text = open("src/head.rt").read()
name = "fn ob0_frame::head::ends_in_empty_line: "
if "[b'x']" in text:
    print("note: src/head.rt:68:1: it is not proved that what the function ensures holds (`returns-in-10`)")
    print(name + "no proof: expected answers in ./proofs/head/ends_in_empty_line/Answers.antt; `search` did not prove `returns-in-10`")
elif "lf()" in text:
    print("src/head.rt:71:9: error[unresolved-name]: cannot find `lf` in this scope")
    sys.exit(1)
else:
    print(name + "proved")
    print("only=1 proved=1")
    sys.exit(0)
print("only=1 proved=0")
sys.exit(1)
"""


class Recorded(mutants.Libraries):
    """Stands in for the proved libraries: a check runs the script CHECK instead of the prover."""

    def words(self, crate: str, only: Iterable[str]) -> Optional[List[str]]:
        same((crate, list(only)), ("ob0_frame", ["head::ends_in_empty_line"]), "what is asked for")
        return [sys.executable, "-c", CHECK]


def mutant(folder: str, name: str, old: str, new: str, source: reading.Source) -> edits.Edit:
    """Writes a mutant of `ends_in_empty_line` into a folder, and returns it."""
    path = os.path.join(folder, f"{name}.edit")
    with open(path, "w", encoding="utf-8") as file:
        file.write(f"# Wrong: refused by the clause of `ends_in_empty_line`.\nfile: src/head.rt\nold: {old}\nnew: {new}\n")
    edit = edits.Edit("ob0_frame", folder, f"{name}.edit")
    edit.find_turned(source)
    return edit


def words_of(chosen: List[edits.Edit], sources: Dict[str, reading.Source], found: checks.Libraries) -> List[str]:
    """Tries the mutants, and returns the words of their verdicts."""
    kept: Dict[str, str] = {}
    parts = sums.Parts()
    parts.sources.update(sources)
    run = mutants.Run(mutants.crates_of(chosen, parts), 2, lambda settled: kept.update({it.name: verdict.word for it, verdict in settled.items()}))
    with contextlib.redirect_stdout(io.StringIO()):
        run.try_all(found, mutants.OF_RUN)
    results = run.crates[0].found
    holds(all(kept.get(it.name) == results[it].word for it in chosen if not it.why), f"the kept verdicts: {kept}")
    return [results[it].word for it in chosen]


@test("mutants: a run reports refused and proved mutants, and counts mutants that can't be checked as not judged")
def whole_run() -> None:
    folder, line, sources = tempfile.mkdtemp(), "        [b'\\n'] | [b'\\r', b'\\n']", {"ob0_frame": reading.Source("ob0_frame")}
    changes = {"refused": (line, "        [b'x'] | [b'\\r', b'\\n']"), "right": (line, f"{line} "), "bad": (line, f"{line} | lf()"), "lost": ("        [b'y']", line)}
    chosen = [mutant(folder, name, old, new, sources["ob0_frame"]) for name, (old, new) in changes.items()]
    with_libraries = Recorded(os.path.join(build.ROOMS, "libraries-of-a-test"))
    wanted = [mutants.REFUSED, mutants.PROVED, mutants.NOT_JUDGED, mutants.NOT_JUDGED]
    same(words_of(chosen, sources, with_libraries), wanted, "what each comes to")

    class Lacking(mutants.Libraries):
        def words(self, crate: str, only: Iterable[str]) -> Optional[List[str]]:
            return None

    same(words_of(chosen[:1], sources, Lacking(with_libraries.folder)), [mutants.NOT_JUDGED], "over libraries that lack")
    shutil.rmtree(folder)


# Tries the mutants of the made-up crate in the current folder, with checks that don't end by themselves.
ENDLESS = """import os, sys
sys.path.insert(0, "tools")
import build, checks, mutants
build.prove_libraries = lambda names: 0
checks.Libraries.words = lambda *_: ["sh", "-c", f"echo $$ >> {os.getcwd()}/checks; exec sleep 1000"]
sys.exit(mutants.main(["--lanes", "2"]))
"""


@test("mutants: a run waits for another run in the same checkout, and a signal ends a run and its checks")
def ended_by_signal() -> None:
    with tempfile.TemporaryDirectory() as room:
        copy(os.path.join(TOP, "tools"), os.path.join(room, "tools"), "mutants.txt")
        write_crate(room)
        for number in range(8):
            path = os.path.join(room, "crates", "ob0_small", edits.OTHERS, f"{number}.edit")
            write(path, EDIT.replace("new:     n", f"new:     n + {number + 2}"))

        def begun(output: str) -> "subprocess.Popen[bytes]":
            with open(os.path.join(room, output), "wb") as file:
                return subprocess.Popen([sys.executable, "-B", "-c", ENDLESS], cwd=room, stdout=file, stderr=file)

        # (tests/run.py ends these processes if they outlive the test)
        first = begun("first")
        awaited(os.path.join(room, "checks"))
        second = begun("second")
        awaited(os.path.join(room, "second"), "waiting until another `make`")
        for run in (second, first):
            run.terminate()
            same(run.wait(30), 128 + signal.SIGTERM if run is first else -signal.SIGTERM, "the status")
        same(text_of(room, "first"), "ended by SIGTERM while it tried mutants\n", "what it printed")
        started = text_of(room, "checks").split()
        same([it for it in started if is_running(int(it))], [], f"the checks that still run, of {started}")
        same(os.path.exists(os.path.join(room, "bin", "rooms")), False, "whether its rooms are left")
