"""Tests which output of `rt ci` counts as refusing an edit in crates/*/must-fail, and that docs/PROVING.md lists these
edits."""
from __future__ import annotations

import contextlib
import io
import re
from typing import List, Optional, Tuple

import common
import edits
import reading
import refusals
from harness import holds, same, test, text_of

FRAME = "ob0_frame/must-fail/goes_on_after_bad_head.edit"
TEXT = "ob0_text/must-fail/units_are_characters.edit"
# The lines of `rt ci` about these two: an answer that no longer proves its goal, and a goal that isn't proved.
BY_ANSWER = (
    "refused, as it must be: ./proofs/framer/Framer/feed/Answers.antt:25:15: error: `returns-in-Bad-stage-clause-taken`: "
    "as printed, the two types first differ where one has `(Rattle.ob0_fr"
)
BY_GOAL = (
    "refused, as it must be: note: src/passes.rt:{line}:1: it is not proved that what the function ensures holds when it returns "
    "(`returns-in-Utf16`); `search` gave up at one of its limits"
)


def line_of(path: str, said: str) -> str:
    """Returns the line that `rt ci` prints about an edit."""
    return f"rt: must-fail {path.replace('/must-fail/', '/')}: {said}\n"


def taken(*lines: str) -> refusals.Refusals:
    """Returns the state of all edits after reading these lines of `rt ci`."""
    found = refusals.Refusals()
    for line in lines:
        found.take(line)
    return found


def why(path: str, said: str) -> Optional[str]:
    """Returns why an edit doesn't count as refused after this output of `rt ci`, or None if it does."""
    found = taken(line_of(path, said))
    return found.why_not(found.edits[path])


def goal_at(name: str) -> str:
    """Returns a line about an unproved goal in the function that the edit of ob0_text changes. For any other name the
    line is about a goal before that function."""
    found = refusals.Refusals()
    turned = next(iter(found.edits[TEXT].turned or ()))
    return BY_GOAL.format(line=turned.first if name == turned.name else turned.first - 5)


@test("refusals: an edit counts as refused if a goal of the clause in its first line is unproved or wrongly answered")
def by_its_clause() -> None:
    same(why(FRAME, BY_ANSWER), None, "an answer")
    same(why(TEXT, goal_at("character_width")), None, "a goal")


@test("refusals: an edit doesn't count as refused if another clause, another function or a missing name refuses it")
def by_something_else() -> None:
    for said in (
        BY_ANSWER.replace("clause-taken", "clause-memory"),
        BY_ANSWER.replace("Framer/feed", "Framer/next"),
        # (`rt ci` prints only the first line of a message, and the next line says that the module has no such name)
        BY_ANSWER.partition(": as printed")[0] + ": `goal.returns-in-Bad-stage-clause-taken`: module `Rattle.ob0_frame.proofs.framer.",
        BY_ANSWER.replace("`: as printed, the two types first differ where one has `(Rattle.ob0_fr", ""),
        "refused, as it must be (only because a proof file names what the edit took away, so this says little of the contract): x",
        "refused, as it must be",
    ):
        holds(why(FRAME, said), said)
    holds(why(TEXT, goal_at("another function")), "a goal of another function")
    holds(why(TEXT, goal_at("character_width").replace("returns-in-Utf16", "count-requires-few")), "what a callee requires")


@test("refusals: an edit counts as failed if it is still proved, can't be tried, or isn't in the output of `rt ci`")
def not_at_all() -> None:
    for said in ("NOT REFUSED: the crate is still proved with this edit", "BAD EDIT: an 'old:' text is in src/framer.rt 2 times, and not once"):
        same(why(FRAME, said), said, "what the kit says")

    def ended(*lines: str) -> Tuple[int, int, str]:
        with contextlib.redirect_stdout(io.StringIO()) as said:
            found = taken(*lines)
            return (*found.end(), said.getvalue())

    count = len(refusals.Refusals().edits)
    refused, failed, said = ended()
    same((refused, failed), (0, count), "no line at all")
    holds(f"FAILED: {FRAME}: `rt ci` said nothing of it" in said, said)
    refused, failed, said = ended(line_of(FRAME, BY_ANSWER))
    same((refused, failed, FRAME in said), (1, count - 1, False), "one line")
    refused, failed, said = ended(line_of("ob0_frame/must-fail/other.edit", BY_ANSWER))
    same((refused, failed), (0, count + 1), "a line of no edit")


@test("refusals: each edit of `rt ci` changes the function in its first line, adds no loop, and is of a listed crate")
def edits_of_kit() -> None:
    found = refusals.Refusals().edits
    for path, edit in found.items():
        claim = edit.claim
        holds(claim and any(claim.is_of(it) for it in edit.turned or ()), f"{path} changes no function that its first line names")
        holds(not edit.why and not edit.adds_loop and edit.crate in common.listed(), f"{path}: {edit.why}")
    holds(not any(edits.has(crate, "gate-mutants") for crate in common.listed()), "a folder that nothing reads")


# The calls that the promises are about. For each call, an edit changes the public function itself. (`serve` only calls
# `serve_stream`.)
PROMISED = (
    "Documents::did_change", "Framer::feed", "Session::step", "captures", "check", "command", "execute", "format", "inline_all",
    "inline_here", "parse", "rename", "run", "serve_stream",
)  # fmt: skip


class NamedBody:
    """Stores a row of the page's table: an edit, the function and clauses that refuse it, and whether the function is
    public."""

    def __init__(self, row: str) -> None:
        self.body, edit, function, self.clauses, self.is_public = re.split(r" \| ", row.strip("| "))
        self.path, self.function = edit.strip("`") + ".edit", function.strip("`")


def named_bodies() -> List[NamedBody]:
    """Returns the rows of the table in docs/PROVING.md, The named bodies."""
    part = text_of("docs/PROVING.md").partition("### The named bodies")[2].partition("\n### ")[0]
    return [NamedBody(it) for it in re.findall(r"^\| .* \|$", part, re.M)[1:]]


@test("refusals: docs/PROVING.md lists each edit of `rt ci`, with the function and clauses that refuse it")
def on_page() -> None:
    found, sources = {it.path: it for it in named_bodies()}, {it: reading.Source(it) for it in named_crates()}
    all_edits = {it.path: it for crate, source in sources.items() for it in edits.edits_of(crate, source)}
    same([it for it in all_edits if all_edits[it].is_of_kit and it not in found], [], "edits that the page doesn't name")
    same([it for it in found if it not in all_edits], [], "edits on the page that don't exist")
    same(len(found), len(named_bodies()), "how many are named once")
    for path, row in found.items():
        edit = all_edits[path]
        assert edit.claim
        clauses = " and ".join(it if it.startswith("the ") else f"`{it}`" for it in edit.claim.clauses)
        same((row.function, row.clauses), (edit.claim.function, clauses), f"{path}: the function and the clauses")
        public = sources[edit.crate].public_functions()
        is_public = any(edit.claim.is_of(it) and it in public for it in edit.turned or ())
        same(row.is_public, "yes" if is_public else "no", f"{path}: whether the function is public")
    whole = {it.function for it in found.values() if it.is_public == "yes"}
    same([it for it in PROMISED if it not in whole], [], "calls that no edit changes themselves")


def named_crates() -> List[str]:
    """Returns the crates that the page's table mentions, and those with edits that `rt ci` tries."""
    named = {it.path.partition("/")[0] for it in named_bodies()}
    return [it for it in common.listed() if it in named or edits.has(it, edits.OF_KIT)]
