"""Compares what `rt ci` prints about the edits in crates/*/must-fail with their first lines.

Each edit has to be refused by the clause that its first line gives. The kit counts any refusal, and prints the first
goal or error."""
from __future__ import annotations

import re
from typing import Dict, Optional, Tuple

import checks
import common
import edits
import reading

TRIED = re.compile(r"rt: must-fail (\w+)/(\S+\.edit): (.*)")
REFUSED = re.compile(r"refused, as it must be: (.*)")
# A goal that isn't proved, and an answer that doesn't prove its goal any more.
GOAL = re.compile(r"note: (src/\S+?):(\d+):\d+: .*?\(`(\S+?)`\)")
ANSWER = re.compile(r"(?:\./)?proofs/(\S+)/Answers\.antt:\d+:\d+: error: `(\S+?)`: (.*)")
# The beginning of a message about a name that no longer exists. (The kit prints only the first line of such a message.)
NAME_IS_GONE = re.compile(r"`[^`]*`: (?:module|record|namespace|data)\b")


class Refusals:
    """The edits of crates/*/must-fail, each with the line that `rt ci` printed about it."""

    def __init__(self) -> None:
        self.edits: Dict[str, edits.Edit] = {}
        self.sources: Dict[str, reading.Source] = {}
        self.said: Dict[str, str] = {}
        for crate in common.listed():
            if edits.has(crate, edits.OF_KIT):
                source = self.sources[crate] = reading.Source(crate)
                self.edits.update({it.path: it for it in edits.edits_of(crate, source) if it.is_of_kit})

    def take(self, line: str) -> None:
        """Stores a line of `rt ci`'s output if it is about an edit."""
        found = TRIED.match(line.rstrip())
        if found:
            self.said[f"{found[1]}/{edits.OF_KIT}/{found[2]}"] = found[3]

    def why_not(self, edit: edits.Edit) -> Optional[str]:
        """Returns why an edit doesn't count as refused by its clause, or None if it does."""
        said = self.said.get(edit.path)
        if said is None:
            return "`rt ci` said nothing of it"
        found = REFUSED.match(said)
        if not found:
            return said
        if not edit.claim:
            return "its first line doesn't say by which clause of which function it is refused"
        goal = goal_of(found[1])
        functions = [it for it in edit.turned or () if edit.claim.is_of(it)]
        if not functions:
            return f"it doesn't change `{edit.claim.function}`, which its first line names"
        with_them = self.sources[edit.crate].proved_with(functions)
        if goal and edit.claim.is_goal(goal[1]) and any(is_at(goal[0], it) for it in with_them):
            return None
        return f"refused, but not by {' or '.join(edit.claim.clauses)} of `{edit.claim.function}`: {found[1]}"

    def end(self) -> Tuple[int, int]:
        """Prints the edits that weren't refused by their clause; returns how many were refused by it and how many
        weren't."""
        found = {path: self.why_not(edit) for path, edit in self.edits.items()}
        for path in sorted(set(self.said) - set(self.edits)):
            found[path] = "there is no such edit"
        for path, why in found.items():
            if why:
                print(f"FAILED: {path}: {why}", flush=True)
        failed = sum(why is not None for why in found.values())
        return len(found) - failed, failed


def goal_of(said: str) -> Optional[Tuple[str, str]]:
    """Returns the place and the name of the goal that the kit prints. The place is a line of a source, or the folder of
    a proof. Returns None if the kit prints no goal, or an answer that failed because a name no longer exists."""
    goal = GOAL.match(said)
    if goal:
        return f"{goal[1]}:{goal[2]}", goal[3]
    answer = ANSWER.match(said)
    if not answer or NAME_IS_GONE.match(answer[3]) or checks.NAMES_LOST.search(answer[3]):
        return None
    return answer[1], answer[2]


def is_at(place: str, function: reading.Function) -> bool:
    """Returns whether a goal's place is a line of a function, or the folder of its proof. (Functions that call each
    other share a folder, next to them or below their type.)"""
    file, _, line = place.partition(":")
    if line:
        return file == function.file and function.first <= int(line) <= function.last
    *above, name = function.checked_as.split("::")
    own = "/".join([*above, function.proof.rpartition("::")[2] if "+" in function.proof else name])
    return f"{place}/".startswith((f"{own}/", *("/".join([*above, f"+{name}{it}"]) for it in "/+")))
