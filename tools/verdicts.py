"""Reads and writes tools/mutants.txt, which contains the result of the last trial of each mutant of crates/*/must-fail
and crates/*/wrong-bodies.

A line is 'PATH SUM VERDICT': the mutant, a checksum of everything that its verdict depends on (tools/sums.py), and the
goal that refused it, 'GOAL of FUNCTION', or a word for another verdict. The path of a right form ends in ':right', and
its verdict must be 'proved'. A form that was never tried has '-' as its checksum. A row is current if its checksum fits
the present sources. tools/mutants.py tries the forms with other rows again, and with --all every form."""
from __future__ import annotations

import os
import re
from typing import Dict, List, NamedTuple, Optional

import common
import edits
import sums
from common import TOP

PATH = os.path.join(TOP, "tools", "mutants.txt")
NEVER = "-"
NOT_TRIED = "not tried"
IS_PROVED = "proved"
REFUSED = re.compile(r"(\S+) of (\S+)$")


class Row(NamedTuple):
    """A line of tools/mutants.txt: a mutant's path, the checksum of the sources on which it was tried, and the
    verdict."""

    path: str
    sum: str
    verdict: str

    @property
    def line(self) -> str:
        return f"{self.path} {self.sum} {self.verdict}"

    def is_well(self, edit: edits.Edit) -> bool:
        """Returns whether the verdict is as it must be: a goal of the claimed clause refused the mutant, or the right
        form was proved."""
        if edit.is_right:
            return self.verdict == IS_PROVED
        found = REFUSED.match(self.verdict)
        return bool(found) and is_met(edit, found[1], found[2]) if found else False


def is_met(edit: edits.Edit, goal: str, proof: str) -> bool:
    """Returns whether a goal of this proof belongs to the clause and the function in the mutant's first line."""
    claim = edit.claim
    if not claim:
        return False
    # (functions that call each other have one proof, and the prover may refuse it under any of their names)
    proofs = {it.proof for it in edit.turned or () if claim.is_of(it)}
    return proof in proofs and claim.is_goal(edits.name_of(goal))


class Mutants:
    """All mutants and their right forms, with their present checksums and their rows."""

    def __init__(self, path: str = PATH) -> None:
        self.path, self.parts = path, sums.Parts()
        self.edits: Dict[str, edits.Edit] = {}
        self.words: Dict[str, List[sums.Part]] = {}
        for crate in sorted(common.listed()):
            if any(edits.has(crate, it) for it in edits.PLACES):
                self.read(crate)
        self.sums = {path: sums.sum_of(words) for path, words in self.words.items()}
        self.rows = {it.path: it for it in rows_of(path)}

    def read(self, crate: str) -> None:
        """Reads a crate's sources and its mutants."""
        for edit in edits.forms_of(crate, self.parts.source(crate)):
            self.edits[edit.path], self.words[edit.path] = edit, self.parts.of(edit)

    def row(self, path: str) -> Row:
        """Returns the row of a form. If it was never tried, returns a row that says so."""
        return self.rows.get(path, Row(path, NEVER, NOT_TRIED))

    def is_current(self, path: str) -> bool:
        """Returns whether the present sources gave a form the verdict that it must have."""
        row = self.row(path)
        return row.sum == self.sums[path] and row.is_well(self.edits[path])

    @property
    def stale(self) -> List[str]:
        """Returns the paths of the mutants and right forms whose rows aren't current, sorted."""
        return [it for it in sorted(self.edits) if not self.is_current(it)]

    @property
    def mutants(self) -> List[str]:
        """Returns the paths of the mutants, without their right forms, in order."""
        return sorted(path for path, edit in self.edits.items() if not edit.is_right)

    def keep(self, path: str, tried_on: str, verdict: str) -> None:
        """Sets the verdict of a form, with the checksum of the sources on which it was tried."""
        self.rows[path] = Row(path, tried_on, verdict)

    def write(self) -> None:
        """Writes tools/mutants.txt, with a row for each form, sorted by path."""
        with open(self.path + ".new", "w", encoding="utf-8") as file:
            file.writelines(self.row(it).line + "\n" for it in sorted(self.edits))
        os.replace(self.path + ".new", self.path)


def row_of(line: str) -> Optional[Row]:
    """Parses a line of tools/mutants.txt. Returns None if the line has another form."""
    parts = line.rstrip("\n").split(" ", 2)
    return Row(*parts) if len(parts) == 3 else None


def rows_of(path: str) -> List[Row]:
    """Reads the rows of a file. Returns an empty list if the file doesn't exist."""
    if not os.path.isfile(path):
        return []
    with open(path, encoding="utf-8") as file:
        return [row for row in map(row_of, file) if row]
