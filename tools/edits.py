"""Reads the mutants of the crates: files with lines 'file: PATH', 'old: TEXT' and 'new: TEXT'. `rt ci` tries those in
must-fail/; `make wrong-bodies` tries both those and the ones in wrong-bodies/. A line '# right: TEXT' after a 'new:'
line contains a correct text that is written in the same way as the new one. The toolchain ignores it. With the correct
text, the function has to be proved. This shows that the prover refuses the mutant because its value is wrong, and not
because of how it is written."""
from __future__ import annotations

import os
import re
from collections.abc import Iterable
from typing import Dict, List, NamedTuple, Optional, Tuple

import common
import reading

Lines = Dict[Tuple[str, int], str]  # the lines that an edit changes, by path and number
OF_KIT, OTHERS = "must-fail", "wrong-bodies"
PLACES = (OF_KIT, OTHERS)
RIGHT_LINE, RIGHT = "# right:", ":right"  # before a correct text; and the end of a correct variant's path
LOOPS = r"\b(?:for|while|loop)\b"
# The forms that add goals without written answers.
FORMS = {
    "a branch": r"\b(?:if|match|else)\b",
    "a return": r"\breturn\b",
    "a function": r"\bfn\b",
    "a closure": r"(?:^|[(,=]|\bmove) ?\|[^|]*\|(?!\|)",
}
CLAUSES = r"the clause|the one goal|the loop|the invariant|(?:the clause )?`\w+`(?: and `\w+`)*"
FIRST_LINE = re.compile(rf"# (?:.*: r|R)efused by ({CLAUSES}) of `([\w:]+)`")


class Claim(NamedTuple):
    """The claim of a mutant's first line: the function that is refused, and the clauses that refuse it. Clauses without
    a name are called 'the clause', 'the loop', 'the one goal' (shared by several clauses) and 'the invariant' (of a
    type)."""

    function: str
    clauses: Tuple[str, ...]

    def is_of(self, function: reading.Function) -> bool:
        return f"::{function.path}".endswith(f"::{self.function}")

    def is_goal(self, goal: str) -> bool:
        """Returns whether a goal belongs to one of the claim's clauses. `goal` is the prover's name for it."""
        return "-requires" not in goal and any(is_goal_of(it, goal) for it in self.clauses)


def name_of(goal: str) -> str:
    """Returns a goal's name, without the file and line after it."""
    return re.split(r"[ ,]", goal)[0]


def is_goal_of(clause: str, goal: str) -> bool:
    """Returns whether a goal belongs to a clause. `goal` is the prover's name for it."""
    if clause == "the loop":
        return bool(re.search(r"(?:^|-)loop-", goal))
    if clause == "the invariant":
        return "invariant_of-" in goal
    if clause in ("the clause", "the one goal"):
        return "returns" in goal and "-clause-" not in goal
    return bool(re.search(rf"(?:^|-)clause-{clause}(?:-|$)", goal))


def is_of_contract(goal: str) -> bool:
    """Returns whether a goal belongs to a contract, a loop or a type's invariant. Other goals are requirements of
    called functions."""
    named = "returns" in goal or "clause-" in goal or is_goal_of("the loop", goal) or is_goal_of("the invariant", goal)
    return named and "-requires" not in goal


def clause_of(goal: str) -> str:
    """Returns how a mutant's first line must refer to the clause of a goal. Returns "" if the goal doesn't belong to a
    contract."""
    if not is_of_contract(goal):
        return ""
    for words in ("the loop", "the invariant", "the clause"):
        if is_goal_of(words, goal):
            return words
    found = re.search(r"(?:^|-)clause-(\w+)", goal)
    return f"`{found[1]}`" if found else ""


def claim_of(text: str) -> Optional[Claim]:
    """Returns the claim of a first line of the form 'WHAT: refused by CLAUSE of `FUNCTION`'. Returns None if the line
    has another form."""
    found = FIRST_LINE.match(text)
    if not found:
        return None
    return Claim(found[2], tuple(re.findall(r"`(\w+)`", found[1])) or (found[1],))


class Pair(NamedTuple):
    """One replacement of a mutant: the file, the old text, the new text, and the correct text, or None if the mutant
    gives none."""

    path: str
    old: str
    new: str
    right: Optional[str]


class Edit:
    """A mutant, or with `is_right` its correct variant: the lines that it changes, the functions on these lines, and
    the claim of its first line. `why` contains an error message if the mutant can't be applied."""

    def __init__(self, crate: str, place: str, name: str, is_right: bool = False) -> None:
        self.crate, self.name, self.is_right = crate, f"{place}/{name}", is_right
        self.file = os.path.join(common.TOP, "crates", crate, place, name)
        with open(self.file, encoding="utf-8") as it:
            text = it.read()
        self.claim = claim_of(text)
        self.pairs, self.why = pairs_of(text)
        if is_right and not self.why:
            self.why = why_no_right_form(self.pairs)
        self.lines: Lines = {}
        if not self.why:
            self.lines, self.why = changed_lines(self.replacements(), os.path.join(common.TOP, "crates", crate))
        self.adds_loop = added(self.pairs, LOOPS) > 0
        self.turned: set[reading.Function] | None = None

    @property
    def is_of_kit(self) -> bool:
        """Returns whether `rt ci` also tries this mutant."""
        return self.name.startswith(OF_KIT)

    @property
    def path(self) -> str:
        return f"{self.crate}/{self.name}{RIGHT if self.is_right else ''}"

    @property
    def has_right_form(self) -> bool:
        return any(it.right is not None for it in self.pairs)

    @property
    def needs_right_form(self) -> bool:
        """Returns whether the mutant adds a branch, a return, a function or a closure. If so, the prover may refuse it
        because of how it is written, whatever it computes."""
        return any(added(self.pairs, it) > 0 for it in FORMS.values())

    @property
    def checked_as(self) -> List[str]:
        """Returns the checker's names for the functions that this mutant changes or adds."""
        turned = [it.checked_as for it in self.turned or ()]
        names = [name for _, old, new in self.replacements() for name in re.findall(r"\bfn (\w+)", new) if f"fn {name}" not in old]
        return turned + ["::".join([*turned[0].split("::")[:-1], it]) for it in names if turned]

    def replacements(self) -> List[Tuple[str, str, str]]:
        """Returns the replacements as triples of a file, the old text and the text to put in its place."""
        return [(it.path, it.old, it.right if self.is_right and it.right is not None else it.new) for it in self.pairs]

    def find_turned(self, source: reading.Source) -> None:
        """Finds the functions that this mutant changes, including the users of a changed constant, and stores them in
        `turned`. Stores None if it changes a line of anything else, such as a type."""
        self.turned = turned_by(source, self.lines)


def added(pairs: Iterable[Pair], pattern: str, of_right: bool = False) -> int:
    """Returns how many more matches of a pattern the new texts contain than the old ones, outside quotes. With
    `of_right`, counts the correct texts instead of the new ones."""

    def count(text: str) -> int:
        return len(re.findall(pattern, re.sub(r'"[^"]*"', '""', text)))

    return sum(count(it.right if of_right and it.right is not None else it.new) - count(it.old) for it in pairs)


def why_no_right_form(pairs: Iterable[Pair]) -> Optional[str]:
    """Returns why the correct texts show nothing: they are the old or the new texts, or contain fewer branches,
    returns, functions or closures than the new ones. Returns None if they do show something."""
    pairs = list(pairs)
    rights = [it.new if it.right is None else it.right for it in pairs]
    if all(right.split() == it.old.split() for right, it in zip(rights, pairs)):
        return "the right form is the old text, so the new form wasn't tried"
    if all(right.split() == it.new.split() for right, it in zip(rights, pairs)):
        return "the right form is the wrong one"
    lacking = [name for name, it in FORMS.items() if added(pairs, it, True) < added(pairs, it)]
    return f"the right texts lack {' and '.join(lacking)} of the new ones, so their form wasn't tried" if lacking else None


def has(crate: str, place: str) -> bool:
    """Returns whether a crate has a folder `place` of mutants."""
    return os.path.isdir(os.path.join(common.TOP, "crates", crate, place))


def forms_of(crate: str, source: reading.Source | None = None) -> list[Edit]:
    """Returns a crate's mutants from both folders, each followed by its correct variant if it has one. With `source`,
    also finds the functions that each of them changes."""
    found = [form for it in edits_of(crate) for form in (it, right_form(it)) if form]
    if source:
        for edit in found:
            edit.find_turned(source)
    return found


def right_form(edit: Edit) -> Optional[Edit]:
    """Returns the correct variant of a mutant, or None if the mutant has none."""
    place, _, name = edit.name.partition("/")
    return Edit(edit.crate, place, name, True) if edit.has_right_form else None


def edits_of(crate: str, source: reading.Source | None = None) -> list[Edit]:
    """Returns a crate's mutants from both folders. With `source`, also finds the functions that each of them
    changes."""
    found = []
    for place in PLACES:
        folder = os.path.join(common.TOP, "crates", crate, place)
        names = sorted(os.listdir(folder)) if os.path.isdir(folder) else []
        found += [Edit(crate, place, it) for it in names if it.endswith(".edit")]
    if source:
        for edit in found:
            edit.find_turned(source)
    return found


def pairs_of(text: str) -> Tuple[List[Pair], Optional[str]]:
    """Parses a mutant's text. Returns its replacements, and an error message (None if the text is valid)."""
    path, old = "", ""
    found: List[Pair] = []
    for row in text.split("\n"):
        if row.startswith("file: "):
            path = row[len("file: ") :].strip()
        elif row.startswith("old: "):
            old = row[len("old: ") :]
        elif row.startswith("new:"):
            if not path.startswith(("src/", "specs/", "proofs/")) or not old:
                return [], "a 'new:' line is before any 'file:' or 'old:' line"
            found.append(Pair(path, old, re.sub(r"\A ", "", row[len("new:") :]), None))
            old = ""
        elif row.startswith(RIGHT_LINE):
            if not found or old or found[-1].right is not None:
                return [], "a right form isn't after its 'new:' line"
            found[-1] = found[-1]._replace(right=row[len(RIGHT_LINE) + 1 :])
    return found, None if found else "it has no 'old:' and 'new:' pair"


def changed_lines(replacements: Iterable[Tuple[str, str, str]], folder: str) -> tuple[Lines, str | None]:
    """Returns the lines that replacements change, as {(path, number): new text}, and an error message (None if they can
    be made)."""
    texts: dict[str, str] = {}
    before: dict[str, str] = {}
    for path, old, new in replacements:
        if path not in texts:
            try:
                with open(os.path.join(folder, path), encoding="utf-8") as it:
                    texts[path] = before[path] = it.read()
            except OSError:
                return {}, f"there is no file {path}"
        count = texts[path].count(old)
        if count != 1:
            return {}, f"an 'old:' text is in {path} {count} times, and not once"
        texts[path] = texts[path].replace(old, new)
    found: Lines = {}
    for path, text in texts.items():
        for number, (was, now) in enumerate(zip(before[path].split("\n"), text.split("\n")), 1):
            if was != now:
                found[path, number] = now
    return found, None if found else "it changes nothing"


def turned_by(source: reading.Source, lines: Iterable[tuple[str, int]]) -> set[reading.Function] | None:
    """Returns the functions that contain these lines, or that use the constants on them. Returns None if a line belongs
    to neither."""
    found: set[reading.Function] = set()
    for path, number in lines:
        here = [it for it in source.functions if it.file == path and it.first <= number <= it.last]
        here = here or users_of_constant(source, path, number)
        if not here:
            return None
        found.update(here)
    return found


def users_of_constant(source: reading.Source, path: str, number: int) -> list[reading.Function]:
    """Returns the functions that use the constant on this line. Returns an empty list if there is no constant there, or
    if anything else also uses it."""
    for name, (file, first, last) in source.constants.items():
        if file == path and first <= number <= last:
            whole = sum(it.text == name for words in source.words.values() for it in words)
            inside = sum(it.words.count(name) for it in source.functions)
            imported = sum(words.count(name) for words, _ in source.imports)
            using = [it for it in source.functions if not it.is_test and name in it.words]
            return using if whole - inside - imported == 1 else []
    return []
