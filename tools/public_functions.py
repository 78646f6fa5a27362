#!/usr/bin/env python3
"""Writes bin/SURFACE.md, which lists each crate with its public functions and types, and the counts of mutants into README.

A crate has the first paragraph of its `src/lib.rt` and the nearest crates that it rests on; a function has the first paragraph of its
comment, the definitions that its contract cites, and the mutants that change it; a type has its variants or public fields. Methods of this repository's traits, and of std's Read and Write, are public functions if their type is public. It fails if no mutant
changes a public function with a result, or one that writes through an argument, unless tools/surface_reasons.txt says why: lines
'crate::path::name: reason' for a function, and 'crate::path::name, clause: reason' for one clause of its contract. With --check
neither page is written."""
from __future__ import annotations

import os
import re
import sys

import common
import edits
import reading
import rooms
import verdicts
from common import TOP

PAGE = os.path.join(TOP, "bin", "SURFACE.md")
REASONS = os.path.join(TOP, "tools", "surface_reasons.txt")
HEAD = """# The crates, with their public functions and types

Made by `make surface` from `crates.txt`, the comments of the sources and the mutants. *Contract*: the definitions that the contract
cites. *Mutants*: `rt ci` tries the ones in `must-fail/`; `tools/mutants.txt` lists what refused the ones in `wrong-bodies/` when they were last
tried. A function with neither a result nor an argument that it writes is a law: its contract is everything that it states.
"""
# Traits of std whose methods other crates call on this repository's types.
OF_STD = ("Read", "Write")
README = os.path.join(TOP, "README.md")
COUNTS = re.compile(
    r"(every proof, )\d+( wrong\s+versions.*?\bof\s+)\d+(\s+others,\s+)(?:all|\d+)(\s+refused\s+in\s+their\s+present\s+form)", re.S
)


def reasons(are_of_clauses: bool = False) -> dict[str, str]:
    """Returns the reasons in tools/surface_reasons.txt: why some functions have no mutant, by path; or with
    `are_of_clauses`, why some clauses have none, by path and clause."""
    found = {}
    with open(REASONS, encoding="utf-8") as file:
        for line in file:
            path, _, why = line.strip().partition(": ")
            if path and not path.startswith("#") and (", " in path) == are_of_clauses:
                found[path] = why
    return found


class Row:
    """A public function with the mutants that change it."""

    def __init__(self, function: reading.Function, turning: "list[edits.Edit]") -> None:
        self.function, self.turning = function, turning
        self.path = f"{function.crate}::{function.path}"

    def lacks(self, known: "dict[str, str]") -> bool:
        """Returns whether the function needs a mutant, and has neither a mutant nor a reason for having none."""
        return self.function.gives and not self.turning and self.path not in known

    def turned_by(self, known: "dict[str, str]") -> str:
        """Returns the names of the mutants that change the function, or why there are none."""
        if self.turning:
            return ", ".join(os.path.splitext(edit.name)[0] for edit in self.turning)
        if not self.function.gives:
            return "law"
        return f"none: {known[self.path]}" if self.path in known else "none"

    def line(self, known: "dict[str, str]") -> str:
        cells = (f"`{self.function.path}`", promise_of(self.function), cited_by(self.function), self.turned_by(known))
        return "| " + " | ".join(it.replace("|", "\\|") for it in cells) + " |"


def clauses_of(source: reading.Source, function: reading.Function) -> "list[str]":
    """Returns the names of a function's `ensures` clauses, with '' for a clause without a name."""
    return re.findall(r"\bensures (?:(\w+) )?\{", " ".join(source.words_of(function)))


def rows_of_file(crate: str, file: str) -> "list[str]":
    with open(os.path.join(common.TOP, "crates", crate, file), encoding="utf-8") as source:
        return source.read().split("\n")


def paragraph(lines: "list[str]", mark: str) -> str:
    """Returns the first paragraph of a comment, on one line."""
    words = [it.strip()[len(mark) :].strip() for it in lines]
    return " ".join(words[: words.index("") if "" in words else len(words)])


def promise_of(function: reading.Function) -> str:
    """Returns the first paragraph of a function's comment. If a method of a trait has no comment, returns a reference
    to the trait."""
    rows = rows_of_file(function.crate, function.file)
    first = at = function.first - 1
    while at and rows[at - 1].strip().startswith(("///", "#[")):
        at -= 1
    while rows[first].strip().startswith(("///", "#[")):
        first += 1
    comment = [it for it in rows[at:first] if it.strip().startswith("///")]
    return paragraph(comment, "///") or (f"as the trait `{function.trait}` states" if function.trait else "")


def cited_by(function: reading.Function) -> str:
    """Returns the names of the definitions that a function's contract cites, as a list in Markdown."""
    rows = rows_of_file(function.crate, function.file)
    uses = re.findall(r"^ghost use Rattle\.ob0_\w+\.specs\.[\w.]+\.\{([^}]*)\}", "\n".join(rows), re.M)
    names = {it.split(" as ")[-1].strip() for part in uses for it in part.split(",")}
    # (a method of a trait has its contract at the head of its impl)
    begins = min(function.block_from or function.first, function.first) if function.trait else function.first
    contract = "\n".join(rows[begins - 1 : function.opens]).partition("ensures")[2]
    found = dict.fromkeys(it for it in re.findall(r"\w{3,}", contract) if it in names)
    return ", ".join(f"`{it}`" for it in found)


def rows_of(source: reading.Source, traits: "list[str]") -> "list[Row]":
    """Returns a row for each public function of a crate, in the order of the sources."""
    all_edits = edits.edits_of(source.crate, source)
    return [Row(it, [edit for edit in all_edits if edit.turned and it in edit.turned]) for it in source.public_functions(traits)]


def type_line(item: reading.TypeItem) -> str:
    """Returns a line for the table of a crate's public types."""
    parts = ", ".join(f"`{it}`" for it in item.parts) or "none that is public"
    return f"| `{item.kind} {item.path}` | {parts} |"


def head_of(crate: str, lower: "list[str]") -> "list[str]":
    """Returns the beginning of a crate's section: its heading, its purpose, and the crates that it depends on."""
    is_program = not os.path.exists(os.path.join(common.TOP, "crates", crate, "src", "lib.rt"))
    rows = rows_of_file(crate, "src/main.rt" if is_program else "src/lib.rt")
    head = rows[: next(at for at, it in enumerate([*rows, ""]) if not it.startswith("//!"))]
    return [f"\n## {crate}\n", *filter(None, [paragraph(head, "//!"), f"\nRests on {', '.join(lower)}." if lower else ""])]


def section(source: reading.Source, rows: "list[Row]", known: "dict[str, str]", lower: "list[str]") -> "list[str]":
    """Returns a crate's section of the page: its purpose, and the tables of its public functions and types."""
    types = [type_line(it) for it in source.public_types()]
    found = head_of(source.crate, lower)
    found += ["\n| Function | What it promises | Contract | Mutants |", "|---|---|---|---|", *(it.line(known) for it in rows)] if rows else []
    return found + (["\n| Type | Variants or public fields |", "|---|---|", *types] if types else [])


def counts() -> "tuple[int, int, int]":
    """Returns how many edits `rt ci` tries, how many other mutants exist, and how many of these were refused in their
    present form."""
    mutants = verdicts.Mutants()
    others = [it for it in mutants.mutants if not mutants.edits[it].is_of_kit]
    return len(mutants.mutants) - len(others), len(others), sum(mutants.is_current(it) for it in others)


def with_counts(text: str) -> str:
    """Returns README's text with the present counts of mutants. Raises LookupError if README doesn't contain the
    sentence with the counts."""
    common.match_of(COUNTS.pattern, text, COUNTS.flags)
    of_kit, others, refused = counts()
    return COUNTS.sub(rf"\g<1>{of_kit}\g<2>{others}\g<3>{'all' if refused == others else refused}\g<4>", text)


def keep_counts() -> None:
    """Writes the counts of mutants into README. (A test compares them.)"""
    with open(README, encoding="utf-8") as file:
        text = file.read()
    with open(README, "w", encoding="utf-8") as file:
        file.write(with_counts(text))


def page_and_rows(known: "dict[str, str]") -> "tuple[str, list[Row]]":
    """Returns the text of bin/SURFACE.md, and the rows of all public functions."""
    named = common.libraries()
    order = list(dict.fromkeys(it for top in named for it in common.below(top, named)))
    sources = [reading.Source(it) for it in order]
    traits = [*OF_STD, *(name for source in sources for name, is_pub in source.traits.items() if is_pub)]
    nearest, lines, rows = rooms.nearest(named), [HEAD.rstrip("\n")], []
    for source in sources:
        found = rows_of(source, traits)
        rows += found
        lines += section(source, found, known, nearest[source.crate])
    return "\n".join(lines) + "\n", rows


def main(words: list[str]) -> int:
    known = reasons()
    page, rows = page_and_rows(known)
    if "--check" not in words:
        os.makedirs(os.path.dirname(PAGE), exist_ok=True)
        with open(PAGE, "w", encoding="utf-8") as file:
            file.write(page)
        keep_counts()
    print(f"{len(rows)} public functions in {page.count(chr(10) + '## ')} crates")
    return complain(rows, known)


def complain(rows: "list[Row]", known: "dict[str, str]") -> int:
    """Prints the functions that lack a mutant or a comment, and the reasons about functions that don't exist. Returns
    the exit status."""
    stale = set(known) - {it.path for it in rows}
    lacking = [it.path for it in rows if it.lacks(known)]
    silent = [it.path for it in rows if not promise_of(it.function)]
    for what, paths in (("reasons in tools/surface_reasons.txt are of no public function", sorted(stale)),
                        ("public functions have no mutant", lacking), ("public functions have no comment", silent)):
        if paths:
            print(f"{len(paths)} {what}:", *(f"\n  {it}" for it in paths))
    return 1 if lacking or stale or silent else 0


if __name__ == "__main__":
    sys.exit(main(sys.argv[1:]))
