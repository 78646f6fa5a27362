"""Tests the sources of the repository: mutants fit the files that they change, names on pages exist, and no test file
imports another.

A mutant is a file of edits that the prover has to refuse."""
from __future__ import annotations

import glob
import os
import re
import shlex
import sys
from typing import List, Set

import common
import edits
import package
import public_functions
import reading
import rooms
from common import match_of
from harness import TOP, holds, same, test, text_of, want
from homes import run_plainly


@test("sources: each mutant's old text occurs exactly once in its file, and differs from its new text")
def mutants_fit() -> None:
    found = [it for crate in common.listed() for it in edits.edits_of(crate)]
    holds(found, "no mutants were found")
    same([f"{it.crate}/{it.name}: {it.why}" for it in found if it.why], [], "mutants that don't fit their sources")


@test("sources: each mutant's first line gives the clause that refuses it, and README has the right numbers of mutants")
def mutants_explained() -> None:
    found = [it for crate in common.listed() for it in edits.edits_of(crate)]
    same([it.path for it in found if not it.claim], [], "mutants without such a line")
    page = text_of("README.md")
    same(page, public_functions.with_counts(page), "README's counts of mutants (make surface writes them)")


def has_clauses(claim: edits.Claim, function: reading.Function) -> bool:
    """Returns whether a function has the clauses that a mutant's first line names. Clauses of loops and invariants
    aren't checked. A trait's method always counts: its clauses are at the trait."""
    rows = text_of(os.path.join("crates", function.crate, function.file)).split("\n")[function.first - 1 : function.last]
    names = set(re.findall(r"\bensures\s+(\w*)\s*\{", "\n".join(rows)))
    wanted = {"" if it == "the clause" else it for it in claim.clauses if it not in ("the loop", "the invariant", "the one goal")}
    return bool(function.trait) or wanted <= names


@test("sources: the clause in a mutant's first line belongs to a function that the mutant changes")
def mutants_name_clauses() -> None:
    wrong = []
    for crate in common.listed():
        for edit in edits.edits_of(crate, reading.Source(crate)):
            claim = edit.claim
            if claim and not any(claim.is_of(it) and has_clauses(claim, it) for it in edit.turned or ()):
                wrong.append(edit.path)
    same(wrong, [], "mutants with another clause or function")


@test("sources: the picture of the rooms agrees with crates.txt, and no arrow in the picture goes up")
def rooms_drawn() -> None:
    page = text_of(os.path.relpath(rooms.PAGE, TOP))
    found = match_of(rooms.PICTURE.pattern, page, rooms.PICTURE.flags)
    same(found[0], found[1] + rooms.draw() + found[2], "the picture (tools/rooms.py draws it)")
    order = [room.name for room in rooms.read_rooms()]
    upwards = [(name, low) for name, lower in rooms.rooms_below(rooms.read_rooms()).items() for low in lower if order.index(low) > order.index(name)]
    same(upwards, [], "arrows that go up")


@test("sources: no mutant adds a loop")
def mutants_without_loops() -> None:
    found = [it for crate in common.listed() for it in edits.edits_of(crate)]
    # (a mutant that adds a loop is refused whatever it does: the prover requires an invariant for the new loop, or uses
    # another loop's)
    same([it.path for it in found if it.adds_loop], [], "mutants that add a loop")


@test("sources: no test file imports another test file")
def tests_apart() -> None:
    for path in glob.glob(os.path.join(TOP, "tests", "**", "*.py"), recursive=True):
        found = re.findall(r"^\s*(?:import|from) (test_\w+)", text_of(path), re.M)
        same(found, [], f"what {os.path.relpath(path, TOP)} imports of the tests")


@test("sources: each script and test that a page mentions exists")
def named_files() -> None:
    pages = [it for it in ("README.md", "CONTRIBUTING.md", "Makefile") if os.path.exists(os.path.join(TOP, it))]
    pages += [os.path.relpath(it, TOP) for it in glob.glob(os.path.join(TOP, "docs", "**", "*.md"), recursive=True)]
    for page in pages:
        found = re.findall(r"\b(?:tests|tools|bench)/[\w./]*\w", text_of(page))
        missing = [it for it in found if not os.path.exists(os.path.join(TOP, it))]
        same(missing, [], f"missing files that {page} mentions")


@test("sources: each function in the scripts, tests and measurements has types that `mypy --strict` accepts")
def types_fit() -> None:
    want("mypy")
    # (two scripts are named run.py, and scripts of share/ have no ending, so these are checked separately)
    scripts = [[f"share/{it}"] for it in package.SCRIPTS]
    most = ["tools/*.py", "tests/**/*.py", "examples/exercises/*.py", "share/ob0/**/*.py"]
    for patterns in (most, *scripts, ["bench/*.py"]):
        files = [it for pattern in patterns for it in glob.glob(os.path.join(TOP, pattern), recursive=True)]
        words = ["mypy", "--config-file", os.path.join(TOP, "tools", "mypy.ini"), *files]
        status, said = run_plainly(words, dict(os.environ), TOP)
        same(status, 0, said[-3000:])


@test("sources: bench/sizes.py ends with status 0, and prints the counts of tokens, concepts, functions and searches")
def sizes_counted() -> None:
    status, said = run_plainly([sys.executable, os.path.join("bench", "sizes.py")], dict(os.environ), TOP)
    same(status, 0, said[-3000:])
    words = ("tokens of text", "definitions over a block", "kept over a change", "a didChange: ", "a statement: ")
    for word in (*words, "searches for the changed body"):
        holds(word in said, f"{word}: {said}")


# pages whose names in backticks may be missing from the sources: words that users type, and other languages' code
OF_USERS = ("docs/MESSAGES.md", "editors/", "examples/")
# words in backticks that name no part of the sources: words of the kit, the system, editors or commands, and examples
OTHERS = {"FILE", "NAME", "WORDS", "XWriteJson", "X_made", "Lts", "Proof", "tidy", "Serialize", "getrusage", "nm"}
OTHERS |= {"Interrupted", "Rc", "changedtick", "codeDescription", "keystroke", "text_of_value"}
# types of the kit, whose names in pairs aren't checked
OF_KIT = {"Box", "Read", "Vec", "Write"}


def known_words() -> Set[str]:
    """Returns all words in the sources and scripts, and the names of files, crates and mutants."""
    parts = [os.path.join(TOP, "crates", "*", part, "**", "*") for part in ("src", "specs", "proofs")]
    files = [it for part in parts for it in glob.glob(part, recursive=True)]
    files += glob.glob(os.path.join(TOP, "t*", "**", "*.py"), recursive=True)
    words = {word for it in files if os.path.isfile(it) for word in re.findall(r"\w+", text_of(it))}
    words |= {word for it in files for word in re.findall(r"\w+", os.path.relpath(it, TOP))} | {*common.listed()} | OTHERS
    words |= {word for names in common.listed().values() for word in names}
    # (a mutant's name counts, and the mutant's text doesn't)
    mutants = [it for crate in common.listed() for it in edits.edits_of(crate)]
    return words | {os.path.splitext(os.path.basename(it.file))[0] for it in mutants}


def known_pairs() -> Set[str]:
    """Returns `A::b` for each function, variant and public field `b` of a type, trait, module or crate `A`."""
    found = set()
    for crate in common.listed():
        source = reading.Source(crate)
        for it in source.functions:
            found |= {f"{owner}::{it.name}" for owner in (crate, *it.module[-1:], it.owner) if owner}
        for item in source.type_items:
            found.add(f"{crate}::{item.name}")
            found |= {f"{item.name}::{word}" for part in item.parts for word in re.findall(r"^\w+", part)}
        found |= {f"{crate}::{word}" for _, words in source.brought_out for word in words}
    return found


def all_pages() -> List[str]:
    """Returns the path of each page of the repository."""
    patterns = ("*.md", "docs/*.md", "docs/notes/*.md", "editors/**/*.md", "examples/**/*.md")
    found = [it for pattern in patterns for it in sorted(glob.glob(os.path.join(TOP, pattern), recursive=True))]
    return [os.path.relpath(it, TOP) for it in found]


@test("sources: each name that a page cites exists in the sources, and in `A::b` the name `b` belongs to `A`")
def cited_names() -> None:
    words, pairs, pages = known_words(), known_pairs(), all_pages()
    holds(len(pages) > 40 and len(pairs) > 2000, "few pages or names were found")
    for page in pages:
        text = re.sub(r"^```.*?^```$", "", text_of(page), flags=re.M | re.S)
        cited = {tuple(it.split("::")) for it in re.findall(r"`([A-Za-z]\w*(?:::\w+)*)`", text)}
        single = [] if page.startswith(OF_USERS) else sorted("::".join(it) for it in cited if not words.issuperset(it))
        same(single, [], f"names on {page} that don't exist")
        paired = ("::".join(it[-2:]) for it in cited if len(it) > 1 and it[-2] not in OF_KIT)
        same(sorted({*paired} - pairs), [], f"pairs on {page} whose second name doesn't belong to the first")


@test("sources: each search at the start of a recipe in CONTRIBUTING.md finds something outside that page")
def searches_find() -> None:
    want("git")
    # (the sources may be outside a repository)
    without = [] if os.path.exists(os.path.join(TOP, ".git")) else ["--no-index", "--exclude-standard"]
    searches = [it.replace("\n", " ") for it in re.findall(r"`(git grep [^`]*)`", text_of("CONTRIBUTING.md"))]
    searches = [it for it in searches if any(not word.startswith("-") for word in shlex.split(it)[2:])]
    holds(len(searches) > 20, "too few searches were found")
    nothing = []
    for search in searches:
        words = shlex.split(search)
        words[2:2] = without
        words += [":!CONTRIBUTING.md"] if "--" in words else ["--", ":!CONTRIBUTING.md"]
        if run_plainly(words, dict(os.environ), TOP)[0] != 0:
            nothing.append(search)
    same(nothing, [], "searches that find nothing")


# names that may be in two files: of types in the code, and of types or facts in the definitions
DOUBLED = {
    "src": set(),
    "specs": {"Place", "WalkState"},
}


@test("sources: no two types in the code share a name, nor do two types or facts in definitions, except listed names")
def names_apart() -> None:
    in_code = r"^\s*(?:pub(?:\(\w+\))? )?(?:struct|enum|trait) (\w+)"
    in_definitions = r"^ *(?:(?:abbrev|pub|record|data) )+([A-Z]\w*)(?: |$)"
    for folder, pattern in (("src", in_code), ("specs", in_definitions)):
        names: dict[str, set[str]] = {}
        for crate in common.listed():
            of_tests = crate.startswith("ob0_tests")
            for path in [] if of_tests else glob.glob(os.path.join(TOP, "crates", crate, folder, "**", "*.*t*"), recursive=True):
                for name in re.findall(pattern, text_of(path), re.M):
                    names.setdefault(name, set()).add(path)
        holds(len(names) > 300, f"few names were found in {folder}")
        same({name for name, paths in names.items() if len(paths) > 1}, DOUBLED[folder], f"names in two files of {folder}")
