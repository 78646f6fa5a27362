#!/usr/bin/env python3
"""Counts tokens, concepts, and what a change of a document reaches, by reading the sources.

  bench/sizes.py [FOLDER]    this tree, or another one whose folder `crates` is in FOLDER (`git archive` exports one)

It prints the tokens of text of each room and crate. Text is every line that isn't empty, no comment and no `use` or
`mod`; a token is a word, a number or a sign. Then it prints how often the sources define one thing, and how many
definitions and files a new production touches (the concepts). It prints how many lines only keep an analysis over a
change, and how many functions, in how many crates, a `didChange` can reach. For two changes of a valid module, a
letter in a name and a statement, it prints what they can reach, and each call that looks for the changed body.

bench/size_tables.py has the tables. Concepts that are marked *by name* are counted by a list of names there, which we
chose by reading. The old names stay in it, so that one command counts a tree before and after a change. The others
are counted by a rule.

Which parts only keep an analysis is a judgement. We read each crate with the question which functions, definitions
and lemmas would go if every text were analysed from scratch, and looked up who cites them. Types aren't counted, nor
lemmas that other proofs also cite. If a name in that table doesn't exist, the script prints it, and fails. For another
tree it prints the missing names and counts the rest; if that tree has its own bench/size_tables.py, the script uses
the tables in it.

A function reaches the functions that it calls by name. A method's name stands for all methods of that name, except
methods of types that no reached function mentions. So the counts are upper bounds. The script needs the toolchain,
which cuts the sources into words, but no built program."""
from __future__ import annotations

import functools
import os
import re
import runpy
import sys
from collections.abc import Iterable, Iterator
from typing import Any, Dict, List, Set, Tuple

TOP = os.path.dirname(os.path.dirname(os.path.abspath(__file__)))
sys.dont_write_bytecode = True
sys.path[:0] = [os.path.join(TOP, it) for it in ("bench", "tools")]

import common  # noqa: E402
import reading  # noqa: E402
import rooms  # noqa: E402
from reading import Function, Source  # noqa: E402

PARTS = ("src", "specs", "proofs")
# a pattern of lines that don't count as text, and a pattern of a token in the other lines
NO_TEXT = re.compile(r" *(//|--|$|((pub(\(\w+\))?|ghost) )*(use|mod) )")
TOKEN = re.compile(r"[\w'-]+|[^\w\s]")
# the crate in which a function that calls `did_change` applies the notification, and the type of texts that `serve` stores
SERVER, STORE = "ob0_session_server", "Lines"
Entry = Tuple[str, str, str, str]  # a crate, a part of it, a file without its ending, and a name in the file or nothing
source = functools.lru_cache(None)(Source)


@functools.lru_cache(None)
def lines_in(path: str) -> list[str]:
    """Returns the lines of a file, or an empty list if it doesn't exist."""
    if not os.path.exists(path):
        return []
    with open(path, encoding="utf-8") as file:
        return file.read().split("\n")[:-1]


def path_of(*steps: str) -> str:
    return os.path.join(common.TOP, "crates", *steps)


def files_in(*steps: str) -> list[str]:
    """Returns the paths of all files below a folder of a crate, or an empty list if it doesn't exist."""
    return [os.path.join(at, it) for at, _, names in os.walk(path_of(*steps)) for it in names]


def is_comment(line: str) -> bool:
    return line.lstrip().startswith(("//", "--"))


def functions_of(entry: Entry) -> list[Function]:
    """Returns the functions in an entry's file that have the entry's name. (A method's name can occur more than
    once.)"""
    crate, _, file, name = entry
    return [it for it in source(crate).functions if it.file == f"src/{file}.rt" and it.name == name]


def definition(lines: list[str], name: str) -> range:
    """Returns the range of lines of the first definition or lemma with this name, up to the surrounding empty lines.
    The range is empty if there is none."""
    begins = re.compile(rf" *(?:(?:abbrev|unfoldable|pub|record|data) )*{re.escape(name)}(?![\w-])")
    empty = [-1, *(at for at, line in enumerate(lines) if not line.strip()), len(lines)]
    return next((range(low + 1, high) for low, high in zip(empty, empty[1:]) if any(map(begins.match, lines[low + 1 : high]))), range(0))


def lines_of(entry: Entry) -> set[tuple[str, int]]:
    """Returns the lines of a table's entry as pairs of a path and an index. If the entry is code, its proofs are
    included. The set is empty if the entry doesn't exist."""
    crate, part, file, name = entry
    path = path_of(crate, part, file + (".rt" if part == "src" else ".antt"))
    lines = lines_in(path)
    if name and part == "src":
        functions = functions_of(entry)
        firsts = [next(at for at in range(it.first - 1, 0, -1) if not is_comment(lines[at - 1])) for it in functions]
        found = [(path, range(first, it.last)) for it, first in zip(functions, firsts)]
        proofs = [it.path.replace("::", "/") for it in functions]
    else:
        found = [(path, definition(lines, name) if name else range(len(lines)))]
        proofs = [file] if part == "src" else []
    found += [(it, range(len(lines_in(it)))) for proof in proofs for it in files_in(crate, "proofs", proof)]
    return {(it, at) for it, span in found for at in span}


def entries(table: str, missing: list[str]) -> list[Entry]:
    """Returns the entries of a table that exist in the sources. Appends the names of the others to `missing`."""
    found: List[Entry] = []
    for where, _, names in (line.partition(": ") for line in table.split("\n")):
        crate, part, file = [*where.split("/", 2), "", ""][:3]
        for name in names.split():
            entry = (crate, part, file or name, name if file else "")
            if os.path.isdir(path_of(crate)) and lines_of(entry):
                found.append(entry)
            else:
                missing.append(f"{name} of crates/{where}")
    return found


class Calls:
    """The functions of the server's crate and of the crates that it depends on, and which of them each one calls."""

    def __init__(self, listed: dict[str, list[str]]) -> None:
        crates = [it for it in common.below(SERVER, listed) if os.path.isdir(path_of(it))]
        self.below = {it: {*common.below(it, listed)} for it in crates}
        self.imported = {crate: {word for words, _ in source(crate).imports for word in words} for crate in crates}
        self.named: Dict[str, List[Function]] = {}
        self.types: Dict[str, Set[str]] = {}  # the words in the declaration of each type
        for it in (function for crate in crates for function in source(crate).functions):
            if it.has_body and not it.is_test:
                self.named.setdefault(it.name, []).append(it)
        for words in (words for crate in crates for words in source(crate).words.values()):
            for at in (at for at, word in enumerate(words) if word.text in ("struct", "enum")):
                inside = {it.text for it in words[at + 2 : reading.item_end(words, at)]}
                self.types.setdefault(words[at + 1].text, set()).update(inside)

    def called(self, function: Function) -> Iterator[list[Function]]:
        """Yields, for each call in a function, the functions that it may refer to."""
        words = function.words
        for at, word in enumerate(words):
            is_called = words[at + 1 : at + 2] == ["("] or words[at + 1 : at + 4] == [":", ":", "<"]
            if is_called and word in self.named and words[at - 1] != "fn":
                yield self.meant(function, words[:at], self.named[word])

    def meant(self, function: Function, before: list[str], named: list[Function]) -> list[Function]:
        """Selects, from the functions in `named`, the ones that a call may refer to, judged by the words before the
        name."""
        crate = function.crate
        if before[-1] == ".":
            methods = [it for it in named if it.owner and (it.trait or it.crate in self.below[crate])]
            own = [it for it in methods if (it.crate, it.owner) == (crate, function.owner)]
            return own if own and before[-2] == "self" and before[-3] != "." else methods
        free = [it for it in named if not it.owner and it.crate in self.below[crate]]
        of = before[-3] if before[-2:] == [":", ":"] else "self"
        if of[:1].isupper():
            return [it for it in named if (function.owner if of == "Self" else of) in (it.owner, it.trait)]
        if of not in ("crate", "self", "super"):
            return [it for it in free if of in (it.crate, *it.module[-1:])]
        near = [it for it in free if it.crate == crate and it.module == function.module]
        return near or [it for it in free if it.crate == crate or it.name in self.imported[crate]]

    def types_in(self, words: Iterable[str], known: set[str]) -> set[str]:
        """Returns the set `known`, extended by the types that occur in `words` and, repeatedly, by those in their
        declarations."""
        found, waiting = {*known}, [*words]
        while waiting:
            word = waiting.pop()
            if word in self.types and word not in found:
                found.add(word)
                waiting += self.types[word]
        return found

    def reached(self, start: set[Function], without: set[Function]) -> set[Function]:
        """Returns the functions that `start` can reach without passing through `without`."""
        found: Set[Function] = set()
        types = self.types_in([STORE], set())
        # (the end of a scope calls `drop`, and `?` calls `from`)
        ready, held = start, {it for name in ("drop", "from") for it in self.named.get(name, []) if it.trait}
        while ready:
            for it in ready:
                types = self.types_in([*it.words, it.owner], types)
                held.update(function for meant in self.called(it) for function in meant)
            found |= ready
            held -= found | without
            ready = {it for it in held if it.owner not in self.types or it.owner in types}
        # (the function of a law does nothing)
        return {it for it in found if it.words[len(it.head) :] != ["{", "}"]}


def row(name: str, cells: Iterable[object], rest: str = "") -> None:
    print((f"{name:42}" + "".join(f"{it:>11,}" if isinstance(it, int) else f"{it:>11}" for it in cells) + f"  {rest}").rstrip())


def text_in(path: str) -> list[str]:
    """Returns the lines of a file, without empty lines, comments and imports."""
    return [line for line in lines_in(path) if not NO_TEXT.match(line)]


def tokens_in(crate: str, part: str) -> int:
    return sum(len(TOKEN.findall(line)) for path in files_in(crate, part) for line in text_in(path))


def print_tokens(crates_of: dict[str, list[str]], missing: list[str]) -> None:
    """Prints the number of tokens in each group of crates, and in each crate of the group. Appends crates that don't
    exist to `missing`."""
    row("tokens of text", [*PARTS, "all"])
    total = [0] * len(PARTS)
    for name, crates in crates_of.items():
        missing += [f"crates/{it}" for it in crates if not os.path.isdir(path_of(it))]
        counts = {it: [tokens_in(it, part) for part in PARTS] for it in crates}
        room = [sum(it) for it in zip(*counts.values())] or [0] * len(PARTS)
        total = [a + b for a, b in zip(total, room)]
        row(name, [*room, sum(room)])
        for crate, count in counts.items():
            row("  " + crate, [*count, sum(count)])
    row("all", [*total, sum(total)])
    print()


def antt_files(*parts: str) -> list[str]:
    """Returns the files in these folders (such as `specs`) of all crates."""
    return [path for crate in os.listdir(path_of()) for part in parts for path in files_in(crate, part)]


@functools.lru_cache(None)
def joined_text(path: str) -> str:
    """Returns the text of a file of definitions or proofs without comments. A type or right side that continues on the
    next line is joined into one line."""
    return re.sub(r"(?<= =)\n +|\n +(?=[→×])", " ", "\n".join(text_in(path)))


@functools.lru_cache(None)
def clauses_in(path: str) -> dict[str, list[tuple[str, str]]]:
    """Returns the clauses of each definition and lemma in a file, by name. A clause is a pair of its patterns and its
    right side."""
    found: Dict[str, List[Tuple[str, str]]] = {}
    for clause in re.finditer(r"^ *([\w'-]+) (?!=)(.*?) =(?: (.*))?$", joined_text(path), re.M):
        found.setdefault(clause[1], []).append((clause[2], clause[3] or ""))
    return found


def constructors() -> set[str]:
    """Returns the names of the constructors of the syntax tree."""
    lines = lines_in(path_of("ob0_tree", "specs", "Tree.antt"))
    lines = [lines[at] for at in definition(lines, "Tree")]
    return {it[1] for it in (re.match(r"  (\w+) :", line) for line in lines) if it}


def names_with_each_constructor() -> list[str]:
    """Returns the names of the definitions and lemmas that have a clause for at least nine tenths of the syntax tree's
    constructors."""
    known = constructors()
    found = [
        (name, {word for patterns, _ in clauses for word in TOKEN.findall(patterns)} & known)
        for path in antt_files("specs", "proofs")
        for name, clauses in clauses_in(path).items()
    ]
    return [name for name, words in found if known and len(words) * 10 >= len(known) * 9]


def definitions_over_a_block() -> list[str]:
    """Returns the lines that declare a definition or a record whose type mentions a block."""
    lines = [line for path in antt_files("specs") for line in joined_text(path).split("\n")]
    tree = "|".join(constructors())
    return [line for line in lines if re.search(r"Tree \S+ block\b(?!_)", line) and not re.match(rf"  ({tree}) : ", line)]


def is_predicate_of_each(name: str, path: str) -> bool:
    """Returns whether a definition says that a predicate holds for each item of a list. It has two clauses: Unit for
    the empty list, and a product that contains itself for a longer one."""
    clauses = clauses_in(path)[name]
    empty = [right for patterns, right in clauses if "[]" in patterns]
    longer = [right for patterns, right in clauses if "∷" in patterns and "[]" not in patterns]
    return (
        len(clauses) == 2
        and any("Unit" in it for it in empty)
        and any("×" in it and name in TOKEN.findall(it) for it in longer)
        and bool(re.search(rf"^ *(?:\w+ )*{re.escape(name)} : .*Type 0$", joined_text(path), re.M))
    )


def print_concepts(by_name: dict[str, str], crates: int) -> None:
    """Prints, for each concept, how many definitions state it, and how many definitions and files a new production of
    the grammar would change."""
    # (a part of a record has a type, as a definition does, but no clause)
    types = re.compile(r"^ *(?:\w+ )*(?:record|data) ([\w'-]+)\b", re.M)
    words = {it[1] for path in antt_files("specs", "proofs") for it in types.finditer(joined_text(path))}
    words |= {name for path in antt_files("specs", "proofs") for name in clauses_in(path)}
    words |= {it.name for crate in os.listdir(path_of()) for it in source(crate).functions}
    for concept, names in by_name.items():
        found = [it for it in names.split() if it in words]
        row(concept + ", by name", [len(found)], " ".join(found))
    proofs = antt_files("proofs")
    each = [name for path in antt_files("specs", "proofs") for name in clauses_in(path) if is_predicate_of_each(name, path)]
    row("a clause for nearly each constructor", [len(names_with_each_constructor())])
    row("definitions over a block", [len(definitions_over_a_block())])
    row("predicates 'each of a list'", [len(each)])
    row("inductions over a run", [sum(bool(re.search(r"^ *(pub )?execute_while-[\w-]+ :", joined_text(it), re.M)) for it in proofs)])
    row("files of proofs about REPEAT", [sum("repeat" in "\n".join(lines_in(it)).lower() for it in proofs)])
    row("crates", [crates])
    print()


def print_kept(table: str, missing: list[str]) -> None:
    """Prints, for each crate, how many lines only serve to keep an analysis over a change."""
    lines = {line for entry in entries(table, missing) for line in lines_of(entry)}
    where = [os.path.relpath(path, path_of()).split(os.sep)[:2] for path, _ in lines]
    row("kept over a change", [*PARTS, "all"])
    for crate in [*sorted({it[0] for it in where}), "all"]:
        counts = [sum(it[1] == part and crate in (it[0], "all") for it in where) for part in PARTS]
        row(crate, [*counts, sum(counts)])
    print()


def print_reached(tables: dict[str, Any], listed: dict[str, list[str]], missing: list[str]) -> None:
    """Prints how many functions a didChange can reach. Does the same for two special changes, and prints which calls in
    the reached functions search for the changed body. Leaves a special change out if a name in its table, or in the
    table of searches, is missing."""
    calls = Calls(listed)
    start = {it for it in source(SERVER).functions if "did_change" in it.words}
    missing += [] if start else [f"a function of crates/{SERVER} that calls did_change"]
    missing += [] if STORE in calls.types else [f"the type {STORE}"]
    for change, table in {"a didChange": "", **tables["OTHER_WAYS"]}.items():
        lacks: List[str] = []
        searches, left_out = ({it for entry in entries(text, lacks) for it in functions_of(entry)} for text in (tables["SEARCHES"], table))
        missing += lacks
        if table and lacks:
            continue
        found = calls.reached(start, left_out)
        print(f"{change}: {len(found):,} functions in {len({it.crate for it in found})} crates")
        asked = sorted(f"{it.crate}::{it.path}: {of[0].name}" for it in found - searches for of in calls.called(it) if searches & {*of})
        if table:
            print("\n    ".join([f"  {len(asked)} searches for the changed body", *asked]))


def main(words: List[str]) -> int:
    folders = [os.path.abspath(it) for it in words[:1]] + [TOP]
    if not os.path.isdir(os.path.join(folders[0], "crates")):
        common.stop(f"{folders[0]} has no folder crates")

    def with_file(*steps: str) -> str:
        """Returns the first of the folders that contains this file, because a tree may have been exported only in
        part."""
        return next(it for it in folders if os.path.exists(os.path.join(it, *steps)))

    named = [os.path.join(it, "bench", "size_tables.py") for it in (TOP, with_file("bench", "size_tables.py"))]
    tables = {name: table for it in named for name, table in runpy.run_path(it).items()}
    common.TOP = with_file("crates.txt")
    crates_of, listed = {it.name: it.crates for it in rooms.read_rooms()}, common.libraries()
    common.TOP = folders[0]
    missing: List[str] = []
    print_tokens(crates_of, missing)
    print_concepts(tables["CONCEPTS"], len(listed))
    print_kept(tables["KEPT"], missing)
    print_reached(tables, listed, missing)
    for it in dict.fromkeys(missing):
        print(f"missing: {it}" if words else f"bench/sizes.py and its tables name {it}, which doesn't exist")
    return 1 if missing and not words else 0


if __name__ == "__main__":
    sys.exit(main(sys.argv[1:]))
