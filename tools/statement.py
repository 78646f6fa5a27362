#!/usr/bin/env python3
"""Writes docs/STATEMENT.md, which states the theorem, and bin/DEFINITIONS.md, which has every other definition that the theorem
needs. Each definition is on one of the two pages once, with its comment.

  tools/statement.py           writes both pages
  tools/statement.py --check   writes neither; fails if docs/STATEMENT.md isn't of these sources
  tools/statement.py --print   prints the second page

Their prose is tools/statement.in. A line `<!-- definitions CRATE/FILE: NAME .. -->` is replaced by these definitions, `{law CRATE/FILE
NAME}` by a contract, `<!-- part NAME -->` by the definitions of a part of the second page, and `<!-- sizes -->`, `<!-- elsewhere -->`, `<!--
names NAME -->` by tables; `{size}` is a part's size, and `{first}` a time. Its last tables say in words what the first page names and doesn't unfold
(`believed`), and what neither page unfolds (`closed`)."""
from __future__ import annotations

import math
import os
import re
import sys
import textwrap
from collections.abc import Callable, Iterable, Sequence
from typing import Any, NamedTuple, Tuple

import common
from common import TOP
from definitions import OPERATOR, WORD, Block, Declared, File, Item, Sources, lines_of, words_of

TEMPLATE = os.path.join(TOP, "tools", "statement.in")
PAGE = os.path.join(TOP, "docs", "STATEMENT.md")
REST = os.path.join(TOP, "bin", "DEFINITIONS.md")
SECOND = "<!-- page bin/DEFINITIONS.md -->"

Key = Tuple[str, str, str]  # a crate, a file and a name
Size = Tuple[int, int]  # a number of words, and a number of lines

# ---- data that isn't in the template

# (definitions about values of the code: the second page shows them last, although the theorem uses them)
LATE: list[Key] = [("ob0_world", "ModelValues", name) for name in ("model_event_of", "played_edits", "played_publications")]
LATE += [("ob0_session", "ServeResults", name) for name in ("IsReadInPieces", "UsesAllReads", "max_reads", "LeavesWriterFlushed")]
LATER: list[Key] = [("ob0_scan", "LexemeClasses", name) for name in ("reserved_word_text", "symbol_text")]
# (the types of the code in these definitions)
LATER_TYPES = [("ob0_scan", "lexeme", "ReservedWord"), ("ob0_scan", "lexeme", "Symbol")]
# (the first definitions of the part on edits)
EDITS: list[Key] = [("ob0_world_rules", "Answers", name) for name in ("AreRequestedEdits", "ServerRefusesAsk")]
# (the template's names for the parts of the second page)
KINDS = ("exchange", "texts", "wire", "language", "edits", "steps")
# (sections of docs/LANGUAGE.md, in the order of the page's definitions)
SECTIONS = ["Runs", "Types", "Scopes", "Nesting and limits", "Grammar", "Lexemes"]
# (how many words, and how many lines of definitions, a reader reads in a minute)
WORDS_A_MINUTE, LINES_A_MINUTE = 200, 6
# (the number of minutes that the first page may take)
FIRST_TAKES = 40
# (the number of columns that a line of code may have)
WIDTH = 100


# ---- the template


class Part(NamedTuple):
    """A section of a page: its heading, and the template's lines below it."""

    title: str
    lines: list[str]


DIRECTIVE = re.compile(r"<!-- (definitions|part|sizes|elsewhere|names|rules)\b ?(.*?) -->$")
CONTRACT = re.compile(r"\{law (\w+)/(\w+) (\w+)\}$")


class Template:
    """The template of both pages, with the explanations of names."""

    def __init__(self, text: str) -> None:
        pages, _, tables = text.partition("<!-- words -->\n")
        first, _, second = pages.partition(SECOND + "\n")
        self.first, self.second = sections_of(first), sections_of(second)
        self.tables = {name: rows_of(rows) for name, rows in re.findall(r"^<!-- table (\w+) -->\n((?:.*\n)*?)(?=^<!-- table|\Z)", tables, re.M)}

    def keys(self, parts: Iterable[Part]) -> list[Key]:
        """Returns the keys of the definitions that these sections show, in order."""
        found: list[Key] = []
        for line in (line for part in parts for line in part.lines):
            at = DIRECTIVE.match(line)
            if at and at[1] == "definitions":
                found += shown_by(at[2])
        return found

    def contracts(self, parts: Iterable[Part]) -> list[Key]:
        """Returns the keys of the contracts that these sections show, in order."""
        found = [CONTRACT.match(line) for part in parts for line in part.lines]
        return [(at[1], at[2], at[3]) for at in found if at]

    def kind(self, part: Part) -> str:
        """Returns the name of the second page's part whose definitions a section contains, or "" if it contains
        none."""
        found = [at[2] for at in map(DIRECTIVE.match, part.lines) if at and at[1] == "part"]
        return found[0] if found else ""


def sections_of(text: str) -> list[Part]:
    pieces = re.split(r"^(?=## )", text, flags=re.M)
    return [Part(lines[0][3:] if lines[0].startswith("## ") else "", lines) for lines in (piece.rstrip("\n").split("\n") for piece in pieces) if lines != [""]]


def rows_of(text: str) -> list[list[str]]:
    """Returns the rows of a Markdown table, without its head, as lists of cells."""
    rows = [[cell.strip() for cell in re.split(r"(?<!\\)\|", line)[1:-1]] for line in text.splitlines() if line.startswith("|")]
    return [[cell.replace("\\|", "|") for cell in row] for row in rows[2:]]


def shown_by(words: str) -> list[Key]:
    """Parses the list of definitions in a directive of the template: `CRATE/FILE: NAME NAME; CRATE/FILE: NAME`."""
    found: list[Key] = []
    for piece in words.split(";"):
        place, _, names = piece.strip().partition(": ")
        crate, _, file = place.partition("/")
        found += [(crate, file, name) for name in names.split()]
    return found


# ---- contracts


def source(crate: str, module: str) -> list[str]:
    return lines_of(os.path.join(TOP, "crates", crate, "src", module + ".rt"))


def contract(crate: str, module: str, name: str) -> list[str]:
    """Returns the lines of a function's contract without indentation, below the first paragraph of its comment."""
    text = source(crate, module)
    at = next(i for i, line in enumerate(text) if re.search(rf"\bfn {name}\b[(<]", line))
    first = at
    while text[first - 1].lstrip().startswith("///"):
        first -= 1
    end = next((i for i in range(first, at) if text[i].strip() == "///"), at)
    last = next(i for i in range(at, len(text)) if text[i].strip() in ("{", "{}"))
    return textwrap.dedent("\n".join(text[first:end] + text[at:last])).splitlines()


def roots(sources: Sources, functions: Iterable[tuple[str, str, str]]) -> list[Item]:
    """Returns the definitions and types that the contracts of these functions mention."""
    found: list[Item] = []
    for crate, module, name in functions:
        uses = File.__new__(File)
        uses.crate, uses.name, uses.uses, uses.passed_on, uses.named = crate, module, {}, {}, {}
        for line in source(crate, module):
            if line.startswith("ghost use "):
                uses.take_use(line[6:].rstrip(";"))
        for word in words_of([line for line in contract(crate, module, name) if not line.startswith("///")]):
            item = sources.look_up(uses, word)
            if item is not None and item not in found:
                found.append(item)
    return found


# ---- parts and groups


class Group:
    """Definitions of one file, or types of one crate's code, each before everything that it uses."""

    def __init__(self, crate: str, file: File | None, items: list[Any]) -> None:
        self.crate, self.file, self.items = crate, file, items
        self.place: int | None = None  # the number of its part, if an earlier group has definitions of this file

    def rule(self) -> str | None:
        """Returns the rules of docs/LANGUAGE.md that the file states, according to its first comment, or None if it
        mentions none."""
        found = re.search(r"Rule: (?:.*; )?docs/LANGUAGE\.md, ([^;]*?)\.?$", self.file.title) if self.file else None
        return found[1] if found else None

    def heading(self, by_rule: bool) -> str:
        name = f"`{self.file.name}` of `{self.crate}`" if self.file else f"Types of the code of `{self.crate}`"
        name = f"{name}, part {self.place}" if self.place else name
        return f"{self.rule()}: {name}" if by_rule and self.rule() else name

    def section(self) -> int:
        """Returns the sort key of the group: the index in SECTIONS of its section of docs/LANGUAGE.md. Groups without a
        section come first, and types of the code last."""
        if self.file is None:
            return len(SECTIONS)
        if not self.crate.startswith(("ob0_language", "ob0_scan", "ob0_tree")):
            return -1
        others = {"BlockParts": "Scopes", "EditLaws": "Runs"}
        rule: str = self.rule() or others.get(self.file.name) or ""
        found = [(rule.find(name), at) for at, name in enumerate(SECTIONS) if name in rule]
        return min(found)[1] if found else -1


def kind_of(item: Item) -> str:
    """Returns the name of the second page's part that contains an item, if the theorem needs the item."""
    crate, file = (item.crate, None) if isinstance(item, Declared) else (item.file.crate, item.file.name)
    if crate == "ob0_text" or (crate, file) == ("ob0_world_rules", "TextEdits"):
        return "texts"
    if crate in ("ob0_world_rules", "ob0_world", "ob0_world_editor") and file not in ("WellTypedTexts", "Worlds", "ModelValues"):
        return "exchange"
    return "wire" if crate.startswith(("ob0_world", "ob0_session", "ob0_rpc", "ob0_frame")) and file != "WellTypedTexts" else "language"


def by_file(items: Iterable[Item], needs: Callable[[Block], list[Item]]) -> list[Group]:
    """Groups items by file or crate. The items come in an order in which each follows everything that it uses; in the
    result each precedes it."""
    files: dict[File, list[Block]] = {}
    types: dict[str, list[Declared]] = {}
    for item in items:
        if isinstance(item, Declared):
            types.setdefault(item.crate, []).append(item)
        else:
            files.setdefault(item.file, []).append(item)
    order: list[File | None] = []
    started: set[File] = set()

    def go(file: File) -> None:
        if file not in order:
            order.append(None)
            for other in {need.file: 0 for item in files[file] for need in needs(item) if isinstance(need, Block)}:
                if other is not file and other in files and other not in started:
                    started.add(other)
                    go(other)
            order.append(file)

    for file in files:
        if file not in started:
            started.add(file)
            go(file)
    groups = [Group(file.crate, file, sorted(files[file][::-1], key=is_derived)) for file in reversed(order) if file is not None]
    return groups + [Group(crate, None, items) for crate, items in types.items()]


def is_derived(block: Block) -> bool:
    """Returns whether a definition isn't a type without arguments. Types without arguments come first in their
    group."""
    return not re.match(r"^(?:pub )?(?:record|data) \w+ : Type", block.code[0])


class Page:
    """Both pages: their definitions, the names of these on the pages, and the text of the pages."""

    def __init__(self, template: Template) -> None:
        self.template, self.sources = template, Sources()
        tables = template.tables
        self.closed = {self.named((crate, file, name)): ((crate, file, name), says) for name, says, file, crate in self.closed_rows()}
        self.later = {self.named(key): key for key in LATER}
        self.first = [self.named(key) for key in template.keys(template.first)]
        self.groups = self.grouped()
        self.homes: dict[Item, str] = {}  # the heading above each item
        self.on_first: set[int] = set()  # the items of the first page, by identity
        self.names: dict[tuple[Item, str], str] = {}  # the name on the pages of each name that an item defines
        self.give_names()
        self.notes: dict[object, list[str]] = {}  # the explanations below each definition or contract
        self.believed = {names: says for names, says in tables["believed"]}
        self.place_notes()

    def closed_rows(self) -> list[list[str]]:
        return [[re.sub(r"`", "", cell) if at in (0, 2, 3) else cell for at, cell in enumerate(row)] for row in self.template.tables["closed"]]

    def named(self, key: Key) -> Block:
        try:
            return self.sources.files[key[0], key[1]].named[key[2]]
        except KeyError:
            common.stop(f"tools/statement.in mentions {key[2]}, which file {key[1]} of crate {key[0]} doesn't define")

    def grouped(self) -> dict[str, list[Group]]:
        """Returns the definitions of each part of the second page, in groups."""
        late: list[Item] = [self.named(key) for key in [*LATE, *LATER]]
        late += [self.sources.type_of(crate, [module], name) for crate, module, name in LATER_TYPES]
        edits = [self.named(key) for key in EDITS]
        laws = self.template.contracts(self.template.first)
        main = self.sources.closure([*roots(self.sources, laws), *self.first], [*edits, *self.closed, *late])
        items: dict[str, list[Item]] = {kind: [] for kind in KINDS}
        for item in main:
            if item not in self.first:
                items[kind_of(item)].append(item)
        items["edits"] = [item for item in self.sources.closure(edits, [*self.closed]) if item not in main]
        more = roots(self.sources, self.template.contracts(self.template.second))
        steps = self.sources.closure(more + late, [*edits, *self.closed])
        items["steps"] = [item for item in steps if item not in main + items["edits"]]
        unfolded_late = self.sources.closure([self.named(key) for key in LATE], [*edits, *self.closed])
        self.uncounted = [item for item in unfolded_late if item in items["steps"]]
        found = {kind: by_file(items[kind], self.sources.needs) for kind in KINDS}
        found["language"].sort(key=Group.section)
        return found

    def give_names(self) -> None:
        """Sets the heading of each item, and gives each definition a name that is unique on the pages."""
        taken: set[str] = set()
        headings: set[str] = set()
        for part in self.template.first:
            for key in self.template.keys([part]):
                block = self.named(key)
                self.homes[block] = part.title
                self.take_names(block, taken)
        for kind, groups in self.groups.items():
            for group in groups:
                by_rule = kind == "language"
                group.place = self.number(kind) if group.heading(by_rule) in headings else None
                headings.add(group.heading(by_rule))
                for item in group.items:
                    self.homes[item] = group.heading(by_rule)
                    if isinstance(item, Block):
                        self.take_names(item, taken)
        for block in self.closed:
            self.homes[block] = NAMED
            self.take_names(block, taken)
        for item in self.homes:
            if isinstance(item, Declared):
                self.names[item, item.name] = f"code.{item.name}" if item.name in taken else item.name

    def number(self, kind: str) -> int:
        """Returns the number of the part of the second page that contains this kind of definitions."""
        title = next(part.title for part in self.template.second if self.template.kind(part) == kind)
        return int(common.match_of(r"Part (\d+)", title)[1])

    def take_names(self, block: Block, taken: set[str]) -> None:
        for name in block.names:
            shown = name if name not in taken else f"{block.file.name}.{name}"
            if shown in taken:
                shown = f"{block.file.crate[len('ob0_') :]}.{name}"
            taken.add(shown)
            self.names[block, name] = shown

    # ---- names

    def shown(self, file: File, word: str) -> str:
        """Returns a word of a definition in the form in which the page shows it."""
        head, _, rest = word.partition(".")
        if word in file.named:
            return self.names.get((file.named[word], word), word)
        module, name = file.uses.get(word, ("", None))
        if name:
            return self.imported(module, name, word)
        if head in file.uses and rest and file.uses[head][1] is None:
            module = file.uses[head][0]
            if ".specs.declared." in module:
                return self.imported(module, re.sub(r"^TheVariants\.", "", rest), word) if rest[0].isupper() else word
            if module.startswith("Rattle.ob0_"):
                return self.imported(module, rest, word)
            return f"{module.rpartition('.')[2]}.{rest}"
        return word

    def imported(self, module: str, name: str, word: str) -> str:
        """Returns the name `name` of a module in the form in which the page shows it, or `word` if the pages give it no
        other name."""
        item = self.sources.resolve(module, name) if ".declared." in module else self.sources.resolve(module, name.split(".")[0])
        if isinstance(item, Declared):
            shown = self.names.get((item, item.name), item.name)
            return shown if name == item.name else f"{item.name}.{name}"
        first, _, rest = name.partition(".")
        own = self.names.get((item, first)) if item else None
        return word if own is None or own == first and "." not in word else own + (f".{rest}" if rest else "")

    def code_of(self, block: Block) -> list[str]:
        """Returns the lines of a definition with the page's names. Fields keep their own names."""
        found = []
        for line in block.code:
            code, dashes, comment = line.partition("--")
            field = re.match(r"^\s+(?:pub )?[\w-]+(?= :)", code) if " record " in f" {block.code[0]}" else None
            own = field[0] if field else ""
            parts = re.split(r'("[^"]*")', code[len(own) :])
            code = own + "".join(part if part.startswith('"') else self.in_words(block.file, part) for part in parts)
            found.append(code + dashes + comment)
        return filled(found)

    def lines_of(self, item: Item) -> list[str]:
        """Returns the lines of a definition, or of a type of the code, in the form in which the page shows them."""
        return self.code_of(item) if isinstance(item, Block) else side_by_side(item.code)

    def in_words(self, file: File, code: str) -> str:
        """Returns code with the page's names. An operator gets a stroke (') if another operator has its name."""
        code = WORD.sub(lambda at: self.shown(file, at[0]), code)
        for name in {f"◌{sign}◌" for sign in OPERATOR.findall(code)}:
            item = self.sources.look_up(file, name)
            if item is not None and self.names.get((item, name), name) != name:
                code = code.replace(name[1:-1], f"{name[1:-1]}'")
        return code

    # ---- writing

    def counts(self, items: Sequence[Item]) -> tuple[int, int]:
        """Returns the number of definitions, and the number of their lines in the sources without comments."""
        lines = [line.lstrip() for item in items for line in item.code]
        return len(items), sum(bool(line) and not line.startswith(("--", "//")) for line in lines)

    def group_lines(self, group: Group, by_rule: bool) -> list[str]:
        heading = group.heading(by_rule)
        out = [f"### {heading}", ""]
        if group.file is None:
            code = [line for i, item in enumerate(group.items) for line in ([""] if i else []) + self.lines_of(item)]
            return [*out, "```rust", *code, "```", ""]
        out += [*wrapped(re.sub(r"\s*Rule: none.*$", "", group.file.title)), ""]
        return out + self.fenced(group.items) + self.elsewhere(group.items, heading)

    def fenced(self, items: Iterable[Block]) -> list[str]:
        shown = [item.comment + self.code_of(item) + noted("--", self.notes.get(item, [])) for item in items]
        return ["```agda", *between(shown), "```", ""]

    def place_notes(self) -> None:
        """Puts each explanation below the first definition that uses its name. Ends the script if a name without a
        definition has no explanation, or if an explained name doesn't exist."""
        by_name = {shown: item for (item, _), shown in self.names.items()}
        lost = [name for names in self.believed for name in names.split(", ") if name not in by_name]
        if lost:
            common.stop(f"nothing on the pages is called {', '.join(lost)}")
        said = {by_name[name]: (names, says) for names, says in self.believed.items() for name in names.split(", ")}
        said.update({item: (self.names[item, key[2]], says) for item, (key, says) in self.closed.items()})
        noted: set[str] = set()
        unsaid: list[str] = []
        for place, needs in self.first_named():
            self.notes[place] = []
            for need in needs:
                names, says = said.get(need, ("", ""))
                # (operators belong to the notation, and a type of the code is explained with its owner)
                if isinstance(need, Block) and not names and need not in self.first and not need.names[0].startswith("◌"):
                    unsaid.append(f"{place.names[0] if isinstance(place, Block) else place} names {self.names[need, need.names[0]]}")
                if names and names not in noted:
                    noted.add(names)
                    self.notes[place].append(f"{names}: {says}")
        if unsaid:
            common.stop("\n".join(["the first page neither defines nor explains:", *unsaid]))
        for name, names, says in self.template.tables["besides"]:
            self.notes[name] = [f"{names}: {says}", *self.notes[name]]
        if not noted >= {*self.believed}:
            common.stop(f"nothing of the first page names {', '.join({*self.believed} - noted)}")

    def first_named(self) -> list[tuple[object, list[Item]]]:
        """Returns the contracts (as names) and the definitions of the first page in order, each with the items that it
        uses."""
        found: list[tuple[object, list[Item]]] = []
        for part in self.template.first:
            found += [(key[2], roots(self.sources, [key])) for key in self.template.contracts([part])]
            found += [(self.named(key), self.needs(self.named(key))) for key in self.template.keys([part])]
        return found

    def contract_lines(self, key: Key, on_first: bool) -> list[str]:
        lines = contract(*key)
        # (the definition of a law has the same comment)
        if on_first and key[1] == "laws":
            lines = [line for line in lines if not line.startswith("///")]
        return lines + (noted("//", self.notes.get(key[2], [])) if on_first else [])

    def elsewhere(self, items: Iterable[Block], heading: str, named: Iterable[Item] = ()) -> list[str]:
        """Returns a line of links to the items in `named` and to the items that these definitions use, except the items
        under the same heading. Returns no line if there are none."""
        needs = [need for item in items for need in self.needs(item)]
        found = {need: 0 for need in [*named, *needs] if self.homes.get(need, heading) != heading}
        links = []
        for need in found:
            name = need.name if isinstance(need, Declared) else need.names[0]
            page = "../docs/STATEMENT.md" if need in self.first else ""
            links.append(f"[`{self.names[need, name].strip('◌')}`]({page}#{slug(self.homes[need])})")
        return [*wrapped("Elsewhere: " + ", ".join(links) + "."), ""] if links else []

    def needs(self, block: Block) -> list[Item]:
        """Returns the items that a definition uses. The names of a record's own fields don't count as uses."""
        if not re.match(r"^(?:pub )?record ", block.code[0]):
            return self.sources.needs(block)
        code = [re.sub(r"^\s+(?:pub )?[\w-]+(?= :)", "", line) for line in block.code]
        found = [self.sources.look_up(block.file, word) for word in words_of(code)]
        return [need for need in self.sources.needs(block) if need in found]

    def items_of(self, part: Part) -> list[Item]:
        """Returns the definitions in a section of either page."""
        kind = self.template.kind(part)
        return [self.named(key) for key in self.template.keys([part])] + [item for group in self.groups.get(kind, []) for item in group.items]

    def lines(self, part: Part, on_first: bool) -> list[str]:
        """Returns the lines of a section, with each directive of the template replaced."""
        out: list[str] = []
        for line in part.lines:
            directive, law = DIRECTIVE.match(line), CONTRACT.match(line)
            if law:
                out += self.contract_lines((law[1], law[2], law[3]), on_first)
            elif directive:
                out += self.directive(directive[1], directive[2], part)
            else:
                out.append(line)
        return out

    def directive(self, word: str, rest: str, part: Part) -> list[str]:
        """Returns the lines that replace a directive of the template, without an empty line at their end."""
        if word == "definitions":
            found = self.fenced(self.named(key) for key in shown_by(rest))
        elif word == "part":
            found = [line for group in self.groups[rest] for line in self.group_lines(group, rest == "language")]
        elif word == "sizes":
            found = self.table()
        elif word == "elsewhere":
            found = self.elsewhere([], "", roots(self.sources, self.template.contracts([part])))
        elif word == "rules":
            found = self.homes_of_believed()
        else:
            found = self.named_lines(rest)
        return found[:-1] if found and not found[-1] else found

    def homes_of_believed(self) -> list[str]:
        """Returns a list of files whose definitions the first page uses without showing them, each with the names of
        these definitions."""
        by_file: dict[str, list[str]] = {}
        for _, needs in self.first_named():
            for need in needs:
                if isinstance(need, Block) and need not in self.first and not need.names[0].startswith("◌"):
                    place = f"crates/{need.file.crate}/specs/{need.file.name}.antt"
                    name = self.names[need, need.names[0]]
                    if name not in by_file.setdefault(place, []):
                        by_file[place].append(name)
        # (these aren't links, because a package doesn't contain the crates)
        items = [f"{place}: {', '.join(f'`{it}`' for it in names)}" for place, names in sorted(by_file.items())]
        return listed(items)

    def named_lines(self, kind: str) -> list[str]:
        """Returns the table of names that the pages don't define, or define only in a part that isn't counted."""
        if kind == "later":
            says = {name.strip("`"): says for name, says in self.template.tables["later"]}
            rows = [f"| `{key[2]}` | {says[key[2]]} | part {self.number('steps')} |" for key in LATER]
        else:
            rows = [f"| `{self.names[block, key[2]]}` | {says} | `{key[1]}` of `{key[0]}` |" for block, (key, says) in self.closed.items()]
            rows += [f"| {names} | {says} | {where} |" for names, says, where in self.template.tables["library"]]
        return [*HEAD_OF_NAMES, *rows]

    # ---- sizes

    def size(self, part: Part) -> Size:
        """Returns how many words, and how many lines of definitions and contracts, a section of the first page
        contains."""
        lines = self.counts(self.items_of(part))[1]
        lines += sum(read_of(["```", *contract(*key)])[1] for key in self.template.contracts([part]))
        # (every time in place of {first} has the same number of words)
        return read_of(line.replace("{first}", "at most 0 minutes") for line in self.lines(part, True))[0], lines

    def first_size(self) -> Size:
        """Returns the size of everything before the notation."""
        titles = [part.title for part in self.template.first]
        return summed(self.size(part) for part in self.template.first[: titles.index(NOTATION)])

    def size_words(self, part: Part) -> str:
        many, lines = self.counts(self.items_of(part))
        return f"{many} definitions, {lines:,} lines"

    def table(self) -> list[str]:
        """Returns the table of the parts with their sizes and some sums."""
        rows = ["| Part | Definitions | Lines |", "|---|---|---|"]
        named = [part for part in self.template.second if self.template.kind(part)]

        def row(name: str, parts: Sequence[Part]) -> None:
            many, lines = summed(self.counts(self.items_of(part)) for part in parts)
            rows.append(f"| {name} | {many} | {lines:,} |")

        so_far = [*self.template.first]
        row("**docs/STATEMENT.md**", so_far)
        for part in named:
            row(f"[{part.title}](#{slug(part.title)})", [part])
            so_far.append(part)
            if self.template.kind(part) in SUMS:
                row(f"**{SUMS[self.template.kind(part)]}**", so_far)
        return rows

    def left_out(self) -> str:
        """Returns the number of definitions that aren't in any sum, and of their lines, in words."""
        many, lines = self.counts(self.uncounted)
        return f"{many} definitions ({lines} lines)"

    # ---- the pages

    def text(self) -> str:
        """Returns the text of docs/STATEMENT.md. Ends the script if reading it takes more than FIRST_TAKES minutes."""
        size = self.first_size()
        if minutes(size) > FIRST_TAKES:
            common.stop(f"docs/STATEMENT.md takes {minutes(size)} minutes, and not {FIRST_TAKES}: {size[0]} words, {size[1]} lines")
        out = [line.replace("{first}", f"at most {minutes(size)} minutes") for part in self.template.first for line in [*self.lines(part, True), ""]]
        return "\n".join(out).rstrip() + "\n"

    def second_text(self) -> str:
        """Returns the text of bin/DEFINITIONS.md."""
        out: list[str] = []
        for part in self.template.second:
            size = self.size_words(part) if self.template.kind(part) else ""
            out += [line.replace("{size}", size).replace("{uncounted}", self.left_out()) for line in self.lines(part, False)] + [""]
        out += ["## Names of the standard library", ""]
        by_module: dict[str, set[str]] = {}
        for module, name in self.sources.std:
            by_module.setdefault(module, set()).add(name)
        for module in sorted(by_module):
            out += wrapped(f"- `{module}`: {', '.join(f'`{name}`' for name in sorted(by_module[module]))}", "  ")
        return "\n".join(out).rstrip() + "\n"


NAMED, NOTATION = "Named and not unfolded", "The notation"
HEAD_OF_NAMES = ["| Name | What it says | File or part |", "|---|---|---|"]
# (the parts after which the table has a sum)
SUMS = {"wire": "Without the language", "language": "With the language"}


def filled(lines: list[str]) -> list[str]:
    """Joins lines of a type that has one part on each line in the sources, so that it takes as few lines as
    possible."""
    found: list[str] = []
    for line in lines:
        part = re.match(r"^\s+→ .*", line)
        head = found[-1] if found else ""
        joins = part and "--" not in head and (re.match(r"^\s+→ ", head) or " : " in head) and not head.rstrip().endswith("=")
        if joins and len(head) + 1 + len(line.strip()) <= WIDTH:
            found[-1] = f"{head} {line.strip()}"
        else:
            found.append(line)
    return found


def side_by_side(lines: list[str]) -> list[str]:
    """Joins successive lines of an enum that contain only a name, so that the variants share lines."""
    found: list[str] = []
    for line in lines:
        name = re.match(r"^    [A-Z]\w*,$", line)
        head = found[-1] if found else ""
        if name and re.match(r"^    (?:[A-Z]\w*, ?)+$", head) and len(head) + 1 + len(line.strip()) <= WIDTH:
            found[-1] = f"{head} {line.strip()}"
        else:
            found.append(line)
    return found


def read_of(text: Iterable[str]) -> Size:
    """Counts the words of a text, including comments, and its lines of code. Headings, lists of links and the dividing
    lines of tables aren't counted."""
    words = lines = 0
    fenced = skipped = False
    for line in text:
        skipped = not fenced and bool(line) and (skipped or line.startswith("Elsewhere: "))
        if line.startswith("```"):
            fenced = not fenced
        elif fenced and not line.lstrip().startswith(("--", "//")):
            lines += bool(line)
        elif not skipped and not line.startswith(("#", "|---")):
            words += len(re.findall(r"[^\s|]*\w[^\s|]*", line))
    return words, lines


def summed(sizes: Iterable[Size]) -> Size:
    all_sizes = list(sizes)
    return sum(first for first, _ in all_sizes), sum(second for _, second in all_sizes)


def minutes(size: Size) -> int:
    """Returns how many minutes it takes to read a text of this size."""
    return math.ceil(size[0] / WORDS_A_MINUTE + size[1] / LINES_A_MINUTE)


def listed(items: Iterable[str]) -> list[str]:
    return [line for item in items for line in wrapped(f"- {item}", "  ")]


def noted(mark: str, notes: Iterable[str]) -> list[str]:
    """Formats notes as indented comments that begin with this mark."""
    how: dict[str, Any] = {"initial_indent": f"{mark}   ", "subsequent_indent": f"{mark}     "}
    return [line for note in notes for line in textwrap.wrap(note, WIDTH, break_on_hyphens=False, **how)]


def between(contracts: Iterable[list[str]]) -> list[str]:
    """Joins contracts or definitions into one list of lines, with an empty line between two."""
    found: list[str] = []
    for lines in contracts:
        found += ([""] if found else []) + lines
    return found


def slug(heading: str) -> str:
    """Returns the anchor of a heading, as it appears in links."""
    return re.sub(r"[^\w\- ]", "", heading.lower()).replace(" ", "-")


def wrapped(text: str, indent: str = "") -> list[str]:
    """Wraps a text into lines. A link, or text between backquotes, isn't broken."""
    kept = re.sub(r"\[?`[^`]*`(?:\]\([^)]*\))?", lambda at: at[0].replace(" ", "\N{NO-BREAK SPACE}"), text)
    lines = textwrap.wrap(kept, 120, subsequent_indent=indent, break_on_hyphens=False, break_long_words=False)
    return [line.replace("\N{NO-BREAK SPACE}", " ") for line in lines]


def main(words: list[str]) -> None:
    with open(TEMPLATE, encoding="utf-8") as file:
        page = Page(Template(file.read()))
    if "--print" in words:
        print(page.second_text(), end="")
        return
    made = page.text()
    if "--check" in words:
        with open(PAGE, encoding="utf-8") as file:
            if file.read() != made:
                common.stop("docs/STATEMENT.md isn't of these sources: `make statement` writes it")
        return
    os.makedirs(os.path.dirname(REST), exist_ok=True)
    for path, text in ((PAGE, made), (REST, page.second_text())):
        with open(path, "w", encoding="utf-8") as file:
            file.write(text)
    print("\n".join(page.table()))


if __name__ == "__main__":
    main(sys.argv[1:])
