"""Tests docs/STATEMENT.md: it is generated from the present sources, and contains every definition that the theorem
needs. The definitions are counted here without the script that writes the page."""
from __future__ import annotations

import functools
import glob
import os
import re
import subprocess
import sys
from collections.abc import Iterable
from typing import Any, Tuple

from common import match_of
from harness import TOP, Failed, holds, same, test, text_of

PAGE, TEMPLATE = os.path.join("docs", "STATEMENT.md"), os.path.join("tools", "statement.in")
SCRIPT = os.path.join(TOP, "tools", "statement.py")
Place = Tuple[str, str, str]  # a crate, a file and a name
WORDS_BEFORE = r"(?:(?:abbrev|unfoldable|pub) +)*(?:record +|data +)?"


def ran(*words: str) -> subprocess.CompletedProcess[str]:
    how: dict[str, Any] = {"stdin": subprocess.DEVNULL, "stdout": subprocess.PIPE, "stderr": subprocess.STDOUT, "text": True}
    return subprocess.run([sys.executable, SCRIPT, *words], check=False, **how)


@functools.lru_cache(maxsize=None)
def second() -> str:
    """Returns the text of the second page, bin/DEFINITIONS.md, as the script prints it."""
    return ran("--print").stdout


def fenced(language: str, page: str) -> list[tuple[str | None, str]]:
    """Returns the text of each code block in this language, with the heading of the section that it is in."""
    part: str | None = None
    found: list[tuple[str | None, str]] = []
    inside: list[str] | bool | None = None
    for line in page.splitlines():
        if line.startswith("## ") and inside is None:
            part = line[3:]
        elif line.startswith("```"):
            if inside is None:
                inside = [] if line == f"```{language}" else None
                if inside is None and line != "```":
                    inside = False
            else:
                if isinstance(inside, list):
                    found.append((part, "\n".join(inside)))
                inside = None
        elif isinstance(inside, list):
            inside.append(line)
    return found


def definitions(text: str) -> dict[str, str]:
    """Returns the definitions of a text, which empty lines separate, by their names. The cases of a `data` type are
    also names."""
    text = re.sub(r"^ *--.*\n", "", text, flags=re.M)
    found: dict[str, str] = {}
    for piece in re.split(r"\n\n+(?=\S)", text):
        indent = "  " if re.match(r"(?:\w+ )*mutual", piece) else ""
        names = re.findall(rf"^{indent}{WORDS_BEFORE}(\S+) [^=\n]*?:(?: |$)", piece, re.M)
        if re.match(r"(?:pub )?(?:abbrev )?(?:pub )?data ", piece):
            names += [name for line in re.findall(r"^  ((?:[^\s:(){}]+ )+):(?: |$)", piece, re.M) for name in line.split()]
        for name in names:
            found.setdefault(name, piece)
    return found


def imported(text: str) -> dict[str, Place]:
    """Returns the names that a file imports with `use` from definitions of this repository, and the crate, file and
    original name of each."""
    found: dict[str, Place] = {}
    for crate, file, names in re.findall(r"^(?:pub )?use Rattle\.(ob0_\w+)\.specs\.(\w+)\.\{(.*)\}$", text, re.M):
        for one in re.split(r",\s*", names):
            was, _, new = one.partition(" as ")
            found[new or was] = (crate, file, was)
    return found


class Counted:
    """Finds the definitions that the theorem needs, by following the words in each definition."""

    def __init__(self) -> None:
        self.files: dict[tuple[str, str], tuple[dict[str, str], dict[str, Place]]] = {}
        for path in glob.glob(os.path.join(TOP, "crates", "*", "specs", "*.antt")):
            crate, file = path.split(os.sep)[-3], os.path.basename(path)[:-5]
            text = text_of(os.path.relpath(path, TOP))
            body = re.sub(r"^(?:pub )?(?:use|mod) .*\n", "", text, flags=re.M)
            self.files[crate, file] = (definitions(body), imported(text))

    def home(self, crate: str, file: str, name: str) -> Place | None:
        """Returns the crate, file and name under which a file's own or imported name is defined, or None if it is
        neither."""
        own, others = self.files.get((crate, file), ({}, {}))
        return (crate, file, name) if name in own else others.get(name)

    def needed(self, roots: Iterable[Place], closed: Iterable[Place | None]) -> set[Place]:
        found: set[Place] = set()
        left = [self.home(*root) for root in roots]
        while left:
            at = left.pop()
            if at is None or at in found or at in closed:
                continue
            found.add(at)
            own, others = self.files[at[0], at[1]]
            words = set(re.findall(r"[^\s(){}\[\];,.\"]+", re.sub(r'"[^"]*"', "", own[at[2]])))
            for word in words | {f"◌{word}◌" for word in words}:
                if word in own:
                    left.append((at[0], at[1], word))
                elif word in others:
                    left.append(self.home(*others[word]))
        return found


@test("statement: docs/STATEMENT.md is up to date with the sources that it is generated from")
def statement() -> None:
    checked = ran("--check")
    if checked.returncode:
        raise Failed(checked.stdout[-3000:])


@test("statement: no name is defined twice in docs/STATEMENT.md and bin/DEFINITIONS.md")
def names_once() -> None:
    blocks = [text for page in (text_of(PAGE), second()) for _, text in fenced("agda", page)]
    names = [name for text in blocks for name in re.findall(rf"^(?!--){WORDS_BEFORE}(\S+) [^=\n]*?:(?: |$)", text, re.M)]
    holds(len(names) > 500, "the pages have hardly any definition")
    same(sorted({name for name in names if names.count(name) > 1}), [], "names that stand twice")


def line_of(begin: str) -> int:
    """Returns the number of the page's first line that begins with this text."""
    return next(i for i, line in enumerate(text_of(PAGE).splitlines(), 1) if line.startswith(begin))


@test("statement: STATEMENT.md shows the headline, theorem, editor's duties, guarantees and `serve` in this order")
def in_order() -> None:
    places = [line_of(it) for it in ("> In every interleaving", "pub record ServeGuaranteesHoldForExchange ", "abbrev pub IsAllowedMove ", "pub record GuaranteesHoldForExchange ", "pub fn serve<")]
    same(places, sorted(places), "the order of the page")
    holds(places[0] < 10 and places[1] < 45, f"the sentence and the theorem stand at lines {places[:2]}")


def quoted(page: str) -> str:
    """Returns the first quotation of a page, joined into one line."""
    return " ".join(match_of(r"(?:^> .*\n)+", text_of(page), re.M)[0].replace("> ", "").split())


@test("statement: STATEMENT.md, PROMISES.md and the comment of `play_in` state the headline in the same words")
def one_headline() -> None:
    comment = match_of(r"((?: *///.*\n)+) *pub fn play_in\(", text_of("crates", "ob0_world", "src", "world.rt"))[1]
    paragraphs = [" ".join(it.split()) for it in re.sub(r"^ *///", "", comment, flags=re.M).split("\n\n")]
    headline = quoted(PAGE)
    holds(headline.startswith("In every interleaving of an editor and the server,"), f"the page begins with {headline!r}")
    same(quoted(os.path.join("docs", "PROMISES.md")), headline, "the headline of the promises")
    holds(headline in paragraphs, f"the comment of `play_in` has {paragraphs}")


def rows() -> dict[str, list[int]]:
    """Returns the table of parts: the numbers of definitions and of lines of each part."""
    found = re.findall(r"^\| (?:\[(Part \d)[^|]*|\*\*([^|\[]*)\*\*) ((?:\| [\d,]+ ){2})\|$", second(), re.M)
    return {part or name: [int(it.replace(",", "")) for it in numbers.split("|")[1:]] for part, name, numbers in found}


PARTS = {"docs/STATEMENT.md": PAGE, **{f"Part {part}": "" for part in range(4, 10)}}
SUMS = {"Without the language": 3, "With the language": 4}


@test("statement: the pages' table counts at most 260 definitions and 1,190 lines, and with the language 505 and 2,800")
def short_enough() -> None:
    table = rows()
    for name, most in (("Without the language", (260, 1190)), ("With the language", (505, 2800))):
        many, lines = table[name][:2]
        holds(0 < many <= most[0] and 0 < lines <= most[1], f"{name}: {many} definitions and {lines} lines")


def text_of_part(part: str) -> str:
    """Returns the text of the first page, or of one part of the second page."""
    if PARTS[part]:
        return text_of(PARTS[part])
    return next(it for it in re.split(r"^(?=## )", second(), flags=re.M) if it.startswith(f"## {part}"))


@test("statement: the table of the parts gives each part's number of definitions, and the right sums")
def counts_hold() -> None:
    table = rows()
    same([it for it in table if it not in SUMS], [*PARTS], "the parts of the table")
    for name, last in SUMS.items():
        for i in range(2):
            same(table[name][i], sum(table[part][i] for part in [*PARTS][: last + 1]), f"{name}, column {i}")
    for part in PARTS:
        text = text_of_part(part)
        agda, rust = ("\n\n".join(it for _, it in fenced(language, text)) for language in ("agda", "rust"))
        found = len(re.split(r"\n\n+(?=\S)", agda)) + len(re.findall(r"^pub (?:struct|enum) ", rust, re.M))
        same(found, table[part][0], f"the definitions of {part}")


@test("statement: STATEMENT.md contains the contract of `serve`, and DEFINITIONS.md both sides of `play_in`'s contract")
def tie_is_there() -> None:
    first = "\n".join(text for _, text in [*fenced("agda", text_of(PAGE)), *fenced("rust", text_of(PAGE))])
    for it in ("pub fn serve<", "record ServeGuaranteesHoldForExchange ", "record GuaranteesHoldForExchange ", "record AppliesAnswer ", "IsAllowedMove :", "ExchangeTakesTurn :"):
        holds(it in first, f"docs/STATEMENT.md hasn't {it!r}")
    rest = "\n".join(text for _, text in [*fenced("agda", second()), *fenced("rust", second())])
    for it in ("ServeMayReturn :", "pub fn play_in(", "record IsResultOfPlaying ", "IsFaultOfPlaying :", "record ConnectionSteps ", "record AnswersAllButWaiting ", "Serves :", "record GuaranteesHoldForEvents "):
        holds(it in rest, f"the second page hasn't {it!r}")




# (matches the names that a comment below a definition or a contract explains)
NOTE = r"^(?:--|//)   (?! )([^:]+): "


def shown_first() -> list[Place]:
    """Returns the definitions that the template puts on the first page."""
    found: list[Place] = []
    for words in re.findall(r"^<!-- definitions (.*) -->$", text_of(TEMPLATE), re.M):
        for piece in words.split("; "):
            place, _, names = piece.partition(": ")
            crate, _, file = place.partition("/")
            found += [(crate, file, name) for name in names.split()]
    return found


@test("statement: each name that STATEMENT.md's definitions use is defined or explained on that page")
def nothing_unsaid() -> None:
    counted = Counted()
    read, shown = text_of(PAGE).partition("\n## The notation\n")[0], shown_first()
    holds(len(shown) >= 10, f"hardly any definition is on the page: {shown}")
    said = {name for _, _, name in shown}
    for piece in re.split(r"\n\n+(?=\S)|^```.*\n", read, flags=re.M):
        noted = [name for names in re.findall(NOTE, piece, re.M) for name in names.split(", ")]
        code = re.sub(r"^ *(?:--|//).*$", "", piece, flags=re.M)
        unnamed = [name for name in noted if not re.search(rf"(?<!\w){re.escape(name.split()[0])}(?!\w)", code)]
        same(unnamed, [], "names that are explained under a definition that doesn't use them")
        said |= {name.rpartition(".")[2] for name in noted}
    missing = set()
    for crate, file, name in shown:
        own, others = counted.files[crate, file]
        text = re.sub(r"^ +pub \w+(?= :)", "", own[name], flags=re.M)
        for word in re.findall(r"[^\s(){}\[\];,.\"]+", text):
            home = (crate, file, word) if word in own else counted.home(*others[word]) if word in others else None
            if home is None:
                continue
            # (the explanation of a type explains its cases)
            of_type = next(iter(definitions(counted.files[home[0], home[1]][0][home[2]])))
            if home[2] not in said and of_type not in said:
                missing.add(f"{word}, by {name} of {file}")
    same(sorted(missing), [], "names without a definition or an explanation")


def sources() -> str:
    paths = glob.glob(os.path.join(TOP, "crates", "*", "src", "*.rt"))
    return "\n".join(text_of(os.path.relpath(path, TOP)) for path in paths)


@test("statement: each law that STATEMENT.md or DEFINITIONS.md mentions exists, and each test that supports it")
def spoken_for() -> None:
    written = sources()
    said = re.findall(r"For that speak (.*?)\n\n", second(), re.S)
    same(len(said), 6, "how many parts say what speaks for them")
    named = [name for text in said for name in re.findall(r"`([a-z]\w*_\w+)`", text) if not name.startswith("ob0_")]
    holds(len(named) > 12, f"hardly any law or test is named: {named}")
    named += [name for text in (text_of(PAGE), second()) for name in re.findall(r"the laws? \[?`([a-z]\w*_\w+)`", text)]
    same([name for name in named if f"fn {name}(" not in written], [], "missing laws and tests")
    files = [path for text in said for path in re.findall(r"\b(?:tests|crates)/[\w/]*\w(?:\.py)?", text)]
    same([path for path in files if not os.path.exists(os.path.join(TOP, path))], [], "missing files and folders")


@test("statement: each link of the chain in STATEMENT.md is marked proved, tested or trusted, and exists in the code")
def chain_drawn() -> None:
    drawn = match_of(r"^```\n(editor +(?:.+\n)+?)```", text_of(PAGE), re.M)[1].splitlines()
    links = [it for it in drawn if ":" in it]
    holds(len(links) == 6, f"the chain has {len(links)} links")
    same([it for it in links if not re.search(r"\b(proved|tested|trusted)\b", it)], [], "links without such a word")
    places = {"main": "ob0/src/main.rt", "Noted": "ob0_session/src/noted.rt", "serve": "ob0_session/src/serve_loop.rt", "Session": "ob0_session_server/src/session.rt"}
    for name, file in places.items():
        holds(any(it.startswith(name) for it in links), f"the chain lacks {name}")
        holds(re.search(rf"\b(fn|struct) {name}\b", text_of("crates", file)), f"crates/{file} has no {name}")


@test("statement: STATEMENT.md and DEFINITIONS.md contain each definition that the theorem needs")
def closed_page() -> None:
    counted = Counted()
    rows_of = re.findall(r"^\| `([^`|]+)` \| .* \| `(\w+)` of `(\w+)` \|$", second(), re.M)
    closed = {counted.home(crate, file, name.split(".")[-1]) for name, file, crate in rows_of}
    roots = [("ob0_world", "Worlds", name) for name in ("IsResultOfPlaying", "IsFaultOfPlaying")]
    roots += [("ob0_session", "ServeResults", "Serves"), ("ob0_world_determined", "ServeGuarantees", "ServeGuaranteesHoldForExchange")]
    needed = counted.needed(roots, closed)
    holds(len(needed) > 600, f"hardly any definition is needed: {len(needed)}")
    last = {name for part, text in fenced("agda", second()) if str(part).startswith("Part 9") for name in definitions(text)}
    said = int(re.findall(r"No\s+sum\s+has\s+the\s+(\d+)\s+definitions", second())[0])
    holds(0 < said <= len(last), f"{said} definitions are in no sum, of {len(last)}")
    blocks = [text for page in (text_of(PAGE), second()) for _, text in fenced("agda", page)]
    shown = {name for text in blocks for name in definitions(text)}
    bare = {name.rpartition(".")[2].replace("'◌", "◌") for name in shown}
    same(sorted(f"{name} of {file} of {crate}" for crate, file, name in needed if name not in bare), [], "what the pages leave out")
