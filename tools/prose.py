#!/usr/bin/env python3
"""Counts how ob0's texts are worded: forty phrases that a reader stumbles over, long sentences, comments without a
verb.

  tools/prose.py              prints the totals, by phrase and by kind of file
  tools/prose.py FILE..       prints each phrase and each long sentence of these files, with the words around it
  tools/prose.py --write      rewrites tests/prose.txt; fails if a count rose or a long sentence was added
  tools/prose.py --write-all  rewrites it, whatever rose

The texts are pages, comments of crates, strings and comments of Python, whole files of editors, shells and examples,
and the first lines of mutants. tests/prose.txt lists the files with such phrases, and the first words of each long
sentence. The mutants of a folder are counted together."""
from __future__ import annotations

import ast
import glob
import io
import os
import re
import sys
import tokenize
from collections import Counter
from collections.abc import Iterator
from typing import NamedTuple

import common

LIST = os.path.join(common.TOP, "tests", "prose.txt")
# the files of each kind; for mutants the folders, whose first lines are counted together
KINDS = {
    "pages": ["*.md", "docs/**/*.md", "editors/**/*.md", "examples/**/*.md", "share/*.1", "tools/statement.in"],
    "crates": ["crates/*/src/**/*.rt", "crates/*/specs/**/*.antt", "crates/*/proofs/**/*.antt"],
    "Python": ["tools/*.py", "tests/**/*.py", "bench/*.py", "examples/exercises/*.py", "share/ob0-format", "share/ob0-watch"],
    "files": [
        *("Makefile", "examples/*.mod", "share/_ob0", "share/*.bash", "share/*.fish", "share/emacs/*.el", "editors/**/*.el"),
        *("editors/**/*.lua", "editors/**/*.vim", "editors/**/*.kak", "editors/**/*.toml", "editors/**/*.xml", "editors/**/*.lang"),
        *("editors/*/*.js", "editors/nano/*", "editors/vim/doc/*.txt", "editors/vscode/*.json", "editors/tree-sitter/queries/**/*.scm"),
    ],
    "mutants": ["crates/*/wrong-bodies", "crates/*/must-fail"],
}
# a generated page, and the two files that contain the phrases themselves
LEFT_OUT = {"docs/STATEMENT.md", "tools/prose.py", "tests/test_prose.py"}
PRINTED = "crates/ob0_cli/src/line.rt"  # the file whose strings are the printed help
MOST_WORDS = 35
SHOWN_WORDS = 8  # how many first words of a long sentence the list contains

# each phrase, with a pattern that finds it; write the ordinary word instead (if, when, only, except, fix, format,
# about, ..)
PHRASES = {
    "where (if)": r"\bwhere (it|its|there|the|a|an|no|none|nothing|one|they|this|that|these|each|all|both|neither)\b",
    "exactly where": r"\bexactly where\b",
    "also where": r"\balso where\b",
    "what is left": r"\bwhat (is|are|was|were) (bound|found|given|kept|known|left|made|put|read|reported|said|seen|there|written|wrong)\b",
    "what comes": r"\bwhat (comes|came|follows|ends|stays|begins|waits|precedes)\b",
    "that of": r"\b(that|those) of\b",
    "all that": r"\ball that\b",
    "alone": r"\balone\b",
    "but for": r"\bbut for\b",
    "Of a ..": r"(?:^|[.:;] \(?)(?-i:Of) (?!course)",
    "said of": r"\b(said|known|spoken) of\b",
    "is said": r"\b(is|are) said\b",
    "comes of": r"\b(come|comes|came) of\b",
    "from nothing": r"\bfrom nothing\b",
    "from X on": r"\bfrom (\S+ ){1,4}on\b",
    "past": r"\bpast\b",
    "lay out": r"\b(laid|lays?|laying) (\w+ )?out\b",
    "mend": r"\bmend(s|ed|ing)?\b",
    "without faults": r"\bwithout (a )?faults?\b|\bat fault\b",
    "is taken": r"\b(is|are) taken\b",
    "taken over": r"\b(take|takes|taken|took) over\b",
    "gives back": r"\b(give|gives|given|gave) (back|way)\b",
    "goes on": r"\b(go|goes|gone|going|went) (along|on|through)\b",
    "is there": r"\b(is|isn't|are|aren't) there\b",
    "of its own": r"\bof (its|their|his|one's) own\b",
    "as they were": r"\bas (it|they) (was|were)\b|\bstays\b",
    "by what": r"\bby what\b",
    "by halving": r"\bby halving\b",
    "so is it": r"\bso (is|are|does|do) (it|they|the|a|its)\b|\bso it (is|does)\b",
    "none of": r"\bnone (of|is|are)\b",
    ".., too": r"\btoo(?=[.,;:)]|$)",
    "names it": r"\bnames (it|the|a|an|one|no)\b",
    "looked at": r"\b(look|looks|looked|looking) at\b",
    "wants": r"\bwants?\b",
    "some 40": r"\bsome \d",
    "mostly": r"\bmostly\b",
    "as far as it was tried": r"\bas far as (it|they) (was|were) tried\b",
    "in turn": r"\bin turn\b",
    "beside": r"\bbeside\b",
    "a mutant turns": r"\bturns (a|an|the|its|that|one)\b|\b(mutant|edit|it) turns\b",
}
FOUND_BY = {name: re.compile(pattern, re.I | re.M) for name, pattern in PHRASES.items()}
# a comment that begins with one of these words has a verb if it is a question, or if its first sentence contains two of
# VERBS: one for the clause and one for the sentence
HEADLESS = re.compile(r"(what|whether|how)\b", re.I)
VERBS = re.compile(r"\b(is|isn't|are|aren't|was|were|has|have|had|does|do|can|may|must|will)\b", re.I)


class Counts(NamedTuple):
    """The number of phrases in a file, and the number of its comments that begin with What, Whether or How and have no
    verb."""

    phrases: int
    headless: int


def files_of(kind: str) -> list[str]:
    """Returns the paths, from the repository's top, of the files of this kind."""
    paths = (it for pattern in KINDS[kind] for it in glob.glob(os.path.join(common.TOP, pattern), recursive=True))
    return sorted({os.path.relpath(it, common.TOP) for it in paths} - LEFT_OUT)


def read(path: str) -> str:
    with open(os.path.join(common.TOP, path), encoding="utf-8") as file:
        return file.read()


def from_troff(text: str) -> str:
    """Converts a manual page to plain paragraphs."""
    text = re.sub(r"^\.nf\n.*?^\.fi$", "", text, flags=re.M | re.S)
    text = re.sub(r"\\f.|\\[&/]", "", text).replace(r"\-", "-").replace(r"\(aq", "'")
    text = re.sub(r"\\\([lr]q", "", text)
    text = re.sub(r"^\.(TH|SH) .*$", "\n", text, flags=re.M)
    text = re.sub(r"^\.(TP|PP|IP|br).*$", "", text, flags=re.M)
    return re.sub(r"^\.[A-Z]+ (.*)$", lambda it: it[1].replace('"', ""), text, flags=re.M)


def from_markdown(text: str) -> str:
    """Converts a page to plain paragraphs. Leaves out code, headings, lists of contents and the targets of links. Each
    cell of a table becomes a paragraph."""
    text = re.sub(r"^ *```.*?^ *```$", "", text, flags=re.M | re.S)
    text = re.sub(r"\n\n(?:    .*\n)+", "\n\n", text)
    text = re.sub(r"^(#.*|\|[-|: ]*\|)$|^Contents:(.+\n)*", "", text, flags=re.M)
    text = re.sub(r"^> ?", "", text, flags=re.M)
    text = re.sub(r"`[^`]*`", "`code`", text)
    text = re.sub(r"\]\([^)\s]*\)", "]", text)
    text = re.sub(r"^\|(.*)\|$", lambda it: "\n\n" + it[1].replace("|", "\n\n") + "\n\n", text, flags=re.M)
    return re.sub(r"^ *(?:[-*]|\d+\.) ", "\n\n", text, flags=re.M)


def paragraphs_of(page: str) -> list[str]:
    """Returns the paragraphs, list items and table cells of a page, each on one line."""
    text = from_troff(read(page)) if page.endswith(".1") else from_markdown(read(page))
    return [" ".join(it.split()) for it in re.split(r"\n\s*\n", text) if it.strip()]


def without_code(text: str) -> str:
    """Returns a text on one line, with a word for each part in backticks."""
    return " ".join(re.sub(r"`[^`]*`", "`code`", text).split())


def comments_of(path: str) -> list[str]:
    """Returns the comments of a file of code or definitions, each on one line. Comments on successive lines are joined
    into one."""
    mark = "//[/!]?" if path.endswith(".rt") else "--"
    found: list[list[str]] = [[]]
    for line in read(path).split("\n"):
        comment = re.match(rf"\s*{mark}(?: (.*))?$", line)
        if comment:
            found[-1].append(comment[1] or "")
        elif found[-1]:
            found.append([])
    return [without_code(" ".join(it)) for it in found if "".join(it).strip()]


def strings_of(tree: ast.AST) -> Iterator[str]:
    """Yields the strings that contain a blank in a part of a Python program. A word replaces each value in an
    f-string."""
    if isinstance(tree, ast.JoinedStr):
        text = "".join(str(it.value) if isinstance(it, ast.Constant) else "`code`" for it in tree.values)
    else:
        text = tree.value if isinstance(tree, ast.Constant) and isinstance(tree.value, str) else ""
        for it in ast.iter_child_nodes(tree):
            yield from strings_of(it)
    if " " in text:
        yield text


def comments_in_python(text: str) -> Iterator[str]:
    """Yields the comments of a Python file. Comments on successive lines are joined into one."""
    found: list[str] = []
    line = 0
    for it in tokenize.generate_tokens(io.StringIO(text).readline):
        if it.type == tokenize.COMMENT:
            if found and it.start[0] != line + 1:
                yield " ".join(found)
                found = []
            found.append(it.string.lstrip("#! "))
            line = it.start[0]
    yield " ".join(found)


def lines_of(path: str) -> str:
    """Returns a file's text without the comment marks at the starts of lines."""
    return re.sub(r"^\s*(?:--|//|;+|#|\")+ ?", "", read(path), flags=re.M)


def first_lines(folder: str) -> Iterator[str]:
    """Yields the first line of each mutant in a folder."""
    for file in sorted(glob.glob(os.path.join(common.TOP, folder, "*.edit"))):
        yield read(file).partition("\n")[0].lstrip("# ")


def texts_of(kind: str, path: str) -> list[str]:
    """Returns the texts of a file in which phrases are counted, each on one line."""
    if kind == "pages":
        return paragraphs_of(path)
    if kind == "crates":
        printed = re.findall(r'(?<!//)"(?:[^"\\]|\\.)*"', read(path), re.S) if path == PRINTED else []
        return comments_of(path) + [without_code(it.replace("\\\n", "")) for it in printed]
    if kind == "Python":
        text = read(path)
        found = [*strings_of(ast.parse(text)), *comments_in_python(text)]
    else:
        found = [*first_lines(path)] if kind == "mutants" else [lines_of(path)]
    return [without_code(it) for it in found if it.strip()]


def sentences_of(paragraph: str) -> list[str]:
    """Splits a paragraph into sentences. Each ends with a full stop, a question mark or an exclamation mark before a
    space."""
    return [it for it in re.split(r"(?<=[^.][.!?])[)*]* +(?=\S)", paragraph) if it]


def is_headless(comment: str) -> bool:
    """Returns whether a comment begins with What, Whether or How, and its first sentence is no question and has no
    verb."""
    first = sentences_of(comment)[0]
    return bool(HEADLESS.match(first)) and not first.endswith("?") and len(VERBS.findall(first)) < 2


def phrases_in(texts: list[str]) -> Counter[str]:
    """Counts how often each phrase occurs in these texts."""
    joined = "\n".join(texts)
    return Counter({name: sum(1 for _ in found.finditer(joined)) for name, found in FOUND_BY.items()})


def counts() -> dict[str, Counts]:
    """Returns the counts of each file, or folder of mutants, in which any count isn't 0."""
    found = {}
    for kind in KINDS:
        for path in files_of(kind):
            texts = texts_of(kind, path)
            headless = sum(map(is_headless, texts)) if kind in ("crates", "Python") else 0
            found[path] = Counts(sum(phrases_in(texts).values()), headless)
    return {path: it for path, it in found.items() if any(it)}


def long_sentences(page: str) -> list[str]:
    """Returns the sentences of a page that have more than MOST_WORDS words."""
    return [it for text in paragraphs_of(page) for it in sentences_of(text) if len(it.split()) > MOST_WORDS]


def beginnings() -> list[str]:
    """Returns, for each long sentence of all pages, the page and the sentence's first words."""
    return sorted(f"{page}: {' '.join(it.split()[:SHOWN_WORDS])} .." for page in files_of("pages") for it in long_sentences(page))


def lines() -> Iterator[str]:
    """Yields the lines that tests/prose.txt must contain for the present files."""
    for path, it in sorted(counts().items()):
        yield f"{path}: {it.phrases} phrases" + (f", {it.headless} comments without a verb" if it.headless else "")
    yield ""
    yield from beginnings()


def listed() -> tuple[dict[str, Counts], list[str]]:
    """Reads tests/prose.txt. Returns its counts by file, and the beginnings of long sentences."""
    head, _, rest = read(LIST).partition("\n\n")
    found = (re.fullmatch(r"(\S+): (\d+) phrases(?:, (\d+) comments without a verb)?", it) for it in head.split("\n"))
    return {it[1]: Counts(int(it[2]), int(it[3] or 0)) for it in found if it}, [it for it in rest.split("\n") if it]


def risen() -> list[str]:
    """Returns a line for each file whose count is higher than in tests/prose.txt, and for each long sentence that is
    missing there."""
    known, sentences = listed()
    none = Counts(0, 0)
    pairs = ((path, known.get(path, none), it) for path, it in counts().items())
    higher = [f"{path}: {tuple(new)} after {tuple(old)}" for path, old, new in pairs if any(b > a for a, b in zip(old, new))]
    return higher + [*(Counter(beginnings()) - Counter(sentences)).elements()]


def kind_of(path: str) -> str:
    """Returns the kind of a file. Ends the program if the file isn't counted."""
    kinds = [kind for kind in KINDS if path in files_of(kind)]
    if not kinds:
        common.stop(f"{path} isn't counted")
    return kinds[0]


def show(paths: list[str]) -> None:
    """Prints each phrase of these files with the text around it, each comment without a verb, and each long
    sentence."""
    for path in paths:
        kind = kind_of(path)
        texts = texts_of(kind, path)
        for text in texts:
            for name, found in FOUND_BY.items():
                for it in found.finditer(text):
                    print(f"{path}: {name}: .. {text[max(0, it.start() - 40) : it.end() + 40]} ..")
        for text in filter(is_headless, texts if kind in ("crates", "Python") else []):
            print(f"{path}: no verb: {text[:100]}")
        for text in long_sentences(path) if kind == "pages" else []:
            print(f"{path}: {len(text.split())} words: {text}")


def show_totals() -> None:
    """Prints how often each phrase is in each kind of file, and the other totals."""
    found = {kind: phrases_in([it for path in files_of(kind) for it in texts_of(kind, path)]) for kind in KINDS}
    print(f"{'':24}" + "".join(f"{kind:>8}" for kind in KINDS))
    for name in PHRASES:
        print(f"{name:24}" + "".join(f"{found[kind][name]:8}" for kind in KINDS))
    print(f"{'phrases':24}" + "".join(f"{sum(found[kind].values()):8}" for kind in KINDS))
    print(f"{'comments without a verb':24}        {sum(it.headless for it in counts().values())}")
    print(f"{'long sentences of pages':24}        {len(beginnings())}")


def main(words: list[str]) -> int:
    if words and words[0] in ("--write", "--write-all"):
        rose = risen() if words[0] == "--write" else []
        if rose:
            print("\n".join(["These rose, so nothing is written:", *rose]))
            return 1
        with open(LIST, "w", encoding="utf-8") as file:
            file.write("\n".join(lines()) + "\n")
    elif words:
        show(words)
    else:
        show_totals()
    return 0


if __name__ == "__main__":
    sys.exit(main(sys.argv[1:]))
