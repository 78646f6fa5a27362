"""Reads and writes tools/figures.txt, the figures of docs/ROBUSTNESS.md that a tool counts. Each line contains the name
of a case and the results of its last run: phrases of the page, followed by more figures in parentheses that aren't on
the page. tools/faults.py and bench/run.py rewrite existing lines after they ran the proved program. `(not run again)`
marks figures that are older than the list."""
from __future__ import annotations

import functools
import os
import re
from collections import Counter

import common

LIST = os.path.join(common.TOP, "tools", "figures.txt")
EQUALS = " = "


def rows() -> dict[str, str]:
    """Returns the cases of the list, each with its phrases."""
    with open(LIST, encoding="utf-8") as file:
        return dict(line.rstrip("\n").split(EQUALS, 1) for line in file)


def summed(lines: list[str]) -> str:
    """Adds up the phrases of several runs: returns the sum of the numbers before the same words, and the number of
    runs."""
    counts: Counter[str] = Counter()
    for phrase in "; ".join(lines).split("; "):
        number, _, words = phrase.partition(" ")
        counts[words] += int(number.replace(",", ""))
    return "; ".join([*(f"{count:,} {words}".strip() for words, count in counts.items()), f"{len(lines)} cases"])


def keep(found: dict[str, str], program: str) -> None:
    """Writes the phrases of these cases to the list, and prints the ones that have changed. Ignores cases that the list
    doesn't contain. Writes nothing if the program isn't the proved one."""
    known = rows()
    new = {name: phrases for name, phrases in found.items() if name in known and known[name] != phrases}
    if not new:
        return
    is_proved = os.path.abspath(program) == common.BINARY and common.is_current()
    print("other figures than in tools/figures.txt" + (":" if is_proved else ", not kept, since this isn't the proved program:"))
    for name, phrases in sorted(new.items()):
        print(f"  {name}{EQUALS}{phrases}")
    if is_proved:
        with open(LIST, "w", encoding="utf-8") as file:
            file.writelines(f"{name}{EQUALS}{phrases}\n" for name, phrases in sorted({**known, **new}.items()))


def has(text: str, phrase: str) -> bool:
    """Returns whether a text contains a phrase that isn't preceded or followed by more digits of a number."""
    return phrase in text and bool(re.search(rf"(?<![\d.,]){re.escape(phrase)}(?!\d|[.,]\d)", text))


@functools.lru_cache(8)
def tables(page: str) -> list[tuple[list[str], str]]:
    """Returns the rows of a page's tables, each with the heads of its table's columns."""
    heads: list[str] = []
    found: list[tuple[list[str], str]] = []
    for line in page.split("\n"):
        cells = [it.strip() for it in line.strip("|").split("|")]
        if not line.startswith("|"):
            heads = []
        elif not heads:
            heads = cells
        elif set(line) - set("|-"):
            found.append((heads, line))
    return found


def rows_of(page: str, phrases: str) -> list[str]:
    """Returns the rows of a page's tables that contain each of these phrases."""
    wanted = re.sub(r" \(.*", "", phrases).split("; ")
    return [line for _, line in tables(page) if all(has(line, it) for it in wanted)]


def has_row(page: str, words: str, phrase: str) -> bool:
    """Returns whether a row of a page's tables has these words and this phrase."""
    return any(words in line for line in rows_of(page, phrase))


def not_on_page(page: str) -> list[str]:
    """Returns the lines of the list for which no row of the page's tables contains all phrases."""
    return [f"{name}{EQUALS}{phrases}" for name, phrases in rows().items() if not rows_of(page, phrases)]


LARGE = re.compile(r"\d[\d,]{2,}")  # a figure of a headline
# the columns of figures, a figure of memory in another, and what a row has whose figures no run writes
COUNTED = ("How often", "Peak memory", "Memory held by 8", "By 64")
MEMORY = re.compile(r"\d [KMG]i?B\b")
BY_HAND = "(by hand)"


def not_in_list(page: str, others: dict[str, str]) -> list[str]:
    """Returns the rows of the page that contain a figure, except those in the list, those in `others`, and those marked
    as counted by hand."""
    listed = {line for phrases in rows().values() for line in rows_of(page, phrases)}
    listed |= {line for what, phrase in others.items() for line in rows_of(page, phrase) if what in line}
    found = []
    for heads, line in tables(page):
        cells = dict(zip(heads, (it.strip() for it in line.strip("|").split("|"))))
        has_figure = MEMORY.search(cells.get("Result", "")) or any(re.search(r"\d", cells.get(it, "")) for it in COUNTED)
        if has_figure and line not in listed and BY_HAND not in line:
            found.append(line)
    return found
