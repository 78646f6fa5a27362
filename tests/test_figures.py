"""Tests that each figure of docs/ROBUSTNESS.md agrees with tools/figures.txt, which `make faults` and `make bench`
write, or with a table of a test."""
from __future__ import annotations

import functools
import importlib
import os
import re
from typing import Any, Callable, Dict, List, Tuple
from unittest import mock

import common
import figures
import first_conversation
import nested_modules
import seeds
from harness import TOP, holds, same, test, text_of
from homes import temporary, write

PAGE = "docs/ROBUSTNESS.md"


def of_tables() -> Dict[str, str]:
    """Returns the rows of the page whose figures come from tables of tests: the figure for each row's words. Imports
    the tests here, because all tests must be loaded before."""
    devices, nesting, stream = (importlib.import_module(it) for it in ("test_devices", "test_nesting", "test_stream"))
    given, written, kinds = len(first_conversation.INPUT), len(first_conversation.OUTPUT), len(nested_modules.REPEATED)
    heads = [*stream.REFUSED, *stream.TAKEN, *stream.LAST_HEADS, "one without an end"]
    return {
        "a limit on the address space": f"{len(devices.LIMITS)} limits",
        "a reader of one byte a call": f"{given} calls",
        "a writer of one byte a call": f"2 x {written} bytes",
        "ended after each byte": f"{given + 1} ends",
        "cut in two at each byte": f"{given - 1 + 1} ways",
        "heads: lengths": f"{len(heads)} heads",
        "bytes that aren't UTF-8": f"{len(stream.BROKEN)} sequences at 4 places",
        "put in at random": f"{seeds.USUAL} times",
        "100 and 101 levels, as above, and 20,000": f"{2 * (kinds + nesting.USUAL) + kinds} texts",
        "64 open calls": f"{len(nested_modules.ENTERED) + nesting.USUAL // 40} mixes",
    }


@test("figures: each figure of docs/ROBUSTNESS.md is in tools/figures.txt or a test's table, or is marked (by hand)")
def on_page() -> None:
    page, others = text_of(PAGE), of_tables()
    same(figures.not_on_page(page), [], "what the list has and no row of the page has: correct the page")
    same(figures.not_in_list(page, others), [], "rows of the page that nothing counts: mark them (by hand)")
    same([it for it in others.items() if not figures.has_row(page, *it)], [], "what the tables of the tests have and the page hasn't")
    same(list(figures.rows()), sorted(figures.rows()), "the order of the list")
    rows = "".join(line for _, line in figures.tables(page))
    bold = [it for text in page.split("**")[1::2] for it in figures.LARGE.findall(text)]
    same([it for it in bold if not figures.has(rows, it)], [], "figures of the headlines that no row has")


def once_in_both(page: str, listed: str) -> List[str]:
    """Returns the numbers that occur exactly once on the page and exactly once in the list."""
    found = dict.fromkeys(re.findall(r"(?<![\d.,])\d[\d,]+\d(?![\d.,])", listed))
    return [it for it in found if [len(re.findall(rf"(?<!\d){it}(?!\d)", text)) for text in (page, listed)] == [1, 1]]


@test("figures: a changed figure in docs/ROBUSTNESS.md or figures.txt, and a row that no tool counts, are reported")
def found_out() -> None:
    page, listed = text_of(PAGE), text_of(os.path.relpath(figures.LIST, TOP))
    others = of_tables()
    numbers = once_in_both(page, listed)
    holds(len(numbers) > 5, f"few numbers are in both: {numbers}")
    for old in numbers[:5]:
        new = old[:-1] + str((int(old[-1]) + 1) % 10)
        changed = page.replace(old, new)
        same([len(figures.not_on_page(changed)), len(figures.not_in_list(changed, others))], [1, 1], f"{new} on the page")
        with temporary() as room:
            write(os.path.join(room, "list"), listed.replace(old, new))
            with mock.patch.object(figures, "LIST", os.path.join(room, "list")):
                same([len(figures.not_on_page(page)), len(figures.not_in_list(page, others))], [1, 1], f"{new} in the list")
    same(len(figures.not_in_list(page.replace(" (by hand)", "", 1), others)), 1, "a mark that is missing")
    changed = page.replace("41 limits", "42 limits")
    same(len(figures.not_in_list(changed, others)), 1, "a figure of a test's table")


@test("figures: `make faults` updates a line of figures.txt only if all its cases ran with the proved program")
def kept() -> None:
    faults: Any = importlib.import_module("faults")
    lines = {"memory: one": "1,200 runs; 5 ended", "memory: two": "300 runs; 1 ended", "texts: 20": "20 texts (of 4 kinds)", "keys": "200 changes"}
    rows: List[Tuple[str, Callable[[], str]]] = [(name, functools.partial(str, line)) for name, line in lines.items()]
    before = "memory = 9 runs (not run again)\nother = 7 things\ntexts = 19 texts\n"
    usual = {name: str(count) for name, count in faults.COUNTS.items()}
    summed = "memory = 1,500 runs; 6 ended; 2 cases\n"
    runs: List[Tuple[List[str], bool, Dict[str, str], str]] = [
        ([], True, {}, summed + "other = 7 things\ntexts = 20 texts (of 4 kinds)\n"),
        (["memory"], True, {"OB0_TEXTS": "30000"}, summed + "other = 7 things\ntexts = 19 texts\n"),
        (["memory: one"], True, {}, before),
        ([], False, {}, before),
        ([], True, {"OB0_TEXTS": "20"}, before),
    ]
    for words, is_current, environment, wanted in runs:
        with temporary() as room:
            path = os.path.join(room, "list")
            write(path, before)
            with mock.patch.object(figures, "LIST", path), mock.patch.object(faults, "all_of_it", lambda: iter(rows)), \
                    mock.patch.object(common, "is_current", lambda: is_current), mock.patch.object(faults.harness, "BINARY", common.BINARY), \
                    mock.patch.object(faults, "SEED", 0), mock.patch.dict(os.environ, {**usual, **environment}), mock.patch("builtins.print"):
                same(faults.main(words), 0, f"the status of {words}")
            same(text_of(path), wanted, f"the list after {words}, {environment}, {'the' if is_current else 'no'} proved program")
    holds(figures.has("1,500 runs", "1,500 runs") and not figures.has("11,500 runs", "1,500 runs"), "a figure inside another")
