#!/usr/bin/env python3
"""Counts instructions, and writes docs/PERFORMANCE.md: its tables, their plots, and the versions of the tools.

  bench/report.py           counts for bin/ob0 (or the program in the variable OB0), and writes the page and the plots
  bench/report.py --plots   draws the plots from the page's tables

Valgrind's callgrind counts the instructions. The same program and the same input have the same count each time, on
every machine with the same C library. The other programs are Debian's lua5.4 and python3. The instructions of a
program's start are subtracted."""
from __future__ import annotations

import os
import re
import shutil
import subprocess
import sys
from typing import Dict, List

sys.dont_write_bytecode = True
HERE = os.path.dirname(os.path.abspath(__file__))
sys.path[:0] = [HERE, os.path.join(os.path.dirname(HERE), "tests", "lib")]

from harness import BINARY, TOP, frames  # noqa: E402 (it puts the folders of scripts on the path)

import common  # noqa: E402
import corpus  # noqa: E402
import counting  # noqa: E402
import keys  # noqa: E402
import plots  # noqa: E402
import programs  # noqa: E402
from framing import Message  # noqa: E402

PAGE = os.path.join(TOP, "docs", "PERFORMANCE.md")
COUNTED = re.compile(r"(## What they were counted with\n\n).*?(?=\n## |\Z)", re.S)
SIZES = keys.SIZES
Table = Dict[str, List[int]]
# each change: a pattern, and a text that is inserted after the pattern's first match in the second half of the text and
# removed again
CHANGES = {
    "a blank in or out": (r":= [^;\n]*[0-9]", " "),
    "a digit in or out": (r":= [^;\n]*[0-9]", "1"),
    "a statement in or out": (r":= [^;\n]*;", ";"),
}
SCRATCH, TYPED = "read from scratch", "a key typed, with hover, definition and code actions"
OTHERS = {"Lua": "/usr/bin/lua5.4", "Python": "/usr/bin/python3"}


def said(name: str, counts: list[int]) -> None:
    print(f"  {name:<55} " + "  ".join(f"{it:>15,}" for it in counts), flush=True)


def conversed(messages: list[Message]) -> int:
    return counting.instructions_of_conversation(BINARY, frames(keys.conversation(messages)))


def of_keys() -> Table:
    """Measures the table of instructions for each kind of change, and for reading the text from scratch, by the text's
    size."""
    found: Table = {name: [] for name in (SCRATCH, *CHANGES, TYPED)}
    nothing = conversed([])
    for size in SIZES:
        text = corpus.module(size)
        whole, more, count = keys.typed(text)
        opened = conversed(whole)
        found[SCRATCH].append(opened - nothing)
        for name, (pattern, letter) in CHANGES.items():
            few, many, times = keys.in_and_out(text, pattern, letter)
            found[name].append((conversed(many) - conversed(few)) // times)
        found[TYPED].append((conversed(more) - opened) // count)
        said(f"{size:,} bytes, {', '.join(found)}", [it[-1] for it in found.values()])
    return found


def of_runs() -> Table:
    """Measures how many instructions each program takes in ob0, in Lua and in Python, without the instructions for
    starting."""
    words = [[BINARY, "run"], [OTHERS["Lua"]], [OTHERS["Python"], "-I", "-S"]]
    nothing = [counting.instructions_on_file(it, text) for it, text in zip(words, ("MODULE M; END M.\n", "", ""))]
    found: Table = {}
    for name, texts in programs.PROGRAMS.items():
        found[name] = [counting.instructions_on_file(it, text) - less for it, text, less in zip(words, texts, nothing)]
        said(name, found[name])
    return found


def row(cells: list[str]) -> str:
    return f"| {' | '.join(cells)} |\n"


def table(heads: list[str], rows: list[list[str]]) -> str:
    return row(heads) + "|---" + "|---:" * (len(heads) - 1) + "|\n" + "".join(row(it) for it in rows)


def times(whole: int, part: int) -> str:
    """Formats the ratio of two counts with at least two digits."""
    return f"{whole / part:,.0f}" if whole >= 10 * part else f"{whole / part:.2g}"


def table_of_keys(found: Table) -> str:
    heads = ["", *(f"{size:,} bytes" for size in SIZES), *(f"times less, {size:,}" for size in SIZES)]
    rows = [[name, *(f"{it:,}" for it in counts), *(times(all_, it) for all_, it in zip(found[SCRATCH], counts))] for name, counts in found.items()]
    return table(heads, rows)


def table_of_runs(found: Table) -> str:
    heads = ["Program", "ob0", *OTHERS, *(f"ob0 by {it}" for it in OTHERS)]
    rows = [[name, *(f"{it:,}" for it in counts), *(times(counts[0], it) for it in counts[1:])] for name, counts in found.items()]
    return table(heads, rows)


def version_of(words: list[str], pattern: str) -> str:
    done = subprocess.run(words, stdout=subprocess.PIPE, stderr=subprocess.STDOUT, stdin=subprocess.DEVNULL, check=True)
    return common.match_of(pattern, done.stdout.decode())[1]


def processor() -> str:
    """Returns the model name of this machine's processor."""
    with open("/proc/cpuinfo", encoding="utf-8", errors="replace") as file:
        return common.match_of(r"model name\s*: (.*)", file.read())[1].strip()


def counted_with() -> str:
    """Returns a Markdown list of what the figures were counted with: the program, the machine, and the versions of the
    tools."""
    is_proved = os.path.abspath(BINARY) == common.BINARY and common.is_current()
    kind = "the proved program" if is_proved else "**not the proved program** of these sources"
    lines = {
        "ob0": f"{kind}; the sum of its sources is `{common.sum_of(common.sources(common.below('ob0')))}`",
        "the machine": f"x86-64 Linux, {processor()}",
        "valgrind": version_of(["valgrind", "--version"], r"valgrind-(\S+)"),
        "Lua": version_of([OTHERS["Lua"], "-v"], r"Lua (\S+)"),
        "Python": version_of([OTHERS["Python"], "--version"], r"Python (\S+)"),
    }
    return "".join(f"- {name}: {text}\n" for name, text in lines.items())


def with_table(page: str, heading: str, new: str) -> str:
    """Returns the page with the plot and the table under a heading replaced."""
    name, title = plots.PLOTS[heading]
    region = plots.region(heading)
    common.match_of(region.pattern, page)
    return region.sub(lambda it: f"{it[1]}![{title}](pictures/{name})\n\n{new}", page, count=1)


def page_now() -> str:
    with open(PAGE, encoding="utf-8") as file:
        return file.read()


def draw() -> None:
    """Draws the plots from the page's tables, and writes them to docs/pictures."""
    for name, drawn in plots.drawn_of(page_now()).items():
        with open(os.path.join(TOP, "docs", "pictures", name), "w", encoding="utf-8") as file:
            file.write(drawn)


def main(words: List[str]) -> int:
    if words != ["--plots"]:
        # (a program that is compiled only to be tried checks each access, so it can't be counted)
        missing = [it for it in ("valgrind", *OTHERS.values(), BINARY) if not shutil.which(it)]
        if missing:
            common.stop(f"{', '.join(missing)} is missing: on Debian `apt-get install valgrind lua5.4 python3`, and `make build`")
        page = with_table(page_now(), plots.KEYS, table_of_keys(of_keys()))
        page = with_table(page, plots.RUNS, table_of_runs(of_runs()))
        page = COUNTED.sub(lambda it: it[1] + counted_with(), page)
        with open(PAGE, "w", encoding="utf-8") as file:
            file.write(page)
    draw()
    return 0


if __name__ == "__main__":
    sys.exit(main(sys.argv[1:]))
