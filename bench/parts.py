#!/usr/bin/env python3
"""Counts the instructions of a change in each part of the server, for changes in the middle of a text of 1 MB.

  bench/parts.py    counts on bin/ob0 (or on the program that the variable OB0 names)

callgrind counts the instructions of each function. A function belongs to the part of its crate, and an inlined function to the part
of its caller. Callgrind counts a copy of memory by its bytes."""
from __future__ import annotations

import os
import sys
import tempfile
from typing import Dict, List

sys.dont_write_bytecode = True
HERE = os.path.dirname(os.path.abspath(__file__))
sys.path[:0] = [HERE, os.path.join(os.path.dirname(HERE), "tests", "lib")]

from harness import BINARY, frames  # noqa: E402 (it knows the folders of the scripts)

import common  # noqa: E402
import corpus  # noqa: E402
import counting  # noqa: E402
import keys  # noqa: E402
from framing import Message  # noqa: E402
from report import CHANGES  # noqa: E402

# the parts, and how the names of their functions begin
PARTS = {
    "comparing both texts": ("core::cmp::", "ob0_analysis::differences"),
    "tokens": ("ob0_scan::",),
    "trees": ("ob0_parse", "ob0_tree"),
    "names": ("ob0_scope",),
    "declarations and types": ("ob0_types",),
    "memory": ("__mem", "_int_", "alloc", "free", "malloc", "realloc", "rattle_", "std_alloc::", "sys", "unlink_chunk"),
    "the rest": ("",),
}


def part_of(name: str) -> str:
    return next(part for part, begins in PARTS.items() if name.startswith(begins))


def counted(messages: List[Message]) -> Dict[str, int]:
    """Returns how many instructions each part of the server executes for a conversation."""
    with tempfile.TemporaryFile() as file:
        file.write(frames(keys.conversation(messages)))
        file.seek(0)
        found = dict.fromkeys(PARTS, 0)
        for name, count in counting.instructions_by_function([BINARY, "serve"], file).items():
            found[part_of(name)] += count
    return found


def main() -> int:
    for command in ("valgrind", BINARY):
        if counting.lacks(command):
            common.stop(f"{counting.lacks(command)}")
    text = corpus.module(keys.SIZES[-1])
    for name, (pattern, letter) in CHANGES.items():
        few, many, times = keys.in_and_out(text, pattern, letter)
        less, more = counted(few), counted(many)
        print(f"{name}, in {len(text):,} bytes")
        for part in PARTS:
            print(f"  {part:<30}{(more[part] - less[part]) // times:>14,}", flush=True)
    return 0


if __name__ == "__main__":
    sys.exit(main())
