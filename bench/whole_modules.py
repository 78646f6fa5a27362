#!/usr/bin/env python3
"""Counts, in the program itself, after how many random changes the server binds or checks a whole module.

  bench/whole_modules.py [CHANGES]    this many changes, 10,000 by default, in conversations of 100

The conversations are the same as in the test of random changes. Callgrind counts the calls of the functions that scan a changed text, parse
it, bind all its names and check its types. These functions must not be inlined. The script fails if all types are checked again
after a quarter of the changes. It needs valgrind."""
from __future__ import annotations

import collections
import concurrent.futures
import os
import re
import stat
import sys
import tempfile
from typing import Counter, List

TOP = os.path.dirname(os.path.dirname(os.path.abspath(__file__)))
sys.dont_write_bytecode = True
sys.path[:0] = [os.path.join(TOP, it) for it in ("bench", "tools", "tests/lib", "tests/inputs")]

from counting import lacks  # noqa: E402

# The functions whose calls are counted, and what a call does.
COUNTED = {
    "rescan_in_place": "scanned after the change",
    "reparse_tree": "parsed",
    "bindings_of": "bound as a whole",
    "check_result_from_report": "checked",
    "check_result_walking_bodies": "checked in some bodies, or in all if more than 32 have a fault",
}
CALLED = re.compile(r"cfn=(.*)|calls=(\d+)")


def wrapper(room: str) -> str:
    """Writes a script that runs the program under callgrind, and returns its path. Each run leaves its counts in a
    separate file."""
    program = os.path.abspath(os.environ.get("OB0") or os.path.join(TOP, "bin", "ob0"))
    callgrind = f"valgrind --quiet --tool=callgrind --compress-strings=no --callgrind-out-file='{room}/%p.calls'"
    path = os.path.join(room, "counted")
    with open(path, "w", encoding="utf-8") as out:
        out.write(f"#!/bin/sh\nexec {callgrind} '{program}' \"$@\"\n")
    os.chmod(path, stat.S_IRWXU)
    return path


def calls_in(path: str) -> Counter[str]:
    """Returns how often a run called each of the functions in COUNTED."""
    found: Counter[str] = collections.Counter()
    name = ""
    with open(path, encoding="utf-8", errors="replace") as lines:
        for line in lines:
            called = CALLED.match(line)
            if called and called[1] is not None:
                name = called[1].partition("'")[0].rpartition("::")[2]
            elif called and name in COUNTED:
                found[name] += int(called[2])
    return found


def converse_all(count: int, room: str) -> tuple[Counter[str], list[Counter[str]]]:
    """Makes `count` random changes. Returns how many changes were of each kind, and the calls that each server counted.
    Servers that got no changes are left out."""
    os.environ["OB0"] = wrapper(room)
    import random_changes  # pylint: disable=import-outside-toplevel  # (the tests read OB0 when they are loaded)

    kinds: Counter[str] = collections.Counter()
    with concurrent.futures.ProcessPoolExecutor(len(os.sched_getaffinity(0))) as pool:
        for it in pool.map(random_changes.converse, random_changes.seeds_of(count, 0)):
            kinds.update(it)
    runs = [calls_in(it.path) for it in os.scandir(room) if it.name.endswith(".calls")]
    # (the other servers, with which these are compared, read each text for the first time)
    return kinds, [it for it in runs if it["rescan_in_place"]]


def main(words: List[str]) -> int:
    missing = lacks("valgrind")
    if missing:
        print(missing)
        return 1
    count = int(words[0]) if words else 10_000
    with tempfile.TemporaryDirectory() as room:
        kinds, runs = converse_all(count, room)
    import ways  # pylint: disable=import-outside-toplevel

    print(f"{count:,} changes in {len(runs):,} conversations, each of which begins with one text that is read from scratch")
    for name, what in COUNTED.items():
        print(f"  {sum(it[name] for it in runs):>9,} texts {what} ({name})")
    # (each conversation begins with a text that is bound and checked from scratch)
    bound, all_checked, in_some = (sum(it[name] for it in runs) for name in ("bindings_of", *[*COUNTED][-2:]))
    bound, checked = bound - len(runs), all_checked - in_some - len(runs)
    by_texts = sum(kinds[it] for it in ways.LONG)
    print(f"  {bound:>9,} changes after which all names are bound again ({by_texts:,} by the texts, as the tests count)")
    print(f"  {checked:>9,} changes after which all types are checked again")
    return 0 if checked * 4 < count else 1


if __name__ == "__main__":
    sys.exit(main(sys.argv[1:]))
