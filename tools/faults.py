#!/usr/bin/env python3
"""Runs the tests that take longer than the end-to-end tests may: each allocation fails, one at a time, in longer
conversations and commands, and in the tests of the crates that are made for it (`a_refused_..`); one long conversation;
many random changes of documents; many random texts, checked by the program and by the reference; many random modules,
run by both; one long conversation about several documents, each answer compared with a new server's; many changes by
keys in editors.

  tools/faults.py [WORD..]   only the tests whose name contains one of these words

It runs bin/ob0 (or the program in the variable OB0) and the programs of tests that `make test` or `rt test` left in
crates/NAME/out. Five variables set how much is tried:

  OB0_LONG     messages of each long conversation (100,000)
  OB0_CHANGES  random changes (20,000)
  OB0_TEXTS    random texts (20,000)
  OB0_RUNS     random modules (20,000)
  OB0_WALK     about how many allocations of one test fail (10,000); if there are more, each second, third and so on

If these are at least as large as given here, the results of the cases in tools/figures.txt are written there, and a
test compares docs/ROBUSTNESS.md with them. The last line is 'N passed, M failed', and ', K skipped' if a tool was
missing. A run of nothing fails."""
from __future__ import annotations

import functools
import os
import sys
import time
from collections.abc import Callable, Iterator

import common
import figures
from common import TOP

sys.dont_write_bytecode = True
sys.path.insert(0, os.path.join(TOP, "tests", "lib"))

import harness  # noqa: E402
import against_reference  # noqa: E402
import conversations  # noqa: E402
import failing  # noqa: E402
import long_conversation  # noqa: E402
import random_changes  # noqa: E402
import refused_tests  # noqa: E402
import several_documents  # noqa: E402
import test_editors  # noqa: E402

COUNTS = {"OB0_WALK": 10000, "OB0_LONG": 100000, "OB0_TEXTS": 20000, "OB0_CHANGES": 20000, "OB0_RUNS": 20000}
WALK, LONG, TEXTS, CHANGES, RUNS = (int(os.environ.get(name, count)) for name, count in COUNTS.items())
KEYED_CHANGES = 200  # the number of changes by keys, in each editor and kind of file
SEED = int(os.environ.get("OB0_SEED", "0"))


def walked(key: str) -> str:
    counts = failing.refused(key, *{**conversations.SHORT, **conversations.LONG}[key])
    ended = f"{counts['refused']:,} ended with status 5; {counts['undisturbed']:,} ended as if nothing had been refused"
    return f"{sum(counts.values()):,} runs; {ended}"


def on_devices(does: Callable[..., int]) -> str:
    talks = {**conversations.SHORT, **conversations.LONG}
    return figures.summed([f"{does(key, *case[:3]):,}" for key, case in talks.items()])


def checks_of(crate: str) -> list[tuple[str, Callable[[], str]]]:
    try:
        return list(refused_tests.checks(crate, WALK))
    except harness.Skipped as why:
        return [("all tests", functools.partial(harness.leave_out, str(why)))]


def all_of_it() -> Iterator[tuple[str, Callable[[], str]]]:
    """Yields all cases, each as a name and a function that runs the case and returns a line with its figures."""
    for key in (*conversations.SHORT, *conversations.LONG):
        yield f"refused memory: {key}", functools.partial(walked, key)
    for crate in refused_tests.CRATES:
        for name, does in checks_of(crate):
            # (the last case compares the runs of two others)
            yield f"refused memory, {crate}{'' if '::' in name else ', compared'}: {name}", does
    yield "devices: each read and each write fails", functools.partial(on_devices, failing.broken)
    yield "devices: each read and each write moves one byte", functools.partial(on_devices, failing.shortened)
    yield f"a long conversation: {LONG:,} messages", lambda: long_conversation.converse(LONG)
    yield f"random changes: {CHANGES:,}", lambda: random_changes.many_changes(CHANGES, SEED, failing.PROCESSORS)
    yield f"a long conversation about several documents: {LONG:,} messages", lambda: several_documents.converse(LONG, SEED)
    yield f"random texts: {TEXTS:,}", lambda: against_reference.many_texts(TEXTS, SEED, failing.PROCESSORS)
    for editor, text, name in test_editors.changes_by_keys():
        yield name, functools.partial(test_editors.every_change, editor[0], KEYED_CHANGES, SEED, text, *editor[1:])
    yield f"random runs: {RUNS:,} modules", lambda: against_reference.many_runs(RUNS, SEED, failing.PROCESSORS)


def keep(lines: dict[str, str]) -> None:
    """Writes the figures of the cases in `lines` to tools/figures.txt. A row there that stands for a group of cases
    (the words before the colon) is only written if every case of the group has a line."""
    kinds: dict[str, list[str]] = {}
    for name, _ in all_of_it():
        for kind in {name, name.partition(": ")[0]}:
            kinds.setdefault(kind, []).append(name)
    known = figures.rows()
    found = {kind: [lines[it] for it in names] for kind, names in kinds.items() if kind in known and all(it in lines for it in names)}
    figures.keep({kind: its[0] if len(its) == 1 else figures.summed(its) for kind, its in found.items()}, harness.BINARY)


def main(words: list[str]) -> int:
    passed = failed = skipped = 0
    lines: dict[str, str] = {}
    for name, does in all_of_it():
        if words and not any(it in name for it in words):
            continue
        start = time.monotonic()
        try:
            found = does()
        except harness.Skipped as why:
            print(f"left out {name}: {why}", flush=True)
            skipped += 1
            continue
        except harness.Failed as why:
            print(f"FAILED   {name}\n    {why}", flush=True)
            failed += 1
            continue
        print(f"ok       {name}: {found} ({time.monotonic() - start:.1f} s)", flush=True)
        passed += 1
        lines[name] = found
    if not SEED and all(int(os.environ.get(name, count)) >= count for name, count in COUNTS.items()):
        keep(lines)
    if not passed + failed:
        print("nothing was run")
        failed = 1
    print(f"{passed} passed, {failed} failed" + (f", {skipped} skipped" if skipped else ""))
    return 1 if failed else 0


if __name__ == "__main__":
    if not os.access(harness.BINARY, os.X_OK):
        common.stop(f"there is no program {os.path.relpath(harness.BINARY)}: make it with `make build`")
    sys.exit(main(sys.argv[1:]))
