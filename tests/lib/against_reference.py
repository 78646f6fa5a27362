"""Compares the program with the reference implementation (share/ob0/reference): the diagnostics of a text, and runs."""
from __future__ import annotations

import collections
import concurrent.futures
from collections.abc import Callable, Iterable
from typing import Dict, List

import faulty_modules
import random_texts
from harness import MESSAGES, Failed, Message, Server, diagnostic, did_open, holds, on_file, same
from reference.parser import Node
from reference.runs import Activation, Run
from reference.text import Text
from reference.values import Ends
from seeds import named
from shrinking import fail_shortly

LONG = "ended here, since it takes long"


def diagnostics_of(text: str) -> list[Message]:
    """Returns the reference's diagnostics of a text."""
    found = Text(text)
    return [
        diagnostic(code, message or MESSAGES[code], "{}:{}-{}:{}".format(*found.position(start), *found.position(end)))
        for code, start, end, message in found.faults
    ]


def same_diagnostics(server: Server, text: str, seed: int) -> None:
    """Compares the diagnostics that the server publishes for a text with the reference's. If they differ, fails on a
    text that was made as short as possible."""
    try:
        same(server.notify(did_open(text)), diagnostics_of(text), f"{named(seed)}, of the text\n{text}\n")
    except Failed:
        fail_shortly(text, lambda shorter: same_by_another(shorter, seed))
        raise


def same_by_another(text: str, seed: int) -> None:
    """Compares the diagnostics of a new server, which has seen no other text, with the reference's."""
    with Server() as server:
        same(server.notify(did_open(text)), diagnostics_of(text), f"{named(seed)}, of a text made shorter\n{text}\n")


MAKERS: Dict[str, Callable[[int], str]] = {
    "lexemes changed": lambda seed: random_texts.changed_module(seed, False),
    "names and operators changed": lambda seed: random_texts.changed_module(seed, True),
    "few names": faulty_modules.module,
    "few characters": random_texts.characters,
}


def compare(seeds: Iterable[int]) -> int:
    """Compares the diagnostics of one text for each seed with the reference's. All kinds of texts take turns. Returns
    how many texts had errors."""
    makers, faulty = list(MAKERS.values()), 0
    with Server() as server:
        for seed in seeds:
            text = makers[seed % len(makers)](seed)
            same_diagnostics(server, text, seed)
            faulty += bool(Text(text).faults)
    return faulty


def many_texts(count: int, first: int, processes: int) -> str:
    """Compares the diagnostics of `count` texts with the reference's, in several processes. Returns a line of
    statistics."""
    size = 200
    parts = [range(at, min(at + size, first + count)) for at in range(first, first + count, size)]
    with concurrent.futures.ProcessPoolExecutor(processes) as pool:
        faulty = sum(pool.map(compare, parts))
    return f"{count:,} texts; {faulty:,} of them with errors"


class Short(Run):
    """A run of the reference implementation that gives up after 20,000 statements."""

    steps = 0

    def statement(self, node: Node, frame: Activation) -> None:
        self.steps += 1
        if self.steps > 20000:
            raise Ends(LONG)
        return super().statement(node, frame)


def run_of(make: Callable[[int], random_texts.Program], seed: int) -> str:
    """Compares a run of the program that `make` generates from this seed with the reference's. Returns how the run
    ended. If they differ, fails on a program that was made as short as possible."""
    text, given, calls, turns = make(seed)
    try:
        return end_of(text, given, calls, turns, seed)
    except Failed:
        fail_shortly(text, lambda shorter: Text(shorter).is_well_typed and end_of(shorter, given, calls, turns, seed))
        raise


def end_of(text: str, given: List[int], calls: int, turns: int, seed: int) -> str:
    """Compares the program's run of a module with the reference's, on the input `given` and with these limits. Returns
    how the run ended, or LONG if the reference gave up."""
    found = Short(text, given, calls, turns)
    if found.end == LONG:
        return LONG
    got = on_file("run", text, "--calls", str(calls), "--turns", str(turns), given=" ".join(map(str, given)).encode())
    err = "" if found.end == "Done" else f"fault: {found.end}\n"
    result = (found.output(), err, 1 if err else 0)
    same((got.out.decode(), got.err.decode(), got.status), result, f"{named(seed)}, input {given}, {calls} calls, {turns} turns, of\n{text}\n")
    return found.end


def counted(found: Iterable[str]) -> str:
    """Returns a line that says how many runs ended in each way. Fails if more than half of the runs were too long to
    compare."""
    counts = collections.Counter(found)
    holds(2 * counts[LONG] <= sum(counts.values()), f"too few runs were compared: {counts}")
    return "; ".join(f"{counts[name]:,} with `{name}`" for name in sorted(counts))


def of_some_kind(seed: int) -> str:
    kinds = [random_texts.program, random_texts.aliased, random_texts.counting, random_texts.aliased]
    return run_of(kinds[seed % 4], seed)


def many_runs(count: int, first: int, processes: int) -> str:
    """Compares `count` runs with the reference's, in several processes. Half of the programs pass and copy arrays and
    records, and a quarter contain counting loops. Returns a line of statistics."""
    with concurrent.futures.ProcessPoolExecutor(processes) as pool:
        ends = list(pool.map(of_some_kind, range(first, first + count), chunksize=50))
    return f"{len(ends) - ends.count(LONG):,} runs; {counted(ends)}"
