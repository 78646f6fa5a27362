"""Tests that the deepest accepted texts fit a stack of 4 MiB, whatever constructs they mix."""
from __future__ import annotations

import json
import os
import random
from collections.abc import Callable

import nested_modules
from harness import EXIT, Message, SHUTDOWN, did_open, ends, frames, initialize, on_file, place, same, serve, test

USUAL = 400
MIXES = int(os.environ.get("OB0_MIXES", USUAL))
STACK = 4096  # kilobytes, half of what systems give


def diagnosed(texts: list[str]) -> list[list[Message]]:
    """Returns the diagnostics of each text, all from one server with a stack of 4 MiB."""
    talk = frames([initialize(), *(did_open(it, version=at) for at, it in enumerate(texts)), SHUTDOWN, EXIT])
    found = serve(talk, stack=STACK)
    same((found.err, found.status), (b"", 0), "the end")
    sent = [json.loads(it) for it in found.contents()]
    same(len(sent), len(texts) + 2, "the number of messages")
    return [it["params"]["diagnostics"] for it in sent[1:-1]]


def of_syntax(diagnostics: list[Message]) -> list[Message]:
    return [it for it in diagnostics if it["code"] in ("Syntax", "TooDeep")]


def reported_too_deep(text: str, at: int) -> Message:
    ends = next(end for end in range(at + 1, len(text)) if not (text[at].isalpha() and text[end].isalpha()))
    where = {"end": place(0, ends), "start": place(0, at)}
    return {"code": "TooDeep", "message": "nested too deep", "range": where, "severity": 1}


def texts(depth: int) -> dict[str, tuple[str, int]]:
    found = {f"{depth} of {it}": nested_modules.of_one(it, depth) for it in nested_modules.REPEATED}
    found.update({f"mix {seed} of {depth}": nested_modules.mixed(seed, depth) for seed in range(MIXES)})
    return found


@test("nesting: 100 levels of each construct, and of mixed constructs, are accepted with a stack of 4 MiB")
def hundred() -> None:
    made = texts(100)
    for (name, (text, _)), found in zip(made.items(), diagnosed([text for text, _ in made.values()])):
        same(of_syntax(found), [], f"{name}: {text}")


@test("nesting: at 101 levels of one construct or of mixed constructs, TooDeep is reported at the innermost one")
def hundred_and_one() -> None:
    made = texts(101)
    for (name, (text, at)), found in zip(made.items(), diagnosed([text for text, _ in made.values()])):
        same(found, [reported_too_deep(text, at)], f"{name}: {text}")


@test("nesting: 20,000 levels of each construct are reported as TooDeep with a stack of 4 MiB")
def far() -> None:
    made = [nested_modules.of_one(it, 20000)[0] for it in nested_modules.REPEATED]
    for text, found in zip(made, diagnosed(made)):
        same([it["code"] for it in found], ["TooDeep"], text[:60])


def always(one: nested_modules.Entered) -> Callable[[], nested_modules.Entered]:
    return lambda: one


def any_of(chance: random.Random) -> Callable[[], nested_modules.Entered]:
    return lambda: chance.choice(nested_modules.ENTERED)


def chosen() -> dict[str, Callable[[], nested_modules.Entered]]:
    """Returns functions that choose a statement to nest: for each statement one that always chooses it, and some that
    choose at random."""
    found: dict[str, Callable[[], nested_modules.Entered]] = {}
    for one in nested_modules.ENTERED:
        found[one[0]] = always(one)
    for seed in range(MIXES // 40):
        found[f"mix {seed}"] = any_of(random.Random(f"calls {seed}"))
    return found


@test("nesting: a run with 64 open calls, each inside 100 nested constructs, fits a stack of 4 MiB")
def calls() -> None:
    for name, choose in chosen().items():
        text, out = nested_modules.recursive(64, choose)
        ends(on_file("run", text, stack=STACK), out, 0)
        same(len(out.split()), 65, f"the numbers that are written: {name}")
        text, out = nested_modules.recursive(65, choose)
        ends(on_file("run", text, stack=STACK), out.rsplit(" ", 2)[0], 1, "fault: CallBound\n")


@test("nesting: a run with 64 open calls of procedures that are declared inside one another fits a stack of 4 MiB")
def inward() -> None:
    for choose in chosen().values():
        text, out = nested_modules.inward(64, choose)
        ends(on_file("run", text, stack=STACK), out, 0)


@test("nesting: calls inside 100 nested constructs are accepted, and calls inside 101 are reported as TooDeep")
def calls_within() -> None:
    choose: Callable[[], nested_modules.Entered] = lambda: nested_modules.ENTERED[0]
    for text, _ in (nested_modules.recursive(64, choose), nested_modules.inward(64, choose)):
        ends(on_file("check", text), "", 0)
        deeper = text.replace("BEGIN ", "BEGIN IF TRUE THEN ", 1).replace(" END P;", " END END P;").replace(" END p64;", " END END p64;")
        found = on_file("check", deeper)
        same((found.status, found.out.split(b": ")[1:2]), (1, [b"TooDeep"]), deeper)
