"""Compares the program with the reference implementation on random texts and runs. tests/lib/seeds.py chooses the
random numbers."""
from __future__ import annotations

import random
import re
from collections.abc import Callable, Iterator
from typing import Any

import corpus
import faulty_modules
import random_texts
from against_reference import MAKERS, counted, run_of, same_diagnostics
from harness import Message, Server, did_open, extent, place, same, test
from random_texts import LEXEME
from reference import edits, layout, questions
from reference.runs import Run
from reference.edits import Edit, Refusal
from reference.text import Span, Text
from seeds import COUNT, named, seeds

URI = "file:///m"


def compare(kind: str, count: int) -> None:
    with Server() as server:
        for seed in seeds(count):
            same_diagnostics(server, MAKERS[kind](seed), seed)


@test("random: diagnostics of modules with a few changed lexemes equal the reference implementation's")
def lexemes() -> None:
    compare("lexemes changed", COUNT)


@test("random: diagnostics of modules with a few changed names and operators equal the reference implementation's")
def names() -> None:
    compare("names and operators changed", COUNT)


@test("random: diagnostics of modules with few names and many errors equal the reference implementation's")
def few_names() -> None:
    compare("few names", 2 * COUNT)


@test("random: diagnostics of texts made of few different characters equal the reference implementation's")
def few_characters() -> None:
    compare("few characters", 3 * COUNT)


def answers_at(server: Server, found: Text, at: int, where: str) -> None:
    """Requires hover, definition and references at an offset of a text to answer as the reference does."""
    span, shown, declared, places = questions.at_place(found, at) or (None, None, None, [])
    ranges: Callable[[Span], Message] = lambda it: extent("{}:{}-{}:{}".format(*found.position(it[0]), *found.position(it[1])))
    params: Message = {"position": place(*found.position(at)), "textDocument": {"uri": URI}}

    def result(method: str, **more: object) -> Any:
        return server.query(f"textDocument/{method}", {**params, **more})["result"]

    for include in (True, False):
        got = result("references", context={"includeDeclaration": include})
        same([it["range"] for it in got], [ranges(it) for it in places if include or it != declared], f"{where}: references")
    same(result("definition"), declared and {"range": ranges(declared), "uri": URI}, f"{where}: definition")
    contents = {"kind": "plaintext", "value": shown}
    same(result("hover"), span and {"contents": contents, "range": ranges(span)}, f"{where}: hover")


@test("random: hover, definition and references at random positions give the reference implementation's answers")
def questions_anywhere() -> None:
    with Server() as server:
        for seed in seeds(max(1, COUNT // 30)):
            text = corpus.module(900, seed)
            found, chance = Text(text), random.Random(seed)
            server.notify(did_open(text))
            selected = [it[0].start for it in found.fields]
            for at in [*(chance.randrange(len(text)) for _ in range(60)), *chance.sample(selected, min(10, len(selected)))]:
                answers_at(server, found, at, f"{named(seed)}, at {found.position(at)}")


@test("random: hover, definition and references at fields of records give the reference implementation's answers")
def declared_fields() -> None:
    with Server() as server:
        for seed in seeds(COUNT // 3):
            text = faulty_modules.records(seed)
            found = Text(text)
            same_diagnostics(server, text, seed)
            if found.is_well_typed:
                for it, _, _ in found.fields:
                    answers_at(server, found, it.start, f"{named(seed)}, at {found.position(it.start)} of\n{text}\n")


@test("random: random modules have the same output and end as in the reference interpreter")
def runs() -> None:
    print("    " + counted(run_of(random_texts.program, seed) for seed in seeds(COUNT)))


@test("random: modules that copy and pass arrays and records have the output and end of the reference interpreter")
def aliased_runs() -> None:
    print("    " + counted(run_of(random_texts.aliased, seed) for seed in seeds(COUNT)))


@test("random: modules with counting loops have the same output and end as in the reference interpreter")
def counting_runs() -> None:
    print("    " + counted(run_of(random_texts.counting, seed) for seed in seeds(COUNT)))


def spread(found: Text, changes: list[Edit]) -> list[Message]:
    """Converts edits with offsets to LSP edits, as the server would write them."""
    places = [(found.position(start), found.position(end), new) for start, end, new in changes]
    return [{"newText": new, "range": {"end": place(*end), "start": place(*start)}} for start, end, new in places]


def refusal(found: Text, refused: Refusal) -> str:
    name, where = refused
    return name + (" {}:{}-{}:{}".format(*found.position(where[0]), *found.position(where[1])) if where else "")


def keeps_runs(before: str, after: str, seed: int) -> None:
    bounds: list[tuple[list[int], int, int]] = [([], 2, 2), ([7, -1, 0], 3, 1)]
    for given, calls, turns in bounds:
        first, second = ((run.output(), run.end) for run in (Run(it, given, calls, turns) for it in (before, after)))
        same(first, second, f"{named(seed)}, the run of\n{before}\nand of\n{after}")


def modules(count: int) -> Iterator[tuple[int, random.Random, str, Text]]:
    for seed in seeds(max(1, count)):
        chance = random.Random(f"edit {seed}")
        text = random_texts.program(seed)[0] if chance.random() < 0.7 else corpus.module(900, seed, True)
        yield seed, chance, text, Text(text)


@test("random: renames equal the reference implementation's, and don't change the module's output and end")
def renames() -> None:
    with Server() as server:
        for seed, chance, text, found in modules(COUNT // 10):
            server.notify(did_open(text, URI))
            words = [it for it in LEXEME.finditer(text) if re.match("[A-Za-z]", it[0])]
            for _ in range(12):
                where, new = chance.choice(words).start(), chance.choice([chance.choice(words)[0], "fresh", "x", "1a"])
                wanted_ = edits.rename(text, where, new)
                params = {"newName": new, "position": place(*found.position(where)), "textDocument": {"uri": URI}}
                got, what = server.query("textDocument/rename", params), f"{named(seed)}, {found.position(where)} to {new}, of\n{text}\n"
                if isinstance(wanted_, tuple):
                    same(got.get("error"), {"code": -32803, "message": refusal(found, wanted_)}, what)
                else:
                    same(got.get("result"), {"changes": {URI: spread(found, wanted_)}}, what)
                    keeps_runs(text, edits.patched(text, wanted_), seed)


@test("random: inlinings equal the reference implementation's, and don't change the module's output and end")
def inlining() -> None:
    with Server(capabilities={"textDocument": {"codeAction": {"codeActionLiteralSupport": {}}}}) as server:
        for seed, chance, text, found in modules(COUNT // 10):
            server.notify(did_open(text, URI))
            words = [it for it in LEXEME.finditer(text) if re.match("c[0-9]|base|v1|TRUE", it[0])]
            for _ in range(6):
                where = chance.choice(words).start()
                answers = [(title, edits.inline(text, where, title == "Inline everywhere")) for title in ("Inline here", "Inline everywhere")]
                at = place(*found.position(where))
                params = {"context": {}, "range": {"end": at, "start": at}, "textDocument": {"uri": URI}}
                got = server.query("textDocument/codeAction", params)["result"]
                wanted_ = [
                    {"edit": {"changes": {URI: spread(found, changes)}}, "kind": "refactor.inline", "title": title}
                    for title, changes in answers
                    if isinstance(changes, list)
                ]
                same(got, wanted_, f"{named(seed)}, {found.position(where)} of\n{text}\n")
                for _, it in answers:
                    if isinstance(it, list):
                        keeps_runs(text, edits.patched(text, it), seed)


@test("random: formatting makes the same edits as the reference implementation")
def formatting() -> None:
    with Server() as server:
        for seed, chance, text, _ in modules(COUNT // 5):
            text = random_texts.squeezed(text, chance)
            found = Text(text)
            if found.faults:
                continue
            server.notify(did_open(text, URI))
            size, spaces = chance.choice([0, 1, 2, 4, 16, 17]), chance.random() < 0.7
            wanted_ = layout.layout(text, " " * min(16, max(1, size)) if spaces else "\t")
            params = {"options": {"insertSpaces": spaces, "tabSize": size}, "textDocument": {"uri": URI}}
            got = server.query("textDocument/formatting", params)["result"]
            same(got, spread(found, wanted_), f"{named(seed)} of\n{text}\n")
