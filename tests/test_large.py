"""Tests `serve` on the largest accepted inputs, and `check` on the texts among them: the results are correct, and
nothing is refused."""
from __future__ import annotations

from collections.abc import Callable

import largest_inputs
from harness import holds, lines_of, on_file, same, serve, test


def make(name: str, size: int, messages: Callable[[int], largest_inputs.Talk]) -> None:
    @test(f"large: `serve` sends the expected messages for {size:,} {name}")
    def answered() -> None:
        given, wanted = largest_inputs.conversation(messages, size)
        found = serve(given)
        same((found.err, found.status), (b"", 0), "the end")
        same(found.contents(), wanted, "what was sent")


for key, (full, of_size) in largest_inputs.CASES.items():
    make(key, full, of_size)


@test("large: `check` prints the expected errors of each of the largest texts")
def checked() -> None:
    for name, (size, text_of, wanted) in largest_inputs.TEXTS.items():
        text, diagnostics = text_of(size), wanted(size)
        holds(len(text) <= largest_inputs.MIB, f"{name}: {len(text)} bytes")
        found = on_file("check", text)
        same((found.out, found.err, found.status), (lines_of(diagnostics), b"", 1 if diagnostics else 0), name)
