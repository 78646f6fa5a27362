"""Tests that the program, the framer and the worlds survive failing allocations: each allocation fails once by itself,
and once with all later ones.

The tests of the framer and of the worlds of an editor and a server are in the crates. `make faults` does the same in
longer conversations and in the other tests of the crates."""
from __future__ import annotations

import conversations
import failing
import refused_tests
from harness import holds, test


def make(name: str, case: conversations.Case) -> None:
    @test(f"refused memory: if an allocation fails in {name}, ob0 ends as usual or with `fault: Memory`")
    def walk() -> None:
        failing.refused(name, *case)


for key, given in conversations.SHORT.items():
    make(key, given)


def make_of_crate(what: str, crate: str, *modules: str) -> None:
    @test(f"refused memory: {what} pass even if one of their allocations fails")
    def walk_tests() -> None:
        found = list(refused_tests.checks(crate, 20000))
        for module in modules:
            holds(any(f"::{module}::" in f"::{name}" for name, _ in found), f"no test of {module} is among {found}")
        for _, does in found:
            does()


make_of_crate("the tests of the framer, of documents and of texts", "ob0_tests_low", "frame")
make_of_crate("the tests of sessions, and of an editor together with a server,", "ob0_tests_world", "session", "world")
