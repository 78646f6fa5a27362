"""Tests the modules of examples/: each is valid and formatted. On the numbers of its file .in it prints the text of its
file .out, and it ends with the fault of its file .err, if it has one. (The outputs weren't made with ob0.)"""
from __future__ import annotations

import os

from harness import TOP, Server, did_open, ends, examples, holds, names_in, run, same, test, text_of


def bytes_of(*path: str) -> bytes:
    with open(os.path.join(TOP, *path), "rb") as file:
        return file.read()


@test("examples: at least twelve examples exist, each with a file of inputs and a file of outputs")
def dozen() -> None:
    holds(len(examples()) >= 12, f"there are {len(examples())}")
    faults = [f"{it[:-4]}.err" for it in examples() if os.path.basename(it).startswith("Fault")]
    wanted = sorted([f"{it[:-4]}{end}" for it in examples() for end in (".in", ".mod", ".out")] + faults)
    same(sorted(os.path.join("examples", it) for it in names_in("examples") if it not in ("README.md", "exercises")), wanted)


@test("examples: each example is valid, and runs with its expected output, status and fault")
def run_each() -> None:
    for path in examples():
        ends(run(["check", os.path.join(TOP, path)]), "", 0)
        fault = bytes_of(f"{path[:-4]}.err") if os.path.basename(path).startswith("Fault") else b""
        ends(run(["run", os.path.join(TOP, path)], bytes_of(f"{path[:-4]}.in")), bytes_of(f"{path[:-4]}.out"), 1 if fault else 0, fault)


@test("examples: formatting leaves each example unchanged")
def laid_out() -> None:
    with Server() as server:
        for path in examples():
            same(server.notify(did_open(text_of(path), uri=f"file:///{path}")), [], path)
            options = {"textDocument": {"uri": f"file:///{path}"}, "options": {"tabSize": 2, "insertSpaces": True}}
            same(server.query("textDocument/formatting", options).get("result"), [], path)
