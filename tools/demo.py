#!/usr/bin/env python3
"""Plays a conversation with the server, and prints the messages in both directions in readable form. It plays it with
bin/ob0 if that was proved and built from the present sources. Otherwise `rt try` compiles the program, which proves
nothing and takes one to three minutes. That program gets all messages at once, because `rt try` first reads its input
to the end."""
from __future__ import annotations

import json
import os
import subprocess
import sys
import tempfile
import time
from collections.abc import Iterator
from typing import Any

import common

sys.path.insert(0, os.path.join(common.TOP, "tests", "lib"))

import harness  # noqa: E402
from harness import EXIT, SHUTDOWN, Message, did_change, did_close, did_open, notice, place, request  # noqa: E402

URI = "file:///squares.mod"
GOOD = """MODULE Squares;
VAR n: INTEGER;
PROCEDURE Square(x: INTEGER; VAR y: INTEGER);
BEGIN y := x * x END Square;
BEGIN n := 7; Square(n, n); Write(n) END Squares.
"""
CHANGES = [
    ("a letter follows a number, and `$` isn't in the language: two errors", GOOD.replace("n := 7;", "n := 7x $;")),
    ("an operand is missing: one error, at its place", GOOD.replace("x * x", "x *")),
    ("a truth value is assigned to an INTEGER: one error, at its place", GOOD.replace("n := 7", "n := 7 = 7")),
    ("fixed: an empty list again", GOOD),
]
STEP = 15  # seconds between two lines while the program is compiled


def steps() -> Iterator[tuple[str, Message]]:
    """Yields the messages of the conversation, each with the line to print before it."""
    document = {"uri": URI}
    where: Message = {"position": place(4, 16), "textDocument": document}
    yield "the client begins", request(1, "initialize", {"capabilities": {}})
    yield "", notice("initialized", {})
    yield "the client opens a valid module: an empty list of diagnostics", did_open(GOOD, URI)
    for version, (what, text) in enumerate(CHANGES, 2):
        yield what, did_change(text, URI, version)
    yield "the name in line 4 at character 16: its declaration, and its uses", request(2, "textDocument/hover", where)
    yield "", request(3, "textDocument/references", {**where, "context": {"includeDeclaration": True}})
    yield "its renaming: three edits", request(4, "textDocument/rename", {**where, "newName": "Squared"})
    yield (
        "its renaming to a name that the module uses for something else: refused, with the place whose meaning would change",
        request(5, "textDocument/rename", {**where, "newName": "Write"}),
    )
    layout = {"textDocument": document, "options": {"tabSize": 2, "insertSpaces": True}}
    yield "formatting: one edit for each gap that changes", request(6, "textDocument/formatting", layout)
    yield "the client closes the document: its diagnostics are withdrawn", did_close(URI)
    yield "the client ends", {**SHUTDOWN, "id": 7}
    yield "", EXIT


def is_answered(message: Message) -> bool:
    return "id" in message or message["method"].startswith("textDocument/did")


class Live:
    """A server, bin/ob0, that answers one message at a time."""

    def __init__(self) -> None:
        self.server = harness.Server(silent=True)

    def answer(self, message: Message) -> Message | None:
        self.server.send(message)
        return self.server.take() if is_answered(message) else None

    def status(self) -> int:
        return self.server.process.wait(harness.SECONDS)


class Recorded:
    """The answers of a program that `rt try` compiled. The program gets all messages at once; `answer` returns one
    answer after another."""

    def __init__(self) -> None:
        found = tried([it for _, it in steps()])
        self.answers, self.ended = iter(map(json.loads, harness.unframed(found[0]))), found[1]

    def answer(self, message: Message) -> Message | None:
        return next(self.answers) if is_answered(message) else None

    def status(self) -> int:
        return self.ended


def tried(messages: list[Message]) -> tuple[bytes, int]:
    """Compiles the program without proving it, and runs it on these messages. Returns its output and exit status."""
    with tempfile.TemporaryFile() as given, tempfile.TemporaryFile() as out, tempfile.TemporaryFile() as err:
        given.write(harness.frames(messages))
        given.seek(0)
        how: dict[str, Any] = {"cwd": os.path.join(common.TOP, "crates", "ob0"), "stdin": given, "stdout": out, "stderr": err}
        timer, shown = common.Timer(), time.monotonic()
        with subprocess.Popen(["rt", "try", "--", "serve"], **how) as process:
            try:
                while process.poll() is None:
                    time.sleep(0.2)
                    if time.monotonic() - shown > STEP:
                        shown = time.monotonic()
                        print(f"[{timer}] compiling", flush=True)
            except KeyboardInterrupt:
                process.terminate()
                common.stop("interrupted", 130)
        err.seek(0)
        said = err.read().decode(errors="replace")
        if "run=ended" not in said:
            common.stop(f"`rt try` didn't run the program:\n{said[-2000:]}", 1)
        print(f"[{timer}] compiled and run", flush=True)
        out.seek(0)
        return out.read(), process.returncode


def lines_of(value: Any) -> list[str]:
    """Formats JSON in readable lines. A short value is on one line, and a string of several lines is printed as
    lines."""
    flat = json.dumps(value, ensure_ascii=False)
    if isinstance(value, str) and "\n" in value:
        return ['"', *("  | " + it for it in value.rstrip("\n").split("\n")), '"']
    if len(flat) <= 110 and ("\\n" not in flat or "newText" in flat) or not isinstance(value, (dict, list)):
        return [flat]
    pairs = [(f"{json.dumps(k)}: ", v) for k, v in value.items()] if isinstance(value, dict) else [("", v) for v in value]
    found = []
    for name, part in pairs:
        first, *others = lines_of(part)
        found += ["  " + name + first, *("  " + it for it in others)]
    return ["{", *found, "}"] if isinstance(value, dict) else ["[", *found, "]"]


def show(arrow: str, what: str, message: Message, parts: list[str]) -> None:
    """Prints a message: its direction and description, its length, and the first of the members `parts` that exists."""
    print(f"\n{arrow} {what}")
    print(f"    Content-Length: {len(json.dumps(message, separators=(',', ':'), ensure_ascii=False).encode())}")
    value: Any = next((message[it] for it in parts if it in message), ())
    for line in lines_of(value) if value != () else ():
        print(f"    {line}")


def say(text: str) -> None:
    print(f"\n== {text}", flush=True)


def play(server: Live | Recorded) -> int:
    """Plays the conversation, and returns the server's exit status."""
    for what, message in steps():
        if what:
            say(what)
        name = message["method"] + (f" (request {message['id']})" if "id" in message else "")
        show("-->", name, message, ["params"])
        found = server.answer(message)
        if found is not None:
            name = found.get("method") or f"answer to request {found['id']}"
            show("<--", name, found, ["params", "result", "error"])
    status = server.status()
    say(f"the server ended with status {status}")
    return status


def main() -> int:
    if common.is_current():
        print("The program is bin/ob0, which is proved.", flush=True)
        return play(Live())
    common.need("rt")
    print("The program is compiled by `rt try` and NOT PROVED: nothing checks its proofs here. This takes one to three minutes.", flush=True)
    status = play(Recorded())
    say("that was the program without its proofs")
    print(
        "`make build` proves every function and builds the program: about an hour on four processors. It prints\n"
        f"the crate that it proves, how many remain and the time so far, and writes the proved program to\n"
        f"{os.path.relpath(common.BINARY, os.getcwd())}. Then `make demo` plays the conversation with it, and `make install` installs it."
    )
    return status


if __name__ == "__main__":
    sys.exit(main())
