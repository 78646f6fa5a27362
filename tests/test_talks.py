"""Runs the conversations of tests/inputs/talks.py through ob0-watch. Tests what it reports about each, and that it
changes no byte."""
from __future__ import annotations

import json
import os
import subprocess
import sys
from typing import Any, Dict, List

import harness
import holding
import talks
import watched
from framing import Incoming
from harness import EXIT, Message, did_change, did_close, did_open, frame, holds, need_program, notice, place, request
from harness import same, test, text_of
from homes import temporary, write
from talks import ACTION, LAYOUT, RENAME, Made, Talk

PUBLISHED = "textDocument/publishDiagnostics"


class Editor:
    """Plays an editor's steps of a conversation, against a server that the given command starts."""

    def __init__(self, talk: Talk, words: List[str], room: str) -> None:
        self.talk, self.room, self.uri = talk, room, talks.URI
        self.sent, self.out, self.came, self.idents = b"", b"", [], 0  # type: bytes, bytes, List[Message], int
        self.versions: Dict[str, int] = {}
        self.answer: Message = {}
        self.incoming = Incoming()
        self.process = subprocess.Popen(words, stdin=subprocess.PIPE, stdout=subprocess.PIPE, bufsize=0)

    def write(self, given: bytes) -> None:
        assert self.process.stdin
        self.sent += given
        left = memoryview(given)
        while left:
            left = left[self.process.stdin.write(left) :]

    def tell(self, *messages: harness.Content) -> None:
        for it in messages:
            self.write(frame(it))

    def read(self) -> bool:
        """Reads available bytes from the server. Returns False at the end of its output."""
        assert self.process.stdout
        came = os.read(self.process.stdout.fileno(), 1 << 16)
        self.out += came
        self.incoming.add(came)
        self.came += self.incoming.messages()
        return bool(came)

    def await_(self, ident: Any, count: int = 1) -> None:
        """Waits until `count` requests with this id are answered, and keeps the last answer."""
        while True:
            found = [it for it in self.came if "method" not in it and json.dumps(it.get("id")) == json.dumps(ident)]
            if len(found) >= count:
                self.answer = found[-1]
                return
            holds(self.read(), f"the server ended before it answered {ident!r}")

    def ask(self, method: str, params: Message, ident: Any = None) -> None:
        self.idents += 1
        ident = f"own {self.idents}" if ident is None else ident
        self.tell(request(ident, method, params))
        self.await_(ident)

    # the steps

    def at(self, uri: str) -> None:
        self.uri = uri

    def file(self, text: str) -> None:
        self.uri = "file://" + os.path.join(self.room, "m.ob0")
        self.replace(text)

    def replace(self, text: str) -> None:
        path = os.path.join(self.room, "m.ob0")
        write(path + ".new", text)
        os.replace(path + ".new", path)

    def open(self, text: str, version: int = 1) -> None:
        self.versions[self.uri], before = version, len(self.came)
        self.tell(did_open(text, self.uri, version))
        while not any(it.get("method") == PUBLISHED for it in self.came[before:]):
            holds(self.read(), "the server ended before it published diagnostics")

    def change(self, changes: Any, version: Any = None) -> None:
        self.versions[self.uri] = self.versions[self.uri] + 1 if version is None else version
        self.tell(did_change(changes, self.uri, self.versions[self.uri]))

    def close(self) -> None:
        self.tell(did_close(self.uri))

    def place(self) -> Message:
        return {"textDocument": {"uri": self.uri}, "position": place(*self.talk.place)}

    def rename(self, new: str = "total", ident: Any = None) -> None:
        self.ask(RENAME, {**self.place(), "newName": new}, ident)

    def actions(self) -> None:
        there = place(*self.talk.place)
        context: Message = {"diagnostics": [], "only": ["refactor"]}
        self.ask(ACTION, {**self.place(), "range": {"start": there, "end": there}, "context": context})

    def layout(self, options: Message = {}) -> None:  # pylint: disable=dangerous-default-value
        requested = {"tabSize": 2, "insertSpaces": True, **options}
        self.ask(LAYOUT, {"textDocument": {"uri": self.uri}, "options": requested})

    def make(self, how: Made = Made()) -> None:
        result = self.answer["result"]
        is_list = isinstance(result, list) and "edit" in result[0]
        edits = holding.edits_of(result[how.action]["edit"] if is_list else result)
        holds(edits, f"there is no edit to make in {self.answer}")
        in_order = reversed(edits) if how.is_reversed else edits
        changes = [{"range": lower(it["range"], how.lower), "text": it["newText"].replace("\n", how.end)} for it in in_order]
        changes = [*changes[: how.only], *how.more]
        for it in [[it] for it in changes] if how.is_apart else [changes]:
            self.change(it)

    def bytes(self, *pieces: bytes) -> None:
        for it in pieces:
            self.write(it)

    def exit(self) -> None:
        pass

    def play(self) -> int:
        """Plays all steps, and returns the server's exit status."""
        client = talks.CLIENT if self.talk.client is None else self.talk.client
        first = request(0, "initialize", {"processId": None, "capabilities": client, **self.talk.first})
        names = {"await": "await_", "write": "replace"}
        if self.talk.broken == "start":
            self.step(names, *self.talk.steps[0])
        self.tell(first)
        self.await_(0)
        self.tell(notice("initialized", {}))
        for step in self.talk.steps[self.talk.broken == "start" :]:
            self.step(names, *step)
        if self.talk.steps[-1] != ("exit",):
            self.ask("shutdown", {})
            self.tell(EXIT)
        while self.read():
            pass
        return self.process.wait(harness.SECONDS)

    def step(self, names: Dict[str, str], name: str, *more: Any) -> None:
        getattr(self, names.get(name, name))(*more)

    def end(self) -> None:
        if self.process.poll() is None:
            self.process.kill()
        self.process.wait()
        for pipe in (self.process.stdin, self.process.stdout):
            assert pipe
            pipe.close()


def lower(where: Message, count: int) -> Message:
    """Returns a range moved down by `count` lines."""
    return {end: place(at["line"] + count, at["character"]) for end, at in where.items()}


def reported(talk: Talk) -> None:
    """Plays a conversation through ob0-watch. Requires the expected report, and the bytes that the server itself
    writes."""
    with temporary() as room:
        report = os.path.join(room, "report")
        editor = Editor(talk, [sys.executable, watched.SCRIPT, "--report", report, "--", harness.BINARY, "serve"], room)
        try:
            status = editor.play()
        finally:
            editor.end()
        text = watched.complete(report)
        rows = [it.split(maxsplit=3) for it in text.splitlines()]
        found = [{it[2][:-1] for it in rows if it[1:2] == [kind]} for kind in ("BROKEN", "note")]
        names = f"{talk.name}:\n{text}\nthe rules that are broken, and the rules with notes"
        same(found, [{*talk.broken.split()}, {*talk.notes.split()}], names)
        direct = harness.serve(editor.sent)
        same((editor.out, status), (direct.out, direct.status), f"the server's output in {talk.name}, and its status")


@test("talks: ob0-watch reports each fault of an editor under its rule, unless the manual page excludes that fault")
def faulty() -> None:
    need_program()
    manual = " ".join(text_of("share", "ob0-watch.1").replace("\\-", "-").split())
    for talk in talks.FAULTS:
        reported(talk)
        holds(talk.manual in manual, f"the manual page doesn't say {talk.manual!r}")
        same(bool(talk.manual), not talk.broken, f"whether the manual page has to say something of {talk.name}")


@test("talks: ob0-watch reports nothing about unusual conversations that keep all rules")
def kept() -> None:
    need_program()
    for talk in talks.KEPT:
        reported(talk)


@test("talks: tests/inputs/talks.py contains 29 conversations with a fault and 25 that keep all rules")
def counted() -> None:
    names = [it.name for it in (*talks.FAULTS, *talks.KEPT)]
    same((len(talks.FAULTS), len(talks.KEPT), len({*names})), (29, 25, 54), "the conversations, and their names")
