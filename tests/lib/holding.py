#!/usr/bin/env python3
"""Runs between an editor and a language server: records their messages, and can delay an answer.
  holding.py FOLDER PROGRAM [WORD..]
FOLDER/wire gets a line of JSON for each event: {"sent": MESSAGE} by the editor, {"answered": MESSAGE} by the server,
{"held": ID}, {"released": ID}. While the file FOLDER/hold contains the name of a method, the answer to such a request
is delayed until that file is removed, and so is everything that the server sends after it. `Wire` reads the record, and
delays and releases answers."""
from __future__ import annotations

import json
import os
import re
import subprocess
import sys
import threading
import time
from collections.abc import Iterator
from typing import Any, IO

from framing import Incoming, Message

LINE_END = re.compile("\r\n|\n|\r")
FOLLOWED = ("textDocument/didOpen", "textDocument/didChange", "textDocument/didClose")


class Wire:
    """Reads the record of a conversation from the folder that contains it. Remembers the lines that were read, because
    tests ask often."""

    def __init__(self, folder: str) -> None:
        self.folder, self.hold_file = folder, os.path.join(folder, "hold")
        self.read = 0  # how many bytes of the record were read
        self.known: list[Message] = []  # the events in these bytes
        self.followed = 0  # how many of these events were applied to the document
        self.document: tuple[str | None, str | None] = (None, None)  # the document's URI and text

    def events(self) -> list[Message]:
        try:
            with open(os.path.join(self.folder, "wire"), "rb") as file:
                file.seek(self.read)
                lines = file.read().rpartition(b"\n")[0].splitlines(keepends=True)
        except FileNotFoundError:
            return []
        self.known += map(json.loads, lines)
        self.read += sum(map(len, lines)) + (1 if lines else 0)
        return self.known

    def sent(self, *methods: str) -> list[Message]:
        return [it["sent"] for it in self.events() if "sent" in it and it["sent"].get("method") in methods]

    def answers(self, method: str) -> list[Message]:
        idents = [it["id"] for it in self.sent(method)]
        return [it["answered"] for it in self.events() if it.get("answered", {}).get("id") in idents]

    def published(self) -> list[Message]:
        return [it["answered"]["params"] for it in self.events() if it.get("answered", {}).get("method") == "textDocument/publishDiagnostics"]

    def hold(self, method: str) -> None:
        with open(self.hold_file, "w", encoding="utf-8") as file:
            file.write(method)

    def release(self) -> None:
        if os.path.exists(self.hold_file):
            os.remove(self.hold_file)

    def is_held(self) -> bool:
        events = self.events()
        return sum("held" in it for it in events) > sum("released" in it for it in events)

    def encoding(self) -> str:
        """Returns the encoding whose units count as characters in positions: the one in the last answer to
        `initialize`, or utf-16."""
        found = [it["result"]["capabilities"].get("positionEncoding") for it in self.answers("initialize") if "result" in it]
        return str(found[-1]) if found and found[-1] else "utf-16"

    def text(self) -> str | None:
        """Returns the text of the document that was opened last, after all changes so far. Returns None if it is
        closed."""
        encoding, (uri, text) = self.encoding(), self.document
        events = self.events()
        for sent in (it["sent"] for it in events[self.followed :] if it.get("sent", {}).get("method") in FOLLOWED):
            document = sent["params"]["textDocument"]
            if sent["method"] == "textDocument/didOpen":
                uri, text = document["uri"], document["text"]
            elif document["uri"] == uri and sent["method"] == "textDocument/didClose":
                text = None
            elif document["uri"] == uri and text is not None:
                for change in sent["params"]["contentChanges"]:
                    text = patched(text, [{"range": change["range"], "newText": change["text"]}], encoding) if "range" in change else change["text"]
        self.followed, self.document = len(events), (uri, text)
        return text


def units(letter: str, encoding: str) -> int:
    return len(letter.encode("utf-8" if encoding == "utf-8" else "utf-16-le")) // (1 if encoding == "utf-8" else 2)


def offset(text: str, position: Message, encoding: str) -> int:
    """Converts a position to an offset in a text. A position after the end of its line, or after the last line, counts
    as that end."""
    ends = list(LINE_END.finditer(text))
    if position["line"] > len(ends):
        return len(text)
    line, left = int(position["line"]), int(position["character"])
    at = ends[line - 1].end() if line else 0
    end = ends[line].start() if line < len(ends) else len(text)
    while at < end and units(text[at], encoding) <= left:
        left -= units(text[at], encoding)
        at += 1
    return at


def patched(text: str, edits: list[Message], encoding: str) -> str:
    """Returns a text with these edits applied. All their ranges refer to the text before the edits."""
    places = [(offset(text, it["range"]["start"], encoding), offset(text, it["range"]["end"], encoding), it["newText"]) for it in edits]
    for start, end, new in sorted(places, key=lambda it: it[:2], reverse=True):
        text = text[:start] + new + text[end:]
    return text


def edits_of(result: Any) -> list[Message]:
    """Returns the edits in the result of a rename, a formatting, or a code action request. If there are several
    actions, returns the first one's."""
    if isinstance(result, list) and result and "edit" in result[0]:
        result = result[0]["edit"]
    if isinstance(result, dict) and "documentChanges" in result:
        return [edit for it in result["documentChanges"] for edit in it["edits"]]
    if isinstance(result, dict):
        return [edit for it in result["changes"].values() for edit in it]
    return result or []


def messages(stream: IO[bytes]) -> Iterator[tuple[bytes, Message]]:
    """Yields the messages of a stream, each as its bytes and as its JSON value."""
    incoming = Incoming()
    while came := os.read(stream.fileno(), 1 << 16):
        incoming.add(came)
        while taken := incoming.take_framed():
            framed, content = taken
            yield framed, json.loads(content)


def main(folder: str, *words: str) -> None:
    wire, lock = Wire(folder), threading.Lock()
    methods: dict[Any, str | None] = {}
    with open(os.path.join(folder, "wire"), "a", encoding="utf-8") as record, subprocess.Popen(words, stdin=subprocess.PIPE, stdout=subprocess.PIPE) as server:
        assert server.stdin and server.stdout
        given, out = server.stdin, server.stdout

        def note(name: str, value: object) -> None:
            with lock:
                record.write(json.dumps({name: value}) + "\n")
                record.flush()

        def forward() -> None:
            try:
                for written, message in messages(sys.stdin.buffer):
                    if "id" in message:
                        methods[message["id"]] = message.get("method")
                    note("sent", message)
                    given.write(written)
                    given.flush()
                given.close()
            except (BrokenPipeError, ValueError):
                pass  # (the server has ended)

        def held() -> str:
            try:
                with open(wire.hold_file, encoding="utf-8") as file:
                    return file.read()
            except FileNotFoundError:
                return ""

        threading.Thread(target=forward, daemon=True).start()
        for written, message in messages(out):
            note("answered", message)
            if "method" not in message and methods.get(message.get("id")) and methods[message["id"]] == held():
                note("held", message["id"])
                while held():
                    time.sleep(0.002)
                note("released", message["id"])
            sys.stdout.buffer.write(written)
            sys.stdout.buffer.flush()


if __name__ == "__main__":
    try:
        main(*sys.argv[1:])
    except BrokenPipeError:
        os._exit(1)  # (the editor has gone)
