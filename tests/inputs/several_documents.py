"""Holds one conversation about several documents: random changes, closes, unreadable changes, and requests. Each answer
is compared with a new server's answer, which gets only the present text and then the same request."""
from __future__ import annotations

import concurrent.futures
import json
import random
import re
from typing import List, Tuple

import corpus
import failing
import harness
from harness import EXIT, SHUTDOWN, Message, Server, did_change, did_close, did_open, holds, initialize, notice, request, same, shown
from long_conversation import PIECES, QUESTIONS, position_of

WORD = re.compile(r"[A-Za-z][A-Za-z0-9]*")
# (these leave most modules well-typed)
MILD = [" ", "\n", "(* é *)", "  ", "\r\n"]
CLIENT: Message = {
    "textDocument": {"codeAction": {"codeActionLiteralSupport": {}}, "rename": {"prepareSupport": True}},
    "workspace": {"workspaceEdit": {"documentChanges": True}},
}
REFUSED = -32803
# (more than the session keeps in all: 4 MiB)
LARGE = {f"file:///large/{at}": 750_000 + 50_000 * at for at in range(1, 6)}
SMALL = [f"file:///small/{at}" for at in range(1, 6)]


class Document:
    """The client's copy of a document. Its text is None if it isn't open, or if the server doesn't know its text."""

    def __init__(self, uri: str, size: int = 0) -> None:
        self.uri, self.size, self.version, self.is_open = uri, size, 0, False
        self.text: str | None = None
        self.good = ""  # the last valid text
        self.published: list[Message] = []


# an opening, what is published of it, a question about it, and the answer
Query = Tuple[Message, List[Message], Message, Message]


class Talk:
    """The client's side of a conversation. It collects the answers in `queries`, to be compared with new servers'
    answers."""

    def __init__(self, server: Server, chance: random.Random) -> None:
        self.server, self.chance, self.idents = server, chance, 1000
        self.queries: list[Query] = []
        self.documents = [*(Document(it) for it in SMALL), *(Document(uri, size) for uri, size in LARGE.items())]

    def publishes(self, document: Document, message: Message) -> None:
        """Sends a message after which the server publishes diagnostics, and keeps the text as the last valid one if
        there are none."""
        document.published = self.server.notify(message)
        if not document.published and document.text and document.size + 6000 > len(document.text):
            document.good = document.text

    def open(self, document: Document) -> None:
        text = corpus.module(document.size or self.chance.choice([300, 900, 2000]), self.chance.randrange(1000))
        document.text = document.good = text
        document.version, document.is_open = document.version + 1, True
        self.publishes(document, did_open(text, document.uri, document.version))

    def close(self, document: Document) -> None:
        document.is_open, document.text = False, None
        same(self.server.notify(did_close(document.uri)), [], "the diagnostics of a document that is closed")

    def lose(self, document: Document) -> None:
        """Sends a change that the server can't read, so that the server no longer knows the text."""
        self.server.send(notice("textDocument/didChange", {"contentChanges": 0, "textDocument": {"uri": document.uri, "version": 0}}))
        document.text = None

    def one_change(self, document: Document) -> tuple[Message, str]:
        """Returns a change and the text after it. The change restores the last valid text, inserts something at a
        blank, or inserts any piece anywhere."""
        chance, text = self.chance, document.text
        if text is None or (text != document.good and chance.random() < 0.5):
            return {"text": document.good}, document.good
        start = end = chance.randrange(len(text) + 1)
        if chance.random() < 0.6:
            start = end = text.find(" ", start) if " " in text[start:] else start
            new = chance.choice(MILD)
        else:
            end, new = min(len(text), start + chance.choice([0, 0, 1, 1, 5, 20])), chance.choice(PIECES)
        # (between CR and LF there is no position)
        start, end = (it - 1 if text[it - 1 : it + 1] == "\r\n" else it for it in (start, end))
        there = {"start": position_of(text, start), "end": position_of(text, end)}
        return {"range": there, "text": new}, text[:start] + new + text[end:]

    def change(self, document: Document) -> None:
        """Makes one to three changes in one notification."""
        changes = []
        for _ in range(self.chance.choice([1, 1, 1, 2, 3])):
            one, document.text = self.one_change(document)
            changes.append(one)
        document.version += 1
        self.publishes(document, did_change(changes, document.uri, document.version))

    def params_of(self, document: Document, method: str) -> Message:
        text = document.text or document.good or "x"
        at = self.chance.randrange(len(text) + 1)
        word = WORD.search(text, at)
        if word and self.chance.random() < 0.8:
            at = word.start()
        where, known = position_of(text, at), {"textDocument": {"uri": document.uri}}
        if method == "codeAction":
            return {"context": {}, "range": {"end": where, "start": where}, **known}
        if method == "formatting":
            return {"options": {"insertSpaces": True, "tabSize": 2}, **known}
        new = self.chance.choice(["k", "fresh", word[0] if word else "x"])
        return {"context": {"includeDeclaration": self.chance.random() < 0.5}, "newName": new, "position": where, **known}

    def query(self, document: Document) -> None:
        method = self.chance.choice(QUESTIONS)
        self.idents += 1
        question = request(self.idents, f"textDocument/{method}", self.params_of(document, method))
        self.server.send(question)
        found = self.server.take()
        if document.text is None:
            why = "out of step" if document.is_open else "unopened"
            same(found, json.loads(harness.error(self.idents, REFUSED, why)), f"{method} of {document.uri}")
        else:
            opening = did_open(document.text, document.uri, document.version)
            self.queries.append((opening, document.published, question, found))

    def step(self) -> None:
        document = self.chance.choice(self.documents[: len(SMALL)] if self.chance.random() < 0.97 else self.documents)
        way = self.chance.random()
        if not document.is_open:
            return self.open(document) if way < 0.7 or not document.good else self.query(document)
        if way < 0.4:
            return self.query(document)
        if way < 0.41:
            return self.close(document)
        if way < 0.42:
            return self.open(document)
        if way < 0.43:
            return self.lose(document)
        return self.change(document)


def answered_alike(query: Query) -> str | None:
    """Fails unless a new server gives the same diagnostics and the same answer. Returns the request's method if the
    answer had a result, otherwise None."""
    opening, published, question, answer = query
    found = harness.serve([initialize(**CLIENT), opening, question, SHUTDOWN, EXIT])
    same(found.status, 0, "the status of a server that keeps nothing")
    first, second = (json.loads(it) for it in found.contents()[1:3])
    where = f"of version {opening['params']['textDocument']['version']} of {opening['params']['textDocument']['uri']},\n{shown(opening['params']['textDocument']['text'])}\n"
    same(published, first["params"]["diagnostics"], f"the diagnostics {where}")
    same(answer, second, f"{question['method']} at {question['params'].get('position')} {where}")
    return question["method"].partition("/")[2] if answer.get("result") else None


def converse(count: int, seed: int = 0) -> str:
    """Holds a conversation of `count` messages, and compares the answers with new servers' answers. Returns a line of
    statistics."""
    kinds: dict[str | None, int] = {}
    compared = 0
    with Server(capabilities=CLIENT) as server, concurrent.futures.ThreadPoolExecutor(failing.PROCESSORS) as pool:
        talk = Talk(server, random.Random(seed))
        for number in range(count):
            talk.step()
            if len(talk.queries) == 200 or number == count - 1:
                for kind in pool.map(answered_alike, talk.queries):
                    kinds[kind] = kinds.get(kind, 0) + 1
                compared, talk.queries = compared + len(talk.queries), []
        same(server.end(), 0, "the status")
    missing = [it for it in QUESTIONS if it not in kinds]
    # (in a short conversation no place of an action may come up)
    holds(count < 4000 or not missing, f"no answer to {missing} said anything")
    return f"{count:,} messages; {compared:,} answers; {compared - kinds[None]:,} of them with a result"
