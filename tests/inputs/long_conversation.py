"""Holds one long conversation of random valid changes and requests. The diagnostics of each text are compared with the
output of `check`, and the server's memory is watched."""
from __future__ import annotations

import concurrent.futures
import random
import re

import corpus
import failing
import harness
from harness import Message, Server, did_change, did_close, did_open, holds, lines_of, place, request, same


URI = "file:///m"
PIECES = ["", " ", "\n", "\r\n", ";", "x", "1", "0", "END", "BEGIN x := 1", "(* é 😀 *)", "(*", "*)", "$", "é", "VAR y: INTEGER;", ":=", "2147483648"]
QUESTIONS = ["hover", "definition", "references", "prepareRename", "rename", "codeAction", "formatting"]
LITERALS: Message = {"textDocument": {"codeAction": {"codeActionLiteralSupport": {}}}}


def position_of(text: str, at: int) -> Message:
    """Converts an offset in a text to an LSP position in UTF-16 units. The offset must not lie between CR and LF."""
    before = re.split("\r\n|\r|\n", text[:at])
    return place(len(before) - 1, len(before[-1].encode("utf-16-le")) // 2)


class Talk:
    """The client's side of the conversation."""

    def __init__(self, server: Server, chance: random.Random) -> None:
        self.server, self.chance, self.version, self.idents = server, chance, 0, 1000
        self.text = self.good = ""

    def begin(self) -> tuple[str, list[Message]]:
        """Opens a valid module, and returns its text and its diagnostics. The open document is sometimes closed first,
        and otherwise simply opened again."""
        if self.version and self.chance.random() < 0.3:
            self.server.notify(did_close(URI))
        self.text = self.good = corpus.module(self.chance.choice([300, 900, 2000]), self.chance.randrange(1000))
        self.version += 1
        return self.text, self.server.notify(did_open(self.text, URI, self.version))

    def change(self) -> tuple[str, list[Message]]:
        """Makes one to four changes in one notification, and returns the new text and its diagnostics. A change
        replaces a random range, or restores the last valid text."""
        changes: list[Message] = []
        for _ in range(self.chance.choice([1, 1, 2, 3])):
            if self.text != self.good and self.chance.random() < 0.4:
                self.text = self.good
                changes.append({"text": self.text})
                continue
            start = self.chance.randrange(len(self.text) + 1)
            end = min(len(self.text), start + self.chance.choice([0, 0, 1, 1, 5, 20]))
            # (between CR and LF there is no position)
            start, end = (it - 1 if self.text[it - 1 : it + 1] == "\r\n" else it for it in (start, end))
            new = self.chance.choice(PIECES)
            changes.append({"range": {"start": position_of(self.text, start), "end": position_of(self.text, end)}, "text": new})
            self.text = self.text[:start] + new + self.text[end:]
        if len(self.text) > 4000:
            self.text = self.good
            changes.append({"text": self.text})
        self.version += 1
        return self.text, self.server.notify(did_change(changes, URI, self.version))

    def query(self) -> None:
        """Sends a random request about a random position, and checks the answer's id and its form."""
        method = self.chance.choice(QUESTIONS)
        where = position_of(self.text, self.chance.randrange(len(self.text) + 1))
        params: Message = {"position": where, "textDocument": {"uri": URI}, "context": {"includeDeclaration": True}, "newName": "k"}
        if method == "codeAction":
            params = {"context": {}, "range": {"end": where, "start": where}, "textDocument": {"uri": URI}}
        if method == "formatting":
            params = {"options": {"insertSpaces": True, "tabSize": 2}, "textDocument": {"uri": URI}}
        self.idents += 1
        self.server.send(request(self.idents, f"textDocument/{method}", params))
        found = self.server.take()
        same(found.get("id"), self.idents, f"the id of the answer to {method}")
        holds("result" in found or found["error"]["code"] == -32803, f"{method} of\n{self.text}\n    gave {found}")


def checked(pair: tuple[str, list[Message]]) -> bool:
    text, diagnostics = pair
    found = harness.run(["check", "/dev/stdin"], text.encode())
    wanted = lines_of(diagnostics)
    same((found.out, found.err, found.status), (wanted, b"", 1 if wanted else 0), f"`check` after it was published so, of\n{text}\n")
    return not diagnostics


def resident(server: Server) -> int:
    """Returns the server's anonymous memory in KiB. (Pages of its file aren't counted, because they depend on free
    memory. The totals in /proc/PID/status may lag behind, so smaps_rollup is read.)"""
    with open(f"/proc/{server.process.pid}/smaps_rollup", encoding="ascii", errors="replace") as file:
        found = dict(re.findall(r"^(\w+): +(\d+) kB", file.read(), re.M))
    return int(found["Anonymous"]) + int(found["Swap"])


def converse(count: int, seed: int = 0) -> str:
    """Holds a conversation of `count` messages. Fails if the published diagnostics differ from `check`'s, or if the
    server's memory keeps growing. Returns a line of statistics."""
    chance = random.Random(seed)
    published, empty, early = 0, 0, 0
    with Server(capabilities=LITERALS) as server, concurrent.futures.ThreadPoolExecutor(failing.PROCESSORS) as pool:
        talk = Talk(server, chance)
        pairs: list[tuple[str, list[Message]]] = []
        for number in range(count):
            way = chance.random()
            if number == 0 or way < 0.02:
                pairs.append(talk.begin())
            elif way < 0.7:
                pairs.append(talk.change())
            else:
                talk.query()
            if len(pairs) == 500 or number == count - 1:
                published, empty = published + len(pairs), empty + sum(pool.map(checked, pairs))
                pairs = []
            if number == count // 4:
                early = resident(server)
        late = resident(server)
        # (after a quarter of the messages it is known what they need)
        holds(late <= early * 1.1 + 256, f"{early} KiB after a quarter of the messages, {late} KiB at the end")
        same(server.end(), 0, "the status")
    holds(published and empty and empty < published, f"{published} publications, {empty} of them empty")
    memory = f"{early:,} KiB after a quarter of the messages; {late:,} KiB at the end"
    return f"{count:,} messages; {published:,} publications; {empty:,} of them empty; {memory}"
