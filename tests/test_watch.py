"""Tests ob0-watch: it passes every byte on, reports each planted fault by the name of its rule, and reports nothing
about conversations that keep the rules. (The tests of editors also run under it: tests/lib/watched.py.)"""
from __future__ import annotations

import itertools
import os
import random
import re
import shutil
import signal
import subprocess
import sys
import time
from collections.abc import Iterable
from typing import Any, Callable, Dict, List, Optional, Tuple

import conversations
import harness
import keyed
import long_conversation
import random_texts
import several_documents
import watched
from first_conversation import INPUT, OUTPUT
from harness import EXIT, Message, did_change, did_close, did_open, extent, frame, holds, need_program, notice, place, request
from harness import same, test, want
from homes import temporary, write
from reference.scanner import scan
from snippets import snippets

WATCH = watched.load()
LITERALS: Message = {"codeAction": {"codeActionLiteralSupport": {}}}
EDITS: Message = {"workspace": {"workspaceEdit": {"documentChanges": True}}, "textDocument": LITERALS}
URI = "file:///m"
RENAME, FORMAT, ACTION = keyed.RENAME, keyed.LAYOUT, keyed.ACTION
Edits = List[Message]
Fault = Callable[["Talk"], object]

TEXT = "MODULE M;\nVAR n: INTEGER;\nBEGIN n := 1; Write(n)\nEND M.\n"
PLACES = ["1:4-1:5", "2:6-2:7", "2:20-2:21"]
RENAMED = harness.edited(TEXT, PLACES, "tot")


def replacements(new: str, places: Iterable[str] = PLACES) -> Edits:
    return [{"range": extent(it), "text": new} for it in places]


def inserted(where: Message, text: str) -> Message:
    return {"range": {"start": where, "end": where}, "text": text}


def no_file(uri: str) -> None:
    return None


class Talk:
    """Feeds a conversation to a watcher. At first it is initialized, and a document is open at version 1."""

    def __init__(self, text: str = TEXT, uri: str = URI, file_of: Callable[[str], Optional[str]] = no_file, **capabilities: Any) -> None:
        self.watcher, self.version, self.idents = WATCH.Watcher(file_of), 1, 0
        self.uri, self.now = uri, 1000.0
        client = {**EDITS, **capabilities}
        self.has_versions = "workspaceEdit" in client["workspace"]
        self.sends(harness.initialize(0, **client))
        self.answers(0, {"capabilities": {}})
        self.sends(notice("initialized", {}))
        if text:
            self.sends(did_open(text, uri))

    def sends(self, *contents: harness.Content) -> Talk:
        for it in contents:
            self.now += 1
            self.watcher.take("editor", frame(it), self.now)
        return self

    def changes(self, changes: Any, version: Optional[int] = None) -> Talk:
        """Sends a didChange notification with these changes, at the next version unless one is given."""
        self.version = self.version + 1 if version is None else version
        return self.sends(did_change(changes, self.uri, self.version))

    def asks(self, method: str = RENAME, ident: Optional[Any] = None) -> Any:
        self.idents += 1
        ident = self.idents if ident is None else ident
        document = {"uri": self.uri}
        params: Message = {"textDocument": document, "position": place(1, 4), "newName": "tot"}
        if method == FORMAT:
            params = {"textDocument": document, "options": {"tabSize": 2, "insertSpaces": True}}
        if method == ACTION:
            params = {"textDocument": document, "range": extent("1:4-1:4"), "context": {"diagnostics": []}}
        self.sends(request(ident, method, params))
        return ident

    def answers(self, ident: Any, result: Any) -> Talk:
        self.watcher.take("server", frame({"id": ident, "jsonrpc": "2.0", "result": result}), self.now)
        return self

    def is_answered(self, edits: Any, method: str = RENAME, ident: Optional[Any] = None) -> Talk:
        """Sends a request, and answers it with edits; for a code action, with one action for each list of edits."""
        self.answers(self.asks(method, ident), self.result(edits, method))
        return self

    def result(self, edits: Any, method: str = RENAME) -> Any:
        if method == ACTION:
            return [{"title": "Inline here", "edit": self.result(it)} for it in edits]
        made = [{"range": it["range"], "newText": it["text"]} for it in edits]
        document = {"uri": self.uri, "version": self.version}
        if method == FORMAT:
            return made
        return {"documentChanges": [{"textDocument": document, "edits": made}]} if self.has_versions else {"changes": {self.uri: made}}

    def found(self, is_broken: bool) -> set[str]:
        """Ends the conversation. Returns the rules that were reported as broken if `is_broken`, otherwise the rules
        with notes."""
        self.watcher.end(self.now)
        return {it.rule for it in self.watcher.findings if it.is_broken == is_broken}


# ways in which an editor may send the edits of a rename: for each way, the changes of each notification
IN_TURN = replacements("tot", reversed(PLACES))
ONE_RANGE: Message = {"range": extent("1:4-2:21"), "text": "tot: INTEGER;\nBEGIN tot := 1; Write(tot"}
TAKEN_OUT: Edits = [it for edit in IN_TURN for it in ({**edit, "text": ""}, inserted(edit["range"]["start"], "tot"))]
TOLD: Dict[str, List[Any]] = {
    "as the whole text": [RENAMED],
    "from the last place to the first": [IN_TURN],
    "one at a time": [[it] for it in IN_TURN],
    "each taken out and put in": [TAKEN_OUT],
    "each taken out and put in, one at a time": [[it] for it in TAKEN_OUT],
    "as one range": [[ONE_RANGE]],
    "as lines": [[{"range": extent("1:0-3:0"), "text": RENAMED.partition("\n")[2].rpartition("END")[0]}]],
    "with what is typed next": [[*IN_TURN, *(inserted(place(0, at), it) for at, it in enumerate("(* new *)\n"))]],
}
HOVER = request("h", "textDocument/hover", {"textDocument": {"uri": URI}, "position": place(0, 0)})


@test("watch: ob0-watch counts a correctly applied edit and reports no fault, however the editor sends its changes")
def clean() -> None:
    other = notice("$/setTrace", {"value": "off"})
    for how, notifications in TOLD.items():
        for count in (0, 1):
            talk = Talk(workspace={} if count else EDITS["workspace"])  # (with the document's version in the answer, or without)
            talk.is_answered(replacements("tot"))
            for changes in notifications:
                talk.changes(changes)
                talk.sends(*[other] * count)
            talk.changes([inserted(place(0, 0), " ")])
            counts = talk.watcher.watched
            same((talk.found(True), counts["half-edit"], counts["late-edit"]), (set(), 1, 0), f"a rename that is told {how}")
            is_apart = count == 1 and len(notifications) > 1
            same(talk.found(False), {"told-apart"} if is_apart else set(), f"the notes of a rename that is told {how}")


@test("watch: ob0-watch doesn't report what a user types, undoes and redoes, even after discarded answers")
def typed() -> None:
    talk = Talk()
    actions = [replacements("7", PLACES[1:2]), replacements("7")]
    answers: Dict[str, Any] = {RENAME: replacements("tot"), FORMAT: [inserted(place(1, 0), "  ")], ACTION: actions}
    for method, edits in answers.items():
        talk.is_answered(edits, method)
        talk.changes([inserted(place(0, 0), "\n")])
    talk.is_answered(replacements("tot", ["2:4-2:5", "3:6-3:7", "3:20-3:21"]))
    talk.sends({"id": 1, "result": None}, {"id": 1, "error": {}})
    for text in (RENAMED, TEXT, RENAMED, TEXT.replace("1", "2"), "", TEXT):
        talk.changes(text)
    same(talk.found(True), set())
    talk = Talk()
    talk.is_answered([replacements("tot")], ACTION)
    talk.is_answered(replacements("tot", PLACES[:1]))
    for changes in (IN_TURN[-1:], TYPED, TYPED, TYPED):
        talk.changes(changes)
    same(talk.found(True), set(), "one of two answers")
    talk = Talk()
    talk.asks()
    talk.is_answered(replacements("tot"))
    talk.sends(did_close(), did_open(TEXT)).is_answered(replacements("tot"))
    talk.changes(IN_TURN)
    same((talk.found(True), talk.found(False)), (set(), set()), "an answer that was dropped in another opening, and one like it")


def late(talk: Talk, changes: Any, method: str = RENAME, edits: Any = None) -> None:
    """Asks for an edit, types a line above, and only then gives the answer. After that the editor sends these
    changes."""
    ident = talk.asks(method)
    talk.changes([inserted(place(0, 0), "(* new *)\n")])
    talk.answers(ident, talk.result(edits or replacements("tot"), method))
    for it in changes if isinstance(changes[0], list) else [changes]:
        talk.changes(it)


def lower(edits: Edits) -> Edits:
    """Returns the edits moved down by one line."""
    found = []
    for it in edits:
        places = {end: place(at["line"] + 1, at["character"]) for end, at in it["range"].items()}
        found.append({**it, "range": places})
    return found


def late_in_cr_lf(changes: Edits) -> Fault:
    """Returns a fault: these changes tell a late layout in a text with CR LF."""

    def fault(talk: Talk) -> None:
        talk.changes(TEXT.replace("\n", "\r\n"))
        late(talk, changes, FORMAT, ENDED)

    return fault


def reopened(talk: Talk, text: str, changes: Edits, *between: harness.Content) -> None:
    """Asks for a rename, sends the messages `between`, and opens the document again with this text. Then gives the
    answer, and sends the changes."""
    ident = talk.asks()
    talk.sends(*between, did_open(text))
    talk.answers(ident, talk.result(replacements("tot")))
    talk.changes(changes)


def made_as(ident: Any) -> Fault:
    """Returns a fault in which a rename with this id is answered and its edit is made."""
    return lambda talk: talk.is_answered(replacements("tot"), ident=ident).changes(IN_TURN)


def told(*contents: harness.Content) -> Fault:
    return lambda talk: talk.sends(*contents)


def changed(*changes: Any) -> Fault:
    return lambda talk: [talk.changes(it) for it in changes]


def renamed(*changes: Any) -> Fault:
    """Returns a fault in which a rename is answered and the editor then sends these changes."""
    return lambda talk: (talk.is_answered(replacements("tot")), changed(*changes)(talk))


def answered(text: str, edits: Any, *changes: Any, method: str = RENAME) -> Fault:
    """Returns a fault: in this text a request is answered with these edits, and then the editor sends these changes."""

    def fault(talk: Talk) -> None:
        talk.changes(text)
        talk.is_answered(edits, method)
        changed(*changes)(talk)

    return fault


def inlined(text: str) -> Fault:
    """Returns a fault: an inlining of a constant after an emoji is answered, and then the editor sends this text."""
    return answered(EMOJI, [replacements("7", ["2:21-2:22"])], text, method=ACTION)


def broken(column: int, text: str) -> Fault:
    """Returns a fault: a layout that breaks the line after an emoji in this column is answered, and then the editor
    sends this text."""
    return answered(SPACED, [inserted(place(2, column), "\n")], text, method=FORMAT)


def commented(change: Callable[[str], str]) -> Fault:
    """Returns a fault: a rename in a text with a comment is answered, and then the editor sends the renamed text with
    this change."""
    text, places = TEXT.replace("BEGIN", "(* a\n(* b *)\n*) BEGIN"), ["1:4-1:5", "4:9-4:10", "4:23-4:24"]
    return answered(text, replacements("tot", places), change(harness.edited(text, places, "tot")))


EMOJI = "MODULE M;\nCONST k = 7;\nBEGIN (* \U0001f600 *) Write(k) END M.\n"
SPACED = EMOJI.replace("*) ", "*)  ")
TYPED = [inserted(place(0, 0), " ")]
INDENTED = [inserted(place(line, 0), "  ") for line in (1, 2)]
BROKEN_UP = [{"range": extent("1:3-1:4"), "text": "\n  "}]
ENDED = [{"range": extent("1:15-2:0"), "text": "\n"}, *BROKEN_UP]
# faults in a conversation, each with the rule that it breaks
BROKEN: Dict[str, Tuple[str, Fault]] = {
    "a late edit at its old places": ("late-edit", lambda talk: late(talk, IN_TURN)),
    "a late edit that moves along": ("late-edit", lambda talk: late(talk, lower(IN_TURN))),
    "a late edit that moves along, one change at a time": ("late-edit", lambda talk: late(talk, [[it] for it in lower(TAKEN_OUT)])),
    "a late edit as the whole text": ("late-edit", lambda talk: late(talk, "(* new *)\n" + RENAMED)),
    "a late edit with what was typed before and after": (
        "late-edit",
        lambda talk: late(talk, [*TYPED, *lower(IN_TURN), inserted(place(1, 0), "x")]),
    ),
    "a late layout": ("late-edit", lambda talk: late(talk, [inserted(place(2, 0), "  ")], FORMAT, [inserted(place(1, 0), "  ")])),
    "a late inlining": ("late-edit", lambda talk: late(talk, lower(IN_TURN[:1]), ACTION, [IN_TURN, IN_TURN[:1]])),
    "a late layout with CR LF": ("late-edit", late_in_cr_lf([{**lower(BROKEN_UP)[0], "text": "\r\n  "}])),
    "a late layout with LF in a text with CR LF": ("late-edit", late_in_cr_lf(lower(ENDED))),
    "a layout after a blank was typed": ("late-edit", answered(TEXT, INDENTED, TYPED, INDENTED, method=FORMAT)),
    "an edit that is made with what was typed before it": ("late-edit", renamed([inserted(place(0, 0), "x"), *IN_TURN])),
    "an edit after a reopen with another text": ("late-edit", lambda talk: reopened(talk, "\n" + TEXT, lower(IN_TURN), did_close())),
    "an edit after a reopen, at its old places": ("late-edit", lambda talk: reopened(talk, "\n" + TEXT, IN_TURN, did_close())),
    "an edit after an open document was opened again": ("late-edit", lambda talk: reopened(talk, "\n" + TEXT, lower(IN_TURN))),
    "an edit in another text of the same version": (
        "late-edit",
        lambda talk: talk.is_answered(replacements("tot")).changes([inserted(place(0, 0), "\n")], 1).changes(lower(IN_TURN), 1),
    ),
    "half an edit": ("half-edit", renamed(IN_TURN[:2], *[TYPED] * 3)),
    "half an edit, and what is typed next": ("half-edit", renamed([*IN_TURN[:1], *TYPED * 9])),
    "half an edit as the whole text": ("half-edit", renamed(harness.edited(TEXT, PLACES[1:], "tot"), *[TYPED] * 3)),
    "half an edit at the end": ("half-edit", renamed(IN_TURN[:2])),
    "half an edit, and a close": ("half-edit", lambda talk: (renamed(IN_TURN[:2])(talk), talk.sends(did_close(), did_open("")))),
    "a line that is broken inside a word": ("wrong-places", broken(16, SPACED.replace("Write", "W\nrite"))),
    "an edit with a blank inside a word": ("same-tokens", renamed(harness.edited(TEXT, PLACES, "to t"))),
    "an edit with two words joined": ("same-tokens", renamed(RENAMED.replace("VAR ", "VAR"))),
    "an edit with a no-break space": ("same-tokens", renamed(RENAMED.replace("VAR ", "VAR\u00a0"))),
    "an edit with a comment that loses its end": ("same-tokens", commented(lambda it: it.replace("*)", "* )", 1))),
    "an edit at columns counted in bytes": ("wrong-places", inlined(EMOJI.replace("Write", "Writ7"))),
    "an edit at columns counted in characters": ("wrong-places", inlined(EMOJI.replace("(k)", "(k7"))),
    "a range inside a character": ("ranges", changed(EMOJI, [inserted(place(2, 10), "x")])),
    "a change of what isn't open": ("open", told(did_change("x", "file:///other"))),
    "a change of what was closed": ("open", told(did_close(), did_change("x"))),
    "no JSON": ("readable", told("x")),
    "no UTF-8": ("readable", told(b'{"method":"\xff"}')),
    "half a surrogate pair": ("readable", told('{"method":"x","params":"\\ud83d"}')),
    "a word of JavaScript": ("readable", told('{"method":"x","params":NaN}')),
    "a value that is nested too deep": ("readable", told('{"method":"x","params":%s}' % ("[" * 127 + "]" * 127))),
    "a batch": ("readable", told("[%s]" % harness.compact(EXIT))),
    "a method that is no text": ("readable", told('{"method":1}')),
    "a fraction as the id": ("readable", told('{"id":1.5,"method":"shutdown"}')),
    "a change without a version": ("readable", told(did_change([], version=None))),
    "a document without a uri": ("readable", told(notice("textDocument/didClose", {"textDocument": {}}))),
    "a line of a head that ends with two CR": (
        "readable",
        lambda talk: talk.watcher.take("editor", b"Content-Length: 2\r\r\n\r\n{}", 0.0),
    ),
    "a head without a length": ("readable", lambda talk: talk.watcher.take("editor", b"Content-Type: x\r\n\r\n", 0.0)),
    "a change as a request": ("readable", told({**did_change("x"), "id": 1})),
    "an id of a request for edits that waits": ("ids", lambda talk: (talk.asks(), talk.sends(request(1, "textDocument/hover")))),
    "a request for edits with an id that waits": ("ids", lambda talk: (talk.sends({**HOVER, "id": 1}), talk.asks())),
    "a change after `shutdown`": ("end", told(request(1, "shutdown"), did_change("x"))),
    "an opening after `exit`": ("end", told(request(1, "shutdown"), EXIT, did_open("x"))),
}
# faults that are only noted, each with its rule
NOTED: Dict[str, Tuple[str, Fault]] = {
    "a range after the end of a line": ("ranges", changed([{"range": extent("0:99-1:0"), "text": "\n"}])),
    "a range after the end of the text": ("ranges", changed([inserted(place(99, 0), "x")])),
    "a range that ends before it starts": ("ranges", changed([{"range": extent("1:0-0:3"), "text": "\n"}])),
    "an inlining in a range that ends before it starts": (
        "ranges",
        lambda talk: (
            talk.sends(request(1, ACTION, {"textDocument": {"uri": URI}, "range": extent("1:4-1:3"), "context": {"diagnostics": []}})),
            talk.answers(1, talk.result([replacements("tot")], ACTION)),
            talk.changes(IN_TURN),
        ),
    ),
    "an answer without a result": ("readable", told('{"id":1}')),
    "an end inside a message": ("readable", lambda talk: [talk.watcher.take("editor", it, 0.0) for it in (b"Content-L", b"")]),
    "an end before a content": (
        "readable",
        lambda talk: [talk.watcher.take("editor", it, 0.0) for it in (b"Content-Length: 1\r\n\r\n", b"")],
    ),
    "a change of another document between two changes of an edit": (
        "told-apart",
        lambda talk: (
            talk.sends(did_open("", "file:///other")).is_answered(replacements("tot")),
            [talk.changes([it]).sends(did_change("x", "file:///other")) for it in IN_TURN],
        ),
    ),
    "a second `initialize`": ("start", lambda talk: talk.sends(harness.initialize(1))),
    "a question after `shutdown`": ("end", told(request(1, "shutdown"), HOVER)),
    "a close after `shutdown`": ("end", told(request(1, "shutdown"), did_close())),
    "an id below zero": ("ids", made_as(-1)),
    "an id that a question had": ("ids", lambda talk: (talk.sends(HOVER), talk.answers("h", None), made_as("h")(talk))),
    "a question with the id of an edit": ("ids", lambda talk: (made_as("h")(talk), talk.sends(HOVER))),
}
# edits that are made with other white space or comments
SAME_TOKENS: Dict[str, Fault] = {
    "a blank typed before an edit, in one notification": renamed([*TYPED, *IN_TURN]),
    "an edit with CR LF, as one text": renamed(RENAMED.replace("\n", "\r\n")),
    "an edit with CR for some LF, as one text": renamed(RENAMED.replace(";\n", ";\r")),
    "an edit without the end of the last line": renamed(RENAMED.rstrip("\n")),
    "an edit with two ends of the last line": renamed(RENAMED + "\n"),
    "an edit with blanks trimmed and others added": renamed(RENAMED.replace(" := ", ":=").replace("\n", "\t\n")),
    "an edit with a comment typed next, as one text": renamed(RENAMED + "(* new (* (*) *) *) *)"),
    "an edit with other line ends in a comment": commented(lambda it: it.replace("b *)\n", "b *)\r")),
    "an inlining with blanks added": inlined(EMOJI.replace("(k)", " ( 7 )")),
    "a line that is broken at another blank": broken(14, SPACED.replace("  Write", " \n Write")),
    "a layout with blanks trimmed": answered("A \nB", INDENTED[:1], "A\n  B", method=FORMAT),
    "a layout with CR LF and an end of the last line": answered("A\nB", INDENTED[:1], "A\r\n  B\r\n", method=FORMAT),
    "a layout with CR LF for some LF": answered("A B", [{"range": extent("0:1-0:2"), "text": "\n\n"}], "A\r\n\nB", method=FORMAT),
    "half a layout, and what is typed next": answered(TEXT, INDENTED, INDENTED[:1], *[TYPED] * 9, method=FORMAT),
    "half a layout, and a close": lambda talk: (answered(TEXT, INDENTED, INDENTED[1:], method=FORMAT)(talk), talk.sends(did_close())),
}
# conversations that the rules allow
ALLOWED: Dict[str, Fault] = {
    "versions that fall, come again, are negative and large": lambda talk: [talk.changes(TYPED, it) for it in (5, 4, 4, 0, -1, 2**63 - 1)],
    "an edit of a version that comes again": lambda talk: (talk.is_answered(replacements("tot")), talk.changes(IN_TURN, 1)),
    "an edit in an equal text, in a later version": lambda talk: (
        talk.is_answered(replacements("tot")),
        [talk.changes(it) for it in (TYPED, [{"range": extent("0:0-0:1"), "text": ""}], IN_TURN)],
    ),
    "an edit after a reopen with the same text": lambda talk: reopened(talk, TEXT, IN_TURN, did_close()),
    "an edit after an open document was opened again with its text": lambda talk: reopened(talk, TEXT, IN_TURN),
    "an opening with the text that a dropped edit leaves": lambda talk: talk.is_answered(replacements("tot")).sends(did_open(RENAMED)),
    "the same after another change": lambda talk: (
        talk.is_answered(replacements("tot")).changes([inserted(place(0, 0), "\n")]).sends(did_close(), did_open("\n" + RENAMED)),
    ),
    "an edit and what is typed next, as one text": renamed(RENAMED.replace(")", " + 2)")),
    "an edit and what is typed next, as one range": renamed([{**ONE_RANGE, "text": f"{ONE_RANGE['text']} + 2"}]),
    "a close of what isn't open": told(did_close("file:///other")),
    "a question about what isn't open": told(did_close(), HOVER),
    "a rename of what isn't open": lambda talk: talk.sends(did_close()).asks(),
    "params that can't be read": told(request(1, RENAME, {"textDocument": {"uri": URI}})),
    "a method that the server doesn't know": told(request(1, "textDocument/completion", {}), notice("$/setTrace", {"value": "off"})),
    "ids that skip numbers, fall, are large and are texts": lambda talk: [
        talk.is_answered([TYPED[0], inserted(place(1, 0), "x")], FORMAT, ident).changes([TYPED[0], inserted(place(1, 0), "x")])
        for ident in (8, 6, 0, 2**64 - 1, "", "8")
    ],
    "questions with one id": told(HOVER, HOVER),
    "an id again of a request whose edit is dropped": lambda talk: [talk.is_answered(replacements("tot"), ident=1) for _ in range(2)],
    "`shutdown` and `exit`": told(request(1, "shutdown"), EXIT),
    "`exit`": told(EXIT),
}


def found(fault: Fault, is_broken: bool) -> set[str]:
    talk = Talk()
    fault(talk)
    return talk.found(is_broken)


@test("watch: ob0-watch reports each planted fault under its rule, and reports nothing else")
def planted() -> None:
    for what, (rule, fault) in BROKEN.items():
        same(found(fault, True), {rule}, f"the broken rules of {what}")
    for what, (rule, fault) in NOTED.items():
        same((found(fault, True), found(fault, False)), (set(), {rule}), f"the broken rules and the notes of {what}")
    for what, fault in ALLOWED.items():
        same((found(fault, True), found(fault, False)), (set(), set()), f"the broken rules and the notes of {what}")


@test("watch: an edit that is made with other white space is counted and not reported if its tokens are the answer's")
def other_white_space() -> None:
    for what, fault in SAME_TOKENS.items():
        talk = Talk()
        fault(talk)
        same((talk.found(True), talk.found(False)), (set(), set()), f"the broken rules and the notes of {what}")
        same([talk.watcher.watched[it] for it in ("same-tokens", "half-edit")], [1, 1], f"the counts of {what}")
    talk = Talk()
    renamed(TYPED, RENAMED.replace(" := ", ":="))(talk)
    same((talk.found(True), talk.watcher.watched["half-edit"]), (set(), 0), "after a notification that typed a blank")


@test("watch: the tokens by which edits are compared are those that the reference finds")
def compared_tokens() -> None:
    compared = 0
    for seed in range(400):
        chance = random.Random(seed)
        marks = "".join(chance.choice("(**) a\n:=<>.") for _ in range(chance.randrange(20)))
        for text in (marks, random_texts.changed_module(seed, False) if seed < 20 else ""):
            lexemes, faults = scan(text)
            found = WATCH.tokens_of(text)
            same(found[-1:] == ["(*"], any(it[0] == "OpenComment" for it in faults), f"an open comment in {text!r}")
            if not faults:
                same(found, [it.text for it in lexemes if it.kind != "comment"], f"the tokens of {text!r}")
                compared += len(found) > 5
    holds(compared > 50, f"{compared} texts with many tokens were compared")


@test("watch: an edit with other white space may make a text of 1,048,576 bytes, and one more is reported")
def too_long() -> None:
    head = "MODULE M; VAR n: INTEGER; END M. (* \u00e9"
    text = head + "x" * ((1 << 20) - len(head.encode()) - 3) + " *)"
    edits = [{"range": extent("0:9-0:10"), "text": "\n"}]
    for more, written, rules in (("", "\n", set()), ("x", "\n", set()), ("", "\r", set()), ("", "\r\n", {"same-tokens"})):
        talk = Talk()
        answered(text + more, edits, [{**edits[0], "text": written}], method=FORMAT)(talk)
        same(talk.found(True), rules, f"the broken rules with {written!r} and {more!r}")
        same(talk.watcher.watched["same-tokens"], 1, "the count")


@test("watch: a didOpen before `initialize` is reported, and one before the answer to `initialize` is noted")
def beginnings() -> None:
    watcher = WATCH.Watcher()
    watcher.take("editor", frame(did_close()) + frame(HOVER) + frame(did_open(TEXT)), 0.0)
    same([(it.rule, it.is_broken, it.number, it.method) for it in watcher.findings], [("start", True, 3, "textDocument/didOpen")])
    for early, is_noted in ((did_open(TEXT), True), (HOVER, True), (notice("initialized", {}), False)):
        watcher = WATCH.Watcher()
        watcher.take("editor", frame(harness.initialize(1)) + frame(early), 0.0)
        watcher.take("server", frame({"id": 1, "result": {}}), 0.0)
        same([(it.rule, it.is_broken) for it in watcher.findings], [("start", False)] * is_noted, f"{early} before the answer")


@test("watch: ob0-watch counts positions in the unit on which editor and server agreed")
def counted_units() -> None:
    talk = Talk(EMOJI, general={"positionEncodings": ["utf-16", "utf-8"]})
    talk.is_answered([replacements("7", ["2:23-2:24"])], ACTION)
    talk.changes(EMOJI.replace("(k)", "(7)"))
    same((talk.found(True), talk.watcher.watched["wrong-places"]), (set(), 1), "by bytes")


@test("watch: an edit may use any line ending for each LF, whatever the text's own one is")
def line_ends() -> None:
    for end, written in itertools.product(("\n", "\r\n", "\r"), repeat=2):
        text = "MODULE M;\nVAR n: INTEGER;\nEND M.\n".replace("\n", end)
        talk = Talk(text)
        edits = [*BROKEN_UP, {"range": extent("1:6-1:7"), "text": "  "}, {"range": extent("1:15-2:0"), "text": "\n"}]
        talk.is_answered(edits, FORMAT)
        talk.changes(text.replace("VAR ", f"VAR{written}  ").replace(": ", ":  ").replace(f";{end}END", f";{written}END"))
        what = f"an edit with {written!r} in a text with {end!r}"
        same((talk.found(True), talk.found(False)), (set(), set()), what)
        same([talk.watcher.watched[it] for it in ("same-tokens", "half-edit")], [1, 1], f"the counts of {what}")


@test("watch: a change is reported as lost if a written file has a text that the editor didn't send")
def files() -> None:
    rows: List[Tuple[str, List[str], bool]] = [(TEXT, [], False), (RENAMED, [RENAMED], False)]
    rows += [(RENAMED, [], True), ("x", [TEXT + " "], True)]
    for written, told_then, is_lost in rows:
        for ends in ("\n", "\r\n"):
            with temporary() as room:
                path = os.path.join(room, "m 1.mod")
                write(path, "before")
                talk = Talk(uri="file://" + path.replace(" ", "%20"), file_of=WATCH.path_of)
                write(path, "\ufeff" + written.rstrip("\n").replace("\n", ends))
                talk.sends(notice("textDocument/didSave", {}))
                for text in told_then:
                    talk.changes(text)
                same(talk.found(True), {"lost-change"} if is_lost else set(), f"{written!r} was written, {told_then!r} told")
                same(talk.watcher.watched["lost-change"], 1, "how many were compared")


@test("watch: an edit of many replacements, some with line endings, may be sent one replacement at a time")
def many_line_ends() -> None:
    for end in ("\n", "\r\n"):
        lines = ["MODULE M;", *["VAR a:INTEGER;"] * 11, "END M."]
        text = end.join(lines)
        talk = Talk(text)
        places = [f"{line}:6-{line}:6" if line % 6 else f"{line}:3-{line}:4" for line in range(1, 12)]
        edits: Edits = [{"range": extent(it), "text": " " if it[-1] == "6" else "\n  "} for it in places]
        talk.is_answered(edits, FORMAT)
        for it in reversed(edits):
            talk.changes([{**it, "text": it["text"].replace("\n", end)}])
        same((talk.found(True), talk.found(False)), (set(), set()), f"the layout of a text with {end!r}")
        same(talk.watcher.watched["half-edit"], 1, "the count")


def put(path: str, text: str) -> None:
    """Replaces a file's text in one step."""
    write(path + ".new", text)
    os.replace(path + ".new", path)


@test("watch: a file that is only half written when ob0-watch reads it isn't reported as a lost change")
def half_written() -> None:
    with temporary() as room:
        path = os.path.join(room, "m.mod")
        write(path, TEXT)
        talk = Talk(uri="file://" + path, file_of=WATCH.path_of)
        with open(path, "w", encoding="utf-8") as file:  # (it is empty now)
            talk.sends(did_close(talk.uri))
            file.write(RENAMED)
        talk.sends(did_open(RENAMED, talk.uri))
        same(talk.found(True), set(), "with a file that is written while its document is closed")


@test("watch: ob0-watch reads a file when its document is opened or closed, even if it judges these messages later")
def late_judge() -> None:
    with temporary() as room:
        path = os.path.join(room, "m.mod")
        write(path, TEXT)
        opened = frame(did_open(TEXT, "file://" + path))
        closed = frame(did_close("file://" + path))
        states = WATCH.States()
        for written, passes, is_lost in (("lost", b"", True), ("later", closed, False)):
            put(path, TEXT)
            at_opening, at_close = states.add(opened), states.add(passes)
            put(path, written)
            talk = Talk("", uri="file://" + path, file_of=WATCH.path_of)
            for content, noted in ((opened, at_opening), (passes, at_close)):
                talk.watcher.take_states(noted)
                talk.watcher.take("editor", content, talk.now)
            what = f"{written!r} is written after the opening and {passes!r}"
            same(talk.found(True), {"lost-change"} if is_lost else set(), what)


FORGED = "file:///zz\n12:00:00.000 BROKEN late-edit: forged\u202e\ud83d"


@test("watch: a text from an editor can't forge a line of the report")
def on_its_line() -> None:
    talk = Talk()
    talk.sends(did_change("x", FORGED[:-1]), notice(FORGED[:-1], 1), '"\\n12:00:00.000 BROKEN x"')
    talk.watcher.find("readable", FORGED)
    talk.found(True)
    for line in talk.watcher.report():
        holds(line.isprintable() and line.count(" BROKEN ") < 3, repr(line))
        holds(not line.startswith("12:00:00.000"), line)


# ---- the program


def watch(room: str, *words: str, given: bytes = b"", first: Iterable[str] = ()) -> Tuple[int, bytes, bytes, str]:
    """Runs ob0-watch. Returns its exit status, its output, its error output, and the report, which is empty if there is
    none."""
    report = os.path.join(room, "report")
    command = [sys.executable, *(first or [watched.SCRIPT]), "--report", report, "--", *words]
    ran = subprocess.run(command, input=given, capture_output=True, timeout=harness.SECONDS, check=False)
    return ran.returncode, ran.stdout, ran.stderr, watched.complete(report) if os.path.exists(report) else ""


@test("watch: ob0-watch passes on every byte, and ends with the server's status")
def passed_on() -> None:
    chance = random.Random(1)
    noise = bytes(chance.randrange(256) for _ in range(300_000))
    for given in (b"", b"x", INPUT, INPUT[:100], INPUT.replace(b"Length", b"Width"), noise, INPUT * 300):
        with temporary() as room:
            same(watch(room, "cat", given=given)[:3], (0, given, b""), f"what is passed on of {given[:40]!r}")
    for words, status, last in (
        (["sh", "-c", "exit 7"], 7, "with status 7."),
        (["sh", "-c", "kill -KILL $$"], -9, "by signal 9."),
        (["sh", "-c", "exec <&-; sleep 0.2; exit 3"], 3, "with status 3."),
    ):
        with temporary() as room:
            got, out, err, report = watch(room, *words, given=INPUT)
            same((got, out, err, report.splitlines()[-1]), (status, b"", b"", f"The server ended {last}"), f"the end of {words}")


@test("watch: ob0-watch passes on each byte as soon as it arrives, and passes a signal to the server")
def at_once() -> None:
    with temporary() as room:
        words = [sys.executable, watched.SCRIPT, "--report", os.path.join(room, "report"), "--", "cat"]
        with subprocess.Popen(words, stdin=subprocess.PIPE, stdout=subprocess.PIPE, bufsize=0) as process:
            given, out = process.stdin, process.stdout
            assert given and out
            for at in range(len(INPUT)):
                given.write(INPUT[at : at + 1])
                same(out.read(1), INPUT[at : at + 1], f"byte {at}")
            process.send_signal(signal.SIGTERM)
            same(process.wait(harness.SECONDS), -signal.SIGTERM, "the status")
        report = watched.complete(os.path.join(room, "report"))
        holds("readable: watched 4, broken 0" in report and report.endswith("by signal 15.\n"), report)


@test("watch: neither a fault of ob0-watch nor an unwritable report affects the conversation")
def robust() -> None:
    with temporary() as room:
        fault = "import watched; it = watched.load(); it.Watcher.opened = 0; import sys; it.end_as(it.main(sys.argv[1:]))"
        status, out, err, report = watch(room, "cat", given=INPUT * 9, first=["-c", f"import sys; sys.path[:0] = {sys.path!r}; {fault}"])
        same((status, out, err), (0, INPUT * 9, b""), "with a fault of the watcher")
        same(report.splitlines()[-1], "It stopped watching, by a fault of its own: TypeError: 'int' object is not callable")
        os.mkdir(os.path.join(room, "report.new"))
        os.remove(os.path.join(room, "report"))
        status, out, err, report = watch(room, "cat", given=INPUT)
        same((status, out, report), (0, INPUT, ""), "without a report")
        holds(err.startswith(b"ob0-watch: the report can't be written: "), str(err))


def wait_for_reports(count: int, *folder: str) -> None:
    """Waits until a folder contains this many reports and no draft, because a judge may write its report after
    ob0-watch has ended."""
    there = os.path.join(*folder)
    names: Callable[[], List[str]] = lambda: os.listdir(there) if os.path.isdir(there) else []
    harness.wait_until(lambda: [it.endswith(".new") for it in names()] == [False] * count, f"{count} reports in {there}", 20)


@test("watch: ob0-watch refuses bad arguments, writes reports to the state folder, and watches only `serve`")
def command_line() -> None:
    need_program()
    with temporary() as room:
        os.mkdir(os.path.join(room, "bin"))
        os.symlink(os.path.abspath(harness.BINARY), os.path.join(room, "bin", "ob0"))
        write(os.path.join(room, "m.mod"), "MODULE M; $ END M.\n")
        own = {**os.environ, "XDG_STATE_HOME": "", "HOME": room, "PATH": os.path.join(room, "bin") + os.pathsep + os.environ["PATH"]}

        def ran(*words: str, given: bytes = b"", **other: str) -> Tuple[int, bytes]:
            how: Dict[str, Any] = {"input": given, "capture_output": True, "cwd": room, "env": {**own, **other}}
            found = subprocess.run([sys.executable, watched.SCRIPT, *words], check=False, **how)
            return found.returncode, found.stdout

        lines: List[List[str]] = [[], ["serve"], ["serve", "--stdio"], ["--", "ob0", "serve"]]
        for words in lines:
            same(ran(*words, given=INPUT), (0, OUTPUT), f"ob0-watch {words}")
        wait_for_reports(4, room, ".local", "state", "ob0")
        same(ran(given=INPUT, XDG_STATE_HOME=os.path.join(room, "state")), (0, OUTPUT))
        wait_for_reports(1, room, "state", "ob0")
        same(ran("check", "m.mod"), (1, b"0:10: BadChar: bad character\n"), "ob0-watch check")
        status, out = ran("--help")
        long_lines = [it for it in out.decode().splitlines() if len(it) > 80]
        same((status, long_lines), (0, []), "the status with --help, and lines of more than 80 columns")
        same([ran(it) for it in ("-V", "--version")], [(0, f"ob0-watch {WATCH.VERSION}\n".encode())] * 2, "the version")
        same([ran(*it) for it in (["--reprot"], ["--"], ["--report"])], [(2, b"")] * 3, "a wrong command line")
        same([ran(PATH="/nowhere"), ran("--", "no-such-program", PATH="/nowhere")], [(4, b"")] * 2, "no program")


@test("watch: if judging lags, ob0-watch judges all messages after the server has ended, and reports its progress")
def behind() -> None:
    with temporary() as room:
        report = os.path.join(room, "report")
        slow = f"import sys; sys.path[:0] = {sys.path!r}; import watched, time; it = watched.load(); it.BUSY = 0.1; "
        slow += "real = it.Watcher.changed; it.Watcher.changed = lambda *more: (time.sleep(0.05), real(*more))[1]; "
        slow += "it.end_as(it.main(sys.argv[1:]))"
        begun = [harness.initialize(0), notice("initialized", {}), did_open(TEXT)]
        changes = [did_change([], version=it) for it in range(100)]
        given = harness.frames([*begun, *changes, did_change("x", "file:///last")])
        words = [sys.executable, "-c", slow, "--report", report, "--", "cat"]
        ran = subprocess.run(words, input=given, capture_output=True, timeout=harness.SECONDS, check=False)
        same((ran.returncode, ran.stdout, ran.stderr), (0, given, b""), "what is passed on")
        holds("The server ended" not in harness.text_of(report), "it waits for its judge")
        seen: set[str] = set()
        while not os.path.exists(report) or "The server ended" not in harness.text_of(report):
            said = harness.text_of(report) if os.path.exists(report) else ""
            seen.update(re.findall(r"^(\d+) messages of the editor were judged.\nIt goes on", said, re.M))
            time.sleep(0.02)
        holds(len(seen) > 2, f"the report has said {seen}")
        found = harness.text_of(report)
        last = "\n104 messages of the editor were judged.\nThe server ended with status 0.\n"
        holds("BROKEN open: message 104 " in found and found.endswith(last), found)


@test("watch: ob0-watch doesn't write a report through a symbolic link")
def through_a_link() -> None:
    with temporary() as room:
        write(os.path.join(room, "victim"), "unchanged")
        for name in ("report", "report.new"):
            os.symlink("victim", os.path.join(room, name))
        report = watch(room, "cat", given=INPUT)[3]
        holds(report.startswith("ob0-watch (process ") and not os.path.islink(os.path.join(room, "report")), report)
        same(harness.text_of(room, "victim"), "unchanged", "the file that the link names")


def by_watched(room: str) -> None:
    """Lets the tests of this process start the program under ob0-watch, with its reports in this folder."""
    need_program()
    harness.BINARY = watched.put_program(room, [os.path.abspath(harness.BINARY)])


@test("watch: the conversations of tests/inputs break no rule, except for unreadable messages")
def recorded() -> None:
    cases = {name: it for name, it in {**conversations.SHORT, **conversations.LONG}.items() if it.words == ["serve"]}
    for name, case in cases.items():
        with temporary() as room:
            before = harness.serve(case.given)
            status, out, err, _ = watch(room, harness.BINARY, "serve", given=case.given)
            same((status, out, err), (before.status, before.out, before.err), name)
            os.makedirs(os.path.join(room, "watched"))
            os.rename(os.path.join(room, "report"), os.path.join(room, "watched", "0"))
            unreadable = name == "faults of every kind, changed"
            write(os.path.join(room, "breaks"), "readable" if unreadable else "")


# (a random change can equal a part of an answer by chance, but none does with these seeds)
@test("watch: conversations of random changes and questions break no rule, except for unreadable changes")
def random_talks() -> None:
    with temporary() as room:
        by_watched(room)
        with harness.Server(capabilities=long_conversation.LITERALS) as server:
            one = long_conversation.Talk(server, random.Random(3))
            one.begin()
            for _ in range(150):
                (one.query if one.chance.random() < 0.4 else one.change)()
            same(server.end(), 0)
        with harness.Server(capabilities=several_documents.CLIENT) as server:
            several = several_documents.Talk(server, random.Random(1))
            del several.documents[len(several_documents.SMALL) :]
            for _ in range(150):
                several.step()
            same(server.end(), 0)
        write(os.path.join(room, "breaks"), "readable")


# ---- editors that break rules


def breaks(editor: keyed.Keyed, rule: str) -> None:
    """Waits until ob0-watch reports that the editor breaks a rule, and notes that only this rule is expected to be
    broken."""
    folder = os.path.join(editor.folder, "watched")
    editor.await_("the finding", lambda: any(f"BROKEN {rule}:" in harness.text_of(folder, it) for it in os.listdir(folder) if it.isdigit()))
    write(os.path.join(editor.folder, "breaks"), rule)


class PlainNeovim(keyed.Neovim):
    """Drives Neovim's own LSP client without ob0's files, configured as on Neovim's page."""

    (given,) = (it for it in snippets("neovim", "") if it.startswith("return {"))
    start = f"""
local given = (function()
{given}end)()
vim.api.nvim_create_autocmd({{ "BufRead" }}, {{ callback = function()
  local id = vim.lsp.start_client({{ name = "plain", cmd = given.cmd }})
  vim.lsp.buf_attach_client(0, id)
end }})
"""

    def settings(self) -> Dict[str, str]:
        shutil.rmtree(os.path.join(self.folder, ".local", "share", "nvim", "site", "pack", "ob0"))
        found = super().settings()
        return {name: lines + self.start for name, lines in found.items()}


@test("watch: ob0-watch reports a late answer that Neovim applies if ob0's files aren't installed")
def plain_neovim() -> None:
    want("Neovim")
    need_program()
    with temporary() as room, PlainNeovim(room, TEXT) as editor:
        editor.wire.hold(RENAME)
        editor.keys(editor.going(1, 4) + editor.asks["rename"][0])
        editor.await_("the request", editor.wire.is_held)
        editor.keys(editor.line_above)
        editor.reports("(* new *)\n" + TEXT)
        editor.wire.release()
        editor.await_("the late edit", lambda: "tot" in (editor.wire.text() or ""))
        breaks(editor, "late-edit")


BEHIND = "MODULE M;\nVAR n: INTEGER;\nBEGIN (* {} *) n := 1; Write(n)\nEND M.\n"


@test("watch: ob0-watch reports an edit that Vim with ALE applies at wrong positions after non-ASCII letters")
def ale_places() -> None:
    want("Vim", "ALE")
    need_program()
    with temporary() as room, keyed.Ale(room, BEHIND.format("\u00e9")) as editor:
        editor.keys(editor.going(1, 4) + editor.asks["rename"][0])
        editor.await_("the edit", lambda: "tot" in (editor.wire.text() or ""))
        breaks(editor, "wrong-places")


@test("watch: ob0-watch reports a change that Emacs with lsp-mode loses after an emoji, once the file is written")
def lsp_mode_places() -> None:
    want("Emacs", "lsp-mode")
    need_program()
    with temporary() as room, keyed.LspMode(room, BEHIND.format("\U0001f600")) as editor:
        editor.keys(editor.going(2, 9) + "\x1b:(progn (end-of-line) (insert \";\") (save-buffer))\r")
        editor.await_("the file", lambda: harness.text_of(editor.file) != BEHIND.format("\U0001f600"))
        breaks(editor, "lost-change")
