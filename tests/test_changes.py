"""Tests that the server's text equals the editor's after changes of ranges, in UTF-16 and UTF-8 units."""
from __future__ import annotations

import random
from collections.abc import Callable
from typing import Any

from harness import Message, Server, compact, diagnostic, did_change, did_open, extent, holds, initialize, place, published, same, serve, test

ENDS = ("\r\n", "\r", "\n")


def units(text: str, utf8: bool) -> int:
    return len(text.encode()) if utf8 else len(text.encode("utf-16-le")) // 2


class Edited:
    """Models a text in an editor, with its changes. Offsets are counted in characters."""

    def __init__(self, text: str, utf8: bool = False) -> None:
        self.text, self.utf8 = text, utf8

    def starts(self) -> list[int]:
        """Returns the offset at which each line starts."""
        found, at = [0], 0
        while at < len(self.text):
            ending = next((it for it in ENDS if self.text.startswith(it, at)), "")
            at += len(ending) or 1
            if ending:
                found.append(at)
        return found

    def position(self, at: int) -> Message:
        """Returns the LSP position of an offset, which must not be between CR and LF."""
        starts = self.starts()
        line = max(count for count, start in enumerate(starts) if start <= at)
        return {"line": line, "character": units(self.text[starts[line] : at], self.utf8)}

    def change(self, start: int, end: int, new: str) -> Message:
        """Replaces the text from `start` to `end`, and returns the change as a notification contains it."""
        found = {"range": {"start": self.position(start), "end": self.position(end)}, "text": new}
        self.text = self.text[:start] + new + self.text[end:]
        return found


def faults(edited: Edited) -> list[Message]:
    """Returns the expected diagnostics of bad characters, at most 100. The text may contain white space, letters,
    closed comments, and the bad characters `$`, `é` and `😀`."""
    found, depth, at, text = [], 0, 0, edited.text
    while at < len(text):
        pair = text[at : at + 2]
        if pair == "(*" or pair == "*)" and depth:
            depth += 1 if pair == "(*" else -1
            at += 2
            continue
        if not depth and text[at] in "$😀é":
            places = {"end": edited.position(at + 1), "start": edited.position(at)}
            found.append({"code": "BadChar", "message": "bad character", "range": places, "severity": 1})
        at += 1
    return found[:100]


def is_between(text: str, at: int) -> bool:
    return text[at - 1 : at + 1] == "\r\n"


def scanned(diagnostics: list[Message]) -> list[Message]:
    """Returns the diagnostics that are about bad characters."""
    return [it for it in diagnostics if it["code"] == "BadChar"]


def session(seed: int, utf8: bool, steps: int) -> None:
    """Sends notifications with random changes. After each one the server must report the bad characters at their
    positions in the editor's text."""
    chance = random.Random(seed)
    offer: Message = {"capabilities": {"general": {"positionEncodings": ["utf-8", "utf-16"] if utf8 else ["utf-16"]}}}
    edited = Edited("$ a\r\n$ (* 😀 *) b\r$\n", utf8)
    pieces = ["$", "a", "😀", "\r", "\n", "\r\n", " ", "é", "(* 😀\r\n *)", "b$b", ""]
    pieces[7] = "(*é*)"
    with Server(**offer) as server:
        same("positionEncoding" in server.first["result"]["capabilities"], utf8, "whether the encoding is announced")
        same(scanned(server.notify(did_open(edited.text))), faults(edited), "at first")
        for step in range(steps):
            changes = []
            for _ in range(chance.choice([1, 1, 1, 2, 3])):
                places = [it for it in range(len(edited.text) + 1) if not is_between(edited.text, it)]
                start = chance.randrange(len(places))
                end = min(len(places) - 1, start + chance.choice([0, 0, 1, 2, 5]))
                # (if the text has more than 60 characters, it only shrinks)
                new = "" if len(edited.text) > 60 else chance.choice(pieces)
                changes.append(edited.change(places[start], places[end], new))
            if edited.text.count("(*") != edited.text.count("*)"):
                edited.text = "$ a\r\n$ (* 😀 *) b\r$\n"
                changes = [{"text": edited.text}]
            if sum(it in "$😀é" for it in edited.text) > 90:
                raise AssertionError("the text is too long for the first 100 faults")
            found = scanned(server.notify(did_change(changes, version=step + 2)))
            same(compact(found), compact(faults(edited)), f"step {step} of {edited.text!r}")
        same(server.end(), 0, "the status")


@test("changes: in UTF-16 units the server reports bad characters at their positions after each of 1,000 random steps")
def utf16() -> None:
    session(1, False, 1000)


@test("changes: in UTF-8 units the server reports bad characters at their positions after each of 1,000 random steps")
def utf8_units() -> None:
    session(2, True, 1000)


def changed(text: str, *changes: tuple[str | None, str], encodings: list[Any] | str | None = None) -> list[Message]:
    """Opens a text, makes these changes in one notification, and returns the diagnostics about bad characters. Each
    change is a range, or None for the whole text, and the new text."""
    capabilities = {"general": {"positionEncodings": encodings}} if encodings else {}
    with Server(capabilities=capabilities) as server:
        server.notify(did_open(text))
        given = [{"range": extent(where), "text": new} if where else {"text": new} for where, new in changes]
        return scanned(server.notify(did_change(given)))


def at_end(text: str, *changes: tuple[str | None, str], encodings: list[Any] | str | None = None) -> Message:
    """Applies the changes, and returns the position at which the server then has the text's end: a bad character is
    appended, and its diagnostic shows the position."""
    end = ("18446744073709551615:0-18446744073709551615:0", "$")
    found = changed(text, *changes, end, encodings=encodings)
    start: Message = found[-1]["range"]["start"]
    return start


@test("changes: ranges at line ends, in surrogate pairs, swapped or after the text replace the expected part")
def lines() -> None:
    same(at_end("(* 😀 *) x := 1;"), place(0, 16), "units of UTF-16")
    same(at_end("(* 😀 *) x := 1;", ("0:9-0:10", "yz")), place(0, 17), "a name replaced after a pair")
    same(at_end("(* 😀 *) x := 1;", ("0:9-0:10", "yz"), ("0:4-0:4", "!")), place(0, 18), "inside a pair: before it")
    same(at_end("a\rb", ("1:0-1:0", "\n"), ("1:1-1:1", "\nc"), ("2:0-2:1", "d")), place(2, 1), "CR and LF become one ending")
    same(at_end("a\r\nb", ("0:1-1:0", "")), place(0, 2), "an ending taken away")
    same(at_end("ab\ncd", ("1:1-0:1", "x")), place(0, 3), "a range that is swapped")
    same(at_end("ab\ncd", ("0:99-1:0", "")), place(0, 4), "a character after the line's end")
    same(at_end("ab\ncd", ("7:3-9:9", "e")), place(1, 3), "a line after the last")
    same(at_end("ab", ("0:0-0:1", ""), (None, "xyz"), ("0:1-0:2", "")), place(0, 2), "a whole text between ranges")


@test("changes: an inserted bad character is reported at its position, and isn't reported if it is in a comment")
def places() -> None:
    bad: Callable[[str], list[Message]] = lambda where: [diagnostic("BadChar", "bad character", where)]
    same(changed("(* 😀 *) x", ("0:9-0:9", "$")), bad("0:9-0:10"), "after a pair")
    same(changed("(* 😀 *) x", ("0:4-0:4", "$")), [], "in the comment")
    same(changed("a\rb", ("1:0-1:0", "\n"), ("1:0-1:0", "$")), bad("1:0-1:1"), "after CR LF")
    same(changed("a\r\nb", ("0:9-0:9", "$")), bad("0:1-0:2"), "before CR LF")


WITH_PAIR = "(* 😀 *) x := 1;"


@test("changes: a position inside a character counts as the position before that character, in UTF-8 and UTF-16 units")
def inside() -> None:
    wanted = [diagnostic("BadChar", "bad character", "0:5-0:6")]
    for encodings, places in ((["utf-16"], [3, 4]), (["utf-8"], [3, 4, 5, 6])):
        for at in places:
            # (if the position moved to the end of the character, the bad one would be at 0:7 in UTF-16 and at 0:9 in
            # UTF-8)
            found = changed(WITH_PAIR, (f"0:{at}-0:{at}", "*)$(*"), encodings=encodings)
            same(found, wanted, f"0:{at} in {encodings[0]}")


@test("changes: a position after a line's end counts as that end, and one after the last line as the text's end")
def past_the_end() -> None:
    bad: Callable[[str], list[Message]] = lambda where: [diagnostic("BadChar", "bad character", where)]
    same(changed(WITH_PAIR, ("0:99-0:99", "$")), bad("0:16-0:17"), "0:99, of one line")
    same(changed(WITH_PAIR, ("7:0-7:0", "$")), bad("0:16-0:17"), "7:0, of one line")
    for ending in ENDS:
        text = f"ab{ending}(* 😀 *){ending}c"
        same(changed(text, ("0:99-0:99", "$")), bad("0:2-0:3"), f"0:99 before {ending!r}")
        same(changed(text, ("1:99-1:99", "$")), bad("1:8-1:9"), f"1:99 before {ending!r}")
        same(changed(text, ("7:0-7:0", "$")), bad("2:1-2:2"), f"7:0 after {ending!r}")


@test("changes: in UTF-8 units, a position after the end of a text of one line counts as the text's end")
def behind_utf8() -> None:
    bad = [diagnostic("BadChar", "bad character", "0:18-0:19")]
    for where in ("0:99-0:99", "7:0-7:0"):
        same(changed(WITH_PAIR, (where, "$"), encodings=["utf-8"]), bad, where)


def all_at_once(text: str, *changes: tuple[str, str]) -> list[str]:
    """Returns the diagnostics that are published for a text: when it is opened, and after one notification with these
    changes (each a range and a new text)."""
    given = [{"range": extent(where), "text": new} for where, new in changes]
    return serve([initialize(), did_open(text), did_change(given, version=2)]).contents()[1:]


@test("changes: several changes in one notification cause one publication, with the notification's version")
def one_notification() -> None:
    def bad(*places: str) -> list[Message]:
        return [diagnostic("BadChar", "bad character", it) for it in places]

    module = [diagnostic("Syntax", "expected MODULE", "0:0-0:1")]
    given = [("1:0-1:0", "\n"), ("1:1-1:1", "\nc")]
    same(all_at_once("a\rb", *given, ("2:0-2:1", "d")), [published(module), published(module, version=2)], "letters")
    found = all_at_once("$\r$", *given, ("2:0-2:1", "$"))
    three = published(bad("0:0-0:1", "1:0-1:1", "2:0-2:1"), version=2)
    same(found, [published(bad("0:0-0:1", "1:0-1:1")), three], "the three lines, each of a bad character")
    same(all_at_once("$", ("0:0-0:0", "\r\n"), ("1:0-1:0", "\r"))[1], published(bad("2:0-2:1"), version=2), "two changes")


@test("changes: a range refers to the text after the previous change, and a malformed one requires a full text")
def one_after_another() -> None:
    module = "MODULE M; END M."
    given = [
        did_open(module),
        did_change([{"range": extent("0:9-0:9"), "rangeLength": 0, "text": "\n"}, {"range": extent("1:0-1:1"), "text": "$"}]),
        did_change([{"range": {"start": {"line": 1, "character": 1.0}, "end": {"line": 1, "character": 1}}, "text": ""}], version=3),
        did_change([{"text": "$"}, {"range": None, "text": module}], version=4),
    ]
    bad = published([diagnostic("BadChar", "bad character", "1:0-1:1")], version=2)
    same(serve([initialize(), *given]).contents()[1:], [published([]), bad, published([], version=4)])


@test("changes: columns count UTF-8 bytes if the client offers utf-8, and UTF-16 units otherwise")
def utf8_lines() -> None:
    both = ["utf-8", "utf-16"]
    text = "(* 😀 *) x := 1;"
    same(at_end(text, encodings=both), place(0, 18), "units of UTF-8")
    same(at_end(text, encodings=["utf-32"]), place(0, 16), "what isn't offered isn't taken")
    same(at_end(text, ("0:11-0:12", "yz"), encodings=both), place(0, 19), "a name after four bytes")
    same(at_end(text, ("0:5-0:5", "!"), encodings=both), place(0, 19), "inside a character: before it")


@test("changes: the server announces utf-8 only if the client's list of encodings contains utf-8")
def announced() -> None:
    for encodings, wanted in ((["utf-8"], True), ([7, "utf-8"], True), (["utf-16"], False), ([], False), ("utf-8", False)):
        with Server(capabilities={"general": {"positionEncodings": encodings}}) as server:
            found = server.first["result"]["capabilities"]
        same(found.get("positionEncoding"), "utf-8" if wanted else None, repr(encodings))


@test("changes: a document ignores changes of a range after a malformed change, until its full text is sent")
def broken() -> None:
    module = "MODULE M; END M."
    with Server() as server:
        same(server.notify(did_open(module)), [])
        for at, change in enumerate(
            [
                {"range": {"start": {"line": -1, "character": 0}, "end": {"line": 0, "character": 0}}, "text": ""},
                {"range": {"start": {"line": 0, "character": 1.0}, "end": {"line": 0, "character": 2}}, "text": ""},
                {"range": {"start": {"line": 18446744073709551616, "character": 0}, "end": {"line": 0, "character": 2}}, "text": ""},
                {"range": {}, "text": ""},
                {"range": extent("0:0-0:0")},
                {"text": 7},
                7,
            ]
        ):
            server.send(did_change([change], version=10 * at))
            # (the server ignores this ranged change, and sends nothing)
            server.send(did_change([{"range": extent("0:0-0:0"), "text": "$"}], version=10 * at + 1))
            same(server.notify(did_change(module, version=10 * at + 2)), [], f"after {change}")


@test("changes: changes near the end of a text of 20,000 lines are applied at the right lines")
def long_text() -> None:
    lines = [f"(* line {at} *)" for at in range(20000)]
    with Server() as server:
        same(scanned(server.notify(did_open("\n".join(lines)))), [])
        for step in range(50):
            found = server.notify(did_change([{"range": extent("19990:3-19990:3"), "text": "*)$(*"}], version=step + 2))
            same(len(found), min(step + 1, 100), "the bad characters")
        holds(found[0]["range"]["start"]["line"] == 19990, "the line")
