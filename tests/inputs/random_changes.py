"""Makes random changes to one document, near borders of tokens and of procedures, and often with errors in the text.
After each change, the server must answer like a new server that has never seen the document."""
from __future__ import annotations

import collections
import concurrent.futures
import json
import random
import re
from typing import Counter

import corpus
import faulty_modules
import ways
from harness import Message, Server, did_change, did_close, did_open, holds, same
from long_conversation import LITERALS, position_of
from random_texts import LEXEME
from seeds import named

URI = "file:///m"
STEPS = 100  # the changes of one conversation

# Pieces to insert, in addition to pieces of the text itself. Each joins, cuts, opens or closes something at some border.
PIECES = [
    *["a", "Z", "0", "7", " ", "\n", "\r\n", "\r", "\t", ";", ".", ",", ":", "=", "<", ">", "(", ")", "*", "+", "-", "~", "&", "#"],
    *["(*", "*)", "(* x *)", "(* é 😀 *)", "(**)", ":=", "<=", ">=", "[", "]", "$", "é", "😀", "\0"],
    *["IF", "END", "ELSE", "BEGIN", "VAR", "x", "INTEGER", "TRUE", "2147483648", "1a", "x.y", "x[1]"],
    *["; x := x + 1", "VAR q: INTEGER;", "PROCEDURE P; BEGIN END P;", "IF TRUE THEN END;", "REPEAT UNTIL TRUE;"],
    *["PROCEDURE", "PROCEDURE P;", "END P;", "CONST c = 1;"],
]

# Pieces to insert between two lexemes, or before the first: each lexeme is then written as before.
BLANKS = [" ", "  ", "\n", "\t", "(* x *)", " (* é *)\n"]

BORDERS = {"PROCEDURE", "BEGIN", "END"}  # words at which a procedure begins or ends, or its statements do


def is_border(text: str, at: int) -> bool:
    """Returns whether an offset is a valid position, that is, not between CR and LF."""
    return text[at - 1 : at + 1] != "\r\n"


def at_random(text: str, chance: random.Random) -> tuple[int, int]:
    """Returns a random range of offsets: at a border of lexemes, inside or around one, at the border of a procedure, or
    anywhere."""
    found = list(LEXEME.finditer(text))
    way = chance.random()
    if not found or way < 0.15:
        start = chance.randrange(len(text) + 1)
        return start, min(len(text), start + chance.choice([0, 0, 1, 2, 8]))
    lexeme = chance.choice(found)
    if way < 0.35:  # at a border of lexemes
        start = chance.choice([lexeme.start(), lexeme.end()])
        return start, start
    if way < 0.55:  # inside of a lexeme
        start = chance.randrange(lexeme.start(), lexeme.end() + 1)
        return start, chance.randrange(start, lexeme.end() + 1)
    if way < 0.7:  # the white space between two
        later = chance.choice(found)
        before = max((it.end() for it in found if it.end() <= later.start()), default=0)
        return before, later.start()
    borders = [it for it in found if it[0] in BORDERS]
    if way < 0.8 and borders:  # at a border of procedures, or between two of these
        border, other = chance.choice(borders), chance.choice(borders)
        if chance.random() < 0.7:
            return border.start(), chance.choice([border.start(), border.end()])
        return min(border.start(), other.start()), max(border.start(), other.start())
    if way < 0.9:  # a whole lexeme
        return lexeme.start(), lexeme.end()
    later = found[min(len(found) - 1, found.index(lexeme) + chance.choice([1, 2, 5, 30]))]
    return lexeme.start(), later.end()


def blank_at(text: str, chance: random.Random) -> tuple[int, int, str]:
    """Returns a replacement (start, end, new text) that inserts a blank, a line end or a comment between two lexemes or
    at the text's start."""
    found = list(LEXEME.finditer(text))
    place = 0
    if found and chance.random() < 0.9:
        place = chance.choice(chance.choice(found).span())
    return place, place, chance.choice(BLANKS)


def word_at(text: str, chance: random.Random) -> tuple[int, int, str]:
    """Returns a replacement (start, end, new text) that puts another name or number in place of one: one from the text,
    an undeclared one, or the same with one digit more. The kinds of the tokens stay the same. If the text has neither
    names nor numbers, returns a replacement like `blank_at`'s."""
    found = [it for it in LEXEME.finditer(text) if it[0].isdigit() or (it[0][0].isalpha() and not it[0].isupper())]
    if not found:
        return blank_at(text, chance)
    lexeme = chance.choice(found)
    others = [it[0] for it in found if it[0].isdigit() == lexeme[0].isdigit()]
    return lexeme.start(), lexeme.end(), chance.choice([*chance.choices(others, k=3), lexeme[0] + "1", "7" if lexeme[0].isdigit() else "q"])


def statement_at(text: str, chance: random.Random) -> tuple[int, int, str]:
    """Returns a replacement (start, end, new text) that inserts a statement before a semicolon or END. It uses names of
    the text, or an undeclared one. If the text has no names, or no place for a statement, returns a replacement like
    `blank_at`'s."""
    found = list(LEXEME.finditer(text))
    begin = next((it.start() for it in found if it[0] == "BEGIN"), 0)
    places = [it.start() for it in found if it[0] in (";", "END") and it.start() > begin]
    names = [it[0] for it in found if it[0][0].isalpha() and not it[0].isupper()]
    if not places or not names:
        return blank_at(text, chance)
    one, other = chance.choice(names), chance.choice([*chance.choices(names, k=2), "1", "1", "q"])
    place = chance.choice(places)
    same = [f"{one} := {one}", f"{one} := {one} + {other}", f"WHILE {one} < {other} DO {one} := {one} + 1 END", f"IF {one} = 1 THEN {one} END"]
    return place, place, f"; {chance.choice([*same, f'{one} := {other}', one])} "


# After which of these a statement or a declaration begins.
BEFORE_PARTS = {";", "BEGIN", "THEN", "ELSE", "DO", "REPEAT", "CONST", "TYPE", "VAR"}


def part_of(text: str, chance: random.Random) -> tuple[int, int]:
    """Returns the range of a random whole statement, declaration or procedure, including its semicolon. The range is
    empty if the text has none."""
    found = list(LEXEME.finditer(text))
    ends = [at for at, it in enumerate(found) if it[0] == ";" and at > 2]
    if not ends:
        return 0, 0
    end = chance.choice(ends)
    heads = [at for at in range(end) if found[at][0] == "PROCEDURE" and found[at + 1][0] == found[end - 1][0]]
    if found[end - 2][0] == "END" and heads:
        return found[heads[-1]].start(), found[end].end()
    before = [at for at in range(end) if found[at][0] in BEFORE_PARTS]
    first = before[-1] + 1 if before else 0
    return found[first].start(), found[end].end()


def place_of_part(text: str, chance: random.Random) -> int:
    """Returns a random offset at which a statement or declaration may begin, or 0 if there is none."""
    return chance.choice([it.end() for it in LEXEME.finditer(text) if it[0] in BEFORE_PARTS] or [0])


def replacement(text: str, chance: random.Random) -> str:
    """Returns a random text to insert: an empty one, one of PIECES, a lexeme of the text, or a longer part of the
    text."""
    way = chance.random()
    if way < 0.2:
        return ""
    if way < 0.65:
        return chance.choice(PIECES)
    found = list(LEXEME.finditer(text))
    if not found:
        return "MODULE M; END M."
    lexeme = chance.choice(found)
    if way < 0.9:
        return lexeme[0]
    return text[lexeme.start() : lexeme.end() + chance.randrange(40)]


class Edited:
    """The client's copy of a document. Its changes are often undone, so that the text is valid from time to time."""

    def __init__(self, text: str, chance: random.Random) -> None:
        self.text, self.chance = text, chance
        self.undo: list[tuple[int, str, str]] = []  # a place, the text that was inserted there, and the text before
        self.typing: list[str] = []  # the rest of a statement that is being typed
        self.cursor = 0  # the place of that rest
        self.moved = ""  # what was taken out, to be put in somewhere else

    def put(self, start: int, end: int, new: str) -> Message:
        """Replaces a range of the text, and returns the change as a message to the server describes it."""
        found = {"range": {"start": position_of(self.text, start), "end": position_of(self.text, end)}, "text": new}
        self.text = self.text[:start] + new + self.text[end:]
        return found

    def change(self) -> Message | None:
        """Makes a random change, and returns it for the server. Returns None if a position of the change would be
        between CR and LF."""
        if self.typing and self.chance.random() < 0.8:
            return self.type(self.cursor, self.typing)
        self.typing = []
        if self.moved and self.chance.random() < 0.8:
            place, moved = place_of_part(self.text, self.chance), self.moved
            self.moved = ""
            return self.exchange(place, place, f" {moved}")
        if self.undo and (self.chance.random() < 0.57 or len(self.text) > 6000):
            start, new, old = self.undo.pop()
            return self.put(start, start + len(new), old)
        way = self.chance.random()
        if way < 0.2:
            start, end, new = blank_at(self.text, self.chance)
        elif way < 0.56:
            start, end, new = word_at(self.text, self.chance)
        elif way < 0.64:
            start, end = part_of(self.text, self.chance)
            self.moved, new = self.text[start:end], ""
        elif way < 0.82:
            start, end, new = statement_at(self.text, self.chance)
            if way < 0.76 and new[0] == ";" and is_border(self.text, start) and ways.is_module(self.text):
                return self.type(start, re.findall(r"\s*\S{1,3}|\s+", new))
        else:
            start, end = at_random(self.text, self.chance)
            new = replacement(self.text, self.chance)
        return self.exchange(start, end, new)

    def exchange(self, start: int, end: int, new: str) -> Message | None:
        """Replaces a range, and remembers how to undo that. Returns None, and changes nothing, if a position would be
        between CR and LF."""
        old = self.text[start:end]
        whole = self.text[:start] + new + self.text[end:]
        # (no position is between CR and LF, before the change or when it is undone)
        if not all(is_border(self.text, it) for it in (start, end)) or not all(is_border(whole, it) for it in (start, start + len(new))):
            return None
        self.undo.append((start, new, old))
        return self.put(start, end, new)

    def type(self, at: int, pieces: list[str]) -> Message:
        """Inserts the first piece at an offset, and keeps the others to be typed after it."""
        first, *self.typing = pieces
        self.cursor = at + len(first)
        self.undo.append((at, first, ""))
        return self.put(at, at, first)


def answer_of(server: Server, uri: str, method: str, where: Message) -> str:
    """Returns a server's answer to a request about a document, as JSON. The document's URI is replaced by a fixed one,
    so that answers of different servers can be compared."""
    params: Message = {"position": where, "textDocument": {"uri": uri}, "context": {"includeDeclaration": True}, "newName": "k"}
    if method == "codeAction":
        params = {"context": {}, "range": {"end": where, "start": where}, "textDocument": {"uri": uri}}
    if method == "formatting":
        params = {"options": {"insertSpaces": True, "tabSize": 2}, "textDocument": {"uri": uri}}
    found = server.query(f"textDocument/{method}", params)
    return json.dumps({key: it for key, it in found.items() if key != "id"}, sort_keys=True).replace(uri, URI)


QUESTIONS = ["hover", "definition", "references", "rename", "codeAction", "formatting"]


def same_as_new(keeping: Server, fresh: Server, edited: Edited, published: list[Message], uri: str, where: str) -> None:
    """Compares the diagnostics and some answers of a server that has seen all changes with those of a server that reads
    the text for the first time."""
    same(published, fresh.notify(did_open(edited.text, uri)), f"{where}: diagnostics of\n{edited.text}\n")
    if not published or edited.chance.random() < 0.1:
        for method in edited.chance.sample(QUESTIONS, 2):
            at = position_of(edited.text, edited.chance.randrange(len(edited.text) + 1))
            got, wanted = answer_of(keeping, URI, method, at), answer_of(fresh, uri, method, at)
            same(got, wanted, f"{where}: {method} at {at} of\n{edited.text}\n")
    fresh.notify(did_close(uri))


def first_text(seed: int, chance: random.Random) -> str:
    """Returns a random valid module, or one with many errors of scopes and types."""
    way = chance.random()
    if way < 0.2:
        return faulty_modules.records(seed)
    if way < 0.4:
        return faulty_modules.module(seed)
    return corpus.module(chance.choice([300, 900, 2000]), seed, chance.random() < 0.2)


def converse(seed: int) -> Counter[str]:
    """Holds one conversation, and after each change compares the server with one that reads the text for the first
    time. Returns how often each kind of change (`ways`) and of error occurred, and how many texts were valid."""
    chance = random.Random(f"changes {seed}")
    edited = Edited(first_text(seed, chance), chance)
    found: Counter[str] = collections.Counter()
    last = module = ways.lexed(edited.text)
    with Server(capabilities=LITERALS) as keeping, Server(capabilities=LITERALS) as fresh:
        before = keeping.notify(did_open(edited.text, URI))
        for step in range(STEPS):
            while (change := edited.change()) is None:
                pass
            published = keeping.notify(did_change([change], URI, step + 2))
            now = ways.lexed(edited.text)
            way, body = ways.way_of(last, now, module)
            found.update([way, *(["no fault"] if not published else [])])
            if way == ways.STATEMENTS and not before and not published:
                found["faultless statements"] += 1
            if body:
                # (the text before had as many lines, and its faults were at the same lines)
                found.update(ways.faults_about(before, edited.text, body))
            last, module, before = now or last, ways.last_module(module, now), published
            same_as_new(keeping, fresh, edited, published, f"file:///n{step}", f"{named(seed)}, step {step}")
        for it in (keeping, fresh):
            same(it.end(), 0, "the status")
    return found


# Many changes have to include each kind, and changes of one body of a module with faults of each kind in each place.
PLACES = ["before it", "in it", "after it"]
WAYS = [*ways.SHORT, ways.PARSED, *ways.LONG, ways.LEXEMES]
FAULTS = [f"{of} {where}" for of in ("names", "types") for where in PLACES]
KINDS = [*WAYS, *FAULTS]
ENOUGH = 10_000  # (the rarest kinds are in few conversations, some ten of a thousand changes or none)


def figures(conversations: list[Counter[str]]) -> str:
    """Returns a line of statistics about conversations. In a long run, fails if a kind of change didn't occur, or if
    too many changes needed the whole module to be analysed again."""
    found: Counter[str] = sum(conversations, collections.Counter())
    count = len(conversations) * STEPS
    missing = [it for it in ["no fault", "faultless statements", *KINDS] if not found[it]]
    holds(count < ENOUGH or not missing, f"of {count:,} changes none was {missing}")
    long = sum(found[it] for it in ways.LONG)
    holds(count < 1000 or long * 4 < count, f"after {long:,} of {count:,} changes the whole module is examined again")
    kinds = ", ".join(f"{found[it]:,} {it}" for it in WAYS)
    faults = ", ".join(f"{found[it]:,} of {it}" for it in FAULTS)
    return (f"{count:,} changes (after each what a new server says: {found['no fault']:,} texts without a fault; {kinds}; "
            f"of the other statements {found['faultless statements']:,} with no fault before and after; "
            f"those in one body beside faults: {faults})")


def seeds_of(count: int, first: int) -> range:
    return range(first, first + max(1, count // STEPS))


def some_changes(count: int, first: int) -> str:
    """Makes `count` changes, in one conversation after another. Returns a line of statistics."""
    return figures([converse(it) for it in seeds_of(count, first)])


def many_changes(count: int, first: int, processes: int) -> str:
    """Makes `count` changes, with conversations in several processes. Returns a line of statistics."""
    with concurrent.futures.ProcessPoolExecutor(processes) as pool:
        return figures(list(pool.map(converse, seeds_of(count, first))))
