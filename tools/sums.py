"""Computes the checksum of a row of tools/mutants.txt, over the words of everything that its verdict depends on.

These words are in three places: the mutant; each function that it changes, with its contract (also the trait's contract
and the type's model); and the definitions that the contract uses, directly or through others of the same crate.
Comments and formatting don't count, and local variables are replaced by numbers."""
from __future__ import annotations

import functools
import hashlib
import os
import re
from collections.abc import Iterable
from typing import Dict, List, Optional, Tuple

import common
import definitions
import reading
from edits import Edit

Part = Tuple[str, List[str]]  # the name of a part (a function or a definition), and its words
# The words of an edit: string literals, characters, names and numbers, and signs.
EDIT_WORD = re.compile(r"\"(?:\\.|[^\"\\])*\"|'(?:\\.|[^'\\])'|\w+|[^\w\s]")
DEFINITION_WORD = re.compile(r"\"[^\"]*\"|[\w']+|[^\w\s]")
LOCAL = re.compile(r"[a-z_]\w*$")
WORDS_OF_PATTERNS = frozenset({"mut", "ref", "move", "if", "true", "false", "_", "self"})
GHOST_USE = re.compile(r"^\s*ghost (use .*?);", re.M)
OPENING, CLOSING = frozenset("([{"), frozenset(")]}")


class Definitions(definitions.Sources):
    """Looks up the definitions of the crates, without the types of the code."""

    def resolve(self, module: str, name: Optional[str]) -> Optional[definitions.Item]:
        parts = module.split(".")
        if "declared" in parts or not name or not parts[1].startswith("ob0_"):
            return None
        file, head = self.file_of(parts[1], parts[3:]), name.partition(".")[0]
        if file and head not in file.named and head not in file.passed_on:
            # (a definition inside a module of definitions)
            inside = re.compile(rf"\s+(?:\w+ )*{re.escape(head)}(?:\s|$)")
            block = next((it for it in file.blocks if any(map(inside.match, it.code))), None)
            if not block:
                return None
            file.named[head] = block
        return super().resolve(module, name)


class Parts:
    """Collects the words on which the verdicts of mutants depend."""

    def __init__(self) -> None:
        self.definitions = Definitions()
        self.sources: Dict[str, reading.Source] = {}
        self.uses: Dict[str, definitions.File] = {}

    def source(self, crate: str) -> reading.Source:
        if crate not in self.sources:
            self.sources[crate] = reading.Source(crate)
        return self.sources[crate]

    def of(self, edit: Edit) -> List[Part]:
        """Returns the words on which the verdict of a form depends."""
        source, names = self.source(edit.crate), Names()
        if edit.turned is None:
            files = sorted({path for path, _ in edit.lines})
            return [(it, source.all_words(it)) for it in files] + [names.of_edit(edit)]
        turned = sorted(edit.turned, key=lambda it: it.path)
        names.take(word for it in turned for word in binders(source.words_of(it)))
        found = [(it.path, names.numbered(cut(self.words(source, it)))) for it in turned]
        blocks = self.blocks(source, turned)
        return found + [names.of_edit(edit)] + [(it.names[0], words_of_block(it)) for it in blocks]

    def words(self, source: reading.Source, function: reading.Function) -> List[str]:
        """Returns the words of a function, of its contract (also the contract in its trait), and of the model of its
        type."""
        found = [*source.head_of_block(function), *source.words_of(function), *source.model_of(function.owner)]
        if function.trait and function.trait != function.owner:
            for crate in reversed(common.below(function.crate)):
                at_trait = self.at_trait(crate, function)
                if at_trait:
                    return found + self.source(crate).words_of(at_trait)
        return found

    def at_trait(self, crate: str, function: reading.Function) -> Optional[reading.Function]:
        """Returns the declaration of a method in its trait, or None if this crate doesn't declare the trait."""
        if function.trait not in self.source(crate).traits:
            return None
        named = (it for it in self.source(crate).functions if it.owner == function.trait and it.name == function.name)
        return next(named, None)

    def blocks(self, source: reading.Source, turned: Iterable[reading.Function]) -> List[definitions.Block]:
        """Returns the definitions that the contracts of functions use, directly or through others of the same crate."""
        found: List[definitions.Block] = []
        waiting = [block for it in turned for block in self.named_by(it.crate, it.file, self.words(source, it))]
        while waiting:
            block = waiting.pop()
            if block in found or not block.names:
                continue
            found.append(block)
            below = self.definitions.needs(block)
            waiting += [it for it in below if isinstance(it, definitions.Block) and it.file.crate == block.file.crate]
        return found

    def named_by(self, crate: str, file: str, words: Iterable[str]) -> List[definitions.Block]:
        """Returns the definitions to which the words of a source refer, according to the file's `ghost use` lines."""
        uses = self.uses_of(os.path.join(common.TOP, "crates", crate, file))
        items = (self.definitions.look_up(uses, it) for it in dict.fromkeys(words))
        return [it for it in items if isinstance(it, definitions.Block)]

    def uses_of(self, path: str) -> definitions.File:
        """Reads the `ghost use` lines of a source, and returns their imports."""
        if path not in self.uses:
            found = self.uses[path] = definitions.File.__new__(definitions.File)
            found.uses, found.passed_on, found.named = {}, {}, {}
            with open(path, encoding="utf-8") as file:
                for line in GHOST_USE.findall(file.read()):
                    found.take_use(line)
        return self.uses[path]


class Names:
    """Gives numbers to the local variables of functions, in the order of their appearance."""

    def __init__(self) -> None:
        self.locals: set[str] = set()
        self.numbers: Dict[str, int] = {}

    def take(self, names: Iterable[str]) -> None:
        self.locals.update(names)

    def numbered(self, words: List[str]) -> List[str]:
        """Returns words with each local variable replaced by its number. (A name after a dot, in a path, or before a
        bracket isn't a variable.)"""
        found = []
        for at, word in enumerate(words):
            before, after = words[at - 1] if at else "", words[at + 1] if at + 1 < len(words) else ""
            is_local = word in self.locals and before not in (".", ":") and after != "("
            if before == ":" and word in self.locals and words[at - 2 : at - 1] != [":"]:
                is_local = after != "("
            found.append(f"${self.numbers.setdefault(word, len(self.numbers))}" if is_local else word)
        return found

    def of_edit(self, edit: Edit) -> Part:
        """Returns the words of a form's old and new texts, with each local variable replaced by its number."""
        texts = [EDIT_WORD.findall(text) for _, *both in edit.replacements() for text in both]
        self.take(name for it in texts for name in binders(it))
        return "", [word for it in texts for word in [*self.numbered(it), ";"]]


def cut(words: Iterable[str]) -> List[str]:
    """Returns words with each path of fields, such as `a.b`, split into several words. (In a contract a path is one
    word.)"""
    return [part for it in words for part in (it.replace(".", " . ").split() if re.match(r"[A-Za-z_]\w*\.", it) else [it])]


@functools.lru_cache(maxsize=None)
def words_of_block(block: definitions.Block) -> List[str]:
    """Returns the words of a definition without its comments."""
    return DEFINITION_WORD.findall("\n".join(re.sub(r"--.*$", "", it) for it in block.code))


def sum_of(parts: List[Part]) -> str:
    """Returns a short checksum of these parts."""
    return hashlib.sha256(repr(parts).encode()).hexdigest()[:16]


# ---- the names that words bind


def binders(words: List[str]) -> List[str]:
    """Returns the local variables that code declares: parameters, and names in the patterns of `let`, `for`, arms and
    closures."""
    found: List[str] = []
    for at, word in enumerate(words):
        if word == "fn":
            found += names_of_parameters(words, at)
        elif word in ("let", "for"):
            ends = next((it for it in range(at, len(words)) if words[it] in ("=", ";", "in")), at)
            found += names_in_pattern(words[at + 1 : ends])
        elif word == "=" and words[at + 1 : at + 2] == [">"]:
            found += names_in_pattern(pattern_before(words, at))
        elif word == "|" and at and words[at - 1] in ("(", ",", "=", "move"):
            ends = next((it for it in range(at + 1, len(words)) if words[it] == "|"), at)
            found += names_in_pattern(words[at + 1 : ends])
    return found


def names_of_parameters(words: List[str], at: int) -> List[str]:
    """Returns the names of the parameters of a function. Its `fn` is at the index `at`."""
    opens = next((it for it in range(at, len(words)) if words[it] == "("), len(words))
    depth, found = 0, []
    for place in range(opens, len(words) - 2):
        depth += (words[place] in OPENING) - (words[place] in CLOSING)
        if not depth:
            break
        is_name = depth == 1 and words[place + 1] == ":" and words[place + 2] != ":" and words[place - 1] != ":"
        found += [words[place]] * (is_name and bool(LOCAL.match(words[place])))
    return found


def pattern_before(words: List[str], at: int) -> List[str]:
    """Returns the pattern of a `match` arm without its guard. The arm's arrow is at the index `at`."""
    depth, first = 0, at
    while first:
        word = words[first - 1]
        if word == "}" and not depth and words[first] not in ("=", "|", "if"):
            break
        depth += (word in CLOSING) - (word in OPENING)
        if depth < 0 or word == "," and not depth:
            break
        first -= 1
    pattern = words[first:at]
    return pattern[: pattern.index("if")] if "if" in pattern else pattern


def names_in_pattern(words: List[str]) -> List[str]:
    """Returns the names that a pattern binds."""
    found = []
    for at, word in enumerate(words):
        before, after = words[at - 1] if at else "", words[at + 1] if at + 1 < len(words) else ""
        is_path = before == ":" and words[at - 2 : at - 1] == [":"] or before in (".", "'")
        if LOCAL.match(word) and word not in WORDS_OF_PATTERNS and not is_path and after not in ("(", "{", ":"):
            found.append(word)
    return found
