"""Reads a crate's sources: its functions with their places, its constants, and its public items.

The toolchain cuts a source into words (`rattle fmt --tokens`), and tells contracts and comments from code."""
from __future__ import annotations

import json
import os
import re
import subprocess
from collections.abc import Iterable
from typing import Any, Tuple

import common

Module = Tuple[str, ...]  # the path of a module in its crate


class Function:
    """A function of a crate: its place in the sources, its owner, and its words."""

    def __init__(self, scope: Scope, name: str, words: list[Word], is_pub: bool) -> None:
        self.crate, self.module, self.owner, self.trait = scope.crate, scope.module, scope.owner, scope.trait
        self.is_of_reference = scope.is_of_reference
        self.impl_words, self.is_test = scope.impl_words, scope.is_test
        self.name, self.is_pub, self.words = name, is_pub, [it.text for it in words]
        self.file, self.first, self.last = scope.file, words[0].line, words[-1].line
        self.block_from = scope.block_from
        self.head, self.has_body = heading(self.words), self.words[-1] == "}"
        # (the line on which the function's body begins)
        self.opens = words[min(len(self.head), len(words) - 1)].line
        cycle = re.search(r"# \[ cycle \( (\w+)", " ".join(self.head))
        self.proof = "::".join([*self.module, f"+{cycle[1]}"]) if cycle else self.path
        self.home = self.module  # the module in the checker's name; for a method it is the module of its type

    @property
    def path(self) -> str:
        """Returns the function's name in the form for readers, module::Owner::name."""
        return "::".join([*self.module, *([self.owner] if self.owner else []), self.name])

    @property
    def checked_as(self) -> str:
        """Returns the checker's name for the function, without the crate. In the name of a trait's method, the type and
        the trait are joined into one word."""
        of_trait = "".join(it for it in self.impl_words if it != self.owner)
        owner = f"Ref{self.owner[:1].upper()}{self.owner[1:]}" if self.is_of_reference else self.owner
        inside = [owner + of_trait] if owner else []
        return "::".join([*(self.module if self.trait else self.home), *inside, self.name])

    @property
    def gives(self) -> bool:
        """Returns whether the function has a result, or writes through an argument."""
        text = " ".join(self.head)
        result = re.search(r"- > (?!\( \)$)", text)
        return bool(result or re.search(r"& (?:'\w+ )?mut ", text))

    @property
    def places(self) -> list[str]:
        """Returns the possible beginnings of the checker's names for the function and for its closures."""
        modules = [self.module] if self.trait else [self.home, self.module]
        return ["::".join([self.crate, *it, ""]) for it in modules]

    def is_named(self, symbol: str) -> bool:
        """Returns whether a name in the checker's output refers to this function, or to a closure in it."""
        at = next((it for it in self.places if symbol.startswith(it)), None)
        if at is None:
            return False
        rest = symbol[len(at) :]
        if rest.startswith("fn::"):
            inside = "::".join(([self.owner] if self.owner else []) + [self.name])
            return f"{rest[4:]}::".startswith((f"{inside}::", f"{self.name}::"))
        if not self.trait:
            return at == self.places[0] and rest == "::".join([*([self.owner] if self.owner else []), self.name])
        held, _, last = rest.rpartition("::")
        plain = held.replace("_", "").lower()
        is_met = last == self.name and all(it.replace("_", "").lower() in plain for it in self.impl_words)
        return is_met and (not self.is_of_reference or plain.startswith("ref"))


class TypeItem:
    """A type of a crate: its kind, and its variants or public fields in the order of the source."""

    def __init__(self, scope: Scope, words: list[Word], at: int, is_pub: bool) -> None:
        texts = [it.text for it in words]
        self.crate, self.module, self.kind, self.name = scope.crate, scope.module, texts[at], texts[at + 1]
        self.is_pub, self.is_test = is_pub, scope.is_test
        self.parts = parts_of(self.kind, texts[at + 2 :])

    @property
    def path(self) -> str:
        """Returns the type's name in the form for readers, module::Name."""
        return "::".join([*self.module, self.name])


def parts_of(kind: str, texts: list[str]) -> list[str]:
    """Returns the text of each variant of an enum, or of each public field of a struct. For an alias returns the type
    that it stands for."""
    if kind == "type":
        return [spelled(texts[texts.index("=") + 1 : -1])] if "=" in texts else []
    opens = next((at for at, it in enumerate(texts) if it in "{("), None)
    found: list[str] = []
    while opens is not None and opens + 1 < len(texts) and texts[opens + 1] not in "})":
        end = end_of_part(texts, opens + 1)
        part = without_attributes(texts[opens + 1 : end])
        is_shown = kind == "enum" or part[:1] == ["pub"] and part[1:2] != ["("]
        found += [spelled(part[part[:1] == ["pub"] :])] if part and is_shown else []
        opens = end if texts[end : end + 1] == [","] else None
    return found


def end_of_part(texts: list[str], at: int) -> int:
    """Returns the index of the comma or bracket that ends a variant or field."""
    depth = 0
    while at < len(texts) and (depth or texts[at] not in ",})"):
        depth += (texts[at] in "([{<") - (texts[at] in ")]}" or texts[at] == ">" and texts[at - 1] != "-")
        at += 1
    return at


def without_attributes(texts: list[str]) -> list[str]:
    """Returns the words of a variant or field without its attributes."""
    while texts[:1] == ["#"]:
        texts = texts[end_of_brackets(texts, 1) :]
    return texts


def end_of_brackets(texts: list[str], at: int) -> int:
    """Returns the index after the bracket that closes the one at `at`."""
    depth = 0
    for place in range(at, len(texts)):
        depth += (texts[place] in "([{") - (texts[place] in ")]}")
        if not depth:
            return place + 1
    return len(texts)


def spelled(texts: list[str]) -> str:
    """Joins the words of a type into one line with the usual spaces."""
    found = " ".join(texts)
    for old, new in ((" : :", "::"), (":: ", "::"), (" :", ":"), (" ,", ","), (" (", "("), ("( ", "("), (" )", ")"), (" <", "<"), ("< ", "<"),
                     (" >", ">"), ("& ", "&"), ("[ ", "["), (" ]", "]"), (" ;", ";"), (", }", " }"), (",)", ")")):
        found = found.replace(old, new)
    return found


class Word:
    def __init__(self, line: int, text: str) -> None:
        self.line, self.text, self.is_test = line, text, False


class Scope:
    """The place in a crate at which a source is being read."""

    def __init__(
        self,
        crate: str,
        file: str,
        module: Module,
        owner: str = "",
        trait: str = "",
        impl_words: tuple[str, ...] = (),
        is_test: bool = False,
        is_of_reference: bool = False,
        block_from: int = 0,
    ) -> None:
        self.crate, self.file, self.module, self.owner, self.trait = crate, file, module, owner, trait
        self.block_from = block_from  # the first line of the impl or trait
        # (is_of_reference: the trait is implemented for references to the owner)
        self.impl_words, self.is_test, self.is_of_reference = impl_words, is_test, is_of_reference

    def inside(self, **changed: Any) -> Scope:
        given = {**self.__dict__, **changed}
        return Scope(**given)


def heading(words: list[str]) -> list[str]:
    """Returns the words of a function up to its body."""
    depth = 0
    for at, word in enumerate(words):
        depth += (word in "([") - (word in ")]")
        if word in "{;" and not depth and "fn" in words[:at]:
            return words[:at]
    return words


def rattle() -> str:
    return os.path.join(os.path.dirname(os.path.realpath(common.need("rt"))), "rattle")


class Text:
    """The words of a file: `code` without contracts, and `all` with them, each with its line."""

    def __init__(self) -> None:
        self.code: list[Word] = []
        self.all: list[Tuple[int, str]] = []


def words_of(files: list[str]) -> dict[str, Text]:
    """Returns the words of each file without comments, by the file's path. Ends the script if a file can't be read."""
    if not files:
        return {}
    ran = subprocess.run([rattle(), "fmt", "--tokens", *files], stdin=subprocess.DEVNULL, stdout=subprocess.PIPE)
    if ran.returncode:
        common.stop(f"{files[0]} or another file of its crate can't be read")
    found: dict[str, Text] = {}
    words = Text()
    for line in ran.stdout.decode("utf-8").split("\n"):
        if line.startswith("file "):
            words = found[files[int(line[5:])]] = Text()
        elif line:
            at, _, _, kind, told = line.split(" ", 4)
            text = json.loads(told)
            # (the toolchain treats a comment above an error type as a literal)
            if text.startswith("//"):
                continue
            words.all.append((int(at), text))
            if kind in ("Code", "Literal"):
                words.code.append(Word(int(at), text))
    return found


def sources(crate: str) -> list[str]:
    """Returns the paths of a crate's source files."""
    found = []
    for at, folders, names in os.walk(os.path.join(common.TOP, "crates", crate, "src")):
        folders.sort()
        found += [os.path.join(at, it) for it in sorted(names) if it.endswith(".rt")]
    return found


def after(words: list[Word], at: int) -> int:
    """Returns the index after a word, or, if the word is an opening bracket, the index after the bracket that closes
    it."""
    depth = 0
    while at < len(words):
        depth += (words[at].text in ("(", "[", "{")) - (words[at].text in (")", "]", "}"))
        at += 1
        if depth <= 0:
            break
    return at


def past_marks(words: list[Word], at: int) -> tuple[str, bool, int]:
    """Reads the attributes and marks before an item. Returns the attributes, whether the item is public, and the index
    of its first word."""
    attributes = ""
    while at < len(words) and words[at].text == "#":
        start = at + 1 + (words[at + 1].text == "!")
        attributes += " ".join(it.text for it in words[start : after(words, start)]) + "\n"
        at = after(words, start)
    is_pub = at < len(words) and words[at].text == "pub"
    if is_pub:
        is_pub = words[at + 1].text != "("
        at = at + 1 if is_pub else after(words, at + 1)
    while at + 1 < len(words) and words[at].text in ("const", "unsafe", "final") and words[at + 1].text in ("fn", "unsafe"):
        at += 1
    return attributes, is_pub, at


def item_end(words: list[Word], at: int) -> int:
    """Returns the index after the last word of an item. The item's first word, such as `fn`, is at `at`."""
    while at < len(words):
        word = words[at].text
        at = after(words, at)
        if word in (";", "{"):
            break
    return at


class Source:
    """The functions, constants and types of a crate, and the paths by which other crates can reach them."""

    def __init__(self, crate: str) -> None:
        self.crate = crate
        self.functions: list[Function] = []
        self.constants: dict[str, tuple[str, int, int]] = {}  # each constant's file, first line and last line
        self.types: dict[str, tuple[Module, bool]] = {}  # each type's module, and whether the type is public
        self.models: dict[str, tuple[str, int, int]] = {}  # the file, first line and last line of each type's model
        self.traits: dict[str, bool] = {}  # whether each trait is public
        self.type_items: list[TypeItem] = []
        self.declared: set[tuple[Module, str]] = set()
        self.public_modules: set[Module] = {()}
        self.brought_out: list[tuple[Module, list[str]]] = []
        self.imports: list[tuple[list[str], bool]] = []
        self.texts = words_of(sources(crate))
        self.words = {path: text.code for path, text in self.texts.items()}
        self.folder = os.path.join(common.TOP, "crates", crate)
        for top in ("lib.rt", "main.rt"):
            self.read(os.path.join(self.folder, "src", top), Scope(crate, f"src/{top}", ()))
        for it in self.functions:
            at, _ = self.types.get(it.owner, (it.module, False))
            # (a type of this name in its own module is the one)
            it.home = it.module if (it.module, it.owner) in self.declared else at

    def read(self, path: str, scope: Scope) -> None:
        words = self.words.get(path)
        if words is not None:
            self.items(words, scope.inside(file=os.path.relpath(path, self.folder)))

    def items(self, words: list[Word], scope: Scope) -> None:
        at = 0
        while at < len(words):
            first = at
            attributes, is_pub, at = past_marks(words, at)
            if at >= len(words):
                return
            end = item_end(words, at)
            is_test = scope.is_test or "[ test ]" in attributes or "cfg ( test )" in attributes
            for word in words[first:end]:
                word.is_test = is_test
            self.item(words[first:end], at - first, scope.inside(is_test=is_test), is_pub)
            at = end

    def item(self, words: list[Word], at: int, scope: Scope, is_pub: bool) -> None:
        """Records an item, and the items inside it. Its first word, after attributes and marks, is at `at`."""
        word = words[at].text
        name = words[at + 1].text if at + 1 < len(words) else ""
        if word == "fn":
            self.functions.append(Function(scope, name, words, is_pub or bool(scope.trait)))
        elif word == "mod":
            inner = scope.inside(module=(*scope.module, name))
            if is_pub and scope.module in self.public_modules and not scope.is_test:
                self.public_modules.add(inner.module)
            if words[-1].text == ";":
                base = os.path.join(self.folder, "src", *inner.module)
                self.read(f"{base}.rt" if os.path.isfile(f"{base}.rt") else os.path.join(base, "mod.rt"), inner)
            else:
                self.items(words[at + 3 : -1], inner)
        elif word in ("impl", "trait"):
            self.block(words, at, scope)
            if word == "trait":
                self.types[name] = (scope.module, is_pub)
                self.traits[name] = is_pub
        elif word in ("struct", "enum", "type"):
            self.types[name] = (scope.module, is_pub)
            self.declared.add((scope.module, name))
            self.type_items.append(TypeItem(scope, words, at, is_pub))
        elif word in ("const", "static"):
            self.constants[name] = (scope.file, words[0].line, words[-1].line)
        elif word == "use":
            texts = [it.text for it in words[at + 1 : -1]]
            self.imports.append((texts, scope.is_test))
            self.brought_out += [(scope.module, texts)] * is_pub

    def block(self, words: list[Word], at: int, scope: Scope) -> None:
        """Records the functions of an `impl` or of a trait."""
        opens = next(i for i in range(at, len(words)) if words[i].text == "{")
        head = [it.text for it in words[at + 1 : opens]]
        head = head[: head.index("where")] if "where" in head else head
        if words[at].text == "trait":
            inner = scope.inside(owner=head[0], trait=head[0], impl_words=(head[0],), block_from=words[0].line)
        else:
            generics = head[: close_angle(head)] if head[:1] == ["<"] else []
            head = head[len(generics) :]
            cut = head.index("for") if "for" in head else None
            owner = next((it for it in head[0 if cut is None else cut + 1 :] if it.isidentifier()), "()")
            hidden = {"mut", "dyn", "for", *parameters(generics)}
            said = tuple(it for it in dict.fromkeys(head) if it.isidentifier() and it not in hidden)
            of = [] if cut is None else head[cut + 1 :]
            words_said = () if cut is None else said
            trait = "" if cut is None else head[0]
            inner = scope.inside(owner=owner, trait=trait, impl_words=words_said, block_from=words[0].line)
            inner.is_of_reference = of[:1] == ["&"] and "[" not in of
            if trait == "Model":
                self.models[owner] = scope.file, words[0].line, words[-1].line
        self.items(words[opens + 1 : -1], inner)

    def all_words(self, path: str, first: int = 0, last: int = 1 << 30) -> list[str]:
        """Returns the words on these lines of a file, including the words of contracts."""
        text = self.texts.get(os.path.join(self.folder, path))
        return [word for line, word in text.all if first <= line <= last] if text else []

    def words_of(self, function: Function) -> list[str]:
        """Returns the words of a function, including the words of a contract on its lines."""
        return self.all_words(function.file, function.first, function.last)

    def head_of_block(self, function: Function) -> list[str]:
        """Returns the words of the `impl` that contains a trait's method, up to its first method. They state the
        meaning of the trait for the type. Returns no words for other functions."""
        if not function.trait:
            return []
        first = min(it.first for it in self.functions if (it.file, it.block_from) == (function.file, function.block_from))
        return self.all_words(function.file, function.block_from, first - 1)

    def model_of(self, owner: str) -> list[str]:
        """Returns the words of a type's model, or no words if this crate doesn't define one."""
        return self.all_words(*self.models[owner]) if owner in self.models else []

    def is_public(self, module: Module, name: str) -> bool:
        """Returns whether other crates can use an item of a module, provided that the item is marked `pub`."""
        if module in self.public_modules:
            return True
        return any(brings(words, at, module, name) for at, words in self.brought_out if at in self.public_modules)

    def public_functions(self, traits: Iterable[str] = ()) -> list[Function]:
        """Returns the functions that other crates can call, including methods of `traits` from other crates, but no
        tests."""
        found, counted = [], {*traits, *self.traits}
        for function in self.functions:
            if function.is_test or not function.is_pub or not function.has_body:
                continue
            if not function.owner:
                is_seen = self.is_public(function.module, function.name)
            else:
                # (a type of another crate counts as public: it can only get a method through a trait of this
                # repository)
                is_own = function.owner in self.types
                at, is_pub = self.types.get(function.owner, (function.module, False))
                is_counted = not function.trait or function.trait in counted
                is_seen = is_counted and (is_pub and self.is_public(at, function.owner) if is_own else self.traits.get(function.trait, False))
            found += [function] * is_seen
        return found

    def public_types(self) -> list[TypeItem]:
        """Returns the types that other crates can use, but no types of tests."""
        return [it for it in self.type_items if it.is_pub and not it.is_test and self.is_public(it.module, it.name)]

    def below(self) -> dict[str, set[str]]:
        """Returns, for each proof, the proofs that it may depend on: the proofs of all functions that it can reach by
        name."""
        named: dict[str, set[str]] = {}
        for it in self.functions:
            named.setdefault(it.name, set()).add(it.proof)
        found: dict[str, set[str]] = {it.proof: set() for it in self.functions}
        for it in self.functions:
            found[it.proof].update(proof for word in it.words for proof in named.get(word, ()))
        for proof, reached in found.items():
            waiting = list(reached)
            while waiting:
                more = found[waiting.pop()] - reached
                reached |= more
                waiting += more
            reached.discard(proof)
        return found

    def proved_with(self, functions: Iterable[Function]) -> list[Function]:
        """Returns the functions that share a proof with one of these, including these. Functions that call each other
        share a proof."""
        proofs = {it.proof for it in functions}
        return [it for it in self.functions if it.proof in proofs]


def close_angle(words: list[str]) -> int:
    """Returns the index after the `>` that closes the `<` at the beginning of these words."""
    depth = 0
    for at, word in enumerate(words):
        depth += (word == "<") - (word == ">" and words[at - 1] != "-")
        if not depth:
            return at + 1
    return len(words)


def parameters(generics: list[str]) -> list[str]:
    """Returns the names that a list of generic parameters declares, without their bounds."""
    found, depth = [], 0
    for at, word in enumerate(generics):
        if depth == 1 and generics[at - 1] in ("<", ",", "const"):
            found.append(word)
        depth += (word in "<([") - (word in ")]" or word == ">" and generics[at - 1] != "-")
    return found


def brings(words: list[str], at: Module, module: Module, name: str) -> bool:
    """Returns whether a `pub use` with these words, in the module `at`, exports the item `name` of `module`."""
    words = [it for it in words if it != ":"]
    words = words[words[:1] in (["crate"], ["self"]) :]
    cut = words.index("{") if "{" in words else len(words) - 1
    steps, names = tuple(words[:cut]), words[cut:]
    return (steps == module or (*at, *steps) == module) and (name in names or "*" in names)
