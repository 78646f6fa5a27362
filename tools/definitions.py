"""Reads the definitions of the crates and the types of the code: the file and comment of each, and the other
definitions that it uses. A name is resolved through the `use` lines of its file. Definitions of the standard library
are not followed."""
from __future__ import annotations

import os
import re
from collections.abc import Iterable, Iterator
from typing import Optional, Tuple, Union

import common
from common import TOP



CRATES = os.path.join(TOP, "crates")
WORD = re.compile(r"[^\W\d][\w'-]*(?:\.[^\W\d][\w'-]*)*")
OPERATOR = re.compile(r"[^\w\s(){}\[\];,.\"◌]+")


# ---- sources


Used = Tuple[str, Optional[str]]  # a module and one of its names, or None for the whole module


def lines_of(path: str) -> list[str]:
    with open(path, encoding="utf-8") as file:
        return file.read().splitlines()


class Block:
    """A definition, or several mutually recursive definitions, with the comment above."""

    def __init__(self, file: File, comment: list[str], code: list[str]) -> None:
        self.file, self.comment, self.code = file, comment, code
        self.names = list(names_in(code))
        self.needs: list[Item] | None = None


def names_in(code: list[str]) -> Iterator[str]:
    """Yields the names that a block defines, including the constructors of `data`."""
    first = code[0]
    if not re.match(r"^(?:\w+ )*mutual\b", first):
        inside, depth = code, ""
    else:
        inside, depth = code[1:], "  "
    of_data = False
    for line in inside:
        found = re.match(rf"^{depth}(?:(?:abbrev|unfoldable|pub)\s+)*(?:(record|data)\s+)?(\S+)\s(?:.*\s)?:(?:\s|$)", line)
        # (the parameters of a record may be in its next lines)
        found = found or re.match(rf"^{depth}(?:pub\s+)*(record|data)\s+(\S+)$", line)
        if found and found[2] != "--" and not found[2].startswith("unfolding"):
            of_data = found[1] == "data"
            yield found[2]
        elif of_data:
            constructors = re.match(rf"^{depth}  ((?:[^\s:(){{}}]+ )+):(?:\s|$)", line)
            if constructors:
                yield from constructors[1].split()


class File:
    """A file of definitions: its blocks, and the names that its `use` lines import or export."""

    def __init__(self, crate: str, name: str, path: str) -> None:
        self.crate, self.name = crate, name
        self.title = ""
        self.blocks: list[Block] = []
        self.uses: dict[str, Used] = {}
        self.passed_on: dict[str, Used] = {}
        text = lines_of(path)
        while text and text[0].startswith("--"):
            self.title = (self.title + " " + text.pop(0).lstrip("- ")).strip()
        for line in [it for it in text if re.match(r"^(pub )?use ", it)]:
            self.take_use(line)
        self.cut([it for it in text if not re.match(r"^(pub )?(use|mod) ", it)])
        self.named = {name: block for block in self.blocks for name in block.names}

    def take_use(self, line: str) -> None:
        found = common.match_of(r"^(pub )?use ([\w.'-]+?)(?:\.\{(.*)\}| as (.*))?$", line)
        passes_on, module, names, alias = found[1], found[2], found[3], found[4]
        if names is None:
            self.uses[alias or module.rpartition(".")[2]] = (module, None)
            return
        for one in re.split(r",\s*", names):
            was, _, new = one.partition(" as ")
            self.uses[new or was] = (module, was)
            if passes_on:
                self.passed_on[new or was] = (module, was)

    def cut(self, text: list[str]) -> None:
        """Divides the text into blocks. A comment belongs to the block below it, unless the head of a section (a line
        of dashes) comes between them."""
        comment: list[str] = []
        code: list[str] = []

        def end() -> None:
            nonlocal comment, code
            if code:
                block = Block(self, comment, code)
                before = self.blocks[-1] if self.blocks else None
                if before and (not block.names or block.names[0] in before.names):
                    # (a comment between the equations of a definition doesn't end it)
                    before.code += comment + code
                else:
                    self.blocks.append(block)
                comment, code = [], []

        for line in text:
            if line.startswith("-- ----"):
                end()
                comment = []
            elif line.startswith("--"):
                end()
                comment.append(line)
            elif not line.strip():
                if not is_open(code):
                    end()
                elif code:
                    code.append(line)
            elif line.startswith(" ") or not code or begins_as(code, line):
                code.append(line)
            else:
                end()
                code.append(line)
        end()
        for block in self.blocks:
            while block.code and not block.code[-1].strip():
                block.code.pop()


def is_open(code: list[str]) -> bool:
    """Returns whether a block continues after an empty line."""
    return bool(code) and bool(re.match(r"^(?:\w+ )*mutual\b|^module ", code[0]))


def begins_as(code: list[str], line: str) -> bool:
    """Returns whether a line continues the definition above it, as one of its equations."""
    if code[-1].startswith("unfolding"):
        return True
    if line.startswith("unfolding"):
        return True
    return not re.match(r"^(abbrev|unfoldable|pub|module|mutual)\b", line)


def all_files() -> dict[tuple[str, str], File]:
    found = {}
    for crate in common.listed():
        folder = os.path.join(CRATES, crate, "specs")
        for name in sorted(os.listdir(folder)) if os.path.isdir(folder) else []:
            if name.endswith(".antt"):
                found[crate, name[:-5]] = File(crate, name[:-5], os.path.join(folder, name))
    return found


# ---- the types of the code


class Declared:
    """A type that the code declares, with its comment and its fields."""

    def __init__(self, crate: str, module: list[str], name: str) -> None:
        self.crate, self.module, self.name = crate, module, name
        text = lines_of(os.path.join(CRATES, crate, "src", *module) + ".rt")
        at = next(i for i, it in enumerate(text) if re.match(rf"^(pub(\(crate\))? )?(struct|enum) {name}\b", it))
        first = at
        while first and text[first - 1].startswith(("///", "#[")):
            first -= 1
        last = at
        while not (text[last].startswith("}") or text[last].endswith(";") and last == at or re.search(r"\{.*\}$", text[last]) and last == at):
            last += 1
        self.code = [it for it in text[first : last + 1] if not it.lstrip().startswith("#[")]

    def named_types(self) -> list[str]:
        """Returns the names of the types of its fields."""
        text = "\n".join(re.sub(r"//.*$", "", it) for it in self.code[1:])
        fields = re.findall(r":\s*([^,{}]+)|\(([^()]*)\)", text)
        return re.findall(r"\b[A-Z]\w*", " ".join(a or b for a, b in fields))


def module_with(crate: str, name: str) -> list[str] | None:
    """Returns the module of a crate that declares a public type with this name, or None if there is none."""
    folder = os.path.join(CRATES, crate, "src")
    for at, _, files in os.walk(folder):
        for file in sorted(it for it in files if it.endswith(".rt")):
            path = os.path.join(at, file)
            if any(re.match(rf"pub (struct|enum) {name}\b", line) for line in lines_of(path)):
                return os.path.relpath(path, folder)[: -len(".rt")].split(os.sep)
    return None


Item = Union[Block, Declared]


# ---- looking up


class Sources:
    def __init__(self) -> None:
        self.files = all_files()
        self.std: set[tuple[str, str]] = set()
        self.declared: dict[tuple[str, str], Declared] = {}

    def resolve(self, module: str, name: str | None) -> Item | None:
        """Returns the block or the declared type that a name of a module refers to. Returns None for a name of the
        standard library, after noting it, and for a whole module or one without definitions. Ends the script if the
        module doesn't have the name."""
        parts = module.split(".")
        if parts[0] != "Rattle" or not parts[1].startswith("ob0_"):
            if name:
                self.std.add((module, name))
            return None
        crate, rest = parts[1], parts[3:]
        if rest[:1] == ["declared"]:
            words = [it for it in rest[1:] if it != "TheVariants"]
            return self.type_of(crate, words[:-1], words[-1])
        file = self.file_of(crate, rest)
        if file is None or name is None:
            return None
        head = name.split(".")[0]
        if head in file.named:
            return file.named[head]
        if head in file.passed_on:
            return self.resolve(*file.passed_on[head])
        common.stop(f"{module} has no {name}")

    def file_of(self, crate: str, rest: list[str]) -> File | None:
        found = self.files.get((crate, rest[0])) if rest else None
        if found is None and rest:
            lib = self.files.get((crate, "Lib"))
            passed = lib.uses.get(rest[0]) if lib else None
            if passed:
                parts = passed[0].split(".")
                return self.file_of(parts[1], parts[3:])
        return found

    def type_of(self, crate: str, module: list[str], name: str) -> Declared:
        key = crate, name
        if key not in self.declared:
            self.declared[key] = Declared(crate, module, name)
        return self.declared[key]

    def needs(self, block: Block) -> list[Item]:
        """Returns the definitions and types that a block refers to, in order."""
        if block.needs is None:
            found: list[Item] = []
            for word in words_of(block.code):
                item = self.look_up(block.file, word)
                if item is not None and item is not block and item not in found:
                    found.append(item)
            block.needs = found
        return block.needs

    def types_in(self, declared: Declared) -> list[Declared]:
        """Returns the types of the same crate that occur in a type's fields."""
        modules = [(module_with(declared.crate, name), name) for name in declared.named_types() if name != declared.name]
        return [self.type_of(declared.crate, module, name) for module, name in modules if module]

    def look_up(self, file: File, word: str) -> Item | None:
        if word in file.named:
            return file.named[word]
        head, _, rest = word.partition(".")
        if word in file.uses:
            module, name = file.uses[word]
            return self.resolve(module, name) if name or "declared" in module else None
        if head in file.uses and rest:
            module, name = file.uses[head]
            if name is None:
                return self.resolve_in(module, rest)
        return None

    def resolve_in(self, module: str, rest: str) -> Item | None:
        if ".declared." in module or not module.startswith("Rattle.ob0_"):
            return self.resolve(module, rest)
        return self.resolve(module, rest.split(".")[0])

    def closure(self, roots: Iterable[Item], without: Iterable[Item] = ()) -> list[Item]:
        """Returns the roots and everything that they need, each after everything that it needs itself."""
        done: set[int] = set()
        order: list[Item] = []

        def go(item: Item) -> None:
            if id(item) in done or item in without:
                return
            done.add(id(item))
            below: list[Item] = self.needs(item) if isinstance(item, Block) else [*self.types_in(item)]
            for other in below:
                go(other)
            order.append(item)

        for root in roots:
            go(root)
        return order


def words_of(code: list[str]) -> Iterator[str]:
    """Yields the names in lines of definitions, without comments and strings. After an operator, yields the name by
    which it is defined, such as `◌+◌`."""
    for line in code:
        line = re.sub(r'"[^"]*"', '""', re.sub(r"--.*$", "", line))
        yield from WORD.findall(line)
        for sign in OPERATOR.findall(line):
            yield sign
            yield f"◌{sign}◌"
            if sign == "←":
                yield "◌>>=◌"
