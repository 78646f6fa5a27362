"""Applies mutants to a copy of a crate, checks it against proved libraries, and reads the prover's verdicts."""
from __future__ import annotations

import os
import re
import shutil
import subprocess
from collections.abc import Callable, Iterable
from typing import Any, Optional

import build
import common
import reading
from common import TOP
from edits import Edit

VERDICT = re.compile(r"^(?:fn|impl|struct|enum|trait|const|static) (\S+): (proved|not proved.*|no proof.*)", re.M)
ERROR = re.compile(r"(?:\./)?((?:src|specs|proofs)/\S+?):(\d+):\d+: error(?:\[[\w-]+\])?: (?:(`[^`]*`): )?(.*)")
# (the beginning of a reason that concerns another function)
OF_ANOTHER = r"(?:it calls |it passes |a call of |it is in a cycle of calls with )"
# (an error that stops the reading of a text, so no contract was tried)
UNREAD = re.compile(r"is not in scope|has no field|is no name|operand is missing|expected the end|cannot continue")
NAMES_LOST = re.compile(r"has no field|is not in scope|has no `|was not admitted|that can be named from here")


def messages_of(text: str) -> list[str]:
    """Returns the messages of a check. The prover continues a message on indented lines; these are joined here."""
    found: list[str] = []
    for line in text.split("\n"):
        if found and found[-1] and line[:1] in (" ", "\t") and line.strip():
            found[-1] += f" {line.strip()}"
        else:
            found.append(line)
    return found


class Said:
    """The output of a check, and what can be read from it."""

    def __init__(self, text: str, status: int) -> None:
        self.text, self.status = text, status
        self.messages = messages_of(text)
        self.verdicts: dict[str, str] = dict(VERDICT.findall(text))
        # (with --only the last line is another)
        self.ended = bool(re.search(r"^(?:logic=|only=\d+ (?:proved|holes)=\d+)", text, re.M))

    def is_proved(self) -> bool:
        """Returns whether each checked function is proved."""
        last = re.search(r"^only=(\d+) proved=(\d+)", self.text, re.M)
        return not self.status and ("\nlogic=proved " in self.text or bool(last and last[1] == last[2]))

    def own(self, symbol: str) -> bool:
        """Returns whether a function was refused for its own reasons, and not only because another function isn't
        proved."""
        said = self.verdicts[symbol]
        if said.startswith("no proof"):
            reasons = said[len("no proof:") :].split("; ")
            return any(not re.match(OF_ANOTHER, it.strip()) for it in reasons)
        return said.startswith("not proved")

    def waits(self, symbol: str) -> bool:
        """Returns whether a function calls one that isn't proved, so that some goals of the function may not have been
        tried."""
        return bool(re.search(f"[:;] {OF_ANOTHER}", self.verdicts[symbol]))

    def goals(self, symbol: str) -> list[str]:
        """Returns the unproved goals of a function, each with its file and line."""
        lines = self.text.split("\n")
        end = next((i for i, it in enumerate(lines) if it.startswith(f"fn {symbol}: ")), 0)
        found = []
        for line in reversed(lines[:end]):
            if VERDICT.match(line):
                break
            goal = re.match(r"note: (src/\S+?:\d+):\d+: .*?\(`(\S+)`\)", line)
            found += [f"{goal[2]} at {goal[1]}"] if goal else []
        return found[::-1]

    def proof_errors(self, symbol: str, proof: str) -> list[str]:
        """Returns the errors in the files of a function's proof."""
        # (the proof of a cycle is next to its functions, or below the type of its methods. The folder of a function
        # that calls itself begins with a plus, followed by the closure through which it does so)
        *above, name = symbol.partition("::")[2].split("::")
        cycle = re.search(r"\+\w+$", proof)
        starts = tuple("/".join(["proofs", *above, it]) for it in (f"{cycle[0] if cycle else name}/", f"+{name}/", f"+{name}+"))
        errors = ((it, ERROR.match(it)) for it in self.messages)
        return [line for line, at in errors if at and at[1].startswith(starts)]

    def refusing(self, symbol: str, proof: str) -> list[str]:
        """Returns the goals that cause a function to be refused: those that aren't proved, and those whose written
        answer in the proof fails, unless it fails because a name in it no longer exists."""
        found = self.goals(symbol)
        for line in self.proof_errors(symbol, proof):
            at = ERROR.match(line)
            goal = (at[3] or "").strip("`") if at else ""
            if at and goal and not NAMES_LOST.search(at[4]):
                found.append(f"{goal}, by its answer at {at[1]}:{at[2]}")
        return found

    def why(self, symbol: str, proof: str) -> str:
        """Returns the goals because of which a function is refused. If there are none, returns an error in its proof,
        or else the check's verdict on the function; if the proof's only errors are names that no longer exist, returns
        a sentence that says so."""
        goals, errors = self.refusing(symbol, proof), self.proof_errors(symbol, proof)
        if goals:
            return "; ".join(goals)[:300]
        if errors and all(NAMES_LOST.search(it) for it in errors):
            return "only because its proof names what was taken away, which says little"
        return errors[0][:120] if errors else self.verdicts[symbol][:120]


def unreadable(said: Said, edit: Edit) -> str | None:
    """Returns the error that stopped the compiler or the checker at a changed function, so that the mutant wasn't
    judged. Returns None if there is no such error."""
    for line in said.messages:
        at = ERROR.match(line)
        if not at:
            continue
        place = at[1], int(at[2])
        if place not in edit.lines and not any(it.file == at[1] and it.first <= place[1] <= it.last for it in edit.turned or ()):
            continue
        # (an error about a goal is a refusal, unless the goal itself can't be read)
        if not at[3] or UNREAD.search(re.sub(r"`[^`]*`", "", at[4])):
            return line[:160]
    return None


def symbols_of(said: Said, functions: Iterable[reading.Function]) -> dict[str, str]:
    """Returns the names that a check uses for these functions, each with the name of the function's proof."""
    functions = list(functions)
    return {it: f.proof for it in said.verdicts for f in functions if f.is_named(it)}


class Libraries:
    """A folder of hard links to the proved libraries of this repository."""

    def __init__(self, folder: str) -> None:
        self.folder = folder
        self.proved: set[str] = set()
        shutil.rmtree(folder, ignore_errors=True)

    def add(self, crate: str) -> None:
        """Adds the library of a proved crate. (A program has no library.)"""
        self.proved.add(crate)
        try:
            shutil.copytree(build.library_of(crate), self.place(crate), copy_function=build.link)
        except (OSError, shutil.Error):
            # (a program has no library)
            shutil.rmtree(self.place(crate), ignore_errors=True)

    def place(self, crate: str) -> str:
        return os.path.join(self.folder, f"{crate}.rlib")

    def words(self, crate: str, only: Iterable[str]) -> Optional[list[str]]:
        """Returns the command that checks these functions of a crate, or the whole crate if `only` is empty. Returns
        None if a required library is missing."""
        lines = common.listed()
        below = [it for it in common.below(crate) if it != crate]
        if not all(os.path.isdir(self.place(it)) for it in below):
            return None
        kit = os.path.dirname(os.path.dirname(reading.rattle()))
        of_kit: Callable[[str], str] = lambda it: os.path.join(kit, "rlibs", f"{it}.rlib")
        used = {it: self.place(it) if it in lines else of_kit(it) for it in ["std", *lines[crate]]}
        words = [reading.rattle(), "check", "--crate-name", crate, "src/lib.rt", "--links", f"{crate}=", "--jobs", "1"]
        words += [word for name, place in used.items() for word in ("--extern", f"{name}={place}")]
        words += ["-L", f"dependency={os.path.join(kit, 'rlibs')}", "-L", f"dependency={self.folder}"]
        words += ["--antt-project", os.path.join(kit, "rattle", "logic", "antt-project.json")]
        words += ["--logic-built", os.path.join(kit, "logic_built")]
        return words + [word for it in only for word in ("--only", it)]


def furnish(room: str, crate: str, chosen: Iterable[Edit]) -> None:
    """Copies a crate's files to a folder, and applies some mutants to them."""
    chosen = list(chosen)
    for part in ("src", "specs", "proofs"):
        folder = os.path.join(TOP, "crates", crate, part)
        if os.path.isdir(folder):
            shutil.copytree(folder, os.path.join(room, part))
    for path in {path for edit in chosen for path, _ in edit.lines}:
        with open(os.path.join(room, path), encoding="utf-8") as file:
            text = file.read()
        with open(os.path.join(room, path), "w", encoding="utf-8") as file:
            file.write(with_bodies(text, path, chosen))


def with_bodies(text: str, path: str, chosen: Iterable[Edit]) -> str:
    """Returns a file's text with these mutants applied."""
    lines = text.split("\n")
    for edit in chosen:
        for (where, number), now in edit.lines.items():
            if where == path:
                lines[number - 1] = now
    return "\n".join(lines)


def check(words: list[str], room: str) -> Said:
    """Runs a check in a folder, and returns its output."""
    how: dict[str, Any] = {"stdin": subprocess.DEVNULL, "stdout": subprocess.PIPE, "stderr": subprocess.STDOUT}
    ran = subprocess.run(words, cwd=room, check=False, **how)
    return Said(ran.stdout.decode(errors="replace"), ran.returncode)
