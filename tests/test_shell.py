"""Tests the completions for bash, zsh and fish, the manual pages, and the commands on README.md."""
from __future__ import annotations

import functools
import os
import re
import shlex
from collections.abc import Callable
from typing import TypeVar

import package
from common import match_of
from harness import TOP, holds, need_program, run, same, test, text_of, want, want_proved
from homes import at_home, run_plainly, temporary, write
from screen import Screen
from snippets import fenced

T = TypeVar("T")
SHARE = os.path.join(TOP, "share")
COMMANDS = ["check", "rename", "run", "serve"]
# typed lines, each with the offers that are expected in a folder with these files
FILES = ["a.ob0", "b.mod", "c.Mod", "d.txt"]
MODULES = ["a.ob0", "b.mod", "c.Mod"]
OFFERED = [
    ("ob0 ", [*COMMANDS, "help"]),
    ("ob0 help ", COMMANDS),
    ("ob0 help r", ["rename", "run"]),
    ("ob0 --v", ["--version"]),
    ("ob0 r", ["rename", "run"]),
    ("ob0 check ", MODULES),
    ("ob0 run ", MODULES),
    ("ob0 run --", ["--calls", "--help", "--turns"]),
    ("ob0 serve --", ["--clientProcessId", "--help", "--stdio"]),
    ("ob0 rename ", MODULES),
    ("ob0 rename a", ["a.ob0"]),
    ("ob0-check ", MODULES),
    ("ob0-check --", ["--github", "--help", "--hints", "--json", "--version"]),
    ("ob0-format ", MODULES),
    ("ob0-format --check a.ob0 ", MODULES),
    ("ob0-format --", ["--check", "--diff", "--help", "--version"]),
    ("ob0-rename --", ["--help", "--in-place", "--version"]),
    ("ob0-rename ", MODULES),
    ("ob0-trace ", MODULES),
    ("ob0-trace --", ["--calls", "--help", "--program", "--turns", "--version"]),
    ("ob0-watch ", [*COMMANDS, "help"]),
    ("ob0-watch --", ["--", "--help", "--report", "--version"]),
    ("ob0-watch --report ", FILES),
    ("ob0-watch --report d.txt r", ["rename", "run"]),
    ("ob0-watch --report d.txt run ", MODULES),
    ("ob0-watch serve --", ["--clientProcessId", "--help", "--stdio"]),
    ("ob0-watch -- dircolo", ["dircolors"]),
]


def in_folder(function: Callable[[str], T]) -> T:
    with temporary() as room:
        for it in FILES:
            write(os.path.join(room, it), "")
        return function(room)


def environment(room: str) -> dict[str, str]:
    return {**os.environ, "HOME": room, "LC_ALL": "C.UTF-8", "TERM": "dumb"}


@test("shell: the manual page lists each command and each option of the program")
def commands() -> None:
    found = run(["--help"])
    listed = re.findall(r"^  (\w+)  +\w", found.out.decode().partition("Commands:")[2].partition("Options:")[0], re.M)
    same(sorted(listed), sorted([*COMMANDS, "help"]), "the commands")
    page = text_of("share", "ob0.1")
    for it in COMMANDS:
        holds(re.search(rf'^\.(B|BI) "?{it}\b', page, re.M), f"the manual page has no {it}")
    for it in ["", *COMMANDS]:
        options = set(re.findall(r"^ .*?(--\w+)", run([*it.split(), "--help"]).out.decode(), re.M))
        holds(all(option.replace("-", "\\-") in page for option in options), f"options of {it}: {options}")


@test("shell: bash completes the expected commands, options and files")
def in_bash() -> None:
    want("bash")

    def offered(room: str, typed: str) -> list[str]:
        words = typed.split(" ")
        function = f"_{words[0].replace('-', '_')}"
        given = f"COMP_WORDS=({' '.join(shlex.quote(it) for it in words)}); COMP_CWORD={len(words) - 1}; {function}"
        script = f'source {shlex.quote(os.path.join(SHARE, "ob0.bash"))}; {given}; printf "%s\\n" "${{COMPREPLY[@]}}"'
        status, said = run_plainly(["bash", "--norc", "-c", script], environment(room), room)
        same(status, 0, said)
        return sorted({*said.split()} - {"-h"})

    for typed, wanted in OFFERED:
        # (bash itself completes a word to all files, if the function finds nothing)
        by_function = [] if wanted == FILES else sorted(wanted)
        same(in_folder(functools.partial(offered, typed=typed)), by_function, f"after `{typed}`")


@test("shell: fish completes the expected commands, options and files")
def in_fish() -> None:
    want("fish")

    def offered(room: str, typed: str) -> list[str]:
        script = f"source {shlex.quote(os.path.join(SHARE, 'ob0.fish'))}; complete -C {shlex.quote(typed)}"
        status, said = run_plainly(["fish", "--no-config", "-c", script], environment(room), room)
        same(status, 0, said)
        return sorted(line.split("\t")[0] for line in said.splitlines() if line.strip())

    for typed, wanted in OFFERED:
        found = in_folder(functools.partial(offered, typed=typed))
        # (fish also offers `--` among the commands)
        same([it for it in found if it != "--" or it in wanted], sorted(wanted), f"after `{typed}`")
    # (words that fish expands, and words after the file)
    for given, wanted in {"~/a": ["~/a.ob0"], "$HOME/a": ["$HOME/a.ob0"], "'b": ["b.mod"]}.items():
        for command in ("ob0 check", "ob0-check", "ob0-format", "ob0-watch run"):
            same(in_folder(functools.partial(offered, typed=f"{command} {given}")), wanted, f"after `{command} {given}`")
    same(in_folder(functools.partial(offered, typed="ob0 rename a.ob0 ")), [], "after a file")


@test("shell: zsh completes the expected commands, options and files")
def in_zsh() -> None:
    want("zsh")

    setup = f"fpath=({shlex.quote(SHARE)} $fpath); autoload -U compinit; compinit -u -D; zstyle ':completion:*' list-colors ''; "
    setup += "zstyle ':completion:*' list-prompt ''; setopt no_auto_menu no_list_beep auto_list; PS1=; LISTMAX=0; echo rea''dy\n"

    def all_offered(room: str) -> list[str]:
        """Types each line and Tab in zsh. Returns what the terminal shows after each."""
        with Screen(["zsh", "-f", "-i"], environment(room), room) as screen:

            def said(keys: str, until: str) -> str:
                """Types keys. Returns what the terminal has shown once the word `until` was printed and zsh reads keys
                again (when it switches bracketed paste on)."""
                screen.keys(keys.encode())
                screen.shows(until.encode() + rb"(?s:.*)\[\?2004h", f"{until} from zsh")
                return screen.drawn.decode(errors="replace")

            said(setup, "ready")
            # (the first Tab completes the common beginning, and the second lists the offers; then Ctrl-U removes the
            # line)
            return [said(f"{typed}\t\t\x15echo do''ne{at}\n", f"done{at}") for at, (typed, _) in enumerate(OFFERED)]

    for (typed, wanted), shown in zip(OFFERED, in_folder(all_offered)):
        for word in {*FILES, *(it for _, more in OFFERED for it in more)} - {"--"}:
            if word in wanted:
                holds(word in shown, f"{word} is not offered after `{typed}`: {shown!r}")
            # (a second Tab after the only completion completes the word after it)
            elif word not in typed and " -- " not in typed and (word in FILES or typed.endswith(("ob0 ", "watch ", " r"))):
                holds(word not in shown, f"{word} is offered after `{typed}`: {shown!r}")


@test("shell: mandoc accepts each manual page without a warning")
def manual() -> None:
    want("mandoc")
    for it in ("ob0.1", *(f"{it}.1" for it in package.SCRIPTS)):
        status, said = run_plainly(["mandoc", "-Tlint", "-W", "warning", os.path.join(SHARE, it)], dict(os.environ), TOP)
        same((status, said), (0, ""), f"mandoc -Tlint {it}")
    with temporary() as room:
        write(os.path.join(room, "ob0-messages.7"), package.messages_page().decode())
        same(
            run_plainly(["mandoc", "-Tlint", "-W", "warning", "ob0-messages.7"], dict(os.environ), room),
            (0, ""),
            "mandoc -Tlint ob0-messages.7",
        )


PAGES = ["README.md", "examples/README.md"]


@test("shell: the transcripts in README.md and examples/README.md show what the program prints")
def transcripts() -> None:
    need_program()
    blocks = [text for it in PAGES for name, text in fenced(it) if name == "console"]
    holds(blocks, "there is none")
    with temporary() as room:
        own = at_home(room, "kate")
        for block in blocks:
            said = ""
            for line in re.findall(r"^\$ (.*)$", block, re.M):
                said += f"$ {line}\n" + run_plainly(["sh", "-c", line], own, TOP)[1]
            same(said, block)


@test("shell: the README's three lines write a first module, find no error in it, and run it")
def first_module() -> None:
    need_program()
    page = text_of("README.md").partition("\n## A first module\n\n")[2]
    lines = [it[4:] for it in page.partition("\n\n")[0].splitlines()]
    same(len(lines), 3, "the lines")
    printed = match_of(r"The last line prints `([^`]*)`", page)[1]
    with temporary() as room:
        own, work = at_home(room, "kate"), os.path.join(room, "work")
        os.mkdir(work)
        same(run_plainly(["sh", "-e", "-c", "\n".join(lines)], own, work), (0, printed + "\n"), "what they print")


@test("shell: `make` without a goal prints the list of goals")
def alone() -> None:
    lines = [re.sub("^# ?", "", it) for it in text_of("Makefile").partition("\nPREFIX")[0].splitlines()]
    same(run_plainly(["make", "--silent"], dict(os.environ), TOP), (0, "\n".join(lines) + "\n"))


@test("shell: `make demo` plays its conversation with the proved program")
def demo() -> None:
    want_proved()
    status, said = run_plainly(["make", "--silent", "demo"], dict(os.environ), TOP)
    same(status, 0, said[-500:])
    for it in "which is proved", '"newText": "Squared"', '"message": "Captures', "the server ended with status 0":
        holds(it in said, f"no {it} in what it prints:\n{said}")
