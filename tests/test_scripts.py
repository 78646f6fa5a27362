"""Tests the scripts in share/, those in docs/CI.md, and the shell lines of the manual page that list faults as
compilers do."""
from __future__ import annotations

import functools
import json
import os
import re
import shutil
import signal
import subprocess
import sys
import tempfile
import time
from collections.abc import Callable, Iterable
from typing import Any, TypeVar

import harness
import package
from common import match_of
from harness import Content, Message, TOP, examples, frames, holds, is_running, need_program, published, same, test, text_of, want
from homes import as_another, copy, write
from snippets import fenced

T = TypeVar("T")
FORMAT = os.path.join(TOP, "share", "ob0-format")
LAID_OUT = "MODULE M;\nVAR\n  x: INTEGER;\nBEGIN\n  x := 1\nEND M.\n"
LOOSE = "MODULE  M;\nVAR x:INTEGER;\nBEGIN x:=1 END M.\n"
FAULTY = "MODULE M;\nBEGIN\n  x := 1;\n  y := 2\nEND M.\n"
MISSING = "nowhere.mod: No such file or directory"
CHANGED = "another program has changed it in the meantime, so it was left unchanged"
MODULES = {"good.mod": LAID_OUT, "loose.ob0": LOOSE, "two words.Mod": FAULTY}


def in_folder(files: dict[str, str], function: Callable[[str, dict[str, str]], T]) -> T:
    """Calls a function with a folder that contains these files, and with an environment in which `ob0` and its scripts
    are on PATH."""
    need_program()
    with tempfile.TemporaryDirectory() as room:
        work = os.path.join(room, "work")
        for name, text in files.items():
            write(os.path.join(work, name), text)
        scripts = {it: os.path.join(TOP, "share", it) for it in package.SCRIPTS}
        for name, path in {"ob0": os.path.abspath(harness.BINARY), **scripts}.items():
            os.makedirs(os.path.join(room, "bin"), exist_ok=True)
            os.symlink(path, os.path.join(room, "bin", name))
        kept = {key: value for key, value in os.environ.items() if key != "GITHUB_ACTIONS"}
        return function(work, {**kept, "HOME": room, "PATH": os.path.join(room, "bin") + os.pathsep + os.environ["PATH"]})


def ran(words: list[str], work: str, environment: dict[str, str], given: str = "") -> tuple[int, str, str]:
    """Runs a command. Returns its exit status, its output and its error output."""
    how: dict[str, Any] = {"input": given.encode(), "capture_output": True, "cwd": work, "env": environment, "timeout": harness.SECONDS}
    found = subprocess.run(words, check=False, **how)
    return found.returncode, found.stdout.decode(errors="surrogateescape"), found.stderr.decode(errors="surrogateescape")


@test("scripts: ob0-format formats files and prints their names, and leaves formatted and invalid files unchanged")
def lays_out() -> None:
    def trial(work: str, own: dict[str, str]) -> None:
        os.chmod(os.path.join(work, "loose.ob0"), 0o640)
        os.symlink("loose.ob0", os.path.join(work, "link.mod"))
        fault = "two words.Mod has errors, so it isn't formatted: `ob0-check` lists them\n"
        same(ran(["ob0-format", "--check", "link.mod", *MODULES], work, own), (1, "link.mod\nloose.ob0\n", fault), "with --check")
        same({it: text_of(work, it) for it in MODULES}, MODULES, "what --check leaves")
        same(ran(["ob0-format", "link.mod", *MODULES], work, own), (1, "link.mod\n", fault), "without --check")
        same({it: text_of(work, it) for it in MODULES}, {**MODULES, "loose.ob0": LAID_OUT}, "the files")
        same(sorted(os.listdir(work)), sorted([*MODULES, "link.mod"]), "the names of the files")
        same(os.stat(os.path.join(work, "loose.ob0")).st_mode & 0o777, 0o640, "the mode of a file that was formatted")
        holds(os.path.islink(os.path.join(work, "link.mod")), "a symbolic link became a file")
        same(ran(["ob0-format", "--check", "good.mod", "loose.ob0"], work, own), (0, "", ""), "once more")
        paths = [os.path.join(TOP, it) for it in examples()]
        same(ran(["ob0-format", "--check", *paths], work, own), (0, "", ""), "the examples")

    in_folder(MODULES, trial)


@test("scripts: ob0-format handles non-ASCII characters and each kind of line ending, and reads /dev/stdin")
def in_bytes() -> None:
    text = "MODULE M;\r\n(* \u00e4\U0001f600 *)VAR x:INTEGER;\rBEGIN(*\u20ac*)x:=1 END M.\n"

    def trial(work: str, own: dict[str, str]) -> None:
        same(ran(["ob0-format", "m.mod"], work, own), (0, "m.mod\n", ""), "a text with other characters")
        new = text_of(work, "m.mod")
        same(re.sub(r"\s", "", new), re.sub(r"\s", "", text), "the text without white space")
        same(ran(["ob0-format", "--check", "/dev/stdin"], work, own, new), (0, "", ""), "its layout, through a pipe")
        same(ran(["ob0-format", "--check", "/dev/stdin"], work, own, LOOSE), (1, "/dev/stdin\n", ""), "another text, through a pipe")

    in_folder({"m.mod": text}, trial)


@test("scripts: ob0-format formats standard input and folders, and prints differences with --diff")
def format_forms() -> None:
    def trial(work: str, own: dict[str, str]) -> None:
        same(ran(["ob0-format", "-"], work, own, LOOSE), (0, LAID_OUT, ""), "standard input")
        same(
            ran(["ob0-format", "-"], work, own, LAID_OUT.replace("\n", "\r\n")),
            (0, LAID_OUT.replace("\n", "\r\n"), ""),
            "with CR LF",
        )
        said = "- has errors, so it isn't formatted: `ob0-check` lists them\n"
        same(ran(["ob0-format", "-"], work, own, FAULTY), (1, "", said), "standard input with errors")
        same(ran(["ob0-format", "--check", "-"], work, own, LOOSE), (1, "-\n", ""), "standard input with --check")
        for name in ("good.mod", "loose.ob0"):
            status, out, err = ran(["ob0-format", "--diff", name], work, own)
            if out:
                same(ran(["patch", "-s", "-o", "patched", name], work, own, out), (0, "", ""), "patch")
            made = text_of(work, "patched") if out else text_of(work, name)
            same((status, made, err), (int(bool(out)), LAID_OUT, ""), f"the differences of {name}")
        ended = ran(["ob0-format", "--diff", "-"], work, own, LOOSE[:-1])[1]
        holds("\n\\ No newline at end of file\n+MODULE M;\n" in ended and ended.startswith("--- -\n+++ -\n@@ "), ended)
        os.unlink(os.path.join(work, "two words.Mod"))
        same(ran(["ob0-format", "."], work, own), (0, "loose.ob0\n", ""), "a folder")
        same(ran(["ob0-format", "--check", "."], work, own), (0, "", ""), "the folder after that")
        same(ran(["ob0-format", "--check", "--diff", "."], work, own)[0], 2, "two modes")

    in_folder(MODULES, trial)


NO_NAME = "there is no name here that can be renamed: predeclared names and the module's own can't (NoName)"
BAD_NAME = "the new name isn't one: letters and digits, a letter first, and no reserved word (BadName)"
RENAMED = """MODULE M;
VAR x, y: INTEGER;
  PROCEDURE P(z: INTEGER);
  BEGIN (* \U0001f600 *) x := z + y
  END P;
BEGIN P(1)
END M.
"""


@test("scripts: ob0-rename counts positions from 1, prints or replaces the file, and explains refusals in words")
def rename_script() -> None:
    refusals = {
        "m.mod:2:5 y": (1, "m.mod:2:5: `y` is declared in line 2 already (Duplicate)"),
        "m.mod:2:5 z": (1, "m.mod:2:5: with the new name, `x` in line 4 would refer to another declaration (Captures)"),
        "m.mod:2:5 END": (1, f"m.mod:2:5: {BAD_NAME}"),
        "m.mod:2:5 \u00e4": (1, f"m.mod:2:5: {BAD_NAME}"),
        "m.mod:2:11 N": (1, "m.mod:2:11: a predeclared name can't be renamed (Predeclared)"),
        "m.mod:1:8 N": (1, f"m.mod:1:8: {NO_NAME}"),
        "m.mod:99:8 N": (1, f"m.mod:99:8: {NO_NAME}"),
        "m.mod:4:200 N": (1, f"m.mod:4:200: {NO_NAME}"),
        "bad.mod:2:5 N": (1, "bad.mod: it has errors, so nothing is renamed: `ob0-check` lists them"),
        "nowhere:1:1 N": (4, "nowhere: No such file or directory"),
    }
    defined = re.findall(
        r"^\| `(\w+)", text_of("docs", "PROTOCOL.md").partition("## Refusals of edits")[2].partition("\n## ")[0], re.M
    )
    holds(
        {*re.findall(r'^    "(\w+)": "', text_of("share", "ob0-rename"), re.M)} < {*defined},
        "the script has other refusals",
    )

    def trial(work: str, own: dict[str, str]) -> None:
        new = RENAMED.replace("x", "new")
        for place in ("2:5", "4:17"):
            same(ran(["ob0-rename", f"m.mod:{place}", "new"], work, own), (0, new, ""), place)
        same(ran(["ob0-rename", "/dev/stdin:2:5", "new"], work, own, RENAMED), (0, new, ""), "standard input")
        for words, (status, said) in refusals.items():
            same(ran(["ob0-rename", "-i", *words.split()], work, own), (status, "", said + "\n"), words)
        same(text_of(work, "m.mod"), RENAMED, "what refusals leave")
        for place in ("m.mod", "m.mod:2", "m.mod:0:5", "m.mod:2:x", ":2:5"):
            same(ran(["ob0-rename", place, "new"], work, own)[:2], (2, ""), place)
        os.chmod(os.path.join(work, "m.mod"), 0o640)
        same(ran(["ob0-rename", "-i", "m.mod:2:5", "new"], work, own), (0, "", ""), "in place")
        same((text_of(work, "m.mod"), os.stat(os.path.join(work, "m.mod")).st_mode & 0o777), (new, 0o640), "the file")
        same(ran(["ob0-rename", "-i", "a:b\udcff.mod:2:5", "new"], work, own), (0, "", ""), "an odd name")
        os.chmod(os.path.join(work, "m.mod"), 0o440)
        same(
            ran(["ob0-rename", "-i", "m.mod:2:5", "n"], work, own),
            (4, "", "m.mod: it is read-only\n"),
            "a read-only file",
        )
        full = ran(["sh", "-c", "exec ob0-rename m.mod:2:5 n > /dev/full"], work, own)
        same(full, (4, "", "ob0-rename: standard output can't be written: No space left on device\n"), "a full disk")

    in_folder({"m.mod": RENAMED, "bad.mod": FAULTY, "a:b\udcff.mod": RENAMED}, trial)


FAULTS = """MODULE M;
TYPE P = RECORD x: INTEGER; b: BOOLEAN END;
VAR a: ARRAY 30 OF INTEGER; i: INTEGER; p: P; q: ARRAY 2 OF P;
  PROCEDURE Down(n: INTEGER; VAR m: INTEGER);
  VAR k: INTEGER;
  BEGIN
    k := n * 2;
    IF n > 0 THEN Down(n - 1, m)
    ELSIF (* \u00e4\U0001f600 *) 1 DIV n > 0 THEN
    END
  END Down;
  PROCEDURE Again;
  BEGIN Again
  END Again;
BEGIN
  Read(i); p.x := 3; p.b := TRUE; q[1] := p;
  IF i = 0 THEN WHILE TRUE DO a[0] := a[0] + 1 END
  ELSIF i = 1 THEN REPEAT UNTIL a[30 * i] = 0
  ELSIF i = 2 THEN Read(a[1])
  ELSIF i = 3 THEN Again
  ELSIF i = 4 THEN a[0] := 2147483647;
    a[1] := a[0] +
      a[0]
  ELSE Down(i, a[2])
  END;
  Write(i)
END M.
"""
# for each first number of the input: lines that ob0-trace prints about the fault
TRACED: dict[str, list[str]] = {
    "0": ["m.mod:17:17: TurnBound: WHILE TRUE DO a[0] := a[0] + 1 END", "  in module M", "    p = (x = 3, b = TRUE)"],
    "1": [
        "m.mod:18:33: Index: a[30 * i]",
        "  in the statement of line 18: REPEAT UNTIL a[30 * i] = 0",
        "    q = [(x = 0, b = FALSE), (x = 3, b = TRUE)]",
    ],
    "2": ["m.mod:19:20: InputEnd: Read(a[1])", "    i = 2"],
    "3": ["m.mod:13:9: CallBound: Again", "  in procedure Again, called in line 13", "  .. 59 more calls"],
    "4": ["m.mod:22:13: Overflow: a[0] +", "  in the statement of line 22: a[1] := a[0] +"],
    "7": ["m.mod:9:20: Divisor: 1 DIV n", "  in procedure Down, called in line 8", "    n = 0", "    k = 2", "  .. 3 more calls"],
}


@test("scripts: ob0-trace reports the line and statement at which a run ends, the open calls and their variables")
def traced() -> None:
    def trial(work: str, own: dict[str, str]) -> None:
        for given, wanted in TRACED.items():
            run = ran(["ob0", "run", "m.mod"], work, own, given)
            status, out, err = ran(["ob0-trace", "m.mod"], work, own, given)
            same((status, out), run[:2], f"the status and the output of {given}")
            lines = err.splitlines()
            same(lines[0], wanted[0], f"the place of {given}")
            same([it for it in wanted if it not in lines], [], f"lines that {lines} lacks")
            holds("isn't proved" in lines[-1] and f": {run[2].split()[1]}: " in lines[0], err)
        same(
            ran(["ob0-trace", "gcd.mod"], work, own, text_of("examples", "Gcd.in")),
            (0, text_of("examples", "Gcd.out"), ""),
            "a run without a fault",
        )
        holds(
            ": CallBound: Down(n - 1, m)" in ran(["ob0-trace", "--calls", "3", "m.mod"], work, own, "7")[2],
            "another bound",
        )
        same(
            ran(["ob0-trace", "two words.Mod"], work, own),
            (1, "", "two words.Mod has errors, so it isn't run: `ob0-check` lists them\n"),
            "errors",
        )
        same(ran(["ob0-trace", "m.mod"], work, own, "x"), (4, "", "m.mod: fault: Input\n"), "another input")
        closed = ran(["sh", "-c", "exec ob0-trace m.mod <&-"], work, own)
        same(closed, (4, "", "m.mod: standard input is closed\n"), "a standard input that is closed")
        same(ran(["ob0-trace", "nowhere"], work, own), (4, "", "nowhere: No such file or directory\n"), "no file")
        same(ran(["ob0-trace", "--calls", "65", "m.mod"], work, own)[:2], (2, ""), "a bound that is too large")

    in_folder({**MODULES, "m.mod": FAULTS, "gcd.mod": text_of("examples", "Gcd.mod")}, trial)


@test("scripts: ob0-trace ends with status 6 if its second run differs from `ob0 run`")
def traced_otherwise() -> None:
    said = "m.mod: the second run ends with Done or prints something else, unlike `ob0 run`: please report this\n"
    for line in ("printf ' 1 2'", "printf ' 1\\n'; echo 'fault: Index' >&2; exit 1"):

        def trial(work: str, own: dict[str, str], line: str = line) -> None:
            other = os.path.join(work, "..", "other", "ob0")
            write(other, f"#!/bin/sh\n{line}\n")
            os.chmod(other, 0o755)
            found = ran(["ob0-trace", "--program", other, "m.mod"], work, own)
            same((found[0], found[2]), (6, said), line)

        in_folder({"m.mod": "MODULE M; BEGIN Write(1); WriteLn END M."}, trial)


@test("scripts: ob0-format ends with 2 for bad arguments and 4 for bad files, and continues with the other files")
def format_statuses() -> None:
    def trial(work: str, own: dict[str, str]) -> None:
        with open(os.path.join(work, "latin.mod"), "wb") as file:
            file.write(b"MODULE M; (* \xe4 *) END M.")
        found = ran(["ob0-format", "nowhere.mod", "latin.mod", "loose.ob0/", "loose.ob0"], work, own)
        same(
            found,
            (4, "loose.ob0\n", f"{MISSING}\nlatin.mod isn't UTF-8\nloose.ob0/: Not a directory\n"),
        )
        lines: list[list[str]] = [[], ["--chekc", "good.mod"], ["--check"]]
        for words in lines:
            same(ran(["ob0-format", *words], work, own)[:2], (2, ""), f"the status of {words}")
        same(ran(["ob0-format", "--help"], work, own)[::2], (0, ""), "help")
        for flag in ("-V", "--version"):
            same(ran(["ob0-format", flag], work, own), (0, f"ob0-format {package.version()}\n", ""), flag)
        said = "ob0-format: ob0 is neither beside this program nor on PATH\n"
        same(ran([sys.executable, FORMAT, "good.mod"], work, {**own, "PATH": work}), (4, "", said), "without ob0")

    in_folder(MODULES, trial)


FAULT = harness.diagnostic("Undeclared", "not declared", "4:2-4:3")


STARTED: list[Content] = [{"id": 1, "result": {"capabilities": {"positionEncoding": "utf-8"}}}]


def server_with(
    edits: list[Message], more: Iterable[Message] = (), faults: Iterable[Message] = (), meanwhile: str = ""
) -> str:
    """Returns the script of a server. It answers the first formatting request with `edits`, reports `faults` in the
    resulting text, and answers the next request with `more`. It runs the line `meanwhile` once the first text is
    opened."""
    answers: list[Content] = [published([]), {"id": 3, "result": edits}, published([])]
    answers += [published([*faults]), {"id": 5, "result": [*more]}, published([]), {"id": 6, "result": None}]
    waits = "got = b''\nwhile b'didOpen' not in got: got += os.read(0, 65536)"
    says = "sys.stdout.buffer.write(%r); sys.stdout.flush()"
    begins = says % frames(STARTED)
    return "\n".join(
        ["#!/usr/bin/env python3", "import os, sys", begins, waits, meanwhile, says % frames(answers), "sys.stdin.read()", ""]
    )


@test("scripts: ob0-format writes no text with changed tokens, whatever the server answers")
def guarded() -> None:
    change: Callable[[str], list[Message]] = lambda new: [{"range": harness.extent("4:7-4:8"), "newText": new}]
    spaced = LAID_OUT.replace("1\n", "1 \n")
    answers = [([change("2")], LAID_OUT), ([change("")], LAID_OUT), ([change("1 ")], spaced)]
    answers += [([change("1 "), change("1")], LAID_OUT), ([change("1 "), [], [FAULT]], LAID_OUT)]
    for given, wanted in answers:

        def trial(work: str, own: dict[str, str], given: Any = given, wanted: str = wanted) -> None:
            other = os.path.join(work, "..", "other")
            write(os.path.join(other, "ob0"), server_with(*given))
            os.chmod(os.path.join(other, "ob0"), 0o755)
            found = ran(["python3", FORMAT, "good.mod"], work, {**own, "PATH": other + os.pathsep + own["PATH"]})
            same((found[0], text_of(work, "good.mod")), (0 if wanted != LAID_OUT else 4, wanted), f"with {given}: {found}")

        in_folder(MODULES, trial)


@test("scripts: ob0-format leaves a file unchanged if another program changed the text before the server's answer")
def format_late() -> None:
    edits: list[Message] = [{"range": harness.extent("4:7-4:8"), "newText": "1 "}]
    trials: dict[str, tuple[str | None, str]] = {
        f"open('good.mod', 'w').write({FAULTY!r})": (FAULTY, CHANGED),
        f"open('new', 'w').write({LAID_OUT!r}); os.replace('new', 'good.mod')": (LAID_OUT.replace("1\n", "1 \n"), ""),
        "os.unlink('good.mod')": (None, "No such file or directory"),
    }
    for meanwhile, (wanted, why) in trials.items():

        def trial(work: str, own: dict[str, str], meanwhile: str = meanwhile, wanted: Any = wanted, why: str = why) -> None:
            other = os.path.join(work, "..", "other")
            write(os.path.join(other, "ob0"), server_with(edits, meanwhile=meanwhile))
            os.chmod(os.path.join(other, "ob0"), 0o755)
            found = ran(["python3", FORMAT, "good.mod"], work, {**own, "PATH": other + os.pathsep + own["PATH"]})
            same(found, (4, "", f"good.mod: {why}\n") if why else (0, "good.mod\n", ""), meanwhile)
            same(
                {it: text_of(work, it) for it in os.listdir(work)},
                {"good.mod": wanted} if wanted else {},
                f"the files after {meanwhile}",
            )

        in_folder({"good.mod": LAID_OUT}, trial)


@test("scripts: ob0-format keeps the old file if writing fails, and leaves no temporary file")
def failed_write() -> None:
    def trial(work: str, own: dict[str, str]) -> None:
        # (root may write everywhere, so another user runs the script; that user may be unable to enter the sources'
        # folder)
        room = os.path.dirname(work)
        for name in ("ob0", "ob0-format"):
            at = os.path.join(room, "bin", name)
            source = os.path.realpath(at)
            os.unlink(at)
            copy(source, at)
        copy(os.path.join(TOP, "share", "ob0"), os.path.join(room, "share", "ob0"))
        os.chmod(room, 0o755)
        os.chmod(work, 0o555)
        found = ran([*as_another(), "ob0-format", "loose.ob0"], work, own)
        same((found[0], text_of(work, "loose.ob0"), sorted(os.listdir(work))), (4, LOOSE, sorted(MODULES)), str(found))
        os.chmod(work, 0o755)

    in_folder(MODULES, trial)


NAMES = ["a.mod", "gr\udcfc\udcdfe.mod", "gr\u00f6\u00dfe.mod", "line\nend.mod", "z.mod"]
LOCALES: list[dict[str, str]] = [{}, {"PYTHONIOENCODING": "utf-8:strict"}, {"PYTHONIOENCODING": "ascii:strict"}]
LOCALES.append({"LC_ALL": "C", "PYTHONCOERCECLOCALE": "0", "PYTHONUTF8": "0"})


@test("scripts: ob0-format prints file names of any bytes in any locale, and formats each file")
def format_names() -> None:
    def trial(more: dict[str, str], work: str, own: dict[str, str]) -> None:
        found = ran(["ob0-format", "--check", *NAMES], work, {**own, **more})
        same(found, (1, "".join(f"{it}\n" for it in NAMES), ""), f"with --check and {more}")
        found = ran(["ob0-format", NAMES[0], "\udcff", *NAMES[1:]], work, {**own, **more})
        same(found, (4, "".join(f"{it}\n" for it in NAMES), "\udcff: No such file or directory\n"), f"with {more}")
        same([text_of(work, it) for it in NAMES], [LAID_OUT] * len(NAMES), "the files")

    for more in LOCALES:
        in_folder(dict.fromkeys(NAMES, LOOSE), functools.partial(trial, more))


CLOSED = "import os, sys; r, w = os.pipe(); os.close(r); os.dup2(w, 1); os.execvp(sys.argv[1], sys.argv[1:])"


@test("scripts: ob0-format formats each file even if the names can't be printed, and reports the failure once")
def format_unprinted() -> None:
    def trial(line: str, why: str, work: str, own: dict[str, str]) -> None:
        found = ran(["sh", "-c", line, "sh", *NAMES], work, own)
        same(found, (4, "", f"ob0-format: standard output can't be written: {why}\n"), line)
        same([text_of(work, it) for it in NAMES], [LAID_OUT] * len(NAMES), f"the files after {line}")

    for line, why in (
        (f'exec python3 -c "{CLOSED}" ob0-format "$@"', "Broken pipe"),
        ('exec ob0-format "$@" > /dev/full', "No space left on device"),
        ('exec ob0-format "$@" >&-', "it is closed"),
    ):
        in_folder(dict.fromkeys(NAMES, LOOSE), functools.partial(trial, line, why))


@test("scripts: ob0-format keeps owner, mode, attributes and line endings, and refuses read-only and hard-linked files")
def format_keeps() -> None:
    def trial(work: str, own: dict[str, str]) -> None:
        file = os.path.join(work, "loose.ob0")
        owner = (65534, 65533) if os.geteuid() == 0 else (os.getuid(), os.getgid())
        os.chown(file, *owner)
        os.chmod(file, 0o604)
        os.setxattr(file, "user.ob0", b"kept")
        os.chmod(os.path.join(work, "read.mod"), 0o444)
        os.link(os.path.join(work, "first.mod"), os.path.join(work, "second.mod"))
        refused = "read.mod: it is read-only\nfirst.mod: it has another name (a hard link), which would keep the old text\n"
        found = ran(["ob0-format", "read.mod", "first.mod", "loose.ob0", "dos.mod"], work, own)
        same(found, (4, "loose.ob0\ndos.mod\n", refused), "the files")
        same([text_of(work, it) for it in ("read.mod", "first.mod")], [LOOSE] * 2, "the refused files")
        with open(os.path.join(work, "dos.mod"), newline="", encoding="utf-8") as text:
            same(text.read(), LAID_OUT.replace("\n", "\r\n"), "a file with CR LF")
        now = os.stat(file)
        same((now.st_uid, now.st_gid, now.st_mode & 0o777, os.getxattr(file, "user.ob0")), (*owner, 0o604, b"kept"), "the kept mode, owner and attribute")
        same(ran(["ob0-format", "--check", "dos.mod"], work, own), (0, "", ""), "a formatted file with CR LF")
        same(ran(["ob0-format", "--check", "read.mod", "first.mod"], work, own), (1, "read.mod\nfirst.mod\n", ""), "what --check names")

    in_folder({**dict.fromkeys(("loose.ob0", "read.mod", "first.mod"), LOOSE), "dos.mod": LOOSE.replace("\n", "\r\n")}, trial)


@test("scripts: ob0-format leaves another user's file unchanged if it can't keep the file's owner")
def format_others() -> None:
    want("root")

    def trial(work: str, own: dict[str, str]) -> None:
        room = os.path.dirname(work)
        write(os.path.join(room, "other", "ob0"), server_with([{"range": harness.extent("0:7-0:7"), "newText": " "}]))
        copy(os.path.join(TOP, "share", "ob0"), os.path.join(room, "share", "ob0"))
        copy(FORMAT, os.path.join(room, "other", "ob0-format"))
        modes = {"": 0o755, "other": 0o755, "other/ob0": 0o755, "work": 0o777, "work/good.mod": 0o666}
        for name, mode in modes.items():
            os.chmod(os.path.join(room, name), mode)
        found = ran([*as_another(), "python3", os.path.join(room, "other", "ob0-format"), "good.mod"], work, own)
        said = "good.mod: its owner, group, mode or access list can't be kept: Operation not permitted\n"
        same((found, text_of(work, "good.mod"), os.listdir(work)), ((4, "", said), LAID_OUT, ["good.mod"]))

    in_folder({"good.mod": LAID_OUT}, trial)


@test("scripts: ob0-format refuses to replace a device, and reads no more from a device than the longest module")
def format_devices() -> None:
    refused = "/dev/stdin: only a file can be replaced\n"

    def trial(work: str, own: dict[str, str]) -> None:
        same(ran(["sh", "-c", "ob0-format /dev/stdin < loose.ob0"], work, own), (4, "", refused), "a file as standard input")
        same((text_of(work, "loose.ob0"), sorted(os.listdir(work))), (LOOSE, sorted(MODULES)), "the files")
        same(ran(["ob0-format", "/dev/stdin"], work, own, LOOSE), (4, "", refused), "a pipe")
        endless = "/dev/zero has errors, so it isn't formatted: `ob0-check` lists them\n"
        same(ran(["ob0-format", "/dev/zero"], work, own), (1, "", endless), "a device without an end")

    in_folder(MODULES, trial)
    holds("`TooLong` | the text has more than 1,048,576 bytes" in text_of("docs", "LANGUAGE.md"), "the page has another longest text")


def first_by(lines: str, answers: list[Content], work: str, own: dict[str, str]) -> dict[str, str]:
    """Returns an environment in which `ob0`, when first started, writes its process number to the file `pid`, prints
    these answers, and runs these shell lines. Later calls start the real program."""
    other = os.path.join(work, "..", "other")
    script = f"#!/bin/sh\n[ -e pid ] && exec ob0-itself \"$@\"\necho $$ > new; mv new pid; cat '{other}/answers'\n{lines}\n"
    write(os.path.join(other, "ob0"), script)
    os.chmod(os.path.join(other, "ob0"), 0o755)
    os.symlink(os.path.abspath(harness.BINARY), os.path.join(other, "ob0-itself"))
    with open(os.path.join(other, "answers"), "wb") as file:
        file.write(frames(answers))
    return {**own, "PATH": other + os.pathsep + own["PATH"]}


@test("scripts: ob0-format starts a new server for the next file if the server fails on a file")
def format_again() -> None:
    strange: list[Content] = [*STARTED, {"method": "textDocument/publishDiagnostics"}]
    for answers, said in ((STARTED, "the server ended"), (strange, "the server answers something else than it has to")):

        def trial(work: str, own: dict[str, str], answers: list[Content] = answers, said: str = said) -> None:
            found = ran(["python3", FORMAT, "a.mod", "b.mod"], work, first_by("head -n 5 > /dev/null", answers, work, own))
            same((found, text_of(work, "a.mod"), text_of(work, "b.mod")), ((4, "b.mod\n", f"a.mod: {said}\n"), LOOSE, LAID_OUT))

        in_folder({"a.mod": LOOSE, "b.mod": LOOSE}, trial)


# runs a script that gets a signal just before it replaces a file
SIGNALLED = """
import os, runpy, sys
replace, number = os.replace, int(sys.argv[1])
def signalled(*words):
    os.kill(os.getpid(), number)
    replace(*words)
os.replace = signalled
sys.argv = sys.argv[2:]
runpy.run_path(sys.argv[0], run_name="__main__")
"""
SIGNALS = (signal.SIGINT, signal.SIGTERM, signal.SIGHUP)


@test("scripts: a signal ends ob0-format and its server, and leaves neither a half-written nor a temporary file")
def format_signalled() -> None:
    def while_it_writes(number: int, work: str, own: dict[str, str]) -> None:
        status, out, _ = ran(["python3", "-c", SIGNALLED, str(int(number)), FORMAT, "a.mod", "b.mod"], work, own)
        same((status, out, sorted(os.listdir(work))), (-number, "", ["a.mod", "b.mod"]), f"signal {number} while it writes")
        same([text_of(work, it) for it in ("a.mod", "b.mod")], [LAID_OUT, LOOSE], "the files")

    def while_it_waits(number: int, work: str, own: dict[str, str]) -> None:
        environment = first_by("exec sleep 600", STARTED, work, own)
        with subprocess.Popen(["python3", FORMAT, "a.mod"], cwd=work, env=environment) as process:
            while not os.path.exists(os.path.join(work, "pid")):
                time.sleep(0.01)
            time.sleep(0.3)
            process.send_signal(number)
            same(process.wait(harness.SECONDS), -number, "the status")
        holds(not is_running(int(text_of(work, "pid"))), f"the server still runs after signal {number}")

    for number in SIGNALS:
        in_folder({"a.mod": LOOSE, "b.mod": LOOSE}, functools.partial(while_it_writes, number))
        in_folder({"a.mod": LOOSE}, functools.partial(while_it_waits, number))


BLOCKS = [text for name, text in fenced("docs/CI.md") if name == "sh"]
RUN, HOOK = BLOCKS
LISTED = ["two words.Mod:3:3: Undeclared: not declared", "two words.Mod:4:3: Undeclared: not declared"]
MARKED = [f"::error file=two words.Mod,line={line},col=3::Undeclared: not declared" for line in (3, 4)]


# names that a shell, awk or GitHub could take for something else (Git quotes some of them, and takes `:1:x` for a stage of x)
ODD = ["-ugly.mod", "100%, a:b.mod", "1:x.mod", "it's.mod", 'quote".mod', "back\\tslash.mod", "tab\t.mod", "line\nend.mod"]
ESCAPED = [("%", "%25"), ("\n", "%0A"), (":", "%3A"), (",", "%2C")]


@test("scripts: ob0-check lists errors of several files as compilers do or for GitHub, and ends with the worst status")
def check_script() -> None:
    def trial(work: str, own: dict[str, str]) -> None:
        same(
            ran(["ob0-check", "two words.Mod", "good.mod"], work, own),
            (1, "\n".join(LISTED) + "\n", ""),
            "as compilers do",
        )
        same(ran(["ob0-check", "--github", *MODULES], work, own), (1, "\n".join(MARKED) + "\n", ""), "for GitHub")
        forms: list[list[str]] = [[], ["--github"]]
        for form in forms:
            same(ran(["ob0-check", *form, "good.mod", "loose.ob0"], work, own), (0, "", ""), f"without errors, {form}")
        same(ran(["ob0-check", "--json", "good.mod"], work, own), (0, "[]\n", ""), "without errors, as JSON")
        with open(os.path.join(work, "latin.mod"), "wb") as file:
            file.write(b"MODULE M; (* \xe4 *) END M.")
        why = {"nowhere.mod": ": No such file or directory", "latin.mod": " isn't UTF-8"}
        said = "".join(f"{name}{it}\n" for name, it in why.items())
        same(
            ran(["ob0-check", *why, "two words.Mod"], work, own),
            (4, "\n".join(LISTED) + "\n", said),
            "files that can't be checked",
        )
        words = {name: it.strip(": ").replace("isn", "it isn") for name, it in why.items()}
        marks = [f"::error file={name},line=1,col=1::File: it can't be checked: {it}\n" for name, it in words.items()]
        same(ran(["ob0-check", "--github", *why], work, own), (4, "".join(marks), said), "the same for GitHub")

    in_folder(MODULES, trial)


@test("scripts: ob0-check counts lines and columns from 1, in characters, and reports the same errors as `ob0 check`")
def check_places() -> None:
    text = "MODULE M;\r\n(* \u00e4\U0001f600 *) x;\r\ty\n\u00e9 END M.\n"

    def trial(work: str, own: dict[str, str]) -> None:
        listed = "m.mod:2:10: BadChar"
        status, out, _ = ran(["ob0-check", "m.mod"], work, own)
        by_program = ran(["ob0", "check", "m.mod"], work, own)[1].splitlines()
        same(
            (status, [it.split(": ", 1)[1] for it in out.splitlines()]),
            (1, [it.split(": ", 1)[1] for it in by_program]),
            "the errors",
        )
        same([it.split(": ")[0] for it in out.splitlines()], ["m.mod:4:1"], f"the places, {listed}")
        write(os.path.join(work, "n.mod"), text.replace("\u00e9", ""))
        same(
            ran(["ob0-check", "n.mod"], work, own)[1],
            "n.mod:2:10: Syntax: expected END\n",
            "a place after characters of two and of four bytes",
        )
        write(os.path.join(work, "long.mod"), "MODULE M; (*" + "\u00e4" * (1 << 19) + "*) END M.")
        same(
            ran(["ob0-check", "long.mod"], work, own),
            (1, "long.mod:1:1: TooLong: text too long\n", ""),
            "a text that is too long",
        )
        same(
            ran(["ob0", "check", "long.mod"], work, own),
            (1, "0:0: TooLong: text too long\n", ""),
            "the same by the program",
        )
        closed = ran(["sh", "-c", "exec ob0-check - <&-"], work, own)
        same(closed, (4, "", "-: it is closed\n"), "a standard input that is closed")
        for name in ("-", "/dev/stdin"):
            same(
                ran(["ob0-check", name], work, own, FAULTY)[1],
                "\n".join(LISTED).replace("two words.Mod", name) + "\n",
                name,
            )

    in_folder({"m.mod": text}, trial)


@test("scripts: ob0-check --json writes the file, position, code and message of each error")
def check_json() -> None:
    def trial(work: str, own: dict[str, str]) -> None:
        status, out, _ = ran(["ob0-check", "--json", *MODULES, "nowhere.mod"], work, own)
        found = json.loads(out)
        where = [it["location"] for it in found]
        places = [(it["path"], it["lines"]["begin"], *it["positions"]["begin"].values()) for it in where]
        same(
            (status, places),
            (4, [("two words.Mod", 3, 3, 3), ("two words.Mod", 4, 4, 3), ("nowhere.mod", 1, 1, 1)]),
            "the places",
        )
        same(
            [it["location"]["positions"]["end"] for it in found[:2]],
            [{"line": line, "column": 4} for line in (3, 4)],
            "their ends",
        )
        same([it["check_name"] for it in found], ["Undeclared", "Undeclared", "File"], "the codes")
        same(
            [it["description"] for it in found[1:]],
            ["not declared", "it can't be checked: No such file or directory"],
            "the messages",
        )
        same(len({it["fingerprint"] for it in found}), 3, "the fingerprints")

    in_folder(MODULES, trial)


@test("scripts: ob0-check --hints prints a hint below a message, and includes the hint in the other formats")
def check_hints() -> None:
    text = "MODULE M;\nVAR x: INTEGER;\nBEGIN\n  x = 1\nEND M.\n"
    hint = "an assignment is written `:=`, as in `x := 1`; `=` compares"

    def trial(work: str, own: dict[str, str]) -> None:
        words = ["ob0-check", "--hints"]
        same(
            ran([*words, "m.mod", "good.mod"], work, own),
            (1, f"m.mod:4:5: Syntax: expected END\n    hint: {hint}\n", ""),
            "a hint",
        )
        same(ran([*words, "two words.Mod"], work, own)[1], "\n".join(LISTED) + "\n", "messages without a hint")
        marked = f"::error file=m.mod,line=4,col=5::Syntax: expected END%0Ahint: {hint}\n"
        same(ran([*words, "--github", "m.mod"], work, own)[1], marked, "for GitHub")
        same(json.loads(ran([*words, "--json", "m.mod"], work, own)[1])[0]["content"], {"body": hint}, "in JSON")

    in_folder({**MODULES, "m.mod": text}, trial)


@test("scripts: ob0-check and ob0-format accept files of any name")
def check_names() -> None:
    def trial(work: str, own: dict[str, str]) -> None:
        for name in names:
            marked = functools.reduce(lambda text, pair: text.replace(*pair), ESCAPED, name)
            forms: list[tuple[str, list[str], list[str]]] = [(name, LISTED, []), (marked, MARKED, ["--github"])]
            for said, listed, words in forms:
                wanted = "".join(it.replace("two words.Mod", said) + "\n" for it in listed)
                same(ran(["ob0-check", *words, "--", name], work, own), (1, wanted, ""), repr(name))
            same(
                json.loads(ran(["ob0-check", "--json", "--", name], work, own)[1])[0]["location"]["path"],
                name,
                f"{name!r} in JSON",
            )

    names = [*ODD, "gr\udcfc\udcdfe.mod"]
    in_folder(dict.fromkeys(names, FAULTY), trial)


@test("scripts: ob0-check reports once that standard output can't be written, and ends with status 4")
def check_unprinted() -> None:
    for line, why in (
        (f'exec python3 -c "{CLOSED}" ob0-check "$@"', "Broken pipe"),
        ('exec ob0-check "$@" > /dev/full', "No space left on device"),
        ('exec ob0-check --json "$@" >&-', "it is closed"),
    ):
        found = in_folder(
            {"a.mod": FAULTY, "b.mod": FAULTY}, functools.partial(ran, ["sh", "-c", line, "sh", "a.mod", "b.mod"])
        )
        same(found, (4, "", f"ob0-check: standard output can't be written: {why}\n"), line)


# files with names like modules', with their texts, and whether they are modules
TAKEN = [
    ("go.mod", "module example\n", False),
    ("go/tools.mod", "module example.com/x\n", False),
    ("go/small.mod", "module small;\n", True),
    ("go/m.mod", "MODULE a.b\n", True),
    ("a.mod", "DEFINITION MODULE M;\n", False),
    ("b.Mod", "(* MODULE M; *) x\n", False),
    ("c.mod", "(* MODULE M;\n", False),
    ("d.mod", "MODULES M;\n", False),
    ("e.mod", "", False),
    ("f.mod", "(* one (* and two *) *)\n\n(*) three *) MODULE\nx\n", True),
    ("g.mod", "\r\n\tMODULE;\r\n", True),
    ("h.ob0", "x\n", True),
    ("i.Mod", "MODULE", True),
    ("lib/j.mod", "\ufeffmodule M;\n", True),
    (".hidden/k.ob0", "x\n", False),
    ("l.txt", "MODULE M;", False),
]


@test("scripts: ob0-check and ob0-format handle only the modules of a folder, and skip links and hidden folders")
def taken() -> None:
    def trial(work: str, own: dict[str, str]) -> None:
        for name, target in (("link.mod", "f.mod"), ("links", "lib")):
            os.symlink(target, os.path.join(work, name))
        wanted = [name for name, _, is_taken in TAKEN if is_taken]
        status, out, err = ran(["ob0-check", "."], work, own)
        same(
            (status, list(dict.fromkeys(it.partition(":")[0] for it in out.splitlines())), err),
            (1, sorted(wanted), ""),
            out,
        )
        _, _, err = ran(["ob0-format", "--check", "."], work, own)
        same([it.partition(" has ")[0] for it in err.splitlines()], sorted(wanted), err)
        for given in ("lib", os.path.join(work, "lib"), "links"):
            out = ran(["ob0-check", given], work, own)[1]
            holds(out.startswith(f"{given}/j.mod:1:1: "), f"what is printed of {given}: {out}")

    in_folder({name: text for name, text, _ in TAKEN}, trial)


@test("scripts: ob0-check reports a folder that can't be read, and checks the files after it")
def unreadable() -> None:
    def trial(work: str, own: dict[str, str]) -> None:
        room = os.path.dirname(work)
        for name in ("ob0", "ob0-check"):
            source = os.path.realpath(os.path.join(room, "bin", name))
            os.unlink(os.path.join(room, "bin", name))
            shutil.copy(source, os.path.join(room, "bin", name))
        shutil.copytree(os.path.join(TOP, "share", "ob0"), os.path.join(room, "share", "ob0"))
        os.chmod(room, 0o755)
        os.chmod(os.path.join(work, "lib"), 0)
        found = ran([*as_another(), "ob0-check", "lib", "good.mod", "two words.Mod"], work, own)
        os.chmod(os.path.join(work, "lib"), 0o755)
        same(found, (4, "\n".join(LISTED) + "\n", "lib: Permission denied\n"))

    in_folder({**MODULES, "lib/a.mod": FAULTY}, trial)


ENDLESS = "MODULE Gcd;\nBEGIN\n  WHILE TRUE DO\n  END\nEND Gcd.\n"


@test("scripts: the line in docs/CI.md that compares a module's output fails after a different output or a fault")
def run_script() -> None:
    files = {f"Gcd.{it}": text_of("examples", f"Gcd.{it}") for it in ("mod", "in", "out")}
    faulty = "a: ARRAY 1 OF INTEGER;\n" + files["Gcd.mod"].partition("VAR\n")[2]
    faulty = "MODULE Gcd;\nVAR " + faulty.replace("\nEND Gcd.", ";\n  a[1] := 1\nEND Gcd.")
    changed = {"Gcd.out": files["Gcd.out"] + " 1"}
    endless = {"Gcd.mod": ENDLESS, "Gcd.out": ""}
    trials: list[tuple[dict[str, str], int, str]] = [({}, 0, ""), (changed, 1, ""), ({"Gcd.mod": faulty}, 1, "fault: Index\n"), (endless, 1, "fault: TurnBound\n")]
    for more, status, said in trials:
        found = in_folder({**files, **more}, functools.partial(ran, ["sh", "-c", RUN]))
        same((found[0], found[2] if said else ""), (status, said), f"with {more}: {found}")


@test("scripts: the commands that docs/CI.md lists accept /dev/stdin as FILE")
def standard_input() -> None:
    def trial(work: str, own: dict[str, str]) -> None:
        same(ran(["ob0", "check", "/dev/stdin"], work, own, LAID_OUT), (0, "", ""), "check")
        same(ran(["ob0", "rename", "/dev/stdin", "0", "7", "N"], work, own, LAID_OUT), (1, "", "refused: NoName\n"), "rename, refused")
        same(ran(["ob0", "rename", "/dev/stdin", "2", "2", "y"], work, own, LAID_OUT), (0, LAID_OUT.replace("x", "y"), ""), "rename")
        same(ran(["ob0-format", "--check", "/dev/stdin"], work, own, LAID_OUT), (0, "", ""), "ob0-format --check")
        same(ran(["ob0-format", "/dev/stdin"], work, own, LOOSE)[0], 4, "the status of ob0-format through a pipe")
        same(ran(["sh", "-c", "ob0 run /dev/stdin < good.mod"], work, own), (4, "", "fault: Input\n"), "run, of a file")
        found = ran(["ob0", "run", "/dev/stdin"], work, own, "MODULE M; VAR x: INTEGER; BEGIN Read(x) END M.")
        same(found, (1, "", "fault: InputEnd\n"), "run, through a pipe")

    page = " ".join(text_of("docs", "CI.md").split())
    for it in ("The FILE of `ob0 check`, `ob0 rename` and `ob0-format --check`", "not of `ob0 run`", "`ob0-format` without `--check` ends with status 4"):
        holds(it in page, f"the page has no {it}")
    in_folder(MODULES, trial)


def git(work: str, own: dict[str, str], *words: str) -> tuple[int, str, str]:
    names = ["-c", "user.name=x", "-c", "user.email=x@example.org", "-c", "init.defaultBranch=main"]
    return ran(["git", *names, *words], work, own)


def with_hook(work: str, own: dict[str, str]) -> None:
    """Makes a folder a Git repository that uses the hook in docs/CI.md."""
    same(git(work, own, "init", "-q")[0], 0, "git init")
    write(os.path.join(work, ".git", "hooks", "pre-commit"), HOOK)
    os.chmod(os.path.join(work, ".git", "hooks", "pre-commit"), 0o755)


@test("scripts: the hook in docs/CI.md rejects a commit if a staged module has errors or isn't formatted")
def hook() -> None:
    if not shutil.which("git"):
        harness.leave_out("it needs git")

    def trial(work: str, own: dict[str, str]) -> None:
        with_hook(work, own)
        git(work, own, "add", ".")
        status, out, err = git(work, own, "commit", "-q", "-m", "all")
        holds(status == 1 and "\n".join([*LISTED, ""]) in err, f"the errors: {out}{err}")
        # (the staged text counts, and the file in the folder doesn't)
        write(os.path.join(work, "two words.Mod"), LAID_OUT)
        same(git(work, own, "commit", "-q", "-m", "all")[0], 1, "a commit of what isn't in the folder any more")
        git(work, own, "add", ".")
        status, out, err = git(work, own, "commit", "-q", "-m", "all")
        holds(status == 1 and "loose.ob0" in err and "two words" not in err, f"what isn't formatted: {out}{err}")
        same(ran(["ob0-format", "loose.ob0"], work, own)[0], 0, "ob0-format")
        git(work, own, "add", ".")
        write(os.path.join(work, "good.mod"), FAULTY)
        same(git(work, own, "commit", "-q", "-m", "all"), (0, "", ""), "a commit without errors")
        git(work, own, "rm", "-q", "--cached", "good.mod")
        same(git(work, own, "commit", "-q", "-m", "without one"), (0, "", ""), "a commit that only removes a module")

    in_folder({**MODULES, "other.txt": FAULTY, "go.mod": "module example.com/x\n"}, trial)


@test("scripts: the hook in docs/CI.md checks staged files of any name, and follows no links")
def hook_names() -> None:
    if not shutil.which("git"):
        harness.leave_out("it needs git")

    def trial(text: str, status: int, said: str, work: str, own: dict[str, str]) -> None:
        with_hook(work, own)
        os.symlink("../" + ODD[0], os.path.join(work, "link.mod"))
        git(work, own, "add", "link.mod")
        for name in ODD:
            write(os.path.join(work, name), text)
            git(work, own, "add", "--", "./" + name)
            found = git(work, own, "commit", "-q", "-m", "one")
            same((found[0] != 0, said % ((name,) * said.count("%s")) in found[2]), (status, True), f"the commit of {name!r}: {found}")
            git(work, own, "rm", "-q", "-f", "--cached", "--", "./" + name)

    listed = "%s:3:3: Undeclared: not declared\n"
    for text, status, said in ((LAID_OUT, False, ""), (FAULTY, True, listed), (LOOSE, True, "%s\n")):
        in_folder({"other.txt": ""}, functools.partial(trial, text, status, said))


@test("scripts: the hook in docs/CI.md checks 200 files in less than three seconds of CPU time")
def hook_of_many() -> None:
    if not shutil.which("git"):
        harness.leave_out("it needs git")

    def trial(work: str, own: dict[str, str]) -> None:
        with_hook(work, own)
        git(work, own, "add", ".")
        before = os.times()
        same(git(work, own, "commit", "-q", "-m", "all"), (0, "", ""), "a commit of 200 files")
        after = os.times()
        seconds = after.children_user - before.children_user + after.children_system - before.children_system
        holds(seconds < 3 or harness.BINARY != os.path.join(TOP, "bin", "ob0"), f"it takes {seconds:.1f} s")

    text = text_of("examples", "Gcd.mod")
    in_folder({f"lib/M{at}.mod": text for at in range(200)}, trial)


@test("scripts: the CI jobs in docs/CI.md and the pre-commit hooks fail if a module has errors or isn't formatted")
def job() -> None:
    listed = [text for name, text in fenced("docs/CI.md") if name == "yaml"]
    blocks = [re.findall(r"^ +- (?:run: )?(ob0-\w+ .*)$", text, re.M) for text in listed]
    jobs = ["\n".join(it) for it in blocks if it]
    same(len(jobs), 3, "the jobs of GitHub, Forgejo and GitLab")
    rows: list[tuple[dict[str, str], int, list[str]]] = [
        (MODULES, 1, LISTED), ({"loose.ob0": LOOSE}, 1, ["loose.ob0"]), ({}, 0, [])
    ]
    rows.append(({"-ugly.mod": LAID_OUT, "go.mod": "module example.com/x\n"}, 0, []))
    for line in jobs:
        for files, wanted, said in rows:
            status, out, err = in_folder({"other.txt": "", **files}, functools.partial(ran, ["sh", "-e", "-c", line]))
            marked = MARKED if "--github" in line and said == LISTED else said
            same((status, all(it in out for it in marked), err), (wanted, True, ""), f"{line}: {out}")
    hooks = text_of(".pre-commit-hooks.yaml")
    entries = re.findall(r"^  entry: (.*)$", hooks, re.M)
    same(entries, ["ob0-check --", "ob0-format --"], "the hooks for pre-commit")
    pattern, excluded = match_of(r"^  files: (.*)$", hooks, re.M)[1], match_of(r"^  exclude: (.*)$", hooks, re.M)[1]
    names = ["a.ob0", "lib/b.mod", "c.Mod", "go.mod", "x/go.mod", "cargo.mod", "d.txt"]
    same(
        [it for it in names if re.search(pattern, it) and not re.search(excluded, it)],
        ["a.ob0", "lib/b.mod", "c.Mod", "cargo.mod"],
        "their files",
    )
    for entry in entries:
        holds(in_folder(MODULES, functools.partial(ran, [*entry.split(), *MODULES]))[0] == 1, entry)


@test("scripts: the shell lines in ob0's manual page list errors as compilers do, and keep the status")
def manual_lines() -> None:
    harness.want("bash")
    page = text_of("share", "ob0.1").partition("List errors as compilers do")[2].partition(".nf\n")[2].partition(".fi\n")[0]
    lines = page.replace("\\(aq", "'").replace("\\e", "\\").replace("\\-", "-")
    for text, status, said in ((FAULTY, 1, "\n".join(LISTED) + "\n"), (LAID_OUT, 0, "")):
        for shell in (["sh", "-c"], ["sh", "-e", "-c"], ["bash", "-e", "-o", "pipefail", "-c"]):
            wanted = (status, said.replace("two words.Mod", "Sort.mod"), "")
            same(in_folder({"Sort.mod": text}, functools.partial(ran, [*shell, lines])), wanted, " ".join(shell))
    missing = in_folder({"other.mod": LAID_OUT}, functools.partial(ran, ["sh", "-c", lines]))
    same(missing, (4, "", "fault: File\n"), "a missing file")
