"""Tests the exercises of examples/exercises: their page, their files, and mark.py on right and wrong answers.

The right answers are in tests/answers; each wrong one is a right one with one change."""
from __future__ import annotations

import contextlib
import csv
import io
import itertools
import os
import re
import signal
import subprocess
import tempfile
import time
from collections.abc import Callable, Iterable
from typing import Any

import harness
from common import match_of
from harness import TOP, Server, did_open, holds, is_running, names_in, need_program, run, same, test, text_of
from homes import as_another, copy, run_plainly, temporary, write

FOLDER = os.path.join("examples", "exercises")
PAGE = text_of(FOLDER, "README.md")
NAMES = re.findall(r"^## \d+\. (\w+)$", PAGE, re.M)


def cases(exercise: str) -> list[tuple[list[int], list[list[int]]]]:
    """Returns the cases of an exercise: each has the numbers of its input, and the numbers of each line to be printed.
    The list of lines is empty if nothing is to be printed."""
    found = []
    for part in text_of(FOLDER, f"{exercise}.txt").rstrip("\n").split("\n\n"):
        first, *rest = part.split("\n")
        holds(first.startswith("in: ") and all(it.startswith("out:") for it in rest), f"{exercise}: {part}")
        numbers = [[int(it) for it in line.partition(":")[2].split()] for line in (first, *rest)]
        found.append((numbers[0], numbers[1:] if any(numbers[1:]) else []))
    return found


def answer(exercise: str) -> str:
    return text_of("tests", "answers", f"{exercise}.mod")


# The right result of each exercise, computed in another way than by the answers


def until_zero(numbers: list[int]) -> list[int]:
    return list(itertools.takewhile(lambda it: it != 0, numbers))


def votes(numbers: list[int]) -> list[list[int]]:
    counts = [until_zero(numbers).count(it) for it in range(1, 6)]
    return [counts, [counts.index(max(counts)) + 1]]


def pascal(numbers: list[int]) -> list[list[int]]:
    rows = [[1]]
    while len(rows) < numbers[0]:
        rows.append([a + b for a, b in zip([0, *rows[-1]], [*rows[-1], 0])])
    return rows[: numbers[0]]


def nearest(numbers: list[int]) -> list[list[int]]:
    points = list(zip(numbers[1::2], numbers[2::2]))
    same(len(points), numbers[0], "how many points")
    pairs = sorted(itertools.combinations(points, 2), key=lambda it: (it[0][0] - it[1][0]) ** 2 + (it[0][1] - it[1][1]) ** 2)
    squares = [(p[0] - q[0]) ** 2 + (p[1] - q[1]) ** 2 for p, q in pairs]
    holds(squares.count(squares[0]) == 1, f"several pairs are nearest in {numbers}")
    return [list(it) for it in pairs[0]]


def queens(numbers: list[int]) -> list[list[int]]:
    n = numbers[0]
    safe: Callable[[Iterable[int]], bool] = lambda it: len({a + b for a, b in enumerate(it)}) == len({a - b for a, b in enumerate(it)}) == n
    return [[sum(map(safe, itertools.permutations(range(n))))]]


WANTED = {
    "Clock": lambda it: [[it[0] // 3600, it[0] % 3600 // 60, it[0] % 60]],
    "Leap": lambda it: [[int(it[0] % 400 == 0 or it[0] % 4 == 0 and it[0] % 100 != 0)]],
    "Total": lambda it: [[len(until_zero(it)), sum(until_zero(it))]],
    "Largest": lambda it: [[max(it[1 : it[0] + 1])]],
    "Digits": lambda it: [[len(str(it[0])), sum(map(int, str(it[0])))]],
    "Power": lambda it: [[it[0] ** it[1], it[1] ** it[0]]],
    "Reverse": lambda it: [it[:0:-1]] if it[0] else [],
    "Votes": votes,
    "Binary": lambda it: [[int(digit) for digit in f"{it[0]:b}"]],
    "Pascal": pascal,
    "Nearest": nearest,
    "Queens": queens,
}


# (with the script's own time limit, the results would depend on the machine's speed)
LONGEST = ["--seconds", "300"]


def mark(*words: str) -> tuple[int, str]:
    """Runs mark.py with the tested program. Returns its exit status and its output."""
    need_program()
    program = os.path.abspath(harness.BINARY)
    script = os.path.join(TOP, FOLDER, "mark.py")
    return run_plainly(["python3", "-B", script, "--program", program, *LONGEST, *words], dict(os.environ), TOP)


def marked(exercise: str, text: str, *words: str, encoding: str = "utf-8") -> tuple[int, str]:
    """Marks one module with mark.py. Returns the exit status, and the line that mark.py prints about the module."""
    with tempfile.TemporaryDirectory() as room:
        file = os.path.join(room, f"{exercise}.mod")
        with open(file, "wb") as it:
            it.write(text.encode(encoding))
        status, said = mark(*words, file)
        return status, said.partition("\n")[2].strip()


@test("exercises: twelve exercises exist, each with an example on the page, a file of inputs and an answer")
def twelve() -> None:
    same(len(NAMES), 12, "how many")
    wanted = sorted(["README.md", "mark.py", *(f"{it}.txt" for it in NAMES)])
    same(names_in(FOLDER), wanted, "the files")
    same(names_in("tests", "answers"), sorted(f"{it}.mod" for it in NAMES), "the answers")
    for name, part in zip(NAMES, re.split(r"^## .*$", PAGE, flags=re.M)[1:]):
        example = match_of(r"^```\n(.*?)```$", part, re.M | re.S)[1]
        same(example.strip(), text_of(FOLDER, f"{name}.txt").partition("\n\n")[0], f"the example of {name}")


@test("exercises: each expected output equals the result of a separate computation in Python")
def computed() -> None:
    same(sorted(WANTED), sorted(NAMES), "the exercises")
    for name in NAMES:
        holds(len(cases(name)) >= 5, f"{name} has {len(cases(name))} cases")
        for given, wanted in cases(name):
            same(WANTED[name](given), wanted, f"what {name} prints for {given}")


@test("exercises: each answer in tests/answers is marked right, has no errors and is formatted")
def right() -> None:
    status, said = mark(os.path.join(TOP, "tests", "answers"))
    same((status, said.count(" right\n"), said.splitlines()[-1]), (0, 13, "  12 of 12 right"), said)
    with Server() as server:
        for name in NAMES:
            uri = f"file:///{name}"
            same(server.notify(did_open(answer(name), uri=uri)), [], name)
            options = {"textDocument": {"uri": uri}, "options": {"tabSize": 2, "insertSpaces": True}}
            same(server.query("textDocument/formatting", options).get("result"), [], f"the layout of {name}")


# each row: an exercise, a part of its answer, what replaces the part, and how mark.py's line then ends
WRONG = [
    ("Clock", "DIV 60 MOD 60", "DIV 60", "for the input 3661: line 1 should be 1 1 1, and is 1 61 1"),
    ("Leap", "& (year MOD 100 # 0)", "", "for the input 1900: line 1 should be 0, and is 1"),
    ("Total", "    Read(x)\n", "", "TurnBound in line 6: a loop makes more than 100000 iterations: does it end?"),
    ("Largest", "Read(largest)", "n := n + 1", "for the input 3 -5 -1 -4: line 1 should be -1, and is 0"),
    ("Largest", "n > 1", "n > 0", "4 3 9 2 7: the run ends with InputEnd in line 8: it reads more numbers than there are"),
    ("Digits", "UNTIL n = 0", "UNTIL n < 10", "for the input 2048: line 1 should be 4 14, and is 3 12"),
    ("Power", "p := b * p", "p := b * e", "for the input 2 5: line 1 should be 32 25, and is 2 5"),
    ("Power", "VAR p: INTEGER);", "p: INTEGER);", "for the input 2 5: line 1 should be 32 25, and is 0 0"),
    ("Reverse", "ARRAY 50", "ARRAY 49", "the run ends with Index in line 9: an index is outside its array"),
    ("Reverse", "    Write(a[i])\n", "    Write(a[i]);\n    WriteLn\n", "it prints the right numbers, but not on the right lines: WriteLn ends a line"),
    ("Votes", "(1 <= x) & (x <= N)", "x <= N", "the run ends with Index in line 11: an index is outside its array"),
    ("Votes", "> votes[most]", ">= votes[most]", "for the input 0: line 2 should be 1, and is 5"),
    ("Binary", "n > 1", "n > 0", "for the input 10: line 1 should be 1 0 1 0, and is 0 1 0 1 0"),
    ("Binary", "n > 1", "n >= 0", "CallBound in line 7: more than 64 calls are open: does the recursion end?"),
    ("Pascal", "k <= i", "k < i", "for the input 4: line 1 should be 1, and is empty"),
    ("Nearest", "Print(second)", "WriteLn", "for the input 3 0 0 10 10 1 2: line 2 should be 1 2, and is empty"),
    ("Nearest", "(p.x - q.x) * ", "1000 * (p.x - q.x) * ", "in line 12: a result is outside the numbers that an INTEGER can have"),
    ("Queens", "& ~down[row - c + n]", "", "for the input 4: line 1 should be 2, and is 7"),
    ("Clock", "t DIV 3600", "t DIV (t - t)", "ends with Divisor in line 6: it divides by 0 or by a negative number"),
    ("Clock", "Read(t);", "Read(t)", "line 6, column 3: expected END (docs/MESSAGES.md says what that means)"),
    ("Clock", "Write(t ", "Write(s ", "line 6, column 9: Undeclared: not declared (docs/MESSAGES.md says what that means)"),
]


@test("exercises: mark.py marks each wrong answer as wrong, and says why in one line")
def wrong() -> None:
    same({it[0] for it in WRONG}, {*NAMES}, "the exercises")
    for exercise, old, new, wanted in WRONG:
        holds(old in answer(exercise), f"{exercise} has {old}")
        status, said = marked(exercise, answer(exercise).replace(old, new, 1))
        holds(status == 1 and re.match(rf"{exercise}\.mod +wrong: ", said) and said.endswith(wanted), f"{exercise} with {new!r}: {said}")


LOOPS = "MODULE Clock; VAR i: INTEGER; BEGIN WHILE TRUE DO i := 0; WHILE i < 50000 DO {}i := i + 1 END END END Clock."
LONG = "MODULE Clock; VAR i: INTEGER; BEGIN WHILE i < 100000 DO Write(2147483647); i := i + 1 END END Clock."


@test("exercises: mark.py reports a module that never ends, prints too much, doesn't exist or belongs to no exercise")
def bounded() -> None:
    same(marked("Clock", LOOPS.format(""), "--seconds", "5"), (1, "Clock.mod   wrong: for the input 3661: it had not ended after 5 seconds: does each loop end?"))
    same(marked("Clock", LONG), (1, "Clock.mod   wrong: for the input 3661: it prints too much: does each loop end?"))
    status, said = marked("Clock", LOOPS.format("Write(i); "), "--seconds", "5")
    # (depending on the machine, the time limit stops the run, or its output has filled the memory)
    holds(status == 1 and "does each loop" in said, said)
    status, said = marked("Gcd", text_of("examples", "Gcd.mod"))
    holds(status == 2 and "is not the module of an exercise: Clock, " in said, said)
    with tempfile.TemporaryDirectory() as room:
        for name, ending in (("Clock", "mod"), ("Leap", "Mod"), ("Queens", "ob0")):
            write(os.path.join(room, f"{name}.{ending}"), answer(name))
        status, said = mark(room, os.path.join(room, "Votes.mod"))
        lines = said.splitlines()
        same((status, lines[0], lines[4][:26]), (1, f"{room}:", "  3 of 12 right; missing: "), said)
        same(lines[5], f"there is no {room}/Votes.mod", said)
        same(mark("/nosuch"), (2, "there is no /nosuch\n"), "a missing folder")
    script = os.path.join(TOP, FOLDER, "mark.py")
    found = run_plainly(["python3", "-B", script, "--program", "no-such-program", "x.mod"], dict(os.environ), TOP)
    same(found, (2, "there is no program no-such-program: give its path with --program\n"), "without the program")


def handed_in(files: dict[str, str], *words: str) -> tuple[int, list[str]]:
    """Writes files into a temporary folder, and runs mark.py there with these words. Returns the exit status and the
    printed lines."""
    need_program()
    script = os.path.join(TOP, FOLDER, "mark.py")
    with tempfile.TemporaryDirectory() as room:
        for name, text in files.items():
            write(os.path.join(room, name), text)
        status, said = run_plainly(["python3", "-B", script, "--program", os.path.abspath(harness.BINARY), *LONGEST, *words], dict(os.environ), room)
        return status, said.splitlines()


NOT_NAMED = "is not marked: it isn't named like an exercise"
UNMARKED = {
    "Clock (1).mod": NOT_NAMED,
    "Clock.mod.txt": NOT_NAMED,
    "Leap.oberon": NOT_NAMED,
    "Gcd.mod": NOT_NAMED,
    "CLOCK.MOD": "is not marked: is it Clock.mod? Upper and lower case differ",
    "power.Mod": "is not marked: is it Power.Mod? Upper and lower case differ",
    "more": "is not marked: it is a folder",
    "Leap.mod": "is not marked: it is a folder",
}


@test("exercises: mark.py lists each entry of a folder that it doesn't mark, with the reason, except hidden files")
def unmarked() -> None:
    files = {f"anna/{it}": answer("Clock") for it in [*UNMARKED, "Clock.mod", ".hidden"] if "folder" not in UNMARKED.get(it, "")}
    status, lines = handed_in({**files, "anna/more/Clock.mod": "", "anna/Leap.mod/x": ""}, "anna")
    same((status, lines[:2]), (0, ["anna:", "  Clock.mod   right"]), str(lines))
    same(sorted(lines[2:-1]), sorted(f"  {it} {why}" for it, why in UNMARKED.items()), "the lines of what isn't marked")


@test("exercises: mark.py marks no links inside a folder, but marks a link that is given on the command line")
def linked() -> None:
    script = os.path.join(TOP, FOLDER, "mark.py")
    need_program()
    with temporary() as room:
        write(os.path.join(room, "anna", "Clock.mod"), answer("Clock"))
        os.makedirs(os.path.join(room, "bob"))
        targets = {"Clock.mod": "../anna/Clock.mod", "Leap.mod": os.path.join(TOP, "tests", "answers", "Leap.mod")}
        for name, target in {**targets, "Power.mod": "nowhere", "more": "nowhere"}.items():
            os.symlink(target, os.path.join(room, "bob", name))
        os.symlink("anna", os.path.join(room, "carla"))
        words = ["python3", "-B", script, "--program", os.path.abspath(harness.BINARY), "bob", "carla", "bob/Clock.mod"]
        status, said = run_plainly(words, dict(os.environ), room)
    links = [f"  {it} is not marked: it is a link" for it in ("Clock.mod", "Leap.mod", "Power.mod", "more")]
    same((status, said.splitlines()[:5]), (1, ["bob:", *links]), said)
    holds("carla:\n  Clock.mod   right\n" in said and "bob/Clock.mod:\n  Clock.mod   right\n" in said, said)


@test("exercises: mark.py counts right modules per folder, and ends with 0 if each folder has some and all are right")
def folders() -> None:
    right_one, wrong_one = answer("Clock"), answer("Clock").replace("DIV", "MOD", 1)
    files = {"anna/Clock.mod": right_one, "anna/Leap.ob0": answer("Leap"), "ben/Clock.mod": wrong_one, "carl/x.txt": "", "-xaver/Clock.Mod": right_one}
    for words, status, last in (
        (["anna", "ben/"], 1, "anna 2, ben 0"),
        (["--", "-xaver", "anna"], 0, "-xaver 1, anna 2"),
        (["anna", "carl"], 1, "anna 2, carl 0"),
        (["carl", "nosuch"], 2, "there is no nosuch"),
        (["anna", "nosuch"], 1, "there is no nosuch"),
        (["--", "-xaver"], 0, f"  1 of 12 right; missing: {', '.join(NAMES[1:])}"),
    ):
        found, lines = handed_in(files, *words)
        same((found, lines[-1]), (status, last), f"{words}: {lines}")
    listed = " ".join(PAGE.split())
    for it in ("The status is 0 if each PATH has a module to mark and all of them are right", "1 if not", "2 if there was nothing to mark in any"):
        holds(it in listed, f"the page has no {it}")


@test("exercises: mark.py marks Clock.mod and Clock.Mod separately, and accepts any module name and a missing WriteLn")
def told_apart() -> None:
    wrong_one = answer("Clock").replace("DIV", "MOD", 1)
    status, lines = handed_in({"anna/Clock.mod": answer("Clock"), "anna/Clock.Mod": wrong_one}, "anna")
    same((status, lines[1], lines[2][:20]), (1, "  Clock.mod   right", "  Clock.Mod   wrong:"), str(lines))
    other = re.sub(r"\bClock\b", "Main", answer("Clock"))
    same(marked("Clock", other), (0, "Clock.mod   right"), "a module of another name")
    same(marked("Clock", answer("Clock").replace(";\n  WriteLn\n", "\n")), (0, "Clock.mod   right"), "a module without the last WriteLn")
    listed = " ".join(PAGE.split())
    for it in ("The name after MODULE isn't looked at", "a last WriteLn may be missing"):
        holds(it in listed, f"the page has no {it}")


@test("exercises: mark.py says what to do about a byte order mark, UTF-16 and exhausted memory")
def explained() -> None:
    said = "Clock.mod   wrong: line 1, column 1: save it without a byte order mark"
    same(marked("Clock", "\ufeff" + answer("Clock")), (1, said))
    same(
        marked("Clock", answer("Clock"), encoding="utf-16"), (1, "Clock.mod   wrong: it isn't UTF-8: save it as UTF-8")
    )
    with temporary() as room:
        write(os.path.join(room, "Clock.mod"), answer("Clock"))
        write(os.path.join(room, "ob0"), "#!/bin/sh\necho 'fault: File' >&2; exit 4\n")
        os.chmod(os.path.join(room, "ob0"), 0o755)
        found = marking(room, ["--program", "./ob0", "Clock.mod"])[1].decode().splitlines()
    holds("  Clock.mod   wrong: it can't be read" in found, f"a file that the program can't read: {found}")
    arrays = ", ".join(f"a{it}" for it in range(150))
    large = f"MODULE Clock; TYPE T = ARRAY 65536 OF INTEGER; PROCEDURE P; VAR {arrays}: T; BEGIN P END P; BEGIN P END Clock."
    said = "the run ends with Memory: it takes too much memory: does each loop and each recursion end? Is an array too large?"
    same(marked("Clock", large), (1, f"Clock.mod   wrong: for the input 3661: {said}"))


def marking(room: str, words: list[str], given: Any = None, **more: str) -> tuple[int | None, bytes, bytes]:
    """Runs mark.py in a folder. Returns its exit status, its output (None if it is written to the file `given`) and its
    standard error."""
    need_program()
    script = os.path.join(TOP, FOLDER, "mark.py")
    line = ["python3", "-B", script, "--program", os.path.abspath(harness.BINARY), *LONGEST, *words]
    how: dict[str, Any] = {"stdout": given or subprocess.PIPE, "stderr": subprocess.PIPE, "timeout": harness.SECONDS, "cwd": room}
    found = subprocess.run(line, env={**os.environ, **more}, check=False, **how)
    return found.returncode, found.stdout, found.stderr


LOCALES: list[dict[str, str]] = [{"PYTHONIOENCODING": "utf-8:strict"}, {"LC_ALL": "C", "PYTHONCOERCECLOCALE": "0", "PYTHONUTF8": "0"}]


@test("exercises: mark.py prints each name of a folder or file on one line in any locale, whatever its bytes are")
def any_names() -> None:
    with temporary() as room:
        for name in ("a", "n\udce4me", "two\nlines", "z"):
            write(os.path.join(room, name, "Clock.mod"), answer("Clock"))
        for name in ("Ger\udce4t.txt", "\x9b1m.txt", "\u202etxt.dom"):
            write(os.path.join(room, "a", name), "")
        for more in LOCALES:
            status, out, err = marking(room, ["a", "n\udce4me", "two\nlines", "z"], **more)
            lines = out.split(b"\n")
            same((status, err, out.count(b"  Clock.mod   right\n")), (0, b"", 4), f"with {more}: {out!r}")
            named = [it.partition(b" is not marked: ")[0].strip() for it in lines[2:5]]
            same(
                sorted(named),
                [b"Ger\xe4t.txt", b"\\u202etxt.dom", b"\\x9b1m.txt"],
                "names that aren't UTF-8 or that change what a terminal shows",
            )
            same(lines[-2], b"a 1, n\xe4me 1, two\\nlines 1, z 1", "the last line")


@test("exercises: mark.py reports a folder or file that can't be read, and marks the others")
def unreadable() -> None:
    with temporary() as room:
        # (another user than root may not enter the checkout, so the script and the program are copied)
        for name in ("mark.py", "README.md", *(f"{it}.txt" for it in NAMES)):
            copy(os.path.join(TOP, FOLDER, name), room)
        write(os.path.join(room, "ob0"), "#!/bin/sh\nexit 0\n")
        for name in ("a", "b", "c"):
            write(os.path.join(room, name, "Reverse.mod"), "")
        for name, mode in (("", 0o755), ("ob0", 0o755), ("b", 0)):
            os.chmod(os.path.join(room, name), mode)
        words = ["python3", "-B", "mark.py", "--program", "./ob0", "a", "b", "b/Reverse.mod", "c"]
        status, said = run_plainly([*as_another(), *words], dict(os.environ), room)
        os.chmod(os.path.join(room, "b"), 0o755)
    wrong = "  Reverse.mod wrong: for the input 3 10 20 30: line 1 should be 30 20 10, and is empty"
    missing = f"  0 of 12 right; missing: {', '.join(it for it in NAMES if it != 'Reverse')}"
    wanted = ["a:", wrong, missing, "b:", "  it can't be read: Permission denied", f"  0 of 12 right; missing: {', '.join(NAMES)}"]
    wanted += ["b/Reverse.mod can't be read: Permission denied", "c:", wrong, missing, "a 0, b 0, c 0"]
    same((status, said.splitlines()), (1, wanted))


@test("exercises: mark.py says in one line that its output is closed or full, and ends with status 4")
def unprinted() -> None:
    with temporary() as room:
        write(os.path.join(room, "Clock.mod"), answer("Clock"))
        reader, writer = os.pipe()
        os.close(reader)
        with open(writer, "wb") as closed, open("/dev/full", "wb") as full:
            for file, why in ((closed, b"Broken pipe"), (full, b"No space left on device")):
                same(marking(room, ["Clock.mod"], file)[::2], (4, b"the result can't be printed: " + why + b"\n"))


# runs a script that gets a signal just after it has started a process
SIGNALLED = """
import os, runpy, subprocess, sys
number = int(sys.argv[1])
class Signalled(subprocess.Popen):
    def _execute_child(self, *words):
        super()._execute_child(*words)
        os.kill(os.getpid(), number)
subprocess.Popen = Signalled
sys.argv = sys.argv[2:]
runpy.run_path(sys.argv[0], run_name="__main__")
"""


@test("exercises: a signal ends mark.py together with the module that it runs")
def signalled() -> None:
    with temporary() as room:
        write(os.path.join(room, "Clock.mod"), answer("Clock"))
        write(os.path.join(room, "ob0"), "#!/bin/sh\necho $$ > new\nmv new pid\nexec sleep 600\n")
        os.chmod(os.path.join(room, "ob0"), 0o755)
        script, pid = os.path.join(TOP, FOLDER, "mark.py"), os.path.join(room, "pid")
        for number in (signal.SIGINT, signal.SIGTERM, signal.SIGHUP):
            words = ["python3", "-B", script, "--program", "./ob0", *LONGEST, "Clock.mod"]
            with subprocess.Popen(words, cwd=room, stdout=subprocess.DEVNULL, stderr=subprocess.PIPE) as process:
                while not os.path.exists(pid):
                    time.sleep(0.01)
                process.send_signal(number)
                _, err = process.communicate(timeout=harness.SECONDS)
            same((process.returncode, err), (-number, b""), "how the script ends")
            holds(not is_running(int(text_of(pid))), f"the module still runs after signal {number}")
            os.unlink(pid)
            words = ["python3", "-B", "-c", SIGNALLED, str(int(number)), *words[2:]]
            ran = subprocess.run(words, cwd=room, stdout=subprocess.DEVNULL, stderr=subprocess.PIPE, check=False)
            same((ran.returncode, ran.stderr), (-number, b""), "how the script ends, if the signal comes while a module is started")
            time.sleep(0.5)
            survives = os.path.exists(pid) and is_running(int(text_of(pid)))
            holds(not survives, f"the module that was started still runs after signal {number}")
            if os.path.exists(pid):
                os.unlink(pid)


# Runs a script in which a signal comes as soon as a process has been started, before the script knows it.
AT_START = """
import os, runpy, subprocess, sys
number, execute = int(sys.argv[1]), subprocess.Popen._execute_child
def started(self, *words):
    execute(self, *words)
    os.kill(os.getpid(), number)
subprocess.Popen._execute_child = started
sys.argv = sys.argv[2:]
runpy.run_path(sys.argv[0], run_name="__main__")
"""


def working_in(folder: str) -> list[str]:
    """Returns the numbers of the processes that have this working directory."""
    found = []
    for it in filter(str.isdigit, os.listdir("/proc")):
        with contextlib.suppress(OSError):
            found += [it] if os.readlink(f"/proc/{it}/cwd") == folder else []
    return found


@test("exercises: a signal also ends the module if it arrives while mark.py starts the module")
def signalled_at_start() -> None:
    script = os.path.join(TOP, FOLDER, "mark.py")
    with temporary() as room:
        write(os.path.join(room, "Clock.mod"), answer("Clock"))
        write(os.path.join(room, "ob0"), "#!/bin/sh\nexec sleep 600\n")
        os.chmod(os.path.join(room, "ob0"), 0o755)
        for number in (signal.SIGINT, signal.SIGTERM, signal.SIGHUP):
            words = ["python3", "-B", "-c", AT_START, str(int(number)), script, "--program", "./ob0", *LONGEST, "Clock.mod"]
            ended = subprocess.run(words, cwd=room, stdout=subprocess.DEVNULL, stderr=subprocess.PIPE, timeout=harness.SECONDS, check=False)
            left = working_in(os.path.realpath(room))
            for it in left:
                os.kill(int(it), signal.SIGKILL)
            same((ended.returncode, ended.stderr, left), (-number, b"", []), f"after signal {number}, with survivors")


@test("exercises: mark.py refuses `--seconds` with status 2 unless the value is positive and not huge")
def seconds() -> None:
    with temporary() as room:
        write(os.path.join(room, "Clock.mod"), answer("Clock"))
        for word in ("nan", "-1", "0", "inf", "1e300", "ten"):
            status, out, err = marking(room, ["--seconds", word, "Clock.mod"])
            said = f"argument --seconds: invalid seconds_of value: '{word}'".encode()
            same((status, out, said in err, b"Traceback" in err), (2, b"", True, False), f"--seconds {word}: {err!r}")


@test("exercises: `--table` prints a row for each path and a column for each exercise, and no cell is a formula")
def table() -> None:
    names = ["anna", "=1+1", "two\nlines", "n\udce4me, \"x\"", "\uff1d1+1"]
    wrong_one = answer("Clock").replace("DIV", "MOD", 1)
    with temporary() as room:
        for name in names:
            write(os.path.join(room, name, "Clock.mod"), wrong_one if name == "anna" else answer("Clock"))
        write(os.path.join(room, "anna", "Leap.mod"), answer("Leap"))
        write(os.path.join(room, "anna", "a;=1+2;b"), "")
        status, out, err = marking(room, ["--table", *names, "nosuch"], **LOCALES[-1])
    rows = list(csv.reader(io.StringIO(out.decode(), newline="")))
    same((status, err, rows[0]), (1, b"", ["name", "right", *NAMES, "others"]), "the head")
    shown = ["anna", "'=1+1", "two\\nlines", 'n\\xe4me, "x"', "'\uff1d1+1"]
    same([it[:2] for it in rows[1:]], [*([it, "1"] for it in shown), ["nosuch", "0"]], "the rows")
    same({len(it) for it in rows}, {15}, "the number of cells")
    same(rows[1][2:5], ["wrong: for the input 3661: line 1 should be 1 1 1, and is 61 1 1", "right", ""], "the marks of one")
    same(
        [it[-1] for it in rows[1:3] + rows[6:]],
        ["a\\x3b=1+2\\x3bb is not marked: it isn't named like an exercise", "", "there is no nosuch"],
        "the rest",
    )
    holds(out.startswith(b'"name","right","Clock",'), "each cell is in quotes")
    # (some spreadsheets end a cell at `;`)
    cells = [it for row in csv.reader(io.StringIO(out.decode(), newline=""), delimiter=";") for it in row]
    same(
        [it for it in cells if it.startswith(("=", "+", "-", "@"))], [], "cells that are formulas if `;` separates them"
    )


@test("exercises: mark.py reads its exercises from another folder if `--inputs` is given")
def own_inputs() -> None:
    by_table = "MODULE Leap; VAR y: INTEGER; BEGIN Read(y); IF (y = 2024) OR (y = 4) THEN Write(1) ELSE Write(0) END END Leap."
    with temporary() as room:
        write(os.path.join(room, "own", "Leap.txt"), "\ufeffin: 2024\r\nout: 1\r\n \r\n\r\nin: 2028\r\nout: 1\r\n")
        write(os.path.join(room, "own", "Double.txt"), "in: 4\nout: 8\n")
        write(os.path.join(room, "anna", "Leap.mod"), by_table)
        write(os.path.join(room, "anna", "Double.mod"), "MODULE D; VAR y: INTEGER; BEGIN Read(y); Write(2 * y) END D.")
        write(os.path.join(room, "anna", "Clock.mod"), "")
        wanted = ["anna:", "  Leap.mod    wrong: for the input 2028: line 1 should be 1, and is 0", "  Double.mod  right"]
        wanted += ["  Clock.mod is not marked: the inputs have no Clock.txt", "  1 of 2 right", ""]
        same(marking(room, ["--inputs", "own", "anna"]), (1, "\n".join(wanted).encode(), b""), "own inputs")
        for text, said in (
            ("3 4\n", "own/Leap.txt: a case is a line `in: 1 2` and then lines `out: 3`, and not 3 4"),
            ("in: x\n", "own/Leap.txt: a case is a line `in: 1 2` and then lines `out: 3`, and not in: x"),
        ):
            write(os.path.join(room, "own", "Leap.txt"), text)
            same(marking(room, ["--inputs", "own", "anna"]), (2, b"", f"{said}\n".encode()), repr(text))
        same(marking(room, ["--inputs", "anna", "anna"]), (2, b"", b"anna has no file of inputs, such as Clock.txt\n"), "a folder without inputs")
        same(marking(room, ["--inputs", "nosuch", "anna"]), (2, b"", b"nosuch: No such file or directory\n"), "no folder")


@test("exercises: mark.py mentions the limits on calls and turns, and each way in which a run can end except Done")
def spoken_of() -> None:
    script = text_of(FOLDER, "mark.py")
    named = {*re.findall(r'^    "(\w+)": "', script, re.M)}
    listed = re.findall(r"^\| (\w+) \|", text_of("docs", "LANGUAGE.md").partition("| End | Because |")[2].partition("\n\n")[0], re.M)
    same(named - {"Memory", "Write"}, {*listed} - {"End", "Done"}, "the ends")
    said = run(["help", "run"]).out.decode()
    bounds = re.findall(r"\b0 to (\d+)", said)
    holds(all(f"more than {it} " in script for it in bounds) and len(bounds) == 2, f"the bounds in `ob0 help run`: {said}")
