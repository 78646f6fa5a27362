#!/usr/bin/env python3
"""Marks modules of Oberon-0 by the exercises of this folder.

  python3 mark.py [--program FILE] [--seconds N] [--inputs FOLDER] [--table] PATH..

A path is a module that is named like an exercise (Clock.mod, Clock.Mod or Clock.ob0), or a folder with such modules. Each is
checked, and run on each input of its exercise. README.md has the exercises; Clock.txt has the inputs of Clock (`in:`) with the
lines that are to be printed (`out:`). The status is 0 if each path has a module to mark and all of them are right, 1 if not, 2 if
there was nothing to mark in any path, or the command line is refused, 4 if the result can't be printed."""
from __future__ import annotations

import argparse
import codecs
import csv
import io
import os
import re
import resource
import shutil
import signal
import subprocess
import sys
import tempfile
from typing import IO, Any, Callable, Dict, Iterator, List, NamedTuple, NoReturn, Optional, TextIO, Union

HERE = os.path.dirname(os.path.abspath(__file__))
ENDINGS = (".mod", ".Mod", ".ob0")
WHERE = " (docs/MESSAGES.md says what that means)"
UNCHECKED = {"fault: Utf8": "it isn't UTF-8: save it as UTF-8", "fault: File": "it can't be read"}
MOST_PRINTED = 1 << 20  # bytes
MOST_MEMORY = 2 << 30  # bytes
CAUSES = {
    "Overflow": "a result is outside the numbers that an INTEGER can have",
    "Divisor": "it divides by 0 or by a negative number",
    "Index": "an index is outside its array",
    "InputEnd": "it reads more numbers than there are",
    "CallBound": "more than 64 calls are open: does the recursion end?",
    "TurnBound": "a loop makes more than 100000 iterations: does it end?",
    "Memory": "it takes too much memory: does each loop and each recursion end? Is an array too large?",
    "Write": "it prints too much: does each loop end?",
}

STOPPING = (signal.SIGINT, signal.SIGTERM, signal.SIGHUP)
FORMULA = tuple("=+-@\uff1d\uff0b\uff0d\uff20")  # the signs (also in full width) that begin a formula in a spreadsheet

Lines = List[List[str]]


class Refused(Exception):
    """Raised if the exercises' inputs or the program can't be used."""


class Unprinted(Exception):
    """Raised if the result can't be printed."""


class Stopped(BaseException):
    """Raised when a signal arrives. Its argument is the signal's number."""


class Case(NamedTuple):
    """An input of an exercise, and the numbers that the module must print on each line."""

    given: str
    wanted: Lines


class Ended(NamedTuple):
    """A command's output and exit status. The status is None if the command was stopped because it ran too long."""

    out: str
    err: str
    status: Optional[int]


class Marking(NamedTuple):
    """The path of the program ob0, how many seconds one run may take, and the cases of each exercise, in the exercises'
    order."""

    program: str
    seconds: float
    cases: Dict[str, List[Case]]


class Marked(NamedTuple):
    """A module of an exercise, and why it isn't right, or None if it is."""

    name: str
    exercise: str
    why: Optional[str]

    def said(self) -> str:
        return "right" if self.why is None else f"wrong: {self.why}"


class Result(NamedTuple):
    """The result for a path: its modules, and lines about everything else."""

    path: str
    modules: List[Marked]
    others: List[str]

    def exercises(self) -> Dict[str, bool]:
        """Returns whether all modules of an exercise are right, for each exercise that has a module."""
        found: Dict[str, bool] = {}
        for it in self.modules:
            found[it.exercise] = it.why is None and found.get(it.exercise, True)
        return found


def say(line: Union[str, bytes], stream: Optional[TextIO] = sys.stdout) -> None:
    """Prints a line. File names are printed with their own bytes, in any locale."""
    if stream is None:
        raise Unprinted("it is closed")
    left = os.fsencode(line) + b"\n"
    try:
        while left:
            left = left[os.write(stream.fileno(), left) :]
    except OSError as why:
        raise Unprinted(why.strerror) from None


def on_a_line(name: str) -> str:
    """Returns a file name that prints on one line: unprintable characters, such as line ends, are replaced by escape
    sequences. Bytes that aren't UTF-8 are unchanged."""
    letters = os.fsencode(name).decode("utf-8", "surrogateescape")
    is_shown: Callable[[str], bool] = lambda it: it.isprintable() or "\udc80" <= it <= "\udcff"
    shown = (it if is_shown(it) else it.encode("unicode_escape").decode() for it in letters)
    return os.fsdecode("".join(shown).encode("utf-8", "surrogateescape"))


def numbers_of(lines: List[str]) -> Lines:
    """Returns the words of each line, without empty lines at the end."""
    found = [it.split() for it in lines]
    while found and not found[-1]:
        found.pop()
    return found


def exercises_in(folder: str) -> List[str]:
    """Returns the names of the exercises in a folder: first those on the page, in its order, then the others."""
    with open(os.path.join(HERE, "README.md"), encoding="utf-8") as page:
        listed = re.findall(r"^## \d+\. (\w+)$", page.read(), re.M)
    found = sorted(it[:-4] for it in os.listdir(folder) if re.fullmatch(r"\w+\.txt", it, re.A))
    return sorted(found, key=lambda it: listed.index(it) if it in listed else len(listed))


def cases_in(file: str) -> List[Case]:
    """Returns the cases in an exercise's file, which are separated by empty lines. Raises Refused if one is
    malformed."""
    with open(file, encoding="utf-8-sig") as text:
        parts = re.split(r"\n\s*\n", text.read().strip())
    found = []
    for part in parts:
        if not re.fullmatch(r"in:(\s+-?[0-9]+)*\s*(\nout:(\s+-?[0-9]+)*\s*)*", part, re.A):
            wrong = shortened(part.encode("unicode_escape").decode())
            raise Refused(f"{file}: a case is a line `in: 1 2` and then lines `out: 3`, and not {wrong}")
        first, *lines = part.split("\n")
        found.append(Case(first.partition("in:")[2].strip(), numbers_of([it.partition("out:")[2] for it in lines])))
    return found


def inputs_in(folder: str) -> Dict[str, List[Case]]:
    """Returns the cases of each exercise that has a file in a folder. Raises Refused if a file can't be read, or if
    there is none."""
    try:
        found = {it: cases_in(os.path.join(folder, f"{it}.txt")) for it in exercises_in(folder)}
    except OSError as why:
        raise Refused(f"{why.filename}: {why.strerror}") from None
    except UnicodeDecodeError:
        raise Refused(f"a file of inputs in {folder} isn't UTF-8") from None
    if not found:
        raise Refused(f"{folder} has no file of inputs, such as Clock.txt")
    return found


def call(marking: Marking, words: List[str], given: str = "", program: str = "") -> Ended:
    """Runs ob0, or `program` if it is given, with these arguments and this input, under limits of time, memory and
    output."""

    def limit() -> None:
        """Limits how much a run may write and how much memory it may use. (Its CPU time is also limited, in case this
        script is killed before the run ends.)"""
        seconds = int(marking.seconds) + 2
        for which, most in ((resource.RLIMIT_FSIZE, MOST_PRINTED), (resource.RLIMIT_DATA, MOST_MEMORY), (resource.RLIMIT_CPU, seconds)):
            hard = resource.getrlimit(which)[1]
            bound = most if hard == resource.RLIM_INFINITY else min(most, hard)
            resource.setrlimit(which, (bound, bound))
        signal.pthread_sigmask(signal.SIG_UNBLOCK, STOPPING)

    with tempfile.TemporaryFile() as out, tempfile.TemporaryFile() as err:
        how: Dict[str, Any] = {"stdin": subprocess.PIPE, "stdout": out, "stderr": err, "preexec_fn": limit}
        status: Optional[int] = None
        # (a signal waits until the process that it has to end is known)
        signal.pthread_sigmask(signal.SIG_BLOCK, STOPPING)
        try:
            with subprocess.Popen([program or marking.program, *words], **how) as process:
                try:
                    signal.pthread_sigmask(signal.SIG_UNBLOCK, STOPPING)
                    process.communicate(given.encode(), marking.seconds)
                    status = process.returncode
                except subprocess.TimeoutExpired:
                    process.kill()
                except BaseException:
                    process.kill()
                    raise
        finally:
            signal.pthread_sigmask(signal.SIG_UNBLOCK, STOPPING)
        return Ended(text_in(out), text_in(err), status)


def text_in(file: IO[bytes]) -> str:
    """Returns the whole contents of a file in ASCII, with other bytes as escape sequences."""
    file.seek(0)
    return file.read().decode("ascii", "backslashreplace")


def shortened(text: str, most: int = 60) -> str:
    return text if len(text) <= most else text[:most] + " .."


def difference(wanted: Lines, printed: Lines) -> str:
    """Returns a sentence about the first difference between the printed and the expected numbers."""
    if sum(wanted, []) == sum(printed, []):
        return "it prints the right numbers, but not on the right lines: WriteLn ends a line"
    for at in range(max(len(wanted), len(printed))):
        due, came = (" ".join(it[at]) if at < len(it) else "" for it in (wanted, printed))
        if due != came:
            return f"line {at + 1} should be {shortened(due) or 'empty'}, and is {shortened(came) or 'empty'}"
    return "it prints something else"


def fault_of(marking: Marking, file: str) -> Optional[str]:
    """Returns why a file isn't a module that can be run, or None if it is."""
    found = call(marking, ["check", "--", file])
    if found.status == 0:
        return None
    place = re.match(r"(\d+):(\d+): (?:Syntax: )?(.*)", found.out)
    if place is None:
        return UNCHECKED.get(found.err.strip(), f"it can't be checked: {found.err.strip()}{WHERE}")
    line, column = int(place[1]) + 1, int(place[2]) + 1
    cause = "save it without a byte order mark" if begins_with_mark(file) else place[3] + WHERE
    return f"line {line}, column {column}: {cause}"


def begins_with_mark(file: str) -> bool:
    """Returns whether a file begins with a byte order mark."""
    with open(file, "rb") as it:
        return it.read(3) == codecs.BOM_UTF8


def why_wrong(marking: Marking, file: str, case: Case) -> Optional[str]:
    """Returns why a module fails a case, or None if it passes."""
    found = call(marking, ["run", "--", file], case.given)
    if found.status is None:
        return f"it had not ended after {marking.seconds:g} seconds: does each loop end?"
    if found.status == -signal.SIGXFSZ:
        return CAUSES["Write"]
    if found.status < 0:
        return f"ob0 was stopped by signal {-found.status}"
    if found.status:
        name = found.err.strip().partition("fault: ")[2]
        where = line_of_fault(marking, file, case)
        return f"the run ends with {name}{where}: {CAUSES[name]}" if name in CAUSES else found.err.strip()
    printed = numbers_of(found.out.split("\n"))
    return None if printed == case.wanted else difference(case.wanted, printed)


def line_of_fault(marking: Marking, file: str, case: Case) -> str:
    """Returns the words " in line N" for the line at which a run ends with a fault, or "" if ob0-trace isn't installed
    or doesn't find it."""
    folders = [os.path.dirname(marking.program), os.path.join(HERE, "..", "..", "share"), os.environ.get("PATH", "")]
    tracer = shutil.which("ob0-trace", path=os.pathsep.join(folders))
    if tracer is None:
        return ""
    found = call(marking, ["--program", marking.program, "--", file], case.given, tracer)
    place = re.search(r":(\d+):\d+: [A-Z]\w+: ", found.err) if found.status == 1 else None
    return f" in line {place[1]}" if place else ""


def why_not_right(marking: Marking, exercise: str, file: str) -> Optional[str]:
    """Returns why a module isn't right, or None if it is."""
    fault = fault_of(marking, file)
    if fault:
        return fault
    for case in marking.cases[exercise]:
        why = why_wrong(marking, file, case)
        if why:
            return f"for the input {shortened(case.given)}: {why}"
    return None


def marked(marking: Marking, exercise: str, file: str) -> Marked:
    """Marks a module. The program accepts only file names in UTF-8, so a file with another name is marked through a
    temporary link."""
    try:
        os.fsencode(file).decode()
        why = why_not_right(marking, exercise, file)
    except UnicodeDecodeError:
        with tempfile.TemporaryDirectory() as room:
            os.symlink(os.path.abspath(file), os.path.join(room, "module"))
            why = why_not_right(marking, exercise, os.path.join(room, "module"))
    except OSError as fault:
        why = f"it can't be read: {fault.strerror}"
    return Marked(os.path.basename(file), exercise, why)


def modules_in(marking: Marking, path: str) -> List[str]:
    """Returns the modules in a folder that are named like exercises, in the exercises' order. If the path isn't a
    folder, returns the path."""
    if not os.path.isdir(path):
        return [path]
    found = [os.path.join(path, name + ending) for name in marking.cases for ending in ENDINGS]
    # (a link could lead to another's answer)
    return [it for it in found if os.path.isfile(it) and not os.path.islink(it)]


def unmarked(marking: Marking, path: str) -> Iterator[str]:
    """Yields a line about each entry of a folder that isn't marked, except hidden entries."""
    marked_ones = {os.path.basename(it) for it in modules_in(marking, path)}
    for entry in sorted(it for it in os.listdir(path) if it not in marked_ones and not it.startswith(".")):
        yield f"{on_a_line(entry)} is not marked: {why_unmarked(marking, os.path.join(path, entry))}"


def why_unmarked(marking: Marking, path: str) -> str:
    """Returns why an entry of a folder isn't marked."""
    stem, ending = os.path.splitext(os.path.basename(path))
    meant = next((it for it in marking.cases if it.lower() == stem.lower()), None)
    if os.path.islink(path):
        return "it is a link"
    if not os.path.isfile(path):
        return "it is a folder" if os.path.isdir(path) else "it isn't a file"
    if stem not in marking.cases and ending in ENDINGS and os.path.isfile(os.path.join(HERE, f"{stem}.txt")):
        return f"the inputs have no {stem}.txt"
    if meant and ending.lower() in ENDINGS:
        return f"is it {meant}{ending if ending in ENDINGS else ending.lower()}? Upper and lower case differ"
    return "it isn't named like an exercise"


def mark(marking: Marking, path: str, is_said: bool) -> Result:
    """Marks the modules of a path, and prints the results if `is_said`."""
    result = Result(path, [], [])

    def found(line: str, is_other: bool = False) -> None:
        if is_other:
            result.others.append(line.strip())
        if is_said:
            say(line)

    try:
        os.stat(path)
    except OSError as why:
        is_missing = isinstance(why, FileNotFoundError)
        found(f"there is no {on_a_line(path)}" if is_missing else f"{on_a_line(path)} can't be read: {why.strerror}", True)
        return result
    found(f"{on_a_line(path)}:")
    for file in modules_in(marking, path):
        exercise, ending = os.path.splitext(os.path.basename(file))
        if exercise not in marking.cases or ending not in ENDINGS:
            found(f"  {on_a_line(os.path.basename(file))} is not the module of an exercise: {', '.join(marking.cases)}", True)
            continue
        it = marked(marking, exercise, file)
        result.modules.append(it)
        found(f"  {it.name:11} {it.said()}")
    if os.path.isdir(path):
        try:
            for line in unmarked(marking, path):
                found(f"  {line}", True)
        except OSError as why:
            found(f"  it can't be read: {why.strerror}", True)
        rights = result.exercises()
        missing = [it for it in marking.cases if it not in rights]
        found(f"  {sum(rights.values())} of {len(marking.cases)} right" + (f"; missing: {', '.join(missing)}" if missing else ""))
    return result


def plain(text: str) -> str:
    """Returns a text that is safe in a cell of a table: UTF-8, on one line, without `;`, and not a spreadsheet
    formula."""
    shown = os.fsencode(on_a_line(text)).decode(errors="backslashreplace").replace(";", "\\x3b")
    return "'" + shown if shown.startswith(FORMULA) else shown


def row_of(marking: Marking, result: Result) -> bytes:
    """Returns a line of the CSV table: the path's name, how many exercises are right, a cell for each exercise, and
    remarks."""
    cells = [" / ".join(it.said() for it in result.modules if it.exercise == exercise) for exercise in marking.cases]
    return csv_line([name_of(result.path), str(sum(result.exercises().values())), *cells, " / ".join(result.others)])


def csv_line(cells: List[str]) -> bytes:
    """Returns a line of a CSV table, with each cell in quotes, and without its final LF."""
    file = io.StringIO()
    csv.writer(file, quoting=csv.QUOTE_ALL).writerow([plain(it) for it in cells])
    return file.getvalue().encode()[:-1]


def name_of(path: str) -> str:
    return os.path.basename(os.path.abspath(path))


def mark_all(marking: Marking, paths: List[str], is_table: bool) -> int:
    """Marks each path, prints the results, and returns the exit status."""
    if is_table:
        say(csv_line(["name", "right", *marking.cases, "others"]))
    results = []
    for path in paths:
        results.append(mark(marking, path, not is_table))
        if is_table:
            say(row_of(marking, results[-1]))
    folders = [f"{on_a_line(name_of(it.path))} {sum(it.exercises().values())}" for it in results if os.path.isdir(it.path)]
    if len(folders) > 1 and not is_table:
        say(", ".join(folders))
    if not any(it.modules for it in results):
        return 2
    return 0 if all(it.modules and all(it.exercises().values()) for it in results) else 1


def seconds_of(word: str) -> float:
    """Converts a word to a number of seconds. Raises ValueError unless it is above 0 and at most a million."""
    if not 0 < float(word) <= 1e6:
        raise ValueError
    return float(word)


def parsed(words: List[str]) -> argparse.Namespace:
    """Returns the parsed command line."""
    parser = argparse.ArgumentParser(description="Marks modules of Oberon-0 by the exercises of this folder.")
    parser.add_argument("--program", default="ob0", help="the program ob0, if it isn't on PATH")
    parser.add_argument("--seconds", type=seconds_of, default=10, help="the longest that one run may take (10)")
    parser.add_argument("--inputs", metavar="FOLDER", default=HERE, help="a folder with other inputs, such as a file Clock.txt")
    parser.add_argument("--table", action="store_true", help="print a table in CSV: a row for each path, a column for each exercise")
    parser.add_argument("paths", metavar="PATH", nargs="+", help="a module, or a folder with modules")
    return parser.parse_args(words)


def stop(number: int, frame: object) -> NoReturn:
    for it in STOPPING:
        signal.signal(it, signal.SIG_IGN)
    raise Stopped(number)


def main(words: List[str]) -> int:
    given = parsed(words)
    for number in STOPPING:
        if signal.getsignal(number) != signal.SIG_IGN:
            signal.signal(number, stop)
    try:
        program = shutil.which(given.program)
        if program is None:
            raise Refused(f"there is no program {given.program}: give its path with --program")
        return mark_all(Marking(os.path.abspath(program), given.seconds, inputs_in(given.inputs)), given.paths, given.table)
    except Refused as refused:
        say(str(refused), sys.stderr)
        return 2
    except Unprinted as why:
        say(f"the result can't be printed: {why}", sys.stderr)
        return 4
    except Stopped as stopped:
        signal.signal(stopped.args[0], signal.SIG_DFL)
        os.kill(os.getpid(), stopped.args[0])
        return 4


if __name__ == "__main__":
    sys.exit(main(sys.argv[1:]))
