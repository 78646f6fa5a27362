#!/usr/bin/env python3
"""Times bin/ob0 and prints the times; nothing fails because of a time.

  bench/run.py [WORD..]   all measurements, or those with one of the words in the name

The peak memory of docs/ROBUSTNESS.md is written to tools/figures.txt; a test compares it with that page.

If the variable OTHER_OB0 is the path of another program with the same commands, some measurements are also made with
that one: runs, keys, `check` of large modules, memory, changes at both ends of a text, and the largest messages."""
from __future__ import annotations

import ctypes
import functools
import os
import re
import signal
import subprocess
import sys
import tempfile
import threading
import time
from collections.abc import Callable, Iterable
from typing import Any, IO, List, Tuple

HERE = os.path.dirname(os.path.abspath(__file__))
sys.dont_write_bytecode = True
sys.path[:0] = [HERE, os.path.join(os.path.dirname(HERE), "tests", "lib")]

import corpus  # noqa: E402
import keys  # noqa: E402
from harness import BINARY, EXIT, SHUTDOWN, did_change, did_open, extent, frame, frames, initialize, place, request  # noqa: E402
import figures  # noqa: E402
from common import match_of  # noqa: E402
from counting import instructions_of_conversation, instructions_on_file, lacks  # noqa: E402
from framing import Incoming, Message  # noqa: E402

MIB = 1 << 20
Cost = Tuple[float, int]  # seconds on a processor, and the peak memory
MEASURES: List[Tuple[str, Callable[[], None]]] = []


def measure(name: str) -> Callable[[Callable[[], None]], Callable[[], None]]:
    """Returns a decorator that registers a function as the measurement with this name."""

    def take(function: Callable[[], None]) -> Callable[[], None]:
        MEASURES.append((name, function))
        return function

    return take


def said(what: str, value: object) -> None:
    print(f"  {what:<58} {value}", flush=True)


def megabytes(count: float) -> str:
    return f"{count / MIB:.1f} MiB"


def memory_of(pid: int, kind: str) -> int:
    """Returns the memory in bytes that /proc/PID/status lists as `kind`, or 0 if the process has ended."""
    try:
        with open(f"/proc/{pid}/status", encoding="ascii", errors="replace") as file:
            found = re.search(kind + r":\s+(\d+)", file.read())
    except OSError:
        return 0
    return int(found[1]) * 1024 if found else 0


def memory_now(pid: int) -> int:
    """Returns the resident memory of a process in bytes, or 0 if it has ended."""
    return memory_of(pid, "VmRSS")


def peak_until_now(pid: int) -> int:
    """Returns the peak memory of a process so far in bytes, or 0 if it has ended."""
    return memory_of(pid, "VmHWM")


def watch(pid: int, peak: list[int]) -> None:
    """Stores the peak memory of a process in `peak[0]` each millisecond, until the process ends. (wait4 would also
    count its parent's memory.)"""
    while found := peak_until_now(pid):
        peak[0] = found
        time.sleep(0.001)


LIBRARY = ctypes.CDLL(None)
TRACE_ME, TRACE_GO_ON, TRACE_OPTIONS, TRACE_EXIT, EXITS = 0, 7, 0x4200, 0x40, 6  # (the numbers of ptrace)


def trace(what: int, pid: int = 0, given: int = 0) -> None:
    LIBRARY.ptrace(what, pid, ctypes.c_void_p(0), ctypes.c_void_p(given))


def peak_of(words: list[str], given: IO[bytes], cwd: str | None) -> int:
    """Returns the peak memory of a run. The process is traced and stopped just before it exits, and its peak is read
    then, because polling would miss a short run. Returns 0 if the system doesn't permit tracing."""
    given.seek(0)
    how: dict[str, Any] = {"stdin": given, "stdout": subprocess.DEVNULL, "stderr": subprocess.DEVNULL, "cwd": cwd}
    process = subprocess.Popen(words, preexec_fn=lambda: trace(TRACE_ME), **how)
    peak = 0
    while os.WIFSTOPPED(status := os.waitpid(process.pid, 0)[1]):
        passed = os.WSTOPSIG(status)
        if status >> 8 == signal.SIGTRAP | EXITS << 8:
            peak, passed = peak_until_now(process.pid), 0
        elif passed == signal.SIGTRAP:
            trace(TRACE_OPTIONS, process.pid, TRACE_EXIT)
            passed = 0
        trace(TRACE_GO_ON, process.pid, passed)
    process.returncode = status
    return peak


class Timed:
    """Runs a command with these bytes as its standard input, and records its wall-clock time, CPU time, peak memory,
    status and output."""

    def __init__(self, words: list[str], given: bytes, cwd: str | None = None) -> None:
        peak = [0]
        with tempfile.TemporaryFile() as file, tempfile.TemporaryFile() as out:
            file.write(given)
            file.seek(0)
            start = time.monotonic()
            process = subprocess.Popen(words, stdin=file, stdout=out, stderr=subprocess.DEVNULL, cwd=cwd)
            watcher = threading.Thread(target=watch, args=(process.pid, peak))
            watcher.start()
            _, status, used = os.wait4(process.pid, 0)
            self.seconds = time.monotonic() - start
            self.processor: float = used.ru_utime + used.ru_stime
            process.returncode = self.status = os.WEXITSTATUS(status) if os.WIFEXITED(status) else -os.WTERMSIG(status)
            watcher.join()
            out.seek(0)
            self.out = out.read()
            self.memory = max(peak[0], peak_of(words, file, cwd) if self.processor < 0.1 else 0)

    def on_processor(self) -> float:
        return self.processor


def best(count: int, run: Callable[[], Timed]) -> Timed:
    """Returns the fastest of `count` runs, judged by CPU time, because other programs may be running."""
    return min((run() for _ in range(count)), key=Timed.on_processor)


def conversed(messages: list[Message], program: str = BINARY) -> Timed:
    """Runs a conversation with these messages, followed by `shutdown` and `exit`, three times. Returns the fastest
    run."""
    given = frames([*messages, SHUTDOWN, EXIT])
    return best(3, lambda: Timed([program, "serve"], given))


def place_in_the_middle(text: str) -> tuple[int, int]:
    """Returns the line and column of the first `(` in the text's second half. A blank inserted there changes no
    token."""
    middle = text.index("(", len(text) // 2)
    return text.count("\n", 0, middle), middle - (text.rfind("\n", 0, middle) + 1)


def letter_at(text: str, version: int) -> Message:
    """Returns a didChange that inserts a blank in the middle of a text."""
    line, column = place_in_the_middle(text)
    return did_change([{"range": extent(f"{line}:{column}-{line}:{column}"), "text": " "}], version=version)


def letters_at(text: str, count: int) -> Message:
    """Returns a didChange with `count` changes, which alternately insert a blank in the middle of a text and remove it
    again."""
    line, column = place_in_the_middle(text)
    put = {"range": extent(f"{line}:{column}-{line}:{column}"), "text": " "}
    take = {"range": extent(f"{line}:{column}-{line}:{column + 1}"), "text": ""}
    return did_change([put, take] * (count // 2), version=2)


@measure("serve: 1 MiB opened and changed 20 times")
def served() -> None:
    text = corpus.module(MIB - 100)
    talk = [initialize(), did_open(text), *(did_change(text + " " * at, version=at) for at in range(2, 22)), SHUTDOWN, EXIT]
    given = frames(talk)
    found = best(3, lambda: Timed([BINARY, "serve"], given))
    copied = best(3, lambda: Timed(["cat"], given))
    said("bytes in", f"{len(given):,}")
    said("seconds, those on a processor", f"{found.seconds:.3f}, {found.processor:.3f}")
    said("bytes a second", f"{len(given) / found.processor:,.0f}")
    said("peak memory", megabytes(found.memory))
    said("`cat` of the same bytes, seconds, on a processor", f"{copied.seconds:.3f}, {copied.processor:.3f}")
    said("ratio to `cat`", f"{found.processor / max(copied.processor, 1e-3):.1f}")
    same_count = found.out.count(b'"diagnostics":[]')
    if found.status or same_count != 21:
        said("NOTE: the talk ended otherwise than expected", f"status {found.status}, {same_count} empty lists")


def opened(text: str, times: int) -> Cost:
    """Returns the CPU time of opening a text once, averaged over `times` openings in one conversation, and the peak
    memory."""
    empty = frames([initialize(), SHUTDOWN, EXIT])
    given = frames([initialize(), *(did_open(text, version=at) for at in range(times)), SHUTDOWN, EXIT])
    found, nothing = best(3, lambda: Timed([BINARY, "serve"], given)), best(3, lambda: Timed([BINARY, "serve"], empty))
    return max(found.processor - nothing.processor, 1e-4) / times, found.memory


def ratios(what: str, rows: list[tuple[int, float, int]]) -> None:
    """Prints how CPU time and peak memory grew between the last two rows, and the ratio of each to the growth of the
    text. Each row contains a text's length, seconds, and bytes of memory."""
    (small, first, low), (large, last, high) = rows[-2:]
    grew = large / small
    said(f"{what}: time grew by {last / first:.1f}, and the text by {grew:.1f}", f"ratio {last / first / grew:.2f}")
    if low:
        said(f"{what}: peak memory grew by {high / low:.1f} there", f"ratio {high / low / grew:.2f}")
    else:
        said(f"{what}: peak memory", "not seen: the shortest run ended before")


def growth(what: str, sizes: list[int], make: Callable[[int], str], each: Callable[[str, int], Cost]) -> None:
    """Measures texts of growing sizes. Prints CPU time, throughput and memory for each, and how they grew between the
    last two."""
    rows = []
    for size in sizes:
        text = make(size)
        seconds, memory = each(text, size)
        rows.append((len(text), seconds, memory))
        speed = f"{len(text) / seconds / 1e6:7.2f} MB/s"
        said(f"{what} {size:,}: {len(text):,} bytes", f"{seconds * 1000:9.2f} ms  {speed}  {megabytes(memory)}")
    ratios(what.rstrip(","), rows)


@measure("serve: what an open costs, from 10 KB to 1 MiB")
def growing() -> None:
    sizes = [10000, 100000, MIB]
    each: Callable[[str, int], Cost] = lambda text, size: opened(text, max(3, 3 * MIB // size // 4))
    growth("module of", sizes, corpus.module, each)
    growth("module on one line of", sizes, lambda size: corpus.module(size, on_line=True), each)


def changed(text: str, times: int) -> Cost:
    """Returns the CPU time of inserting one blank, averaged over `times` changes after the text is opened, and the peak
    memory."""
    changes = [letter_at(text, version) for version in range(2, 2 + times)]
    start = [initialize(), did_open(text)]
    found, opening = conversed([*start, *changes]), conversed(start)
    return max(found.processor - opening.processor, 1e-4) / times, found.memory


@measure("serve: what a change of one letter costs, from 10 KB to 1 MiB")
def changing() -> None:
    growth("a change in a module of", [10000, 100000, MIB - 1000], corpus.module, lambda text, _: changed(text, 20))


@measure("serve: 100 faults at the end of a module, from 10 KB to 1 MiB")
def faulty() -> None:
    """Measures the cost of opening a module with 100 errors. Each error assigns a BOOLEAN to an INTEGER variable."""

    def make(size: int) -> str:
        faults = ["x:=TRUE"] * 100
        head = len(corpus.lines_of("MODULE Uses; VAR x: INTEGER;", faults, False))
        return corpus.lines_of("MODULE Uses; VAR x: INTEGER;", ["x:=1"] * ((size - head) // 6) + faults, False)

    growth("a module with 100 faults of", [10000, 100000, MIB], make, lambda text, _: opened(text, 3))


class Talk:
    """A running server. Messages are sent to it one at a time; each reply is awaited, but its JSON isn't parsed."""

    def __init__(self, text: str, **capabilities: Any) -> None:
        self.process = subprocess.Popen([BINARY, "serve"], stdin=subprocess.PIPE, stdout=subprocess.PIPE, bufsize=0)
        assert self.process.stdin and self.process.stdout
        self.given, self.out, self.incoming = self.process.stdin, self.process.stdout, Incoming()
        self.after(initialize(**capabilities))
        self.after(did_open(text))

    def __enter__(self) -> Talk:
        return self

    def __exit__(self, *why: object) -> None:
        with self.process:
            for message in (SHUTDOWN, EXIT):
                self.send(frame(message))
            self.given.close()
            self.process.wait()

    def send(self, given: bytes) -> None:
        left = memoryview(given)
        while left:
            left = left[self.given.write(left) :]

    def used(self) -> float:
        """Returns the CPU time of the server so far, in milliseconds."""
        with open(f"/proc/{self.process.pid}/schedstat", encoding="ascii") as file:
            return int(file.read().split()[0]) / 1e6

    def take(self) -> bytes:
        """Waits for the server's next message, and returns its content. Raises EOFError if the server ends."""
        while (content := self.incoming.take()) is None:
            came = os.read(self.out.fileno(), MIB)
            if not came:
                raise EOFError("the server ended in the middle of a conversation")
            self.incoming.add(came)
        return content

    def after(self, message: Message) -> tuple[float, bytes]:
        """Sends a message and waits for the reply. Returns the seconds from the message's first byte to the reply's
        last one, and the reply."""
        given = frame(message)
        start = time.monotonic()
        self.send(given)
        content = self.take()
        return time.monotonic() - start, content


def spread(taken: Iterable[float]) -> str:
    """Formats the minimum, median and maximum of these times, given in seconds, as milliseconds."""
    taken = sorted(taken)
    return ", ".join(f"{1000 * taken[at]:.1f}" for at in (0, len(taken) // 2, -1))


@measure("serve: from a keystroke to the diagnostics, on 1 MiB")
def keystroke() -> None:
    for name, on_line in (("on many lines", False), ("on one line", True)):
        text = corpus.module(MIB - 1000, on_line=on_line)
        with Talk(text) as talk:
            taken = [talk.after(letter_at(text, version))[0] for version in range(2, 22)]
        said(f"{name}: milliseconds, least, middle, most", spread(taken))


@measure("serve: 10,000 changes in one note, on 100 KB")
def changed_often() -> None:
    comment = "(* " + "то же самое, " * 3_000 + "*) "
    texts = {"on many lines": corpus.module(100_000), "on one line": corpus.module(100_000, on_line=True)}
    texts["on one line, most of it Cyrillic"] = comment + corpus.module(30_000, on_line=True)
    for name, text in texts.items():
        for count in (1_000, 10_000):
            with Talk(text) as talk:
                said(f"{name}, {count:,} changes: seconds to the diagnostics", f"{talk.after(letters_at(text, count))[0]:.3f}")


def on_file(words: list[str], text: str, given: bytes = b"", times: int = 3, program: str = BINARY) -> Timed:
    """Runs a command on a file with this text `times` times, and returns the fastest run."""
    with tempfile.TemporaryDirectory() as room:
        with open(os.path.join(room, "m.mod"), "w", encoding="utf-8") as file:
            file.write(text)
        return best(times, lambda: Timed([program, words[0], "m.mod", *words[1:]], given, cwd=room))


@measure("parse: a module that ends too early, compared with one that has a bad character at its end")
def parsed() -> None:
    """Measures the parser. If a module ends too early, nothing after the parser starts; if the scanner reports a fault,
    the parser doesn't start. So the difference is the parser's cost."""

    def compare(sizes: list[int], **how: Any) -> None:
        rows = []
        for size in sizes:
            text = corpus.module(size, **how)
            end = text.rindex("END Corpus.") + len("END Corpus")
            text = text[:end] + text[end + 1 :]
            scanned, both = on_file(["check"], text + " $"), on_file(["check"], text)
            if scanned.status != 1 or both.status != 1:
                said("NOTE: a fault was expected of each", f"status {scanned.status}, {both.status}")
            seconds = max(both.processor - scanned.processor, 1e-4)
            rows.append((len(text), seconds, both.memory))
            said(f"{len(text):,} bytes, {'on one line' if how else 'on many lines'}", f"parse {len(text) / seconds / 1e6:.1f} MB/s; scan and parse {both.processor * 1000:.1f} ms, {megabytes(both.memory)}; only scan {scanned.processor * 1000:.1f} ms, {megabytes(scanned.memory)}")
        ratios("parse", rows)

    compare([10000, 100000, MIB - 1000])
    compare([100000, MIB - 1000], on_line=True)


@measure("check: corpora, a large block, deep procedures")
def checked() -> None:
    def each(text: str, _: int) -> Cost:
        found = on_file(["check"], text)
        if found.status:
            said("NOTE: the module isn't well-typed", found.out[:200].decode(errors="replace"))
        return found.processor, found.memory

    growth("module of", [10000, 100000, MIB], corpus.module, each)
    growth("one block, declarations", [500, 5000, 25000], corpus.block, each)
    growth("procedures inside one another", [10, 50, 100], corpus.nest, each)


@measure("check: whole modules, and 40,000 names with one ending: instructions, and time on a processor")
def read_beside() -> None:
    """Measures how `check` reads large modules. If OTHER_OB0 specifies another program, its milliseconds and
    instructions are printed after bin/ob0's."""
    texts = {f"a module of {size:,} bytes": corpus.module(size) for size in (10_000, 100_000, MIB - 1000)}
    texts["40,000 names in one declaration"] = corpus.many(40_000, "one")
    texts["40,000 names with one ending in one declaration"] = corpus.many(40_000, "ending")
    for name, text in texts.items():
        found = [on_file(["check"], text, program=it) for it in programs_compared()]
        if any(it.status for it in found):
            said("NOTE: the module isn't well-typed", found[0].out[:200].decode(errors="replace"))
        counted = [] if lacks("valgrind") else [float(instructions_on_file([it, "check"], text)) for it in programs_compared()]
        said(name, side_by_side([1000 * it.processor for it in found], "9.3f", " ms") + side_by_side(counted, "15,.0f", ""))


@measure("memory: texts of nearly 1 MiB that take most of it")
def memory_beside() -> None:
    """Prints the peak memory of `check`, of `serve` with one document, and what a second document adds. If OTHER_OB0
    specifies another program, its peaks are printed after bin/ob0's."""
    texts = {
        "890 types of records, 90 deep": corpus.nested_records(890, 90),
        "a record with 48,000 fields of records": corpus.records("fields", 48_000),
        "48,000 variables of records": corpus.records("variables", 48_000),
        "48,000 types of records": corpus.records("types", 48_000),
        "`x:=x=x`, 149,000 times": corpus.repeated("BOOLEAN", "x:=x=x", 149_000),
        "`x:=-(-x)`, 116,000 times": corpus.repeated("INTEGER", "x:=-(-x)", 116_000),
        "`x:=~~..~x` of 99 signs, 10,000 times": corpus.repeated("BOOLEAN", "x:=" + "~" * 99 + "x", 10_000),
        "1,048,000 empty statements": corpus.repeated("BOOLEAN", "", 1_048_000),
    }
    for name, text in texts.items():
        parts = []
        for program in programs_compared():
            one, two = ([did_open(text, f"file:///{at}") for at in range(count)] for count in (1, 2))
            checked, first, both = on_file(["check"], text, program=program), conversed([initialize(), *one], program), conversed([initialize(), *two], program)
            if checked.status:
                said("NOTE: the module isn't well-typed", checked.out[:200].decode(errors="replace"))
            parts.append(f"{megabytes(checked.memory)}, {megabytes(first.memory)}, {megabytes(both.memory - first.memory)}")
        said(f"{name}: {len(text):,} bytes", "; ".join(parts))


@measure("check: 50,000 declarations in one block")
def large_block() -> None:
    def each(text: str, count: int) -> Cost:
        found = on_file(["check"], text)
        if found.status:
            said("NOTE: the module isn't well-typed", f"{count}: {found.out[:200].decode(errors='replace')}")
        return found.processor, found.memory

    growth("names in one declaration", [5000, 50000], lambda count: corpus.many(count, "one"), each)
    growth("declarations of a name each", [5000, 50000], lambda count: corpus.many(count, "each"), each)


def cost_of_query(text: str, method: str, params: Message, expected: bytes, count: int, **capabilities: Any) -> Cost:
    """Returns the CPU time of a request (the time for opening the document is subtracted), and the peak memory. Prints
    a note unless the output contains `expected` exactly `count` times."""
    question = request(5, f"textDocument/{method}", {"textDocument": {"uri": "file:///m"}, **params})
    start = [initialize(**capabilities), did_open(text)]
    without, found = conversed(start), conversed([*start, question])
    if found.status or found.out.count(expected) != count:
        said("NOTE: another answer was expected", f"status {found.status}, {found.out.count(expected)} and not {count} of {expected.decode()}")
    return max(found.processor - without.processor, 1e-4), found.memory


USES = (("on many lines", False), ("on one line", True))
# (the numbers of uses in texts of 100 KB and of 1 MB: of a variable or a constant, and of a field)
COUNTS, OF_A_FIELD = [17000, 170000], [12500, 125000]


@measure("large: the largest input, compared with half of it")
def largest() -> None:
    """Measures the largest accepted inputs and inputs of half the size. A ratio of 1 means that the cost grows in
    proportion to the size. The cost of starting the program is subtracted."""
    import largest_inputs

    nothing = best(3, lambda: Timed([BINARY, "serve"], frames([initialize(), SHUTDOWN, EXIT]))).processor
    peaks = {}
    for name, (size, make) in largest_inputs.CASES.items():
        taken = []
        for count in (size // 2, size):
            given, wanted = largest_inputs.conversation(make, count)
            found = best(3, functools.partial(Timed, [BINARY, "serve"], given))
            taken.append((max(found.processor - nothing, 1e-3), found.memory))
            if found.status or found.out != frames(wanted):
                said("NOTE: another answer was expected", f"{name}: status {found.status}, {len(found.out):,} bytes")
        (half, low), (whole, high) = taken
        said(f"{name}, {size:,}", f"{whole:7.3f} s, ratio {whole / half / 2:.2f}; {megabytes(high)}, of half of it {megabytes(low)}")
        peaks[f"large: {name}"] = f"{name} | {size:,} | {high / MIB:.0f} MiB"
    figures.keep(peaks, BINARY)


ABLE: Message = {"textDocument": {"codeAction": {"codeActionLiteralSupport": {}}}}


def place_of(text: str, at: int) -> Message:
    return place(text.count("\n", 0, at), at - (text.rfind("\n", 0, at) + 1))


def middle_name(text: str) -> int:
    """Returns the offset, after the middle of a text, of a variable that a statement assigns to."""
    middle = len(text) // 2
    return middle + match_of(r"(?<=[\n ])v[0-9]+ := [^;\n]*;", text[middle:]).start()


def questions_at(text: str) -> dict[str, tuple[str, Message]]:
    """Returns, by their names, the requests that an editor makes about an identifier in the middle of a text, and a
    hover between two tokens."""
    at = middle_name(text)
    known, here = {"textDocument": {"uri": "file:///m"}}, place_of(text, at)
    between = place_of(text, text.index(":=", at) + 1)
    return {
        "hover": ("hover", {"position": here, **known}),
        "hover between two words": ("hover", {"position": between, **known}),
        "definition": ("definition", {"position": here, **known}),
        "prepareRename": ("prepareRename", {"position": here, **known}),
        "code action": ("codeAction", {"context": {}, "range": {"end": here, "start": here}, **known}),
        "references": ("references", {"context": {"includeDeclaration": True}, "position": here, **known}),
        "rename of a local name": ("rename", {"newName": "fresh", "position": here, **known}),
    }


@measure("questions: at one name in the middle, from 10 KB to 1 MiB")
def questions_in_the_middle() -> None:
    """Measures the CPU time and the instructions of one request about an open document. Both should grow with the
    answer, and not with the text."""
    many, few = 200, 20
    for size in (10_000, 100_000, MIB - 1000):
        text = corpus.module(size)
        start = [initialize(**ABLE), did_open(text)]
        counts = lacks("valgrind") is None
        opening = instructions_of_conversation(BINARY, frames([*start, SHUTDOWN, EXIT])) if counts else 0
        for name, (method, params) in questions_at(text).items():
            one = request(5, f"textDocument/{method}", params)
            with Talk(text, **ABLE) as talk:
                answer = talk.after(one)[1]
                before = talk.used()
                for _ in range(many):
                    talk.after(one)
                taken = (talk.used() - before) / many
            if b'"error"' in answer:
                said("NOTE: another answer was expected", answer[:200].decode(errors="replace"))
            counted = instructions_of_conversation(BINARY, frames([*start, *[one] * few, SHUTDOWN, EXIT])) if counts else 0
            steps = f"{(counted - opening) / few:,.0f} instructions" if counts else lacks("valgrind")
            said(f"{name}, {len(text):,} bytes", f"{taken:.3f} ms  {steps}  {len(answer):,} bytes answered")


def type_statement(talk: Talk, text: str) -> list[tuple[float, float]]:
    """Types a statement into the middle of a text, and sends the requests that editors send after each key. Returns the
    CPU time and the wall-clock time of each key in milliseconds."""
    at = text.index(";", middle_name(text)) + 1
    known, found = {"textDocument": {"uri": "file:///m"}}, []
    typed = "\n  IF (1 < 2) & TRUE THEN WriteLn END;"
    for number, key in enumerate(typed):
        here, there = place_of(text, at + number), place_of(text[: at + number] + key, at + number + 1)
        text = text[: at + number] + key + text[at + number :]
        before, start = talk.used(), time.monotonic()
        talk.after(did_change([{"range": {"end": here, "start": here}, "text": key}], version=number + 2))
        talk.after(request(5, "textDocument/codeAction", {"context": {}, "range": {"end": there, "start": there}, **known}))
        talk.after(request(6, "textDocument/hover", {"position": there, **known}))
        talk.after(request(7, "textDocument/definition", {"position": there, **known}))
        found.append((talk.used() - before, 1000 * (time.monotonic() - start)))
    return found


@measure("typing: a statement typed in the middle, each key with three questions, from 10 KB to 1 MiB")
def typed() -> None:
    for size in (10_000, 100_000, MIB - 1000):
        text = corpus.module(size)
        with Talk(text, **ABLE) as talk:
            found = type_statement(talk, text)
            memory = peak_until_now(talk.process.pid)
        taken = sum(it for it, _ in found) / len(found)
        slowest = max(it for _, it in found)
        said(f"{len(text):,} bytes: a key, the slowest by the clock", f"{taken:.2f} ms, {slowest:.2f} ms  peak memory {megabytes(memory)}")


@measure("typing: changes that leave a text ill-typed, compared with changes that don't")
def left_ill_typed() -> None:
    """Inserts `TRUE & ` before an integer expression and removes it again, ten times, so that the text is ill-typed
    after every other change. Does the same with `1 * `, which keeps it well-typed, and prints both times."""
    for size in (10_000, 100_000, MIB - 1000):
        text = corpus.module(size)
        at = text.index(" := ", middle_name(text)) + 4
        sound, faulty = place_of(text, at), []
        for new in ("TRUE & ", "1 * "):
            put = {"range": {"end": sound, "start": sound}, "text": new}
            out = {"range": {"end": {**sound, "character": sound["character"] + len(new)}, "start": sound}, "text": ""}
            with Talk(text) as talk:
                before = talk.used()
                for number in range(20):
                    content = talk.after(did_change([out if number % 2 else put], version=number + 2))[1]
                    if number == 0 and (b'"code"' in content) != (new == "TRUE & "):
                        said("NOTE: other diagnostics were expected", content[:200].decode(errors="replace"))
                faulty.append((talk.used() - before) / 20)
        said(f"{len(text):,} bytes: ill-typed every other time, well-typed", f"{faulty[0]:.2f} ms, {faulty[1]:.2f} ms  ratio {faulty[0] / faulty[1]:.2f}")


@measure("serve: 1,000 open documents of 10 KB")
def many_documents() -> None:
    text = corpus.module(10_000)
    with Talk(text) as talk:
        for number in range(999):
            talk.after(did_open(text, f"file:///{number}"))
        said("peak memory", megabytes(peak_until_now(talk.process.pid)))


@measure("questions: hovers in several documents of 1 MB, one after another")
def questions_in_turn() -> None:
    """Asks about several documents, one after another. The server keeps the four longest analyses, so with a fifth
    document each request analyses a whole text from scratch."""
    text = corpus.module(MIB - 1000)
    here = place_of(text, middle_name(text))
    for count in (1, 2, 4, 5):
        uris = ["file:///m", *(f"file:///{number}" for number in range(count - 1))]
        with Talk(text) as talk:
            for uri in uris[1:]:
                talk.after(did_open(text, uri))
            known = [{"position": here, "textDocument": {"uri": uri}} for uri in uris]
            rounds = [[talk.after(request(5, "textDocument/hover", params))[0] for params in known] for _ in range(3)]
            taken = spread([seconds for times in rounds[1:] for seconds in times])
            said(f"{count} of them: milliseconds, least, middle, most; peak memory", f"{taken}; {megabytes(peak_until_now(talk.process.pid))}")


@measure("serve: documents of 1 MB that become a comment that isn't closed")
def commented_out() -> None:
    """Compares the peak memory for 1 and for 40 documents of 1 MiB whose text was replaced by an unclosed comment. Both
    should be about equal, because a text without lexemes keeps little memory."""
    text = corpus.module(MIB - 1000)
    with Talk(text) as talk:
        talk.after(did_change("(*"))
        for number in range(40):
            uri = f"file:///{number}"
            talk.after(did_open(text, uri))
            talk.after(did_change("(*", uri))
            if number in (0, 39):
                said(f"{number + 1} of them: peak memory", megabytes(peak_until_now(talk.process.pid)))


@measure("serve: documents that each become one character: of 8 KB a bad one, of 100 KB a name")
def one_character() -> None:
    """Compares the peak memory for growing numbers of documents that were replaced by one character. The figures should
    be about equal, because the parts that are kept of a previous text are counted or freed."""
    for letter, size, counts in (("$", 8_000, (500, 1000, 2000)), ("x", 100_000, (100, 200, 400))):
        text = corpus.module(size)
        with Talk(text) as talk:
            for number in range(counts[-1]):
                uri = f"file:///{number}"
                talk.after(did_open(text, uri))
                talk.after(did_change(letter, uri))
                if number + 1 in counts:
                    said(f"{number + 1} of them, now {letter}: peak memory", megabytes(peak_until_now(talk.process.pid)))


@measure("serve: documents of 1 MB that are made smaller")
def made_smaller() -> None:
    """Measures the memory of 8 and of 64 documents that were made much smaller. Both should be about equal, because
    each list frees its memory or is counted with it."""
    kinds: dict[str, Callable[[str], list[Message]]] = {
        "modules in all steps": keys.made_smaller,
        "refused by the parser in all steps": lambda uri: keys.made_smaller(uri, first="x:=;\n"),
        "modules, with a bad character at the end": lambda uri: keys.made_smaller(uri, last="$\n"),
        "a million line endings, removed by one change": keys.emptied,
    }
    taken = {}
    for name, talk_of in kinds.items():
        held = [name]
        with Talk("MODULE M; END M.") as talk:
            for number in range(64):
                for message in talk_of(f"file:///{number}"):
                    talk.after(message)
                if number + 1 in (8, 64):
                    memory = memory_now(talk.process.pid)
                    held.append(f"{memory / MIB:.0f} MiB")
                    said(f"{name}, {number + 1} of them: memory", megabytes(memory))
        taken[f"made smaller: {name}"] = " | ".join(held)
    figures.keep(taken, BINARY)


@measure("questions: references of one name, on 100 KB and 1 MB")
def referred() -> None:
    ask = {"context": {"includeDeclaration": True}, "position": place(0, 18)}
    each: Callable[[str, int], Cost] = lambda text, size: cost_of_query(text, "references", ask, b'"uri":"file:///m"}', size + 1)
    for name, on_line in USES:
        growth(f"references {name},", COUNTS, functools.partial(corpus.uses, on_line=on_line), each)


@measure("rename: a name that is used all over 100 KB and 1 MB")
def renamed() -> None:
    each: Callable[[str, int], Cost] = lambda text, size: cost_of_query(text, "rename", {"newName": "y", "position": place(0, 18)}, b'"newText":"y"', size + 1)
    for name, on_line in USES:
        growth(f"rename {name},", COUNTS, functools.partial(corpus.uses, on_line=on_line), each)


def halves(what: str, cost: Callable[[int, int], Cost], first: int, second: int) -> None:
    """Prints the cost of a pair of sizes and, for each of the two sizes, the ratio of this cost to twice the cost with
    that size halved. The ratio is 1 for a size to which the cost is proportional, and 0.5 for one on which it doesn't
    depend."""
    whole, memory = cost(first, second)
    by_first, by_second = cost(first // 2, second)[0], cost(first, second // 2)[0]
    said(f"{what}, {first:,} and {second:,}", f"{whole:7.3f} s, ratios {whole / by_first / 2:.2f} and {whole / by_second / 2:.2f}; {megabytes(memory)}")


@measure("rename: a long name for one that is used all over 1 MB, compared with half of the uses and half of the name")
def renamed_to_a_long_name() -> None:
    def cost(uses: int, letters: int) -> Cost:
        ask = {"newName": "y" * letters, "position": place(0, 17)}
        return cost_of_query(corpus.chain(uses), "rename", ask, b"TooLong", 1)

    halves("uses and letters", cost, 500_000, 8_000_000)


def cost_of_changes(changes: int, lines: int, line_of: Callable[[int], int], program: str = BINARY) -> Cost:
    """Returns the CPU time of one notification with `changes` changes (the time for opening the document is
    subtracted), and the peak memory. Change number `at` is in line `line_of(at)` of the `lines` statements."""
    text = "MODULE M; VAR x: INTEGER; BEGIN\n" + "x:=x+1;\n" * lines + "END M.\n"
    replaced = [{"range": extent(f"{1 + line_of(at)}:0-{1 + line_of(at)}:1"), "text": "x"} for at in range(changes)]
    start = [initialize(), did_open(text)]
    found, opening = conversed([*start, did_change(replaced, version=2)], program), conversed(start, program)
    return max(found.processor - opening.processor, 1e-4), found.memory


@measure("serve: a change on each line in one notification, compared with half of the changes and half of the lines")
def changed_on_each_line() -> None:
    # the changes begin at the first line, and begin there again after the last
    halves("changes and lines", lambda changes, lines: cost_of_changes(changes, lines, lambda at: at % lines), 128_000, 128_000)


@measure("serve: changes that alternate between the first line and the last in one notification, compared with half of both")
def changed_at_both_ends() -> None:
    """Measures changes that alternate between the first and the last line. Each moves the starts of all lines between
    them. If OTHER_OB0 specifies another program, its time is also printed."""

    def cost(changes: int, lines: int, program: str = BINARY) -> Cost:
        return cost_of_changes(changes, lines, lambda at: at % 2 * (lines - 1), program)

    halves("alternating changes, and lines", cost, 16_000, 128_000)
    if os.environ.get("OTHER_OB0"):
        seconds, _ = cost(16_000, 128_000, os.environ["OTHER_OB0"])
        said("alternating changes, other program", f"{seconds:7.3f} s, ratio {cost(16_000, 128_000)[0] / seconds:.2f}")


@measure("serve: a replace-all in one long line in one notification, compared with half of the changes and half of the line")
def replaced_in_one_line() -> None:
    """Measures many changes in one line, from first to last and from last to first. The server finds each position by
    counting from the previous one."""

    def cost(changes: int, statements: int, turned: bool) -> Cost:
        text = "MODULE M; VAR x: INTEGER; BEGIN\n" + "x:=x+1;" * statements + "\nEND M.\n"
        places = [7 * at for at in range(changes)][:: -1 if turned else 1]
        replaced = [{"range": extent(f"1:{at}-1:{at + 1}"), "text": "x"} for at in places]
        start = [initialize(), did_open(text)]
        found, opening = conversed([*start, did_change(replaced, version=2)]), conversed(start)
        return max(found.processor - opening.processor, 1e-4), found.memory

    halves("changes, first to last, and the line", lambda changes, size: cost(changes, size, False), 64_000, 128_000)
    halves("changes, last to first, and the line", lambda changes, size: cost(changes, size, True), 64_000, 128_000)


@measure("serve: one message of 16 MiB, compared with one of 8")
def largest_message() -> None:
    """Measures the largest messages that the server reads. If OTHER_OB0 specifies another program, its time and peak
    memory are also printed."""

    def each(one: bytes, size: int, program: str = BINARY) -> Cost:
        content = b"[" + (one + b",") * ((size - 3) // (len(one) + 1)) + b"0]"
        given = b"Content-Length: %d\r\n\r\n" % len(content) + content
        found = best(3, lambda: Timed([program, "serve"], given))
        return found.processor, found.memory

    values = {"`0,`": b"0", "`{},`": b"{}", '`{"a":{}},`': b'{"a":{}}', "numbers inside 124 objects": b'{"":' * 124 + b"0" + b"}" * 124}
    peaks = {}
    for name, one in values.items():
        (half, low), (whole, high) = each(one, 8 * MIB), each(one, 16 * MIB - 64)
        said(f"a message of {name}", f"{whole:7.3f} s, ratio {whole / half / 2:.2f}; {megabytes(high)}, of half of it {megabytes(low)}")
        peaks[f"one message: {name}"] = f"16 MiB of {name} | {high / MIB:,.0f} MiB"
        if os.environ.get("OTHER_OB0"):
            seconds, memory = each(one, 16 * MIB - 64, os.environ["OTHER_OB0"])
            said(f"a message of {name}, other program", f"{seconds:7.3f} s  {megabytes(memory)}  ratios {whole / seconds:.2f} and {high / memory:.2f}")
    figures.keep(peaks, BINARY)


@measure("rename: from the request to the end of its answer, on 1 MiB")
def rename_answered() -> None:
    """Measures the time until a rename is answered while the document is open: for a name that is used in several
    places, and for one that fills the text."""

    def whole(name: str, text: str, line: int, character: int, old: str, new: str) -> None:
        question = request(5, "textDocument/rename", {"newName": new, "position": place(line, character), "textDocument": {"uri": "file:///m"}})
        count = len(re.findall(rf"\b{old}\b", text))
        with Talk(text) as talk:
            answers = [talk.after(question) for _ in range(5)]
        said(f"{name}: {len(text):,} bytes, {count:,} places", f"{len(answers[0][1]):,} bytes answered; milliseconds, least, middle, most: {spread(it for it, _ in answers)}")
        found = {content.count(b'"newText":"%s"' % new.encode()) for _, content in answers}
        if found != {count}:
            said("NOTE: another answer was expected", f"{sorted(found)} edits, {answers[0][1][:200].decode(errors='replace')}")

    whole("a module", corpus.module(MIB), 2, 2, "base", "root")
    for name, on_line in USES:
        most = (MIB - len(corpus.uses(1, on_line))) // (len(corpus.uses(2, on_line)) - len(corpus.uses(1, on_line)))
        whole(f"uses {name}", corpus.uses(most, on_line).ljust(MIB), 0, 18, "x", "y")


@measure("rename: a field that is used all over 100 KB and 1 MB")
def field_renamed() -> None:
    each: Callable[[str, int], Cost] = lambda text, size: cost_of_query(text, "rename", {"newName": "y", "position": place(0, 26)}, b'"newText":"y"', size + 1)
    for name, on_line in USES:
        growth(f"rename of a field {name},", OF_A_FIELD, functools.partial(corpus.fields, on_line=on_line), each)


@measure("inline: a constant that is used all over 100 KB and 1 MB")
def inlined() -> None:
    """Measures code actions at a constant's declaration, which offers *Inline everywhere*, and at its last use, which
    offers both actions."""

    def at(text: str, where: int) -> Message:
        here = place_of(text, where)
        return {"context": {}, "range": {"end": here, "start": here}}

    everywhere: Callable[[str, int], Cost] = lambda text, size: cost_of_query(text, "codeAction", at(text, text.index("c=")), b'"newText":"7"', size, **ABLE)
    both: Callable[[str, int], Cost] = lambda text, size: cost_of_query(text, "codeAction", at(text, text.rindex("c")), b'"newText":"7"', size + 1, **ABLE)
    for name, on_line in USES:
        make = functools.partial(corpus.constants, on_line=on_line)
        growth(f"inline everywhere, {name},", COUNTS, make, everywhere)
        growth(f"inline here and everywhere, {name},", COUNTS, make, both)


@measure("format: what a layout costs, from 100 KB to 1 MiB")
def laid_out() -> None:
    options = {"insertSpaces": True, "tabSize": 2}
    question = request(5, "textDocument/formatting", {"options": options, "textDocument": {"uri": "file:///m"}})

    def each(text: str, _: int) -> Cost:
        start = [initialize(), did_open(text)]
        without, found = conversed(start), conversed([*start, question])
        if b'"newText"' not in found.out:
            said("NOTE: no edit was answered", found.out[-200:].decode(errors="replace"))
        return max(found.processor - without.processor, 1e-4), found.memory

    def wide(size: int) -> str:
        """Returns a module on one line whose tokens are separated by so many blanks that the formatted text isn't
        longer."""
        return corpus.module(size * 39 // 100, on_line=True).replace(" ", " " * 5).ljust(size)

    growth("layout of a module of", [100000, 900000], corpus.module, each)
    growth("layout of a module on one line of", [100000, MIB], wide, each)


def programs_compared() -> list[str]:
    """Returns the path of the measured program, followed by the path in OTHER_OB0 if that is set."""
    return [it for it in (BINARY, os.environ.get("OTHER_OB0")) if it]


def side_by_side(values: list[float], form: str, unit: str) -> str:
    """Formats the values of the measured program and of the other one, and their ratio if there are two."""
    line = "".join(format(it, form) for it in values) + unit
    return line + (f" (ratio {values[0] / values[1]:.2f})" if values[1:] else "")


@measure("keys: what an editor does while one types: instructions, and time on a processor")
def keys_typed() -> None:
    """Measures what each keystroke and request of bench/keys.py costs. If OTHER_OB0 specifies another program, its
    milliseconds and instructions are printed after bin/ob0's."""
    counts = lacks("valgrind") is None
    if not counts:
        said("instructions", f"not counted: {lacks('valgrind')}")
    for name, (short, long, count) in keys.rows():
        less, more = (frames(keys.conversation(it)) for it in (short, long))
        taken, counted = [], []
        for program in programs_compared():
            one, other = (best(3, functools.partial(Timed, [program, "serve"], given)).processor for given in (less, more))
            taken.append(max(other - one, 1e-5) / count * 1000)
            if counts:
                counted.append((instructions_of_conversation(program, more) - instructions_of_conversation(program, less)) / count)
        said(name, side_by_side(taken, "9.3f", " ms") + side_by_side(counted, "15,.0f", ""))


@measure("keys: eight documents that grow and shrink between 100 bytes and 1 MB: peak memory")
def grown_and_shrunk() -> None:

    for count in (20, 200, 400):
        found = Timed([BINARY, "serve"], frames(keys.conversation(keys.shrinking(count))))
        said(f"{count} changes", f"{megabytes(found.memory)}  status {found.status}")


def instructions(words: list[str], file: str) -> str:
    """Returns how many instructions a command executes on a file, as text. If valgrind is missing or counts nothing,
    the text says so."""
    if missing := lacks("valgrind"):
        return f"skipped: {missing}"
    counted = ["valgrind", "--tool=callgrind", "--callgrind-out-file=/dev/null", *words, file]
    line = subprocess.run(counted, stdin=subprocess.DEVNULL, stdout=subprocess.DEVNULL, stderr=subprocess.PIPE, check=False).stderr
    found = re.search(rb"Collected : (\d+)", line)
    return f"{int(found[1]):,} instructions" if found else "valgrind counted nothing"


@measure("run: loops, arrays and calls, against Lua and Python")
def ran() -> None:
    import programs

    compared = os.environ.get("OTHER_OB0")
    missing = {command: lacks(command) for command in ("lua5.4", "python3")}
    for name, (text, lua, python) in programs.PROGRAMS.items():
        found = on_file(["run"], text)
        said(f"{name}: ob0", f"{found.processor:.3f} s  {megabytes(found.memory)}  status {found.status}")
        with tempfile.TemporaryDirectory() as room:
            file = os.path.join(room, "program")
            with open(file, "w", encoding="utf-8") as it:
                it.write(text)
            said(f"{name}: ob0, counted", instructions([BINARY, "run"], file))
        others = [(["lua5.4"], lua), (["python3"], python)]
        for words, other in [([compared, "run"], text), *others] if compared else others:
            command = os.path.basename(words[0])
            if missing.get(command):
                said(f"{name}: {command}", f"skipped: {missing[command]}")
                continue
            with tempfile.TemporaryDirectory() as room:
                file = os.path.join(room, "program")
                with open(file, "w", encoding="utf-8") as it:
                    it.write(other)
                its = best(3, lambda: Timed([*words, file], b""))
            agrees = "the same output" if its.out.split() == found.out.split() else "ANOTHER OUTPUT"
            said(f"{name}: {command}", f"{its.processor:.3f} s  ob0 takes {found.processor / its.processor:.2f} times that; {agrees}")


def output_of(text: str, wanted: int) -> Timed:
    """Runs a program once, and returns the run. Prints a note unless the output is exactly the number `wanted`."""
    found = on_file(["run"], text, times=1)
    if found.status or found.out != b" %d\n" % wanted:
        said("NOTE: another output was expected", f"status {found.status}, {found.out[:100]!r}")
    return found


@measure("run: memory by the calls that are made, and by those that are open at a time")
def flat() -> None:
    import programs

    counts = (1000, 1000000, 10000000)
    few, many, most = (output_of(programs.calls(count), count) for count in counts)
    for count, found in zip(counts, (few, many, most)):
        said(f"{count:,} calls, one after the other", f"{found.processor:.3f} s  {megabytes(found.memory)}")
    said("peak memory of the second and the third, by the first", f"ratio {many.memory / few.memory:.3f}, {most.memory / few.memory:.3f}")
    said("time of the third, by the second and by their calls", f"ratio {most.processor / many.processor / 10:.2f}")
    for depth, turns in ((1, 640), (8, 80), (64, 10), (64, 100)):
        found = output_of(programs.open_calls(depth, turns), depth * turns)
        said(f"{depth} open at a time, 64 KiB each, {depth * turns:,} in all", f"{found.processor:.3f} s  {megabytes(found.memory)}")


@measure("run: memory by the numbers that are written")
def numbers() -> None:
    """Measures programs that write many numbers. Nothing is written before a run ends, so the output is held in
    memory."""
    import programs

    def of(count: int) -> Timed:
        found = on_file(["run"], programs.numbers_out(count), times=3)
        if found.status or len(found.out) != 2 * count:
            said("NOTE: another output was expected", f"status {found.status}, {len(found.out):,} bytes")
        return found

    least = of(1000)
    half, whole = (of(count) for count in (4_000_000, 8_000_000))
    for count, found in ((4_000_000, half), (8_000_000, whole)):
        each = (found.memory - least.memory) / count
        said(f"{count:,} numbers of one digit", f"{found.processor:.3f} s  {megabytes(found.memory)}, {each:.1f} bytes each")
    said("time and peak memory of the second, by the first", f"ratio {whole.processor / half.processor / 2:.2f}, {whole.memory / half.memory / 2:.2f}")


def main(words: list[str]) -> int:
    if not os.access(BINARY, os.X_OK):
        print("bin/ob0 is missing: make it with `make build`", file=sys.stderr)
        return 2
    for name, function in MEASURES:
        if not words or any(it in name for it in words):
            print(name, flush=True)
            function()
    return 0


if __name__ == "__main__":
    sys.exit(main(sys.argv[1:]))
