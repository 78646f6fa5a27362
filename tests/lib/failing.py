"""Runs the program, and the tests of the crates, with allocations and devices that fail. The library failing.c is
preloaded for this. It can refuse the Nth allocation, or the Nth and all later ones; fail the Nth read if each read
returns one byte; and accept only a given number of bytes, one in each call. It counts the calls, so a loop over all of
them knows where to stop. A run takes 2 ms. Programs that `rt try` compiles have another allocator, which keeps freed
memory: its memory figures mean nothing, and its allocations can't be made to fail (with
`ASAN_OPTIONS=quarantine_size_mb=0` it frees most)."""
from __future__ import annotations

import concurrent.futures
import contextlib
import functools
import os
import subprocess
import tempfile
import threading
from collections.abc import Iterable, Iterator
from typing import Any

import harness
from harness import Failed, holds, same, want

HERE = os.path.dirname(os.path.abspath(__file__))
LONGEST = 3600  # seconds that a walk may take
PROCESSORS = len(os.sched_getaffinity(0))
DEVICES = [f"fault: {it}\n".encode() for it in ("Read", "Write", "File", "Input")]
ROOM: list[tempfile.TemporaryDirectory[str]] = []  # the folder of the library, kept until the end


LOCK = threading.Lock()


def library() -> str:
    """Compiles the preloaded library at its first use, and returns its path."""
    with LOCK:
        return compiled()


@functools.lru_cache(None)
def compiled() -> str:
    want("cc")
    ROOM.append(tempfile.TemporaryDirectory())
    made = os.path.join(ROOM[0].name, "failing.so")
    words = ["cc", "-O1", "-shared", "-fPIC", "-o", made, os.path.join(HERE, "failing.c"), "-ldl"]
    ran = subprocess.run(words, capture_output=True, check=False, timeout=harness.SECONDS)
    if ran.returncode:
        raise Failed(f"failing.c wasn't compiled:\n{ran.stderr.decode(errors='replace')}")
    return made


class Walked(harness.Ended):
    """Stores consecutive runs with the same result: their numbers, whether an allocation or a device failed, and how
    many calls of each kind the last one made."""

    def __init__(
        self, out: bytes, err: bytes, status: int, numbers: range, is_touched: bool, calls: Iterable[int]
    ) -> None:
        super().__init__(out, err, status)
        self.numbers, self.is_touched = numbers, is_touched
        self.calls = dict(zip(("memory", "calls", "short"), calls))


def walked(
    words: list[str], given: bytes, cwd: str | None, kind: str, numbers: range, ending: str, **fails: object
) -> list[Walked]:
    """Runs a program once for each number in `numbers`, and makes the call of this `kind` with that number fail; if
    `ending` is "..", all later calls fail as well. One process forks for all runs. `fails` lists other failures, as
    failing.c reads them. Returns the results in order."""
    with tempfile.TemporaryFile() as stdin, tempfile.TemporaryFile() as reports:
        stdin.write(given)
        stdin.flush()
        span = f"{kind} {numbers[0]}-{numbers[-1]}/{numbers.step}"
        named = {"report": reports.fileno(), "each": span, **fails, kind: f"0{ending}"}
        # (the program gets no other variables, so that its allocations before main don't depend on them)
        own = {f"OB0_{name.upper()}": str(value) for name, value in named.items() if value is not None}
        own.update(LD_PRELOAD=library(), PATH=os.environ.get("PATH", ""))
        how: dict[str, Any] = {"stdin": stdin, "stdout": subprocess.DEVNULL, "stderr": subprocess.PIPE, "cwd": cwd, "env": own}
        ran = subprocess.run(words, pass_fds=[reports.fileno()], check=False, timeout=LONGEST, **how)
        if ran.returncode:
            raise Failed(f"{words} could not be walked, {span}: status {ran.returncode}, {ran.stderr.decode(errors='replace')}")
        reports.seek(0)
        found = []
        while head := reports.readline():
            first, last, status, is_touched, *calls, out_size, err_size = map(int, head.split())
            out, err = reports.read(out_size), reports.read(err_size)
            found.append(Walked(out, err, status, range(first, last + 1, numbers.step), bool(is_touched), calls))
    if sum(len(it.numbers) for it in found) != len(numbers):
        raise Failed(f"{words} was not walked to its end, {span}")
    return found


def walk(
    words: list[str], given: bytes, cwd: str | None, kind: str, numbers: range, ending: str = "", **fails: object
) -> Iterator[Walked]:
    """Yields the same results as `walked`, but divides the numbers among as many processes as there are processors."""
    size = -(-len(numbers) // PROCESSORS)
    parts = [numbers[at : at + size] for at in range(0, len(numbers), size)]
    with concurrent.futures.ThreadPoolExecutor(PROCESSORS) as pool:
        for found in pool.map(lambda part: walked(words, given, cwd, kind, part, ending, **fails), parts):
            yield from found


def undisturbed(words: list[str], given: bytes = b"", cwd: str | None = None, **fails: object) -> Walked:
    """Runs a program once without any failing allocation, and returns its result."""
    return walked(words, given, cwd, "memory", range(1), "", **fails)[0]


def fronts(written: bytes) -> list[bytes]:
    """Returns every prefix of a conversation's output that consists of complete messages."""
    contents = harness.unframed(written)
    return [harness.frames(contents[:count]) for count in range(len(contents) + 1)]


@contextlib.contextmanager
def folder_with_module(text: str | bytes | None) -> Iterator[str]:
    """Makes a temporary folder with a file m.mod that contains this text or these bytes. If `text` is None, there is no
    file."""
    with tempfile.TemporaryDirectory() as room:
        if text is not None:
            with open(os.path.join(room, "m.mod"), "wb") as file:
                file.write(text if isinstance(text, bytes) else text.encode())
        yield room


def refused(
    name: str, words: list[str], given: bytes = b"", text: str | bytes | None = None, reads: int | None = None
) -> dict[str, int]:
    """Runs the program twice for each of its allocations: once with that allocation refused, and once with all later
    ones refused as well. Each run must report that memory ran out, after whole messages only (a command: after nothing
    or all of its output), or else be as usual. Returns how many runs ended in each way."""
    counts = {"refused": 0, "undisturbed": 0}
    command = [harness.BINARY, *words]
    with folder_with_module(text) as room:
        plain = undisturbed(command, given, room, reads=reads)
        allowed = fronts(plain.out) if words[0] == "serve" else [b"", plain.out]
        numbers = range(1, plain.calls["memory"] + 1)
        for ending in ("", ".."):
            for run in walk(command, given, room, "memory", numbers, ending, reads=reads):
                where = f"{name}: allocation {run.numbers[0]}{ending} refused"
                holds(run.is_touched, f"{where}: it wasn't")
                if (run.out, run.err, run.status) == (plain.out, plain.err, plain.status):
                    counts["undisturbed"] += len(run.numbers)
                    continue
                same((run.err, run.status), (b"fault: Memory\n", 5), where)
                holds(run.out in allowed, f"{where}: standard output ends with {run.out[-80:]!r}")
                counts["refused"] += len(run.numbers)
    holds(counts["refused"], f"{name}: nothing was ever refused")
    return counts


def each_call(kind: str, words: list[str], given: bytes, text: str | bytes | None) -> Iterator[tuple[Walked, Walked]]:
    """Yields, for each read and write, the usual run and a run in which that call fails (`calls`) or transfers only one
    byte (`short`)."""
    command = [harness.BINARY, *words]
    with folder_with_module(text) as room:
        plain = undisturbed(command, given, room)
        for run in walk(command, given, room, kind, range(1, plain.calls[kind] + 1)):
            yield plain, run


def broken(name: str, words: list[str], given: bytes = b"", text: str | bytes | None = None) -> int:
    """Runs the program once for each of its reads and writes, and makes that call fail. Each run must report a failed
    device, after a prefix of the usual output. If a call on standard error fails, the rest must be as usual. Returns
    the number of runs."""
    count = 0
    for plain, run in each_call("calls", words, given, text):
        count += len(run.numbers)
        where = f"{name}: read or write {run.numbers[0]} fails"
        holds(run.is_touched, f"{where}: it didn't")
        if plain.err and (run.out, run.err, run.status) == (plain.out, b"", plain.status):
            continue
        holds(run.status == 4 and run.err in DEVICES, f"{where}: status {run.status}, {run.err!r}")
        holds(plain.out.startswith(run.out), f"{where}: standard output ends with {run.out[-80:]!r}")
    return count


def shortened(name: str, words: list[str], given: bytes = b"", text: str | bytes | None = None) -> int:
    """Runs the program once for each of its reads and writes, and lets that call transfer only one byte. Nothing else
    may change. Returns the number of runs."""
    count = 0
    for plain, run in each_call("short", words, given, text):
        count += len(run.numbers)
        where = f"{name}: read or write {run.numbers[0]} moves one byte"
        same((run.out, run.err, run.status, run.is_touched), (plain.out, plain.err, plain.status, True), where)
    return count
