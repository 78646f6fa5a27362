"""Tests how the program ends if memory runs out, or if a read or a write fails at any byte."""
from __future__ import annotations

import os
import resource
import signal
import subprocess
import tempfile
from typing import Any

import conversations
import corpus
import failing
import harness
from first_conversation import BORDERS, INPUT, OUT, OUTPUT
from harness import EXIT, Ended, SHUTDOWN, did_change, did_open, frame, frames, holds, initialize, same, serve, test

LIMITS = [*range(3000, 9000, 250), *range(9000, 60000, 3000)]  # in kilobytes
TALK = [initialize(), did_open(corpus.module(200000)), did_change("$"), SHUTDOWN, EXIT]


def limited(kilobytes: int) -> tuple[int, bytes, bytes]:
    """Runs TALK with a server whose address space is limited to this many kilobytes. Returns its status, standard error
    and output."""
    words = ["sh", "-c", f'ulimit -v {kilobytes}; exec "$@"', "sh", harness.BINARY, "serve"]
    ran = subprocess.run(words, input=frames(TALK), timeout=harness.SECONDS, capture_output=True, check=False)
    return ran.returncode, ran.stderr, ran.stdout


@test("devices: `serve` ends with status 5 if memory runs out, and each message that it has sent is whole")
def memory() -> None:
    whole = serve(TALK)
    contents = whole.contents()
    fronts = [frames(contents[:count]) for count in range(len(contents) + 1)]
    ends = {"refused": 0, "done": 0}
    for kilobytes in LIMITS:
        status, err, out = limited(kilobytes)
        if status == 127:
            continue  # (the address space was too small even for the loader)
        where = f"under {kilobytes} KB"
        if status == 0:
            same((out, err), (whole.out, b""), where)
            ends["done"] += 1
        else:
            same((status, err), (5, b"fault: Memory\n"), where)
            holds(out in fronts, f"{where}: the output is not a prefix of the messages")
            ends["refused"] += 1
    holds(ends["refused"] and ends["done"], f"the limits showed only one end: {ends}")


def ended(found: Ended, out: bytes, status: int, err: bytes, where: str) -> None:
    same((found.out, found.err, found.status), (out, err, status), where)


SERVE = [harness.BINARY, "serve"]


@test("devices: if a read fails at any byte of a conversation, `serve` answers earlier messages and ends with status 4")
def failing_reader() -> None:
    # (`exit` ends the server at its last byte, so the next read never happens)
    for found in failing.walk(SERVE, INPUT, None, "reads", range(1, len(INPUT) + 1)):
        fewest, most = (len([it for it in BORDERS[1:] if it < at]) for at in (found.numbers[0], found.numbers[-1]))
        same(fewest, most, "how much is answered in runs that end alike")
        ended(found, frames(OUT[:most]), 4, b"fault: Read\n", f"call {found.numbers[0]} fails")
    ended(failing.undisturbed(SERVE, INPUT, reads=len(INPUT) + 1), OUTPUT, 0, b"", "the call after the exit")


@test("devices: if a write fails or writes nothing at any byte of a conversation, `serve` ends with `fault: Write`")
def failing_writer() -> None:
    for ending in ("", ".."):
        for found in failing.walk(SERVE, INPUT, None, "writes", range(len(OUTPUT)), ending):
            number = found.numbers[-1]
            ended(found, OUTPUT[:number], 4, b"fault: Write\n", f"{number} bytes taken{' and then none' if ending else ''}")
        ended(failing.undisturbed(SERVE, INPUT, writes=f"{len(OUTPUT)}{ending}"), OUTPUT, 0, b"", "room for all")


@test("devices: if a write fails after any byte of a command's output, the command ends with `fault: Write`")
def failing_printer() -> None:
    for name, status in (("a check of a text with two errors", 1), ("a run of a module", 0), ("a rename of a variable", 0)):
        words, given, text, _ = conversations.SHORT[name]
        with failing.folder_with_module(text) as room:
            command = [harness.BINARY, *words]
            plain = failing.undisturbed(command, given, room)
            holds(plain.out and plain.status == status, f"{name}: {plain.out!r}, status {plain.status}")
            for found in failing.walk(command, given, room, "writes", range(len(plain.out))):
                number = found.numbers[-1]
                ended(found, plain.out[:number], 4, b"fault: Write\n", f"{name}: {number} bytes taken")


@test("devices: if any read or write fails, the program ends with a fault after a prefix of its usual output")
def failing_calls() -> None:
    counts = [failing.broken(name, *it[:3]) for name, it in {**conversations.SHORT, **conversations.LONG}.items()]
    holds(all(counts), f"nothing was read or written: {counts}")


@test("devices: if any read or write moves only one byte, the program's output and status are unchanged")
def short_calls() -> None:
    counts = [failing.shortened(name, *it[:3]) for name, it in {**conversations.SHORT, **conversations.LONG}.items()]
    holds(any(counts), "nothing of several bytes was read or written")


@test("devices: `serve` reads its input in pieces of 8,192 bytes")
def pieces() -> None:
    given = frame(b"[" + b" " * 99998 + b"]")
    # (one read for each piece, the read that finds the end, and two writes: the answer's head and its content)
    same(failing.undisturbed(SERVE, given).calls["calls"], -(-len(given) // 8192) + 3, "the reads and writes of a message of 100,000 bytes")


@test("devices: `run` ends with `fault: Input` if a read of its input fails at any byte")
def failing_input() -> None:
    words, _, text, _ = conversations.SHORT["a run of a module"]
    with failing.folder_with_module(text) as room:
        for found in failing.walk([harness.BINARY, *words], b"1 2", room, "reads", range(1, 5)):
            ended(found, b"", 4, b"fault: Input\n", f"call {found.numbers[0]} fails")


@test("devices: `check`, `run` and `rename` end with `fault: File` if a read of the module's file fails at any byte")
def failing_file() -> None:
    text = "MODULE M; END M."
    for words in (["check", "m.mod"], ["run", "m.mod"], ["rename", "m.mod", "0", "7", "x"]):
        with failing.folder_with_module(text) as room:
            for found in failing.walk([harness.BINARY, *words], b"", room, "file", range(1, len(text) + 2)):
                ended(found, b"", 4, b"fault: File\n", f"{words[0]}: call {found.numbers[0]} fails")


@test("devices: `serve` ends with `fault: Read` if its standard input is a folder")
def reader() -> None:
    folder = os.open("/", os.O_RDONLY)
    try:
        how: dict[str, Any] = {"stdin": folder, "capture_output": True, "timeout": harness.SECONDS, "check": False}
        ran = subprocess.run([harness.BINARY, "serve"], **how)
    finally:
        os.close(folder)
    same((ran.stdout, ran.stderr, ran.returncode), (b"", b"fault: Read\n", 4))


@test("devices: `serve` ends with `fault: Write` if its standard output is a full device")
def writer() -> None:
    with open("/dev/full", "wb") as device:
        how: dict[str, Any] = {"stdout": device, "stderr": subprocess.PIPE, "timeout": harness.SECONDS, "check": False}
        ran = subprocess.run([harness.BINARY, "serve"], input=frames(TALK), **how)
    same((ran.stderr, ran.returncode), (b"fault: Write\n", 4))


@test("devices: the limit on file sizes ends `serve` by SIGXFSZ, or by `fault: Write` if SIGXFSZ is ignored")
def limit_of_files() -> None:
    for handler, wanted in ((signal.SIG_DFL, (b"", -signal.SIGXFSZ)), (signal.SIG_IGN, (b"fault: Write\n", 4))):

        def limit(handler: int | signal.Handlers = handler) -> None:
            resource.setrlimit(resource.RLIMIT_FSIZE, (0, 0))
            signal.signal(signal.SIGXFSZ, handler)

        with tempfile.TemporaryFile() as out:
            how: dict[str, Any] = {"stdout": out, "stderr": subprocess.PIPE, "timeout": harness.SECONDS, "check": False, "restore_signals": False}
            ran = subprocess.run([harness.BINARY, "serve"], input=frames(TALK), preexec_fn=limit, **how)
        same((ran.stderr, ran.returncode), wanted)
