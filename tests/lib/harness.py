"""Registers the end-to-end tests, runs the program, and builds messages. After this module is imported, helpers,
inputs, the reference and the scripts of tools/ and bench/ can be imported."""
from __future__ import annotations

import array
import fcntl
import functools
import glob
import json
import os
import select
import subprocess
import sys
import tempfile
import termios
import threading
import time
from collections.abc import Iterable, Sequence
from typing import Any, Callable, IO, List, NoReturn, Tuple, TypeVar, Union

TOP = os.path.dirname(os.path.dirname(os.path.dirname(os.path.abspath(__file__))))
# (put in front, because installed Python packages have such names as `package` and `editors`)
PARTS = (["tests"], ["tests", "lib"], ["tests", "inputs"], ["share", "ob0"], ["tools"], ["bench"])
sys.path[:0] = [os.path.join(TOP, *it) for it in PARTS]

import common  # noqa: E402
import editors  # noqa: E402
from framing import Content as Content, Message as Message, compact as compact, frame as frame, frames as frames  # noqa: E402
from framing import Incoming  # noqa: E402

BINARY = os.environ.get("OB0") or os.path.join(TOP, "bin", "ob0")
SECONDS = 300  # the longest that one conversation may take, even on a busy machine

Test = Callable[[], object]  # (its result is ignored)
Ident = Union[int, str, None]  # the id of a request
TESTS: List[Tuple[str, Test]] = []


def test(name: str) -> Callable[[Test], Test]:
    """Returns a decorator that registers a function as a test with this name."""

    def take(function: Test) -> Test:
        TESTS.append((name, function))
        return function

    return take


class Failed(Exception):
    pass


class Skipped(Exception):
    """Skips a test when it is raised. The run prints the test's name and the reason."""


class NoProgram(Skipped):
    """Skips a test that needs a program that doesn't exist yet, when it is raised."""


def leave_out(why: str, is_allowed: bool = False) -> NoReturn:
    """Skips this test, for the reason `why`. In `make test` (if the variable OB0_WHOLE is set) it fails instead, unless
    `is_allowed`."""
    if os.environ.get("OB0_WHOLE") and not is_allowed:
        raise Failed(f"{why}, and the whole test leaves no test out for that")
    raise Skipped(why)


def need_program() -> None:
    """Skips this test if there is no program yet."""
    if not os.path.exists(BINARY):
        raise NoProgram("it runs the program")


def shown(value: object, most: int = 600) -> str:
    text = value if isinstance(value, str) else repr(value)
    return text if len(text) <= most else f"{text[:most]}.. ({len(text)} in all)"


def first_difference(got: Any, wanted: Any) -> str:
    """Describes the first difference between two texts or lists, with the text around it. Returns an empty string for
    other values."""
    if type(got) is not type(wanted) or not isinstance(got, (str, bytes, list, tuple)):
        return ""
    at = next((at for at, (one, other) in enumerate(zip(got, wanted)) if one != other), min(len(got), len(wanted)))
    if isinstance(got, (str, bytes)):
        part = slice(max(0, at - 40), at + 40)
        return f"\n    they differ at {at}: wanted {wanted[part]!r}, got {got[part]!r}"
    if at < min(len(got), len(wanted)):
        return f"\n    they differ at item {at}{first_difference(got[at], wanted[at]) or f': wanted {shown(wanted[at])}, got {shown(got[at])}'}"
    return f"\n    wanted {len(wanted)} items, got {len(got)}"


def same(got: object, wanted: object, what: str = "the result") -> None:
    if got != wanted:
        raise Failed(f"{what}: wanted {shown(wanted)}\n    got {shown(got)}{first_difference(got, wanted)}")


def holds(fact: object, what: str) -> None:
    if not fact:
        raise Failed(what)


# Messages


def unframed(written: bytes) -> list[str]:
    """Returns the contents of all messages that the server wrote. Fails if a header isn't exactly as the server writes
    it."""
    contents = []
    while written:
        head, empty, rest = written.partition(b"\r\n\r\n")
        name, colon, length = head.partition(b": ")
        holds(empty and name == b"Content-Length" and length.isdigit(), f"no head that the server writes: {head[:80]!r}")
        holds(len(rest) >= int(length), f"a content of {len(rest)} bytes under a head of {int(length)}")
        contents.append(rest[: int(length)].decode())
        written = rest[int(length) :]
    return contents


def request(ident: Ident, method: str, params: object = None) -> Message:
    found: Message = {"jsonrpc": "2.0", "id": ident, "method": method}
    return found if params is None else {**found, "params": params}


def notice(method: str, params: object = None) -> Message:
    found: Message = {"jsonrpc": "2.0", "method": method}
    return found if params is None else {**found, "params": params}


def answer(ident: Ident, result: object) -> str:
    return compact({"id": ident, "jsonrpc": "2.0", "result": result})


def error(ident: Ident, code: int, message: str) -> str:
    return compact({"error": {"code": code, "message": message}, "id": ident, "jsonrpc": "2.0"})


def initialize(ident: Ident = 1, **capabilities: Any) -> Message:
    return request(ident, "initialize", {"capabilities": capabilities})


def capabilities(prepare: bool = False, literals: bool = False, utf8: bool = False) -> Message:
    """Returns the capabilities that the server should announce to a client with the given features."""
    found: Message = {
        "definitionProvider": True,
        "documentFormattingProvider": True,
        "hoverProvider": True,
        "referencesProvider": True,
        "renameProvider": {"prepareProvider": True} if prepare else True,
        "textDocumentSync": {"change": 2, "openClose": True},
    }
    if literals:
        found["codeActionProvider"] = {"codeActionKinds": ["refactor.inline"]}
    if utf8:
        found["positionEncoding"] = "utf-8"
    return found


def did_open(text: str, uri: str = "file:///m", version: object = 1) -> Message:
    document = {"languageId": "oberon-0", "text": text, "uri": uri, "version": version}
    return notice("textDocument/didOpen", {"textDocument": document})


def did_change(changes: str | list[Any], uri: str = "file:///m", version: object = 2) -> Message:
    """Returns a didChange notification. If `changes` is a text, it replaces the whole document; otherwise it is the
    list of changes."""
    listed = [{"text": changes}] if isinstance(changes, str) else changes
    return notice("textDocument/didChange", {"contentChanges": listed, "textDocument": {"uri": uri, "version": version}})


def did_close(uri: str = "file:///m") -> Message:
    return notice("textDocument/didClose", {"textDocument": {"uri": uri}})


def place(line: int, character: int) -> Message:
    return {"character": character, "line": line}


def extent(text: str) -> Message:
    """Converts a range written as `L:C-L:C` (line and column of both ends) to an LSP range."""
    start, end = (place(*map(int, it.split(":"))) for it in text.split("-"))
    return {"end": end, "start": start}


def diagnostic(code: str, message: str, where: str) -> Message:
    """Returns an LSP diagnostic with this code, message and range, with severity 1 (error)."""
    return {"code": code, "message": message, "range": extent(where), "severity": 1}


def published(diagnostics: list[Message], uri: str = "file:///m", version: int | None = 1) -> str:
    params: Message = {"diagnostics": diagnostics, "uri": uri}
    if version is not None:
        params["version"] = version
    return compact(notice("textDocument/publishDiagnostics", params))


def lines_of(diagnostics: list[Message]) -> bytes:
    """Returns the lines that `check` should print for these diagnostics."""
    starts = ((it["range"]["start"], it) for it in diagnostics)
    return "".join(f"{at['line']}:{at['character']}: {it['code']}: {it['message']}\n" for at, it in starts).encode()


SHUTDOWN = request(2, "shutdown")
EXIT = notice("exit")


# The program


class Ended:
    """Stores the result of a run of the program: its output, its error output, and its exit status."""

    def __init__(self, out: bytes, err: bytes, status: int | None) -> None:
        self.out, self.err, self.status = out, err, status

    def contents(self) -> list[str]:
        return unframed(self.out)


def run(words: Sequence[str], given: bytes = b"", stack: int | None = None, cwd: str | None = None) -> Ended:
    """Runs the program with these arguments and this standard input, with a stack of `stack` kilobytes if that is
    given. Fails if it doesn't end in time."""
    need_program()
    words = [BINARY, *words]
    if stack:
        words = ["sh", "-c", f'ulimit -S -s {stack}; exec "$@"', "sh", *words]
    how: dict[str, Any] = {"stdin": subprocess.PIPE, "stdout": subprocess.PIPE, "stderr": subprocess.PIPE, "cwd": cwd}
    with subprocess.Popen(words, **how) as process:
        try:
            out, err = process.communicate(given, timeout=SECONDS)
        except subprocess.TimeoutExpired:
            process.kill()
            raise Failed(f"the program had not ended after {SECONDS} seconds") from None
    return Ended(out, err, process.returncode)


def serve(contents: bytes | Iterable[Content], **how: Any) -> Ended:
    """Runs a whole conversation with `serve`. All input is available from the start."""
    given = contents if isinstance(contents, bytes) else frames(contents)
    return run(["serve"], given, **how)


def pipes_of(process: subprocess.Popen[bytes]) -> tuple[IO[bytes], IO[bytes], IO[bytes]]:
    """Returns the pipes of a process's standard input, output and error."""
    assert process.stdin and process.stdout and process.stderr
    return process.stdin, process.stdout, process.stderr


def unread(pipe: IO[bytes]) -> int:
    """Returns how many bytes in a pipe haven't been read yet."""
    found = array.array("i", [0])
    fcntl.ioctl(pipe, termios.FIONREAD, found)
    return found[0]


def serve_in_pieces(pieces: Iterable[bytes]) -> Ended:
    """Runs a conversation whose bytes arrive in these pieces. Each piece is written after the server has read the
    previous one, that is, when the pipe is empty."""
    how: dict[str, Any] = {"stdin": subprocess.PIPE, "stdout": subprocess.PIPE, "stderr": subprocess.PIPE, "bufsize": 0}
    with subprocess.Popen([BINARY, "serve"], **how) as process:
        given, out, err = pipes_of(process)
        written: dict[str, bytes] = {}

        def drain(name: str, pipe: IO[bytes]) -> None:
            written[name] = pipe.read()

        readers = [threading.Thread(target=drain, args=it) for it in (("out", out), ("err", err))]
        for reader in readers:
            reader.start()
        end = time.monotonic() + SECONDS
        try:
            for piece in pieces:
                given.write(piece)
                while unread(given) and process.poll() is None and time.monotonic() < end:
                    time.sleep(0.0001)
            given.close()
        except BrokenPipeError:
            pass
        try:
            process.wait(max(1, end - time.monotonic()))
        except subprocess.TimeoutExpired:
            process.kill()
            raise Failed(f"the program had not ended after {SECONDS} seconds") from None
        for reader in readers:
            reader.join()
    return Ended(written["out"], written["err"], process.returncode)


def is_running(number: int) -> bool:
    """Returns whether a process is running. A zombie isn't. (tests/run.py ends the processes that a test leaves.)"""
    try:
        return text_of(f"/proc/{number}/stat").rpartition(")")[2].split()[0] != "Z"
    except OSError:
        return False


def wait_until(condition: Callable[[], object], what: str, seconds: float = 60) -> None:
    """Waits until a condition holds. The test fails if it still doesn't hold after `seconds`."""
    end = time.monotonic() + seconds
    while not condition():
        holds(time.monotonic() < end, f"{what}: {seconds} seconds were over")
        time.sleep(0.05)


def awaited(path: str, text: str = "\n") -> str:
    """Waits until a file contains this text, and returns the whole content of the file."""
    wait_until(lambda: os.path.exists(path) and text in text_of(path), f"no {text!r} in {path}")
    return text_of(path)


S = TypeVar("S", bound="Server")


class Server:
    """Runs a server. Messages are sent to it one at a time, and its answers are awaited."""

    def __init__(self, silent: bool = False, **capabilities: Any) -> None:
        how: dict[str, Any] = {"stdin": subprocess.PIPE, "stdout": subprocess.PIPE, "stderr": subprocess.PIPE, "bufsize": 0}
        self.process = subprocess.Popen([BINARY, "serve"], **how)
        self.given, self.out, self.err = pipes_of(self.process)
        self.incoming, self.idents = Incoming(), 0
        if not silent:
            params: Message = {"capabilities": {}, **capabilities}
            self.first = self.query("initialize", params)
            self.send(notice("initialized", {}))

    def __enter__(self: S) -> S:
        return self

    def __exit__(self, *why: object) -> None:
        if self.process.poll() is None:
            self.process.kill()
        self.process.wait()
        for pipe in (self.given, self.out, self.err):
            pipe.close()

    def send(self, message: Content) -> None:
        left = memoryview(frame(message))
        while left:
            left = left[self.given.write(left) :]

    def take(self) -> Message:
        """Waits for the server's next message, and returns its JSON value. Fails if none arrives in time."""
        end = time.monotonic() + SECONDS
        while True:
            content = self.incoming.take()
            if content is not None:
                found: Message = json.loads(content)
                return found
            left = end - time.monotonic()
            if left <= 0 or not select.select([self.out], [], [], left)[0]:
                raise Failed(f"no message came within {SECONDS} seconds")
            came = os.read(self.out.fileno(), 1 << 16)
            if not came:
                raise Failed("the server ended in the middle of the conversation")
            self.incoming.add(came)

    def query(self, method: str, params: object = None) -> Message:
        """Sends a request, and returns its answer. Fails if the server sends any other message first."""
        self.idents += 1
        self.send(request(self.idents, method, params))
        found = self.take()
        same(found.get("id"), self.idents, f"the id of the answer to {method}")
        return found

    def notify(self, message: Content) -> list[Message]:
        """Sends a didOpen, didChange or didClose, and returns the diagnostics that the server publishes."""
        self.send(message)
        found = self.take()
        same(found.get("method"), "textDocument/publishDiagnostics", "the next message")
        diagnostics: list[Message] = found["params"]["diagnostics"]
        return diagnostics

    def end(self) -> int:
        """Sends `shutdown` and `exit`, and returns the server's exit status."""
        same(self.query("shutdown").get("result", 0), None, "the answer to shutdown")
        self.send(EXIT)
        try:
            return self.process.wait(SECONDS)
        except subprocess.TimeoutExpired:
            raise Failed("the server did not end") from None


# Editors and other tools


WANTED: List[str] = []  # the tools that the running test has required
DRIVEN: List[str] = []  # the editors, and the programs in a terminal, that it drives


def want(*names: str) -> None:
    """Skips this test if one of these tools of tools/editors.py is missing. In `make test` it fails instead, unless all
    the missing tools are optional. (A failed test that drives an editor is repeated by tests/run.py.)"""
    WANTED.extend(names)
    missing = [it for it in names if not editors.is_here(it)]
    if missing:
        leave_out(f"{' and '.join(missing)} missing", all(map(editors.may_lack, missing)))
    DRIVEN.extend(it for it in names if it in editors.EDITORS)


def want_proved() -> None:
    """Skips this test unless the program is bin/ob0 and was proved from the present sources. In `make test` it fails
    instead."""
    need_program()
    if os.path.abspath(BINARY) != common.BINARY or not common.is_current():
        leave_out("bin/ob0 is not the proved program of these sources")


# Texts and files


def marked(text: str, *codes: str) -> tuple[str, list[Message]]:
    """Removes the marks ⟦ and ⟧ from a text. Returns the plain text, and diagnostics with these codes for the marked
    ranges, in order."""
    plain = ""
    starts: list[int] = []
    found: list[tuple[int, int]] = []
    for character in text:
        if character == "⟦":
            starts.append(len(plain))
        elif character == "⟧":
            found.append((starts.pop(), len(plain)))
        else:
            plain += character
    found.sort()
    assert len(found) == len(codes) and not starts, text
    position: Callable[[int], str] = lambda at: f"{plain.count(chr(10), 0, at)}:{at - (plain.rfind(chr(10), 0, at) + 1)}"
    return plain, [diagnostic(code, MESSAGES[code], f"{position(a)}-{position(b)}") for code, (a, b) in zip(codes, found)]


MESSAGES = {
    "TooLong": "text too long",
    "BadChar": "bad character",
    "OpenComment": "comment not closed",
    "NumberTooLarge": "number too large",
    "NumberJoinsLetter": "letter after number",
    "TooDeep": "nested too deep",
    "Duplicate": "declared twice",
    "Undeclared": "not declared",
    "EndName": "wrong closing name",
    "WrongKind": "wrong kind of name",
    "TypeMismatch": "wrong type",
    "NotConstant": "not constant",
    "ConstFault": "constant has a fault",
    "ArrayLength": "bad array length",
    "TypeTooLarge": "type too large",
    "ArgumentCount": "wrong number of arguments",
    "NotVariable": "not a variable",
    "NoField": "no such field",
    "NotArray": "not an array",
    "NotRecord": "not a record",
}


def on_file(
    command: str, text: str | bytes, *more: str, given: bytes = b"", name: str = "m.mod", stack: int | None = None
) -> Ended:
    """Runs a command on a file with this text or these bytes."""
    with tempfile.TemporaryDirectory() as room:
        with open(os.path.join(room, name), "wb") as file:
            file.write(text if isinstance(text, bytes) else text.encode())
        return run([command, name, *more], given, stack, cwd=room)


def ends(found: Ended, out: str | bytes, status: int | None, err: str | bytes = "") -> None:
    """Fails unless a run had this output, exit status and error output."""
    wanted = tuple(it if isinstance(it, bytes) else it.encode() for it in (out, err))
    same((found.out, found.err, found.status), (*wanted, status), "standard output, standard error and the status")


def edited(text: str, places: Sequence[str], new: str) -> str:
    """Returns a text with a new name in these ranges, given in order. Each range is within a line."""
    lines = text.split("\n")
    for where in reversed(places):
        at = extent(where)
        line, start, end = at["start"]["line"], at["start"]["character"], at["end"]["character"]
        lines[line] = lines[line][:start] + new + lines[line][end:]
    return "\n".join(lines)


def text_of(*path: str) -> str:
    """Returns the text of a file of the repository."""
    with open(os.path.join(TOP, *path), encoding="utf-8") as file:
        return file.read()


BUILT = {".git", "bin", "out", "node_modules", "__pycache__"}  # folders with files that are made from others


@functools.lru_cache(None)
def tracked() -> tuple[str, ...]:
    """Returns the paths of all files that git tracks. In an archive of the sources, which has no .git, returns all
    files that aren't built."""
    if os.path.exists(os.path.join(TOP, ".git")):
        found = subprocess.run(["git", "ls-files", "-z"], cwd=TOP, stdout=subprocess.PIPE, check=True).stdout
        return tuple(it for it in os.fsdecode(found).split("\0") if it and os.path.isfile(os.path.join(TOP, it)))
    paths = []
    for at, folders, files in os.walk(TOP):
        folders[:] = [it for it in folders if it not in BUILT]
        paths += [os.path.relpath(os.path.join(at, it), TOP) for it in files]
    return tuple(paths)


def names_in(*path: str) -> list[str]:
    """Returns the names of the tracked files and folders directly inside a folder of the repository."""
    start = os.path.join(*path, "")
    return sorted({it[len(start) :].partition("/")[0] for it in tracked() if it.startswith(start)})


def examples() -> list[str]:
    """Returns the paths of the modules in examples/, relative to the repository's root."""
    return sorted(os.path.relpath(it, TOP) for it in glob.glob(os.path.join(TOP, "examples", "*.mod")))
