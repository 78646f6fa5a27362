"""Contains functions that the scripts ob0-check, ob0-format, ob0-rename and ob0-trace share: they read and replace
modules, ask the server, and print lines."""
from __future__ import annotations

import argparse
import errno
import functools
import itertools
import json
import os
import re
import shutil
import signal
import stat
import subprocess
import sys
import tempfile
from typing import Any, Callable, Dict, Iterator, List, NamedTuple, NoReturn, Optional, TextIO, Tuple, Union

VERSION = "0.1.0"
LONGEST = 1 << 20  # the maximal number of bytes of a module
STOPPING = (signal.SIGINT, signal.SIGTERM, signal.SIGHUP)
ENDINGS = (".ob0", ".mod", ".Mod")
STANDARD_INPUT = "-"
START = {"line": 0, "character": 0}
TOO_LONG = {"code": "TooLong", "message": "text too long", "range": {"start": START, "end": START}}
HERE = os.path.dirname(os.path.realpath(sys.argv[0]))

Members = Dict[str, Any]  # the members of a JSON object


class Failure(Exception):
    """Raised if the server can't be used."""


class Refused(Exception):
    """Raised if a script refuses a file. Contains the exit status, and the reason in words that follow the file's
    name."""

    def __init__(self, status: int, why: str) -> None:
        super().__init__(why)
        self.status, self.why = status, why


class Stopped(BaseException):
    """Raised when a signal arrives. Its argument is the signal's number."""


def program(named: str = "") -> str:
    """Returns the path of `ob0`: the path `named` if given, otherwise the program in the script's folder or on PATH.
    Raises Failure if there is none."""
    found = named or shutil.which("ob0", path=HERE + os.pathsep + os.environ.get("PATH", ""))
    if not found:
        raise Failure("ob0 is neither beside this program nor on PATH")
    return found


class Server:
    """A running `ob0 serve`, in a conversation whose positions count bytes."""

    def __init__(self) -> None:
        self.process = subprocess.Popen([program(), "serve"], stdin=subprocess.PIPE, stdout=subprocess.PIPE)
        assert self.process.stdin and self.process.stdout
        self.given, self.answers = self.process.stdin, self.process.stdout
        self.numbers = itertools.count(1)
        try:
            found = self.request("initialize", {"capabilities": {"general": {"positionEncodings": ["utf-8"]}}})
            if found["capabilities"].get("positionEncoding") != "utf-8":
                raise Failure("the server doesn't count in bytes")
            self.notify("initialized", {})
        except BaseException:
            self.end_at_once()
            raise

    def send(self, message: Members) -> None:
        content = json.dumps({"jsonrpc": "2.0", **message}, ensure_ascii=False).encode()
        try:
            self.given.write(b"Content-Length: %d\r\n\r\n%s" % (len(content), content))
            self.given.flush()
        except OSError:
            raise Failure("the server ended") from None

    def take(self, member: str, wanted: object) -> Members:
        """Returns the server's next message in which the member `member` has the value `wanted`. Skips other messages.
        Raises Failure if the server ends."""
        length = 0
        for line in iter(lambda: self.answers.readline().strip(), b""):
            name, _, value = line.partition(b":")
            length = int(value) if name.lower() == b"content-length" else length
        content = self.answers.read(length)
        if not content:
            raise Failure("the server ended")
        found: Members = json.loads(content)
        return found if found.get(member) == wanted else self.take(member, wanted)

    def notify(self, method: str, params: object) -> None:
        self.send({"method": method, "params": params})

    def request(self, method: str, params: object) -> Any:
        number = next(self.numbers)
        self.send({"id": number, "method": method, "params": params})
        found = self.take("id", number)
        if "error" in found:
            raise Failure(f"the server answers {found['error']['message']}")
        return found["result"]

    def diagnostics(self) -> Any:
        """Returns the diagnostics that the server publishes next."""
        return self.take("method", "textDocument/publishDiagnostics")["params"]["diagnostics"]

    def answer(self, text: bytes, method: str = "", params: Optional[Members] = None) -> Tuple[List[Members], Any]:
        """Opens a text in the server and closes it again. Returns its diagnostics and, if it has none, the answer to
        the request `method`. (A text that is too long isn't sent, because the server would examine nothing else in
        it.)"""
        if len(text) > LONGEST:
            return [TOO_LONG], None
        document = {"uri": f"file:///{next(self.numbers)}"}
        opened = {**document, "languageId": "oberon-0", "version": 1, "text": text.decode()}
        self.notify("textDocument/didOpen", {"textDocument": opened})
        found, result = self.diagnostics(), None
        if method and not found:
            result = self.request(method, {"textDocument": document, **(params or {})})
        self.notify("textDocument/didClose", {"textDocument": document})
        self.diagnostics()
        return found, result

    def end(self) -> None:
        """Ends the server with `shutdown` and `exit`, and waits for it."""
        self.request("shutdown", None)
        self.notify("exit", None)
        self.given.close()
        self.process.wait()

    def end_at_once(self) -> None:
        self.process.kill()
        self.process.wait()


def line_starts(text: bytes) -> List[int]:
    """Returns the offset at which each line of a text begins."""
    return [0, *(it.end() for it in re.finditer(rb"\r\n|\r|\n", text))]


class Place(NamedTuple):
    """A line and a column, both counted from 1. The column counts characters, as editors do."""

    line: int
    column: int


def offset_of(starts: List[int], position: Dict[str, int]) -> int:
    """Converts a position from the server, which counts bytes, to an offset."""
    return starts[position["line"]] + position["character"]


def place_of(text: bytes, starts: List[int], position: Dict[str, int]) -> Place:
    """Converts a position from the server to a line and a column, both counted from 1."""
    before = text[starts[position["line"]] : offset_of(starts, position)]
    return Place(position["line"] + 1, len(before.decode(errors="replace")) + 1)


def bytes_of(path: str) -> bytes:
    """Reads a file, or standard input if the path is `-`. Reads at most one byte more than a module may have."""
    if path == STANDARD_INPUT and sys.stdin is None:
        raise OSError(errno.EBADF, "it is closed")
    with open(sys.stdin.fileno() if path == STANDARD_INPUT else path, "rb", closefd=path != STANDARD_INPUT) as file:
        return file.read(LONGEST + 1)


def text_of(path: str) -> bytes:
    """Reads a module's file. Raises Refused if it isn't UTF-8. A text that is too long is cut after one byte too many,
    and whether it is UTF-8 isn't checked."""
    text = bytes_of(path)
    try:
        text[: 0 if len(text) > LONGEST else None].decode()
    except UnicodeDecodeError:
        raise Refused(4, " isn't UTF-8") from None
    return text


def begins_with_module(path: str) -> bool:
    """Returns whether the first word of a file, after comments and a byte order mark, is MODULE in any case. If a path
    follows the word, as in Go's module files, it must be in capitals."""
    depth, text = 0, re.sub(rb"^\xef\xbb\xbf", b"", bytes_of(path))
    for it in re.finditer(rb"\(\*|\*\)|[^ \t\r\n(*]+|[(*]", text):
        if it[0] == b"(*":
            depth += 1
        elif it[0] == b"*)" and depth:
            depth -= 1
        elif not depth:
            rest = text[it.start() :]
            has_path = re.match(rb"(?i)module[ \t]+[^ \t\r\n]*[./][a-z0-9]", rest)
            is_go = os.path.basename(path) == "go.mod" or has_path
            return bool(re.match(rb"MODULE(?![A-Za-z0-9_])" if is_go else rb"(?i)MODULE(?![a-z0-9_])", rest))
    return False


def modules_at(path: str) -> Iterator[str]:
    """Yields the path of a file, or all modules in a folder and its subfolders, except in hidden folders and behind
    symbolic links. A file whose name ends in .mod or .Mod is only yielded if its first word is MODULE, because other
    languages also use that ending."""
    if path == STANDARD_INPUT or not os.path.isdir(path):
        yield path
        return
    with os.scandir(path) as found:
        entries = sorted(found, key=lambda it: it.name)
    for it in entries:
        below = os.path.normpath(os.path.join(path, it.name))
        if it.is_dir(follow_symlinks=False) and not it.name.startswith("."):
            yield from modules_at(below)
        elif it.is_file(follow_symlinks=False) and it.name.endswith(ENDINGS):
            if it.name.endswith(".ob0") or begins_with_module(below):
                yield below


def attributes_of(path: str) -> List[str]:
    """Returns the names of a file's extended attributes, except the ones that the system gives to every file."""
    try:
        return [it for it in os.listxattr(path) if not it.startswith("security.")]
    except OSError as why:
        if why.errno != errno.ENOTSUP:
            raise
        return []


def keep_attributes(old: str, new: str) -> None:
    """Copies the owner, group, mode and access list of an old file to a new one. Raises Refused if that fails."""
    found, made = os.stat(old), os.stat(new)
    try:
        if (found.st_uid, found.st_gid) != (made.st_uid, made.st_gid):
            os.chown(new, found.st_uid, found.st_gid)
        os.chmod(new, stat.S_IMODE(found.st_mode))
        for name in attributes_of(old):
            os.setxattr(new, name, os.getxattr(old, name))
    except OSError as why:
        raise Refused(4, f": its owner, group, mode or access list can't be kept: {why.strerror}") from None


def need_replaceable(path: str) -> None:
    """Raises Refused unless a file can be replaced without changing anything except its text."""
    found = os.stat(path)
    if not stat.S_ISREG(found.st_mode) or os.path.abspath(path).startswith(("/dev/", "/proc/")):
        raise Refused(4, ": only a file can be replaced")
    if not found.st_mode & 0o222 or not os.access(path, os.W_OK):
        raise Refused(4, ": it is read-only")
    if found.st_nlink > 1:
        raise Refused(4, ": it has another name (a hard link), which would keep the old text")


def replace(path: str, old: bytes, text: bytes) -> None:
    """Replaces a file's text in one step, so that the old file remains if something fails. Raises Refused if another
    program has changed the old text meanwhile. Signals are held back until the file is replaced."""
    need_replaceable(path)
    path = os.path.realpath(path)
    before = signal.pthread_sigmask(signal.SIG_BLOCK, STOPPING)
    try:
        with tempfile.NamedTemporaryFile(dir=os.path.dirname(path), prefix=".ob0-", delete=False) as file:
            try:
                file.write(text)
                file.close()
                keep_attributes(path, file.name)
                if bytes_of(path) != old:
                    raise Refused(4, ": another program has changed it in the meantime, so it was left unchanged")
                os.replace(file.name, path)
            except BaseException:
                os.unlink(file.name)
                raise
    finally:
        signal.pthread_sigmask(signal.SIG_SETMASK, before)


def why_unprinted(stream: Optional[TextIO], text: Union[str, bytes]) -> str:
    """Prints a text; file names in it are printed with their original bytes. Returns why that failed, or "" if it
    succeeded."""
    if stream is None:
        return "it is closed"
    left = os.fsencode(text)
    try:
        while left:
            left = left[os.write(stream.fileno(), left) :]
    except OSError as why:
        return why.strerror
    return ""


def complain(line: str) -> None:
    """Prints a line to standard error."""
    why_unprinted(sys.stderr, line + "\n")


class Output:
    """Standard output. After the first failure nothing more is written, and `why` contains the reason."""

    why = ""

    def write(self, text: Union[str, bytes]) -> None:
        self.why = self.why or why_unprinted(sys.stdout, text)

    def say(self, line: str) -> None:
        self.write(line + "\n")


class Work:
    """The work of a script on several files. `visit`, which each script defines, treats one file and returns its exit
    status. If it raises an error for one file, the next files are still visited."""

    def __init__(self, name: str) -> None:
        self.name, self.out, self.status = name, Output(), 0
        self.server: Optional[Server] = None

    def visit(self, server: Server, path: str) -> int:
        raise NotImplementedError

    def fail(self, path: str, status: int, why: str) -> None:
        """Reports why nothing could be done with a file, and records the exit status."""
        self.status = max(self.status, status)
        complain(path + why)

    def try_one(self, path: str, function: Callable[[], int]) -> None:
        """Calls a function for a path and records the status that it returns. If it raises an error, reports that."""
        try:
            self.status = max(function(), self.status)
        except Refused as refused:
            self.fail(path, refused.status, refused.why)
        except OSError as fault:
            self.fail(path, 4, f": {fault.strerror}")
        except (Failure, ValueError, KeyError, TypeError, IndexError) as fault:
            words = fault if isinstance(fault, Failure) else "the server answers something else than it has to"
            self.fail(path, 4, f": {words}")
            self.end_server()

    def visit_each(self, path: str) -> int:
        """Visits all modules at a path, and starts a new server after one has failed."""
        for it in modules_at(path):
            self.server = self.server or Server()
            self.try_one(it, functools.partial(self.visit, self.server, it))
        return 0

    def end_server(self) -> None:
        if self.server:
            self.server.end_at_once()
        self.server = None

    def visit_all(self, paths: List[str]) -> int:
        """Visits all modules at each of these paths, and returns the highest exit status."""
        self.server = Server()
        try:
            for path in paths:
                self.try_one(path, functools.partial(self.visit_each, path))
            if self.server:
                self.server.end()
        finally:
            self.end_server()
        return self.end()

    def only(self, path: str, function: Callable[[], int]) -> int:
        """Calls a function for a single path, and returns the exit status."""
        self.try_one(path, function)
        return self.end()

    def end(self) -> int:
        """Returns the highest exit status. If standard output has failed, reports that and returns 4."""
        if self.out.why:
            complain(f"{self.name}: standard output can't be written: {self.out.why}")
        return 4 if self.out.why else self.status


def parser(name: str, what: str) -> argparse.ArgumentParser:
    """Creates a script's parser of command lines, which also knows --version."""
    found = argparse.ArgumentParser(prog=name, description=what, allow_abbrev=False)
    found.add_argument("-V", "--version", action="version", version=f"{name} {VERSION}", help="print the version")
    return found


def stop(number: int, frame: object) -> NoReturn:
    for it in STOPPING:
        signal.signal(it, signal.SIG_IGN)
    raise Stopped(number)


def run(name: str, work: Callable[[], int]) -> int:
    """Calls a script's function `work`, and returns the exit status. If a signal arrives, the work ends first, and then
    the signal ends the script."""
    for number in STOPPING:
        if signal.getsignal(number) != signal.SIG_IGN:
            signal.signal(number, stop)
    try:
        return work()
    except (Failure, OSError) as why:
        complain(f"{name}: {why}")
        return 4
    except Stopped as stopped:
        signal.signal(stopped.args[0], signal.SIG_DFL)
        os.kill(os.getpid(), stopped.args[0])
        return 4
