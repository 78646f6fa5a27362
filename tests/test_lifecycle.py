"""Tests which error answers an invalid message: the server checks JSON, shape, lifecycle, method and params in this
order. Also tests the program's command line and help."""
from __future__ import annotations

import os
import re
import subprocess
import tempfile
from typing import Any, Dict, List, Tuple

import harness
from harness import Content, EXIT, SHUTDOWN, answer, did_close, did_open, error, frame, initialize, notice, published, request
from harness import capabilities, holds, run, same, serve, test, text_of

FIRST = answer(1, {"capabilities": capabilities()})
SHUT = answer(2, None)
HOVER = request(5, "textDocument/hover", {"position": {"character": 0, "line": 0}, "textDocument": {"uri": "file:///m"}})
NOT_JSON = error(None, -32700, "not JSON")
NO_MESSAGE = error(None, -32600, "not a message")
MODULE = "MODULE M; END M."

# for each name: the messages to the server, the server's messages, and the exit status
TALKS: Dict[str, Tuple[List[Content], List[str], int]] = {
    "a request before initialize is refused with `not initialized`": ([HOVER], [error(5, -32002, "not initialized")], 1),
    "an unknown request before initialize is refused with `not initialized`": ([request(5, "x")], [error(5, -32002, "not initialized")], 1),
    "shutdown before initialize is refused with `not initialized`": ([SHUTDOWN], [error(2, -32002, "not initialized")], 1),
    "a notification before initialize is ignored": (
        [did_open(MODULE), initialize(), did_close()],
        [FIRST],
        1,
    ),
    "a second initialize is refused with `already initialized`": ([initialize(), initialize(2)], [FIRST, error(2, -32600, "already initialized")], 1),
    "a request after shutdown is refused with `shut down`": (
        [initialize(), SHUTDOWN, HOVER, EXIT],
        [FIRST, SHUT, error(5, -32600, "shut down")],
        0,
    ),
    "initialize after shutdown is refused with `shut down`": (
        [initialize(), SHUTDOWN, initialize(3), EXIT],
        [FIRST, SHUT, error(3, -32600, "shut down")],
        0,
    ),
    "a second shutdown is refused with `shut down`": ([initialize(), SHUTDOWN, SHUTDOWN], [FIRST, SHUT, error(2, -32600, "shut down")], 1),
    "a notification after shutdown is ignored": ([initialize(), SHUTDOWN, did_open("$"), EXIT], [FIRST, SHUT], 0),
    "exit without shutdown ends the server with status 1": ([initialize(), EXIT], [FIRST], 1),
    "exit before initialize ends the server with status 1": ([EXIT, initialize()], [], 1),
    "no message after exit is answered": ([initialize(), SHUTDOWN, EXIT, HOVER, "["], [FIRST, SHUT], 0),
    "exit sent as a request is refused with `unknown method`": ([initialize(), request("a", "exit")], [FIRST, error("a", -32601, "unknown method")], 1),
    "shutdown sent as a notification is ignored": (
        [initialize(), notice("shutdown"), SHUTDOWN, EXIT],
        [FIRST, SHUT],
        0,
    ),
    "initialize sent as a notification is ignored": ([notice("initialize", {}), initialize()], [FIRST], 1),
    "didOpen sent as a request is refused with `unknown method`": (
        [initialize(), {**did_open(MODULE), "id": 7}],
        [FIRST, error(7, -32601, "unknown method")],
        1,
    ),
    "a request with an unknown method is refused with `unknown method`": (
        [initialize(), request(-3, "$/x"), request("é", "textDocument/completion", {})],
        [FIRST, error(-3, -32601, "unknown method"), error("é", -32601, "unknown method")],
        1,
    ),
    "a notification with an unknown method is ignored": (
        [initialize(), notice("$/cancelRequest", {"id": 1}), notice("initialized", {}), notice("x")],
        [FIRST],
        1,
    ),
    "a response from the client is ignored": (
        ['{"id":7,"result":null}', '{"error":{},"id":1.5}', initialize()],
        [FIRST],
        1,
    ),
    "initialize is refused with `bad params` if its params are no object, and may be sent again": (
        [request(1, "initialize", []), request(1, "initialize"), initialize()],
        [error(1, -32602, "bad params"), error(1, -32602, "bad params"), FIRST],
        1,
    ),
    "members of initialize's params that have an unexpected type count as absent": (
        [request(1, "initialize", {"capabilities": 7, "general": {"positionEncodings": 1}})],
        [FIRST],
        1,
    ),
    "an answer repeats the request's id, which may be a string or an integer up to the limits": (
        [
            initialize(),
            request(-9223372036854775808, "x"),
            request(18446744073709551615, "x"),
            request("", "x"),
        ],
        [
            FIRST,
            error(-9223372036854775808, -32601, "unknown method"),
            error(18446744073709551615, -32601, "unknown method"),
            error("", -32601, "unknown method"),
        ],
        1,
    ),
    "JSON that isn't a message is answered with `not a message`": (
        [
            "[]",
            "7",
            "null",
            '"x"',
            "{}",
            '{"id":1}',
            '{"method":7}',
            '{"id":1,"method":null,"result":1}',
            '{"id":null,"method":"shutdown"}',
            '{"id":1.5,"method":"shutdown"}',
            '{"id":1.0,"method":"shutdown"}',
            '{"id":-0,"method":"shutdown"}',
            '{"id":1e2,"method":"shutdown"}',
            '{"id":18446744073709551616,"method":"shutdown"}',
            '{"id":true,"method":"shutdown"}',
            '{"id":[],"method":"shutdown"}',
        ],
        [NO_MESSAGE] * 16,
        1,
    ),
    "a content that isn't JSON is answered with `not JSON`": (["", " ", "{", "[1,]", "nul", "{'a':1}", b"\xff", b'"\xc3"', "[]x"], [NOT_JSON] * 9, 1),
    "a content that isn't JSON is answered with `not JSON` even after shutdown": (
        [initialize(), SHUTDOWN, "", "[]"],
        [FIRST, SHUT, NOT_JSON, NO_MESSAGE],
        1,
    ),
    "127 nested arrays count as JSON, and 128 nested arrays don't": (
        ["[" * 127 + "]" * 127, "[" * 128 + "]" * 128],
        [NO_MESSAGE, NOT_JSON],
        1,
    ),
    "the member jsonrpc of a message is ignored": (
        ['{"id":1,"method":"initialize","params":{}}', '{"id":2,"jsonrpc":"1","method":"shutdown"}'],
        [FIRST, SHUT],
        1,
    ),
    "white space around the tokens of JSON is accepted": ([" {\n\t\"id\" : 1, \"method\" : \"initialize\", \"params\" : { } }\r\n"], [FIRST], 1),
    "a uri with escaped characters is published with the same characters": (
        [initialize(), did_open("MODULE M; END M.", uri="file:///\"\\\u0001\u007f😀")],
        [FIRST, published([], uri="file:///\"\\\u0001\u007f😀")],
        1,
    ),
}


def make(name: str, comes: list[Content], goes: list[str], status: int) -> None:
    @test(f"lifecycle: {name}")
    def talk() -> None:
        found = serve(b"".join(frame(it) for it in comes))
        same(found.contents(), goes, "what was sent")
        same((found.err, found.status), (b"", status), "the end")


for key, given in TALKS.items():
    make(key, *given)


# command lines that are refused, each with the message of the argument parser clap
REFUSED: Dict[str, str] = {
    "": """error: 'ob0' requires a subcommand but one was not provided
  [subcommands: serve, check, run, rename, help]

Usage: ob0 <COMMAND>
""",
    "x": """error: unrecognized subcommand 'x'

Usage: ob0 <COMMAND>
""",
    "serve x": """error: unexpected argument 'x' found

Usage: ob0 serve [OPTIONS]
""",
    "serve --x": """error: unexpected argument '--x' found

Usage: ob0 serve [OPTIONS]
""",
    "--x": """error: unexpected argument '--x' found

Usage: ob0 <COMMAND>
""",
    "help x": """error: unrecognized subcommand 'x'

Usage: ob0 <COMMAND>
""",
    "check --version": """error: unexpected argument '--version' found

  tip: to pass '--version' as a value, use '-- --version'

Usage: ob0 check <FILE>
""",
}


@test("program: a bad command line is refused with status 2, and standard error gives the reason")
def refused_lines() -> None:
    for line, said in REFUSED.items():
        found = run(line.split())
        wanted = f"{said}\nFor more information, try '--help'.\n"
        same((found.out, found.err.decode(), found.status), (b"", wanted, 2), f"ob0 {line}")


# the help of each command begins with these: its purpose and its usage
HELP_HEADS = {
    "": ("A language server for Oberon-0", "<COMMAND>"),
    "serve": ("Serve one conversation with an editor over standard input and output", "serve [OPTIONS]"),
    "check": ("Print the errors of a module", "check <FILE>"),
    "run": ("Run a module on the numbers of standard input", "run [OPTIONS] <FILE>"),
    "rename": ("Print a module with another name for one of its names", "rename <FILE> <LINE> <COLUMN> <NAME>"),
}


@test("program: help is printed to standard output with status 0, and begins with the command's purpose and usage")
def helped() -> None:
    for command, (about, usage) in HELP_HEADS.items():
        words = command.split()
        found = run(["help", *words])
        begin = f"{about}\n\nUsage: ob0 {usage}\n\n"
        same((found.out.decode()[: len(begin)], found.err, found.status), (begin, b"", 0), f"ob0 help {command}")
        for flag in ("--help", "-h"):
            same(run([*words, flag]).out, found.out, f"ob0 {command} {flag}")


# where help says that the pages are installed: below each prefix that README mentions
PAGES = [
    "docs/MESSAGES.md",
    "in share/doc/ob0 below the folder that ob0 was installed in:",
    "/usr with the Debian package, otherwise /usr/local, ~/.local or another PREFIX.",
]
# for each command: the statuses in its help, and texts that its help contains
HELP = {
    "": ("012345", ["serve ", "check ", "run ", "rename ", "help COMMAND"]),
    "serve": ("012345", ["--stdio", "--clientProcessId <N>", "UTF-16 units"]),
    "check": ("01245", ["<FILE>", "count from 0", "UTF-16", "LINE:COLUMN: CODE: MESSAGE", "/dev/stdin", "`man ob0` lists the CODEs", *PAGES]),
    "run": ("01245", ["<FILE>", "--calls <N>", "--turns <N>", "0 to 64", "0 to 100000", "to the end of standard input", "Ctrl-D", "-2147483648", "fault: END", "--turns 5"]),
    "rename": ("01245", ["<FILE> <LINE> <COLUMN> <NAME>", "count from 0", "in UTF-16 units", "refused: REASON", "check the status", "`man ob0` lists the REASONs", *PAGES]),
}


@test("program: each command's help explains its arguments, output and statuses, and its options fit into 80 columns")
def explained() -> None:
    for command, (statuses, parts) in HELP.items():
        said = run([*command.split(), "--help"]).out.decode()
        same("".join(re.findall(r"^  (\d)  \S", said.partition("Exit status:")[2], re.M)), statuses, f"the statuses of {command}")
        for it in parts:
            holds(it in said.replace("\n", " "), f"{command}: no {it}: {said}")
        wide = [it for it in said.partition("Options:")[2].partition("\n\n")[2].splitlines() if len(it) > 80]
        same(wide, [], f"lines of {command} that are too wide")


@test("program: `serve` ignores the options that clients add, however often they are given")
def options_of_serve() -> None:
    given = frame(initialize()) + frame(SHUTDOWN) + frame(EXIT)
    wanted = run(["serve"], given).out
    for words in (["--stdio"], ["--clientProcessId=1"], ["--clientProcessId", "x"], ["--stdio", "--clientProcessId=4242", "--stdio", "--clientProcessId=7"]):
        found = run(["serve", *words], given)
        same((found.out, found.err, found.status), (wanted, b"", 0), " ".join(words))
    for words in (["--stdio=x"], ["--clientProcessId"], ["--socket=1"], ["--pipe", "x"]):
        found = run(["serve", *words], given)
        same((found.out, bool(found.err), found.status), (b"", True, 2), " ".join(words))
    same(run(["run", "--stdio", "x"]).status, 2, "the status of another command with it")


@test("program: `run` at a terminal says on standard error how to end the input, unless the module has an error")
def prompted() -> None:
    def at_terminal(text: str, command: str = "run", *more: str) -> tuple[bytes, bytes, int]:
        with tempfile.TemporaryDirectory() as room:
            with open(os.path.join(room, "m.mod"), "w", encoding="utf-8") as file:
                file.write(text)
            keys, terminal = os.openpty()
            os.write(keys, b"20 22\n\x04")
            how: dict[str, Any] = {"stdin": terminal, "capture_output": True, "timeout": harness.SECONDS, "cwd": room}
            ran = subprocess.run([harness.BINARY, command, "m.mod", *more], check=False, **how)
            os.close(keys)
            os.close(terminal)
        return ran.stdout, ran.stderr, ran.returncode

    said = b"ob0: reading numbers to the end of input (Ctrl-D at the start of a line)\n"
    same(at_terminal("MODULE M; VAR x, y: INTEGER; BEGIN Read(x); Read(y); Write(x + y) END M."), (b" 42", said, 0))
    same(at_terminal("MODULE M; BEGIN x := 1 END M."), (b"0:16: Undeclared: not declared\n", b"", 1))
    same(at_terminal("MODULE M; END M.", "check"), (b"", b"", 0), "check, which reads no input")
    same(at_terminal("MODULE M; VAR x: INTEGER; END M.", "rename", "0", "14", "y")[1:], (b"", 0), "rename, which reads no input")
    for page in (text_of("docs", "MESSAGES.md"), text_of("share", "ob0.1").replace("\\-", "-")):
        holds(said.decode().strip() in page, "a page that doesn't have this line")


@test("program: `serve` at a terminal says on standard error that an editor starts it")
def served_at_terminal() -> None:
    same(run(["serve"]).err, b"", "standard error if standard input is no terminal")
    keys, terminal = os.openpty()
    os.write(keys, b"\x04")
    how: dict[str, Any] = {"stdin": terminal, "capture_output": True, "timeout": harness.SECONDS}
    ran = subprocess.run([harness.BINARY, "serve"], check=False, **how)
    os.close(keys)
    os.close(terminal)
    said = "ob0: an editor starts `ob0 serve` and talks to it (Ctrl-D ends it)"
    same((ran.stdout, ran.stderr, ran.returncode), (b"", f"{said}\n".encode(), 1), "both outputs and the status")
    for page in (text_of("docs", "MESSAGES.md"), text_of("share", "ob0.1").replace("\\-", "-")):
        holds(said in page, "a page that doesn't have this line")


@test("program: `--version` prints the same version as CHANGELOG.md and the manual page")
def version() -> None:
    # (before the first release the version is 0.1.0)
    released = re.search(r"^## (\d+\.\d+\.\d+)", text_of("CHANGELOG.md"), re.M)
    number = released.group(1) if released else "0.1.0"
    for flag in ("--version", "-V"):
        found = run([flag])
        same((found.out, found.err, found.status), (f"ob0 {number}\n".encode(), b"", 0), f"ob0 {flag}")
    heading = re.search(r'^\.TH OB0 1 \S+ "ob0 (\S+)"', text_of("share", "ob0.1"), re.M)
    same(heading and heading.group(1), number, "the version of the manual page")


@test("program: a command line is refused if one of its words, even the program's name, isn't UTF-8")
def no_text() -> None:
    for words in ([b"ob0", b"check", b"\xff"], [b"ob0", b"\xc3"], [b"ob0", b"help", b"a\xed\xa0\x80"], [b"\xff", b"--help"], [b"o\xfe", b"serve"]):
        how: dict[str, Any] = {"executable": harness.BINARY, "stdin": subprocess.DEVNULL, "capture_output": True, "timeout": harness.SECONDS}
        ran = subprocess.run(words, check=False, **how)
        same((ran.stdout, ran.stderr, ran.returncode), (b"", b"error: a word of the command line isn't UTF-8\n", 2), repr(words))


@test("program: `ob0` ends with `fault: Write` and status 4 if help or the version can't be written")
def not_written() -> None:
    for words in (["--help"], ["help"], ["help", "run"], ["rename", "-h"], ["--version"]):
        with open("/dev/full", "wb") as device:
            how: dict[str, Any] = {"stdin": subprocess.DEVNULL, "stdout": device, "stderr": subprocess.PIPE, "timeout": harness.SECONDS}
            ran = subprocess.run([harness.BINARY, *words], check=False, **how)
        same((ran.stderr, ran.returncode), (b"fault: Write\n", 4), f"ob0 {' '.join(words)}")


@test("program: a refused command line has status 2 even if the reason can't be written")
def not_reported() -> None:
    with open("/dev/full", "wb") as device:
        how: dict[str, Any] = {"stdin": subprocess.DEVNULL, "stdout": subprocess.PIPE, "stderr": device, "timeout": harness.SECONDS}
        ran = subprocess.run([harness.BINARY, "check"], check=False, **how)
    same((ran.stdout, ran.returncode), (b"", 2))
