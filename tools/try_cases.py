#!/usr/bin/env python3
"""Runs the tables of `check`, `run` and `rename` on the program before anything is proved.

  tools/try_cases.py [WORD..]   the tests whose names contain one of the words; without words the tests of check, run, edits and messages

The cases are the end-to-end tests'. First it notes the commands that the tests would run. Then `rt try`, which compiles the program
without its proofs, runs all of them, and the tests are played with the results. A test that needs anything except these commands on
a small file (a conversation, a device, a missing file, the output of an earlier run) is left out, by name. Whether an output ends
with a line feed isn't seen. The last line is 'N passed, M failed', and ', K skipped' if tests were left out; a run of no test fails.

The compile takes time (about 100 seconds of a processor), and each case 0.7 seconds, whatever it does, because `rt try` also prepares
the program for an interpreter each time. So the cases are dealt out to one `rt try` for every second processor, and each compiles the
program. Most modules to check are opened in one conversation, whose diagnostics are the ones that `check` prints. Most renamings are
requested there: the edits of the answer make the text that `rename` prints, and a refusal is the same."""
from __future__ import annotations

import json
import os
import re
import subprocess
import sys
import tempfile
import time
from collections.abc import Callable, Sequence
from typing import Any, NamedTuple, Optional, Tuple

import common

sys.dont_write_bytecode = True
for folder in ("tests", os.path.join("tests", "lib")):
    sys.path.insert(0, os.path.join(common.TOP, folder))

import harness  # noqa: E402
from framing import Message  # noqa: E402

WORDS = ("check:", "run:", "rename", "messages:", "examples")
# the maximal number of bytes of a file or an input: for longer ones the program of `rt try` is slow, so bin/ob0 tests
# them
LARGEST = {"check": 1_100_000, "run": 100_000, "rename": 100_000}
COMMANDS = ("check", "run", "rename")
STEP = 15  # seconds between two lines while the program is compiled and run
CHECKED = 8  # how many modules the command `check` checks; the others are opened in one conversation
RENAMED = 6  # how many renamings the command `rename` makes; the others are requested in that conversation
MEMORY = 3_500_000_000  # bytes of memory for each `rt try`
CHECK = ("check", "FILE")


class Unknown(Exception):
    """Raised if a test needs something that `rt try` doesn't offer."""


class Case(NamedTuple):
    """A command that a test runs: its words, with FILE in place of a file's name, the file's content, and the standard
    input."""

    words: Tuple[str, ...]
    text: Optional[bytes]
    given: bytes

    def is_writable(self) -> bool:
        """Returns whether the words can be passed to `rt try`, which takes one on each line: no word may be empty or
        contain a line end."""
        return all(it and "\n" not in it for it in self.words)

    def is_request(self) -> bool:
        """Returns whether the case renames an identifier at a position of a small text."""
        words = self.words
        is_renaming = len(words) == 5 and words[:2] == ("rename", "FILE") and words[2].isdigit() and words[3].isdigit()
        return is_renaming and self.text is not None and is_text(self.text) and b"\r" not in self.text and not self.given


class Cases:
    """The cases that the tests run, and their results."""

    def __init__(self) -> None:
        self.wanted: dict[Case, None] = {}
        self.found: dict[Case, harness.Ended] = {}
        self.opened: list[Case] = []  # the modules that are opened in one conversation
        self.requested: list[Case] = []  # the renamings that are requested in it
        self.noting = True

    def run(
        self, words: Sequence[str], given: bytes = b"", stack: int | None = None, cwd: str | None = None
    ) -> harness.Ended:
        """Replaces `harness.run`. While cases are noted, records the words, the input and the files that the words
        mention; afterwards returns the result of the case. Raises Unknown if `rt try` can't run the case."""
        plain, text, wants_help = list(words), None, {"-h", "--help"} & {*words}
        if words[:1] and words[0] in COMMANDS and not wants_help:
            at = next((at for at, it in enumerate(words) if at and os.path.isfile(os.path.join(cwd or ".", it))), None)
            if at is None or os.path.getsize(os.path.join(cwd or ".", words[at])) > LARGEST[words[0]]:
                raise Unknown("a missing file, or a long one")
            with open(os.path.join(cwd or ".", words[at]), "rb") as file:
                text = file.read()
            plain[at] = "FILE"
        case, speaks = Case(tuple(plain), text, bytes(given)), plain[:1] == ["serve"] and not wants_help
        if stack or len(given) > LARGEST["run"] or speaks or not (case.is_writable() or case.is_request()):
            raise Unknown("a conversation, a long input or other words")
        if self.noting:
            self.wanted[case] = None
            return harness.Ended(b"", b"", 0)
        if case not in self.found:
            raise Unknown("what an earlier run printed")
        return self.found[case]

    def note(self, name: str, function: harness.Test) -> tuple[str, Exception | None]:
        """Notes the cases of a test. If the test needs something that `rt try` doesn't offer, drops its cases and
        returns the reason."""
        before = dict(self.wanted)
        why = play(function)
        if not isinstance(why, (Unknown, harness.Skipped)):
            return name, None
        self.wanted = before
        return name, why

    def unless_noting(self, check: Callable[..., None]) -> Callable[..., None]:
        """Wraps a check of the harness, so that it checks nothing while cases are noted."""
        return lambda *words, **named: None if self.noting else check(*words, **named)

    def put_together(self) -> None:
        """Moves most modules to check and most renamings from separate cases into one conversation."""
        checks = [it for it in self.wanted if it.words == CHECK and it.text is not None and is_text(it.text) and not it.given]
        renamings = [it for it in self.wanted if it.is_request()]
        by_command = [it for it in renamings if it.is_writable()][:RENAMED]
        self.opened = checks[CHECKED:]
        self.requested = [it for it in renamings if it not in by_command]
        together = self.opened + self.requested
        for case in together:
            del self.wanted[case]
        contents = [harness.did_open((case.text or b"").decode(), uri=f"file:///{at}") for at, case in enumerate(together)]
        for at, case in enumerate(self.requested, len(self.opened)):
            _, _, line, column, new = case.words
            where: Message = {"position": harness.place(int(line), int(column)), "textDocument": {"uri": f"file:///{at}"}}
            contents.append(harness.request(f"rename {at}", "textDocument/rename", {**where, "newName": new}))
        if contents:
            begin = harness.initialize("begin")
            conversation = harness.frames([begin, *contents, harness.SHUTDOWN, harness.EXIT])
            self.wanted[Case(("serve",), None, conversation)] = None

    def take_conversation(self, said: bytes) -> None:
        """Stores the results from the conversation's output: for `check` from the diagnostics of each opened module,
        and for `rename` from the answers."""
        contents, printed = [json.loads(it) for it in harness.unframed(said)], {}
        for params in (it["params"] for it in contents if "params" in it):
            at = int(params["uri"].rpartition("/")[2])
            starts = [(found["range"]["start"], found) for found in params["diagnostics"]]
            lines = [f"{start['line']}:{start['character']}: {found['code']}: {found['message']}\n" for start, found in starts]
            printed[at] = harness.Ended("".join(lines).encode(), b"", 1 if lines else 0)
        self.found.update((it, printed[at]) for at, it in enumerate(self.opened))
        answers = {it["id"]: it for it in contents if "id" in it}
        for at, case in enumerate(self.requested, len(self.opened)):
            self.found[case] = printed[at] if printed[at].status else renamed((case.text or b"").decode(), answers[f"rename {at}"])

    def write(self, room: str, lanes: int) -> tuple[dict[str, Case], list[list[str]]]:
        """Writes the cases as files for `rt try` into `lanes` folders. Returns the names of the cases, and for each
        folder the flags that pass its modules. `rt try` copies each module for each case, so a module is only one file;
        if a case reads no input, that file is the module itself."""
        names: dict[str, Case] = {}
        modules: dict[bytes, str] = {}
        flags: list[dict[str, str]] = [{} for _ in range(lanes)]
        for at, case in enumerate(self.wanted):
            name, content, module = f"case{at:04}", case.given, "{}"
            if case.text is not None and case.words[0] == "run":
                module = modules.setdefault(case.text, f"module{len(modules):03}.mod")
                flags[at % lanes][module] = os.path.join(room, "modules", module)
            elif case.text is not None:
                content = case.text
            line = [module if it == "FILE" else it for it in case.words]
            for ending, text in (("", content), (".args", "\n".join(line).encode())):
                with open(os.path.join(room, f"cases{at % lanes}", name + ending), "wb") as file:
                    file.write(text)
            names[name] = case
        for text, name in modules.items():
            with open(os.path.join(room, "modules", name), "wb") as file:
                file.write(text)
        return names, [[word for pair in it.items() for word in ("--data", "=".join(pair))] for it in flags]

    def take(self, out: bytes, err: bytes, names: dict[str, Case]) -> None:
        """Stores the results that `rt try` printed: the output of each case after a line with its name, and a line
        about its status."""
        cut = re.split(rb"^== (case\d{4})\n", out, flags=re.M)
        printed = dict(zip((it.decode() for it in cut[1::2]), cut[2::2]))
        before = 0
        for line in re.finditer(rb"^case=(case\d{4}) run=(\w+)(?: status=(\d+))?[^\n]*\n", err, re.M):
            name, how, status = line[1].decode(), line[2], line[3]
            said, before = err[before : line.start()], line.end()
            if how == b"ended" and names[name].words == ("serve",):
                self.take_conversation(printed[name].rstrip(b"\n"))
            elif how == b"ended":
                self.found[names[name]] = harness.Ended(printed.get(name, b""), said, int(status))
            else:
                self.found[names[name]] = harness.Ended(b"", line[0] + said, None)


def is_text(content: bytes) -> bool:
    """Returns whether a content is UTF-8, and short enough to be opened in the conversation."""
    try:
        content.decode()
    except UnicodeDecodeError:
        return False
    return len(content) < 10_000


def renamed(text: str, answer: dict[str, Any]) -> harness.Ended:
    """Returns the output of `rename` for an answer to the request: the refusal, or the text with the edits made."""
    if "error" in answer:
        return harness.Ended(b"", f"refused: {answer['error']['message']}\n".encode(), 1)
    lines = [it.encode("utf-16-le") for it in text.split("\n")]
    for edit in reversed([edit for edits in answer["result"]["changes"].values() for edit in edits]):
        start, end = edit["range"]["start"], edit["range"]["end"]
        line = lines[start["line"]]
        lines[start["line"]] = line[: 2 * start["character"]] + edit["newText"].encode("utf-16-le") + line[2 * end["character"] :]
    return harness.Ended("\n".join(it.decode("utf-16-le") for it in lines).encode(), b"", 0)


def lanes_for(count: int) -> int:
    """Returns how many `rt try` run at the same time. Each consists of two processes while it compiles."""
    memory = os.sysconf("SC_PAGE_SIZE") * os.sysconf("SC_PHYS_PAGES")
    return max(1, min(len(os.sched_getaffinity(0)) // 2, memory // MEMORY, count // 8))


def compiled(cases: Cases) -> None:
    """Runs all noted cases with `rt try`, and stores their results."""
    cases.put_together()
    lanes, timer = lanes_for(len(cases.wanted)), common.Timer()
    with tempfile.TemporaryDirectory() as room:
        for name in ("modules", *(f"cases{lane}" for lane in range(lanes))):
            os.mkdir(os.path.join(room, name))
        names, flags = cases.write(room, lanes)
        started = [Try(flags[lane], os.path.join(room, f"cases{lane}")) for lane in range(lanes)]
        shown = time.monotonic()
        while any(it.is_running() for it in started):
            time.sleep(0.2)
            if time.monotonic() - shown > STEP:
                shown = time.monotonic()
                print(f"[{timer}] compiling, and {sum(it.ended() for it in started)} of {len(names)} cases run", flush=True)
        for one in started:
            cases.take(*one.said(), names)
        if not cases.found:
            common.stop(f"rt try ran no case:\n{started[0].said()[1].decode(errors='replace')[-2000:]}", 1)
        for case in {*cases.wanted, *cases.opened, *cases.requested} - {*cases.found}:
            cases.found[case] = harness.Ended(b"", b"rt try ended before, or the conversation did", None)
        said = f"{len(cases.opened)} modules checked and {len(cases.requested)} renamings requested in one conversation"
        print(f"[{timer}] compiled, and {len(names)} cases run; {said}", flush=True)


class Try:
    """A running `rt try` on a folder of cases."""

    def __init__(self, flags: list[str], folder: str) -> None:
        self.out, self.err = tempfile.TemporaryFile(), tempfile.TemporaryFile()
        how: dict[str, Any] = {"cwd": os.path.join(common.TOP, "crates", "ob0"), "stdin": subprocess.DEVNULL, "stdout": self.out, "stderr": self.err}
        self.process = subprocess.Popen(["rt", "try", *flags, "--cases", folder], **how)

    def is_running(self) -> bool:
        return self.process.poll() is None

    def said(self) -> tuple[bytes, bytes]:
        """Returns the bytes that `rt try` has printed to standard output and to standard error."""
        out, err = (os.pread(it.fileno(), os.fstat(it.fileno()).st_size, 0) for it in (self.out, self.err))
        return out, err

    def ended(self) -> int:
        """Returns how many cases have been run so far."""
        return len(re.findall(rb"^case=", self.said()[1], re.M))


def play(function: harness.Test) -> Exception | None:
    """Runs a test. Returns None if it passes, otherwise the exception that it raised, or Unknown if it needs the built
    program."""
    try:
        function()
    except FileNotFoundError as why:
        return Unknown("the built program") if why.filename == harness.BINARY else why
    except Exception as why:  # pylint: disable=broad-except
        return why
    return None


def main(words: list[str]) -> int:
    common.need("rt")
    cases = Cases()
    replace_in_harness(cases)
    import run as tests  # pylint: disable=import-outside-toplevel

    tests.load()
    chosen = [(name, function) for name, function in harness.TESTS if any(name.startswith(it) if it in WORDS else it in name for it in words or WORDS)]
    if not chosen:
        common.stop("no test has one of these words in its name")
    left_out = dict(cases.note(*it) for it in chosen)
    cases.noting = False
    compiled(cases)
    return judge(chosen, {name: why for name, why in left_out.items() if why})


def replace_in_harness(cases: Cases) -> None:
    """Replaces functions of the harness, so that tests note their commands instead of running them."""
    checks = {"same": cases.unless_noting(harness.same), "holds": cases.unless_noting(harness.holds), "ends": without_last_line_feed}
    speaking = dict.fromkeys(("Server", "serve", "serve_in_pieces"), Conversation)
    replaced: dict[str, object] = {"run": cases.run, **checks, **speaking}
    for name, other in replaced.items():
        setattr(harness, name, other)


def without_last_line_feed(found: harness.Ended, out: str | bytes, status: int, err: str | bytes = "") -> None:
    """Replaces `harness.ends`, because `rt try` adds a missing last line feed to outputs."""
    wanted_out, wanted_err = (it if isinstance(it, bytes) else it.encode() for it in (out, err))
    got, wanted = (found.out.rstrip(b"\n"), found.err, found.status), (wanted_out.rstrip(b"\n"), wanted_err, status)
    harness.same(got, wanted, "standard output, standard error and the status")


class Conversation:
    """Replaces `harness.Server`, and everything else that talks to a server."""

    def __init__(self, *_: object, **__: object) -> None:
        raise Unknown("a conversation")


def judge(chosen: list[tuple[str, harness.Test]], left_out: dict[str, Exception]) -> int:
    passed = failed = skipped = 0
    for name, function in chosen:
        why = left_out.get(name) or play(function)
        if why is None:
            passed += 1
            print(f"ok       {name}")
        elif isinstance(why, (Unknown, harness.Skipped)):
            skipped += 1
            print(f"left out {name}: it needs {why}")
        else:
            failed += 1
            print(f"FAILED   {name}\n    {why}")
    print("(the program was compiled without its proofs: nothing is proved by this)")
    if not passed + failed:
        print("no test was run")
        failed = 1
    print(f"{passed} passed, {failed} failed" + (f", {skipped} skipped" if skipped else ""))
    return 1 if failed else 0


if __name__ == "__main__":
    sys.exit(main(sys.argv[1:]))
