"""Tests that docs/MESSAGES.md agrees with what the program prints."""
from __future__ import annotations

import os
import re
import subprocess
import tempfile
from collections.abc import Iterator
from typing import Any, IO

import harness
import manual_page
import ob0_hints
import package
from common import match_of
from harness import (
    Content,
    EXIT,
    Message,
    SHUTDOWN,
    Server,
    did_open,
    ends,
    holds,
    initialize,
    need_program,
    notice,
    on_file,
    place,
    request,
    run,
    same,
    serve,
    test,
    text_of,
)
from hinted import first_error
from snippets import FENCED

PAGE = text_of("docs", "MESSAGES.md")
CODE = re.compile(r"`([^`]*)`")
END = "at the end of the text"
DEEP = "x := " + "(" * 101 + "1" + ")" * 101
LONGEST = 1048576


def code_in(cell: str) -> str:
    """Returns the text in backticks at the beginning of a table's cell."""
    found = CODE.match(cell)
    holds(found, f"no code in {cell}")
    return found[1] if found else ""


def section(title: str) -> str:
    """Returns the page's text below a heading, up to the next heading of the same or a higher level."""
    level = match_of(rf"^(#+) {re.escape(title)}$", PAGE, re.M)
    rest = PAGE[level.end() :]
    return re.split(rf"^#{{1,{len(level[1])}}} ", rest, maxsplit=1, flags=re.M)[0]


def tables(title: str) -> Iterator[tuple[list[str], list[list[str]]]]:
    """Yields, for each table of a section, the cells of its head and the cells of each row."""
    for lines in re.findall(r"(?:^\|.*\n)+", section(title), re.M):
        heads, _, *listed = map(manual_page.cells_of, lines.splitlines())
        yield heads, listed


def rows(title: str) -> list[list[str]]:
    """Returns the cells of each row of all tables in a section."""
    return [it for _, listed in tables(title) for it in listed]


def module_of(title: str) -> str:
    """Returns the module in the first code block of a section."""
    found = FENCED.search(section(title))
    holds(found, f"there is no module in {title}")
    return found[2] if found else ""


STATEMENTS, DECLARATIONS = module_of("Statements"), module_of("Declarations")
MODULES = {"Statements": STATEMENTS, "Declarations": DECLARATIONS, "Whole texts": None}
# texts that are too long to be shown in a row
FAR = {"TooLong": "x".ljust(LONGEST + 1), "TooDeep": STATEMENTS.replace("...", DEEP)}


def codes_of_messages() -> dict[str, str]:
    """Returns the code of each message in the table of errors. A row gives a code for each of its messages, or one code
    for all."""
    found: dict[str, str] = {}
    for messages, codes, _ in rows("Errors"):
        listed, given = CODE.findall(messages), CODE.findall(codes)
        found.update(zip(listed, given * len(listed) if len(given) == 1 else given))
    return found


def slips(title: str) -> Iterator[tuple[list[str], str, list[str]]]:
    """Yields, for each row of a section, its snippets, the expected message, and the text at which each error is
    reported. If a table's head gives a message, it holds for all rows."""
    for heads, listed in tables(title):
        for written, what, _ in listed:
            message, *at = [*CODE.findall(heads[1]), *CODE.findall(what)]
            yield CODE.findall(written), message, [END] if what.endswith(END) else at


def filled(module: str, snippet: str) -> str:
    return module.replace("...", snippet.replace(" ⏎ ", "\n  "))


def reported(text: str) -> list[tuple[str, str, str]]:
    """Returns the errors that `check` reports in a text: the code, the message, and the rest of the line, starting at
    the error."""
    found = on_file("check", text)
    lines, said = text.split("\n"), []
    for said_line in found.out.decode().splitlines():
        line, column, rest = said_line.split(":", 2)
        code, _, message = rest.strip().partition(": ")
        said.append((code, message, lines[int(line)][int(column) :]))
    return said


def first(snippet: str, module: str | None) -> tuple[str, str, str]:
    """Returns the first error that `check` reports in a snippet, put in a module if one is given. If there is no error,
    its message is 'nothing'."""
    text = filled(module, snippet) if module else snippet
    return (reported(text) or [("", "nothing", "")])[0]


def mistakes(title: str, module: str | None) -> None:
    """Compares each row of a section with the first error that `check` reports, or with the fault that ends the run."""
    codes = codes_of_messages()
    for snippets, message, places in slips(title):
        same(len(places), 2 if message == "check" else len(snippets), f"places of {snippets}")
        if message == "check":
            fault, command = places
            same(command, "run", f"the command that reports {fault}")
            text = filled(module or "...", snippets[0])
            ends(on_file("check", text), "", 0)
            ends(on_file("run", text), "", 1, fault + "\n")
            continue
        for snippet, at in zip(snippets, places):
            code, said, rest = first(snippet, module)
            shown = rest[: len(at)] if at != END else rest or at
            same((code, said, shown), (codes[message], message, at), f"the report about {snippet}")


@test("messages: beginners' mistakes in statements, declarations and texts are reported as docs/MESSAGES.md states")
def beginners() -> None:
    for title, module in MODULES.items():
        mistakes(title, module)
    for module, snippet in ((STATEMENTS, "x := 1"), (DECLARATIONS, "VAR x: INTEGER;")):
        same(reported(filled(module, snippet)), [], "the report about a module without a mistake")
    same(first("\ufeffMODULE M; END M.", None)[:2], ("BadChar", "bad character"), "a byte order mark")
    same(first("x := y\u00a0+ 1", STATEMENTS), ("BadChar", "bad character", "\u00a0+ 1"), "a no-break space")


@test("messages: docs/MESSAGES.md lists each error's code and message, and shows a mistake for each message")
def errors_listed() -> None:
    codes = codes_of_messages()
    same({code: it for it, code in codes.items() if code != "Syntax"}, harness.MESSAGES, "the codes")
    by_words = [it for it in codes if it.startswith("expected ")]
    same(by_words, [it for it in codes if codes[it] == "Syntax"], "the errors of syntax")
    shown = {message for title in MODULES for _, message, _ in slips(title)} - {"check"}
    same(sorted({*codes} - shown), sorted(harness.MESSAGES[it] for it in FAR), "messages without a row")
    same(sorted(shown - {*codes}), [], "messages that aren't in the table")


@test("messages: a text that is too long or too deeply nested gets the code and message given on docs/MESSAGES.md")
def far_over() -> None:
    codes = codes_of_messages()
    for code, text in FAR.items():
        found, message, _ = first(text, None)
        same((found, codes.get(message)), (code, code), code)


@test("messages: docs/MESSAGES.md lists each way in which a run can end, with an example that ends in that way")
def run_ends() -> None:
    names, (*listed, endless) = [], rows("Ends of a run")
    for end, _, _, body, numbers in listed:
        name = code_in(end)
        names.append(name)
        text = filled(STATEMENTS, code_in(body)) if body.startswith("`") else "MODULE M; PROCEDURE P; BEGIN P END P; BEGIN P END M."
        given = code_in(numbers).encode() if numbers else b""
        ends(on_file("run", text, given=given), "", 0 if name == "Done" else 1, "" if name == "Done" else f"fault: {name}\n")
    known = re.findall(r"^\| (\w+) \|", text_of("docs", "LANGUAGE.md").partition("| End | Because |")[2].partition("\n\n")[0], re.M)
    same(names, [it for it in known if it != "End"], "the ends")
    said = run(["help", "run"]).out.decode()
    holds(all(it in said for it in names), f"`ob0 help run` has all of {names}")
    most = [f"{int(it):,}" for it in re.findall(r"\b0 to (\d+)", said)]
    same(len(most), 2, "the bounds of a run")
    for path in ("README.md", "docs/MESSAGES.md", "docs/TUTORIAL.md"):
        same([it for it in most if not re.search(rf"(?<![-\w,]){it}(?![\w,])", text_of(path))], [], f"bounds that {path} doesn't name")
    # (a run that doesn't end, and the page's advice about it)
    flags, text = match_of(r"`ob0 run (--turns \d) FILE`", endless[2])[1], filled(STATEMENTS, code_in(endless[3]))
    ends(on_file("run", text, *flags.split()), " 0 1 2" * 5, 1, "fault: TurnBound\n")
    for name, page in (("ob0 help run", said), ("the manual page", text_of("share", "ob0.1").replace("\\-", "-"))):
        holds(flags in page, f"{name} has no {flags}")


@test("messages: docs/MESSAGES.md has a row for each hint, and each row with `expected END` gets a hint")
def cases_and_rows() -> None:
    need_program()
    given: list[ob0_hints.Rule] = []
    with Server() as server:
        for title, module in MODULES.items():
            holds(all(it[2] for it in rows(title)), f"a row of {title} without an explanation")
            for snippet in (it for snippets, _, _ in slips(title) for it in snippets):
                found = first_error(server, filled(module, snippet) if module else snippet)
                if found and found.message == "expected END":
                    holds(found.hint, f"no hint for {snippet}")
                if found and found.rule:
                    given.append(found.rule)
    same([it for rules in ob0_hints.rules().values() for it in rules if it not in given], [], "cases without a row")


TITLES = ["Inline here", "Inline everywhere"]


def offered(text: str, at: Message) -> list[str]:
    """Returns the titles of the code actions that the server offers at a position."""
    with Server(capabilities={"textDocument": {"codeAction": {"codeActionLiteralSupport": {}}}}) as server:
        same(server.notify(did_open(text)), [], "the diagnostics")
        params = {"textDocument": {"uri": "file:///m"}, "range": {"start": at, "end": at}, "context": {"diagnostics": []}}
        return [it["title"] for it in server.query("textDocument/codeAction", params)["result"]]


def refused_inlinings() -> None:
    """Tests inlinings that aren't offered for reasons that a rename can't have."""
    deep = "MODULE M;\nCONST c = -1;\nBEGIN Write(" + "(" * 100 + "c" + ")" * 100 + ") END M.\n"
    same(offered(deep, place(2, 112)), [], "an inlining that nests too deep")
    shadowed = "MODULE M;\nCONST c = TRUE;\nPROCEDURE P;\nVAR TRUE: BOOLEAN;\nBEGIN TRUE := c\nEND P;\nEND M.\n"
    same(offered(shadowed, place(4, 14)), [], "an inlining of TRUE although TRUE is a variable")
    inside = "MODULE M;\nCONST c (* one *) = 1;\nBEGIN Write(c) END M.\n"
    same(offered(inside, place(2, 12)), TITLES[:1], "an inlining of a declaration with a comment")


@test("messages: docs/MESSAGES.md lists each refusal of a rename or an inlining, with examples that are refused for it")
def refusals() -> None:
    title = "Refusals of a rename or an inlining"
    module, listed = module_of(title), rows(title)
    defined = re.findall(r"^\| `(\w+)", text_of("docs", "PROTOCOL.md").partition("## Refusals of edits")[2].partition("\n## ")[0], re.M)
    same([code_in(it[0]).split()[0] for it in listed], defined, "the refusals")
    for reason, _, _, example in listed:
        if example.startswith("`"):
            words = code_in(example).split()
            same(words[:3], ["ob0", "rename", "m.mod"], "the command")
            ends(on_file("rename", module, *words[3:]), "", 1, f"refused: {code_in(reason)}\n")
    longest = module.replace("END M.", "END M." + " " * (LONGEST - len(module)))
    ends(on_file("rename", longest, "2", "4", "longer"), "", 1, "refused: TooLong\n")
    refused_inlinings()


def faults_of_files() -> Iterator[tuple[str, harness.Ended]]:
    """Yields the name of each fault of a command, with the result of a run that ends with it."""
    good = "MODULE M; VAR x: INTEGER; BEGIN Read(x); Write(x) END M.\n"
    yield "File", run(["check", "/nowhere/m.mod"])
    yield "Utf8", on_file("check", good.encode("utf-16"))
    for given in (b"a", b"1.5", b"1,2", b"+1", b"2147483648", b"1".ljust(16777217)):
        yield "Input", on_file("run", good, given=given)
    with tempfile.TemporaryDirectory() as room, open("/dev/full", "wb") as device:
        file = os.path.join(room, "m.mod")
        with open(file, "w", encoding="utf-8") as it:
            it.write("MODULE M; BEGIN WriteLn END M.")
        yield "Write", run_into(device, ["run", file])
    yield "BadHead", serve(b"hello\n\n")
    yield "Truncated", serve(b"Content-Length: 10\r\n\r\n{")


def run_into(device: IO[bytes], words: list[str]) -> harness.Ended:
    """Runs the program with the given device as its standard output."""
    how: dict[str, Any] = {"stdin": subprocess.DEVNULL, "stdout": device, "stderr": subprocess.PIPE}
    ran = subprocess.run([harness.BINARY, *words], timeout=harness.SECONDS, check=False, **how)
    return harness.Ended(b"", ran.stderr, ran.returncode)


@test("messages: docs/MESSAGES.md lists each fault of the program with its status")
def faults() -> None:
    listed = {code_in(name): int(status) for name, status, _ in rows("Faults of the program")}
    # (a read that fails, one of 2^40 reads and a machine without memory are for the tests of devices)
    same(sorted(listed), sorted("File Utf8 Input Write Read BadHead Truncated TooManyReads Memory".split()), "the faults")
    for name, found in faults_of_files():
        same((found.err, found.status), (f"fault: {name}\n".encode(), listed[name]), name)
    page = text_of("docs", "PROTOCOL.md").partition("## The program")[2]
    for it in listed:
        holds(f"`{it}`" in page, f"docs/PROTOCOL.md has no fault {it}")
    found = run(["chekc"])
    same((found.err[:6], found.status), (b"error:", 2), "a command line that is refused")


FAULTY = "MODULE M; BEGIN x := 1 END M."
ASKED: Message = {"textDocument": {"uri": "file:///m"}, "position": place(0, 7)}


def conversations() -> Iterator[tuple[str, list[Content]]]:
    """Yields the message of each error of the protocol, with a conversation in which the server answers it."""
    hover = request(2, "textDocument/hover", ASKED)
    opened = [initialize(), did_open(FAULTY)]
    yield "ill-typed", [*opened, request(2, "textDocument/rename", {**ASKED, "newName": "N"})]
    yield "unopened", [initialize(), hover]
    changed = notice("textDocument/didChange", {"textDocument": {"uri": "file:///m", "version": 2}, "contentChanges": 1})
    yield "out of step", [*opened, changed, hover]
    yield "unknown method", [initialize(), request(2, "textDocument/completion", ASKED)]
    yield "bad params", [initialize(), request(2, "textDocument/hover", {})]
    yield "not initialized", [hover]
    yield "already initialized", [initialize(), initialize(2)]
    yield "shut down", [initialize(), {**SHUTDOWN, "id": 9}, hover]
    yield "not JSON", [initialize(), "{"]
    yield "not a message", [initialize(), "[]"]


@test("messages: docs/MESSAGES.md lists each error of the protocol with its code")
def protocol() -> None:
    listed = {code_in(message): int(code) for message, code, _ in rows("Messages in an editor")}
    talks = dict(conversations())
    same(list(listed), list(talks), "the messages")
    for message, said in talks.items():
        found = [it for it in serve([*said, EXIT]).contents() if '"error"' in it]
        same(len(found), 1, f"errors of {message}")
        holds(f'"error":{{"code":{listed[message]},"message":"{message}"}}' in found[0], f"{message}: {found[0]}")


@test("messages: the manual page made from docs/MESSAGES.md has an entry for each row of its tables")
def made_manual() -> None:
    made = package.messages_page().decode()
    # (each table has a line of heads and a line of dashes; a row with several snippets or codes becomes several
    # entries)
    lines = [it for it in PAGE.splitlines() if it.startswith("|")]
    more = [len(snippets) - 1 for title in MODULES for snippets, _, _ in slips(title)]
    more += [len(CODE.findall(codes)) - 1 for _, codes, _ in rows("Errors")]
    count = len(lines) - 2 * sum(it.startswith("|---") for it in lines) + sum(more)
    same(made.count("\n.TP\n"), count, "the number of rows")
    for row in (it for title in ("Ends of a run", "Faults of the program") for it in rows(title)):
        holds(f"\n.TP\n{manual_page.inline(row[0])}\n" in made, f"no row {row[0]}")
    for snippets, message, places in (it for title in MODULES for it in slips(title)):
        for snippet, at in zip(snippets, places):
            said = f"`{message}` {END}" if at == END else f"`{message}` at `{at}`"
            said = f"nothing by `check`, `{at}` by `run`" if message == "check" else said
            holds(f"\n.TP\n{manual_page.inline(f'`{snippet}`')}\n{manual_page.inline(said)}" in made, f"no row {snippet}")


# the files that explain refused answers to an editor's user
IN_WORDS = ["neovim/lua/ob0.lua", "vscode/extension.js", "emacs/ob0-mode.el", "vim/ale_linters/ob0/ob0.vim"]


@test("messages: each editor file that explains refusals uses the words of docs/MESSAGES.md")
def in_words() -> None:
    told = {code_in(reason).split()[0]: words for reason, words, _, _ in rows("Refusals of a rename or an inlining")}
    told.update({code_in(it): words for it, _, words in rows("Messages in an editor") if it == "`ill-typed`"})
    same(len(told), 10, "answers with words")
    for path in IN_WORDS:
        text = text_of("editors", path)
        for answer, words in told.items():
            holds(f'"{words}"' in text, f"editors/{path} doesn't say {words!r}")
        # (with `ob0: ` before them the words fit into a terminal's line; otherwise an editor would wait for a key)
        holds(len(words.replace("NAME", "total").replace("LINE", "100")) <= 75, f"the words of {answer} are too long")


@test("messages: ob0's manual page mentions each error code, each end of a run, each refusal and each fault")
def manual() -> None:
    page = re.sub(r"\\f.", "", text_of("share", "ob0.1").replace("\\-", "-"))
    titles = ("Ends of a run", "Refusals of a rename or an inlining", "Faults of the program")
    listed = [it[0] for title in titles for it in rows(title) if it[0].startswith("`")]
    for it in [*harness.MESSAGES, "Syntax", *(code_in(name).split()[0] for name in listed)]:
        holds(re.search(rf"\b{it}\b", page), f"the manual page has no {it}")
