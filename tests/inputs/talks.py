"""Contains conversations of an editor with a server behind ob0-watch, as steps, and what the report says of each: 29 in
which the editor breaks a rule, or does what no rule is about, and 25 that keep all rules in unusual ways.

A step is a word and what belongs to it:

  file TEXT                     the document is a file, which has this text
  open TEXT [VERSION]           opens the document, and waits for its diagnostics
  change CHANGES [VERSION]      tells a text or a list of changes
  close                         closes the document
  at URI                        continues with another document
  write TEXT                    the file is replaced
  rename [NEW [ID]], actions, layout [OPTIONS]
                                asks for edits at the document's place, and waits for the answer
  make [HOW]                    tells the answer's edit (`Made`)
  ask METHOD PARAMS [ID]        asks something else, and waits for the answer
  tell MESSAGE..                sends messages, and waits for nothing
  bytes BYTES..                 sends bytes, one piece after another
  await ID COUNT                waits for so many answers to requests of an id
  exit                          sends `exit`, and nothing before

At the end `shutdown` is requested and `exit` is sent, unless the last step is `exit`."""
from __future__ import annotations

from collections.abc import Sequence
from typing import Any, List, NamedTuple, Optional, Tuple

from harness import EXIT, SHUTDOWN, Message, compact, did_change, did_close, did_open, extent, frame, notice, place
from harness import request

Step = Tuple[Any, ...]
Steps = Sequence[Step]
RENAME, ACTION, LAYOUT = "textDocument/rename", "textDocument/codeAction", "textDocument/formatting"
HOVER = "textDocument/hover"
URI = "file:///w/m.ob0"


class Made(NamedTuple):
    """The settings that determine how the editor sends the edit in an answer."""

    action: int = 0  # which of a list of actions
    lower: int = 0  # how many lines lower
    is_reversed: bool = True  # whether from the last place to the first
    only: Optional[int] = None  # how many of its replacements, or all of them
    is_apart: bool = False  # whether each replacement has a notification
    end: str = "\n"  # what it writes for each LF
    more: List[Message] = []  # changes that come after it in the same notification


class Talk(NamedTuple):
    name: str
    steps: Steps
    broken: str = ""  # the rules that are reported as broken
    notes: str = ""  # the rules with notes
    manual: str = ""  # if the report is silent about an error, the manual page's sentence on it
    client: Optional[Message] = None  # the capabilities, if not `CLIENT`'s
    first: Message = {}  # the other params of `initialize`
    place: Tuple[int, int] = (1, 4)  # where edits are asked for


LITERALS: Message = {"codeActionLiteralSupport": {"codeActionKind": {"valueSet": ["refactor.inline"]}}}
VERSIONS: Message = {"workspaceEdit": {"documentChanges": True}}
CLIENT: Message = {"workspace": VERSIONS, "textDocument": {"codeAction": LITERALS, "rename": {"prepareSupport": True}}}

TEXT = "MODULE M;\nVAR n: INTEGER;\nBEGIN n := 1; Write(n)\nEND M.\n"
RENAMED = TEXT.replace(" n", " total").replace("(n", "(total")
CONSTANT = "MODULE M;\nCONST k = 7;\nVAR n: INTEGER;\nBEGIN n := k; Write(k); Write(n)\nEND M.\n"
ON_A_LINE = "MODULE M;VAR n:INTEGER;BEGIN n:=1;Write(n) END M.\n"
LETTERS = "MODULE M;\nVAR (* \U0001f600é *) n: INTEGER;\nBEGIN (* \U0001f600é *) n := 1; (* ü *) Write(n)\nEND M.\n"


def misread(encoding: str) -> str:
    """Returns the text LETTERS as it is after a rename to `total` by an editor that counts columns in this encoding's
    units."""
    lines, size = LETTERS.split("\n"), len("n".encode(encoding))
    for line, start in ((2, 38), (2, 16), (1, 14)):
        whole = lines[line].encode(encoding)
        lines[line] = (whole[: start * size] + "total".encode(encoding) + whole[(start + 1) * size :]).decode(encoding)
    return "\n".join(lines)


def at(line: int, character: int, text: str) -> Message:
    """Returns a change that inserts a text at a position."""
    where = place(line, character)
    return {"range": {"start": where, "end": where}, "text": text}


def out(where: str, text: str = "") -> Message:
    """Returns a change that removes a range or replaces it by a text."""
    return {"range": extent(where), "text": text}


def of(uri: str = URI, line: int = 1, character: int = 4, **more: Any) -> Message:
    """Returns the parameters of a request about a position."""
    return {"textDocument": {"uri": uri}, "position": place(line, character), **more}


BLANK = at(0, 0, " ")
LINE, ABOVE = at(0, 0, "\n"), at(0, 0, "(* new *)\n")
TYPED: Steps = [("change", [BLANK])] * 3
HALF_PAIR = compact(did_change("(* ? *)", URI)).encode().replace(b"?", b"\\ud83d")
OPENED: Steps = [("open", TEXT)]
ASKED: Steps = [*OPENED, ("rename",)]
MADE: Steps = [("rename",), ("make",)]

FAULTS = [
    Talk("a late rename at its old places", [*ASKED, ("change", [ABOVE]), ("make",)], "late-edit", "ranges"),
    Talk("a late rename that moves along", [*ASKED, ("change", [ABOVE]), ("make", Made(lower=1))], "late-edit"),
    Talk(
        "a late layout",
        [("open", ON_A_LINE), ("layout",), ("change", [ABOVE]), ("make", Made(lower=1))],
        "late-edit",
    ),
    Talk(
        "a late layout with CR LF",
        [("open", ON_A_LINE), ("layout",), ("change", [ABOVE]), ("make", Made(lower=1, end="\r\n"))],
        "late-edit",
    ),
    Talk(
        "an inlining that is chosen from an old list",
        [("open", CONSTANT), ("actions",), ("change", [LINE]), ("make", Made(action=1, lower=1))],
        "late-edit",
        place=(3, 12),
    ),
    Talk(
        "an edit after a reopen with another text",
        [*ASKED, ("close",), ("open", "(* x *)\n" + TEXT), ("make", Made(lower=1))],
        "late-edit",
    ),
    Talk(
        "an edit in another text of the same version",
        [*ASKED, ("change", [LINE], 1), ("make", Made(lower=1))],
        "late-edit",
    ),
    Talk("two of three replacements", [*ASKED, ("make", Made(only=2)), *TYPED], "half-edit"),
    Talk(
        "replacements from the first to the last that don't move",
        [*ASKED, ("make", Made(is_reversed=False)), *TYPED],
        "half-edit",
    ),
    Talk(
        "an edit at columns in bytes",
        [("open", LETTERS), ("rename",), ("change", misread("utf-8")), *TYPED],
        "wrong-places",
        place=(1, 14),
    ),
    Talk(
        "an edit at columns in characters",
        [("open", LETTERS), ("rename",), ("change", misread("utf-32-le")), *TYPED],
        "wrong-places",
        place=(1, 14),
    ),
    Talk(
        "a lost change, and a save",
        [("file", TEXT), *OPENED, ("change", [at(0, 0, "(* told *)\n")]), ("write", "(* lost *)\n(* told *)\n" + TEXT)],
        "lost-change",
    ),
    Talk(
        "two changes in the wrong order, and a save",
        [
            *[("file", TEXT), *OPENED, ("change", [at(2, 11, "2")]), ("change", [at(2, 11, "3")])],
            ("write", TEXT.replace("1;", "231;")),
        ],
        "lost-change",
    ),
    Talk(
        "changes of one notification at places of the text before it, and a save",
        [
            *[("file", TEXT), *OPENED, ("change", [at(0, 0, "(* a *)\n"), at(2, 5, " (* b *)")])],
            ("write", "(* a *)\n" + TEXT.replace("BEGIN", "BEGIN (* b *)")),
        ],
        "lost-change",
    ),
    Talk(
        "a change at columns in bytes, and a save",
        [
            *[("file", LETTERS), ("open", LETTERS), ("change", [at(2, 20, "1")])],
            ("write", LETTERS.replace("n := 1", "n1 := 1")),
        ],
        "lost-change",
    ),
    Talk(
        "a lost change, a save and a close",
        [("file", TEXT), *OPENED, ("write", "(* lost *)\n" + TEXT), ("close",)],
        "lost-change",
    ),
    Talk("a change inside a surrogate pair", [("open", LETTERS), ("change", [at(2, 10, "x")])], "ranges"),
    Talk(
        "two requests with the id of a rename that waits",
        [
            *OPENED,
            ("bytes", frame(request(7, RENAME, of(newName="z"))) + frame(request(7, HOVER, of()))),
            ("await", 7, 2),
        ],
        "ids",
    ),
    Talk("a change of what was closed", [*OPENED, ("close",), ("tell", did_change([BLANK], URI))], "open"),
    Talk("half a surrogate pair", [*OPENED, ("tell", HALF_PAIR), ("change", [BLANK])], "readable"),
    Talk(
        "a version of null, as LSP 3.15 allowed it",
        [*OPENED, ("tell", did_change(TEXT + " ", URI, None)), ("ask", HOVER, of())],
        "readable",
    ),
    Talk("a change after `shutdown`", [*OPENED, ("tell", SHUTDOWN, did_change([BLANK], URI), EXIT), ("exit",)], "end"),
    Talk("a rename with a blank inside a word", [*ASKED, ("change", RENAMED.replace("total", "to tal"))], "same-tokens"),
    Talk(
        "an edit after a reopen with a shorter text, at its old places",
        [*ASKED, ("close",), ("open", TEXT.replace("Write(n)", "Write(2+n)")), ("make",), *TYPED],
        "late-edit",
    ),
    Talk("an opening before `initialize`", [("tell", did_open(TEXT, URI))], "start"),
    Talk(
        "versions that fall and come again",
        [("open", TEXT, 9), ("change", [BLANK], 5), ("change", [BLANK], 5)],
        manual="Versions don't count",
    ),
    Talk(
        "both actions of one list",
        [("open", CONSTANT), ("actions",), ("make",), ("make", Made(action=1)), *TYPED],
        manual="An answer that is used twice isn't recognized",
        place=(3, 12),
    ),
    Talk(
        "a lost change that is never saved",
        [*OPENED, ("change", [at(0, 0, "(* a *)\n")]), ("change", [out("4:5-4:6", "x")])],
        manual="It sees only the messages and the files that are written.",
    ),
    Talk(
        "a late edit that is told in one whole text with what was typed",
        [*ASKED, ("change", "(* new *)\n" + RENAMED.replace("INTEGER", "BOOLEAN")), *TYPED],
        manual="An edit that is told in one change together with other typing isn't recognized",
    ),
]

UNKNOWN = """textDocument/documentSymbol textDocument/completion textDocument/signatureHelp
textDocument/documentHighlight textDocument/semanticTokens/full textDocument/foldingRange textDocument/rangeFormatting
textDocument/codeLens textDocument/inlayHint textDocument/diagnostic
workspace/symbol workspace/executeCommand codeAction/resolve $/x""".split()
STRANGE = [
    *[URI, "untitled:Untitled-1", "file:///w/a%20b%C3%A9.mod", "vscode-notebook-cell:/x#1", "", "file:///w/M.Mod"],
    *["FILE:///w/m.ob0", "é\U0001f600"],
]
DYNAMIC = {"dynamicRegistration": True}
WORKSPACE: Message = {
    "applyEdit": True,
    "workspaceEdit": {
        "documentChanges": True,
        "resourceOperations": ["create", "rename", "delete"],
        "failureHandling": "textOnlyTransactional",
        "normalizesLineEndings": True,
        "changeAnnotationSupport": {"groupsOnLabel": True},
    },
    **{it: DYNAMIC for it in ("didChangeConfiguration", "symbol", "executeCommand")},
    "didChangeWatchedFiles": {**DYNAMIC, "relativePatternSupport": True},
    "fileOperations": {**DYNAMIC, "didCreate": True},
    **{it: {"refreshSupport": True} for it in ("codeLens", "semanticTokens", "diagnostics")},
    **{it: True for it in ("configuration", "workspaceFolders")},
}
OFFERED = """synchronization completion hover signatureHelp definition references documentHighlight documentSymbol
codeLens formatting rangeFormatting onTypeFormatting documentLink typeDefinition implementation colorProvider
foldingRange declaration selectionRange callHierarchy semanticTokens
linkedEditingRange typeHierarchy inlineValue inlayHint diagnostic""".split()
EVERYTHING: Message = {
    "workspace": WORKSPACE,
    "textDocument": {
        **{it: DYNAMIC for it in OFFERED},
        "rename": {**DYNAMIC, "prepareSupport": True, "prepareSupportDefaultBehavior": 1},
        "codeAction": {
            **DYNAMIC,
            **{it: True for it in ("isPreferredSupport", "disabledSupport", "dataSupport")},
            "resolveSupport": {"properties": ["edit"]},
            "codeActionLiteralSupport": {"codeActionKind": {"valueSet": ["", "quickfix", "refactor"]}},
            "honorsChangeAnnotations": False,
        },
    },
    "window": {"workDoneProgress": True, "showMessage": {"messageActionItem": {"additionalPropertiesSupport": True}}},
    "general": {
        "staleRequestSupport": {"cancel": True, "retryOnContentModified": ["x"]},
        "positionEncodings": ["utf-16"],
    },
    "notebookDocument": {"synchronization": DYNAMIC},
    "experimental": {"x": 1},
}
ODD_SHAPES: Message = {
    "general": None,
    "textDocument": {"rename": 1, "codeAction": {"codeActionLiteralSupport": {}}},
    "workspace": VERSIONS,
    "window": None,
}
ODD_PARAMS: Message = {
    "initializationOptions": {"a": [1, {"b": None}]},
    **{"trace": "verbose", "workDoneToken": "t", "processId": 2**40, "rootUri": "file:///w%20x"},
    "workspaceFolders": [{"uri": "file:///w", "name": "w"}],
}
ASKED_IN_JSON = (
    b' {"params":{"newName":"t\\u006ftal","position":{"character":4,"line":1},"textDocument":{"uri":'
    b'"file:\\/\\/\\/w\\/m.ob0","uri":"file:///w/m.ob0"}},"method":"textDocument\\/rename","id":5,"jsonrpc":"1.0",'
    b'"extra":[[[]]]}\r\n'
)
QUESTION = compact(request("h", HOVER, of())).encode()
HEADS = [
    b"content-length: %d\n\n",
    b"Content-Type: application/vscode-jsonrpc; charset=utf-8\r\nCONTENT-LENGTH:%d\r\n\r\n",
    b"Content-Length:  %d\t\r\nX: y\r\n\r\n",
]
OTHER_OPTIONS = {"trimTrailingWhitespace": True, "insertFinalNewline": True, "trimFinalNewlines": True, "x.y": 1}
QUESTIONS = [("tell", *(request(f"h{it}", HOVER, of()) for it in range(30)))]
NO_NOTICES = [
    *(notice("$/setTrace", {"value": "verbose"}), notice("$/cancelRequest", {"id": 1})),
    *(notice("$/progress", {"token": 1, "value": 0}), notice("x/y")),
    *( notice("window/workDoneProgress/cancel", {"token": "t"}), notice(HOVER, of())),
    notice("notebookDocument/didOpen", {"notebookDocument": {}, "cellTextDocuments": []}),
]
RESPONSES: List[Message] = [
    {"jsonrpc": "2.0", "id": 99, "result": None},
    {"jsonrpc": "2.0", "id": "x", "error": {"code": 1, "message": "no"}},
    {"id": None, "result": {}},
    {"result": 1},
]

KEPT = [
    Talk(
        "whole texts each time",
        [*ASKED, *(("change", it) for it in (RENAMED, TEXT, "", TEXT)), ("layout",)],
    ),
    Talk(
        "many changes in one notification",
        [
            *ASKED,
            ("make", Made(more=[ABOVE, at(0, 0, "(* newer *)\n"), out("0:0-1:0"), {"text": TEXT}, BLANK])),
            *[("change", []), ("change", [{"text": TEXT}, {"text": TEXT}])],
        ],
    ),
    Talk(
        "ids that are texts, negative, and large",
        [
            *OPENED,
            *(("ask", HOVER, of(), it) for it in ("", "1", 1, '{"a"}\0é\U0001f600', 2**64 - 1, -5, -(2**63), "000")),
            *[("rename", "a", "rename-1"), ("make",), ("rename", "b", "7f0c-uuid"), ("make",)],
            *[("rename", "c", 2**63), ("make",)],
        ],
    ),
    Talk(
        "versions that are negative, fall, are equal and large",
        [("open", TEXT, -7), *(("change", [BLANK], it) for it in (-7, -(2**63), 2**63 - 1, 0, 0, 3, 1)), *MADE],
    ),
    Talk(
        "layouts, with different options, between other edits",
        [
            *[("open", ON_A_LINE), ("layout",), ("make",), ("layout",)],
            *[("layout", {"tabSize": 8, "insertSpaces": False, **OTHER_OPTIONS}), ("make",)],
            *[*MADE, ("layout", {"tabSize": 0}), ("make",)],
        ],
        place=(2, 1),
    ),
    Talk("responses to nothing", [*OPENED, ("tell", *RESPONSES), *MADE, ("tell", {**RESPONSES[0], "id": 1})]),
    Talk("notifications that the server doesn't know", [*ASKED, ("tell", *NO_NOTICES), ("make",)]),
    Talk(
        "configuration, saves and renamed files",
        [
            *[("file", TEXT), ("tell", notice("workspace/didChangeConfiguration", {"settings": {}}))],
            *[*OPENED, ("write", TEXT)],
            ("tell", notice("workspace/didChangeWatchedFiles", {"changes": [{"uri": URI, "type": 2}]})),
            ("tell", notice("workspace/didChangeWorkspaceFolders", {"event": {"added": [], "removed": []}})),
            *[("change", [BLANK]), ("write", " " + TEXT), ("ask", "workspace/willRenameFiles", {"files": []})],
            ("ask", "textDocument/willSaveWaitUntil", {"textDocument": {"uri": URI}, "reason": 2}),
        ],
    ),
    Talk(
        "a client that offers everything, and dynamic registration",
        [("open", CONSTANT), ("ask", "textDocument/prepareRename", of(character=6)), ("actions",), ("make",)],
        client=EVERYTHING,
        first={"trace": "off", "locale": "en", "clientInfo": {"name": "x"}, "rootPath": None, "workspaceFolders": None},
        place=(3, 12),
    ),
    Talk("members of every shape in `initialize`", [*OPENED, *MADE], client=ODD_SHAPES, first=ODD_PARAMS),
    Talk(
        "progress tokens in requests",
        [
            *OPENED,
            ("ask", "textDocument/references", of(context={"includeDeclaration": True}, partialResultToken=7)),
            ("ask", HOVER, of(workDoneToken="a")),
            ("ask", RENAME, of(newName="z", workDoneToken="a")),
            *MADE,
        ],
    ),
    Talk(
        "a change that is undone before the edit",
        [*ASKED, ("change", [at(0, 0, "x")]), ("change", [out("0:0-0:1")]), ("make",), ("change", TEXT)],
    ),
    Talk(
        "a reopen with the same text before the edit",
        [("open", TEXT, 4), ("rename",), ("close",), *OPENED, ("make",)],
    ),
    Talk(
        "many documents with strange uris",
        [
            *(step for uri in STRANGE for step in (("at", uri), *OPENED)),
            ("ask", HOVER, of("file:///none")),
            *(step for uri in STRANGE for step in (("at", uri), *MADE)),
            *(step for uri in STRANGE[::2] for step in (("at", uri), ("close",))),
            ("tell", did_close("file:///none")),
        ],
    ),
    Talk(
        "UTF-8 offered among rubbish",
        [("open", LETTERS), *MADE, ("change", [at(1, 14, "x")])],
        client={"general": {"positionEncodings": ["utf-32", None, 1, {}, "utf-8", "utf-16"]}, **CLIENT},
        place=(1, 17),
    ),
    Talk(
        "CR LF, and answers without versions",
        [
            *[("open", CONSTANT.replace("\n", "\r\n")), ("actions",), ("make", Made(action=1))],
            *[("ask", RENAME, of(line=2, newName="z")), ("make",)],
        ],
        client={"textDocument": {"codeAction": {"codeActionLiteralSupport": {}}}},
        place=(3, 12),
    ),
    Talk(
        "requests that nothing is awaited of, around a rename",
        [*OPENED, *QUESTIONS, *MADE, *QUESTIONS, ("await", "h29", 2)],
    ),
    Talk(
        "heads in other letters, one byte at a time",
        [
            *OPENED,
            ("bytes", *(bytes([byte]) for it in HEADS for byte in it % len(QUESTION) + QUESTION)),
            *[("await", "h", 3), *MADE],
        ],
    ),
    Talk(
        "JSON with escapes, doubled members and white space",
        [*OPENED, ("tell", ASKED_IN_JSON), ("await", 5, 1), ("make",)],
    ),
    Talk(
        "a client without capabilities",
        [("open", CONSTANT), ("actions",), *MADE, ("layout",), ("make",)],
        client={},
        place=(2, 4),
    ),
    Talk("an edit in several notifications", [*ASKED, ("make", Made(is_apart=True))]),
    Talk(
        "an edit with CR LF, trimmed blanks, a comment and one more line",
        [*ASKED, ("change", RENAMED.replace(" := ", ":=").replace("\n", "\r\n") + "(* new *)\n"), *TYPED],
    ),
    Talk(
        "a layout with CR LF in several notifications",
        [("open", ON_A_LINE), ("layout",), ("make", Made(is_apart=True, end="\r\n")), ("rename",)],
    ),
    Talk("half of a layout", [("open", ON_A_LINE), ("layout",), ("make", Made(only=1)), *TYPED, *TYPED]),
    Talk(
        "requests that the server doesn't know",
        [*OPENED, *(("ask", it, of(range=extent("0:0-0:0"))) for it in UNKNOWN), *MADE],
    ),
]
