"""Tests the grammar in editors/tree-sitter: cc compiles its parser, and Neovim, which contains the tree-sitter library,
parses with it."""
from __future__ import annotations

import functools
import json
import os
import re
from typing import Any

import random_texts
from common import match_of
from harness import TOP, Server, did_open, examples, holds, names_in, need_program, same, test, text_of, want
from homes import at_home, copy, run_plainly, temporary, write
from snippets import fenced

FOLDER = os.path.join(TOP, "editors", "tree-sitter")
SAMPLE = """MODULE M; (* a (* nested *) still (*) open *) *)
CONST limit = 12 DIV 3;
TYPE Row = ARRAY limit OF INTEGER;
VAR rows: Row; flag: BOOLEAN;
PROCEDURE Put(VAR cell: INTEGER);
BEGIN cell := 4 END Put;
BEGIN
  IF ~flag OR TRUE THEN
    Put(rows[0]);
    Write(limit)
  END
END M.
"""
# a word of the sample (the first one, after comments) and its capture, by Neovim's names and by Helix's
COLOURS = [
    ("MODULE", "keyword", "keyword"), ("still", "comment", "comment"), ("open", "comment", "comment"), ("limit", "constant", "constant"),
    ("12", "number", "constant.numeric.integer"), ("DIV", "keyword.operator", "keyword.operator"), ("Row", "type.definition", "type"),
    ("INTEGER", "type.builtin", "type.builtin"), ("rows", "variable", "variable"), ("PROCEDURE", "keyword.function", "keyword"),
    ("Put", "function", "function"), ("cell", "variable.parameter", "variable.parameter"), ("IF", "keyword.conditional", "keyword.control"),
    ("~", "operator", "operator"), ("OR", "keyword.operator", "keyword.operator"), ("TRUE", "boolean", "constant.builtin.boolean"),
    ("Write", "function.builtin", "function.builtin"),
]  # fmt: skip
# the queries of Neovim and of Helix, below the folder `queries`
QUERIES = ["highlights", "folds", "helix/highlights", "helix/indents"]
# the first and last lines, counted from 0, of the parts that can be folded
FOLDS = [(4, 5), (6, 10), (7, 10)]
# errors that the grammar doesn't know, or after which nothing else is reported
OTHER_FAULTS = {"NumberTooLarge", "TooDeep", "TooLong"}
LEXICAL = {"BadChar", "NumberJoinsLetter"}


def compiled(room: str) -> str:
    """Compiles the parser. Returns the path of the library in the temporary folder."""
    want("cc", "Neovim")
    library = os.path.join(room, "oberon0.so")
    sources = [os.path.join(FOLDER, "src", it) for it in ("parser.c", "scanner.c")]
    words = ["cc", "-shared", "-fPIC", "-O1", "-Wall", "-Werror", f"-I{FOLDER}/src", *sources, "-o", library]
    status, said = run_plainly(words, dict(os.environ), room)
    same((status, said), (0, ""), "what the compiler says")
    return library


@functools.lru_cache(None)
def read_by_neovim(texts: tuple[str, ...]) -> Any:
    """Parses the texts in Neovim. Returns whether each has an error, the trees, and what the queries capture in
    SAMPLE."""
    with temporary() as room:
        write(os.path.join(room, "given"), json.dumps({"texts": texts, "text": SAMPLE, "queries": QUERIES}))
        own = {**os.environ, "HOME": room, "OB0_PARSER": compiled(room), "OB0_QUERIES": os.path.join(FOLDER, "queries")}
        own.update(OB0_GIVEN=os.path.join(room, "given"), OB0_REPORT=os.path.join(room, "report"))
        script = os.path.join(TOP, "tests", "editors", "treesitter.lua")
        # (Neovim would wait after an error of the script)
        words = ["nvim", "--headless", "-n", "-i", "NONE", "-u", "NONE", "-c", f"luafile {script}", "-c", "cquit"]
        status, said = run_plainly(words, own, room)
        holds(status == 0 and os.path.exists(own["OB0_REPORT"]), said[-1500:])
        return json.loads(text_of(own["OB0_REPORT"]))


def correct_texts() -> list[str]:
    """Returns the modules of the examples, the answers to the exercises and the tutorial, except the module with a
    syntax error."""
    answers = os.path.join("tests", "answers")
    found = [text_of(it) for it in [*examples(), *(os.path.join(answers, it) for it in names_in(answers))]]
    return found + [text for language, text in fenced("docs/TUTORIAL.md") if language == "oberon" and "MODULE Broken" not in text]


@test("tree-sitter: the parser finds no error in the modules of the examples, answers and tutorial")
def trees() -> None:
    texts = tuple(correct_texts())
    same([text[:40] for text, faulty in zip(texts, read_by_neovim(texts)["faulty"]) if faulty], [], "those with an error")


def codes(server: Server, text: str) -> set[str]:
    return {it["code"] for it in server.notify(did_open(text))}


@test("tree-sitter: the parser finds an error in the same random texts as ob0's scanner and parser")
def agrees() -> None:
    need_program()
    texts = [random_texts.changed_module(seed, swap) for seed in range(100) for swap in (False, True)]
    wanted = []
    with Server() as server:
        for text in texts:
            found = codes(server, text)
            unclear = found & OTHER_FAULTS
            # (an open comment goes to the end of the text, so END is missing)
            wanted.append(None if unclear else bool(found & {"Syntax", "OpenComment", *LEXICAL}))
    invalid, valid = wanted.count(True), wanted.count(False)
    holds(invalid > 50 and valid > 50, f"{invalid} texts with such an error, {valid} without")
    got = read_by_neovim(tuple(texts))["faulty"]
    same([text for text, due, came in zip(texts, wanted, got) if due is not None and due != came], [], "the texts that are read differently")


@test("tree-sitter: the queries find the expected colours for Neovim and Helix, folds for Neovim, and some indents")
def queries() -> None:
    found = read_by_neovim((SAMPLE,))
    same(found["faulty"], [False], "the sample")
    lines = SAMPLE.split("\n")
    for word, *captures in COLOURS:
        pattern = rf"\b{word}\b" if word.isalnum() else re.escape(word)
        row, column = next((at, found_at.start()) for at, line in enumerate(lines) for found_at in re.finditer(pattern, line))
        for name, capture in zip(("highlights", "helix/highlights"), captures):
            inside = [it for it, *span in found["captures"][name] if tuple(span[:2]) <= (row, column) < tuple(span[2:])]
            same(inside, [capture], f"the captures of {word} by {name}")
    folds = [(it[1], it[3]) for it in found["captures"]["folds"] if it[1] != it[3]]
    same(folds, FOLDS, "the folds over several lines")
    holds(found["captures"]["helix/indents"], "the query of indents finds something")


def corpus() -> list[tuple[str, str, str]]:
    """Returns the name, the text and the tree of each case in test/corpus. The tree is empty if an error is
    expected."""
    found = []
    for it in sorted(os.listdir(os.path.join(FOLDER, "test", "corpus"))):
        parts = re.split(r"^=+\n(.*\n(?::error\n)?)=+\n", text_of(FOLDER, "test", "corpus", it), flags=re.M)
        for heading, rest in zip(parts[1::2], parts[2::2]):
            text, _, tree = rest.partition("\n---\n")
            same((":error" in heading, not tree.strip()), (True, True) if ":error" in heading else (False, False), heading)
            found.append((heading.split("\n")[0], text, " ".join(tree.split())))
    return found


@test("tree-sitter: each text of test/corpus is parsed to the tree that is given there, or has the expected error")
def trees_of_corpus() -> None:
    cases = corpus()
    found = read_by_neovim(tuple(text for _, text, _ in cases))
    for (name, _, wanted), faulty, tree in zip(cases, found["faulty"], found["trees"]):
        same(faulty, not wanted, f"an error in {name}")
        if wanted:
            same(re.sub(r"\w+: ", "", tree).replace(" )", ")"), wanted, name)
    holds(len(cases) > 8, f"{len(cases)} cases")


@test("tree-sitter: the grammar's files follow tree-sitter's conventions, and all use the grammar's name")
def conventions() -> None:
    about = json.loads(text_of(FOLDER, "tree-sitter.json"))
    (grammar,) = about["grammars"]
    holds(os.path.isfile(os.path.join(FOLDER, grammar["highlights"])), "the query that it names")
    begins = [bool(re.match(grammar["content-regex"], it)) for it in ("(* a *)\n(* b *) MODULE M;", "module x")]
    same(begins, [True, False], "the first word")
    made = json.loads(text_of(FOLDER, "src", "grammar.json"))
    written = text_of(FOLDER, "grammar.js")
    same({made["name"], grammar["name"], match_of(r'name: "(\w+)"', written)[1]}, {"oberon0"}, "its name")
    same(list(made["rules"]), re.findall(r"^    (\w+): \(", written, re.M), "the rules of grammar.json")
    kinds = {it["type"] for it in json.loads(text_of(FOLDER, "src", "node-types.json")) if it["named"]}
    same(kinds, {it for it in made["rules"] if not it.startswith("_")} | {"comment"}, "the kinds of node-types.json")
    same(grammar["file-types"], ["ob0", "mod", "Mod"], "its endings")


@test("tree-sitter: the grammar and its colour queries contain exactly the language's reserved words")
def words() -> None:
    block = match_of(r"The reserved words:\n\n```\n(.*?)```", text_of("docs", "LANGUAGE.md"), re.S)[1]
    found = {*re.findall(r'"([A-Z]+)"', text_of(FOLDER, "grammar.js"))}
    same(sorted(found), sorted(block.split()), "the words")
    for name in ("highlights.scm", "helix/highlights.scm"):
        in_query = re.findall(r'"([A-Z]+)"', re.sub(r"\(#.*", "", text_of(FOLDER, "queries", name)))
        same(sorted(in_query), sorted(block.split()), f"the words that {name} colours")


@test("tree-sitter: the commands on tree-sitter's and Helix's pages compile the parser and copy its queries")
def installed() -> None:
    want("cc")
    for page, library, queries_at, own in (
        ("tree-sitter", ".local/share/nvim/site/parser/oberon0.so", ".local/share/nvim/site/queries/oberon0", "."),
        ("helix", ".config/helix/runtime/grammars/oberon0.so", ".config/helix/runtime/queries/oberon0", "helix"),
    ):
        with temporary() as room:
            at_home(room, page)
            holds(os.path.getsize(os.path.join(room, library)), library)
            given = os.path.join(FOLDER, "queries", own)
            wanted = {it: text_of(given, it) for it in os.listdir(given) if it.endswith(".scm")}
            same({it: text_of(room, queries_at, it) for it in os.listdir(os.path.join(room, queries_at))}, wanted, page)


@test("tree-sitter: parser.c, grammar.json and node-types.json equal the output of `tree-sitter generate`")
def generated() -> None:
    want("tree-sitter 0.22")  # (tree-sitter-cli of Debian 13)
    with temporary() as room:
        copy(os.path.join(FOLDER, "grammar.js"), room)
        status, said = run_plainly(["tree-sitter", "generate", "--no-bindings"], {**os.environ, "HOME": room}, room)
        same(status, 0, said)
        for it in ("parser.c", "grammar.json", "node-types.json"):
            same(text_of(room, "src", it), text_of(FOLDER, "src", it), it)
