"""Tests the files in editors/ for colouring, file types and indentation: each lists the language's reserved words, and
each works in the tool that reads it, if that is installed."""
from __future__ import annotations

import functools
import json
import os
import re
import shutil
import xml.etree.ElementTree
from collections.abc import Callable

import editors
import package
import snippets
from common import match_of
from harness import TOP, examples, holds, need_program, same, test, text_of, want
from homes import at_home, copy, run_in_terminal, run_plainly, temporary, write
from screen import Screen

PREDECLARED = {"INTEGER", "BOOLEAN", "TRUE", "FALSE", "Read", "Write", "WriteLn"}


@functools.lru_cache(None)
def reserved() -> list[str]:
    """Returns the reserved words that the scanner's source lists."""
    found = re.findall(r'ReservedWord::[A-Z][a-z]+ => "([A-Z]+)"', text_of("crates", "ob0_scan", "src", "lexeme.rt"))
    return sorted(found)


@test("syntax files: docs/LANGUAGE.md lists exactly the scanner's reserved words")
def page() -> None:
    block = match_of(r"The reserved words:\n\n```\n(.*?)```", text_of("docs", "LANGUAGE.md"), re.S)[1]
    same(sorted(block.split()), reserved())
    same(len(reserved()), 21, "how many reserved words")


def vim_words() -> list[str]:
    return [word for line in re.findall(r"^syn keyword (?!ob0Todo)\w+ (.*)$", text_of("editors", "vim", "syntax", "ob0.vim"), re.M) for word in line.split()]


def emacs_words() -> list[str]:
    text = text_of("editors", "emacs", "ob0-mode.el")
    lists = re.findall(r"regexp-opt '\(([^)]*)\) 'words\)", text) + [match_of(r"defconst ob0-keywords\s*'\(([^)]*)\)", text)[1]]
    return [word for it in lists for word in re.findall(r'"(\w+)"', it)]


def kate_words() -> list[str]:
    tree = xml.etree.ElementTree.fromstring(text_of("editors", "kate", "oberon0.xml"))
    lists = {it.get("name") for it in tree.iter("list")}
    same({it.get("String") for it in tree.iter("keyword")}, lists, "the lists that are used")
    return [it.text or "" for it in tree.iter("item")]


def textmate_words() -> list[str]:
    grammar = json.loads(text_of("editors", "vscode", "syntaxes", "oberon0.tmLanguage.json"))
    found = [re.fullmatch(r"\\b\(\?:([A-Za-z|]+)\)\\b", it.get("match", "")) for it in grammar["patterns"]]
    return [word for it in found if it for word in it[1].split("|")]


def kakoune_words() -> list[str]:
    return [word for it in re.findall(r"regex \\b\(([A-Za-z|]+)\)\\b", text_of("editors", "kakoune", "ob0.kak")) for word in it.split("|")]


def gtksourceview_words() -> list[str]:
    tree = xml.etree.ElementTree.fromstring(text_of("editors", "gtksourceview", "oberon0.lang"))
    return [it.text or "" for it in tree.iter("keyword")]


def nano_words() -> list[str]:
    found = re.findall(r'"\\<\(([A-Za-z|]+)\)\\>"', text_of("editors", "nano", "oberon0.nanorc"))
    return [word for it in found for word in it.split("|")]


OF_EDITORS = {
    "Vim": vim_words,
    "Emacs": emacs_words,
    "Kate": kate_words,
    "TextMate": textmate_words,
    "Kakoune": kakoune_words,
    "GtkSourceView": gtksourceview_words,
    "nano": nano_words,
}


def make(name: str, words: Callable[[], list[str]]) -> None:
    @test(f"syntax files: {name}'s file lists each reserved and predeclared word of the language exactly once")
    def are_the_languages() -> None:
        same(sorted(words()), sorted([*reserved(), *PREDECLARED]))


for key, words_of in OF_EDITORS.items():
    make(key, words_of)


SAMPLE = """MODULE M; (* a (* nested *) still (*) open *) *)
VAR Begin: INTEGER; BEGIN Begin := 12 DIV 3; Write(4x) END M.
"""


@test("syntax files: KDE's highlighter colours a sample with Kate's file as expected")
def kate() -> None:
    want("kate-syntax-highlighter")
    with temporary() as room:
        own = at_home(room, "kate")
        for ending in "ob0", "mod", "Mod":
            file = os.path.join(room, f"sample.{ending}")
            write(file, SAMPLE)
            words = ["kate-syntax-highlighter", "--output-format", "ansi", "--syntax-trace", "format", file]
            status, said = run_plainly(words, own, room)
            said = re.sub(r"\x1b\[[0-9;]*[mK]", "", said)
            same(status, 0, said)
            for it in "Keyword", "Comment", "Type", "OperatorWord", "Builtin", "Number", "Error":
                holds(it in said, f"no {it} in what was shown of {file}: {said}")


FOLDED = """MODULE M;
TYPE
  T = RECORD
    a: INTEGER
  END;
PROCEDURE P;
END P;
PROCEDURE Q;
BEGIN
  REPEAT
    IF TRUE THEN (* END
      *) WHILE FALSE DO
      END
    ELSE
    END
  UNTIL TRUE
END Q;
BEGIN
END M.
"""


@test("syntax files: KDE's highlighter folds a module with Kate's file as expected")
def kate_folds() -> None:
    want("kate-syntax-highlighter")
    with temporary() as room:
        own, file = at_home(room, "kate"), os.path.join(room, "folded.mod")
        write(file, FOLDED)
        status, said = run_plainly(["kate-syntax-highlighter", "--output-format", "ansi", "--syntax-trace", "region", file], own, room)
        same(status, 0, said)
    # (the output shows, above each line of the text, the regions that begin `(2--` or end `--2)` in that line)
    folds: list[tuple[int, int]] = []
    opened: dict[str, list[int]] = {}
    line = 0
    for shown in re.sub(r"\x1b\[[0-9;]*[mK]", "", said).split("\n"):
        if line < FOLDED.count("\n") and shown == FOLDED.split("\n")[line]:
            line += 1
            continue
        for begun, ended in re.findall(r"\((\d+)|(\d+)\)", shown):
            if begun:
                opened.setdefault(begun, []).append(line)
            else:
                folds.append((opened[ended].pop(), line))
    same(sorted(folds), [(0, 18), (2, 4), (5, 6), (7, 16), (9, 15), (10, 11), (10, 14), (11, 12)], "the lines of each fold")


@test("syntax files: the commands on Qt Creator's page install Kate's file")
def qtcreator() -> None:
    with temporary() as room:
        at_home(room, "qtcreator")
        same(text_of(room, ".local/share/org.kde.syntax-highlighting/syntax/oberon0.xml"), text_of("editors", "kate", "oberon0.xml"), "the file")


@test("syntax files: the GtkSourceView library highlights a sample module as expected")
def gtksourceview() -> None:
    want("GtkSourceView", "PyGObject", "MIME types")
    with temporary() as room:
        own = at_home(room, "gtksourceview")
        file = os.path.join(room, "sample.Mod")
        write(file, SAMPLE)
        words = ["/usr/bin/python3", os.path.join(TOP, "tests", "editors", "gtksourceview.py"), file]
        status, said = run_plainly(words, own, room)
        same(status, 0, said[-1500:])
        found = json.loads(said.splitlines()[-1])
    same(found["language"], "oberon0", "the language of a .Mod file")
    styles = found["styles"]
    for it in ("nested", "still", "open"):
        holds("comment" in styles[it], f"{it}: {styles[it]}")
    colour: Callable[[str], list[str]] = lambda word: [it for it in styles[word] if it.startswith("rgb")]
    same([len(colour(it)) for it in ("BEGIN", "INTEGER", "12", "Write", "Begin", "4x")], [1, 1, 1, 1, 0, 0], f"colours: {styles}")
    same(colour("BEGIN"), colour("DIV"), "the colour of reserved words")


@test("syntax files: nano colours a sample module as expected")
def nano() -> None:
    want("nano")
    with temporary() as room:
        own = at_home(room, "nano")
        write(os.path.join(room, "sample.mod"), SAMPLE)
        own["LC_ALL"] = "C.UTF-8"
        # (as root, nano reads the home directory from the table of users)
        settings = os.path.join(room, "nanorc")
        write(settings, text_of(room, ".nanorc").replace("~", room))
        with Screen(["nano", f"--rcfile={settings}", "sample.mod"], own, room) as screen:
            # (a coloured word follows the terminal's code for a colour)
            for it in (b"MODULE", b"INTEGER", b"12", b"DIV", b"Write", b"4x"):
                screen.shows(rb"\x1b\[[0-9;]*m(\x1b\(B)?" + it, f"the colour of {it.decode()}")
            holds(not re.search(rb"m(\x1b\(B)?Begin", screen.drawn.replace(b"\x1b[39;49m", b"").replace(b"\x1b(B\x1b[m", b"")), "a plain name has a colour")


@test("syntax files: nano's linter goes to the first error and shows its message")
def nano_lints() -> None:
    want("nano")
    need_program()
    with temporary() as room:
        own = at_home(room, "nano")
        write(os.path.join(room, "faulty.ob0"), "MODULE M;\nVAR x: INTEGER;\nBEGIN\n  x := 1 + y\nEND M.\n")
        settings = os.path.join(room, "nanorc")
        write(settings, text_of(room, ".nanorc").replace("~", room))
        own["LC_ALL"] = "C.UTF-8"
        with Screen(["nano", f"--rcfile={settings}", "--constantshow", "faulty.ob0"], own, room) as screen:
            screen.shows(b"BEGIN", "the module in nano")
            # (Alt+B is another command since nano 8)
            for page in (os.path.join("editors", "nano", "README.md"), os.path.join("docs", "TEACHING.md")):
                holds("Ctrl+T Ctrl+Y" in " ".join(text_of(page).split()), f"{page} has other keys")
            screen.keys(b"\x14\x19")
            screen.shows(b"not declared", "the message of the linter")
            screen.keys(b"\x03")
            screen.shows(rb"line +4/.*col +12/", "the line and the column of the error")


@test("syntax files: the regular expressions of the TextMate grammar colour a sample as expected")
def textmate() -> None:
    want("Ruby")
    with temporary() as room:
        file = os.path.join(room, "sample.mod")
        write(file, SAMPLE)
        words = ["ruby", os.path.join(TOP, "tests", "editors", "tokens.rb"), os.path.join(TOP, "editors", "vscode", "syntaxes", "oberon0.tmLanguage.json"), file]
        status, said = run_plainly(words, {**os.environ, "LC_ALL": "C.UTF-8"}, room)
        same(status, 0, said)
        for it in (
            '0:0-6 keyword.declaration.oberon0 "MODULE"',
            '" still "',
            '1:11-18 support.type.oberon0 "INTEGER"',
            '1:35-37 constant.numeric.integer.oberon0 "12"',
            '1:32-34 keyword.operator.oberon0 ":="',
            '1:38-41 keyword.operator.word.oberon0 "DIV"',
            '1:45-50 support.function.oberon0 "Write"',
            '1:51-53 invalid.illegal.number.oberon0 "4x"',
        ):
            holds(it in said, f"no {it} in\n{said}")
        holds("comment.block.oberon0 comment.block.oberon0 \") open" in said, f"(*) does not open a comment:\n{said}")
        holds("Begin" not in said, f"a plain name has a colour:\n{said}")


# a file's name, its text, and whether it is Oberon-0
FILES = [
    ("a.ob0", "x", True),
    ("a.mod", "MODULE M;", True),
    ("a.Mod", "(* two\n (* lines *) *)\n\n  MODULE M;", True),
    ("go.mod", "module x", False),
    ("tools.mod", "module example.com/x", False),
    ("b.mod", "IMPLEMENTATION MODULE M;", False),
    ("c.mod", "DEFINITION MODULE M;", False),
    ("d.mod", "(* MODULE M; *) x", False),
    # (a mistake in the first line: the file has to be Oberon-0, so that the server reports the mistake)
    ("e.mod", "MODULE New", True),
    ("f.mod", "MODULE New\nVAR x: INTEGER;\nBEGIN x := 1 END New.", True),
    ("g.mod", "MODULE New();\nEND New.", True),
    ("h.mod", "MODULE New.\nEND New.", True),
    ("i.mod", "\n(* a (* b *) *)\nMODULE;\nEND New.", True),
    ("j.mod", "MODULE my_prog;\nEND my_prog.", True),
    ("k.mod", "MODULE 1st;\nEND 1st.", True),
    ("l.Mod", "MODULE", True),
    ("m.mod", "MODULES M;", False),
    ("n.mod", "Module M;", True),
    ("q.mod", "module m;\nbegin end m.", True),
    ("r.mod", "(* a *) mODULE", True),
    ("s.mod", "modules m;", False),
    ("o.mod", "MODULE_M;", False),
    ("p.mod", "(* MODULE M;", False),
]
COLOURS = [
    (1, "MODULE", "Keyword"),
    (1, "nested", "Comment"),
    (1, "still", "Comment"),
    (1, "open", "Comment"),
    (2, "Begin", ""),
    (2, "INTEGER", "Type"),
    (2, "12", "Number"),
    (2, "DIV", "Operator"),
    (2, "4x", "Error"),
    (2, "Write", "Builtin"),
]


RECORD = """MODULE R;
TYPE
  T = RECORD
    a: INTEGER;
    b: RECORD
      c: INTEGER
    END
  END;
VAR
  t: T;
  PROCEDURE P;
  BEGIN
    t.a := 1
  END P;
BEGIN
  t.b.c := 2
END R.
"""


# (below the heading of Q each line is indented as if everything above it were complete)
BROKEN = """MODULE B;
  PROCEDURE P(
  VAR
    r: RECORD
      x
  PROCEDURE Q;
  BEGIN
    IF TRUE THEN
      Write(1)
    END
  END Q;
BEGIN
  Q
END B.
"""


def by_vim(editor: str, words: list[str], name: str) -> None:
    """Tests file types, colours, indentation, :make and :Ob0Run in Vim or Neovim."""
    need_program()
    with temporary() as room:
        own = at_home(room, editor)
        rc = os.path.join(room, "rc.vim")
        write(rc, "set nocompatible\nsyntax on\nfiletype plugin indent on\n")
        work = os.path.join(room, "work")
        for file, text, _ in FILES:
            write(os.path.join(work, file), text)
        write(os.path.join(work, "sample.mod"), SAMPLE)
        write(os.path.join(work, "faulty.ob0"), "MODULE M;\nBEGIN x := 1 END M.\n")
        write(os.path.join(work, "record.mod"), RECORD)
        write(os.path.join(work, "broken.mod"), BROKEN)
        for it in examples():
            write(os.path.join(work, os.path.basename(it)), text_of(it))
        report = os.path.join(room, "report")
        own.update(OB0_REPORT=report, OB0_WORK=work, OB0_FILES=json.dumps([it[0] for it in FILES]), OB0_COLOURS=json.dumps(COLOURS))
        own["OB0_EXAMPLES"] = json.dumps([os.path.basename(it) for it in examples()])
        words = [it.replace("RC", rc) for it in words]
        status, said = run_in_terminal([*words, "-S", os.path.join(TOP, "tests", "editors", "files.vim")], own, room)
        same(status, 0, said[-500:])
        found = json.loads(text_of(report))
    same([it == "ob0" for it in found["types"]], [it[2] for it in FILES], f"what {name} takes as Oberon-0: {found['types']}")
    same(found["colours"], [f"ob0{it[2]}" if it[2] else "" for it in COLOURS], "the colours")
    same(found["refused"], "line 2, column 7: Undeclared: not declared", "what :Ob0Run says of a module with an error")
    same(found["faults"], [[2, 8, "Undeclared: not declared"]], "what :make finds in a text that isn't saved yet")
    same(found["broken"], [], "lines that are indented by more than the heading above")
    same(found["indented"], [], "examples that are indented differently from the server's layout")
    same(found["commented"], "(* x := 1 *)", "a comment by 'commentstring'")
    same(found["new"], [False, True], "whether a new file is Oberon-0, before and after it is saved")
    same(found["ran"], "42", "what :Ob0Run shows of a text that isn't saved yet")
    same(found["lacking"], "There is no program no-such-program: set g:ob0_program to its path", "what :Ob0Run says without it")
    same(found["terminal"], [1, 1], "whether :Ob0Run says how input ends, and runs in a terminal")
    same(found["record"], [], "a record over several lines")
    same(found["matched"], 1, "the line that % on the module's END leads to")


@test("syntax files: in Vim, modules get the expected file type, colours, :make errors and indentation")
def in_vim() -> None:
    want("Vim")
    by_vim("vim", ["vim.nox", "-n", "-i", "NONE", "-u", "RC"], "Vim")


@test("syntax files: in Neovim, modules get the expected file type, colours, :make errors and indentation")
def in_neovim() -> None:
    want("Neovim")
    by_vim("neovim", ["nvim", "-n", "-i", "NONE", "-u", "RC"], "Neovim")


def helped(editor: str, words: list[str], name: str) -> None:
    """Sets an editor up by the commands on its page. Then tests that `:helptags` indexes Vim's help page and that
    `:help` shows it."""
    with temporary() as room:
        own = at_home(room, editor)
        report, page = os.path.join(room, "report"), text_of("editors", "vim", "doc", "ob0.txt")
        tags = [it.split("\t")[0] for it in package.help_tags().decode().splitlines()]
        steps = ["let r = []", "helptags ALL", "help ob0", "call add(r, [&filetype, expand('%:t')])"]
        steps += [f"help {it} | call add(r, expand('<cWORD>'))" for it in tags]
        write(os.path.join(room, "steps.vim"), "\n".join([*steps, f"call writefile([json_encode(r)], '{report}')", "qall!", ""]))
        status, drawn = run_in_terminal([*words, "-S", os.path.join(room, "steps.vim")], own, room)
        holds(os.path.exists(report), f"{name} said nothing, and ended with {status}: {drawn[-500:]!r}")
        same(json.loads(text_of(report)), [["help", "ob0.txt"], *(f"*{it}*" for it in tags)], "the help page, and the target of each tag")
        found = [os.path.join(at, "tags") for at, _, files in os.walk(room) if at.endswith("/vim/doc") and "tags" in files]
        same([text_of(it) for it in found], [package.help_tags().decode()], "the tags that are packed")
        same(sorted({*re.findall(r"\|(\S+?)\|", page)} - {*tags}), [":clist"], "what the page links to, besides itself")


@test("syntax files: Vim finds `:help ob0` and each of its tags after `:helptags ALL`")
def help_in_vim() -> None:
    want("Vim")
    helped("vim", ["vim.nox", "-n", "-i", "NONE"], "Vim")


@test("syntax files: Neovim finds `:help ob0` and each of its tags after `:helptags ALL`")
def help_in_neovim() -> None:
    want("Neovim")
    helped("neovim", ["nvim", "-n", "-i", "NONE"], "Neovim")


def managed(words: list[str], name: str, folders: list[str], lines: list[str], shell: str = "", helptags: str = "helptags ALL") -> None:
    """Tests a plugin manager: copies folders of editors/ to ~/ob0, runs the shell commands, and checks that Vim or
    Neovim with these settings recognizes a module and finds `:help ob0`."""
    with temporary() as room:
        # (without the program: if an editor ended at once, it would end the server while that starts)
        kept = {key: value for key, value in os.environ.items() if not key.startswith("XDG_")}
        own, report = {**kept, "HOME": room, "TERM": "xterm"}, os.path.join(room, "report")
        for it in folders:
            copy(os.path.join(TOP, "editors", it), os.path.join(room, "ob0", "editors", it))
        same(run_plainly(["sh", "-e", "-c", shell], own, room), (0, ""), shell)
        write(os.path.join(room, "rc.vim"), "\n".join(["set nocompatible", *lines, "filetype plugin indent on", "syntax on", ""]))
        write(os.path.join(room, "new.mod"), SAMPLE)
        found = "[&filetype, &shiftwidth, exists(':Ob0Run'), exists('b:current_syntax'), exists('g:loaded_ob0')]"
        steps = [helptags, "edit new.mod", f"let r = {found}", "help ob0", "call add(r, expand('%:t'))"]
        write(os.path.join(room, "steps.vim"), "\n".join([*steps, f"call writefile([json_encode(r)], '{report}')", "qall!", ""]))
        rest = ["-n", "-i", "NONE", "-u", os.path.join(room, "rc.vim"), "-S", os.path.join(room, "steps.vim")]
        status, drawn = run_in_terminal([*words, *rest], own, room)
        holds(os.path.exists(report), f"{name} said nothing, and ended with {status}: {drawn[-500:]!r}")
        same(json.loads(text_of(report)), ["ob0", 2, 2, 1, len(folders) - 1, "ob0.txt"], f"a module in {name}")


@test("syntax files: Vim loads ob0's files from a folder in 'runtimepath', where plugin managers install them")
def managed_in_vim() -> None:
    want("Vim")
    managed(["vim.nox"], "Vim", ["vim"], ["set runtimepath+=~/a\\ copy"], "mv ob0/editors/vim 'a copy'")


@test("syntax files: Neovim loads ob0's files from folders in 'runtimepath', where plugin managers install them")
def managed_in_neovim() -> None:
    want("Neovim")
    lines = ["set runtimepath+=~/a\\ copy/vim", "set runtimepath+=~/a\\ copy/neovim"]
    managed(["nvim"], "Neovim", ["vim", "neovim"], lines, "mv ob0/editors 'a copy'")


# the lines in Vim's settings for Debian's Pathogen
PATHOGEN = [f"set runtimepath+={os.path.dirname(os.path.dirname(editors.PATHOGEN))}", "execute pathogen#infect()"]


def by_pathogen(editor: str) -> str:
    """Returns the commands for Pathogen on Vim's page, which gives one block for each of the two editors."""
    (found,) = (it for it in snippets.snippets("vim", "") if "vim/bundle/" in it and ("neovim" in it) == (editor == "neovim"))
    return found


@test("syntax files: Pathogen loads ob0's files in Vim after the commands on Vim's page")
def pathogen_in_vim() -> None:
    want("Vim", "Pathogen")
    managed(["vim.nox"], "Vim", ["vim"], PATHOGEN, by_pathogen("vim"), "Helptags")


@test("syntax files: Pathogen loads ob0's files in Neovim after the commands on Vim's page")
def pathogen_in_neovim() -> None:
    want("Neovim", "Pathogen")
    managed(["nvim"], "Neovim", ["vim", "neovim"], PATHOGEN, by_pathogen("neovim"), "Helptags")


@test("syntax files: package-install-file and use-package install ob0-mode as the Emacs page says")
def managed_in_emacs() -> None:
    want("Emacs", "eglot", "use-package")
    (lines,) = (it for it in snippets.snippets("emacs", "elisp") if "(use-package" in it)
    (file,) = re.findall(r"`M-x package-install-file RET (\S+) RET`", text_of("editors", "emacs", "README.md"))
    with temporary() as room:
        own = {**os.environ, "HOME": room, "LC_ALL": "C.UTF-8"}
        copy(os.path.join(TOP, "editors", "emacs"), os.path.join(room, "ob0", "editors", "emacs"))
        write(os.path.join(room, "new.mod"), SAMPLE)
        write(os.path.join(room, "init.el"), lines)
        words = ["emacs", "--batch", "--eval", "(progn (require 'package) (package-initialize))"]
        status, said = run_plainly([*words, "--eval", f'(package-install-file "{file}")'], own, room)
        same(status, 0, said)
        modes = ["--eval", "(find-file \"new.mod\")", "--eval", '(princ (format "%S %S\n" major-mode (memq \'eglot-ensure ob0-mode-hook)))']
        same(run_plainly([*words, *modes], own, room)[1].splitlines()[-1], "ob0-mode nil", "the mode of the package")
        shutil.rmtree(os.path.join(room, ".emacs.d"))
        same(run_plainly([*words, "-l", "init.el", *modes], own, room)[1].splitlines()[-1], "ob0-mode (eglot-ensure)", "by use-package")


@test("syntax files: Vim's help page shows the same settings as the editors' pages")
def help_blocks() -> None:
    text = text_of("editors", "vim", "doc", "ob0.txt")
    blocks = ["".join(f"{it[1:]}\n" for it in found.splitlines()) for found in re.findall(r" >\n\n((?:\t.*\n)+)<", text)]
    of_pages = [*snippets.snippets("neovim", "lua"), *snippets.snippets("vim", "viml"), *snippets.snippets("vim", "vim")]
    same(blocks, of_pages)
    holds(text.isascii(), "its tags would begin with their encoding")


@test("syntax files: in Emacs, file types, colours, indentation, index, check and run have the expected results")
def in_emacs() -> None:
    want("Emacs")
    need_program()
    with temporary() as room:
        own = at_home(room, "emacs")
        own.update(OB0_TOP=TOP, OB0_EXAMPLES=json.dumps([os.path.join(TOP, it) for it in examples()]))
        own["OB0_FILES"] = json.dumps([[it[0], it[1], it[2]] for it in FILES])
        own.update(OB0_RECORD=json.dumps(RECORD), OB0_BROKEN=json.dumps(BROKEN))
        words = ["emacs", "--batch", "-L", os.path.join(room, ".emacs.d", "lisp"), "-l", "ob0-mode"]
        status, said = run_plainly([*words, "-l", os.path.join(TOP, "tests", "editors", "mode.el"), "-f", "ert-run-tests-batch-and-exit"], own, room)
        same(status, 0, said[-3000:])
        compile_words = ["emacs", "--batch", "--eval", "(setq byte-compile-error-on-warn t)", "-f", "batch-byte-compile"]
        status, said = run_plainly([*compile_words, os.path.join(room, ".emacs.d", "lisp", "ob0-mode.el")], own, room)
        same(status, 0, said[-2000:])


@test("syntax files: Kakoune recognizes, lints with hints, formats and comments modules as expected")
def in_kakoune() -> None:
    want("Kakoune")
    need_program()
    with temporary() as room:
        own = at_home(room, "kakoune")
        write(os.path.join(room, ".config", "kak", "kakrc"), "\n".join(snippets.snippets("kakoune", "kak")))
        work = os.path.join(room, "work")
        for file, text, _ in FILES:
            write(os.path.join(work, file), text)
        write(os.path.join(work, "faulty.Mod"), "MODULE M;\nBEGIN x := 1;\n  inc(y) END M.\n")
        report = os.path.join(room, "report")
        os.makedirs(report)
        own.update(OB0_WORK=work, OB0_REPORT=report)
        script = os.path.join(TOP, "tests", "editors", "kakoune.sh")
        status, said = run_plainly(["sh", script, *(it[0] for it in FILES)], own, work)
        same(status, 0, said[-2000:])
        types = [text_of(report, it[0]) == "ob0" for it in FILES]
        same(types, [it[2] for it in FILES], f"what Kakoune takes as Oberon-0: {said}")
        found = text_of(report, "faulty")
        holds("2|error: Undeclared: not declared(col 7)" in found, f"lint: {found}")
        hint = "3|error: Undeclared: not declared(col 3)\nhint: there is no inc: `x := x + 1`(col 3)"
        holds(hint in found, f"lint shows a hint below the message: {found}")
        holds("Undeclared" not in text_of(report, "mended"), "lint: " + text_of(report, "mended"))
        same(text_of(report, "unsaved"), "", "the type of a new file")
        same(text_of(report, "saved"), "ob0", "the type of a new file once it is saved")
        same(text_of(report, "formatted"), "MODULE N;\nBEGIN\n  WriteLn\nEND N.\n", "the text after :format")
        faulty = "MODULE N;BEGIN x END N.\n formatter returned an error (exit code 1)"
        same(text_of(report, "faulty_formatted"), faulty, "a module with an error after :format, and the message")
        same(text_of(report, "commented"), "MODULE N; END N.\n", "the text after :comment-line")


@test("syntax files: Kakoune indents a module that is typed line by line as the server would format it")
def kakoune_indents() -> None:
    want("Kakoune")
    with temporary() as room:
        own = at_home(room, "kakoune")
        for name in [*examples(), "record"]:
            text = RECORD if name == "record" else text_of(name)
            keys = {"<": "<lt>", ">": "<gt>", "'": "''"}
            lines = ["".join(keys.get(sign, sign) for sign in line.strip()) for line in text.rstrip("\n").split("\n")]
            file = os.path.join(room, f"{os.path.basename(name)}.ob0")
            script = f"edit '{file}'; execute-keys -with-hooks 'i{'<ret>'.join(lines)}<esc>'; write; kill!"
            status, said = run_plainly(["timeout", "-k", "10", "300", "kak", "-ui", "dummy", "-e", script], own, room)
            holds(os.path.exists(file), f"{name}: Kakoune ended with {status}: {said[-500:]}")
            same(text_of(file), text, f"{name}, unchanged")


@test("syntax files: the settings of Kate and VS Code start the server, and mention only files that exist")
def settings() -> None:
    server = json.loads(text_of("editors", "kate", "settings.json"))["servers"]["oberon0"]
    same(server["command"], ["ob0", "serve"], "Kate's command")
    holds(re.search(server["highlightingModeRegex"], "Oberon-0"), "Kate's mode")
    package = json.loads(text_of("editors", "vscode", "package.json"))
    # (VS Code reads only the first line, in files that no other rule claims)
    first = re.compile(package["contributes"]["languages"][0]["firstLine"])
    for file, text, taken in FILES:
        line = text.split("\n")[0]
        if "module" in line.lower() and "(* two" not in line and file != "go.mod":
            same(bool(first.search(line)), taken, f"whether VS Code takes {line} as Oberon-0")
    for it in package["main"], package["contributes"]["languages"][0]["configuration"], package["contributes"]["grammars"][0]["path"]:
        holds(os.path.isfile(os.path.join(TOP, "editors", "vscode", it)), f"package.json names {it}")
    json.loads(text_of("editors", "vscode", "language-configuration.json"))


@test("syntax files: the settings of Helix and kak-lsp start the server")
def settings_in_toml() -> None:
    want("Python 3.11")
    import tomllib  # pylint: disable=import-outside-toplevel

    with temporary() as room:
        at_home(room, "helix")
        helix = tomllib.loads(text_of(room, ".config", "helix", "languages.toml"))
    same(helix["language-server"]["ob0"], {"command": "ob0", "args": ["serve"]}, "Helix's server")
    same(helix["language"][0]["language-servers"], ["ob0"], "Helix's language")
    kak = tomllib.loads(text_of("editors", "kakoune", "kak-lsp.toml"))["language"]["ob0"]
    same((kak["command"], kak["args"]), ("ob0", ["serve"]), "kak-lsp's server")
