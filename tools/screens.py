#!/usr/bin/env python3
"""Makes README's picture of an editor at work from a terminal's screen: docs/pictures/editor.svg.

  tools/screens.py [FILE]   has Neovim and bin/ob0 (or the program that the variable OB0 names) play two scenes in tmux, and draws what
                            its screen shows into docs/pictures/editor.svg, or into FILE

The scenes: a name that isn't declared is typed, and marked; a rename is refused, because it would capture a use. It needs Neovim and tmux.
Neovim reads only ob0's files, from editors/. Each colour is the terminal's own; the same version of Neovim gives the same bytes."""
from __future__ import annotations

import os
import re
import shutil
import subprocess
import sys
import tempfile
import time
from html import escape
from typing import Any, List, NamedTuple, Optional, Tuple

import common
from svg import MONO, Picture

EDITORS = os.path.join(common.TOP, "editors")
EXAMPLE = os.path.join(common.TOP, "examples", "Search.mod")
PICTURE = os.path.join(common.TOP, "docs", "pictures", "editor.svg")
COLUMNS, ROWS = 80, 13
WIDTH, HEIGHT, SIZE, EDGE, TITLE = 8.4, 18, 14, 14, 26
SECONDS = 120  # the longest time to wait for a screen
# a terminal's sixteen colours, its background and its text colour; the picture has them on light and on dark screens
NAMED = "484f58 ff7b72 3fb950 d29922 58a6ff bc8cff 39c5cf b1bac4 6e7681 ffa198 56d364 e3b341 79c0ff d2a8ff 56d4dd ffffff".split()
PAPER, INK = "#0d1117", "#e6edf3"


class Scene(NamedTuple):
    """A scene of the picture: the title above it, the keys to press one after another, and a text that the screen shows
    at the end."""

    title: str
    keys: List[str]
    shows: str


SCENES = [
    Scene("A name that isn't declared is marked as you write", ["16Gzz", "A", " - lwo", "Escape"], "not declared"),
    Scene(
        "Renaming a to low is refused: in line 15 it would refer to another variable",
        ["4Gzt", "jw", "grn", "C-u", "low", "Enter"],
        "would refer to another",
    ),
]
# (ob0's files from the repository, the keys from their page, and a screen without parts that change between runs)
SETTINGS = """
set nocompatible noswapfile shortmess=aoOtTIWAFc laststatus=0 noruler noshowcmd signcolumn=yes number scrolloff=0 background=dark shada=
set noshowmode nowrap guicursor=
let &runtimepath = '{editors}/vim,{editors}/neovim,' . $VIMRUNTIME
let g:ob0_program = '{program}'
filetype plugin indent on
syntax on
highlight SignColumn ctermbg=NONE
nnoremap grn <Cmd>lua vim.lsp.buf.rename()<CR>
"""


class Style(NamedTuple):
    """The style of a letter: its colour, its background and the colour of its underline (or None for the terminal's own
    colour), and whether it is bold, underlined or shown in reverse colours."""

    colour: Optional[str] = None
    behind: Optional[str] = None
    under: Optional[str] = None
    bold: bool = False
    line: bool = False
    turned: bool = False


def colour_of(index: int) -> str:
    """Returns the colour with this number among a terminal's 256 colours."""
    if index < 16:
        return "#" + NAMED[index]
    if index >= 232:
        return "#" + f"{8 + 10 * (index - 232):02x}" * 3
    parts = [(index - 16) // 36, (index - 16) // 6 % 6, (index - 16) % 6]
    return "#" + "".join(f"{55 + 40 * it if it else 0:02x}" for it in parts)


def taken(style: Style, codes: list[int]) -> Style:
    """Returns the style after a sequence of colour codes, if `style` is the style before it."""
    while codes:
        code, *codes = codes
        if code in (38, 48, 58):
            if codes[0] == 5:
                colour, codes = colour_of(codes[1]), codes[2:]
            else:
                colour, codes = "#" + "".join(f"{it:02x}" for it in codes[1:4]), codes[4:]
            # (58 sets the colour of the underline)
            style = {38: style._replace(colour=colour), 48: style._replace(behind=colour), 58: style._replace(under=colour)}[code]
        elif code == 0:
            style = Style()
        elif code in (1, 22):
            style = style._replace(bold=code == 1)
        elif code in (4, 24):
            style = style._replace(line=code == 4)
        elif code in (7, 27):
            style = style._replace(turned=code == 7)
        elif 30 <= code < 40 or 90 <= code < 98:
            style = style._replace(colour=None if code == 39 else colour_of(code - 30 if code < 40 else code - 82))
        elif 40 <= code < 50 or 100 <= code < 108:
            style = style._replace(behind=None if code == 49 else colour_of(code - 40 if code < 50 else code - 92))
    return style


Run = Tuple[Style, str]


def runs_of(line: str, style: Style) -> tuple[list[Run], Style]:
    """Splits a screen's line into parts with one style each. Also returns the style at the end of the line."""
    found: list[Run] = []
    for text, codes in re.findall(r"([^\x1b]*)(?:\x1b\[([0-9;:]*)m|\x1b.|$)", line):
        if text:
            found.append((style, text))
        if codes:
            style = taken(style, [int(it or 0) for it in re.split("[;:]", codes)])
    return found, style


def draw_screen(drawn: Picture, screen: str, top: float) -> None:
    """Draws a terminal's screen into a picture, from the height `top` downwards."""
    style = Style()
    for row, line in enumerate(screen.split("\n")[:ROWS]):
        runs, style = runs_of(line, style)
        column, y = 0, top + row * HEIGHT
        for it, text in runs:
            ink, paper = (it.behind or PAPER, it.colour or INK) if it.turned else (it.colour or INK, it.behind)
            x, width = EDGE + column * WIDTH, len(text) * WIDTH
            if paper:
                drawn.add("rect", x=x, y=y, width=width, height=HEIGHT, fill=paper)
            blanks = len(text) - len(text.lstrip(" "))
            shown = text.strip(" ")
            if shown:
                more = {"font_weight": "bold"} if it.bold else {}
                place = {"x": x + blanks * WIDTH, "y": y + 13, "textLength": len(shown) * WIDTH}
                drawn.add("text", escape(shown), **place, fill=ink, font_size=SIZE, class_="terminal", **more)
                if it.line:
                    drawn.add("rect", x=place["x"], y=y + 15, width=place["textLength"], height=1.5, fill=it.under or ink)
            column += len(text)


def picture_of(screens: list[str], version: str) -> str:
    """Returns the picture as SVG: the title and the screen of each scene, one below the other."""
    width, height = COLUMNS * WIDTH + 2 * EDGE, len(screens) * (TITLE + ROWS * HEIGHT + 12) + 6
    drawn = Picture(width, height, f"ob0 in {version}: " + "; ".join(it.title for it in SCENES))
    drawn.add("style", f".terminal{{font-family:{MONO};white-space:pre}}")
    drawn.add("rect", width=width, height=height, rx=8, fill=PAPER, stroke="#6e7681")
    for at, screen in enumerate(screens):
        top = at * (TITLE + ROWS * HEIGHT + 12) + 6
        drawn.add("text", escape(SCENES[at].title), x=EDGE, y=top + 17, fill="#79c0ff", font_size=14, font_weight="bold")
        draw_screen(drawn, screen, top + TITLE)
    return drawn.svg()


class Terminal:
    """Neovim in a tmux terminal, with a separate home folder."""

    def __init__(self, room: str) -> None:
        # (each terminal has its own tmux server, because a server that is ending may still answer the next one)
        self.words = ["tmux", "-S", os.path.join(room, "tmux"), "-f", "/dev/null"]
        work, settings = os.path.join(room, "work"), os.path.join(room, "settings.vim")
        os.mkdir(work)
        shutil.copy(EXAMPLE, work)
        program = os.path.abspath(os.environ.get("OB0") or common.BINARY)
        with open(settings, "w", encoding="utf-8") as file:
            file.write(SETTINGS.format(editors=EDITORS, program=program))
        kept = {key: value for key, value in os.environ.items() if not key.startswith(("XDG_", "TMUX", "VIM", "NVIM"))}
        own = {**kept, "HOME": room, "XDG_RUNTIME_DIR": room, "LC_ALL": "C.UTF-8", "TERM": "xterm-256color", "COLORTERM": ""}
        self.how: dict[str, Any] = {"env": own, "cwd": work, "stdin": subprocess.DEVNULL}
        size = ["-x", str(COLUMNS), "-y", str(ROWS)]
        editor = ["nvim", "-u", settings, "-i", "NONE", os.path.basename(EXAMPLE)]
        # (the terminal's name decides how many colours Neovim uses)
        self.run("set-option", "-g", "default-terminal", "tmux-256color", ";", "set-option", "-g", "status", "off", ";", "new-session", "-d", *size, *editor)

    def run(self, *words: str) -> str:
        ran: subprocess.CompletedProcess[bytes] = subprocess.run([*self.words, *words], stdout=subprocess.PIPE, check=True, **self.how)
        return ran.stdout.decode()

    def screen(self) -> str:
        return self.run("capture-pane", "-e", "-p")

    def wait(self, text: str) -> str:
        """Waits until the screen shows this text and hasn't changed for a second, and returns the screen. Ends the
        script after SECONDS."""
        end, last, since = time.monotonic() + SECONDS, "", time.monotonic()
        while time.monotonic() < end:
            found = self.screen()
            if found != last:
                last, since = found, time.monotonic()
            elif time.monotonic() - since > 1 and text in re.sub(r"\x1b\[[0-9;:]*m", "", found):
                return found
            time.sleep(0.1)
        common.stop(f"{text!r} isn't on the screen:\n{last}", 1)

    def play(self, scene: Scene) -> str:
        for keys in scene.keys:
            self.run("send-keys", *(["-l"] if len(keys) > 1 and not re.fullmatch("Enter|Escape|C-.", keys) else []), keys)
            time.sleep(0.5)
        return self.wait(scene.shows)


def version() -> str:
    """Returns "Neovim" followed by its version."""
    said = subprocess.run(["nvim", "--version"], stdout=subprocess.PIPE, check=True).stdout.decode()
    return "Neovim " + common.match_of(r"v(\d+\.\d+\.\d+)", said)[1]


def played() -> list[str]:
    """Plays each scene in a new editor, and returns the last screen of each."""
    screens = []
    for scene in SCENES:
        with tempfile.TemporaryDirectory() as room:
            terminal = Terminal(room)
            try:
                terminal.wait("MODULE Search")
                screens.append(terminal.play(scene))
            finally:
                terminal.run("kill-server")
    return screens


def main(words: list[str]) -> int:
    for command in ("nvim", "tmux"):
        common.need(command)
    path = words[0] if words else PICTURE
    os.makedirs(os.path.dirname(os.path.abspath(path)), exist_ok=True)
    drawn = picture_of(played(), version())
    with open(path, "w", encoding="utf-8") as file:
        file.write(drawn)
    return 0


if __name__ == "__main__":
    sys.exit(main(sys.argv[1:]))
