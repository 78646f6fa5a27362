"""Drives editors in a terminal by keystrokes, each set up according to its page. tests/lib/holding.py runs between the
editor and the server. Keys are sent without waiting: an editor handles them in order, and writes a file when it has
handled them."""
from __future__ import annotations

import os
import time
import random
from collections.abc import Callable
from typing import Dict, Tuple, TypeVar

from harness import Failed
from holding import Wire
from homes import at_home, put_between, write
from screen import Screen
from snippets import snippets

SECONDS = 300  # the longest wait for anything, even on a busy machine
# the requests whose answers are edits
RENAME, ACTION, LAYOUT = "textDocument/rename", "textDocument/codeAction", "textDocument/formatting"


K = TypeVar("K", bound="Keyed")


class Keyed:
    """Drives an editor by keystrokes. The editor shows a file in a separate folder."""

    page = ""  # the folder of the editor's page below editors/
    asks: Dict[str, Tuple[str, str, bool]] = {}  # for each edit: the keys, the method, and whether the editor accepts no other key until the answer arrives
    line_above = line_removed = ""  # the keys that insert the line `(* new *)` above the text, and that remove it
    letters = "é☺𝒳😀"  # the letters that are typed in addition to ASCII

    def __init__(self, folder: str, text: str) -> None:
        self.folder, self.wire, self.count = folder, Wire(folder), 0
        self.file = os.path.join(folder, "work", "m.mod")
        write(self.file, text)
        own = {**at_home(folder, self.page), "TERM": "xterm-256color"}
        put_between(folder)
        for path, lines in self.settings().items():
            write(os.path.join(folder, path), lines)
        self.screen = Screen(self.words(), own, os.path.dirname(self.file), (40, 120))

    def __enter__(self: K) -> K:
        try:
            self.await_("the first diagnostics", self.wire.published)
            self.text(comes_last=True)
            return self
        except BaseException as why:
            self.__exit__(why)
            raise

    def __exit__(self, *why: object) -> None:
        self.wire.release()
        self.screen.__exit__(*why)

    def settings(self) -> dict[str, str]:
        """Returns the editor's settings files: their contents by their paths in its home directory."""
        raise NotImplementedError

    def words(self) -> list[str]:
        """Returns the command that starts the editor."""
        raise NotImplementedError

    def going(self, line: int, character: int) -> str:
        """Returns the keys that move the cursor to a position, counted from 0, in a line of ASCII."""
        raise NotImplementedError

    def reopening(self) -> str:
        """Returns the keys that close the file without saving it, and open it again."""
        raise NotImplementedError

    def writing(self, path: str, comes_last: bool) -> str:
        """Returns the keys that make the editor write its text to a path. If `comes_last`, the editor first waits until
        a server is running and all of its messages are handled."""
        raise NotImplementedError

    def change(self, chance: random.Random) -> str:
        """Returns the keys of a random change."""
        raise NotImplementedError

    def waits(self, holds: Callable[[], object], seconds: float = SECONDS) -> bool:
        """Waits until `holds` returns a true value, and returns True. Returns False if the time runs out. Meanwhile it
        reads what the editor draws."""
        end = time.monotonic() + seconds
        while not holds():
            if time.monotonic() > end:
                return False
            self.screen.read(0.01)
        return True

    def await_(self, what: str, holds: Callable[[], object]) -> None:
        if not self.waits(holds):
            raise Failed(f"waited in vain for {what}: {self.screen.drawn[-1500:]!r}")

    def keys(self, typed: str) -> None:
        self.screen.keys(typed.encode())

    def asked_for_text(self, comes_last: bool = False) -> Callable[[], str | None]:
        """Makes the editor write its text to a file. Returns a function that returns the text, or None while the file
        doesn't exist."""
        self.count += 1
        path = os.path.join(self.folder, f"text{self.count}")
        self.keys(self.writing(path, comes_last))

        def text() -> str | None:
            if not os.path.exists(path):
                return None
            with open(path, encoding="utf-8", newline="") as file:
                return file.read()

        return text

    def reports(self, text: str) -> None:
        """Waits until the editor has sent this text of the file to the server."""
        self.await_(f"the text that the server has: {text!r}", lambda: self.wire.text() == text)

    def text(self, comes_last: bool = False) -> str:
        text = self.asked_for_text(comes_last)
        self.await_("the editor's text", lambda: text() is not None)
        return text() or ""


NORMAL = "\x1c\x0e"  # the keys that lead to normal mode from every mode
VIM_SETTINGS = """
set nomore shortmess=aoOtTIWAF cmdheight=6 noswapfile nobackup nowritebackup
function! Written(path) abort
  call writefile(getline(1, '$'), a:path . '.new')
  call rename(a:path . '.new', a:path)
endfunction
"""


def vim_change(chance: random.Random, letters: str) -> str:
    """Returns the keys of a random change in Vim. They are typed in normal mode, and lead back to it."""
    word = chance.choice(["x", "yy", "n := 1;", "\t", *letters, f"(* {letters} *)"])
    line = f":{chance.randint(1, 12)}\r"
    old, new = chance.choice(["n", "x", ";", letters[-1], "$"]), chance.choice(["nn", "", letters[-1], "\\r"])
    return chance.choice(
        [
            *(f"{line}{command}{word}{NORMAL}" for command in ("A", "I", "o", "O", "cc", "0wcw")),
            *(f"{line}{command}" for command in ("x", "D", "dd", "J", "gJ", "yyp", "0ww~", "0vjd", "V>")),
            *("p", "P", "3p", "u", "uu", "\x12", "."),
            *(f":silent! {command}\r" for command in ("undo 3", "earlier 4", "later 2", "%normal A;", "m0", "t$", "sort", "$put ='a'")),
            f":silent! %s/{old}/{new}/\r",
            f':let @q = "A{letters[-1]}\\<Esc>0ix\\<Esc>j"\r{line}2@q',
            f":call append(0, '{word}')\r",
        ]
    )


class Vimish(Keyed):
    line_above, line_removed = f"ggO(* new *){NORMAL}", "ggdd"

    def going(self, line: int, character: int) -> str:
        return f"{NORMAL}:call cursor({line + 1}, {character + 1})\r"

    def reopening(self) -> str:
        return f"{NORMAL}:silent bdelete! {self.file}\r:silent edit {self.file}\r"

    def writing(self, path: str, comes_last: bool) -> str:
        return f"{NORMAL}:call {'Last' if comes_last else 'Written'}('{path}')\r"

    def change(self, chance: random.Random) -> str:
        return NORMAL + vim_change(chance, self.letters)


class Neovim(Vimish):
    page = "neovim"
    asks = {
        "rename": (":lua vim.lsp.buf.rename('tot')\r", RENAME, False),
        "inlining": (":lua vim.lsp.buf.code_action()\r", ACTION, False),
        "layout by the page's key": ("grf", LAYOUT, True),
        "layout": (":lua if vim.lsp.buf.format then vim.lsp.buf.format({ async = true }) else vim.lsp.buf.formatting() end\r", LAYOUT, False),
    }
    # a request that the server answers after all others; the first action is chosen at once, or by `Choose`
    lines = """
vim.cmd([[{settings}]])
function _G.Last(path)
  local at_start = {{ textDocument = {{ uri = vim.uri_from_bufnr(0) }}, position = {{ line = 0, character = 0 }} }}
  vim.lsp.buf_request_sync(0, "textDocument/hover", at_start, {milliseconds})
  vim.fn.Written(path)
end
vim.cmd("function! Last(path) abort\\ncall v:lua.Last(a:path)\\nendfunction")
function _G.Choose() end
vim.ui.select = function(items, _, choose)
  if vim.g.chooses_later then
    _G.Choose = function() choose(items[1], 1) end
  else
    choose(items[1], 1)
  end
end
"""

    def settings(self) -> dict[str, str]:
        lines = self.lines.format(settings=VIM_SETTINGS, milliseconds=1000 * SECONDS)
        return {".config/nvim/init.lua": "\n".join([*snippets("neovim", "lua"), lines])}

    def words(self) -> list[str]:
        return ["nvim", "-n", "-i", "NONE", self.file]


class Ale(Vimish):
    page = "vim"
    asks = {"rename": (":ALERename\r", RENAME, False), "inlining": (":ALECodeAction\r", ACTION, False)}
    lines = """
runtime autoload/ale/util.vim
function! ale#util#Input(message, value, ...) abort
  return a:message =~# '^New name' ? 'tot' : '1'
endfunction
function! Last(path) abort
  let l:at_start = {'textDocument': {'uri': ale#path#ToFileURI(expand('%:p'))}, 'position': {'line': 0, 'character': 0}}
  call ale#lsp_linter#SendRequest(bufnr(''), 'ob0', [0, 'textDocument/hover', l:at_start], {-> Written(a:path)})
endfunction
"""

    def settings(self) -> dict[str, str]:
        return {".vimrc": "\n".join([*snippets("vim", "vim"), VIM_SETTINGS]), "keyed.vim": self.lines}

    def words(self) -> list[str]:
        return ["vim.nox", "-n", "-i", "NONE", "-S", os.path.join(self.folder, "keyed.vim"), self.file]


class Ycm(Vimish):
    page = "vim"
    asks = {
        "rename": (":YcmCompleter RefactorRename tot\r", RENAME, True),
        "inlining": (":YcmCompleter FixIt\r", ACTION, True),
        "layout": (":YcmCompleter Format\r", LAYOUT, True),
    }
    # (Vim handles an answer before the next key, and the first of the listed actions is chosen)
    lines = """
function! Last(path) abort
  py3 import ycm.vimsupport
  py3 ycm.vimsupport.SelectFromList = lambda *_: 0
  cclose
  call Written(a:path)
endfunction
"""

    def __exit__(self, *why: object) -> None:
        # (otherwise programs that the editor has started would run for half an hour)
        self.wire.release()
        self.keys(f"{NORMAL}:silent! py3 ycm_state.OnVimLeave()\r")
        text = self.asked_for_text()
        self.waits(lambda: text() is not None, 10)
        super().__exit__(*why)

    def settings(self) -> dict[str, str]:
        # (YouCompleteMe's server needs the system's Python, whichever one is first on PATH)
        python = "let g:ycm_server_python_interpreter = '/usr/bin/python3'\nlet g:ycm_auto_hover = ''"
        return {".vimrc": "\n".join([*snippets("vim", "viml"), python, VIM_SETTINGS]), "keyed.vim": self.lines}

    def words(self) -> list[str]:
        return ["vim.nox", "-n", "-i", "NONE", "-S", os.path.join(self.folder, "keyed.vim"), self.file]


EMACS_SETTINGS = """
(setq inhibit-startup-screen t make-backup-files nil create-lockfiles nil auto-save-default nil initial-scratch-message nil
      ring-bell-function #'ignore use-dialog-box nil lsp-enable-file-watchers nil lsp-enable-suggest-server-download nil
      lsp-warn-no-matched-clients nil lsp-modeline-code-actions-enable nil
      eval-expression-debug-on-error nil native-comp-deferred-compilation nil native-comp-enable-subr-trampolines nil
      native-comp-async-report-warnings-errors nil
      eglot-connect-timeout 300 eglot-sync-connect t lsp-response-timeout 300
      eglot-send-changes-idle-time 0.05 lsp-debounce-full-sync-notifications-interval 0.05)
(electric-indent-mode -1)
(defun written (path)
  (let ((coding-system-for-write 'utf-8-unix))
    (write-region nil nil (concat path ".new") nil 0))
  (rename-file (concat path ".new") path))
(defun reopened (file)
  (with-current-buffer (get-file-buffer file)
    (set-buffer-modified-p nil)
    (kill-buffer))
  (find-file file))
(defun go (line character)
  (goto-char (point-min))
  (forward-line line)
  (forward-char (min character (- (line-end-position) (point)))))
(package-initialize)
(with-eval-after-load 'jsonrpc (setq jsonrpc-default-request-timeout 300))
"""


def emacs_change(chance: random.Random, letters: str) -> str:
    """Returns the keys of a random change in Emacs. (An error in a command would discard the keys after it.)"""
    word = chance.choice(["x", "yy", "n := 1;", *letters, f"(* {letters} *)"])
    place = f"\x1b:(go {chance.randint(0, 11)} {chance.choice([0, 0, 3, 99])})\r"
    old, new = chance.choice(["n", "x", ";", letters[-1]]), chance.choice(["nn", "", letters[-1], "x"])
    forms = [
        *("(undo)", "(undo)", "(undo-redo)", "(progn (undo) (undo-more 1))", "(delete-char 1)", "(kill-line)", "(kill-line 2)", "(join-line)"),
        *("(yank)", "(yank)", "(transpose-chars 1)", "(transpose-lines 1)", "(upcase-word 1)", "(kill-word 1)", "(delete-blank-lines)"),
        *("(sort-lines nil 1 (point-max))", "(indent-rigidly 1 (point-max) 2)", "(insert-buffer-substring (current-buffer) 1 5)"),
        *(f'(progn (goto-char 1) (replace-string "{old}" "{new}"))', '(progn (goto-char 1) (replace-regexp "$" ";"))'),
        f'(atomic-change-group (insert "ab") (goto-char 1) (insert "{letters[-1]}\\n"))',
        f'(execute-kbd-macro "\\C-e{letters[-1]}\\C-a" 2)',
    ]
    keys: str = chance.choice([word, word, word + "\r", "\r", *(f"\x1b:(ignore-errors {it})\r" for it in forms)])
    return place + keys


class Emacs(Keyed):
    page, block, managed = "emacs", 0, ""
    line_above, line_removed = "\x1b<(* new *)\r", "\x1b<\x0b\x0b"

    def settings(self) -> dict[str, str]:
        more = "(advice-add 'completing-read :override (lambda (&rest _) \"Inline here\"))"
        return {".emacs.d/init.el": "\n".join([EMACS_SETTINGS, snippets("emacs", "elisp")[self.block], more])}

    def words(self) -> list[str]:
        return ["emacs", "-nw", self.file]

    def going(self, line: int, character: int) -> str:
        return f"\x1b:(go {line} {character})\r"

    def reopening(self) -> str:
        return f'\x1b:(reopened "{self.file}")\r'

    def writing(self, path: str, comes_last: bool) -> str:
        # (Emacs handles an answer before it accepts the next key)
        first = f"(while (not {self.managed}) (accept-process-output nil 0.01))" if comes_last else ""
        return f'\x1b:(progn {first} (written "{path}"))\r'

    def change(self, chance: random.Random) -> str:
        return emacs_change(chance, self.letters)


class Eglot(Emacs):
    managed = "(and (eglot-managed-p) (eglot-current-server))"
    asks = {
        "rename": ('\x1b:(eglot-rename "tot")\r', RENAME, True),
        "inlining": ("\x1b:(let ((last-nonmenu-event ?x)) (eglot-code-actions (point) (point) nil t))\r", ACTION, True),
        "layout": ("\x1b:(eglot-format-buffer)\r", LAYOUT, True),
    }


class LspMode(Emacs):
    block, managed, letters = 1, "(lsp-workspaces)", "é☺"  # (according to its page: no characters above U+FFFF)
    asks = {
        "rename": ('\x1b:(lsp-rename "tot")\r', RENAME, True),
        "inlining": ("\x1b:(call-interactively #'lsp-execute-code-action)\r", ACTION, True),
        "layout": ("\x1b:(lsp-format-buffer)\r", LAYOUT, True),
    }
