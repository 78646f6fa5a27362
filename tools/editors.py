#!/usr/bin/env python3
"""Installs the tools that the tests need with apt-get: the editors of editors/ that Debian has; the programs that read
syntax files, completions and the manual page; and a C compiler, git and bash.

  tools/editors.py          installs the missing tools, for a quarter of an hour at most
  tools/editors.py --list   lists the installed and the missing tools

If the system doesn't have a package, this prints its name and continues. `make test` leaves out the tests of a missing
editor or desktop tool, and prints their names and their number. It requires all other tools."""
from __future__ import annotations

import functools
import glob
import os
import shutil
import subprocess
import sys
import time
from collections.abc import Callable
from typing import Any

import common
import vsix


def here(command: str) -> Callable[[], bool]:
    return lambda: shutil.which(command) is not None


def ends_well(words: list[str]) -> bool:
    how: dict[str, Any] = {"stdin": subprocess.DEVNULL, "stdout": subprocess.DEVNULL, "stderr": subprocess.DEVNULL}
    return not subprocess.run(words, check=False, timeout=900, **how).returncode


def in_emacs(library: str) -> Callable[[], bool]:
    words = ["emacs", "--batch", "--eval", f"(progn (require 'package) (package-initialize) (require '{library}))"]
    return lambda: bool(shutil.which("emacs")) and ends_well(words)


def with_gobject() -> bool:
    words = ["/usr/bin/python3", "-c", "import gi"]
    return os.path.exists(words[0]) and ends_well(words)


def with_gtksourceview() -> bool:
    return bool(glob.glob("/usr/lib/*/girepository-1.0/GtkSource-4.typelib"))


def folder(pattern: str) -> Callable[[], bool]:
    return lambda: bool(glob.glob(pattern))


def tree_sitter() -> bool:
    """Returns whether `tree-sitter` is installed in the version that generated parser.c."""
    if not shutil.which("tree-sitter"):
        return False
    said = subprocess.run(["tree-sitter", "--version"], stdout=subprocess.PIPE, stdin=subprocess.DEVNULL, check=False).stdout
    return said.decode(errors="replace").startswith("tree-sitter 0.22.")


# The Python by which root becomes another user. (It has to import everything first: the other user may not be able to
# read modules.)
BECOME = "import os, sys, warnings; os.setgroups([]); os.setgid(65534); os.setuid(65534)"


def another_user() -> bool:
    """Returns whether commands can run as a user other than root. (A container may not let root switch to another
    user.)"""
    return os.geteuid() != 0 or ends_well([sys.executable, "-c", BECOME])


PATHOGEN = "/usr/share/vim-pathogen/autoload/pathogen.vim"  # a plugin manager of Vim

# Each table maps the name of a tool to a check whether it is installed, and to its Debian package ("" if Debian 12 has
# none). Editors, which tests drive: `make test` leaves a test out if one that it drives is missing.
EDITORS = {
    "Neovim": (here("nvim"), "neovim"),
    "Emacs": (here("emacs"), "emacs-nox"),
    "eglot": (in_emacs("eglot"), "elpa-eglot"),
    "lsp-mode": (in_emacs("lsp-mode"), "elpa-lsp-mode"),
    "yasnippet": (in_emacs("yasnippet"), "elpa-yasnippet"),
    "Vim": (here("vim.nox"), "vim-nox"),
    "ALE": (folder("/usr/share/vim/vimfiles/pack/*/*/ale"), "vim-ale"),
    "YouCompleteMe": (folder("/usr/share/vim/vimfiles/pack/*/*/youcompleteme"), "vim-youcompleteme"),
    "Kakoune": (here("kak"), "kakoune"),
    "Kate": (here("kate"), "kate"),
    "Xvfb": (here("xvfb-run"), "xvfb"),
    "xauth": (here("xauth"), "xauth"),
    "openbox": (here("openbox"), "openbox"),
    "xdotool": (here("xdotool"), "xdotool"),
    "D-Bus": (here("dbus-run-session"), "dbus-daemon"),
    "Node": (here("node"), "nodejs"),
    vsix.CLIENT: (lambda: vsix.modules() is not None, ""),
    "nano": (here("nano"), "nano"),
}
# Desktop tools, which answer once and end: `make test` leaves a test out if a tool that it needs is missing.
DESKTOP = {
    "kate-syntax-highlighter": (here("kate-syntax-highlighter"), "libkf5syntaxhighlighting-tools"),
    "Ruby": (here("ruby"), "ruby"),
    "GtkSourceView": (with_gtksourceview, "gir1.2-gtksource-4"),
    "PyGObject": (with_gobject, "python3-gi"),
    "MIME types": (here("update-mime-database"), "shared-mime-info"),
    "gio": (here("gio"), "libglib2.0-bin"),
    "dpkg": (here("dpkg-deb"), "dpkg"),
    "apt-get": (here("apt-get"), "apt"),
    "root": (lambda: os.geteuid() == 0, ""),  # (dpkg unpacks for root only, and only root has files of two users)
    "another user": (another_user, ""),  # (without root's permissions)
    "Python 3.11": (lambda: sys.version_info >= (3, 11), ""),  # (the first that reads TOML)
    "lintian": (here("lintian"), "lintian"),
    "man": (here("man"), "man-db"),
    "zsh": (here("zsh"), "zsh"),
    "fish": (here("fish"), "fish"),
    "mandoc": (here("mandoc"), "mandoc"),
    "tmux": (here("tmux"), "tmux"),
    "mypy": (here("mypy"), "mypy"),
    "objdump": (here("objdump"), "binutils"),
    "gpg": (here("gpg"), "gnupg"),
    "package-lint": (in_emacs("package-lint"), "elpa-package-lint"),
    "use-package": (in_emacs("use-package"), "elpa-use-package"),
    "Pathogen": (folder(PATHOGEN), "vim-pathogen"),
    "tree-sitter 0.22": (tree_sitter, ""),
}
# Tools without which `make test` fails.
REQUIRED = {
    "cc": (here("cc"), "gcc"),
    "bash": (here("bash"), "bash"),
    "git": (here("git"), "git"),
}
TOOLS = {**EDITORS, **DESKTOP, **REQUIRED}
LONGEST = 900  # seconds that the installation may take


@functools.lru_cache(None)
def is_here(name: str) -> bool:
    return TOOLS[name][0]()


# Advice for tools that are in no package.
HOW_TO_GET = {
    "root": "run the tests as root",
    "another user": "run the tests as a user who isn't root, or in a container that has the capability CAP_SETUID",
}


def may_lack(name: str) -> bool:
    """Returns whether `make test` may leave tests out because a tool is missing: any tool that isn't required, or only
    the tools in the variable OB0_MAY_LACK if that is set."""
    listed = os.environ.get("OB0_MAY_LACK")
    return name not in REQUIRED and (listed is None or name in (it.strip() for it in listed.split(",")))


def install(packages: list[str], end: float) -> str | None:
    """Runs apt-get with these arguments, until the time `end` at most. Returns why that failed, or None if it
    succeeded."""
    words = [] if os.geteuid() == 0 else ["sudo", "-n"]
    environment = {**os.environ, "DEBIAN_FRONTEND": "noninteractive"}
    how: dict[str, Any] = {"stdin": subprocess.DEVNULL, "stdout": subprocess.PIPE, "stderr": subprocess.STDOUT, "env": environment}
    try:
        # (waits for another program that is installing packages)
        words += ["apt-get", "-o", "DPkg::Lock::Timeout=600", *packages]
        ran = subprocess.run(words, timeout=max(1, end - time.monotonic()), check=False, **how)
    except (OSError, subprocess.TimeoutExpired) as why:
        return str(why)
    return f"status {ran.returncode}, {ran.stdout.decode(errors='replace')[-400:].strip()}" if ran.returncode else None


def install_all(packages: list[str]) -> None:
    """Installs packages with apt-get, and prints which ones couldn't be installed, and why."""
    end, plainly = time.monotonic() + LONGEST, ["install", "-y", "--no-install-recommends"]
    why = install(["update"], end)
    if why:
        print(f"apt-get update failed: {why}", flush=True)
    if install([*plainly, *packages], end):
        # (each package separately, so that a missing one doesn't prevent the others)
        for package in packages:
            why = install([*plainly, package], end) if time.monotonic() < end else f"{LONGEST} seconds are over"
            if why:
                print(f"{package} could not be installed: {why}", flush=True)


def main(words: list[str]) -> int:
    missing = [it for it in TOOLS if not is_here(it)]
    if "--list" in words:
        for name, (_, package) in TOOLS.items():
            print(f"{'missing' if name in missing else 'here   '}  {name} ({package or 'no package of Debian 12'})")
        return 0
    packages = [TOOLS[it][1] for it in missing if TOOLS[it][1]]
    if packages:
        common.need("apt-get")
        print(f"installing {' '.join(packages)} with apt-get", flush=True)
        install_all(packages)
        is_here.cache_clear()
        missing = [it for it in missing if not is_here(it)]
    print(f"missing: {', '.join(missing)}; `make test` lists the tests that need them" if missing else "all editors and tools are here")
    return 0


if __name__ == "__main__":
    sys.exit(main(sys.argv[1:]))
