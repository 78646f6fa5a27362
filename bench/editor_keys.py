#!/usr/bin/env python3
"""Measures how many processor seconds editors need to indent: a new line near a module's end, and a whole module.

  bench/editor_keys.py [SIZE..]    modules of these sizes, in bytes (10000, 100000 and 1000000)

The editors run without ob0, by the files of editors/. A whole module is indented up to 100,000 bytes."""
from __future__ import annotations

import os
import resource
import shutil
import subprocess
import sys
import tempfile
from typing import List, Tuple

import corpus

TOP = os.path.dirname(os.path.dirname(os.path.abspath(__file__)))
LARGEST_WHOLE = 100000
FILES = f"set nocompatible noswapfile runtimepath^={TOP}/editors/vim"
VIM = ["-n", "-i", "NONE", "-u", "NONE", "--cmd", FILES, "--cmd", "filetype plugin indent on"]
EMACS = ["emacs", "-Q", "--batch", "-L", os.path.join(TOP, "editors", "emacs"), "-l", "ob0-mode"]
A_LINE = "(progn (newline) (indent-according-to-mode))"
NEAR_END = f'(progn (goto-char (point-max)) (search-backward ";") (end-of-line) {A_LINE} {A_LINE})'
# for each editor: its command line, its keys for a new line near the end, and its keys for indenting the whole text
EDITORS = {
    "nvim": (["nvim", "--headless", *VIM], ["-c", "normal! G20kox", "-c", "qall!"], ["-c", "normal! gg=G", "-c", "qall!"], ["-c", "qall!"]),
    "vim": (["vim", "-es", *VIM], ["-c", "normal! G20kox", "-c", "qall!"], ["-c", "normal! gg=G", "-c", "qall!"], ["-c", "qall!"]),
    "emacs": (EMACS, ["--eval", NEAR_END], ["--eval", "(indent-region (point-min) (point-max))"], ["--eval", "t"]),
}


def seconds(words: List[str]) -> float:
    """Runs a command, and returns the CPU seconds that it and its child processes used."""
    before = resource.getrusage(resource.RUSAGE_CHILDREN)
    subprocess.run(words, check=False, stdin=subprocess.DEVNULL, stdout=subprocess.DEVNULL, stderr=subprocess.DEVNULL, timeout=3600)
    after = resource.getrusage(resource.RUSAGE_CHILDREN)
    return after.ru_utime + after.ru_stime - before.ru_utime - before.ru_stime


def measured(name: str, file: str, is_whole: bool) -> Tuple[float, float]:
    """Returns two CPU times in seconds: for indenting a new line, and for indenting the whole text (0.0 unless
    `is_whole`). The time to start the editor and open the file is subtracted."""
    start, line, whole, nothing = EDITORS[name]
    opened = ["--eval", f'(find-file "{file}")'] if name == "emacs" else [file]
    idle = seconds([*start, *opened, *nothing])
    return seconds([*start, *opened, *line]) - idle, seconds([*start, *opened, *whole]) - idle if is_whole else 0.0


def main(words: List[str]) -> int:
    sizes = [int(it) for it in words] or [10000, 100000, 1000000]
    print(f"{'':8} {'bytes':>9} {'new line':>10} {'all':>10}")
    for name in [it for it in EDITORS if shutil.which(it)]:
        for size in sizes:
            with tempfile.TemporaryDirectory() as room:
                file = os.path.join(room, "m.ob0")
                with open(file, "w", encoding="utf-8") as out:
                    out.write(corpus.module(size))
                line, whole = measured(name, file, size <= LARGEST_WHOLE)
                print(f"{name:8} {size:9,} {line:8.2f} s " + (f"{whole:8.2f} s" if size <= LARGEST_WHOLE else f"{'-':>8}"), flush=True)
    return 0


if __name__ == "__main__":
    sys.exit(main(sys.argv[1:]))
