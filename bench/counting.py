"""Counts executed instructions with callgrind. Unlike times, the counts are the same on each run."""
from __future__ import annotations

import os
import re
import shutil
import subprocess
import tempfile
from typing import IO, Dict, List, Optional

from common import match_of


def lacks(command: str) -> Optional[str]:
    """Returns a message that says how to install a missing command, or None if it is installed."""
    return None if shutil.which(command) else f"{command} is missing (on Debian: apt-get install {command})"


def instructions(words: List[str], given: IO[bytes]) -> int:
    """Returns how many instructions a command executes on this input. (PYTHONHASHSEED is fixed, because the order of
    Python's sets, and therefore the count, depends on it.)"""
    callgrind = ["valgrind", "--tool=callgrind", "--callgrind-out-file=/dev/null", *words]
    own = {**os.environ, "PYTHONHASHSEED": "0", "LC_ALL": "C.UTF-8"}
    done = subprocess.run(callgrind, stdin=given, stdout=subprocess.DEVNULL, stderr=subprocess.PIPE, env=own, check=False)
    return int(match_of(r"Collected : (\d+)", done.stderr.decode())[1])


def instructions_by_function(words: List[str], given: IO[bytes]) -> Dict[str, int]:
    """Returns how many instructions a command executes in each of its functions on this input. A function's count
    doesn't include the functions that it calls."""
    with tempfile.TemporaryDirectory() as room:
        out = os.path.join(room, "out")
        callgrind = ["valgrind", "--tool=callgrind", f"--callgrind-out-file={out}", *words]
        subprocess.run(callgrind, stdin=given, stdout=subprocess.DEVNULL, stderr=subprocess.DEVNULL, check=True)
        annotate = ["callgrind_annotate", "--threshold=100", "--show-percs=no", out]
        listed = subprocess.run(annotate, stdout=subprocess.PIPE, stderr=subprocess.DEVNULL, check=True).stdout.decode()
    found: Dict[str, int] = {}
    for count, name in re.findall(r"^ *([\d,]+)  [^ :]+:([^ ].*?)(?: \[.*)?$", listed, re.M):
        found[name] = found.get(name, 0) + int(count.replace(",", ""))
    return found


def instructions_of_conversation(program: str, given: bytes) -> int:
    """Returns how many instructions `serve` executes for a conversation that consists of these bytes."""
    with tempfile.TemporaryFile() as file:
        file.write(given)
        file.seek(0)
        return instructions([program, "serve"], file)


def instructions_on_file(words: List[str], text: str) -> int:
    """Returns how many instructions a command executes on a file with this text and an empty standard input."""
    with tempfile.TemporaryDirectory() as room:
        path = os.path.join(room, "program")
        with open(path, "w", encoding="utf-8") as out:
            out.write(text)
        with open(os.devnull, "rb") as nothing:
            return instructions([*words, path], nothing)
