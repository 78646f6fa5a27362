"""Tests builds that a signal ends and builds in which a proof fails. No process survives, and finished proofs are kept.
A script stands in for `rt`."""
from __future__ import annotations

import os
import signal
import subprocess
import sys
import time
from typing import Any

import processes
from harness import TOP, holds, is_running, same, test, text_of, wait_until
from homes import copy, temporary, write

# stands in for `rt`: a process with a child, like `rt` with its provers, that runs until a signal ends it
PROVER = """#!/bin/sh
[ "$1" = version ] && { echo a kit; exit; }
echo kept > out/kept
sleep 1000 &
echo $$ $! > "$PIDS.new"
mv "$PIDS.new" "$PIDS"
wait
"""



def furnish(room: str, crates: str, rt: str) -> dict[str, str]:
    """Fills a folder with a copy of tools/, the crates that `crates` lists, with empty sources, and the script `rt` in
    place of the prover. Returns an environment in which PATH finds that script first."""
    copy(os.path.join(TOP, "tools"), os.path.join(room, "tools"))
    write(os.path.join(room, "crates.txt"), crates)
    names = [line.partition(":")[0] for line in crates.splitlines()]
    for it in ("HANDLES", *(f"crates/{name}/src/lib.rt" for name in names)):
        write(os.path.join(room, it), "")
    write(os.path.join(room, "path", "rt"), rt)
    os.chmod(os.path.join(room, "path", "rt"), 0o755)
    return {**os.environ, "PATH": f"{room}/path:{os.environ['PATH']}"}


def is_ended_by(number: int, *, ignored: bool = False) -> None:
    with temporary() as room:
        pids = os.path.join(room, "pids")
        own = {**furnish(room, "low:\nob0: low\n", PROVER), "PIDS": pids}
        ignore = (lambda: signal.signal(number, signal.SIG_IGN)) if ignored else None
        how: dict[str, Any] = {"cwd": room, "env": own, "stdin": subprocess.DEVNULL, "stdout": subprocess.DEVNULL}
        with subprocess.Popen([sys.executable, "-B", "tools/build.py"], preexec_fn=ignore, start_new_session=True, **how) as process:
            wait_until(lambda: os.path.exists(pids), "no prover began", 300)
            running = [int(it) for it in text_of(pids).split()]
            try:
                process.send_signal(number)
                if ignored:
                    time.sleep(1)
                    same([process.poll(), *map(is_running, running)], [None, True, True], "what runs, of a build that ignores the signal")
                    process.send_signal(signal.SIGTERM)
                same(process.wait(300), 128 + (signal.SIGTERM if ignored else number), "the status")
                wait_until(lambda: not any(map(is_running, running)), "the provers did not end")
            finally:
                processes.end_descendants(os.getpid())
        holds(not os.path.exists(os.path.join(room, "bin", "rooms")), "rooms are left")
        same(text_of(room, "crates", "low", "out", "kept"), "kept\n", "what was proved")


@test("build: SIGINT, SIGTERM and SIGHUP end a build and its provers, and finished proofs are kept")
def ended() -> None:
    for number in (signal.SIGINT, signal.SIGTERM, signal.SIGHUP):
        is_ended_by(number)


@test("build: a build in which SIGHUP is ignored, as under `nohup`, continues after a SIGHUP")
def ignored() -> None:
    is_ended_by(signal.SIGHUP, ignored=True)


# stands in for `rt`: proves each crate except `bad`
JUDGE = """#!/bin/sh
[ "$1" = version ] && { echo a kit; exit; }
name=$(basename "$PWD")
mkdir -p "out/rlib/$name.rlib" && echo stamp > out/rlib/stamp
[ "$name" != bad ] || { echo "proofs/Bad.antt:1:1: error: no proof"; echo "note: src/lib.rt:1:1: it is not proved"; echo "the last line"; exit 1; }
echo "crate $name: modules loaded=0 checked=1"
"""


@test("build: after a failed proof, `make check` proves the crates that don't depend on it, and `make build` stops")
def others_are_proved() -> None:
    with temporary() as room:
        own = furnish(room, "bad:\nlow:\nmiddle: low\nover: bad\nob0: over middle\n", JUDGE)
        how: dict[str, Any] = {"cwd": room, "env": own, "stdin": subprocess.DEVNULL, "stdout": subprocess.PIPE, "stderr": subprocess.STDOUT, "text": True}
        check = subprocess.run([sys.executable, "-B", "tools/build.py", "--check"], timeout=300, check=False, **how)
        same(check.returncode, 1, f"the status of a check that said\n{check.stdout}")
        for line in ("proofs/Bad.antt:1:1: error: no proof\n", "lib.rt:1:1: it is not proved\n", "] low: proved", "] middle: proved", "] NOT PROVED: bad; 3 of 5 crates are left"):
            holds(line in check.stdout, f"{line!r} isn't in\n{check.stdout}")
        holds("the last line" not in check.stdout and "] over:" not in check.stdout, check.stdout)
        build = subprocess.run([sys.executable, "-B", "tools/build.py"], timeout=300, check=False, **how)
        same(build.returncode, 1, f"the status of a build that said\n{build.stdout}")
        holds("] bad: NOT PROVED" in build.stdout and "] NOT PROVED:" not in build.stdout, build.stdout)
