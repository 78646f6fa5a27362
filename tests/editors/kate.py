#!/usr/bin/env python3
"""Drives Kate by its keys, on a virtual screen. xvfb-run and dbus-run-session run this script.

Variables: OB0_FILE (the file to edit), OB0_REPORT (the file for the findings, a line of JSON each), OB0_STEPS (the name of a list
of steps below), OB0_GIVEN (a place in the file, as JSON), OB0_WIRE (the folder of tests/lib/holding.py, which is between Kate and
the server). The report lists the messages on the wire, and the text that Kate saved."""
from __future__ import annotations

import functools
import json
import os
import subprocess
import sys
import time
from collections.abc import Callable
from typing import Any

sys.dont_write_bytecode = True
sys.path.insert(0, os.path.join(os.path.dirname(os.path.abspath(__file__)), os.pardir, "lib"))

from holding import Wire  # noqa: E402

FILE, REPORT, WIRE = os.environ["OB0_FILE"], os.environ["OB0_REPORT"], Wire(os.environ["OB0_WIRE"])
GIVEN = json.loads(os.environ["OB0_GIVEN"])
# how the names of its windows begin, of the one with the text and of the one that asks for a name (the rest can be outside ASCII)
TEXT, DIALOG = f"^{os.path.basename(FILE)}", "^Rename"


def say(step: str, found: object) -> None:
    with open(REPORT, "a", encoding="utf-8") as file:
        file.write(json.dumps({"step": step, "found": found}) + "\n")


def published() -> list[Any]:
    return [it["diagnostics"] for it in WIRE.published()]


def answers(method: str) -> list[Any]:
    return [it.get("result", it.get("error")) for it in WIRE.answers(method)]


def saved() -> str:
    with open(FILE, encoding="utf-8") as file:
        return file.read()


def waited(what: str, value: Callable[[], Any], seconds: float = 120) -> Any:
    """Waits until `value` returns something that counts as true, and returns that. Raises RuntimeError if the time runs
    out."""
    end = time.monotonic() + seconds
    while time.monotonic() < end:
        found = value()
        if found:
            return found
        time.sleep(0.1)
    raise RuntimeError(f"waited in vain for {what}")


def keys(*names: str) -> None:
    subprocess.run(["xdotool", "key", "--delay", "60", *names], check=True)


def typed(text: str) -> None:
    subprocess.run(["xdotool", "type", "--delay", "60", text], check=True)


def told(*words: str) -> list[str]:
    """Runs xdotool with these words, and returns the words that it prints."""
    how: dict[str, Any] = {"stdout": subprocess.PIPE, "stderr": subprocess.DEVNULL}
    return str(subprocess.run(["xdotool", *words], check=False, **how).stdout.decode()).split()


def is_shown(name: str) -> bool:
    """Returns whether a visible window has this name."""
    return bool(told("search", "--onlyvisible", "--name", name))


def windows() -> set[str]:
    """Returns Kate's visible windows. (They are found by their class, because lists of commands and menus have no
    name.)"""
    return {*told("search", "--onlyvisible", "--class", "kate")}


def new_window(before: set[str]) -> set[str]:
    """Returns the visible windows that aren't in `before`."""
    return windows() - before


def takes_keys(name: str) -> bool:
    """Returns whether the active window, which gets the keys, has this name."""
    return bool({*told("getactivewindow")} & {*told("search", "--onlyvisible", "--name", name)})


def command(name: str, comes: Callable[[], Any]) -> Any:
    """Chooses a command by its name, again if necessary, until `comes` returns something that counts as true, and
    returns that. Raises RuntimeError after four attempts."""
    # (Kate 25 lists a switch whose name begins alike above one of them; chosen twice, it is unchanged)
    for below in 0, 0, 1, 1:
        try:
            before = windows()
            keys("ctrl+alt+i")
            waited("the list of commands", functools.partial(new_window, before), 60)
            typed(name)
            keys(*["Down"] * below, "Return")
            return waited(name, comes, 60)
        except RuntimeError:
            keys("Escape", "Escape")
    raise RuntimeError(f"{name} was never taken")


def name_asked(name: str) -> None:
    """Asks for a rename and types the new name, without the key that confirms it."""
    keys("F2")
    waited("the question for a name", lambda: takes_keys(DIALOG))
    keys("ctrl+a")
    typed(name)


def is_answered() -> bool:
    """Returns whether the server has published diagnostics for the last version that was sent."""
    sent = WIRE.sent("textDocument/didOpen", "textDocument/didChange")
    return bool(WIRE.published()[-1]["version"] == sent[-1]["params"]["textDocument"]["version"])


def is_quiet() -> bool:
    """Returns whether the last version has its diagnostics, and nothing more was sent for a second. (The edits of one
    answer can be several changes.)"""
    before = len(WIRE.events())
    time.sleep(1)
    return is_answered() and len(WIRE.events()) == before


def codes() -> list[str]:
    return [it["code"] for it in published()[-1]]


def after(what: str, change: Callable[[], object]) -> list[str]:
    """Makes a change, waits for its last diagnostics, and returns their codes."""
    before = len(published())
    change()
    waited(f"diagnostics, {what}", lambda: len(published()) > before)
    waited(f"the last diagnostics, {what}", is_quiet)
    return codes()


def saving() -> str:
    """Saves the file, and returns its text."""
    before = os.stat(FILE).st_mtime_ns
    waited("the window with the text", lambda: takes_keys(TEXT) and not is_shown(DIALOG))
    keys("ctrl+s")
    waited("the saved file", lambda: os.stat(FILE).st_mtime_ns != before)
    waited("the saved text", lambda: saved() == WIRE.text())
    return saved()


def names() -> None:
    say("typed", after("typed", lambda: typed("$")))
    say("undone", after("undone", lambda: keys("ctrl+z")))
    say("shown", command("Symbol Info", lambda: answers("textDocument/hover"))[0]["contents"]["value"])
    listed = command("Find References", lambda: answers("textDocument/references"))[0]
    say("listed", [[it["range"]["start"]["line"], it["range"]["start"]["character"]] for it in listed])
    found = command("Go to Definition", lambda: answers("textDocument/definition"))[0]
    say("jumped", [found["range"]["start"]["line"], found["range"]["start"]["character"]])
    name_asked("G")
    say("renamed", after("renamed", lambda: keys("Return")))
    say("text", saving())
    say("laid out", after("laid out", lambda: command("Format", lambda: answers("textDocument/formatting"))))
    say("text", saving())


def inlining() -> None:
    # (with the name selected: Kate requests them for a whole line else)
    before = windows()
    keys("shift+Right", "alt+Return")
    found = waited("code actions", lambda: answers("textDocument/codeAction"))[-1]
    say("offered", [it["title"] for it in found])
    waited("the menu", functools.partial(new_window, before))
    say("acted", after("acted", lambda: keys("Down", "Return")))
    say("text", saving())


LINE = "(* new *)"
RENAME, LAYOUT = "textDocument/rename", "textDocument/formatting"


def formatted() -> None:
    """Formats the text, saves the file, and formats the text again. Reports the diagnostics, the text, the file's
    content, and the edits of the second answer."""
    say("formatted", after("formatted", lambda: command("Format", lambda: answers(LAYOUT))))
    say("text", saving())
    with open(FILE, encoding="utf-8", newline="") as file:
        say("file", file.read())
    command("Format", lambda: len(answers(LAYOUT)) > 1)
    say("left to do", answers(LAYOUT)[-1])


def rename(name: str) -> None:
    name_asked(name)
    keys("Return")
    waited("the request of a rename", WIRE.is_held)
    waited("the window with the text", lambda: takes_keys(TEXT) and not is_shown(DIALOG))


def line_above() -> None:
    keys("ctrl+Home")
    typed(LINE)
    keys("Return")


def has_text(text: str) -> bool:
    return WIRE.text() == text


def has_other_text(text: str) -> bool:
    return not has_text(text)


def late() -> None:
    """Holds the answer to a rename, and then to a formatting, while a line is typed above the text."""
    asks: list[tuple[str, str, Callable[[], object]]] = [
        ("renamed", RENAME, lambda: rename("tot")),
        ("laid out", LAYOUT, lambda: command("Format", WIRE.is_held)),
    ]
    for what, method, ask in asks:
        changed = f"{LINE}\n{WIRE.text()}"
        WIRE.hold(method)
        ask()
        line_above()
        waited("the line above", functools.partial(has_text, changed))
        WIRE.release()
        waited(what, functools.partial(has_other_text, changed))
        waited(f"the last diagnostics, {what}", is_quiet)
        say(what, saving())


def main() -> None:
    line, column = GIVEN["place"]
    manager = subprocess.Popen(["openbox"], stdout=subprocess.DEVNULL, stderr=subprocess.DEVNULL)
    waited("the manager of windows", lambda: told("get_desktop"))
    words = ["kate", "--new", "--line", str(line + 1), "--column", str(column + 1), FILE]
    kate = subprocess.Popen(words, stdout=subprocess.DEVNULL, stderr=subprocess.DEVNULL)
    try:
        waited("the first diagnostics", published)
        waited("the window with the text", lambda: takes_keys(TEXT))
        say("opened", codes())
        {"names": names, "inlining": inlining, "late": late, "formatted": formatted}[os.environ["OB0_STEPS"]]()
        keys("ctrl+q")
        kate.wait(120)
    finally:
        for it in (kate, manager):
            if it.poll() is None:
                it.kill()


if __name__ == "__main__":
    try:
        main()
    except Exception as why:  # pylint: disable=broad-except
        say("failed", str(why))
        sys.exit(1)
