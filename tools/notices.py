"""Collects the licence notices of the toolchain's crates that the program is linked with. This happens when the program
is built. The notices are kept next to it, so that packing needs no toolchain."""
from __future__ import annotations

import json
import os
import re
from typing import Dict

import common

KEPT = common.BINARY + ".notices"
# each crate with its notices, by the names of their files
Notices = Dict[str, Dict[str, str]]


def kit_folder() -> str:
    """Returns the toolchain's folder, which contains the sources and the libraries of its crates."""
    return os.path.dirname(os.path.dirname(os.path.realpath(common.need("rt"))))


def named_by(name: str, folder: str) -> list[str]:
    """Returns the crates that a crate of the toolchain depends on, according to its library."""
    with open(os.path.join(folder, "rlibs", f"{name}.rlib", "format"), encoding="utf-8") as file:
        return [line.split()[1] for line in file if line.startswith("dep ")]


def linked(folder: str) -> list[str]:
    """Returns the toolchain's crates that the program is linked with: the ones listed in crates.txt, `std`, and all
    crates that these depend on."""
    lines = common.listed()
    waiting = ["std", *(it for name in common.below("ob0") for it in lines[name] if it not in lines)]
    found = set()
    while waiting:
        name = waiting.pop()
        if name not in found:
            found.add(name)
            waiting += named_by(name, folder)
    return sorted(found)


def texts_in(folder: str) -> dict[str, str]:
    """Returns the notices in a crate's folder. The Apache licence is left out if the crate may also be used under the
    MIT licence."""
    names = [it for it in sorted(os.listdir(folder)) if it.startswith(("LICENSE", "NOTICE", "COPYING"))]
    found = {}
    for name in names:
        if name != "LICENSE-APACHE" or "LICENSE-MIT" not in names:
            with open(os.path.join(folder, name), encoding="utf-8") as file:
                found[name] = file.read()
    return found


def collected() -> Notices:
    """Collects the notices of all the toolchain's crates that the program is linked with."""
    folder = kit_folder()
    return {name: texts_in(os.path.join(folder, "rattle", name)) for name in linked(folder)}


def head() -> dict[str, str | None]:
    """Returns the toolchain's version and the checksum of the sources, from the built program's stamp. Kept notices
    with a different head belong to another program."""
    return {it: common.stamp().get(it) for it in ("kit", "sources")}


def keep() -> Notices:
    """Collects the notices, writes them next to the program, and returns them."""
    found = collected()
    with open(KEPT + ".new", "w", encoding="utf-8") as file:
        json.dump({**head(), "crates": found}, file, indent=1)
    os.replace(KEPT + ".new", KEPT)
    return found


def of_program() -> Notices:
    """Returns the notices that are kept next to the program. If no notices of this program are kept, collects and keeps
    the installed toolchain's, or ends the script if no toolchain is installed."""
    try:
        with open(KEPT, encoding="utf-8") as file:
            kept = json.load(file)
        if {it: kept[it] for it in head()} == head():
            found: Notices = kept["crates"]
            return found
    except (OSError, ValueError, KeyError):
        pass
    if not common.kit():
        common.stop(f"the notices of the linked crates are missing ({KEPT}): `make build` with rt on PATH collects them")
    return keep()


def without(found: Notices) -> list[str]:
    """Returns the names of the crates that have no notice."""
    return sorted(name for name, texts in found.items() if not texts)


def short_name(crate: str, file: str) -> str:
    """Returns the name of a notice for the page of copyrights."""
    return crate + file.replace("LICENSE", "").replace("-MIT", "")


def holders(crate: str, text: str) -> list[str]:
    """Returns the copyright lines of a notice, or the crate's authors if the notice contains none."""
    lines = re.findall(r"^\s*Copyright (?:\(c\) )?(.*\b(?:contributors|\d{4})\b.*?)\s*$", text, re.M | re.I)
    return [f"{it} ({crate})" for it in lines] or [f"the authors of {crate}"]
