"""Tests the VS Code extension: its manifest, its indentation rules, and the archive that `make package` makes."""
from __future__ import annotations

import io
import json
import os
import re
import struct
import xml.etree.ElementTree
import zipfile
from unittest import mock

import common
import package
import vsix
from harness import TOP, examples, holds, same, test, text_of
from homes import temporary, write

FOLDER = os.path.join("editors", "vscode")


@test("VS Code: the indentation rules indent each line of the examples as the formatter does")
def indentation() -> None:
    rules = json.loads(text_of(FOLDER, "language-configuration.json"))["indentationRules"]
    increase, decrease = (re.compile(rules[f"{it}IndentPattern"]) for it in ("increase", "decrease"))
    count, wrong = 0, []
    for path in examples():
        lines = [it for it in text_of(path).split("\n") if it.strip()]
        for above, line in zip(lines, lines[1:]):
            given, level = len(line) - len(line.lstrip()), len(above) - len(above.lstrip())
            level += 2 * bool(increase.search(above)) - 2 * bool(decrease.search(line))
            count += 1
            if not line.lstrip().startswith("(*") and max(0, level) != given:
                wrong.append(f"{path}: {above!r}, {line!r} at {level}")
    same(wrong, [], "lines that stand otherwise")
    holds(count > 400, f"{count} lines")


@test("VS Code: the manifest's files exist, its commands are registered, and an untrusted folder can't set ob0.path")
def conventions() -> None:
    about = json.loads(text_of(FOLDER, "package.json"))
    contributed, program = about["contributes"], text_of(FOLDER, about["main"])
    commands = {it["command"] for it in contributed["commands"]}
    same(commands, {*re.findall(r'registerCommand\("(ob0\.\w+)"', program)} - {"ob0.apply"}, "the commands")
    shown = {it["command"] for menu in contributed["menus"].values() for it in menu if it["when"] == "editorLangId == oberon0"}
    same(shown, {"ob0.check", "ob0.run"}, "the commands that are offered in modules only")
    path = contributed["configuration"]["properties"]["ob0.path"]
    trusted = about["capabilities"]["untrustedWorkspaces"]
    same((path["scope"], trusted["supported"]), ("machine-overridable", "limited"), "what a folder may set")
    same(trusted["restrictedConfigurations"], ["ob0.path"], "what a folder that isn't trusted may not set")
    same(about["capabilities"]["virtualWorkspaces"]["supported"], "limited", "folders that aren't on a disk")
    matcher = contributed["problemMatchers"][0]
    same((matcher["applyTo"], matcher["severity"], matcher["source"]), ("closedDocuments", "error", "ob0"), "the problem matcher")
    with open(os.path.join(TOP, FOLDER, about["icon"]), "rb") as file:
        head = file.read(24)
    same((head[:8], struct.unpack(">II", head[16:])), (b"\x89PNG\r\n\x1a\n", (128, 128)), "the icon")
    holds(about["keywords"] and "Snippets" in about["categories"], "what shops ask for")
    rules = json.loads(text_of(FOLDER, "language-configuration.json"))
    holds(["(*", "*)"] in rules["surroundingPairs"], "a selection can be made a comment")
    (rule,) = rules["onEnterRules"]
    begins = [bool(re.search(rule["beforeText"], it)) for it in ("  (* a", "(* a *)", "x := 1 (* a")]
    same(begins, [True, False, False], "lines that begin a comment")


def stand_ins(room: str) -> vsix.Modules:
    """Writes made-up Node modules: the client, a module that it needs with a Debian copyright file, and one that
    nothing needs. Returns what vsix.py finds of them."""
    nodes = os.path.join(room, "usr", "share", "nodejs")
    write(os.path.join(nodes, vsix.CLIENT, "package.json"), json.dumps({"version": "9.0.0", "dependencies": {"low": "^1"}}))
    write(os.path.join(nodes, vsix.CLIENT, "lib", "node", "end.sh"), "#!/bin/sh\n")
    for it in ("License.txt", "node.js", "node.d.ts", "tsconfig.json"):
        write(os.path.join(nodes, vsix.CLIENT, it), f"{it}\n")
    write(os.path.join(nodes, "low", "package.json"), json.dumps({"version": "1.2.3"}))
    write(os.path.join(nodes, "other", "package.json"), json.dumps({"version": "1.2.3"}))
    write(os.path.join(room, "var", "lib", "dpkg", "info", "node-low:all.list"), "/.\n/usr/share/nodejs/low/package.json\n")
    write(os.path.join(room, "usr", "share", "doc", "node-low", "copyright"), "Copyright: 2001 A B\n")
    return vsix.of_system(room)


def made(found: vsix.Modules) -> dict[str, bytes]:
    with mock.patch.object(vsix, "modules", lambda: found), mock.patch.object(package, "build_version", lambda: "1.2.3~x"):
        return package.extension()


@test("VS Code: the package contains the extension, its modules and their notices, and has the same bytes each time")
def packed() -> None:
    with temporary() as room, mock.patch.dict(os.environ, {"SOURCE_DATE_EPOCH": "1800000000"}):
        found = stand_ins(room)
        first, second = made(found), made(found)
        same(first, second, "a second making")
        same(list(first), ["ob0-1.2.3~x.vsix"], "its name")
        with zipfile.ZipFile(io.BytesIO(first["ob0-1.2.3~x.vsix"])) as archive:
            names = archive.namelist()
            held = {it: archive.read(it) for it in names}
            times = {it.date_time for it in archive.infolist()}
            modes = {it.filename.rpartition(".")[2]: it.external_attr >> 16 & 0o777 for it in archive.infolist()}
        same((times, modes["sh"], modes["js"]), ({(2027, 1, 15, 8, 0, 0)}, 0o755, 0o644), "times and modes")
        nodes = sorted(it[len("extension/node_modules/") :] for it in names if "node_modules" in it)
        own_client = (f"{vsix.CLIENT}/{it}" for it in ("lib/node/end.sh", "node.js", "package.json"))
        same(nodes, sorted(["low/package.json", *own_client]), "the modules")
        own = {it[len(FOLDER) + 1 :] for it in package.names_below(FOLDER)} | {"LICENSE.txt", "CHANGELOG.md", vsix.NOTICES}
        lists = {"extension.vsixmanifest", "[Content_Types].xml"}
        same({it for it in names if "node_modules" not in it}, {f"extension/{it}" for it in own} | lists, "the rest")
        notices = held[f"extension/{vsix.NOTICES}"].decode()
        holds("License.txt" in notices and "low 1.2.3\n\nCopyright: 2001 A B\n" in notices, notices)
        holds(b"](../" not in held["extension/README.md"], "a link out of the extension")
        listed = xml.etree.ElementTree.fromstring(held["extension.vsixmanifest"])
        paths = [it.get("Path") for it in listed.iter() if it.tag.endswith("}Asset")]
        same([it for it in paths if it not in names], [], "files of the list that don't exist")
        holds(len(paths) == 5 and f'Version="{package.version()}"' in held["extension.vsixmanifest"].decode(), str(paths))
        endings = {it.get("Extension") for it in xml.etree.ElementTree.fromstring(held["[Content_Types].xml"])}
        same({os.path.splitext(it)[1] for it in names if it != "[Content_Types].xml"} - endings, set(), "endings without a kind")


@test("VS Code: packing stops if a module is missing or has no notice, and without the client no package is made")
def not_packed() -> None:
    with temporary() as room:
        found = stand_ins(room)
        os.unlink(os.path.join(room, "usr", "share", "doc", "node-low", "copyright"))
        with mock.patch.object(common, "stop", side_effect=LookupError) as stop:
            for word in ("has no notice", "is missing in"):
                try:
                    made(found)
                except LookupError:
                    pass
                holds(word in stop.call_args[0][0], stop.call_args[0][0])
                low = os.path.join(room, "usr", "share", "nodejs", "low", "package.json")
                if os.path.exists(low):
                    os.unlink(low)
        with mock.patch.object(vsix, "modules", lambda: None):
            same(package.extension(), {}, "the files that are made without the client")
