"""Makes the package of the VS Code extension: a zip archive with the extension's files, two lists of its contents, and
the Node modules that it needs with their notices. The modules come from `npm install` in editors/vscode, or from
Debian."""
from __future__ import annotations

import io
import json
import os
import re
import time
import zipfile
from typing import Any, Dict, List, NamedTuple
from xml.sax.saxutils import escape, quoteattr

import common
from common import TOP

CLIENT = "vscode-languageclient"
FOLDER = os.path.join(TOP, "editors", "vscode")
NOTICES = "ThirdPartyNotices.txt"
KINDS = {".js": "application/javascript", ".json": "application/json", ".md": "text/markdown", ".png": "image/png"}
KINDS.update({".sh": "application/x-sh", ".txt": "text/plain"})
Files = Dict[str, bytes]


class Modules(NamedTuple):
    """The folders that contain Node modules, and the root of the system to which they belong."""

    root: str
    folders: List[str]

    def folder_of(self, name: str) -> str | None:
        return next((os.path.join(it, name) for it in self.folders if os.path.isfile(os.path.join(it, name, "package.json"))), None)


def of_system(root: str) -> Modules:
    return Modules(root, [os.path.join(root, "usr", "local", "lib", "node_modules"), os.path.join(root, "usr", "share", "nodejs")])


def modules() -> Modules | None:
    """Returns the first of these places that contains the module of the client: npm's folder, the root of Debian 13
    that `make editors` makes, or this system. Returns None if none does."""
    places = [Modules("/", [os.path.join(FOLDER, "node_modules")]), of_system(os.path.join(TOP, "bin", "roots", "trixie")), of_system("/")]
    return next((it for it in places if it.folder_of(CLIENT)), None)


def read(path: str) -> bytes:
    with open(path, "rb") as file:
        return file.read()


def needed(found: Modules, names: list[str]) -> list[str]:
    """Returns the names of these modules and of all modules that they depend on, according to their manifests. Ends the
    script if one is missing."""
    waiting, known = list(names), set()
    while waiting:
        name = waiting.pop()
        folder = found.folder_of(name)
        if not folder:
            common.stop(f"the module {name}, which the extension for VS Code needs, is missing in {' and '.join(found.folders)}")
        if name not in known:
            known.add(name)
            waiting += json.loads(read(os.path.join(folder, "package.json"))).get("dependencies", {})
    return sorted(known)


def files_of(folder: str) -> Files:
    """Returns the files of a module that are needed to run it, without type declarations and files for developers."""
    found = {}
    for at, folders, names in os.walk(folder):
        folders[:] = sorted(it for it in folders if it not in ("node_modules", "test", "tests"))
        for name in sorted(names):
            if os.path.splitext(name)[1] in (".js", ".json", ".sh") and not name.startswith("tsconfig"):
                found[os.path.relpath(os.path.join(at, name), folder)] = read(os.path.join(at, name))
    return found


def package_with(found: Modules, path: str) -> str | None:
    """Returns the Debian package that contains a file, according to dpkg's lists, or None if no package does."""
    lists, wanted = os.path.join(found.root, "var", "lib", "dpkg", "info"), "/" + os.path.relpath(path, found.root)
    for name in sorted(os.listdir(lists)) if os.path.isdir(lists) else []:
        if name.endswith(".list") and wanted in read(os.path.join(lists, name)).decode().splitlines():
            return name[: -len(".list")].partition(":")[0]
    return None


def notice_of(found: Modules, name: str) -> str:
    """Returns the licence notice of a module: its own file, or the page of its Debian package. Ends the script if it
    has neither."""
    folder = found.folder_of(name) or ""
    own = sorted(it for it in os.listdir(folder) if re.match("licen[cs]e", it, re.I))
    if own:
        return "\n".join(read(os.path.join(folder, it)).decode() for it in own)
    package = package_with(found, os.path.join(folder, "package.json"))
    page = os.path.join(found.root, "usr", "share", "doc", package or "", "copyright")
    if not os.path.isfile(page):
        common.stop(f"the module {name} has no notice in {folder}, so it can't be handed on")
    return read(page).decode()


def with_modules(found: Modules, files: Files) -> Files:
    """Returns the extension's files, together with the Node modules that it needs and their licence notices."""
    made, notices = dict(files), []
    for name in needed(found, list(json.loads(files["package.json"])["dependencies"])):
        folder = found.folder_of(name) or ""
        made.update({f"node_modules/{name}/{path}": content for path, content in files_of(folder).items()})
        version = json.loads(read(os.path.join(folder, "package.json")))["version"]
        notices.append(f"{name} {version}\n\n{notice_of(found, name).strip()}\n")
    made[NOTICES] = f"\n{'-' * 72}\n\n".join(["The extension has these modules in node_modules.\n", *notices]).encode()
    # (a link to another folder leads nowhere in the extension, so only its text is kept)
    made["README.md"] = re.sub(rb"\[([^\]]*)\]\(\.\./[^)]*\)", rb"\1", files["README.md"])
    return made


def manifest(about: Any) -> bytes:
    """Returns the manifest from which VS Code and its marketplaces read the extension's name, version and
    description."""
    named = {"Manifest": "package.json", "Content.Details": "README.md", "Content.Changelog": "CHANGELOG.md"}
    named["Content.License"] = "LICENSE.txt"
    places = {f"Microsoft.VisualStudio.{'Code' if it == 'Manifest' else 'Services'}.{it}": path for it, path in named.items()}
    places["Microsoft.VisualStudio.Services.Icons.Default"] = about["icon"]
    assets = "\n".join(f'    <Asset Type="{kind}" Path="extension/{path}" Addressable="true"/>' for kind, path in places.items())
    name, version, publisher = (quoteattr(about[it]) for it in ("name", "version", "publisher"))
    return f"""<?xml version="1.0" encoding="utf-8"?>
<PackageManifest Version="2.0.0" xmlns="http://schemas.microsoft.com/developer/vsx-schema/2011">
  <Metadata>
    <Identity Language="en-US" Id={name} Version={version} Publisher={publisher}/>
    <DisplayName>{escape(about["displayName"])}</DisplayName>
    <Description xml:space="preserve">{escape(about["description"])}</Description>
    <Tags>{escape(",".join(about["keywords"]))}</Tags>
    <Categories>{escape(",".join(about["categories"]))}</Categories>
    <GalleryFlags>Public</GalleryFlags>
    <Properties>
      <Property Id="Microsoft.VisualStudio.Code.Engine" Value={quoteattr(about["engines"]["vscode"])}/>
      <Property Id="Microsoft.VisualStudio.Code.ExtensionKind" Value="workspace"/>
    </Properties>
    <License>extension/LICENSE.txt</License>
    <Icon>extension/{about["icon"]}</Icon>
  </Metadata>
  <Installation>
    <InstallationTarget Id="Microsoft.VisualStudio.Code"/>
  </Installation>
  <Dependencies/>
  <Assets>
{assets}
  </Assets>
</PackageManifest>
""".encode()


def content_types(names: list[str]) -> bytes:
    """Returns the list of MIME types that the package must contain, one for each file ending."""
    endings = sorted({os.path.splitext(it)[1] for it in names})
    lines = "".join(f'\n  <Default Extension="{it}" ContentType="{KINDS[it]}"/>' for it in endings)
    lines += '\n  <Default Extension=".vsixmanifest" ContentType="text/xml"/>'
    return f"""<?xml version="1.0" encoding="utf-8"?>
<Types xmlns="http://schemas.openxmlformats.org/package/2006/content-types">{lines}
</Types>
""".encode()


def archive(files: Files, moment: int) -> bytes:
    """Returns the bytes of the extension's package. All its files have the modification time `moment`."""
    held = {f"extension/{name}": content for name, content in sorted(files.items())}
    lists = {"extension.vsixmanifest": manifest(json.loads(files["package.json"])), "[Content_Types].xml": content_types(list(files))}
    out, written = io.BytesIO(), time.gmtime(max(moment, 315532800))[:6]
    with zipfile.ZipFile(out, "w", zipfile.ZIP_DEFLATED, compresslevel=9) as packed:
        for name, content in {**lists, **held}.items():
            entry = zipfile.ZipInfo(name, written)
            entry.create_system, entry.compress_type = 3, zipfile.ZIP_DEFLATED
            entry.external_attr = (0o100755 if name.endswith(".sh") else 0o100644) << 16
            packed.writestr(entry, content)
    return out.getvalue()
