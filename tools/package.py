#!/usr/bin/env python3
"""Packs and installs bin/ob0, the proved program, with its manual page, completions, editor files, pages and examples.

  tools/package.py package [FOLDER]          writes a Debian package, a .tar.gz with the same tree, a .vsix with the
                                             extension for VS Code (if the modules that it needs are here), SHA256SUMS,
                                             and TESTED, which reports what was tested; all in bin/ or FOLDER
  tools/package.py vsix                      writes only the .vsix
  tools/package.py install PREFIX DESTDIR    copies that tree to PREFIX
  tools/package.py place PREFIX DESTDIR      stops if PREFIX can't have its folders, and leaves none
  tools/package.py uninstall PREFIX DESTDIR  removes what was installed there, or unpacked there from the .tar.gz
  tools/package.py notes                     prints the part of CHANGELOG.md about this version

The tree has the form of /usr: each file is in the folder in which an editor looks for it. The same commit, program and
maintainer (DEBFULLNAME, DEBEMAIL) give the same bytes, if zlib and liblzma compress alike. BUILD_VERSION sets the
version of the packages; without a git repository it is required. SOURCE_DATE_EPOCH sets the time of all files."""
from __future__ import annotations

import datetime
import email.utils
import glob
import gzip
import hashlib
import io
import lzma
import os
import re
import stat
import subprocess
import sys
import tarfile
import textwrap
from collections.abc import Iterable
from typing import Any, Dict, NamedTuple, Tuple, Union

import common
import glibc
import manual_page
import notices
import vsix
from common import TOP, match_of

DOC = "share/doc/ob0"
LIST = f"{DOC}/installed"  # lists the installed files, and after them the created folders, which end with /
VIM = "share/vim/vimfiles/pack/ob0/start/ob0"
NVIM = "share/nvim/site/pack/ob0/start"
EMACS = "share/emacs/site-lisp/elpa/ob0-mode"
EXERCISES = "share/ob0/exercises"
# folders that a system has without ob0: an empty one isn't removed either
SHARED = {"bin", "share", "share/man"}
# the one file that others hold the copyright of
PARSER, PARSER_HOLDER = "editors/tree-sitter/src/tree_sitter/parser.h", "2018-2024 Max Brunsfeld"
# the scripts, each with a manual page
SCRIPTS = ("ob0-check", "ob0-format", "ob0-rename", "ob0-trace", "ob0-watch")
DEFAULT_NAME, DEFAULT_ADDRESS = "The authors of ob0", "ob0@example.org"

# the places of the repository's files and folders
COPIED = {
    "share/ob0": "share/ob0",
    "share/ob0.bash": "share/bash-completion/completions/ob0",
    "share/_ob0": "share/zsh/vendor-completions/_ob0",
    "share/ob0.fish": "share/fish/vendor_completions.d/ob0.fish",
    "editors/vim": VIM,
    "editors/neovim": f"{NVIM}/ob0",
    "editors/emacs/ob0-mode.el": f"{EMACS}/ob0-mode.el",
    "editors/emacs/snippets": f"{EMACS}/snippets",
    "share/emacs/ob0-mode-autoloads.el": f"{EMACS}/ob0-mode-autoloads.el",
    "editors/kate/oberon0.xml": "share/org.kde.syntax-highlighting/syntax/oberon0.xml",
    "editors/kakoune/ob0.kak": "share/kak/rc/filetype/ob0.kak",
    "editors/gtksourceview/oberon0.lang": "share/gtksourceview-5/language-specs/oberon0.lang",
    "editors/nano/oberon0.nanorc": "share/nano/oberon0.nanorc",
    "editors/mime/ob0.xml": "share/mime/packages/ob0.xml",
    "README.md": f"{DOC}/README.md",
    "CHANGELOG.md": f"{DOC}/CHANGELOG.md",
    "CONTRIBUTING.md": f"{DOC}/CONTRIBUTING.md",
    "docs": f"{DOC}/docs",
    "editors": f"{DOC}/editors",
    "examples": f"{DOC}/examples",
    # (small images leave out share/doc, and the script that marks answers works without it)
    "examples/exercises": EXERCISES,
}
# other names of a file or a folder of the tree (each file of EXERCISES has one below DOC); bash and fish load completions by the
# command's name
LINKED = {
    **{f"share/bash-completion/completions/{it}": "share/bash-completion/completions/ob0" for it in SCRIPTS},
    **{f"share/fish/vendor_completions.d/{it}.fish": "share/fish/vendor_completions.d/ob0.fish" for it in SCRIPTS},
    f"{NVIM}/ob0-vim": VIM,
    "share/zsh/site-functions/_ob0": "share/zsh/vendor-completions/_ob0",
    "share/gtksourceview-4/language-specs/oberon0.lang": "share/gtksourceview-5/language-specs/oberon0.lang",
}


class Link(str):
    """The target of a symbolic link."""


# each path with its content (or its link) and its mode
Tree = Dict[str, Tuple[Union[bytes, Link], int]]


def moment() -> int:
    """Returns the time of all packed files: SOURCE_DATE_EPOCH, or the commit's, or (without a repository)
    CHANGELOG.md's."""
    given = os.environ.get("SOURCE_DATE_EPOCH")
    if given and not given.isdigit():
        common.stop(f"SOURCE_DATE_EPOCH is a number of seconds, and not {given}")
    return int(given or time_of_commit() or os.stat(os.path.join(TOP, "CHANGELOG.md")).st_mtime)


def time_of_commit() -> str:
    return git("log", "-1", "--format=%ct")


def git(*words: str) -> str:
    """Returns the output of a git command, or "" outside a repository or without git."""
    if not os.path.exists(os.path.join(TOP, ".git")):
        return ""
    how: dict[str, Any] = {"cwd": TOP, "stdout": subprocess.PIPE, "stderr": subprocess.DEVNULL, "stdin": subprocess.DEVNULL}
    try:
        # (also by sudo, in a folder of somebody else)
        ran: subprocess.CompletedProcess[bytes] = subprocess.run(["git", "-c", f"safe.directory={TOP}", *words], check=False, **how)
        return os.fsdecode(ran.stdout).strip()
    except OSError:
        return ""


def read(*path: str) -> bytes:
    with open(os.path.join(TOP, *path), "rb") as file:
        return file.read()


def version() -> str:
    """Returns the program's version, from the source of its command line."""
    return match_of(r'const VERSION: &str = "([0-9.]+)";', read("crates", "ob0_cli", "src", "line.rt").decode())[1]


def build_version() -> str:
    """Returns the version of the packages: BUILD_VERSION, or the program's if the commit has its tag and no file is
    changed. The version of any other build grows with the commit's time, so a later build replaces an earlier one. It
    is below the program's version before its release, and above it afterwards."""
    number, given = version(), os.environ.get("BUILD_VERSION", "")
    if given:
        if not re.fullmatch(rf"{re.escape(number)}[A-Za-z0-9.+~]*", given):
            common.stop(f"BUILD_VERSION begins with {number}, and then has letters, digits, '.', '+' and '~': not {given}")
        return given
    if not time_of_commit():
        common.stop(f"these sources have no git repository that names their commit: give a version, such as BUILD_VERSION={number}")
    if f"v{number}" in git("tag", "--points-at", "HEAD").split() and not has_changes():
        return number
    mark = "+" if git("tag", "--merged", "HEAD", "--list", f"v{number}") else "~"
    time = datetime.datetime.fromtimestamp(int(time_of_commit()), datetime.timezone.utc)
    return f"{number}{mark}git{time:%Y%m%d.%H%M%S}.{git('log', '-1', '--format=%H')[:8]}" + (".changed" if has_changes() else "")


def has_changes() -> bool:
    """Returns whether files of the commit are changed, or the program's sources contain a file that isn't in it. (Other
    folders can't have such a file: only files that git knows are packed.)"""
    return bool(git("status", "--porcelain", "--untracked-files=no") or git("ls-files", "--others", "--exclude-standard", "--", "crates"))


def maintainer() -> str:
    """Returns the package's maintainer, from the variables that Debian's own tools use."""
    return f"{os.environ.get('DEBFULLNAME') or DEFAULT_NAME} <{os.environ.get('DEBEMAIL') or DEFAULT_ADDRESS}>"


def squeezed(content: bytes) -> bytes:
    """Compresses bytes with gzip. (`gzip.compress` writes different headers in Python 3.11 and 3.13.)"""
    out = io.BytesIO()
    with gzip.GzipFile(filename="", mode="wb", compresslevel=9, fileobj=out, mtime=0) as file:
        file.write(content)
    return out.getvalue()


def names_below(source: str) -> list[str]:
    """Returns the paths of the files below a folder of the repository, or the path itself if it is a file. Files that
    git doesn't know are left out, unless there is no repository. Sources of pages (`.in.md`) are also left out."""
    if git("rev-parse", "HEAD"):
        found = git("ls-files", "-z", "--", source).split("\0")
    elif os.path.isfile(os.path.join(TOP, source)):
        found = [source]
    else:
        found = [os.path.relpath(os.path.join(at, it), TOP) for at, _, names in os.walk(os.path.join(TOP, source)) for it in names]
    packed = (it for it in found if it and "__pycache__" not in it and not it.endswith(".in.md"))
    return sorted(it for it in packed if os.path.isfile(os.path.join(TOP, it)))


def files_of(source: str) -> list[tuple[str, str]]:
    """Returns the files below a folder of the repository: for each its path relative to the folder, and its path.
    Leaves out pages, unless the folder is installed for readers: editors read the other folders."""
    keeps_pages = COPIED[source].startswith((DOC, EXERCISES))
    return [(os.path.relpath(it, source), it) for it in names_below(source) if keeps_pages or not it.endswith(".md")]


PASSED = "`make test` has passed on this program"


def verdict() -> str:
    """Returns the result of `make test` on the packed program. (The numbers of tests left out and of kept proofs depend
    on the machine. They are only in the file TESTED, so each machine packs the same bytes of a commit.)"""
    line = common.stamp().get("gate")
    if not line:
        return "NOT TESTED: each function of this program is proved, and `make test` has not ended on it"
    return PASSED if " 0 failed" in line else f"FAILED: {line}, by `make test` on this program, each of whose functions is proved"


def tested() -> str:
    """Returns the text of the file TESTED: what was tested on this machine, and how many proofs were kept."""
    found = common.stamp()
    return f"{verdict()}\n" + "".join(f"{name}: {found[name]}\n" for name in ("gate", "proofs") if found.get(name))


def proved() -> bytes:
    """Returns the text of the file PROVED: facts about the proofs of the packed program."""
    found = common.stamp()
    changed = ", with changes that are not committed" if has_changes() else ""
    rows = {
        "program": f"ob0 {version()} for x86-64 Linux with glibc {glibc.needed(common.BINARY)} or later",
        "version of the package": build_version(),
        "kit": found["kit"],
        "commit": (git("log", "-1", "--format=%H") or "unknown") + changed,
        "gate": verdict(),
        "sha256 of bin/ob0": found["program"],
        "sha256 of its sources": found["sources"],
    }
    lines = "".join(f"{name + ':':24}{value}\n" for name, value in rows.items())
    return f"What was proved of the program in this package, and with what. The kit is the Rattle toolchain.\n\n{lines}".encode()


class Version(NamedTuple):
    """A version in CHANGELOG.md. It has no day before its release."""

    number: str
    day: str
    changes: list[str]


def versions() -> list[Version]:
    """Returns the versions of CHANGELOG.md, latest first."""
    found = []
    for part in re.split(r"^## ", read("CHANGELOG.md").decode(), flags=re.M)[1:]:
        heading, _, rest = part.partition("\n")
        named = re.fullmatch(r"(\d+\.\d+\.\d+), (?:(\d{4}-\d\d-\d\d)|not released yet)", heading)
        if not named:
            common.stop(f"CHANGELOG.md has a heading `{heading}`: neither `NUMBER, not released yet` nor `NUMBER, YEAR-MONTH-DAY`")
        found.append(Version(named[1], named[2] or "", [" ".join(it.split()) for it in re.split(r"^- ", rest, flags=re.M)[1:]]))
    return found


def known_versions() -> list[Version]:
    """Returns the versions of CHANGELOG.md, latest first. Ends the script if the first one isn't the program's version,
    or if it has no day although it is packed as a release."""
    found, number = versions(), version()
    if not found or found[0].number != number:
        common.stop(f"the first heading of CHANGELOG.md isn't of {number}, which is the program's version")
    if build_version() == number and not found[0].day:
        common.stop(f"CHANGELOG.md says that {number} isn't released yet, and it is to be packed under that number")
    return found


def changelog() -> bytes:
    """Returns CHANGELOG.md in Debian's format, with an entry for each version. The first entry is for this build."""
    entries = []
    for at, (number, day, changes) in enumerate(known_versions()):
        noon = datetime.datetime.strptime(f"{day or '1970-01-01'} 12 +0000", "%Y-%m-%d %H %z").timestamp()
        listed = "".join("  * " + "\n    ".join(textwrap.wrap(it, 74)) + "\n" for it in changes)
        date = email.utils.formatdate(noon if at else moment())
        entries.append(f"ob0 ({number if at else build_version()}) unstable; urgency=medium\n\n{listed}\n -- {maintainer()}  {date}\n")
    return "\n".join(entries).encode()


def notes() -> None:
    """Prints the part of CHANGELOG.md about the program's version, in the form of a release's notes."""
    page = read("CHANGELOG.md").decode()
    print(match_of(rf"^## {re.escape(known_versions()[0].number)},[^\n]*\n+(.*?)(?=^## |\Z)", page, re.M | re.S)[1].strip())


WITHOUT_NOTICE = """The program is linked with crates of the Rattle toolchain, whose notices are below. These have none: {}. They
come with the toolchain, and nothing there says under what terms a program that holds their code may be handed on. Ask the makers of the
toolchain before you hand this package to others."""


def copyright_page() -> bytes:
    """Returns the copyright holders and licences of all packed files, in Debian's form."""
    found = notices.of_program()
    named = [(notices.short_name(crate, file), crate, text) for crate, texts in found.items() for file, text in texts.items()]
    holders = dict.fromkeys(it for _, crate, text in named for it in notices.holders(crate, text))
    comment = textwrap.wrap(WITHOUT_NOTICE.format(", ".join(notices.without(found))), 78)
    program = {
        "Files": "usr/bin/ob0",
        "Copyright": "\n ".join([licence_holder(), *holders]),
        "License": " and ".join(["Expat", *(name for name, _, _ in named)]),
        "Comment": "\n ".join(comment),
    }
    parser = {"Files": f"usr/{DOC}/{PARSER}", "Copyright": PARSER_HOLDER, "License": "Expat"}
    paragraphs = [
        {"Format": "https://www.debian.org/doc/packaging-manuals/copyright-format/1.0/", "Upstream-Name": "ob0"},
        {"Files": "*", "Copyright": licence_holder(), "License": "Expat"},
        program,
        parser,
        {"License": f"Expat\n{indented(licence_text())}"},
        *({"License": f"{name}\n{indented(text)}"} for name, _, text in named),
    ]
    return "\n".join("".join(f"{field}: {value.rstrip()}\n" for field, value in it.items()) for it in paragraphs).encode()


def licence_holder() -> str:
    line = next(it for it in read("LICENSE").decode().splitlines() if it.startswith("Copyright"))
    return line.replace("Copyright (c) ", "")


def licence_text() -> str:
    return read("LICENSE").decode().partition("\n\n")[2].partition("\n\n")[2]


def indented(text: str) -> str:
    return "".join(f" {it.strip() and it or '.'}\n" for it in text.strip("\n").split("\n"))


def messages_page() -> bytes:
    """Returns the manual page ob0-messages, dated like all packed files."""
    day = datetime.datetime.fromtimestamp(moment(), datetime.timezone.utc)
    return manual_page.of_messages(read("docs", "MESSAGES.md").decode(), version(), f"{day:%Y-%m-%d}")


def emacs_package() -> bytes:
    """Returns the file that tells Emacs about the installed package."""
    line = f"""(define-package "ob0-mode" "{version()}" "Major mode for Oberon-0" '((emacs "26.1")))"""
    return f";; What Emacs reads of the installed package  -*- no-byte-compile: t -*-\n{line}\n".encode()


def help_tags() -> bytes:
    """Returns the tags of Vim's help pages, as `:helptags` writes them. Users of an installed page can't write
    there."""
    pages = [it for it in names_below("editors/vim/doc") if it.endswith(".txt")]
    found = [(tag, os.path.basename(it)) for it in pages for tag in re.findall(r"(?<!\S)\*([^*|\s/\\]+)\*(?!\S)", read(it).decode())]
    return "".join(f"{tag}\t{page}\t/*{tag}*\n" for tag, page in sorted(found)).encode()


OVERRIDES = """# the packed program is the proved one, byte for byte
ob0: unstripped-binary-or-object [usr/bin/ob0]
# the archive has the same file, for systems without /usr/share/common-licenses
ob0: copyright-file-contains-full-apache-2-license
"""


def tree() -> Tree:
    """Returns the tree to install: each path below the prefix, with its content (or its link) and its mode."""
    found: Tree = {
        "bin/ob0": (read("bin", "ob0"), 0o755),
        **{f"bin/{it}": (read("share", it), 0o755) for it in SCRIPTS},
        **{f"share/man/man1/{it}.1.gz": (squeezed(read("share", f"{it}.1")), 0o644) for it in ("ob0", *SCRIPTS)},
        "share/man/man7/ob0-messages.7.gz": (squeezed(messages_page()), 0o644),
        f"{DOC}/PROVED": (proved(), 0o644),
        f"{DOC}/changelog.gz": (squeezed(changelog()), 0o644),
        f"{DOC}/copyright": (copyright_page(), 0o644),
        "share/lintian/overrides/ob0": (OVERRIDES.encode(), 0o644),
        f"{EMACS}/ob0-mode-pkg.el": (emacs_package(), 0o644),
    }
    for source, target in COPIED.items():
        for below, path in files_of(source):
            found[os.path.normpath(os.path.join(target, below))] = (read(path), 0o644)
    found[f"{VIM}/doc/tags"] = (help_tags(), 0o644)
    exercises = {f"{DOC}/examples/exercises/{it}": f"{EXERCISES}/{it}" for it, _ in files_of("examples/exercises")}
    for path, target in {**LINKED, **exercises}.items():
        found[path] = (Link(os.path.relpath(target, os.path.dirname(path))), 0o777)
    return dict(sorted(found.items()))


def folders_of(paths: Iterable[str]) -> list[str]:
    """Returns the folders that contain these paths, each before its content."""
    found = set()
    for path in paths:
        while path := os.path.dirname(path):
            found.add(path)
    return sorted(found)


def entry(
    name: str, mode: int, time: int, kind: bytes = tarfile.REGTYPE, size: int = 0, link: str = ""
) -> tarfile.TarInfo:
    found = tarfile.TarInfo(name)
    found.mode, found.mtime, found.type, found.size, found.linkname = mode, time, kind, size, link
    found.uname = found.gname = "root"
    return found


def archive(found: Tree, top: str, with_folders: bool) -> bytes:
    """Returns a tar archive of a tree, below the folder `top`. dpkg requires entries of folders; in other archives they
    would change the modes of existing folders."""
    time, out = moment(), io.BytesIO()
    with tarfile.open(fileobj=out, mode="w", format=tarfile.GNU_FORMAT) as tar:
        for folder in ["", *(f"{it}/" for it in folders_of(found))] if with_folders else []:
            tar.addfile(entry(f"{top}/{folder}", 0o755, time, tarfile.DIRTYPE))
        for path, (content, mode) in found.items():
            name = f"{top}/{path}"
            if isinstance(content, Link):
                tar.addfile(entry(name, mode, time, tarfile.SYMTYPE, link=str(content)))
            else:
                tar.addfile(entry(name, mode, time, size=len(content)), io.BytesIO(content))
    return out.getvalue()


def list_of(files: Iterable[str], folders: Iterable[str]) -> str:
    """Returns the text of the list of files and folders to remove, in this order. Folders are only removed if they are
    empty."""
    return "".join(f"{it}\n" for it in [*files, *(f"{it}/" for it in sorted(folders, reverse=True))])


def with_list(found: Tree) -> Tree:
    """Returns the tree with the list of its files added. The list also contains the folders that ob0 may have
    created."""
    folders = {*folders_of([*found, LIST])} - SHARED
    return {**found, LIST: (list_of([*found, LIST], folders).encode(), 0o644)}


def control(found: Tree) -> bytes:
    size = sum(1 if isinstance(it, Link) else -(-len(it) // 1024) for it, _ in found.values())
    return f"""Package: ob0
Version: {build_version()}
Architecture: amd64
Maintainer: {maintainer()}
Installed-Size: {size}
Depends: libc6 (>= {glibc.needed(common.BINARY)}), python3
Suggests: bash-completion, neovim | vim-ale | elpa-eglot | kate, kakoune
Section: devel
Priority: optional
Description: language server, checker and interpreter for Oberon-0
 ob0 reports the errors of modules in Oberon-0, the small language of Niklaus
 Wirth's Compiler Construction, and runs valid modules. For editors that speak
 the Language Server Protocol it answers hover, definition and references.
 Its edits (rename, inlining a constant, formatting) keep what a module does.
 .
 The package has files for Neovim, Vim, Emacs, Kate, Kakoune, nano and editors
 with GtkSourceView, completions for bash, zsh and fish, and scripts:
 ob0-check lists the errors of several files, ob0-format formats files,
 ob0-rename renames in a file, ob0-trace shows how a run came to its fault,
 and ob0-watch reports whether an editor keeps the rules under which ob0's
 promises hold.
""".encode()


def part(name: str, content: bytes) -> bytes:
    """Returns one member of an ar archive, with its header."""
    head = f"{name:<16}{moment():<12}{0:<6}{0:<6}{'100644':<8}{len(content):<10}`\n"
    return head.encode() + content + b"\n" * (len(content) % 2)


def debian_package(found: Tree) -> bytes:
    below_usr = {f"usr/{name}": it for name, it in found.items()}
    sums = "".join(f"{hashlib.md5(it).hexdigest()}  {name}\n" for name, (it, _) in below_usr.items() if not isinstance(it, Link))
    about: Tree = {"control": (control(found), 0o644), "md5sums": (sums.encode(), 0o644)}
    packed = {name: lzma.compress(archive(it, ".", True)) for name, it in (("control", about), ("data", below_usr))}
    parts = [("debian-binary", b"2.0\n"), *((f"{name}.tar.xz", it) for name, it in packed.items())]
    return b"!<arch>\n" + b"".join(part(*it) for it in parts)


def need_program() -> None:
    """Stops if bin/ob0 isn't the proved program of these sources."""
    if not common.is_current():
        common.stop("bin/ob0 is not the proved program of these sources: `make build` makes it")


def extension() -> dict[str, bytes]:
    """Returns the package of the VS Code extension by its file's name, or an empty dict if the Node modules that it
    needs are missing."""
    found = vsix.modules()
    if not found:
        print("no .vsix is made: `make editors RELEASE=trixie` (as root) or `npm install` in editors/vscode gets the modules that it needs")
        return {}
    files = {os.path.relpath(it, "editors/vscode"): read(it) for it in names_below("editors/vscode")}
    files.update({"LICENSE.txt": read("LICENSE"), "CHANGELOG.md": read("CHANGELOG.md")})
    return {f"ob0-{build_version()}.vsix": vsix.archive(vsix.with_modules(found, files), moment())}


# the files of earlier builds, including a signature of the sums
EARLIER = ["ob0_*_amd64.deb", "ob0-*-x86_64-linux.tar.gz", "ob0-*.vsix", "SHA256SUMS.asc"]


def write_files(files: dict[str, bytes], folder: str) -> None:
    """Writes files to a folder. Each file is replaced in one step, so that a simultaneous run on the same sources finds
    whole files."""
    os.makedirs(folder, exist_ok=True)
    for name, content in files.items():
        path = os.path.join(folder, name)
        new = f"{path}.{os.getpid()}"
        with open(new, "wb") as file:
            file.write(content)
        os.replace(new, path)


def write_packages(found: Tree, folder: str) -> None:
    """Builds the packages from an installation tree, writes them and their SHA-256 checksums to a folder, and removes
    packages of earlier builds."""
    number = build_version()
    made = {
        f"ob0_{number}_amd64.deb": debian_package(found),
        f"ob0-{number}-x86_64-linux.tar.gz": squeezed(archive(with_list(found), f"ob0-{number}", False)),
        **extension(),
    }
    sums = "".join(f"{hashlib.sha256(content).hexdigest()}  {name}\n" for name, content in made.items())
    write_files({**made, "SHA256SUMS": sums.encode(), "TESTED": tested().encode()}, folder)
    remove_earlier(folder, made)
    print(sums, end="")


def remove_earlier(folder: str, made: Iterable[str] = ()) -> None:
    """Removes the packages of earlier builds from a folder, except those that were just made."""
    for path in (it for pattern in EARLIER for it in glob.glob(os.path.join(folder, pattern))):
        if os.path.basename(path) not in made:
            remove(path)


def remove_untested() -> None:
    """Removes the packages in bin/ if their TESTED says that their program isn't tested, together with SHA256SUMS and
    TESTED."""
    folder = os.path.dirname(common.BINARY)
    path = os.path.join(folder, "TESTED")
    if os.path.exists(path) and not read(path).startswith(PASSED.encode()):
        remove_earlier(folder)
        for it in ("SHA256SUMS", "TESTED"):
            remove(os.path.join(folder, it))


def package(folder: str) -> None:
    write_packages(tree(), folder)
    if verdict() != PASSED:
        print(f"this is not a package for others. PROVED says of its program: {verdict()}")
    if not os.environ.get("DEBEMAIL"):
        print(f"the maintainer's address is {DEFAULT_ADDRESS}, which is nobody's: DEBFULLNAME and DEBEMAIL name yours")


def listed(room: str) -> tuple[list[str], list[str]]:
    """Returns the files and the folders in the list that an earlier installation left, or two empty lists if there is
    no such list."""
    try:
        with open(os.path.join(room, LIST), encoding="utf-8") as file:
            lines = file.read().splitlines()
    except OSError:
        return [], []
    return [it for it in lines if not it.endswith("/")], [it.rstrip("/") for it in lines if it.endswith("/")]


def make_folders(path: str) -> list[str]:
    """Creates a folder and its missing parents. Returns the created folders, the innermost first."""
    made = []
    while not os.path.isdir(path):
        made.append(path)
        path = os.path.dirname(path)
    for folder in reversed(made):
        os.mkdir(folder)
        # (readable for everybody, whatever the umask is; the setgid bit comes from the outer folder)
        os.chmod(folder, 0o755 | os.stat(folder).st_mode & stat.S_ISGID)
    return made


def need_place(room: str) -> None:
    """Ends the script if the folders of the tree can't be created below this prefix. Removes the folders that it
    created to find out."""
    for folder in make_folders(os.path.join(room, os.path.dirname(LIST))):
        os.rmdir(folder)


def install(room: str) -> None:
    found = tree()
    before, known = listed(room)
    made = [path for it in folders_of([*found, LIST]) for path in make_folders(os.path.join(room, it))]
    for path in (it for it in before if it not in found):
        remove(os.path.join(room, path))
    for path, (content, mode) in found.items():
        target = os.path.join(room, path)
        remove(target)
        if isinstance(content, Link):
            os.symlink(content, target)
            continue
        with open(target, "wb") as file:
            file.write(content)
        os.chmod(target, mode)
    # (the created parents of the prefix are listed relative to it: `.`, `..` and so on)
    folders = {*known, *(os.path.relpath(it, room) for it in made)}
    with open(os.path.join(room, LIST), "w", encoding="utf-8") as file:
        file.write(list_of([*found, LIST], folders))
    os.chmod(os.path.join(room, LIST), 0o644)
    print(f"installed {os.path.join(room, 'bin/ob0')}, its manual pages, completions, editor files, pages and examples")


def remove(path: str) -> None:
    try:
        os.unlink(path)
    except FileNotFoundError:
        pass


def uninstall(room: str) -> None:
    files, folders = listed(room)
    if not files:
        common.stop(f"nothing of ob0 is installed in {room}: there is no {LIST}", 1)
    for file in files:
        remove(os.path.join(room, file))
    for path in sorted((os.path.normpath(os.path.join(room, it)) for it in folders), key=len, reverse=True):
        try:
            os.rmdir(path)
        except OSError:
            pass  # (others have files there now)
    print(f"removed what was installed in {room}")


def room_of(prefix: str, root: str) -> str:
    """Returns the folder of a prefix. If DESTDIR (another system's root) is given, the folder is below it."""
    if not prefix:
        common.stop("PREFIX is empty: leave it out for /usr/local, or name a folder (PREFIX=~/.local, PREFIX=/)")
    # (not every shell expands a ~ after =)
    room = os.path.expanduser(prefix)
    room = os.path.abspath(os.path.join(root, room.lstrip("/")) if root else room)
    if os.path.realpath(room) == os.path.realpath(TOP):
        common.stop("PREFIX is the folder of the sources, whose own bin/ob0 would be replaced and removed: name another")
    return room


def at_prefix(command: str, prefix: str, root: str) -> None:
    """Carries out a command (install, place or uninstall) for the folder of a prefix."""
    room = room_of(prefix, root)
    if command == "install":
        need_program()
    try:
        {"place": need_place, "install": install, "uninstall": uninstall}[command](room)
    except OSError as why:
        cure = "use sudo, or a folder of your own (PREFIX=~/.local)"
        common.stop(f"{why.filename} can't be written or removed ({why.strerror}): {cure}", 1)


def main(words: list[str]) -> None:
    command, *places = words
    common.settle()
    if command == "notes":
        notes()
    elif command == "vsix":
        write_files(extension(), os.path.dirname(common.BINARY))
    elif command == "package":
        need_program()
        package(*places or [os.path.dirname(common.BINARY)])
    else:
        prefix, root, *_ = (*places, "", "")
        at_prefix(command, prefix, root)


if __name__ == "__main__":
    main(sys.argv[1:])
