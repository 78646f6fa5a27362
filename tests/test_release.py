"""Tests a release: its version, its changes, the notices of linked crates, and CONTRIBUTING's recipe, which is followed
in a temporary repository with another program in place of ob0."""
from __future__ import annotations

import contextlib
import gzip
import json
import os
import re
import shutil
import stat
import subprocess
import sys
import tarfile
from collections.abc import Callable, Iterator
from unittest import mock

import common
import glibc
import notices
import package
from common import match_of
from harness import TOP, holds, leave_out, same, test, text_of, tracked, want
from homes import copy, run_plainly, temporary, write
from snippets import FENCED

# each place that states the program's version, with a pattern that finds the version
PLACES = [
    ("share/ob0.1", r'^\.TH OB0 1 \S+ "ob0 (\S+)"'),
    *((f"share/{it}.1", rf'^\.TH {it.upper()} 1 \S+ "ob0 (\S+)"') for it in package.SCRIPTS),
    ("share/ob0/ob0_scripts.py", r'^VERSION = "(\S+)"'),
    ("share/ob0-watch", r'^VERSION = "(\S+)"'),
    ("CHANGELOG.md", r"^## (\S+),"),
    ("editors/emacs/ob0-mode.el", r"^;; Version: (\S+)"),
    ("editors/vscode/package.json", r'^  "version": "([^"]+)"'),
    ("editors/tree-sitter/tree-sitter.json", r'^    "version": "([^"]+)"'),
]
SOURCE = "crates/ob0_cli/src/line.rt"
NEEDED = [*package.COPIED, "tools", "share", "LICENSE", "Makefile", "crates.txt", "HANDLES", SOURCE]
# notices of crates that don't exist, next to a program that isn't ob0
STAND_IN = """import common, json, notices, sys
common.keep(sys.argv[1])
common.keep_verdict("1 passed, 0 failed")
crates = {"low": {}, "mid": {"LICENSE": "Copyright (c) 2001 A B\\n\\nDo as you like.\\n"}}
json.dump({**notices.head(), "crates": crates}, open(notices.KEPT, "w"))
"""


class Repository:
    """Makes a temporary Git repository with the files that are packed, and with /bin/true in place of ob0."""

    def __init__(self, room: str) -> None:
        self.room = os.path.join(room, "repository")
        home = os.path.join(room, "home")
        os.mkdir(home)
        kept = {key: value for key, value in os.environ.items() if not key.startswith(("BUILD_", "SOURCE_", "DEB"))}
        names = {"NAME": "x", "EMAIL": "x@example.org"}
        self.own = {**kept, "HOME": home, **{f"GIT_{who}_{it}": value for who in ("AUTHOR", "COMMITTER") for it, value in names.items()}}
        for it in tracked():
            if any(it == name or it.startswith(name + "/") for name in NEEDED):
                os.makedirs(os.path.dirname(os.path.join(self.room, it)), exist_ok=True)
                copy(os.path.join(TOP, it), os.path.join(self.room, it))
        write(os.path.join(self.room, ".gitignore"), text_of(".gitignore"))
        self.ran("git", "init", "--quiet")
        self.commit()
        self.build()

    def ran(self, *words: str, **named: str) -> str:
        """Runs a command, requires it to succeed, and returns its output."""
        status, said = self.tried(*words, **named)
        same(status, 0, f"{words}: {said}")
        return said

    def tried(self, *words: str, **named: str) -> tuple[int, str]:
        return run_plainly(list(words), {**self.own, **named}, self.room)

    def commit(self) -> None:
        self.ran("git", "add", ".")
        self.ran("git", "commit", "--quiet", "--allow-empty", "-m", "x")

    def build(self, program: str = "/bin/true") -> None:
        """Puts a program in the place of ob0, with the stamp and notices of a built one."""
        self.ran(sys.executable, "-B", "-c", f"import sys; sys.path.insert(0, 'tools')\n{STAND_IN}", program)

    def change(self, path: str, pattern: str, new: str) -> None:
        """Replaces the first group of a pattern's match in a file."""
        found = match_of(pattern, text_of(self.room, path), re.M)
        write(os.path.join(self.room, path), found.string[: found.start(1)] + new + found.string[found.end(1) :])

    def call(self, line: str, **named: str) -> tuple[int, str]:
        """Runs a line of Python that uses tools/package.py. Returns the exit status and the output."""
        script = f"import sys; sys.path.insert(0, 'tools'); import package\n{line}"
        return self.tried(sys.executable, "-B", "-c", script, **named)

    def tree(self) -> list[str]:
        return self.call("print(chr(10).join(package.tree()))")[1].splitlines()


@contextlib.contextmanager
def repository() -> Iterator[Repository]:
    want("git")
    with temporary() as room:
        yield Repository(room)


@test("release: every place that states the version agrees with the program's source")
def places() -> None:
    number = package.version()
    for path, pattern in PLACES:
        same(match_of(pattern, text_of(path), re.M)[1], number, path)
    for path in ("README.md", "CONTRIBUTING.md", "docs/DECISIONS.md", "editors/vscode/README.md"):
        found = {*re.findall(r"\bob0[-_ ](\d+\.\d+\.\d+)", text_of(path)), *re.findall(r"(\d+\.\d+\.\d+)[~+]git", text_of(path))}
        same(found - {number}, set(), f"other versions of ob0 on {path}")


@test("release: each of the kit's crates in the program has its notice in the package, or is listed as having none")
def linked() -> None:
    if not shutil.which("rt"):
        leave_out("it needs the toolchain")
    folder, lines = notices.kit_folder(), common.listed()
    direct = {it for name in common.below("ob0") for it in lines[name] if it not in lines}
    found = notices.linked(folder)
    holds(len(direct) >= 7 and direct < {*found} and {"std", "json"} < {*found}, f"{direct} of {found}")
    with mock.patch.object(notices, "of_program", notices.collected):
        page = package.copyright_page().decode()
    said = " ".join(match_of(r"^Comment: (.*?)(?=\n\S|\n\n)", page, re.M | re.S)[1].split())
    for crate in found:
        files = [it for it in os.listdir(os.path.join(folder, "rattle", crate)) if it.startswith(("LICENSE", "COPYING", "NOTICE"))]
        holds(bool(files) != bool(re.search(rf"have none:[^.]*\b{crate}\b", said)), f"{crate}: {files}, {said}")
        for name in files:
            if name != "LICENSE-APACHE" or "LICENSE-MIT" not in files:
                holds(package.indented(text_of(folder, "rattle", crate, name)) in page, f"{name} of {crate} isn't in the package")
    recipe = text_of("CONTRIBUTING.md").partition("\n## A release\n")[2]
    lacking = [it for it in ("json", "std") if f"`{it}`" not in recipe]
    same(lacking, [], "crates without a notice that CONTRIBUTING's recipe doesn't list")


@test("release: without the toolchain, a program isn't packed if bin/ob0.notices is missing or another program's")
def kept() -> None:
    with repository() as made:
        page = "print(package.copyright_page().decode())"
        said = made.call(page)[1]
        holds("License: Expat and mid\n" in said and " 2001 A B (mid)\n" in said and "have none: low." in said, said)
        path = ":".join(it for it in os.environ["PATH"].split(":") if not os.path.exists(os.path.join(it, "rt")))
        beside = os.path.join(made.room, "bin", "ob0.notices")
        others = json.dumps({**json.loads(text_of(beside)), "sources": "others"})
        for content in (others, None):
            os.unlink(beside)
            if content:
                write(beside, content)
            status, said = made.call(page, PATH=path)
            same((status, "`make build` with rt on PATH" in said), (2, True), f"with {'the notices of another program' if content else 'none'}: {said}")


@test("release: only files known to Git are packed, and the version of a state that isn't committed ends with .changed")
def known() -> None:
    with repository() as made:
        version: Callable[..., str] = lambda **named: made.call("print(package.build_version())", **named)[1].strip()
        before, number = made.tree(), version()
        holds(len(before) > 100 and not number.endswith(".changed"), number)
        for it in ("docs/private.md", "editors/vim/.ob0.vim.swp", "examples/mine/Solution.mod", "examples/exercises/New.txt"):
            write(os.path.join(made.room, it), "mine\n")
        same((made.tree(), version()), (before, number), "with files that git doesn't know")
        write(os.path.join(made.room, "crates", "ob0_cli", "src", "more.rt"), "")
        same(version(), f"{number}.changed", "with a source that git doesn't know")
        os.unlink(os.path.join(made.room, "crates", "ob0_cli", "src", "more.rt"))
        write(os.path.join(made.room, "docs", "CI.md"), "changed\n")
        same(version(), f"{number}.changed", "with a changed page")
        made.commit()
        holds(f"{package.DOC}/docs/private.md" in made.tree() and not version().endswith(".changed"), "once it is of the commit")
        # (SOURCE_DATE_EPOCH sets the files' time, and not the version)
        same(version(SOURCE_DATE_EPOCH="315532800"), version(), "with SOURCE_DATE_EPOCH")
        same(made.call("print(package.moment())", SOURCE_DATE_EPOCH="315532800"), (0, "315532800\n"), "the files' time")
        status, said = made.call("print(package.moment())", SOURCE_DATE_EPOCH="abc")
        same((status, "is a number of seconds" in said), (2, True), said)


@test("release: the packages' bytes don't depend on the folder, time zone, locale, home directory or skipped tests")
def elsewhere() -> None:
    with repository() as made, temporary() as room:
        other = os.path.join(room, "an other f\u00f6lder")
        shutil.copytree(made.room, other, symlinks=True, copy_function=shutil.copy)
        stamp = text_of(other, "bin", "ob0.stamp").replace("gate 1 passed, 0 failed", "gate 2 passed, 0 failed, 3 skipped")
        write(os.path.join(other, "bin", "ob0.stamp"), stamp)
        sums: list[dict[str, str]] = []
        varied = [("022", {"TZ": "UTC", "LC_ALL": "C.UTF-8", "PYTHONHASHSEED": "1"})]
        varied += [("077", {"TZ": "XXX-14", "LC_ALL": "C", "PYTHONHASHSEED": "2", "HOME": room, "USER": "x", "CDPATH": "/", "TERM": "dumb"})]
        for at, (umask, settings) in zip((made.room, other), varied):
            status, said = run_plainly(["sh", "-c", f"umask {umask}; make --silent package"], {**made.own, **settings}, at)
            same(status, 0, said)
            folder = os.path.join(at, "bin")
            sums.append({it: common.file_sum(os.path.join(folder, it)) for it in os.listdir(folder) if it.endswith((".deb", ".gz", ".vsix", "SUMS"))})
        same(sums[1], sums[0], "the sums there")
        holds(len(sums[0]) >= 3, f"the packages: {sums[0]}")
        holds(text_of(other, "bin", "TESTED").endswith("\ngate: 2 passed, 0 failed, 3 skipped\n"), "what was tested there")


@test("release: without git, BUILD_VERSION is required, and must begin with the program's version")
def given() -> None:
    with repository() as made:
        shutil.rmtree(os.path.join(made.room, ".git"))
        status, said = made.tried(sys.executable, "-B", "tools/package.py", "package")
        same((status, "such as BUILD_VERSION=" in said), (2, True), said)
        number = package.version()
        for wrong in ("9.9.9", f"{number}-1", f"{number}/x", f"{number} x"):
            status, said = made.tried("make", "--silent", "package", f"BUILD_VERSION={wrong}")
            same((status, "BUILD_VERSION begins with" in said), (2, True), said)
        os.utime(os.path.join(made.room, "CHANGELOG.md"), (1700000000, 1700000000))
        made.ran("make", "--silent", "package", f"BUILD_VERSION={number}~mine")
        with tarfile.open(os.path.join(made.room, "bin", f"ob0-{number}~mine-x86_64-linux.tar.gz")) as tar:
            same({it.mtime for it in tar}, {1700000000}, "the time of the files")


@test("release: the head of a compressed file contains no time and no system's name")
def compressed() -> None:
    same(package.squeezed(b"x")[:10], b"\x1f\x8b\x08\0\0\0\0\0\x02\xff", "the head of a .gz, with no time and no name of a system")
    same(gzip.decompress(package.squeezed(b"some text")), b"some text", "what was compressed")


@test("release: the glibc versions that are found in a program equal those that objdump prints")
def as_by_objdump() -> None:
    want("objdump")
    said = subprocess.run(["objdump", "-p", "/bin/true"], stdout=subprocess.PIPE, check=True).stdout.decode()
    found = re.findall(r"^ +0x\w+ 0x\w+ \d+ (\S+)$", said, re.M)
    same(sorted(it for _, it in glibc.needs("/bin/true")), sorted(found), "the versions that it needs")


@test("release: the package depends on the glibc version that the program's symbols need")
def needed() -> None:
    with repository() as made, temporary() as room:
        with open("/bin/true", "rb") as file:
            content = file.read()
        latest = glibc.needed("/bin/true")
        # (the same program, except that it needs a later glibc)
        other = latest[:-1] + str((int(latest[-1]) + 1) % 10)
        program = os.path.join(room, "program")
        with open(program, "wb") as file:
            file.write(content.replace(f"GLIBC_{latest}\0".encode(), f"GLIBC_{other}\0".encode()))
        os.chmod(program, 0o755)
        for path in ("/bin/true", program):
            made.build(path)
            said = made.call("found = package.tree(); print(package.control(found).decode(), package.proved().decode())")[1]
            wanted = glibc.needed(path)
            holds(f"\nDepends: libc6 (>= {wanted}), python3\n" in said and f"with glibc {wanted} or later" in said, said)
        same(glibc.needed(program) != latest, True, "another program needs another glibc")


CHANGES = """# Changes

## {}, {}

- A new thing, on two
  lines.

## 0.0.2, 2026-02-03

- An older thing.
- And one more.
"""


@test("release: Debian's changelog has an entry for each heading of CHANGELOG.md, and an unreleased version is refused")
def entries() -> None:
    with repository() as made:
        number, page = package.version(), os.path.join(made.room, "CHANGELOG.md")
        named = {"SOURCE_DATE_EPOCH": "1800000000", "DEBEMAIL": "y@z"}
        changelog: Callable[[], tuple[int, str]] = lambda: made.call("print(package.changelog().decode(), end='')", **named)
        write(page, CHANGES.format(number, "2026-04-05"))
        made.commit()
        made.ran("git", "tag", f"v{number}")
        author = f" -- {package.DEFAULT_NAME} <y@z>  "
        wanted = (
            f"ob0 ({number}) unstable; urgency=medium\n\n  * A new thing, on two lines.\n\n{author}Fri, 15 Jan 2027 08:00:00 -0000\n\n"
            f"ob0 (0.0.2) unstable; urgency=medium\n\n  * An older thing.\n  * And one more.\n\n{author}Tue, 03 Feb 2026 12:00:00 -0000\n"
        )
        same(changelog(), (0, wanted), "the changelog")
        same(made.ran(sys.executable, "-B", "tools/package.py", "notes"), "- A new thing, on two\n  lines.\n", "the notes")
        wrong = {f"{number}, not released yet": "isn't released yet", f"{number} (soon)": "has a heading"}
        wrong["0.0.1, 2026-01-01"] = "the program's version"
        for heading, word in wrong.items():
            write(page, CHANGES.replace("{}, {}", heading))
            made.commit()
            made.ran("git", "tag", "--force", f"v{number}")
            status, said = changelog()
            same((status, word in said), (2, True), f"{heading}: {said}")


def release(made: Repository, number: str, day: str) -> list[str]:
    """Makes a release by CONTRIBUTING's recipe. Returns the paths of its two packages."""
    made.change(SOURCE, r'const VERSION: &str = "([0-9.]+)"', number)
    for path, pattern in PLACES:
        made.change(path, pattern, number)
    made.change("CHANGELOG.md", rf"^## {number}, (.*)$", day)
    made.build()
    ((_, block),) = FENCED.findall(text_of("CONTRIBUTING.md").partition("\n## A release\n")[2])
    made.commit()
    made.ran("sh", "-e", "-c", block, version=number, DEBFULLNAME="X Y", DEBEMAIL="x@example.org")
    found = [f"ob0_{number}_amd64.deb", f"ob0-{number}-x86_64-linux.tar.gz"]
    names = [*found, "SHA256SUMS", "SHA256SUMS.asc", "notes.md"]
    same([it for it in names if not os.path.isfile(os.path.join(made.room, "bin", it))], [], f"the assets of {number} that are missing")
    made.ran("gpg", "--quiet", "--verify", "bin/SHA256SUMS.asc", "bin/SHA256SUMS")
    made.ran("git", "tag", "--verify", f"v{number}")
    made.ran("sh", "-c", "cd bin && sha256sum --quiet --check SHA256SUMS")
    room = os.path.join(made.own["HOME"], number)
    shutil.copytree(os.path.join(made.room, "bin"), room)
    return [os.path.join(room, it) for it in found]


@test("release: CONTRIBUTING's recipe makes two releases, the second replaces the first, and removal leaves no file")
def twice() -> None:
    want("dpkg", "gpg", "root")
    with repository() as made, temporary() as room:
        made.own["GNUPGHOME"] = os.path.join(made.own["HOME"], "keys")
        os.mkdir(made.own["GNUPGHOME"], 0o700)
        made.ran("gpg", "--batch", "--quiet", "--passphrase", "", "--quick-generate-key", "x <x@example.org>", "ed25519", "sign")
        try:
            first = release(made, "0.1.0", "2026-12-01")
            later = "## 0.2.0, not released yet\n\n- One more thing.\n\n"
            made.change("CHANGELOG.md", r"^()## 0\.1\.0", later)
            second = release(made, "0.2.0", "2027-01-31")
        finally:
            made.tried("gpgconf", "--kill", "all")
        same(text_of(os.path.dirname(second[0]), "notes.md"), "- One more thing.\n", "the notes of the second")
        installed_in_turn(room, first[0], second[0])
        in_prefix(made, os.path.join(room, "usr local"))


def paths_in(room: str) -> Iterator[str]:
    """Yields the paths of all files and folders below a folder."""
    for at, folders, files in os.walk(room):
        yield from (os.path.join(at, it) for it in folders + files)


def installed_in_turn(room: str, *debs: str) -> None:
    """Installs packages in a separate root, each over the one before, and then removes the last one. Requires that no
    file remains."""
    admin = os.path.join(room, "var", "lib", "dpkg")
    for it in ("available", "info/format", "updates/x", "triggers/Unincorp"):
        write(os.path.join(admin, it), "1\n" if it == "info/format" else "")
    os.unlink(os.path.join(admin, "updates", "x"))
    known = "Package: {}\nStatus: install ok installed\nVersion: {}\nArchitecture: amd64\nMaintainer: x <x@example.org>\nDescription: x\n\n"
    write(os.path.join(admin, "status"), known.format("libc6", "2.99") + known.format("python3", "3.8.2"))
    words = ["dpkg", f"--root={room}", "--log=/dev/null", "--force-bad-path"]
    heads: list[str] = []
    for deb in debs:
        status, said = run_plainly([*words, "--install", deb], dict(os.environ), room)
        same(status, 0, said)
        heads = [f"ob0 ({os.path.basename(deb).split('_')[1]}) unstable; urgency=medium\n", *heads]
        with gzip.open(os.path.join(room, "usr", package.DOC, "changelog.gz"), "rt", encoding="utf-8") as file:
            same([it for it in file if it.startswith("ob0 (")], heads, "the entries of the installed changelog")
    status, said = run_plainly([*words, "--remove", "ob0"], dict(os.environ), room)
    shutil.rmtree(os.path.join(room, "var"))
    same((status, list(paths_in(room))), (0, []), f"the status, and the remaining files: {said}")


def in_prefix(made: Repository, prefix: str) -> None:
    """Installs and removes the second release with `make`, in a folder that another program already uses."""
    os.makedirs(os.path.join(prefix, "bin"))
    made.ran("make", "--silent", "install", f"PREFIX={prefix}")
    made.ran("make", "--silent", "uninstall", f"PREFIX={prefix}")
    same([at for at, _, _ in os.walk(prefix)], [prefix, os.path.join(prefix, "bin")], "what `make uninstall` leaves")


@test("release: everybody can read files installed under umask 077, and PREFIX may contain spaces and shell characters")
def for_everybody() -> None:
    with repository() as made, temporary() as room:
        prefix = os.path.join(room, 'a "b" \'c\' $HOME `d` \\e')
        for command, there in (("install", True), ("uninstall", False)):
            words = ["sh", "-c", 'umask 077; make --silent "$@"', "sh", command, f"PREFIX={prefix.replace('$', '$$')}"]
            made.ran(*words)
            same(os.path.exists(prefix), there, f"{prefix} after `make {command}`")
            modes = {it: os.lstat(it).st_mode for it in paths_in(prefix)}
            same([it for it, mode in modes.items() if mode & 0o444 != 0o444], [], "what others can't read")
            same([it for it, mode in modes.items() if stat.S_ISDIR(mode) and mode & 0o777 != 0o755], [], "folders that others can't enter")
        made.ran("make", "--silent", "package")
        readme = text_of("README.md").partition("**From a package.**")[2]
        lines = [it[4:].partition("  #")[0] for it in readme.splitlines() if it.startswith(("    umask", "    sudo tar"))]
        unpack = "\n".join(["umask 077", *lines]).replace("sudo ", "").replace("/usr/local", room)
        made.ran("sh", "-e", "-c", f"cd bin\n{unpack}")
        closed = [at for at, _, _ in os.walk(room) if at != room and os.stat(at).st_mode & 0o777 != 0o755]
        same(closed, [], "folders of the archive that others can't enter")


@test("release: the exercises can be marked even if the system leaves out share/doc")
def without_pages() -> None:
    with repository() as made, temporary() as room:
        made.ran("make", "--silent", "install", f"PREFIX={room}")
        folder, page = os.path.join(room, package.EXERCISES), os.path.join(room, package.DOC, "examples", "exercises")
        same(sorted(os.listdir(page)), sorted(os.listdir(folder)), "the exercises among the pages")
        same(os.path.samefile(os.path.join(page, "mark.py"), os.path.join(folder, "mark.py")), True, "mark.py there")
        shutil.rmtree(os.path.join(room, "share", "doc"))
        os.mkdir(os.path.join(room, "answers"))
        words = [sys.executable, os.path.join(folder, "mark.py"), "--program", "/bin/true", "answers"]
        status, said = run_plainly(words, dict(os.environ), room)
        holds("Traceback" not in said and "answers" in said, said)


@test("release: REUSE.toml gives every file a licence, and LICENSES/MIT.txt has the text of LICENSE")
def reuse() -> None:
    terms: Callable[..., str] = lambda *path: text_of(*path).partition("Permission")[2]
    same(terms("LICENSES", "MIT.txt"), terms("LICENSE"), "the text of the licence")
    table = text_of("REUSE.toml")
    found = re.findall(r'^path = "(.*)"\nSPDX-FileCopyrightText = "(.*)"\nSPDX-License-Identifier = "MIT"$', table, re.M)
    same(found, [("**", package.licence_holder()), (package.PARSER, package.PARSER_HOLDER)], "the table")
