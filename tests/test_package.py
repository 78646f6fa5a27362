"""Tests the packages of `make package`: installing, unpacking and removing them, and using them in editors and shells
with an empty home directory."""
from __future__ import annotations

import contextlib
import functools
import gzip
import json
import os
import re
import shutil
import subprocess
import sys
import tarfile
from collections.abc import Callable, Iterator

import common
import editors
import package
from common import match_of
from harness import TOP, examples, holds, same, test, text_of, want, want_proved
from homes import copy, run_in_terminal, run_plainly, temporary, write
from screen import Screen

MODULE = "MODULE N;\nBEGIN x := 1 END N.\n"
SLIP_HINT = "    hint: an assignment is written `:=`, as in `x := 1`; `=` compares\n"


def made(*words: str) -> str:
    status, said = run_plainly(["make", "--silent", *words], dict(os.environ), TOP)
    same(status, 0, said)
    return said


def placed(room: str) -> str:
    """Installs the package's files below a temporary folder. Returns the folder that stands for /usr."""
    want_proved()
    usr = os.path.join(room, "usr")
    status, said = run_plainly(["python3", "-B", os.path.join(TOP, "tools", "package.py"), "install", usr, ""], dict(os.environ), TOP)
    same(status, 0, said)
    os.unlink(os.path.join(usr, "share", "doc", "ob0", "installed"))
    return usr


def paths_in(room: str) -> list[str]:
    found = []
    for at, folders, files in os.walk(room):
        found += [os.path.relpath(os.path.join(at, it), room) for it in files + [it for it in folders if os.path.islink(os.path.join(at, it))]]
    return sorted(found)


def own(room: str, usr: str) -> dict[str, str]:
    """Returns a user's environment variables, with an empty home directory and with the installed package on its
    paths."""
    home = os.path.join(room, "home")
    os.makedirs(home, exist_ok=True)
    kept = {key: value for key, value in os.environ.items() if key not in ("MANPATH", "OB0") and not key.startswith("XDG_")}
    path = os.path.join(usr, "bin") + os.pathsep + os.environ["PATH"]
    data = os.path.join(usr, "share") + ":/usr/local/share:/usr/share"
    return {**kept, "HOME": home, "PATH": path, "XDG_DATA_DIRS": data, "XDG_RUNTIME_DIR": home, "TERM": "xterm", "LC_ALL": "C.UTF-8"}


@contextlib.contextmanager
def installed_home() -> Iterator[tuple[str, str, dict[str, str], str]]:
    """Installs the package in a temporary folder. Yields this folder, the folder that stands for /usr, a user's
    environment, and a folder to work in."""
    with temporary() as room:
        usr, work = placed(room), os.path.join(room, "work")
        os.makedirs(work)
        yield room, usr, own(room, usr), work


def packed(folder: str) -> list[str]:
    """Packages the program into a folder. Returns the paths of the archive and of the Debian package."""
    words = ["python3", "-B", os.path.join(TOP, "tools", "package.py"), "package", folder]
    status, said = run_plainly(words, dict(os.environ), TOP)
    same(status, 0, said)
    names = sorted(it for it in os.listdir(folder) if it.endswith((".deb", ".tar.gz")))
    return [os.path.join(folder, it) for it in names]


def in_bin() -> dict[str, float]:
    """Returns the modification time of each package in bin/, and of SHA256SUMS and TESTED there."""
    folder = os.path.join(TOP, "bin")
    names = [it for it in os.listdir(folder) if it.startswith(("ob0_", "ob0-", "SHA", "TESTED"))]
    return {it: os.stat(os.path.join(folder, it)).st_mtime for it in names}


@test("package: a second build gives the same bytes, both packages contain the same files, and lintian has no warnings")
def same_bytes() -> None:
    want_proved()
    before = in_bin()
    with temporary() as room:
        folder = os.path.join(room, "packages")
        archive, deb = packed(folder)
        sums = [common.file_sum(it) for it in (archive, deb)]
        same([common.file_sum(it) for it in packed(folder)], sums, "the sums of a second run")
        same(in_bin(), before, "the packages in bin/, which a test doesn't change")
        usr = placed(room)
        with tarfile.open(archive) as tar:
            same([it.name for it in tar if it.isdir()], [], "entries of folders, which would change their modes")
            tar.extractall(room)
        unpacked = os.path.join(room, os.path.basename(archive).partition("-x86_64")[0])
        same(paths_in(unpacked), sorted([*paths_in(usr), package.LIST]), "the files of the archive")
        same(run_plainly(["sha256sum", "--check", "--quiet", "SHA256SUMS"], dict(os.environ), folder), (0, ""), "the sums")
        want("dpkg")
        subprocess.run(["dpkg-deb", "-x", deb, os.path.join(room, "deb")], check=True)
        same(os.listdir(os.path.join(room, "deb")), ["usr"], "what the Debian package has outside /usr")
        same(paths_in(os.path.join(room, "deb", "usr")), paths_in(usr), "the files of the Debian package")
        for at in (it for it in paths_in(usr) if os.path.isfile(os.path.join(usr, it))):
            same(common.file_sum(os.path.join(room, "deb", "usr", at)), common.file_sum(os.path.join(usr, at)), at)
        want("lintian")
        status, said = run_plainly(["lintian", "--fail-on", "warning", deb], dict(os.environ), room)
        same(status, 0, said)


@test("package: README's apt command works in a simulation, and its tar command unpacks the archive")
def as_readme_says() -> None:
    want_proved()
    page = text_of("README.md").partition("**From a package.**")[2]
    by_apt, by_tar = [it[4:].partition("  #")[0].strip() for it in page.splitlines() if it.startswith("    sudo ")][:2]
    with temporary() as room:
        # (without sudo; apt only prints its plan, and tar unpacks into a temporary folder)
        same((by_apt.count("sudo apt install "), by_tar.count("sudo tar "), by_tar.count("/usr/local")), (1, 1, 1), f"{by_apt}; {by_tar}")
        folder, local = os.path.join(room, "packages"), os.path.join(room, "local")
        packed(folder)
        os.mkdir(local)
        line = by_tar.replace("sudo ", "").replace("/usr/local", local)
        status, said = run_plainly(["sh", "-e", "-c", line], dict(os.environ), folder)
        found = paths_in(local)
        same((status, found), (0, sorted([*paths_in(placed(os.path.join(room, "other"))), package.LIST])), said)
        want("apt-get")
        line = by_apt.replace("sudo apt install ", "apt-get install --simulate ")
        status, said = run_plainly(["sh", "-e", "-c", line], dict(os.environ), folder)
        holds(status == 0 and "Inst ob0 " in said, said)


@test("package: README's sha256sum command needs only one package, and its command without sudo unpacks the archive")
def as_readme_says_without() -> None:
    want_proved()
    page = text_of("README.md").partition("**From a package.**")[2]
    sums, unpack = (match_of(rf"^    ({it} .*?)(?:  +#.*)?$", page, re.M)[1] for it in ("sha256sum", "mkdir"))
    for at in (0, 1):
        with temporary() as room:
            both = packed(room)
            archive, file = both[0], both[at]
            os.unlink(both[1 - at])
            home = {**os.environ, "HOME": os.path.join(room, "home")}
            name = os.path.basename(file)
            same(run_plainly(["sh", "-c", sums], home, room), (0, f"{name}: OK\n"), "the sum")
            if file == archive:
                same(run_plainly(["sh", "-e", "-c", unpack], home, room), (0, ""), "the line without sudo")
                local = os.path.join(room, "home", ".local")
                same(paths_in(local), sorted([*paths_in(placed(os.path.join(room, "other"))), package.LIST]), "what was unpacked")
            with open(os.path.join(room, name), "ab") as changed:
                changed.write(b"x")
            same(run_plainly(["sh", "-c", sums], home, room)[0], 1, "the status with another file")


@test("package: unpacking keeps existing folders' modes, and each way to uninstall removes only the unpacked files")
def taken_away() -> None:
    want_proved()
    lines = [it[4:].replace("sudo ", "") for it in text_of("README.md").splitlines() if it.startswith(("    sudo tar ", "    cd /usr/local"))]
    unpack, take_away = (it.partition("  #")[0] for it in lines)
    for remove in ("line", "make"):
        with temporary() as room:
            for it, mode in (("bin", 0o2775), ("share", 0o2770), ("share/man", 0o750), ("share/doc", 0o755), ("share/doc/other", 0o700), ("share/zsh", 0o711)):
                os.makedirs(os.path.join(room, it), exist_ok=True)
                os.chmod(os.path.join(room, it), mode)
            write(os.path.join(room, "share/zsh/mine"), "")
            before = modes_in(room)
            with temporary() as folder:
                packed(folder)
                status, said = run_plainly(["sh", "-e", "-c", unpack.replace("/usr/local", room)], dict(os.environ), folder)
            after = modes_in(room)
            same((status, {it: after.get(it) for it in before}), (0, before), f"the folders that were there: {said}")
            holds(len(after) > len(before) + 100 and after["bin/ob0-format"] == after["bin/ob0"] == 0o100755, "what was unpacked")
            if remove == "line":
                run_plainly(["sh", "-c", take_away.replace("/usr/local", room)], dict(os.environ), room)
            else:
                made(f"PREFIX={room}", "uninstall")
            same(modes_in(room), before, f"the folders after `{remove}`")


def as_user(number: int) -> list[str]:
    """Returns words to put before a command that another user runs, or an empty list if this isn't root."""
    want("another user")
    become = editors.BECOME.replace("65534", str(number))
    return [sys.executable, "-c", f"{become}; os.execvp(sys.argv[1], sys.argv[1:])"] if os.geteuid() == 0 else []


@test("package: the commands in docs/TEACHING.md set up a laboratory without root, which a student's two lines find")
def laboratory() -> None:
    want_proved()
    want("man", "Neovim")
    section = text_of("docs", "TEACHING.md").partition("## A laboratory without root\n")[2].partition("\n## ")[0]
    blocks = ["".join(f"{it[4:]}\n" for it in found.splitlines()) for found in re.findall(r"(?:^    .*\n)+", section, re.M)]
    same(len(blocks), 2, f"the teacher's commands and the student's lines: {blocks}")
    with temporary() as room:
        os.chmod(room, 0o755)
        teacher, student = os.path.join(room, "home", "kate"), os.path.join(room, "home", "student")
        for home, number in ((teacher, 65534), (student, 65533)):
            os.makedirs(home, mode=0o755)
            write(os.path.join(home, ".profile"), blocks[1].replace("/home/kate", teacher) if home == student else "")
            os.chmod(home, 0o700)  # (as Debian makes homes)
            if os.geteuid() == 0:
                for it in (home, os.path.join(home, ".profile")):
                    os.chown(it, number, number)
        packed(os.path.join(room, "packages"))
        at_home = {"HOME": teacher, "PATH": "/usr/bin:/bin", "LC_ALL": "C.UTF-8", "TERM": "xterm"}
        words = [*as_user(65534), "sh", "-e", "-c", blocks[0]]
        same(run_plainly(words, at_home, os.path.join(room, "packages")), (0, ""), "the teacher's commands")
        steps = "ob0 --version; man -w ob0; nvim --headless -i NONE -n +'echo exists(\":Ob0Run\")' m.ob0 +qall!"
        write(os.path.join(room, "m.ob0"), MODULE)
        words = [*as_user(65533), "sh", "-l", "-c", steps]
        status, said = run_plainly(words, {**at_home, "HOME": student}, room)
        version = match_of("ob0 ([0-9.]+)", text_of("share", "ob0.1"))[1]
        page = os.path.join(teacher, "lab", "share", "man", "man1", "ob0.1.gz")
        same((status, said.split()), (0, ["ob0", version, page, "2"]), "the output of the student's commands")


def modes_in(room: str) -> dict[str, int]:
    """Returns the mode of each file and folder below a folder."""
    found = [os.path.join(at, it) for at, folders, files in os.walk(room) for it in folders + files]
    return {os.path.relpath(it, room): os.lstat(it).st_mode for it in found}


@test("package: `make install` and `make uninstall` refuse a prefix that is empty or is the folder of the sources")
def refused_prefixes() -> None:
    want_proved()
    with temporary() as room:
        link = os.path.join(room, "link")
        os.symlink(TOP, link)
        for prefix, word in (("", "is empty"), (".", "folder of the sources"), (TOP, "folder of the sources"), (link + "/", "folder of the sources")):
            for command in ("install", "uninstall"):
                status, said = run_plainly(["make", "--silent", f"PREFIX={prefix}", command], dict(os.environ), TOP)
                same((status != 0, word in said), (True, True), f"make {command} PREFIX={prefix}: {said}")
    holds(os.path.exists(common.BINARY), "bin/ob0 is gone")


@test("package: `make install` refuses a prefix in which no folders can be made, in one sentence and before it builds")
def prefixes_without_folders() -> None:
    for prefix, first in (("/proc/x", "/proc/x"), ("/dev/null/x/y", "/dev/null")):
        status, said = run_plainly(["make", "--silent", f"PREFIX={prefix}", "install"], dict(os.environ), TOP)
        lines = [it for it in said.splitlines() if not it.startswith("make: ")]
        same((status != 0, len(lines)), (True, 1), f"make install PREFIX={prefix}: {said}")
        holds(lines[0].startswith(f"package.py: {first} can't be written or removed ("), said)
    with temporary() as room:
        words = ["python3", "-B", os.path.join(TOP, "tools", "package.py"), "place", os.path.join(room, "a", "b"), ""]
        same(run_plainly(words, dict(os.environ), TOP), (0, ""), "a folder in which others can be made")
        same(os.listdir(room), [], "the files left there")


def in_copy(*commits: tuple[int, str, str]) -> list[str]:
    """Makes a repository with the scripts, and in it a commit at each given time, with a tag unless the tag is empty.
    Returns the package's version after each commit."""
    versions = []
    with temporary() as room:
        copy(os.path.join(TOP, "tools"), os.path.join(room, "tools"))
        git = ["git", "-c", "user.name=x", "-c", "user.email=x@example.org"]
        own = {key: value for key, value in os.environ.items() if key != "BUILD_VERSION"}
        subprocess.run([*git, "init", "--quiet"], cwd=room, check=True)
        write(os.path.join(room, "crates", "ob0_cli", "src", "line.rt"), 'const VERSION: &str = "0.1.0";\n')
        script = "import package; print(package.build_version())"
        for time_of, tag, change in commits:
            subprocess.run([*git, "add", "."], cwd=room, check=True)
            subprocess.run([*git, "commit", "--quiet", "--allow-empty", "-m", "x"], cwd=room, check=True, env={**own, "GIT_COMMITTER_DATE": f"@{time_of} +0000"})
            if tag:
                subprocess.run([*git, "tag", tag], cwd=room, check=True)
            with open(os.path.join(room, "tools", "common.py"), "a", encoding="utf-8") as file:
                file.write(change)
            versions.append(run_plainly(["python3", "-B", "-c", script], own, os.path.join(room, "tools"))[1].strip())
    return versions


@test("package: the package's version increases with the commit's time, and equals the program's at a tagged commit")
def versions() -> None:
    want("git")
    day = 1795823088
    # (after the third commit a file is changed, so its package isn't the commit's)
    found = in_copy((day, "", ""), (day + 1, "v0.0.9", ""), (day + 86400, "", "# x\n"), (day + 90000, "v0.1.0", ""), (day + 90001, "v0.1.0-2", ""), (day + 90002, "", ""))
    holds(all(re.fullmatch(r"0\.1\.0~git\d{8}\.\d{6}\.[0-9a-f]{8}(\.changed)?", it) for it in found[:3]), str(found))
    same([found[0].split("git")[1][:15], found[1].split("git")[1][:15], found[2].split("git")[1][:15]], ["20261127.234448", "20261127.234449", "20261128.234448"], "their times")
    same([it.endswith(".changed") for it in found], [False, False, True, False, False, False], f"with changes: {found}")
    same(found[3], "0.1.0", "the version of the tagged commit")
    holds(all(it.startswith("0.1.0+git") for it in found[4:]), f"after the release: {found}")
    want("dpkg")
    for earlier, later in zip(found, found[1:]):
        subprocess.run(["dpkg", "--compare-versions", earlier, "lt", later], check=True)


INSTALLED = "Package: {}\nStatus: install ok installed\nVersion: {}\nArchitecture: amd64\nMaintainer: x <x@example.org>\nDescription: x\n\n"


@test("package: dpkg installs the package in a separate root if libc6 is new enough, and removes all its files again")
def by_dpkg() -> None:
    want_proved()
    want("dpkg", "root")
    with temporary() as folder, temporary() as room:
        deb = packed(folder)[1]
        admin = os.path.join(room, "var", "lib", "dpkg")
        for it in ("available", "info/format", "updates/x", "triggers/Unincorp"):
            write(os.path.join(admin, it), "1\n" if it == "info/format" else "")
        os.unlink(os.path.join(admin, "updates", "x"))
        words = ["dpkg", f"--root={room}", "--log=/dev/null", "--force-bad-path"]
        for version, well in (("2.31", False), ("2.36", True)):
            write(os.path.join(admin, "status"), INSTALLED.format("libc6", version) + INSTALLED.format("python3", "3.8.2"))
            status, said = run_plainly([*words, "--install", deb], dict(os.environ), room)
            same(status == 0, well, f"with libc6 {version}: {said}")
        same(paths_in(os.path.join(room, "usr")), paths_in(placed(os.path.join(room, "other"))), "the files")
        shutil.rmtree(os.path.join(room, "other"))
        status, said = run_plainly([*words, "--remove", "ob0"], dict(os.environ), room)
        same((status, [it for it in paths_in(room) if not it.startswith("var/")]), (0, []), f"the remaining files: {said}")
        holds("ob0" not in text_of(admin, "status"), "dpkg knows of it still")


@test("package: the file PROVED is complete, the packed program is the proved one, and links in packed pages work")
def provenance() -> None:
    with temporary() as room:
        usr = placed(room)
        said = text_of(usr, "share/doc/ob0/PROVED")
        for it in ("rattle-kit", "logic", common.file_sum(common.BINARY), "commit:", "gate:"):
            holds(it in said, f"no {it} in\n{said}")
        same(common.file_sum(os.path.join(usr, "bin", "ob0")), common.file_sum(common.BINARY), "the program")
        # (the page of the exercises is also installed below the pages, and its links are right there)
        for at in (it for it in paths_in(usr) if it.endswith(".md") and not it.startswith(package.EXERCISES)):
            for target in re.findall(r"\]\(([^)#:]+)(?:#[^)]*)?\)", text_of(usr, at)):
                holds(os.path.exists(os.path.join(usr, os.path.dirname(at), target)), f"{at} has a link to {target}")


@test("package: `make install` needs no toolchain, and `make uninstall` removes everything that was installed")
def installed() -> None:
    want_proved()
    with temporary() as room:
        usr = placed(room)
        # (a PATH without the toolchain, and a folder that was there before)
        for command in ("python3", "make", "sh", "date", "git"):
            found = shutil.which(command)
            if found:
                write(os.path.join(room, "path", command), f'#!/bin/sh\nexec "{found}" "$@"\n')
                os.chmod(os.path.join(room, "path", command), 0o755)
        environment = {**os.environ, "PATH": os.path.join(room, "path")}
        root = os.path.join(room, "a root")
        os.makedirs(os.path.join(root, "opt", "x", "bin"))
        words = ["make", "--silent", f"DESTDIR={root}", "PREFIX=/opt/x"]
        for _ in range(2):
            status, said = run_plainly([*words, "install"], environment, TOP)
            same(status, 0, said)
        same(paths_in(os.path.join(root, "opt", "x")), sorted([*paths_in(usr), "share/doc/ob0/installed"]), "the files")
        # (each help that mentions a page also gives the folder of the pages)
        for command in ("check", "rename"):
            status, said = run_plainly([os.path.join(root, "opt", "x", "bin", "ob0"), "help", command], environment, room)
            page, below = match_of(r"(docs/\S+\.md) .* in (\S+) below the folder that ob0 was\s+installed", said.replace("\n", " ")).groups()
            holds(os.path.isfile(os.path.join(root, "opt", "x", below, page)), f"{page} isn't where `ob0 help {command}` says: {said}")
        status, said = run_plainly([*words, "uninstall"], environment, TOP)
        same(status, 0, said)
        left = [at for at, _, _ in os.walk(os.path.join(root, "opt", "x"))]
        same(left, [os.path.join(root, "opt", "x"), os.path.join(root, "opt", "x", "bin")], "the remaining folders")
        # (a `~` in PREFIX, which the shell doesn't replace)
        home = os.path.join(room, "home")
        os.mkdir(home)
        folders: dict[str, list[str]] = {"install": ["bin", "share"], "uninstall": []}
        for command, there in folders.items():
            status, said = run_plainly(["make", "--silent", "PREFIX=~/some/local", command], {**environment, "HOME": home}, TOP)
            same(status, 0, said)
            local = os.path.join(home, "some", "local")
            same(sorted(os.listdir(local)) if os.path.isdir(local) else [], there, f"what is in that folder after `make {command}`")
        same(os.listdir(home), [], "what is in the home: the folders around the prefix")


@test("package: a program doesn't count as proved if the stamp next to it belongs to another program")
def stamped() -> None:
    want_proved()
    with temporary() as room:
        program, stamp = os.path.join(room, "ob0"), os.path.join(room, "ob0.stamp")
        shutil.copy(common.BINARY, program)
        shutil.copy(common.STAMP, stamp)
        script = "import sys; sys.path.insert(0, sys.argv[1]); import common; common.BINARY, common.STAMP = sys.argv[2:]; print(common.is_current())"
        is_current: Callable[[], str] = lambda: run_plainly(["python3", "-B", "-c", script, os.path.join(TOP, "tools"), program, stamp], dict(os.environ), room)[1].strip()
        same(is_current(), "True", "the proved program")
        with open(program, "ab") as file:
            file.write(b"\0")
        same(is_current(), "False", "another program")


@test("package: with an empty home directory, the packed program, its scripts and the manual pages work")
def in_shells() -> None:
    with installed_home() as (_, usr, environment, work):
        write(os.path.join(work, "slip.mod"), "MODULE M;\nBEGIN x = 1 END M.\n")
        version = match_of("ob0 ([0-9.]+)", text_of("share", "ob0.1"))[1]
        modules = [os.path.join(TOP, it) for it in examples()]
        for words, wanted in (
            (["ob0", "--version"], (0, f"ob0 {version}\n")),
            (["ob0-format", "--check", *modules], (0, "")),
            (["ob0-check", *modules], (0, "")),
            (["ob0-watch", "check", "nowhere.mod"], (4, "fault: File\n")),
            (["ob0-check", "--hints", "slip.mod"], (1, "slip.mod:2:9: Syntax: expected END\n" + SLIP_HINT)),
        ):
            same(run_plainly(words, environment, work), wanted, f"{words[0]}, which finds ob0 and its modules")
        want("man")
        status, said = run_plainly(["man", "-M", os.path.join(usr, "share", "man"), "ob0"], environment, work)
        holds(status == 0 and "CallBound" in said, f"man ob0: {said[:300]}")
        status, said = run_plainly(["man", "-M", os.path.join(usr, "share", "man"), "ob0-messages"], environment, work)
        holds(status == 0 and "expected END" in said, f"man ob0-messages: {said[:300]}")


SHELLS = {
    "bash": (
        ["bash", "--norc", "-i"],
        ". '{usr}/share/bash-completion/completions/ob0'; bind 'set show-all-if-ambiguous on'; bind 'set enable-bracketed-paste on'",
    ),
    "zsh": (["zsh", "-f", "-i"], "fpath=('{usr}/share/zsh/vendor-completions' $fpath); autoload -U compinit; compinit -u -D"),
    "fish": (["fish"], "true"),
}


def by_tab(shell: str) -> None:
    """Tests that Tab completes a command, an option and a file's name in a shell."""
    want(shell)
    with installed_home() as (_, usr, environment, work):
        write(os.path.join(work, "New.mod"), MODULE)
        words, setup = SHELLS[shell]
        with Screen(words, environment, work) as screen:
            # (a shell switches bracketed paste on when it reads keys)
            reads_keys = rb"(?s:.*)\[\?2004h"
            screen.shows(b".", f"{shell} starts")
            screen.keys(f"{setup.format(usr=usr)}; echo rea''dy\n".encode())
            screen.shows(b"ready" + reads_keys, f"{shell} is set up")
            screen.keys(b"ob0 ch\t")
            screen.shows(b"eck", f"Tab after `ob0 ch` in {shell}")
            screen.keys(b"N\t")
            screen.shows(rb"ew\.mod", f"Tab after `ob0 check N` in {shell}")
            screen.keys(b"\n")
            screen.shows(b"1:6: Undeclared" + reads_keys, f"the line that was completed in {shell}")
            screen.keys(b"ob0 run < N\t")
            screen.shows(rb"ew\.mod", f"Tab after `ob0 run < N` in {shell}")
            screen.keys(b"\x15ob0-format --ch\t")
            screen.shows(b"eck", f"Tab after `ob0-format --ch` in {shell}")


for each in SHELLS:
    test(f"package: with an empty home directory, Tab in {each} completes a command, an option and a file's name")(functools.partial(by_tab, each))


def seen_by_vim(words: list[str], environment: dict[str, str], work: str, name: str) -> None:
    """Tests that Vim or Neovim recognizes a new file once it is saved, and each example, and that it has :Ob0Run and
    the help page."""
    report = os.path.join(work, "report")
    opened = [[f"edit {os.path.join(TOP, it)}", "call add(r, &filetype)"] for it in examples()]
    steps = [
        "let r = []", "edit new.mod", "call setline(1, ['MODULE N;', 'BEGIN x := 1 END N.'])", "silent write", "call add(r, &filetype)",
        *(step for it in opened for step in it), "call add(r, exists(':Ob0Run'))", "call add(r, &shiftwidth)",
        "help ob0", "call add(r, expand('%:t'))", "help :Ob0Run", "call add(r, expand('<cWORD>'))",
        f"call writefile([json_encode(r)], '{report}')", "qall!",
    ]  # fmt: skip
    script = os.path.join(work, "steps.vim")
    write(script, "\n".join(steps) + "\n")
    status, drawn = run_in_terminal([*words, "-S", script], environment, work)
    holds(os.path.exists(report), f"{name} said nothing, and ended with {status}: {drawn[-500:]!r}")
    types = json.loads(text_of(report))
    last = [2, 2, "ob0.txt", "*:Ob0Run*"]
    same(types, ["ob0"] * (1 + len(opened)) + last, f"what {name} takes the files as, whether it has :Ob0Run, the width of a level, and help")


@test("package: with an empty home directory, Neovim gives new files and examples the file type ob0, and shows errors")
def in_neovim() -> None:
    want("Neovim")
    with installed_home() as (_, _, environment, work):
        seen_by_vim(["nvim", "-i", "NONE", "-n"], environment, work, "Neovim")
        with Screen(["nvim", "-i", "NONE", "-n", "new.mod"], environment, work) as screen:
            screen.shows(b"Undeclared|not declared", "the diagnostics of the new file")


@test("package: with an empty home directory, Vim gives a new file and each example the file type ob0")
def in_vim() -> None:
    want("Vim")
    with installed_home() as (_, usr, environment, work):
        # (Debian's Vim reads /usr/share/vim/vimfiles; this test's own folder is given instead)
        words = ["vim.nox", "-i", "NONE", "-n", "--cmd", f"set packpath^={usr}/share/vim/vimfiles"]
        seen_by_vim(words, environment, work, "Vim")


@test("package: with an empty home directory, Emacs opens a new file and each example in ob0-mode")
def in_emacs() -> None:
    want("Emacs")
    with installed_home() as (_, usr, environment, work):
        report = os.path.join(work, "report")
        steps = f"""(let (r)
          (find-file "new.mod") (insert "MODULE N;\\nBEGIN x := 1 END N.\\n") (save-buffer) (push major-mode r)
          (dolist (it '({' '.join(json.dumps(os.path.join(TOP, it)) for it in examples())})) (find-file it) (push major-mode r))
          (write-region (prin1-to-string (nreverse r)) nil "{report}")
          (kill-emacs))"""
        # (Emacs looks for packages below each site-lisp of its load path, so this test's own one is added)
        environment["EMACSLOADPATH"] = os.path.join(usr, "share", "emacs", "site-lisp") + ":"
        status, drawn = run_in_terminal(["emacs", "-nw", "--eval", steps], environment, work)
        holds(os.path.exists(report), f"Emacs said nothing, and ended with {status}: {drawn[-500:]!r}")
        same(text_of(report), f"({' '.join(['ob0-mode'] * (1 + len(examples())))})")


@test("package: package-lint and checkdoc accept the Emacs files, except that ob0-mode.el has no home page")
def linted() -> None:
    want("Emacs", "package-lint")
    with temporary() as room:
        own_home = {**os.environ, "HOME": room, "LC_ALL": "C.UTF-8"}
        mode = os.path.join(TOP, "editors", "emacs", "ob0-mode.el")
        words = ["emacs", "--batch", "--eval", "(progn (require 'package) (package-initialize) (require 'package-lint))"]
        _, said = run_plainly([*words, "-f", "package-lint-batch-and-exit", mode], own_home, room)
        found = re.findall(r"^\S+\.el:\d+:\d+: (error|warning): (.*)$", said, re.M)
        # (package-lint also warns about the code for eglot, lsp-mode and yasnippet, which are loaded later or never)
        same([it for it in found if "with-eval-after-load" not in it[1]], [("error", "Package should have a Homepage or URL header.")], said)
        for path in (mode, os.path.join(TOP, "share", "emacs", "ob0-mode-autoloads.el")):
            said = run_plainly(["emacs", "-Q", "--batch", "--eval", f'(checkdoc-file "{path}")'], own_home, room)[1]
            same(said, "", f"what checkdoc says of {path}")


@test("package: with an empty home directory, Kakoune gives a new file and each example the file type ob0")
def in_kakoune() -> None:
    want("Kakoune")
    with installed_home() as (room, usr, environment, work):
        # (Kakoune reads only its runtime folder, so this one gets Kakoune's own files and the package's)
        runtime = os.path.join(room, "runtime")
        shutil.copytree("/usr/share/kak", runtime, symlinks=True, ignore=shutil.ignore_patterns("doc"))
        shutil.copytree(os.path.join(usr, "share", "kak"), runtime, dirs_exist_ok=True)
        environment["KAKOUNE_RUNTIME"] = runtime
        names = [os.path.basename(it) for it in examples()]
        opened = [f"edit '{os.path.join(TOP, it)}'; echo -to-file '{work}/type of {os.path.basename(it)}' %opt{{filetype}}" for it in examples()]
        script = f"""edit new.mod; execute-keys 'iMODULE N; END N.<esc>'; write; echo -to-file '{work}/type of new.mod' %opt{{filetype}}
          {'; '.join(opened)}; kill!"""
        status, said = run_plainly(["timeout", "-k", "10", "300", "kak", "-ui", "dummy", "-e", script], environment, work)
        same({text_of(work, f"type of {it}") for it in ("new.mod", *names)}, {"ob0"}, said)


@test("package: nano colours a module with the packaged syntax file")
def in_nano() -> None:
    want("nano")
    with installed_home() as (_, usr, environment, work):
        write(os.path.join(work, "New.mod"), MODULE)
        rc = os.path.join(usr, "share", "nano", "oberon0.nanorc")
        with Screen(["nano", f"--rcfile={rc}", "New.mod"], environment, work) as screen:
            screen.shows(b"\x1b\\[[0-9;]*mMODULE", "a coloured word in nano")


@test("package: GtkSourceView recognizes and colours a module even if the desktop has no file type for Oberon-0")
def in_gtksourceview() -> None:
    want("GtkSourceView", "PyGObject")
    with installed_home() as (_, usr, environment, work):
        write(os.path.join(work, "new.ob0"), MODULE)
        words = ["/usr/bin/python3", os.path.join(TOP, "tests", "editors", "gtksourceview.py"), "new.ob0"]
        status, said = run_plainly(words, environment, work)
        same(status, 0, said[-1500:])
        found = json.loads(said.splitlines()[-1])
        colours = [it for it in found["styles"]["MODULE"] if it.startswith("rgb")]
        same((found["language"], len(colours)), ("oberon0", 1), "the language, and whether a reserved word has a colour")


@test("package: a desktop recognizes a module as text/x-oberon0, and still treats go.mod as plain text")
def on_a_desktop() -> None:
    want("MIME types", "gio")
    with installed_home() as (_, usr, environment, work):
        write(os.path.join(work, "New.mod"), MODULE)
        write(os.path.join(work, "go.mod"), "module example.com/x\n")
        shutil.copytree("/usr/share/mime/packages", os.path.join(usr, "share/mime/packages"), dirs_exist_ok=True)
        subprocess.run(["update-mime-database", os.path.join(usr, "share", "mime")], check=True)
        kinds = [run_plainly(["gio", "info", "-a", "standard::content-type", it], environment, work)[1].split()[-1] for it in ("New.mod", "go.mod")]
        same(kinds[0], "text/x-oberon0", "the type of a module")
        same(kinds[1], "text/plain", "the type of go.mod, which is Go's")


@test("package: the packed manual pages and the packed changelog match the repository's")
def written_pages() -> None:
    with temporary() as room:
        usr = placed(room)

        def unpacked(at: str) -> str:
            with gzip.open(os.path.join(usr, at), "rt", encoding="utf-8") as file:
                return file.read()

        for it in ("ob0.1", *(f"{it}.1" for it in package.SCRIPTS)):
            same(unpacked(f"share/man/man1/{it}.gz"), text_of("share", it), "a manual page")
        words: Callable[[str], list[str]] = lambda text: [it for it in text.split() if it not in "-*"]
        listed = re.sub(r"^ -- .*\n(\nob0 .*)?", "", unpacked("share/doc/ob0/changelog.gz").partition("medium\n")[2], flags=re.M)
        same(words(listed), words(re.sub(r"^# .*|^## .*", "", text_of("CHANGELOG.md"), flags=re.M)), "the changes")
