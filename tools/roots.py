#!/usr/bin/env python3
"""Tries the packages of two releases in roots of Debian: installs the first, puts the second over it, and removes it.

  tools/roots.py FOLDER [SUITE..]   makes a root of each suite (bookworm and trixie, Debian 12 and 13) in FOLDER, unless one exists,
                                    and tries what bin/ob0 is packed into in copies of it

It has to run as root, and needs debootstrap and the network. The Debian package is removed and purged; the archive is
removed by README's line and by `make uninstall`. After each removal each path of the copy has to have the same mode,
owner, group and bytes as before. If piuparts is installed, it also tries the Debian package. The last line is 'N roots
passed'."""
from __future__ import annotations

import os
import re
import shutil
import stat
import subprocess
import sys
from collections.abc import Callable
from typing import Any, Dict, Optional, Tuple

import common
import package
from common import TOP, match_of

# each path with its mode, its owner, its group, and a file's checksum or a link's target
State = Dict[str, Tuple[str, int, int, Optional[str]]]
SUITES = ["bookworm", "trixie"]
MIRROR = "http://deb.debian.org/debian"
# files that the system changes by itself, and folders that aren't part of a system
LEFT_OUT = {"dev", "proc", "run", "sys", "tmp", "var"}
PAGE = f"{package.DOC}/README.md"
ADDED = b"\nA second release.\n"
# a file that only the first release has, and one in a new folder that only the second has
DROPPED, NEW = f"{package.DOC}/docs/TEACHING.md", f"{package.DOC}/docs/new/NEW.md"


def ran(words: list[str], **named: str) -> str:
    """Runs a command, and returns its output. Ends the script if the exit status isn't 0."""
    environment = {**os.environ, "DEBIAN_FRONTEND": "noninteractive", "LC_ALL": "C", **named}
    how: dict[str, Any] = {"stdin": subprocess.DEVNULL, "stdout": subprocess.PIPE, "stderr": subprocess.STDOUT, "env": environment, "cwd": TOP}
    found: subprocess.CompletedProcess[bytes] = subprocess.run(words, check=False, **how)
    if found.returncode:
        common.stop(f"{' '.join(words)} ended with {found.returncode}:\n{found.stdout.decode(errors='replace')[-3000:]}", 1)
    return found.stdout.decode(errors="replace")


def inside(root: str, line: str) -> str:
    """Runs a shell command in a root, and returns its output."""
    return ran(["chroot", root, "sh", "-e", "-c", line])


def content_of(path: str, mode: int) -> str | None:
    """Returns a file's checksum, or a link's target. Returns None for everything else."""
    if stat.S_ISLNK(mode):
        return os.readlink(path)
    return common.file_sum(path) if stat.S_ISREG(mode) else None


def state(root: str) -> State:
    """Returns each path of a root with its mode, its owner, its group and its content, except the paths below the
    folders in LEFT_OUT."""
    found: State = {}
    for at, folders, files in os.walk(root):
        if at == root:
            folders[:] = [it for it in folders if it not in LEFT_OUT]
        for name in folders + files:
            path = os.path.join(at, name)
            known = os.lstat(path)
            found[os.path.relpath(path, root)] = (oct(known.st_mode), known.st_uid, known.st_gid, content_of(path, known.st_mode))
    return found


def same_state(root: str, before: State, what: str) -> None:
    after = state(root)
    changed = [f"{it}: {before.get(it)}, and then {after.get(it)}" for it in sorted({*before, *after}) if before.get(it) != after.get(it)]
    if changed:
        common.stop(f"{what}: this has changed:\n" + "\n".join(changed[:20]), 1)
    print(f"  {what}: nothing is left, and nothing else has changed", flush=True)


def make_releases(folder: str) -> dict[str, list[str]]:
    """Packs two releases. The second one has a changed page, lacks one file of the first, and has a new one. Returns,
    for each release, its Debian package and its archive."""
    releases = {}
    for name in ("first", "second"):
        os.environ["BUILD_VERSION"] = f"{package.version()}~{name}"
        found = package.tree()
        if name == "second":
            found[PAGE] = (package.read("README.md") + ADDED, 0o644)
            found[NEW] = found.pop(DROPPED)
        room = os.path.join(folder, name)
        os.makedirs(room, exist_ok=True)
        package.write_packages(found, room)
        made = os.listdir(room)
        releases[name] = [next(os.path.join(room, it) for it in made if it.endswith(end)) for end in (".deb", ".tar.gz")]
    return releases


def need_second(usr: str) -> None:
    """Ends the script unless this folder contains the files of the second release, and none that only the first release
    has."""
    with open(os.path.join(usr, PAGE), "rb") as file:
        is_replaced = file.read().endswith(ADDED)
    if not is_replaced or os.path.exists(os.path.join(usr, DROPPED)) or not os.path.exists(os.path.join(usr, NEW)):
        common.stop(f"{usr} hasn't the files of the second release", 1)


def works(root: str, usr: str) -> None:
    """Runs the program and the scripts of an installation on its examples."""
    examples = f"{usr}/{package.DOC}/examples"
    inside(root, f"ob0 check {examples}/Gcd.mod; ob0-format --check {examples}/*.mod; ob0 run {examples}/Gcd.mod < {examples}/Gcd.in")
    inside(
        root,
        f"ob0-check {examples}; ob0-trace {examples}/Gcd.mod < {examples}/Gcd.in; ob0-rename {examples}/Gcd.mod:3:3 z",
    )
    inside(root, f"ob0-watch check {examples}/Gcd.mod")


def install_package(root: str, deb: str) -> str:
    """Installs a Debian package in a root, runs its program and scripts, and returns its version."""
    shutil.copy(deb, os.path.join(root, "tmp"))
    inside(root, f"apt-get install -y --no-install-recommends ./tmp/{os.path.basename(deb)}")
    version = inside(root, "dpkg-query -W -f '${Version}' ob0")
    inside(root, f"grep -F 'version of the package: {version}' /usr/{package.DOC}/PROVED")
    works(root, "/usr")
    return version


def try_debian(root: str, releases: dict[str, list[str]]) -> None:
    """Installs the Debian package of the first release, replaces it by the second, and removes it; then does the same
    and purges it."""
    before = state(root)
    for command in ("remove", "purge"):
        first, second = (install_package(root, deb) for deb, _ in releases.values())
        inside(root, f"dpkg --compare-versions '{first}' lt '{second}'")
        need_second(os.path.join(root, "usr"))
        print(f"  {first} was replaced by {second}", flush=True)
        inside(root, f"apt-get {command} -y ob0")
        same_state(root, before, f"apt-get {command}")
    if "ob0" in inside(root, "dpkg --get-selections").split():
        common.stop("dpkg knows of ob0 after the purge", 1)


def try_piuparts(suite: str, base: str, deb: str) -> None:
    """Runs piuparts if it is installed. It tests that a package which is installed, removed and purged leaves no file,
    link or process, and changes none."""
    if not shutil.which("piuparts"):
        print("  piuparts is missing: it wasn't run", flush=True)
        return
    # (no archive of Debian has an earlier version, so the upgrade is tried above)
    words = ["piuparts", "--distribution", suite, "--mirror", f"{MIRROR} main", "--existing-chroot", base, "--no-upgrade-test"]
    # (debconf creates this folder when the first package is configured, a dependency of python3)
    ignored = ["--ignore-regex", r"/var/cache/debconf/tmp\.ci/?$"]
    said = ran([*words, "--warn-on-debsums-errors", *ignored, deb])
    print(f"  piuparts: {said.strip().splitlines()[-1].partition(': ')[2]}", flush=True)


def readme_lines() -> tuple[str, str]:
    """Returns two commands from README: the one that unpacks the archive, and the one that removes it."""
    with open(os.path.join(TOP, "README.md"), encoding="utf-8") as file:
        page = file.read()
    umask, unpack, take_away = (match_of(rf"^    (.*{word}.*)$", page, re.M)[1].partition("  #")[0] for word in ("umask", "sudo tar", "xargs"))
    return f"{umask}; {unpack}".replace("sudo ", ""), take_away.replace("sudo ", "")


def try_archive(root: str, releases: dict[str, list[str]]) -> None:
    """Tries the archives in /usr/local, in which some folders have unusual modes and owners. For each of the two ways
    to remove an installation, unpacks each release, runs its program and scripts, and removes it again."""
    unpack, take_away = readme_lines()
    inside(root, "chgrp staff /usr/local/bin /usr/local/share; chmod 2775 /usr/local/bin /usr/local/share; mkdir -p /usr/local/share/doc/other")
    before, local = state(root), os.path.join(root, "usr", "local")
    uninstall = [sys.executable, "-B", "tools/package.py", "uninstall", "/usr/local", root]
    ways: dict[str, Callable[[], str]] = {
        "README's line": lambda: inside(root, f"{{ {take_away}; }} || true"),
        "make uninstall": lambda: ran(uninstall),
    }
    for what, remove in ways.items():
        for name, (_, archive) in releases.items():
            shutil.copy(archive, os.path.join(root, "tmp"))
            inside(root, f"cd /tmp; {unpack}")
            works(root, "/usr/local")
            after = state(root)
            changed = [it for it in before if before[it] != after[it]]
            if changed:
                common.stop(f"the archive changed {changed}", 1)
            if name == "second":
                need_second(local)
            remove()
            os.unlink(os.path.join(root, "tmp", os.path.basename(archive)))
            same_state(root, before, f"the archive of the {name} release, and {what}")


def try_container(root: str) -> None:
    """Runs the RUN line of the Containerfile in docs/CI.md."""
    with open(os.path.join(TOP, "docs", "CI.md"), encoding="utf-8") as file:
        line = match_of(r"^RUN (.*)$", file.read(), re.M)[1]
    inside(root, line)
    print(f"  the Containerfile's line: {inside(root, 'ob0 --version').strip()}", flush=True)


def copied(base: str, root: str) -> str:
    """Replaces a root by a fresh copy of another, and returns its path."""
    shutil.rmtree(root, ignore_errors=True)
    ran(["cp", "-a", base, root])
    return root


def try_suite(suite: str, folder: str, releases: dict[str, list[str]]) -> None:
    """Runs all trials in one suite of Debian."""
    base, root = os.path.join(folder, suite), os.path.join(folder, "trial")
    if not os.path.isdir(base):
        print(f"making a root of {suite}", flush=True)
        ran(["debootstrap", "--variant=minbase", suite, base, MIRROR])
    # (a root that is thrown away needn't be flushed to the disk)
    with open(os.path.join(base, "etc", "dpkg", "dpkg.cfg.d", "unsafe-io"), "w", encoding="ascii") as settings:
        settings.write("force-unsafe-io\n")
    with open(os.path.join(base, "etc", "debian_version"), encoding="ascii") as file:
        print(f"{suite}, Debian {file.read().strip()}:", flush=True)
    copied(base, root)
    inside(root, "apt-get update; apt-get install -y --no-install-recommends python3")
    try_debian(root, releases)
    try_archive(root, releases)
    shutil.copy(releases["second"][0], os.path.join(copied(base, root), "tmp"))
    try_container(root)
    shutil.rmtree(root)
    try_piuparts(suite, base, releases["second"][0])


def main(words: list[str]) -> int:
    folder, *suites = words
    common.need("debootstrap")
    package.need_program()
    os.makedirs(folder, exist_ok=True)
    releases = make_releases(folder)
    for suite in suites or SUITES:
        try_suite(suite, folder, releases)
    print(f"{len(suites or SUITES)} roots passed")
    return 0


if __name__ == "__main__":
    sys.exit(main(sys.argv[1:]) if sys.argv[1:] else common.stop(__doc__))
