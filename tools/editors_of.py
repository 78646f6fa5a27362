#!/usr/bin/env python3
"""Runs the tests of editors on the editors of another release of Debian, in a separate root, bin/roots/RELEASE.

  tools/editors_of.py RELEASE [WORD..]   such as trixie, or sid; with words only the tests whose names contain one of them

If the root is missing, debootstrap makes it (about 2 GB, from Debian's mirror). The editors and tools of the tests are installed in
it. The program is bin/ob0, or the one that the variable OB0 specifies. Run it as root; nothing remains mounted when it ends.
At the end it prints the versions that were tested."""
from __future__ import annotations

import json
import os
import shutil
import subprocess
import sys
from typing import Any

import common

ROOTS = os.path.join(common.TOP, "bin", "roots")
# the tests of editors, by words in their names
WORDS = ["Neovim", "Emacs", "lsp-mode", "Vim", "Kakoune", "Kate", "Helix", "VS Code", "nano", "GtkSourceView", "tree-sitter"]
# packages of editors, whose versions are printed; and other packages to install, since Debian 12 doesn't have them
EDITORS = ["neovim", "vim-nox", "vim-ale", "vim-youcompleteme", "emacs-nox", "elpa-lsp-mode", "kate", "hx", "kakoune", "nano", "nodejs"]
MORE = ["hx", "tree-sitter-cli", "node-typescript", "node-semver", "node-minimatch", "node-vscode-languageserver-protocol"]
CLIENT = "/usr/local/lib/node_modules/vscode-languageclient"

# (the mounts exist only in this command's name space; a mirror's release file may be expired)
ENTER = """room=$1; top=$2; shift 2
mount -t proc proc "$room/proc"
mount --rbind /dev "$room/dev"
mkdir -p "$room/repository"
mount --bind "$top" "$room/repository"
echo 'Acquire::Check-Valid-Until "false";' > "$room/etc/apt/apt.conf.d/any-date"
exec chroot "$room" /usr/bin/env -i PATH=/usr/local/sbin:/usr/local/bin:/usr/sbin:/usr/bin:/sbin:/bin HOME=/root \
  LANG=C.UTF-8 DEBIAN_FRONTEND=noninteractive OB0=/opt/ob0 sh -c 'cd /repository && exec "$@"' sh "$@"
"""
# Debian has vscode-languageclient only as a source package
MAKE_CLIENT = f"""set -e
test -e {CLIENT}/package.json && exit
echo "deb-src http://deb.debian.org/debian $1 main" > /etc/apt/sources.list.d/sources.list
apt-get update
rm -rf /tmp/client
mkdir /tmp/client
cd /tmp/client
apt-get source --tar-only node-vscode-lsp
tar xf node-vscode-lsp_*.orig.tar.*
mkdir -p {CLIENT}
NODE_PATH=/usr/share/nodejs node /repository/tests/editors/languageclient.js node-vscode-lsp-*/client {CLIENT}
"""


def inside(room: str, *words: str, **how: Any) -> subprocess.CompletedProcess[bytes]:
    """Runs a command in the separate root, with this repository as the current folder."""
    return subprocess.run(["unshare", "--mount", "--pid", "--fork", "sh", "-e", "-c", ENTER, "sh", room, common.TOP, *words], check=False, **how)


def make_root(release: str, room: str) -> None:
    """Creates a root with a minimal Debian and Python, unless it exists. (debootstrap removes its own folder when it
    ends.)"""
    if not os.path.exists(os.path.join(room, "usr", "bin", "apt-get")) or os.path.exists(os.path.join(room, "debootstrap")):
        os.makedirs(ROOTS, exist_ok=True)
        if subprocess.run(["debootstrap", "--variant=minbase", release, room], check=False).returncode:
            common.stop(f"debootstrap failed: {room}/debootstrap/debootstrap.log has why; remove {room} before the next try", 1)
    if inside(room, "sh", "-c", "command -v python3 >/dev/null || { apt-get update && apt-get install -y --no-install-recommends python3; }").returncode:
        common.stop(f"Python could not be installed in {room}", 1)


def install(release: str, room: str) -> None:
    """Installs the tools that the tests need, and prints which ones the release doesn't have."""
    inside(room, "python3", "tools/editors.py")
    for package in MORE:
        if inside(room, "apt-get", "install", "-y", "-q", "--no-install-recommends", package, stdout=subprocess.DEVNULL).returncode:
            print(f"{package} could not be installed", flush=True)
    if inside(room, "sh", "-c", MAKE_CLIENT, "sh", release, stdout=subprocess.DEVNULL).returncode:
        print("vscode-languageclient could not be made", flush=True)
    inside(room, "apt-get", "clean")


def versions(room: str) -> list[str]:
    """Returns the versions of the editors that are installed in the root."""
    found = inside(room, "dpkg-query", "-W", "-f", "${Package} ${Version}\n", *EDITORS, stdout=subprocess.PIPE, stderr=subprocess.DEVNULL)
    lines = [it for it in found.stdout.decode().splitlines() if len(it.split()) == 2]
    client = os.path.join(room, CLIENT.lstrip("/"), "package.json")
    if os.path.exists(client):
        with open(client, encoding="utf-8") as file:
            lines.append(f"vscode-languageclient {json.load(file)['version']}")
    return lines


def main(release: str, *words: str) -> int:
    common.need("debootstrap")
    common.need("unshare")
    if os.geteuid():
        common.stop("this needs root: sudo make editors RELEASE=..")
    program = os.environ.get("OB0") or common.BINARY
    if not os.access(program, os.X_OK):
        common.stop(f"there is no program {program}: make it with `make build`")
    room = os.path.join(ROOTS, release)
    make_root(release, room)
    install(release, room)
    shutil.copy(program, os.path.join(room, "opt", "ob0"))
    status = inside(room, "python3", "tests/run.py", *(words or WORDS)).returncode
    print("\n".join([f"driven in {os.path.relpath(room, common.TOP)}:", *versions(room)]))
    return status


if __name__ == "__main__":
    if len(sys.argv) < 2:
        common.stop("usage: tools/editors_of.py RELEASE [WORD..]")
    sys.exit(main(*sys.argv[1:]))
