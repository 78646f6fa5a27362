"""Runs the tests in other people's surroundings: another umask, other variables, a folder that other users can't enter,
a shallow clone, and an archive of the sources."""
from __future__ import annotations

import contextlib
import io
import os
import re
import subprocess
import sys
import tempfile
from collections.abc import Callable
from unittest import mock

import common
import editors
import harness
from harness import TOP, holds, leave_out, same, test, tracked, want
from homes import as_another, copy, temporary, write

INSIDE = "OB0_SURROUNDINGS"  # (tests that run in other surroundings don't start this test again)
# modules with the same names as ours, as installed packages may have them
NAMES = ("common", "editors", "edits", "modules", "package", "svg")
# files that git doesn't know: an editor's file, a file of `npm install`, and a note
UNKNOWN = {
    "examples/exercises/.Clock.txt.swp": "b0VIM 9.0",
    "editors/vscode/node_modules/it/README.md": "[it](no-such-page.md)\n",
    "TODO.md": "[it](no-such-page.md)\n",
}


@test("surroundings: each test runs under umask 022, without the user's Git settings and without variables of make")
def settled() -> None:
    umask = os.umask(0o022)
    same(umask, 0o022, "the umask")
    variables = {it for it in os.environ if it.startswith("GIT_")}
    same(variables, {"GIT_CONFIG_NOSYSTEM", "GIT_CONFIG_GLOBAL"}, "the variables of git")
    same([it for it in os.environ if it.startswith("MAKE")], [], "the variables of make")


def paths_below(top: str) -> list[str]:
    found = [top]
    for at, folders, files in os.walk(top):
        found += [os.path.join(at, it) for it in folders + files]
    return found


def unpacked(at: str) -> str:
    """Copies the repository's files into a folder, as unpacking an archive would. Returns the folder."""
    for it in tracked():
        os.makedirs(os.path.dirname(os.path.join(at, it)), exist_ok=True)
        copy(os.path.join(TOP, it), os.path.join(at, it))
    return at


def closed_clone(at: str) -> str:
    """Makes a shallow clone with the present files, as another user with umask 077 would. Returns its folder."""
    if os.path.exists(os.path.join(TOP, ".git")):
        subprocess.run(["git", "clone", "--quiet", "--no-checkout", "--depth=1", f"file://{TOP}", at], check=True)
        subprocess.run(["git", "reset", "--quiet"], cwd=at, check=True)
    unpacked(at)
    if os.path.exists(os.path.join(at, ".git")):
        subprocess.run(["git", "add", "."], cwd=at, check=True)
    for name, text in UNKNOWN.items():
        write(os.path.join(at, name), text)
    for path in (it for it in paths_below(at) if not os.path.islink(it)):
        os.chmod(path, 0o700 if os.stat(path).st_mode & 0o100 else 0o600)
        if os.geteuid() == 0:
            os.chown(path, 1234, 1234)
    return at


def bystander(at: str) -> str:
    """Makes an unrelated repository with one commit. Returns the path of its .git folder."""
    write(os.path.join(at, "file"), "text\n")
    git = ["git", "-c", "user.name=x", "-c", "user.email=x@example.org"]
    for words in (["init", "--quiet"], ["add", "."], ["commit", "--quiet", "-m", "its own"]):
        subprocess.run([*git, *words], cwd=at, check=True)
    return os.path.join(at, ".git")


def history(data: str) -> str:
    """Returns the commits and tags of a repository, and the paths in its index."""
    words = "git --git-dir={0} log --all --format=%H%d && git --git-dir={0} ls-files --stage"
    return subprocess.run(["sh", "-e", "-c", words.format(data)], check=True, stdout=subprocess.PIPE).stdout.decode()


def hostile(room: str, data: str) -> dict[str, str]:
    """Returns environment variables that could disturb the tests: no HOME, another repository's Git variables, a
    private TMPDIR, flags of make, modules with the names of ours, and a Git configuration that signs commits."""
    kept = ("OB0", "OB0_WHOLE", "HOME", "TMPDIR")
    own = {key: value for key, value in os.environ.items() if key not in kept and not key.startswith("GIT_")}
    own.update(GIT_DIR=data, GIT_WORK_TREE=os.path.dirname(data), GIT_INDEX_FILE=os.path.join(data, "index"))
    own.update({INSIDE: "1", "MAKEFLAGS": "w", "TMPDIR": os.path.join(room, "a private folder")})
    own.update(XDG_CONFIG_HOME=os.path.join(room, "config"), PYTHONPATH=os.path.join(room, "modules"))
    os.mkdir(own["TMPDIR"], 0o700)
    write(os.path.join(room, "config", "git", "config"), "[commit]\n\tgpgsign = true\n[gpg]\n\tprogram = false\n")
    for name in NAMES:
        write(os.path.join(room, "modules", f"{name}.py"), "raise ImportError('a package that is installed')\n")
    return own


def run_there(at: str, own: dict[str, str], *words: str) -> tuple[int, int]:
    """Runs tests under umask 077, and requires that none fails. Returns how many passed, and how many were skipped or
    wait for a program."""
    line = ["sh", "-c", 'umask 077; exec "$@"', "sh", sys.executable, "-B", "tests/run.py", *words]
    ran = subprocess.run(line, cwd=at, env=own, stdout=subprocess.PIPE, stderr=subprocess.STDOUT, check=False)
    said = ran.stdout.decode(errors="replace")
    last = re.fullmatch(r"(\d+) passed, 0 failed(?:, (\d+) skipped)?", said.splitlines()[-1])
    if ran.returncode or not last:
        wrong = re.findall(r"^FAILED .*(?:\n    .*)*", said, re.M)
        raise harness.Failed("\n".join([*wrong, said[-1500:]]))
    return int(last[1]), int(last[2] or 0) + sum(map(int, re.findall(r"^(\d+) wait for a program", said, re.M)))


@test("surroundings: the tests that need no program pass in another user's clone, and change no other repository")
def first_tests() -> None:
    want("git")
    if INSIDE in os.environ:
        leave_out("this run is the one in other surroundings")
    with temporary() as room:
        at = closed_clone(os.path.join(room, "it's \u00fcber", "clone"))
        data = bystander(os.path.join(room, "bystander"))
        before = history(data)
        own = hostile(room, data)
        passed, others = run_there(at, own, "--first")
        same(passed + others, len(harness.TESTS), "the tests that ran, were left out or wait for a program")
        same(history(data), before, "the bystander's history")


@test("surroundings: some tests of releases, pages and examples also pass in an archive of the sources")
def archive() -> None:
    if INSIDE in os.environ:
        leave_out("this run is the one in other surroundings")
    with temporary() as room:
        at = unpacked(os.path.join(room, "ob0"))
        own = {key: value for key, value in os.environ.items() if key not in ("OB0", "OB0_WHOLE")}
        own["TMPDIR"] = os.path.join(room, "tmp")
        os.chmod(room, 0o711)
        os.mkdir(own["TMPDIR"])
        words = ["release: e", "release: without git", "sources: each search", "pictures: the plots", "pages: each link"]
        passed, _ = run_there(at, own, *words, "exercises: twelve", "examples: at least")
        holds(passed >= len(words) + 2, f"{passed} passed")
        same(os.listdir(own["TMPDIR"]), [], "the remaining temporary files")


@test("surroundings: temporary files don't go into a folder in which tests would fail, and the reason is printed")
def temporary_folders() -> None:
    with temporary() as room, mock.patch.object(common, "LONGEST_TEMPORARY", len(room) + 10):
        os.chmod(room, 0o755)
        for name, why in (("", ""), ("a b", "its path has a blank"), ("x" * 20, "bytes"), ("none", "it can't be written")):
            path = os.path.join(room, name).rstrip("/")
            if name != "none":
                os.makedirs(path, exist_ok=True)
            holds(common.unfit(path).endswith(why) and bool(why) == bool(common.unfit(path)), common.unfit(path))
        with mock.patch.object(os, "statvfs", lambda _: mock.Mock(f_flag=os.ST_NOEXEC)):
            same(common.unfit(room), "it is mounted noexec")
        os.chmod(room, 0o700)
        for user, why in ((0, f"other users can't enter {room}"), (1000, "")):
            with mock.patch.object(os, "geteuid", lambda: user):  # pylint: disable=cell-var-from-loop
                same(common.unfit(room), why, f"for the user {user}")


@test("surroundings: temporary files go into the first usable folder, and nothing runs if no folder is usable")
def chosen_folder() -> None:
    for good, status in (("/var/tmp", None), ("none", 2)):
        unfit: Callable[[str], str] = lambda it: "" if it == good else "it is odd"  # pylint: disable=cell-var-from-loop
        out = io.StringIO()
        with mock.patch.object(common, "unfit", unfit), contextlib.redirect_stdout(out), contextlib.redirect_stderr(out):
            found = None
            try:
                common.choose_temporary()
            except SystemExit as why:
                found = why.code
        same((found, "/tmp isn't used, since it is odd" in out.getvalue()), (status, True), out.getvalue())
    same((os.environ["TMPDIR"], tempfile.gettempdir()), ("/var/tmp", "/var/tmp"), "the folder")


@test("surroundings: a test that needs another user is skipped with a reason if root can't switch to another user")
def no_other_user() -> None:
    with mock.patch.dict(editors.TOOLS, {"another user": (lambda: False, "")}), mock.patch.dict(os.environ):
        os.environ.pop("OB0_WHOLE", None)
        editors.is_here.cache_clear()
        try:
            as_another()
        except harness.Skipped as why:
            same(str(why), "another user missing")
            return
    raise harness.Failed("it was run")
