"""Tests the verdicts of `make test` and .ci/run. It runs tools/test.py in a temporary folder, with scripts in place of
`rt`, `make` and the tests."""
from __future__ import annotations

import contextlib
import glob
import importlib.util
import io
import os
import re
import signal
import subprocess
import sys
from typing import Any, Dict, List, NamedTuple, Tuple
from unittest import mock

import common
import editors
import harness
import mutants
import package
from common import match_of
from harness import TOP, awaited, holds, same, test, text_of
from homes import copy, temporary, write

# Each of these notes its arguments in the file `called`, and then prints a file.
RT = """#!/bin/sh
echo "rt $*" >> '{room}/called'
case $1 in
  version) echo 'a kit' ;;
  help) echo "flags: $FLAGS" ;;
  ci) umask >> '{room}/seen'; env | grep -E '^(GIT|OB0|RT)_' | grep -v RT_JOBS >> '{room}/seen'
      cat '{room}/ci'
      if [ "$SLEEPS" ]; then sleep 1000 & echo $! > '{room}/provers'; wait; fi
      if [ "$PROGRAM" ]; then mkdir -p '{room}/crates/ob0/out'; echo "$PROGRAM" > '{room}/crates/ob0/out/ob0'; fi
      exit "$STATUS" ;;
esac
"""
TESTS = """import os, shutil, sys
with open({room!r} + "/called", "a") as file:
    file.write(f"tests {{sys.argv[1]}}" + "".join(f" {{it}}" for it in {variables} if it in os.environ) + "\\n")
if sys.argv[1] == "--rest":
    shutil.copy({room!r} + "/bin/ob0.stamp", {room!r} + "/stamp")
with open({room!r} + "/" + sys.argv[1]) as file:
    rows, _, said = file.read().rpartition("==\\n")
with open({room!r} + "/bin/results", "a") as file:
    file.write(rows or f"ok\\t0.1 s\\t{{sys.argv[1]}}\\n")
print(said)
"""
VARIABLES = ["OB0", "OB0_RANDOM", "OB0_SEED", "OB0_MIXES", "OB0_SURROUNDINGS", "OB0_WHOLE", "RT_ALLOW_C", "RT_BACKEND"]
EDITORS = """import os
TOOLS = {}
HOW_TO_GET = {"another user": "be another"}
def is_here(name: str) -> bool:
    return "LACKS" not in os.environ
"""
MUTANTS = """from typing import Any
class Libraries:
    def __init__(self, folder: str) -> None:
        self.lines = []
    def take(self, line: str) -> None:
        self.lines.append(line)
class Refusals(Libraries):
    def __init__(self) -> None:
        super().__init__("")
    def end(self) -> Any:
        return len(self.lines), {others}
def try_some(libraries: Libraries) -> Any:
    print("tried over", len(libraries.lines), "lines" + {printed!r})
    return {tried}
"""


class Whole(NamedTuple):
    """Stores the result of running tools/test.py: its status, last line and output, its calls, the lines of bin/results
    and of the stamp (also before the last tests), the umask and variables that `rt ci` saw, and bin/gate.log."""

    status: int
    last: str
    said: str
    called: List[str]
    results: List[str]
    stamp: str
    stamp_before: str
    seen: str
    log: str


def furnish(
    room: str, ci: str, first: str, rest: str, others: int = 0, tried: Tuple[int, int] = (20, 0), printed: str = ""
) -> None:
    """Copies tools/test.py into a folder, with scripts that print these lines in place of the commands that it
    starts."""
    copy(os.path.join(TOP, "tools"), os.path.join(room, "tools"))
    tries = MUTANTS.format(others=others, tried=tried, printed=printed)
    files = {"tools/mutants.py": tries, "tools/editors.py": EDITORS}
    files.update({"tools/notices.py": "def keep() -> None:\n    pass\n", "ci": f"rt: ob0_low proved\n{ci}\n"})
    files.update({"--first": first, "--rest": rest, "called": "", "HANDLES": "none\n", "crates.txt": "ob0:\n"})
    files.update({"tests/run.py": TESTS.format(room=room, variables=VARIABLES), "crates/ob0/src/main.rt": "\n"})
    files.update({"path/rt": RT.format(room=room)})
    for path, text in files.items():
        write(os.path.join(room, path), text)
    os.chmod(os.path.join(room, "path", "rt"), 0o755)


def environment(room: str, **named: str) -> Dict[str, str]:
    """Returns the environment variables for a run in a folder, including some that must have no effect."""
    kept = {key: value for key, value in os.environ.items() if key != "OB0_MAY_LACK"}  # (.ci/run sets it)
    own = {**kept, "PATH": os.path.join(room, "path") + os.pathsep + os.environ["PATH"], **dict.fromkeys(VARIABLES, "0")}
    own["TMPDIR"] = os.path.join(room, "tmp")
    os.makedirs(own["TMPDIR"], exist_ok=True)
    os.chmod(room, 0o711)
    return {**own, "OB0": "/another/program", "STATUS": "0", "PROGRAM": "a program", "FLAGS": "", **named}


def whole(
    ci: str = "200 passed, 0 failed", first: str = "100 passed, 0 failed", rest: str = "900 passed, 0 failed, 2 skipped", status: int = 0,
    program: str = "a program", others: int = 0, tried: Tuple[int, int] = (20, 0), printed: str = "",
    flags: Tuple[str, ...] = (), known: str = "", **named: str,
) -> Whole:  # fmt: skip
    """Runs tools/test.py with scripts in place of its parts, and returns the result. `rt ci` and the two parts of the
    tests print these last lines, and the tried mutants print `printed`."""
    with temporary() as room:
        furnish(room, ci, first, rest, others, tried, printed)
        own = environment(room, STATUS=str(status), PROGRAM=program, FLAGS=known, **named)
        words = [sys.executable, "-B", os.path.join(room, "tools", "test.py"), *flags]
        ran = subprocess.run(words, stdout=subprocess.PIPE, stderr=subprocess.STDOUT, env=own, check=False)
        said = ran.stdout.decode()
        lines: Dict[str, str] = {}
        for it in ("called", "bin/results", "bin/ob0.stamp", "stamp", "seen", "bin/gate.log"):
            lines[it] = text_of(room, it) if os.path.exists(os.path.join(room, it)) else ""
        called, results = lines["called"].splitlines(), lines["bin/results"].splitlines()
        same(os.listdir(os.path.join(room, "tmp")), [], "the remaining temporary files")
        last = said.rstrip("\n").rpartition("\n")[2]
        kept = [lines[it] for it in ("bin/ob0.stamp", "stamp", "seen", "bin/gate.log")]
        return Whole(ran.returncode, last, said, called, results, *kept)


@test("whole: `make test` adds up the passed tests of all parts, and puts the sum into the stamp once all have ended")
def passes() -> None:
    found = whole()
    same((found.status, found.last), (0, "1220 passed, 0 failed, 2 skipped"), found.said)
    same(found.results, ["ok\t0.1 s\t--first", "ok\t0.1 s\t--rest", "== proofs: ", found.last], "bin/results")
    holds(found.stamp.endswith(f"\ngate {found.last}\n"), f"the stamp: {found.stamp}")
    same(found.stamp_before, found.stamp.replace(f"gate {found.last}\n", ""), "the stamp while the tests run")
    steps = [it for it in found.called if it.startswith(("tests", "rt ci"))]
    same(steps, ["tests --first OB0_WHOLE", "rt ci", "tests --rest OB0_WHOLE"], "what is run, in this order, with these variables")
    holds("\ntried over 2 lines\n" in found.said, "not each line of `rt ci` was read")
    same(re.findall(r"^\d+ passed.*$", found.said, re.M), [found.last], "the lines that look like a verdict")


@test("whole: `make test` fails if any part fails, ends badly, runs no test or runs too few tests")
def fails() -> None:
    kinds: Dict[str, Dict[str, Any]] = {
        "a test of a crate": {"ci": "199 passed, 1 failed", "status": 1},
        "a gate that ends with 1": {"status": 1},
        "a gate of no test": {"ci": "0 passed, 0 failed"},
        "a gate that says nothing": {"ci": "done"},
        "too few tests of the gate": {"ci": "45 passed, 0 failed"},
        "an early test": {"first": "99 passed, 1 failed"},
        "no early test": {"first": "0 passed, 0 failed"},
        "a later test": {"rest": "899 passed, 1 failed, 2 skipped"},
        "no later test": {"first": "1000 passed, 0 failed", "rest": "0 passed, 0 failed, 400 skipped"},
        "too few tests": {"rest": "300 passed, 0 failed"},
        "an edit refused otherwise": {"others": 1},
        "a mutant": {"tried": (19, 1)},
    }
    for what, how in kinds.items():
        found = whole(**how)
        holds(found.status == 1 and " failed" in found.last and " 0 failed" not in found.last, f"{what}: {found.status}, {found.last}")
        same(found.results[-1], found.last, f"{what}: bin/results")
        holds(found.stamp.endswith(f"\ngate {found.last}\n"), f"{what}, the stamp: {found.stamp}")


@test("whole: `make test` fails if the gate builds no program, and then runs no test on an older program")
def without_program() -> None:
    found = whole(ci="199 passed, 1 failed", status=1, program="")
    same((found.status, found.last), (1, "319 passed, 2 failed"), found.said)
    same([it for it in found.called if it.startswith("tests")], ["tests --first OB0_WHOLE"], "the tests that are run")
    same(found.stamp, "", "the stamp")


@test("whole: `make test` passes the option --anew on to `rt ci` if the kit knows it")
def anew() -> None:
    for known, wanted in (("--anew", "rt ci --anew"), ("", "rt ci")):
        found = whole(flags=("--anew",), known=known)
        same([it for it in found.called if it.startswith("rt ci")], [wanted], f"with a kit that has {known!r}")


@test("whole: neither an argument nor a variable of `make test` can choose the mutants that it tries")
def no_choice() -> None:
    # (`try_some` gets the libraries as its only argument)
    found = whole(flags=("--part", "3", "--all", "ob0_text"))
    same((found.status, [it for it in found.called if it.startswith("rt ci")]), (0, ["rt ci"]), found.said)
    own = {name: value for name, value in os.environ.items() if not name.startswith("MAKE")}
    runs = []
    for given in ("", "PART=3 ALL=1 CRATE=ob0_text WORDS=--part"):
        words = ["make", "--dry-run", "--no-print-directory", "PYTHON=python3", "test", *given.split()]
        runs.append(subprocess.run(words, cwd=TOP, stdout=subprocess.PIPE, stderr=subprocess.STDOUT, env=own, check=False).stdout.decode())
    same([it.splitlines()[-1].strip() for it in runs], ["python3 tools/test.py"] * 2, "what is run")


@test("whole: `rt ci` runs under umask 022 and without Git's variables, whatever the shell has set")
def settled() -> None:
    os.umask(0o077)
    with mock.patch.dict(os.environ, {"GIT_DIR": "/of/another", "GIT_INDEX_FILE": "/of/another/index"}):
        same(whole().seen, "0022\n", "the umask, and the variables of git, of ob0 and of the kit")


PROVER = "fn ob0_low::first: proved\nstatements core: modules loaded=1 checked=2\n"
SHARE = "done in this run: 3 of the 57 proofs (of crates and of their tests) and 0 of the 33 must-fail edits"
EDIT = "rt: must-fail ob0/an.edit: refused, as it must be: note: src/main.rt:1:1: it is not proved (`x`)\n"
OK = f"rt: ok; handles allowed: none; {SHARE}; the others\n"


@test("whole: bin/gate.log gets the prover's output, and the screen shows the remaining crates and this run's proofs")
def on_screen() -> None:
    found = whole(ci=f"== ob0\n{PROVER * 3000}rt: ob0 proved\n{EDIT}{OK}200 passed, 0 failed")
    same(found.status, 0, found.said)
    holds(found.log.count(PROVER) == 3000 and EDIT in found.log, "bin/gate.log lacks output of `rt ci`")
    holds(re.search(r"^\[0:\d\d\] rt: ob0 proved; 0 of 1 left$", found.said, re.M), found.said)
    holds(PROVER not in found.said and EDIT not in found.said and len(found.said.splitlines()) < 40, found.said)
    holds(f"\n== proofs: {SHARE}; the others\n== all of it took" in found.said, found.said)
    same(found.results[-2], f"== proofs: {SHARE}; the others", "bin/results")
    holds(f"\nproofs {SHARE}; the others\n" in found.stamp, f"the stamp: {found.stamp}")


GOAL = "note: src/main.rt:3:1: it is not proved that what the function ensures holds\n"
BROKEN = f"== ob0\n{PROVER}{GOAL}rt: ob0 NOT PROVED\nrt: FAILED: ob0 ob0 (tests)\n190 passed, 2 failed"
ROWS = r"""FAILED	1.0 s	a name		one\ntwo\\n\nthree\nfour
ok	2.0 s	another name	failed 1 of 4 times	it failed
==
"""
REPEATED = f"""FAILED   ob0
    {GOAL}    rt: ob0 NOT PROVED
FAILED   ob0 (tests)
    {GOAL}    rt: ob0 NOT PROVED
FAILED   a name
    one
    two\\n
    three
1 failed once: another name (bin/"""


@test("whole: each failure is repeated at the end with its first three lines, and a test that failed once is named")
def repeated() -> None:
    found = whole(ci=BROKEN, status=1, rest=f"{ROWS}900 passed, 1 failed")
    same((found.status, found.last), (1, "1210 passed, 3 failed"), found.said)
    end = found.said[found.said.index("end to end: 900 passed, 1 failed") :]
    holds(REPEATED in end, f"no {REPEATED} in {end}")


@test("whole: each mutant with an unexpected verdict is repeated at the end, and no other mutant is repeated")
def repeated_mutants() -> None:
    forms = {word: f"ob0_low/wrong-bodies/{at}.edit" for at, word in enumerate(mutants.WORDS)}
    forms[mutants.RIGHT] += ":right"
    lines = [mutants.Verdict(word, f"this is {word}").line(path) for word, path in forms.items()]
    found = whole(tried=(2, 4), printed="\n" + "\n".join(lines))
    wrong = [(path, word) for word, path in forms.items() if word not in mutants.AS_IT_MUST_BE]
    same(re.findall(r"^FAILED   (.*)\n    this is (.*)", found.said, re.M), wrong, found.said)


def begun(room: str, said: str) -> "subprocess.Popen[bytes]":
    """Starts tools/test.py in a folder, with an `rt ci` that doesn't end by itself, and sends its output to a file."""
    words = [sys.executable, "-B", os.path.join(room, "tools", "test.py")]
    with open(os.path.join(room, said), "wb") as out:
        return subprocess.Popen(words, stdout=out, stderr=subprocess.STDOUT, env=environment(room, SLEEPS="1"))


@test("whole: after a signal `make test` prints its progress and ends its child processes, and a second run waits")
def ended() -> None:
    for number in (signal.SIGTERM, signal.SIGINT, signal.SIGHUP):
        with temporary() as room:
            furnish(room, "rt: ob0 proved", "100 passed, 0 failed", "")
            with begun(room, "said") as first:
                prover = int(awaited(os.path.join(room, "provers")))
                with begun(room, "other") as second:
                    awaited(os.path.join(room, "other"), "waiting until another `make`")
                    second.terminate()
                first.send_signal(number)
                same(first.wait(60), 128 + number, text_of(room, "said"))
            holds(not harness.is_running(prover), "the prover still runs")
            said = text_of(room, "said")
            holds(f"\nended by {number.name} at ob0 of the gate, with 0 of 1 crates left, after 0:" in said, said)
            same(os.listdir(os.path.join(room, "tmp")), [], "the remaining temporary files")


@test("whole: `make test` ends at once, and says why, if root can't switch to another user")
def no_other_user() -> None:
    found = whole(LACKS="1")
    same((found.status, "root can't become another user here" in found.said, "be another" in found.last), (2, True, True), found.said)
    same([it for it in found.called if it.startswith(("rt ci", "tests"))], [], "what is run")


@test("whole: skipped tests count as run, but if OB0_MAY_LACK is set, many skipped tests are a failure")
def floor() -> None:
    many, few = "500 passed, 0 failed, 100 skipped", "5000 passed, 0 failed, 4 skipped"
    same([whole(rest=it).status for it in (many, few)], [0, 0], "by hand")
    same([whole(rest=it, OB0_MAY_LACK="x").status for it in (many, few)], [1, 0], "with OB0_MAY_LACK")
    found = whole(first="1 passed, 0 failed", rest="1 passed, 0 failed")
    holds("FAILED   end to end\n    2 tests ran, 0 were left out, and there are " in found.said, found.said)


@test("whole: LEAST in tools/test.py states the present numbers of tests")
def least() -> None:
    spec = importlib.util.spec_from_file_location("whole", os.path.join(TOP, "tools", "test.py"))
    assert spec and spec.loader
    script: Any = importlib.util.module_from_spec(spec)
    spec.loader.exec_module(script)
    of_gate = len(common.listed()) + len(glob.glob(os.path.join(TOP, "crates", "*", "must-fail", "*.edit")))
    same(script.LEAST, {"the gate": of_gate, "end to end": len(harness.TESTS)}, "LEAST of tools/test.py")


MAKE = """#!/bin/sh
echo "make $*" >> '{room}/called'
case $2 in
  editors) exit 1 ;;
  test) if [ -s '{room}/wanted' ]; then mkdir -p bin; cat '{room}/wanted' > bin/results; fi; tail -n 1 '{room}/wanted'; exit {status} ;;
esac
"""
LACKING = "vscode-languageclient,tree-sitter 0.22,root"
TIMEOUT = """#!/bin/sh
echo "timeout $* $OB0_MAY_LACK" >> '{room}/called'
shift 2
exec "$@"
"""


@test("whole: .ci/run ends with the verdict in bin/results, and sets time limits and the tools that may be missing")
def verdict() -> None:
    lines, none = "ok\t0.1 s\ta test\n7 passed, 0 failed\tof this name\n", "0 passed, 1 failed"
    for results, status, wanted in (
        (lines + "9 passed, 0 failed, 2 skipped\n", 0, (0, "9 passed, 0 failed, 2 skipped")),
        (lines + "8 passed, 1 failed\n", 2, (2, "8 passed, 1 failed")),
        (lines, 2, (2, none)),
        (lines, 0, (1, none)),
        (lines, 124, (124, none)),
        ("", 0, (1, none)),
    ):
        with temporary() as room:
            write(os.path.join(room, "wanted"), results)
            write(os.path.join(room, "bin", "results"), "99 passed, 0 failed\n")
            for name, text in (("make", MAKE), ("timeout", TIMEOUT)):
                write(os.path.join(room, "path", name), text.format(room=room, status=status))
                os.chmod(os.path.join(room, "path", name), 0o755)
            os.mkdir(os.path.join(room, ".ci"))
            copy(os.path.join(TOP, ".ci", "run"), os.path.join(room, ".ci"))
            own = {**os.environ, "PATH": os.path.join(room, "path") + os.pathsep + os.environ["PATH"]}
            ran = subprocess.run([os.path.join(room, ".ci", "run")], stdout=subprocess.PIPE, stderr=subprocess.STDOUT, env=own, check=False)
            last = ran.stdout.decode().rstrip("\n").rpartition("\n")[2]
            same((ran.returncode, last), wanted, f"after {results!r} and {status}: {ran.stdout.decode()}")
            holds((status == 124) == ("are over" in ran.stdout.decode()), ran.stdout.decode())
            called = text_of(room, "called")
            called = called.replace(f" {LACKING}", " LACKING")
            limit = int(match_of(r" (1\d+) make --silent test LACKING", called)[1])
            holds(10400 < limit <= 10500, f"the limit of all: {limit}")
            wanted_calls = ["timeout --kill-after=60 1200 make --silent editors LACKING", "make --silent editors"]
            wanted_calls += [f"timeout --kill-after=60 {limit} make --silent test LACKING", "make --silent test"]
            same(called.splitlines(), wanted_calls, "what is run")


@test("whole: a signal to .ci/run ends the `make test` that it runs, and the last line reports a failure")
def ci_ended() -> None:
    with temporary() as room:
        # (a signal in its first moment would end `timeout` without its child)
        make = "#!/bin/sh\n[ $2 = test ] || exit 0\nsleep 1\necho $$ > '{}/test'\nexec sleep 1000\n"
        write(os.path.join(room, "path", "make"), make.format(room))
        os.chmod(os.path.join(room, "path", "make"), 0o755)
        os.mkdir(os.path.join(room, ".ci"))
        copy(os.path.join(TOP, ".ci", "run"), os.path.join(room, ".ci"))
        own = {**os.environ, "PATH": os.path.join(room, "path") + os.pathsep + os.environ["PATH"]}
        with open(os.path.join(room, "said"), "wb") as out:
            with subprocess.Popen([os.path.join(room, ".ci", "run")], stdout=out, stderr=subprocess.STDOUT, env=own) as ran:
                number = int(awaited(os.path.join(room, "test")))
                ran.terminate()
                same(ran.wait(60), 143, "the status")
        same(text_of(room, "said").splitlines()[-1], "0 passed, 1 failed", text_of(room, "said"))
        holds(not harness.is_running(number), "the test still runs")


@test("whole: each tool that .ci/run allows to be missing is listed in tools/editors.py, without a Debian package")
def may_lack_there() -> None:
    for name in LACKING.split(","):
        holds(name in editors.TOOLS and not editors.TOOLS[name][1], name)


@test("whole: a package states whether its program is tested, and the screen repeats FAILED or NOT TESTED")
def said_by_package() -> None:
    not_tested = "NOT TESTED: each function of this program is proved, and `make test` has not ended on it"
    failed = "FAILED: 10 passed, 10 failed, by `make test` on this program, each of whose functions is proved"
    for gate, wanted in (("", not_tested), ("10 passed, 10 failed", failed), ("20 passed, 0 failed, 3 skipped", package.PASSED)):
        with mock.patch.object(common, "stamp", lambda: {"gate": gate} if gate else {}):  # pylint: disable=cell-var-from-loop
            same(package.verdict(), wanted, f"after {gate}")
            said = io.StringIO()
            with mock.patch.multiple(package, tree=dict, write_packages=lambda *_: None), contextlib.redirect_stdout(said):
                package.package("bin")
            same(f"PROVED says of its program: {wanted}" in said.getvalue(), wanted != package.PASSED, said.getvalue())
            same(package.tested(), f"{wanted}\n" + (f"gate: {gate}\n" if gate else ""), "the file TESTED")


@test("whole: the gate removes packages from bin/ that state that their program isn't tested, and keeps the others")
def untested_packages() -> None:
    for first, left in (("NOT TESTED: x\n", []), (f"{package.PASSED}\n", ["SHA256SUMS", "TESTED", "ob0_1_amd64.deb"])):
        with temporary() as room, mock.patch.object(common, "BINARY", os.path.join(room, "ob0")):
            for name in ("TESTED", "SHA256SUMS", "ob0_1_amd64.deb"):
                write(os.path.join(room, name), first)
            package.remove_untested()
            same(sorted(os.listdir(room)), left, f"the remaining files of packages with {first!r}")
