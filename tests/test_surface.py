"""Tests that each public function has a comment, and a mutant or a reason why not. bin/SURFACE.md lists the functions
by crate."""
from __future__ import annotations

import contextlib
import io
import os
import shutil
import subprocess
import sys
import tempfile
from typing import Any, Dict, List, Sequence, Tuple
from unittest import mock

import common
import edits
import public_functions
import reading
from harness import TOP, Failed, holds, leave_out, same, test


@test("surface: each public function has a comment, and either a mutant or a reason for having none")
def surface() -> None:
    if not shutil.which("rt"):
        leave_out("rt, which reads the sources, is missing")
    script = os.path.join(TOP, "tools", "public_functions.py")
    how: dict[str, Any] = {"stdin": subprocess.DEVNULL, "stdout": subprocess.PIPE, "stderr": subprocess.STDOUT, "text": True}
    ran = subprocess.run([sys.executable, script, "--check"], **how)
    if ran.returncode:
        raise Failed(ran.stdout[-3000:])


@test("surface: bin/SURFACE.md describes each crate, and lists the promises and definitions of its functions")
def made_page() -> None:
    if not shutil.which("rt"):
        leave_out("rt, which reads the sources, is missing")
    page, rows = public_functions.page_and_rows(public_functions.reasons())
    parts = {part.partition("\n")[0]: part for part in page.split("\n## ")[1:]}
    same({*parts}, {it for top in common.libraries() for it in common.below(top)}, "the crates of the page")
    same([crate for crate, part in parts.items() if not part.split("\n")[2:3] or len(part.split("\n")[2]) < 30], [], "crates without a head")
    for crate, name, words in (
        ("ob0_inline", "inline_here", "Returns the edit"),
        ("ob0_session", "serve", "`Serves`"),
        ("ob0_world", "play", "`IsResultOfPlaying`"),
    ):
        row = next((it for it in parts[crate].split("\n") if it.startswith("| `") and f"{name}` |" in it), "none")
        holds(words in row, f"{name} of {crate}, without {words}: {row}")
    holds(len(rows) > 400, f"{len(rows)} public functions")


# The calls that the specification names, by crate. A trait's method is listed under the trait.
PROMISED: Dict[str, str] = {
    "ob0_frame": "Framer::new Framer::feed Framer::next Framer::finish write_frame",
    "ob0_text": "TextStore::from_str TextStore::from_str_in TextStore::unit TextStore::len TextStore::offset TextStore::position "
    "TextStore::replace TextStore::to_string Lines::line patch Documents::new Documents::set_unit Documents::did_open "
    "Documents::did_change Documents::lose Documents::did_close Documents::get EditRefusal::text",
    "ob0_rpc": "read request notice result notification error",
    "ob0_scan": "scan is_identifier rescan",
    "ob0_tree": "Module::tokens Module::nesting Module::identifiers",
    "ob0_parse": "parse",
    "ob0_scope": "resolve resolve_renamed",
    "ob0_scope_table": "Resolved::declaration_of Resolved::faults Resolved::module Resolved::tokens",
    "ob0_types": "check Checked::faults Checked::resolved Checked::well_typed WellTyped::checked WellTyped::constant WellTyped::shape",
    "ob0_run": "run",
    "ob0_refs": "at definition references hover captures",
    "ob0_rename": "rename",
    "ob0_inline": "inline_here inline_all",
    "ob0_layout": "format",
    "ob0_session_server": "Session::new Session::step Session::documents",
    "ob0_session": "Noted::new Noted::failed serve serve_stream",
    "ob0_world": "World::new World::new_in World::step World::steps World::play World::play_in",
    "ob0_cli": "command",
    "ob0_commands": "check_text run_text rename_text perform_command",
}  # fmt: skip


def unnamed_clauses(source: reading.Source, calls: Sequence[str]) -> List[str]:
    """Returns the `ensures` clauses of the functions named in `calls` that no mutant's first line cites, as
    'crate::path, clause'. A clause of a trait's method counts as cited if a mutant cites it for any type that
    implements the trait."""
    claims, unnamed = [it.claim for it in edits.edits_of(source.crate, source) if it.claim], []
    for call in calls:
        [function] = [it for it in source.functions if "::".join(filter(None, (it.owner, it.name))) == call and not it.is_test]
        peers = [it for it in source.functions if it is function or (it.trait and (it.trait, it.name) == (function.trait, function.name))]
        named = {clause for claim in claims if any(claim.is_of(it) for it in peers) for clause in claim.clauses}
        clauses = [it or "the clause" for it in public_functions.clauses_of(source, function)]
        unnamed += [f"{source.crate}::{function.path}, {it}" for it in clauses if it not in named]
    return unnamed


@test("surface: each clause of the specified functions' contracts is cited by a mutant, or listed with a reason")
def each_clause() -> None:
    of_functions, of_clauses = public_functions.reasons(), public_functions.reasons(are_of_clauses=True)
    unnamed = [it for crate, calls in PROMISED.items() for it in unnamed_clauses(reading.Source(crate), calls.split())]
    lacking = [it for it in unnamed if it not in of_clauses and it.partition(", ")[0] not in of_functions]
    same(lacking, [], "clauses that no mutant names, without a reason")
    same([it for it in of_clauses if it not in unnamed], [], "reasons for clauses that a mutant names, or that don't exist")


# Two crates: a trait of the lower one has methods on types of both.
FILES: Dict[str, str] = {
    "crates.txt": "low:\nhigh: low\n",
    "crates/low/src/lib.rt": """//! A trait, with methods on types of std.
#![tactic(auto)]

mod inside;

pub use inside::Count;

/// What has a size.
pub trait Sized {
    /// Returns the size.
    fn size(&self) -> u64;
}

impl Sized for u64 {
    fn size(&self) -> u64 {
        8
    }
}

/// A law.
pub fn law()
    ensures { 1 ≡ 1 }
{
}

fn private() -> u64 {
    3
}

#[test]
fn tested() {
    private();
}
""",
    "crates/low/src/inside.rt": """//! A type.

/// How many there are, and of what.
#[derive(Clone, Copy, Drop)]
pub enum Count {
    /// None.
    Empty,
    Of(u64, Option<u32>),
    #[error("too many")]
    More { than: u64, of: Vec<u8> },
}

pub struct Hidden {
    pub here: u64,
}

impl Count {
    /// Counts.
    pub fn of(n: u64) -> Count {
        Count::Of(n, None)
    }

    fn inner(&self) -> u64 {
        1
    }
}
""",
    "crates/high/src/lib.rt": """//! A type with methods of traits of another crate and of std.
#![tactic(auto)]

use low::Sized;
use std::io::Write;

/// A pair.
pub struct Pair {
    pub left: &'static [u64],
    right: u64,
    pub(crate) both: u64,
}

impl Sized for Pair {
    fn size(&self) -> u64 {
        16
    }
}

impl Write for Pair {
    fn write(&mut self, buf: &[u8]) -> Result<usize, Error> {
        Ok(buf.len())
    }
}

impl Drop for Pair {
    fn drop(&mut self) {
        self.right = 0;
    }
}
""",
}
LACKING = ["high::Pair::size", "high::Pair::write", "low::inside::Count::of", "low::u64::size"]


@contextlib.contextmanager
def two_crates(top: str) -> Any:
    """Writes two made-up crates into a folder, which stands in for the repository."""
    for name, text in FILES.items():
        path = os.path.join(top, name)
        os.makedirs(os.path.dirname(path), exist_ok=True)
        with open(path, "w", encoding="utf-8") as file:
            file.write(text)
    page, reasons = os.path.join(top, "SURFACE.md"), os.path.join(top, "reasons.txt")
    for path in (page, reasons):
        with open(path, "w", encoding="utf-8"):
            pass
    with mock.patch.object(common, "TOP", top), mock.patch.object(public_functions, "PAGE", page):
        with mock.patch.object(public_functions, "REASONS", reasons), mock.patch.object(public_functions, "keep_counts", lambda: None):
            yield


def said_of(top: str) -> Tuple[int, List[str]]:
    """Runs the script on the two crates. Returns its exit status and the functions that it lists."""
    with contextlib.redirect_stdout(io.StringIO()) as said:
        status = public_functions.main([])
    return status, sorted(it.strip() for it in said.getvalue().split("\n") if it.startswith("  "))


@test("surface: a public function without a mutant, and a reason for a function that doesn't exist, are reported")
def lacking() -> None:
    with tempfile.TemporaryDirectory() as top, two_crates(top):
        same(said_of(top), (1, LACKING), "the functions that lack a mutant")
        os.makedirs(os.path.join(top, "crates/low/wrong-bodies"))
        with open(os.path.join(top, "crates/low/wrong-bodies/empty.edit"), "w", encoding="utf-8") as file:
            file.write("file: src/inside.rt\nold:         Count::Of(n, None)\nnew:         Count::Empty\n")
        same(said_of(top)[1], [it for it in LACKING if it != "low::inside::Count::of"], "after one has a mutant")
        with open(public_functions.REASONS, "w", encoding="utf-8") as file:
            file.writelines(f"{it}: a reason\n" for it in LACKING[:2] + LACKING[3:])
        same(said_of(top), (0, []), "after the others have a reason")
        with open(public_functions.REASONS, "a", encoding="utf-8") as file:
            file.write("low::gone: a reason\n")
        same(said_of(top), (1, ["low::gone"]), "a reason for a function that doesn't exist")
        with open(public_functions.PAGE, encoding="utf-8") as file:
            page = file.read()
        holds("| `inside::Count::of` | Counts. |  | wrong-bodies/empty |" in page and "| `law` | A law. |  | law |" in page, page)


@test("surface: the numbers of mutants are written into README's sentence, and a page without that sentence is refused")
def counted() -> None:
    page = "`make test` checks every proof, 1 wrong\nversions, and tries 24 of 2 others,\n3 refused in their present form."
    with mock.patch.object(public_functions, "counts", lambda: (5, 6, 7)):
        same([int(it) for it in public_functions.with_counts(page).split() if it.isdigit()], [5, 24, 6, 7], "the counts")
    with mock.patch.object(public_functions, "counts", lambda: (5, 6, 6)):
        holds("24 of 6 others,\nall refused" in public_functions.with_counts(page), public_functions.with_counts(page))
        try:
            public_functions.with_counts(page.replace("others", "mutants"))
        except LookupError:
            return
    raise Failed("a page without the sentence is accepted")


@test("surface: a public type is listed with its variants or public fields, in the order of the source")
def types() -> None:
    with tempfile.TemporaryDirectory() as top, two_crates(top):
        found = {it.path: it.parts for crate in ("low", "high") for it in reading.Source(crate).public_types()}
    variants = ["Empty", "Of(u64, Option<u32>)", "More { than: u64, of: Vec<u8> }"]
    same(found, {"inside::Count": variants, "Pair": ["left: &'static [u64]"]}, "types")
