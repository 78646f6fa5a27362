"""Keeps rows of tools/mutants.txt if only names have changed. A row of a commit is kept if everything that its verdict
depends on (tools/sums.py) has the same words now, except that names were replaced. Each old name must have one new
name, and each new name one old name, in everything that any row depends on. So no row is kept if one name became two,
if two became one, or if anything else changed."""
from __future__ import annotations

import contextlib
import os
import re
import subprocess
import tarfile
import tempfile
from collections.abc import Iterator
from typing import Any, Dict, List, Optional, Set, Tuple

import common
import definitions
import sums
import verdicts

NAME = re.compile(r"[^\W\d][\w']*$")
Pairs = Set[Tuple[str, str]]  # pairs of an old name and the new one


@contextlib.contextmanager
def sources_of(commit: str) -> Iterator[str]:
    """Makes the scripts read a commit's files, in a temporary folder, during a `with` block."""
    own = {name: value for name, value in os.environ.items() if not name.startswith("GIT_")}
    words = ["git", "-c", f"safe.directory={common.TOP}", "-C", common.TOP, "archive", commit]
    top, crates = common.TOP, definitions.CRATES
    with tempfile.TemporaryDirectory() as folder:
        how: Dict[str, Any] = {"stdin": subprocess.DEVNULL, "stdout": subprocess.PIPE, "env": own}
        with subprocess.Popen(words, **how) as ran:
            assert ran.stdout
            with tarfile.open(fileobj=ran.stdout, mode="r|") as files:
                files.extractall(folder)
            ran.stdout.read()
        if ran.returncode:
            common.stop(f"git gives no commit {commit}")
        common.TOP, definitions.CRATES = folder, os.path.join(folder, "crates")
        try:
            yield folder
        finally:
            common.TOP, definitions.CRATES = top, crates


def pairs_of(old: List[sums.Part], new: List[sums.Part]) -> Optional[Pairs]:
    """Returns the pairs of an old and a new name at the same place. Returns None if anything except names differs."""
    found: Pairs = set()
    if [len(words) for _, words in old] != [len(words) for _, words in new]:
        return None
    for (old_path, old_words), (new_path, new_words) in zip(old, new):
        olds, news = [*re.split("::", old_path), *old_words], [*re.split("::", new_path), *new_words]
        if len(olds) != len(news):
            return None
        for was, now in zip(olds, news):
            if NAME.match(was) and NAME.match(now):
                found.add((was, now))
            elif was != now:
                return None
    return found


def torn(pairs: Pairs) -> Pairs:
    """Returns the pairs whose old name has more than one new name, or whose new name has more than one old name."""
    news: Dict[str, Set[str]] = {}
    olds: Dict[str, Set[str]] = {}
    for was, now in pairs:
        news.setdefault(was, set()).add(now)
        olds.setdefault(now, set()).add(was)
    return {(was, now) for was, now in pairs if len(news[was]) > 1 or len(olds[now]) > 1}


def renamed(verdict: str, names: Dict[str, str]) -> str:
    """Returns a verdict with the new names in its goal and its function."""
    return re.sub(r"[^\W\d]\w*", lambda it: names.get(it[0], it[0]), verdict) if " of " in verdict else verdict


def keep_rows(commit: str, mutants: verdicts.Mutants) -> int:
    """Keeps the rows of a commit in which only names have changed, and writes them. Returns 1 if a stale row remains,
    otherwise 0."""
    with sources_of(commit) as folder:
        before = verdicts.Mutants(os.path.join(folder, "tools", "mutants.txt"))
    both = [it for it in mutants.edits if it in before.edits]
    found = {it: pairs for it in both for pairs in [pairs_of(before.words[it], mutants.words[it])] if pairs is not None}
    whole = {it for pairs in found.values() for it in pairs}
    broken = {it for it in torn(whole) if it[0] != it[1]}
    kept = 0
    for path, pairs in found.items():
        if mutants.is_current(path) or not before.is_current(path) or pairs & broken:
            continue
        mutants.keep(path, mutants.sums[path], renamed(before.row(path).verdict, dict(pairs)))
        kept += mutants.is_current(path)
    mutants.write()
    for was, now in sorted(broken):
        print(f"{was} became {now} and also another name: rows with it are not kept")
    print(f"{kept} rows are kept, {len(mutants.stale)} are not of the present sources")
    return 1 if mutants.stale else 0
