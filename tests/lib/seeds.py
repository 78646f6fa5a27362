"""Chooses the seeds of random tests: half of them are always the same, and the others depend on the commit. OB0_RANDOM
is the number of seeds that a test tries (300). If OB0_SEED is set, the seeds begin at that number: each failure prints
its own."""
from __future__ import annotations

import functools
import os
from typing import List

import common

USUAL = 300
COUNT = int(os.environ.get("OB0_RANDOM", USUAL))


@functools.lru_cache(None)
def of_commit() -> int:
    """Returns a number computed from the hash of HEAD, or 0 outside a Git repository."""
    return int(common.commit()[:7], 16)


def starts() -> List[int]:
    """Returns the seeds at which the sequences begin: OB0_SEED if it is set, otherwise 0 and the commit's number."""
    given = os.environ.get("OB0_SEED")
    return [int(given)] if given else [0, of_commit()]


def seeds(count: int) -> List[int]:
    """Returns at least `count` seeds, and prints the numbers at which they begin."""
    found = starts()
    print(f"    seeds begin at {' and '.join(map(str, found))}", flush=True)
    size = -(-count // len(found))
    return [it for start in found for it in range(start, start + size)]


def named(seed: int) -> str:
    """Describes a seed for the message of a failure, with the command that tries it again."""
    return f"seed {seed} (OB0_SEED={seed} tries it again)"
