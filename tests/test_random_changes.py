"""Makes random changes of documents. After each change the server must report the same as a new server that reads only
the new text. `make faults` does the same 20,000 times."""
from __future__ import annotations

import random_changes
from harness import test
from seeds import COUNT, starts


def make(part: int) -> None:
    @test(f"changes: after random changes the server's diagnostics and answers equal a new server's, part {part + 1}")
    def changed() -> None:
        start = starts()[part % len(starts())] + 1000 * (part // 2)
        print(f"    seeds begin at {start}", flush=True)
        print(f"    {random_changes.some_changes(COUNT, start)}")


for each in range(4):
    make(each)
