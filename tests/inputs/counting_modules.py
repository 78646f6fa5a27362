"""Generates well-typed modules of WHILE loops that count. The condition compares a variable with a number or another
variable, and the last statement adds a number to a variable. With some limits and steps the counter overflows, or the
loop makes no iteration. A body may change the counter or the limit, directly or through a VAR parameter that is the
same variable. Counters are variables of the module and of procedures, VAR parameters, elements and fields. Each is
written before and after its loop."""
from __future__ import annotations

import random
from typing import List

LIMITS = ["0", "1", "2", "3", "5", "(-1)", "(-3)", "2147483647", "2147483646", "(-2147483647)"]
STEPS = ["1", "1", "1", "1", "2", "3", "7", "0", "2147483647", "1073741824"]
STARTS = ["0", "0", "1", "(-2)", "2147483640", "2147483645", "(-2147483647) - 1", "2147483647"]
RELATIONS = ["<", "<", "<", "<", "<=", ">", ">=", "=", "#"]


class Maker:
    def __init__(self, seed: int) -> None:
        self.chance = random.Random(f"counts {seed}")
        self.procedures: List[str] = []

    def one(self, *ways: str) -> str:
        return self.chance.choice(ways)

    def limit(self, variables: List[str]) -> str:
        return self.chance.choice(LIMITS if self.chance.random() < 0.7 else variables)

    def step(self, counter: str) -> str:
        """Returns the statement that advances a loop's counter. Occasionally it counts down, or is written as `step +
        counter`."""
        step, way = self.chance.choice(STEPS), self.chance.random()
        if way < 0.8:
            return f"{counter} := {counter} + {step}"
        return f"{counter} := {counter} - {step}" if way < 0.9 else f"{counter} := {step} + {counter}"

    def other(self, counter: str, variables: List[str], depth: int) -> str:
        """Returns a random statement for a loop's body, in addition to the one that advances the counter."""
        variable, way = self.chance.choice(variables), self.chance.random()
        if way < 0.25:
            return f"Write({counter})"
        if way < 0.4:
            return f"{variable} := {variable} + {self.one('1', '2', '(-1)', counter)}"
        if way < 0.5:
            return f"{counter} := {counter} {self.one('+', '-')} {self.one('1', '2')}"
        if way < 0.6:
            return f"IF {counter} {self.one(*RELATIONS)} {self.limit(variables)} THEN {self.step(variable)} END"
        if way < 0.68:
            return f"Read({self.one(variable, counter)})"
        if way < 0.8 and self.procedures:
            return f"{self.chance.choice(self.procedures)}({counter}, {self.one(counter, variable)})"
        return self.loop(variables, depth + 1) if depth < 2 else f"Write({variable})"

    def loop(self, variables: List[str], depth: int = 0) -> str:
        """Returns a counting loop, usually after an assignment of the counter's first value. Occasionally it advances
        another variable than the one that it compares."""
        counter = self.chance.choice(variables)
        counted = counter if self.chance.random() < 0.85 else self.chance.choice(variables)
        body = [self.other(counter, variables, depth) for _ in range(self.chance.choice([0, 0, 1, 1, 2]))]
        condition = f"{counter} {self.one(*RELATIONS)} {self.limit(variables)}"
        body.append(self.step(counted))
        start = f"{counter} := {self.chance.choice(STARTS)}; " if self.chance.random() < 0.8 else ""
        return f"{start}Write({counter}); WHILE {condition} DO {'; '.join(body)} END; Write({counter})"

    def procedure(self, name: str) -> str:
        """Returns a procedure whose loops count with a VAR parameter, a value parameter, or a variable."""
        variables = ["p", "q", "k", "g", "h"]
        loops = "; ".join(self.loop(variables, 1) for _ in range(self.chance.choice([1, 1, 2])))
        self.procedures.append(name)
        return f"PROCEDURE {name}(VAR p: INTEGER; q: INTEGER);\nVAR k: INTEGER;\nBEGIN k := {self.limit(['q'])}; {loops}\nEND {name};\n"

    def module(self) -> str:
        procedures = "".join(self.procedure(f"P{it}") for it in range(self.chance.choice([0, 1, 2])))
        variables = ["g", "h", "i", "a[1]", "r.f"]
        loops = ";\n  ".join(self.loop(variables) for _ in range(self.chance.choice([1, 2, 3])))
        declared = "VAR g, h, i: INTEGER; a: ARRAY 3 OF INTEGER; r: RECORD e, f: INTEGER END;\n"
        return f"MODULE Counts;\n{declared}{procedures}BEGIN\n  {loops};\n  Write(g); Write(h); Write(i)\nEND Counts.\n"


def module(seed: int) -> str:
    return Maker(seed).module()
