"""Contains modules that more than one file of tests uses."""

# a global that a procedure within a procedure writes
WRITES_A_GLOBAL = """MODULE M;
VAR Q: INTEGER;
PROCEDURE A;
PROCEDURE P; BEGIN Q := 7 END P;
PROCEDURE R; BEGIN Write(2) END R;
BEGIN P; R END A;
BEGIN A; Write(Q) END M.
"""
# a fault of nearly each kind
FAULTY = """MODULE M;
CONST k = 1 DIV 0; m = 1;
VAR i: INTEGER; b: BOOLEAN;
PROCEDURE P(VAR j: INTEGER); BEGIN j := 1 END Q;
BEGIN i := b; P(3); P; z := 1; i.f := 1; i[0] := 1; Write(P); m := 2 END M.
"""
# reads how often to loop, and writes by a procedure
COUNTS = """MODULE M;
VAR n: INTEGER;
PROCEDURE P; BEGIN Write(n) END P;
BEGIN Read(n); WHILE n > 0 DO n := n - 1; WriteLn END; P END M.
"""
# a quotient and a remainder of each sign, and a divisor that is none
DIVIDES = "MODULE M; BEGIN Write(-7 DIV 3); Write((-7) DIV 3); Write((-7) MOD 3); Write(1 MOD 0) END M."
# a procedure's variable that is assigned to one of the module
NESTED = """MODULE M;
VAR x: INTEGER;
PROCEDURE P;
VAR y: INTEGER;
BEGIN y := 1; x := y END P;
BEGIN P; Write(x) END M.
"""
# a procedure that calls itself
CALLS = """MODULE M;
PROCEDURE F(n: INTEGER);
BEGIN IF n > 0 THEN Write(n); F(n - 1) END END F;
BEGIN F(2) END M.
"""
# two records with fields of one name, and a variable of that name
RECORDS = """MODULE M;
TYPE R = RECORD a, b: INTEGER END;
VAR r: R; s: RECORD a: INTEGER END; a: INTEGER;
BEGIN r.a := 1; s.a := 2; a := r.a + s.a; Write(a) END M.
"""
# constants: the least number, a negative one, a truth value whose name is hidden at its use
LEAST = """MODULE M;
CONST c = -2147483647 - 1;
VAR x: INTEGER;
BEGIN x := 0 + c; Write(x) END M.
"""
FIVE = "MODULE M; CONST c = -5; BEGIN Write(c DIV 3) END M."
SHADOWED = """MODULE M;
CONST on = TRUE;
PROCEDURE P; VAR TRUE, b: BOOLEAN; BEGIN b := on END P;
BEGIN P END M.
"""
