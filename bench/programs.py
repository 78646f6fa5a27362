"""Contains programs that do the same in Oberon-0, Lua and Python: a name and three texts for each. A run allows 64 open
calls and 100,000 iterations of each execution of a loop, so the programs do their work in nested loops."""
from __future__ import annotations


PROGRAMS = {
    "nested loops, 2,000,000 turns": (
        """MODULE Loops;
VAR i, j, sum: INTEGER;
BEGIN
  i := 0; sum := 0;
  WHILE i < 2000 DO
    j := 0;
    WHILE j < 1000 DO
      sum := (sum * 3 + i + j) MOD 1000003; j := j + 1
    END;
    i := i + 1
  END;
  Write(sum); WriteLn
END Loops.
""",
        """local i, sum = 0, 0
while i < 2000 do
  local j = 0
  while j < 1000 do
    sum = (sum * 3 + i + j) % 1000003; j = j + 1
  end
  i = i + 1
end
print(sum)
""",
        """def main():
    i, total = 0, 0
    while i < 2000:
        j = 0
        while j < 1000:
            total = (total * 3 + i + j) % 1000003
            j = j + 1
        i = i + 1
    print(total)
main()
""",
    ),
    "a sieve up to 60,000, 5 times": (
        """MODULE Sieve;
VAR a: ARRAY 60000 OF BOOLEAN; i, j, turn, count: INTEGER;
BEGIN
  turn := 0;
  WHILE turn < 5 DO
    i := 0; count := 0;
    WHILE i < 60000 DO a[i] := FALSE; i := i + 1 END;
    i := 2;
    WHILE i < 60000 DO
      IF ~a[i] THEN
        count := count + 1; j := i + i;
        WHILE j < 60000 DO a[j] := TRUE; j := j + i END
      END;
      i := i + 1
    END;
    turn := turn + 1
  END;
  Write(count); WriteLn
END Sieve.
""",
        """local a, count = {}, 0
for turn = 1, 5 do
  count = 0
  for i = 0, 59999 do a[i] = false end
  local i = 2
  while i < 60000 do
    if not a[i] then
      count = count + 1
      local j = i + i
      while j < 60000 do a[j] = true; j = j + i end
    end
    i = i + 1
  end
end
print(count)
""",
        """def main():
    a = [False] * 60000
    for turn in range(5):
        count, i = 0, 0
        while i < 60000:
            a[i] = False
            i = i + 1
        i = 2
        while i < 60000:
            if not a[i]:
                count = count + 1
                j = i + i
                while j < 60000:
                    a[j] = True
                    j = j + i
            i = i + 1
    print(count)
main()
""",
    ),
    "calls, the 24th Fibonacci number": (
        """MODULE Calls;
VAR r: INTEGER;
PROCEDURE Fib(n: INTEGER; VAR r: INTEGER);
VAR a, b: INTEGER;
BEGIN
  IF n < 2 THEN r := n ELSE Fib(n - 1, a); Fib(n - 2, b); r := a + b END
END Fib;
BEGIN Fib(24, r); Write(r); WriteLn END Calls.
""",
        """local function fib(n)
  if n < 2 then return n end
  local a = fib(n - 1)
  local b = fib(n - 2)
  return a + b
end
print(fib(24))
""",
        """def fib(n):
    if n < 2:
        return n
    a = fib(n - 1)
    b = fib(n - 2)
    return a + b
print(fib(24))
""",
    ),
    "a product of 64 by 64 matrices": (
        """MODULE Product;
TYPE Matrix = ARRAY 64 OF ARRAY 64 OF INTEGER;
VAR a, b, c: Matrix; i, j, k, sum: INTEGER;
BEGIN
  i := 0;
  WHILE i < 64 DO
    j := 0;
    WHILE j < 64 DO a[i][j] := i + j; b[i][j] := i - j; j := j + 1 END;
    i := i + 1
  END;
  i := 0; sum := 0;
  WHILE i < 64 DO
    j := 0;
    WHILE j < 64 DO
      k := 0; c[i][j] := 0;
      WHILE k < 64 DO c[i][j] := c[i][j] + a[i][k] * b[k][j]; k := k + 1 END;
      sum := (sum + c[i][j]) MOD 1000003; j := j + 1
    END;
    i := i + 1
  END;
  Write(sum); WriteLn
END Product.
""",
        """local a, b, c, sum = {}, {}, {}, 0
for i = 0, 63 do
  a[i], b[i], c[i] = {}, {}, {}
  for j = 0, 63 do a[i][j] = i + j; b[i][j] = i - j end
end
for i = 0, 63 do
  for j = 0, 63 do
    c[i][j] = 0
    for k = 0, 63 do c[i][j] = c[i][j] + a[i][k] * b[k][j] end
    sum = (sum + c[i][j]) % 1000003
  end
end
print(sum)
""",
        """def main():
    a = [[i + j for j in range(64)] for i in range(64)]
    b = [[i - j for j in range(64)] for i in range(64)]
    total = 0
    for i in range(64):
        for j in range(64):
            c = 0
            for k in range(64):
                c = c + a[i][k] * b[k][j]
            total = (total + c) % 1000003
    print(total)
main()
""",
    ),
    "a procedure's array of 10,000 copied 200 times": (
        """MODULE Copies;
TYPE Line = ARRAY 10000 OF INTEGER;
VAR a: Line; i, sum: INTEGER;
PROCEDURE Last(a: Line; VAR r: INTEGER);
BEGIN a[0] := r; r := (a[9999] + a[0]) MOD 1000003 END Last;
BEGIN
  i := 0;
  WHILE i < 10000 DO a[i] := i; i := i + 1 END;
  i := 0; sum := 0;
  WHILE i < 200 DO Last(a, sum); i := i + 1 END;
  Write(sum); WriteLn
END Copies.
""",
        """local a, sum = {}, 0
for i = 0, 9999 do a[i] = i end
local function last(given, r)
  local a = table.move(given, 0, 9999, 0, {})
  a[0] = r
  return (a[9999] + a[0]) % 1000003
end
for i = 1, 200 do sum = last(a, sum) end
print(sum)
""",
        """def last(given, r):
    a = given[:]
    a[0] = r
    return (a[9999] + a[0]) % 1000003
a, total = list(range(10000)), 0
for i in range(200):
    total = last(a, total)
print(total)
""",
    ),
    "quicksort of 4,000 numbers, 5 times": (
        """MODULE Quicksort;
VAR a: ARRAY 4000 OF INTEGER; i, seed, turn, sum: INTEGER;
PROCEDURE Exchange(VAR x, y: INTEGER);
VAR kept: INTEGER;
BEGIN kept := x; x := y; y := kept END Exchange;
PROCEDURE Sort(low, high: INTEGER);
VAR i, k, middle: INTEGER;
BEGIN
  i := low; k := high; middle := a[(low + high) DIV 2];
  REPEAT
    WHILE a[i] < middle DO i := i + 1 END;
    WHILE middle < a[k] DO k := k - 1 END;
    IF i <= k THEN Exchange(a[i], a[k]); i := i + 1; k := k - 1 END
  UNTIL i > k;
  IF low < k THEN Sort(low, k) END;
  IF i < high THEN Sort(i, high) END
END Sort;
BEGIN
  seed := 1; turn := 0; sum := 0;
  WHILE turn < 5 DO
    i := 0;
    WHILE i < 4000 DO seed := (seed * 1103 + 12345) MOD 65536; a[i] := seed; i := i + 1 END;
    Sort(0, 3999);
    sum := (sum + a[0] + a[2000] + a[3999]) MOD 1000003; turn := turn + 1
  END;
  Write(sum); WriteLn
END Quicksort.
""",
        """local a, seed, sum = {}, 1, 0
local function exchange(i, k)
  local kept = a[i]
  a[i] = a[k]; a[k] = kept
end
local function sort(low, high)
  local i, k, middle = low, high, a[(low + high) // 2]
  repeat
    while a[i] < middle do i = i + 1 end
    while middle < a[k] do k = k - 1 end
    if i <= k then exchange(i, k); i = i + 1; k = k - 1 end
  until i > k
  if low < k then sort(low, k) end
  if i < high then sort(i, high) end
end
for turn = 1, 5 do
  for i = 0, 3999 do seed = (seed * 1103 + 12345) % 65536; a[i] = seed end
  sort(0, 3999)
  sum = (sum + a[0] + a[2000] + a[3999]) % 1000003
end
print(sum)
""",
        """a, seed, total = [0] * 4000, 1, 0
def exchange(i, k):
    kept = a[i]
    a[i] = a[k]
    a[k] = kept
def sort(low, high):
    i, k, middle = low, high, a[(low + high) // 2]
    while True:
        while a[i] < middle:
            i = i + 1
        while middle < a[k]:
            k = k - 1
        if i <= k:
            exchange(i, k)
            i = i + 1
            k = k - 1
        if i > k:
            break
    if low < k:
        sort(low, k)
    if i < high:
        sort(i, high)
for turn in range(5):
    for i in range(4000):
        seed = (seed * 1103 + 12345) % 65536
        a[i] = seed
    sort(0, 3999)
    total = (total + a[0] + a[2000] + a[3999]) % 1000003
print(total)
""",
    ),
    "a record of 1,002 cells assigned 20,000 times": (
        """MODULE Records;
TYPE Line = ARRAY 1000 OF INTEGER; Page = RECORD head, foot: INTEGER; line: Line END;
VAR a, b: Page; i, k: INTEGER;
BEGIN
  i := 0; a.head := 0; a.foot := 1;
  WHILE i < 1000 DO a.line[i] := i; i := i + 1 END;
  i := 0;
  WHILE i < 100 DO
    k := 0;
    WHILE k < 100 DO b := a; b.head := b.head + 1; a := b; k := k + 1 END;
    i := i + 1
  END;
  Write(a.head + a.line[999]); WriteLn
END Records.
""",
        """local a, i = {head = 0, foot = 1, line = {}}, 0
local function copied(page)
  return {head = page.head, foot = page.foot, line = table.move(page.line, 0, 999, 0, {})}
end
for i = 0, 999 do a.line[i] = i end
for i = 1, 10000 do
  local b = copied(a)
  b.head = b.head + 1
  a = copied(b)
end
print(a.head + a.line[999])
""",
        """def copied(page):
    return {"head": page["head"], "foot": page["foot"], "line": page["line"][:]}
a = {"head": 0, "foot": 1, "line": list(range(1000))}
for i in range(10000):
    b = copied(a)
    b["head"] = b["head"] + 1
    a = copied(b)
print(a["head"] + a["line"][999])
""",
    ),
    "200,000 calls with VAR parameters": (
        """MODULE Var;
VAR i, k, x, y: INTEGER;
PROCEDURE Step(VAR x, y: INTEGER; by: INTEGER);
BEGIN x := (x + by) MOD 1000; y := y + x END Step;
BEGIN
  i := 0; x := 0; y := 0;
  WHILE i < 200 DO
    k := 0;
    WHILE k < 1000 DO Step(x, y, k); k := k + 1 END;
    i := i + 1
  END;
  Write(x); Write(y); WriteLn
END Var.
""",
        """local x, y = 0, 0
local function step(x, y, by)
  x = (x + by) % 1000
  return x, y + x
end
for i = 1, 200 do
  for k = 0, 999 do x, y = step(x, y, k) end
end
print(x .. " " .. y)
""",
        """def step(x, y, by):
    x = (x + by) % 1000
    return x, y + x
x, y = 0, 0
for i in range(200):
    for k in range(1000):
        x, y = step(x, y, k)
print(x, y)
""",
    ),
    "fields of a record, 1,000,000 turns": (
        """MODULE Fields;
TYPE R = RECORD sum, turns: INTEGER; rest: ARRAY 4 OF INTEGER END;
VAR r: R; i, j: INTEGER;
BEGIN
  i := 0; r.sum := 0; r.turns := 0;
  WHILE i < 1000 DO
    j := 0;
    WHILE j < 1000 DO r.sum := (r.sum + j) MOD 10007; r.turns := r.turns + 1; j := j + 1 END;
    i := i + 1
  END;
  Write(r.sum + r.turns); WriteLn
END Fields.
""",
        """local r, i = {sum = 0, turns = 0}, 0
while i < 1000 do
  local j = 0
  while j < 1000 do r.sum = (r.sum + j) % 10007; r.turns = r.turns + 1; j = j + 1 end
  i = i + 1
end
print(r.sum + r.turns)
""",
        """class R:
    __slots__ = ("sum", "turns")
def main():
    r, i = R(), 0
    r.sum, r.turns = 0, 0
    while i < 1000:
        j = 0
        while j < 1000:
            r.sum = (r.sum + j) % 10007
            r.turns = r.turns + 1
            j = j + 1
        i = i + 1
    print(r.sum + r.turns)
main()
""",
    ),
    "fields of an array's records, 500,000 turns": (
        """MODULE Points;
TYPE Point = RECORD at, speed: INTEGER END;
VAR points: ARRAY 1000 OF Point; i, turn, sum: INTEGER;
BEGIN
  i := 0;
  WHILE i < 1000 DO points[i].at := i; points[i].speed := i MOD 7; i := i + 1 END;
  turn := 0;
  WHILE turn < 500 DO
    i := 0;
    WHILE i < 1000 DO
      IF points[i].at > 60000 THEN points[i].at := 0 END;
      points[i].at := points[i].at + points[i].speed; i := i + 1
    END;
    turn := turn + 1
  END;
  i := 0; sum := 0;
  WHILE i < 1000 DO sum := (sum + points[i].at) MOD 1000003; i := i + 1 END;
  Write(sum); WriteLn
END Points.
""",
        """local points, sum = {}, 0
for i = 0, 999 do points[i] = {at = i, speed = i % 7} end
for turn = 1, 500 do
  for i = 0, 999 do
    if points[i].at > 60000 then points[i].at = 0 end
    points[i].at = points[i].at + points[i].speed
  end
end
for i = 0, 999 do sum = (sum + points[i].at) % 1000003 end
print(sum)
""",
        """class Point:
    __slots__ = ("at", "speed")
def main():
    points = [Point() for _ in range(1000)]
    for i in range(1000):
        points[i].at, points[i].speed = i, i % 7
    for turn in range(500):
        for i in range(1000):
            if points[i].at > 60000:
                points[i].at = 0
            points[i].at = points[i].at + points[i].speed
    total = 0
    for i in range(1000):
        total = (total + points[i].at) % 1000003
    print(total)
main()
""",
    ),
    "200,000 calls with a record as a VAR parameter": (
        """MODULE Moves;
TYPE Point = RECORD at, speed: INTEGER END;
VAR p: Point; i, k: INTEGER;
PROCEDURE Move(VAR p: Point; by: INTEGER);
BEGIN p.at := (p.at + p.speed * by) MOD 65521; p.speed := (p.speed + p.at) MOD 251 END Move;
BEGIN
  p.at := 1; p.speed := 2; i := 0;
  WHILE i < 200 DO
    k := 0;
    WHILE k < 1000 DO Move(p, k); k := k + 1 END;
    i := i + 1
  END;
  Write(p.at + p.speed); WriteLn
END Moves.
""",
        """local p = {at = 1, speed = 2}
local function move(p, by)
  p.at = (p.at + p.speed * by) % 65521
  p.speed = (p.speed + p.at) % 251
end
for i = 1, 200 do
  for k = 0, 999 do move(p, k) end
end
print(p.at + p.speed)
""",
        """class Point:
    __slots__ = ("at", "speed")
def move(p, by):
    p.at = (p.at + p.speed * by) % 65521
    p.speed = (p.speed + p.at) % 251
p = Point()
p.at, p.speed = 1, 2
for i in range(200):
    for k in range(1000):
        move(p, k)
print(p.at + p.speed)
""",
    ),
    "a queue of 64 numbers, 200,000 put and taken": (
        """MODULE Queues;
TYPE Queue = RECORD items: ARRAY 64 OF INTEGER; first, count: INTEGER END;
VAR q: Queue; i, k, sum, taken: INTEGER;
PROCEDURE Put(VAR q: Queue; n: INTEGER);
BEGIN q.items[(q.first + q.count) MOD 64] := n; q.count := q.count + 1 END Put;
PROCEDURE Take(VAR q: Queue; VAR n: INTEGER);
BEGIN n := q.items[q.first]; q.first := (q.first + 1) MOD 64; q.count := q.count - 1 END Take;
BEGIN
  q.first := 0; q.count := 0; sum := 0; i := 0;
  WHILE i < 4000 DO
    k := 0;
    WHILE k < 50 DO Put(q, i + k); k := k + 1 END;
    WHILE q.count > 0 DO Take(q, taken); sum := (sum + taken) MOD 1000003 END;
    i := i + 1
  END;
  Write(sum); WriteLn
END Queues.
""",
        """local q, sum = {items = {}, first = 0, count = 0}, 0
local function put(q, n)
  q.items[(q.first + q.count) % 64] = n; q.count = q.count + 1
end
local function take(q)
  local n = q.items[q.first]
  q.first = (q.first + 1) % 64; q.count = q.count - 1
  return n
end
for i = 0, 3999 do
  for k = 0, 49 do put(q, i + k) end
  while q.count > 0 do sum = (sum + take(q)) % 1000003 end
end
print(sum)
""",
        """class Queue:
    __slots__ = ("items", "first", "count")
def put(q, n):
    q.items[(q.first + q.count) % 64] = n
    q.count = q.count + 1
def take(q):
    n = q.items[q.first]
    q.first = (q.first + 1) % 64
    q.count = q.count - 1
    return n
q, total = Queue(), 0
q.items, q.first, q.count = [0] * 64, 0, 0
for i in range(4000):
    for k in range(50):
        put(q, i + k)
    while q.count > 0:
        total = (total + take(q)) % 1000003
print(total)
""",
    ),
    "a matrix of 100 by 100 records, 30 times": (
        """MODULE Board;
TYPE Cell = RECORD now, next: INTEGER END;
VAR board: ARRAY 100 OF ARRAY 100 OF Cell; i, j, turn, sum: INTEGER;
BEGIN
  i := 0;
  WHILE i < 100 DO
    j := 0;
    WHILE j < 100 DO board[i][j].now := (i * 7 + j) MOD 5; j := j + 1 END;
    i := i + 1
  END;
  turn := 0;
  WHILE turn < 30 DO
    i := 1;
    WHILE i < 99 DO
      j := 1;
      WHILE j < 99 DO
        board[i][j].next := (board[i - 1][j].now + board[i][j - 1].now + board[i][j].now) MOD 5; j := j + 1
      END;
      i := i + 1
    END;
    i := 1;
    WHILE i < 99 DO
      j := 1;
      WHILE j < 99 DO board[i][j].now := board[i][j].next; j := j + 1 END;
      i := i + 1
    END;
    turn := turn + 1
  END;
  i := 0; sum := 0;
  WHILE i < 100 DO
    j := 0;
    WHILE j < 100 DO sum := sum + board[i][j].now; j := j + 1 END;
    i := i + 1
  END;
  Write(sum); WriteLn
END Board.
""",
        """local board, sum = {}, 0
for i = 0, 99 do
  board[i] = {}
  for j = 0, 99 do board[i][j] = {now = (i * 7 + j) % 5, next = 0} end
end
for turn = 1, 30 do
  for i = 1, 98 do
    for j = 1, 98 do
      board[i][j].next = (board[i - 1][j].now + board[i][j - 1].now + board[i][j].now) % 5
    end
  end
  for i = 1, 98 do
    for j = 1, 98 do board[i][j].now = board[i][j].next end
  end
end
for i = 0, 99 do
  for j = 0, 99 do sum = sum + board[i][j].now end
end
print(sum)
""",
        """class Cell:
    __slots__ = ("now", "next")
    def __init__(self, now):
        self.now, self.next = now, 0
def main():
    board = [[Cell((i * 7 + j) % 5) for j in range(100)] for i in range(100)]
    for turn in range(30):
        for i in range(1, 99):
            for j in range(1, 99):
                board[i][j].next = (board[i - 1][j].now + board[i][j - 1].now + board[i][j].now) % 5
        for i in range(1, 99):
            for j in range(1, 99):
                board[i][j].now = board[i][j].next
    print(sum(cell.now for row in board for cell in row))
main()
""",
    ),
}


def calls(count: int) -> str:
    """Returns an Oberon-0 program that makes `count` calls (a multiple of 1,000), one after another, and writes their
    number."""
    return f"""MODULE Many;
VAR i, j, made: INTEGER;
PROCEDURE Count(n: INTEGER; VAR made: INTEGER);
VAR before: INTEGER; room: ARRAY 8 OF INTEGER;
BEGIN before := made; room[n MOD 8] := 1; made := before + room[n MOD 8] END Count;
BEGIN
  i := 0;
  WHILE i < {count // 1000} DO
    j := 0;
    WHILE j < 1000 DO Count(j, made); j := j + 1 END;
    i := i + 1
  END;
  Write(made); WriteLn
END Many.
"""


def open_calls(depth: int, turns: int) -> str:
    """Returns an Oberon-0 program that nests `depth` calls, each with an array of 16,384 cells, and does so `turns`
    times. It writes how many calls it made."""
    return f"""MODULE Deep;
VAR i, made: INTEGER;
PROCEDURE Down(n: INTEGER; VAR made: INTEGER);
VAR room: ARRAY 16384 OF INTEGER;
BEGIN room[n] := n; made := made + 1; IF n > 1 THEN Down(n - 1, made) END END Down;
BEGIN
  i := 0;
  WHILE i < {turns} DO Down({depth}, made); i := i + 1 END;
  Write(made); WriteLn
END Deep.
"""


def numbers_out(count: int) -> str:
    """Returns an Oberon-0 program that writes `count` one-digit numbers (a multiple of 1,000)."""
    return f"""MODULE Out;
VAR i, j: INTEGER;
BEGIN
  i := 0;
  WHILE i < {count // 1000} DO
    j := 0;
    WHILE j < 1000 DO Write(j MOD 10); j := j + 1 END;
    i := i + 1
  END
END Out.
"""
