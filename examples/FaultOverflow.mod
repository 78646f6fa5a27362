MODULE FaultOverflow; (* powers of 10, until one doesn't fit in 32 bits *)
VAR
  n: INTEGER;
BEGIN
  n := 1;
  REPEAT
    Write(n);
    n := n * 10
  UNTIL n = 0
END FaultOverflow.
