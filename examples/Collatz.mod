MODULE Collatz; (* halves n if it is even, otherwise makes it 3n + 1, until it is 1 *)
VAR
  n, steps: INTEGER;
BEGIN
  Read(n);
  steps := 0;
  WHILE n # 1 DO
    Write(n);
    IF n MOD 2 = 0 THEN
      n := n DIV 2
    ELSE
      n := 3 * n + 1
    END;
    steps := steps + 1
  END;
  Write(n);
  WriteLn;
  Write(steps);
  WriteLn
END Collatz.
