MODULE FaultInputEnd; (* reads four numbers, but the input has only three *)
VAR
  n, sum, i: INTEGER;
BEGIN
  sum := 0;
  i := 0;
  WHILE i < 4 DO
    Read(n);
    sum := sum + n;
    Write(sum);
    i := i + 1
  END
END FaultInputEnd.
