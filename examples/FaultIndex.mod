MODULE FaultIndex; (* an index outside its array; the last numbers written show how far the loop got *)
CONST
  N = 5;
VAR
  a: ARRAY N OF INTEGER;
  i: INTEGER;
BEGIN
  i := 0;
  WHILE i <= N DO
    Write(i);
    a[i] := i * i;
    i := i + 1
  END;
  WriteLn
END FaultIndex.
