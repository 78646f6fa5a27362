MODULE Reverse;
VAR
  a: ARRAY 50 OF INTEGER;
  n, i: INTEGER;
BEGIN
  Read(n);
  i := 0;
  WHILE i < n DO
    Read(a[i]);
    i := i + 1
  END;
  WHILE i > 0 DO
    i := i - 1;
    Write(a[i])
  END;
  WriteLn
END Reverse.
