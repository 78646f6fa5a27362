MODULE InsertionSort; (* reads a count and then as many numbers, and writes them in order *)
CONST
  Most = 100;
TYPE
  Numbers = ARRAY Most OF INTEGER;
VAR
  a: Numbers;
  count, i: INTEGER;
  PROCEDURE Sort(VAR a: Numbers; count: INTEGER);
  VAR
    i, k, x: INTEGER;
  BEGIN
    i := 1;
    WHILE i < count DO
      x := a[i];
      k := i;
      (* if k is 0, the right side of & isn't evaluated *)
      WHILE (k > 0) & (a[k - 1] > x) DO
        a[k] := a[k - 1];
        k := k - 1
      END;
      a[k] := x;
      i := i + 1
    END
  END Sort;
BEGIN
  Read(count);
  i := 0;
  WHILE i < count DO
    Read(a[i]);
    i := i + 1
  END;
  Sort(a, count);
  i := 0;
  WHILE i < count DO
    Write(a[i]);
    i := i + 1
  END;
  WriteLn
END InsertionSort.
