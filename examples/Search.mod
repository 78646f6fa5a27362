MODULE Search; (* binary search in a sorted array; -1 if it doesn't contain the number *)
CONST
  N = 10;
VAR
  a: ARRAY N OF INTEGER;
  i, x, count: INTEGER;
  PROCEDURE Find(x: INTEGER; VAR at: INTEGER);
  VAR
    low, high, middle: INTEGER;
  BEGIN
    low := 0;
    high := N;
    WHILE low < high DO
      middle := (low + high) DIV 2;
      IF a[middle] < x THEN
        low := middle + 1
      ELSE
        high := middle
      END
    END;
    (* low is N if all numbers are smaller; a[low] isn't evaluated then *)
    IF (low < N) & (a[low] = x) THEN
      at := low
    ELSE
      at := -1
    END
  END Find;
BEGIN
  i := 0;
  WHILE i < N DO
    a[i] := i * i;
    i := i + 1
  END;
  Read(count);
  WHILE count > 0 DO
    Read(x);
    Find(x, i);
    Write(i);
    count := count - 1
  END;
  WriteLn
END Search.
