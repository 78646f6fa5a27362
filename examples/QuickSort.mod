MODULE QuickSort; (* sorts eight numbers by recursion, with a procedure inside another *)
CONST
  N = 8;
VAR
  a: ARRAY N OF INTEGER;
  i: INTEGER;
  PROCEDURE Sort(low, high: INTEGER);
  VAR
    i, k, middle: INTEGER;
    PROCEDURE Exchange(VAR x, y: INTEGER);
    VAR
      kept: INTEGER;
    BEGIN
      kept := x;
      x := y;
      y := kept
    END Exchange;
  BEGIN
    i := low;
    k := high;
    middle := a[(low + high) DIV 2];
    REPEAT
      WHILE a[i] < middle DO
        i := i + 1
      END;
      WHILE middle < a[k] DO
        k := k - 1
      END;
      IF i <= k THEN
        Exchange(a[i], a[k]);
        i := i + 1;
        k := k - 1
      END
    UNTIL i > k;
    IF low < k THEN
      Sort(low, k)
    END;
    IF i < high THEN
      Sort(i, high)
    END
  END Sort;
BEGIN
  i := 0;
  REPEAT
    Read(a[i]);
    i := i + 1
  UNTIL i = N;
  Sort(0, N - 1);
  i := 0;
  REPEAT
    Write(a[i]);
    i := i + 1
  UNTIL i = N;
  WriteLn
END QuickSort.
