MODULE Largest;
VAR
  n, x, largest: INTEGER;
BEGIN
  Read(n);
  Read(largest);
  WHILE n > 1 DO
    Read(x);
    IF x > largest THEN
      largest := x
    END;
    n := n - 1
  END;
  Write(largest);
  WriteLn
END Largest.
