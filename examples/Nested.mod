MODULE Nested; (* nested procedures: an inner one sees the variables of the activation that it was declared in *)
VAR
  x: INTEGER;
  PROCEDURE Outer(n: INTEGER);
  VAR
    x: INTEGER;
    PROCEDURE Inner;
    BEGIN
      x := x + n;
      Write(x)
    END Inner;
  BEGIN
    x := 10 * n;
    IF n > 1 THEN
      Outer(n - 1)
    END;
    Inner;
    Inner;
    WriteLn
  END Outer;
BEGIN
  x := 7;
  Outer(3);
  Write(x);
  WriteLn
END Nested.
