MODULE Power;
VAR
  b, e, p: INTEGER;
  PROCEDURE Power(b, e: INTEGER; VAR p: INTEGER);
  BEGIN
    p := 1;
    WHILE e > 0 DO
      p := b * p;
      e := e - 1
    END
  END Power;
BEGIN
  Read(b);
  Read(e);
  Power(b, e, p);
  Write(p);
  Power(e, b, p);
  Write(p);
  WriteLn
END Power.
