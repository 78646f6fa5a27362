MODULE Fractions; (* records: the sum of two fractions, in lowest terms *)
TYPE
  Fraction = RECORD over, under: INTEGER END;
VAR
  a, b, sum: Fraction;
  PROCEDURE Reduce(VAR f: Fraction);
  VAR
    x, y, rest: INTEGER;
  BEGIN
    x := f.over;
    y := f.under;
    WHILE y # 0 DO
      rest := x MOD y;
      x := y;
      y := rest
    END;
    f.over := f.over DIV x;
    f.under := f.under DIV x
  END Reduce;
  PROCEDURE Add(a, b: Fraction; VAR c: Fraction);
  BEGIN
    c.over := a.over * b.under + b.over * a.under;
    c.under := a.under * b.under;
    Reduce(c)
  END Add;
BEGIN
  Read(a.over);
  Read(a.under);
  Read(b.over);
  Read(b.under);
  Add(a, b, sum);
  Write(sum.over);
  Write(sum.under);
  WriteLn
END Fractions.
