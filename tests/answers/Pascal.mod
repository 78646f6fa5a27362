MODULE Pascal;
CONST
  Most = 20;
VAR
  row: ARRAY Most OF INTEGER;
  n, i, k: INTEGER;
BEGIN
  Read(n);
  WHILE i < n DO
    row[i] := 1;
    k := i - 1;
    WHILE k > 0 DO
      row[k] := row[k] + row[k - 1];
      k := k - 1
    END;
    k := 0;
    WHILE k <= i DO
      Write(row[k]);
      k := k + 1
    END;
    WriteLn;
    i := i + 1
  END
END Pascal.
