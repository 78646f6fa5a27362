MODULE Binary;
VAR
  n: INTEGER;
  PROCEDURE Print(n: INTEGER);
  BEGIN
    IF n > 1 THEN
      Print(n DIV 2)
    END;
    Write(n MOD 2)
  END Print;
BEGIN
  Read(n);
  Print(n);
  WriteLn
END Binary.
