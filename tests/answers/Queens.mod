MODULE Queens;
CONST
  Most = 8;
VAR
  n, count: INTEGER;
  column: ARRAY Most OF BOOLEAN;
  up, down: ARRAY 2 * Most OF BOOLEAN;
  PROCEDURE Place(row: INTEGER);
  VAR
    c: INTEGER;
  BEGIN
    IF row = n THEN
      count := count + 1
    ELSE
      c := 0;
      WHILE c < n DO
        IF ~column[c] & ~up[row + c] & ~down[row - c + n] THEN
          column[c] := TRUE;
          up[row + c] := TRUE;
          down[row - c + n] := TRUE;
          Place(row + 1);
          column[c] := FALSE;
          up[row + c] := FALSE;
          down[row - c + n] := FALSE
        END;
        c := c + 1
      END
    END
  END Place;
BEGIN
  Read(n);
  Place(0);
  Write(count);
  WriteLn
END Queens.
