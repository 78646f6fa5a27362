MODULE Leap;
VAR
  year: INTEGER;
BEGIN
  Read(year);
  IF (year MOD 4 = 0) & (year MOD 100 # 0) OR (year MOD 400 = 0) THEN
    Write(1)
  ELSE
    Write(0)
  END;
  WriteLn
END Leap.
