MODULE Votes;
CONST
  N = 5;
VAR
  votes: ARRAY N + 1 OF INTEGER;
  x, i, most: INTEGER;
BEGIN
  Read(x);
  WHILE x # 0 DO
    IF (1 <= x) & (x <= N) THEN
      votes[x] := votes[x] + 1
    END;
    Read(x)
  END;
  i := 1;
  most := 1;
  WHILE i <= N DO
    IF votes[i] > votes[most] THEN
      most := i
    END;
    Write(votes[i]);
    i := i + 1
  END;
  WriteLn;
  Write(most);
  WriteLn
END Votes.
