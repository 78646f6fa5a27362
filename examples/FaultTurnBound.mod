MODULE FaultTurnBound; (* a loop that doesn't end: a loop may make at most 100,000 iterations *)
VAR
  i: INTEGER;
BEGIN
  i := 0;
  WHILE i >= 0 DO
    IF i MOD 25000 = 0 THEN
      Write(i)
    END;
    i := i + 1
  END
END FaultTurnBound.
