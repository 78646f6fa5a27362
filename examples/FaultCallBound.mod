MODULE FaultCallBound; (* a recursion that doesn't end: at most 64 calls may be open *)
VAR
  depth: INTEGER;
  PROCEDURE Down;
  BEGIN
    depth := depth + 1;
    IF depth MOD 16 = 0 THEN
      Write(depth)
    END;
    Down
  END Down;
BEGIN
  depth := 0;
  Down
END FaultCallBound.
