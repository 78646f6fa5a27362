MODULE FaultDivisor; (* a divisor must be at least 1 *)
VAR
  d: INTEGER;
BEGIN
  d := 3;
  WHILE d >= -3 DO
    Write(60 DIV d);
    d := d - 1
  END
END FaultDivisor.
