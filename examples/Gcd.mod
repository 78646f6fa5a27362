MODULE Gcd; (* the greatest common divisor of two numbers, by Euclid *)
VAR
  x, y: INTEGER;
  PROCEDURE Gcd(a, b: INTEGER; VAR d: INTEGER);
  BEGIN
    IF b = 0 THEN
      d := a
    ELSE
      Gcd(b, a MOD b, d)
    END
  END Gcd;
BEGIN
  Read(x);
  Read(y);
  Gcd(x, y, x);
  Write(x);
  WriteLn
END Gcd.
