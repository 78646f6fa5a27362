MODULE Total;
VAR
  x, count, sum: INTEGER;
BEGIN
  Read(x);
  WHILE x # 0 DO
    count := count + 1;
    sum := sum + x;
    Read(x)
  END;
  Write(count);
  Write(sum);
  WriteLn
END Total.
