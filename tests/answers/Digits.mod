MODULE Digits;
VAR
  n, count, sum: INTEGER;
BEGIN
  Read(n);
  REPEAT
    count := count + 1;
    sum := sum + n MOD 10;
    n := n DIV 10
  UNTIL n = 0;
  Write(count);
  Write(sum);
  WriteLn
END Digits.
