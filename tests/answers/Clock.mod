MODULE Clock;
VAR
  t: INTEGER;
BEGIN
  Read(t);
  Write(t DIV 3600);
  Write(t DIV 60 MOD 60);
  Write(t MOD 60);
  WriteLn
END Clock.
