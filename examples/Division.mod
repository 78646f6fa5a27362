MODULE Division; (* DIV rounds down, and MOD is never negative; signs and parentheses *)
CONST
  Seven = 7;
  Minus = -Seven;
VAR
  d: INTEGER;
BEGIN
  Read(d);
  Write(Seven DIV d);
  Write(Seven MOD d);
  WriteLn;
  Write(Minus DIV d);
  Write(Minus MOD d);
  WriteLn;
  (* a sign belongs to the whole term: this is -(7 DIV d) *)
  Write(-Seven DIV d);
  WriteLn
END Division.
