MODULE Aliases; (* VAR parameters can make two names for one variable *)
VAR
  x, y: INTEGER;
  a: ARRAY 3 OF INTEGER;
  PROCEDURE Both(VAR u, v: INTEGER; w: INTEGER);
  BEGIN
    u := u + 1;
    v := v * 10;
    Write(u);
    Write(v);
    Write(w);
    WriteLn
  END Both;
BEGIN
  x := 2;
  y := 5;
  Both(x, y, x);
  (* now u and v are both x, and w is a copy *)
  Both(x, x, x);
  Write(x);
  WriteLn;
  (* the element is fixed at the call: i changes nothing there *)
  x := 1;
  Both(x, a[x], a[x]);
  Write(a[0]);
  Write(a[1]);
  Write(a[2]);
  WriteLn
END Aliases.
