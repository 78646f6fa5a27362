MODULE Hanoi; (* the Towers of Hanoi by recursion: writes from which peg to which peg each disk moves *)
VAR
  disks: INTEGER;
  PROCEDURE Move(disks, from, to, over: INTEGER);
  BEGIN
    IF disks > 0 THEN
      Move(disks - 1, from, over, to);
      Write(from);
      Write(to);
      WriteLn;
      Move(disks - 1, over, to, from)
    END
  END Move;
BEGIN
  Read(disks);
  Move(disks, 1, 3, 2)
END Hanoi.
