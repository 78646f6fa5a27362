MODULE HanoiRepeat; (* the same moves by REPEAT: the trailing zero bits of m give the disk that move m takes *)
VAR
  disks, m, moves, disk, rest, from, step: INTEGER;
  place: ARRAY 11 OF INTEGER;
BEGIN
  Read(disks);
  moves := 1;
  m := disks;
  REPEAT
    moves := moves * 2;
    m := m - 1
  UNTIL m <= 0;
  m := 0;
  REPEAT
    m := m + 1;
    disk := 0;
    rest := m;
    WHILE rest MOD 2 = 0 DO
      rest := rest DIV 2;
      disk := disk + 1
    END;
    (* each disk goes round in one direction, every other disk in the other *)
    IF (disks - disk) MOD 2 = 1 THEN
      step := 2
    ELSE
      step := 1
    END;
    from := place[disk];
    place[disk] := (from + step) MOD 3;
    Write(from + 1);
    Write(place[disk] + 1);
    WriteLn
  UNTIL m = moves - 1
END HanoiRepeat.
