MODULE Nearest;
CONST
  Most = 20;
TYPE
  Point = RECORD x, y: INTEGER END;
VAR
  points: ARRAY Most OF Point;
  n, i, k, distance, least: INTEGER;
  first, second: Point;
  PROCEDURE Square(p, q: Point; VAR result: INTEGER);
  BEGIN
    result := (p.x - q.x) * (p.x - q.x) + (p.y - q.y) * (p.y - q.y)
  END Square;
  PROCEDURE Print(p: Point);
  BEGIN
    Write(p.x);
    Write(p.y);
    WriteLn
  END Print;
BEGIN
  Read(n);
  i := 0;
  WHILE i < n DO
    Read(points[i].x);
    Read(points[i].y);
    k := 0;
    WHILE k < i DO
      Square(points[k], points[i], distance);
      IF (i = 1) OR (distance < least) THEN
        least := distance;
        first := points[k];
        second := points[i]
      END;
      k := k + 1
    END;
    i := i + 1
  END;
  Print(first);
  Print(second)
END Nearest.
