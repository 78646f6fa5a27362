MODULE Matrices; (* the product of two matrices of two rows and two columns *)
CONST
  N = 2;
TYPE
  Matrix = ARRAY N OF ARRAY N OF INTEGER;
VAR
  a, b, c: Matrix;
  PROCEDURE Get(VAR m: Matrix);
  VAR
    i, k: INTEGER;
  BEGIN
    i := 0;
    WHILE i < N DO
      k := 0;
      WHILE k < N DO
        Read(m[i][k]);
        k := k + 1
      END;
      i := i + 1
    END
  END Get;
  PROCEDURE Multiply(a, b: Matrix; VAR c: Matrix);
  VAR
    i, k, j: INTEGER;
  BEGIN
    i := 0;
    WHILE i < N DO
      k := 0;
      WHILE k < N DO
        c[i][k] := 0;
        j := 0;
        WHILE j < N DO
          c[i][k] := c[i][k] + a[i][j] * b[j][k];
          j := j + 1
        END;
        k := k + 1
      END;
      i := i + 1
    END
  END Multiply;
  PROCEDURE Put(m: Matrix);
  VAR
    i, k: INTEGER;
  BEGIN
    i := 0;
    WHILE i < N DO
      k := 0;
      WHILE k < N DO
        Write(m[i][k]);
        k := k + 1
      END;
      WriteLn;
      i := i + 1
    END
  END Put;
BEGIN
  Get(a);
  Get(b);
  Multiply(a, b, c);
  Put(c);
  (* the value parameters are copies, so writing c, which is a here, doesn't change them *)
  Multiply(a, a, a);
  Put(a)
END Matrices.
