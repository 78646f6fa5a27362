MODULE Primes; (* the primes up to a number, by the sieve of Eratosthenes *)
CONST
  Most = 1000;
VAR
  composite: ARRAY Most + 1 OF BOOLEAN;
  n, i, k: INTEGER;
BEGIN
  Read(n);
  IF n > Most THEN
    n := Most
  END;
  i := 2;
  WHILE i <= n DO
    IF ~composite[i] THEN
      Write(i);
      k := i + i;
      WHILE k <= n DO
        composite[k] := TRUE;
        k := k + i
      END
    END;
    i := i + 1
  END;
  WriteLn
END Primes.
