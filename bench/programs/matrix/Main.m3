MODULE Main;
IMPORT IO;
CONST N = 120;
TYPE Matrix = REF ARRAY OF ARRAY OF INTEGER;
PROCEDURE Product(a, b, c: Matrix) =
  VAR sum: INTEGER;
  BEGIN
    FOR i := 0 TO N - 1 DO
      FOR j := 0 TO N - 1 DO
        sum := 0;
        FOR k := 0 TO N - 1 DO sum := sum + a[i, k] * b[k, j] END;
        c[i, j] := sum MOD 1000003
      END
    END
  END Product;
VAR a := NEW(Matrix, N, N); b := NEW(Matrix, N, N); c := NEW(Matrix, N, N); trace := 0;
BEGIN
  FOR i := 0 TO N - 1 DO
    FOR j := 0 TO N - 1 DO a[i, j] := i + j; b[i, j] := i * j MOD 17 END
  END;
  FOR turn := 1 TO 3 DO Product(a, b, c); Product(c, b, a) END;
  FOR i := 0 TO N - 1 DO INC(trace, a[i, i]) END;
  IO.PutInt(trace); IO.PutChar('\n')
END Main.
