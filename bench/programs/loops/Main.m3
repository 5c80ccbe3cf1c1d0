MODULE Main;
IMPORT IO;
PROCEDURE Sum(): INTEGER =
  VAR sum := 0;
  BEGIN
    FOR i := 1 TO 3000 DO
      FOR j := 1 TO 3000 DO
        sum := (sum + i * j DIV 7 + j MOD 11) MOD 1000003
      END
    END;
    RETURN sum
  END Sum;
BEGIN
  IO.PutInt(Sum()); IO.PutChar('\n')
END Main.
