MODULE Main;
IMPORT IO;
TYPE Numbers = REF ARRAY OF INTEGER;
PROCEDURE Fill(a: Numbers) =
  BEGIN
    FOR i := 0 TO LAST(a^) DO a[i] := i MOD 1000 END
  END Fill;
PROCEDURE Sum(a: Numbers): INTEGER =
  VAR sum := 0;
  BEGIN
    FOR i := 0 TO LAST(a^) DO INC(sum, a[i]) END;
    RETURN sum
  END Sum;
VAR numbers := NEW(Numbers, 100000); total := 0;
BEGIN
  Fill(numbers);
  FOR turn := 1 TO 100 DO INC(total, Sum(numbers)) END;
  IO.PutInt(total); IO.PutChar('\n')
END Main.
