MODULE Main;
IMPORT IO;
PROCEDURE Fib(n: INTEGER): INTEGER =
  BEGIN
    IF n < 2 THEN RETURN n END;
    RETURN Fib(n - 1) + Fib(n - 2)
  END Fib;
BEGIN
  IO.PutInt(Fib(32)); IO.PutChar('\n')
END Main.
