MODULE Main;
IMPORT IO;
TYPE Cell = REF RECORD value: INTEGER; next: Cell END;
VAR old, kept, garbage: Cell;
PROCEDURE Old() = BEGIN FOR i := 1 TO 150000 DO old := NEW(Cell, value := i, next := old) END END Old;
PROCEDURE Turn() =
  BEGIN
    kept := NIL;
    FOR i := 1 TO 800 DO
      FOR j := 1 TO 99 DO garbage := NEW(Cell, value := j) END;
      kept := NEW(Cell, value := i, next := kept)
    END
  END Turn;
BEGIN
  Old();
  FOR k := 1 TO 60 DO Turn() END;
  IO.PutInt(kept.value); IO.PutChar('\n')
END Main.
