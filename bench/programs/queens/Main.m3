MODULE Main;
IMPORT IO;
CONST Size = 11;
TYPE
  Line = [0 .. Size - 1];
  Lines = SET OF Line;
  Diagonals = SET OF [0 .. 2 * Size - 2];
VAR ways := 0;
PROCEDURE Place(row: CARDINAL; columns: Lines; rising, falling: Diagonals) =
  BEGIN
    IF row = Size THEN INC(ways); RETURN END;
    FOR c := FIRST(Line) TO LAST(Line) DO
      WITH up = row + c, down = row - c + Size - 1 DO
        IF NOT (c IN columns OR up IN rising OR down IN falling) THEN
          Place(row + 1, columns + Lines{c}, rising + Diagonals{up}, falling + Diagonals{down})
        END
      END
    END
  END Place;
BEGIN
  Place(0, Lines{}, Diagonals{}, Diagonals{});
  IO.PutInt(ways); IO.PutChar('\n')
END Main.
