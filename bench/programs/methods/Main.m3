MODULE Main;
IMPORT IO;
TYPE
  Shape = OBJECT METHODS area(): INTEGER; grow(by: INTEGER) END;
  Square = Shape OBJECT side := 1 OVERRIDES area := SquareArea; grow := SquareGrow END;
  Strip = Shape OBJECT length := 1 OVERRIDES area := StripArea; grow := StripGrow END;
PROCEDURE SquareArea(self: Square): INTEGER =
  BEGIN RETURN self.side * self.side END SquareArea;
PROCEDURE SquareGrow(self: Square; by: INTEGER) =
  BEGIN self.side := (self.side + by) MOD 1000 END SquareGrow;
PROCEDURE StripArea(self: Strip): INTEGER =
  BEGIN RETURN self.length END StripArea;
PROCEDURE StripGrow(self: Strip; by: INTEGER) =
  BEGIN self.length := self.length + 2 * by END StripGrow;
VAR shapes: ARRAY [0..9] OF Shape;
PROCEDURE Total(turns: INTEGER): INTEGER =
  VAR total := 0;
  BEGIN
    FOR turn := 1 TO turns DO
      FOR i := 0 TO 9 DO
        shapes[i].grow(i);
        total := (total + shapes[i].area()) MOD 1000003
      END
    END;
    RETURN total
  END Total;
BEGIN
  FOR i := 0 TO 9 DO
    IF i MOD 2 = 0 THEN shapes[i] := NEW(Square) ELSE shapes[i] := NEW(Strip) END
  END;
  IO.PutInt(Total(200000)); IO.PutChar('\n')
END Main.
