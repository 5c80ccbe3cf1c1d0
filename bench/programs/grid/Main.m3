MODULE Main;
IMPORT IO;
CONST N = 120;
TYPE Cell = RECORD heat, flow: INTEGER END;
VAR grid, next: ARRAY [0..N - 1] OF ARRAY [0..N - 1] OF INTEGER;
    cells: ARRAY [0..N - 1] OF Cell; total := 0;
BEGIN
  FOR i := 0 TO N - 1 DO
    FOR j := 0 TO N - 1 DO grid[i, j] := i * j MOD 97 END
  END;
  FOR turn := 1 TO 50 DO
    FOR i := 1 TO N - 2 DO
      FOR j := 1 TO N - 2 DO
        next[i, j] := (grid[i - 1, j] + grid[i + 1, j] + grid[i, j - 1] + grid[i, j + 1]) DIV 4
      END
    END;
    FOR i := 1 TO N - 2 DO
      FOR j := 1 TO N - 2 DO grid[i, j] := next[i, j] END
    END;
    FOR i := 0 TO N - 1 DO cells[i].heat := grid[i, i]; cells[i].flow := cells[i].heat - i END
  END;
  FOR i := 0 TO N - 1 DO INC(total, cells[i].heat + cells[i].flow) END;
  IO.PutInt(total); IO.PutChar('\n')
END Main.
