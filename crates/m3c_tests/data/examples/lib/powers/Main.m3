MODULE Main;
(* A table of powers, and the bits of numbers. *)
IMPORT Fmt, IO;

CONST Widths = ARRAY [1 .. 4] OF CARDINAL{3, 6, 9, 12};

PROCEDURE PutPowers(n: INTEGER) =
  VAR power := 1;
  BEGIN
    FOR i := FIRST(Widths) TO LAST(Widths) DO
      power := power * n;
      IO.Put(Fmt.Pad(Fmt.Int(power), Widths[i]))
    END;
    IO.PutChar('\n')
  END PutPowers;

PROCEDURE PutBases(n: INTEGER) =
  BEGIN
    IO.Put(Fmt.Pad(Fmt.Int(n), 22, '.', Fmt.Align.Left) & Fmt.Int(n, 16) & " "
           & Fmt.Unsigned(n) & "\n")
  END PutBases;

BEGIN
  PutPowers(1); PutPowers(12); PutPowers(-5);
  PutBases(0); PutBases(255); PutBases(-1); PutBases(FIRST(INTEGER)); PutBases(LAST(INTEGER));
  IO.Put("16_2b is " & Fmt.Int(16_2b) & ", in bits " & Fmt.Pad(Fmt.Int(16_2b, 2), 8, '0') & "\n");
  IO.Put(Fmt.Bool(16_2b = 43) & Fmt.Char('!') & " " & Fmt.Pad("long enough", 4) & "\n")
END Main.
