MODULE Main;
(* Adds up the numbers of each line `NAME NUMBER ..`, and tells where there is none. *)
IMPORT Fmt, Input, IO;

(* Takes the blanks of this line, and tells whether anything is left on it. *)
PROCEDURE IsMoreOnLine(): BOOLEAN =
  BEGIN
    WHILE NOT Input.AtEnd() AND Input.Peek() = ' ' DO EVAL Input.Next() END;
    RETURN NOT Input.AtEnd() AND Input.Peek() # '\n'
  END IsMoreOnLine;

PROCEDURE Tell(name: TEXT) =
  VAR sum := 0;
  BEGIN
    IO.Put(Fmt.Pad(name, 8, align := Fmt.Align.Left));
    TRY
      WHILE IsMoreOnLine() DO sum := sum + Input.GetInt() END;
      IO.Put(Fmt.Pad(Fmt.Int(sum), 20) & "\n")
    EXCEPT
    | Input.NoNumber => IO.Put("no number at \"" & Input.GetLine() & "\"\n")
    END
  END Tell;

BEGIN
  WHILE Input.Skip() DO Tell(Input.GetWord()) END
END Main.
