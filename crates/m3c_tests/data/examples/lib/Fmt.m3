MODULE Fmt;
IMPORT Text, Word;

CONST Digits = ARRAY [0 .. 15] OF CHAR{'0', '1', '2', '3', '4', '5', '6', '7',
                                       '8', '9', 'a', 'b', 'c', 'd', 'e', 'f'};

PROCEDURE Unsigned(n: INTEGER; base: Base): TEXT =
  VAR text := "";
  BEGIN
    REPEAT
      text := Text.FromChar(Digits[Word.Mod(n, base)]) & text;
      n := Word.Divide(n, base)
    UNTIL n = 0;
    RETURN text
  END Unsigned;

PROCEDURE Int(n: INTEGER; base: Base): TEXT =
  BEGIN
    IF n >= 0 THEN RETURN Unsigned(n, base) END;
    (* Without a sign, so that the least INTEGER doesn't overflow. *)
    RETURN "-" & Unsigned(Word.Minus(0, n), base)
  END Int;

PROCEDURE Bool(b: BOOLEAN): TEXT =
  BEGIN
    IF b THEN RETURN "TRUE" ELSE RETURN "FALSE" END
  END Bool;

PROCEDURE Char(c: CHAR): TEXT =
  BEGIN RETURN Text.FromChar(c) END Char;

(* A text n times. *)
PROCEDURE Repeated(text: TEXT; n: CARDINAL): TEXT =
  VAR all := "";
  BEGIN
    WHILE n > 0 DO
      IF n MOD 2 = 1 THEN all := all & text END;
      text := text & text;
      n := n DIV 2
    END;
    RETURN all
  END Repeated;

PROCEDURE Pad(text: TEXT; length: CARDINAL; filling: CHAR; align: Align): TEXT =
  VAR missing := length - Text.Length(text);
  BEGIN
    IF missing <= 0 THEN RETURN text END;
    WITH space = Repeated(Text.FromChar(filling), missing) DO
      CASE align OF
      | Align.Left => RETURN text & space
      | Align.Right => RETURN space & text
      END
    END
  END Pad;

BEGIN
END Fmt.
