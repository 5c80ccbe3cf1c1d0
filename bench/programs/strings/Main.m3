MODULE Main;
IMPORT IO, Text, TextBuffer, Fmt;
PROCEDURE Page(first, last: INTEGER): TEXT =
  VAR buffer := TextBuffer.New();
  BEGIN
    FOR n := first TO last DO
      TextBuffer.PutText(buffer, Fmt.Int(n) & " squared is " & Fmt.Int(n * n));
      TextBuffer.PutChar(buffer, '\n')
    END;
    RETURN TextBuffer.ToText(buffer)
  END Page;
VAR sum := 0;
BEGIN
  FOR page := 0 TO 399 DO
    WITH text = Page(page * 100, page * 100 + 99) DO
      FOR i := 0 TO Text.Length(text) - 1 DO
        sum := (sum * 31 + ORD(Text.GetChar(text, i))) MOD 1000000007
      END
    END
  END;
  IO.PutInt(sum); IO.PutChar('\n')
END Main.
