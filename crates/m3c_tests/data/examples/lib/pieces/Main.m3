MODULE Main;
(* A line is put together, changed, cut and taken; then a thousand pieces make one text. *)
IMPORT IO, Text, TextBuffer;

VAR
  line := TextBuffer.New();
  long := TextBuffer.New();
  text: TEXT;

BEGIN
  TextBuffer.PutText(line, "the moving heap");
  TextBuffer.PutChar(line, ',');
  TextBuffer.PutText(line, " seen from outside");
  TextBuffer.Print(line); IO.PutChar('\n');
  TextBuffer.SetChar(line, 0, 'T');
  TextBuffer.Cut(line, 15);
  text := TextBuffer.ToText(line);
  TextBuffer.PutText(line, " again");
  IO.Put(text & "|" & TextBuffer.ToText(line) & "\n");
  FOR i := 1 TO 1000 DO TextBuffer.PutText(long, "abc"); TextBuffer.PutChar(long, '.') END;
  text := TextBuffer.ToText(long);
  IO.PutInt(Text.Length(text)); IO.Put(" characters, the last ones ");
  IO.Put(Text.Sub(text, 3994) & "\n");
  TextBuffer.Cut(long, 2);
  IO.PutInt(TextBuffer.Length(long)); IO.PutChar(TextBuffer.GetChar(long, 1)); IO.PutChar('\n')
END Main.
