MODULE Input;
IMPORT IO, TextBuffer;

CONST Blanks = SET OF CHAR{' ', '\t', '\r', '\n'};

VAR
  isAhead := FALSE;  (* whether a character was looked at that nobody took yet *)
  ahead: CHAR;

PROCEDURE AtEnd(): BOOLEAN =
  BEGIN RETURN NOT isAhead AND IO.EOF() END AtEnd;

PROCEDURE Peek(): CHAR =
  BEGIN
    IF NOT isAhead THEN ahead := IO.GetChar(); isAhead := TRUE END;
    RETURN ahead
  END Peek;

PROCEDURE Next(): CHAR =
  VAR c := Peek();
  BEGIN isAhead := FALSE; RETURN c END Next;

PROCEDURE Skip(): BOOLEAN =
  BEGIN
    WHILE NOT AtEnd() AND Peek() IN Blanks DO EVAL Next() END;
    RETURN NOT AtEnd()
  END Skip;

PROCEDURE GetWord(): TEXT =
  VAR word := TextBuffer.New();
  BEGIN
    IF Skip() THEN
      WHILE NOT AtEnd() AND NOT Peek() IN Blanks DO TextBuffer.PutChar(word, Next()) END
    END;
    RETURN TextBuffer.ToText(word)
  END GetWord;

PROCEDURE IsDigitNext(): BOOLEAN =
  BEGIN RETURN NOT AtEnd() AND '0' <= Peek() AND Peek() <= '9' END IsDigitNext;

PROCEDURE GetInt(): INTEGER RAISES {NoNumber} =
  VAR n := 0; sign := 1;
  BEGIN
    IF NOT Skip() THEN RAISE NoNumber END;
    CASE Peek() OF
    | '-' => sign := -1; EVAL Next()
    | '+' => EVAL Next()
    ELSE
    END;
    IF NOT IsDigitNext() THEN RAISE NoNumber END;
    REPEAT
      WITH digit = ORD(Next()) - ORD('0') DO
        (* It grows away from 0 on its own side, since the least INTEGER has no opposite. *)
        IF sign > 0 AND n > (LAST(INTEGER) - digit) DIV 10
           OR sign < 0 AND n < (FIRST(INTEGER) + digit + 9) DIV 10 THEN
          WHILE IsDigitNext() DO EVAL Next() END;
          RAISE NoNumber
        END;
        n := 10 * n + sign * digit
      END
    UNTIL NOT IsDigitNext();
    RETURN n
  END GetInt;

PROCEDURE GetLine(): TEXT =
  VAR line := TextBuffer.New();
  BEGIN
    WHILE NOT AtEnd() DO
      WITH c = Next() DO
        IF c = '\n' THEN EXIT END;
        TextBuffer.PutChar(line, c)
      END
    END;
    RETURN TextBuffer.ToText(line)
  END GetLine;

BEGIN
END Input.
