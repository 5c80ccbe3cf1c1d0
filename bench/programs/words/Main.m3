MODULE Main;
IMPORT IO, Fmt, TextToInteger;
VAR
  counts := TextToInteger.New();
  seed := 1; sum := 0; count: INTEGER;
PROCEDURE Word(): TEXT =
  BEGIN
    seed := (seed * 16807) MOD 2147483647;
    RETURN "word" & Fmt.Int(seed MOD 5000)
  END Word;
PROCEDURE Count(word: TEXT) =
  VAR count := 0;
  BEGIN
    EVAL counts.get(word, count);
    counts.put(word, count + 1)
  END Count;
BEGIN
  FOR i := 1 TO 400000 DO Count(Word()) END;
  FOR i := 0 TO 4999 DO
    count := 0;
    EVAL counts.get("word" & Fmt.Int(i), count);
    sum := (sum * 31 + count) MOD 1000000007
  END;
  IO.PutInt(counts.size()); IO.PutChar(' '); IO.PutInt(sum); IO.PutChar('\n')
END Main.
