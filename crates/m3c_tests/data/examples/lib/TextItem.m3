MODULE TextItem;
IMPORT Text, Word;

PROCEDURE Compare(a, b: T): INTEGER =
  VAR lengthA := Text.Length(a); lengthB := Text.Length(b);
  BEGIN
    FOR i := 0 TO MIN(lengthA, lengthB) - 1 DO
      WITH x = Text.GetChar(a, i), y = Text.GetChar(b, i) DO
        IF x # y THEN RETURN ORD(x > y) - ORD(x < y) END
      END
    END;
    RETURN ORD(lengthA > lengthB) - ORD(lengthA < lengthB)
  END Compare;

PROCEDURE Equal(a, b: T): BOOLEAN =
  BEGIN RETURN Text.Equal(a, b) END Equal;

PROCEDURE Hash(item: T): INTEGER =
  VAR hash := 5381;
  BEGIN
    FOR i := 0 TO Text.Length(item) - 1 DO
      hash := Word.Plus(Word.Times(hash, 33), ORD(Text.GetChar(item, i)))
    END;
    RETURN hash
  END Hash;

BEGIN
END TextItem.
