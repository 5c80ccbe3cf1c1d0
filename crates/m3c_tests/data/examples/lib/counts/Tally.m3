MODULE Tally;
IMPORT IntegerItem, TextItem;

PROCEDURE Compare(a, b: T): INTEGER =
  VAR order := IntegerItem.Compare(b.count, a.count);
  BEGIN
    IF order = 0 THEN order := TextItem.Compare(a.word, b.word) END;
    RETURN order
  END Compare;

BEGIN
END Tally.
