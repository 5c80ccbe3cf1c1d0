MODULE IntegerItem;

PROCEDURE Compare(a, b: T): INTEGER =
  BEGIN RETURN ORD(a > b) - ORD(a < b) END Compare;

PROCEDURE Equal(a, b: T): BOOLEAN =
  BEGIN RETURN a = b END Equal;

PROCEDURE Hash(item: T): INTEGER =
  BEGIN RETURN item END Hash;

BEGIN
END IntegerItem.
