MODULE Order;
PROCEDURE Compare(a, b: T): INTEGER =
  BEGIN
    IF a.customer # b.customer THEN RETURN a.customer - b.customer END;
    RETURN b.amount - a.amount
  END Compare;
BEGIN
END Order.
