MODULE Main;
IMPORT IO, Order, OrderSorting;
CONST Count = 100000;
VAR
  orders := NEW(REF ARRAY OF Order.T, Count);
  seed := 1; sum := 0;
PROCEDURE Random(below: INTEGER): INTEGER =
  BEGIN
    seed := (seed * 16807) MOD 2147483647;
    RETURN seed MOD below
  END Random;
BEGIN
  FOR i := 0 TO Count - 1 DO
    WITH customer = Random(1000), amount = Random(100000) DO
      orders[i] := NEW(Order.T, customer := customer, amount := amount, number := i)
    END
  END;
  OrderSorting.Sort(orders^);
  FOR i := 0 TO Count - 1 DO
    sum := (sum * 31 + orders[i].amount + orders[i].customer) MOD 1000000007
  END;
  IO.PutInt(sum); IO.PutChar('\n')
END Main.
