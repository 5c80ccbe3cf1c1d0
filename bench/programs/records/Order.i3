INTERFACE Order;
TYPE T = REF RECORD customer, amount, number: INTEGER END;
PROCEDURE Compare(a, b: T): INTEGER;
END Order.
