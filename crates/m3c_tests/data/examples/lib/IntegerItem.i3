INTERFACE IntegerItem;
(* What ArraySort and HashTable ask of whole numbers. *)

TYPE T = INTEGER;

PROCEDURE Compare(a, b: T): INTEGER;
(* -1, 0 or 1, as a is less than b, the same or more. *)

PROCEDURE Equal(a, b: T): BOOLEAN;

PROCEDURE Hash(item: T): INTEGER;

END IntegerItem.
