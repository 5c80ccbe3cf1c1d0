INTERFACE Tally;

TYPE T = RECORD word: TEXT; count: INTEGER END;

PROCEDURE Compare(a, b: T): INTEGER;
(* The larger count first, and words of one count by their bytes. *)

END Tally.
