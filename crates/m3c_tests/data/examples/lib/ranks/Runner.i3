INTERFACE Runner;

TYPE T = RECORD name: TEXT; seconds: CARDINAL END;

PROCEDURE Compare(a, b: T): INTEGER;
(* By the seconds alone. *)

END Runner.
