INTERFACE TextItem;
(* What ArraySort and HashTable ask of texts. A NIL text is the fault Nil. *)

TYPE T = TEXT;

PROCEDURE Compare(a, b: T): INTEGER;
(* -1, 0 or 1, as a stands before b, is the same or stands behind it: by the bytes, and a text before
   those that begin with it. *)

PROCEDURE Equal(a, b: T): BOOLEAN;
(* Whether their characters are the same. *)

PROCEDURE Hash(item: T): INTEGER;

END TextItem.
