INTERFACE TextBuffer;
(* Texts that are put together piece by piece. `t := t & u` copies the whole of t each time; a buffer
   makes room ahead, so that n characters cost a number of steps in proportion to n. A NIL buffer
   or text is the fault Nil, and a place at or past the length the fault Index. *)

TYPE T <: REFANY;

PROCEDURE New(): T;
(* An empty buffer. *)

PROCEDURE PutChar(buffer: T; c: CHAR);
PROCEDURE PutText(buffer: T; text: TEXT);
(* Each adds behind what is there. *)

PROCEDURE Length(buffer: T): CARDINAL;
(* The number of its characters. *)

PROCEDURE GetChar(buffer: T; place: CARDINAL): CHAR;
PROCEDURE SetChar(buffer: T; place: CARDINAL; c: CHAR);
(* The character at a place, counted from 0, read and replaced. *)

PROCEDURE Cut(buffer: T; length: CARDINAL);
(* Drops what stands behind the first characters. A buffer of that length or less stays as it is. *)

PROCEDURE ToText(buffer: T): TEXT;
(* What it holds, as one text. *)

PROCEDURE Print(buffer: T);
(* What it holds, as output, without a text of it. *)

END TextBuffer.
