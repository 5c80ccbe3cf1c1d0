INTERFACE Fmt;
(* Numbers, truth values and characters as texts. No call has a fault but for a NIL text, which is
   the fault Nil. *)

TYPE
  Base = [2 .. 16];
  Align = {Left, Right};

PROCEDURE Int(n: INTEGER; base: Base := 10): TEXT;
(* n in a base, without leading zeros, with a minus sign where it is below 0. The digits above 9 are
   small letters. *)

PROCEDURE Unsigned(n: INTEGER; base: Base := 16): TEXT;
(* The 64 bits of n as a number from 0 to 2^64 - 1, in a base. *)

PROCEDURE Bool(b: BOOLEAN): TEXT;
(* TRUE or FALSE. *)

PROCEDURE Char(c: CHAR): TEXT;
(* The text of this one character. *)

PROCEDURE Pad(text: TEXT; length: CARDINAL; filling := ' '; align := Align.Right): TEXT;
(* The text, filled up to a length: before it where it is to stand at the right, behind it else. A
   text of that length or more stays as it is. *)

END Fmt.
