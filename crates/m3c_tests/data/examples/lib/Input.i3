INTERFACE Input;
(* The program's input in words, numbers and lines. It looks one character ahead, so a program that
   uses it takes nothing by IO.GetChar. Blanks are spaces, tabs and the ends of lines. *)

EXCEPTION NoNumber;
(* What stands there is no number, or one outside of INTEGER. *)

PROCEDURE AtEnd(): BOOLEAN;
(* Whether no character is left. *)

PROCEDURE Peek(): CHAR;
(* The next character, which stays. At the end it is the fault Index. *)

PROCEDURE Next(): CHAR;
(* The next character, which is taken. At the end it is the fault Index. *)

PROCEDURE Skip(): BOOLEAN;
(* Takes the blanks that come next, and tells whether anything stands behind them. *)

PROCEDURE GetWord(): TEXT;
(* Takes the blanks that come next and the word behind them, up to a blank or the end. At the end of
   the input the word is empty. *)

PROCEDURE GetInt(): INTEGER RAISES {NoNumber};
(* Takes the blanks that come next, a sign if there is one, and decimal digits, as many as there are.
   It raises NoNumber where no digit comes behind the blanks and the sign, and where the number is
   outside of INTEGER. *)

PROCEDURE GetLine(): TEXT;
(* Takes the rest of the line with its end, and gives it without. At the end of the input it is
   empty. *)

END Input.
