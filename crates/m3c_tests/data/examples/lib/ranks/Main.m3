MODULE Main;
(* Numbers and names in order, places in them, and records by one of their fields. *)
IMPORT Fmt, IntegerSort, IO, Runner, RunnerSort, TextSort;

VAR
  numbers := ARRAY [0 .. 8] OF INTEGER{5, -3, 12, 0, 5, 7, -3, 1, 5};
  names := ARRAY [0 .. 4] OF TEXT{"pear", "apple", "fig", "app", ""};
  runners := ARRAY [1 .. 5] OF Runner.T{
    Runner.T{"Ada", 312}, Runner.T{"Grace", 298}, Runner.T{"Alan", 312},
    Runner.T{"Niklaus", 305}, Runner.T{"Edsger", 298}};
  many: ARRAY [0 .. 999] OF INTEGER;

PROCEDURE PutPlace(n: INTEGER) =
  BEGIN
    IO.Put(Fmt.Int(n) & " at " & Fmt.Int(IntegerSort.Find(numbers, n)) & "\n")
  END PutPlace;

BEGIN
  IntegerSort.Sort(numbers);
  FOR i := FIRST(numbers) TO LAST(numbers) DO IO.Put(Fmt.Int(numbers[i]) & " ") END;
  IO.PutChar('\n');
  PutPlace(-3); PutPlace(5); PutPlace(6); PutPlace(13);
  TextSort.Sort(names);
  FOR i := FIRST(names) TO LAST(names) DO IO.Put("<" & names[i] & ">") END;
  IO.PutChar('\n');
  (* Those with the same time stay in their order. *)
  RunnerSort.Sort(runners);
  FOR i := FIRST(runners) TO LAST(runners) DO
    IO.Put(Fmt.Int(runners[i].seconds) & " " & runners[i].name & "\n")
  END;
  FOR i := 0 TO LAST(many) DO many[i] := i * 617 MOD 1000 END;
  IO.Put(Fmt.Bool(IntegerSort.IsSorted(many)));
  IntegerSort.Sort(many);
  IO.Put(" " & Fmt.Bool(IntegerSort.IsSorted(many)) & " " & Fmt.Int(many[499]) & "\n");
  (* A part of an array. *)
  IntegerSort.Sort(SUBARRAY(many, 990, 0));
  many[3] := 0; many[0] := 3;
  IntegerSort.Sort(SUBARRAY(many, 0, 2));
  IO.Put(Fmt.Int(many[0]) & Fmt.Int(many[1]) & Fmt.Int(many[2]) & Fmt.Int(many[3]) & "\n")
END Main.
