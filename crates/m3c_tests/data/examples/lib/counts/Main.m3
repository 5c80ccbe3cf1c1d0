MODULE Main;
(* How often each word of the input comes: in the order in which they came, and the most frequent
   ones first. *)
IMPORT Fmt, Input, IO, Tally, TallySort, TextToInteger;

VAR counts := TextToInteger.New();

PROCEDURE Count(word: TEXT) =
  VAR n := 0;
  BEGIN
    EVAL counts.get(word, n);
    counts.put(word, n + 1)
  END Count;

PROCEDURE Put(word: TEXT; n: INTEGER) =
  BEGIN IO.Put(Fmt.Pad(Fmt.Int(n), 3) & " " & word & "\n") END Put;

PROCEDURE PutAll() =
  VAR words := counts.iterate(); word: TEXT; n: INTEGER;
  BEGIN
    WHILE words.next(word, n) DO Put(word, n) END
  END PutAll;

PROCEDURE PutMostFrequent(most: CARDINAL) =
  VAR
    tallies := NEW(REF ARRAY OF Tally.T, counts.size());
    words := counts.iterate();
    i := 0;
  BEGIN
    WHILE i < counts.size() AND words.next(tallies[i].word, tallies[i].count) DO INC(i) END;
    TallySort.Sort(tallies^);
    FOR place := 0 TO MIN(most, NUMBER(tallies^)) - 1 DO
      Put(tallies[place].word, tallies[place].count)
    END
  END PutMostFrequent;

BEGIN
  WHILE Input.Skip() DO Count(Input.GetWord()) END;
  IO.PutInt(counts.size()); IO.Put(" words\n");
  PutAll();
  IO.Put("most frequent:\n");
  PutMostFrequent(3);
  IO.Put(Fmt.Bool(counts.delete("the")) & " " & Fmt.Bool(counts.delete("the")) & " "
         & Fmt.Int(counts.size()) & "\n");
  PutMostFrequent(2)
END Main.
