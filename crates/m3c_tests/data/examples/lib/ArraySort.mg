GENERIC MODULE ArraySort(Item);

(* Merges the halves of items, each of which is in order. They are read from a copy. *)
PROCEDURE Merge(VAR items: ARRAY OF Item.T; READONLY copy: ARRAY OF Item.T) =
  VAR n := NUMBER(items); half := n DIV 2; left := 0; right := half;
  BEGIN
    FOR i := 0 TO n - 1 DO
      IF right = n OR left < half AND Item.Compare(copy[left], copy[right]) <= 0 THEN
        items[i] := copy[left]; INC(left)
      ELSE
        items[i] := copy[right]; INC(right)
      END
    END
  END Merge;

PROCEDURE SortWithin(VAR items, room: ARRAY OF Item.T) =
  VAR n := NUMBER(items); half := n DIV 2;
  BEGIN
    IF n < 2 THEN RETURN END;
    SortWithin(SUBARRAY(items, 0, half), room);
    SortWithin(SUBARRAY(items, half, n - half), room);
    WITH copy = SUBARRAY(room, 0, n) DO
      copy := items;
      Merge(items, copy)
    END
  END SortWithin;

PROCEDURE Sort(VAR items: ARRAY OF Item.T) =
  VAR room := NEW(REF ARRAY OF Item.T, NUMBER(items));
  BEGIN SortWithin(items, room^) END Sort;

PROCEDURE IsSorted(READONLY items: ARRAY OF Item.T): BOOLEAN =
  BEGIN
    FOR i := 1 TO LAST(items) DO
      IF Item.Compare(items[i], items[i - 1]) < 0 THEN RETURN FALSE END
    END;
    RETURN TRUE
  END IsSorted;

PROCEDURE Find(READONLY items: ARRAY OF Item.T; READONLY item: Item.T): CARDINAL =
  VAR first := 0; last := NUMBER(items);
  BEGIN
    (* Those before first stand before the item, and those from last on don't. *)
    WHILE first < last DO
      WITH middle = (first + last) DIV 2 DO
        IF Item.Compare(items[middle], item) < 0 THEN first := middle + 1 ELSE last := middle END
      END
    END;
    RETURN first
  END Find;

BEGIN
END ArraySort.
