GENERIC MODULE Sorting(Item);
PROCEDURE Merge(VAR items, room: ARRAY OF Item.T; first, middle, last: INTEGER) =
  VAR left := first; right := middle;
  BEGIN
    FOR i := first TO last - 1 DO room[i] := items[i] END;
    FOR i := first TO last - 1 DO
      IF right = last OR left < middle AND Item.Compare(room[left], room[right]) <= 0 THEN
        items[i] := room[left]; INC(left)
      ELSE
        items[i] := room[right]; INC(right)
      END
    END
  END Merge;
PROCEDURE SortWithin(VAR items, room: ARRAY OF Item.T; first, last: INTEGER) =
  VAR middle := (first + last) DIV 2;
  BEGIN
    IF last - first < 2 THEN RETURN END;
    SortWithin(items, room, first, middle);
    SortWithin(items, room, middle, last);
    Merge(items, room, first, middle, last)
  END SortWithin;
PROCEDURE Sort(VAR items: ARRAY OF Item.T) =
  VAR room := NEW(REF ARRAY OF Item.T, NUMBER(items));
  BEGIN SortWithin(items, room^, 0, NUMBER(items)) END Sort;
BEGIN
END Sorting.
