GENERIC INTERFACE Sorting(Item);
PROCEDURE Sort(VAR items: ARRAY OF Item.T);
END Sorting.
