GENERIC INTERFACE ArraySort(Item);
(* Arrays in order. Item must have a type T and a procedure `Compare(a, b: T): INTEGER`, which gives a
   number below 0 where a stands before b, one above 0 where it stands behind b, and else 0. What
   Compare raises or meets ends the call. *)

PROCEDURE Sort(VAR items: ARRAY OF Item.T);
(* Puts them in order, in at most about n log n calls of Compare. Of items of which none stands
   before the other the order stays. It takes room in the heap for as many items. *)

PROCEDURE IsSorted(READONLY items: ARRAY OF Item.T): BOOLEAN;
(* Whether none stands before the one on its left. *)

PROCEDURE Find(READONLY items: ARRAY OF Item.T; READONLY item: Item.T): CARDINAL;
(* Of items in order, the number of those that stand before the given one: so its place, where it is
   among them. It halves what is left, so it calls Compare about log n times. *)

END ArraySort.
