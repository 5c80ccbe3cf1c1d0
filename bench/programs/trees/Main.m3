MODULE Main;
IMPORT IO;
TYPE Tree = REF RECORD left, right: Tree END;
PROCEDURE Build(depth: INTEGER): Tree =
  BEGIN
    IF depth = 0 THEN RETURN NEW(Tree) END;
    RETURN NEW(Tree, left := Build(depth - 1), right := Build(depth - 1))
  END Build;
PROCEDURE Count(tree: Tree): INTEGER =
  BEGIN
    IF tree.left = NIL THEN RETURN 1 END;
    RETURN 1 + Count(tree.left) + Count(tree.right)
  END Count;
VAR nodes := 0;
BEGIN
  FOR turn := 1 TO 60 DO INC(nodes, Count(Build(14))) END;
  IO.PutInt(nodes); IO.PutChar('\n')
END Main.
