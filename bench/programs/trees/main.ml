type tree = Leaf | Node of tree * tree
let rec build depth =
  if depth = 0 then Node (Leaf, Leaf) else
  let left = build (depth - 1) in
  let right = build (depth - 1) in
  Node (left, right)
let rec count = function
  | Leaf | Node (Leaf, _) -> 1
  | Node (left, right) -> 1 + count left + count right
let () =
  let nodes = ref 0 in
  for _turn = 1 to 60 do nodes := !nodes + count (build 14) done;
  Printf.printf "%d\n" !nodes
