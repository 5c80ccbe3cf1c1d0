let fill a = for i = 0 to Array.length a - 1 do a.(i) <- i mod 1000 done
let sum a =
  let s = ref 0 in
  for i = 0 to Array.length a - 1 do s := !s + a.(i) done;
  !s
let () =
  let numbers = Array.make 100000 0 and total = ref 0 in
  fill numbers;
  for _turn = 1 to 100 do total := !total + sum numbers done;
  Printf.printf "%d\n" !total
