let n = 120
let product a b c =
  for i = 0 to n - 1 do
    for j = 0 to n - 1 do
      let sum = ref 0 in
      for k = 0 to n - 1 do sum := !sum + a.(i).(k) * b.(k).(j) done;
      c.(i).(j) <- !sum mod 1000003
    done
  done
let () =
  let a = Array.init n (fun i -> Array.init n (fun j -> i + j))
  and b = Array.init n (fun i -> Array.init n (fun j -> i * j mod 17))
  and c = Array.make_matrix n n 0 and trace = ref 0 in
  for _turn = 1 to 3 do product a b c; product c b a done;
  for i = 0 to n - 1 do trace := !trace + a.(i).(i) done;
  Printf.printf "%d\n" !trace
