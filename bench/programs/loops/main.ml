let total () =
  let sum = ref 0 in
  for i = 1 to 3000 do
    for j = 1 to 3000 do
      sum := (!sum + i * j / 7 + j mod 11) mod 1000003
    done
  done;
  !sum
let () = Printf.printf "%d\n" (total ())
