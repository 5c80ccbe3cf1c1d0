let counts : (string, int) Hashtbl.t = Hashtbl.create 8
let seed = ref 1
let word () =
  seed := (!seed * 16807) mod 2147483647;
  "word" ^ string_of_int (!seed mod 5000)
let found word = try Hashtbl.find counts word with Not_found -> 0
let count word = Hashtbl.replace counts word (found word + 1)
let () =
  for _i = 1 to 400000 do count (word ()) done;
  let sum = ref 0 in
  for i = 0 to 4999 do
    sum := (!sum * 31 + found ("word" ^ string_of_int i)) mod 1000000007
  done;
  Printf.printf "%d %d\n" (Hashtbl.length counts) !sum
