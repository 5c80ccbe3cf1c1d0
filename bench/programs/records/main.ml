type order = { customer : int; amount : int; number : int }
let count = 100000
let seed = ref 1
let random below =
  seed := (!seed * 16807) mod 2147483647;
  !seed mod below
let compare a b =
  if a.customer <> b.customer then a.customer - b.customer else b.amount - a.amount
let merge compare items room first middle last =
  let left = ref first and right = ref middle in
  for i = first to last - 1 do room.(i) <- items.(i) done;
  for i = first to last - 1 do
    if !right = last || !left < middle && compare room.(!left) room.(!right) <= 0 then begin
      items.(i) <- room.(!left); incr left
    end else begin
      items.(i) <- room.(!right); incr right
    end
  done
let rec sort_within compare items room first last =
  if last - first >= 2 then begin
    let middle = (first + last) / 2 in
    sort_within compare items room first middle;
    sort_within compare items room middle last;
    merge compare items room first middle last
  end
let () =
  let orders = Array.init count (fun number ->
    let customer = random 1000 in
    let amount = random 100000 in
    { customer; amount; number }) in
  sort_within compare orders (Array.copy orders) 0 count;
  let sum = ref 0 in
  Array.iter (fun o -> sum := (!sum * 31 + o.amount + o.customer) mod 1000000007) orders;
  ignore orders.(0).number;
  Printf.printf "%d\n" !sum
