(* sets of small numbers as the bits of integers *)
let size = 11
let ways = ref 0
let has set n = (set lsr n) land 1 <> 0
let rec place row columns rising falling =
  if row = size then incr ways
  else
    for c = 0 to size - 1 do
      let up = row + c and down = row - c + size - 1 in
      if not (has columns c || has rising up || has falling down) then
        place (row + 1) (columns lor (1 lsl c)) (rising lor (1 lsl up)) (falling lor (1 lsl down))
    done
let () =
  place 0 0 0 0;
  Printf.printf "%d\n" !ways
