type cell = { mutable heat : int; mutable flow : int }
let n = 120
let grid = Array.init n (fun i -> Array.init n (fun j -> i * j mod 97))
and next = Array.make_matrix n n 0
and cells = Array.init n (fun _ -> { heat = 0; flow = 0 })
and total = ref 0
let () =
  for _turn = 1 to 50 do
    for i = 1 to n - 2 do
      for j = 1 to n - 2 do
        next.(i).(j) <-
          (grid.(i - 1).(j) + grid.(i + 1).(j) + grid.(i).(j - 1) + grid.(i).(j + 1)) / 4
      done
    done;
    for i = 1 to n - 2 do
      for j = 1 to n - 2 do grid.(i).(j) <- next.(i).(j) done
    done;
    for i = 0 to n - 1 do
      cells.(i).heat <- grid.(i).(i);
      cells.(i).flow <- cells.(i).heat - i
    done
  done;
  Array.iter (fun c -> total := !total + c.heat + c.flow) cells;
  Printf.printf "%d\n" !total
