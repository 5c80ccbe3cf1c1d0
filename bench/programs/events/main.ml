class virtual event = object
  method virtual time : int
  method virtual happen : int
end
class queue (nothing : event) = object
  val events = Array.make 2000 nothing
  val mutable count = 0
  method put (event : event) =
    let place = ref count and is_found = ref false in
    count <- count + 1;
    while not !is_found && !place > 0 do
      let above = (!place - 1) / 2 in
      if events.(above)#time <= event#time then is_found := true
      else begin
        events.(!place) <- events.(above);
        place := above
      end
    done;
    events.(!place) <- event
  method take =
    let first = events.(0) and place = ref 0 and is_found = ref false in
    count <- count - 1;
    let last = events.(count) in
    while not !is_found do
      let left = 2 * !place + 1 in
      if left >= count then is_found := true
      else begin
        let below =
          if left + 1 < count && events.(left + 1)#time < events.(left)#time then left + 1
          else left in
        if last#time <= events.(below)#time then is_found := true
        else begin
          events.(!place) <- events.(below);
          place := below
        end
      end
    done;
    events.(!place) <- last;
    first
end
let nothing = object
  method time = 0
  method happen = 0
end
let queue = new queue nothing
let seed = ref 1
let random below =
  seed := (!seed * 16807) mod 2147483647;
  !seed mod below
let rec arrival at : event = object
  method time = at
  method happen =
    let length = random 50 in
    queue#put (service (at + length) length);
    1
end
and service at length : event = object
  method time = at
  method happen =
    queue#put (arrival (at + random 100));
    length
end
let () =
  for _i = 1 to 1000 do queue#put (arrival (random 1000)) done;
  let sum = ref 0 in
  for _i = 1 to 200000 do
    let event = queue#take in
    sum := (!sum * 31 + event#time + event#happen) mod 1000000007
  done;
  Printf.printf "%d\n" !sum
