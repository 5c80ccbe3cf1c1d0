let room = 16
let total = 300000
let mutex = Mutex.create ()
let changed = Condition.create ()
let items = Array.make room 0
let first = ref 0
let count = ref 0
let produce () =
  for n = 1 to total do
    Mutex.lock mutex;
    while !count = room do Condition.wait changed mutex done;
    items.((!first + !count) mod room) <- n;
    incr count;
    Mutex.unlock mutex;
    Condition.signal changed
  done
let next () =
  Mutex.lock mutex;
  while !count = 0 do Condition.wait changed mutex done;
  let item = items.(!first) in
  first := (!first + 1) mod room;
  decr count;
  Mutex.unlock mutex;
  Condition.signal changed;
  item
let () =
  let producer = Thread.create produce () in
  let sum = ref 0 in
  for _i = 1 to total do sum := (!sum * 31 + next ()) mod 1000000007 done;
  Thread.join producer;
  Printf.printf "%d\n" !sum
