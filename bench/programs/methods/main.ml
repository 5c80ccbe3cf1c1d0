class virtual shape = object
  method virtual area : int
  method virtual grow : int -> unit
end
class square = object
  inherit shape
  val mutable side = 1
  method area = side * side
  method grow by = side <- (side + by) mod 1000
end
class strip = object
  inherit shape
  val mutable length = 1
  method area = length
  method grow by = length <- length + 2 * by
end
let shapes = Array.init 10 (fun i -> if i mod 2 = 0 then (new square :> shape) else new strip)
let total turns =
  let sum = ref 0 in
  for _turn = 1 to turns do
    for i = 0 to 9 do
      shapes.(i)#grow i;
      sum := (!sum + shapes.(i)#area) mod 1000003
    done
  done;
  !sum
let () = Printf.printf "%d\n" (total 200000)
