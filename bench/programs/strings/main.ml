let page first last =
  let buffer = Buffer.create 16 in
  for n = first to last do
    Buffer.add_string buffer (string_of_int n ^ " squared is " ^ string_of_int (n * n));
    Buffer.add_char buffer '\n'
  done;
  Buffer.contents buffer
let () =
  let sum = ref 0 in
  for number = 0 to 399 do
    let text = page (number * 100) (number * 100 + 99) in
    String.iter (fun c -> sum := (!sum * 31 + Char.code c) mod 1000000007) text
  done;
  Printf.printf "%d\n" !sum
