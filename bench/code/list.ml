(* a list of so many numbers, built and summed, ten times *)
let rec build n = if n = 0 then [] else let rest = build (n - 1) in n :: rest

let rec sum list = match list with [] -> 0 | first :: rest -> first + sum rest

let () =
  let n = int_of_string Sys.argv.(1) in
  let total = ref 0 in
  for _ = 1 to 10 do
    total := !total + sum (build n)
  done;
  Printf.printf "%d\n" !total
