(* so many thousands of RISC-V branches, decoded, and the sum of their fields *)
let decode word =
  let halves =
    (word lsr 8) land 15 lor (((word lsr 25) land 63) lsl 4) lor (((word lsr 7) land 1) lsl 10) lor (((word lsr 31) land 1) lsl 11)
  in
  halves + ((word lsr 12) land 7) + ((word lsr 15) land 31) + ((word lsr 20) land 31)

let () =
  let sum = ref 0 in
  for first = int_of_string Sys.argv.(1) - 1 downto 0 do
    for seed = first to first + 999 do
      let word = seed * 2654435761 land 0xFFFFFF80 lor 99 in
      sum := !sum + decode word
    done
  done;
  Printf.printf "%d\n" !sum
