(* so many numbers put into a red-black tree, and their sum *)
type colour = Red | Black
type tree = Leaf | Node of colour * tree * int * tree

let balance = function
  | Black, Node (Red, Node (Red, a, x, b), y, c), z, d
  | Black, Node (Red, a, x, Node (Red, b, y, c)), z, d
  | Black, a, x, Node (Red, Node (Red, b, y, c), z, d)
  | Black, a, x, Node (Red, b, y, Node (Red, c, z, d)) ->
      Node (Red, Node (Black, a, x, b), y, Node (Black, c, z, d))
  | colour, left, x, right -> Node (colour, left, x, right)

let rec put t x =
  match t with
  | Leaf -> Node (Red, Leaf, x, Leaf)
  | Node (colour, left, y, right) ->
      if x < y then balance (colour, put left x, y, right)
      else if y < x then balance (colour, left, y, put right x)
      else t

let blacken = function Leaf -> Leaf | Node (_, left, x, right) -> Node (Black, left, x, right)

let rec total = function Leaf -> 0 | Node (_, left, x, right) -> x + total left + total right

let () =
  let tree = ref Leaf in
  for i = int_of_string Sys.argv.(1) - 1 downto 0 do
    tree := blacken (put !tree (i * 7919 mod 65536))
  done;
  Printf.printf "%d\n" (total !tree)
