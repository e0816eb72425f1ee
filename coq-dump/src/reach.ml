(* The constraints between some levels that a graph of universes gives, up to transitivity.

   As Coq's own `UGraph.constraints_for`, which walks every path of the graph and takes many seconds where large libraries are loaded. Here what was visited is marked, so the walk from a
   level is linear in what it reaches. *)
open Univ

type graph = { nodes : UGraph.node Level.Map.t }

let of_graph graph = { nodes = UGraph.repr graph }

(* The one level that stands for those that the graph makes equal. *)
let rec canonical graph l =
  match Level.Map.find_opt l graph.nodes with Some (UGraph.Alias l') -> canonical graph l' | _ -> l

let above graph l = match Level.Map.find_opt l graph.nodes with Some (UGraph.Node next) -> next | _ -> Level.Map.empty

module Table = Hashtbl.Make (struct type t = Level.t let equal = Level.equal let hash = Level.hash end)

(* Visits each canonical level above this one, told whether it is strictly above; at the kept ones the walk ends. *)
let walk graph ~ends start visit =
  let visited = Table.create 97 in
  let rec go strict l =
    let l = canonical graph l in
    let is_new = match Table.find_opt visited l with None -> true | Some was_strict -> strict && not was_strict in
    if is_new then begin
      Table.replace visited l strict;
      if not (Level.equal l start) then visit strict l;
      if Level.equal l start || not (ends l) then Level.Map.iter (fun next is_strict -> go (strict || is_strict) next) (above graph l)
    end in
  go false start

(* The kept levels by their canonical one: the first of each class, and the equalities of the others with it. *)
let classes graph kept =
  let add l (firsts, equal) =
    let c = canonical graph l in
    match Level.Map.find_opt c firsts with
    | Some first -> firsts, Constraints.add (l, Eq, first) equal
    | None -> Level.Map.add c l firsts, equal in
  Level.Set.fold add kept (Level.Map.empty, Constraints.empty)

let constraints_for ~kept graph =
  let graph = of_graph graph in
  let firsts, equal = classes graph kept in
  let from c first found =
    let found = ref found in
    walk graph ~ends:(fun l -> Level.Map.mem l firsts) c (fun strict l ->
      match Level.Map.find_opt l firsts with
      | Some other -> found := Constraints.add (first, (if strict then Lt else Le), other) !found
      | None -> ());
    !found in
  Level.Map.fold from firsts equal
