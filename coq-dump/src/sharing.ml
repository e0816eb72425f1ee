(* Terms that repeat are written once.

   The text of a term has no sharing, and large proofs have about ten times as many nodes as distinct ones. So where a text is too large, each subterm that repeats below some binders and names no variable
   that is bound further inside is bound by a let there: a conversion, by which nothing but the text's size changes. Fixpoints stay as they are, since a guard looks at terms as written. *)
open Constr

(* A subterm with what is shared by equal ones: its number, and the bytes of its text, about. *)
type node = {
  term : constr;
  id : int;
  at : int;      (* the binders above it, inside the scope *)
  reach : int;   (* how many of these it needs *)
  bytes : int;
  parts : (int * node) list; (* with the binders above each; none of a fixpoint *)
}

(* A term's parts with the binders above each, and the term with other parts in their places. *)
let parts_of t =
  match kind t with
  | Cast (c, _, _) -> [0, c]
  | Prod (_, a, b) | Lambda (_, a, b) -> [0, a; 1, b]
  | LetIn (_, v, a, b) -> [0, v; 0, a; 1, b]
  | App (f, args) -> (0, f) :: List.map (fun a -> 0, a) (Array.to_list args)
  | Case (_, _, params, (names, ret), NoInvert, scrutinee, branches) ->
    let branch (names, body) = Array.length names, body in
    List.map (fun p -> 0, p) (Array.to_list params) @ [Array.length names, ret; 0, scrutinee] @ List.map branch (Array.to_list branches)
  | _ -> []

let with_parts t parts =
  match kind t, parts with
  | Cast _, [c] -> c
  | Prod (na, _, _), [a; b] -> mkProd (na, a, b)
  | Lambda (na, _, _), [a; b] -> mkLambda (na, a, b)
  | LetIn (na, _, _, _), [v; a; b] -> mkLetIn (na, v, a, b)
  | App _, f :: args -> mkApp (f, Array.of_list args)
  | Case (ci, u, params, (names, _), iv, _, branches), parts ->
    let params, rest = CList.chop (Array.length params) parts in
    (match rest with
     | ret :: scrutinee :: bodies -> mkCase (ci, u, Array.of_list params, (names, ret), iv, scrutinee, Array.map2 (fun (names, _) body -> names, body) branches (Array.of_list bodies))
     | _ -> t)
  | _ -> t

let leaf_bytes t =
  match kind t with
  | Const (c, _) -> 10 + String.length (Names.Label.to_string (Names.Constant.label c))
  | Ind ((m, _), _) -> 10 + String.length (Names.Label.to_string (Names.MutInd.label m))
  | Construct (((m, _), _), _) -> 18 + String.length (Names.Label.to_string (Names.MutInd.label m))
  | Sort _ -> 20
  | _ -> 9

let rec text_bytes t =
  match kind t with
  | Fix (_, (_, types, bodies)) -> Array.fold_left (fun sum t -> sum + text_bytes t) 40 (Array.append types bodies)
  | _ -> match parts_of t with [] -> leaf_bytes t | parts -> List.fold_left (fun sum (_, t) -> sum + 1 + text_bytes t) 12 parts

(* ------------------------------------------------------------------ equal subterms of a scope *)

(* What a node is made of, with numbers for its parts: nodes that need no binder around them are equal where they have the same. *)
type shape =
  | Leaf of constr            (* in the scope's surroundings *)
  | Bound of int              (* a variable that is bound inside the scope *)
  | Made of constr * int list

module Shapes = Hashtbl.Make (struct
  type t = shape
  (* a node's own former, without its parts *)
  let same_head s t =
    match kind s, kind t with
    | App _, App _ | Prod _, Prod _ | Lambda _, Lambda _ | LetIn _, LetIn _ | Cast _, Cast _ -> true
    | Case (ci, u, p, (n, _), _, _, _), Case (ci', u', p', (n', _), _, _, _) ->
      Names.Ind.CanOrd.equal ci.ci_ind ci'.ci_ind && Univ.Instance.equal u u' && Array.length p = Array.length p' && Array.length n = Array.length n'
    | _ -> false
  let equal a b =
    match a, b with
    | Leaf s, Leaf t -> Constr.equal s t
    | Bound i, Bound j -> i = j
    | Made (s, ids), Made (t, ids') -> same_head s t && List.equal Int.equal ids ids'
    | _ -> false
  let hash = function
    | Leaf t -> Constr.hash t
    | Bound i -> i
    | Made (_, ids) -> List.fold_left (fun sum id -> (sum * 65599) + id) 17 ids land max_int
end)

(* The tree of a scope's body. A variable of the scope's surroundings is numbered by what it is there, whatever binders lie between. *)
let tree_of body =
  let numbers = Shapes.create 997 and count = ref 0 in
  let number shape =
    match Shapes.find_opt numbers shape with
    | Some id -> id
    | None -> incr count; Shapes.add numbers shape !count; !count in
  let made at ?(parts = []) ~bytes ~reach term shape = { term; id = number shape; at; reach; bytes; parts } in
  let rec node at t =
    match kind t, parts_of t with
    | Rel i, _ -> made at ~bytes:9 ~reach:(if i > at then 0 else i) t (if i > at then Leaf (mkRel (i - at)) else Bound i)
    | _, [] when Vars.noccur_between 1 at t -> made at ~bytes:(text_bytes t) ~reach:0 t (Leaf (Vars.lift (- at) t))
    | _, [] -> incr count; { term = t; id = !count; at; reach = at; bytes = text_bytes t; parts = [] }
    | _, parts ->
      let parts = List.map (fun (n, part) -> n, node (at + n) part) parts in
      let reach = List.fold_left (fun most (n, part) -> max most (part.reach - n)) 0 parts in
      let bytes = List.fold_left (fun sum (_, part) -> sum + 1 + part.bytes) 12 parts in
      made at ~parts ~bytes ~reach t (Made (t, List.map (fun (_, part) -> part.id) parts)) in
  node 0 body

(* ------------------------------------------------------------------ what is worth a let *)

let least_bytes = 60 and most_lets = 120

(* The nodes that repeat, each after those inside it, with the number of their uses. *)
let repeated root =
  let uses = Hashtbl.create 997 and order = ref [] in
  let rec meet node =
    let may_be_bound = node.reach = 0 && node.parts <> [] && node.bytes >= least_bytes in
    match if may_be_bound then Hashtbl.find_opt uses node.id else None with
    | Some times -> incr times
    | None ->
      if may_be_bound then Hashtbl.add uses node.id (ref 1);
      List.iter (fun (_, part) -> meet part) node.parts;
      if may_be_bound then order := node :: !order in
  meet root;
  let times node = !(Hashtbl.find uses node.id) in
  let saved node = (times node - 1) * node.bytes in
  let found = List.filter (fun node -> times node > 1) (List.rev !order) in
  let best = CList.firstn (min most_lets (List.length found)) (List.sort (fun a b -> Int.compare (saved b) (saved a)) found) in
  let is_best = Hashtbl.create 97 in
  List.iter (fun node -> Hashtbl.replace is_best node.id ()) best;
  List.map (fun node -> node, times node) (List.filter (fun node -> Hashtbl.mem is_best node.id) found)

(* ------------------------------------------------------------------ the term with lets *)

(* The term of a node under [count] lets and then [depth] binders, with a variable for each node that is bound: [bound] has the lets' places. [from]: binders of the scope that are left out above. *)
let rec rebuilt bound count ~from depth node =
  match if node.reach = 0 then Hashtbl.find_opt bound node.id else None with
  | Some place -> mkRel (depth + count - place)
  | None ->
    if node.parts = [] then Vars.liftn (count - from) (depth + 1) node.term
    else with_parts node.term (List.map (fun (n, part) -> rebuilt bound count ~from (depth + n) part) node.parts)

let named = Context.annotR (Names.Name (Names.Id.of_string "s"))

(* Whether a term of this type is a type outside Prop, or makes one: a let would ask more of its levels. *)
let rec is_large ty = match kind ty with Sort s -> not (Sorts.is_prop s) | Prod (_, _, b) -> is_large b | _ -> false

(* The term without its outermost [count] lets. *)
let rec put_in count t =
  if count = 0 then t else match kind t with LetIn (_, v, _, b) -> put_in (count - 1) (Vars.subst1 v b) | _ -> t

(* The body of a scope with lets for what repeats in it, and nothing done inside. *)
let with_lets env sigma body =
  let root = tree_of body in
  let bound = Hashtbl.create 97 in
  let add (env, count, lets) (node, times) =
    let value = rebuilt bound count ~from:node.at 0 node in
    match EConstr.to_constr sigma (Retyping.get_type_of env sigma (EConstr.of_constr value)) with
    | ty when not (is_large ty) && (times - 1) * text_bytes value > text_bytes ty + 40 ->
      Hashtbl.add bound node.id count;
      Environ.push_rel (Context.Rel.Declaration.LocalDef (named, value, ty)) env, count + 1, (value, ty) :: lets
    | _ -> env, count, lets
    | exception e when CErrors.noncritical e -> env, count, lets in
  let _, count, lets = List.fold_left add (env, 0, []) (repeated root) in
  let result = List.fold_left (fun body (value, ty) -> mkLetIn (named, value, ty, body)) (rebuilt bound count ~from:0 0 root) lets in
  if not (Constr.equal (put_in count result) body) then Textname.refuse "a term with lets isn't the term";
  Notes.shared := !Notes.shared + count;
  result

let least_scope = 400

(* The term with lets at each scope: below the binders of a lambda or of a branch, from the outermost inwards. *)
let rec shared env sigma t =
  let inside env t = EConstr.of_constr (shared env sigma (EConstr.Unsafe.to_constr t)) in
  match kind t with
  | Fix _ -> t
  | Lambda (na, a, b) ->
    mkLambda (na, shared env sigma a, below (Environ.push_rel (Context.Rel.Declaration.LocalAssum (na, a)) env) sigma b)
  | Prod _ -> t
  | Case _ ->
    let depth = List.length (Environ.rel_context env) in
    let part env t = if List.length (Environ.rel_context env) = depth then inside env t else EConstr.of_constr (below env sigma (EConstr.Unsafe.to_constr t)) in
    EConstr.Unsafe.to_constr (Termops.map_constr_with_full_binders env sigma EConstr.push_rel part env (EConstr.of_constr t))
  | _ -> EConstr.Unsafe.to_constr (Termops.map_constr_with_full_binders env sigma EConstr.push_rel inside env (EConstr.of_constr t))

and below env sigma t =
  match kind t with
  | Lambda _ -> shared env sigma t
  | _ -> if text_bytes t < least_scope then t else shared env sigma (with_lets env sigma t)

(* The closed term with what repeats bound by lets. *)
let term env t = if !Options.current.Options.lets then below env (Evd.from_env env) t else t
