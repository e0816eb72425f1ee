(* Sorts in the form that the dump writes: without parts of a universe that say nothing, with SProp as Prop and Set as a level of its own where that is chosen. *)
open Constr

(* The level that stands for Set where Set is written as one. *)
let small = Univ.Level.make (Univ.UGlobal.make (Names.DirPath.make [Names.Id.of_string "ErasecDump"]) "" 0)

let is_small_chosen () = !Options.current.Options.small
let is_strict_chosen () = !Options.current.Options.strict

let level l = if is_small_chosen () && Univ.Level.is_set l then small else l

let unchanged l = l

let raised (l, n) =
  let rec up u n = if n = 0 then u else up (Univ.Universe.super u) (n - 1) in
  up (Univ.Universe.make l) n

let maximum parts = List.fold_left Univ.Universe.sup (raised (List.hd parts)) (List.map raised (List.tl parts))

let says_nothing (l, n) = Univ.Level.is_set l && n = 0

(* max (Set, u) is u, since each level is above Set. *)
let without_set u =
  let parts = Univ.Universe.repr u in
  match List.filter (fun part -> not (says_nothing part)) parts with
  | [] -> u
  | others -> if List.length others = List.length parts then u else maximum others

(* The universe with each of its levels changed. *)
let with_levels change u =
  let parts = Univ.Universe.repr u in
  if List.for_all (fun (l, _) -> change l == l) parts then u else maximum (List.map (fun (l, n) -> change l, n) parts)

let changed_type s u u' = if u == u' then s else Sorts.sort_of_univ u'

(* The sort as it is written; [change] is made in its levels besides. *)
let sort ?(change = unchanged) s =
  match s with
  | Sorts.SProp when is_strict_chosen () -> Notes.sprop := true; Sorts.prop
  | Sorts.Set when is_small_chosen () -> Sorts.sort_of_univ (Univ.Universe.make small)
  | Sorts.Type u ->
    let kept = if is_small_chosen () then u else without_set u in
    changed_type s u (with_levels (fun l -> change (level l)) kept)
  | _ -> s

(* The sort of a template polymorphic family: what its arguments need of the levels is found by typing it, so Set needn't stand there. *)
let template_sort s =
  match s with
  | Sorts.Type u -> sort (changed_type s u (without_set u))
  | _ -> sort s

(* Coq marks a match into SProp as irrelevant; into Prop it isn't. *)
let of_case ci =
  if is_strict_chosen () && ci.ci_relevance = Sorts.Irrelevant then { ci with ci_relevance = Sorts.Relevant } else ci

let instance change u =
  let levels = Univ.Instance.to_array u in
  let levels' = CArray.Smart.map (fun l -> change (level l)) levels in
  if levels == levels' then u else Univ.Instance.of_array levels'

let term ?(change = unchanged) t =
  let instance = instance change in
  let rec go t = match kind t with
    | Sort s -> let s' = sort ~change s in if s == s' then t else mkSort s'
    | Const (c, u) -> let u' = instance u in if u == u' then t else mkConstU (c, u')
    | Ind (i, u) -> let u' = instance u in if u == u' then t else mkIndU (i, u')
    | Construct (c, u) -> let u' = instance u in if u == u' then t else mkConstructU (c, u')
    | Case (ci, u, params, ret, inversion, scrutinee, branches) when of_case ci != ci || instance u != u ->
      Constr.map go (mkCase (of_case ci, instance u, params, ret, inversion, scrutinee, branches))
    | _ -> Constr.map go t in
  go t
