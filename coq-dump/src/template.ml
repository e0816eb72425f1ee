(* Families whose levels Coq finds anew at each use, which the format lacks: template polymorphic ones, and cumulative ones.

   A dump begins with one copy of a template's levels, or with one for each declaration or each use. Where there are more, the family is polymorphic in its levels while
   these are searched for (`levels.ml`), each use at levels of its own; those that can be one are joined, and the family is written once for each that stays. *)
open Names
open Constr
open Declarations

type t = {
  env : Environ.env;
  sharing : Options.sharing;
  copied : (string, Univ.Level.t) Hashtbl.t;                     (* of a template's level the one copy *)
  originals : (string, Univ.Level.t) Hashtbl.t;
  instances : (KerName.t * KerName.t, Univ.Instance.t) Hashtbl.t; (* of a declaration and a family *)
  parameters : (KerName.t, parameters) Hashtbl.t;
  named : (KerName.t * string, Univ.Level.t) Hashtbl.t;           (* of a declaration and a template's level that it names *)
  all : Univ.Level.Set.t Lazy.t;                                 (* the levels of all templates *)
  mutable fresh : Univ.Level.Set.t;                              (* all levels that were made *)
}

(* The levels in which a family is polymorphic: its own, and then those of the families that it names. *)
and parameters = {
  own : Univ.Level.t array;
  inner : (MutInd.t * int) list; (* a family that it names, and where its levels begin *)
  count : int;
  originals_of : Univ.Level.t array;
}

let levels_of_templates env =
  let add _ block found = match block.mind_template with
    | Some template -> Univ.Level.Set.union (fst template.template_context) found
    | None -> found in
  Environ.fold_inductives add env Univ.Level.Set.empty

let start env sharing =
  { env; sharing; copied = Hashtbl.create 17; originals = Hashtbl.create 17; instances = Hashtbl.create 97; parameters = Hashtbl.create 17;
    named = Hashtbl.create 17; all = lazy (levels_of_templates env); fresh = Univ.Level.Set.empty }

let made = ref 0

let fresh t original =
  incr made;
  let level = Univ.Level.make (Univ.UGlobal.make (DirPath.make [Id.of_string "ErasecDump"]) "" !made) in
  Hashtbl.add t.originals (Univ.Level.to_string level) original;
  t.fresh <- Univ.Level.Set.add level t.fresh;
  level

let copy_of t l =
  let key = Univ.Level.to_string l in
  match Hashtbl.find_opt t.copied key with
  | Some copy -> copy
  | None -> let copy = fresh t l in Hashtbl.add t.copied key copy; copy

(* The level that a declaration has for a level that one of its terms names. *)
let level_in t owner l =
  if not (Univ.Level.Set.mem l (Lazy.force t.all)) then l
  else
    let key = owner, Univ.Level.to_string l in
    match Hashtbl.find_opt t.named key with
    | Some own -> own
    | None -> let own = fresh t l in Hashtbl.add t.named key own; own

let original_of t l = Option.default l (Hashtbl.find_opt t.originals (Univ.Level.to_string l))

(* ------------------------------------------------------------------ one copy *)

let substitution t template =
  Univ.Level.Set.fold (fun l found -> Univ.Level.Map.add l (copy_of t l) found) (fst template.template_context) Univ.Level.Map.empty

(* A template's own constraints, on the copies of its levels. *)
let copied_constraints t template = Univ.subst_univs_level_constraints (substitution t template) (snd template.template_context)

(* ------------------------------------------------------------------ several copies *)

let has_copies t = t.sharing <> Options.One

(* Whether the family's levels are found anew at each use. *)
let is_copied t m =
  has_copies t && Environ.mem_mind m t.env &&
  let block = Environ.lookup_mind m t.env in
  block.mind_template <> None || block.mind_variance <> None

let rec fold_families f found term =
  match kind term with
  | Ind ((m, _), _) | Construct (((m, _), _), _) -> f found m
  | Case (ci, _, _, _, _, _, _) -> Constr.fold (fold_families f) (f found (fst ci.ci_ind)) term
  | _ -> Constr.fold (fold_families f) found term

let terms_of_declaration = function
  | Context.Rel.Declaration.LocalAssum (_, ty) -> [ty]
  | Context.Rel.Declaration.LocalDef (_, v, ty) -> [v; ty]

let terms_of_block block =
  let of_context context = List.concat_map terms_of_declaration context in
  let of_family family =
    of_context family.mind_arity_ctxt @ List.concat_map (fun (context, t) -> t :: of_context context) (Array.to_list family.mind_nf_lc) in
  List.concat_map of_family (Array.to_list block.mind_packets)

let own_levels block =
  match block.mind_template with
  | Some template -> Array.of_list (Univ.Level.Set.elements (fst template.template_context))
  | None -> Univ.Instance.to_array (Univ.make_abstract_instance (Declareops.inductive_polymorphic_context block))

let rec parameters_of t m =
  let key = MutInd.canonical m in
  match Hashtbl.find_opt t.parameters key with
  | Some found -> found
  | None ->
    let block = Environ.lookup_mind m t.env in
    let own = own_levels block in
    let add found m' =
      let is_known = List.exists (fun (other, _, _) -> MutInd.CanOrd.equal m' other) (snd found) in
      if MutInd.CanOrd.equal m m' || is_known || not (is_copied t m') then found
      else
        let inner = parameters_of t m' in
        fst found + inner.count, (m', fst found, inner) :: snd found in
    let count, inner = List.fold_left (fold_families add) (Array.length own, []) (terms_of_block block) in
    let inner = List.rev inner in
    let originals_of = Array.concat (own :: List.map (fun (_, _, inner) -> inner.originals_of) inner) in
    let found = { own; inner = List.map (fun (m', place, _) -> m', place) inner; count; originals_of } in
    Hashtbl.add t.parameters key found;
    found

let fresh_instance t m = Univ.Instance.of_array (Array.map (fresh t) (parameters_of t m).originals_of)

(* The levels of a use of the family in the declaration. *)
let instance_at t owner m =
  let key = owner, MutInd.canonical m in
  match t.sharing, Hashtbl.find_opt t.instances key with
  | Options.Each_use, _ | _, None ->
    let u = fresh_instance t m in
    Hashtbl.replace t.instances key u;
    u
  | _, Some u -> u

(* The term with the levels of the families' uses given by [at]. *)
let rec with_instances t at term =
  match kind term with
  | Ind ((m, i), _) when is_copied t m -> mkIndU ((m, i), at m)
  | Construct (((m, i), j), _) when is_copied t m -> mkConstructU (((m, i), j), at m)
  | Case (ci, _, params, ret, inversion, scrutinee, branches) when is_copied t (fst ci.ci_ind) ->
    Constr.map (with_instances t at) (mkCase (ci, at (fst ci.ci_ind), params, ret, inversion, scrutinee, branches))
  | _ -> Constr.map (with_instances t at) term

(* A term of the declaration [owner]. *)
let in_declaration t owner term = if has_copies t then with_instances t (instance_at t owner) term else term

let variables first count = Univ.Instance.of_array (Array.init count (fun i -> Univ.Level.var (first + i)))

(* A term of the family's own block, polymorphic in its levels. *)
let in_block t m =
  let parameters = parameters_of t m in
  let subst = CArray.fold_left_i (fun i found l -> Univ.Level.Map.add l (Univ.Level.var i) found) Univ.Level.Map.empty parameters.own in
  let at m' =
    if MutInd.CanOrd.equal m m' then variables 0 parameters.count
    else
      let _, place = List.find (fun (other, _) -> MutInd.CanOrd.equal m' other) parameters.inner in
      variables place (parameters_of t m').count in
  (fun term -> with_instances t at (Vars.subst_univs_level_constr subst term)), Univ.subst_univs_level_universe subst

(* The context of the family's levels, without constraints: these are found where its uses are typed. *)
let context_of t m =
  let count = (parameters_of t m).count in
  Univ.AbstractContext.make (Array.make count Anonymous) Univ.Constraints.empty

(* The constraints that the family itself asks of its levels u. *)
let own_constraints t m u =
  let block = Environ.lookup_mind m t.env in
  let parameters = parameters_of t m in
  let levels = Array.sub (Univ.Instance.to_array u) 0 (Array.length parameters.own) in
  match block.mind_template with
  | Some template ->
    let subst = CArray.fold_left2 (fun found l l' -> Univ.Level.Map.add l l' found) Univ.Level.Map.empty parameters.own levels in
    Univ.subst_univs_level_constraints subst (snd template.template_context)
  | None -> Univ.AbstractContext.instantiate (Univ.Instance.of_array levels) (Declareops.inductive_polymorphic_context block)
