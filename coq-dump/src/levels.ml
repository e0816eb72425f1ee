(* Universe levels of a dump, and the constraints between them.

   The global graph has the constraints of everything but what the dump writes otherwise: template polymorphic families at copies of their levels, Set as a level, cumulative families as plain
   ones. What the closure asks of these is found by typing it again as it is written. *)
open Declarations
open Context.Rel.Declaration
open Textname

type t = {
  closure : Closure.t;
  graph : UGraph.t;
  set : Univ.Level.Set.t;                          (* copies that have to be Set *)
  joined : Univ.Level.t Univ.Level.Map.t;          (* copies that have to be another level *)
  names : (string, string) Hashtbl.t;              (* a level, by Coq's text of it, and its name in the dump *)
  taken : taken;
  mutable listed : (Univ.Level.t * string) list;   (* the newest first *)
}

(* The closure as it is written has no typing that was found. *)
exception Conflict of string

let conflict fmt = Printf.ksprintf (fun reason -> raise (Conflict reason)) fmt

(* ------------------------------------------------------------------ typing again *)

(* The environment with the closure as it is written, and other names for what they stand for. *)
let written_env (closure : Closure.t) =
  let written = closure.Closure.written in
  let with_constant env c =
    let old = Environ.lookup_constant c env in
    let { Written.ty; body; _ } = Written.constant written c in
    let const_body = match old.const_body, body with Def old_body, Some body when old_body != body -> Def body | kept, _ -> kept in
    if ty == old.const_type && const_body == old.const_body then env
    else Environ.add_constant c { old with const_type = ty; const_body } env in
  let with_declaration env = function
    | Closure.Constant { constant; _ } -> with_constant env constant
    | Closure.Block { block; _ } -> Environ.add_mind block (Written.block written block) env
    | Closure.Literal _ -> env in
  let other_constant c env = Environ.add_constant c (Environ.lookup_constant (Written.canonical_constant written c) env) env in
  let other_block m () env = Environ.add_mind m (Environ.lookup_mind (Written.canonical_block written m) env) env in
  let env = List.fold_left with_declaration (Closure.env closure) (List.rev closure.Closure.declarations) in
  Names.Cset_env.fold other_constant closure.Closure.other_constants (Names.Mindmap_env.fold other_block closure.Closure.other_blocks env)

let raised part = Sorts.sort_of_univ (Sortform.raised part)

let parts_of = function Sorts.Type u -> Univ.Universe.repr u | _ -> [Univ.Level.set, 0]

let is_maximum = function Sorts.Type u -> not (Univ.Universe.is_level u) | _ -> false

(* Coq's unifier takes no maximum on the right: each part on the left is put below one part there. *)
let below env sigma a b =
  if Evd.check_leq sigma a b then sigma
  else if not (is_maximum b) then Evd.set_leq_sort env sigma a b
  else
    let part sigma (l, n) =
      if List.exists (fun right -> Evd.check_leq sigma (raised (l, n)) (raised right)) (parts_of b) then sigma
      else match List.find_opt (fun (r, m) -> m >= n && not (Univ.Level.is_set r)) (parts_of b) with
        | Some (r, _) -> Evd.set_leq_level sigma l r
        | None -> Evd.set_leq_sort env sigma a b in
    List.fold_left part sigma (parts_of a)

let final_sort env sigma ty =
  match Reductionops.splay_arity env sigma ty with
  | _, s -> Some (EConstr.ESorts.kind sigma s)
  | exception Reduction.NotArity -> None

let type_constant env sigma ty body =
  let ty = EConstr.of_constr ty in
  let sigma, _ = Typing.sort_of env sigma ty in
  match body with
  | None -> sigma
  | Some body ->
    let body = EConstr.of_constr body in
    (match final_sort env sigma ty with
     | Some s when is_maximum s ->
       let sigma, found = Typing.type_of env sigma body in
       (match final_sort env sigma found with
        | Some s' -> below env sigma s' s
        | None -> Typing.check env sigma body ty)
     | _ -> Typing.check env sigma body ty)

let type_block env sigma block =
  let sigma = ref sigma in
  let sort_of env t =
    let found, s = Typing.sort_of env !sigma (EConstr.of_constr t) in
    sigma := found; s in
  let push env (na, ty) = ignore (sort_of env ty); Environ.push_rel (LocalAssum (na, ty)) env in
  let type_family place family =
    let s = Block.sort_of_family family in
    let params, indices = Block.family_parts block place in
    let under_params = List.fold_left push env params in
    ignore (List.fold_left push under_params indices);
    let argument env (na, ty) =
      let s' = sort_of env ty in
      if not (Sorts.is_prop s) then sigma := below env !sigma s' s;
      Environ.push_rel (LocalAssum (na, ty)) env in
    Array.iteri (fun i _ ->
      ignore (List.fold_left argument under_params (fst (Block.constructor_parts block place i)))) family.mind_nf_lc in
  Array.iteri type_family block.mind_packets;
  !sigma

let loses_eta = function
  | 0 -> ""
  | _ -> "; records with primitive projections are written without eta"

(* An argument at a sort that isn't below the one asked for. *)
let is_about_levels = function
  | Pretype_errors.PretypeError (_, sigma, Pretype_errors.TypingError (Type_errors.CantApplyBadType ((_, a, b), _, _))) -> EConstr.isSort sigma a && EConstr.isSort sigma b
  | UGraph.UniverseInconsistency _ -> true
  | _ -> false

let guarded name f =
  try f () with
  | e when is_about_levels e -> conflict "%s: template polymorphism is needed at two levels (one copy of a template's levels can't serve all its uses)" name
  | Refused _ as e -> raise e
  | e when CErrors.noncritical e ->
    conflict "%s: as it is written it has no type%s (%s)" name (loses_eta !Notes.records) (String.concat " " (String.split_on_char '\n' (Pp.string_of_ppcmds (CErrors.print e))))

let add_own_constraints (closure : Closure.t) sigma m u =
  let templates = closure.Closure.written.Written.templates in
  if Template.is_copied templates m then Evd.add_constraints sigma (Template.own_constraints templates m u) else sigma

let type_declaration closure env sigma = function
  | Closure.Constant { constant; ty; body; _ } ->
    guarded (Names.Constant.to_string constant) (fun () -> type_constant env sigma ty body)
  | Closure.Block { block; instance } ->
    guarded (Names.MutInd.to_string block) (fun () ->
      type_block env (add_own_constraints closure sigma block instance) (Closure.block_at closure block instance))
  | Closure.Literal _ -> sigma

let template_of closure m = (Environ.lookup_mind m (Closure.env closure)).mind_template

(* The constraints that templates of one copy ask of it. *)
let constraints_of_copies (closure : Closure.t) =
  let add found m = match template_of closure m with
    | None -> found
    | Some template -> Univ.Constraints.union found (Template.copied_constraints closure.Closure.written.Written.templates template) in
  List.fold_left add Univ.Constraints.empty closure.Closure.templates

(* The evaluation map with the levels that the dump makes: the copies are flexible, so that one of them can still become Set or another level. *)
let with_made_levels (closure : Closure.t) sigma =
  let templates = closure.Closure.written.Written.templates in
  let sigma =
    if not (Sortform.is_small_chosen ()) then sigma
    else Evd.merge_context_set UState.univ_rigid sigma
      (Univ.Level.Set.singleton Sortform.small, Univ.Constraints.singleton (Univ.Level.set, Univ.Lt, Sortform.small)) in
  let constraints = if Template.has_copies templates then Univ.Constraints.empty else constraints_of_copies closure in
  Evd.merge_context_set UState.univ_flexible sigma (templates.Template.fresh, constraints)

let has_own_constraints () = !Options.current.Options.own_constraints

let needs_typing (closure : Closure.t) =
  closure.Closure.templates <> [] || not closure.Closure.written.Written.is_plain || Sortform.is_small_chosen () || has_own_constraints ()

(* The environment with all its levels, and no constraint between them but that each is above Set. *)
let without_constraints env =
  let add l graph = if Univ.Level.is_set l then graph else UGraph.add_universe l ~lbound:UGraph.Bound.Set ~strict:true graph in
  let graph = Environ.universes env in
  Environ.set_universes (Univ.Level.Set.fold add (UGraph.domain graph) (UGraph.initial_universes_with graph)) env

let has_instances (closure : Closure.t) =
  let is_at_instance = function
    | Closure.Constant { instance; _ } | Closure.Block { instance; _ } -> not (Univ.Instance.is_empty instance)
    | Closure.Literal _ -> false in
  List.exists is_at_instance closure.Closure.declarations

(* The evaluation map after all uses of the closure and of main. *)
let typed_again (closure : Closure.t) main =
  if not (needs_typing closure) then Evd.from_env (Closure.env closure)
  else begin
    let env = written_env closure in
    let env = if has_own_constraints () then without_constraints env else env in
    let sigma = with_made_levels closure (Evd.from_env env) in
    let sigma = List.fold_left (type_declaration closure env) sigma (List.rev closure.Closure.declarations) in
    guarded "main" (fun () -> fst (Typing.type_of env sigma (EConstr.of_constr main)))
  end

(* ------------------------------------------------------------------ copies that can be one *)

(* What a level had to become. *)
let rec final subst l =
  match Univ.Level.Map.find_opt l subst with
  | Some (Some u) -> (match Univ.Universe.level u with
    | Some l' -> final subst l'
    | None -> refuse "a level of a template that is no single level")
  | _ -> l

(* The instances at which the closure has the family, each once. *)
let instances_of (closure : Closure.t) sigma m =
  let subst = Evd.universe_subst sigma in
  let add found = function
    | Closure.Block { block; instance } when Names.MutInd.CanOrd.equal block m ->
      let u = Univ.Instance.of_array (Array.map (final subst) (Univ.Instance.to_array instance)) in
      if List.exists (Univ.Instance.equal u) found then found else u :: found
    | _ -> found in
  List.rev (List.fold_left add [] (List.rev closure.Closure.declarations))

(* Joins the levels u with the first of the kept instances with which they can be one. *)
let joined_with (sigma, kept) u =
  let join other = try Some (Evd.set_eq_instances sigma u other) with e when CErrors.noncritical e -> None in
  match List.find_map join kept with
  | Some sigma -> sigma, kept
  | None -> sigma, kept @ [u]

let with_copies_joined (closure : Closure.t) sigma =
  let families = CList.uniquize (List.map Names.MutInd.canonical closure.Closure.templates) in
  let join sigma name =
    let m = Names.MutInd.make1 name in
    let sigma, kept = List.fold_left joined_with (sigma, []) (instances_of closure sigma m) in
    Notes.copies := !Notes.copies + List.length kept - 1;
    sigma in
  List.fold_left join sigma families

(* ------------------------------------------------------------------ the levels *)

let settled (closure : Closure.t) sigma =
  let graph = Evd.universes sigma in
  let subst = Evd.universe_subst sigma in
  let settle l (set, joined) =
    let l' = final subst l in
    if Univ.Level.is_set l' || UGraph.check_leq graph (Univ.Universe.make l') Univ.Universe.type0 then Univ.Level.Set.add l set, joined
    else if Univ.Level.equal l l' then set, joined
    else set, Univ.Level.Map.add l l' joined in
  Univ.Level.Set.fold settle closure.Closure.written.Written.templates.Template.fresh (Univ.Level.Set.empty, Univ.Level.Map.empty)

(* The closure again, with one level for those that had to be equal, so that a family is written once for each instance that is left. *)
let with_equal_levels_one (closure : Closure.t) sigma visit_roots =
  let graph = Reach.of_graph (Evd.universes sigma) in
  let subst = Evd.universe_subst sigma in
  let canonical_level l = Reach.canonical graph (final subst l) in
  let again = Closure.start ~canonical_level closure.Closure.written in
  visit_roots again;
  again

let of_closure closure ~visit_roots main =
  let sigma = typed_again closure main in
  let has_copies = Template.has_copies closure.Closure.written.Written.templates in
  let sigma = if has_copies then with_copies_joined closure sigma else sigma in
  let closure = if has_instances closure then with_equal_levels_one closure sigma visit_roots else closure in
  let set, joined = settled closure sigma in
  { closure; graph = Evd.universes sigma; set; joined; names = Hashtbl.create 97; taken = Hashtbl.create 97; listed = [] }

(* ------------------------------------------------------------------ names *)

let coq_name levels l =
  let original = Template.original_of levels.closure.Closure.written.Written.templates l in
  if Univ.Level.equal original Sortform.small then "small"
  else match UnivNames.qualid_of_level UnivNames.empty_binders original with
  | Some q -> atom (Libnames.string_of_qualid q)
  | None -> (match Univ.Level.name original with
    | Some global ->
      let path, _, i = Univ.UGlobal.repr global in
      let last = match Names.DirPath.repr path with [] -> "U" | id :: _ -> Names.Id.to_string id in
      atom (Printf.sprintf "%s.%d" last i)
    | None -> "level")

let fresh_name levels l =
  let base = coq_name levels l in
  let name = if is_taken levels.taken base || base = "Set" then numbered levels.taken base else base in
  Hashtbl.add levels.taken name 1;
  name

(* A level's name in the dump; a level that is met for the first time is listed. *)
let rec name_of levels l =
  match Univ.Level.Map.find_opt l levels.joined with
  | Some other -> name_of levels other
  | None when Univ.Level.is_set l || Univ.Level.Set.mem l levels.set -> "Set"
  | None ->
    let key = Univ.Level.to_string l in
    (match Hashtbl.find_opt levels.names key with
     | Some name -> name
     | None ->
       let name = fresh_name levels l in
       Hashtbl.add levels.names key name;
       levels.listed <- (l, name) :: levels.listed;
       name)

let listed levels = List.rev_map snd levels.listed

(* ------------------------------------------------------------------ constraints *)

(* The constraints without those that two others give: what the graph gives is closed under transitivity. *)
let without_implied constraints =
  let out = Hashtbl.create 97 in
  let from l = Option.default [] (Hashtbl.find_opt out (Univ.Level.to_string l)) in
  Univ.Constraints.iter (fun (a, relation, b) ->
    if relation <> Univ.Eq then Hashtbl.replace out (Univ.Level.to_string a) ((relation, b) :: from a)) constraints;
  let is_implied (a, relation, b) =
    relation <> Univ.Eq && List.exists (fun (first, c) ->
      not (Univ.Level.equal c a) && not (Univ.Level.equal c b) &&
      List.exists (fun (second, d) ->
        Univ.Level.equal d b && (relation = Univ.Le || first = Univ.Lt || second = Univ.Lt)) (from c)) (from a) in
  List.filter (fun c -> not (is_implied c)) (Univ.Constraints.elements constraints)

let word = function Univ.Lt -> "lt" | Univ.Le -> "le" | Univ.Eq -> "eq"

(* The constraints between listed levels, as the format's words. That each of them is above Set holds in every valuation. *)
let constraints levels =
  let kept = List.fold_left (fun kept (l, _) -> Univ.Level.Set.add l kept) Univ.Level.Set.empty levels.listed in
  let written (a, relation, b) = word relation, name_of levels a, name_of levels b in
  List.map written (without_implied (Reach.constraints_for ~kept levels.graph))
