(* Template polymorphic families at propositions. For Coq a pair of propositions, `P * Q`, may itself be a proposition; a family of the format has one sort. So the uses whose parameters are all
   propositions are written as a family of their own in Prop, and so are those that a projection of such a pair hides (`fst`), which is unfolded for that. *)
open Names
open Constr
open Declarations
open Context.Rel.Declaration

let is_chosen () = !Options.current.Options.propositional

(* Families with one constructor whose sort is that of their parameters alone. *)
let is_eligible block =
  Array.length block.mind_packets = 1 && block.mind_template <> None &&
  match block.mind_packets.(0).mind_arity with
  | TemplateArity { template_level = Sorts.Type u } ->
    Array.length block.mind_packets.(0).mind_consnames = 1 && not (Univ.Universe.exists (fun (l, _) -> Univ.Level.is_set l) u)
  | _ -> false

let copy_name m = MutInd.make2 (MutInd.modpath m) (Label.make (Label.to_string (MutInd.label m) ^ "_in_Prop"))

let rec in_prop m levels t =
  match kind t with
  | Sort (Sorts.Type u) when Univ.Universe.exists (fun (l, _) -> Univ.Level.Set.mem l levels) u -> mkProp
  | Ind ((m', i), u) when MutInd.CanOrd.equal m m' -> mkIndU ((copy_name m, i), u)
  | _ -> Constr.map (in_prop m levels) t

(* The family in Prop, beside its original. *)
let copy m block =
  let levels = match block.mind_template with Some template -> fst template.template_context | None -> Univ.Level.Set.empty in
  let term = in_prop m levels in
  let context = Context.Rel.map term in
  let copied = Block.with_terms block ~term ~context ~sort:(fun _ -> Sorts.prop) ~constructor:(fun (ctx, t) -> context ctx, term t) in
  { copied with mind_template = None; mind_packets = Array.map (fun it -> { it with mind_kelim = Sorts.InType }) copied.mind_packets }

let with_copy env m =
  if Environ.mem_mind (copy_name m) env then env else Environ.add_mind (copy_name m) (copy m (Environ.lookup_mind m env)) env

(* Coq's typing asks for names of the copy; they go with the state that `preparing.ml` brings back. *)
let name_copy env m =
  let name label reference =
    let path = Libnames.dirpath (Nametab.path_of_global (GlobRef.IndRef (m, 0))) in
    Nametab.push (Nametab.Until 1) (Libnames.make_path path (Id.of_string (Id.to_string label ^ "_in_Prop"))) reference in
  let family = (Environ.lookup_mind m env).mind_packets.(0) in
  name family.mind_typename (GlobRef.IndRef (copy_name m, 0));
  name family.mind_consnames.(0) (GlobRef.ConstructRef ((copy_name m, 0), 1))

let is_proposition env sigma t =
  match Reductionops.splay_arity env sigma (Retyping.get_type_of env sigma (EConstr.of_constr t)) with
  | _, s -> Sorts.is_prop (EConstr.ESorts.kind sigma s)
  | exception Reduction.NotArity -> false

(* Whether these are all parameters of the family, and those with a level of its own are propositions. *)
let are_propositions env sigma m params =
  let block = Environ.lookup_mind m env in
  is_eligible block && Array.length params >= block.mind_nparams &&
  match block.mind_template with
  | None -> false
  | Some template ->
    let has_level = template.template_param_levels in
    List.length has_level = block.mind_nparams &&
    CList.for_all_i (fun i level -> level = None || is_proposition env sigma params.(i)) 0 has_level

(* A constant whose body matches on such a family under its lambdas, put to its arguments. *)
let unfolded_match env sigma c u arguments =
  match Environ.constant_opt_value_in env (c, u) with
  | None -> None
  | Some body ->
    let count, inner = Term.decompose_lam body |> fun (binders, inner) -> List.length binders, inner in
    (match kind inner with
     | Case (ci, _, _, _, _, _, _) when count <= Array.length arguments && is_eligible (Environ.lookup_mind (fst ci.ci_ind) env) ->
       let reduced = Reduction.beta_appvect body arguments in
       (match kind (fst (Constr.decompose_app reduced)) with
        | Case (ci, _, params, _, _, _, _) when are_propositions env sigma (fst ci.ci_ind) params -> Some reduced
        | _ -> None)
     | _ -> None)

(* The term in the context of [env]; [met] is told each family that has uses in Prop. *)
let rec changed met env sigma t =
  let inner env t = EConstr.of_constr (changed met env sigma (EConstr.Unsafe.to_constr t)) in
  let parts t = EConstr.Unsafe.to_constr (Termops.map_constr_with_full_binders env sigma EConstr.push_rel inner env (EConstr.of_constr t)) in
  match kind t with
  | App (f, arguments) ->
    (match kind f with
     | Ind ((m, i), _) when are_propositions env sigma m arguments ->
       met m; mkApp (mkInd (copy_name m, i), Array.map (changed met env sigma) arguments)
     | Construct (((m, i), j), _) when are_propositions env sigma m arguments ->
       met m; mkApp (mkConstruct ((copy_name m, i), j), Array.map (changed met env sigma) arguments)
     | Const (c, u) ->
       (match unfolded_match env sigma c u arguments with
        | Some reduced -> changed met env sigma reduced
        | None -> parts t)
     | _ -> parts t)
  | Case (ci, u, params, ret, inversion, scrutinee, branches) when are_propositions env sigma (fst ci.ci_ind) params ->
    met (fst ci.ci_ind);
    (match kind (parts (mkCase (ci, u, params, ret, inversion, scrutinee, branches))) with
     | Case (ci, u, params, ret, inversion, scrutinee, branches) ->
       mkCase ({ ci with ci_ind = (copy_name (fst ci.ci_ind), snd ci.ci_ind) }, u, params, ret, inversion, scrutinee, branches)
     | _ -> assert false)
  | _ -> parts t

let term met env t = if is_chosen () then changed met env (Evd.from_env env) t else t

let declaration met env = function
  | LocalAssum (na, ty) -> LocalAssum (na, term met env ty)
  | LocalDef (na, v, ty) -> LocalDef (na, term met env v, term met env ty)

(* A context, innermost first, and the environment under it as it was. *)
let context met env entries =
  let add d (env, entries) = Environ.push_rel d env, declaration met env d :: entries in
  let env, entries = List.fold_right add entries (env, []) in
  entries, env
