(* Records with primitive projections as plain families: a projection is an application of its constant, whose body is a match. What is lost is eta: `x` and `mk (first x) (second x)`
   are convertible for Coq, and not as they are written. *)
open Constr
open Context.Rel.Declaration

let is_chosen () = !Options.current.Options.projections

let rec mentions t = match kind t with Proj _ -> true | _ -> Constr.fold (fun found t -> found || mentions t) false t

(* The projection's constant, applied to the parameters in the type of what is projected. *)
let rec applied env sigma p c =
  let ty = EConstr.to_constr sigma (Retyping.get_type_of env sigma (EConstr.of_constr c)) in
  let ((m, _), u), arguments = Inductive.find_rectype env ty in
  let params = CList.firstn (Environ.lookup_mind m env).Declarations.mind_nparams arguments in
  let parts = List.map (expanded env sigma) (params @ [c]) in
  mkApp (mkConstU (Names.Projection.constant p, u), Array.of_list parts)

and expanded env sigma t =
  match kind t with
  | Proj (p, c) -> applied env sigma p c
  | _ ->
    let inner env t = EConstr.of_constr (expanded env sigma (EConstr.Unsafe.to_constr t)) in
    EConstr.Unsafe.to_constr (Termops.map_constr_with_full_binders env sigma EConstr.push_rel inner env (EConstr.of_constr t))

(* The term without primitive projections, in the context of [env]. *)
let expand env t = if is_chosen () && mentions t then expanded env (Evd.from_env env) t else t

let expand_declaration env = function
  | LocalAssum (na, ty) -> LocalAssum (na, expand env ty)
  | LocalDef (na, v, ty) -> LocalDef (na, expand env v, expand env ty)

(* A context without primitive projections, innermost first, and the environment under it. *)
let expand_context env context =
  let add d (env, context) = Environ.push_rel d env, expand_declaration env d :: context in
  let env, context = List.fold_right add context (env, []) in
  context, env

(* The projection whose constant has this body. *)
let rec of_body t =
  match kind t with
  | Lambda (_, _, b) -> of_body b
  | Proj (p, c) when isRelN 1 c -> Some p
  | _ -> None

(* The place, counted from the innermost, of argument number n among declarations that stand innermost first. *)
let place_of_argument context n =
  let rec go place n = function
    | LocalAssum _ :: _ when n = 0 -> place
    | LocalAssum _ :: rest -> go (place - 1) (n - 1) rest
    | LocalDef _ :: rest -> go (place - 1) n rest
    | [] -> Textname.refuse "a projection of no field" in
  go (List.length context) n (List.rev context)

(* The match that is the projection's body, for its constant of type [ty] at the instance u of the record's universes. *)
let as_match env p u ty =
  let ind = Names.Projection.inductive p in
  let block = Environ.lookup_mind (fst ind) env in
  let family = block.Declarations.mind_packets.(snd ind) in
  let count = block.Declarations.mind_nparams in
  if List.length block.Declarations.mind_params_ctxt <> count then Textname.refuse "a record with primitive projections and a let among its parameters";
  let context, result = Term.decompose_prod_n_assum (count + 1) ty in
  let fields, _ = CList.chop family.Declarations.mind_consnrealdecls.(0) (fst family.Declarations.mind_nf_lc.(0)) in
  let names = Array.of_list (List.rev_map get_annot fields) in
  let record = get_annot (List.hd context) in
  let params = Array.init count (fun i -> mkRel (count + 1 - i)) in
  let info = Inductiveops.make_case_info env ind Sorts.Relevant RegularStyle in
  let field = mkRel (place_of_argument fields (Names.Projection.arg p)) in
  let case = mkCase (info, u, params, ([| record |], Vars.liftn 1 2 result), NoInvert, mkRel 1, [| names, field |]) in
  Term.it_mkLambda_or_LetIn case context

(* The body of the constant c of the type [ty], with its universes abstract: a match where the constant is a projection. *)
let body env c u ty body =
  match of_body body with
  | Some p when is_chosen () && Names.Constant.CanOrd.equal c (Names.Projection.constant p) -> expand env (as_match env p u ty)
  | _ -> expand env body
