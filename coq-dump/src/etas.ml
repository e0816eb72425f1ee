(* Eta redexes contracted: `fun x => f x` written as `f`.

   The profile has no eta for functions, so a proof that stands on one has no type there. With the redexes contracted in the whole closure most of these conversions are lost on both sides, and equal terms
   remain. A fixpoint's variable keeps its arguments, and its definitions their lambdas. *)
open Constr
open Context.Rel.Declaration

(* Under binders: the environment, and which variables are those of fixpoints. *)
type place = { env : Environ.env; fixed : bool list }

let under ?(is_fixed = false) d place = { env = Environ.push_rel d place.env; fixed = is_fixed :: place.fixed }

let is_fixed place t = match kind t with Rel i -> List.nth_opt place.fixed (i - 1) = Some true | _ -> false

(* The function of an application to the lambda's own variable, outside the lambda, where the variable stands nowhere else. The variable may stand in beta redexes. *)
let function_of env b =
  match kind b with
  | App (f, args) ->
    let count = Array.length args - 1 in
    let f = mkApp (f, Array.sub args 0 count) in
    if Vars.noccurn 1 f && isRelN 1 (Reduction.whd_betaiota env args.(count)) then Some (Vars.lift (-1) f) else None
  | _ -> None

(* Whether f takes exactly what the lambda takes. *)
let has_domain place sigma f a =
  match kind (EConstr.to_constr sigma (Reductionops.whd_all place.env sigma (Retyping.get_type_of place.env sigma (EConstr.of_constr f)))) with
  | Prod (_, domain, _) -> Constr.equal domain a || Reductionops.is_conv place.env sigma (EConstr.of_constr domain) (EConstr.of_constr a)
  | _ -> false
  | exception e when CErrors.noncritical e -> false

let rec contracted place sigma t =
  match kind t with
  | Lambda (na, a, b) ->
    let a = contracted place sigma a in
    let b = contracted (under (LocalAssum (na, a)) place) sigma b in
    (match function_of place.env b with
     | Some f when not (is_fixed place (fst (decompose_app f))) && has_domain place sigma f a -> incr Notes.etas; f
     | _ -> mkLambda (na, a, b))
  | Fix ((places, i), (names, types, bodies)) ->
    let types = Array.map (contracted place sigma) types in
    let add place (n, (na, ty)) = under ~is_fixed:true (LocalAssum (na, Vars.lift n ty)) place in
    let inner = Array.fold_left add place (Array.mapi (fun n it -> n, it) (CArray.combine names types)) in
    mkFix ((places, i), (names, types, Array.mapi (fun k body -> definition inner sigma places.(k) body) bodies))
  | _ ->
    let inside place t = EConstr.of_constr (contracted place sigma (EConstr.Unsafe.to_constr t)) in
    let push d place = under (EConstr.Unsafe.to_rel_decl d) place in
    EConstr.Unsafe.to_constr (Termops.map_constr_with_full_binders place.env sigma push inside place (EConstr.of_constr t))

(* A definition's body, whose lambdas up to number n stay. *)
and definition place sigma n t =
  match kind t with
  | Lambda (na, a, b) when n >= 0 ->
    let a = contracted place sigma a in
    mkLambda (na, a, definition (under (LocalAssum (na, a)) place) sigma (n - 1) b)
  | Cast (c, _, _) -> definition place sigma n c
  | _ -> contracted place sigma t

(* The closed term without its eta redexes, where that is chosen; itself where it has none. *)
let term env t =
  if not !Options.current.Options.eta then t
  else
    let before = !Notes.etas in
    let without = contracted { env; fixed = [] } (Evd.from_env env) t in
    if !Notes.etas = before then t else without
