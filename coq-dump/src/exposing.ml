(* Types of arguments as Coq's positivity sees them. The profile looks at a type as it is written; where the head of an argument's type hides the block, as an abbreviation or the operation of
   a class does, the type is reduced, which is a conversion. *)
open Constr
open Context.Rel.Declaration

let is_chosen () = !Options.current.Options.arguments

let is_block m t = match kind t with Ind ((m', _), _) -> Names.MutInd.CanOrd.equal m m' | _ -> false

let rec mentions m t = is_block m t || Constr.fold (fun found t -> found || mentions m t) false t

let rec exposed env m t =
  if not (mentions m t) then t
  else match kind t with
    | Prod (na, a, b) -> mkProd (na, a, exposed (Environ.push_rel (LocalAssum (na, a)) env) m b)
    | _ ->
      let head, arguments = Constr.decompose_appvect t in
      match kind head with
      | Ind _ when is_block m head -> t
      | Ind _ -> mkApp (head, CArray.Smart.map (exposed env m) arguments)
      | Rel _ -> t
      | _ ->
        let reduced = Reduction.whd_all env t in
        if Constr.equal reduced t then t else exposed env m reduced

(* A constructor's context, innermost first, of whose declarations the first [count] are its arguments. *)
let in_context env m count context =
  let args, params = CList.chop count context in
  let add d (env, context) =
    let d' = match d with
      | LocalAssum (na, ty) ->
        let ty' = exposed env m ty in
        if not (Constr.equal ty ty') then incr Notes.arguments;
        LocalAssum (na, ty')
      | LocalDef _ -> d in
    Environ.push_rel d env, d' :: context in
  let env = Environ.push_rel_context params env in
  snd (List.fold_right add args (env, params))

let in_constructor env m count context = if is_chosen () then in_context env m count context else context
