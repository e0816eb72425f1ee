(* The guard of the profile, as far as it shows which fixpoints have to be reduced for it: a body is walked as it is written, and the recursive argument of each call is reduced and must be smaller.
   It decides nothing but what is dumped: `erasec` says which fixpoints are guarded. *)
open Constr
open Context.Rel.Declaration

type mark =
  | Other
  | Argument
  | Small
  | Recursive of int (* a variable of the fixpoint, with the place of its recursive argument *)

(* Under binders: the variables' marks, and an environment in which their types are left out. *)
type place = { env : Environ.env; marks : mark list; block : Names.MutInd.t option }

let mark_of place i = match List.nth_opt place.marks (i - 1) with Some mark -> mark | None -> Other

let unknown na = LocalAssum (na, mkProp)

let under mark na place = { place with env = Environ.push_rel (unknown na) place.env; marks = mark :: place.marks }

let under_let na v a place = { place with env = Environ.push_rel (LocalDef (na, v, a)) place.env; marks = Other :: place.marks }

let under_all mark names place = Array.fold_left (fun place na -> under mark na place) place names

let whole place t = Reduction.whd_all place.env t

let names_block block t =
  let rec found t = match kind t with Ind ((m, _), _) -> Names.MutInd.CanOrd.equal block m | _ -> Constr.fold (fun was t -> was || found t) false t in
  found t

let names_recursive place t = match place.block with Some block -> names_block block t | None -> false

let rec end_of_products n t = match kind t with Prod (_, _, b) -> end_of_products (n + 1) b | _ -> n, t

(* Whether a branch's variable is smaller, by its type as the constructor declares it under [before] arguments and the block's parameters. *)
let is_smaller_type place m params before ty =
  let depth, last = end_of_products 0 ty in
  let head, arguments = Constr.decompose_appvect last in
  let is_recursive = Option.cata (Names.MutInd.CanOrd.equal m) false place.block in
  match kind head with
  | Ind ((m', _), _) when Names.MutInd.CanOrd.equal m m' -> true
  | Ind _ -> is_recursive && Array.exists (names_recursive place) arguments
  | Rel i when not is_recursive && i > depth + before ->
    let param = Array.length params - (i - depth - before) in
    0 <= param && param < Array.length params && names_recursive place params.(param)
  | _ -> false

(* The marks of a branch's variables. *)
let branch_marks place (m, i) constructor params is_opened =
  let block = Environ.lookup_mind m place.env in
  let family = block.Declarations.mind_packets.(i) in
  let context, _ = CList.chop family.Declarations.mind_consnrealdecls.(constructor) (fst family.Declarations.mind_nf_lc.(constructor)) in
  let plain = not (Block.has_lets block.Declarations.mind_params_ctxt) in
  let mark before = function
    | LocalAssum (_, ty) when is_opened && plain && is_smaller_type place m params before ty -> Small
    | _ -> Other in
  List.mapi mark (List.rev context)

let in_branch place ind constructor params is_opened names =
  let marks = branch_marks place ind constructor params is_opened in
  List.fold_left2 (fun place mark na -> under mark na place) place marks (Array.to_list names)

let rec is_small place t =
  let t = whole place t in
  match kind (fst (Constr.decompose_app t)) with
  | Rel i -> mark_of place i = Small
  | Case (ci, _, params, _, _, scrutinee, branches) when isCase t && opens place scrutinee ->
    let small constructor (names, body) = is_small (in_branch place ci.ci_ind constructor params true names) body in
    CArray.for_all (fun holds -> holds) (Array.mapi small branches)
  | _ -> false

and opens place scrutinee =
  is_small place scrutinee || (match kind (whole place scrutinee) with Rel i -> mark_of place i = Argument | _ -> false)

(* Whether a fixpoint inside a body, of one definition, stands before its recursive argument, and that is smaller: then its own recursive variable is. *)
let passes place ((places, _), (_, _, bodies)) arguments =
  Array.length bodies = 1 && places.(0) < Array.length arguments && is_small place arguments.(places.(0))

let rec is_guarded place t =
  match kind t with
  | Rel i -> (match mark_of place i with Recursive _ -> false | _ -> true)
  | App (f, arguments) -> is_guarded_application place f arguments
  | Cast (c, _, _) -> is_guarded place c
  | Case (ci, _, params, (names, ret), _, scrutinee, branches) ->
    let is_opened = opens place scrutinee in
    let branch constructor (names, body) = is_guarded (in_branch place ci.ci_ind constructor params is_opened names) body in
    is_guarded place scrutinee && CArray.for_all (is_guarded place) params
    && is_guarded (under_all Other names place) ret
    && CArray.for_all (fun holds -> holds) (Array.mapi branch branches)
  | Fix fix -> is_guarded_fixpoint place fix [||]
  | Lambda (na, a, b) | Prod (na, a, b) -> is_guarded place a && is_guarded (under Other na place) b
  | LetIn (na, v, a, b) ->
    is_guarded place v && is_guarded place a && is_guarded (under_let na v a place) b
  | _ -> Constr.fold (fun holds t -> holds && is_guarded place t) true t

and is_guarded_application place f arguments =
  let parts () = CArray.for_all (is_guarded place) arguments in
  match kind f with
  | Rel i ->
    (match mark_of place i with
     | Recursive n -> n < Array.length arguments && is_small place arguments.(n) && parts ()
     | _ -> parts ())
  | Fix fix -> is_guarded_fixpoint place fix arguments && parts ()
  | App (f, before) -> is_guarded_application place f (Array.append before arguments)
  | Cast (f, _, _) -> is_guarded_application place f arguments
  | _ -> is_guarded place f && parts ()

and is_guarded_fixpoint place (((places, _), (names, types, bodies)) as fix) arguments =
  let mark = if passes place fix arguments then Small else Other in
  let inner = under_all Other names place in
  CArray.for_all (is_guarded place) types
  && CArray.for_all (fun holds -> holds) (Array.mapi (fun i body -> is_guarded_body inner places.(i) mark body) bodies)

and is_guarded_body place n mark t =
  match kind t with
  | Lambda (na, a, b) ->
    is_guarded place a && (if n = 0 then is_guarded (under mark na place) b else is_guarded_body (under Other na place) (n - 1) mark b)
  | Cast (c, _, _) -> is_guarded_body place n mark c
  | _ -> false

(* The block of the recursive argument's type. *)
let rec block_of_argument env n t =
  match kind t with
  | Lambda (_, a, _) when n = 0 ->
    (match kind (fst (Constr.decompose_app (Reduction.whd_all env a))) with Ind ((m, _), _) -> Some m | _ -> None)
  | Lambda (na, _, b) -> block_of_argument (Environ.push_rel (unknown na) env) (n - 1) b
  | Cast (c, _, _) -> block_of_argument env n c
  | _ -> None

(* Under the variables of a fixpoint, at its definition i. *)
let in_definition env ((places, _), (names, _, bodies)) i =
  let add place (na, n) = under (Recursive n) na place in
  let inner = Array.fold_left add { env; marks = []; block = None } (CArray.combine names places) in
  { inner with block = block_of_argument inner.env places.(i) bodies.(i) }

let is_own_guarded env (((places, _), (_, _, bodies)) as fix) =
  let guarded i body = is_guarded_body (in_definition env fix i) places.(i) Argument body in
  CArray.for_all (fun holds -> holds) (Array.mapi guarded bodies)

let unknown_all names env = Array.fold_left (fun env na -> Environ.push_rel (unknown na) env) env names

(* Whether each fixpoint of the term is guarded as it is written. *)
let rec accepts env t =
  let under na = Environ.push_rel (unknown na) env in
  match kind t with
  | Fix ((_, (names, types, bodies)) as fix) ->
    is_own_guarded env fix && CArray.for_all (accepts env) types && CArray.for_all (accepts (unknown_all names env)) bodies
  | Lambda (na, a, b) | Prod (na, a, b) -> accepts env a && accepts (under na) b
  | LetIn (na, v, a, b) -> accepts env v && accepts env a && accepts (Environ.push_rel (LocalDef (na, v, a)) env) b
  | Case (_, _, params, (names, ret), _, scrutinee, branches) ->
    CArray.for_all (accepts env) params && accepts (unknown_all names env) ret && accepts env scrutinee
    && CArray.for_all (fun (names, body) -> accepts (unknown_all names env) body) branches
  | _ -> Constr.fold (fun holds t -> holds && accepts env t) true t
