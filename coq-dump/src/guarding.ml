(* Reduction of fixpoints' bodies for a guard that looks at terms as written.

   Coq's guard looks through redexes and lets, that of the dump's profile doesn't. So inside a body a redex or a let is contracted where what is put in is such
   that the written guard couldn't follow it: a term that uses the fixpoint's variable other than in a call on a smaller term, or a term whose head is the recursive
   argument or may be smaller. All else stays as it is written. Each contraction is a conversion: the kernel accepts the result where it accepted the term.

   What is smaller is what the written guard marks so (`written_guard.ml`): also a list of smaller trees, and its elements in a fixpoint that is handed it. *)
open Constr
open Written_guard

let rec strip t = match kind t with Cast (c, _, _) -> strip c | _ -> t

(* Whether the term's head is the recursive argument, or may be smaller. *)
let rec may_be_smaller place t =
  match kind (strip t) with
  | Rel i -> (match mark_of place i with Argument | Small -> true | _ -> false)
  | App (f, _) -> may_be_smaller place f
  | Case (_, _, _, _, _, scrutinee, _) -> may_be_smaller place scrutinee
  | _ -> false

(* Whether the term uses the fixpoint's variable other than in calls on smaller terms. *)
let rec uses_freely place t =
  match kind t with
  | Rel i -> (match mark_of place i with Recursive _ -> true | _ -> false)
  | App (f, args) ->
    let head_is_free = match kind (strip f) with
      | Rel i -> (match mark_of place i with
        | Recursive n -> not (n < Array.length args && may_be_smaller place args.(n))
        | _ -> false)
      | _ -> uses_freely place f in
    head_is_free || Array.exists (uses_freely place) args
  | Var _ | Meta _ | Evar _ | Sort _ | Const _ | Ind _ | Construct _ | Int _ | Float _ -> false
  | _ ->
    let unmarked place = { place with marks = Other :: place.marks } in
    Constr.fold_constr_with_binders unmarked (fun place found t -> found || uses_freely place t) place false t

let is_hidden place t = uses_freely place t || may_be_smaller place t

(* The number of arguments, from the left, up to the last one that a written guard couldn't follow. *)
let hidden_arguments place args =
  let rec last i found = if i = Array.length args then found else last (i + 1) (if is_hidden place args.(i) then i + 1 else found) in
  last 0 0

let rec leading_lambdas t = match kind (strip t) with Lambda (_, _, b) -> 1 + leading_lambdas b | _ -> 0

(* The first n arguments put into as many lambdas. *)
let rec contract n f args =
  if n = 0 then f, args
  else match kind (strip f), args with
    | Lambda (_, _, b), a :: rest -> incr Notes.contractions; contract (n - 1) (Vars.subst1 a b) rest
    | _ -> f, args

let body_of_constant env c u =
  match (Environ.lookup_constant c env).Declarations.const_body with
  | Declarations.Def body -> Some (Vars.subst_instance_constr u body)
  | _ -> None

(* A term inside the body of one fixpoint, whose variables the place has. [unfolds]: constants that are handed such a variable are unfolded. *)
let rec inside ~unfolds place t =
  let go = inside ~unfolds in
  match kind t with
  | Fix fix -> fixpoint ~unfolds place fix [||]
  | App (f, args) -> application ~unfolds place (strip f) args
  | LetIn (_, v, _, b) when is_hidden place v ->
    incr Notes.contractions;
    go place (Vars.subst1 v b)
  | LetIn (na, v, a, b) -> mkLetIn (na, go place v, go place a, go (under_let na v a place) b)
  | Lambda (na, a, b) -> mkLambda (na, go place a, go (under Other na place) b)
  | Prod (na, a, b) -> mkProd (na, go place a, go (under Other na place) b)
  | Case (ci, u, params, (names, ret), iv, scrutinee, branches) ->
    let scrutinee = go place scrutinee in
    let is_opened = opens place scrutinee || may_be_smaller place scrutinee in
    let branch i (names, body) = names, go (in_branch place ci.ci_ind i params is_opened names) body in
    mkCase (ci, u, Array.map (go place) params, (names, go (under_all Other names place) ret), iv, scrutinee, Array.mapi branch branches)
  | _ -> Constr.map (go place) t

and application ~unfolds place f args =
  let go = inside ~unfolds in
  match kind f with
  | Lambda _ ->
    let n = min (hidden_arguments place args) (leading_lambdas f) in
    if n = 0 then mkApp (go place f, Array.map (go place) args)
    else
      let f, rest = contract n f (Array.to_list args) in
      go place (Term.applist (f, rest))
  | App (g, before) -> application ~unfolds place (strip g) (Array.append before args)
  | LetIn (_, v, _, b) when is_hidden place v ->
    incr Notes.contractions;
    go place (mkApp (Vars.subst1 v b, args))
  | Const (c, u) when unfolds && Array.exists (uses_freely place) args ->
    (match body_of_constant place.env c u with
     | Some body when leading_lambdas body > 0 ->
       incr Notes.contractions;
       incr Notes.unfolded;
       application ~unfolds place (strip body) args
     | _ -> mkApp (f, Array.map (go place) args))
  | Fix fix -> mkApp (fixpoint ~unfolds place fix args, Array.map (go place) args)
  | _ -> mkApp (go place f, Array.map (go place) args)

(* A further fixpoint inside the body. *)
and fixpoint ~unfolds place (((places, _) as head, (names, types, bodies)) as fix) args =
  let mark = if passes place fix args then Small else Other in
  let inner = under_all Other names place in
  mkFix (head, (names, Array.map (inside ~unfolds place) types, Array.mapi (fun i body -> definition ~unfolds inner places.(i) mark body) bodies))

(* A definition's body, and the mark of its lambda number n. *)
and definition ~unfolds place n mark t =
  match kind t with
  | Lambda (na, a, b) ->
    let a' = inside ~unfolds place a in
    if n = 0 then mkLambda (na, a', inside ~unfolds (under mark na place) b)
    else mkLambda (na, a', definition ~unfolds (under Other na place) (n - 1) mark b)
  | Cast (c, _, _) -> definition ~unfolds place n mark c
  | _ -> inside ~unfolds place t

(* A fixpoint with its own bodies reduced. *)
let own_reduced env ~unfolds (((places, _) as head, (names, types, bodies)) as fix) =
  head, (names, types, Array.mapi (fun i body -> definition ~unfolds (in_definition env fix i) places.(i) Argument body) bodies)

(* The fixpoint changed only as far as the written guard needs it: not at all, else reduced, else with constants unfolded too. *)
let own_as_needed env fix =
  if is_own_guarded env fix then fix
  else
    let before = !Notes.contractions in
    let reduced = own_reduced env ~unfolds:false fix in
    if is_own_guarded env reduced then reduced
    else begin
      Notes.contractions := before;
      own_reduced env ~unfolds:true fix
    end

(* Each fixpoint of a term is changed, and then those inside it. *)
let rec each_fixpoint change env t =
  let go = each_fixpoint change in
  match kind t with
  | Fix fix ->
    let head, (names, types, bodies) = change env fix in
    mkFix (head, (names, Array.map (go env) types, Array.map (go (unknown_all names env)) bodies))
  | Lambda (na, a, b) -> mkLambda (na, go env a, go (unknown_all [|na|] env) b)
  | Prod (na, a, b) -> mkProd (na, go env a, go (unknown_all [|na|] env) b)
  | LetIn (na, v, a, b) -> mkLetIn (na, go env v, go env a, go (Environ.push_rel (Context.Rel.Declaration.LocalDef (na, v, a)) env) b)
  | Case (ci, u, params, (names, ret), iv, scrutinee, branches) ->
    let branch (names, body) = names, go (unknown_all names env) body in
    mkCase (ci, u, Array.map (go env) params, (names, go (unknown_all names env) ret), iv, go env scrutinee, Array.map branch branches)
  | _ -> Constr.map (go env) t

(* The closed term with its fixpoints' bodies reduced so. *)
let for_written_guard env ~unfolds t = each_fixpoint (fun env fix -> own_reduced env ~unfolds fix) env t

(* The closed term, changed only as far as the written guard needs it. *)
let where_needed env t = if accepts env t then t else each_fixpoint own_as_needed env t
