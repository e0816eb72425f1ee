(* Blocks of inductive families as the format has them, with lets of telescopes put in. *)
open Constr
open Declarations
open Context.Rel.Declaration

(* A family squashed into SProp may be eliminated into Prop where it is read as one in Prop. *)
let elimination = function Sorts.InSProp when Sortform.is_strict_chosen () -> Sorts.InProp | into -> into

(* The block with each of its terms, contexts and sorts changed; its families get kept arities. *)
let with_terms block ~term ~context ~sort ~constructor =
  let arity family = function
    | RegularArity a -> RegularArity { mind_user_arity = term a.mind_user_arity; mind_sort = sort a.mind_sort }
    | TemplateArity { template_level = s } ->
      let s = sort s in
      RegularArity { mind_user_arity = Term.it_mkProd_or_LetIn (mkSort s) (context family.mind_arity_ctxt); mind_sort = s } in
  let family it =
    let kept = Array.map constructor it.mind_nf_lc in
    { it with
      mind_arity_ctxt = context it.mind_arity_ctxt;
      mind_arity = arity it it.mind_arity;
      mind_kelim = elimination it.mind_kelim;
      mind_user_lc = Array.map (fun (ctx, t) -> Term.it_mkProd_or_LetIn t ctx) kept;
      mind_nf_lc = kept } in
  { block with
    mind_params_ctxt = context block.mind_params_ctxt;
    mind_packets = Array.map family block.mind_packets }

(* The block at an instance of its universes. *)
let at block u =
  if Univ.Instance.is_empty u then block
  else
    let term = Vars.subst_instance_constr u in
    let sort = function Sorts.Type v -> Sorts.sort_of_univ (Univ.subst_instance_universe u v) | s -> s in
    let context = Vars.subst_instance_context u in
    with_terms block ~term ~context ~sort ~constructor:(fun (ctx, t) -> context ctx, term t)

let has_lets context = List.exists is_local_def context

(* The first n entries of a chain of binders, with lets put in, and what stands under them. *)
let rec telescope n t =
  if n = 0 then [], t
  else match kind t with
    | Prod (na, a, b) | Lambda (na, a, b) -> let entries, rest = telescope (n - 1) b in (na, a) :: entries, rest
    | LetIn (_, v, _, b) -> telescope (n - 1) (Vars.subst1 v b)
    | Cast (c, _, _) -> telescope n c
    | _ -> Textname.refuse "a telescope that isn't written out"

(* A constructor's arguments and its index terms. *)
let constructor_parts block family_place place =
  let family = block.mind_packets.(family_place) in
  let context, conclusion = family.mind_nf_lc.(place) in
  let params = List.length block.mind_params_ctxt in
  let args, _ = CList.chop family.mind_consnrealdecls.(place) context in
  let _, rest = telescope params (Term.it_mkProd_or_LetIn conclusion context) in
  let args, conclusion = telescope (List.length args) rest in
  let _, items = Constr.decompose_app conclusion in
  args, CList.skipn block.mind_nparams items

(* The block's parameters and the family's indices. *)
let family_parts block place =
  let family = block.mind_packets.(place) in
  let params = List.length block.mind_params_ctxt in
  let params, rest = telescope params (Term.it_mkProd_or_LetIn mkProp family.mind_arity_ctxt) in
  let indices, _ = telescope (List.length family.mind_arity_ctxt - List.length block.mind_params_ctxt) rest in
  params, indices

let sort_of_family family =
  match family.mind_arity with RegularArity { mind_sort = s; _ } -> s | TemplateArity { template_level = s } -> s
