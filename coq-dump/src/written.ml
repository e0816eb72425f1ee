(* Constants and blocks as the dump writes them, with their universes abstract: after every change that the choice asks for, each of which is a conversion but for those that `notes.ml` tells. *)
open Names
open Constr
open Declarations
open Textname

type constant = { ty : constr; body : constr option; universes : Univ.AbstractContext.t }

type t = {
  mutable env : Environ.env;
  mutable is_plain : bool;               (* nothing is written otherwise than Coq types it, but for templates and Set *)
  root : KerName.t option;               (* the dumped constant, which keeps its body whatever the options say *)
  templates : Template.t;
  constants : (KerName.t, constant) Hashtbl.t;
  blocks : (KerName.t, mutual_inductive_body) Hashtbl.t;
}

let start env root =
  { env; is_plain = true; root; templates = Template.start env !Options.current.Options.sharing; constants = Hashtbl.create 97; blocks = Hashtbl.create 97 }

(* A name that a module alias or an Include made stands for its canonical one, where that is there. *)
let canonical_constant w c =
  let c' = Constant.make1 (Constant.canonical c) in
  if Constant.UserOrd.equal c c' || not (Environ.mem_constant c' w.env) then c else c'

let canonical_block w m =
  let m' = MutInd.make1 (MutInd.canonical m) in
  if MutInd.UserOrd.equal m m' || not (Environ.mem_mind m' w.env) then m else m'

let remembered table key make =
  match Hashtbl.find_opt table key with
  | Some found -> found
  | None -> let found = make () in Hashtbl.add table key found; found

(* ------------------------------------------------------------------ constants *)

let opaque_body w name constant =
  match Global.body_of_constant_body Library.indirect_accessor constant with
  | Some (body, Opaqueproof.PrivatePolymorphic context, _) when not (Univ.ContextSet.is_empty context) ->
    (* the levels that only the proof has are the same at each instance, and free *)
    w.is_plain <- false;
    w.env <- Environ.push_context_set ~strict:true (Univ.ContextSet.of_set (Univ.ContextSet.levels context)) w.env;
    body
  | Some (body, _, _) -> body
  | None -> refuse "%s: an opaque proof that can't be read" name

(* Where something was contracted, Coq's kernel types the new body, guard included, finds the old one's type, and finds the two bodies convertible: so a reduction changes nothing but by
   conversion. *)
let kernel_agrees env name body reduced =
  let kernel_says what f =
    try ignore (f ()) with e when CErrors.noncritical e -> refuse "%s: its reduced body: the kernel refuses the %s" name what in
  let typed body = (Typeops.infer env body).Environ.uj_type in
  kernel_says "term" (fun () -> typed reduced);
  kernel_says "type" (fun () -> Reduction.conv env (typed body) (typed reduced));
  kernel_says "conversion" (fun () -> Reduction.conv env body reduced)

let guarded_body env name body =
  let contracted = Etas.term env body in
  if contracted != body then kernel_agrees env name body contracted;
  let body = contracted in
  let reduced = match !Options.current.Options.guard with
    | Options.As_written -> body
    | Options.Where_needed -> Guarding.where_needed env body
    | Options.Reduced { unfolds } -> Guarding.for_written_guard env ~unfolds body in
  if reduced != body then kernel_agrees env name body reduced;
  reduced

let is_axiom w c = !Options.current.Options.axioms && not (Option.equal KerName.equal w.root (Some (Constant.canonical c)))

let body_of w c constant env =
  let name = Constant.to_string c in
  match constant.const_body with
  | Undef _ -> None
  | Primitive _ -> None
  | Def body -> Some (Sharing.term env (guarded_body env name body))
  | OpaqueDef _ when is_axiom w c -> None
  | OpaqueDef _ -> Some (Sharing.term env (guarded_body env name (opaque_body w name constant)))

(* A family has uses in Prop: its copy there is one of the environment's from now on. *)
let meets_in_prop w m =
  let before = w.env in
  w.env <- Propositional.with_copy w.env m;
  if w.env != before then begin
    Propositional.name_copy w.env m;
    incr Notes.propositional;
    w.is_plain <- false
  end

(* The sorts and levels of a declaration's term as they are written. *)
let levels_changed w owner t = Sortform.term ~change:(Template.level_in w.templates owner) t

let make_constant w c =
  let constant = Environ.lookup_constant c w.env in
  let universes = Declareops.constant_polymorphic_context constant in
  let env = Environ.push_context ~strict:false (Univ.AbstractContext.repr universes) w.env in
  let owner = Constant.canonical c in
  let in_prop t = Propositional.term (meets_in_prop w) env t in
  let term t = Template.in_declaration w.templates owner (levels_changed w owner t) in
  let ty = term (in_prop (Projections.expand env (Etas.term env constant.const_type))) in
  let own = Univ.make_abstract_instance universes in
  let body = Option.map (fun body -> term (in_prop (Projections.body env c own constant.const_type body))) (body_of w c constant env) in
  { ty; body; universes }

let constant w c = remembered w.constants (Constant.canonical c) (fun () -> make_constant w c)

let type_at constant u = Vars.subst_instance_constr u constant.ty
let body_at constant u = Option.map (Vars.subst_instance_constr u) constant.body

(* ------------------------------------------------------------------ blocks *)

(* The changes that are made in every term of the block. *)
let changes_of w m block =
  let templates = w.templates and owner = MutInd.canonical m in
  let in_sort universe s = Sortform.template_sort (match s with Sorts.Type u -> Sorts.sort_of_univ (universe u) | s -> s) in
  match block.mind_template with
  | Some _ when Template.is_copied templates m ->
    let term, universe = Template.in_block templates m in
    (fun t -> levels_changed w owner (term t)), in_sort universe
  | Some template ->
    let subst = Template.substitution templates template in
    (fun t -> levels_changed w owner (Vars.subst_univs_level_constr subst t)), in_sort (Univ.subst_univs_level_universe subst)
  | None ->
    let change = Template.level_in templates owner in
    let uses = if Template.is_copied templates m then fst (Template.in_block templates m) else Template.in_declaration templates owner in
    (fun t -> uses (levels_changed w owner t)), Sortform.sort ~change

let is_primitive_record block = match block.mind_record with PrimRecord _ -> true | _ -> false

let is_cumulative block = block.mind_variance <> None

let note w count = incr count; w.is_plain <- false

let make_block w m =
  let block = Environ.lookup_mind m w.env in
  if is_primitive_record block then note w Notes.records;
  if is_cumulative block then note w Notes.cumulative;
  let universes = Declareops.inductive_polymorphic_context block in
  let env = Environ.push_context ~strict:false (Univ.AbstractContext.repr universes) w.env in
  let term, sort = changes_of w m block in
  let met = meets_in_prop w in
  let context ctx = Context.Rel.map term (fst (Propositional.context met env (fst (Projections.expand_context env ctx)))) in
  let params = List.length block.mind_params_ctxt in
  let constructor (ctx, t) =
    let ctx = Exposing.in_constructor env m (List.length ctx - params) ctx in
    let ctx, inner = Projections.expand_context env ctx in
    let ctx, _ = Propositional.context met env ctx in
    Context.Rel.map term ctx, term (Propositional.term met inner (Projections.expand inner t)) in
  let changed = Block.with_terms block ~term:(fun t -> term (Projections.expand env t)) ~context ~sort ~constructor in
  { changed with
    mind_record = if is_primitive_record block && Projections.is_chosen () then NotRecord else block.mind_record;
    mind_universes = if Template.is_copied w.templates m then Polymorphic (Template.context_of w.templates m) else block.mind_universes;
    mind_template = None;
    mind_variance = None }

let block w m = remembered w.blocks (MutInd.canonical m) (fun () -> make_block w m)
