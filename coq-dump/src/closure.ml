(* The transitive closure of constants: what their dump declares, in the order of dependency. *)
open Names
open Constr
open Declarations
open Textname

(* A universe polymorphic constant or block is declared once for each instance of its universes. *)
type declaration =
  | Constant of { constant : Constant.t; instance : Univ.Instance.t; ty : constr; body : constr option }
  | Block of { block : MutInd.t; instance : Univ.Instance.t }
  | Literal of { name : string; ty : constr } (* a primitive integer or float, as a constant without a body *)

(* A canonical name at an instance of its universes. *)
module Key = Hashtbl.Make (struct
  type t = KerName.t * Univ.Instance.t
  let equal (name, u) (name', u') = KerName.equal name name' && Univ.Instance.equal u u'
  let hash (name, u) = Hashset.Combine.combine (KerName.hash name) (Univ.Instance.hash u)
end)

(* Primitive integers and floats. *)
module Literals = Hashtbl.Make (struct
  type t = constr
  let equal = Constr.equal
  let hash = Constr.hash
end)

type t = {
  written : Written.t;
  canonical_level : Univ.Level.t -> Univ.Level.t; (* one level of those that are equal *)
  on_refusal : (string -> unit) option;           (* where refusals are only told, and the closure goes on *)
  mutable declarations : declaration list;        (* the newest first *)
  constants : string Key.t;                       (* the names in the dump *)
  blocks : string Key.t;
  literals : string Literals.t;
  entered : unit Key.t;
  refused : string Key.t;                         (* declarations that can't be written, with the reason *)
  taken : taken;
  mutable templates : MutInd.t list;              (* the newest first *)
  mutable other_constants : Cset_env.t;           (* names in the closure's terms that stand for canonical ones *)
  mutable other_blocks : unit Mindmap_env.t;
}

let start ?on_refusal ?(canonical_level = fun l -> l) written =
  { written; canonical_level; on_refusal; declarations = []; constants = Key.create 97; blocks = Key.create 97; literals = Literals.create 7;
    entered = Key.create 97; refused = Key.create 7; taken = Hashtbl.create 97; templates = [];
    other_constants = Cset_env.empty; other_blocks = Mindmap_env.empty }

let env closure = closure.written.Written.env

let canonical_instance closure u =
  if Univ.Instance.is_empty u then u else Univ.Instance.of_array (Array.map closure.canonical_level (Univ.Instance.to_array u))

let constant_name closure c u = Key.find closure.constants (Constant.canonical c, canonical_instance closure u)
let block_name closure m u = Key.find closure.blocks (MutInd.canonical m, canonical_instance closure u)

let literal_name closure t = Literals.find closure.literals t

let block_at closure m u = Block.at (Written.block closure.written m) (canonical_instance closure u)

let is_strict () = !Options.current.Options.strict

let check_sort where = function
  | Sorts.SProp -> refuse "%s: SProp (Set Dump Strict Propositions writes it as Prop)" where
  | _ -> ()

(* A primitive type, operation or literal, which the format has no form for: told, or refused. *)
let check_primitive where what =
  if not !Options.current.Options.primitives then refuse "%s: %s (Set Dump Primitive Axioms writes it as a constant without a body)" where what

(* Visits a declaration once. A refusal is kept, and comes again where the declaration is met again. *)
let once closure key where visit_it =
  match Key.find_opt closure.refused key with
  | Some reason -> raise (Refused reason)
  | None when Key.mem closure.entered key -> ()
  | None ->
    Key.add closure.entered key ();
    try visit_it () with Refused reason ->
      (match closure.on_refusal with
       | Some tell -> tell reason
       | None -> Key.add closure.refused key reason; raise (Refused reason))

let rec visit closure where t =
  match kind t with
  | Rel _ -> ()
  | Var id -> refuse "%s: a section variable, %s" where (Id.to_string id)
  | Meta _ | Evar _ -> refuse "%s: an existential variable" where
  | Sort s -> check_sort where s
  | Cast (c, _, _) -> visit closure where c
  | Const (c, u) -> visit_constant closure c u
  | Ind ((m, _), u) | Construct (((m, _), _), u) -> visit_block closure m u
  | Case (ci, u, params, (_, ret), inversion, scrutinee, branches) ->
    (match inversion with NoInvert -> () | CaseInvert _ -> refuse "%s: a match that inverts a family in SProp" where);
    visit_block closure (fst ci.ci_ind) u;
    Array.iter (visit closure where) params;
    visit closure where ret;
    visit closure where scrutinee;
    Array.iter (fun (_, body) -> visit closure where body) branches
  | Proj (p, _) -> refuse "%s: the primitive projection %s" where (Projection.to_string p)
  | CoFix _ -> refuse "%s: a cofixpoint" where
  | Int n -> visit_literal closure where t ~what:"integer" ~ty:(Typeops.type_of_int (env closure)) ~base:("int_" ^ Uint63.to_string n)
  | Float x -> visit_literal closure where t ~what:"float" ~ty:(Typeops.type_of_float (env closure)) ~base:("float_" ^ Float64.to_string x)
  | Array _ -> refuse "%s: a primitive array" where
  | Fix _ | Prod _ | Lambda _ | LetIn _ | App _ -> Constr.iter (visit closure where) t

and visit_literal closure where t ~what ~ty ~base =
  check_primitive where ("a primitive " ^ what);
  if not (Literals.mem closure.literals t) then begin
    visit closure where ty;
    let name = fresh closure.taken (String.map (fun c -> if c = '.' then '_' else c) base) in
    Literals.add closure.literals t name;
    closure.declarations <- Literal { name; ty } :: closure.declarations
  end

and visit_constant closure named u =
  let c = Written.canonical_constant closure.written named in
  if c != named then closure.other_constants <- Cset_env.add named closure.other_constants;
  let u = canonical_instance closure u in
  let key = Constant.canonical c, u in
  let where = Constant.to_string c in
  once closure key where (fun () ->
    let constant = try Environ.lookup_constant c (env closure) with Not_found -> refuse "%s: no such constant" where in
    if constant.const_hyps <> [] then refuse "%s: it stands on section variables: close the section first" where;
    (match constant.const_body with
     | Primitive _ -> check_primitive where (if Environ.is_primitive_type (env closure) c then "a primitive type" else "a primitive operation")
     | Undef _ | Def _ | OpaqueDef _ -> ());
    let written = Written.constant closure.written c in
    let ty = Written.type_at written u and body = Written.body_at written u in
    visit closure where ty;
    Option.iter (visit closure where) body;
    Key.add closure.constants key (fresh closure.taken (KerName.to_string (Constant.user c)));
    closure.declarations <- Constant { constant = c; instance = u; ty; body } :: closure.declarations)

and visit_block closure named u =
  let m = Written.canonical_block closure.written named in
  if m != named then closure.other_blocks <- Mindmap_env.add named () closure.other_blocks;
  let u = canonical_instance closure u in
  let key = MutInd.canonical m, u in
  let where = MutInd.to_string m in
  once closure key where (fun () ->
    check_block closure where (Environ.lookup_mind m (env closure)) m;
    let block = block_at closure m u in
    Array.iteri (visit_family closure where block) block.mind_packets;
    Key.add closure.blocks key (fresh closure.taken (KerName.to_string (MutInd.user m)));
    closure.declarations <- Block { block = m; instance = u } :: closure.declarations)

(* What the format can't take of a block as Coq has it, and what is told of the rest. *)
and check_block closure where block m =
  let choice = !Options.current in
  if block.mind_hyps <> [] then refuse "%s: it stands on section variables: close the section first" where;
  if block.mind_finite = CoFinite then refuse "%s: a coinductive type" where;
  if Written.is_primitive_record block && not choice.Options.projections then
    refuse "%s: a record with primitive projections (Set Dump Match Projections writes it as a plain family)" where;
  if Written.is_cumulative block && not choice.Options.cumulative then
    refuse "%s: a cumulative inductive type (Set Dump Plain Cumulative writes it as a plain one)" where;
  if block.mind_template <> None then closure.templates <- m :: closure.templates

and visit_family closure where block place family =
  check_sort where (Block.sort_of_family family);
  let visit_all = List.iter (fun (_, ty) -> visit closure where ty) in
  let params, indices = Block.family_parts block place in
  visit_all params;
  visit_all indices;
  Array.iteri (fun i _ ->
    let args, result = Block.constructor_parts block place i in
    visit_all args;
    List.iter (visit closure where) result) family.mind_nf_lc

(* How many of its declarations are primitive types, operations and literals. *)
let primitives closure =
  let is_primitive = function
    | Literal _ -> true
    | Block _ -> false
    | Constant { constant; _ } -> (match (Environ.lookup_constant constant (env closure)).const_body with Primitive _ -> true | _ -> false) in
  List.length (List.filter is_primitive closure.declarations)
