(* Writing a closure in the dump format. Terms are walked twice: once to meet the levels, which stand first in the text, and once to write them. *)
open Constr
open Declarations
open Textname

type sink = { put : string -> unit; levels : Levels.t; closure : Closure.t }

(* How large a text is, and where its brackets nest deepest. *)
type size = { mutable bytes : int; mutable depth : int; mutable deepest : int; mutable deepest_in : string }

let no_size () = { bytes = 0; depth = 0; deepest = 0; deepest_in = "" }

let count size name piece =
  size.bytes <- size.bytes + String.length piece;
  String.iter (fun c ->
    if c = '(' then size.depth <- size.depth + 1 else if c = ')' then size.depth <- size.depth - 1;
    if size.depth > size.deepest then begin size.deepest <- size.depth; size.deepest_in <- name () end) piece

let put_all sink pieces = List.iter sink.put pieces

let number = string_of_int

let separated sink items write = List.iter (fun item -> sink.put " "; write item) items

(* The parts of a universe that say something: every level is at least 1, so Set + 0 and Set + 1 say nothing beside another level. *)
let parts_of sink u =
  let parts = List.map (fun (l, n) -> Levels.name_of sink.levels l, n) (Univ.Universe.repr u) in
  let others = List.filter (fun (l, _) -> l <> "Set") parts in
  let high = List.fold_left (fun high (_, n) -> max high n) (-1) others in
  let parts = List.filter (fun (l, n) -> l <> "Set" || others = [] || n > high + 1) parts in
  let parts = List.sort_uniq Stdlib.compare parts in
  List.filter (fun (l, n) -> not (List.exists (fun (l', n') -> l = l' && n' > n) parts)) parts

let sort sink = function
  | Sorts.SProp -> refuse "SProp"
  | Sorts.Prop -> sink.put "Prop"
  | Sorts.Set -> sink.put "Set"
  | Sorts.Type u ->
    (match parts_of sink u with
     | ["Set", 0] -> sink.put "Set"
     | parts -> sink.put "(Type"; separated sink parts (fun (l, n) -> put_all sink ["("; l; " "; number n; ")"]); sink.put ")")

(* A match with its binders written out, where its family has lets in telescopes. *)
let without_lets closure case =
  let ci, _, _, (names, ret), _, _, branches = case in
  let block = Written.block closure.Closure.written (Written.canonical_block closure.Closure.written (fst ci.ci_ind)) in
  let family = block.mind_packets.(snd ci.ci_ind) in
  let has_lets = Block.has_lets family.mind_arity_ctxt || Array.exists (fun (context, _) -> Block.has_lets context) family.mind_nf_lc in
  if not has_lets then
    (Array.to_list names, ret), Array.map (fun (names, body) -> Array.to_list names, body) branches
  else
    let _, full_ret, _, _, full_branches = Inductive.expand_case_specif block case in
    let opened n t = let entries, rest = Block.telescope n t in List.map fst entries, rest in
    opened (Array.length names) full_ret, Array.mapi (fun i body -> opened (Array.length (fst branches.(i))) body) full_branches

let rec term sink t =
  match kind t with
  | Rel n -> put_all sink ["(tRel "; number (n - 1); ")"]
  | Sort s -> sink.put "(tSort "; sort sink s; sink.put ")"
  | Cast (c, _, _) -> term sink c
  | Prod (na, a, b) -> binder_form sink "tProd" na [a; b]
  | Lambda (na, a, b) -> binder_form sink "tLambda" na [a; b]
  | LetIn (na, v, a, b) -> binder_form sink "tLetIn" na [v; a; b]
  | App (f, args) -> sink.put "(tApp "; term sink f; separated sink (Array.to_list args) (term sink); sink.put ")"
  | Const (c, u) -> put_all sink ["(tConst "; Closure.constant_name sink.closure c u; ")"]
  | Ind ((m, i), u) -> put_all sink ["(tInd "; Closure.block_name sink.closure m u; " "; number i; ")"]
  | Construct (((m, i), j), u) -> put_all sink ["(tConstruct "; Closure.block_name sink.closure m u; " "; number i; " "; number (j - 1); ")"]
  | Case (ci, u, params, (names, ret), inversion, scrutinee, branches) ->
    case sink (ci, u, params, (names, ret), inversion, scrutinee, branches)
  | Int _ | Float _ -> put_all sink ["(tConst "; Closure.literal_name sink.closure t; ")"]
  | Fix ((places, i), (names, types, bodies)) ->
    sink.put "(tFix (";
    Array.iteri (fun k na ->
      if k > 0 then sink.put " ";
      put_all sink ["(def "; binder na; " "];
      term sink types.(k); sink.put " "; term sink bodies.(k);
      put_all sink [" "; number places.(k); ")"]) names;
    put_all sink [") "; number i; ")"]
  | _ -> refuse "a term that the format leaves out"

and binder_form sink word na parts =
  put_all sink ["("; word; " "; binder na];
  separated sink parts (term sink);
  sink.put ")"

and case sink ((ci, u, params, _, _, scrutinee, _) as whole) =
  let names_of names = String.concat " " (List.map binder names) in
  let (names, ret), branches = without_lets sink.closure whole in
  put_all sink ["(tCase ("; Closure.block_name sink.closure (fst ci.ci_ind) u; " "; number (snd ci.ci_ind); ") (params"];
  separated sink (Array.to_list params) (term sink);
  put_all sink [") (pred ("; names_of names; ") "];
  term sink ret; sink.put ") "; term sink scrutinee;
  Array.iter (fun (names, body) -> put_all sink [" (br ("; names_of names; ") "]; term sink body; sink.put ")") branches;
  sink.put ")"

let telescope sink entries =
  List.iter (fun (na, ty) -> put_all sink [" ("; binder na; " "]; term sink ty; sink.put ")") entries

let constructor sink block place i name =
  let args, result = Block.constructor_parts block place i in
  put_all sink ["\n    (ctor "; atom (Names.Id.to_string name); " (args"];
  telescope sink args;
  sink.put ") (result"; separated sink result (term sink); sink.put "))"

let family sink block place family =
  put_all sink ["\n  (family "; atom (Names.Id.to_string family.mind_typename); " (sort "];
  sort sink (Block.sort_of_family family);
  sink.put ") (indices";
  telescope sink (snd (Block.family_parts block place));
  sink.put ")";
  Array.iteri (constructor sink block place) family.mind_consnames;
  sink.put ")"

let declaration sink = function
  | Closure.Constant { constant; instance; ty; body } ->
    put_all sink ["(ConstantDecl "; Closure.constant_name sink.closure constant instance; " "];
    term sink ty; sink.put " ";
    (match body with None -> sink.put "None" | Some body -> term sink body);
    sink.put ")\n"
  | Closure.Block { block = m; instance } ->
    let block = Closure.block_at sink.closure m instance in
    put_all sink ["(InductiveDecl "; Closure.block_name sink.closure m instance; " (params"];
    telescope sink (fst (Block.family_parts block 0));
    sink.put ")";
    Array.iteri (family sink block) block.mind_packets;
    sink.put ")\n"
  | Closure.Literal { name; ty } -> put_all sink ["(ConstantDecl "; name; " "]; term sink ty; sink.put " None)\n"

let name_of_declaration = function
  | Closure.Constant { constant; _ } -> Names.Constant.to_string constant
  | Closure.Block { block; _ } -> Names.MutInd.to_string block
  | Closure.Literal { name; _ } -> name

let body sink closure ~entering main =
  List.iter (fun it -> entering (name_of_declaration it); declaration sink it) (List.rev closure.Closure.declarations);
  entering "main";
  sink.put "(main "; term sink main; sink.put "))\n"

(* Leaves out each blank that doesn't stand between two atoms. *)
let without_blanks put =
  let last = ref '(' and is_due = ref false and text = Buffer.create 4096 in
  let add c =
    if c = ' ' then is_due := is_atom_byte !last
    else begin
      if !is_due && is_atom_byte c then Buffer.add_char text ' ';
      Buffer.add_char text c;
      is_due := false;
      last := c
    end in
  fun piece -> Buffer.clear text; String.iter add piece; put (Buffer.contents text)

(* The bytes of the text as it is written with all its blanks, less the head. *)
let bytes_of closure levels main =
  let bytes = ref 0 in
  body { put = (fun piece -> bytes := !bytes + String.length piece); levels; closure } closure ~entering:ignore main;
  !bytes

(* Writes the environment with its head comment, and tells its size. *)
let environment put closure levels ~comment main =
  body { put = ignore; levels; closure } closure ~entering:ignore main;
  let size = no_size () and current = ref "" in
  let put piece = count size (fun () -> !current) piece; put piece in
  put_all { put; levels; closure } ["; "; String.map (function '(' -> '[' | ')' -> ']' | c -> c) comment];
  let sink = { put = if !Options.current.Options.lets then without_blanks put else put; levels; closure } in
  put_all sink ["\n(env 1 (levels"];
  let constraints = Levels.constraints levels in
  separated sink (Levels.listed levels) sink.put;
  sink.put ")\n(constraints";
  separated sink constraints (fun (word, a, b) -> put_all sink ["("; word; " "; a; " "; b; ")"]);
  sink.put ")\n";
  body sink closure ~entering:(fun name -> current := name) main;
  size
