(* Reads a dump and gives each declaration to Coq's kernel, with no elaboration in between. The kernel has eta, its own guard and its own positivity, so it takes more than the profile. *)
open Names
open Constr
open Entries

exception Broken of string
let broken fmt = Printf.ksprintf (fun s -> raise (Broken s)) fmt
exception Not_a_dump of string
let bad fmt = Printf.ksprintf (fun s -> raise (Not_a_dump s)) fmt

type sexp = A of string | L of sexp list

let parse s =
  let n = String.length s in
  let is_atom c = match c with
    | 'a'..'z' | 'A'..'Z' | '0'..'9' | '_' | '.' | '\'' | '-' -> true | _ -> false in
  let stack = ref [] and cur = ref [] and depth = ref 0 and i = ref 0 in
  while !i < n do
    (match s.[!i] with
     | '(' -> stack := !cur :: !stack; cur := []; incr depth; incr i
     | ')' ->
       if !depth = 0 then bad "a closing bracket too many";
       let l = L (List.rev !cur) in
       cur := l :: List.hd !stack; stack := List.tl !stack; decr depth; incr i
     | ' ' | '\t' | '\n' | '\r' -> incr i
     | ';' -> while !i < n && s.[!i] <> '\n' do incr i done
     | c when is_atom c ->
       let j = ref !i in
       while !j < n && is_atom s.[!j] do incr j done;
       cur := A (String.sub s !i (!j - !i)) :: !cur; i := !j
     | _ -> bad "stray byte at %d" !i)
  done;
  match !depth, !cur with
  | 0, [ L _ as x ] -> x
  | _ -> bad "not one form"

let num = function A s -> (try int_of_string s with _ -> bad "number %s" s) | _ -> bad "number"

type fam = { nind : int; nargs : int list; cnames : string list }
type block = { mind : MutInd.t; npar : int; fams : fam list; complete : bool; own : int option }

type st = {
  mutable env : Environ.env;
  mutable levels : (string * Univ.Level.t) list;
  decls : (string, [ `C of Constant.t | `B of block ]) Hashtbl.t;
  mutable count : int;
}

let dp = DirPath.make [ Id.of_string "Judged" ]
let mp = ModPath.MPfile dp

let annot = Context.make_annot Anonymous Sorts.Relevant

let level st s =
  if s = "Set" then Univ.Level.set
  else try List.assoc s st.levels with Not_found -> broken "undeclared level %s" s

let sort st = function
  | A "Prop" -> Sorts.prop
  | A "Set" -> Sorts.set
  | L (A "Type" :: (_ :: _ as parts)) ->
    let one = function
      | L [ A l; n ] ->
        let rec up u n = if n = 0 then u else up (Univ.Universe.super u) (n - 1) in
        up (Univ.Universe.make (level st l)) (num n)
      | _ -> bad "level expression" in
    let us = List.map one parts in
    Sorts.sort_of_univ (List.fold_left Univ.Universe.sup (List.hd us) (List.tl us))
  | _ -> bad "sort"

(* [own]: the name of the block whose constructors are read, with the number of its families,
   so that its families are the outermost variables *)
let rec term st ?own depth t =
  let tm = term st ?own in
  match t with
  | L [ A "tRel"; n ] ->
    let n = num n in
    if n >= depth then broken "unbound variable %d" n else mkRel (n + 1)
  | L [ A "tSort"; s ] -> mkSort (sort st s)
  | L [ A "tProd"; _; a; b ] -> mkProd (annot, tm depth a, tm (depth + 1) b)
  | L [ A "tLambda"; _; a; b ] -> mkLambda (annot, tm depth a, tm (depth + 1) b)
  | L [ A "tLetIn"; _; v; a; b ] -> mkLetIn (annot, tm depth v, tm depth a, tm (depth + 1) b)
  | L (A "tApp" :: f :: (_ :: _ as args)) ->
    mkApp (tm depth f, Array.of_list (List.map (tm depth) args))
  | L [ A "tConst"; A k ] ->
    (match Hashtbl.find_opt st.decls k with
     | Some (`C c) -> mkConst c | _ -> broken "unknown constant %s" k)
  | L [ A "tInd"; A k; i ] ->
    (match own, Hashtbl.find_opt st.decls k with
     | Some (o, n), _ when o = k ->
       if num i >= n then broken "bad family number" else mkRel (depth + n - num i)
     | _, Some (`B b) ->
       if num i >= List.length b.fams then broken "bad family number" else mkInd (b.mind, num i)
     | _ -> broken "unknown block %s" k)
  | L [ A "tConstruct"; A k; i; c ] ->
    let b, f = family st k (num i) in
    if num c >= List.length f.cnames then broken "bad constructor number";
    mkConstruct ((b.mind, num i), num c + 1)
  | L (A "tCase" :: L [ A k; i ] :: L (A "params" :: ps) :: L [ A "pred"; L nas; ret ] :: scrut :: brs) ->
    let i = num i in
    let b, f = family st k i in
    if List.length ps <> b.npar then broken "wrong count of parameters";
    if List.length nas <> f.nind + 1 then broken "wrong count of pred names";
    if List.length brs <> List.length f.nargs then broken "wrong count of branches";
    let brs = List.map2 (fun br n -> match br with
      | L [ A "br"; L nas; body ] ->
        if List.length nas <> n then broken "wrong count of branch names";
        (Array.make n annot, body)
      | _ -> bad "branch") brs f.nargs in
    let ci = Inductiveops.make_case_info st.env (b.mind, i) Sorts.Relevant RegularStyle in
    let m = f.nind + 1 in
    mkCase (ci, Univ.Instance.empty,
            Array.of_list (List.map (tm depth) ps),
            (Array.make m annot, tm (depth + m) ret), NoInvert, tm depth scrut,
            Array.of_list (List.map (fun (nas, body) ->
              (nas, tm (depth + Array.length nas) body)) brs))
  | L [ A "tFix"; L defs; i ] ->
    let n = List.length defs in
    if num i >= n then bad "fixpoint index";
    let defs = List.map (function
      | L [ A "def"; _; ty; body; r ] -> (tm depth ty, tm (depth + n) body, num r)
      | _ -> bad "definition") defs in
    let arr f = Array.of_list (List.map f defs) in
    mkFix ((arr (fun (_, _, r) -> r), num i),
           (Array.make n annot, arr (fun (t, _, _) -> t), arr (fun (_, b, _) -> b)))
  | L [ A "tCast"; t; _; ty ] ->
    mkApp (mkLambda (annot, tm depth ty, mkRel 1), [| tm depth t |])
  | L (A h :: _) -> bad "term %s" h
  | _ -> bad "term"

and family st k i =
  match Hashtbl.find_opt st.decls k with
  | Some (`B b) when b.complete ->
    (match List.nth_opt b.fams i with
     | Some f -> b, f | None -> broken "bad family number")
  | _ -> broken "unknown block %s" k

let safe s = String.map (fun c -> match c with
  | 'a'..'z' | 'A'..'Z' | '0'..'9' | '_' | '\'' -> c | _ -> '_') s

let label st s = st.count <- st.count + 1; Label.of_id (Id.of_string (Printf.sprintf "d%d_%s" st.count (safe s)))

let declare st name d =
  if Hashtbl.mem st.decls name then broken "declared twice: %s" name;
  Hashtbl.add st.decls name d

let entries l = List.map (function L [ _; t ] -> t | _ -> bad "telescope entry") l

let decl st = function
  | L [ A "ConstantDecl"; A name; ty; body ] ->
    if Hashtbl.mem st.decls name then broken "declared twice: %s" name;
    let ty = term st 0 ty in
    let c = Constant.make2 mp (label st name) in
    let entry = match body with
      | A "None" -> ParameterEntry { parameter_entry_secctx = None; parameter_entry_type = ty;
          parameter_entry_universes = Monomorphic_entry; parameter_entry_inline_code = None }
      | b -> DefinitionEntry { const_entry_body = term st 0 b; const_entry_secctx = None;
          const_entry_type = Some ty; const_entry_universes = Monomorphic_entry;
          const_entry_inline_code = false } in
    let cb = Term_typing.translate_constant ~sec_univs:None st.env c entry in
    st.env <- Environ.add_constant c cb st.env;
    declare st name (`C c)
  | L (A "InductiveDecl" :: A name :: L (A "params" :: params) :: fams) ->
    if Hashtbl.mem st.decls name then broken "declared twice: %s" name;
    let m = MutInd.make2 mp (label st name) in
    let params = entries params in
    let np = List.length params in
    let ctx = List.fold_left (fun (ctx, k) t ->
      Context.Rel.Declaration.LocalAssum (annot, term st k t) :: ctx, k + 1) ([], 0) params |> fst in
    let nf = List.length fams in
    let parts = List.map (function
      | L (A "family" :: A fname :: L [ A "sort"; s ] :: L (A "indices" :: inds) :: ctors) ->
        (fname, sort st s, entries inds, List.map (function
          | L [ A "ctor"; A c; L (A "args" :: args); L (A "result" :: res) ] -> (c, entries args, res)
          | _ -> bad "constructor") ctors)
      | _ -> bad "family") fams in
    let rec prods ?own k l stop = match l with
      | [] -> stop k
      | a :: l -> let a = term st ?own k a in mkProd (annot, a, prods ?own (k + 1) l stop) in
    let own = (name, nf) in
    let inds = List.mapi (fun i (fname, s, inds, ctors) ->
      { mind_entry_typename = Id.of_string (Printf.sprintf "t%d_%s" i (safe fname));
        mind_entry_arity = prods np inds (fun _ -> mkSort s);
        mind_entry_consnames = List.mapi (fun j (c, _, _) ->
          (* the same name for the same text, so that the kernel sees a name given twice *)
          ignore j; Id.of_string (Printf.sprintf "k%d_%s" i (safe c))) ctors;
        mind_entry_lc = List.map (fun (_, args, res) ->
          if List.length res <> List.length inds then broken "wrong count of result terms";
          prods ~own np args (fun k ->
            let ps = List.init np (fun q -> mkRel (k - q)) in
            let rs = List.map (term st ~own k) res in
            let f = mkRel (k + nf - i) in
            if ps @ rs = [] then f else mkApp (f, Array.of_list (ps @ rs)))) ctors }) parts in
    let entry = { mind_entry_record = None; mind_entry_finite = Declarations.Finite;
      mind_entry_params = ctx; mind_entry_inds = inds;
      mind_entry_universes = Monomorphic_ind_entry; mind_entry_variance = None;
      mind_entry_private = None } in
    let mib = Indtypes.check_inductive st.env ~sec_univs:None m entry in
    st.env <- Environ.add_mind m mib st.env;
    declare st name (`B { mind = m; npar = np; complete = true; own = None;
      fams = List.map (fun (_, _, inds, ctors) ->
        { nind = List.length inds; nargs = List.map (fun (_, a, _) -> List.length a) ctors;
          cnames = List.map (fun (c, _, _) -> c) ctors }) parts })
  | _ -> bad "declaration"

let one_line s = String.concat " " (List.filter (fun w -> w <> "")
  (String.split_on_char ' ' (String.map (fun c -> if c = '\n' then ' ' else c) s)))

(* Prints what the kernel says of a dump, and the processor seconds that the text's reading and the kernel took together. *)
let judge file =
  let ic = open_in_bin file in
  let text = really_input_string ic (in_channel_length ic) in
  close_in ic;
  let place = ref "text" in
  let began = Sys.time () in
  try
    match parse text with
    | L (A "env" :: A "1" :: L (A "levels" :: ls) :: L (A "constraints" :: cs) :: rest) ->
      let st = { env = Global.env (); levels = []; decls = Hashtbl.create 97; count = 0 } in
      place := "levels";
      List.iteri (fun i l -> match l with
        | A "Set" -> bad "Set among the levels"
        | A l ->
          if List.mem_assoc l st.levels then broken "a level twice: %s" l;
          st.levels <- (l, Univ.Level.make (Univ.UGlobal.make dp "" (i + 1))) :: st.levels
        | _ -> bad "level") ls;
      let set = List.fold_left (fun s (_, l) -> Univ.Level.Set.add l s) Univ.Level.Set.empty st.levels in
      st.env <- Environ.push_context_set ~strict:true (set, Univ.Constraints.empty) st.env;
      place := "constraints";
      let cs = List.map (function
        | L [ A r; A a; A b ] ->
          let r = match r with "lt" -> Univ.Lt | "le" -> Univ.Le | "eq" -> Univ.Eq | _ -> bad "constraint" in
          (level st a, r, level st b)
        | _ -> bad "constraint") cs in
      List.iter (fun c ->
        st.env <- Environ.add_constraints (Univ.Constraints.singleton c) st.env) cs;
      let rec go = function
        | [ L [ A "main"; t ] ] ->
          place := "main";
          let t = term st 0 t in
          let _ = Typeops.infer st.env t in
          Printf.printf "accepted in %.4f s\n" (Sys.time () -. began)
        | d :: l ->
          (match d with
           | L (_ :: A n :: _) -> place := "declaration " ^ n | _ -> ());
          decl st d; go l
        | [] -> bad "no main" in
      go rest
    | _ -> bad "no env"
  with
  | Broken s -> Printf.printf "refused in %s: %s\n" !place s
  | Not_a_dump s -> Printf.printf "not a dump: %s\n" s
  | Assert_failure (f, l, _) ->
    Printf.printf "refused in %s: a kernel assertion at %s:%d\n" !place f l
  | Stack_overflow -> Printf.printf "refused in %s: stack overflow\n" !place
  | e when CErrors.noncritical e ->
    let said = try one_line (Pp.string_of_ppcmds (CErrors.print e)) with other when CErrors.noncritical other -> "" in
    Printf.printf "refused in %s: %s\n" !place said
