(* What the program says of a refusal, with Coq's own names: its lines, and the terms in what explains it, read back and printed as Coq prints them. *)
open Names
open Constr

(* What a name of the dump stands for. *)
type meant =
  | Term of constr                        (* a constant at its instance, or a literal *)
  | Family of MutInd.t * Univ.Instance.t

type names = { full : (string, string) Hashtbl.t; meant : (string, meant) Hashtbl.t }

(* A block or constant that the dump declares more than once keeps the dump's name beside Coq's. *)
let names_of closure =
  let full = Hashtbl.create 97 and meant = Hashtbl.create 97 and seen = Hashtbl.create 97 in
  let add name written what =
    let coq = KerName.to_string name in
    Hashtbl.replace full written (if Hashtbl.mem seen coq then Printf.sprintf "%s[%s]" coq written else coq);
    Hashtbl.replace seen coq ();
    Hashtbl.replace meant written what in
  Closure.Key.iter (fun (name, u) written -> add name written (Term (mkConstU (Constant.make1 name, u)))) closure.Closure.constants;
  Closure.Key.iter (fun (name, u) written -> add name written (Family (MutInd.make1 name, u))) closure.Closure.blocks;
  Closure.Literals.iter (fun literal written -> Hashtbl.replace meant written (Term literal)) closure.Closure.literals;
  { full; meant }

let full_name names written = Option.default written (Hashtbl.find_opt names.full written)

(* ------------------------------------------------------------------ the line of a refusal *)

(* Of the numbers of broken rules, what a user of Coq can make of each. *)
let meaning = function
  | 5 -> "the universe constraints have no solution"
  | 8 -> "a term's type isn't below the one that is asked for; for Coq it may be by eta, by the irrelevance of a strict proposition, by primitive projections, or by computing with primitive numbers"
  | 12 -> "a fixpoint's body doesn't begin with its lambdas"
  | 13 -> "a recursive call isn't on a smaller argument, as the written guard sees it"
  | 14 -> "a constructor isn't strictly positive, as the written condition sees it"
  | 15 -> "a constructor's argument has a larger sort than its family"
  | _ -> "docs/STATUSES.md says what the number means"

(* A line of the program with the last word, where it is a name of the dump, as Coq has it. *)
let with_last_name names line =
  match List.rev (String.split_on_char ' ' line) with
  | last :: ("declaration" | "axiom" as before) :: rest -> String.concat " " (List.rev (full_name names last :: before :: rest))
  | _ -> line

let of_refusal names line =
  let told = with_last_name names line in
  match String.split_on_char ' ' line with
  | "broken" :: number :: _ -> Printf.sprintf "%s: %s" told (meaning (int_of_string number))
  | "turns" :: _ -> told ^ " (Set Erasec Turns 4294967295 allows the most; Set Dump Opaque Axioms checks less)"
  | _ -> told

(* ------------------------------------------------------------------ names in a line *)

let marks = [" "; "("; ")"; ","]

(* The words of a line and the marks between them, in order. *)
let pieces line =
  let is_mark c = List.mem (String.make 1 c) marks in
  let rec from start =
    if start >= String.length line then []
    else begin
      let stop = ref (start + 1) in
      if not (is_mark line.[start]) then while !stop < String.length line && not (is_mark line.[!stop]) do incr stop done;
      String.sub line start (!stop - start) :: from !stop
    end in
  from 0

let heads = ["tConst"; "tInd"; "tConstruct"; "tCase"]
let labels_of_names = ["place: "; "only where: "; "name: "; "family of: "]

(* A line in which names are Coq's full ones: those behind a head that a name follows, or all behind a label which says that a name stands there. *)
let with_full_names names line =
  let all = List.exists (fun label -> CString.is_prefix label line) labels_of_names in
  let write (before, written) piece =
    if List.mem piece marks then before, piece :: written
    else piece, (if all || List.mem before heads then full_name names piece else piece) :: written in
  String.concat "" (List.rev (snd (List.fold_left write ("", []) (pieces line))))

(* ------------------------------------------------------------------ terms in a line *)

(* A term is cut, or has a name that isn't the dump's. *)
exception Unread

type text = Word of string | Parts of text list

let rec texts = function
  | [] | ")" :: _ as rest -> [], rest
  | "(" :: rest ->
    let inner, rest = texts rest in
    let after, rest = texts (match rest with ")" :: rest -> rest | _ -> raise Unread) in
    Parts inner :: after, rest
  | word :: rest -> let after, rest = texts rest in Word word :: after, rest

let number word = match int_of_string_opt word with Some n -> n | None -> raise Unread

let binder = Context.make_annot (Name (Id.of_string "x")) Sorts.Relevant

let binders parts = CArray.map_of_list (fun _ -> binder) parts

let family names written i =
  match Hashtbl.find_opt names.meant written with
  | Some (Family (m, u)) -> (m, number i), u
  | _ -> raise Unread

let rec term names env text =
  let go = term names env in
  match text with
  | Parts [Word "tRel"; Word i] -> mkRel (number i + 1)
  | Parts [Word "tSort"; Word "Prop"] -> mkProp
  | Parts [Word "tSort"; Word "Set"] -> mkSet
  | Parts [Word "tSort"; _] -> mkType Univ.Universe.type1
  | Parts [Word "tProd"; _; a; b] -> mkProd (binder, go a, go b)
  | Parts [Word "tLambda"; _; a; b] -> mkLambda (binder, go a, go b)
  | Parts [Word "tLetIn"; _; v; a; b] -> mkLetIn (binder, go v, go a, go b)
  | Parts (Word "tApp" :: f :: args) -> mkApp (go f, CArray.map_of_list go args)
  | Parts [Word "tConst"; Word c] -> (match Hashtbl.find_opt names.meant c with Some (Term t) -> t | _ -> raise Unread)
  | Parts [Word "tInd"; Word m; Word i] -> mkIndU (family names m i)
  | Parts [Word "tConstruct"; Word m; Word i; Word j] -> let ind, u = family names m i in mkConstructU ((ind, number j + 1), u)
  | Parts (Word "tCase" :: Parts [Word m; Word i] :: Parts (Word "params" :: params) :: Parts [Word "pred"; Parts indices; ret] :: scrutinee :: branches) ->
    let ind, u = family names m i in
    let info = Inductiveops.make_case_info env ind Sorts.Relevant RegularStyle in
    mkCase (info, u, CArray.map_of_list go params, (binders indices, go ret), NoInvert, go scrutinee, CArray.map_of_list (branch names env) branches)
  | Parts [Word "tFix"; Parts definitions; Word i] ->
    let places, types, bodies = CList.split3 (List.map (definition names env) definitions) in
    mkFix ((Array.of_list places, number i), (binders definitions, Array.of_list types, Array.of_list bodies))
  | _ -> raise Unread

and branch names env = function
  | Parts [Word "br"; Parts fields; body] -> binders fields, term names env body
  | _ -> raise Unread

and definition names env = function
  | Parts [Word "def"; _; ty; body; Word place] -> number place, term names env ty, term names env body
  | _ -> raise Unread

(* A term under so many variables, of which number i is printed as vi. *)
let printed names env ~under text =
  let variable i = Context.Rel.Declaration.LocalAssum (Context.make_annot (Name (Id.of_string (Printf.sprintf "v%d" i))) Sorts.Relevant, mkProp) in
  let inside = List.fold_left (fun env i -> Environ.push_rel (variable i) env) env (List.rev (List.init under (fun i -> i))) in
  match texts (List.filter (fun piece -> piece <> " ") (pieces text)) with
  | [whole], [] -> Printer.pr_lconstr_env ~lax:true inside (Evd.from_env inside) (term names env whole)
  | _ -> raise Unread

(* ------------------------------------------------------------------ the lines that explain a refusal *)

(* A line whose label says under how many variables its term stands: the label, their number and the term. *)
let parted line =
  let is_at mark i = String.length line >= i + String.length mark && String.sub line i (String.length mark) = mark in
  let rec find mark i = if i >= String.length line then None else if is_at mark i then Some i else find mark (i + 1) in
  match find ", under " 0, find ": (" 0 with
  | Some comma, Some colon when comma < colon ->
    let words = String.split_on_char ' ' (String.sub line (comma + 8) (colon - comma - 8)) in
    (match int_of_string_opt (List.hd words) with
     | Some under -> Some (String.sub line 0 colon, under, String.sub line (colon + 2) (String.length line - colon - 2))
     | None -> None)
  | _ -> None

(* A line as Coq prints its term; none where it has none, or one that isn't read back. *)
let printed_line names env line =
  match parted line with
  | None -> None
  | Some (label, under, text) ->
    try Some Pp.(hov 2 (str label ++ str ":" ++ spc () ++ printed names env ~under text))
    with e when e = Unread || CErrors.noncritical e -> None

(* The lines, each with its term as Coq prints it. Where two of these are alike though the dump's differ, as they may be at levels or copies of families, all are the dump's with full names. *)
let explanation names env lines =
  let printed = List.map (printed_line names env) lines in
  let term_of = function
    | Some pp -> (match CString.split_on_char ':' (Pp.string_of_ppcmds pp) with _ :: term -> Some (String.trim (String.concat ":" term)) | [] -> None)
    | None -> None in
  let terms = CList.map_filter term_of printed in
  let tells_apart = List.length (CList.uniquize terms) = List.length terms in
  let line text pp = match pp with Some pp when tells_apart -> pp | _ -> Pp.str (with_full_names names text) in
  List.map2 line lines printed
