(* What a dump writes of a constant: its closure, its levels and main, by the first choice that goes. *)
open Names
open Textname

type main =
  | Body   (* the constant's body is main, and the constant isn't declared itself: a program to run *)
  | Itself (* the constant is declared, and is main: a proof to check *)

type t = { closure : Closure.t; levels : Levels.t; main : Constr.t }

(* A constant with levels of its own for its universes, where it is polymorphic, and the environment with these. *)
let at_fresh_levels env c =
  let universes = Declareops.constant_polymorphic_context (Environ.lookup_constant c env) in
  if Univ.AbstractContext.is_empty universes then env, Univ.Instance.empty
  else
    let names = DirPath.make [Label.to_id (Constant.label c); Id.of_string "ErasecDump"] in
    let level i = Univ.Level.make (Univ.UGlobal.make names "" i) in
    let u = Univ.Instance.of_array (Array.init (Univ.AbstractContext.size universes) level) in
    let context = Univ.ContextSet.add_constraints (Univ.AbstractContext.instantiate u universes) (Univ.ContextSet.of_instance u) in
    Environ.push_context_set ~strict:true context env, u

let of_roots written ~visit_roots ~main =
  let closure = Closure.start written in
  visit_roots closure;
  let levels = Levels.of_closure closure ~visit_roots main in
  Notes.primitives := Closure.primitives levels.Levels.closure;
  { closure = levels.Levels.closure; levels; main }

let of_constant env c main =
  let constant = Environ.lookup_constant c env in
  let name = Constant.to_string c in
  let env, u = at_fresh_levels env c in
  let written = Written.start env (Some (Constant.canonical c)) in
  match main with
  | Itself -> of_roots written ~visit_roots:(fun closure -> Closure.visit_constant closure c u) ~main:(Constr.mkConstU (c, u))
  | Body ->
    if constant.Declarations.const_hyps <> [] then refuse "%s: it stands on section variables: close the section first" name;
    match Written.body_at (Written.constant written c) u with
    | None -> refuse "%s: it has no body" name
    | Some body -> of_roots written ~visit_roots:(fun closure -> Closure.visit closure name body) ~main:body

(* Tries one choice after another, until the levels of one can be had; the last one's reason is told where none can. *)
let rec first_that_goes make = function
  | [] -> refuse "nothing is chosen"
  | choice :: further ->
    Options.current := choice;
    Notes.reset ();
    match Vernacstate.System.protect make () with
    | made -> made
    | exception Levels.Conflict reason -> if further = [] then refuse "%s" reason else first_that_goes make further

(* What erasec takes. *)
let most_bytes = 16_777_216

let choices_for main = Options.tries (Options.as_set ~axioms:(main = Body))

(* A text that would be too large is made smaller, by the choice that went. *)
let constant env c main =
  let make () = of_constant env c main in
  let prepared = first_that_goes make (choices_for main) in
  let choice = !Options.current in
  if choice.Options.lets || not !Options.automatic || Writing.bytes_of prepared.closure prepared.levels prepared.main <= most_bytes then prepared
  else first_that_goes make [{ choice with Options.lets = true }]

let head_comment what =
  let phrases = List.map (fun phrase -> "; " ^ phrase) (Notes.phrases ()) in
  Printf.sprintf "%s, from Coq %s%s" (atom what) Coq_config.version (String.concat "" phrases)

(* Writes the text piece by piece, and tells its size. *)
let write put what { closure; levels; main } = Writing.environment put closure levels ~comment:(head_comment what) main
