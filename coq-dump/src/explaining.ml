(* `Dump Explain`: all that stands in the way of a constant's dump at once, or what the dump would be. *)
open Names
open Textname

let lines title items = if items = [] then [] else title :: List.map (fun item -> "  " ^ item) items

(* The reasons of all declarations of the closure that can't be written, one for each. *)
let refusals env c =
  Options.current := List.hd (Preparing.choices_for Preparing.Itself);
  Notes.reset ();
  let reasons = ref [] in
  let env, u = Preparing.at_fresh_levels env c in
  let written = Written.start env (Some (Constant.canonical c)) in
  let closure = Closure.start ~on_refusal:(fun reason -> reasons := reason :: !reasons) written in
  Closure.visit_constant closure c u;
  List.rev !reasons

let axioms closure =
  let axiom = function
    | Closure.Constant { constant; body = None; _ } -> Some (Constant.to_string constant)
    | Closure.Literal { name; _ } -> Some name
    | _ -> None in
  List.rev (CList.map_filter axiom closure.Closure.declarations)

let would_be env c =
  let prepared = Preparing.constant env c Preparing.Itself in
  let size = Preparing.write ignore "" prepared in
  let first = Printf.sprintf "nothing refuses: %d declarations, %d bytes, brackets %d deep in %s"
    (List.length prepared.Preparing.closure.Closure.declarations) size.Writing.bytes size.Writing.deepest size.Writing.deepest_in in
  first :: lines "written otherwise than Coq has it:" (Notes.phrases ()) @ lines "axioms:" (axioms prepared.Preparing.closure)

let explain reference =
  let c = Dumping.constant_of reference in
  let env = Global.env () in
  let told = Dumping.in_small_heap (fun () ->
    match refusals env c with
    | [] -> (try would_be env c with Refused reason -> lines "what refuses:" [reason])
    | reasons -> lines (Printf.sprintf "what refuses (%d):" (List.length reasons)) reasons) in
  Dumping.notice "%s\n%s" (Constant.to_string c) (String.concat "\n" told)
