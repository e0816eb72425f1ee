(* The commands that write dumps of a constant: what each writes, and where. *)
open Names
open Textname

let is_monomorphic constant =
  match constant.Declarations.const_universes with Declarations.Monomorphic -> true | Declarations.Polymorphic _ -> false

let has_body constant =
  match constant.Declarations.const_body with Declarations.Def _ | Declarations.OpaqueDef _ -> true | _ -> false

(* ------------------------------------------------------------------ files *)

(* Coq's minor heap has 256 MB, all of which are touched before anything in it is collected. A dump makes much and keeps little: it runs in a heap of 2 MB. *)
let in_small_heap f =
  let usual = Gc.get () in
  Gc.set { usual with Gc.minor_heap_size = min usual.Gc.minor_heap_size 262_144 };
  Fun.protect ~finally:(fun () -> Gc.set usual) f

let remove file = try Sys.remove file with Sys_error _ -> ()

(* Writes a file by way of one beside it, so that a refusal leaves no half of a dump. An older file of that name goes before anything is tried. *)
let to_file file write =
  let part = file ^ ".part" in
  remove file;
  let channel = open_out_bin part in
  match in_small_heap (fun () -> write (output_string channel)) with
  | result -> close_out channel; Sys.rename part file; result
  | exception e -> close_out_noerr channel; remove part; raise e

let constant_of reference =
  match Nametab.global reference with
  | GlobRef.ConstRef c -> c
  | _ -> CErrors.user_err Pp.(str "Dump wants a constant: " ++ Libnames.pr_qualid reference)

let notice fmt = Printf.ksprintf (fun text -> Feedback.msg_notice (Pp.str text)) fmt

let warning fmt = Printf.ksprintf (fun text -> Feedback.msg_warning (Pp.str text)) fmt

let most_bytes = Preparing.most_bytes

(* What erasec takes. *)
let most_nesting = 1_000

let warn_of_size name size =
  if size.Writing.bytes > most_bytes then warning "%s: the dump has %d bytes, and erasec takes %d (Set Dump Opaque Axioms makes it smaller)" name size.Writing.bytes most_bytes;
  if size.Writing.deepest > most_nesting then
    warning "%s: brackets nest %d deep in %s, and erasec takes %d (state large numbers by arithmetic)" name size.Writing.deepest size.Writing.deepest_in most_nesting

(* The closure of the constant as text, given piece by piece. *)
let dump put env c main =
  let name = Constant.to_string c in
  let prepared = Preparing.constant env c main in
  warn_of_size name (Preparing.write put name prepared);
  prepared

let or_error f =
  try f () with
  | Refused reason -> CErrors.user_err Pp.(str "Dump refused: " ++ str reason)
  | Sys_error reason -> CErrors.user_err Pp.(str "Dump can't write: " ++ str reason)

(* ------------------------------------------------------------------ the commands *)

let write_dump reference file main =
  let c = constant_of reference in
  or_error (fun () -> ignore (to_file file (fun put -> dump put (Global.env ()) c main)))

let write_value reference file =
  let c = constant_of reference in
  or_error (fun () -> to_file file (fun put -> Value.write put (Global.env ()) c))

let text_of_error e = String.concat " " (String.split_on_char '\n' (Pp.string_of_ppcmds (CErrors.print e)))

(* Writes a dump, and tells how that went; a refusal is no error here, nor is a time-out, nor the end of stack or memory. *)
let told_of_dump c file =
  let name = Constant.to_string c in
  match to_file file (fun put -> dump put (Global.env ()) c Preparing.Itself) with
  | _ -> Ok (), Printf.sprintf "dumped %s" name
  | exception Refused reason -> Error (), Printf.sprintf "refused %s: %s" name reason
  | exception (Control.Timeout | CErrors.Timeout) -> Error (), Printf.sprintf "failed %s: the time-out came" name
  | exception Stack_overflow -> Error (), Printf.sprintf "failed %s: the stack's end came" name
  | exception Out_of_memory -> Error (), Printf.sprintf "failed %s: there was no memory" name
  | exception e when CErrors.noncritical e -> Error (), Printf.sprintf "failed %s: %s" name (text_of_error e)

(* As write_dump with Itself, but a refusal is told on the output: for many constants in one file. *)
let try_dump reference file = notice "%s" (snd (told_of_dump (constant_of reference) file))

(* The full names of all constants of the loaded files that have a body, one a line: the monomorphic ones, or all. *)
let write_names ~polymorphic file =
  let names put =
    Environ.fold_constants (fun c constant () ->
      if (polymorphic || is_monomorphic constant) && has_body constant then
        try put (Libnames.string_of_path (Nametab.path_of_global (GlobRef.ConstRef c)) ^ "\n") with Not_found -> ())
      (Global.env ()) () in
  or_error (fun () -> to_file file names)
