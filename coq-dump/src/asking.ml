(* `Erasec Check`, `Erasec Compute`, `Erasec Compile` and `Erasec Export`: the program run on a dump from inside Coq, and its answer shown with Coq's own names. *)
open Names

(* Of --turns; none leaves the program's own number. *)
let turns = ref None

let () = Goptions.(declare_int_option {
  optdepr = false; optkey = ["Erasec"; "Turns"];
  optread = (fun () -> !turns); optwrite = (fun n -> turns := n) })

(* ------------------------------------------------------------------ programs *)

let is_program file = try Unix.access file [Unix.X_OK]; not (Sys.is_directory file) with Unix.Unix_error _ | Sys_error _ -> false

let on_path name =
  let folders = String.split_on_char ':' (Option.default "" (Sys.getenv_opt "PATH")) in
  List.find_opt is_program (List.map (fun folder -> Filename.concat folder name) folders)

(* A program that a variable of the environment names, or one on the path. *)
let program ~variable ~name =
  match Sys.getenv_opt variable with Some file when is_program file -> Some file | _ -> on_path name

let erasec () =
  match program ~variable:"ERASEC" ~name:"erasec" with
  | Some file -> file
  | None -> CErrors.user_err Pp.(str "erasec isn't found: set ERASEC to its path before coqc is started, or put it on the path")

let text_of file = let channel = open_in_bin file in Fun.protect ~finally:(fun () -> close_in channel) (fun () -> really_input_string channel (in_channel_length channel))

let rec wait process = try snd (Unix.waitpid [] process) with Unix.Unix_error (Unix.EINTR, _, _) -> Control.check_for_interrupt (); wait process

(* Runs a program with its input and output in files; its status and what it wrote on standard error. *)
let run words ~input ~output =
  let said = Filename.temp_file "erasec" ".said" in
  let opened file flags = Unix.openfile file flags 0o644 in
  let write = [Unix.O_WRONLY; Unix.O_CREAT; Unix.O_TRUNC] in
  let ends = [opened input [Unix.O_RDONLY]; opened output write; opened said write] in
  let process = match ends with
    | [i; o; e] -> Unix.create_process (List.hd words) (Array.of_list words) i o e
    | _ -> assert false in
  List.iter Unix.close ends;
  let ended =
    try wait process with e -> (try Unix.kill process Sys.sigterm; ignore (wait process) with Unix.Unix_error _ -> ()); raise e in
  let text = String.trim (text_of said) in
  Sys.remove said;
  match ended with
  | Unix.WEXITED status -> status, text
  | Unix.WSIGNALED n | Unix.WSTOPPED n -> 128 + n, Printf.sprintf "stopped by signal %d" n

(* ------------------------------------------------------------------ the commands *)

let words job = erasec () :: job :: (match !turns with None -> [] | Some n -> ["--turns"; string_of_int n])

(* What the job explain says of a refusal of the check, behind the line of the refusal. *)
let explanation names ~dump line =
  let text = Filename.temp_file "erasec" ".explained" in
  Fun.protect ~finally:(fun () -> Dumping.remove text) (fun () ->
    let status, _ = run (words "explain") ~input:dump ~output:text in
    match if status = 0 then String.split_on_char '\n' (String.trim (text_of text)) else [] with
    | first :: rest when first = line -> Told.explanation names (Global.env ()) rest
    | _ -> [])

let with_dump c main use =
  let dump = Filename.temp_file "erasec" ".dump" and answer = Filename.temp_file "erasec" ".answer" in
  Fun.protect ~finally:(fun () -> List.iter Dumping.remove [dump; answer]) (fun () ->
    Dumping.or_error (fun () ->
      let prepared = Dumping.to_file dump (fun put -> Dumping.dump put (Global.env ()) c main) in
      use prepared dump answer))

(* A status other than 0 is an error that names the constant, and explains a refusal of the check. *)
let demand_answer job c prepared ~dump (status, said) =
  if status <> 0 then
    let names = Told.names_of prepared.Preparing.closure and line = List.hd (String.split_on_char '\n' said) in
    let told = Printf.sprintf "Erasec %s of %s ends with status %d: %s" job (Constant.to_string c) status (Told.of_refusal names line) in
    let explained = if List.mem status [7; 8; 9] then explanation names ~dump line else [] in
    CErrors.user_err Pp.(prlist_with_sep fnl (fun it -> it) (str told :: List.map (fun it -> str "  " ++ it) explained))

(* Runs the job, which must have an answer. *)
let asked job c prepared ~dump ~answer = demand_answer job c prepared ~dump (run (words job) ~input:dump ~output:answer)

let axioms_told closure =
  match Explaining.axioms closure with
  | [] -> "no axiom"
  | axioms -> Printf.sprintf "%d axioms: %s" (List.length axioms) (String.concat ", " axioms)

let tell_check c prepared answer =
  let closure = prepared.Preparing.closure in
  let notes = String.concat "" (List.map (fun phrase -> "\n  " ^ phrase) (Notes.phrases ())) in
  Dumping.notice "%s is checked: %s, with its closure of %d declarations, %s%s"
    (Constant.to_string c) (String.trim (text_of answer)) (List.length closure.Closure.declarations) (axioms_told closure) notes

(* A check that fails for what may be want of eta is made again on a dump with its redexes contracted. *)
let check reference =
  let c = Dumping.constant_of reference in
  let once ~may_go_on = with_dump c Preparing.Itself (fun prepared dump answer ->
    let status, said = run (words "check") ~input:dump ~output:answer in
    let goes_on = may_go_on && CString.is_prefix "broken 8 " said in
    if not goes_on then begin demand_answer "check" c prepared ~dump (status, said); tell_check c prepared answer end;
    goes_on) in
  if once ~may_go_on:(!Options.automatic && not !Options.contract_eta) then Options.contracting_eta (fun () -> ignore (once ~may_go_on:false))

let compute reference =
  let c = Dumping.constant_of reference in
  with_dump c Preparing.Body (fun prepared dump answer ->
    asked "exec" c prepared ~dump ~answer;
    Dumping.notice "%s = %s" (Constant.to_string c) (String.trim (text_of answer)))

(* The constructors that a reader of the module's answer needs, by the repository's tools/types-of; what is told of them. *)
let write_types dump types =
  Dumping.remove types;
  match program ~variable:"ERASEC_TYPES_OF" ~name:"types-of" with
  | None -> "its types aren't written: types-of isn't found (set ERASEC_TYPES_OF to the path of tools/types-of, or put it on the path)"
  | Some tool ->
    let status, said = run [tool] ~input:dump ~output:types in
    if status = 0 then Printf.sprintf "%s: %s" types (String.concat " " (String.split_on_char '\n' (String.trim (text_of types))))
    else begin Dumping.remove types; "its types aren't written: " ^ said end

(* The module that a job makes of the constant, and the types beside it. *)
let write_module job reference file =
  let c = Dumping.constant_of reference in
  with_dump c Preparing.Body (fun prepared dump answer ->
    Dumping.remove file;
    asked job c prepared ~dump ~answer;
    let bytes = text_of answer in
    Dumping.to_file file (fun put -> put bytes);
    Dumping.notice "%s: %d bytes\n%s" file (String.length bytes) (write_types dump (Filename.remove_extension file ^ ".types")))

let compile = write_module "compile"
let export = write_module "export"
