(* `Dump Module` and `Dump Each`: the constants of a module, or of a library's file, in as few dumps as go, or each in one of its own. *)
open Names
open Textname

let rec is_inside path inner =
  ModPath.equal path inner || (match inner with ModPath.MPdot (outer, _) -> is_inside path outer | _ -> false)

(* The constants with a body of the module and of those inside it, by name. *)
let constants_of env path =
  let add c constant found = if is_inside path (Constant.modpath c) && Dumping.has_body constant then c :: found else found in
  List.sort Constant.CanOrd.compare (Environ.fold_constants add env [])

let module_of reference =
  try Nametab.locate_module reference
  with Not_found -> CErrors.user_err Pp.(str "Dump wants a module or a file of a library: " ++ Libnames.pr_qualid reference)

let make_folder folder = if not (Sys.file_exists folder) then Unix.mkdir folder 0o755

let last_name path = match path with
  | ModPath.MPfile dir -> Id.to_string (List.hd (DirPath.repr dir))
  | ModPath.MPdot (_, label) -> Label.to_string label
  | ModPath.MPbound id -> Id.to_string (MBId.to_id id)

(* ------------------------------------------------------------------ many roots, one closure *)

(* Visits the roots that can be written; those that can't are told once. *)
let visit_all levels_of refused roots closure =
  let visit c =
    try Closure.visit_constant closure c (levels_of c) with Refused reason ->
      if not (Hashtbl.mem refused (Constant.canonical c)) then Hashtbl.add refused (Constant.canonical c) reason in
  List.iter visit roots

(* The roots in one closure; the main term is the last that is in it. *)
let prepared_roots env refused roots =
  let levels = Hashtbl.create 17 in
  let at_levels env c =
    let env, u = Preparing.at_fresh_levels env c in
    Hashtbl.replace levels (Constant.canonical c) u;
    env in
  let env = List.fold_left at_levels env roots in
  let levels_of c = Hashtbl.find levels (Constant.canonical c) in
  let written = Written.start env None in
  let visit_roots = visit_all levels_of refused roots in
  visit_roots (Closure.start written);
  match List.rev (List.filter (fun c -> not (Hashtbl.mem refused (Constant.canonical c))) roots) with
  | [] -> None
  | last :: _ -> Some (Preparing.of_roots written ~visit_roots ~main:(Constr.mkConstU (last, levels_of last)))

type outcome = Written_whole | Nothing_left | Too_much of string

let try_roots env file name refused roots =
  let prepared () = Preparing.first_that_goes (fun () -> prepared_roots env refused roots) (Preparing.choices_for Preparing.Itself) in
  match prepared () with
  | None -> Nothing_left
  | exception Refused reason -> Too_much reason
  | Some prepared ->
    let size = Dumping.to_file file (fun put -> Preparing.write put name prepared) in
    if size.Writing.bytes <= Dumping.most_bytes then Written_whole
    else begin Dumping.remove file; Too_much (Printf.sprintf "its dump has %d bytes" size.Writing.bytes) end

(* Writes the roots in one dump, or halves of them where one can't hold all: by its bytes or by its levels. *)
let rec write_roots env ~next_file name refused roots =
  match try_roots env (next_file ()) name refused roots, roots with
  | (Written_whole | Nothing_left) as outcome, _ -> if outcome = Written_whole then 1 else 0
  | Too_much reason, ([] | [_]) -> List.iter (fun c -> Hashtbl.replace refused (Constant.canonical c) reason) roots; 0
  | Too_much _, _ ->
    let first, second = CList.chop (List.length roots / 2) roots in
    let written = write_roots env ~next_file name refused first in
    written + write_roots env ~next_file name refused second

let rec free_file folder name n =
  let file = Printf.sprintf "%s/%s.%d.dump" folder name n in
  if Sys.file_exists file then free_file folder name (n + 1) else file

(* Dumps that an earlier run left under these names. *)
let remove_older folder name =
  let is_older file = String.length file > String.length name && CString.is_prefix (name ^ ".") file && Filename.check_suffix file ".dump" in
  Array.iter (fun file -> if is_older file then Dumping.remove (Filename.concat folder file)) (Sys.readdir folder)

let write_module reference folder =
  let path = module_of reference in
  let env = Global.env () in
  let roots = constants_of env path and name = last_name path in
  let refused = Hashtbl.create 17 in
  Dumping.or_error (fun () ->
    make_folder folder;
    remove_older folder name;
    let files = write_roots env ~next_file:(fun () -> free_file folder name 1) name refused roots in
    Hashtbl.iter (fun c reason -> Dumping.notice "refused %s: %s" (KerName.to_string c) reason) refused;
    Dumping.notice "%d of %d constants in %d dumps" (List.length roots - Hashtbl.length refused) (List.length roots) files)

(* ------------------------------------------------------------------ each root by itself *)

let seconds = ref 0

let () = Goptions.(declare_int_option {
  optdepr = false; optkey = ["Dump"; "Seconds"];
  optread = (fun () -> if !seconds = 0 then None else Some !seconds); optwrite = (fun n -> seconds := Option.default 0 n) })

(* Within the seconds of `Set Dump Seconds`, where they are set. *)
let in_time f = if !seconds = 0 then Some (f ()) else Control.timeout (float_of_int !seconds) f ()

let write_each reference folder =
  let path = module_of reference in
  let roots = constants_of (Global.env ()) path in
  let prefix = String.length (ModPath.to_string path) + 1 in
  let one written c =
    let full = Constant.to_string c in
    let short = atom (String.sub full prefix (String.length full - prefix)) in
    match in_time (fun () -> Dumping.told_of_dump c (Printf.sprintf "%s/%s.dump" folder short)) with
    | Some (Ok (), _) -> written + 1
    | Some (Error (), told) -> Dumping.notice "%s" told; written
    | None -> Dumping.notice "failed %s: the time-out came" full; written in
  Dumping.or_error (fun () ->
    make_folder folder;
    let written = List.fold_left one 0 roots in
    Dumping.notice "%d of %d constants dumped" written (List.length roots))
