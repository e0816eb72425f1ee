(* Names as the dump format writes them: atoms of letters, digits and _ . ' - , at most 255 bytes. *)
open Names

exception Refused of string

(* Stops a dump, with a reason that names what can't be written. *)
let refuse fmt = Printf.ksprintf (fun reason -> raise (Refused reason)) fmt

let most_bytes = 255

let is_atom_byte = function
  | 'a' .. 'z' | 'A' .. 'Z' | '0' .. '9' | '_' | '.' | '\'' | '-' -> true
  | _ -> false

(* Bytes that the format doesn't take (of Unicode names, say) become _. *)
let atom text = String.map (fun c -> if is_atom_byte c then c else '_') text

let binder na =
  match na.Context.binder_name with Anonymous -> "_" | Name id -> atom (Id.to_string id)

(* The names that a dump has taken so far, each with the last number that was put behind it. *)
type taken = (string, int) Hashtbl.t

let is_taken (taken : taken) name = Hashtbl.mem taken name

(* The name with the first free number behind it. *)
let numbered (taken : taken) name =
  let rec go n =
    let candidate = Printf.sprintf "%s-%d" name n in
    if is_taken taken candidate then go (n + 1)
    else begin Hashtbl.replace taken name n; candidate end in
  go (Option.default 1 (Hashtbl.find_opt taken name) + 1)

let last count parts =
  let rec go parts = if List.length parts <= count then parts else go (List.tl parts) in
  String.concat "." (go parts)

(* The shortest suffix of a full name that is still free; with a number behind it where none is. *)
let fresh (taken : taken) full_name =
  let parts = String.split_on_char '.' (atom full_name) in
  let rec suffix count =
    let name = last count parts in
    if not (is_taken taken name) then name
    else if count >= List.length parts then numbered taken name
    else suffix (count + 1) in
  let name = suffix 1 in
  if String.length name > most_bytes then refuse "a name of over %d bytes: %s" most_bytes name;
  Hashtbl.add taken name 1;
  name
