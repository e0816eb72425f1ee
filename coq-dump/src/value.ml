(* Coq's own value of a constant, as the text of data that erasec prints: `name` or `(name field ..)`, without parameters. *)
open Constr
open Declarations
open Textname

let rec data env put t =
  let f, args = Constr.decompose_appvect t in
  match kind f with
  | Cast (c, _, _) -> data env put (mkApp (c, args))
  | Construct (((m, i), j), _) ->
    let block = Environ.lookup_mind m env in
    let name = atom (Names.Id.to_string block.mind_packets.(i).mind_consnames.(j - 1)) in
    let params = block.mind_nparams in
    if Array.length args <= params then put name
    else begin
      put "("; put name;
      for k = params to Array.length args - 1 do put " "; data env put args.(k) done;
      put ")"
    end
  | _ -> refuse "the value isn't data"

let write put env c =
  let sigma = Evd.from_env env in
  let sigma, ty = Typing.type_of env sigma (EConstr.of_constr (mkConst c)) in
  let value = Vnorm.cbv_vm env sigma (EConstr.of_constr (mkConst c)) ty in
  data env put (EConstr.to_constr sigma value);
  put "\n"
