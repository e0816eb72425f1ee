(* The options of the dump commands, set by `Set` and `Unset`, and what a dump uses of them.

   With `Dump Automatic`, which is on from the start, a dump takes what it needs and says so in its head comment; an option that is set is used in any case. Without it nothing but what is set is used. *)

let declare ?(start = false) key =
  let value = ref start in
  Goptions.(declare_bool_option {
    optdepr = false; optkey = "Dump" :: key;
    optread = (fun () -> !value); optwrite = (fun set -> value := set) });
  value

(* An option that nobody has set or unset yet says nothing. *)
let declare_open key =
  let value = ref None in
  Goptions.(declare_bool_option {
    optdepr = false; optkey = "Dump" :: key;
    optread = (fun () -> !value = Some true); optwrite = (fun set -> value := Some set) });
  value

(* What is needed is used. *)
let automatic = declare ~start:true ["Automatic"]

(* Opaque proofs other than that of the dumped constant are written as constants without a body. Where nothing is said: by `Dump Term`, and not by `Dump Constant`. *)
let opaque_axioms = declare_open ["Opaque"; "Axioms"]

(* In bodies of fixpoints, redexes and lets that hide the fixpoint's variable or a smaller term are reduced. *)
let reduce_fixpoints = declare ["Reduce"; "Fixpoints"]

(* With the option above: a constant that is handed the fixpoint's variable is unfolded too. *)
let unfold_constants = declare ["Unfold"; "Constants"]

(* Strict propositions are dumped too: SProp is written as Prop. *)
let strict_propositions = declare ["Strict"; "Propositions"]

(* A record with primitive projections is written as a plain family, and each projection as a match. *)
let match_projections = declare ["Match"; "Projections"]

(* A cumulative family is written as one that isn't. *)
let plain_cumulative = declare ["Plain"; "Cumulative"]

(* The type of a constructor's argument is reduced where its head hides the block. *)
let expose_arguments = declare ["Expose"; "Arguments"]

(* Primitive types, operations and literals are written as constants without a body. *)
let primitive_axioms = declare ["Primitive"; "Axioms"]

(* Set is written as a level of its own, at or above the format's Set. *)
let small_level = declare ["Small"; "Level"]

(* The levels have the constraints that the closure needs alone, found by typing it, and not those of all that is loaded. *)
let own_constraints = declare ["Own"; "Constraints"]

(* A template polymorphic family is written once for each level that is needed. *)
let copy_families = declare ["Copy"; "Families"]

(* A template polymorphic family at propositions is written as a family of its own in Prop. *)
let copy_propositions = declare ["Copy"; "Propositions"]

(* Eta redexes are contracted. *)
let contract_eta = declare ["Contract"; "Eta"]

let contracting_eta f =
  let usual = !contract_eta in
  contract_eta := true;
  Fun.protect ~finally:(fun () -> contract_eta := usual) f

(* Terms that repeat are bound by lets, so that the text is smaller. *)
let share_terms = declare ["Share"; "Terms"]

(* How many copies of a template polymorphic family a dump begins with; copies that can be one are joined. *)
type sharing =
  | One              (* one copy for the whole dump *)
  | Each_declaration (* one for each declaration that uses the family *)
  | Each_use         (* one for each use *)

type guard =
  | As_written
  | Where_needed     (* what the guard of the profile takes stays as it is written *)
  | Reduced of { unfolds : bool }

(* What one try of a dump uses. *)
type choice = {
  guard : guard;
  axioms : bool;
  strict : bool;
  projections : bool;
  cumulative : bool;
  arguments : bool;
  primitives : bool;
  small : bool;
  own_constraints : bool;
  propositional : bool;
  sharing : sharing;
  lets : bool;
  eta : bool;
}

let guard_as_set () =
  if !reduce_fixpoints then Reduced { unfolds = !unfold_constants }
  else if !automatic then Where_needed
  else As_written

(* The choice of the options as they are set; [axioms]: what holds of opaque proofs where no option says it. *)
let as_set ~axioms =
  { guard = guard_as_set ();
    axioms = Option.default axioms !opaque_axioms;
    strict = !strict_propositions;
    projections = !automatic || !match_projections;
    cumulative = !automatic || !plain_cumulative;
    arguments = !automatic || !expose_arguments;
    primitives = !automatic || !primitive_axioms;
    small = !small_level;
    own_constraints = !own_constraints;
    propositional = !copy_propositions;
    sharing = if !copy_families then Each_declaration else One;
    lets = !share_terms;
    eta = !contract_eta }

(* The choices that are tried, one after another, where the levels of one can't be had: each beside what is set. *)
let tries choice =
  if not !automatic then [choice]
  else
    let small = { choice with small = true } in
    let own = { small with own_constraints = true } in
    let propositional = { own with propositional = true } in
    let copies sharing choice = { choice with sharing } in
    (* Set as a level may be in the way of copies *)
    let copies_at_set = copies Each_declaration { own with small = choice.small } in
    CList.uniquize
      [choice; small; own; copies Each_declaration own; copies_at_set; propositional; copies Each_declaration propositional; { copies_at_set with propositional = true };
       copies Each_use propositional]

(* The choice of the try that is under way. *)
let current = ref (as_set ~axioms:false)
