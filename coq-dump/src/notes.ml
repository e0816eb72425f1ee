(* What a dump writes otherwise than Coq has it, for its head comment. *)

(* Contractions in bodies of fixpoints. *)
let contractions = ref 0

(* Fixpoints that lost some redex or let, or had a constant unfolded. *)
let unfolded = ref 0

(* Records with primitive projections that are written as plain families. *)
let records = ref 0

(* Cumulative families that are written as plain ones. *)
let cumulative = ref 0

(* Arguments of constructors whose types were reduced. *)
let arguments = ref 0

(* Primitive types, operations and literals that are constants without a body. *)
let primitives = ref 0

(* Whether SProp was written as Prop. *)
let sprop = ref false

(* Template polymorphic families that are written in Prop too. *)
let propositional = ref 0

(* Copies of template polymorphic families beyond the first of each. *)
let copies = ref 0

(* Lets that bind terms which repeat. *)
let shared = ref 0

(* Eta redexes that were contracted. *)
let etas = ref 0

let reset () =
  List.iter (fun count -> count := 0) [contractions; unfolded; records; cumulative; arguments; primitives; propositional; copies; shared; etas];
  sprop := false

let counted count text = if !count = 0 then [] else [Printf.sprintf "%s: %d" text !count]

let if_so holds text = if holds then [text] else []

(* One phrase for each thing that holds of the dump. *)
let phrases () =
  let choice = !Options.current in
  List.concat [
    (if !contractions = 0 then [] else [Printf.sprintf "bodies of fixpoints reduced for the guard: %d contractions" !contractions]);
    counted unfolded "constants unfolded in them";
    counted records "records with primitive projections written as plain families, without eta";
    counted cumulative "cumulative families written as plain ones";
    counted arguments "types of arguments reduced for positivity";
    counted primitives "primitive types, operations and literals written as constants without a body";
    if_so !sprop "SProp is written as Prop";
    if_so choice.Options.small "Set is written as the level small";
    if_so choice.Options.own_constraints "levels have the constraints of this closure alone";
    counted propositional "template polymorphic families at propositions written as families in Prop";
    counted copies "further copies of template polymorphic families";
    counted etas "eta redexes contracted";
    counted shared "terms that repeat bound by lets";
    if_so choice.Options.axioms "opaque proofs other than its own are axioms" ]
