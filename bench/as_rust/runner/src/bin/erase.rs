//! Reads dumps, checks them and erases their mains.

use box_terms::program::BoxProgram;
use erase::refusal::EraseRefusal;
use guard_check::guard::Guard;
use lazy_conversion::comparison::LazyCompare;
use pc_rules::accepted::Accepted;
use pc_rules::meter::Meter;
use reduce_machine::closures::Closures;
use runner::flags::Flags;
use runner::measuring::{Input, Program, Watch};
use runner::stages::{stage_check, stage_drop, stage_read};
use shim::alloc::Global;
use type_infer::inference::Inference;

/// What the program does, for its usage.
const USAGE: &str = "erase [FLAG ..] DUMP ..

Reads each dump, checks it, erases its main with the units that the check left, and lets all go. Its line has the outcome, the units left behind the
check, and those left then.
The stages are read, check, erase and drop, for callgrind stage_read, stage_check, stage_erase and stage_drop.";

/// Erases the main of what was accepted.
#[inline(never)]
fn stage_erase(accepted: &Accepted, meter: &mut Meter) -> Result<BoxProgram, EraseRefusal> {
    let typer = Inference::new(Closures, LazyCompare, Guard::new(Closures));
    erase::program::erase_at_sites(Global, &typer, &Closures, accepted, meter)
}

/// Checks and erases a dump.
fn try_file(flags: &Flags, input: &Input, watch: &mut Watch) -> String {
    let Some(raw) = watch.stage("read", || stage_read(&input.bytes)) else {
        return "unread".to_string();
    };
    let mut meter = Meter::new(flags.turns);
    let Ok(accepted) = watch.stage("check", || stage_check(&raw, &mut meter)) else {
        return format!("not accepted left {}", meter.left());
    };
    let left = meter.left();
    let erased = watch.stage("erase", || stage_erase(&accepted, &mut meter));
    let outcome = match &erased {
        Ok(_) => "erased",
        Err(EraseRefusal::AxiomReached { .. }) => "axiom",
        Err(EraseRefusal::Halt { .. }) => "halt",
    };
    watch.stage("drop", || stage_drop((erased, accepted, raw)));
    format!("{outcome} left {left} then {}", meter.left())
}

fn main() {
    let program = Program {
        usage: USAGE,
        stages: &["read", "check", "erase", "drop"],
        try_file,
    };
    program.run()
}
