//! Reads dumps, checks them and lets them go.

use env_check::refusal::Refusal;
use pc_rules::meter::Meter;
use runner::flags::Flags;
use runner::measuring::{Input, Program, Watch};
use runner::stages::{stage_check, stage_drop, stage_read};

/// What the program does, for its usage.
const USAGE: &str = "check [FLAG ..] DUMP ..

Reads each dump, checks it, and lets it go. Its line has the outcome and the units left, so `diff` of two checkouts' lines shows each change of them.
The stages are read, check and drop, for callgrind stage_read, stage_check and stage_drop.";

/// Checks a dump.
fn try_file(flags: &Flags, input: &Input, watch: &mut Watch) -> String {
    let Some(raw) = watch.stage("read", || stage_read(&input.bytes)) else {
        return "unread".to_string();
    };
    let mut meter = Meter::new(flags.turns);
    let checked = watch.stage("check", || stage_check(&raw, &mut meter));
    let outcome = match &checked {
        Ok(_) => "accepted",
        Err(Refusal::Memory) => "memory",
        Err(Refusal::Spent { .. }) => "spent",
        Err(Refusal::TooDeep { .. }) => "deep",
        Err(Refusal::Broken { .. }) => "broken",
    };
    watch.stage("drop", || stage_drop((checked, raw)));
    format!("{outcome} left {}", meter.left())
}

fn main() {
    let program = Program {
        usage: USAGE,
        stages: &["read", "check", "drop"],
        try_file,
    };
    program.run()
}
