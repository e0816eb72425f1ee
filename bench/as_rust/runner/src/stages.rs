//! Stages that several programs have. Each is a function of its own in the built program, so that callgrind tells it by its name.

use dump_reader::environment::RawEnv;
use env_check::refusal::Refusal;
use pc_rules::accepted::Accepted;
use pc_rules::meter::Meter;
use reduce_machine::closures::Closures;
use shim::alloc::Global;

/// Reads a dump.
#[inline(never)]
pub fn stage_read(bytes: &[u8]) -> Option<RawEnv> {
    dump_reader::reading::read_env(Global, bytes).ok()
}

/// Checks an environment, as the job `check` does.
#[inline(never)]
pub fn stage_check(raw: &RawEnv, meter: &mut Meter) -> Result<Accepted, Refusal> {
    env_check::check::check_env(Global, &Closures, raw, meter)
}

/// Lets go of values.
#[inline(never)]
pub fn stage_drop<T>(values: T) {
    drop(values)
}
