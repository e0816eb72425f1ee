//! Reads environments with their certificates, and verifies them.

use cert_rules::certificate::Cert;
use dump_reader::environment::RawEnv;
use env_cert::refusal::VerifyRefusal;
use guard_check::guard::Guard;
use pc_rules::meter::Meter;
use reduce_machine::closures::Closures;
use runner::flags::Flags;
use runner::measuring::{Input, Program, Watch};
use runner::stages::stage_drop;
use shim::alloc::Global;

/// What the program does, for its usage.
const USAGE: &str = "verify [FLAG ..] FILE ..

Reads each file, an environment with its certificate as `cert --out FOLDER` writes them, verifies it, and lets it go. Its line has the outcome, the units
left and the certificate's items, and of a refused one the item at which it is refused.
The stages are read, cert, verify and drop, for callgrind stage_read, stage_cert, stage_verify and stage_drop.";

/// Reads the environment; its certificate begins at the offset that comes with it.
#[inline(never)]
fn stage_read(bytes: &[u8]) -> Option<(RawEnv, usize)> {
    dump_reader::reading::read_call(Global, bytes).ok()
}

/// Reads the certificate, which begins at an offset.
#[inline(never)]
fn stage_cert(bytes: &[u8], from: usize) -> Option<Cert> {
    cert_text::read_cert(Global, bytes, from).ok()
}

/// Verifies an environment with its certificate.
#[inline(never)]
fn stage_verify(raw: &RawEnv, cert: &Cert, meter: &mut Meter) -> Result<(), VerifyRefusal> {
    env_cert::verify::verify_env(Global, &Guard::new(Closures), raw, cert, meter)
}

/// Verifies a file.
fn try_file(flags: &Flags, input: &Input, watch: &mut Watch) -> String {
    let Some((raw, from)) = watch.stage("read", || stage_read(&input.bytes)) else {
        return "unread".to_string();
    };
    let Some(cert) = watch.stage("cert", || stage_cert(&input.bytes, from)) else {
        return "no certificate".to_string();
    };
    let mut meter = Meter::new(flags.turns);
    let verified = watch.stage("verify", || stage_verify(&raw, &cert, &mut meter));
    let (left, items) = (meter.left(), cert.as_slice().len());
    watch.stage("drop", || stage_drop((cert, raw)));
    match verified {
        Ok(()) => format!("accepted left {left} items {items}"),
        Err(VerifyRefusal::Bad { item }) => format!("refused left {left} items {items} at {item}"),
        Err(VerifyRefusal::Spent { .. }) => format!("spent left {left} items {items}"),
        Err(VerifyRefusal::TooDeep { .. }) => format!("deep left {left} items {items}"),
        Err(VerifyRefusal::Memory) => format!("memory left {left} items {items}"),
    }
}

fn main() {
    let program = Program {
        usage: USAGE,
        stages: &["read", "cert", "verify", "drop"],
        try_file,
    };
    program.run()
}
