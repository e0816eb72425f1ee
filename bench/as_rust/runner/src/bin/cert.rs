//! Reads dumps, makes their certificates and prints them.

use cert_rules::certificate::Cert;
use dump_reader::environment::RawEnv;
use env_making::refusal::CertRefusal;
use guard_check::guard::Guard;
use kio::{write_all, MemSink, Sink, WriteFault};
use pc_rules::meter::Meter;
use reduce_machine::closures::Closures;
use runner::flags::{fail, Flags};
use runner::measuring::{Input, Program, Watch};
use runner::stages::{stage_drop, stage_read};
use shim::alloc::Global;

/// What the program does, for its usage.
const USAGE: &str = "cert [FLAG ..] DUMP ..

Reads each dump, makes its certificate, prints the environment with the certificate behind it, and lets all go. Its line has the outcome and the units
left, and of a certificate the bytes that are printed and the items.
The stages are read, make, print and drop, for callgrind stage_read, stage_make, stage_print and stage_drop.";

/// How much the sink takes at once.
const PIECE: usize = 65_536;

/// Makes the certificate of an environment.
#[inline(never)]
fn stage_make(raw: &RawEnv, meter: &mut Meter) -> Result<Cert, CertRefusal> {
    let guarder = Guard::new(Closures);
    env_making::make::make_cert(Global, &Closures, &guarder, raw, meter)
}

/// Prints an environment and its certificate.
#[inline(never)]
fn stage_print(raw: &RawEnv, cert: &Cert) -> Vec<u8> {
    let mut out = MemSink::new(Global, PIECE, shim::vec::Vec::new(Global));
    print(&mut out, raw, cert).expect("the sink fails at no write");
    out.bytes().to_vec()
}

/// Prints an environment and its certificate, as the job `cert` does.
fn print<K: Sink>(out: &mut K, raw: &RawEnv, cert: &Cert) -> Result<(), WriteFault> {
    dump_printer::print_env(raw, out)?;
    write_all(out, b"\n")?;
    cert_text::print_cert(cert, out)?;
    write_all(out, b"\n")
}

/// Writes a text to NAME.cert in the folder that is asked for.
fn keep(flags: &Flags, input: &Input, text: &[u8]) {
    let Some(folder) = &flags.folder else { return };
    let path = format!("{folder}/{}", input.name.replace(".dump", ".cert"));
    let written = std::fs::create_dir_all(folder).and_then(|_| std::fs::write(&path, text));
    if let Err(why) = written {
        fail(&format!("{path} can't be written: {why}"))
    }
}

/// Certifies a dump.
fn try_file(flags: &Flags, input: &Input, watch: &mut Watch) -> String {
    let Some(raw) = watch.stage("read", || stage_read(&input.bytes)) else {
        return "unread".to_string();
    };
    let mut meter = Meter::new(flags.turns);
    let made = watch.stage("make", || stage_make(&raw, &mut meter));
    let left = meter.left();
    let outcome = match &made {
        Ok(cert) => {
            let text = watch.stage("print", || stage_print(&raw, cert));
            keep(flags, input, &text);
            let items = cert.as_slice().len();
            format!("made left {left} bytes {} items {items}", text.len())
        }
        Err(CertRefusal::Memory) => format!("memory left {left}"),
        Err(CertRefusal::Spent { .. }) => format!("spent left {left}"),
        Err(CertRefusal::TooDeep { .. }) => format!("deep left {left}"),
        Err(CertRefusal::Broken { .. }) => format!("broken left {left}"),
    };
    watch.stage("drop", || stage_drop((made, raw)));
    outcome
}

fn main() {
    let program = Program {
        usage: USAGE,
        stages: &["read", "make", "print", "drop"],
        try_file,
    };
    program.run()
}
