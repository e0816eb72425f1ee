//! The flags of a measuring program.

use std::process::exit;

/// The flags that each program takes, as its usage has them.
const FLAGS: &str = "
    -t, --times       processor milliseconds by stage, of the try that took least, and the peak of memory in MB; behind the last file the sums
    -n, --tries N     tries of each file; 1 if not given
    -q, --quiet       no line for a file, as for a run under perf or callgrind
    --turns N         units that a file is given; 20000000 if not given
    -l, --list FILE   takes files from a list: a line has a path, or a name, a tab and a path
    -o, --out FOLDER  cert alone: writes each environment with its certificate to FOLDER/NAME.cert
    -h, --help        this text";

/// What a command line asks for.
pub struct Flags {
    /// How often each file is tried.
    pub tries: u32,
    /// Whether times and the peak are told.
    pub has_times: bool,
    /// Whether a file has no line.
    pub is_quiet: bool,
    /// The units that a file is given.
    pub turns: u64,
    /// The folder that certificates are written to.
    pub folder: Option<String>,
    /// The files, in their order.
    pub files: Vec<String>,
}

/// Ends the program with a word on what can't be used.
pub fn fail(why: &str) -> ! {
    eprintln!("{why}");
    exit(2)
}

impl Flags {
    /// The flags of the command line. Where it asks for help, has no file or can't be used, the usage is printed and the program ends.
    pub fn of_line(usage: &str) -> Flags {
        let mut flags = Flags {
            tries: 1,
            has_times: false,
            is_quiet: false,
            turns: 20_000_000,
            folder: None,
            files: Vec::new(),
        };
        let mut words = std::env::args().skip(1);
        while let Some(word) = words.next() {
            flags.take(&word, &mut words, usage);
        }
        if flags.files.is_empty() {
            fail(&format!("{usage}\n{FLAGS}"));
        }
        flags
    }

    /// Takes a word, and the one behind it where that belongs to it.
    fn take(&mut self, word: &str, rest: &mut impl Iterator<Item = String>, usage: &str) {
        match word {
            "-t" | "--times" => self.has_times = true,
            "-q" | "--quiet" => self.is_quiet = true,
            "-n" | "--tries" => self.tries = number_behind(word, rest).max(1) as u32,
            "--turns" => self.turns = number_behind(word, rest),
            "-l" | "--list" => self.files.extend(listed(&word_behind(word, rest))),
            "-o" | "--out" => self.folder = Some(word_behind(word, rest)),
            "-h" | "--help" => {
                println!("{usage}\n{FLAGS}");
                exit(0)
            }
            _ if word.starts_with('-') => fail(&format!("no flag {word}\n{usage}\n{FLAGS}")),
            _ => self.files.push(word.to_string()),
        }
    }
}

/// The word behind a flag.
fn word_behind(flag: &str, rest: &mut impl Iterator<Item = String>) -> String {
    rest.next()
        .unwrap_or_else(|| fail(&format!("{flag} needs a word behind it")))
}

/// The number behind a flag.
fn number_behind(flag: &str, rest: &mut impl Iterator<Item = String>) -> u64 {
    let word = word_behind(flag, rest);
    word.parse()
        .unwrap_or_else(|_| fail(&format!("{flag} needs a number, not {word}")))
}

/// The paths of a list.
fn listed(path: &str) -> Vec<String> {
    let text = std::fs::read_to_string(path)
        .unwrap_or_else(|why| fail(&format!("{path} can't be read: {why}")));
    text.lines()
        .map(|line| line.split('\t').nth(1).unwrap_or(line).to_string())
        .collect()
}
