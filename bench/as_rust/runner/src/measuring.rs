//! A run of a measuring program: its files, their tries, and what is printed of them.

use crate::flags::{fail, Flags};
use crate::resources::{forget_peak, on_deep_stack, peak, processor_time};

/// A program that measures.
pub struct Program {
    /// What it does, for its usage.
    pub usage: &'static str,
    /// The names of its stages, in the order in which they are told.
    pub stages: &'static [&'static str],
    /// A try of a file: its outcome, and the units that are left.
    pub try_file: fn(&Flags, &Input, &mut Watch) -> String,
}

/// A file that is tried.
pub struct Input {
    /// Its name, without its folder.
    pub name: String,
    /// Its text.
    pub bytes: Vec<u8>,
}

/// What the stages of a try take.
pub struct Watch {
    times: Vec<(&'static str, f64)>,
}

/// What a file's best try took, and what came of it.
struct Measured {
    outcome: String,
    times: Vec<f64>,
    peak: f64,
}

impl Watch {
    /// Runs a stage, and keeps its processor time.
    pub fn stage<T>(&mut self, name: &'static str, run: impl FnOnce() -> T) -> T {
        let before = processor_time();
        let result = run();
        self.times.push((name, processor_time() - before));
        result
    }

    /// The time of a stage: 0, if the try didn't come to it.
    fn time_of(&self, name: &str) -> f64 {
        let times = self.times.iter().filter(|stage| stage.0 == name);
        times.map(|stage| stage.1).sum()
    }
}

impl Input {
    /// The file of a path. Where it can't be read the program ends.
    fn of(path: &str) -> Input {
        let bytes =
            std::fs::read(path).unwrap_or_else(|why| fail(&format!("{path} can't be read: {why}")));
        let name = path.rsplit('/').next().unwrap_or(path).to_string();
        Input { name, bytes }
    }
}

impl Program {
    /// Runs the program on the files of its command line: a line for each, and behind the last the sums of their times.
    pub fn run(self) {
        on_deep_stack(move || {
            let flags = Flags::of_line(self.usage);
            let mut sums = vec![0.0; self.stages.len()];
            for path in &flags.files {
                let input = Input::of(path);
                let best = self.best_try(&flags, &input);
                for (sum, time) in sums.iter_mut().zip(&best.times) {
                    *sum += time;
                }
                if !flags.is_quiet {
                    println!("{}", self.line(&flags, &input, &best));
                }
            }
            if flags.has_times {
                let together: f64 = sums.iter().sum();
                println!("all:{} ms, together {together:.1}", self.told(&sums, 1));
            }
        })
    }

    /// Tries a file as often as is asked for. The try that took least is kept.
    fn best_try(&self, flags: &Flags, input: &Input) -> Measured {
        let mut best = self.one_try(flags, input);
        for _ in 1..flags.tries {
            let next = self.one_try(flags, input);
            if next.times.iter().sum::<f64>() < best.times.iter().sum() {
                best = next;
            }
        }
        best
    }

    /// Tries a file. The peak is asked for only where it is told, so that counts of instructions are of the try alone.
    fn one_try(&self, flags: &Flags, input: &Input) -> Measured {
        let mut watch = Watch { times: Vec::new() };
        if flags.has_times {
            forget_peak();
        }
        let outcome = (self.try_file)(flags, input, &mut watch);
        Measured {
            outcome,
            times: self.stages.iter().map(|it| watch.time_of(it)).collect(),
            peak: if flags.has_times { peak() } else { 0.0 },
        }
    }

    /// The line of a file.
    fn line(&self, flags: &Flags, input: &Input, best: &Measured) -> String {
        let said = format!("{} {}", input.name, best.outcome);
        if !flags.has_times {
            return said;
        }
        let times = self.told(&best.times, 2);
        format!("{said}{times} ms peak {:.1} MB", best.peak)
    }

    /// The stages with their times, each behind a space, with so many digits behind the point.
    fn told(&self, times: &[f64], digits: usize) -> String {
        let stages = self.stages.iter().zip(times);
        stages
            .map(|(stage, time)| format!(" {stage} {time:.digits$}"))
            .collect()
    }
}
