//! Times, in milliseconds.

use std::path::Path;
use std::process::{Command, Stdio};
use std::time::{Duration, Instant};

const TRIES: usize = 5;
const ENOUGH: Duration = Duration::from_secs(2);

/// The best of some tries.
pub fn best(mut work: impl FnMut()) -> f64 {
    let mut best = Duration::MAX;
    let mut spent = Duration::ZERO;
    for _ in 0..TRIES {
        let began = Instant::now();
        work();
        let took = began.elapsed();
        best = best.min(took);
        spent += took;
        if spent > ENOUGH {
            break;
        }
    }
    best.as_secs_f64() * 1e3
}

/// The best of some runs of a program over a file, its start included; nothing where it cannot be run.
pub fn program(words: &[&str], file: &Path) -> Option<f64> {
    let mut ran = true;
    let took =
        best(|| ran &= quietly(Command::new(words[0]).args(&words[1..]).arg(file)).is_some());
    if ran {
        Some(took)
    } else {
        None
    }
}

/// Runs a command without its output; its exit status, if it could be run.
pub fn quietly(command: &mut Command) -> Option<i32> {
    command
        .stdin(Stdio::null())
        .stdout(Stdio::null())
        .stderr(Stdio::null());
    command.status().ok().and_then(|status| status.code())
}

pub fn wc(file: &Path) -> Option<f64> {
    program(&["wc", "-l"], file)
}

pub fn mawk(file: &Path) -> Option<f64> {
    program(&["mawk", "-F\t", "{n+=NF} END{print n}"], file)
}
