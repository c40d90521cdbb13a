//! Whether a stream is a terminal, and the line of progress on it.

use std::env;
use std::fs;
use std::io::{self, Write};
use std::time::{Duration, Instant};

const OUTPUT: &str = "/proc/self/fd/1";
const ERROR: &str = "/proc/self/fd/2";

/// Work that takes longer than this shows its progress.
const PATIENCE: Duration = Duration::from_secs(1);

fn is_terminal(stream: &str) -> bool {
    let target = fs::read_link(stream).unwrap_or_default();
    let target = target.to_string_lossy();
    ["/dev/pts/", "/dev/tty", "/dev/console"]
        .iter()
        .any(|terminal| target.starts_with(terminal))
}

/// Whether standard output is to be coloured: it is a terminal that can, and NO_COLOR is not set.
pub fn coloured() -> bool {
    let dumb = env::var_os("TERM").map_or(true, |term| term == "dumb");
    is_terminal(OUTPUT) && !dumb && env::var_os("NO_COLOR").map_or(true, |word| word.is_empty())
}

/// What begins a colour, and what ends it; no byte where nothing is coloured.
pub struct Colours {
    pub bold: &'static str,
    pub yellow: &'static str,
    pub green: &'static str,
    pub red: &'static str,
    pub plain: &'static str,
}

impl Colours {
    pub fn new(coloured: bool) -> Colours {
        let code = |code| if coloured { code } else { "" };
        Colours {
            bold: code("\x1b[1m"),
            yellow: code("\x1b[33m"),
            green: code("\x1b[32m"),
            red: code("\x1b[31m"),
            plain: code("\x1b[0m"),
        }
    }
}

/// Writes a line to standard error. Where nobody reads it, nothing is lost.
pub fn say(words: &str) {
    let _ = writeln!(io::stderr(), "{words}");
}

/// A line on standard error that says how far the work is, where that is a terminal.
pub struct Progress {
    watched: bool,
    /// Standard output is a terminal too: what is written there takes the line's place.
    shared: bool,
    began: Instant,
    shown: String,
}

impl Progress {
    pub fn new() -> Progress {
        Progress {
            watched: is_terminal(ERROR),
            shared: is_terminal(OUTPUT),
            began: Instant::now(),
            shown: String::new(),
        }
    }

    /// Shows the line once there is more than a second of work.
    pub fn show(&mut self, done: usize, all: usize) {
        if !self.watched || self.began.elapsed() < PATIENCE {
            return;
        }
        let line = format!("{done} of {all} judged");
        if line != self.shown {
            let _ = write!(io::stderr(), "\r\x1b[K{line}");
            self.shown = line;
        }
    }

    /// Before something is written to standard output.
    pub fn give_way(&mut self) {
        if self.shared {
            self.clear();
        }
    }

    /// After something was written to standard output.
    pub fn show_beside(&mut self, done: usize, all: usize) {
        if !self.shared {
            self.show(done, all);
        }
    }

    /// Takes the line away.
    pub fn clear(&mut self) {
        if !self.shown.is_empty() {
            let _ = write!(io::stderr(), "\r\x1b[K");
            self.shown.clear();
        }
    }
}
