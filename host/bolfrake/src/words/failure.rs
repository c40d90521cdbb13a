//! Why the tool stops before it has done what was asked, and the exit status that says so.

use std::fmt;
use std::io;

/// What a shell reports of a program that wrote to a closed pipe.
pub const PIPE: u8 = 141;

#[derive(Debug)]
pub enum Failure {
    /// Whoever read the output has closed it. Nothing is said.
    Pipe,
    /// A refusal of the library: there is no such section, row or cell, or a fee is not split over such a file.
    Refused(String),
    /// A file that cannot be read, output that cannot be written, or words that are not understood.
    Stopped(String),
}

impl Failure {
    pub fn usage(words: String) -> Failure {
        Failure::Stopped(words)
    }

    pub fn status(&self) -> u8 {
        match self {
            Failure::Pipe => PIPE,
            Failure::Refused(_) => 1,
            Failure::Stopped(_) => 2,
        }
    }
}

impl fmt::Display for Failure {
    fn fmt(&self, out: &mut fmt::Formatter) -> fmt::Result {
        match self {
            Failure::Pipe => out.write_str("the output was closed"),
            Failure::Refused(words) | Failure::Stopped(words) => out.write_str(words),
        }
    }
}

/// An error of writing: reading has its own words, with the file's name.
impl From<io::Error> for Failure {
    fn from(error: io::Error) -> Failure {
        match error.kind() {
            io::ErrorKind::BrokenPipe => Failure::Pipe,
            _ => Failure::Stopped(format!(
                "the output cannot be written ({error}): make room there, or write it elsewhere"
            )),
        }
    }
}
