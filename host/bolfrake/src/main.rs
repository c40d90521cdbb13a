//! `bolfrake`: judges mzTab 1.0 files, counts their rows, shows, reads, edits and mends their cells, splits fees over them, adds up what they count, and
//! explains the rules.

#![forbid(unsafe_code)]

mod ask;
mod check;
mod edit;
mod fee;
mod files;
mod mend;
mod output;
mod rows;
mod tally;
mod words;

use std::env;
use std::ffi::OsString;
use std::io::{self, Write};
use std::process::ExitCode;

use output::{pages, terminal};
use words::failure::{self, Failure};
use words::{help, Words};

fn main() -> ExitCode {
    let given: Vec<OsString> = env::args_os().skip(1).collect();
    match run(given) {
        Ok(status) => ExitCode::from(status),
        Err(Failure::Pipe) => ExitCode::from(failure::PIPE),
        Err(failure) => {
            terminal::say(&format!("bolfrake: {failure}"));
            ExitCode::from(failure.status())
        }
    }
}

/// Does what the first word names; answers the exit status.
fn run(given: Vec<OsString>) -> Result<u8, Failure> {
    let mut words = Words::new(given);
    let command = words.command();
    if words.asks_for_help() {
        return print(help::of(&command));
    }
    match command.as_str() {
        "check" => check::run(words),
        "rows" => rows::run(words),
        "cell" => ask::cell(words),
        "read" => ask::read(words),
        "edit" => edit::run(words),
        "mend" => mend::run(words),
        "fee" => fee::run(words),
        "tally" => tally::run(words),
        "explain" => pages::run(words),
        "" | "help" | "-h" | "--help" => print(help::of(&words.next_as_text())),
        "-V" | "--version" | "version" => print(help::VERSION),
        other => Err(Failure::usage(format!(
            "there is no command `{other}`: use check, rows, cell, read, edit, mend, fee or explain (`bolfrake --help` tells more)"
        ))),
    }
}

fn print(text: &str) -> Result<u8, Failure> {
    io::stdout().write_all(text.as_bytes())?;
    Ok(0)
}
