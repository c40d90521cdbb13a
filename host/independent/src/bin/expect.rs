//! `expect MODE`: reads all of standard input, prints what is to be expected.

#![forbid(unsafe_code)]

use std::io::{self, Read, Write};
use std::process::ExitCode;

use independent::{cases, printing};

const MODES: &str = "judge, judges, cells, kinds, names, doubles, fees, weights, lines, mends, \
    tallies, make-judges, make-cells, make-kinds, make-names, make-fees, make-weights, \
    make-lines, make-mends, make-tallies";

fn main() -> ExitCode {
    let mode = std::env::args().nth(1).unwrap_or_default();
    let out = match printed(&mode) {
        Some(out) => out,
        None => {
            eprintln!("expect MODE, with MODE one of {MODES}");
            return ExitCode::from(2);
        }
    };
    match io::stdout().write_all(&out) {
        Ok(()) => ExitCode::SUCCESS,
        Err(error) => {
            eprintln!("{error}");
            ExitCode::FAILURE
        }
    }
}

fn printed(mode: &str) -> Option<Vec<u8>> {
    match mode {
        "judge" => Some(printing::judged(&input()).into_bytes()),
        "judges" => Some(printing::judges(&input()).into_bytes()),
        "cells" => Some(printing::cells(&input())),
        "kinds" => Some(printing::kinds(&input()).into_bytes()),
        "names" => Some(printing::names(&input()).into_bytes()),
        "doubles" => Some(printing::doubles(&input()).into_bytes()),
        "fees" => Some(printing::fees(&input()).into_bytes()),
        "weights" => Some(printing::weights(&input()).into_bytes()),
        "lines" => Some(printing::lines(&input()).into_bytes()),
        "mends" => Some(printing::mends(&input())),
        "tallies" => Some(printing::tallies(&input()).into_bytes()),
        "make-judges" => Some(cases::judges_input()),
        "make-cells" => Some(cases::cells_input()),
        "make-kinds" => Some(cases::kinds_input()),
        "make-names" => Some(cases::names_input()),
        "make-fees" => Some(cases::fees_input()),
        "make-weights" => Some(cases::weights_input()),
        "make-lines" => Some(cases::lines_input()),
        "make-mends" => Some(cases::mends_input()),
        "make-tallies" => Some(cases::tallies_input()),
        _ => None,
    }
}

fn input() -> Vec<u8> {
    let mut bytes = Vec::new();
    io::stdin()
        .read_to_end(&mut bytes)
        .expect("standard input is read");
    bytes
}
