//! `bolfrake fee`: splits a fee over the study variables of a file, or over weights that are given, to the cent.

mod amount;
mod by_file;
mod given;
mod print;
mod variables;

use std::ffi::OsString;
use std::io::{self, Write};

use crate::output::terminal;
use crate::words::failure::Failure;
use crate::words::Words;
use print::Form;

/// What a study variable has of a fee.
pub struct Share {
    number: usize,
    /// As it stands in the file, if it does.
    description: Option<Vec<u8>>,
    weight: u32,
    cents: u64,
}

/// A fee that is split.
pub struct Split {
    /// The file's name; none where the weights were given.
    file: Option<String>,
    /// Those with a weight.
    shares: Vec<Share>,
    /// Those that are declared, or given, with weight 0.
    without: Vec<usize>,
    /// The sums of all weights and of all shares.
    weight: u64,
    cents: u64,
}

pub fn run(words: Words) -> Result<u8, Failure> {
    let mut form = Form::Table;
    let mut given = None;
    let plain = words.sort(|name, words| option(name, words, &mut form, &mut given))?;
    let split = match given {
        None => by_file::split(plain)?,
        Some(weights) => given::split(&weights, plain)?,
    };
    io::stdout().write_all(form.print(&split).as_bytes())?;
    if let (Form::Csv, Some(line)) = (form, print::without(&split)) {
        terminal::say(&line);
    }
    Ok(0)
}

fn option(
    name: &str,
    words: &mut Words,
    form: &mut Form,
    given: &mut Option<OsString>,
) -> Result<bool, Failure> {
    match name {
        "--format" => {
            *form = match words.choice(name, &["table", "csv", "json"])? {
                "csv" => Form::Csv,
                "json" => Form::Json,
                _ => Form::Table,
            }
        }
        "--weights" => *given = Some(words.value(name)?),
        _ => return Ok(false),
    }
    Ok(true)
}

impl Split {
    fn new(file: Option<String>) -> Split {
        Split {
            file,
            shares: Vec::new(),
            without: Vec::new(),
            weight: 0,
            cents: 0,
        }
    }

    /// Adds a study variable: one with a weight has a share, of the others those are named that are there.
    fn add(
        &mut self,
        number: usize,
        description: Option<Vec<u8>>,
        weight: u32,
        cents: u64,
        is_there: bool,
    ) {
        if weight == 0 {
            if is_there {
                self.without.push(number);
            }
            return;
        }
        self.weight += u64::from(weight);
        self.cents = mztab::add_cents(self.cents, cents).expect("the shares add up to the fee");
        self.shares.push(Share {
            number,
            description,
            weight,
            cents,
        });
    }
}
