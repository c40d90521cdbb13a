//! `bolfrake tally`: what files count up to, over all of them and over records of earlier sums, and the record of the sum.
//!
//! The library counts, adds, and reads and writes records. A file that it refuses is named and left out, and the sum says over how many it is.

mod below_zero;
mod entry;
mod print;
mod tallied;

use std::ffi::OsString;
use std::io;

use crate::files::new::{New, Written};
use crate::files::{self, Source};
use crate::output::in_order::in_order;
use crate::output::terminal;
use crate::output::write::Format;
use crate::words::failure::Failure;
use crate::words::Words;
use entry::Entry;
use tallied::Tallied;

struct Options {
    format: Format,
    /// Where the record of the sum is written to.
    new: New,
    /// The records that are added.
    records: Vec<OsString>,
}

/// FILE|DIR...
pub fn run(words: Words) -> Result<u8, Failure> {
    let mut options = Options {
        format: Format::for_people(),
        new: New::by("--save"),
        records: Vec::new(),
    };
    let plain = words.sort(|name, words| option(name, words, &mut options))?;
    options.new.refuse_force_alone("tally")?;
    files::input_once("tally", plain.iter().chain(&options.records))?;
    let files = match (plain.is_empty(), options.records.is_empty()) {
        (true, false) => Vec::new(),
        _ => files::named("tally", plain)?,
    };
    let records = options.records.drain(..).map(Source::new).collect();
    tally(files, records, &options)
}

fn option(name: &str, words: &mut Words, options: &mut Options) -> Result<bool, Failure> {
    match name {
        "--format" => options.format = Format::named(words.choice(name, &Format::NAMES)?),
        "--add" => options.records.push(words.value(name)?),
        _ => return options.new.option(name, words),
    }
    Ok(true)
}

/// Counts, adds, saves and prints; answers the exit status.
fn tally(files: Vec<Source>, records: Vec<Source>, options: &Options) -> Result<u8, Failure> {
    for name in entry::repeated(files.iter().chain(&records)) {
        say(&format!("{name} was named before, and is taken again"));
    }
    let files = in_order(files.len(), &mut io::sink(), |k, _| Entry::file(&files[k]))?;
    let records = records.iter().map(Entry::record).collect();
    let tallied = Tallied::new(files, records);
    for line in tallied.left_out() {
        say(&line);
    }
    let record = save(&tallied, &options.new)?;
    let report = print::report(&tallied, options.format, &record);
    record.written.print(report.as_bytes())?;
    if let (Format::Csv, Some(line)) = (options.format, record.line()) {
        terminal::say(&line);
    }
    Ok(tallied.status())
}

fn say(words: &str) {
    terminal::say(&format!("bolfrake: {words}"));
}

/// The record of a sum, where one was asked for, and where it was written to.
pub struct Record {
    bytes: Vec<u8>,
    written: Written,
}

impl Record {
    /// That it was written, in words; nothing where it was not.
    fn line(&self) -> Option<String> {
        self.written.line("record", &self.bytes)
    }
}

/// Writes the record where that is asked for. It is one of everything that was named, or none is written: it does not say what it lacks.
fn save(tallied: &Tallied, new: &New) -> Result<Record, Failure> {
    let mut record = Record {
        bytes: Vec::new(),
        written: Written::Nowhere,
    };
    match tallied.whole() {
        _ if new.name.is_none() => {}
        Err(reason) => say(&format!("nothing was saved: {reason}")),
        Ok(sum) => {
            record.bytes = sum.to_record().to_vec();
            record.written = new.write(&record.bytes)?;
        }
    }
    Ok(record)
}
