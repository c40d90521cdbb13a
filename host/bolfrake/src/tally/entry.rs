//! What one file, or one record, gives: its tally, or why it is left out.

use std::collections::HashSet;
use std::fs;
use std::path::PathBuf;

use mztab::{Refusal, Tally};

use super::below_zero::below_zero;
use crate::files::judged::unaccepted;
use crate::files::{Source, Unread};

/// A file or a record that was named.
pub struct Entry {
    /// Its name as it is printed.
    pub name: String,
    pub tally: Result<Tally, LeftOut>,
}

/// Why there is no tally of it.
#[derive(Debug)]
pub struct LeftOut {
    /// The number of the library's refusal; none where it could not be read.
    pub number: Option<u32>,
    /// That in words, which follow the name, and what to do.
    pub reason: String,
    /// The exit status that says so.
    pub status: u8,
}

impl Entry {
    /// A file, counted. To be called on a thread whose stack is known, as every call that judges.
    pub fn file(source: &Source) -> Entry {
        let name = source.name();
        let tally = source.read().map_err(LeftOut::unread).and_then(|file| {
            let tally = mztab::tally(&file);
            tally.map_err(|refusal| LeftOut::uncounted(&name, &file, refusal))
        });
        Entry { name, tally }
    }

    /// A record, read.
    pub fn record(source: &Source) -> Entry {
        let tally = match source.read() {
            // What is too long for a file is none too.
            Err(Unread::TooLong) => Err(LeftOut::no_record()),
            Err(unread) => Err(LeftOut::unread(unread)),
            Ok(bytes) => Tally::from_record(&bytes).map_err(|_| LeftOut::no_record()),
        };
        Entry {
            name: source.name(),
            tally,
        }
    }
}

impl LeftOut {
    fn unread(unread: Unread) -> LeftOut {
        let too_long = unread == Unread::TooLong;
        LeftOut {
            number: too_long.then(|| Refusal::TooLong.number()),
            reason: unread.to_string(),
            status: 2,
        }
    }

    /// A file that the library does not count.
    fn uncounted(name: &str, file: &[u8], refusal: Refusal) -> LeftOut {
        let reason = match refusal {
            Refusal::TooLong => return LeftOut::unread(Unread::TooLong),
            Refusal::NotAccepted => not_accepted(name, file),
            Refusal::BelowZero => has_below_zero(name, file),
            other => format!("is not counted: {other}"),
        };
        LeftOut {
            number: Some(refusal.number()),
            reason,
            status: 1,
        }
    }

    fn no_record() -> LeftOut {
        LeftOut {
            number: Some(Refusal::NotARecord.number()),
            reason: "is not the record of a tally: name one that --save wrote; an mzTab file is named without --add".to_string(),
            status: 2,
        }
    }
}

/// That the file breaks rules, and what to do. Where it is the record of a tally, it was only named in the wrong place.
fn not_accepted(name: &str, file: &[u8]) -> String {
    if Tally::from_record(file).is_ok() {
        return "is the record of a tally, and no mzTab file: name it after --add".to_string();
    }
    match mztab::count(file) {
        Ok(breaks) => unaccepted(name, breaks, "it is not counted"),
        Err(refusal) => format!("is not counted: {refusal}"),
    }
}

/// That a count below zero stands in the file, where, and what to do.
fn has_below_zero(name: &str, file: &[u8]) -> String {
    let words = "has a count below zero, so it is not counted";
    match below_zero(file) {
        Some(found) => format!("{words}: {}", found.told(name)),
        None => format!("{words}: ask the laboratory for the right one"),
    }
}

/// The names of those that were named before, by whatever path.
pub fn repeated<'a>(sources: impl Iterator<Item = &'a Source>) -> Vec<String> {
    let mut seen: HashSet<PathBuf> = HashSet::new();
    let again = sources.filter(|source| match source {
        Source::File(path) => fs::canonicalize(path).map_or(false, |path| !seen.insert(path)),
        _ => false,
    });
    again.map(Source::name).collect()
}
