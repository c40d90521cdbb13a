//! The sum of what was named, and what it lacks.

use mztab::Tally;

use super::entry::{Entry, LeftOut};
use crate::output::show;

/// All files and records that were named.
pub struct Tallied {
    pub files: Vec<Entry>,
    pub records: Vec<Entry>,
    /// Over the files that are counted and all records; or why there is none, in words.
    pub sum: Result<Tally, String>,
}

impl Tallied {
    pub fn new(files: Vec<Entry>, records: Vec<Entry>) -> Tallied {
        let sum = add(&files, &records);
        Tallied {
            files,
            records,
            sum,
        }
    }

    /// How many of the files are counted.
    pub fn counted(&self) -> usize {
        let counted = self.files.iter().filter(|file| file.tally.is_ok());
        counted.count()
    }

    /// Over how much the sum is: `2 of 3 files, 1 record`.
    pub fn over(&self) -> String {
        let (counted, of) = (self.counted() as u64, self.files.len() as u64);
        let files = match show::counted(of, "file") {
            files if counted == of => files,
            files => format!("{} of {files}", show::count(counted)),
        };
        let records = show::counted(self.records.len() as u64, "record");
        match (of, self.records.len()) {
            (_, 0) => files,
            (0, _) => records,
            _ => format!("{files}, {records}"),
        }
    }

    /// The sum where everything that was named is in it, else why it is not.
    pub fn whole(&self) -> Result<Tally, String> {
        let sum = self.sum.as_ref().map_err(|_| "there is no sum")?;
        if self.counted() < self.files.len() {
            return Err(format!(
                "the sum is over {}, and a record does not say what it lacks: mend the files that are left out, or name the others alone",
                self.over()
            ));
        }
        Ok(*sum)
    }

    /// What is said of each file and record that is left out, and of a sum that is not there.
    pub fn left_out(&self) -> Vec<String> {
        let named =
            |(entry, left_out): (&Entry, &LeftOut)| format!("{} {}", entry.name, left_out.reason);
        let mut lines: Vec<String> = self.refused().map(named).collect();
        lines.extend(self.sum.as_ref().err().cloned());
        lines
    }

    /// 0 where everything is counted and added, 1 where a file or the sum stands in the way, 2 where something cannot be read.
    pub fn status(&self) -> u8 {
        let status = self.refused().map(|(_, left_out)| left_out.status).max();
        status.unwrap_or(0).max(u8::from(self.sum.is_err()))
    }

    fn refused(&self) -> impl Iterator<Item = (&Entry, &LeftOut)> + '_ {
        let entries = self.files.iter().chain(&self.records);
        entries.filter_map(|entry| Some((entry, entry.tally.as_ref().err()?)))
    }
}

/// Adds what there is. Without a record that was named there is no sum: nobody would see what it lacks.
fn add(files: &[Entry], records: &[Entry]) -> Result<Tally, String> {
    if records.iter().any(|record| record.tally.is_err()) {
        return Err("there is no sum without every record that --add names".to_string());
    }
    let mut sum = Tally::default();
    for entry in files.iter().chain(records) {
        if let Ok(tally) = &entry.tally {
            let with = sum.add(*tally);
            sum = with.map_err(|_| past_64_bits(&entry.name))?;
        }
    }
    Ok(sum)
}

/// That there is no sum, with which of those that were named it would pass 64 bits, and what to do.
fn past_64_bits(name: &str) -> String {
    format!(
        "there is no sum: with {name} a total is over 64 bits, more than {}: look whether the records are right, or save the sum in two parts",
        show::count(u64::MAX)
    )
}
