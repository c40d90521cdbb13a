//! A tally in three forms: for people, for tables, for programs.

use mztab::Tally;

use super::entry::{Entry, LeftOut};
use super::tallied::Tallied;
use super::Record;
use crate::output::columns::table;
use crate::output::show;
use crate::output::write::{json, quoted, Format};

/// The heads of the table, two lines of them. All but the names are numbers, which stand to the right.
const HEADS: [[&str; 9]; 2] = [
    [
        "",
        "",
        "distinct",
        "unique",
        "protein",
        "peptide",
        "psm",
        "small-molecule",
        "missing",
    ],
    [
        "file", "PSMs", "peptides", "peptides", "rows", "rows", "rows", "rows", "cells",
    ],
];
const LEFT: [usize; 1] = [0];

/// The totals as programs read them.
const TOTALS: [&str; 8] = [
    "psms",
    "distinct_peptides",
    "unique_peptides",
    "protein_rows",
    "peptide_rows",
    "psm_rows",
    "small_molecule_rows",
    "missing",
];

/// What is printed.
pub fn report(tallied: &Tallied, format: Format, record: &Record) -> String {
    match format {
        Format::Text { .. } => {
            let written = record.line().map(|line| line + "\n");
            as_table(tallied) + &written.unwrap_or_default()
        }
        Format::Csv => as_csv(tallied),
        Format::Json => as_json(tallied, record),
    }
}

/// The totals of a tally, each written so; or as many times this where there is none.
fn totals(tally: Option<&Tally>, number: fn(u64) -> String, none: &str) -> [String; TOTALS.len()] {
    match tally {
        Some(tally) => tally.totals().map(number),
        None => TOTALS.map(|_| none.to_string()),
    }
}

fn as_table(tallied: &Tallied) -> String {
    let line = |name: &str, tally: Option<&Tally>| {
        let mut line = vec![name.to_string()];
        line.extend(totals(tally, show::count, "-"));
        line
    };
    let mut lines: Vec<Vec<String>> = HEADS
        .iter()
        .map(|heads| heads.map(str::to_string).to_vec())
        .collect();
    let entries = tallied.files.iter().chain(&tallied.records);
    lines.extend(entries.map(|entry| line(&entry.name, entry.tally.as_ref().ok())));
    lines.push(match &tallied.sum {
        Ok(tally) => line(&format!("sum over {}", tallied.over()), Some(tally)),
        Err(_) => line("no sum", None),
    });
    table(&lines, &LEFT)
}

fn as_csv(tallied: &Tallied) -> String {
    let mut out = format!("kind,name,{},reason\n", TOTALS.join(","));
    let mut line = |kind: &str, name: &str, tally: Option<&Tally>, reason: &str| {
        let numbers = totals(tally, |n| n.to_string(), "").join(",");
        let (name, reason) = (quoted(name), quoted(reason));
        out += &format!("{kind},{name},{numbers},{reason}\n");
    };
    for (kind, entries) in [("file", &tallied.files), ("record", &tallied.records)] {
        for entry in entries {
            match &entry.tally {
                Ok(tally) => line(kind, &entry.name, Some(tally), ""),
                Err(left_out) => line(kind, &entry.name, None, &left_out.reason),
            }
        }
    }
    match (&tallied.sum, tallied.whole()) {
        (Ok(tally), Ok(_)) => line("sum", "", Some(tally), ""),
        (Ok(tally), Err(_)) => line("sum", "", Some(tally), &format!("over {}", tallied.over())),
        (Err(reason), _) => line("sum", "", None, reason),
    }
    out
}

fn as_json(tallied: &Tallied, record: &Record) -> String {
    let (total, reason) = match &tallied.sum {
        Ok(tally) => (format!("{{{}}}", fields(tally)), "null".to_string()),
        Err(reason) => ("null".to_string(), json(reason)),
    };
    format!(
        "{{\"files\": {}, \"records\": {}, \"sum\": {total}, \"reason\": {reason}, \"counted\": {}, \"of\": {}, \"written\": {}}}\n",
        list("file", &tallied.files),
        list("record", &tallied.records),
        tallied.counted(),
        tallied.files.len(),
        record.written.json()
    )
}

/// A list of files, or of records.
fn list(kind: &str, entries: &[Entry]) -> String {
    let one = |entry: &Entry| {
        let told = match &entry.tally {
            Ok(tally) => format!("\"status\": \"counted\", {}", fields(tally)),
            Err(left_out) => uncounted(left_out),
        };
        format!("\n  {{\"{kind}\": {}, {told}}}", json(&entry.name))
    };
    match entries {
        [] => "[]".to_string(),
        _ => {
            let all: Vec<String> = entries.iter().map(one).collect();
            format!("[{}\n]", all.join(","))
        }
    }
}

fn uncounted(left_out: &LeftOut) -> String {
    let number = left_out.number.map(|number| number.to_string());
    format!(
        "\"status\": \"left out\", \"number\": {}, \"reason\": {}",
        number.as_deref().unwrap_or("null"),
        json(&left_out.reason)
    )
}

/// The totals of a tally by their names.
fn fields(tally: &Tally) -> String {
    let fields = TOTALS.iter().zip(tally.totals());
    let fields: Vec<String> = fields
        .map(|(name, total)| format!("\"{name}\": {total}"))
        .collect();
    fields.join(", ")
}
