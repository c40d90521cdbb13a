//! An edit in three forms: for people, for tables, for programs.

use std::io::{self, Write};

use mztab::Judged;

use super::change::Change;
use super::fate::{fates, Fate};
use crate::files::new::Written;
use crate::output::pages::Titles;
use crate::output::show;
use crate::output::terminal::Colours;
use crate::output::told::{Teller, Told};
use crate::output::write::{json, Format};

/// What is printed, and the lines that stand beside it on standard error.
pub struct Report {
    pub out: Vec<u8>,
    pub aside: Vec<String>,
}

impl Report {
    pub fn new(change: &Change, format: Format, written: &Written) -> io::Result<Report> {
        let mut out = Vec::new();
        let mut aside = Vec::new();
        match format {
            Format::Text { coloured } => as_text(change, coloured, written, &mut out)?,
            Format::Csv => {
                as_csv(change, &mut out)?;
                aside = vec![
                    format!("{} {}", place(change), becomes(change)),
                    counts(change),
                    copy(change, written),
                ];
            }
            Format::Json => as_json(change, written, &mut out)?,
        }
        Ok(Report { out, aside })
    }
}

fn as_text(
    change: &Change,
    coloured: bool,
    written: &Written,
    out: &mut Vec<u8>,
) -> io::Result<()> {
    let colours = Colours::new(coloured);
    let (bold, plain) = (colours.bold, colours.plain);
    writeln!(out, "{bold}{}{plain} {}", place(change), becomes(change))?;
    for (fate, told) in told(change) {
        let colour = match fate {
            Fate::Gone => colours.green,
            Fate::Stays => "",
            Fate::New => colours.red,
        };
        let end = if colour.is_empty() { "" } else { plain };
        write!(out, "{colour}{}{end}  ", fate.marked())?;
        Format::Text { coloured }.one(0, &change.name, &told, out)?;
    }
    writeln!(out, "{}", counts(change))?;
    writeln!(out, "{}", copy(change, written))
}

/// As `check` has it, with what becomes of each break in front.
fn as_csv(change: &Change, out: &mut Vec<u8>) -> io::Result<()> {
    write!(out, "change,{}", Format::Csv.opening())?;
    for (fate, told) in told(change) {
        write!(out, "{},", fate.word())?;
        Format::Csv.one(0, &change.name, &told, out)?;
    }
    Ok(())
}

fn as_json(change: &Change, written: &Written, out: &mut Vec<u8>) -> io::Result<()> {
    let column = change.column.as_ref().map(|name| json(&show::whole(name)));
    write!(
        out,
        "{{\"file\": {}, \"line\": {}, \"cell\": {}, \"column\": {}, \"old\": {}, \"new\": {}, \"breaks_before\": [",
        json(&change.name),
        change.line,
        change.cell,
        column.unwrap_or_else(|| "null".to_string()),
        json(&show::whole(change.old())),
        json(&show::whole(&change.new))
    )?;
    breaks(change, change.file(), change.before(), out)?;
    out.write_all(b"], \"breaks_after\": [")?;
    breaks(change, change.edited(), change.after(), out)?;
    writeln!(out, "], \"written\": {}}}", written.json())
}

fn breaks(change: &Change, file: &[u8], judged: &Judged, out: &mut Vec<u8>) -> io::Result<()> {
    let titles = Titles::new();
    let mut teller = Teller::new(file, &titles);
    let mut all = judged.breaks().enumerate();
    all.try_for_each(|(k, at)| Format::Json.one(k, &change.name, &teller.tell(at), out))
}

/// What becomes of each break of the line. One that stays is told as it is after the edit.
fn told(change: &Change) -> Vec<(Fate, Told)> {
    let titles = Titles::new();
    let mut before = Teller::new(change.file(), &titles);
    let mut after = Teller::new(change.edited(), &titles);
    let all = fates(change.before().breaks(), change.after().breaks());
    let all = all.into_iter().map(|(fate, at)| match fate {
        Fate::Gone => (fate, before.tell(at)),
        _ => (fate, after.tell(at)),
    });
    all.collect()
}

fn place(change: &Change) -> String {
    format!("{}:{}:{}:", change.name, change.line, change.cell)
}

/// What stood there and what stands there now.
fn becomes(change: &Change) -> String {
    let column = match &change.column {
        Some(name) => format!("in the column `{}`", show::cell(name)),
        None => "under no column name".to_string(),
    };
    let (old, new) = (shown(change.old()), shown(&change.new));
    if change.old() == change.new {
        return format!("{column}: {old} stands there already");
    }
    format!("{column}: {old} becomes {new}")
}

fn shown(cell: &[u8]) -> String {
    match cell {
        b"" => "an empty cell".to_string(),
        cell => format!("`{}`", show::cell(cell)),
    }
}

/// How many breaks the line had and has. That no other line's change is proved, and not looked at.
fn counts(change: &Change) -> String {
    let before = match change.before().count {
        0 => "no break".to_string(),
        count => show::counted(u64::from(count), "break"),
    };
    let after = match change.after().count {
        0 => "none".to_string(),
        count => show::count(u64::from(count)),
    };
    format!(
        "line {}: {before} before, {after} after; no other line's breaks change",
        change.line
    )
}

/// What became of the edited copy.
fn copy(change: &Change, written: &Written) -> String {
    let line = written.line("edited copy", change.edited());
    line.unwrap_or_else(|| "nothing was written: -o NEW writes the edited copy".to_string())
}
