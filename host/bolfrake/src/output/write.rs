//! The three ways in which `check` prints: for people, for tables, for programs.

use std::fmt::Write as _;
use std::io::{self, Write};

use crate::files::Unread;
use crate::output::show::{count, counted};
use crate::output::terminal::{self, Colours};
use crate::output::told::Told;

#[derive(Clone, Copy, PartialEq, Eq)]
pub enum Format {
    Text { coloured: bool },
    Csv,
    Json,
}

/// What became of one file.
pub enum Verdict {
    /// The count of all breaks, how many of them are shown, and the file's bytes.
    Judged {
        breaks: u32,
        shown: usize,
        bytes: usize,
    },
    /// Why not.
    NotJudged(Unread),
}

/// The counts over all files.
#[derive(Default)]
pub struct Sum {
    pub accepted: u64,
    pub broken: u64,
    pub not_judged: u64,
    pub breaks: u64,
}

impl Sum {
    pub fn add(&mut self, verdict: &Verdict) {
        match verdict {
            Verdict::Judged { breaks: 0, .. } => self.accepted += 1,
            Verdict::Judged { breaks, .. } => {
                self.broken += 1;
                self.breaks += u64::from(*breaks);
            }
            Verdict::NotJudged(_) => self.not_judged += 1,
        }
    }

    fn files(&self) -> u64 {
        self.accepted + self.broken + self.not_judged
    }

    /// The line for all files.
    pub fn line(&self) -> String {
        format!(
            "{}: {} accepted, {} with breaks, {} not judged; {} in all",
            counted(self.files(), "file"),
            count(self.accepted),
            count(self.broken),
            count(self.not_judged),
            counted(self.breaks, "break")
        )
    }

    /// 0 all accepted, 1 breaks, 2 a file that was not judged.
    pub fn status(&self) -> u8 {
        match (self.not_judged, self.broken) {
            (0, 0) => 0,
            (0, _) => 1,
            _ => 2,
        }
    }
}

impl Format {
    /// The words for them, as `--format` takes them.
    pub const NAMES: [&'static str; 3] = ["text", "csv", "json"];

    /// The one that such a word names.
    pub fn named(name: &str) -> Format {
        match name {
            "csv" => Format::Csv,
            "json" => Format::Json,
            _ => Format::for_people(),
        }
    }

    /// Text, coloured where standard output is to be.
    pub fn for_people() -> Format {
        Format::Text {
            coloured: terminal::coloured(),
        }
    }

    /// What stands before the first file.
    pub fn opening(self) -> &'static str {
        match self {
            Format::Text { .. } => "",
            Format::Csv => "file,line,cell,rule,first,words,shown,detail\n",
            Format::Json => "{\"files\": [",
        }
    }

    /// What stands before the breaks of the k-th file.
    pub fn before(
        self,
        k: usize,
        name: &str,
        verdict: &Verdict,
        out: &mut dyn Write,
    ) -> io::Result<()> {
        if self != Format::Json {
            return Ok(());
        }
        let comma = if k == 0 { "" } else { "," };
        write!(out, "{comma}\n{{\"file\": {}, ", json(name))?;
        match verdict {
            Verdict::NotJudged(unread) => write!(
                out,
                "\"status\": \"not judged\", \"reason\": {}",
                json(&unread.to_string())
            ),
            Verdict::Judged {
                breaks,
                shown,
                bytes,
            } => {
                let status = if *breaks == 0 { "accepted" } else { "broken" };
                write!(out, "\"status\": \"{status}\", \"bytes\": {bytes}, \"count\": {breaks}, \"shown\": {shown}, \"breaks\": [")
            }
        }
    }

    /// The k-th break of a file.
    pub fn one(self, k: usize, name: &str, told: &Told, out: &mut dyn Write) -> io::Result<()> {
        match self {
            Format::Text { coloured } => text(name, told, coloured, out),
            Format::Csv => csv(name, told, out),
            Format::Json => json_break(k, told, out),
        }
    }

    /// What stands after the breaks of a file.
    pub fn after(self, name: &str, verdict: &Verdict, out: &mut dyn Write) -> io::Result<()> {
        match (self, verdict) {
            (Format::Json, Verdict::Judged { .. }) => out.write_all(b"]}"),
            (Format::Json, Verdict::NotJudged(_)) => out.write_all(b"}"),
            (Format::Text { .. }, Verdict::Judged { breaks, shown, .. }) => {
                writeln!(out, "{name}: {}", summary(*breaks, *shown))
            }
            _ => Ok(()),
        }
    }

    /// What stands after the last file.
    pub fn closing(self, sum: &Sum) -> String {
        match self {
            Format::Text { .. } => format!("{}\n", sum.line()),
            Format::Csv => String::new(),
            Format::Json => format!(
                "\n], \"accepted\": {}, \"broken\": {}, \"not_judged\": {}, \"breaks\": {}}}\n",
                sum.accepted, sum.broken, sum.not_judged, sum.breaks
            ),
        }
    }
}

/// How many breaks there are, and how many of them are shown.
pub fn summary(breaks: u32, shown: usize) -> String {
    let all = counted(u64::from(breaks), "break");
    match (breaks, shown) {
        (0, _) => "accepted".to_string(),
        (_, 0) => format!("{all}, none of them shown"),
        (_, shown) if shown < breaks as usize => {
            format!("{all}, of which the first {} shown", count(shown as u64))
        }
        _ => all,
    }
}

/// `FILE:LINE:CELL: rule N: words: the cell, detail`
fn text(name: &str, told: &Told, coloured: bool, out: &mut dyn Write) -> io::Result<()> {
    let Colours {
        bold,
        yellow,
        plain,
        ..
    } = Colours::new(coloured);
    let at = told.at;
    write!(
        out,
        "{bold}{name}:{}:{}:{plain} {yellow}rule {}{plain}: {}",
        at.line, at.cell, at.rule, told.words
    )?;
    match &told.shown {
        // Rule 19 says itself that the cell is empty.
        Some(shown) if shown.is_empty() && at.rule != 19 => write!(out, ": an empty cell")?,
        Some(shown) if !shown.is_empty() => write!(out, ": `{shown}`")?,
        _ => {}
    }
    match told.detail.as_str() {
        "" => writeln!(out),
        detail => writeln!(out, ", {detail}"),
    }
}

fn csv(name: &str, told: &Told, out: &mut dyn Write) -> io::Result<()> {
    let at = told.at;
    // The marks keep a table program from reading a cell as a number, a date or a formula.
    let shown = told.shown.as_ref().map(|shown| format!("`{shown}`"));
    writeln!(
        out,
        "{},{},{},{},{},{},{},{}",
        quoted(name),
        at.line,
        at.cell,
        at.rule,
        at.first,
        quoted(told.words),
        quoted(&shown.unwrap_or_default()),
        quoted(&told.detail)
    )
}

/// A field of a CSV line, in quotation marks where it needs them.
pub fn quoted(field: &str) -> String {
    if field.contains([',', '"', '\n', '\r']) {
        return format!("\"{}\"", field.replace('"', "\"\""));
    }
    field.to_string()
}

fn json_break(k: usize, told: &Told, out: &mut dyn Write) -> io::Result<()> {
    let comma = if k == 0 { "" } else { "," };
    let at = told.at;
    let shown = told
        .shown
        .as_ref()
        .map_or("null".to_string(), |shown| json(shown));
    write!(
        out,
        "{comma}\n  {{\"line\": {}, \"cell\": {}, \"rule\": {}, \"first\": {}, \"words\": {}, \"shown\": {shown}, \"detail\": {}}}",
        at.line,
        at.cell,
        at.rule,
        at.first,
        json(told.words),
        json(&told.detail)
    )
}

/// A string of JSON.
pub fn json(text: &str) -> String {
    let mut out = String::from("\"");
    for c in text.chars() {
        match c {
            '"' => out += "\\\"",
            '\\' => out += "\\\\",
            c if c < ' ' => {
                let _ = write!(out, "\\u{:04x}", u32::from(c));
            }
            c => out.push(c),
        }
    }
    out.push('"');
    out
}

#[cfg(test)]
mod tests {
    use super::*;

    #[test]
    fn fields_and_strings() {
        assert_eq!(quoted("plain"), "plain");
        assert_eq!(quoted("a,b"), "\"a,b\"");
        assert_eq!(quoted("say \"x\""), "\"say \"\"x\"\"\"");
        assert_eq!(json("a\"b\\x0A\u{1}ö"), "\"a\\\"b\\\\x0A\\u0001ö\"");
    }

    #[test]
    fn summaries() {
        assert_eq!(summary(0, 0), "accepted");
        assert_eq!(summary(1, 1), "1 break");
        assert_eq!(summary(1, 0), "1 break, none of them shown");
        assert_eq!(
            summary(10_005, 100),
            "10,005 breaks, of which the first 100 shown"
        );
    }

    #[test]
    fn the_status_of_all() {
        let mut sum = Sum::default();
        assert_eq!(sum.status(), 0);
        sum.add(&Verdict::Judged {
            breaks: 3,
            shown: 3,
            bytes: 9,
        });
        assert_eq!(sum.status(), 1);
        sum.add(&Verdict::NotJudged(Unread::Folder));
        assert_eq!(sum.status(), 2);
        assert_eq!(
            sum.line(),
            "2 files: 0 accepted, 1 with breaks, 1 not judged; 3 breaks in all"
        );
    }
}
