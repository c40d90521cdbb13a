//! Which cell of which file is meant, and what is said where there is none.

use std::ffi::OsString;

use mztab::format::SECTIONS;
use mztab::Refusal;

use crate::files::tables;
use crate::files::{self, Unread};
use crate::output::show;
use crate::words::failure::Failure;
use crate::words::{misused, number};

/// Which cell of which file.
pub struct Question {
    pub name: String,
    pub file: Vec<u8>,
    pub section: u32,
    pub row: u32,
    pub column: u32,
}

fn every_section() -> String {
    let all: Vec<String> = SECTIONS
        .iter()
        .map(|section| format!("{} {}", section.number, section.name))
        .collect();
    all.join(", ")
}

impl Question {
    /// FILE SECTION ROW COLUMN, as the words of a command have them. The file is read.
    pub fn new(command: &str, words: [OsString; 4]) -> Result<Question, Failure> {
        let [file, section, row, column] = words;
        let section = tables::section(&section).ok_or_else(|| {
            let shown = section.to_string_lossy();
            misused(
                command,
                &format!("knows the sections {}, and not `{shown}`", every_section()),
            )
        })?;
        let row = number(command, "ROW", &row)?;
        let column = number(command, "COLUMN", &column)?;
        let (name, file) = files::one(file)?;
        Ok(Question {
            name,
            file,
            section,
            row,
            column,
        })
    }

    /// The refusal in words, with what there is to ask for.
    pub fn refused(&self, refusal: Refusal) -> Failure {
        let words = match refusal {
            Refusal::TooLong => {
                return Failure::Stopped(format!("{} {}", self.name, Unread::TooLong))
            }
            Refusal::NoSection => format!(
                "there is no section {}: ask for {}",
                self.section,
                every_section()
            ),
            Refusal::NoRow => self.no_row(),
            Refusal::NoCell => self.no_cell(),
            other => format!("{} cannot be asked: {other}", self.name),
        };
        Failure::Refused(words)
    }

    fn no_row(&self) -> String {
        let section = tables::name(self.section);
        let rows = mztab::rows(&self.file, self.section).unwrap_or(0);
        let has = show::counted(u64::from(rows), "row");
        let there_is = match rows {
            0 => format!(
                "`bolfrake rows {}` says which sections have rows",
                self.name
            ),
            1 => "ask for row 1".to_string(),
            _ => format!("ask for row 1 to {rows}"),
        };
        match self.row {
            0 => format!(
                "{} has no header of section {section}, and {has} of it: {there_is}",
                self.name
            ),
            row => format!(
                "{} has no row {row} of section {section}, it has {has}: {there_is}",
                self.name
            ),
        }
    }

    fn no_cell(&self) -> String {
        let section = tables::name(self.section);
        let place = match self.row {
            0 => format!("the header of section {section}"),
            row => format!("row {row} of section {section}"),
        };
        let column = self.column;
        match self.last_column() {
            0 => format!(
                "{place} has no column {column}, it has none: its line has the line code alone"
            ),
            1 => format!("{place} has no column {column}, it has 1 column: ask for column 1"),
            last => format!(
                "{place} has no column {column}, it has {last} columns: ask for column 1 to {last}"
            ),
        }
    }

    /// The columns of a row are those from 1 to the last: doubling, then halving, finds it in few calls.
    fn last_column(&self) -> u32 {
        let has = |column| mztab::cell(&self.file, self.section, self.row, column).is_ok();
        let mut above = 1;
        while has(above) {
            above *= 2;
        }
        let mut below = above / 2;
        while above - below > 1 {
            let middle = below + (above - below) / 2;
            if has(middle) {
                below = middle;
            } else {
                above = middle;
            }
        }
        below
    }
}

#[cfg(test)]
mod tests {
    use super::*;

    fn asked(row: u32, column: u32) -> Question {
        let file = b"PRH\ta\tb\tc\nPRT\tx\tnull\nPRT\n".to_vec();
        Question {
            name: "f".to_string(),
            file,
            section: 1,
            row,
            column,
        }
    }

    #[test]
    fn refusals_say_what_there_is() {
        let words = asked(9, 1).refused(Refusal::NoRow).to_string();
        assert_eq!(
            words,
            "f has no row 9 of section protein, it has 2 rows: ask for row 1 to 2"
        );
        let words = asked(0, 0).refused(Refusal::NoCell).to_string();
        assert_eq!(words, "the header of section protein has no column 0, it has 3 columns: ask for column 1 to 3");
        let words = asked(1, 9).refused(Refusal::NoCell).to_string();
        assert_eq!(
            words,
            "row 1 of section protein has no column 9, it has 2 columns: ask for column 1 to 2"
        );
        let words = asked(2, 1).refused(Refusal::NoCell).to_string();
        assert_eq!(words, "row 2 of section protein has no column 1, it has none: its line has the line code alone");
    }
}
