//! The edit of one cell: where it stands, the file before and after, and the breaks of its line in both.

use mztab::format::headed;
use mztab::{raw, Judged, Refusal, LIMIT};

use crate::ask::question::Question;
use crate::files::finder::{cells, code, Finder};
use crate::files::judged::judged_line;
use crate::output::show;
use crate::words::failure::Failure;

pub struct Change {
    pub name: String,
    /// Where the cell stands.
    pub line: u32,
    pub cell: u32,
    /// The name of its column, if it has one.
    pub column: Option<Vec<u8>>,
    /// The text in its place.
    pub new: Vec<u8>,
    /// The place of its first byte in the file, and how many it has.
    start: usize,
    length: usize,
    file: Vec<u8>,
    edited: Vec<u8>,
    before: Judged,
    after: Judged,
}

impl Change {
    /// The edit of the cell that is asked for, judged; or why there is none.
    pub fn new(asked: Question, new: Vec<u8>) -> Result<Change, Failure> {
        if let Some(words) = unfit(&new) {
            return Err(Failure::Refused(words.to_string()));
        }
        if asked.row == 0 {
            return Err(of_header(&asked.name));
        }
        let Question {
            section,
            row,
            column,
            ..
        } = asked;
        // The reading says on which line the cell stands, the view where in the file.
        let reading = mztab::reading(&asked.file, section, row, column);
        let at = reading.map_err(|refusal| asked.refused(refusal))?;
        let view = raw::cell(&asked.file, section, row, column);
        let edited = spliced(&asked.file, view.start, view.length, &new);
        if edited.len() > LIMIT {
            return Err(too_long(&asked.name, edited.len()));
        }
        let [before, after] = judged_line([&asked.file, &edited], at.line, usize::MAX)?;
        let unjudged = |refusal| unjudged(&asked.name, refusal);
        Ok(Change {
            line: at.line,
            cell: at.cell,
            column: column_of(&asked.file, section, at.line, at.cell),
            new,
            start: view.start,
            length: view.length,
            edited,
            before: before.map_err(unjudged)?,
            after: after.map_err(unjudged)?,
            name: asked.name,
            file: asked.file,
        })
    }

    /// The text that stands there.
    pub fn old(&self) -> &[u8] {
        &self.file[self.start..self.start + self.length]
    }

    pub fn file(&self) -> &[u8] {
        &self.file
    }

    pub fn edited(&self) -> &[u8] {
        &self.edited
    }

    /// The breaks of the line as it stands, and as it is edited.
    pub fn before(&self) -> &Judged {
        &self.before
    }

    pub fn after(&self) -> &Judged {
        &self.after
    }
}

/// The file with other bytes in place of those of a cell.
fn spliced(file: &[u8], start: usize, length: usize, new: &[u8]) -> Vec<u8> {
    [&file[..start], new, &file[start + length..]].concat()
}

/// Why a text cannot stand in a cell, and what to do.
fn unfit(text: &[u8]) -> Option<&'static str> {
    let cuts = text.iter().find(|byte| b"\t\r\n".contains(byte))?;
    Some(match cuts {
        b'\t' => "a cell cannot hold a tab, which begins the next cell: leave it out, or write a space for it",
        b'\r' => "a cell cannot hold a CR, which belongs to a line end: leave it out, or write a space for it",
        _ => "a cell cannot hold an LF, which ends the line: leave it out, or write a space for it",
    })
}

fn of_header(name: &str) -> Failure {
    Failure::Refused(format!(
        "row 0 is a header, and an edit of a header can change what every row below it is judged by: edit the file and run `bolfrake check {name}`"
    ))
}

fn too_long(name: &str, length: usize) -> Failure {
    Failure::Refused(format!(
        "{name} would have {} with this text, more than the {} that are judged: take a shorter text, or write its sections, or parts of its rows, to files of their own",
        show::counted(length as u64, "byte"),
        show::count(LIMIT as u64)
    ))
}

/// The line of a cell that was found is there in both files, so this is said of no file.
fn unjudged(name: &str, refusal: Refusal) -> Failure {
    Failure::Stopped(format!("{name} cannot be judged: {refusal}"))
}

/// The name of a cell's column: that in the nearest header above it, if it is one of the row's own section and as wide.
fn column_of(file: &[u8], section: u32, line: u32, cell: u32) -> Option<Vec<u8>> {
    let mut finder = Finder::new(file);
    finder.find(line, 1)?;
    let header = finder.header();
    if headed(code(header))?.number != section {
        return None;
    }
    let name = cells(header).nth(cell as usize - 1);
    name.map(<[u8]>::to_vec)
}

#[cfg(test)]
mod tests {
    use mztab::Break;

    use super::*;

    fn change(
        file: &[u8],
        section: u32,
        row: u32,
        column: u32,
        text: &[u8],
    ) -> Result<Change, Failure> {
        let asked = Question {
            name: "f".to_string(),
            file: file.to_vec(),
            section,
            row,
            column,
        };
        Change::new(asked, text.to_vec())
    }

    #[test]
    fn the_bytes_of_the_cell_alone() {
        let file = b"SMH\tidentifier\tcharge\r\nSML\tC1\tx\xff\r\nSML\t\t\r";
        for (row, column, text, expected) in [
            (
                1,
                1,
                &b""[..],
                &b"SMH\tidentifier\tcharge\r\nSML\t\tx\xff\r\nSML\t\t\r"[..],
            ),
            (
                1,
                2,
                b"\xfe\x00",
                b"SMH\tidentifier\tcharge\r\nSML\tC1\t\xfe\x00\r\nSML\t\t\r",
            ),
            (
                2,
                1,
                b"C2",
                b"SMH\tidentifier\tcharge\r\nSML\tC1\tx\xff\r\nSML\tC2\t\r",
            ),
            // No LF follows the CR at the end, so it is part of the cell.
            (
                2,
                2,
                b"1",
                b"SMH\tidentifier\tcharge\r\nSML\tC1\tx\xff\r\nSML\t\t1",
            ),
        ] {
            let change = change(file, 4, row, column, text).unwrap();
            assert_eq!(change.edited(), expected);
            assert_eq!((change.line, change.cell), (row + 1, column + 1));
        }
    }

    #[test]
    fn the_breaks_of_the_line() {
        let file = b"SMH\tidentifier\tcharge\nSML\t\t2+\nSML\t\t1\n";
        let change = change(file, 4, 1, 2, b"1").unwrap();
        let rules = |judged: &Judged| judged.breaks().map(|at| at.rule).collect::<Vec<_>>();
        assert_eq!(rules(change.before()), [19, 20]);
        assert_eq!(rules(change.after()), [19]);
        assert_eq!(change.old(), b"2+");
    }

    /// Cells of rows of each case, emptied or filled with a control byte: the whole list is the old one with the line's part anew.
    #[test]
    fn no_other_line_changes() {
        let mut tried = 0;
        for case in independent::cases::judging::all() {
            let old: Vec<Break> = mztab::judge_all(&case.file).unwrap().breaks().collect();
            for (section, row, column) in places(&case.file) {
                let text = [&b""[..], b"\x01"][tried % 2];
                let change = change(&case.file, section, row, column, text).unwrap();
                let line = change.line;
                let mut expected = old.clone();
                expected.retain(|at| at.line < line);
                expected.extend(change.after().breaks());
                expected.extend(old.iter().filter(|at| at.line > line));
                let new = mztab::judge_all(change.edited()).unwrap();
                let new: Vec<Break> = new.breaks().collect();
                assert_eq!(new, expected, "{}", case.label);
                tried += 1;
            }
        }
        assert!(tried > 500, "{tried}");
    }

    /// The first cells of the first rows of a file.
    fn places(file: &[u8]) -> Vec<(u32, u32, u32)> {
        let mut places = Vec::new();
        for section in 1..5 {
            for row in 1..=mztab::rows(file, section).unwrap().min(2) {
                let there = |column: &u32| mztab::cell(file, section, row, *column).is_ok();
                places.extend(
                    (1..9)
                        .take_while(there)
                        .map(|column| (section, row, column)),
                );
            }
        }
        places
    }

    #[test]
    fn columns() {
        let file = b"SML\ta\nSMH\tidentifier\t\nSML\ta\tb\tc\nPRT\ta\nPRH\taccession\nSML\ta";
        let column =
            |section, row, column| change(file, section, row, column, b"x").unwrap().column;
        assert_eq!(column(4, 1, 1), None);
        assert_eq!(column(4, 2, 1), Some(b"identifier".to_vec()));
        assert_eq!(column(4, 2, 2), Some(Vec::new()));
        assert_eq!(column(4, 2, 3), None);
        // Under a header of another section.
        assert_eq!(column(1, 1, 1), None);
        assert_eq!(column(4, 3, 1), None);
    }

    #[test]
    fn refusals() {
        let file = b"SMH\tidentifier\tcharge\nSML\tC1\t1\n";
        let said = |section, row, column, text: &[u8]| {
            let failure = change(file, section, row, column, text).err().unwrap();
            assert_eq!(failure.status(), 1);
            failure.to_string()
        };
        assert!(said(4, 1, 1, b"a\tb").starts_with("a cell cannot hold a tab, "));
        assert!(said(4, 1, 1, b"a\n").starts_with("a cell cannot hold an LF, "));
        assert!(said(4, 1, 1, b"\r").starts_with("a cell cannot hold a CR, "));
        assert!(said(4, 0, 1, b"x").starts_with("row 0 is a header, "));
        assert!(said(1, 0, 1, b"x").starts_with("row 0 is a header, "));
        assert_eq!(
            said(4, 2, 1, b"x"),
            "f has no row 2 of section small-molecule, it has 1 row: ask for row 1"
        );
        assert!(
            said(4, 1, 0, b"x").starts_with("row 1 of section small-molecule has no column 0, ")
        );
        assert!(said(9, 1, 1, b"x").starts_with("there is no section 9: "));
    }

    #[test]
    fn either_side_of_the_limit() {
        let file = b"SMH\tidentifier\nSML\tC1\n";
        let most = LIMIT - file.len() + 2;
        assert_eq!(
            change(file, 4, 1, 1, &vec![b'x'; most])
                .unwrap()
                .edited()
                .len(),
            LIMIT
        );
        let failure = change(file, 4, 1, 1, &vec![b'x'; most + 1]).err().unwrap();
        assert_eq!(failure.status(), 1);
        let words = "f would have 16,777,217 bytes with this text, more than the 16,777,216 that are judged: ";
        assert!(failure.to_string().starts_with(words), "{failure}");
    }
}
