//! Where mended cells stand, as people look for them: by section, row and column. The copy is walked once for all of them.

use mztab::format::{Section, SECTIONS};
use mztab::Change;

use crate::files::finder::Finder;
use crate::output::names::Names;

pub struct Place<'a> {
    /// The section's name.
    pub section: &'static str,
    /// The row's number in its section, as the calls for cells take it.
    pub row: u32,
    /// The name of the column, escaped and cut.
    pub column: &'a str,
}

pub struct Places<'a> {
    finder: Finder<'a>,
    /// The line that was walked to, and its section where it is a row.
    line: u32,
    section: Option<&'static Section>,
    /// The rows of each section up to that line.
    rows: [u32; SECTIONS.len()],
    names: Names<'a>,
}

impl<'a> Places<'a> {
    pub fn new(file: &'a [u8]) -> Places<'a> {
        Places {
            finder: Finder::new(file),
            line: 0,
            section: None,
            rows: [0; SECTIONS.len()],
            names: Names::default(),
        }
    }

    /// Where a change stands. They are asked for in their order. A cell is mended only in a row, and under a header of its section and width.
    pub fn place(&mut self, at: Change) -> Place<'_> {
        while self.line < at.line {
            self.line += 1;
            let code = self.finder.find(self.line, 1);
            self.section = row_of(code.unwrap_or_default());
            if let Some(section) = self.section {
                self.rows[section.number as usize - 1] += 1;
            }
        }
        let rows = self.section.map(|one| self.rows[one.number as usize - 1]);
        Place {
            section: self.section.map_or("", |section| section.name),
            row: rows.unwrap_or(0),
            column: self.names.of(self.finder.header(), at.cell),
        }
    }
}

/// The section whose rows have this code.
fn row_of(code: &[u8]) -> Option<&'static Section> {
    SECTIONS.iter().find(|section| section.row == code)
}

#[cfg(test)]
mod tests {
    use independent::lines::{cells, code, lines, Code};

    use super::*;
    use crate::output::show;

    #[test]
    fn rows_count_by_section() {
        let file = b"PRT\tearly\nSMH\tidentifier\tcharge\nSML\tC1\t1\n\nSML\tC2\t\r\nCOM\tSML\nPRH\taccession\turi\nPRTx\nPRT\tP1\t\nPRT\tP2\t\nSML\tC3";
        let mut places = Places::new(file);
        let mut of = |line, cell| {
            let place = places.place(Change { line, cell });
            (place.section, place.row, place.column.to_string())
        };
        assert_eq!(of(5, 2), ("small-molecule", 2, "identifier".to_string()));
        assert_eq!(of(5, 3), ("small-molecule", 2, "charge".to_string()));
        // The row before the header counts too.
        assert_eq!(of(9, 3), ("protein", 2, "uri".to_string()));
        assert_eq!(of(10, 2), ("protein", 3, "accession".to_string()));
    }

    /// The file with no byte where `null` stands.
    fn with_holes(file: &[u8]) -> Vec<u8> {
        let cells = file.split(|byte| *byte == b'\t');
        let cells = cells.map(|cell| cell.strip_prefix(b"null").unwrap_or(cell));
        cells.collect::<Vec<_>>().join(&b'\t')
    }

    /// The name over a cell in the nearest header above, as the independent reading cuts it.
    fn name_over(file: &[u8], at: Change) -> Option<String> {
        let above = lines(file).take(at.line as usize - 1);
        let header = above.filter(|line| matches!(code(line), Code::Header(_)));
        let name = cells(header.last()?).nth(at.cell as usize - 1);
        name.map(show::cell)
    }

    /// Each mended cell is the one that the cell call shows at that section, row and column, and the header above has that name over it.
    #[test]
    fn the_cell_call_finds_them() {
        let cases = independent::cases::judging::all();
        let mut files: Vec<Vec<u8>> = cases.iter().map(|case| with_holes(&case.file)).collect();
        files.extend(
            samples::EXPORTS
                .iter()
                .map(|export| with_holes(export.file)),
        );
        let mut found = 0;
        for file in files {
            let mended = mztab::mend(&file).unwrap();
            let mut places = Places::new(&mended.copy);
            for at in mended.changes {
                let place = places.place(at);
                let section = SECTIONS.iter().find(|one| one.name == place.section);
                let section = section.unwrap().number;
                let column = at.cell - 1;
                let cell = |file| mztab::cell(file, section, place.row, column);
                assert_eq!(cell(&file), Ok(&b""[..]));
                assert_eq!(cell(&mended.copy), Ok(&b"null"[..]));
                let reading = mztab::reading(&file, section, place.row, column);
                assert_eq!(reading.unwrap().line, at.line);
                assert_eq!(name_over(&file, at).as_deref(), Some(place.column));
                found += 1;
            }
        }
        assert!(found > 300, "{found}");
    }
}
