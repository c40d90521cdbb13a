//! Files with holes, drawn: small ones, with every sort of line that a mender
//! must pass over, and rows with holes under every sort of column.

use crate::names::COLUMNS;

/// A number below the one given.
pub type Below<'d> = &'d mut dyn FnMut(usize) -> usize;

/// The sections: the letter in the list of columns, the codes of a header and of
/// a row, and the columns without which most headers are not.
const SECTIONS: [(char, &str, &str, &[&str]); 4] = [
    ('P', "PRH", "PRT", &["accession"]),
    ('E', "PEH", "PEP", &["sequence", "accession"]),
    ('S', "PSH", "PSM", &["PSM_ID", "sequence", "accession"]),
    ('M', "SMH", "SML", &["identifier"]),
];

/// Names that are near to others, or to none. Empty names are among them.
const NAMES: [&str; 12] = [
    "",
    "",
    "opt_a",
    "opt_b",
    "opt_",
    "opt_accession",
    "foo",
    "Accession",
    "accession",
    "sequence",
    "PSM_ID",
    "best_search_engine_score[0]",
];

/// Cells that are not empty, though some of them nearly are.
const CELLS: [&[u8]; 18] = [
    b"null",
    b"null",
    b"1",
    b"2",
    b"0.5",
    b"1|2",
    b"[,,a,]",
    b"x",
    b" ",
    b"\r",
    b"\x01",
    b"\x7f",
    b"\0",
    b"\xff",
    b"\xc3\xa9",
    b"NULL",
    b"\"",
    b"#",
];

/// Lines that are none of a table, or are near to one.
const LINES: [&[u8]; 16] = [
    b"",
    b"",
    b"COM",
    b"COM\t\t",
    b"COM\tPRH\taccession",
    b"MTD\ttitle\t",
    b"MTD\t\t",
    b"MTD\t",
    b"MTD\ttitle\t\t",
    b"MTD\tms_run[1]-location\ta",
    b"\t\t",
    b"x",
    b"PRT \t\t",
    b"sml\t\t",
    b"\x01\t",
    b"\r",
];

/// As many cells a header may have; some have one more.
const WIDEST: usize = 256;

struct Source<'d> {
    below: Below<'d>,
    /// One cell in so many is a hole.
    holes: usize,
    /// A line ends with CR LF once in so many times; 0 for never.
    returns: usize,
    out: Vec<u8>,
}

/// A file, drawn by the numbers.
pub fn file(below: Below) -> Vec<u8> {
    let holes = [1, 2, 2, 4, 12][below(5)];
    let returns = [0, 0, 1, 2, 4][below(5)];
    let mut source = Source {
        below,
        holes,
        returns,
        out: Vec::new(),
    };
    // Many files are little more than a header and a row.
    let tables = [1, 1, 1, 2, 3, 4][source.draw(6)];
    let most = [2, 2, 5][source.draw(3)];
    for _ in 0..tables {
        source.table(most);
    }
    if source.once_in(4) {
        source.out.pop();
    }
    source.out
}

impl Source<'_> {
    fn draw(&mut self, n: usize) -> usize {
        (self.below)(n)
    }

    fn once_in(&mut self, n: usize) -> bool {
        self.draw(n) == 0
    }

    fn one_of<'a, T: ?Sized>(&mut self, all: &[&'a T]) -> &'a T {
        all[self.draw(all.len())]
    }

    /// Ends a line. Others stand after some.
    fn end_line(&mut self) {
        if self.returns > 0 && self.once_in(self.returns) {
            self.out.push(b'\r');
        }
        self.out.push(b'\n');
        if self.once_in(10) {
            let line = self.one_of(&LINES);
            self.out.extend(line);
            self.end_line();
        }
    }

    /// A header and so many rows at most.
    fn table(&mut self, most: usize) {
        let section = self.draw(4);
        let names = self.names(section);
        let (_, header, ..) = SECTIONS[section];
        // Some rows have no header, or that of the table above.
        if !self.once_in(12) {
            self.out.extend(header.bytes());
            for name in &names {
                self.out.push(b'\t');
                self.out.extend(name.bytes());
            }
            self.end_line();
        }
        for _ in 0..=self.draw(most) {
            self.row(section, names.len());
        }
    }

    fn names(&mut self, section: usize) -> Vec<String> {
        if self.once_in(40) {
            // The names of so many are empty, all but one.
            let mut names = vec![String::new(); WIDEST - 2 + self.draw(3)];
            let at = self.draw(names.len());
            names[at] = "accession".to_string();
            return names;
        }
        let (_, _, _, required) = SECTIONS[section];
        let mut names: Vec<String> = Vec::new();
        for name in required {
            if !self.once_in(4) {
                names.push(name.to_string());
            }
        }
        for _ in 0..self.draw(5) {
            let name = self.name(section);
            let at = self.draw(names.len() + 1);
            names.insert(at, name);
        }
        names
    }

    /// A column of the section, of another, or of none.
    fn name(&mut self, section: usize) -> String {
        if self.once_in(4) {
            return self.one_of(&NAMES).to_string();
        }
        let (letter, ..) = SECTIONS[section];
        let (sections, pattern, _) = COLUMNS[self.draw(COLUMNS.len())];
        if sections.contains(letter) || self.once_in(6) {
            let index = self.one_of(&["[1]", "[1]", "[64]", "[65]"]);
            return pattern.replace("[n]", index);
        }
        self.name(section)
    }

    /// A row, mostly of the section and as wide as its header.
    fn row(&mut self, section: usize, columns: usize) {
        let section = match self.draw(15) {
            0 => self.draw(4),
            _ => section,
        };
        let (_, _, code, _) = SECTIONS[section];
        self.out.extend(code.bytes());
        let width = match self.draw(20) {
            0 => columns + 1,
            1 => columns.saturating_sub(1),
            2 => self.draw(columns + 1),
            _ => columns,
        };
        // Some rows are of holes alone.
        let holes = if self.once_in(10) { 1 } else { self.holes };
        for _ in 0..width {
            self.out.push(b'\t');
            if !self.once_in(holes) {
                let cell = self.one_of(&CELLS);
                self.out.extend(cell);
            }
        }
        self.end_line();
    }
}

/// So many files, the same on every run.
pub fn files(count: usize) -> Vec<Vec<u8>> {
    let mut below = super::numbers(202_602);
    (0..count).map(|_| file(&mut below)).collect()
}
