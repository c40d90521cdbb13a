//! Where a count below zero stands. The file is an accepted one but for that: it has one protein header, its rows are below it, and the cells of a counted
//! column are whole numbers or `null`.

use mztab::format::{Section, COUNTS, SECTIONS};
use mztab::raw;

use crate::files::finder::{cells, code, cut_line};
use crate::output::show;

const PROTEIN: Section = SECTIONS[0];

/// The first of them, and how many there are.
#[derive(Debug, PartialEq, Eq)]
pub struct BelowZero {
    /// The row and the column, as the calls for cells take them.
    row: u32,
    column: u32,
    line: u32,
    cell: u32,
    /// The column's name, and what stands there.
    name: String,
    shown: String,
    count: u64,
}

/// The first count below zero, if there is one. The rows are walked here, once; where the cell stands is what the library says.
pub fn below_zero(file: &[u8]) -> Option<BelowZero> {
    let header = raw::cell(file, PROTEIN.number, 0, 1);
    if header.number != 0 {
        return None;
    }
    let (header, mut rest) = cut_line(&file[header.start..]);
    let counted: Vec<bool> = cells(header).map(is_counted).collect();
    let (mut row, mut first, mut count) = (0, None, 0);
    while !rest.is_empty() {
        let (line, after) = cut_line(rest);
        rest = after;
        if code(line) != PROTEIN.row {
            continue;
        }
        row += 1;
        for column in columns_below_zero(line, &counted) {
            first.get_or_insert((row, column));
            count += 1;
        }
    }
    let (row, column) = first?;
    BelowZero::at(file, row, column, count)
}

/// The columns of a row in which a count below zero stands.
fn columns_below_zero<'a>(line: &'a [u8], counted: &'a [bool]) -> impl Iterator<Item = u32> + 'a {
    let cells = cells(line).skip(1).zip(counted).zip(1..);
    cells
        .filter_map(|((cell, counted), column)| (*counted && is_below_zero(cell)).then_some(column))
}

/// Whether a column has a run's counts: the bracket of its index follows one of the names.
fn is_counted(column: &[u8]) -> bool {
    let rest = |name: &&str| column.strip_prefix(name.as_bytes());
    let mut rests = COUNTS.iter().filter_map(rest);
    rests.any(|rest| rest.first() == Some(&b'['))
}

/// Whether a whole number is below zero: `-0` is not.
fn is_below_zero(cell: &[u8]) -> bool {
    let digits = cell.strip_prefix(b"-").unwrap_or_default();
    digits.iter().any(|digit| *digit != b'0')
}

impl BelowZero {
    fn at(file: &[u8], row: u32, column: u32, count: u64) -> Option<BelowZero> {
        let at = mztab::reading(file, PROTEIN.number, row, column).ok()?;
        let shown = |row| mztab::cell(file, PROTEIN.number, row, column).map(show::cell);
        Some(BelowZero {
            row,
            column,
            line: at.line,
            cell: at.cell,
            name: shown(0).ok()?,
            shown: shown(row).ok()?,
            count,
        })
    }

    /// Where it stands in the file of this name, and what to do.
    pub fn told(&self, name: &str) -> String {
        let others = match self.count {
            1 => String::new(),
            count => format!(" (the first of {})", show::count(count)),
        };
        format!(
            "`{}` in line {}, cell {}, in the column `{}`{others}: ask the laboratory for the right count, and `bolfrake edit {name} {} {} {} COUNT -o NEW` writes a copy with it",
            self.shown, self.line, self.cell, self.name, PROTEIN.name, self.row, self.column
        )
    }
}

#[cfg(test)]
mod tests {
    use super::*;

    const HEADER: &str =
        "PRH\taccession\tnum_psms_ms_run[2]\ttaxid\tnum_peptides_unique_ms_run[1]\n";

    fn found(rows: &str) -> Option<(u32, u32, u64)> {
        let file = format!("MTD\ttitle\t-1\r\n\n{HEADER}{rows}");
        let found = below_zero(file.as_bytes())?;
        // The header stands on line 3, and the first column in cell 2.
        assert_eq!(found.cell, found.column + 1);
        Some((found.line, found.column, found.count))
    }

    #[test]
    fn the_first_and_how_many() {
        assert_eq!(found("PRT\ta\t1\t2\t3\n"), None);
        assert_eq!(found("PRT\t-1\t1\t-2\tnull\nPRT\ta\t-0\t-1\t-000"), None);
        assert_eq!(found("PRT\ta\t1\t2\t-3"), Some((4, 4, 1)));
        assert_eq!(found("PRT\ta\t-01\t2\t-3\r\n"), Some((4, 2, 2)));
        let rows = "COM\tPRT\nPRT\ta\t1\t2\t3\n\nPRT\ta\t1\t-2\t-10\nPRT\ta\t-1\t2\t-3\n";
        assert_eq!(found(rows), Some((7, 4, 3)));
    }

    #[test]
    fn files_without_proteins() {
        for file in ["", "PRH", "SMH\tidentifier\tcharge\nSML\ta\t-1\n"] {
            assert_eq!(below_zero(file.as_bytes()), None, "{file}");
        }
    }

    #[test]
    fn in_words() {
        let file = format!("{HEADER}PRT\ta\t1\t2\t3\nPRT\ta\t-07\t2\t-1\n");
        let found = below_zero(file.as_bytes()).unwrap();
        let expected = "`-07` in line 3, cell 3, in the column `num_psms_ms_run[2]` (the first of 2): ask the laboratory for the right count, \
            and `bolfrake edit f protein 2 2 COUNT -o NEW` writes a copy with it";
        assert_eq!(found.told("f"), expected);
    }

    #[test]
    fn counted_columns() {
        for (name, counted) in [
            ("num_psms_ms_run[1]", true),
            ("num_peptides_distinct_ms_run[64]", true),
            ("num_peptides_unique_ms_run[7]", true),
            ("num_psms_ms_run", false),
            ("opt_num_psms_ms_run[1]", false),
            ("num_psms", false),
            ("", false),
        ] {
            assert_eq!(is_counted(name.as_bytes()), counted, "{name}");
        }
    }
}
