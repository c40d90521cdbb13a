//! The sections of a file: which there are, their columns and their rows.

use std::ffi::OsString;

use mztab::format::SECTIONS;
use mztab::{raw, Refusal};

use crate::files::finder::{cells, cut_line, Finder};

/// The name of a section; of another number, the number.
pub fn name(section: u32) -> String {
    let found = SECTIONS.iter().find(|one| one.number == section);
    found.map_or(section.to_string(), |one| one.name.to_string())
}

/// The section that a word names, by number or name. Any number is one: the library says whether there is such a section.
pub fn section(word: &OsString) -> Option<u32> {
    let text = word.to_str()?.to_lowercase().replace('_', "-");
    let found = SECTIONS.iter().find(|one| one.name == text);
    found.map(|one| one.number).or_else(|| text.parse().ok())
}

/// What a section has.
#[derive(Clone, Copy, Debug, Default, PartialEq, Eq)]
pub struct Table {
    /// The columns of the first header, if there is one.
    pub columns: Option<u32>,
    pub rows: u32,
    /// The rows at whose line a break is reported.
    pub breaking: u32,
}

/// The tables of a file. `broken` are the lines of its breaks in rising order; a line may come several times.
pub fn tables(file: &[u8], broken: impl Iterator<Item = u32>) -> Result<[Table; 4], Refusal> {
    let mut tables = [Table::default(); 4];
    for (table, section) in tables.iter_mut().zip(SECTIONS) {
        table.columns = columns(file, section.number);
        table.rows = mztab::rows(file, section.number)?;
    }
    count_breaking(file, broken, &mut tables);
    Ok(tables)
}

/// Counts the rows that stand at these lines.
fn count_breaking(file: &[u8], broken: impl Iterator<Item = u32>, tables: &mut [Table; 4]) {
    let mut finder = Finder::new(file);
    let mut last = 0;
    for line in broken {
        if line == last {
            continue;
        }
        last = line;
        let code = finder.find(line, 1);
        let section = SECTIONS.iter().position(|one| code == Some(one.row));
        if let Some(k) = section {
            tables[k].breaking += 1;
        }
    }
}

/// The columns of a section's first header, if there is one: the library says where the first begins, and tabs part the others.
fn columns(file: &[u8], section: u32) -> Option<u32> {
    let first = raw::cell(file, section, 0, 1);
    match first.number {
        0 => {
            let (line, _) = cut_line(&file[first.start..]);
            Some(cells(line).count() as u32)
        }
        number if number == Refusal::NoCell.number() => Some(0),
        _ => None,
    }
}

#[cfg(test)]
mod tests {
    use super::*;
    use crate::words::help;

    const FILE: &[u8] =
        b"PRT\tearly\nPRH\ta\tb\r\nPRT\tx\ty\nCOM\nPRT\nPRH\ta\nSML\tno header\nPRTx\n\nPRT\tz";

    #[test]
    fn rows_and_columns() {
        let tables = tables(FILE, [1, 1, 5, 6, 7, 99].into_iter()).unwrap();
        assert_eq!(
            tables[0],
            Table {
                columns: Some(2),
                rows: 4,
                breaking: 2
            }
        );
        assert_eq!(tables[1], Table::default());
        assert_eq!(
            tables[3],
            Table {
                columns: None,
                rows: 1,
                breaking: 1
            }
        );
    }

    #[test]
    fn columns_of_the_first_header() {
        for (header, columns) in [
            ("PRH", Some(0)),
            ("PRH\t", Some(1)),
            ("PRH\ta", Some(1)),
            ("PRH\t\t", Some(2)),
            ("PRH\ta\tb\tc", Some(3)),
            ("PRHa\tb", None),
            ("COM\tPRH", None),
        ] {
            for end in ["", "\n", "\r\n", "\nPRH\tx\ty\tz\tu"] {
                let file = format!("\nPRT\tx\ty\n{header}{end}");
                let expected = columns.or_else(|| Some(4).filter(|_| end.len() > 2));
                assert_eq!(super::columns(file.as_bytes(), 1), expected, "{file:?}");
            }
        }
    }

    #[test]
    fn words_for_sections() {
        let of = |word: &str| section(&OsString::from(word));
        assert_eq!(of("protein"), Some(1));
        assert_eq!(of("PSM"), Some(3));
        assert_eq!(of("small_molecule"), Some(4));
        assert_eq!(of("7"), Some(7));
        assert_eq!(of("proteins"), None);
        let names = SECTIONS.map(|section| section.name).join(", ");
        assert!(help::of("cell").contains(&names), "{names}");
    }
}
