//! `bolfrake rows`: how many rows each section of each file has, and how many of them break a rule.

use std::io::{self, Write};

use mztab::format::SECTIONS;

use crate::files::judged::judged;
use crate::files::tables::{self, Table};
use crate::files::{self, Source, Unread};
use crate::output::columns::table;
use crate::output::in_order::{in_order, Out};
use crate::output::show;
use crate::output::terminal;
use crate::output::write::quoted;
use crate::words::failure::Failure;
use crate::words::Words;

/// The heads of the columns, in the table and in the CSV.
const HEADS: [&str; 6] = ["file", "section", "columns", "rows", "breaking", "keeping"];

/// A printed line: a name, a section, four numbers.
type Line = [String; 6];

pub fn run(words: Words) -> Result<u8, Failure> {
    let mut csv = false;
    let plain = words.sort(|name, words| {
        if name != "--format" {
            return Ok(false);
        }
        csv = words.choice(name, &["table", "csv"])? == "csv";
        Ok(true)
    })?;
    let sources = files::named("rows", plain)?;
    let counted = in_order(sources.len(), &mut io::sink(), |k, out| {
        count(&sources[k], out)
    })?;
    let mut status = 0;
    let mut files = Vec::new();
    for (source, counted) in sources.iter().zip(counted) {
        match counted {
            Ok(tables) => files.push((source.name(), tables)),
            Err(unread) => {
                terminal::say(&format!("bolfrake: {} {unread}", source.name()));
                status = 2;
            }
        }
    }
    let text = if csv {
        as_csv(&files)
    } else {
        as_table(&files)
    };
    io::stdout().write_all(text.as_bytes())?;
    Ok(status)
}

/// The tables of a file.
fn count(source: &Source, out: &Out) -> Result<[Table; 4], Unread> {
    let (file, judged) = judged(source, usize::MAX, out)?;
    let broken = judged.breaks().map(|at| at.line);
    tables::tables(&file, broken).map_err(|_| Unread::TooLong)
}

fn line(name: &str, section: &str, table: &Table, number: fn(u64) -> String, none: &str) -> Line {
    let columns = table
        .columns
        .map_or(none.to_string(), |columns| number(u64::from(columns)));
    let rows =
        [table.rows, table.breaking, table.rows - table.breaking].map(|n| number(u64::from(n)));
    let [rows, breaking, keeping] = rows;
    [
        name.to_string(),
        section.to_string(),
        columns,
        rows,
        breaking,
        keeping,
    ]
}

fn lines(files: &[(String, [Table; 4])], number: fn(u64) -> String, none: &str) -> Vec<Line> {
    let mut all = Vec::new();
    for (name, tables) in files {
        for (table, section) in tables.iter().zip(SECTIONS) {
            all.push(line(name, section.name, table, number, none));
        }
    }
    all
}

fn as_csv(files: &[(String, [Table; 4])]) -> String {
    let mut out = HEADS.join(",") + "\n";
    for line in lines(files, |n| n.to_string(), "") {
        let fields: Vec<String> = line.iter().map(|field| quoted(field)).collect();
        out += &fields.join(",");
        out += "\n";
    }
    out
}

fn as_table(files: &[(String, [Table; 4])]) -> String {
    if files.is_empty() {
        return String::new();
    }
    let mut all = vec![HEADS.map(str::to_string)];
    all.extend(lines(files, show::count, "-"));
    all.push(sum(files));
    table(&all, &[0, 1])
}

/// The rows of all sections of all files. Columns do not add up.
fn sum(files: &[(String, [Table; 4])]) -> Line {
    let all = || files.iter().flat_map(|(_, tables)| tables.iter());
    let rows: u64 = all().map(|table| u64::from(table.rows)).sum();
    let breaking: u64 = all().map(|table| u64::from(table.breaking)).sum();
    let name = show::counted(files.len() as u64, "file");
    let numbers = [rows, breaking, rows - breaking].map(show::count);
    let [rows, breaking, keeping] = numbers;
    [
        name,
        "all".to_string(),
        "-".to_string(),
        rows,
        breaking,
        keeping,
    ]
}

#[cfg(test)]
mod tests {
    use super::*;

    fn files() -> Vec<(String, [Table; 4])> {
        let mut tables = [Table::default(); 4];
        tables[0] = Table {
            columns: Some(8),
            rows: 12_345,
            breaking: 2,
        };
        vec![("a, b.mztab".to_string(), tables)]
    }

    #[test]
    fn a_table() {
        let expected = "\
file        section         columns    rows  breaking  keeping
a, b.mztab  protein               8  12,345         2   12,343
a, b.mztab  peptide               -       0         0        0
a, b.mztab  psm                   -       0         0        0
a, b.mztab  small-molecule        -       0         0        0
1 file      all                   -  12,345         2   12,343
";
        assert_eq!(as_table(&files()), expected);
    }

    #[test]
    fn a_csv() {
        let text = as_csv(&files());
        let lines: Vec<&str> = text.lines().collect();
        assert_eq!(lines[0], "file,section,columns,rows,breaking,keeping");
        assert_eq!(lines[1], "\"a, b.mztab\",protein,8,12345,2,12343");
        assert_eq!(lines[2], "\"a, b.mztab\",peptide,,0,0,0");
        assert_eq!(lines.len(), 5);
    }
}
