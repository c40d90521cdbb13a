//! `bolfrake cell` and `bolfrake read`: one cell of one file.

pub mod question;

use std::ffi::OsString;
use std::io::{self, Write};
use std::os::unix::ffi::OsStringExt;

use mztab::Value;

use crate::words::failure::Failure;
use crate::words::{misused, Words};
use question::Question;

/// Prints the cell's bytes, or what stands in where it is `null`, and a line end.
pub fn cell(words: Words) -> Result<u8, Failure> {
    let mut stand_in: Option<OsString> = None;
    let plain = words.sort(|name, words| {
        if name != "--or" {
            return Ok(false);
        }
        stand_in = Some(words.value(name)?);
        Ok(true)
    })?;
    let asked = question("cell", plain)?;
    let stand_in = stand_in.map_or(b"null".to_vec(), OsString::into_vec);
    let shown = mztab::cell_or(
        &asked.file,
        asked.section,
        asked.row,
        asked.column,
        &stand_in,
    );
    let shown = shown.map_err(|refusal| asked.refused(refusal))?;
    let mut output = io::stdout().lock();
    output.write_all(shown)?;
    output.write_all(b"\n")?;
    output.flush()?;
    Ok(0)
}

/// Prints where the cell stands and what it reads as.
pub fn read(words: Words) -> Result<u8, Failure> {
    let plain = words.sort(|_, _| Ok(false))?;
    let asked = question("read", plain)?;
    let reading = mztab::reading(&asked.file, asked.section, asked.row, asked.column);
    let reading = reading.map_err(|refusal| asked.refused(refusal))?;
    let line = format!(
        "{}:{}:{}: {}\n",
        asked.name,
        reading.line,
        reading.cell,
        said(&reading.value)
    );
    io::stdout().write_all(line.as_bytes())?;
    Ok(0)
}

/// A reading in words.
fn said(value: &Value) -> String {
    match value {
        Value::Missing => "missing".to_string(),
        Value::Whole(value) => format!("whole {value}"),
        Value::Decimal {
            numerals,
            power,
            double,
        } => format!("decimal {double:?}, numerals {numerals}, power {power}"),
        Value::Infinite => "infinite".to_string(),
        Value::NotANumber => "not a number".to_string(),
        Value::LongDecimal => "long decimal".to_string(),
        Value::Text => "text".to_string(),
    }
}

fn question(command: &str, words: Vec<OsString>) -> Result<Question, Failure> {
    match words.try_into() {
        Ok(four) => Question::new(command, four),
        Err(_) => Err(misused(command, "takes FILE SECTION ROW COLUMN")),
    }
}

#[cfg(test)]
mod tests {
    use super::*;

    #[test]
    fn readings_in_words() {
        for (numerals, power, double, expected) in [
            (
                -12_340,
                -3,
                -12.34,
                "decimal -12.34, numerals -12340, power -3",
            ),
            (0, -1, -0.0, "decimal -0.0, numerals 0, power -1"),
            (12, -6, 1.2e-5, "decimal 1.2e-5, numerals 12, power -6"),
            (3, 2, 300.0, "decimal 300.0, numerals 3, power 2"),
            (-7, 22, -7e22, "decimal -7e22, numerals -7, power 22"),
        ] {
            let decimal = Value::Decimal {
                numerals,
                power,
                double,
            };
            assert_eq!(said(&decimal), expected);
        }
        assert_eq!(said(&Value::Whole(-7)), "whole -7");
    }
}
