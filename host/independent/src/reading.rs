//! "Calls and what they give back": the two cell calls and the reading call.

use std::ops::RangeInclusive;

use crate::kinds;
use crate::lines::{cells, code, lines, Code};
use crate::LIMIT;

/// "1: file too long"
const TOO_LONG: u32 = 1;
/// "2: section not 1 to 4"
const NO_SECTION: u32 = 2;
/// "3: no such row"
const NO_ROW: u32 = 3;
/// "4: no such cell"
const NO_CELL: u32 = 4;

/// "missing (`null`), whole, decimal, infinite, not a number, long decimal, or
/// text (all else, an empty cell too)"
#[derive(Clone, Copy, Debug, PartialEq)]
pub enum Reading {
    Missing,
    Whole(i64),
    Decimal {
        numerals: i64,
        /// "one power of ten, the exponent less the places"
        power: i32,
        double: f64,
    },
    Infinite,
    NotANumber,
    LongDecimal,
    Text,
}

/// The plain cell call: the bytes of the cell, or the number of the refusal.
pub fn cell(file: &[u8], section: u32, row: u32, column: u32) -> Result<&[u8], u32> {
    find(file, section, row, column).map(|found| found.bytes)
}

/// "A second cell call takes a stand-in text too: it shows the cell, or where it
/// is `null` the stand-in the caller lent."
pub fn cell_or<'a>(
    file: &'a [u8],
    section: u32,
    row: u32,
    column: u32,
    stand_in: &'a [u8],
) -> Result<&'a [u8], u32> {
    let shown = cell(file, section, row, column)?;
    if shown == b"null" {
        Ok(stand_in)
    } else {
        Ok(shown)
    }
}

/// The reading call: "line, cell and one reading".
pub fn reading(
    file: &[u8],
    section: u32,
    row: u32,
    column: u32,
) -> Result<(u32, u32, Reading), u32> {
    let found = find(file, section, row, column)?;
    Ok((found.line, found.cell, read(found.bytes)))
}

struct Found<'a> {
    line: u32,
    cell: u32,
    bytes: &'a [u8],
}

/// The refusals are "Tried in this order": 1, 2, 3, 4.
fn find(file: &[u8], section: u32, row: u32, column: u32) -> Result<Found<'_>, u32> {
    if file.len() > LIMIT {
        return Err(TOO_LONG);
    }
    if !(1..=4).contains(&section) {
        return Err(NO_SECTION);
    }
    let (line, bytes) = find_row(file, section, row).ok_or(NO_ROW)?;
    let (cell, bytes) = find_cell(bytes, column).ok_or(NO_CELL)?;
    Ok(Found { line, cell, bytes })
}

/// "Row 0 is the first header of the section, row r the r-th line with its row
/// code, whatever breaks the file has."
fn find_row(file: &[u8], section: u32, row: u32) -> Option<(u32, &[u8])> {
    let (wanted, mut to_pass) = match row {
        0 => (Code::Header(section), 0),
        r => (Code::Row(section), r - 1),
    };
    let mut number = 0;
    for line in lines(file) {
        number += 1;
        if code(line) == wanted {
            if to_pass == 0 {
                return Some((number, line));
            }
            to_pass -= 1;
        }
    }
    None
}

/// "Column c is cell c + 1; column 0 is refused with 4."
fn find_cell(line: &[u8], column: u32) -> Option<(u32, &[u8])> {
    if column == 0 {
        return None;
    }
    let mut number = 0;
    for bytes in cells(line) {
        number += 1;
        if number - 1 == column {
            return Some((number, bytes));
        }
    }
    None
}

/// "With at most 15 mantissa digits"
const MOST_DIGITS: usize = 15;

/// "and a power from -22 to 22"
const POWERS: RangeInclusive<i32> = -22..=22;

/// The readings, "tried so over the bytes".
pub fn read(bytes: &[u8]) -> Reading {
    if bytes == b"null" {
        Reading::Missing
    } else if kinds::whole(bytes) {
        Reading::Whole(signed_numerals(bytes))
    } else if let Some(decimal) = read_decimal(bytes) {
        decimal
    } else if bytes == b"INF" {
        Reading::Infinite
    } else if bytes == b"NaN" {
        Reading::NotANumber
    } else if kinds::numeral(bytes) {
        // "otherwise it is a long decimal"
        Reading::LongDecimal
    } else {
        Reading::Text
    }
}

/// "A reading carries numerals and one power of ten, the exponent less the
/// places." Nothing where there are too many digits or the power is too far off.
fn read_decimal(bytes: &[u8]) -> Option<Reading> {
    let (mantissa, exponent) = kinds::at_exponent(bytes);
    if !kinds::numeral(bytes) || count_digits(mantissa) > MOST_DIGITS {
        return None;
    }
    let power = exponent.map_or(0, exponent_value) - places_after_dot(mantissa);
    if !POWERS.contains(&power) {
        return None;
    }
    Some(Reading::Decimal {
        numerals: signed_numerals(mantissa),
        power,
        double: double(unsigned_numerals(mantissa), power, has_minus(mantissa)),
    })
}

/// "the double is one division or one multiplication by an exact power of ten",
/// of numerals "held exactly and unsigned, negated last for a minus"
fn double(numerals: u64, power: i32, minus: bool) -> f64 {
    let unsigned = nearest(numerals, power);
    if minus {
        -unsigned
    } else {
        unsigned
    }
}

/// One operation of IEEE 754 on exact numbers gives the double nearest to the
/// exact result, an even one of two as near. It is found here without that
/// operation, from the exact result, which is in whole numbers: under ten to the
/// 37th where the power is not below zero.
fn nearest(numerals: u64, power: i32) -> f64 {
    let ten_to_the_power = 10u128.pow(power.unsigned_abs());
    if power < 0 {
        nearest_quotient(u128::from(numerals), ten_to_the_power)
    } else {
        (u128::from(numerals) * ten_to_the_power) as f64
    }
}

/// Long division in base two: a bit of the quotient at each step, until there
/// are two more than a double holds or nothing is left to divide.
fn nearest_quotient(top: u128, bottom: u128) -> f64 {
    let (mut quotient, mut left) = (top / bottom, top % bottom);
    let mut bits_after_point = 0;
    while left != 0 && quotient < 1 << 54 {
        left *= 2;
        quotient = 2 * quotient + left / bottom;
        left %= bottom;
        bits_after_point += 1;
    }
    // What is still left only says that the quotient is beyond its last bit.
    if left != 0 {
        quotient |= 1;
    }
    // The cast goes to the nearest, to an even one of two; a half is exact.
    (0..bits_after_point).fold(quotient as f64, |value, _| value / 2.0)
}

fn has_minus(bytes: &[u8]) -> bool {
    bytes.first() == Some(&b'-')
}

fn count_digits(bytes: &[u8]) -> usize {
    bytes.iter().filter(|b| b.is_ascii_digit()).count()
}

/// Called with at most 15 digits.
fn places_after_dot(mantissa: &[u8]) -> i32 {
    match mantissa.iter().position(|b| *b == b'.') {
        Some(dot) => (mantissa.len() - dot - 1) as i32,
        None => 0,
    }
}

/// "an optional plus or minus and 1 to 3 digits"
fn exponent_value(exponent: &[u8]) -> i32 {
    signed_numerals(exponent) as i32
}

/// All digits of the bytes as one number; called with at most 15 digits.
fn unsigned_numerals(bytes: &[u8]) -> u64 {
    let mut value = 0;
    for byte in bytes.iter().filter(|b| b.is_ascii_digit()) {
        value = 10 * value + u64::from(byte - b'0');
    }
    value
}

fn signed_numerals(bytes: &[u8]) -> i64 {
    let value = unsigned_numerals(bytes) as i64;
    if has_minus(bytes) {
        -value
    } else {
        value
    }
}
