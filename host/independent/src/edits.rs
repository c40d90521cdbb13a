//! Request 2026-14, "What one edited cell can do": the breaks of one line, and a
//! file in which other bytes replace one cell.

use crate::judging::{judge, Break};
use crate::lines::{cells, code, lines, Code};
use crate::LIMIT;

/// "1: file too long"
const TOO_LONG: u32 = 1;
/// "then 3 no such line"
const NO_SUCH_LINE: u32 = 3;

const TAB: u8 = 9;
const LF: u8 = 10;
const CR: u8 = 13;

/// "a call that judges one line, 1 to N": the breaks of that line, as the whole
/// file has them, or the number of the refusal. "Refusals: 1, then 3 no such
/// line".
///
/// They are "judged against the whole file, later lines included", so the whole
/// file is judged, and that line's part of the list is the answer.
pub fn judge_line(file: &[u8], line: u32) -> Result<Vec<Break>, u32> {
    let breaks = judge(file).ok_or(TOO_LONG)?;
    if line < 1 || line > count(file) {
        return Err(NO_SUCH_LINE);
    }
    Ok(of_line(&breaks, line))
}

/// "that line's part" of a list.
pub fn of_line(breaks: &[Break], line: u32) -> Vec<Break> {
    let own = breaks.iter().filter(|at| at.line == line);
    own.copied().collect()
}

/// The N of "an N-line file". Rules 21 and 22 stand on line N + 1, which is none
/// of them.
pub fn count(file: &[u8]) -> u32 {
    u32::try_from(lines(file).count()).expect("a file has no more lines than bytes")
}

/// Why a file may not be edited so.
#[derive(Clone, Copy, Debug, PartialEq, Eq)]
pub enum NoEdit {
    /// Not "both files are within the length limit".
    TooLong,
    /// The bytes are not all "bytes other than tab, CR and LF".
    Bytes,
    /// There is no such line, or it is not "a row line".
    NoRow,
    /// The line has no such cell, or it is not "from cell 2 on".
    NoCell,
}

/// The file after "bytes other than tab, CR and LF replace one cell from cell 2
/// on in a row line". Every other byte stays, the line's end too.
pub fn edited(file: &[u8], line: u32, cell: u32, new: &[u8]) -> Result<Vec<u8>, NoEdit> {
    if new.iter().any(|byte| [TAB, CR, LF].contains(byte)) {
        return Err(NoEdit::Bytes);
    }
    let row = row(file, line).ok_or(NoEdit::NoRow)?;
    let (before, old) = place_in(row, cell).ok_or(NoEdit::NoCell)?;
    let start = start_of(file, line) + before;
    let after = [&file[..start], new, &file[start + old..]].concat();
    // "and both files are within the length limit"
    if file.len() > LIMIT || after.len() > LIMIT {
        return Err(NoEdit::TooLong);
    }
    Ok(after)
}

/// The line, where it is a row's: one of the codes PRT, PEP, PSM and SML.
fn row(file: &[u8], line: u32) -> Option<&[u8]> {
    let above = line.checked_sub(1)?;
    let line = lines(file).nth(above as usize)?;
    match code(line) {
        Code::Row(_) => Some(line),
        _ => None,
    }
}

/// How many bytes of the line stand before the cell, and how many are the cell.
fn place_in(line: &[u8], cell: u32) -> Option<(usize, usize)> {
    if cell < 2 {
        return None;
    }
    let above = cell as usize - 1;
    let own = cells(line).nth(above)?;
    // Each cell before it has its tab after it.
    let before: usize = cells(line).take(above).map(|cell| cell.len() + 1).sum();
    Some((before, own.len()))
}

/// How many bytes stand before the line: those above it, with their line ends.
fn start_of(file: &[u8], line: u32) -> usize {
    // "LF ends a line", and a CR directly before it stands before it here too.
    let with_ends = file.split_inclusive(|byte| *byte == LF);
    with_ends.take(line as usize - 1).map(<[u8]>::len).sum()
}

#[cfg(test)]
mod tests {
    use super::*;

    #[test]
    fn where_cells_stand() {
        assert_eq!(place_in(b"PRT\tab\t\tc", 0), None);
        assert_eq!(place_in(b"PRT\tab\t\tc", 1), None);
        assert_eq!(place_in(b"PRT\tab\t\tc", 2), Some((4, 2)));
        assert_eq!(place_in(b"PRT\tab\t\tc", 3), Some((7, 0)));
        assert_eq!(place_in(b"PRT\tab\t\tc", 4), Some((8, 1)));
        assert_eq!(place_in(b"PRT\tab\t\tc", 5), None);
        assert_eq!(place_in(b"PRT\tab\t\tc", u32::MAX), None);
    }

    #[test]
    fn where_lines_begin() {
        let file = b"a\r\n\nbc\n\r\r\nd\r";
        let starts: Vec<usize> = (1..=5).map(|line| start_of(file, line)).collect();
        assert_eq!(starts, [0, 3, 4, 7, 10]);
        assert_eq!(count(file), 5);
    }
}
