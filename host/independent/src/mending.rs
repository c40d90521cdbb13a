//! Request 2026-02, "A mender for empty cells": "a copy of the file [...] with
//! `null` in every cell that breaks rule 19, save in the columns where `null`
//! may not stand".

use std::collections::HashSet;

use crate::judging::{cell_is_of_its_kind, judge, kind_of_column, Break};
use crate::lines::{cells, code, lines, Code};
use crate::{names, LIMIT};

/// "Refusals [...]: 1" as ever, "file too long",
const TOO_LONG: u32 = 1;
/// "then 5 no room in the buffer or past the length limit".
const NO_ROOM: u32 = 5;

/// The rule that an empty cell of a row breaks.
const EMPTY_CELL: u32 = 19;

/// What stands for missing in a table's cell.
const NULL: &[u8] = b"null";

const TAB: u8 = 9;
const LF: u8 = 10;

/// "line and cell of each change"
pub type Change = (u32, u32);

/// The copy, and the changes "in order".
#[derive(Clone, Debug, PartialEq, Eq)]
pub struct Mended {
    pub copy: Vec<u8>,
    pub changes: Vec<Change>,
}

/// What is answered beside the copy and the list: "the copy's length and the
/// count of changes", both 0 where it is refused, and the number.
#[derive(Clone, Copy, Debug, PartialEq, Eq)]
pub struct Answer {
    pub number: u32,
    pub length: usize,
    pub count: u32,
}

/// "Write a copy of the file into a second lent buffer [...] and list line and
/// cell of each change in order": two places for each.
///
/// "A short list is treated as in demand 3": it holds the first changes, each
/// whole or not at all, and the count is of all. What nothing fills is untouched,
/// in the list and in the buffer. Refused it is with "both 0, nothing written".
pub fn mend(file: &[u8], buffer: &mut [u8], list: &mut [u32]) -> Answer {
    match mended(file, buffer.len()) {
        Err(number) => Answer {
            number,
            length: 0,
            count: 0,
        },
        Ok(Mended { copy, changes }) => {
            buffer[..copy.len()].copy_from_slice(&copy);
            for (two, (line, cell)) in list.chunks_exact_mut(2).zip(&changes) {
                two.copy_from_slice(&[*line, *cell]);
            }
            Answer {
                number: 0,
                length: copy.len(),
                count: u32::try_from(changes.len()).expect("a file has fewer cells than this"),
            }
        }
    }
}

/// The copy and the changes where the buffer has so many bytes, or the number of
/// the refusal. "Refusals [...]: 1, then 5".
pub fn mended(file: &[u8], room: usize) -> Result<Mended, u32> {
    let breaks = judge(file).ok_or(TOO_LONG)?;
    let mended = mended_of(file, &breaks);
    if mended.fits(room) {
        Ok(mended)
    } else {
        Err(NO_ROOM)
    }
}

/// The copy and the changes of a file that has these breaks, whatever the copy's
/// length is.
pub fn mended_of(file: &[u8], breaks: &[Break]) -> Mended {
    let holes = holes(breaks);
    let mut mended = Mended {
        copy: Vec::new(),
        changes: Vec::new(),
    };
    let mut above = None;
    let with_ends = file.split_inclusive(|byte| *byte == LF);
    for ((number, line), with_end) in (1..).zip(lines(file)).zip(with_ends) {
        if let Code::Header(section) = code(line) {
            let cells = cells(line).collect();
            above = Some(Header { section, cells });
        }
        mended.add_line(number, line, |cell| {
            holes.contains(&(number, cell)) && null_may_stand(&above, cell)
        });
        // "Every other byte follows in order": those of the line's end too.
        mended.copy.extend(&with_end[line.len()..]);
    }
    mended
}

/// "every cell that breaks rule 19"
fn holes(breaks: &[Break]) -> HashSet<(u32, u32)> {
    let empty = breaks.iter().filter(|at| at.rule == EMPTY_CELL);
    empty.map(|at| (at.line, at.cell)).collect()
}

impl Mended {
    /// Whether there is room for it in a buffer of so many bytes, and it is not
    /// "past the length limit".
    pub fn fits(&self, room: usize) -> bool {
        self.copy.len() <= room && self.copy.len() <= LIMIT
    }

    /// A line as it is, but for the cells that change.
    fn add_line(&mut self, number: u32, line: &[u8], changes: impl Fn(u32) -> bool) {
        for (at, cell) in (1..).zip(cells(line)) {
            if at > 1 {
                self.copy.push(TAB);
            }
            if changes(at) {
                self.copy.extend(NULL);
                self.changes.push((number, at));
            } else {
                self.copy.extend(cell);
            }
        }
    }
}

/// The nearest header above a row.
struct Header<'a> {
    section: u32,
    cells: Vec<&'a [u8]>,
}

/// "save in the columns where `null` may not stand": those "where it is not of
/// the kind". The column is that of the nearest header above, of as many cells as
/// the row: without it the row's cells break rule 17 or 18 and not 19.
fn null_may_stand(above: &Option<Header>, cell: u32) -> bool {
    let header = above.as_ref().expect("a row without a header breaks 17");
    let name = header.cells[cell as usize - 1];
    let kind = kind_of_column(names::column(header.section, name));
    cell_is_of_its_kind(kind, NULL)
}
