//! A file that is mended and judged.

use std::ffi::OsString;
use std::io;

use mztab::{Break, Change, Judged, Mended, Refusal, LIMIT};

use crate::files::{self, Unread};
use crate::output::in_order::in_order;
use crate::output::show;
use crate::words::failure::Failure;

/// Of so many breaks that are left it is looked which are empty cells, where no more are printed: 16 MB.
const MANY: usize = 1_000_000;

pub struct Mending {
    /// The file's name, as it is printed.
    pub name: String,
    pub copy: Vec<u8>,
    pub changes: Vec<Change>,
    /// The breaks of the copy: their count, and the first of them.
    pub left: Judged,
}

impl Mending {
    /// The mended copy of the file that a word names, and as many of its breaks as are to be printed, or more; or why there is none.
    pub fn new(word: OsString, most: usize) -> Result<Mending, Failure> {
        let (name, file) = files::one(word)?;
        // As every judging call on a thread, whose stack is known: the main one's may be too small.
        let mut answers = in_order(1, &mut io::sink(), |_, _| {
            let mended = mztab::mend(&file)?;
            let left = mztab::judge(&mended.copy, most.max(MANY))?;
            Ok((mended, left))
        })?;
        match answers.swap_remove(0) {
            Ok((Mended { copy, changes }, left)) => Ok(Mending {
                name,
                copy,
                changes,
                left,
            }),
            Err(refusal) => Err(unmended(&name, refusal)),
        }
    }

    /// How many rows have a mended cell. Changes are in order, so those of one row stand side by side.
    pub fn rows(&self) -> usize {
        let mut rows = 0;
        let mut last = 0;
        for at in &self.changes {
            rows += usize::from(at.line != last);
            last = at.line;
        }
        rows
    }

    /// The empty cells that are left: `null` may not stand there, else they would be mended.
    pub fn empty(&self) -> impl Iterator<Item = Break> + '_ {
        self.left.breaks().filter(|at| at.rule == EMPTY_CELL)
    }

    /// The other breaks that are left.
    pub fn others(&self) -> impl Iterator<Item = Break> + '_ {
        self.left.breaks().filter(|at| at.rule != EMPTY_CELL)
    }

    /// Whether these two are all that are left: where there are very many, they are of the first.
    pub fn lists_all(&self) -> bool {
        self.left.breaks().len() == self.left.count as usize
    }
}

/// The rule that an empty cell of a row breaks.
const EMPTY_CELL: u32 = 19;

fn unmended(name: &str, refusal: Refusal) -> Failure {
    Failure::Stopped(match refusal {
        Refusal::TooLong => format!("{name} {}", Unread::TooLong),
        Refusal::NoRoom => format!(
            "{name} would have more than {} bytes with null in its empty cells, and no more are judged, so nothing is written: \
            write its sections, or parts of its rows, to files of their own, and mend each",
            show::count(LIMIT as u64)
        ),
        other => format!("{name} cannot be mended: {other}"),
    })
}
