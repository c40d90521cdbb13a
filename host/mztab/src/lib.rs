//! The verified reader of mzTab 1.0 files, safe to call from Rust: [`judge`] judges a file by the 24 rules, [`cell`] shows a cell as the
//! very bytes that stand there, [`reading`] reads it as a number, [`rows`] counts rows, [`mend`] fills empty cells, [`weights`] and
//! [`split_fee`] split a fee, and [`tally`] counts what a month's [`Tally`] is added from.
//!
//! ```
//! let file = b"SMH\tidentifier\tcharge\nSML\tCID:00027395\t2+\n";
//! let judged = mztab::judge_all(file).unwrap();
//! let first = judged.breaks().next().unwrap();
//! assert_eq!((first.line, first.cell, first.rule), (2, 3, 20));
//! assert_eq!(mztab::cell(file, 4, 1, 2), Ok(b"2+" as &[u8]));
//! ```
//!
//! Of what comes again a break says where it stands first ([`Break::first`]):
//!
//! ```
//! let judged = mztab::judge_all(b"MTD\ttitle\ta\nCOM\nMTD\ttitle\tb\n").unwrap();
//! let again = judged.breaks().next().unwrap();
//! assert_eq!((again.line, again.cell, again.rule, again.first), (3, 2, 6, 1));
//! ```
//!
//! Where one cell of a row is edited, no other line's breaks change. [`judge_line`] judges the one line, and not the others again:
//!
//! ```
//! let edited = b"SMH\tidentifier\tcharge\nSML\tCID:00027395\t2\n";
//! assert_eq!(mztab::judge_line_all(edited, 2).unwrap().count, 0);
//! ```
//!
//! [`mend`] makes a copy with `null` in each empty cell of a row where it may stand. The copy's breaks are those of the file without the
//! mended ones:
//!
//! ```
//! let mended = mztab::mend(b"SMH\tidentifier\tcharge\nSML\tCID:00027395\t\n").unwrap();
//! assert_eq!(mended.copy, b"SMH\tidentifier\tcharge\nSML\tCID:00027395\tnull\n");
//! assert_eq!(mended.changes, [mztab::Change { line: 2, cell: 3 }]);
//! ```
//!
//! A tally is kept as a record of 70 bytes, and two are added:
//!
//! ```
//! use mztab::{Psms, Tally};
//! let june = Tally { psms: Psms(40), ..Tally::default() };
//! let kept = Tally::from_record(&june.to_record()).unwrap();
//! assert_eq!(kept.add(june).unwrap().psms, Psms(80));
//! ```
//!
//! No call keeps what it is lent. Calls may run at the same time; a judging call needs some 350 KB of stack, and a thread of Rust has 2 MB.

#![deny(unsafe_code)]

pub mod format;
#[allow(unsafe_code)]
pub mod raw;
mod tallies;

use std::error::Error;
use std::fmt;

/// A file is at most so many bytes.
pub const LIMIT: usize = 16_777_216;

/// How many rules there are; they are numbered from 1.
pub const RULES: u32 = 24;

/// A fee, and a sum of amounts, is at most so many cents.
pub const FEE_LIMIT: u64 = 100_000_000_000;

/// A weight is less than this.
pub const WEIGHT_LIMIT: u32 = 16_777_216;

/// A fee is split over at most so many weights, and a file has study variables 1 to this.
pub const STUDY_VARIABLES: usize = 64;

/// The first list that [`judge_all`] lends. Few files have more breaks, so few are judged twice.
pub const FIRST_LIST: usize = 4_096;

/// Why there is no answer. The calls try these in this order.
#[derive(Clone, Copy, Debug, PartialEq, Eq)]
pub enum Refusal {
    /// The file is longer than [`LIMIT`].
    TooLong,
    /// The section is not 1 to 4.
    NoSection,
    /// The section has no such row, or the file no such line.
    NoRow,
    /// The row has no such cell.
    NoCell,
    /// The copy has no room in the buffer that is lent, or would be longer than [`LIMIT`].
    NoRoom,
    /// The file breaks a rule, and the answer is only of a file that breaks none. [`judge`] says which, and where.
    NotAccepted,
    /// A count in a column of [`format::COUNTS`] is below zero.
    BelowZero,
    /// A sum of two totals is 2 to the power of 64, or more.
    Past64Bits,
    /// The bytes are not the record of a tally: they are not [`RECORD`], or begin with another length or kind.
    NotARecord,
    /// The weights are not 1 to [`STUDY_VARIABLES`], or the shares are not as many as they.
    NotAsMany,
    /// The fee or the sum is over [`FEE_LIMIT`], or a weight is not below [`WEIGHT_LIMIT`].
    TooLarge,
    /// Every weight is zero, so there is nobody to have a share.
    AllZero,
}

impl Refusal {
    /// The number that the calls write.
    pub fn number(self) -> u32 {
        match self {
            Refusal::TooLong => 1,
            Refusal::NoSection => 2,
            Refusal::NoRow => 3,
            Refusal::NoCell => 4,
            Refusal::NoRoom => 5,
            Refusal::NotAccepted => 7,
            Refusal::BelowZero => 12,
            Refusal::Past64Bits => 13,
            Refusal::NotARecord => 14,
            Refusal::NotAsMany => 15,
            Refusal::TooLarge => 16,
            Refusal::AllZero => 17,
        }
    }
}

impl fmt::Display for Refusal {
    fn fmt(&self, out: &mut fmt::Formatter) -> fmt::Result {
        out.write_str(match self {
            Refusal::TooLong => "the file is longer than 16,777,216 bytes",
            Refusal::NoSection => "the section is not 1 to 4",
            Refusal::NoRow => "there is no such row, or no such line",
            Refusal::NoCell => "the row has no such cell",
            Refusal::NoRoom => {
                "the copy has no room in the buffer, or would be longer than 16,777,216 bytes"
            }
            Refusal::NotAccepted => "the file breaks a rule",
            Refusal::BelowZero => "a count is below zero",
            Refusal::Past64Bits => "a sum is over 64 bits",
            Refusal::NotARecord => "the bytes are not the record of a tally",
            Refusal::NotAsMany => "the weights are not 1 to 64, or the shares are not as many",
            Refusal::TooLarge => {
                "the amount is over 100,000,000,000 cents, or a weight is not below 16,777,216"
            }
            Refusal::AllZero => "every weight is zero",
        })
    }
}

impl Error for Refusal {}

/// Nothing for the number 0, else the refusal. Another number is no answer of this library, so it was not linked.
fn refused(number: u32) -> Result<(), Refusal> {
    match number {
        0 => Ok(()),
        1 => Err(Refusal::TooLong),
        2 => Err(Refusal::NoSection),
        3 => Err(Refusal::NoRow),
        4 => Err(Refusal::NoCell),
        5 => Err(Refusal::NoRoom),
        7 => Err(Refusal::NotAccepted),
        12 => Err(Refusal::BelowZero),
        13 => Err(Refusal::Past64Bits),
        14 => Err(Refusal::NotARecord),
        15 => Err(Refusal::NotAsMany),
        16 => Err(Refusal::TooLarge),
        17 => Err(Refusal::AllZero),
        other => panic!("the library answered {other}, which mztab.h does not name: link the libcapi.a of this repository"),
    }
}

pub use raw::Break;
pub use tallies::{tally, DistinctPeptides, Psms, Tally, UniquePeptides, RECORD};

/// How many breaks a file, or one line of it, has, and the first of them.
#[derive(Clone, Debug, PartialEq, Eq)]
pub struct Judged {
    /// The count of all breaks, 0 for an accepted file and for a line that breaks no rule.
    pub count: u32,
    breaks: Vec<Break>,
}

impl Judged {
    /// The breaks that were listed: the first ones, or all.
    pub fn breaks(&self) -> impl ExactSizeIterator<Item = Break> + '_ {
        self.breaks.iter().copied()
    }

    /// How long a list is needed for the first `most` breaks, where this one is too short for them; else 0.
    pub fn wanted(&self, most: usize) -> usize {
        let wanted = most.min(self.count as usize);
        if wanted > self.breaks.len() {
            wanted
        } else {
            0
        }
    }
}

/// How many breaks the file has. Nothing is listed and nothing allocated.
pub fn count(file: &[u8]) -> Result<u32, Refusal> {
    let judged = raw::faults(file, &mut []);
    refused(judged.number).map(|()| judged.count)
}

/// Judges a file and lists its first breaks, `most` of them or fewer.
///
/// The first list has [`FIRST_LIST`] breaks. Only where the file has more, and more are asked for, it is judged again, with a list that is
/// as long as needed: a second judging costs less than room for the most that a file can have, some 50 million.
pub fn judge(file: &[u8], most: usize) -> Result<Judged, Refusal> {
    let judged = judge_once(file, most.min(FIRST_LIST))?;
    match judged.wanted(most) {
        0 => Ok(judged),
        longer => judge_once(file, longer),
    }
}

/// Judges a file and lists all its breaks.
pub fn judge_all(file: &[u8]) -> Result<Judged, Refusal> {
    judge(file, usize::MAX)
}

/// Judges a file in one call, with a list of this length.
pub fn judge_once(file: &[u8], list: usize) -> Result<Judged, Refusal> {
    let mut breaks = vec![Break::default(); list];
    let judged = raw::faults(file, &mut breaks);
    refused(judged.number)?;
    breaks.truncate(judged.count as usize);
    Ok(Judged {
        count: judged.count,
        breaks,
    })
}

/// Judges one line under the whole file and lists its first breaks, `most` of them or fewer. Its breaks are those that [`judge`] reports on
/// that line. Lines are 1 to N; 0 and N + 1 are none, so the breaks of rules 21 and 22, which are reported on line N + 1, are never listed.
///
/// Where bytes other than tab, CR and LF take the place of one cell of a row, from cell 2 on, the breaks on all other lines stay the same,
/// those on line N + 1 too: this call says all that the edit changes. The first list is that of [`judge`]. The call needs as much stack as
/// that one.
///
/// ```
/// let file = b"SMH\tidentifier\tcharge\nSML\t\t2+\n";
/// let judged = mztab::judge_line(file, 2, 1).unwrap();
/// let first = judged.breaks().next().unwrap();
/// assert_eq!((judged.count, first.line, first.cell, first.rule), (2, 2, 2, 19));
/// assert_eq!(mztab::judge_line(file, 3, 1), Err(mztab::Refusal::NoRow));
/// ```
pub fn judge_line(file: &[u8], line: u32, most: usize) -> Result<Judged, Refusal> {
    let judged = judge_line_once(file, line, most.min(FIRST_LIST))?;
    match judged.wanted(most) {
        0 => Ok(judged),
        longer => judge_line_once(file, line, longer),
    }
}

/// Judges one line under the whole file and lists all its breaks.
///
/// ```
/// let file = b"SMH\tidentifier\tcharge\nSML\t\t2+\n";
/// let judged = mztab::judge_line_all(file, 2).unwrap();
/// let rules: Vec<u32> = judged.breaks().map(|at| at.rule).collect();
/// assert_eq!(rules, [19, 20]);
/// ```
pub fn judge_line_all(file: &[u8], line: u32) -> Result<Judged, Refusal> {
    judge_line(file, line, usize::MAX)
}

/// Judges one line in one call, with a list of this length.
fn judge_line_once(file: &[u8], line: u32, list: usize) -> Result<Judged, Refusal> {
    let mut places = vec![0; PLACES * list];
    let judged = raw::judge_line(file, line, &mut places);
    refused(judged.number)?;
    let listed = places.chunks_exact(PLACES).take(judged.count as usize);
    Ok(Judged {
        count: judged.count,
        breaks: listed.map(broken).collect(),
    })
}

/// A break has so many places in a list of plain places.
const PLACES: usize = 4;

/// The break that its places hold.
fn broken(places: &[u32]) -> Break {
    Break {
        rule: places[0],
        line: places[1],
        cell: places[2],
        first: places[3],
    }
}

/// A cell that was empty and holds `null` in the copy. It has the same line and cell in both.
#[derive(Clone, Copy, Debug, PartialEq, Eq)]
pub struct Change {
    pub line: u32,
    pub cell: u32,
}

/// A mended copy of a file, and all that was changed in it, by line, then cell.
#[derive(Clone, Debug, PartialEq, Eq)]
pub struct Mended {
    pub copy: Vec<u8>,
    pub changes: Vec<Change>,
}

/// How many bytes a mended copy has, and how many cells of it were changed.
#[derive(Clone, Copy, Debug, PartialEq, Eq)]
pub struct Copied {
    pub length: usize,
    pub count: u32,
}

/// Copies a file, with `null` in every cell that breaks rule 19, an empty cell of a row, save in the columns where `null` may not stand:
/// protein `accession`, peptide and PSM `sequence`, and `PSM_ID`. Every other byte follows in order. The file need not be accepted. The
/// copy's breaks are those of the file without the mended ones; so mending it again changes nothing.
///
/// A copy that would be longer than [`LIMIT`] is refused, [`Refusal::NoRoom`].
///
/// One call makes the copy, in a buffer with room for `null` in every empty cell of the file, and never longer than the limit.
///
/// ```
/// let file = b"PRH\taccession\tdescription\nPRT\t\t\r\nCOM\t";
/// let mended = mztab::mend(file).unwrap();
/// assert_eq!(mended.copy, b"PRH\taccession\tdescription\nPRT\t\tnull\r\nCOM\t");
/// assert_eq!(mended.changes, [mztab::Change { line: 2, cell: 3 }]);
/// assert_eq!(mztab::mend(&mended.copy).unwrap().copy, mended.copy);
/// ```
pub fn mend(file: &[u8]) -> Result<Mended, Refusal> {
    let most = most_changes(file);
    // Pages of zeros that nothing is written to take no memory, so what the two are too long by costs nothing.
    let mut copy = vec![0; (file.len() + NULL.len() * most).min(LIMIT)];
    let mut places = vec![0; CHANGE_PLACES * most];
    let copied = mend_into(file, &mut copy, &mut places)?;
    copy.truncate(copied.length);
    let listed = places.chunks_exact(CHANGE_PLACES);
    Ok(Mended {
        copy,
        changes: listed.take(copied.count as usize).map(changed).collect(),
    })
}

/// Mends as [`mend`] does, into a buffer and a list that are lent. The copy has four bytes more than the file for each change; a shorter
/// buffer is refused, [`Refusal::NoRoom`]. The list has two places for each change, line and cell. A short one holds the first changes, and
/// the count is of all. The bytes past the copy and the places past the last whole change stay as they were; where it is refused, all do.
///
/// ```
/// let file = b"SMH\tidentifier\tcharge\nSML\t\t";
/// let (mut copy, mut changes) = ([b'-'; 39], [0; 2]);
/// let copied = mztab::mend_into(file, &mut copy, &mut changes).unwrap();
/// assert_eq!((copied.length, copied.count), (file.len() + 8, 2));
/// assert_eq!(&copy, b"SMH\tidentifier\tcharge\nSML\tnull\tnull----");
/// assert_eq!(changes, [2, 2]);
/// let refused = mztab::mend_into(file, &mut copy[..34], &mut changes);
/// assert_eq!(refused, Err(mztab::Refusal::NoRoom));
/// ```
pub fn mend_into(file: &[u8], copy: &mut [u8], changes: &mut [u32]) -> Result<Copied, Refusal> {
    let mended = raw::mend(file, copy, changes);
    refused(mended.number).map(|()| Copied {
        length: mended.length,
        count: mended.count,
    })
}

/// What stands in a mended cell.
const NULL: &[u8] = b"null";

/// A change has so many places in a list of plain places.
const CHANGE_PLACES: usize = 2;

/// The change that its places hold.
fn changed(places: &[u32]) -> Change {
    Change {
        line: places[0],
        cell: places[1],
    }
}

/// No more cells than this can be mended: so many after a tab have no byte before the next tab, CR or LF, and no more fit into a copy
/// within the limit.
///
/// To count them takes a fraction of the time of the call, which a buffer that is too short would cost a second time; and room for five
/// times the file's bytes, which is always enough, would be far too much for most files.
fn most_changes(file: &[u8]) -> usize {
    let after_tabs = file.split(|byte| *byte == b'\t').skip(1);
    let empty = after_tabs.filter(|part| matches!(part.first(), None | Some(b'\r' | b'\n')));
    let fit = LIMIT.saturating_sub(file.len()) / NULL.len();
    empty.take(fit).count()
}

/// Shows a cell as a part of the file. Sections: 1 protein, 2 peptide, 3 PSM, 4 small molecule. Row 0 is the section's first header, row r
/// its r-th row. Column c is cell c + 1 of that line; column 0 is refused.
pub fn cell(file: &[u8], section: u32, row: u32, column: u32) -> Result<&[u8], Refusal> {
    let answer = raw::cell(file, section, row, column);
    refused(answer.number)?;
    Ok(view(file, answer.start, answer.length))
}

/// The part of the bytes from a start on, of this length.
fn view(bytes: &[u8], start: usize, length: usize) -> &[u8] {
    let shown = start
        .checked_add(length)
        .and_then(|end| bytes.get(start..end));
    shown.expect("the view lies in what was lent")
}

/// Shows a cell, or the stand-in where the cell is `null`.
pub fn cell_or<'a>(
    file: &'a [u8],
    section: u32,
    row: u32,
    column: u32,
    stand_in: &'a [u8],
) -> Result<&'a [u8], Refusal> {
    let answer = raw::cell_or(file, section, row, column, stand_in);
    refused(answer.number)?;
    let of = if answer.stood_in == 1 { stand_in } else { file };
    Ok(view(of, answer.start, answer.length))
}

/// What a cell reads as.
#[derive(Clone, Copy, Debug, PartialEq)]
pub enum Value {
    /// `null`
    Missing,
    Whole(i64),
    /// The value is the signed numerals times ten to the power, which is the exponent less the places after the dot: `12.50` has 1250 and
    /// -2, `1.2E-5` has 12 and -6. The double is the nearest one: one division or one multiplication of the numerals by an exact power of ten,
    /// negated last for a minus.
    Decimal {
        numerals: i64,
        power: i32,
        double: f64,
    },
    /// `INF`
    Infinite,
    /// `NaN`
    NotANumber,
    /// A decimal with more than 15 digits before its exponent, leading zeros among them, or with a power that is not -22 to 22.
    LongDecimal,
    /// All else, an empty cell too.
    Text,
}

/// A cell's line, its cell in that line, and what it reads as.
#[derive(Clone, Copy, Debug, PartialEq)]
pub struct Reading {
    pub line: u32,
    pub cell: u32,
    pub value: Value,
}

/// Reads a cell, found as by [`cell`].
pub fn reading(file: &[u8], section: u32, row: u32, column: u32) -> Result<Reading, Refusal> {
    let answer = raw::reading(file, section, row, column);
    refused(answer.number)?;
    Ok(Reading {
        line: answer.line,
        cell: answer.cell,
        value: value(&answer),
    })
}

fn value(answer: &raw::Reading) -> Value {
    match answer.case {
        0 => Value::Missing,
        1 => Value::Whole(answer.whole),
        2 => Value::Decimal {
            numerals: answer.whole,
            power: answer.power,
            double: answer.decimal,
        },
        3 => Value::Infinite,
        4 => Value::NotANumber,
        5 => Value::LongDecimal,
        6 => Value::Text,
        other => panic!("the library read a case {other}, which mztab.h does not name: link the libcapi.a of this repository"),
    }
}

/// How many rows a section has, whatever breaks the file has: [`cell`] knows row r exactly for r up to it.
///
/// ```
/// assert_eq!(mztab::rows(b"PRT\tP1\nPRT\tP2\nCOM\tPRT\n", 1), Ok(2));
/// assert_eq!(mztab::rows(b"", 5), Err(mztab::Refusal::NoSection));
/// ```
pub fn rows(file: &[u8], section: u32) -> Result<u32, Refusal> {
    let counted = raw::rows(file, section);
    refused(counted.number).map(|()| counted.count)
}

/// The weights of an accepted file: place i - 1 has the number of protein rows whose cell under `protein_abundance_study_variable[i]` is
/// not `null`, 0 where the header has no such column. A file that breaks a rule is refused. The call judges the file, and needs as much
/// stack as that.
///
/// ```
/// let broken = b"PRH\tprotein_abundance_study_variable[1]\nPRT\t0.5\n";
/// assert_eq!(mztab::weights(broken), Err(mztab::Refusal::NotAccepted));
/// ```
pub fn weights(file: &[u8]) -> Result<[u32; STUDY_VARIABLES], Refusal> {
    let mut weights = [0; STUDY_VARIABLES];
    refused(raw::weights(file, &mut weights)).map(|()| weights)
}

/// Splits a fee in cents over weights, one share for each. A share is the proportion rounded down; the cents left over go one each to the
/// largest remainders, the lower number first among equals. So the shares add up to the fee, and each lies less than one cent from the
/// exact proportion.
///
/// ```
/// assert_eq!(mztab::split_fee(100_000, &[3, 2, 2]), Ok(vec![42_857, 28_572, 28_571]));
/// assert_eq!(mztab::split_fee(100_000, &[0, 0]), Err(mztab::Refusal::AllZero));
/// ```
pub fn split_fee(fee: u64, weights: &[u32]) -> Result<Vec<u64>, Refusal> {
    // More weights than that are refused, however many shares are lent.
    let mut shares = vec![0; weights.len().min(STUDY_VARIABLES)];
    refused(raw::split_fee(fee, weights, &mut shares)).map(|()| shares)
}

/// The sum of two amounts in cents, refused where it is over [`FEE_LIMIT`].
///
/// ```
/// assert_eq!(mztab::add_cents(1_250, 50), Ok(1_300));
/// assert_eq!(mztab::add_cents(mztab::FEE_LIMIT, 1), Err(mztab::Refusal::TooLarge));
/// ```
pub fn add_cents(a: u64, b: u64) -> Result<u64, Refusal> {
    let sum = raw::add_cents(a, b);
    refused(sum.number).map(|()| sum.cents)
}
