//! The calls of crates/capi/mztab.h: the one place where they are declared, and the one place that is unsafe.
//! Each function here lends slices and plain places only, so whoever calls it can do nothing undefined.

mod c {
    extern "C" {
        pub fn mztab_cell(
            file: *const u8,
            file_length: usize,
            section: u32,
            row: u32,
            column: u32,
            number: *mut u32,
            length: *mut usize,
        ) -> usize;

        pub fn mztab_cell_or(
            file: *const u8,
            file_length: usize,
            section: u32,
            row: u32,
            column: u32,
            stand_in: *const u8,
            stand_in_length: usize,
            number: *mut u32,
            length: *mut usize,
            stood_in: *mut u32,
        ) -> usize;

        pub fn mztab_reading(
            file: *const u8,
            file_length: usize,
            section: u32,
            row: u32,
            column: u32,
            number: *mut u32,
            line: *mut u32,
            cell: *mut u32,
            whole: *mut i64,
            power: *mut i32,
            decimal: *mut f64,
        ) -> u32;

        pub fn mztab_judge(
            file: *const u8,
            file_length: usize,
            places: *mut u32,
            places_length: usize,
            number: *mut u32,
        ) -> u32;

        pub fn mztab_judge_line(
            file: *const u8,
            file_length: usize,
            line: u32,
            places: *mut u32,
            places_length: usize,
            number: *mut u32,
        ) -> u32;

        pub fn mztab_mend(
            file: *const u8,
            file_length: usize,
            copy: *mut u8,
            copy_length: usize,
            changes: *mut u32,
            changes_length: usize,
            number: *mut u32,
            count: *mut u32,
        ) -> usize;

        pub fn mztab_faults(
            file: *const u8,
            file_length: usize,
            faults: *mut super::Break,
            faults_length: usize,
            number: *mut u32,
        ) -> u32;

        pub fn mztab_rows(
            file: *const u8,
            file_length: usize,
            section: u32,
            number: *mut u32,
        ) -> u32;

        pub fn mztab_weights(
            file: *const u8,
            file_length: usize,
            weights: *mut u32,
            weights_length: usize,
            number: *mut u32,
        );

        pub fn mztab_tally(file: *const u8, file_length: usize, totals: *mut u64, number: *mut u32);

        pub fn mztab_tally_add(a: *const u64, b: *const u64, sum: *mut u64, number: *mut u32);

        pub fn mztab_tally_write(
            totals: *const u64,
            buffer: *mut u8,
            buffer_length: usize,
            number: *mut u32,
        ) -> usize;

        pub fn mztab_tally_read(
            bytes: *const u8,
            bytes_length: usize,
            totals: *mut u64,
            number: *mut u32,
        );

        pub fn mztab_add_cents(a: u64, b: u64, number: *mut u32) -> u64;

        pub fn mztab_split_fee(
            fee: u64,
            weights: *const u32,
            weights_length: usize,
            shares: *mut u64,
            shares_length: usize,
            number: *mut u32,
        );
    }
}

/// A place where a file breaks a rule, laid out as `struct mztab_fault`. Lines, cells and rules count from 1. Rules 21 and 22 stand at the
/// line after the last, and their cell for the key that is absent ([`crate::format`]); all others at a cell.
///
/// Breaks are in order of line, then cell, then rule, and no two have the same three.
#[repr(C)]
#[derive(Clone, Copy, Debug, Default, PartialEq, Eq)]
pub struct Break {
    pub rule: u32,
    pub line: u32,
    pub cell: u32,
    /// Where that which comes again stands first. Of rule 6 it is a line, that of the earliest metadata line of three cells with the same
    /// key; of rule 9 a line, that of the earliest header of the same section; of rule 13 a cell of the same line, that of the first equal
    /// name in this header. It is 0 for all other rules: they are of nothing that comes again.
    pub first: u32,
}

/// What `mztab_cell` writes and answers.
#[derive(Clone, Copy, Debug, PartialEq, Eq)]
pub struct Cell {
    pub number: u32,
    pub start: usize,
    pub length: usize,
}

/// What `mztab_cell_or` writes and answers: the view is of the stand-in where `stood_in` is 1.
#[derive(Clone, Copy, Debug, PartialEq, Eq)]
pub struct CellOr {
    pub number: u32,
    pub start: usize,
    pub length: usize,
    pub stood_in: u32,
}

/// What `mztab_reading` writes and answers.
#[derive(Clone, Copy, Debug)]
pub struct Reading {
    pub number: u32,
    pub case: u32,
    pub line: u32,
    pub cell: u32,
    pub whole: i64,
    pub power: i32,
    pub decimal: f64,
}

/// What `mztab_judge`, `mztab_judge_line` and `mztab_faults` write beside the list, and answer.
#[derive(Clone, Copy, Debug, PartialEq, Eq)]
pub struct Judged {
    pub number: u32,
    pub count: u32,
}

/// What `mztab_mend` writes beside the copy and the list, and answers: `length` is that of the copy.
#[derive(Clone, Copy, Debug, PartialEq, Eq)]
pub struct Mended {
    pub number: u32,
    pub length: usize,
    pub count: u32,
}

/// What `mztab_rows` writes and answers.
#[derive(Clone, Copy, Debug, PartialEq, Eq)]
pub struct Counted {
    pub number: u32,
    pub count: u32,
}

/// What `mztab_add_cents` writes and answers.
#[derive(Clone, Copy, Debug, PartialEq, Eq)]
pub struct Sum {
    pub number: u32,
    pub cents: u64,
}

/// Values that no call answers, so that a place which is not written shows.
const UNSET: u32 = u32::MAX;

pub fn cell(file: &[u8], section: u32, row: u32, column: u32) -> Cell {
    let (mut number, mut length) = (UNSET, usize::MAX);
    // A slice's pointer is not null, also where it is empty; the two places are our own.
    let start = unsafe {
        c::mztab_cell(
            file.as_ptr(),
            file.len(),
            section,
            row,
            column,
            &mut number,
            &mut length,
        )
    };
    Cell {
        number,
        start,
        length,
    }
}

pub fn cell_or(file: &[u8], section: u32, row: u32, column: u32, stand_in: &[u8]) -> CellOr {
    let (mut number, mut length, mut stood_in) = (UNSET, usize::MAX, UNSET);
    // As above, of both slices; the three places are our own.
    let start = unsafe {
        c::mztab_cell_or(
            file.as_ptr(),
            file.len(),
            section,
            row,
            column,
            stand_in.as_ptr(),
            stand_in.len(),
            &mut number,
            &mut length,
            &mut stood_in,
        )
    };
    CellOr {
        number,
        start,
        length,
        stood_in,
    }
}

pub fn reading(file: &[u8], section: u32, row: u32, column: u32) -> Reading {
    let mut answer = Reading {
        number: UNSET,
        case: UNSET,
        line: UNSET,
        cell: UNSET,
        whole: i64::MIN,
        power: i32::MIN,
        decimal: f64::NAN,
    };
    // As above; the six places are fields of one record, and no two of them overlap.
    answer.case = unsafe {
        c::mztab_reading(
            file.as_ptr(),
            file.len(),
            section,
            row,
            column,
            &mut answer.number,
            &mut answer.line,
            &mut answer.cell,
            &mut answer.whole,
            &mut answer.power,
            &mut answer.decimal,
        )
    };
    answer
}

/// Judges into plain places, four for each break: rule, line, cell, first. One to three at the end that no whole break fills stay as they were.
pub fn judge(file: &[u8], places: &mut [u32]) -> Judged {
    let mut number = UNSET;
    // As above; a slice that is lent to be written overlaps nothing else that is lent.
    let count = unsafe {
        c::mztab_judge(
            file.as_ptr(),
            file.len(),
            places.as_mut_ptr(),
            places.len(),
            &mut number,
        )
    };
    Judged { number, count }
}

/// Judges one line, 1 to the last, under the whole file, into plain places as [`judge`] does.
pub fn judge_line(file: &[u8], line: u32, places: &mut [u32]) -> Judged {
    let mut number = UNSET;
    // As above.
    let count = unsafe {
        c::mztab_judge_line(
            file.as_ptr(),
            file.len(),
            line,
            places.as_mut_ptr(),
            places.len(),
            &mut number,
        )
    };
    Judged { number, count }
}

/// Writes a copy with `null` in the empty cells where it may stand, and line and cell of each change, two places each.
pub fn mend(file: &[u8], copy: &mut [u8], changes: &mut [u32]) -> Mended {
    let mut number = UNSET;
    let mut count = UNSET;
    // As above.
    let length = unsafe {
        c::mztab_mend(
            file.as_ptr(),
            file.len(),
            copy.as_mut_ptr(),
            copy.len(),
            changes.as_mut_ptr(),
            changes.len(),
            &mut number,
            &mut count,
        )
    };
    Mended {
        number,
        length,
        count,
    }
}

/// Judges into records, one for each break.
pub fn faults(file: &[u8], list: &mut [Break]) -> Judged {
    let mut number = UNSET;
    // As above; a record is four numbers in the order that C declares, and any numbers make one.
    let count = unsafe {
        c::mztab_faults(
            file.as_ptr(),
            file.len(),
            list.as_mut_ptr(),
            list.len(),
            &mut number,
        )
    };
    Judged { number, count }
}

pub fn rows(file: &[u8], section: u32) -> Counted {
    let mut number = UNSET;
    // As above.
    let count = unsafe { c::mztab_rows(file.as_ptr(), file.len(), section, &mut number) };
    Counted { number, count }
}

/// Writes the weights of the study variables, where there is an answer, and answers the number.
pub fn weights(file: &[u8], weights: &mut [u32]) -> u32 {
    let mut number = UNSET;
    // As above; a slice that is lent to be written overlaps nothing else that is lent.
    unsafe {
        c::mztab_weights(
            file.as_ptr(),
            file.len(),
            weights.as_mut_ptr(),
            weights.len(),
            &mut number,
        )
    };
    number
}

/// Writes the eight totals of a file's tally, zeros in a refusal, and answers the number.
pub fn tally(file: &[u8], totals: &mut [u64; 8]) -> u32 {
    let mut number = UNSET;
    // As above; an array of eight is eight places.
    unsafe { c::mztab_tally(file.as_ptr(), file.len(), totals.as_mut_ptr(), &mut number) };
    number
}

/// Writes the sums of two tallies' totals, zeros in a refusal, and answers the number.
pub fn tally_add(a: &[u64; 8], b: &[u64; 8], sum: &mut [u64; 8]) -> u32 {
    let mut number = UNSET;
    // As above; the two that are read may be one and the same.
    unsafe { c::mztab_tally_add(a.as_ptr(), b.as_ptr(), sum.as_mut_ptr(), &mut number) };
    number
}

/// Writes a tally's record to the first places of the buffer, where they are enough, and answers the number and how many bytes were written.
pub fn tally_write(totals: &[u64; 8], buffer: &mut [u8]) -> (u32, usize) {
    let mut number = UNSET;
    // As above.
    let length = unsafe {
        c::mztab_tally_write(
            totals.as_ptr(),
            buffer.as_mut_ptr(),
            buffer.len(),
            &mut number,
        )
    };
    (number, length)
}

/// Writes the eight totals that a record has, zeros in a refusal, and answers the number.
pub fn tally_read(bytes: &[u8], totals: &mut [u64; 8]) -> u32 {
    let mut number = UNSET;
    // As above.
    unsafe {
        c::mztab_tally_read(
            bytes.as_ptr(),
            bytes.len(),
            totals.as_mut_ptr(),
            &mut number,
        )
    };
    number
}

pub fn add_cents(a: u64, b: u64) -> Sum {
    let mut number = UNSET;
    // The one place is our own.
    let cents = unsafe { c::mztab_add_cents(a, b, &mut number) };
    Sum { number, cents }
}

/// Writes the shares of a fee, where there is an answer, and answers the number.
pub fn split_fee(fee: u64, weights: &[u32], shares: &mut [u64]) -> u32 {
    let mut number = UNSET;
    // As above; the shares, which are lent to be written, overlap neither the weights nor the number.
    unsafe {
        c::mztab_split_fee(
            fee,
            weights.as_ptr(),
            weights.len(),
            shares.as_mut_ptr(),
            shares.len(),
            &mut number,
        )
    };
    number
}
