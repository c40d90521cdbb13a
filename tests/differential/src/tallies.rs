//! Tallies of files, their sums and their records, by both.

use std::collections::BTreeMap;

use independent::cases::{self, counts};
use independent::tally::{self, Tally, Totals, RECORD, TOTALS};
use independent::Break;
use mztab::{raw, LIMIT};
use samples::Draws;

use crate::compare::Tried;
use crate::damage::damage;

/// What a place holds before the call.
const MARK: u64 = 0xdead_beef_dead_beef;
/// So many places and bytes on either side of what is lent are looked at too.
const MARGIN: usize = 8;
/// So many bytes have the longest buffer and the longest of what is read as a record.
const LONGEST: usize = 80;
/// Once in so many times every length up to that is tried.
const EVERY_LENGTH: usize = 16;
/// Length and kind fill so many bytes of a record.
const FRONT: usize = 6;
/// Of the tallies of files so many are kept, for sums and records.
const KEPT: usize = 256;
/// One of the files with counts in so many is damaged.
const DAMAGED: usize = 6;
/// The totals of the three counters and of the missing cells.
const COUNTED: [usize; 4] = [0, 1, 2, 7];

/// How many calls by the number that was answered.
pub type Calls = BTreeMap<u32, u64>;

/// How much of this was compared.
#[derive(Default)]
pub struct Tallies {
    pub files: Calls,
    pub sums: Calls,
    pub written: Calls,
    pub read: Calls,
    /// How many files have each total, and how many all three counters and missing cells.
    pub each: [u64; TOTALS],
    pub full: u64,
    /// The sum of all, as both have it.
    pub month: Totals,
    /// The latest tallies, and the place of the next.
    met: Vec<Totals>,
    next: usize,
}

impl Tallies {
    fn note(&mut self, totals: Totals) {
        for (count, total) in self.each.iter_mut().zip(totals) {
            *count += u64::from(total > 0);
        }
        self.full += u64::from(COUNTED.iter().all(|at| totals[*at] > 0));
        if self.met.len() < KEPT {
            self.met.push(totals);
        } else {
            self.met[self.next] = totals;
        }
        self.next = (self.next + 1) % KEPT;
    }

    /// One of the latest; zeros where there is none.
    fn some(&self, draws: &mut Draws) -> Totals {
        match self.met.len() {
            0 => [0; TOTALS],
            count => self.met[draws.below(count)],
        }
    }
}

/// The counts in words.
pub fn words(calls: &Calls) -> String {
    let all: Vec<String> = (calls.iter())
        .map(|(number, count)| format!("{count} with {number}"))
        .collect();
    all.join(", ")
}

/// Nothing where both give the file the same tally, and the same sums and records of it, else both answers in words.
/// `breaks` is what the independent reading finds, nothing for a file that is too long.
pub fn compare(
    file: &[u8],
    breaks: Option<&[Break]>,
    draws: &mut Draws,
    tried: &mut Tried,
) -> Result<(), String> {
    let expected = tally::of_judged(file, breaks);
    one_tally(file, &expected, tried)?;
    let totals = match expected {
        Err(_) => return Ok(()),
        Ok(tally) => tally.totals(),
    };
    let other = tried.tallies.some(draws);
    add(&totals, &other, tried)?;
    let month = tried.tallies.month;
    add(&month, &totals, tried)?;
    let sum = tally::add(&Tally::of_totals(month), &Tally::of_totals(totals));
    tried.tallies.month = sum.map_or(totals, |sum| sum.totals());
    written_and_read(&totals, RECORD + draws.below(LONGEST - RECORD + 1), tried)?;
    tried.tallies.note(totals);
    Ok(())
}

/// The same of a file that nothing else is compared of.
pub fn alone(file: &[u8], draws: &mut Draws, tried: &mut Tried) -> Result<(), String> {
    let file: Box<[u8]> = file.into();
    let breaks = independent::judge(&file);
    compare(&file, breaks.as_deref(), draws, tried)
}

/// A small file with counts, most often accepted.
pub fn with_counts(draws: &mut Draws) -> Vec<u8> {
    let mut file = counts::file(&mut |n| draws.below(n));
    if draws.once_in(DAMAGED) {
        damage(&mut file, draws);
    }
    file
}

/// The files, sums and records written by hand, each against what was written.
pub fn by_hand(tried: &mut Tried) -> Result<(), String> {
    for case in cases::tallies::all() {
        let expected = case.tally.map(Tally::of_totals);
        one_tally(&case.file, &expected, tried)
            .map_err(|words| format!("{}: {words}", case.label))?;
    }
    for case in cases::records::sums() {
        let expected = case.sum.map(Tally::of_totals);
        one_sum(&case.a, &case.b, &expected, tried)?;
    }
    for case in cases::records::records() {
        let expected = case.tally.map(Tally::of_totals);
        one_reading(&case.bytes, &expected, tried)
            .map_err(|words| format!("{}: {words}", case.label))?;
        if let Ok(totals) = case.tally {
            for room in 0..=LONGEST {
                written_and_read(&totals, room, tried)?;
            }
        }
    }
    Ok(())
}

/// Files of as many bytes as a file may have, and of one more: rows of the size with the largest counts, a comment, and in two of them a count
/// below zero at the very end.
pub fn large(size: usize, draws: &mut Draws, tried: &mut Tried) -> Result<(), String> {
    let head = "MTD\tmzTab-version\t1.0\nMTD\tmzTab-mode\tSummary\nMTD\tmzTab-type\tIdentification\nMTD\tdescription\td\n\
        MTD\tfixed_mod[1]\t[,,f,]\nMTD\tvariable_mod[1]\t[,,v,]\nMTD\tprotein_search_engine_score[1]\t[,,a,]\nMTD\tms_run[1]-location\ta\n\
        PRH\taccession\tdescription\tdatabase\tsearch_engine\tnum_psms_ms_run[1]\tnum_peptides_unique_ms_run[1]\n";
    let row = "PRT\tY\td\tb\tnull\t999999999\t999999999\n";
    let front = head.to_string() + &row.repeat(size / row.len()) + "COM\t";
    for last in ["", "\nPRT\tY\td\tb\tnull\t0\t-1"] {
        let comment = "x".repeat(LIMIT - front.len() - last.len());
        let mut file = front.clone() + &comment + last;
        alone(file.as_bytes(), draws, tried)?;
        file += "0";
        alone(file.as_bytes(), draws, tried)?;
    }
    Ok(())
}

/// So many tallies that no file has: what they add up to, and their records, some of them damaged.
pub fn drawn(count: usize, draws: &mut Draws, tried: &mut Tried) -> Result<(), String> {
    for _ in 0..count {
        let a = drawn_totals(draws, tried);
        let b = another(&a, draws, tried);
        add(&a, &b, tried)?;
        add(&b, &a, tried)?;
        add(&a, &a, tried)?;
        for room in lengths(draws) {
            written_and_read(&a, room, tried)?;
        }
        some_bytes(&a, draws, tried)?;
    }
    Ok(())
}

/// A tally whose totals are of every size.
fn drawn_totals(draws: &mut Draws, tried: &Tried) -> Totals {
    let met = tried.tallies.some(draws);
    met.map(|total| match draws.below(8) {
        0 => 0,
        1 => draws.bits() % 4,
        2 => draws.bits(),
        3 => u64::MAX - draws.bits() % 4,
        4 => 1 << draws.below(64),
        5 => u64::from(u32::MAX) + draws.bits() % 3,
        6 => draws.bits() >> draws.below(64),
        _ => total,
    })
}

/// A tally to be added to one: any, or such that sums are the most that 64 bits hold; in some of these one sum is more.
fn another(a: &Totals, draws: &mut Draws, tried: &Tried) -> Totals {
    let mut b = match draws.below(4) {
        0 => return drawn_totals(draws, tried),
        1 => a.map(|total| (u64::MAX - total) / 2),
        2 => a.map(|total| (u64::MAX - total).min(draws.bits() % 4)),
        _ => a.map(|total| u64::MAX - total),
    };
    let at = draws.below(TOTALS);
    b[at] = (u64::MAX - a[at]).saturating_add(draws.bits() % 2);
    b
}

/// The lengths of buffers, and of what is read as a record: mostly near that of a record.
fn lengths(draws: &mut Draws) -> Vec<usize> {
    if draws.once_in(EVERY_LENGTH) {
        return (0..=LONGEST).collect();
    }
    let mut some = vec![RECORD - 1, RECORD, RECORD + 1];
    some.push(draws.below(LONGEST + 1));
    some
}

/// The record of a tally, whole, with one byte changed, with another front, and of other lengths; and bytes of any sort.
fn some_bytes(totals: &Totals, draws: &mut Draws, tried: &mut Tried) -> Result<(), String> {
    let record = tally::record(&Tally::of_totals(*totals));
    let mut changed = record.clone();
    changed[draws.below(RECORD)] ^= draws.below(255) as u8 + 1;
    read(&changed, tried)?;
    let mut front = record.clone();
    front[draws.below(FRONT)] ^= 1 << draws.below(8);
    read(&front, tried)?;
    front = record.clone();
    front[..FRONT].rotate_left(draws.below(FRONT));
    read(&front, tried)?;
    for length in lengths(draws) {
        let mut bytes = record.clone();
        bytes.resize(length, draws.below(256) as u8);
        read(&bytes, tried)?;
        // A length that says what is there.
        if length >= FRONT {
            bytes[0] = (length - 4) as u8;
            read(&bytes, tried)?;
        }
    }
    let any: Vec<u8> = (0..RECORD).map(|_| draws.below(256) as u8).collect();
    read(&any, tried)
}

fn one_tally(file: &[u8], expected: &Result<Tally, u32>, tried: &mut Tried) -> Result<(), String> {
    let what = || "the tally".to_string();
    let number = same_totals(what, expected, |totals| raw::tally(file, totals))?;
    *tried.tallies.files.entry(number).or_default() += 1;
    Ok(())
}

fn add(a: &Totals, b: &Totals, tried: &mut Tried) -> Result<(), String> {
    let expected = tally::add(&Tally::of_totals(*a), &Tally::of_totals(*b));
    one_sum(a, b, &expected, tried)
}

fn one_sum(
    a: &Totals,
    b: &Totals,
    expected: &Result<Tally, u32>,
    tried: &mut Tried,
) -> Result<(), String> {
    let what = || format!("{a:?} and {b:?} added");
    let number = same_totals(what, expected, |sum| raw::tally_add(a, b, sum))?;
    *tried.tallies.sums.entry(number).or_default() += 1;
    Ok(())
}

fn read(bytes: &[u8], tried: &mut Tried) -> Result<(), String> {
    one_reading(bytes, &tally::read(bytes), tried)
}

fn one_reading(
    bytes: &[u8],
    expected: &Result<Tally, u32>,
    tried: &mut Tried,
) -> Result<(), String> {
    // A box of its own, so that a checker of memory sees a read past it.
    let bytes: Box<[u8]> = bytes.into();
    let what = || format!("{bytes:?} read as a record");
    let number = same_totals(what, expected, |totals| raw::tally_read(&bytes, totals))?;
    *tried.tallies.read.entry(number).or_default() += 1;
    Ok(())
}

/// The number of a call that writes eight totals, which are all compared, and what stands on either side of them. A refusal writes zeros.
fn same_totals(
    what: impl Fn() -> String,
    expected: &Result<Tally, u32>,
    call: impl FnOnce(&mut Totals) -> u32,
) -> Result<u32, String> {
    let mut found = [MARK; TOTALS + 2 * MARGIN];
    let mut wanted = found;
    let lent = MARGIN..MARGIN + TOTALS;
    let places: &mut [u64] = &mut found[lent.clone()];
    let number = call(places.try_into().expect("there are eight"));
    let (refusal, totals) = match expected {
        Ok(tally) => (0, tally.totals()),
        Err(refusal) => (*refusal, [0; TOTALS]),
    };
    wanted[lent.clone()].copy_from_slice(&totals);
    if number == refusal && found == wanted {
        return Ok(number);
    }
    let beside = if found[lent.clone()] == totals && number == refusal {
        ", and writes beside them"
    } else {
        ""
    };
    Err(format!(
        "{}: the library answers number {number}, {:?}{beside}; the independent reading number {refusal}, {totals:?}",
        what(),
        &found[lent]
    ))
}

/// The record written into a buffer of so many bytes, each of them compared, and those on either side; and read again, where it is there.
fn written_and_read(totals: &Totals, room: usize, tried: &mut Tried) -> Result<(), String> {
    // No byte is as those beside it.
    let before = (0..room + 2 * MARGIN).map(|at| (at * 167 + 13) as u8);
    let mut wanted: Vec<u8> = before.collect();
    let mut found = wanted.clone();
    let lent = MARGIN..MARGIN + room;
    let expected = tally::write(&Tally::of_totals(*totals), &mut wanted[lent.clone()]);
    let answer = raw::tally_write(totals, &mut found[lent.clone()]);
    let wanted_answer = (expected.err().unwrap_or(0), expected.unwrap_or(0));
    if answer != wanted_answer || found != wanted {
        return Err(format!(
            "{totals:?} written into {room} bytes: the library answers {answer:?}, {found:?}; the independent reading {wanted_answer:?}, \
             {wanted:?} (number and length, and the bytes from {MARGIN} before the buffer to {MARGIN} behind it)"
        ));
    }
    *tried.tallies.written.entry(answer.0).or_default() += 1;
    if answer.0 == 0 {
        read(&found[lent][..RECORD], tried)?;
    }
    Ok(())
}

#[cfg(test)]
mod tests {
    use super::*;

    #[test]
    fn what_is_counted() {
        let mut tried = Tried::default();
        let mut draws = Draws::new(1);
        assert_eq!(tried.tallies.some(&mut draws), [0; TOTALS]);
        tried.tallies.note([1, 2, 3, 0, 0, 0, 0, 4]);
        tried.tallies.note([1, 0, 3, 0, 0, 0, 5, 4]);
        assert_eq!(tried.tallies.each, [2, 1, 2, 0, 0, 0, 1, 2]);
        assert_eq!(tried.tallies.full, 1);
        for k in 0..2 * KEPT as u64 {
            tried.tallies.note([k; TOTALS]);
        }
        assert_eq!(tried.tallies.met.len(), KEPT);
        let met = (0..10 * KEPT).map(|_| tried.tallies.some(&mut draws)[0]);
        assert!(met.min() >= Some(KEPT as u64));
    }

    /// Pairs whose sums fit and pairs of which one sum alone does not are both drawn, at each total.
    #[test]
    fn what_is_added() {
        let mut draws = Draws::new(1);
        let tried = Tried::default();
        let mut fit = 0;
        let mut alone = [0; TOTALS];
        for _ in 0..4_000 {
            let a = drawn_totals(&mut draws, &tried);
            let b = another(&a, &mut draws, &tried);
            let past: Vec<usize> = (0..TOTALS)
                .filter(|at| a[*at].checked_add(b[*at]).is_none())
                .collect();
            match past[..] {
                [] => fit += 1,
                [at] => alone[at] += 1,
                _ => (),
            }
        }
        assert!(fit > 1_000, "{fit}");
        assert!(alone.iter().all(|count| *count > 50), "{alone:?}");
    }

    #[test]
    fn a_difference_is_told() {
        let written = |number: u32, total: u64, expected: Result<Tally, u32>| {
            let call = |totals: &mut Totals| {
                totals.fill(total);
                number
            };
            same_totals(|| "x".to_string(), &expected, call)
        };
        let ones = Ok(Tally::of_totals([1; TOTALS]));
        assert_eq!(written(0, 1, ones), Ok(0));
        assert!(written(0, 0, ones).is_err());
        assert!(written(13, 1, ones).is_err());
        assert_eq!(written(13, 0, Err(13)), Ok(13));
        assert!(written(13, MARK, Err(13)).is_err());
        assert!(written(14, 0, Err(13)).is_err());
    }
}
