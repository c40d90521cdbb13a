//! The tally of a file, the sum of two, and the record that a tally is kept as.

use crate::{raw, refused, Refusal};

/// The record of a tally has so many bytes.
pub const RECORD: usize = 70;

/// A tally has so many totals.
const TOTALS: usize = 8;

/// PSMs: the sum of the cells under `num_psms_ms_run[n]`, over protein rows and runs. A counter of its own: it is no other, and is added to
/// none.
///
/// ```compile_fail
/// let mixed = mztab::Psms(3) + mztab::DistinctPeptides(2);
/// ```
#[derive(Clone, Copy, Debug, Default, PartialEq, Eq, PartialOrd, Ord, Hash)]
pub struct Psms(pub u64);

/// Distinct peptides: the sum of the cells under `num_peptides_distinct_ms_run[n]`, a counter of its own as [`Psms`] is.
#[derive(Clone, Copy, Debug, Default, PartialEq, Eq, PartialOrd, Ord, Hash)]
pub struct DistinctPeptides(pub u64);

/// Unique peptides: the sum of the cells under `num_peptides_unique_ms_run[n]`, a counter of its own as [`Psms`] is.
///
/// ```compile_fail
/// let mistaken = mztab::Tally { psms: mztab::UniquePeptides(3), ..Default::default() };
/// ```
#[derive(Clone, Copy, Debug, Default, PartialEq, Eq, PartialOrd, Ord, Hash)]
pub struct UniquePeptides(pub u64);

/// What a file, or several, count up to. The default is the tally of nothing: every total is zero.
#[derive(Clone, Copy, Debug, Default, PartialEq, Eq, Hash)]
pub struct Tally {
    pub psms: Psms,
    pub distinct: DistinctPeptides,
    pub unique: UniquePeptides,
    /// The rows of the sections, as [`crate::rows`] counts them: place i - 1 is section i.
    pub rows: [u64; 4],
    /// The cells of protein rows in the columns of the three counters that are `null`: each adds nothing there, and one here.
    pub missing: u64,
}

/// The tally of an accepted file. Refused: [`Refusal::TooLong`], [`Refusal::NotAccepted`], and [`Refusal::BelowZero`] for a count below zero
/// in a column of one of the three counters. The call judges the file, and needs as much stack as that.
///
/// ```
/// let broken = b"PRH\tnum_psms_ms_run[1]\nPRT\t4\n";
/// assert_eq!(mztab::tally(broken), Err(mztab::Refusal::NotAccepted));
/// ```
pub fn tally(file: &[u8]) -> Result<Tally, Refusal> {
    let mut totals = [0; TOTALS];
    refused(raw::tally(file, &mut totals)).map(|()| Tally::of(totals))
}

impl Tally {
    /// The sum, total by total. Where one of them is over 64 bits there is none, [`Refusal::Past64Bits`].
    ///
    /// ```
    /// use mztab::{Psms, Refusal, Tally};
    /// let june = Tally { psms: Psms(40), rows: [7, 0, 0, 0], ..Tally::default() };
    /// let july = Tally { psms: Psms(2), missing: 1, ..Tally::default() };
    /// let both = Tally { psms: Psms(42), rows: [7, 0, 0, 0], missing: 1, ..Tally::default() };
    /// assert_eq!(june.add(july), Ok(both));
    /// let most = Tally { psms: Psms(u64::MAX), ..Tally::default() };
    /// assert_eq!(most.add(july), Err(Refusal::Past64Bits));
    /// ```
    // No operator: a sum can be refused.
    #[allow(clippy::should_implement_trait)]
    pub fn add(self, other: Tally) -> Result<Tally, Refusal> {
        let mut sum = [0; TOTALS];
        let number = raw::tally_add(&self.totals(), &other.totals(), &mut sum);
        refused(number).map(|()| Tally::of(sum))
    }

    /// The record: four bytes with the length of the rest, two with the kind, 1, then the eight totals in the order of [`Tally::totals`],
    /// eight bytes each; every number with its lowest byte first.
    ///
    /// ```
    /// let tally = mztab::Tally { psms: mztab::Psms(258), ..Default::default() };
    /// let record = tally.to_record();
    /// assert_eq!(record[..9], [66, 0, 0, 0, 1, 0, 2, 1, 0]);
    /// assert_eq!(mztab::Tally::from_record(&record), Ok(tally));
    /// ```
    pub fn to_record(&self) -> [u8; RECORD] {
        let mut record = [0; RECORD];
        let written = self.write_into(&mut record);
        written.expect("a record has room in its own length");
        record
    }

    /// Writes the record to the first [`RECORD`] places of a buffer, and answers that length. The places past it stay as they were. A buffer
    /// with fewer is refused, [`Refusal::NoRoom`], and nothing is written.
    pub fn write_into(&self, buffer: &mut [u8]) -> Result<usize, Refusal> {
        let (number, length) = raw::tally_write(&self.totals(), buffer);
        refused(number).map(|()| length)
    }

    /// The tally that a record holds. Bytes that are none are refused, [`Refusal::NotARecord`].
    pub fn from_record(record: &[u8]) -> Result<Tally, Refusal> {
        let mut totals = [0; TOTALS];
        refused(raw::tally_read(record, &mut totals)).map(|()| Tally::of(totals))
    }

    /// The eight totals in the record's order: PSMs, distinct peptides, unique peptides, the rows of sections 1 to 4, missing cells.
    pub fn totals(&self) -> [u64; TOTALS] {
        let [protein, peptide, psm, small_molecule] = self.rows;
        [
            self.psms.0,
            self.distinct.0,
            self.unique.0,
            protein,
            peptide,
            psm,
            small_molecule,
            self.missing,
        ]
    }

    /// The tally with these totals.
    fn of(totals: [u64; TOTALS]) -> Tally {
        let [psms, distinct, unique, protein, peptide, psm, small_molecule, missing] = totals;
        Tally {
            psms: Psms(psms),
            distinct: DistinctPeptides(distinct),
            unique: UniquePeptides(unique),
            rows: [protein, peptide, psm, small_molecule],
            missing,
        }
    }
}

#[cfg(test)]
mod tests {
    use super::*;

    #[test]
    fn totals_in_their_order() {
        let totals = [1, 2, 3, 4, 5, 6, 7, 8];
        let tally = Tally::of(totals);
        assert_eq!(tally.psms, Psms(1));
        assert_eq!(tally.distinct, DistinctPeptides(2));
        assert_eq!(tally.unique, UniquePeptides(3));
        assert_eq!((tally.rows, tally.missing), ([4, 5, 6, 7], 8));
        assert_eq!(tally.totals(), totals);
        assert_eq!(Tally::default().totals(), [0; TOTALS]);
    }
}
