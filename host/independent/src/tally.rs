//! Request 2026-09, "Month's tally": the tally of one file, two tallies added,
//! and tallies written and read as records.

use crate::judging::{judge, Break};
use crate::lines::{cells, code, lines, Code};
use crate::names;
use crate::reading::{read as read_cell, Reading};

/// "Refusals: 1" as ever, "file too long",
const TOO_LONG: u32 = 1;
/// "7" as elsewhere, "file not accepted",
const NOT_ACCEPTED: u32 = 7;
/// "then 12 a count below zero",
const BELOW_ZERO: u32 = 12;
/// "13 a sum over 64 bits",
const OVER_64_BITS: u32 = 13;
/// "14 not 70 bytes with length 66 and kind 1",
const NO_RECORD: u32 = 14;
/// "and for writing 5": no room in the buffer.
const NO_ROOM: u32 = 5;

/// The protein section.
const PROTEIN: u32 = 1;

/// "the eight totals"
pub const TOTALS: usize = 8;

/// "Totals are 64-bit."
pub type Totals = [u64; TOTALS];

/// "PSMs, distinct peptides and unique peptides summed from the three `num_`
/// columns over protein rows and runs, each a counter of its own [...], beside
/// rows per section and missing cells met in those columns."
#[derive(Clone, Copy, Debug, Default, PartialEq, Eq)]
pub struct Tally {
    pub psms: u64,
    pub distinct_peptides: u64,
    pub unique_peptides: u64,
    /// Of sections 1 to 4.
    pub rows: [u64; 4],
    pub missing: u64,
}

impl Tally {
    /// "the eight totals [...] in this order": that in which they are named.
    pub fn totals(&self) -> Totals {
        let [protein, peptide, psm, small_molecule] = self.rows;
        [
            self.psms,
            self.distinct_peptides,
            self.unique_peptides,
            protein,
            peptide,
            psm,
            small_molecule,
            self.missing,
        ]
    }

    pub fn of_totals(totals: Totals) -> Tally {
        let [psms, distinct_peptides, unique_peptides, rows @ .., missing] = totals;
        Tally {
            psms,
            distinct_peptides,
            unique_peptides,
            rows,
            missing,
        }
    }

    /// What a protein row adds, where its columns add to these counters, or the
    /// number of the refusal.
    fn add_row(&mut self, row: &[u8], columns: &[Option<Counter>]) -> Result<(), u32> {
        for (cell, counter) in cells(row).zip(columns) {
            if let Some(counter) = counter {
                match read_cell(cell) {
                    Reading::Missing => self.missing += 1,
                    Reading::Whole(count) => {
                        // `-0` is zero, and not below it.
                        *counter.of(self) += u64::try_from(count).map_err(|_| BELOW_ZERO)?;
                    }
                    other => unreachable!("an accepted file has no {other:?} there"),
                }
            }
        }
        Ok(())
    }
}

/// "each a counter of its own"
#[derive(Clone, Copy)]
enum Counter {
    Psms,
    DistinctPeptides,
    UniquePeptides,
}

/// "the three `num_` columns", n an index.
const COLUMNS: [(&str, Counter); 3] = [
    ("num_psms_ms_run[n]", Counter::Psms),
    ("num_peptides_distinct_ms_run[n]", Counter::DistinctPeptides),
    ("num_peptides_unique_ms_run[n]", Counter::UniquePeptides),
];

impl Counter {
    /// The counter that a column of the name adds to, whichever run it is of.
    fn under(name: &[u8]) -> Option<Counter> {
        let mut fitting = COLUMNS.iter();
        let (_, counter) = fitting.find(|(pattern, _)| names::fits(pattern, name).is_some())?;
        Some(*counter)
    }

    fn of(self, tally: &mut Tally) -> &mut u64 {
        match self {
            Counter::Psms => &mut tally.psms,
            Counter::DistinctPeptides => &mut tally.distinct_peptides,
            Counter::UniquePeptides => &mut tally.unique_peptides,
        }
    }
}

/// "One file gives one tally": it, or the number of the refusal.
pub fn of_file(file: &[u8]) -> Result<Tally, u32> {
    of_judged(file, judge(file).as_deref())
}

/// The same of a file that has these breaks; nothing for one over the limit.
/// "Refusals: 1, 7, then 12".
pub fn of_judged(file: &[u8], breaks: Option<&[Break]>) -> Result<Tally, u32> {
    if !breaks.ok_or(TOO_LONG)?.is_empty() {
        return Err(NOT_ACCEPTED);
    }
    let mut tally = Tally::default();
    // The counter of each cell, by the header above.
    let mut columns: Vec<Option<Counter>> = Vec::new();
    for line in lines(file) {
        match code(line) {
            Code::Header(PROTEIN) => columns = cells(line).map(Counter::under).collect(),
            Code::Row(section) => {
                tally.rows[section as usize - 1] += 1;
                if section == PROTEIN {
                    tally.add_row(line, &columns)?;
                }
            }
            _ => (),
        }
    }
    Ok(tally)
}

/// "two tallies can be added": each total to the same one of the other, or the
/// number of the refusal.
pub fn add(a: &Tally, b: &Tally) -> Result<Tally, u32> {
    let mut totals = [0; TOTALS];
    for (total, (a, b)) in totals
        .iter_mut()
        .zip(a.totals().into_iter().zip(b.totals()))
    {
        let sum = u128::from(a) + u128::from(b);
        *total = u64::try_from(sum).map_err(|_| OVER_64_BITS)?;
    }
    Ok(Tally::of_totals(totals))
}

/// So many bytes has a record.
pub const RECORD: usize = 70;

/// "four-byte length of the rest"
const REST: [u8; 4] = 66u32.to_le_bytes();

/// "two-byte kind 1"
const KIND: [u8; 2] = 1u16.to_le_bytes();

/// So many bytes has each of "the eight totals of eight bytes".
const BYTES: usize = 8;

/// "four-byte length of the rest, two-byte kind 1, then the eight totals of
/// eight bytes in this order, all little-endian"
pub fn record(tally: &Tally) -> Vec<u8> {
    let mut bytes = [&REST[..], &KIND].concat();
    for total in tally.totals() {
        bytes.extend(total.to_le_bytes());
    }
    bytes
}

/// Writes the record to the front of the buffer, and answers its length, or the
/// number of the refusal: then "nothing written".
pub fn write(tally: &Tally, buffer: &mut [u8]) -> Result<usize, u32> {
    let front = buffer.get_mut(..RECORD).ok_or(NO_ROOM)?;
    front.copy_from_slice(&record(tally));
    Ok(RECORD)
}

/// The tally that a record holds, or the number of the refusal.
pub fn read(bytes: &[u8]) -> Result<Tally, u32> {
    let begins_so = bytes.starts_with(&[&REST[..], &KIND].concat());
    if bytes.len() != RECORD || !begins_so {
        return Err(NO_RECORD);
    }
    let mut totals = [0; TOTALS];
    let eights = bytes[REST.len() + KIND.len()..].chunks_exact(BYTES);
    for (total, eight) in totals.iter_mut().zip(eights) {
        *total = u64::from_le_bytes(eight.try_into().expect("it has eight bytes"));
    }
    Ok(Tally::of_totals(totals))
}

#[cfg(test)]
mod tests {
    use super::*;

    const HEAD: &str = "MTD\tmzTab-version\t1.0.0\nMTD\tmzTab-mode\tSummary\n\
        MTD\tmzTab-type\tIdentification\nMTD\tdescription\td\n\
        MTD\tms_run[1]-location\tfile:///a.mzML\nMTD\tms_run[2]-location\tfile:///b.mzML\n\
        MTD\tms_run[64]-location\tfile:///c.mzML\n\
        MTD\tfixed_mod[1]\t[,,f,]\nMTD\tvariable_mod[1]\t[,,v,]\n\
        MTD\tprotein_search_engine_score[1]\t[,,s,]\nMTD\tpeptide_search_engine_score[1]\t[,,s,]\n\
        MTD\tpsm_search_engine_score[1]\t[,,s,]\n\
        MTD\tsmallmolecule_search_engine_score[1]\t[,,s,]\n";

    /// The totals of a protein table: its columns beside the required ones, and
    /// the cells under them.
    fn of(columns: &str, rows: &[&str]) -> Result<Totals, u32> {
        let mut file = format!("{HEAD}PRH\taccession\tdescription\tdatabase\tsearch_engine");
        file += &(columns.to_string() + "\n");
        for row in rows {
            file += &format!("PRT\tY1\tnull\tdb\tnull{row}\n");
        }
        of_file(file.as_bytes()).map(|tally| tally.totals())
    }

    #[test]
    fn every_counter_by_itself() {
        let psms = of("\tnum_psms_ms_run[1]", &["\t3", "\t4"]);
        assert_eq!(psms, Ok([7, 0, 0, 2, 0, 0, 0, 0]));
        let distinct = of("\tnum_peptides_distinct_ms_run[1]", &["\t3", "\t4"]);
        assert_eq!(distinct, Ok([0, 7, 0, 2, 0, 0, 0, 0]));
        let unique = of("\tnum_peptides_unique_ms_run[1]", &["\t3", "\t4"]);
        assert_eq!(unique, Ok([0, 0, 7, 2, 0, 0, 0, 0]));
    }

    /// The columns of runs 64, 1 and 2 in some order, and of the counters too.
    #[test]
    fn over_runs_in_any_order() {
        let columns = "\tnum_psms_ms_run[64]\tnum_peptides_unique_ms_run[2]\
            \tsearch_engine_score[1]_ms_run[1]\tnum_psms_ms_run[1]\
            \tnum_peptides_distinct_ms_run[64]\tnum_psms_ms_run[2]";
        let rows = ["\t100\t7\t-9\t10\t5\t1", "\t200\tnull\t-9\tnull\t6\t2"];
        assert_eq!(of(columns, &rows), Ok([313, 11, 7, 2, 0, 0, 0, 2]));
    }

    #[test]
    fn null_is_missing_and_adds_nothing() {
        let columns = "\tnum_psms_ms_run[1]\tnum_peptides_distinct_ms_run[1]\ttaxid";
        let rows = ["\tnull\tnull\tnull", "\t5\tnull\tnull"];
        assert_eq!(of(columns, &rows), Ok([5, 0, 0, 2, 0, 0, 0, 3]));
        // Where there is no such column, no cell is missing.
        assert_eq!(of("\ttaxid", &["\tnull"]), Ok([0, 0, 0, 1, 0, 0, 0, 0]));
        assert_eq!(of("", &["", "", ""]), Ok([0, 0, 0, 3, 0, 0, 0, 0]));
        assert_eq!(of("\tnum_psms_ms_run[1]", &[]), Ok([0; 8]));
    }

    #[test]
    fn counts_and_signs() {
        let with = |cell: &str| of("\tnum_psms_ms_run[2]", &["\t1", &format!("\t{cell}")]);
        for (cell, count) in [
            ("0", 0),
            ("-0", 0),
            ("-000", 0),
            ("-000000000", 0),
            ("007", 7),
            ("000000001", 1),
            ("999999999", 999_999_999),
        ] {
            assert_eq!(with(cell), Ok([1 + count, 0, 0, 2, 0, 0, 0, 0]), "{cell}");
        }
        for cell in ["-1", "-007", "-999999999", "-000000001"] {
            assert_eq!(with(cell), Err(12), "{cell}");
        }
        // What is no count breaks rule 19 or 20.
        for cell in ["", "1.0", "+1", "1234567890", "-", "NA", "--1", " 1", "1E0"] {
            assert_eq!(with(cell), Err(7), "{cell}");
        }
        // Elsewhere a number may be below zero.
        assert_eq!(of("\ttaxid", &["\t-1"]), Ok([0, 0, 0, 1, 0, 0, 0, 0]));
    }

    #[test]
    fn refusals_in_order() {
        // A count below zero in a file that breaks a rule, below the count.
        let rows = ["\t-1", "\t1\t1"];
        assert_eq!(of("\tnum_psms_ms_run[1]", &rows), Err(7));
        assert_eq!(of("\tnum_psms_ms_run[3]", &["\t1"]), Err(7));
        assert_eq!(of_file(b""), Err(7));
        let long = vec![b'x'; crate::LIMIT + 1];
        assert_eq!(of_file(&long), Err(1));
        assert_eq!(of_file(&long[1..]), Err(7));
    }

    #[test]
    fn rows_of_every_section() {
        let file = format!(
            "{HEAD}PRH\taccession\tdescription\tdatabase\tsearch_engine\tnum_psms_ms_run[1]\n\
             PRT\tY1\tnull\tdb\tnull\t2\nCOM\tPRT\tY1\tnull\tdb\tnull\t2\n\n\
             PEH\tsequence\taccession\tcharge\tmass_to_charge\topt_num_psms_ms_run[1]\n\
             PEP\tAB\tY1\t-2\t10.5\t8\nPEP\tAB\tY1\t2\tnull\tnull\n\
             PSH\tsequence\tPSM_ID\taccession\tcharge\tspectra_ref\nPSM\tA\t1\tY\t2\tr\n\
             PSM\tA\t1\tY\t2\tr\nPSM\tA\t1\tY\t2\tr\n\
             SMH\tidentifier\tcharge\nSML\tC\t-1\nSML\tC\t1\nSML\tC\t1\nSML\tC\tnull"
        );
        let tally = Tally {
            psms: 2,
            rows: [1, 2, 3, 4],
            ..Tally::default()
        };
        assert_eq!(of_file(file.as_bytes()), Ok(tally));
        assert_eq!(tally.totals(), [2, 0, 0, 1, 2, 3, 4, 0]);
        assert_eq!(Tally::of_totals(tally.totals()), tally);
    }

    #[test]
    fn sums() {
        const MOST: u64 = u64::MAX;
        let plus = |a: Totals, b: Totals| {
            let sum = add(&Tally::of_totals(a), &Tally::of_totals(b));
            sum.map(|sum| sum.totals())
        };
        let a = [1, 2, 3, 4, 5, 6, 7, 8];
        let b = [80, 70, 60, 50, 40, 30, 20, 10];
        assert_eq!(plus(a, b), Ok([81, 72, 63, 54, 45, 36, 27, 18]));
        assert_eq!(plus(a, [0; 8]), Ok(a));
        assert_eq!(plus([MOST; 8], [0; 8]), Ok([MOST; 8]));
        for at in 0..8 {
            let (mut near, mut one) = ([5; 8], [0; 8]);
            near[at] = MOST - 1;
            one[at] = 1;
            let mut most = near;
            most[at] = MOST;
            assert_eq!(plus(near, one), Ok(most));
            assert_eq!(plus(most, one), Err(13));
            assert_eq!(plus(one, most), Err(13));
            assert_eq!(plus(near, near), Err(13));
        }
        assert_eq!(plus([1 << 63; 8], [(1 << 63) - 1; 8]), Ok([MOST; 8]));
        assert_eq!(plus([1 << 63; 8], [1 << 63; 8]), Err(13));
    }

    /// A tally of which no two bytes are the same, and its record.
    const TALLY: Totals = [
        0x0807_0605_0403_0201,
        0x1817_1615_1413_1211,
        0x2827_2625_2423_2221,
        0x3837_3635_3433_3231,
        0x4847_4645_4443_4241,
        0x5857_5655_5453_5251,
        0x6867_6665_6463_6261,
        0x7877_7675_7473_7271,
    ];

    fn by_hand() -> Vec<u8> {
        let mut bytes = vec![66, 0, 0, 0, 1, 0];
        for high in 0..8 {
            bytes.extend((1..=8).map(|low| 16 * high + low));
        }
        bytes
    }

    #[test]
    fn what_a_record_is() {
        let tally = Tally::of_totals(TALLY);
        assert_eq!(by_hand().len(), 70);
        assert_eq!(record(&tally), by_hand());
        assert_eq!(read(&by_hand()), Ok(tally));
        let zeros = [&[66, 0, 0, 0, 1][..], &[0; 65]].concat();
        assert_eq!(record(&Tally::default()), zeros);
        assert_eq!(read(&zeros), Ok(Tally::default()));
    }

    #[test]
    fn records_of_other_lengths() {
        let good = by_hand();
        for length in 0..70 {
            assert_eq!(read(&good[..length]), Err(14), "{length}");
        }
        for more in 1..20 {
            let longer = [&good[..], &vec![0; more]].concat();
            assert_eq!(read(&longer), Err(14), "{more}");
        }
    }

    #[test]
    fn records_with_another_byte() {
        let with = |at: usize, byte: u8| {
            let mut bytes = by_hand();
            bytes[at] = byte;
            read(&bytes)
        };
        // The length: of the whole, one off, with a byte above it.
        for (at, byte) in [(0, 70), (0, 65), (0, 67), (0, 0), (1, 1), (2, 1), (3, 128)] {
            assert_eq!(with(at, byte), Err(14), "{at} {byte}");
        }
        // The kind: 0, 2, 257.
        for (at, byte) in [(4, 0), (4, 2), (5, 1)] {
            assert_eq!(with(at, byte), Err(14), "{at} {byte}");
        }
        // Any other byte is a total's.
        for at in 6..70 {
            let other = with(at, 255).map(|tally| tally.totals());
            assert!(other.is_ok() && other != Ok(TALLY), "{at}");
        }
    }

    /// Length and kind with their highest byte first, and the kind before the
    /// length.
    #[test]
    fn records_in_another_order() {
        for front in [
            [0, 0, 0, 66, 1, 0],
            [66, 0, 0, 0, 0, 1],
            [0, 0, 0, 66, 0, 1],
            [1, 0, 66, 0, 0, 0],
        ] {
            let other = [&front, &by_hand()[6..]].concat();
            assert_eq!(read(&other), Err(14), "{front:?}");
        }
    }

    #[test]
    fn buffers_of_every_length() {
        for room in 0..=80 {
            let mut buffer = vec![b'#'; room];
            let answer = write(&Tally::of_totals(TALLY), &mut buffer);
            if room < 70 {
                assert_eq!(answer, Err(5));
                assert_eq!(buffer, vec![b'#'; room]);
            } else {
                assert_eq!(answer, Ok(70));
                assert_eq!(buffer, [by_hand(), vec![b'#'; room - 70]].concat());
            }
        }
    }
}
