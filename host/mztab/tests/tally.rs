//! The calls of the tally, through the binding: what is counted in a file and what is not, sums, records, refusals and the limits.

use mztab::format::{COUNTS, INDICES, SECTIONS};
use mztab::{raw, rows, tally, DistinctPeptides, Psms, Refusal, Tally, UniquePeptides};
use mztab::{LIMIT, RECORD};
use samples::{Draws, EXPORTS};

const YEAST: &[u8] = include_bytes!("../../../examples/yeast.mztab");
const ACCEPTED: &[u8] = include_bytes!("../../../examples/accepted.mztab");
const EXPONENTS: &[u8] = include_bytes!("../../../examples/exponents.mztab");
const FEE: &[u8] = include_bytes!("../../../examples/fee.mztab");
const TALLY: &[u8] = include_bytes!("../../../examples/tally.mztab");

/// What stands in a total that a call has to write.
const UNWRITTEN: [u64; 8] = [77; 8];

/// The first bytes of a record: the length of the rest, and the kind.
const BEGINNING: [u8; 6] = [66, 0, 0, 0, 1, 0];

/// The metadata of an accepted file of all four sections, with every run.
fn metadata() -> String {
    let mut file = "MTD\tmzTab-version\t1.0\nMTD\tmzTab-mode\tSummary\nMTD\tmzTab-type\tIdentification\nMTD\tdescription\tx\n".to_string();
    for section in ["protein", "peptide", "psm", "smallmolecule"] {
        file += &format!("MTD\t{section}_search_engine_score[1]\t[, , x, ]\n");
    }
    file += "MTD\tfixed_mod[1]\t[, , x, ]\nMTD\tvariable_mod[1]\t[, , x, ]\n";
    for run in 1..=INDICES {
        file += &format!("MTD\tms_run[{run}]-location\tx\n");
    }
    file
}

/// An accepted file whose protein table has these columns and rows beside the required ones.
fn proteins(columns: &str, rows: &[&str]) -> Vec<u8> {
    let mut file = metadata();
    file += &format!("PRH\taccession\tdescription\tdatabase\tsearch_engine\t{columns}\n");
    for row in rows {
        file += &format!("PRT\tP\tnull\tnull\tnull\t{row}\n");
    }
    file.into_bytes()
}

/// The tally of protein rows with these counts.
fn counted(counts: [u64; 3], protein_rows: u64, missing: u64) -> Tally {
    let [psms, distinct, unique] = counts;
    Tally {
        psms: Psms(psms),
        distinct: DistinctPeptides(distinct),
        unique: UniquePeptides(unique),
        rows: [protein_rows, 0, 0, 0],
        missing,
    }
}

/// A tally with this at one of its totals and 0 at the others, by way of its record.
fn at_total(k: usize, total: u64) -> Tally {
    let mut totals = [0; 8];
    totals[k] = total;
    from_totals(totals)
}

fn from_totals(totals: [u64; 8]) -> Tally {
    let bytes = totals.iter().flat_map(|total| total.to_le_bytes());
    let record: Vec<u8> = BEGINNING.into_iter().chain(bytes).collect();
    Tally::from_record(&record).unwrap()
}

#[test]
fn the_examples() {
    assert_eq!(tally(ACCEPTED), Ok(counted([4, 0, 0], 2, 1)));
    assert_eq!(tally(FEE), Ok(counted([0; 3], 4, 0)));
    assert_eq!(tally(TALLY), Ok(counted([1_637, 60, 20], 3, 1)));
    let expected = Tally {
        rows: [2, 2, 0, 0],
        ..Tally::default()
    };
    assert_eq!(tally(EXPONENTS), Ok(expected));
    assert_eq!(tally(YEAST), Err(Refusal::NotAccepted));
}

#[test]
fn counters_by_hand() {
    // The columns of a counter need not stand side by side, nor in the order of their runs.
    let columns = "num_psms_ms_run[2]\tnum_peptides_unique_ms_run[1]\tnum_psms_ms_run[1]\tnum_peptides_distinct_ms_run[64]";
    let rows = [
        "1\t20\t300\t4000",
        "5\tnull\t600\t7000",
        "null\t80\t900\tnull",
    ];
    let expected = counted([1 + 300 + 5 + 600 + 900, 11_000, 100], 3, 3);
    assert_eq!(tally(&proteins(columns, &rows)), Ok(expected));
    assert_eq!(tally(&proteins(columns, &[])), Ok(Tally::default()));
    let nothing = ["null\tnull\tnull\tnull"];
    let expected = counted([0; 3], 1, 4);
    assert_eq!(tally(&proteins(columns, &nothing)), Ok(expected));
}

#[test]
fn digits_of_every_number() {
    for (cell, count) in [
        ("0", 0),
        ("000000000", 0),
        ("-0", 0),
        ("-000", 0),
        ("-000000000", 0),
        ("7", 7),
        ("000000007", 7),
        ("10", 10),
        ("123456789", 123_456_789),
        ("999999999", 999_999_999),
    ] {
        let file = proteins("num_peptides_unique_ms_run[1]", &[cell, "1"]);
        assert_eq!(tally(&file), Ok(counted([0, 0, count + 1], 2, 0)), "{cell}");
    }
}

#[test]
fn every_run_counts() {
    for (k, name) in COUNTS.iter().enumerate() {
        let columns: Vec<String> = (1..=INDICES).map(|run| format!("{name}[{run}]")).collect();
        let row: Vec<String> = (1..=INDICES).map(|run| (run * run).to_string()).collect();
        let squares: u64 = (1..=u64::from(INDICES)).map(|run| run * run).sum();
        let mut expected = [0; 3];
        expected[k] = 2 * squares;
        let row = row.join("\t");
        let file = proteins(&columns.join("\t"), &[&row, &row]);
        assert_eq!(tally(&file), Ok(counted(expected, 2, 0)), "{name}");
    }
}

#[test]
fn columns_that_are_not_counted() {
    // A name of the one who writes the file, numbers of another column, and none of the three.
    let columns = "taxid\topt_global_num_psms_ms_run[1]\topt_num_psms_ms_run[1]";
    let file = proteins(columns, &["7\t5\t9", "-7\tnull\tnull", "null\tnull\t1"]);
    assert_eq!(tally(&file), Ok(counted([0; 3], 3, 0)));
    // Of a column that is not there no cell is missing.
    let file = proteins("num_psms_ms_run[3]", &["null", "2"]);
    assert_eq!(tally(&file), Ok(counted([2, 0, 0], 2, 1)));
}

#[test]
fn rows_of_each_section() {
    let mut file = metadata();
    let tables: [(&str, usize); 4] = [
        ("accession\tdescription\tdatabase\tsearch_engine", 3),
        ("sequence\taccession\tcharge\tmass_to_charge", 5),
        ("sequence\tPSM_ID\taccession\tcharge\tspectra_ref", 7),
        ("identifier\tcharge", 2),
    ];
    for (section, (columns, count)) in SECTIONS.iter().zip(tables) {
        let [header, row] = [section.header, section.row].map(String::from_utf8_lossy);
        let width = columns.split('\t').count();
        let kept = "a\tb"; // where `null` may not stand
        let cells = format!("{kept}{}", "\tnull".repeat(width - 2));
        let cells = if section.number == 4 { "a\t1" } else { &cells };
        file += &format!("{header}\t{columns}\n");
        file += &format!("{row}\t{cells}\nCOM\t{row}\n\n").repeat(count);
    }
    let expected = Tally {
        rows: [3, 5, 7, 2],
        ..Tally::default()
    };
    assert_eq!(tally(file.as_bytes()), Ok(expected));
    let found = [1, 2, 3, 4].map(|section| u64::from(rows(file.as_bytes(), section).unwrap()));
    assert_eq!(found, expected.rows);
    let ends = file.replace('\n', "\r\n");
    assert_eq!(tally(ends.as_bytes()), Ok(expected));
    assert_eq!(tally(file.trim_end().as_bytes()), Ok(expected));
}

/// Tables of drawn counts, some of them missing: their sums are known before the file is written.
#[test]
fn drawn_tables() {
    let mut draws = Draws::new(202_609);
    for _ in 0..200 {
        let mut columns = Vec::new();
        for (k, name) in COUNTS.iter().enumerate() {
            let run = draws.below(INDICES as usize) + 1;
            columns.push((k, format!("{name}[{run}]")));
            columns.push((k, format!("{name}[{}]", run % INDICES as usize + 1)));
        }
        // Any order will do.
        for at in (1..columns.len()).rev() {
            columns.swap(at, draws.below(at + 1));
        }
        let names: Vec<&str> = columns.iter().map(|(_, name)| name.as_str()).collect();
        let (mut sums, mut missing) = ([0; 3], 0);
        let mut table = Vec::new();
        for _ in 0..draws.below(20) {
            let cells = columns.iter().map(|(k, _)| {
                if draws.once_in(4) {
                    missing += 1;
                    return "null".to_string();
                }
                let count = draws.below(1_000_000_000) as u64;
                sums[*k] += count;
                count.to_string()
            });
            table.push(cells.collect::<Vec<_>>().join("\t"));
        }
        let rows: Vec<&str> = table.iter().map(String::as_str).collect();
        let expected = counted(sums, rows.len() as u64, missing);
        assert_eq!(tally(&proteins(&names.join("\t"), &rows)), Ok(expected));
    }
}

#[test]
fn files_as_programs_export_them() {
    let mut found = 0;
    for export in EXPORTS {
        let answer = tally(export.file);
        if export.judged.trim() != "OK" {
            assert_eq!(answer, Err(Refusal::NotAccepted));
            continue;
        }
        let sections = [1, 2, 3, 4];
        let expected = sections.map(|section| u64::from(rows(export.file, section).unwrap()));
        assert_eq!(answer.unwrap().rows, expected);
        found += 1;
    }
    assert_eq!(found, 2);
}

#[test]
fn refusals_of_a_file_in_their_order() {
    let below = proteins("num_psms_ms_run[1]", &["4", "-1"]);
    let broken = [&below[..], b"x\n"].concat();
    let long = |file: &[u8]| [file, &vec![b'\n'; LIMIT]].concat();
    for (file, number) in [
        (long(&below), 1),
        (long(&broken), 1),
        (long(ACCEPTED), 1),
        (broken, 7),
        (YEAST.to_vec(), 7),
        (Vec::new(), 7),
        (below, 12),
    ] {
        let mut totals = UNWRITTEN;
        assert_eq!(raw::tally(&file, &mut totals), number);
        assert_eq!(totals, [0; 8]);
    }
    assert_eq!(tally(&vec![b'\n'; LIMIT + 1]), Err(Refusal::TooLong));
}

#[test]
fn counts_below_zero() {
    for name in COUNTS {
        let columns = format!("taxid\t{name}[1]\t{name}[64]");
        for cell in ["-1", "-007", "-000000001", "-999999999", "-10"] {
            for row in [format!("1\t{cell}\t4"), format!("1\t4\t{cell}")] {
                let file = proteins(&columns, &["1\t2\t3", &row, "1\tnull\t5"]);
                assert_eq!(tally(&file), Err(Refusal::BelowZero), "{name}: {row}");
            }
            // In a column that is not counted any number may stand.
            let row = format!("{cell}\t-0\t4");
            assert!(tally(&proteins(&columns, &[&row])).is_ok(), "{row}");
        }
    }
}

#[test]
fn either_side_of_the_limit() {
    let file = proteins("num_psms_ms_run[1]", &["4", "null"]);
    let longest = [&file[..], &vec![b'\n'; LIMIT - file.len()]].concat();
    assert_eq!(tally(&longest), Ok(counted([4, 0, 0], 2, 1)));
    let longer = [&longest[..], b"\n"].concat();
    assert_eq!(tally(&longer), Err(Refusal::TooLong));
}

/// As many counts as a file within the limit has room for, each as large as a count can be.
#[test]
fn the_largest_counts() {
    let columns: Vec<String> = (1..=INDICES)
        .map(|run| format!("num_psms_ms_run[{run}]"))
        .collect();
    let mut file = proteins(&columns.join("\t"), &[]);
    let row = format!("PRT\tP\ta\ta\tnull{}\n", "\t999999999".repeat(64));
    let count = (LIMIT - file.len()) / row.len();
    file.extend(row.repeat(count).into_bytes());
    let rows = count as u64;
    let expected = counted([rows * 64 * 999_999_999, 0, 0], rows, 0);
    assert_eq!(tally(&file), Ok(expected));
}

#[test]
fn sums() {
    let a = from_totals([1, 2, 3, 4, 5, 6, 7, 8]);
    let b = from_totals([10, 20, 30, 40, 50, 60, 70, 80]);
    let sum = from_totals([11, 22, 33, 44, 55, 66, 77, 88]);
    assert_eq!((a.add(b), b.add(a)), (Ok(sum), Ok(sum)));
    assert_eq!(a.add(Tally::default()), Ok(a));
    assert_eq!(a.add(a), Ok(from_totals([2, 4, 6, 8, 10, 12, 14, 16])));
    let both = tally(ACCEPTED).unwrap().add(tally(EXPONENTS).unwrap());
    let expected = Tally {
        rows: [4, 2, 0, 0],
        ..counted([4, 0, 0], 0, 1)
    };
    assert_eq!(both, Ok(expected));
}

#[test]
fn sums_in_any_order() {
    let mut draws = Draws::new(9);
    for _ in 0..500 {
        let mut drawn = || from_totals([0; 8].map(|_: u64| draws.bits() >> 2));
        let [a, b, c] = [drawn(), drawn(), drawn()];
        let left = a.add(b).unwrap().add(c);
        assert_eq!(left, b.add(c).unwrap().add(a));
        assert_eq!(left, c.add(a).unwrap().add(b));
        let totals = left.unwrap().totals();
        for (k, total) in totals.iter().enumerate() {
            let parts = [a, b, c].map(|tally| tally.totals()[k]);
            assert_eq!(*total, parts.iter().sum::<u64>());
        }
    }
}

#[test]
fn sums_past_64_bits() {
    for k in 0..8 {
        for (a, b, passes) in [
            (u64::MAX, 0, false),
            (u64::MAX - 1, 1, false),
            (1 << 63, (1 << 63) - 1, false),
            (u64::MAX, 1, true),
            (1 << 63, 1 << 63, true),
            (u64::MAX, u64::MAX, true),
        ] {
            let [a, b] = [a, b].map(|total| at_total(k, total));
            for (one, other) in [(a, b), (b, a)] {
                let mut sum = UNWRITTEN;
                let number = raw::tally_add(&one.totals(), &other.totals(), &mut sum);
                assert_eq!(number, if passes { 13 } else { 0 });
                if passes {
                    assert_eq!(sum, [0; 8]);
                    assert_eq!(one.add(other), Err(Refusal::Past64Bits));
                } else {
                    assert_eq!(one.add(other).unwrap().totals(), sum);
                }
            }
        }
    }
    // One that passes is enough, whatever the others are.
    let a = from_totals([1, 2, 3, 4, 5, 6, 7, u64::MAX]);
    assert_eq!(a.add(at_total(7, 1)), Err(Refusal::Past64Bits));
}

#[test]
fn a_record_by_hand() {
    let record = from_totals([1, 256, 0x0102_0304_0506_0708, 0, u64::MAX, 3, 4, 5]).to_record();
    let mut expected = BEGINNING.to_vec();
    expected.extend([1, 0, 0, 0, 0, 0, 0, 0]);
    expected.extend([0, 1, 0, 0, 0, 0, 0, 0]);
    expected.extend([8, 7, 6, 5, 4, 3, 2, 1]);
    expected.extend([0; 8]);
    expected.extend([255; 8]);
    for last in [3, 4, 5] {
        expected.extend([last, 0, 0, 0, 0, 0, 0, 0]);
    }
    assert_eq!(record.to_vec(), expected);
    assert_eq!(expected.len(), RECORD);
}

#[test]
fn records_are_read_as_they_were_written() {
    let mut draws = Draws::new(70);
    for _ in 0..500 {
        let totals = [0; 8].map(|_: u64| draws.bits() >> draws.below(64));
        let tally = from_totals(totals);
        assert_eq!(tally.totals(), totals);
        assert_eq!(Tally::from_record(&tally.to_record()), Ok(tally));
    }
    for tally in [Tally::default(), from_totals([u64::MAX; 8])] {
        assert_eq!(Tally::from_record(&tally.to_record()), Ok(tally));
    }
}

#[test]
fn buffers_of_every_length() {
    let tally = from_totals([9; 8]);
    let record = tally.to_record();
    for length in 0..RECORD + 10 {
        let mut buffer = vec![b'-'; length];
        let written = tally.write_into(&mut buffer);
        if length < RECORD {
            assert_eq!(written, Err(Refusal::NoRoom));
            assert_eq!(raw::tally_write(&tally.totals(), &mut buffer), (5, 0));
            assert_eq!(buffer, vec![b'-'; length]);
        } else {
            assert_eq!(written, Ok(RECORD));
            assert_eq!(buffer[..RECORD], record);
            assert!(buffer[RECORD..].iter().all(|byte| *byte == b'-'));
        }
    }
}

/// Bytes that are no record, and that a refused call writes zeros.
fn refuses(bytes: &[u8]) {
    let mut totals = UNWRITTEN;
    assert_eq!(raw::tally_read(bytes, &mut totals), 14, "{bytes:?}");
    assert_eq!(totals, [0; 8]);
    assert_eq!(Tally::from_record(bytes), Err(Refusal::NotARecord));
}

#[test]
fn bytes_that_are_no_record() {
    let record = from_totals([1, 2, 3, 4, 5, 6, 7, 8]).to_record();
    for length in 0..RECORD {
        refuses(&record[..length]);
    }
    for more in 1..9 {
        refuses(&[&record[..], &vec![0; more]].concat());
    }
    // The length and the kind have to be right in every byte; whatever follows are totals.
    for at in 0..RECORD {
        for flip in [1, 2, 128, 255] {
            let mut other = record;
            other[at] ^= flip;
            if at < BEGINNING.len() {
                refuses(&other);
            } else {
                let totals = Tally::from_record(&other).unwrap().totals();
                let differ = |k: &usize| totals[*k] != *k as u64 + 1;
                let differing: Vec<usize> = (0..8).filter(differ).collect();
                assert_eq!(differing, [(at - BEGINNING.len()) / 8]);
            }
        }
    }
    refuses(ACCEPTED);
    refuses(&[0; RECORD]);
}

#[test]
fn many_calls_at_once() {
    let threads: Vec<_> = (0..8)
        .map(|_| std::thread::spawn(|| [ACCEPTED, YEAST, FEE].map(tally)))
        .collect();
    for thread in threads {
        let found = thread.join().unwrap();
        assert_eq!(found[0], Ok(counted([4, 0, 0], 2, 1)));
        assert_eq!(found[1], Err(Refusal::NotAccepted));
        assert_eq!(found[2], Ok(counted([0; 3], 4, 0)));
    }
}
