//! Tallies: the cases written by hand, drawn files, sums and records.

use independent::cases::{self, counts, records, tallies};
use independent::tally::{self, Totals, TOTALS};
use independent::{cell, judge, lines, printing, reading, rows, Reading, Tally, LIMIT};

fn of(file: &[u8]) -> Result<Totals, u32> {
    tally::of_file(file).map(|tally| tally.totals())
}

#[test]
fn every_file_has_its_tally() {
    let all = tallies::all();
    assert!(all.len() >= 100, "{}", all.len());
    for case in &all {
        assert_eq!(of(&case.file), case.tally, "{}", case.label);
    }
    for (number, at_least) in [(0, 50), (7, 50), (12, 20)] {
        let so = |case: &&tallies::Case| case.tally.err().unwrap_or(0) == number;
        let count = all.iter().filter(so).count();
        assert!(count >= at_least, "{count} with {number}");
    }
}

/// The cases have labels of their own.
#[test]
fn every_label_is_another() {
    let mut labels: Vec<&str> = tallies::all().iter().map(|case| case.label).collect();
    let before = labels.len();
    labels.sort_unstable();
    labels.dedup();
    assert_eq!(labels.len(), before);
}

#[test]
fn every_sum_is_as_written() {
    let all = records::sums();
    assert!(all.len() >= 50, "{}", all.len());
    for case in all {
        let (a, b) = (Tally::of_totals(case.a), Tally::of_totals(case.b));
        let sum = tally::add(&a, &b).map(|sum| sum.totals());
        assert_eq!(sum, case.sum, "{:?} and {:?}", case.a, case.b);
    }
}

#[test]
fn every_record_is_as_written() {
    let all = records::records();
    assert!(all.len() >= 30, "{}", all.len());
    for case in all {
        let found = tally::read(&case.bytes);
        let totals = found.map(|found| found.totals());
        assert_eq!(totals, case.tally, "{}", case.label);
        if let Ok(found) = found {
            assert_eq!(tally::record(&found), case.bytes, "{}", case.label);
        }
    }
}

/// The name of a counter's column up to its index, and the total that it adds to.
const COUNTERS: [(&str, usize); 3] = [
    ("num_psms_ms_run[", 0),
    ("num_peptides_distinct_ms_run[", 1),
    ("num_peptides_unique_ms_run[", 2),
];
const MISSING: usize = 7;

/// The totals by the calls that read cells and count rows; nothing where a count
/// is below zero.
fn by_cells(file: &[u8]) -> Option<Totals> {
    let mut totals = [0; TOTALS];
    for section in 1..=4 {
        totals[2 + section as usize] = rows(file, section).map_or(0, u64::from);
    }
    for column in (1..).take_while(|column| cell(file, 1, 0, *column).is_ok()) {
        let name = cell(file, 1, 0, column).expect("it is there");
        let counter = (COUNTERS.iter()).find(|(front, _)| name.starts_with(front.as_bytes()));
        let readings = (1..).map_while(|row| reading(file, 1, row, column).ok());
        for (_, _, read) in readings.filter(|_| counter.is_some()) {
            match read {
                Reading::Missing => totals[MISSING] += 1,
                Reading::Whole(count) => totals[counter?.1] += u64::try_from(count).ok()?,
                other => panic!("an accepted file has {other:?}"),
            }
        }
    }
    Some(totals)
}

/// Files by hand of this sort and of others, and drawn ones.
fn files() -> Vec<Vec<u8>> {
    let mut files = counts::files(1_000);
    files.extend(tallies::all().into_iter().map(|case| case.file));
    files.extend(cases::weights::all().into_iter().map(|case| case.file));
    files.extend(cases::judging::all().into_iter().map(|case| case.file));
    files
}

#[test]
fn tallies_are_as_the_cells_read() {
    let mut accepted = 0;
    for file in files() {
        let expected = match judge(&file).expect("within the limit").is_empty() {
            true => by_cells(&file).ok_or(12),
            false => Err(7),
        };
        assert_eq!(of(&file), expected, "b\"{}\"", file.escape_ascii());
        accepted += usize::from(expected.is_ok());
    }
    assert!(accepted > 800, "{accepted}");
}

/// The drawn files are accepted for the most part, and have counts of every
/// sort.
#[test]
fn what_is_drawn() {
    let files = counts::files(1_000);
    let many = |least: usize, such: &dyn Fn(&[u8]) -> bool| {
        let count = files.iter().filter(|file| such(file)).count();
        assert!(count >= least, "{count} of {least}");
    };
    many(600, &|file| of(file).is_ok());
    many(50, &|file| of(file) == Err(7));
    many(50, &|file| of(file) == Err(12));
    for total in 0..TOTALS {
        many(80, &|file| of(file).map_or(false, |all| all[total] > 0));
    }
    // Of the three counters and the missing cells each has some, and other rows.
    let has = |file: &[u8], some: &[usize]| {
        of(file).map_or(false, |all| some.iter().all(|at| all[*at] > 0))
    };
    many(150, &|file| has(file, &[0, 1, 2, MISSING]));
    many(30, &|file| has(file, &[0, 1, 2, 4, 5, 6]));
    let holds = |file: &[u8], text: &str| {
        let with = |line: &[u8]| String::from_utf8_lossy(line).contains(text);
        of(file).is_ok() && lines::lines(file).any(with)
    };
    for text in [
        "\t-0",
        "\t007",
        "\t999999999",
        "search_engine_score[1]_ms_run[",
    ] {
        many(80, &|file| holds(file, text));
    }
    many(20, &|file| holds(file, "ms_run[64]"));
    many(50, &|file| file.ends_with(b"\r\n"));
    many(50, &|file| !file.ends_with(b"\n"));
}

#[test]
fn the_limit_of_tallies() {
    let case = tallies::all()
        .into_iter()
        .find(|case| case.label == "counters and runs mixed")
        .expect("there is one");
    let mut file = case.file;
    file.resize(LIMIT, b'\n');
    assert_eq!(of(&file), Ok([110, 1_000, 6, 2, 0, 0, 0, 2]));
    file.push(b'\n');
    assert_eq!(of(&file), Err(1));
}

/// "Totals are 64-bit": as many counts as a file has room for, each the largest.
#[test]
fn the_largest_counts() {
    let mut file = cases::tabs(
        "MTD→mzTab-version→1.0\nMTD→mzTab-mode→Summary\nMTD→mzTab-type→Identification\n\
         MTD→description→d\nMTD→fixed_mod[1]→[,,f,]\nMTD→variable_mod[1]→[,,v,]\n\
         MTD→protein_search_engine_score[1]→[,,a,]\nMTD→ms_run[1]-location→a\n\
         PRH→accession→description→database→search_engine→num_psms_ms_run[1]\n",
    );
    let row = cases::tabs("PRT→Y→d→b→null→999999999\n");
    let count = (LIMIT - file.len()) / row.len();
    file.extend(row.repeat(count));
    let count = count as u64;
    assert!(count > 600_000, "{count}");
    let sum = 999_999_999 * count;
    assert_eq!(of(&file), Ok([sum, 0, 0, count, 0, 0, 0, 0]));
}

#[test]
fn what_the_table_of_tallies_prints() {
    let case = tallies::all()
        .into_iter()
        .find(|case| case.label == "null in every column")
        .expect("there is one");
    let input = [&case.file[..], b"\x1ePRT\n\x1e\x1e"].concat();
    let zeros = "0 0 0 0 0 0 0 0";
    let record_of_zeros = "420000000100".to_string() + &"0".repeat(128);
    let refused = format!("7 {zeros}\n0 {zeros}\n{record_of_zeros}\n");
    let expected = "0 11 10 9 4 0 0 0 6\n0 22 20 18 8 0 0 0 12\n\
        4200000001000b000000000000000a000000000000000900000000000000\
        04000000000000000000000000000000000000000000000000000000000000000600000000000000\n";
    let printed = printing::tallies(&input);
    assert_eq!(printed, expected.to_string() + &refused + &refused);
    assert_eq!(printing::tallies(b""), "");
}

/// The table of all cases, against what stands in them.
#[test]
fn every_case_is_printed_as_written() {
    let mut input = Vec::new();
    let mut expected = String::new();
    for case in tallies::all() {
        input.extend(&case.file);
        input.push(printing::END);
        expected += &case.printed();
    }
    assert_eq!(printing::tallies(&input), expected);
    assert!(cases::tallies_input().starts_with(&input));
}
