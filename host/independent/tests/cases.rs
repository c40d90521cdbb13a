//! The cases written by hand against what the library says.

use std::collections::BTreeSet;

use independent::cases::{self, cells, fee, judging, kinds, names, weights as weighing};
use independent::{add, cell, cell_or, judge, printing, read, reading, rows, split, weights};
use independent::{demands, Break, Reading, LIMIT};

fn show(file: &[u8]) -> String {
    String::from_utf8_lossy(file).replace('\t', "→")
}

fn check(case: &judging::Case) {
    let found = judge(&case.file).expect("within the limit");
    assert_eq!(found, case.breaks, "{}:\n{}", case.label, show(&case.file));
}

/// All cases whose label begins so.
fn check_all(beginning: &str, at_least: usize) {
    let all = judging::all();
    let some: Vec<_> = all
        .iter()
        .filter(|c| c.label.starts_with(beginning))
        .collect();
    assert!(some.len() >= at_least, "{}", some.len());
    some.into_iter().for_each(check);
}

macro_rules! rules {
    ($($name:ident $beginning:literal $at_least:literal;)*) => {
        $(#[test] fn $name() { check_all($beginning, $at_least); })*
    };
}

// Every rule on either side, and every "stops" that it takes part in.
rules! {
    rule_1 "rule 1:" 10;
    rule_2 "rule 2:" 4;
    rule_3_and_3_stops_5_to_8 "rule 3:" 11;
    rule_4 "rule 4:" 8;
    rule_5_and_5_stops_6_to_8 "rule 5:" 11;
    rule_6 "rule 6:" 9;
    rule_7_and_7_stops_8 "rule 7:" 30;
    rule_8 "rule 8:" 14;
    rule_9 "rule 9:" 9;
    rule_10 "rule 10:" 7;
    rule_11_and_11_stops_12_to_16_and_18_to_20 "rule 11:" 12;
    rule_12 "rule 12:" 12;
    rule_13 "rule 13:" 10;
    rule_14 "rule 14:" 8;
    rule_15 "rule 15:" 11;
    rule_16 "rule 16:" 40;
    rule_17_and_17_stops_18_to_20 "rule 17:" 11;
    rule_18_and_18_stops_19_and_20 "rule 18:" 8;
    rule_19_and_19_stops_20_at_its_cell "rule 19:" 8;
    rule_20 "rule 20:" 200;
    rule_21 "rule 21:" 13;
    rule_22 "rule 22:" 60;
    rule_23 "rule 23:" 35;
    rule_24 "rule 24:" 25;
    rules_23_and_24_with_the_others "rules 23 and 24:" 50;
    where_rule_6_was_first "first of rule 6:" 30;
    where_rule_9_was_first "first of rule 9:" 14;
    where_rule_13_was_first "first of rule 13:" 20;
}

/// The fields of rule 22 are known keys, and their cells hundreds in order.
#[test]
fn the_fields_of_rule_22() {
    let keys: Vec<&str> = independent::names::keys().map(|(key, _)| key).collect();
    for (k, field) in demands::FIELDS.iter().enumerate() {
        assert!(keys.contains(&field.key), "{}", field.key);
        assert_eq!(field.cell as usize, 100 * (k + 1), "{}", field.key);
        let (at, index) = demands::at_cell(field.cell + 64).expect("a field");
        assert_eq!((at.key, index), (field.key, 64));
    }
    assert!(demands::at_cell(99).is_none() && demands::at_cell(1600).is_none());
}

/// Each field of rule 22 is missing in some case, in each mode and type that
/// asks for it.
#[test]
fn every_field_is_missing_somewhere() {
    let mut missing = BTreeSet::new();
    for case in judging::all() {
        let sort = demands::sort_of(&case.file).map(|sort| (sort.mode, sort.kind));
        for at in case.breaks {
            if at.rule == 22 {
                missing.insert(format!("{} {sort:?}", at.cell / 100));
            }
        }
    }
    // 400 in two combinations, 1100 in one, the scores and modifications in
    // four, the other seven in two.
    assert_eq!(missing.len(), 2 + 1 + 6 * 4 + 7 * 2, "{missing:?}");
}

#[test]
fn every_file_has_its_breaks() {
    let all = judging::all();
    assert!(all.len() >= 120, "{}", all.len());
    all.iter().for_each(check);
}

#[test]
fn every_rule_is_broken_and_kept_somewhere() {
    let all = judging::all();
    for rule in 1..=24 {
        let broken = all
            .iter()
            .filter(|c| c.breaks.iter().any(|b| b.rule == rule))
            .count();
        assert!(broken >= 3, "rule {rule}");
    }
    assert!(all.iter().filter(|c| c.breaks.is_empty()).count() >= 60);
}

#[test]
fn every_question_has_its_answer() {
    let mut expected = Vec::new();
    let mut questions = 0;
    for case in cells::all() {
        for (_, line) in case.questions {
            questions += 1;
            expected.extend(line);
            expected.push(b'\n');
        }
        expected.extend(b".\n");
    }
    assert!(questions >= 60 && cells::all().len() >= 20, "{questions}");
    let printed = printing::cells(&cases::cells_input());
    assert_eq!(show(&printed), show(&expected));
    assert_eq!(printed, expected);
}

#[test]
fn every_value_has_its_kinds() {
    assert!(kinds::all().len() >= 700);
    for (value, line) in kinds::all() {
        assert_eq!(printing::kinds_of(&value), line, "{}", show(&value));
    }
}

#[test]
fn every_name_is_known_as_the_paper_says() {
    for (name, line) in names::EVERY {
        assert_eq!(printing::names_of(name.as_bytes()), *line, "{name}");
    }
    for name in names::NEAR {
        assert_eq!(
            printing::names_of(name.as_bytes()),
            names::UNKNOWN,
            "{name}"
        );
    }
}

/// The two writings-out of the lists have the same names, no more, no less.
#[test]
fn the_lists_are_the_same() {
    let mut listed: Vec<String> = Vec::new();
    for (pattern, _) in independent::names::keys() {
        listed.push(pattern.replacen("[n]", "[3]", 1).replacen("[n]", "[5]", 1));
    }
    for (_, pattern, _) in independent::names::COLUMNS {
        listed.push(pattern.replacen("[n]", "[3]", 1).replacen("[n]", "[5]", 1));
    }
    listed.sort();
    listed.dedup();
    let mut written: Vec<String> = names::EVERY
        .iter()
        .map(|(name, _)| name.to_string())
        .filter(|name| !name.starts_with("opt_"))
        .collect();
    written.sort();
    assert_eq!(listed, written);
}

/// A variant is known only where its indices are such, its bytes the same.
#[test]
fn the_variants_of_names() {
    let unknown = |name: &str| printing::names_of(name.as_bytes()) == names::UNKNOWN;
    for (name, line) in names::EVERY {
        if !name.contains("[3]") {
            continue;
        }
        if name.starts_with("opt_") {
            continue;
        }
        for good in ["[1]", "[9]", "[10]", "[60]", "[63]", "[64]"] {
            let other = name.replacen("[3]", good, 1);
            assert!(!unknown(&other), "{other}");
            let number = good.trim_matches(['[', ']']);
            let expected = line
                .replace(" 3 ", &format!(" {number} "))
                .replace(" S 3", &format!(" S {number}"));
            let expected = ["A", "V", "R"].iter().fold(expected, |text, family| {
                text.replace(&format!("; {family} 3"), &format!("; {family} {number}"))
            });
            assert_eq!(printing::names_of(other.as_bytes()), expected, "{other}");
        }
        for bad in [
            "[0]",
            "[00]",
            "[01]",
            "[65]",
            "[99]",
            "[100]",
            "[064]",
            "[]",
            "[ ]",
            "[ 1]",
            "[1 ]",
            "[a]",
            "[-1]",
            "[+1]",
            "1]",
            "[1",
            "1",
            "[1][1]",
            "[4294967297]",
        ] {
            let other = name.replacen("[3]", bad, 1);
            assert!(unknown(&other), "{other}");
        }
    }
    assert!(names::all().len() > 5_000, "{}", names::all().len());
}

#[test]
fn doubles_of_decimals() {
    let cases: [(&str, f64); 33] = [
        ("0.1", 0.1),
        ("-0.1", -0.1),
        ("0.0", 0.0),
        ("-0.0", -0.0),
        ("-0000000000", -0.0),
        ("1234567890", 1_234_567_890.0),
        ("999999999999999", 999_999_999_999_999.0),
        ("0.00000000000001", 1e-14),
        ("12345678901234.5", 12_345_678_901_234.5),
        ("3.24159265358979", 3.241_592_653_589_79),
        ("-1123.2", -1123.2),
        ("99999.9999999999", 99_999.999_999_999_9),
        ("1.2E-5", 1.2e-5),
        ("3e2", 300.0),
        ("1E0", 1.0),
        ("1E000", 1.0),
        ("-1.5e+003", -1500.0),
        ("3.2e-05", 3.2e-5),
        ("6.229394e06", 6_229_394.0),
        ("-0E5", -0.0),
        ("-0.00e+02", -0.0),
        ("-0e-22", -0.0),
        ("0E5", 0.0),
        ("0e-22", 0.0),
        ("1E22", 1e22),
        ("1.0E23", 1e23),
        ("-1E-22", -1e-22),
        ("1.0E-21", 1e-21),
        ("123456789012345E22", 123_456_789_012_345e22),
        ("123456789012345E-22", 123_456_789_012_345e-22),
        ("999999999999999E22", 999_999_999_999_999e22),
        ("-999999999999999e-22", -999_999_999_999_999e-22),
        ("12345678901234.5e23", 12_345_678_901_234.5e23),
    ];
    for (value, expected) in cases {
        match read(value.as_bytes()) {
            // One division or multiplication of exact numbers is the nearest
            // double, as the compiler's own reading of the same literal is.
            Reading::Decimal { double, .. } => {
                assert_eq!(double.to_bits(), expected.to_bits(), "{value}")
            }
            other => panic!("{value} {other:?}"),
        }
    }
    assert_eq!(
        printing::doubles(b"0.5\n-0.0\n-0E5\n3e2\n7\nnull\n\nINF\n1E23"),
        "decimal 5 -1 3fe0000000000000\n\
         decimal 0 -1 8000000000000000\ndecimal 0 5 8000000000000000\n\
         decimal 3 2 4072c00000000000\nwhole 7\nmissing\ntext\ninfinite\nlong\n"
    );
}

#[test]
fn the_double_is_the_nearest() {
    // A plain pseudo-random walk over numerals and places.
    let mut state: u64 = 88_172_645_463_325_252;
    for _ in 0..100_000 {
        state ^= state << 13;
        state ^= state >> 7;
        state ^= state << 17;
        let digits = 2 + (state >> 60) as u32 % 14;
        let numerals = (state >> 4) % 10u64.pow(digits);
        let places = 1 + (state >> 40) as usize % (digits as usize - 1);
        let text = format!("{numerals:0width$}", width = digits as usize);
        let text = format!(
            "{}.{}",
            &text[..text.len() - places],
            &text[text.len() - places..]
        );
        match read(text.as_bytes()) {
            Reading::Decimal {
                numerals: n,
                power,
                double,
            } => {
                assert_eq!((n as u64, power), (numerals, -(places as i32)), "{text}");
                assert_eq!(
                    double.to_bits(),
                    text.parse::<f64>().unwrap().to_bits(),
                    "{text}"
                );
            }
            other => panic!("{text} {other:?}"),
        }
    }
}

/// "the double is one division or one multiplication by an exact power of ten":
/// the operation itself, and the reader of the standard library, beside the exact
/// way by which `read` finds it.
#[test]
fn one_division_or_multiplication() {
    let mut state: u64 = 1_181_783_497_276_652_981;
    let mut mantissas: Vec<u64> = vec![0, 1, 2, 3, 5, 7, 10, 999_999_999_999_999];
    mantissas.extend((0..50).map(|k| 1 << k));
    for _ in 0..5_000 {
        state ^= state << 13;
        state ^= state >> 7;
        state ^= state << 17;
        mantissas.push((state >> 4) % 10u64.pow(1 + (state >> 60) as u32 % 15));
    }
    for power in -22..=22_i32 {
        let ten_to_the_power = 10u128.pow(power.unsigned_abs());
        let held = ten_to_the_power as f64;
        assert_eq!(held as u128, ten_to_the_power);
        for numerals in &mantissas {
            let held_numerals = *numerals as f64;
            assert_eq!(held_numerals as u64, *numerals);
            let expected = if power < 0 {
                held_numerals / held
            } else {
                held_numerals * held
            };
            double_is(*numerals, power, expected);
        }
    }
}

/// The reading of the numerals with that exponent, and of its negative.
fn double_is(numerals: u64, power: i32, expected: f64) {
    for (minus, expected) in [("", expected), ("-", -expected)] {
        let text = format!("{minus}{numerals}E{power}");
        let parsed: f64 = text.parse().unwrap();
        match read(text.as_bytes()) {
            Reading::Decimal {
                numerals: n,
                power: p,
                double,
            } => {
                assert_eq!((n.unsigned_abs(), p), (numerals, power), "{text}");
                assert_eq!(n < 0, !minus.is_empty() && numerals > 0, "{text}");
                assert_eq!(double.to_bits(), expected.to_bits(), "{text}");
                assert_eq!(double.to_bits(), parsed.to_bits(), "{text}");
            }
            other => panic!("{text} {other:?}"),
        }
    }
}

/// The exponent and the dot are two ways to say one power.
#[test]
fn the_power_is_the_exponent_less_the_places() {
    for places in 1..=14_i32 {
        let mantissa = format!("7.{}", "3".repeat(places as usize));
        let numerals: i64 = mantissa.replace('.', "").parse().unwrap();
        for exponent in -999..=999_i32 {
            let power = exponent - places;
            let text = format!("{mantissa}e{exponent:+04}");
            match read(text.as_bytes()) {
                Reading::Decimal {
                    numerals: n,
                    power: p,
                    ..
                } => {
                    assert_eq!((n, p), (numerals, power), "{text}");
                    assert!(power.abs() <= 22, "{text}");
                }
                Reading::LongDecimal => assert!(power.abs() > 22, "{text}"),
                other => panic!("{text} {other:?}"),
            }
        }
    }
}

/// Where a walk over the bytes of a decimal stands.
#[derive(Clone, Copy, PartialEq)]
enum Walk {
    Start,
    Minus,
    Digits,
    Dot,
    Places,
    Letter,
    Sign,
    /// So many digits of the exponent.
    Exponent(u32),
    Broken,
}

fn step(walk: Walk, byte: u8) -> Walk {
    match (walk, byte) {
        (Walk::Start, b'-') => Walk::Minus,
        (Walk::Start | Walk::Minus | Walk::Digits, b'0'..=b'9') => Walk::Digits,
        (Walk::Digits, b'.') => Walk::Dot,
        (Walk::Dot | Walk::Places, b'0'..=b'9') => Walk::Places,
        (Walk::Digits | Walk::Places, b'E' | b'e') => Walk::Letter,
        (Walk::Letter, b'+' | b'-') => Walk::Sign,
        (Walk::Letter | Walk::Sign, b'0'..=b'9') => Walk::Exponent(1),
        (Walk::Exponent(count @ 1..=2), b'0'..=b'9') => Walk::Exponent(count + 1),
        _ => Walk::Broken,
    }
}

/// Every text of up to seven bytes that have a meaning in a decimal, and one
/// that has none, against a second writing of the same words.
#[test]
fn every_short_text_is_a_decimal_or_not() {
    const BYTES: &[u8] = b"07-+.Ee/";
    let mut decimals = 0;
    for length in 0..=7 {
        for number in 0..BYTES.len().pow(length) {
            let text: Vec<u8> = (0..length)
                .map(|k| BYTES[number / BYTES.len().pow(k) % BYTES.len()])
                .collect();
            let end = text.iter().fold(Walk::Start, |walk, b| step(walk, *b));
            let expected = matches!(end, Walk::Digits | Walk::Places | Walk::Exponent(_));
            decimals += u32::from(expected);
            assert_eq!(
                independent::kinds::decimal(&text),
                expected,
                "{}",
                show(&text)
            );
            assert_eq!(read(&text) != Reading::Text, expected, "{}", show(&text));
        }
    }
    assert_eq!(decimals, 3_924);
}

#[test]
fn the_limit() {
    let mut file = vec![b'x'; LIMIT];
    assert_eq!(judge(&file).map(|b| b.len()), Some(6));
    assert_eq!(cell(&file, 1, 0, 1), Err(3));
    file.push(b'x');
    assert_eq!(judge(&file), None);
    assert_eq!(cell(&file, 1, 1, 1), Err(1));
    assert_eq!(cell(&file, 0, 1, 0), Err(1));
    assert_eq!(cell_or(&file, 5, 1, 1, b"-"), Err(1));
    assert_eq!(reading(&file, 1, 1, 1), Err(1));
    assert_eq!(printing::verdict(&file), "TOO LONG\n");
}

/// Every case, one by one, and the table of all of them.
#[test]
fn every_fee_is_split_as_written() {
    let mut splits = 0;
    let mut expected = String::new();
    for case in fee::all() {
        match &case {
            fee::Case::Add { a, b, sum } => assert_eq!(add(*a, *b), *sum, "{}", case.line()),
            fee::Case::Split {
                fee,
                weights,
                places,
                shares,
            } => {
                splits += 1;
                assert_eq!(split(*fee, weights, *places), *shares, "{}", case.line());
            }
        }
        expected += &case.printed();
        expected += "\n";
    }
    assert!(splits >= 150, "{splits}");
    assert_eq!(printing::fees(&cases::fees_input()), expected);
}

#[test]
fn what_the_table_of_fees_prints() {
    let input = b"add 1 2\nadd 100000000000 1\nsplit 100 3 1 1 1\nsplit 5 0\nsplit 5 2 4294967295 0\nsplit 0 1 0";
    let printed = "0 3\n16 0\n0 34 33 33\n15\n16 7 7\n17 7\n";
    assert_eq!(printing::fees(input), printed);
}

/// "Shares add up to the fee, and each lies less than one cent from the exact
/// proportion"; and no cent is given past a larger remainder.
#[test]
fn what_is_said_of_shares() {
    let mut state: u64 = 2_685_821_657_736_338_717;
    let mut next = move || {
        state ^= state << 13;
        state ^= state >> 7;
        state ^= state << 17;
        state >> 8
    };
    for _ in 0..20_000 {
        let count = 1 + next() % 64;
        let below = [2, 5, 100, 16_777_216][next() as usize % 4];
        let mut list: Vec<u32> = (0..count).map(|_| (next() % below) as u32).collect();
        list[next() as usize % count as usize] = 1 + (next() % (below - 1)) as u32;
        let fee = next() % [10, 1_000, 100_000_000_001][next() as usize % 3];
        let shares = split(fee, &list, list.len()).expect("nothing is wrong");
        assert_eq!(shares.iter().sum::<u64>(), fee);
        let total: i128 = list.iter().map(|w| i128::from(*w)).sum();
        // What each was given beyond the exact proportion, in parts of the total.
        let beyond: Vec<i128> = list
            .iter()
            .zip(&shares)
            .map(|(w, share)| i128::from(*share) * total - i128::from(fee) * i128::from(*w))
            .collect();
        assert!(beyond.iter().all(|b| b.abs() < total), "{fee} {list:?}");
        for (a, got) in beyond.iter().enumerate() {
            for (b, lost) in beyond.iter().enumerate() {
                // Place a was rounded up and place b down.
                if *got > 0 && *lost <= 0 {
                    let (up, down) = (total - got, -lost);
                    assert!(up > down || (up == down && a < b), "{fee} {list:?}");
                }
            }
        }
    }
}

#[test]
fn every_file_has_its_rows_and_weights() {
    let all = weighing::all();
    assert!(all.len() >= 60, "{}", all.len());
    let mut expected = String::new();
    for case in &all {
        for (section, count) in (1..).zip(case.rows) {
            assert_eq!(rows(&case.file, section), Ok(count), "{}", case.label);
        }
        let found = weights(&case.file, 64);
        assert_eq!(found, case.weights.clone().ok_or(7), "{}", case.label);
        expected += &case.printed();
    }
    assert_eq!(printing::weights(&cases::weights_input()), expected);
}

#[test]
fn what_the_table_of_weights_prints() {
    let printed = printing::weights(b"PRT\n\x1e");
    let nines = |places: usize| " 9".repeat(places);
    let expected = format!(
        "rows 2 0 0 1 0 0 0 0 0 0 2 0\nweights 7{}\nweights 7{}\nweights 7{}\n.\n",
        nines(64),
        nines(63),
        nines(65)
    );
    assert_eq!(printed, expected);
    assert_eq!(printing::weights(b""), "");
}

/// The weights are the numbers of rows that have a reading other than missing.
#[test]
fn weights_are_as_the_cells_read() {
    for case in weighing::all() {
        let found = match weights(&case.file, 64) {
            Ok(found) => found,
            Err(_) => continue,
        };
        let mut expected = vec![0; 64];
        for column in 1..256 {
            let name = match cell(&case.file, 1, 0, column) {
                Ok(name) => String::from_utf8_lossy(name).to_string(),
                Err(_) => break,
            };
            let index = name
                .strip_prefix("protein_abundance_study_variable[")
                .and_then(|rest| rest.strip_suffix(']'));
            if let Some(index) = index {
                let place = index.parse::<usize>().expect("an index") - 1;
                expected[place] = (1..)
                    .map_while(|row| reading(&case.file, 1, row, column).ok())
                    .filter(|(_, _, read)| *read != Reading::Missing)
                    .count() as u32;
            }
        }
        assert_eq!(found, expected, "{}", case.label);
    }
}

#[test]
fn the_limit_of_weights() {
    let mut file = weighing::all()
        .into_iter()
        .find(|case| case.label == "three columns")
        .unwrap()
        .file;
    file.resize(LIMIT, b'\n');
    let mut expected = vec![0; 64];
    expected[..3].copy_from_slice(&[4, 2, 4]);
    assert_eq!(weights(&file, 64), Ok(expected));
    assert_eq!(weights(&file, 63), Err(15));
    assert_eq!(rows(&file, 1), Ok(5));
    assert_eq!(rows(&file, 5), Err(2));
    file.push(b'\n');
    assert_eq!(weights(&file, 64), Err(1));
    assert_eq!(weights(&file, 0), Err(1));
    assert_eq!(rows(&file, 1), Err(1));
    assert_eq!(rows(&file, 0), Err(1));
}

#[test]
fn the_limit_of_the_program() {
    let long = vec![b'\n'; 65_536];
    assert!(printing::judged(&long).starts_with("FAULTS 5\n65537 1 21 0\n"));
    let longer = vec![b'\n'; 65_537];
    assert_eq!(printing::judged(&longer), "TOO LONG\n");
    assert!(printing::verdict(&longer).starts_with("FAULTS 5\n65538 1 21 0\n"));
}

/// Seven lines of metadata in which nothing is wrong.
fn fine() -> Vec<u8> {
    judging::all()
        .into_iter()
        .find(|c| c.label == "the five and what rule 22 asks for")
        .unwrap()
        .file
}

#[test]
fn what_the_program_prints() {
    let example = &judging::all()[0];
    assert_eq!(example.label, "the paper's example");
    assert_eq!(
        printing::judged(&example.file),
        "FAULTS 6\n7 6 15 0\n8 6 19 0\n9 2 20 0\n10 500 22 0\n10 900 22 0\n10 1000 22 0\n"
    );
    assert_eq!(printing::judged(&fine()), "OK\n");
}

/// "The program prints it as a fourth field."
#[test]
fn where_it_was_first_is_printed() {
    let again = b"MTD\ttitle\ta\nMTD\ttitle\tb\nSMH\tcharge\tidentifier\tcharge\n\nSMH\tidentifier\tcharge\n";
    assert_eq!(
        printing::judged(&[fine(), again.to_vec()].concat()),
        "FAULTS 4\n9 2 6 8\n10 4 13 2\n12 1 9 10\n13 800 22 0\n"
    );
}

#[test]
fn the_first_4096_are_shown() {
    let file = b"x\n".repeat(5_000);
    let printed = printing::judged(&file);
    let lines: Vec<&str> = printed.lines().collect();
    assert_eq!(lines[0], "FAULTS 5005");
    assert_eq!(lines.len(), 4_097);
    assert_eq!(lines[4_096], "4096 1 2 0");
}

#[test]
fn several_files_in_one_input() {
    assert_eq!(printing::judges(b""), "");
    let one = "FAULTS 5\n1 1 21 0\n1 2 21 0\n1 3 21 0\n1 4 21 0\n1 5 21 0\n.\n";
    assert_eq!(printing::judges(b"\x1e"), one);
    assert_eq!(printing::judges(b"\x1e\x1e"), one.repeat(2));
    let two = "FAULTS 5\n2 1 21 0\n2 2 21 0\n2 3 21 0\n2 4 21 0\n2 5 21 0\n.\n";
    assert_eq!(printing::judges(b"\x1e\n"), format!("{one}{two}"));
    assert_eq!(printing::judges(b"\n\x1eCOM"), two.repeat(2));
}

/// By line, then cell, then rule: what was first has no part in it.
#[test]
fn breaks_have_an_order() {
    let places = [(1, 9, 20), (2, 1, 2), (2, 1, 4), (2, 2, 1)];
    for (k, (line, cell, rule)) in places.into_iter().enumerate() {
        let at = Break {
            line,
            cell,
            rule,
            first: 9 - k as u32,
        };
        assert_eq!(at.place(), places[k]);
    }
    assert!(places.windows(2).all(|pair| pair[0] < pair[1]));
    for case in judging::all() {
        let found = judge(&case.file).unwrap();
        assert!(found
            .windows(2)
            .all(|pair| pair[0].place() < pair[1].place()));
    }
}

/// The stand-in may be empty, long, or `null` itself.
#[test]
fn stand_ins() {
    let file = b"PRT\tnull\tx\n";
    assert_eq!(cell_or(file, 1, 1, 1, b""), Ok(b"" as &[u8]));
    assert_eq!(cell_or(file, 1, 1, 1, b"null"), Ok(b"null" as &[u8]));
    assert_eq!(
        cell_or(file, 1, 1, 1, b"not known"),
        Ok(b"not known" as &[u8])
    );
    assert_eq!(cell_or(file, 1, 1, 2, b"not known"), Ok(b"x" as &[u8]));
    assert_eq!(cell_or(file, 1, 1, 3, b"not known"), Err(4));
}

/// Every byte value alone as one more cell of a metadata line, rule 1.
#[test]
fn rule_1_over_all_bytes() {
    let head = fine();
    for byte in 0..=255u8 {
        let file = [head.as_slice(), b"MTD\ttitle\ta", &[byte], b"b\n"].concat();
        let found: Vec<_> = judge(&file)
            .unwrap()
            .iter()
            .map(|b| (b.line, b.cell, b.rule))
            .collect();
        let expected: Vec<(u32, u32, u32)> = match byte {
            9 => vec![(8, 1, 3)],
            10 => vec![(9, 1, 2)],
            0..=31 | 127 => vec![(8, 3, 1)],
            _ => vec![],
        };
        assert_eq!(found, expected, "byte {byte}");
    }
}
