//! Rules 23 and 24 against a second writing of the same words.

use std::collections::HashSet;

use independent::cases::judging;
use independent::kinds::Bad;
use independent::lines::{cells, lines};
use independent::names::{self, bad_column, bad_key};
use independent::{judge, Break};

/// The breaks of a file, but for those of rule 21.
fn breaks(file: &[u8]) -> Vec<(u32, u32, u32)> {
    let found = judge(file).expect("within the limit");
    let breaks = found.iter().map(Break::place);
    breaks.filter(|(_, _, rule)| *rule != 21).collect()
}

/// What the bytes between brackets are.
#[derive(Clone, Copy, Debug, PartialEq)]
enum Between {
    NoNumber,
    Good,
    Bad(u32),
}

/// A number is led by a zero where it is not as it is commonly written.
fn between(text: &str) -> Between {
    if text.is_empty() || text.bytes().any(|b| !(48..=57).contains(&b)) {
        return Between::NoNumber;
    }
    match text.parse::<u64>() {
        Ok(0) => Between::Bad(23),
        Ok(number) if number.to_string() != text => Between::Bad(23),
        Ok(number) if number > 64 => Between::Bad(24),
        Ok(_) => Between::Good,
        Err(error) => panic!("{text}: {error}"),
    }
}

/// The break that the text makes of a name: one that is unknown breaks `stays`.
fn expected(text: &str, at: (u32, u32), stays: u32) -> Vec<(u32, u32, u32)> {
    match between(text) {
        Between::Good => vec![],
        Between::Bad(rule) => vec![(at.0, at.1, rule)],
        Between::NoNumber => vec![(at.0, at.1, stays)],
    }
}

/// Every text of up to four bytes that have a meaning in an index, and some that
/// have none, in a key, a reference and a column.
#[test]
fn every_short_text_is_an_index_or_not() {
    const BYTES: &[u8] = b"014569a[] -";
    let samples = samples();
    for length in 0..=4 {
        for number in 0..BYTES.len().pow(length) {
            let text: String = (0..length)
                .map(|k| char::from(BYTES[number / BYTES.len().pow(k) % BYTES.len()]))
                .collect();
            in_each_place(&text, &samples);
        }
    }
}

/// Every number up to 1,999, with zeros in front and without.
#[test]
fn every_short_number_is_an_index_or_not() {
    let samples = samples();
    for number in 0..2_000 {
        for width in 1..=5 {
            in_each_place(&format!("{number:0width$}"), &samples);
        }
    }
}

/// Lines that declare all samples.
fn samples() -> String {
    (1..=64)
        .map(|k| format!("MTD\tsample[{k}]-description\ta\n"))
        .collect()
}

fn in_each_place(text: &str, samples: &str) {
    let key = format!("MTD\turi[{text}]\ta\n");
    let at_key = expected(text, (1, 2), 5);
    assert_eq!(breaks(key.as_bytes()), at_key, "{text}");
    let value = format!("MTD\tassay[1]-sample_ref\tsample[{text}]\n{samples}");
    let at_value = expected(text, (1, 3), 7);
    assert_eq!(breaks(value.as_bytes()), at_value, "{text}");
    let column = format!("SMH\tidentifier\tcharge\tbest_search_engine_score[{text}]\n");
    let at_column = expected(text, (1, 4), 12);
    assert_eq!(breaks(column.as_bytes()), at_column, "{text}");
}

const NUMBERS: [&str; 14] = [
    "1", "9", "10", "64", "0", "00", "01", "064", "065", "65", "100", "257", "", "x",
];

/// "the leftmost bad one decides": each two of the numbers in each name that has
/// two indices.
#[test]
fn the_leftmost_of_two() {
    let mut tried = 0;
    let keys = names::keys().map(|(pattern, _)| (0, pattern));
    let columns = names::COLUMNS.iter().map(|(_, pattern, _)| (1, *pattern));
    for (section, pattern) in keys.chain(columns) {
        if pattern.matches("[n]").count() < 2 {
            continue;
        }
        for (a, b) in NUMBERS.iter().flat_map(|a| NUMBERS.map(|b| (*a, b))) {
            let name =
                pattern
                    .replacen("[n]", &format!("[{a}]"), 1)
                    .replacen("[n]", &format!("[{b}]"), 1);
            let found = match section {
                0 => bad_key(name.as_bytes()),
                section => bad_column(section, name.as_bytes()),
            };
            assert_eq!(found, of_two(between(a), between(b)), "{name}");
            tried += 1;
        }
    }
    assert_eq!(tried, 11 * 14 * 14);
}

fn of_two(a: Between, b: Between) -> Option<Bad> {
    match (a, b) {
        (Between::NoNumber, _) | (_, Between::NoNumber) => None,
        (Between::Bad(23), _) | (Between::Good, Between::Bad(23)) => Some(Bad::Zero),
        (Between::Bad(_), _) | (Between::Good, Between::Bad(_)) => Some(Bad::Over),
        (Between::Good, Between::Good) => None,
    }
}

/// Pieces of a reference list, and the rule that each breaks alone: as the first
/// one, and after a comma.
const PIECES: [(&str, u32, u32); 11] = [
    ("assay[1]", 0, 0),
    ("assay[9]", 8, 8),
    ("assay[01]", 23, 23),
    ("assay[65]", 24, 24),
    (" assay[1]", 7, 0),
    ("  assay[0]", 7, 23),
    (" assay[100]", 7, 24),
    ("assay[]", 7, 7),
    ("assay[01] ", 7, 7),
    ("sample[01]", 7, 7),
    ("", 7, 7),
];

/// Every list of up to three of the pieces.
#[test]
fn every_short_list() {
    for length in 1..=3 {
        for number in 0..PIECES.len().pow(length) {
            let pieces: Vec<_> = (0..length)
                .map(|k| PIECES[number / PIECES.len().pow(k) % PIECES.len()])
                .collect();
            let texts: Vec<&str> = pieces.iter().map(|piece| piece.0).collect();
            let rules: Vec<u32> = pieces
                .iter()
                .enumerate()
                .map(|(k, piece)| if k == 0 { piece.1 } else { piece.2 })
                .collect();
            let list = texts.join(",");
            let file = format!(
                "MTD\tassay[1]-quantification_reagent\t[,,a,]\n\
                 MTD\tstudy_variable[1]-assay_refs\t{list}\n"
            );
            let rule = rule_of_list(&rules);
            let expected: Vec<_> = rule.into_iter().map(|rule| (2, 3, rule)).collect();
            assert_eq!(breaks(file.as_bytes()), expected, "{list}");
        }
    }
}

/// 7 before all others, the leftmost of 23 and 24 before 8.
fn rule_of_list(rules: &[u32]) -> Option<u32> {
    let first = |some: fn(u32) -> bool| rules.iter().copied().find(|rule| some(*rule));
    first(|rule| rule == 7)
        .or_else(|| first(|rule| rule > 8))
        .or_else(|| first(|rule| rule == 8))
}

/// What stands at each break of rules 23 and 24 in the cases.
fn bad_ones() -> HashSet<(Vec<u8>, u32)> {
    let mut all = HashSet::new();
    for case in judging::all() {
        for (line, cell, rule) in case.breaks.iter().map(Break::place) {
            if rule == 23 || rule == 24 {
                let line = lines(&case.file).nth(line as usize - 1);
                let cell = line.and_then(|line| cells(line).nth(cell as usize - 1));
                all.insert((cell.expect("it is there").to_vec(), rule));
            }
        }
    }
    all
}

/// Each index of each key and column is bad in some case, in either way.
#[test]
fn every_index_is_bad_somewhere() {
    let all = bad_ones();
    let keys = names::keys().map(|(pattern, _)| pattern);
    let columns = names::COLUMNS.iter().map(|(_, pattern, _)| *pattern);
    let mut indices = 0;
    for pattern in keys.chain(columns) {
        for (at, _) in pattern.match_indices("[n]") {
            let (before, after) = (&pattern[..at], &pattern[at + 3..]);
            for (bad, rule) in [("[01]", 23), ("[65]", 24)] {
                let name = [before, bad, after].concat().replace("[n]", "[1]");
                assert!(all.contains(&(name.clone().into_bytes(), rule)), "{name}");
            }
            indices += 1;
        }
    }
    assert!(indices > 70, "{indices}");
}
