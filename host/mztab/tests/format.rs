//! The names that the binding has of the format are those that the library judges by.

use mztab::format::{
    bad_index, demand_at, headed, Demand, Section, COMMENT, COUNTS, DEMANDS, INDICES, METADATA,
    MODE, MODES, REQUIRED_KEYS, SECTIONS, TYPE, TYPES,
};
use mztab::{cell, judge_all, rows, Break};

/// The index that stands for every `[n]`.
const INDEX: u32 = 7;

fn breaks(file: &str) -> Vec<Break> {
    judge_all(file.as_bytes()).unwrap().breaks().collect()
}

/// A break of something that does not come again.
fn broken(rule: u32, line: u32, cell: u32) -> Break {
    Break {
        rule,
        line,
        cell,
        first: 0,
    }
}

/// The cells at which rule 22 alone is broken, at the line after the last.
fn lacking(file: &str) -> Vec<u32> {
    let after = file.lines().count() as u32 + 1;
    let at = |found: &Break| {
        let cell = found.cell;
        assert_eq!(*found, broken(22, after, cell), "{file}");
        cell
    };
    breaks(file).iter().map(at).collect()
}

/// A line of these cells, the first of which is a code.
fn line(code: &[u8], cells: &[&str]) -> String {
    let code = std::str::from_utf8(code).unwrap();
    format!("{code}\t{}\n", cells.join("\t"))
}

/// Every key that rules 21 and 22 ask for.
fn all_keys() -> Vec<&'static str> {
    let demanded = DEMANDS.iter().map(|demand| demand.key);
    REQUIRED_KEYS.into_iter().chain(demanded).collect()
}

/// The same but for those that begin with an id of an assay or a study variable, so that none is declared.
fn keys_of_no_id() -> Vec<&'static str> {
    let ids = ["assay[", "study_variable["];
    let mut keys = all_keys();
    keys.retain(|key| !ids.iter().any(|id| key.starts_with(id)));
    keys
}

/// A metadata line for each key of a file of this mode and type.
fn metadata(mode: &str, kind: &str, keys: &[&str]) -> String {
    let value = |key: &str| match key {
        "mzTab-version" => "1.0".to_string(),
        MODE => mode.to_string(),
        TYPE => kind.to_string(),
        "assay[n]-ms_run_ref" => format!("ms_run[{INDEX}]"),
        "study_variable[n]-assay_refs" => format!("assay[{INDEX}]"),
        // A parameter is a text too.
        _ => "[, , a, ]".to_string(),
    };
    let written = |key: &str| key.replace("[n]", &format!("[{INDEX}]"));
    keys.iter()
        .map(|key| line(METADATA, &[&written(key), &value(key)]))
        .collect()
}

fn without(keys: &[&'static str], absent: &str) -> Vec<&'static str> {
    let mut kept = keys.to_vec();
    kept.retain(|key| *key != absent);
    assert_eq!(kept.len() + 1, keys.len(), "{absent}");
    kept
}

/// The columns that a section's header needs in every file.
fn columns(section: &Section) -> Vec<&'static str> {
    [section.required, section.required_quantified].concat()
}

/// A header of each section.
fn headers() -> String {
    let header = |section: &Section| line(section.header, &columns(section));
    SECTIONS.iter().map(header).collect()
}

/// Each mode with each type.
fn combinations() -> Vec<(&'static str, &'static str)> {
    let of = |mode: &'static str| TYPES.map(|kind| (mode, kind));
    MODES.into_iter().flat_map(of).collect()
}

#[test]
fn required_keys() {
    let keys = keys_of_no_id();
    for (mode, kind) in combinations() {
        assert_eq!(breaks(&metadata(mode, kind, &keys)), []);
        for (k, key) in REQUIRED_KEYS.iter().enumerate() {
            let expected = broken(21, keys.len() as u32, k as u32 + 1);
            let found = breaks(&metadata(mode, kind, &without(&keys, key)));
            assert_eq!(found, [expected], "{key}");
        }
    }
}

#[test]
fn required_columns() {
    for (mode, kind) in combinations() {
        let head = metadata(mode, kind, &all_keys());
        for section in SECTIONS {
            let all = columns(&section);
            let header = head.clone() + &line(section.header, &all);
            assert_eq!(breaks(&header), [], "{}", section.name);
            for absent in &all {
                let of_every_file = section.required.contains(absent);
                let asked = of_every_file || kind == "Quantification";
                let others = without(&all, absent);
                let found = breaks(&(head.clone() + &line(section.header, &others)));
                let rules: Vec<u32> = found.iter().map(|at| at.rule).collect();
                assert_eq!(rules, vec![16; usize::from(asked)], "{kind}: {absent}");
            }
        }
    }
}

#[test]
fn modes_and_types() {
    let keys = keys_of_no_id();
    // The values are those of lines 2 and 3.
    for (mode, kind, line) in [("summary", "Quantification", 2), ("Complete", "", 3)] {
        let found = breaks(&metadata(mode, kind, &keys));
        assert_eq!(found, [broken(7, line, 3)]);
    }
}

/// Whether rule 22 asks for the field of a file with every section, an assay and a study variable.
fn asked(demand: &Demand, mode: &str, kind: &str) -> bool {
    let (complete, quantified) = (mode == "Complete", kind == "Quantification");
    match demand.cell {
        100 | 200 | 300 | 1200 | 1300 | 1400 | 1500 => quantified,
        400 => complete,
        1100 => complete && quantified,
        _ => true,
    }
}

#[test]
fn each_demand_in_each_mode_and_type() {
    let keys = all_keys();
    for (mode, kind) in combinations() {
        let whole = metadata(mode, kind, &keys) + &headers();
        assert_eq!(breaks(&whole), [], "{mode} {kind}");
        for demand in &DEMANDS {
            let found = lacking(&(metadata(mode, kind, &without(&keys, demand.key)) + &headers()));
            let index = if demand.each { INDEX } else { 0 };
            let mut expected = vec![demand.cell + index];
            expected.retain(|_| asked(demand, mode, kind));
            assert_eq!(found, expected, "{mode} {kind}: {}", demand.key);
        }
    }
}

/// The reason says of which files a field is asked.
#[test]
fn reasons_are_true() {
    for demand in &DEMANDS {
        let identified = asked(demand, "Complete", "Identification");
        assert_eq!(demand.reason.contains("Quantification"), !identified);
        // The assays of a study variable are asked of a Summary file only where an assay is declared.
        let summed = asked(demand, "Summary", "Quantification") && demand.cell != 200;
        assert_eq!(demand.reason.contains("Complete"), !summed);
        let of_a_section = OF_SECTIONS.concat().contains(&demand.cell);
        assert_eq!(demand.reason.contains(" section "), of_a_section);
        assert_eq!(demand.reason.starts_with("each "), demand.each);
    }
}

/// The cells of the demands that are made of a section: those of its score and of its unit. PSMs have no unit.
const OF_SECTIONS: [&[u32]; 4] = [&[500, 1200], &[600, 1300], &[700], &[800, 1400]];

#[test]
fn demands_of_a_section_that_is_present() {
    let mut keys = keys_of_no_id();
    let of_a_section = OF_SECTIONS.concat();
    let demanded = DEMANDS
        .iter()
        .filter(|demand| of_a_section.contains(&demand.cell));
    for demand in demanded {
        keys = without(&keys, demand.key);
    }
    for (mode, kind) in combinations() {
        let head = metadata(mode, kind, &keys);
        assert_eq!(breaks(&head), [], "{mode} {kind}");
        for (section, cells) in SECTIONS.iter().zip(OF_SECTIONS) {
            let units = kind == "Quantification";
            let mut expected = cells.to_vec();
            expected.retain(|cell| units || *cell < 1_000);
            let header = head.clone() + &line(section.header, &columns(section));
            assert_eq!(lacking(&header), expected, "{}", section.name);
            // A row without its header breaks rule 17 beside.
            let row = head.clone() + &line(section.row, &["a"]);
            let cells = breaks(&row).into_iter().filter(|at| at.rule == 22);
            let cells: Vec<u32> = cells.map(|at| at.cell).collect();
            assert_eq!(cells, expected, "{}", section.name);
        }
    }
}

#[test]
fn demands_of_declared_ids() {
    let head = |mode: &str| metadata(mode, "Quantification", &keys_of_no_id());
    let described = |index: u32| format!("MTD\tstudy_variable[{index}]-description\ta\n");
    let of_sample = "MTD\tassay[64]-sample_ref\tsample[1]\nMTD\tsample[1]-description\ta\n";
    // Without an assay a Summary file needs no assays of its study variables.
    assert_eq!(lacking(&(head("Summary") + &described(1))), []);
    assert_eq!(lacking(&(head("Complete") + &described(1))), [201]);
    let both = |mode: &str| head(mode) + &described(64) + of_sample;
    for mode in MODES {
        assert_eq!(lacking(&both(mode)), [164, 264, 1564], "{mode}");
    }
}

#[test]
fn cells_of_demands() {
    for demand in &DEMANDS {
        let (first, last) = if demand.each { (1, INDICES) } else { (0, 0) };
        for index in first..=last {
            assert_eq!(demand_at(demand.cell + index), Some((demand, index)));
        }
        for index in [last + 1, 99] {
            assert_eq!(demand_at(demand.cell + index), None);
        }
        assert_eq!(demand_at(demand.cell).is_none(), demand.each);
        assert_eq!(demand.key_of(0), demand.key);
        assert!(demand.key.matches("[n]").count() <= 1);
    }
    for cell in [0, 5, 99, 1_600, u32::MAX] {
        assert_eq!(demand_at(cell), None);
    }
    assert_eq!(DEMANDS[0].key_of(64), "assay[64]-ms_run_ref");
    assert!(DEMANDS.windows(2).all(|two| two[0].cell < two[1].cell));
}

/// What may stand in a bracket, with bars between.
const BRACKETS: &str =
    "0|00|01|010|064|065|1|9|10|64|65|99|100|4294967297|18446744073709551617||1a|-1| 1|+1";

/// The rule that the first line of a file breaks beside 16: one at most, and at this cell.
fn rule_at(line: &str, cell: u32) -> Option<u32> {
    let found = breaks(line).into_iter().filter(|at| at.line == 1);
    let mut found = found.filter(|at| at.rule != 16);
    let rule = found.next().map(|at| {
        assert_eq!(at.cell, cell, "{line}");
        at.rule
    });
    assert_eq!(found.next(), None, "{line}");
    rule
}

/// The rule that a name breaks by what stands in its brackets: where they hold digits alone that of its leftmost bad index, if it has
/// one, else the other.
fn by_brackets(name: &str, brackets: &[&str], other: u32) -> Option<u32> {
    let is_number =
        |bracket: &&str| !bracket.is_empty() && bracket.bytes().all(|byte| byte.is_ascii_digit());
    if brackets.iter().all(is_number) {
        bad_index(name.as_bytes()).map(|index| index.rule())
    } else {
        Some(other)
    }
}

#[test]
fn bad_indices() {
    for i in BRACKETS.split('|') {
        for j in BRACKETS.split('|') {
            let key = format!("software[{i}]-setting[{j}]");
            let found = rule_at(&line(METADATA, &[&key, "a"]), 2);
            assert_eq!(found, by_brackets(&key, &[i, j], 5), "{key}");
            let name = format!("search_engine_score[{i}]_ms_run[{j}]");
            let found = rule_at(&line(b"PRH", &[&name]), 2);
            // A run that is not declared breaks rule 15 where the name is a known one.
            let expected = by_brackets(&name, &[i, j], 12).or(Some(15));
            assert_eq!(found, expected, "{name}");
            let value = format!("assay[{i}], assay[{j}]");
            let found = rule_at(
                &line(METADATA, &["study_variable[1]-assay_refs", &value]),
                3,
            );
            let expected = by_brackets(&value, &[i, j], 7).or(Some(8));
            assert_eq!(found, expected, "{value}");
        }
    }
}

#[test]
fn which_index_is_bad() {
    let found = |cell: &str| {
        let index = bad_index(cell.as_bytes());
        index.map(|index| (index.digits.to_vec(), index.number))
    };
    let bad = |digits: &str, number: u32| Some((digits.as_bytes().to_vec(), number));
    assert_eq!(found("sample[065]-description"), bad("065", 65));
    assert_eq!(found("software[64]-setting[000]"), bad("000", 0));
    assert_eq!(
        found("assay[1a],assay[],[[0065],assay[77]"),
        bad("0065", 65)
    );
    assert_eq!(found("assay[4294967296]"), bad("4294967296", u32::MAX));
    for cell in [
        "", "[", "]", "[]", "[0", "0]", "[0[", "[64]", "[0 ]", "a[1][2]",
    ] {
        assert_eq!(found(cell), None, "{cell}");
    }
}

#[test]
fn codes_of_sections() {
    for (k, section) in SECTIONS.iter().enumerate() {
        assert_eq!(section.number as usize, k + 1);
        assert_eq!(headed(section.header), Some(section));
        let file = line(section.header, &["a"]) + &line(section.row, &["b"]);
        assert_eq!(rows(file.as_bytes(), section.number), Ok(1));
        assert_eq!(
            cell(file.as_bytes(), section.number, 0, 1),
            Ok(b"a" as &[u8])
        );
        assert_eq!(
            cell(file.as_bytes(), section.number, 1, 1),
            Ok(b"b" as &[u8])
        );
    }
}

/// The columns of the counts are known, with an index of a run, and hold whole numbers. What a tally makes of them is held in tests/tally.rs.
#[test]
fn columns_of_counts() {
    let at_last = |name: &str, cell: &str| {
        let [section, ..] = SECTIONS;
        let columns = [section.required, &[name]].concat();
        let row = ["a", "null", "null", "null", cell];
        let file = line(section.header, &columns) + &line(section.row, &row);
        let found = breaks(&file).into_iter().filter(|at| at.cell == 6);
        found.map(|at| (at.rule, at.line)).collect::<Vec<_>>()
    };
    // No line declares the run.
    let undeclared = (15, 1);
    for name in COUNTS {
        let indexed = format!("{name}[{INDEX}]");
        assert_eq!(at_last(&indexed, "-4"), [undeclared], "{name}");
        assert_eq!(at_last(&indexed, "null"), [undeclared], "{name}");
        assert_eq!(at_last(&indexed, "4.0"), [undeclared, (20, 2)], "{name}");
        assert_eq!(at_last(name, "4.0"), [(12, 1)], "{name}");
    }
}

#[test]
fn a_comment_is_not_judged() {
    let head = metadata("Summary", "Identification", &all_keys());
    let file = head + &line(COMMENT, &["", "\u{b}"]);
    assert_eq!(breaks(&file), []);
}
