//! The files written by hand from the paper: every rule, stop and kind on either side; the exports; keys, headers and names that come again;
//! holes; and counts.

use independent::cases;
use mztab::format::SECTIONS;

use crate::by_hand_again;

/// A label and a file each.
pub fn files() -> Vec<(String, Vec<u8>)> {
    let mut all = Vec::new();
    for case in cases::judging::all() {
        all.push((case.label.to_string(), case.file));
    }
    for (k, case) in cases::cells::all().into_iter().enumerate() {
        all.push((format!("cells, case {k}"), case.file));
    }
    let weights = cases::weights::all().into_iter();
    all.extend(weights.map(|case| (case.label.to_string(), case.file)));
    let lines = cases::lines::all().into_iter();
    all.extend(lines.map(|case| (case.label.to_string(), case.file)));
    for export in samples::EXPORTS {
        all.push((export.name.to_string(), export.file.to_vec()));
    }
    for (value, _) in cases::kinds::all() {
        all.push((
            format!("value b\"{}\"", value.escape_ascii()),
            value_everywhere(&value),
        ));
    }
    all.extend(long_parameters());
    for (label, file) in by_hand_again::files() {
        all.push((label.to_string(), file));
    }
    for names in cases::names::all().chunks(100) {
        all.push(("names as keys".to_string(), as_keys(names)));
        for section in SECTIONS {
            all.push((
                format!("names as {} columns", section.name),
                as_columns(section.header, names),
            ));
        }
    }
    let mends = cases::mends::all().into_iter();
    all.extend(mends.map(|case| (case.label.to_string(), case.file)));
    let tallies = cases::tallies::all().into_iter();
    all.extend(tallies.map(|case| (case.label.to_string(), case.file)));
    all
}

/// The value for a key of each kind, and under a column of each kind.
fn value_everywhere(value: &[u8]) -> Vec<u8> {
    let mut file = Vec::new();
    for key in [
        "mzTab-version",
        "mzTab-mode",
        "mzTab-type",
        "title",
        "custom[1]",
        "false_discovery_rate",
        "assay[1]-sample_ref",
        "assay[1]-ms_run_ref",
        "study_variable[1]-assay_refs",
        "study_variable[1]-sample_refs",
        "sample[1]-description",
        "ms_run[64]-location",
    ] {
        line(&mut file, &[b"MTD", key.as_bytes(), value]);
    }
    let header = b"PEH\tsequence\taccession\tcharge\tmass_to_charge\treliability\tunique\tretention_time\tretention_time_window\tsearch_engine\topt_x\n";
    file.extend(header);
    line(&mut file, &[&[b"PEP" as &[u8]], &[value; 10][..]].concat());
    file
}

/// Two parameters each, the first about as long as the blocks in which the library scans, of one byte over and over.
fn long_parameters() -> Vec<(String, Vec<u8>)> {
    let mut all = Vec::new();
    for length in 1_020..=1_030 {
        for byte in *b"a \"|" {
            let value = [b"[,,", vec![byte; length - 5].as_slice(), b",]|[,,b,]"].concat();
            let label = format!(
                "a part of {length} bytes, most of them b\"{}\"",
                byte.escape_ascii()
            );
            all.push((label, value_everywhere(&value)));
        }
    }
    all
}

/// Of such files rule 22 asks for the most.
const COMPLETE_QUANTIFICATION: &[u8] =
    b"MTD\tmzTab-mode\tComplete\nMTD\tmzTab-type\tQuantification\n";

fn as_keys(names: &[Vec<u8>]) -> Vec<u8> {
    let mut file = COMPLETE_QUANTIFICATION.to_vec();
    for name in names {
        line(&mut file, &[b"MTD", name, b"[,,a,]"]);
    }
    file
}

fn as_columns(header: &[u8], names: &[Vec<u8>]) -> Vec<u8> {
    let mut file = COMPLETE_QUANTIFICATION.to_vec();
    file.extend(b"MTD\tassay[3]-ms_run_ref\tms_run[5]\nMTD\tms_run[5]-location\ta\n");
    let mut cells: Vec<&[u8]> = vec![header];
    cells.extend(names.iter().map(Vec::as_slice));
    line(&mut file, &cells);
    file
}

/// Writes a line of the cells.
pub fn line(file: &mut Vec<u8>, cells: &[&[u8]]) {
    file.extend(cells.join(&b'\t'));
    file.push(b'\n');
}
