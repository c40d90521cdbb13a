//! The mode and the type of a file, by which rules 16 and 22 ask for more.

use mztab::format::{METADATA, MODE, MODES, TYPE, TYPES};

use crate::files::finder::{cells, code, cut_line};

/// Whether the file has a valid mode, and its type is Quantification.
pub fn is_quantified(file: &[u8]) -> bool {
    let [quantified, _] = TYPES;
    first(file, MODE, &MODES).is_some() && first(file, TYPE, &TYPES) == Some(quantified)
}

/// The first valid value of a key: the first metadata line of three cells that has the key and one of these values counts, wherever it stands.
fn first(file: &[u8], key: &str, valid: &[&'static str]) -> Option<&'static str> {
    let mut rest = file;
    while !rest.is_empty() {
        let (line, after) = cut_line(rest);
        rest = after;
        if let Some(value) = value_of(line, key) {
            let found = valid.iter().find(|word| word.as_bytes() == value);
            if found.is_some() {
                return found.copied();
            }
        }
    }
    None
}

/// The value of a metadata line of three cells that has this key.
fn value_of<'a>(line: &'a [u8], key: &str) -> Option<&'a [u8]> {
    if code(line) != METADATA {
        return None;
    }
    let mut cells = cells(line).skip(1);
    match (cells.next(), cells.next(), cells.next()) {
        (Some(found), Some(value), None) if found == key.as_bytes() => Some(value),
        _ => None,
    }
}

#[cfg(test)]
mod tests {
    use super::*;

    const COMPLETE: &str = "MTD\tmzTab-mode\tComplete\n";
    const SUMMARY: &str = "MTD\tmzTab-mode\tSummary\n";
    const QUANTIFIED: &str = "MTD\tmzTab-type\tQuantification\n";
    const IDENTIFIED: &str = "MTD\tmzTab-type\tIdentification\n";

    fn found(lines: &[&str]) -> bool {
        is_quantified(lines.concat().as_bytes())
    }

    #[test]
    fn each_mode_with_each_type() {
        assert!(found(&[COMPLETE, QUANTIFIED]));
        assert!(found(&[QUANTIFIED, SUMMARY]));
        assert!(!found(&[COMPLETE, IDENTIFIED]));
        assert!(!found(&[SUMMARY, IDENTIFIED]));
    }

    #[test]
    fn without_both_it_is_not_known() {
        assert!(!found(&[]));
        assert!(!found(&[QUANTIFIED]));
        assert!(!found(&[COMPLETE]));
        assert!(!found(&[QUANTIFIED, "MTD\tmzTab-mode\tcomplete\n"]));
        assert!(!found(&[QUANTIFIED, "MTD\tmzTab-mode\t\n"]));
    }

    #[test]
    fn the_first_valid_value_counts() {
        assert!(found(&[COMPLETE, QUANTIFIED, IDENTIFIED]));
        assert!(!found(&[COMPLETE, IDENTIFIED, QUANTIFIED]));
        let wrong = "MTD\tmzTab-type\tidentification\n";
        assert!(found(&[COMPLETE, wrong, QUANTIFIED, IDENTIFIED]));
        // Lines of other than three cells, and of other codes and keys, do not count.
        for other in [
            "MTD\tmzTab-type\tIdentification\t\n",
            "MTD\tmzTab-type\n",
            "COM\tmzTab-type\tIdentification\n",
            "MTDx\tmzTab-type\tIdentification\n",
            "MTD\tmzTab-types\tIdentification\n",
            "MTD\tmzTab-type\tIdentification \n",
            "MTD\tmzTab-type\tIdentification\r\r\n",
        ] {
            assert!(found(&[COMPLETE, other, QUANTIFIED]), "{other:?}");
        }
    }

    #[test]
    fn wherever_the_line_stands() {
        assert!(found(&["PRH\taccession\n\n", QUANTIFIED, "x\n", COMPLETE]));
        assert!(found(&[COMPLETE, "MTD\tmzTab-type\tQuantification"]));
        assert!(found(&[COMPLETE, "MTD\tmzTab-type\tQuantification\r\n"]));
        // A CR that no LF follows is part of the value.
        assert!(!found(&[COMPLETE, "MTD\tmzTab-type\tQuantification\r"]));
    }
}
