//! The study variables that a file declares, and their descriptions. The file is an accepted one: its keys are known, and none comes twice.

use mztab::format::METADATA;
use mztab::STUDY_VARIABLES;

use crate::files::finder::{cells, code, cut_line};

#[derive(Clone, Copy, Debug, Default, PartialEq, Eq)]
pub struct Variable<'a> {
    pub declared: bool,
    pub description: Option<&'a [u8]>,
}

/// All of them; place i - 1 is study variable i.
pub fn variables(file: &[u8]) -> [Variable<'_>; STUDY_VARIABLES] {
    let mut all = [Variable::default(); STUDY_VARIABLES];
    let mut rest = file;
    while !rest.is_empty() {
        let (line, after) = cut_line(rest);
        rest = after;
        if code(line) == METADATA {
            declare(line, &mut all);
        }
    }
    all
}

/// What a metadata line says of a study variable, if it has three cells and names one. The first description stands.
fn declare<'a>(line: &'a [u8], all: &mut [Variable<'a>]) {
    let mut cells = cells(line).skip(1);
    if let (Some(key), Some(value), None) = (cells.next(), cells.next(), cells.next()) {
        if let Some((index, field)) = indexed(key) {
            all[index - 1].declared = true;
            if field == b"-description" {
                all[index - 1].description.get_or_insert(value);
            }
        }
    }
}

/// The index of a key that begins with a study variable, and what follows it.
fn indexed(key: &[u8]) -> Option<(usize, &[u8])> {
    let rest = key.strip_prefix(b"study_variable[")?;
    let end = rest.iter().position(|byte| *byte == b']')?;
    let index = std::str::from_utf8(&rest[..end]).ok()?.parse().ok()?;
    if (1..=STUDY_VARIABLES).contains(&index) {
        Some((index, &rest[end + 1..]))
    } else {
        None
    }
}

#[cfg(test)]
mod tests {
    use super::*;

    #[test]
    fn declared_and_described() {
        let file = b"MTD\tstudy_variable[2]-assay_refs\tassay[1]\r\nMTD\tstudy_variable[64]-description\ta\xff\r\n\
            COM\tstudy_variable[3]-description\tno\nMTD\tstudy_variable[4]-description\nMTD\ttitle\tstudy_variable[5]\n\
            MTD\tstudy_variable[65]-description\tno\nMTD\tstudy_variable[0]-description\tno\nMTD\tstudy_variable[64]-description\tlater\n";
        let all = variables(file);
        let declared: Vec<usize> = (1..=64).filter(|i| all[i - 1].declared).collect();
        assert_eq!(declared, [2, 64]);
        assert_eq!(all[1].description, None);
        assert_eq!(all[63].description, Some(b"a\xff" as &[u8]));
    }
}
