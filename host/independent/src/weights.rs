//! Request 2026-10, "Split the fee": the weights of a file, and the rows of a
//! section.

use crate::judging::judge;
use crate::lines::{cells, code, lines, Code};
use crate::LIMIT;

/// "1 to 64 weights": one for each study variable.
pub const WEIGHTS: usize = 64;

/// "1: file too long"
const TOO_LONG: u32 = 1;
/// "2: section not 1 to 4"
const NO_SECTION: u32 = 2;
/// "7 file not accepted"
const NOT_ACCEPTED: u32 = 7;
/// "15 number of weights"
const WRONG_NUMBER: u32 = 15;

/// The protein section.
const PROTEIN: u32 = 1;

/// How many rows a section has, or the number of the refusal: "the r-th line
/// with its row code, whatever breaks the file has".
pub fn rows(file: &[u8], section: u32) -> Result<u32, u32> {
    if file.len() > LIMIT {
        return Err(TOO_LONG);
    }
    if !(1..=4).contains(&section) {
        return Err(NO_SECTION);
    }
    Ok(rows_of(file, section).count() as u32)
}

/// The weights of study variables 1 to 64, or the number of the refusal;
/// `places` is how many are lent. The refusals are tried in the order 1, 7, 15.
pub fn weights(file: &[u8], places: usize) -> Result<Vec<u32>, u32> {
    let breaks = judge(file).ok_or(TOO_LONG)?;
    if !breaks.is_empty() {
        return Err(NOT_ACCEPTED);
    }
    if places != WEIGHTS {
        return Err(WRONG_NUMBER);
    }
    Ok((1..=WEIGHTS).map(|i| weight(file, i)).collect())
}

/// "each the protein rows whose abundance for it isn't `null`"; 0 where the
/// header has no such column.
fn weight(file: &[u8], i: usize) -> u32 {
    let name = format!("protein_abundance_study_variable[{i}]");
    match place_in_header(file, name.as_bytes()) {
        None => 0,
        Some(place) => rows_of(file, PROTEIN)
            .filter(|row| cells(row).nth(place) != Some(b"null" as &[u8]))
            .count() as u32,
    }
}

/// How many cells stand before the one with this name in the protein header.
fn place_in_header(file: &[u8], name: &[u8]) -> Option<usize> {
    let header = lines(file).find(|line| code(line) == Code::Header(PROTEIN))?;
    // "Cell 1 of a header is no column name."
    let column = cells(header).skip(1).position(|cell| cell == name)?;
    Some(column + 1)
}

fn rows_of(file: &[u8], section: u32) -> impl Iterator<Item = &[u8]> + '_ {
    lines(file).filter(move |line| code(line) == Code::Row(section))
}

#[cfg(test)]
mod tests {
    use super::*;

    const HEAD: &str = "MTD\tmzTab-version\t1.0.0\nMTD\tmzTab-mode\tSummary\n\
        MTD\tmzTab-type\tQuantification\nMTD\tdescription\td\n\
        MTD\tms_run[1]-location\tfile:///a.mzML\nMTD\tstudy_variable[2]-description\tb\n\
        MTD\tfixed_mod[1]\t[,,f,]\nMTD\tvariable_mod[1]\t[,,v,]\n\
        MTD\tprotein_search_engine_score[1]\t[,,s,]\nMTD\tprotein-quantification_unit\t[,,u,]\n\
        PRH\taccession\tdescription\tprotein_abundance_study_variable[2]\tdatabase\tsearch_engine\n";

    #[test]
    fn rows_by_their_code() {
        let file = b"PRT\nPRT\tx\nprt\nPEP\nCOM\tPRT\nPRTx\nSML\r\nPRT\r";
        assert_eq!(rows(file, 1), Ok(2));
        assert_eq!(rows(file, 2), Ok(1));
        assert_eq!(rows(file, 3), Ok(0));
        assert_eq!(rows(file, 4), Ok(1));
        assert_eq!(rows(file, 0), Err(2));
        assert_eq!(rows(file, 5), Err(2));
    }

    #[test]
    fn weights_by_the_cells() {
        let mut file = HEAD.to_string();
        file +=
            "PRT\ta\tnull\t1.5\tdb\tnull\nPRT\tb\tx\tnull\tdb\tnull\nPRT\tc\tx\tNaN\tdb\tnull\n";
        let mut expected = vec![0; 64];
        expected[1] = 2;
        assert_eq!(weights(file.as_bytes(), 64), Ok(expected));
        assert_eq!(weights(file.as_bytes(), 63), Err(15));
        file += "PRT\n";
        assert_eq!(weights(file.as_bytes(), 64), Err(7));
        assert_eq!(weights(file.as_bytes(), 63), Err(7));
        assert_eq!(rows(file.as_bytes(), 1), Ok(4));
    }
}
