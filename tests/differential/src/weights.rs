//! The rows and the weights of one file, by both.

use mztab::raw;
use samples::Draws;

use crate::compare::Tried;

/// What a place holds before the call; no weight is as large.
const MARK: u32 = 0xdead_beef;

/// Nothing where both say the same, else both answers in words.
pub fn compare(file: &[u8], draws: &mut Draws, tried: &mut Tried) -> Result<(), String> {
    for section in 0..=5 {
        rows(file, section)?;
    }
    let expected = independent::weights(file, PLACES);
    list(file, PLACES, &expected)?;
    let other = another_length(draws);
    list(file, other, &independent::weights(file, other))?;
    if expected.map_or(false, |weights| weights.iter().any(|weight| *weight > 0)) {
        tried.weighed += 1;
    }
    Ok(())
}

const PLACES: usize = independent::weights::WEIGHTS;

/// A number of places that is refused.
fn another_length(draws: &mut Draws) -> usize {
    match draws.below(6) {
        0 => 0,
        1 => draws.below(PLACES),
        2 => PLACES - 1,
        3 => PLACES + 1,
        4 => 2 * PLACES,
        _ => PLACES + 1 + draws.below(200),
    }
}

fn rows(file: &[u8], section: u32) -> Result<(), String> {
    let found = raw::rows(file, section);
    let expected = independent::rows(file, section);
    let (number, count) = (expected.err().unwrap_or(0), expected.unwrap_or(0));
    if (found.number, found.count) == (number, count) {
        return Ok(());
    }
    Err(format!(
        "the rows of section {section}: the library answers number {} and {}; the independent reading number {number} and {count}",
        found.number, found.count
    ))
}

/// A list of so many places, every one of them compared: a refusal writes none.
fn list(file: &[u8], length: usize, expected: &Result<Vec<u32>, u32>) -> Result<(), String> {
    let mut places = vec![MARK; length].into_boxed_slice();
    let number = raw::weights(file, &mut places);
    let same = match expected {
        Ok(weights) => number == 0 && *places == **weights,
        Err(refusal) => number == *refusal && places.iter().all(|place| *place == MARK),
    };
    if same {
        return Ok(());
    }
    Err(format!(
        "a list of {length} weights: the library answers number {number}, {places:?}; the independent reading {expected:?}"
    ))
}
