//! Amounts added and fees split, by both.

use independent::cases::fee::Case;
use independent::fee::{FEE_LIMIT, MOST_WEIGHTS, WEIGHT_LIMIT};
use mztab::raw;
use samples::Draws;

use crate::compare::Tried;

/// What a place holds before the call; no share is as large.
const MARK: u64 = 0xdead_beef_dead_beef;

/// The cases written by hand.
pub fn by_hand(tried: &mut Tried) -> Result<(), String> {
    for case in independent::cases::fee::all() {
        match case {
            Case::Add { a, b, .. } => add(a, b, tried)?,
            Case::Split {
                fee,
                weights,
                places,
                ..
            } => split(fee, &weights, places, tried)?,
        }
    }
    Ok(())
}

/// So many splits, and as many sums.
pub fn drawn(count: usize, draws: &mut Draws, tried: &mut Tried) -> Result<(), String> {
    for _ in 0..count {
        let weights = weights(draws);
        let fee = fee(&weights, draws);
        let places = places(weights.len(), draws);
        split(fee, &weights, places, tried)?;
        add(amount(draws), amount(draws), tried)?;
        near_an_edge(draws, tried)?;
    }
    Ok(())
}

fn add(a: u64, b: u64, tried: &mut Tried) -> Result<(), String> {
    tried.sums += 1;
    let found = raw::add_cents(a, b);
    let expected = independent::add(a, b);
    let (number, sum) = (expected.err().unwrap_or(0), expected.unwrap_or(0));
    if (found.number, found.cents) == (number, sum) {
        return Ok(());
    }
    Err(format!(
        "{a} and {b} added: the library answers number {} and {}; the independent reading number {number} and {sum}",
        found.number, found.cents
    ))
}

/// Every place is compared: a refusal writes none.
fn split(fee: u64, weights: &[u32], length: usize, tried: &mut Tried) -> Result<(), String> {
    // Boxes of their own, so that a checker of memory sees what is read or written beside them.
    let weights: Box<[u32]> = weights.into();
    let mut places = vec![MARK; length].into_boxed_slice();
    let number = raw::split_fee(fee, &weights, &mut places);
    let expected = independent::split(fee, &weights, length);
    let same = match &expected {
        Ok(shares) => number == 0 && *places == **shares,
        Err(refusal) => number == *refusal && places.iter().all(|place| *place == MARK),
    };
    if same {
        *tried.splits.entry(number).or_default() += 1;
        return Ok(());
    }
    Err(format!(
        "{fee} over {weights:?} with {length} shares: the library answers number {number}, {places:?}; the independent reading {expected:?}"
    ))
}

/// Mostly 1 to 64 weights of one sort; once in a while one of them is too large, or there are too many or none.
fn weights(draws: &mut Draws) -> Vec<u32> {
    let count = match draws.below(12) {
        0 => [0, MOST_WEIGHTS + 1, MOST_WEIGHTS + 2, MOST_WEIGHTS - 1][draws.below(4)],
        1 => MOST_WEIGHTS,
        2 => 1,
        3..=6 => draws.below(6) + 1,
        _ => draws.below(MOST_WEIGHTS) + 1,
    };
    let limit = WEIGHT_LIMIT as usize;
    let equal = [1, 2, 1_000, limit - 1][draws.below(4)];
    let sort = draws.below(9);
    let mut weights: Vec<u32> = Vec::new();
    for _ in 0..count {
        let weight = match sort {
            0 => equal,
            1 => draws.below(3),
            2 => draws.below(10),
            3 => draws.below(1_000),
            4 => draws.below(limit),
            5 => limit - 1 - draws.below(3),
            6 => draws.below(2) * equal,
            7 => 1 << draws.below(24),
            _ => 0,
        };
        weights.push(weight as u32);
    }
    if count > 0 && (sort == 8 && !draws.once_in(3)) {
        // One weight or a few among zeros.
        for _ in 0..draws.below(3) + 1 {
            let at = draws.below(count);
            weights[at] = draws.below(limit) as u32;
        }
    }
    if count > 0 && draws.once_in(12) {
        let at = draws.below(count);
        weights[at] = [WEIGHT_LIMIT, WEIGHT_LIMIT + 1, u32::MAX][draws.below(3)];
    }
    weights
}

/// From nothing to more than the limit; often near a multiple of the weights' sum, where the remainders are none or nearly so.
fn fee(weights: &[u32], draws: &mut Draws) -> u64 {
    let total: u64 = weights.iter().map(|weight| u64::from(*weight)).sum();
    match draws.below(16) {
        0 => 0,
        1 | 2 => draws.bits() % 4,
        3 | 4 => draws.bits() % 200,
        5 | 6 => draws.bits() % 100_000,
        7 => FEE_LIMIT,
        8 => FEE_LIMIT - draws.bits() % 100,
        9 => FEE_LIMIT + 1 + draws.bits() % 2 * (draws.bits() % 100),
        10 => draws.bits(),
        11..=13 => (draws.bits() % 20 * total + draws.bits() % 7).min(FEE_LIMIT),
        _ => draws.bits() % (FEE_LIMIT + 1),
    }
}

/// As many as the weights; once in a while not.
fn places(weights: usize, draws: &mut Draws) -> usize {
    match draws.below(48) {
        0 => 0,
        1 => weights + 1,
        2 => weights.saturating_sub(1),
        3 => draws.below(70),
        _ => weights,
    }
}

fn amount(draws: &mut Draws) -> u64 {
    match draws.below(6) {
        0 => draws.bits() % 4,
        1 => draws.bits(),
        2 => FEE_LIMIT - draws.bits() % 3,
        3 => u64::MAX - draws.bits() % 3,
        _ => draws.bits() % (FEE_LIMIT + 1),
    }
}

/// Two amounts whose sum is near the limit, or near 2 to the 64th, on either side.
fn near_an_edge(draws: &mut Draws, tried: &mut Tried) -> Result<(), String> {
    let small = draws.bits() % 3;
    let a = draws.bits() % (FEE_LIMIT + 1);
    add(a, FEE_LIMIT - a + small, tried)?;
    add(a, (FEE_LIMIT - a).saturating_sub(small), tried)?;
    let a = draws.bits();
    add(a, (u64::MAX - a).wrapping_add(small), tried)?;
    // The sum in 64 bits would be an amount again.
    let a = u64::MAX - draws.bits() % FEE_LIMIT;
    add(a, draws.bits() % (FEE_LIMIT + 1), tried)
}
