//! Request 2026-10, "Split the fee": adding amounts, and the split by weights.

/// "One fee in whole cents, at most 100,000,000,000"
pub const FEE_LIMIT: u64 = 100_000_000_000;

/// "1 to 64 weights"
pub const MOST_WEIGHTS: usize = 64;

/// "each below 16,777,216"
pub const WEIGHT_LIMIT: u32 = 16_777_216;

/// "15 number of weights, or another number of shares"
const WRONG_NUMBER: u32 = 15;
/// "16 fee or a weight too large"
const TOO_LARGE: u32 = 16;
/// "17 all weights zero"
const ALL_ZERO: u32 = 17;

/// "Amounts are a type with a zero and addition, refused 16, giving zero, past
/// the fee limit." The sum, or the number of the refusal.
pub fn add(a: u64, b: u64) -> Result<u64, u32> {
    let sum = u128::from(a) + u128::from(b);
    if sum > u128::from(FEE_LIMIT) {
        return Err(TOO_LARGE);
    }
    Ok(sum as u64)
}

/// The shares of the fee, one for each weight, or the number of the refusal;
/// `places` is how many shares are lent. "in that order, shares untouched"
pub fn split(fee: u64, weights: &[u32], places: usize) -> Result<Vec<u64>, u32> {
    if weights.is_empty() || weights.len() > MOST_WEIGHTS || places != weights.len() {
        return Err(WRONG_NUMBER);
    }
    if fee > FEE_LIMIT || weights.iter().any(|weight| *weight >= WEIGHT_LIMIT) {
        return Err(TOO_LARGE);
    }
    if weights.iter().all(|weight| *weight == 0) {
        return Err(ALL_ZERO);
    }
    Ok(shares(fee, weights))
}

/// One share on its way.
struct Part {
    number: usize,
    cents: u128,
    remainder: u128,
}

/// "Each share is the rounded-down proportion; cents left over go one each to
/// the largest remainders, the lower number first among equals."
fn shares(fee: u64, weights: &[u32]) -> Vec<u64> {
    let fee = u128::from(fee);
    let total: u128 = weights.iter().map(|weight| u128::from(*weight)).sum();
    let mut parts: Vec<Part> = Vec::new();
    for (number, weight) in weights.iter().enumerate() {
        let product = fee * u128::from(*weight);
        parts.push(Part {
            number,
            cents: product / total,
            remainder: product % total,
        });
    }
    let given: u128 = parts.iter().map(|part| part.cents).sum();
    let left = (fee - given) as usize;
    parts.sort_by(|a, b| (b.remainder, a.number).cmp(&(a.remainder, b.number)));
    for part in &mut parts[..left] {
        part.cents += 1;
    }
    parts.sort_by_key(|part| part.number);
    parts.iter().map(|part| part.cents as u64).collect()
}

#[cfg(test)]
mod tests {
    use super::*;

    #[test]
    fn sums() {
        assert_eq!(add(0, 0), Ok(0));
        assert_eq!(add(40, 2), Ok(42));
        assert_eq!(add(FEE_LIMIT, 0), Ok(FEE_LIMIT));
        assert_eq!(add(1, FEE_LIMIT), Err(16));
        assert_eq!(add(u64::MAX, 1), Err(16));
        assert_eq!(add(u64::MAX, u64::MAX), Err(16));
    }

    #[test]
    fn remainders_in_order() {
        // A third and two thirds of one cent: the larger remainder.
        assert_eq!(split(1, &[1, 2], 2), Ok(vec![0, 1]));
        assert_eq!(split(1, &[2, 1], 2), Ok(vec![1, 0]));
        // Half a cent each: the lower number.
        assert_eq!(split(3, &[1, 1], 2), Ok(vec![2, 1]));
        // Remainders 5/6, 4/6 and 3/6, two cents left.
        assert_eq!(split(5, &[1, 2, 3], 3), Ok(vec![1, 2, 2]));
    }

    #[test]
    fn refusals() {
        assert_eq!(split(1, &[], 0), Err(15));
        assert_eq!(split(1, &[1], 2), Err(15));
        assert_eq!(split(1, &[1; 65], 65), Err(15));
        assert_eq!(split(FEE_LIMIT + 1, &[1], 1), Err(16));
        assert_eq!(split(1, &[WEIGHT_LIMIT], 1), Err(16));
        assert_eq!(split(1, &[0, 0], 2), Err(17));
    }
}
