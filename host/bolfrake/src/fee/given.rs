//! A fee over weights that are given in place of a file.

use std::ffi::{OsStr, OsString};
use std::os::unix::ffi::OsStrExt;

use mztab::{Refusal, STUDY_VARIABLES, WEIGHT_LIMIT};

use super::amount;
use super::Split;
use crate::output::show;
use crate::words::failure::Failure;
use crate::words::misused;

/// --weights W,W,... AMOUNT
pub fn split(given: &OsStr, plain: Vec<OsString>) -> Result<Split, Failure> {
    let [amount]: [OsString; 1] = match plain.try_into() {
        Ok(one) => one,
        Err(_) => {
            return Err(misused(
                "fee",
                "takes AMOUNT alone beside --weights, which stand in place of FILE",
            ))
        }
    };
    let fee = amount::read(&amount)?;
    let weights = read_weights(given)?;
    let shares = mztab::split_fee(fee, &weights)
        .map_err(|refusal| misused("fee", &misweighed(refusal, &weights)))?;
    let mut split = Split::new(None);
    for (k, (weight, cents)) in weights.iter().zip(shares).enumerate() {
        split.add(k + 1, None, *weight, cents, true);
    }
    Ok(split)
}

/// The numbers of `3,2,2`. One that is larger than 32 bits hold is refused as the largest is.
fn read_weights(given: &OsStr) -> Result<Vec<u32>, Failure> {
    let numbers = given.as_bytes().split(|byte| *byte == b',').map(|part| {
        let digits = !part.is_empty() && part.iter().all(u8::is_ascii_digit);
        let text = std::str::from_utf8(part).ok().filter(|_| digits)?;
        Some(text.parse().unwrap_or(u32::MAX))
    });
    numbers.collect::<Option<_>>().ok_or_else(|| {
        misused(
            "fee",
            &format!(
                "takes --weights as 3,2,2, whole numbers with a comma between them, and `{}` is none",
                show::cell(given.as_bytes())
            ),
        )
    })
}

/// What is wrong with weights that were given.
fn misweighed(refusal: Refusal, weights: &[u32]) -> String {
    match refusal {
        Refusal::NotAsMany => format!(
            "takes 1 to {STUDY_VARIABLES} weights, and {} are given",
            weights.len()
        ),
        Refusal::TooLarge => {
            let large = weights.iter().position(|weight| *weight >= WEIGHT_LIMIT);
            format!(
                "takes weights below {}, and number {} is not: divide all of them by the same number",
                show::count(u64::from(WEIGHT_LIMIT)),
                large.map_or(0, |k| k + 1)
            )
        }
        Refusal::AllZero => {
            "needs a weight above 0 to split by, and all that are given are 0".to_string()
        }
        other => format!("cannot split over these weights: {other}"),
    }
}
