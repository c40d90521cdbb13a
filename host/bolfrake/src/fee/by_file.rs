//! A fee over the study variables of an accepted file.

use std::ffi::OsString;
use std::io;

use mztab::{Refusal, STUDY_VARIABLES};

use super::amount;
use super::variables::variables;
use super::Split;
use crate::files::judged::unaccepted;
use crate::files::{self, Unread};
use crate::output::in_order::in_order;
use crate::words::failure::Failure;
use crate::words::misused;

/// FILE AMOUNT
pub fn split(plain: Vec<OsString>) -> Result<Split, Failure> {
    let [file, amount]: [OsString; 2] = match plain.try_into() {
        Ok(two) => two,
        Err(_) => return Err(misused("fee", "takes FILE AMOUNT, or --weights and AMOUNT")),
    };
    let fee = amount::read(&amount).map_err(|failure| match amount::read(&file) {
        Ok(_) => misused("fee", "takes FILE first and AMOUNT after it"),
        Err(_) => failure,
    })?;
    let (name, file) = files::one(file)?;
    // As every judging call on a thread, whose stack is known: the main one's may be too small.
    let mut answers = in_order(1, &mut io::sink(), |_, _| weights_of(&name, &file))?;
    let weights = answers.swap_remove(0)?;
    let shares = mztab::split_fee(fee, &weights).map_err(|refusal| unsplit(&name, refusal))?;
    let variables = variables(&file);
    let mut split = Split::new(Some(name));
    for (k, variable) in variables.iter().enumerate() {
        let description = variable.description.map(<[u8]>::to_vec);
        split.add(k + 1, description, weights[k], shares[k], variable.declared);
    }
    Ok(split)
}

/// The weights of an accepted file. Of another there are none: it has to be mended first.
fn weights_of(name: &str, file: &[u8]) -> Result<[u32; STUDY_VARIABLES], Failure> {
    mztab::weights(file).map_err(|refusal| match (refusal, mztab::count(file)) {
        (Refusal::NotAccepted, Ok(breaks)) => {
            let words = unaccepted(name, breaks, "no fee is split over it");
            Failure::Refused(format!("{name} {words}"))
        }
        _ => unsplit(name, refusal),
    })
}

/// Why a fee is not split over a file.
fn unsplit(name: &str, refusal: Refusal) -> Failure {
    match refusal {
        Refusal::TooLong => Failure::Stopped(format!("{name} {}", Unread::TooLong)),
        Refusal::AllZero => Failure::Refused(format!(
            "{name} has no study variable with a weight: no protein row has a cell other than `null` under a column `protein_abundance_study_variable[n]`. \
            Fill these columns, or give weights by --weights"
        )),
        other => Failure::Refused(format!("no fee is split over {name}: {other}")),
    }
}
