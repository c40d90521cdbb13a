//! Amounts of money, in cents: read strictly, since a fee that is misread is a wrong bill, and written with two places.

use std::ffi::OsStr;
use std::os::unix::ffi::OsStrExt;

use mztab::FEE_LIMIT;

use crate::output::show;
use crate::words::failure::Failure;
use crate::words::misused;

/// The cents of an amount as people write it: `1234`, `1234.5`, `1234.56`.
pub fn read(word: &OsStr) -> Result<u64, Failure> {
    // What is no UTF-8 is no amount, and is then told byte by byte.
    let text = word.to_str().unwrap_or("?");
    let shown = show::cell(word.as_bytes());
    cents(text).map_err(|wrong| misused("fee", &wrong.words(&shown)))
}

/// What is wrong with a word that is no amount.
enum Wrong {
    Empty,
    NoDigits,
    /// So many after the dot.
    Places(usize),
    TooLarge,
}

impl Wrong {
    fn words(&self, shown: &str) -> String {
        match self {
            Wrong::Empty => "takes an AMOUNT as 1234 or 1234.56, and it is empty".to_string(),
            Wrong::NoDigits => format!("takes an AMOUNT as 1234 or 1234.56, and `{shown}` is none: write digits alone, or digits, a dot and the cents, without sign, currency, comma or space"),
            Wrong::Places(count) => format!("takes an AMOUNT with at most two places after the dot, and `{shown}` has {count}: round it to whole cents"),
            Wrong::TooLarge => format!(
                "takes an AMOUNT of at most {}, and `{shown}` is more: split it in parts",
                plain(FEE_LIMIT)
            ),
        }
    }
}

fn cents(text: &str) -> Result<u64, Wrong> {
    if text.is_empty() {
        return Err(Wrong::Empty);
    }
    let (whole, places) = text.split_once('.').unwrap_or((text, "00"));
    if !is_digits(whole) || !is_digits(places) {
        return Err(Wrong::NoDigits);
    }
    if places.len() > 2 {
        return Err(Wrong::Places(places.len()));
    }
    let tens = if places.len() == 1 { 10 } else { 1 };
    let rest = places.parse::<u64>().ok().map(|cents| cents * tens);
    let cents = whole.parse::<u64>().ok().and_then(|n| n.checked_mul(100));
    let cents = cents.zip(rest).and_then(|(a, b)| a.checked_add(b));
    cents
        .filter(|cents| *cents <= FEE_LIMIT)
        .ok_or(Wrong::TooLarge)
}

fn is_digits(text: &str) -> bool {
    !text.is_empty() && text.bytes().all(|byte| byte.is_ascii_digit())
}

/// An amount for programs: `1234.56`.
pub fn plain(cents: u64) -> String {
    format!("{}.{:02}", cents / 100, cents % 100)
}

/// An amount for people: `1,234.56`.
pub fn grouped(cents: u64) -> String {
    format!("{}.{:02}", show::count(cents / 100), cents % 100)
}

#[cfg(test)]
mod tests {
    use super::*;

    #[test]
    fn amounts() {
        for (text, cents) in [
            ("0", 0),
            ("0.00", 0),
            ("0.01", 1),
            ("0.1", 10),
            ("7", 700),
            ("007", 700),
            ("1234", 123_400),
            ("1234.5", 123_450),
            ("1234.05", 123_405),
            ("1234.56", 123_456),
            ("1000000000", FEE_LIMIT),
            ("1000000000.00", FEE_LIMIT),
            ("000000000000000000000000000001000000000.0", FEE_LIMIT),
        ] {
            assert_eq!(read(OsStr::new(text)).unwrap(), cents, "{text}");
        }
    }

    fn wrong(word: &[u8]) -> String {
        read(OsStr::from_bytes(word)).unwrap_err().to_string()
    }

    #[test]
    fn what_is_no_amount() {
        for word in [
            ".", "5.", ".5", "-5", "+5", "-5.00", "1,234.56", "1234,56", "1 234", " 5", "5 ", "5€",
            "$5", "1e3", "0x10", "1.2.3", "five", "5.-1", "١", "1_000", "a.mztab",
        ] {
            let said = wrong(word.as_bytes());
            assert!(said.contains(&format!("and `{word}` is none")), "{said}");
        }
        assert!(wrong(b"5\xff").contains("and `5\\xFF` is none"));
        assert!(wrong(b"\x1b[31m").contains("and `\\x1B[31m` is none"));
        assert!(wrong(b"").contains("and it is empty"));
    }

    #[test]
    fn too_many_places() {
        for (word, places) in [("0.000", 3), ("12.345", 3), ("1.0000", 4)] {
            let said = wrong(word.as_bytes());
            assert!(
                said.contains(&format!("and `{word}` has {places}")),
                "{said}"
            );
        }
    }

    #[test]
    fn past_the_limit() {
        for word in [
            "1000000000.01",
            "1000000001",
            "184467440737095516.16",
            "184467440737095517",
            "18446744073709551615.99",
            "99999999999999999999999999",
        ] {
            let said = wrong(word.as_bytes());
            assert!(
                said.contains(&format!("at most 1000000000.00, and `{word}` is more")),
                "{said}"
            );
        }
    }

    #[test]
    fn written() {
        assert_eq!(plain(0), "0.00");
        assert_eq!(plain(5), "0.05");
        assert_eq!(plain(123_456), "1234.56");
        assert_eq!(grouped(123_456), "1,234.56");
        assert_eq!(grouped(FEE_LIMIT), "1,000,000,000.00");
    }
}
