//! "The kinds of value". Each function looks at the bytes alone; that `null`
//! stands for missing in table cells is said where cells are judged.

const MARK: u8 = b'"';
const BAR: u8 = b'|';
const COMMA: u8 = b',';
const SPACE: u8 = b' ';

/// "Index: 1 to 64, decimal, no leading zero, in square brackets."
/// Gives the index that stands at the front, and the bytes after its bracket.
pub fn index(bytes: &[u8]) -> Option<(u32, &[u8])> {
    let (number, rest) = bracket(bytes)?;
    match index_of(number) {
        Ok(value) => Some((value, rest)),
        Err(_) => None,
    }
}

/// What is wrong with an index that is none, of request 2026-05.
#[derive(Clone, Copy, Debug, PartialEq, Eq)]
pub enum Bad {
    /// "zero or leading zero"
    Zero,
    /// "over 64"
    Over,
}

/// The digits in the brackets that stand at the front, and the bytes after
/// these. "Brackets empty or not all digits stay as they are": nothing is given
/// for them.
pub fn bracket(bytes: &[u8]) -> Option<(&[u8], &[u8])> {
    let inside = bytes.strip_prefix(b"[")?;
    let end = inside.iter().position(|b| !b.is_ascii_digit())?;
    match (&inside[..end], &inside[end..]) {
        ([], _) => None,
        (number, [b']', rest @ ..]) => Some((number, rest)),
        _ => None,
    }
}

/// The index that digits are, or "what is wrong with" it: "zero or leading zero,
/// else [...] over 64".
pub fn index_of(number: &[u8]) -> Result<u32, Bad> {
    match number {
        [b'0', ..] => Err(Bad::Zero),
        [one] => Ok(digit(*one)),
        [ten, one] if 10 * digit(*ten) + digit(*one) <= 64 => Ok(10 * digit(*ten) + digit(*one)),
        _ => Err(Bad::Over),
    }
}

fn digit(byte: u8) -> u32 {
    u32::from(byte - b'0')
}

/// "Text: one byte or more."
pub fn text(bytes: &[u8]) -> bool {
    !bytes.is_empty()
}

/// "Whole: an optional minus, then 1 to 9 digits. Leading zeros are allowed."
pub fn whole(bytes: &[u8]) -> bool {
    let rest = after_minus(bytes);
    digits(rest) && rest.len() <= 9
}

/// "Decimal: an optional minus, digits, and optionally a dot with digits after
/// it; or `INF`; or `NaN`." The request 2026-04: "A decimal may end in `E` or
/// `e`, an optional plus or minus and 1 to 3 digits; `INF` and `NaN` take none."
pub fn decimal(bytes: &[u8]) -> bool {
    bytes == b"INF" || bytes == b"NaN" || numeral(bytes)
}

/// A decimal that is neither `INF` nor `NaN`.
pub fn numeral(bytes: &[u8]) -> bool {
    let (before, after) = at_exponent(bytes);
    mantissa(before) && after.map_or(true, exponent)
}

/// The bytes before the first `E` or `e`, and those after it where there is one.
pub fn at_exponent(bytes: &[u8]) -> (&[u8], Option<&[u8]>) {
    match bytes.iter().position(|b| matches!(b, b'E' | b'e')) {
        None => (bytes, None),
        Some(letter) => (&bytes[..letter], Some(&bytes[letter + 1..])),
    }
}

/// "an optional minus, digits, and optionally a dot with digits after it"
/// "At least one digit on each side of a dot."
fn mantissa(bytes: &[u8]) -> bool {
    let rest = after_minus(bytes);
    match rest.iter().position(|b| *b == b'.') {
        None => digits(rest),
        Some(dot) => digits(&rest[..dot]) && digits(&rest[dot + 1..]),
    }
}

/// "an optional plus or minus and 1 to 3 digits"
fn exponent(bytes: &[u8]) -> bool {
    let rest = match bytes {
        [b'+' | b'-', rest @ ..] => rest,
        _ => bytes,
    };
    digits(rest) && rest.len() <= 3
}

/// The bytes after "an optional minus".
pub fn after_minus(bytes: &[u8]) -> &[u8] {
    bytes.strip_prefix(b"-").unwrap_or(bytes)
}

/// One digit or more and nothing else.
fn digits(bytes: &[u8]) -> bool {
    !bytes.is_empty() && bytes.iter().all(|b| b.is_ascii_digit())
}

/// "Decimal list: decimals separated by `|`." One alone is a list.
pub fn decimal_list(bytes: &[u8]) -> bool {
    bytes.split(|b| *b == BAR).all(decimal)
}

/// "Window: exactly two."
pub fn window(bytes: &[u8]) -> bool {
    decimal_list(bytes) && bytes.iter().filter(|b| **b == BAR).count() == 1
}

/// "Parameter: first byte `[`, last byte a `]` of its own, and between them
/// exactly three commas that stand outside quotation marks."
pub fn parameter(bytes: &[u8]) -> bool {
    match bytes {
        [b'[', between @ .., b']'] => between_brackets(between),
        _ => false,
    }
}

/// "Outside a quotation a mark opens one, inside it the next mark closes it;
/// none is open at the end. The third field holds something besides spaces."
fn between_brackets(bytes: &[u8]) -> bool {
    match cut_outside_marks(bytes, COMMA) {
        // Three commas make four fields.
        Some(fields) => fields.len() == 4 && fields[2].iter().any(|b| *b != SPACE),
        None => false,
    }
}

/// The pieces between the separators that stand outside quotation marks, or
/// nothing where a quotation is open at the end.
fn cut_outside_marks(bytes: &[u8], separator: u8) -> Option<Vec<&[u8]>> {
    let mut pieces = Vec::new();
    let mut open = false;
    let mut start = 0;
    for (at, byte) in bytes.iter().enumerate() {
        if *byte == MARK {
            open = !open;
        } else if *byte == separator && !open {
            pieces.push(&bytes[start..at]);
            start = at + 1;
        }
    }
    pieces.push(&bytes[start..]);
    if open {
        None
    } else {
        Some(pieces)
    }
}

/// "Parameter list: one or more parameters; each `|` outside quotation marks
/// separates." The marks are counted over the whole value.
pub fn parameter_list(bytes: &[u8]) -> bool {
    match cut_outside_marks(bytes, BAR) {
        Some(pieces) => pieces.into_iter().all(parameter),
        None => false,
    }
}

/// "Reference: `sample[i]`, `assay[i]`, `study_variable[i]` or `ms_run[i]`, as
/// the key asks." The index, or 0 where the bytes are no such reference.
pub fn reference(family_word: &str, bytes: &[u8]) -> u32 {
    match number_of_reference(family_word, bytes).map(index_of) {
        Some(Ok(value)) => value,
        _ => 0,
    }
}

/// The digits of what is a reference, or would be one "but for its indices".
fn number_of_reference<'a>(family_word: &str, bytes: &'a [u8]) -> Option<&'a [u8]> {
    match bytes.strip_prefix(family_word.as_bytes()).and_then(bracket) {
        Some((number, [])) => Some(number),
        _ => None,
    }
}

/// "Reference list: one or more, separated by a comma, zero or more spaces
/// after it. The same id may come twice."
pub fn reference_list(family_word: &str, bytes: &[u8]) -> Option<Vec<u32>> {
    let mut found = Vec::new();
    for piece in pieces_of_list(bytes) {
        match reference(family_word, piece) {
            0 => return None,
            value => found.push(value),
        }
    }
    Some(found)
}

/// What stands between the commas of a reference list, the spaces after each
/// comma apart.
fn pieces_of_list(bytes: &[u8]) -> impl Iterator<Item = &[u8]> + '_ {
    let pieces = bytes.split(|b| *b == COMMA).enumerate();
    pieces.map(|(k, piece)| if k == 0 { piece } else { after_spaces(piece) })
}

/// What is wrong with the bad index of a reference that would be one "but for
/// its indices".
pub fn bad_reference(family_word: &str, bytes: &[u8]) -> Option<Bad> {
    index_of(number_of_reference(family_word, bytes)?).err()
}

/// The same of a reference list: each of its pieces is a reference or would be
/// one "but for its indices", and "the leftmost bad one decides".
pub fn bad_reference_list(family_word: &str, bytes: &[u8]) -> Option<Bad> {
    let numbers: Option<Vec<&[u8]>> = pieces_of_list(bytes)
        .map(|piece| number_of_reference(family_word, piece))
        .collect();
    leftmost_bad(&numbers?)
}

/// "the leftmost bad one decides"
pub fn leftmost_bad(numbers: &[&[u8]]) -> Option<Bad> {
    numbers.iter().find_map(|number| index_of(number).err())
}

fn after_spaces(bytes: &[u8]) -> &[u8] {
    let count = bytes.iter().take_while(|b| **b == SPACE).count();
    &bytes[count..]
}
