//! Cases written by hand from the paper, each with what is to be expected.
//! The tests compare them; the `make-` modes of the binary write them out as
//! inputs.

pub mod cells;
pub mod counts;
pub mod edits;
pub mod fee;
pub mod holes;
pub mod judging;
pub mod kinds;
pub mod lines;
pub mod mends;
pub mod names;
pub mod records;
pub mod tallies;
pub mod weights;

use crate::printing::END;

/// Several files, each ended by the byte 30.
pub fn judges_input() -> Vec<u8> {
    let mut out = Vec::new();
    for case in judging::all() {
        assert!(!case.file.contains(&END));
        out.extend(case.file);
        out.push(END);
    }
    out
}

/// Several cases, each ended by the byte 30: questions, a line `.`, the file.
pub fn cells_input() -> Vec<u8> {
    let mut out = Vec::new();
    for case in cells::all() {
        assert!(!case.file.contains(&END));
        for ((section, row, column), _) in case.questions {
            out.extend(format!("{section} {row} {column}\n").into_bytes());
        }
        out.extend(b".\n");
        out.extend(case.file);
        out.push(END);
    }
    out
}

/// One value on each line.
pub fn kinds_input() -> Vec<u8> {
    let mut out = Vec::new();
    for (value, _) in kinds::all() {
        assert!(!value.contains(&b'\n'));
        out.extend(value);
        out.push(b'\n');
    }
    out
}

/// One name on each line.
pub fn names_input() -> Vec<u8> {
    let mut out = Vec::new();
    for name in names::all() {
        assert!(!name.contains(&b'\n'));
        out.extend(name);
        out.push(b'\n');
    }
    out
}

/// One case on each line.
pub fn fees_input() -> Vec<u8> {
    let lines = fee::all().into_iter().map(|case| case.line() + "\n");
    lines.collect::<String>().into_bytes()
}

/// Several files, each ended by the byte 30.
pub fn weights_input() -> Vec<u8> {
    let mut out = Vec::new();
    for case in weights::all() {
        assert!(!case.file.contains(&END));
        out.extend(case.file);
        out.push(END);
    }
    out
}

/// Several files, each ended by the byte 30: those of the cases, and of each edit
/// the file before it and after it.
pub fn lines_input() -> Vec<u8> {
    let edits = edits::all().into_iter();
    let of_edits = edits.flat_map(|edit| [edit.before, edit.after]);
    let of_cases = lines::all().into_iter().map(|case| case.file);
    let mut out = Vec::new();
    for file in of_cases.chain(of_edits) {
        assert!(!file.contains(&END));
        out.extend(file);
        out.push(END);
    }
    out
}

/// So many drawn files stand in the table of files with holes, and so many in
/// that of files with counts.
const WITH_HOLES: usize = 600;
const WITH_COUNTS: usize = 200;

/// Several files, each ended by the byte 30: those of the cases, then drawn ones.
pub fn mends_input() -> Vec<u8> {
    let of_cases = mends::all().into_iter().map(|case| case.file);
    let mut out = Vec::new();
    for file in of_cases.chain(holes::files(WITH_HOLES)) {
        assert!(!file.contains(&END));
        out.extend(file);
        out.push(END);
    }
    out
}

/// Several files, each ended by the byte 30: those of the cases, then drawn ones.
pub fn tallies_input() -> Vec<u8> {
    let of_cases = tallies::all().into_iter().map(|case| case.file);
    let mut out = Vec::new();
    for file in of_cases.chain(counts::files(WITH_COUNTS)) {
        assert!(!file.contains(&END));
        out.extend(file);
        out.push(END);
    }
    out
}

/// Numbers that look random and depend on the seed alone (splitmix64), each
/// below the one that is asked for.
fn numbers(seed: u64) -> impl FnMut(usize) -> usize {
    let mut state = seed;
    move |n| {
        state = state.wrapping_add(0x9e37_79b9_7f4a_7c15);
        let mut z = state;
        z = (z ^ (z >> 30)).wrapping_mul(0xbf58_476d_1ce4_e5b9);
        z = (z ^ (z >> 27)).wrapping_mul(0x94d0_49bb_1331_11eb);
        ((z ^ (z >> 31)) % n as u64) as usize
    }
}

/// Bytes with a tab for each arrow `→`.
pub fn tabs(text: impl AsRef<[u8]>) -> Vec<u8> {
    let arrow = "→".as_bytes();
    let mut rest = text.as_ref();
    let mut out = Vec::new();
    while let Some(byte) = rest.first() {
        if rest.starts_with(arrow) {
            out.push(b'\t');
            rest = &rest[arrow.len()..];
        } else {
            out.push(*byte);
            rest = &rest[1..];
        }
    }
    out
}
