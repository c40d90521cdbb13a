//! Repeats keys, headers and names of a file: next to the first and far from it, mostly more than once, and beside what is near to an equal
//! one and is none.

use independent::lines::{self, Code};
use samples::Draws;

/// So often something is repeated, and so often each comes again, at most.
const MOST: usize = 4;
/// The codes of headers.
const HEADERS: [&[u8]; 4] = [b"PRH", b"PEH", b"PSH", b"SMH"];
/// With so many tabs a header is too wide.
const TOO_WIDE: usize = 256;

pub fn repeat(file: &mut Vec<u8>, draws: &mut Draws) {
    let mut all = pieces(file, b'\n');
    for _ in 0..draws.below(MOST) + 1 {
        match draws.below(3) {
            0 => repeat_line(&mut all, is_metadata, near_metadata, draws),
            1 => repeat_line(&mut all, is_header, near_header, draws),
            _ => repeat_name(&mut all, draws),
        }
    }
    *file = all.join(&b'\n');
}

fn pieces(bytes: &[u8], cut: u8) -> Vec<Vec<u8>> {
    bytes
        .split(|byte| *byte == cut)
        .map(<[u8]>::to_vec)
        .collect()
}

fn is_metadata(code: Code) -> bool {
    matches!(code, Code::Metadata)
}

fn is_header(code: Code) -> bool {
    matches!(code, Code::Header(_))
}

/// Some line of such a code, if there is one.
fn some_line(all: &[Vec<u8>], such: fn(Code) -> bool, draws: &mut Draws) -> Option<usize> {
    let places: Vec<usize> = (0..all.len())
        .filter(|at| such(lines::code(&all[*at])))
        .collect();
    if places.is_empty() {
        return None;
    }
    Some(places[draws.below(places.len())])
}

/// Right below a line, right above it, or anywhere.
fn place(at: usize, all: &[Vec<u8>], draws: &mut Draws) -> usize {
    match draws.below(6) {
        0 => at,
        1 | 2 => at + 1,
        _ => draws.below(all.len() + 1),
    }
}

/// A line of such a code comes again, in copies that are near to it.
fn repeat_line(
    all: &mut Vec<Vec<u8>>,
    such: fn(Code) -> bool,
    near: fn(&[u8], &mut Draws) -> Vec<u8>,
    draws: &mut Draws,
) {
    if let Some(at) = some_line(all, such, draws) {
        let line = all[at].clone();
        for _ in 0..draws.below(MOST) + 1 {
            let to = place(at, all, draws);
            all.insert(to, near(&line, draws));
        }
    }
}

/// An MTD line, with another value, or a cell less or more.
fn near_metadata(line: &[u8], draws: &mut Draws) -> Vec<u8> {
    let mut cells = pieces(line, b'\t');
    match draws.below(8) {
        0 | 1 => cells.truncate(2),
        2 => cells.push(b"x".to_vec()),
        3 => {
            cells.truncate(2);
            cells.push(b"[,,x,]".to_vec());
        }
        _ => (),
    }
    cells.join(&b'\t')
}

/// A header, with only the code, too wide, or with the code of another section.
fn near_header(line: &[u8], draws: &mut Draws) -> Vec<u8> {
    let (code, names) = line.split_at(3);
    match draws.below(10) {
        0 => code.to_vec(),
        1 => [code, &vec![b'\t'; TOO_WIDE]].concat(),
        2..=4 => [HEADERS[draws.below(HEADERS.len())], names].concat(),
        _ => line.to_vec(),
    }
}

/// A name of a header comes again in it, in place of others and beside them.
fn repeat_name(all: &mut [Vec<u8>], draws: &mut Draws) {
    if let Some(at) = some_line(all, is_header, draws) {
        let (line, end) = match all[at].strip_suffix(b"\r") {
            Some(line) => (line, b"\r" as &[u8]),
            None => (all[at].as_slice(), b"" as &[u8]),
        };
        let mut cells = pieces(line, b'\t');
        if cells.len() > 1 {
            let name = cells[draws.below(cells.len() - 1) + 1].clone();
            for _ in 0..draws.below(MOST) + 1 {
                put_name(&mut cells, &name, draws);
            }
        }
        all[at] = [&cells.join(&b'\t'), end].concat();
    }
}

fn put_name(cells: &mut Vec<Vec<u8>>, name: &[u8], draws: &mut Draws) {
    let at = draws.below(cells.len()) + 1;
    if at < cells.len() && draws.once_in(2) {
        cells[at] = name.to_vec();
    } else {
        cells.insert(at, name.to_vec());
    }
}

#[cfg(test)]
mod tests {
    use super::*;
    use crate::firsts::{mistaken, AGAIN, MISTAKEN};

    const FILE: &[u8] =
        b"MTD\ttitle\ta\nMTD\turi[1]\ta\r\nPRH\taccession\turi\nPRT\ta\tb\n\nPEH\tsequence\turi\r\nCOM\n";

    /// Each rule is broken, and its first can be mistaken, in one file of 30 at least.
    #[test]
    fn what_comes_again_is_broken_often() {
        let mut draws = Draws::new(3);
        let mut all = Vec::new();
        for _ in 0..3_000 {
            let mut file = FILE.to_vec();
            repeat(&mut file, &mut draws);
            let breaks = independent::judge(&file).expect("it is short");
            let mut one = mistaken(&file, &breaks);
            one.sort();
            one.dedup();
            all.extend(one);
        }
        for rule in AGAIN {
            for such in MISTAKEN {
                let count = all.iter().filter(|one| **one == (rule, such)).count();
                assert!(count > 100, "rule {rule}, {such:?}: {count}");
            }
        }
    }

    #[test]
    fn a_file_with_nothing_to_repeat() {
        let mut draws = Draws::new(4);
        for bytes in [b"" as &[u8], b"\n", b"COM\n", b"PRT\ta\n", b"x"] {
            let mut file = bytes.to_vec();
            repeat(&mut file, &mut draws);
            assert_eq!(file, bytes);
        }
    }
}
