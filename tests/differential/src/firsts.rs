//! What the firsts of a file's breaks could be mistaken for: a reading that takes one of these in place of the first is seen to differ.

use std::collections::{BTreeMap, HashMap, HashSet};

pub use independent::cases::judging::AGAIN;
use independent::lines::{self, Code};
use independent::Break;

#[derive(Clone, Copy, Debug, PartialEq, Eq, PartialOrd, Ord)]
pub enum Mistaken {
    /// Another equal key, header or name stands between the first and the break.
    Nearest,
    /// Above the first stands what is near to it and is none: an MTD line with the key that has not three cells, a header of another section,
    /// an equal name in an earlier header.
    Near,
}

/// Each rule has files of both.
pub const MISTAKEN: [Mistaken; 2] = [Mistaken::Nearest, Mistaken::Near];

/// The rule of each break of what comes again, and what its first could be mistaken for.
pub fn mistaken(file: &[u8], breaks: &[Break]) -> Vec<(u32, Mistaken)> {
    let again: Vec<&Break> = (breaks.iter())
        .filter(|at| AGAIN.contains(&at.rule))
        .collect();
    if again.is_empty() {
        return Vec::new();
    }
    let mut all = not_the_nearest(&again);
    all.extend(below_a_near_one(file, &again));
    all
}

/// The breaks that have another break of the same first above or before them: that one is nearer.
fn not_the_nearest(again: &[&Break]) -> Vec<(u32, Mistaken)> {
    let mut seen = HashSet::new();
    let mut all = Vec::new();
    for at in again {
        let header = if at.rule == 13 { at.line } else { 0 };
        if !seen.insert((at.rule, header, at.first)) {
            all.push((at.rule, Mistaken::Nearest));
        }
    }
    all
}

/// The breaks whose first has above it what is near to it.
fn below_a_near_one(file: &[u8], again: &[&Break]) -> Vec<(u32, Mistaken)> {
    let lines: Vec<&[u8]> = lines::lines(file).collect();
    let near = Near::of(&lines);
    let mut all = Vec::new();
    for at in again {
        let line = lines[at.line as usize - 1];
        let is_near = match at.rule {
            6 => near.key_above(cell(line, 2), at.first),
            9 => near.header_above(lines::code(line), at.first),
            _ => near.name_above(cell(line, at.cell), at.line),
        };
        if is_near {
            all.push((at.rule, Mistaken::Near));
        }
    }
    all
}

fn cell(line: &[u8], number: u32) -> &[u8] {
    (lines::cells(line).nth(number as usize - 1)).expect("a break's cell is there")
}

/// The earliest line of all that is near to a first.
#[derive(Default)]
struct Near<'f> {
    /// By the key of an MTD line that has not three cells.
    keys: HashMap<&'f [u8], u32>,
    /// By the section of a header.
    headers: BTreeMap<u32, u32>,
    /// By the name in a header.
    names: HashMap<&'f [u8], u32>,
}

impl<'f> Near<'f> {
    fn of(lines: &[&'f [u8]]) -> Near<'f> {
        let mut near = Near::default();
        for (number, line) in (1..).zip(lines) {
            match lines::code(line) {
                Code::Metadata if lines::key_and_value(line).is_none() => {
                    if let Some(key) = lines::cells(line).nth(1) {
                        near.keys.entry(key).or_insert(number);
                    }
                }
                Code::Header(section) => {
                    near.headers.entry(section).or_insert(number);
                    for name in lines::cells(line).skip(1) {
                        near.names.entry(name).or_insert(number);
                    }
                }
                _ => (),
            }
        }
        near
    }

    fn key_above(&self, key: &[u8], first: u32) -> bool {
        self.keys.get(key).map_or(false, |line| *line < first)
    }

    fn header_above(&self, code: Code, first: u32) -> bool {
        (self.headers.iter()).any(|(section, line)| Code::Header(*section) != code && *line < first)
    }

    fn name_above(&self, name: &[u8], header: u32) -> bool {
        self.names.get(name).map_or(false, |line| *line < header)
    }
}

#[cfg(test)]
mod tests {
    use super::*;

    fn of(file: &[u8]) -> Vec<(u32, Mistaken)> {
        mistaken(file, &independent::judge(file).expect("it is short"))
    }

    #[test]
    fn another_stands_between() {
        use Mistaken::Nearest;
        let key: &[u8] = b"MTD\ttitle\ta\n";
        assert_eq!(of(&key.repeat(2)), []);
        assert_eq!(of(&key.repeat(3)), [(6, Nearest)]);
        assert_eq!(of(&b"SMH\n".repeat(4)), [(9, Nearest), (9, Nearest)]);
        assert_eq!(of(b"SMH\ta\ta\n"), []);
        assert_eq!(of(b"SMH\ta\tb\tb\ta\ta\n"), [(13, Nearest)]);
    }

    #[test]
    fn a_near_one_stands_above() {
        use Mistaken::Near;
        assert_eq!(
            of(b"MTD\ttitle\nMTD\ttitle\ta\nMTD\ttitle\ta\n"),
            [(6, Near)]
        );
        assert_eq!(of(b"MTD\ttitle\ta\nMTD\ttitle\nMTD\ttitle\ta\n"), []);
        assert_eq!(of(b"PRH\nPSH\nPSH\n"), [(9, Near)]);
        assert_eq!(of(b"PSH\nPRH\nPSH\n"), []);
        assert_eq!(of(b"PRH\ta\nPSH\ta\ta\n"), [(13, Near)]);
        assert_eq!(of(b"PRH\ta\ta\nPSH\ta\n"), []);
    }
}
