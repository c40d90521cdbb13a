//! Finds the cells that breaks name. Breaks come by line, then cell, so the file is walked once and never back.

use mztab::format::headed;

const LF: u8 = b'\n';
const CR: u8 = b'\r';
const TAB: u8 = b'\t';
/// A 1 in each of eight bytes.
const ONES: u64 = 0x0101_0101_0101_0101;

pub struct Finder<'a> {
    /// What follows the line that was walked to.
    rest: &'a [u8],
    /// That line, and its number; 0 before the first.
    line: &'a [u8],
    number: u32,
    /// The cell of it that was walked to: its number, and where it begins.
    cell: u32,
    start: usize,
    /// The nearest header at or above the line; empty where there is none.
    header: &'a [u8],
}

impl<'a> Finder<'a> {
    pub fn new(file: &'a [u8]) -> Finder<'a> {
        Finder {
            rest: file,
            line: b"",
            number: 0,
            cell: 1,
            start: 0,
            header: b"",
        }
    }

    /// The cell of the line, if there is one. Lines, and cells in a line, are asked for in rising order.
    pub fn find(&mut self, line: u32, cell: u32) -> Option<&'a [u8]> {
        while self.number < line {
            self.next_line()?;
        }
        while self.cell < cell {
            let after = self.line[self.start..]
                .iter()
                .position(|byte| *byte == TAB)?;
            self.start += after + 1;
            self.cell += 1;
        }
        Some(until_tab(&self.line[self.start..]))
    }

    /// The line that was walked to.
    pub fn line(&self) -> &'a [u8] {
        self.line
    }

    /// The nearest header above that line.
    pub fn header(&self) -> &'a [u8] {
        self.header
    }

    fn next_line(&mut self) -> Option<()> {
        if self.rest.is_empty() {
            return None;
        }
        let (line, rest) = cut_line(self.rest);
        self.line = line;
        self.rest = rest;
        self.number += 1;
        self.cell = 1;
        self.start = 0;
        if is_header(line) {
            self.header = line;
        }
        Some(())
    }
}

/// The first line of the bytes, without its end, and what follows it.
pub fn cut_line(bytes: &[u8]) -> (&[u8], &[u8]) {
    match line_end(bytes) {
        None => (bytes, &[]),
        Some(at) => {
            let line = &bytes[..at];
            (line.strip_suffix(&[CR]).unwrap_or(line), &bytes[at + 1..])
        }
    }
}

/// Where the first LF stands, looked for eight bytes at a time.
fn line_end(bytes: &[u8]) -> Option<usize> {
    let mut passed = 0;
    for eight in bytes.chunks_exact(8) {
        let mut word = [0; 8];
        word.copy_from_slice(eight);
        // A byte is 0 now where an LF stood. Taking 1 from each byte marks the lowest of them in its highest bit, and none below it.
        let word = u64::from_le_bytes(word) ^ (ONES * u64::from(LF));
        let marked = word.wrapping_sub(ONES) & !word & (ONES << 7);
        if marked != 0 {
            return Some(passed + marked.trailing_zeros() as usize / 8);
        }
        passed += 8;
    }
    let at = bytes[passed..].iter().position(|byte| *byte == LF)?;
    Some(passed + at)
}

fn until_tab(bytes: &[u8]) -> &[u8] {
    let length = bytes
        .iter()
        .position(|byte| *byte == TAB)
        .unwrap_or(bytes.len());
    &bytes[..length]
}

/// The cells of a line.
pub fn cells(line: &[u8]) -> impl Iterator<Item = &[u8]> + '_ {
    line.split(|byte| *byte == TAB)
}

/// Cell 1 of a line.
pub fn code(line: &[u8]) -> &[u8] {
    until_tab(&line[..line.len().min(4)])
}

fn is_header(line: &[u8]) -> bool {
    headed(code(line)).is_some()
}

#[cfg(test)]
mod tests {
    use super::*;

    #[test]
    fn cells_in_rising_order() {
        let mut finder = Finder::new(b"a\tb\r\n\nPRH\tx\ty\nPRT\t1\t");
        assert_eq!(finder.find(1, 1), Some(b"a" as &[u8]));
        assert_eq!(finder.find(1, 2), Some(b"b" as &[u8]));
        assert_eq!(finder.find(1, 3), None);
        assert_eq!(finder.find(2, 1), Some(b"" as &[u8]));
        assert_eq!(finder.header(), b"");
        assert_eq!(finder.find(4, 2), Some(b"1" as &[u8]));
        assert_eq!(finder.header(), b"PRH\tx\ty");
        assert_eq!(finder.find(4, 3), Some(b"" as &[u8]));
        assert_eq!(finder.find(5, 1), None);
    }

    #[test]
    fn ends_of_long_lines() {
        // The bytes beside an LF, and those that differ from it in one bit, are no line ends.
        for byte in [b'x', 0, 9, 11, 10 ^ 128, 255] {
            for length in 0..40 {
                let line = vec![byte; length];
                assert_eq!(cut_line(&line), (&line[..], &[] as &[u8]));
                let two = [&line[..], b"\r\n", &line].concat();
                assert_eq!(cut_line(&two), (&line[..], &line[..]));
            }
        }
    }

    #[test]
    fn codes() {
        assert_eq!(code(b"PRH\ta"), b"PRH");
        assert_eq!(code(b"PRHa"), b"PRHa");
        assert_eq!(code(b"PR"), b"PR");
        assert_eq!(code(b""), b"");
    }
}
