//! "Lines and cells".

const LF: u8 = 10;
const CR: u8 = 13;
const TAB: u8 = 9;

/// The lines of a file, one after the other, without their line ends.
pub struct Lines<'a> {
    rest: &'a [u8],
}

/// All lines of the file. "Lines count from 1; empty lines and comments are
/// counted": so every line is given here, whatever it holds.
pub fn lines(file: &[u8]) -> Lines<'_> {
    Lines { rest: file }
}

impl<'a> Iterator for Lines<'a> {
    type Item = &'a [u8];

    fn next(&mut self) -> Option<&'a [u8]> {
        // "Bytes after the last LF are a line only if there is at least one."
        if self.rest.is_empty() {
            return None;
        }
        match self.rest.iter().position(|b| *b == LF) {
            // "LF ends a line."
            Some(at) => {
                let line = &self.rest[..at];
                self.rest = &self.rest[at + 1..];
                Some(without_one_cr(line))
            }
            // No LF here, so a CR at the very end is a byte of the line.
            None => {
                let line = self.rest;
                self.rest = &[];
                Some(line)
            }
        }
    }
}

/// "One CR directly before that LF belongs to the line end."
fn without_one_cr(line: &[u8]) -> &[u8] {
    match line {
        [front @ .., CR] => front,
        _ => line,
    }
}

/// "Tabs cut a line into cells."
pub fn cells(line: &[u8]) -> impl Iterator<Item = &[u8]> + '_ {
    line.split(|b| *b == TAB)
}

/// What the line code says of a line.
#[derive(Clone, Copy, Debug, PartialEq, Eq)]
pub enum Code {
    /// No byte at all.
    Empty,
    /// "a line whose cell 1 is exactly COM"
    Comment,
    /// MTD
    Metadata,
    /// PRH, PEH, PSH, SMH: the header of section 1, 2, 3 or 4.
    Header(u32),
    /// PRT, PEP, PSM, SML: a row of section 1, 2, 3 or 4.
    Row(u32),
    /// Any other cell 1. "Case counts."
    Unknown,
}

/// "Cell 1 is the line code."
pub fn code(line: &[u8]) -> Code {
    if line.is_empty() {
        return Code::Empty;
    }
    let first: &[u8] = cells(line).next().unwrap_or(&[]);
    match first {
        b"COM" => Code::Comment,
        b"MTD" => Code::Metadata,
        b"PRH" => Code::Header(1),
        b"PEH" => Code::Header(2),
        b"PSH" => Code::Header(3),
        b"SMH" => Code::Header(4),
        b"PRT" => Code::Row(1),
        b"PEP" => Code::Row(2),
        b"PSM" => Code::Row(3),
        b"SML" => Code::Row(4),
        _ => Code::Unknown,
    }
}

/// The key and the value of an MTD line that has three cells, else nothing.
pub fn key_and_value(line: &[u8]) -> Option<(&[u8], &[u8])> {
    if code(line) != Code::Metadata {
        return None;
    }
    let mut all = cells(line);
    all.next();
    let key = all.next()?;
    let value = all.next()?;
    match all.next() {
        None => Some((key, value)),
        Some(_) => None,
    }
}

#[cfg(test)]
mod tests {
    use super::*;

    fn all(file: &[u8]) -> Vec<&[u8]> {
        lines(file).collect()
    }

    #[test]
    fn line_ends() {
        let none: Vec<&[u8]> = vec![];
        assert_eq!(all(b""), none);
        assert_eq!(all(b"\n"), vec![b"" as &[u8]]);
        assert_eq!(all(b"\r\n"), vec![b"" as &[u8]]);
        assert_eq!(all(b"\r\r\n"), vec![b"\r" as &[u8]]);
        assert_eq!(all(b"\r"), vec![b"\r" as &[u8]]);
        assert_eq!(all(b"a\n"), vec![b"a" as &[u8]]);
        assert_eq!(all(b"a\n\n"), vec![b"a" as &[u8], b""]);
        assert_eq!(all(b"a\nb"), vec![b"a" as &[u8], b"b"]);
        assert_eq!(all(b"a\rb\r\nc\r"), vec![b"a\rb" as &[u8], b"c\r"]);
        assert_eq!(all(b"a\n\rb\n"), vec![b"a" as &[u8], b"\rb"]);
    }

    #[test]
    fn cutting_at_tabs() {
        let cut = |line: &'static [u8]| cells(line).collect::<Vec<_>>();
        assert_eq!(cut(b"a"), vec![b"a" as &[u8]]);
        assert_eq!(cut(b"a\t"), vec![b"a" as &[u8], b""]);
        assert_eq!(cut(b"\t"), vec![b"" as &[u8], b""]);
        assert_eq!(cut(b"a\t\tb c"), vec![b"a" as &[u8], b"", b"b c"]);
    }

    #[test]
    fn codes() {
        assert_eq!(code(b""), Code::Empty);
        assert_eq!(code(b"COM"), Code::Comment);
        assert_eq!(code(b"COM\tx"), Code::Comment);
        assert_eq!(code(b"COM x"), Code::Unknown);
        assert_eq!(code(b"COMx"), Code::Unknown);
        assert_eq!(code(b"\tCOM"), Code::Unknown);
        assert_eq!(code(b"\t"), Code::Unknown);
        assert_eq!(code(b" "), Code::Unknown);
        assert_eq!(code(b"MTD"), Code::Metadata);
        assert_eq!(code(b"mtd"), Code::Unknown);
        assert_eq!(code(b"PRH"), Code::Header(1));
        assert_eq!(code(b"PEH\ta"), Code::Header(2));
        assert_eq!(code(b"PSH"), Code::Header(3));
        assert_eq!(code(b"SMH"), Code::Header(4));
        assert_eq!(code(b"PRT"), Code::Row(1));
        assert_eq!(code(b"PEP"), Code::Row(2));
        assert_eq!(code(b"PSM"), Code::Row(3));
        assert_eq!(code(b"SML"), Code::Row(4));
        assert_eq!(code(b"PRTx"), Code::Unknown);
        assert_eq!(code(b"Prt"), Code::Unknown);
        assert_eq!(code(b"PR"), Code::Unknown);
    }

    #[test]
    fn three_cells() {
        assert_eq!(
            key_and_value(b"MTD\ta\tb"),
            Some((b"a" as &[u8], b"b" as &[u8]))
        );
        assert_eq!(
            key_and_value(b"MTD\ta\t"),
            Some((b"a" as &[u8], b"" as &[u8]))
        );
        assert_eq!(key_and_value(b"MTD\ta"), None);
        assert_eq!(key_and_value(b"MTD"), None);
        assert_eq!(key_and_value(b"MTD\ta\tb\t"), None);
        assert_eq!(key_and_value(b"COM\ta\tb"), None);
        assert_eq!(key_and_value(b"PRH\ta\tb"), None);
    }
}
