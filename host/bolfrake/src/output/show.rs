//! Bytes as text that is safe to print: nothing moves the cursor, and no byte is hidden.

use std::fmt::Write;
use std::os::unix::ffi::OsStrExt;
use std::path::Path;

/// So many characters of a cell are shown.
pub const WIDTH: usize = 60;

/// A cell: what prints is kept, a backslash doubled, every other byte written as \xNN. Past the width it is cut with an ellipsis.
pub fn cell(bytes: &[u8]) -> String {
    // No character has more than four bytes, so no more of a long cell is looked at.
    let enough = &bytes[..bytes.len().min(4 * (WIDTH + 1))];
    let mut out = String::new();
    let mut width = 0;
    for piece in Pieces(enough) {
        let text = piece.escaped(true);
        width += text.chars().count();
        if width > WIDTH {
            out.push('…');
            return out;
        }
        out += &text;
    }
    out
}

/// A cell, shown in the same way and not cut.
pub fn whole(bytes: &[u8]) -> String {
    Pieces(bytes).map(|piece| piece.escaped(true)).collect()
}

/// A file's name, whole.
pub fn path(path: &Path) -> String {
    Pieces(path.as_os_str().as_bytes())
        .map(|piece| piece.escaped(false))
        .collect()
}

/// One character, or one byte that belongs to none.
enum Piece {
    Char(char),
    Byte(u8),
}

impl Piece {
    fn escaped(&self, doubles: bool) -> String {
        match self {
            Piece::Char('\\') if doubles => "\\\\".to_string(),
            Piece::Char(c) if prints(*c) => c.to_string(),
            Piece::Char(c) => hex(c.encode_utf8(&mut [0; 4]).as_bytes()),
            Piece::Byte(byte) => hex(&[*byte]),
        }
    }
}

fn hex(bytes: &[u8]) -> String {
    let mut out = String::new();
    for byte in bytes {
        let _ = write!(out, "\\x{byte:02X}");
    }
    out
}

/// Controls do not print; nor do characters without width, or that turn the direction of what follows.
fn prints(c: char) -> bool {
    let hidden = matches!(c, '\u{ad}' | '\u{61c}' | '\u{180e}' | '\u{200b}'..='\u{200f}' | '\u{2028}'..='\u{202e}' | '\u{2060}'..='\u{206f}' | '\u{feff}');
    !c.is_control() && !hidden
}

/// Cuts bytes into characters, and into bytes that are part of none.
struct Pieces<'a>(&'a [u8]);

impl Iterator for Pieces<'_> {
    type Item = Piece;

    fn next(&mut self) -> Option<Piece> {
        let first = *self.0.first()?;
        let length = match first {
            0..=0x7f => 1,
            0xc0..=0xdf => 2,
            0xe0..=0xef => 3,
            _ => 4,
        };
        let front = self
            .0
            .get(..length)
            .and_then(|front| std::str::from_utf8(front).ok());
        match front.and_then(|text| text.chars().next()) {
            Some(c) => {
                self.0 = &self.0[length..];
                Some(Piece::Char(c))
            }
            None => {
                self.0 = &self.0[1..];
                Some(Piece::Byte(first))
            }
        }
    }
}

/// A count as people write it: `16,777,216`.
pub fn count(n: u64) -> String {
    let digits = n.to_string();
    let mut out = String::new();
    for (k, digit) in digits.chars().enumerate() {
        if k > 0 && (digits.len() - k) % 3 == 0 {
            out.push(',');
        }
        out.push(digit);
    }
    out
}

/// A count and its noun: `1 break`, `2 breaks`.
pub fn counted(n: u64, noun: &str) -> String {
    let ending = if n == 1 { "" } else { "s" };
    format!("{} {noun}{ending}", count(n))
}

#[cfg(test)]
mod tests {
    use super::*;

    #[test]
    fn cells() {
        assert_eq!(cell(b"P12345"), "P12345");
        assert_eq!(cell("Förster 5′".as_bytes()), "Förster 5′");
        assert_eq!(cell(b"a\x0bb\x7f\r"), "a\\x0Bb\\x7F\\x0D");
        assert_eq!(cell(b"\xff\xc3("), "\\xFF\\xC3(");
        assert_eq!(cell(b"C:\\data"), "C:\\\\data");
        assert_eq!(
            cell("a\u{202e}b\u{9b}".as_bytes()),
            "a\\xE2\\x80\\xAEb\\xC2\\x9B"
        );
        assert_eq!(cell(b""), "");
    }

    #[test]
    fn long_cells_are_cut() {
        assert_eq!(cell(&[b'x'; WIDTH]), "x".repeat(WIDTH));
        assert_eq!(cell(&[b'x'; WIDTH + 1]), format!("{}…", "x".repeat(WIDTH)));
        assert_eq!(
            cell(&[0; 1_000_000]),
            format!("{}…", "\\x00".repeat(WIDTH / 4))
        );
        let wide = "ö".repeat(WIDTH + 5);
        assert_eq!(cell(wide.as_bytes()), format!("{}…", "ö".repeat(WIDTH)));
        assert_eq!(whole(wide.as_bytes()), wide);
        assert_eq!(whole(b"a\\b\xff"), "a\\\\b\\xFF");
    }

    #[test]
    fn counts() {
        assert_eq!(count(0), "0");
        assert_eq!(count(999), "999");
        assert_eq!(count(1_000), "1,000");
        assert_eq!(count(16_777_216), "16,777,216");
        assert_eq!(counted(1, "break"), "1 break");
        assert_eq!(counted(0, "break"), "0 breaks");
    }
}
