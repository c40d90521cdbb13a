//! The names of columns as they are shown.

use crate::files::finder::cells;
use crate::output::show;

/// The names of one header. Many rows stand under the same, and it may be long, so it is cut once for all of them.
#[derive(Default)]
pub struct Names<'a> {
    header: &'a [u8],
    names: Vec<String>,
}

impl<'a> Names<'a> {
    /// The name over a cell, escaped and cut; no byte where the header has no such cell.
    pub fn of(&mut self, header: &'a [u8], cell: u32) -> &str {
        let name = self.all(header).get((cell as usize).wrapping_sub(1));
        name.map_or("", String::as_str)
    }

    /// The cells of a header, each escaped and cut. They are few: of a row below a header of over 256 cells nothing is told that needs them.
    pub fn all(&mut self, header: &'a [u8]) -> &[String] {
        if !std::ptr::eq(header, self.header) {
            self.header = header;
            self.names = cells(header).map(show::cell).collect();
        }
        &self.names
    }
}

#[cfg(test)]
mod tests {
    use super::*;

    #[test]
    fn names_of_one_header_and_of_the_next() {
        let file = b"PRH\ta\xff\nPRH\tb\t\n";
        let (first, second) = (&file[..6], &file[7..13]);
        let mut names = Names::default();
        assert_eq!(names.of(b"", 2), "");
        assert_eq!(names.of(first, 2), "a\\xFF");
        assert_eq!(names.of(first, 1), "PRH");
        assert_eq!(names.of(second, 2), "b");
        for cell in [3, 4, 0, u32::MAX] {
            assert_eq!(names.of(second, cell), "", "{cell}");
        }
        assert_eq!((names.all(first).len(), names.all(second).len()), (2, 3));
    }
}
