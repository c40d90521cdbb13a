//! Tables for people.

/// Lines of as many cells each, every column as wide as its widest cell. The columns that `left` names are laid to the left, the others, which hold
/// numbers, to the right.
pub fn table<L: AsRef<[String]>>(lines: &[L], left: &[usize]) -> String {
    let mut widths = Widths::default();
    for line in lines {
        widths.fit(line.as_ref());
    }
    let laid_out = lines.iter().map(|line| widths.lay(line.as_ref(), left));
    laid_out.collect()
}

/// The widths of a table's columns, for lines that are not all held at once.
#[derive(Default)]
pub struct Widths(Vec<usize>);

impl Widths {
    /// Makes the columns as wide as this line needs.
    pub fn fit(&mut self, line: &[String]) {
        self.0.resize(line.len(), 0);
        for (width, cell) in self.0.iter_mut().zip(line) {
            *width = cell.chars().count().max(*width);
        }
    }

    /// A line of the table, once all were fitted.
    pub fn lay(&self, line: &[String], left: &[usize]) -> String {
        let mut out = String::new();
        for (k, (cell, width)) in line.iter().zip(&self.0).enumerate() {
            if k > 0 {
                out += "  ";
            }
            let space = " ".repeat(width - cell.chars().count());
            if left.contains(&k) {
                out += &format!("{cell}{space}");
            } else {
                out += &format!("{space}{cell}");
            }
        }
        out + "\n"
    }
}

#[cfg(test)]
mod tests {
    use super::*;

    #[test]
    fn to_the_left_and_to_the_right() {
        let lines = [["ö", "1"], ["long", "22"]].map(|line| line.map(str::to_string));
        assert_eq!(table(&lines, &[0]), "ö      1\nlong  22\n");
        assert_eq!(table(&lines, &[]), "   ö   1\nlong  22\n");
        assert_eq!(table::<[String; 1]>(&[], &[0]), "");
    }
}
