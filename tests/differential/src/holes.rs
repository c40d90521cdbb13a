//! Leaves holes in the rows of a file, as table programs do, and what a mender must not take for one: headers' names and metadata values that
//! are empty, rows of another width. Line ends of both sorts stand side by side.

use independent::lines::{self, Code};
use samples::Draws;

/// How often what is no row's cell is emptied, and how often a row has another width, or nothing but holes.
const NAME: usize = 6;
const VALUE: usize = 8;
const WIDTH: usize = 25;
const ALL: usize = 12;

pub fn punch(file: &mut Vec<u8>, draws: &mut Draws) {
    // One cell in so many, and a CR that comes or goes at the end of one line in so many; 0 for none. A last line without LF may get a CR of
    // its own.
    let rate = [1, 2, 2, 3, 6, 20][draws.below(6)];
    let returns = [0, 0, 2, 5][draws.below(4)];
    let mut all: Vec<Vec<u8>> = Vec::new();
    for with_end in file.split_inclusive(|byte| *byte == b'\n') {
        let line = lines::lines(with_end).next().unwrap_or_default();
        let mut end = &with_end[line.len()..];
        if returns > 0 && draws.once_in(returns) {
            end = match end {
                b"\n" => b"\r\n",
                b"\r\n" => b"\n",
                _ => b"\r",
            };
        }
        all.push([&punched(line, rate, draws), end].concat());
    }
    *file = all.concat();
    if draws.once_in(4) && file.ends_with(b"\n") {
        file.pop();
    }
}

/// The line with some of its cells emptied.
fn punched(line: &[u8], rate: usize, draws: &mut Draws) -> Vec<u8> {
    let mut cells: Vec<&[u8]> = lines::cells(line).collect();
    match lines::code(line) {
        Code::Row(_) => {
            let rate = if draws.once_in(ALL) { 1 } else { rate };
            for cell in cells.iter_mut().skip(1) {
                if draws.once_in(rate) {
                    *cell = b"";
                }
            }
            if draws.once_in(WIDTH) {
                cells.push(b"");
            } else if draws.once_in(WIDTH) && cells.len() > 1 {
                cells.pop();
            }
        }
        Code::Header(_) if draws.once_in(NAME) => empty_one(&mut cells, draws),
        Code::Metadata if draws.once_in(VALUE) => empty_one(&mut cells, draws),
        _ => (),
    }
    cells.join(&b'\t')
}

/// One cell from 2 on is emptied, where there is one.
fn empty_one(cells: &mut [&[u8]], draws: &mut Draws) {
    if cells.len() > 1 {
        cells[draws.below(cells.len() - 1) + 1] = b"";
    }
}

#[cfg(test)]
mod tests {
    use super::*;

    #[test]
    fn codes_and_other_lines_stay() {
        let file = b"MTD\ttitle\ta\nCOM\ta\tb\n\nSMH\ta\tb\r\nSML\ta\tb\nPRT\nx\ty\n";
        let codes = |file: &[u8]| lines::lines(file).map(lines::code).collect::<Vec<_>>();
        let (mut names, mut values, mut holes) = (0, 0, 0);
        for seed in 0..1_000 {
            let mut punched = file.to_vec();
            punch(&mut punched, &mut Draws::new(seed));
            assert_eq!(codes(&punched), codes(file));
            let all: Vec<&[u8]> = lines::lines(&punched).collect();
            assert_eq!(all[1], b"COM\ta\tb");
            // Where its LF is lost, a CR is the line's own.
            assert!([b"x\ty" as &[u8], b"x\ty\r"].contains(&all[6]));
            names += usize::from(all[3] != b"SMH\ta\tb");
            values += usize::from(all[0] != b"MTD\ttitle\ta");
            holes += usize::from(lines::cells(all[4]).any(|cell| cell.is_empty()));
        }
        assert!(names > 100 && values > 100, "{names} {values}");
        assert!(holes > 500 && holes < 950, "{holes}");
    }
}
