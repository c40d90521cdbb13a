//! A file that differs, without the lines that have no part in it: a file of few lines shows what is wrong.

/// So often a smaller file is tried, at most.
const TRIES: usize = 2_000;

/// The lines of the file that are enough for it to differ: runs of lines, each shorter than the last and in the end one line, are left
/// out where the file differs without them.
pub fn shrunk(file: &[u8], differs: impl Fn(&[u8]) -> bool) -> Vec<u8> {
    let mut lines: Vec<&[u8]> = file.split_inclusive(|byte| *byte == b'\n').collect();
    let mut tries = 0;
    let mut run = (lines.len() + 1) / 2;
    while run > 0 {
        let before = lines.len();
        leave_out(&mut lines, run, &mut tries, &differs);
        // Where lines went, others may go now: those of one line are tried until all stay.
        if run > 1 || lines.len() == before {
            run /= 2;
        }
    }
    lines.concat()
}

/// Leaves out each run of so many lines without which the file still differs.
fn leave_out(
    lines: &mut Vec<&[u8]>,
    run: usize,
    tries: &mut usize,
    differs: &impl Fn(&[u8]) -> bool,
) {
    let mut at = 0;
    while at < lines.len() && *tries < TRIES {
        let end = lines.len().min(at + run);
        let without = [&lines[..at], &lines[end..]].concat();
        *tries += 1;
        if differs(&without.concat()) {
            *lines = without;
        } else {
            at = end;
        }
    }
}

#[cfg(test)]
mod tests {
    use super::*;

    fn has(file: &[u8], line: &str) -> bool {
        file.split(|byte| *byte == b'\n')
            .any(|one| one == line.as_bytes())
    }

    #[test]
    fn the_lines_that_are_enough() {
        let file: String = (0..200).map(|n| format!("line {n}\n")).collect();
        let two = |file: &[u8]| has(file, "line 17") && has(file, "line 130");
        assert_eq!(shrunk(file.as_bytes(), two), b"line 17\nline 130\n");
        assert_eq!(shrunk(file.as_bytes(), |_| true), b"");
        assert_eq!(shrunk(file.as_bytes(), |_| false), file.as_bytes());
    }

    #[test]
    fn a_last_line_without_its_end() {
        assert_eq!(shrunk(b"a\nb\nc", |file| has(file, "c")), b"c");
        assert_eq!(shrunk(b"a", |file| has(file, "a")), b"a");
        assert_eq!(shrunk(b"", |_| true), b"");
    }

    #[test]
    fn tries_have_an_end() {
        let file = vec![b'\n'; 3_000];
        let tried = std::cell::Cell::new(0);
        shrunk(&file, |_| {
            tried.set(tried.get() + 1);
            false
        });
        assert!(tried.get() <= TRIES);
    }
}
