//! Single lines judged by both, and cells edited one at a time: what that does to the breaks of the line, and that it does nothing to those
//! of the others.

use independent::edits::{count, edited, of_line};
use independent::lines::{self, Code};
use independent::Break;
use mztab::raw;
use samples::Draws;

use crate::compare::{lengths, Tried, FOUR, MARK};
use crate::grammar;

/// Of a file of so few lines each is judged; of one with more the first, the last and so many others.
const FEW_LINES: u32 = 10;
const SOME_LINES: usize = 4;
/// A file of more bytes than this has the first, the last and one other judged, and no cell edited. No drawn file is so long.
const LARGE: usize = 60_000;
/// In a file of so many bytes lines are cut off.
const CUT: usize = 20_000;
/// So many cells of a file are edited, each by itself.
const EDITS: usize = 2;
/// How long a long text is at most.
const LONG: usize = 2_000;

/// Bytes that no new cell has.
const CUTTING: &[u8] = b"\t\r\n";
/// Cells of every sort, right under some columns and wrong under others.
const CELLS: [&[u8]; 32] = [
    b"NaN",
    b"INF",
    b"0",
    b"1",
    b"2",
    b"3",
    b"4",
    b"-5",
    b"123456789",
    b"1234567890",
    b"1.5",
    b"1.2E-5",
    b"1E3",
    b"1|2",
    b"1.5|2.5|3",
    b"[,,a,]",
    b"[,,\"a|b\",]|[,,c,]",
    b"[,,a",
    b"\"",
    b"\"a\"",
    b"x",
    b"Heat shock",
    b"NA",
    b"-",
    b" ",
    b"assay[1]",
    b"ms_run[65]",
    b"mzTab-type",
    b"COM",
    b"MTD",
    b"PRH",
    b"opt_",
];

/// How much of this was compared.
#[derive(Default)]
pub struct Edited {
    /// Lines judged by themselves, and those of them whose breaks are others where the lines below are cut off.
    pub lines: u64,
    pub hung: u64,
    /// Edits, and those of them that changed the breaks of the line.
    pub edits: u64,
    pub changed: u64,
}

/// Nothing where both say the same of some lines and of some edits, else both answers in words.
/// `expected` is what the independent reading finds, nothing for a file that is too long.
pub fn compare(
    file: &[u8],
    expected: Option<&[Break]>,
    draws: &mut Draws,
    tried: &mut Tried,
) -> Result<(), String> {
    let expected = match expected {
        None => return refused(file, &[0, 1, 2, u32::MAX], 1, draws),
        Some(expected) => expected,
    };
    let last = count(file);
    for line in some_lines(last, file.len() > LARGE, draws) {
        let own = of_line(expected, line);
        one_line(file, line, &own, draws)?;
        tried.edited.lines += 1;
        tried.edited.hung += u64::from(file.len() <= CUT && hangs_below(file, line, &own));
    }
    refused(file, &[0, last + 1, u32::MAX], 3, draws)?;
    if file.len() > LARGE {
        return Ok(());
    }
    some_edits(file, expected, draws, tried)
}

/// The edits written by hand, and what is compared of the files before them.
pub fn by_hand(draws: &mut Draws, tried: &mut Tried) -> Result<(), String> {
    for edit in independent::cases::edits::all() {
        let expected = independent::judge(&edit.before).ok_or("it is too long")?;
        compare(&edit.before, Some(&expected), draws, tried)?;
        let old = whole_list(&edit.before)?;
        let changed = one_edit(&old, &expected, edit.after.into(), edit.line, draws)
            .map_err(|words| format!("{}: {words}", edit.label))?;
        tried.edited.edits += 1;
        tried.edited.changed += u64::from(changed);
    }
    Ok(())
}

/// The first line and the last, and others between them, all where they are few.
fn some_lines(last: u32, large: bool, draws: &mut Draws) -> Vec<u32> {
    if last <= FEW_LINES {
        return (1..=last).collect();
    }
    let others = if large { 1 } else { SOME_LINES };
    let mut all = vec![1, last];
    for _ in 0..others {
        all.push(draws.below(last as usize) as u32 + 1);
    }
    all
}

/// One line, with lists of some lengths: from none to more than enough where its breaks are few. Most lines have none: those get one list, as
/// do the lines of a large file.
fn one_line(file: &[u8], line: u32, own: &[Break], draws: &mut Draws) -> Result<(), String> {
    let expected = places(own);
    if own.is_empty() || file.len() > LARGE {
        let length = draws.below(expected.len() + FOUR + 2);
        return with_list(file, line, (0, &expected), length);
    }
    for length in lengths(own.len(), draws) {
        with_list(file, line, (0, &expected), length)?;
    }
    Ok(())
}

/// The places that the breaks fill in a list.
fn places(breaks: &[Break]) -> Vec<u32> {
    let fours = breaks.iter();
    fours
        .flat_map(|at| [at.rule, at.line, at.cell, at.first])
        .collect()
}

/// Lines that are answered with that number, and no place of a list written.
fn refused(file: &[u8], lines: &[u32], number: u32, draws: &mut Draws) -> Result<(), String> {
    for line in lines {
        let length = draws.below(3 * FOUR);
        with_list(file, *line, (number, &[]), length)?;
    }
    Ok(())
}

/// The number, the count and every place of a list of that length.
fn with_list(
    file: &[u8],
    line: u32,
    (number, expected): (u32, &[u32]),
    length: usize,
) -> Result<(), String> {
    let mut places = vec![MARK; length].into_boxed_slice();
    let answer = raw::judge_line(file, line, &mut places);
    let filled = (length / FOUR * FOUR).min(expected.len());
    let as_wanted =
        places[..filled] == expected[..filled] && places[filled..].iter().all(|at| *at == MARK);
    if (answer.number, answer.count as usize * FOUR) == (number, expected.len()) && as_wanted {
        return Ok(());
    }
    Err(format!(
        "line {line} with a list of {length}: the library answers {answer:?}, {places:?}; the independent reading number {number}, \
         {expected:?} (rule, line, cell, first)"
    ))
}

/// Whether the line's breaks are others where the lines below it are cut off. Rows look at lines above alone, and are passed over.
fn hangs_below(file: &[u8], line: u32, own: &[Break]) -> bool {
    let own_line = lines::lines(file).nth(line as usize - 1);
    if matches!(own_line.map(lines::code), Some(Code::Row(_))) {
        return false;
    }
    let with_ends = file.split_inclusive(|byte| *byte == b'\n');
    let end: usize = with_ends.take(line as usize).map(<[u8]>::len).sum();
    match independent::judge_line(&file[..end], line) {
        Ok(cut) => cut != own,
        Err(_) => false,
    }
}

/// A row line, and how many cells it has.
type Row = (u32, usize);

/// The row lines that have a cell 2.
fn rows(file: &[u8]) -> Vec<Row> {
    (1..)
        .zip(lines::lines(file))
        .filter(|(_, line)| matches!(lines::code(line), Code::Row(_)))
        .map(|(number, line)| (number, lines::cells(line).count()))
        .filter(|(_, cells)| *cells > 1)
        .collect()
}

/// Some cells of rows, each edited by itself.
fn some_edits(
    file: &[u8],
    expected: &[Break],
    draws: &mut Draws,
    tried: &mut Tried,
) -> Result<(), String> {
    let rows = rows(file);
    if rows.is_empty() {
        return Ok(());
    }
    let old = whole_list(file)?;
    for _ in 0..EDITS {
        let (line, cells) = rows[draws.below(rows.len())];
        let cell = draws.below(cells - 1) as u32 + 2;
        let new = new_cell(cell_of(file, line, cell), draws);
        let after = edited(file, line, cell, &new)
            .map_err(|why| format!("line {line}, cell {cell} cannot be edited: {why:?}"))?;
        let changed = one_edit(&old, expected, after.into(), line, draws).map_err(|words| {
            let new = new.escape_ascii();
            format!("line {line}, cell {cell} with b\"{new}\" in it: {words}")
        })?;
        tried.edited.edits += 1;
        tried.edited.changed += u64::from(changed);
    }
    Ok(())
}

fn cell_of(file: &[u8], line: u32, cell: u32) -> &[u8] {
    let line = lines::lines(file).nth(line as usize - 1);
    line.and_then(|line| lines::cells(line).nth(cell as usize - 1))
        .expect("the cell was counted")
}

/// All breaks by the library.
pub fn whole_list(file: &[u8]) -> Result<Vec<Break>, String> {
    let judged =
        mztab::judge_all(file).map_err(|refusal| format!("judging is refused: {refusal:?}"))?;
    let found = judged.breaks().map(|at| Break {
        line: at.line,
        cell: at.cell,
        rule: at.rule,
        first: at.first,
    });
    Ok(found.collect())
}

/// The breaks of one line by the library, which has answered that there are so many.
fn line_list(file: &[u8], line: u32, count: usize) -> Vec<Break> {
    let mut places = vec![MARK; FOUR * count].into_boxed_slice();
    raw::judge_line(file, line, &mut places);
    let breaks = places.chunks_exact(FOUR).map(|four| Break {
        rule: four[0],
        line: four[1],
        cell: four[2],
        first: four[3],
    });
    breaks.collect()
}

/// What holds after an edit of the line: the library's list of the file is its old one with that line's part worked out afresh, it is what the
/// independent reading finds, and the breaks on the other lines are the same. Answers whether the line's own breaks changed.
fn one_edit(
    old: &[Break],
    old_expected: &[Break],
    after: Box<[u8]>,
    line: u32,
    draws: &mut Draws,
) -> Result<bool, String> {
    let expected = independent::judge(&after).ok_or("it is too long")?;
    let own = of_line(&expected, line);
    one_line(&after, line, &own, draws)?;
    let found = whole_list(&after)?;
    let mut put_together = others(old, line);
    let at = put_together.partition_point(|at| at.line < line);
    put_together.splice(at..at, line_list(&after, line, own.len()));
    same(
        "its list and the old one with the line afresh",
        &found,
        &put_together,
    )?;
    same("its list and the independent reading", &found, &expected)?;
    let (before, now) = (others(old, line), others(&found, line));
    same("the other lines now and before", &now, &before)?;
    let before = others(old_expected, line);
    same(
        "the other lines now and by the independent reading before",
        &now,
        &before,
    )?;
    Ok(own != of_line(old_expected, line))
}

/// The breaks on all other lines.
fn others(breaks: &[Break], line: u32) -> Vec<Break> {
    let others = breaks.iter().filter(|at| at.line != line);
    others.copied().collect()
}

/// Nothing where the lists are the same, else the first two breaks that differ.
pub fn same(what: &str, one: &[Break], other: &[Break]) -> Result<(), String> {
    if one == other {
        return Ok(());
    }
    let at = (one.iter().zip(other))
        .position(|(a, b)| a != b)
        .unwrap_or(one.len().min(other.len()));
    Err(format!(
        "{what} differ: {:?} and {:?}, of {} and {} breaks",
        one.get(at),
        other.get(at),
        one.len(),
        other.len()
    ))
}

thread_local! {
    /// Values written by hand, on either side of each kind; made once.
    static NEAR: Vec<Vec<u8>> = grammar::near_values();
}

/// Bytes for a cell: none, one of every sort, one near to some kind, the old ones with a small change, bytes that are no text, or a long text.
fn new_cell(old: &[u8], draws: &mut Draws) -> Vec<u8> {
    let mut new = match draws.below(12) {
        0 => Vec::new(),
        1 => b"null".to_vec(),
        2 | 3 => draws.one_of(&CELLS).to_vec(),
        4..=6 => NEAR.with(|near| near[draws.below(near.len())].clone()),
        7 => with_byte(old, draws.below(32) as u8, draws),
        8 => with_byte(old, 127 + draws.below(129) as u8, draws),
        9 => with_byte(
            old,
            draws.one_of(&[b"\"", b"|", b",", b"]", b"E"])[0],
            draws,
        ),
        10 => without_byte(old, draws),
        _ => vec![*draws.one_of(&[&b'x', &b'7', &b'"', &b' ']); draws.below(LONG)],
    };
    new.retain(|byte| !CUTTING.contains(byte));
    new
}

/// The cell with one byte more.
fn with_byte(old: &[u8], byte: u8, draws: &mut Draws) -> Vec<u8> {
    let mut new = old.to_vec();
    new.insert(draws.below(old.len() + 1), byte);
    new
}

/// The cell with one byte less, where it has one.
fn without_byte(old: &[u8], draws: &mut Draws) -> Vec<u8> {
    let mut new = old.to_vec();
    if !new.is_empty() {
        new.remove(draws.below(old.len()));
    }
    new
}

#[cfg(test)]
mod tests {
    use super::*;

    #[test]
    fn new_cells_are_of_every_sort() {
        let mut draws = Draws::new(1);
        let all: Vec<Vec<u8>> = (0..10_000).map(|_| new_cell(b"1.5", &mut draws)).collect();
        assert!((all.iter().flatten()).all(|byte| !CUTTING.contains(byte)));
        let some = |such: fn(&[u8]) -> bool| all.iter().filter(|new| such(new)).count() > 200;
        assert!(some(|new| new.is_empty()) && some(|new| new == b"null"));
        assert!(some(|new| new.iter().any(|byte| *byte < 32)));
        assert!(some(|new| new.iter().any(|byte| *byte > 127)));
        assert!(some(|new| new.contains(&b'"')) && some(|new| new.len() > 1_000));
        assert!(some(independent::kinds::decimal));
    }

    #[test]
    fn what_hangs_on_later_lines() {
        let hangs = |file: &[u8], line| {
            let own = independent::judge_line(file, line).expect("a line of the file");
            hangs_below(file, line, &own)
        };
        let file = b"MTD\tassay[1]-sample_ref\tsample[1]\nMTD\tsample[1]-description\ta\n";
        assert!(hangs(file, 1) && !hangs(file, 2));
        let file = b"MTD\tassay[1]-sample_ref\tsample[1]\nMTD\tsample[2]-description\ta";
        assert!(!hangs(file, 1) && !hangs(file, 2));
        assert!(!hangs(b"x\r\nSML\n", 1) && !hangs(b"SML\nSMH\tidentifier\tcharge\n", 1));
    }

    #[test]
    fn rows_that_have_a_cell() {
        assert_eq!(
            rows(b"PRT\n\nPRT\t\nSMH\ta\r\nSML\ta\tb\r\nCOM\ta"),
            [(3, 2), (5, 3)]
        );
        assert_eq!(cell_of(b"\nSML\ta\tb\r\n", 2, 3), b"b");
    }
}
