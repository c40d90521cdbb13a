//! Files mended by both: the copy, the list of the changes and what is left of buffer and list; and what holds of every copy.

use std::collections::BTreeMap;

use independent::cases;
use independent::lines::{self, Code};
use independent::mending::{mended_of, Mended};
use independent::names::{self, Kind};
use independent::Break;
use mztab::{raw, LIMIT};
use samples::Draws;

use crate::compare::Tried;
use crate::edits::{same, whole_list};
use crate::holes::punch;

/// The rule of an empty cell in a row.
const EMPTY_CELL: u32 = 19;
/// A change fills so many places: line and cell.
const TWO: usize = 2;
/// A file of so few changes is mended with every length of list, once in so many times.
const FEW: usize = 4;
const EVERY_LENGTH: usize = 8;
/// A file of more bytes than this is mended with few buffers. No drawn file is so long.
const LARGE: usize = 60_000;
/// So many bytes and places on either side of what is lent are looked at too.
const MARGIN: usize = 8;
/// So often each export gets holes.
const PUNCHED: usize = 4;
/// The refusals.
const TOO_LONG: u32 = 1;
const NO_ROOM: u32 = 5;

/// How much of this was compared.
#[derive(Default)]
pub struct Mends {
    /// How many calls by the number that was answered.
    pub calls: BTreeMap<u32, u64>,
    /// Files with a change, and the changes.
    pub files: u64,
    pub mended: u64,
    /// Holes that stay, since `null` may not stand there.
    pub stayed: u64,
    /// How many holes by section and sort of column, and how many by what stands after them.
    pub sorts: BTreeMap<(u32, &'static str), u64>,
    pub after: BTreeMap<&'static str, u64>,
    /// How many bytes all buffers had together.
    pub bytes: u64,
}

impl Mends {
    /// The calls that were not refused.
    pub fn copies(&self) -> u64 {
        self.calls.get(&0).copied().unwrap_or(0)
    }

    pub fn refusals(&self) -> u64 {
        self.calls.values().sum::<u64>() - self.copies()
    }
}

/// Nothing where both mend the file alike, with buffers and lists of some lengths, else both answers in words.
/// `breaks` is what the independent reading finds, nothing for a file that is too long.
pub fn compare(
    file: &[u8],
    breaks: Option<&[Break]>,
    draws: &mut Draws,
    tried: &mut Tried,
) -> Result<(), String> {
    let breaks = match breaks {
        None => return too_long(file, draws, tried),
        Some(breaks) => breaks,
    };
    let expected = mended_of(file, breaks);
    some_calls(file, &expected, draws, tried)?;
    if !expected.changes.is_empty() && expected.fits(usize::MAX) {
        facts(file, breaks, &expected, tried)?;
    }
    tried.mends.note(file, breaks, &expected);
    Ok(())
}

/// The same of a file that nothing else is compared of.
pub fn alone(file: &[u8], draws: &mut Draws, tried: &mut Tried) -> Result<(), String> {
    let file: Box<[u8]> = file.into();
    let breaks = independent::judge(&file);
    compare(&file, breaks.as_deref(), draws, tried)
}

/// The files written by hand with their copies, each against what was written, and the exports with holes.
pub fn by_hand(draws: &mut Draws, tried: &mut Tried) -> Result<(), String> {
    for case in cases::mends::all() {
        let (copy, changes) = (case.copy, case.changes);
        let expected = Mended { copy, changes };
        some_calls(&case.file, &expected, draws, tried)
            .map_err(|words| format!("{}: {words}", case.label))?;
    }
    for export in samples::EXPORTS {
        for _ in 0..PUNCHED {
            let mut file = export.file.to_vec();
            punch(&mut file, draws);
            alone(&file, draws, tried)
                .map_err(|words| format!("{} with holes: {words}", export.name))?;
        }
    }
    Ok(())
}

/// Files of about as many bytes as a file may have, with one hole or none: the copy has as many, or more, whatever room there is. And one of
/// the size with nothing but holes.
pub fn large(size: usize, draws: &mut Draws, tried: &mut Tried) -> Result<(), String> {
    for (length, cell) in [(LIMIT - 4, ""), (LIMIT - 3, ""), (LIMIT, ""), (LIMIT, "1")] {
        let mut file = format!("SMH\tidentifier\tcharge\nSML\ta\t{cell}\r\nCOM\t").into_bytes();
        file.resize(length, b'x');
        alone(&file, draws, tried).map_err(|words| format!("{length} bytes, {words}"))?;
    }
    let of_holes = samples::hostile(size).find(|sample| sample.name == "rows of empty cells");
    alone(&of_holes.expect("there is one").file, draws, tried)
}

/// Calls with a buffer that is as long as the copy, with one that is longer, and with some that are too short.
fn some_calls(
    file: &[u8],
    expected: &Mended,
    draws: &mut Draws,
    tried: &mut Tried,
) -> Result<(), String> {
    let length = expected.copy.len();
    let enough = TWO * expected.changes.len();
    let mut lent = vec![(length + 1 + draws.below(200), enough + draws.below(4))];
    if length > 0 {
        lent.push((length - 1, draws.below(enough + 4)));
    }
    if file.len() > LARGE {
        lent.push((length, draws.below(enough + 4)));
    } else {
        lent.extend(lists(expected.changes.len(), draws).map(|places| (length, places)));
        lent.push((draws.below(length + 1), draws.below(enough + 4)));
    }
    for (room, places) in lent {
        let granted = expected.fits(room).then_some(expected);
        one_call(file, (room, places), granted.ok_or(NO_ROOM), tried)?;
    }
    Ok(())
}

/// The lengths of the lists that are lent: from none to more than enough where the changes are few.
fn lists(changes: usize, draws: &mut Draws) -> Box<dyn Iterator<Item = usize>> {
    let enough = TWO * changes;
    if changes > 0 && changes <= FEW && draws.once_in(EVERY_LENGTH) {
        return Box::new(0..=enough + 3);
    }
    Box::new([draws.below(enough + 1), enough + draws.below(4)].into_iter())
}

/// A file that is too long, with much room and with none.
fn too_long(file: &[u8], draws: &mut Draws, tried: &mut Tried) -> Result<(), String> {
    for room in [0, draws.below(100), file.len() + 8] {
        one_call(file, (room, draws.below(6)), Err(TOO_LONG), tried)?;
    }
    Ok(())
}

/// A buffer and a list, with a margin on either side that no call may touch.
#[derive(Clone)]
struct Lent {
    bytes: Vec<u8>,
    places: Vec<u32>,
}

impl Lent {
    /// As they are before the call: no byte and no place is as those beside it.
    fn new(room: usize, places: usize) -> Lent {
        let bytes = 0..room + 2 * MARGIN;
        let places = 0..places + 2 * MARGIN;
        Lent {
            bytes: bytes.map(|at| (at * 167 + 13) as u8).collect(),
            places: places.map(|at| 0xdead_0000 + at as u32).collect(),
        }
    }

    /// As they are to be where it is not refused: what the copy and the changes do not fill stays, as does a place at the end that no whole
    /// change fills.
    fn fill(&mut self, mended: &Mended) {
        let length = mended.copy.len();
        lent(&mut self.bytes)[..length].copy_from_slice(&mended.copy);
        let by_two = lent(&mut self.places).chunks_exact_mut(TWO);
        for (two, (line, cell)) in by_two.zip(&mended.changes) {
            two.copy_from_slice(&[*line, *cell]);
        }
    }
}

/// What stands between the margins.
fn lent<T>(all: &mut [T]) -> &mut [T] {
    let end = all.len() - MARGIN;
    &mut all[MARGIN..end]
}

/// Number, length, count, and every byte and place of what is lent and of the margins. A refusal writes none.
fn one_call(
    file: &[u8],
    (room, places): (usize, usize),
    expected: Result<&Mended, u32>,
    tried: &mut Tried,
) -> Result<(), String> {
    let mut wanted = Lent::new(room, places);
    let mut found = wanted.clone();
    let answer = raw::mend(file, lent(&mut found.bytes), lent(&mut found.places));
    let numbers = match expected {
        Err(number) => (number, 0, 0),
        Ok(mended) => {
            wanted.fill(mended);
            (0, mended.copy.len(), mended.changes.len() as u32)
        }
    };
    *tried.mends.calls.entry(numbers.0).or_default() += 1;
    tried.mends.bytes += room as u64;
    let difference = if (answer.number, answer.length, answer.count) != numbers {
        format!(
            "the library answers {answer:?}; the independent reading {numbers:?} (number, length, count)"
        )
    } else if let Some(words) = parting(&found.bytes, &wanted.bytes) {
        format!("byte {words}")
    } else if let Some(words) = parting(&found.places, &wanted.places) {
        format!("place {words}")
    } else {
        return Ok(());
    };
    Err(format!(
        "mended into {room} bytes and {places} places: {difference}"
    ))
}

/// Where two of one length part, counted from the end of the margin.
fn parting<T: PartialEq + std::fmt::Debug>(found: &[T], wanted: &[T]) -> Option<String> {
    if found == wanted {
        return None;
    }
    let at = (found.iter().zip(wanted)).position(|(found, wanted)| found != wanted)?;
    let place = at as i64 - MARGIN as i64;
    Some(format!(
        "{place} is {:?}, and not {:?}",
        found[at], wanted[at]
    ))
}

/// "The copy's breaks are [...] the original's without the mended ones", by the library and by the independent reading; and the copy, mended
/// again, is as it was.
fn facts(
    file: &[u8],
    breaks: &[Break],
    expected: &Mended,
    tried: &mut Tried,
) -> Result<(), String> {
    let Mended { copy, changes } = expected;
    let copy: Box<[u8]> = copy.as_slice().into();
    let stays =
        |at: &&Break| at.rule != EMPTY_CELL || changes.binary_search(&(at.line, at.cell)).is_err();
    let of_copy = whole_list(&copy)?;
    for (whose, before) in [
        ("the library's", &*whole_list(file)?),
        ("the reading's", breaks),
    ] {
        let left: Vec<Break> = before.iter().filter(stays).copied().collect();
        let what = format!("the copy's breaks and {whose} of the file without the mended ones");
        same(&what, &of_copy, &left)?;
        if before.len() != left.len() + changes.len() {
            return Err(format!(
                "{} changes are no breaks of {whose}",
                changes.len()
            ));
        }
    }
    let again = Mended {
        copy: copy.to_vec(),
        changes: Vec::new(),
    };
    one_call(&copy, (copy.len(), TWO), Ok(&again), tried)
        .map_err(|words| format!("the copy, again {words}"))
}

/// What may stand after a hole.
pub const AFTER: [&str; 4] = ["a tab", "LF", "CR LF", "nothing"];

/// The sort of a column that the independent reading knows, or does not.
fn sort_of(kind: Option<Kind>) -> &'static str {
    match kind {
        None => "unknown",
        Some(Kind::Text) => "text",
        Some(Kind::NeverNull) => "never null",
        Some(Kind::Whole) => "whole",
        Some(Kind::Reliability) => "reliability",
        Some(Kind::Unique) => "unique",
        Some(Kind::Decimal) => "decimal",
        Some(Kind::DecimalList) => "decimal list",
        Some(Kind::Window) => "window",
        Some(Kind::ParameterList) => "parameter list",
        Some(other) => unreachable!("no column is of kind {other:?}"),
    }
}

/// Every sort of column that a section has.
pub fn every_sort() -> Vec<(u32, &'static str)> {
    let mut all = Vec::new();
    for (section, letter) in (1..).zip(['P', 'E', 'S', 'M']) {
        all.push((section, sort_of(None)));
        for (sections, _, kind) in names::COLUMNS {
            if sections.contains(letter) {
                all.push((section, sort_of(Some(*kind))));
            }
        }
    }
    all
}

impl Mends {
    /// Counts the holes of a file: those that are mended, and those that stay.
    fn note(&mut self, file: &[u8], breaks: &[Break], expected: &Mended) {
        let holes: Vec<&Break> = breaks.iter().filter(|at| at.rule == EMPTY_CELL).collect();
        let changes = expected.changes.len();
        self.files += u64::from(changes > 0);
        self.mended += changes as u64;
        self.stayed += (holes.len() - changes) as u64;
        let mut rest = holes.into_iter().peekable();
        let mut above: (u32, Vec<&[u8]>) = (0, Vec::new());
        let with_ends = file.split_inclusive(|byte| *byte == b'\n');
        for ((number, line), with_end) in (1..).zip(lines::lines(file)).zip(with_ends) {
            if rest.peek().is_none() {
                return;
            }
            let cells: Vec<&[u8]> = lines::cells(line).collect();
            while let Some(hole) = rest.next_if(|hole| hole.line == number) {
                let after = match (hole.cell as usize == cells.len(), &with_end[line.len()..]) {
                    (false, _) => AFTER[0],
                    (true, b"\n") => AFTER[1],
                    (true, b"\r\n") => AFTER[2],
                    (true, _) => AFTER[3],
                };
                *self.after.entry(after).or_default() += 1;
                let (section, names) = &above;
                let known = names::column(*section, names[hole.cell as usize - 1]);
                let sort = sort_of(known.map(|known| known.kind));
                *self.sorts.entry((*section, sort)).or_default() += 1;
            }
            if let Code::Header(section) = lines::code(line) {
                above = (section, cells);
            }
        }
    }
}

#[cfg(test)]
mod tests {
    use super::*;

    #[test]
    fn what_is_counted() {
        let mut mends = Mends::default();
        let file = b"PRH\taccession\tfoo\nPRT\t\t\r\nPRT\ta\t\nSMH\tcharge\r\nSML\t";
        let breaks = independent::judge(file).expect("it is short");
        mends.note(file, &breaks, &mended_of(file, &breaks));
        assert_eq!((mends.files, mends.mended, mends.stayed), (1, 3, 1));
        let after: Vec<_> = AFTER.iter().map(|after| mends.after[after]).collect();
        assert_eq!(after, [1, 1, 1, 1]);
        let sorts = [(1, "never null"), (1, "unknown"), (4, "whole")];
        assert!(mends.sorts.into_keys().eq(sorts));
        assert!(sorts.iter().all(|sort| every_sort().contains(sort)));
    }

    #[test]
    fn where_two_part() {
        assert_eq!(parting(&[1, 2], &[1, 2]), None);
        assert_eq!(
            parting(&[1, 2], &[1, 3]),
            Some("-7 is 2, and not 3".to_string())
        );
    }
}
