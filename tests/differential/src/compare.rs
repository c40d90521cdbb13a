//! One file, judged and read by both.

use std::collections::BTreeMap;

use independent::demands;
use independent::lines::{self, Code};
use independent::Reading;
use mztab::{raw, Break, Value};
use samples::Draws;

use crate::edits::{self, Edited};
use crate::firsts::{self, Mistaken};
use crate::mends::{self, Mends};
use crate::tallies::{self, Tallies};
use crate::weights;

/// What a place holds that no break fills.
pub const MARK: u32 = 0xdead_beef;
/// So many questions are asked of a file; of one with more cells, some are drawn.
const QUESTIONS: usize = 300;
/// A file of so few breaks is judged with every length of list.
const FEW: usize = 6;
/// A break fills so many places: rule, line, cell and first.
pub const FOUR: usize = 4;

/// So many rules there are.
const RULES: usize = 24;
/// The rules of indices, and what has an index.
pub const INDEX_RULES: [u32; 2] = [23, 24];
pub const WITH_INDEX: [&str; 4] = ["key", "reference", "reference list", "column"];

/// How much was compared.
#[derive(Default)]
pub struct Tried {
    pub files: u64,
    pub accepted: u64,
    pub breaks: u64,
    pub lists: u64,
    pub cells: u64,
    /// How many cells by the case that they read as, and how many decimals by their power.
    pub cases: BTreeMap<u32, u64>,
    pub powers: BTreeMap<i32, u64>,
    /// How many breaks of each rule.
    pub rules: [u64; RULES + 1],
    /// How many breaks of rules 23 and 24 by the rule and what has the bad index.
    pub indices: BTreeMap<(u32, &'static str), u64>,
    /// How many breaks of rules 6, 9 and 13 by the rule and what their first could be mistaken for; in the end of the drawn files alone.
    pub firsts: BTreeMap<(u32, Mistaken), u64>,
    /// How many breaks of rule 22 by the field, and how many accepted files by mode and type.
    pub fields: BTreeMap<u32, u64>,
    pub sorts: BTreeMap<String, u64>,
    /// Accepted files that have a weight.
    pub weighed: u64,
    /// Single lines and edits; in the end of the drawn files alone.
    pub edited: Edited,
    /// What was mended; in the end of the drawn files alone.
    pub mends: Mends,
    /// What was tallied, added, written and read; in the end of the drawn files alone.
    pub tallies: Tallies,
    /// How many splits by the number that was answered.
    pub splits: BTreeMap<u32, u64>,
    pub sums: u64,
}

impl Tried {
    fn note(&mut self, reading: &Reading) {
        let (case, _, power, _) = carried(reading);
        *self.cases.entry(case).or_default() += 1;
        if let Reading::Decimal { .. } = reading {
            *self.powers.entry(power).or_default() += 1;
        }
    }

    fn note_breaks(&mut self, file: &[u8], breaks: &[independent::Break]) {
        self.breaks += breaks.len() as u64;
        for at in breaks {
            self.rules[at.rule as usize] += 1;
            if let (22, Some((field, _))) = (at.rule, demands::at_cell(at.cell)) {
                *self.fields.entry(field.cell).or_default() += 1;
            }
        }
        self.note_indices(file, breaks);
        for (rule, mistaken) in firsts::mistaken(file, breaks) {
            *self.firsts.entry((rule, mistaken)).or_default() += 1;
        }
        if breaks.is_empty() {
            self.accepted += 1;
            let sort = format!("{:?}", demands::sort_of(file));
            *self.sorts.entry(sort).or_default() += 1;
        }
    }

    fn note_indices(&mut self, file: &[u8], breaks: &[independent::Break]) {
        let mut bad = (breaks.iter())
            .filter(|at| INDEX_RULES.contains(&at.rule))
            .peekable();
        if bad.peek().is_none() {
            return;
        }
        let all: Vec<&[u8]> = lines::lines(file).collect();
        for at in bad {
            let what = with_index(all[at.line as usize - 1], at.cell);
            *self.indices.entry((at.rule, what)).or_default() += 1;
        }
    }
}

/// What has the bad index that a line's cell is said to have.
fn with_index(line: &[u8], cell: u32) -> &'static str {
    let [key, reference, list, column] = WITH_INDEX;
    match (lines::key_and_value(line), cell) {
        (Some(_), 2) => key,
        (Some((_, value)), _) if value.contains(&b',') => list,
        (Some(_), _) => reference,
        (None, _) => column,
    }
}

/// Nothing where both say the same, else both answers in words.
pub fn compare(file: &[u8], draws: &mut Draws, tried: &mut Tried) -> Result<(), String> {
    // A box of its own has no room after the last byte, so that a checker of memory sees a read past it.
    let file: Box<[u8]> = file.into();
    tried.files += 1;
    // What is drawn for lines and edits, for mending and for tallies does not hang on what is drawn for the others.
    let own = &mut draws.clone();
    let for_mends = &mut Draws::new(draws.clone().bits());
    let for_tallies = &mut Draws::new(!draws.clone().bits());
    let expected = independent::judge(&file);
    match &expected {
        None => too_long(&file)?,
        Some(expected) => judging(&file, expected, draws, tried)?,
    }
    cells(&file, draws, tried)?;
    weights::compare(&file, draws, tried)?;
    edits::compare(&file, expected.as_deref(), own, tried)?;
    mends::compare(&file, expected.as_deref(), for_mends, tried)?;
    tallies::compare(&file, expected.as_deref(), for_tallies, tried)
}

fn judging(
    file: &[u8],
    expected: &[independent::Break],
    draws: &mut Draws,
    tried: &mut Tried,
) -> Result<(), String> {
    let places: Vec<u32> = expected
        .iter()
        .flat_map(|at| [at.rule, at.line, at.cell, at.first])
        .collect();
    for length in lengths(expected.len(), draws) {
        tried.lists += 1;
        with_list(file, &places, length)?;
    }
    let judged =
        mztab::judge_all(file).map_err(|refusal| format!("judging is refused: {refusal:?}"))?;
    let found: Vec<u32> = judged
        .breaks()
        .flat_map(|at| [at.rule, at.line, at.cell, at.first])
        .collect();
    if found.len() != places.len() {
        return Err(format!(
            "the list of all has {} places, not {}",
            found.len(),
            places.len()
        ));
    }
    let mut fours = found.chunks_exact(FOUR).zip(places.chunks_exact(FOUR));
    if let Some((found, expected)) = fours.find(|(found, expected)| found != expected) {
        return Err(format!(
            "the list of all has {found:?}, not {expected:?} (rule, line, cell, first)"
        ));
    }
    tried.note_breaks(file, expected);
    Ok(())
}

/// The lengths of the lists that are lent: from none to more than enough where the breaks are few.
pub fn lengths(breaks: usize, draws: &mut Draws) -> Vec<usize> {
    let enough = FOUR * breaks;
    if breaks <= FEW && draws.once_in(4) {
        return (0..=enough + FOUR + 1).collect();
    }
    vec![draws.below(enough + 1), enough + draws.below(FOUR + 2)]
}

fn with_list(file: &[u8], expected: &[u32], length: usize) -> Result<(), String> {
    let mut places = vec![MARK; length].into_boxed_slice();
    let answer = raw::judge(file, &mut places);
    if answer.number != 0 || answer.count as usize * FOUR != expected.len() {
        return Err(format!(
            "a list of {length}: the library answers number {} and {} breaks, {:?}; the independent reading {} breaks, {:?}",
            answer.number,
            answer.count,
            places,
            expected.len() / FOUR,
            expected
        ));
    }
    let filled = (length / FOUR * FOUR).min(expected.len());
    if places[..filled] != expected[..filled] {
        return Err(format!("a list of {length}: the library lists {:?}; the independent reading {:?} (rule, line, cell, first)", &places[..filled], &expected[..filled]));
    }
    if places[filled..].iter().any(|place| *place != MARK) {
        return Err(format!(
            "a list of {length}: places after {filled} are written: {:?}",
            &places[filled..]
        ));
    }
    with_records(file, expected, length)
}

/// The same over records, of which as many are lent as the list has places: marked, so that each that no break fills is seen to stay.
fn with_records(file: &[u8], expected: &[u32], length: usize) -> Result<(), String> {
    let marked = Break {
        rule: MARK,
        line: MARK,
        cell: MARK,
        first: MARK,
    };
    let mut list = vec![marked; length].into_boxed_slice();
    let answer = raw::faults(file, &mut list);
    let wanted = expected.chunks_exact(FOUR).map(|four| Break {
        rule: four[0],
        line: four[1],
        cell: four[2],
        first: four[3],
    });
    let as_wanted = list
        .iter()
        .copied()
        .eq(wanted.chain(std::iter::repeat(marked)).take(length));
    if answer.number == 0 && answer.count as usize * FOUR == expected.len() && as_wanted {
        return Ok(());
    }
    Err(format!("a list of {length} records: the library answers {answer:?}, {list:?}; the independent reading {expected:?} (rule, line, cell, first)"))
}

fn too_long(file: &[u8]) -> Result<(), String> {
    let mut places = [MARK; 40];
    let answer = raw::judge(file, &mut places);
    let mut list = [Break::default(); 5];
    let records = raw::faults(file, &mut list);
    let refused = (answer.number, answer.count) == (1, 0) && answer == records;
    if refused && places == [MARK; 40] && list == [Break::default(); 5] {
        return Ok(());
    }
    Err(format!(
        "a file too long: the library answers {answer:?}, places {places:?}; {records:?}, records {list:?}"
    ))
}

/// Every cell, and a step beyond on each side; of a large file some.
fn cells(file: &[u8], draws: &mut Draws, tried: &mut Tried) -> Result<(), String> {
    let mut asked = questions(file);
    while asked.len() > QUESTIONS {
        asked.swap_remove(draws.below(asked.len()));
    }
    for far in [
        (0, 0, 0),
        (5, 1, 1),
        (u32::MAX, 0, 1),
        (1, u32::MAX, 1),
        (2, 1, u32::MAX),
        (1, 0, u32::MAX),
    ] {
        asked.push(far);
    }
    for question in asked {
        tried.cells += 1;
        cell(file, question, tried)?;
    }
    Ok(())
}

type Question = (u32, u32, u32);

/// The cells by what the independent reading finds, and the first refusals after them.
fn questions(file: &[u8]) -> Vec<Question> {
    let mut asked = Vec::new();
    for section in 1..=4 {
        let mut rows = 0;
        let mut headers = 0;
        for line in lines::lines(file) {
            let columns = lines::cells(line).skip(1).count() as u32;
            let at = match lines::code(line) {
                Code::Row(of) if of == section => {
                    rows += 1;
                    rows
                }
                Code::Header(of) if of == section && headers == 0 => {
                    headers += 1;
                    0
                }
                _ => continue,
            };
            asked.extend((0..=columns + 1).map(|column| (section, at, column)));
        }
        asked.extend([
            (section, rows + 1, 1),
            (section, rows + 1, 0),
            (section, 0, 1),
        ]);
    }
    asked
}

/// What the independent reading finds: line, cell and reading, or a refusal.
type Expected = Result<(u32, u32, Reading), u32>;

fn cell(file: &[u8], question: Question, tried: &mut Tried) -> Result<(), String> {
    let (section, row, column) = question;
    // The independent reading is asked once, and each call of the library held to it.
    let shown = independent::cell(file, section, row, column);
    let expected = independent::reading(file, section, row, column);
    if let Ok((_, _, reading)) = &expected {
        tried.note(reading);
    }
    plain(file, question, shown.err().unwrap_or(0))
        .and_then(|()| views(file, question, shown))
        .and_then(|()| reading(file, question, expected))
        .and_then(|()| bound(file, question, expected))
        .map_err(|words| format!("section {section}, row {row}, column {column}: {words}"))
}

fn plain(file: &[u8], (section, row, column): Question, number: u32) -> Result<(), String> {
    let plain = raw::cell(file, section, row, column);
    if plain.number != number || (number != 0 && (plain.start, plain.length) != (0, 0)) {
        return Err(format!(
            "the library answers {plain:?}; the independent reading number {number}"
        ));
    }
    Ok(())
}

/// The cell with and without a stand-in: the same bytes, at the same place.
fn views(
    file: &[u8],
    (section, row, column): Question,
    expected: Result<&[u8], u32>,
) -> Result<(), String> {
    let stand_in: &[u8] = b"-";
    let found = mztab::cell(file, section, row, column).map_err(|refusal| refusal.number());
    let expected_or = independent::cell_or(file, section, row, column, stand_in);
    let found_or =
        mztab::cell_or(file, section, row, column, stand_in).map_err(|refusal| refusal.number());
    for (found, expected) in [(found, expected), (found_or, expected_or)] {
        if !same_place(found, expected) {
            return Err(format!(
                "the library shows {found:?}; the independent reading {expected:?}"
            ));
        }
    }
    Ok(())
}

fn same_place(found: Result<&[u8], u32>, expected: Result<&[u8], u32>) -> bool {
    match (found, expected) {
        (Ok(found), Ok(expected)) => std::ptr::eq(found, expected),
        (found, expected) => found == expected,
    }
}

/// Line, cell and reading, the double bit for bit, and 0 for what a case does not carry.
fn reading(
    file: &[u8],
    (section, row, column): Question,
    expected: Expected,
) -> Result<(), String> {
    let found = raw::reading(file, section, row, column);
    let found = (
        found.number,
        found.line,
        found.cell,
        found.case,
        found.whole,
        found.power,
        found.decimal.to_bits(),
    );
    let expected = match expected {
        Err(number) => (number, 0, 0, 0, 0, 0, 0),
        Ok((line, cell, reading)) => {
            let (case, whole, power, bits) = carried(&reading);
            (0, line, cell, case, whole, power, bits)
        }
    };
    if found != expected {
        return Err(format!("the library reads {found:?}; the independent reading {expected:?} (number, line, cell, case, whole, power, bits)"));
    }
    Ok(())
}

/// The case of a reading, and what it carries.
fn carried(reading: &Reading) -> (u32, i64, i32, u64) {
    match reading {
        Reading::Missing => (0, 0, 0, 0),
        Reading::Whole(value) => (1, *value, 0, 0),
        Reading::Decimal {
            numerals,
            power,
            double,
        } => (2, *numerals, *power, double.to_bits()),
        Reading::Infinite => (3, 0, 0, 0),
        Reading::NotANumber => (4, 0, 0, 0),
        Reading::LongDecimal => (5, 0, 0, 0),
        Reading::Text => (6, 0, 0, 0),
    }
}

/// The binding's own record says the same.
fn bound(file: &[u8], (section, row, column): Question, expected: Expected) -> Result<(), String> {
    let found = mztab::reading(file, section, row, column);
    let same = match (&found, &expected) {
        (Err(refusal), Err(number)) => refusal.number() == *number,
        (Ok(found), Ok((line, cell, reading))) => {
            (found.line, found.cell) == (*line, *cell) && same_value(&found.value, reading)
        }
        _ => false,
    };
    if same {
        return Ok(());
    }
    Err(format!(
        "the binding reads {found:?}; the independent reading {expected:?}"
    ))
}

fn same_value(found: &Value, expected: &Reading) -> bool {
    let found = match found {
        Value::Missing => (0, 0, 0, 0),
        Value::Whole(value) => (1, *value, 0, 0),
        Value::Decimal {
            numerals,
            power,
            double,
        } => (2, *numerals, *power, double.to_bits()),
        Value::Infinite => (3, 0, 0, 0),
        Value::NotANumber => (4, 0, 0, 0),
        Value::LongDecimal => (5, 0, 0, 0),
        Value::Text => (6, 0, 0, 0),
    };
    found == carried(expected)
}
