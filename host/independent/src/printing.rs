//! What the binary prints in each of its modes, as bytes.

use crate::mending::Answer;
use crate::names::{Family, Kind, Known};
use crate::{
    add, cell, cell_or, judge, judge_line, kinds, mend, names, read, reading, rows, split, tally,
    weights as weights_of, Break, Reading, Tally,
};

/// The byte that ends each file or case where several stand in one input.
pub const END: u8 = 30;

/// "It reads standard input up to 65,536 bytes; beyond, it prints `TOO LONG`."
pub const JUDGE_INPUT: usize = 65_536;

/// "for each of the first 4,096 breaks line, cell and rule"; since request
/// 2026-08 where it was first is "a fourth field".
pub const SHOWN: usize = 4_096;

/// What each place of a share holds before the call.
const SHARE_BEFORE: u64 = 7;

/// What each place of a weight holds before the call.
const WEIGHT_BEFORE: u32 = 9;

/// How many places the list for one line has, and what each holds before the
/// call.
const LINE_PLACES: usize = 10;
const LINE_BEFORE: u32 = 9;

/// Of no file a line after this one is asked for.
const LAST_LINE: u32 = 23;

/// How many bytes the two buffers for a copy have, and what each byte is before
/// the call; how many places the list of changes has, and what each holds.
const ROOM: usize = 4_096;
const SHORT_ROOM: usize = 60;
const BYTE_BEFORE: u8 = b'#';
const CHANGE_PLACES: usize = 5;
const CHANGE_BEFORE: u32 = 9;

/// As the program `judge` prints.
pub fn judged(file: &[u8]) -> String {
    if file.len() > JUDGE_INPUT {
        return "TOO LONG\n".to_string();
    }
    verdict(file)
}

/// `OK`, or `FAULTS` and the count and the first breaks.
pub fn verdict(file: &[u8]) -> String {
    match judge(file) {
        None => "TOO LONG\n".to_string(),
        Some(breaks) if breaks.is_empty() => "OK\n".to_string(),
        Some(breaks) => faults(&breaks),
    }
}

fn faults(breaks: &[Break]) -> String {
    let mut out = format!("FAULTS {}\n", breaks.len());
    for at in breaks.iter().take(SHOWN) {
        out += &fields(at);
        out += "\n";
    }
    out
}

/// Line, cell, rule and where it was first.
fn fields(at: &Break) -> String {
    let Break {
        line,
        cell,
        rule,
        first,
    } = at;
    format!("{line} {cell} {rule} {first}")
}

/// Several files, each ended by the byte 30; a line `.` after each verdict.
pub fn judges(input: &[u8]) -> String {
    let mut out = String::new();
    for file in pieces(input, END) {
        out += &verdict(file);
        out += ".\n";
    }
    out
}

/// Several cases, each ended by the byte 30: questions, a line `.`, the file.
pub fn cells(input: &[u8]) -> Vec<u8> {
    let mut out = Vec::new();
    for case in pieces(input, END) {
        let (questions, file) = questions_and_file(case);
        for question in questions {
            out.extend(answer(file, question));
        }
        out.extend(b".\n");
    }
    out
}

type Question = (u32, u32, u32);

fn questions_and_file(case: &[u8]) -> (Vec<Question>, &[u8]) {
    let mut questions = Vec::new();
    let mut rest = case;
    loop {
        let at = rest
            .iter()
            .position(|b| *b == b'\n')
            .expect("a line of a case ends with LF");
        let line = &rest[..at];
        rest = &rest[at + 1..];
        if line == b"." {
            return (questions, rest);
        }
        questions.push(question(line));
    }
}

fn question(line: &[u8]) -> Question {
    let line = std::str::from_utf8(line).expect("a question is plain numbers");
    let numbers: Vec<u32> = line
        .split(' ')
        .map(|n| n.parse().expect("a question is plain numbers"))
        .collect();
    assert_eq!(numbers.len(), 3, "a question is section, row and column");
    (numbers[0], numbers[1], numbers[2])
}

/// `NUMBER <VIEW> <VIEW_OR> LINE CELL READING`
fn answer(file: &[u8], (section, row, column): Question) -> Vec<u8> {
    let plain = cell(file, section, row, column);
    let with_stand_in = cell_or(file, section, row, column, b"-");
    let record = reading(file, section, row, column);
    let number = plain.err().unwrap_or(0);
    assert_eq!(number, with_stand_in.err().unwrap_or(0));
    assert_eq!(number, record.err().unwrap_or(0));
    // "A refused reading has line 0, cell 0 and missing."
    let (line, at, read) = record.unwrap_or((0, 0, Reading::Missing));
    let mut out = format!("{number} <").into_bytes();
    out.extend(plain.unwrap_or(&[]));
    out.extend(b"> <");
    out.extend(with_stand_in.unwrap_or(&[]));
    out.extend(format!("> {line} {at} {}\n", reading_text(&read)).into_bytes());
    out
}

pub fn reading_text(reading: &Reading) -> String {
    match reading {
        Reading::Missing => "missing".to_string(),
        Reading::Whole(value) => format!("whole {value}"),
        Reading::Decimal {
            numerals, power, ..
        } => format!("decimal {numerals} {power}"),
        Reading::Infinite => "infinite".to_string(),
        Reading::NotANumber => "nan".to_string(),
        Reading::LongDecimal => "long".to_string(),
        Reading::Text => "text".to_string(),
    }
}

/// One line for each value: the kinds, the references, the lists, the reading.
pub fn kinds(input: &[u8]) -> String {
    each_line(input, kinds_of)
}

pub fn kinds_of(value: &[u8]) -> String {
    let seven = [
        kinds::text(value),
        kinds::whole(value),
        kinds::decimal(value),
        kinds::decimal_list(value),
        kinds::window(value),
        kinds::parameter(value),
        kinds::parameter_list(value),
    ];
    let indices: Vec<String> = names::FAMILIES
        .iter()
        .map(|family| kinds::reference(family.word(), value).to_string())
        .collect();
    let lists: String = names::FAMILIES
        .iter()
        .map(|family| bit(kinds::reference_list(family.word(), value).is_some()))
        .collect();
    let seven: String = seven.into_iter().map(bit).collect();
    format!(
        "{seven} {} {lists} {}",
        indices.join(" "),
        reading_text(&read(value))
    )
}

fn bit(yes: bool) -> char {
    if yes {
        '1'
    } else {
        '0'
    }
}

/// One line for each name: as key, as column of each section, what it declares.
pub fn names(input: &[u8]) -> String {
    each_line(input, names_of)
}

pub fn names_of(name: &[u8]) -> String {
    let fields = [
        known_text(names::key(name)),
        known_text(names::column(1, name)),
        known_text(names::column(2, name)),
        known_text(names::column(3, name)),
        known_text(names::column(4, name)),
        declared_text(names::declares(name)),
    ];
    fields.join(" ; ")
}

fn known_text(known: Option<Known>) -> String {
    match known {
        None => "-".to_string(),
        Some(k) => {
            let (kind, family) = letters(&k);
            format!("{kind}{family} {} {}", k.i, k.j)
        }
    }
}

/// The letters of a kind and a family that the run test prints. They are its
/// own affair: nothing here judges by them.
fn letters(known: &Known) -> (char, char) {
    let kind = match known.kind {
        Kind::Version => 'v',
        Kind::Mode => 'm',
        Kind::Type => 't',
        Kind::Text => 'T',
        Kind::NeverNull => 'K',
        Kind::Whole => 'W',
        Kind::Decimal => 'D',
        Kind::DecimalList => 'L',
        Kind::Window => 'N',
        Kind::Parameter => 'P',
        Kind::ParameterList => 'Q',
        Kind::Reference(family) => return ('r', letter(family)),
        Kind::ReferenceList(family) => return ('l', letter(family)),
        Kind::Reliability => 'R',
        Kind::Unique => 'U',
    };
    (kind, known.family.map_or('-', letter))
}

fn letter(family: Family) -> char {
    match family {
        Family::Sample => 'S',
        Family::Assay => 'A',
        Family::StudyVariable => 'V',
        Family::MsRun => 'R',
    }
}

fn declared_text(id: Option<(Family, u32)>) -> String {
    match id {
        None => "-".to_string(),
        Some((family, index)) => format!("{} {index}", letter(family)),
    }
}

/// One line for each value: the reading, and of a decimal the double's bits.
pub fn doubles(input: &[u8]) -> String {
    each_line(input, double_of)
}

pub fn double_of(value: &[u8]) -> String {
    let reading = read(value);
    let text = reading_text(&reading);
    match reading {
        Reading::Decimal { double, .. } => format!("{text} {:016x}", double.to_bits()),
        _ => text,
    }
}

/// One line for each case: `add A B`, or `split FEE PLACES W1 W2 ..`.
pub fn fees(input: &[u8]) -> String {
    each_line(input, fee_of)
}

fn fee_of(case: &[u8]) -> String {
    let case = std::str::from_utf8(case).expect("a case is a word and plain numbers");
    let mut words = case.split(' ');
    let call = words.next();
    let numbers: Vec<u64> = words
        .map(|n| n.parse().expect("a case is a word and plain numbers"))
        .collect();
    match (call, numbers.as_slice()) {
        (Some("add"), [a, b]) => sum_text(add(*a, *b)),
        (Some("split"), [fee, places, weights @ ..]) => {
            let weights: Vec<u32> = weights
                .iter()
                .map(|w| u32::try_from(*w).expect("a weight has 32 bits"))
                .collect();
            let places = *places as usize;
            shares_text(split(*fee, &weights, places), places)
        }
        _ => panic!("a case adds or splits: {case}"),
    }
}

/// `NUMBER SUM`
fn sum_text(sum: Result<u64, u32>) -> String {
    format!("{} {}", sum.err().unwrap_or(0), sum.unwrap_or(0))
}

/// `NUMBER` and each place after the call: "shares untouched" where it refuses.
fn shares_text(shares: Result<Vec<u64>, u32>, places: usize) -> String {
    match shares {
        Ok(shares) => format!("0{}", spaced(&shares)),
        Err(number) => format!("{number}{}", spaced(&vec![SHARE_BEFORE; places])),
    }
}

/// Several files, each ended by the byte 30: the rows, the weights in lists of
/// 64, 63 and 65 places, and a line `.`.
pub fn weights(input: &[u8]) -> String {
    let mut out = String::new();
    for file in pieces(input, END) {
        out += &rows_text(|section| rows(file, section));
        for places in [64, 63, 65] {
            out += &weights_text(weights_of(file, places), places);
        }
        out += ".\n";
    }
    out
}

/// `rows`, and number and count of sections 0 to 5.
fn rows_text(rows: impl Fn(u32) -> Result<u32, u32>) -> String {
    let mut out = "rows".to_string();
    for section in 0..=5 {
        let count = rows(section);
        out += &spaced(&[count.err().unwrap_or(0), count.unwrap_or(0)]);
    }
    out + "\n"
}

/// `weights NUMBER` and each place after the call: none is written where it
/// refuses.
fn weights_text(weights: Result<Vec<u32>, u32>, places: usize) -> String {
    let (number, list) = match weights {
        Ok(weights) => (0, weights),
        Err(number) => (number, vec![WEIGHT_BEFORE; places]),
    };
    format!("weights {number}{}\n", spaced(&list))
}

/// Several files, each ended by the byte 30: lines 0, 1, 2 and so on, up to the
/// first after 0 that is refused, and a line `.`.
pub fn lines(input: &[u8]) -> String {
    let mut out = String::new();
    for file in pieces(input, END) {
        for line in 0..=LAST_LINE {
            let breaks = judge_line(file, line);
            out += &line_text(line, &breaks);
            if line > 0 && breaks.is_err() {
                break;
            }
        }
        out += ".\n";
    }
    out
}

/// `line N: NUMBER COUNT`, and each place after the call: "a short list as in
/// demand 3", so that it holds the first breaks whole, and the places that no
/// break fills are untouched.
fn line_text(line: u32, breaks: &Result<Vec<Break>, u32>) -> String {
    let (number, breaks) = match breaks {
        Ok(breaks) => (0, breaks.as_slice()),
        Err(number) => (*number, &[] as &[Break]),
    };
    let mut places = vec![LINE_BEFORE; LINE_PLACES];
    for (four, at) in places.chunks_exact_mut(4).zip(breaks) {
        four.copy_from_slice(&[at.rule, at.line, at.cell, at.first]);
    }
    let count = breaks.len();
    format!("line {line}: {number} {count}{}\n", spaced(&places))
}

/// Several files, each ended by the byte 30: what mending answers with either
/// buffer, the copy in the first and one byte more, all of the second, and a line
/// `.`.
pub fn mends(input: &[u8]) -> Vec<u8> {
    let mut out = Vec::new();
    for file in pieces(input, END) {
        let (answer, length, buffer) = mend_into(file, ROOM);
        out.extend(answer.into_bytes());
        // The byte past the copy is none of it, and untouched.
        out.extend(&buffer[..(length + 1).min(ROOM)]);
        let (answer, _, buffer) = mend_into(file, SHORT_ROOM);
        out.push(b'\n');
        out.extend(answer.into_bytes());
        out.extend(buffer);
        out.extend(b"\n.\n");
    }
    out
}

/// `mend ROOM: NUMBER LENGTH COUNT` and each place after the call; the length;
/// and the buffer.
fn mend_into(file: &[u8], room: usize) -> (String, usize, Vec<u8>) {
    let mut buffer = vec![BYTE_BEFORE; room];
    let mut places = [CHANGE_BEFORE; CHANGE_PLACES];
    let Answer {
        number,
        length,
        count,
    } = mend(file, &mut buffer, &mut places);
    let places = spaced(&places);
    let answer = format!("mend {room}: {number} {length} {count}{places}\n");
    (answer, length, buffer)
}

/// Several files, each ended by the byte 30: number and totals of the tally, of
/// that tally added to itself, and the bytes of its record.
pub fn tallies(input: &[u8]) -> String {
    let mut out = String::new();
    for file in pieces(input, END) {
        let found = tally::of_file(file);
        out += &tally_text(found);
        // Refused with "a tally of zeros".
        let found = found.unwrap_or_default();
        out += &tally_text(tally::add(&found, &found));
        let bytes = tally::record(&found);
        out.extend(bytes.iter().map(|byte| format!("{byte:02x}")));
        out += "\n";
    }
    out
}

/// `NUMBER` and the eight totals, zeros where it refuses.
fn tally_text(tally: Result<Tally, u32>) -> String {
    let number = tally.err().unwrap_or(0);
    format!("{number}{}\n", spaced(&tally.unwrap_or_default().totals()))
}

/// The numbers, a space before each.
fn spaced<T: ToString>(numbers: &[T]) -> String {
    numbers
        .iter()
        .map(|n| " ".to_string() + &n.to_string())
        .collect()
}

fn each_line(input: &[u8], print: fn(&[u8]) -> String) -> String {
    let mut out = String::new();
    for line in pieces(input, b'\n') {
        out += &print(line);
        out += "\n";
    }
    out
}

/// The pieces that the byte ends; what stands after the last such byte is one
/// more piece if it is not empty.
fn pieces(input: &[u8], end: u8) -> Vec<&[u8]> {
    let mut all: Vec<&[u8]> = input.split(|b| *b == end).collect();
    if all.last() == Some(&(&[] as &[u8])) {
        all.pop();
    }
    all
}
