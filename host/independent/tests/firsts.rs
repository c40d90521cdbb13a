//! Where it was first, against a second writing of the same words: from each
//! break back over all that stands before it.

use independent::cases::judging::{self, AGAIN};
use independent::lines::{cells, code, key_and_value, lines, Code};
use independent::{judge, printing, Break, LIMIT};

/// "for rules 6 and 9 the line of the earliest equal key or same header, for 13
/// the cell of the first equal name, 0 for all others"
fn first(all: &[&[u8]], at: &Break) -> u32 {
    let line = |number: u32| all[number as usize - 1];
    let cell = |number: u32| cells(line(at.line)).nth(number as usize - 1);
    let equal_key = |earlier: &u32| {
        let key = key_and_value(line(*earlier)).map(|pair| pair.0);
        key.is_some() && key == cell(2)
    };
    let same_header = |earlier: &u32| match (code(line(*earlier)), code(line(at.line))) {
        (Code::Header(a), Code::Header(b)) => a == b,
        _ => false,
    };
    let found = match at.rule {
        6 => (1..at.line).find(equal_key),
        9 => (1..at.line).find(same_header),
        13 => (2..at.cell).find(|earlier| cell(*earlier) == cell(at.cell)),
        _ => Some(0),
    };
    found.expect("a break of what comes again has it before")
}

/// Of each case: "where it is not 0, it stands before the break, and what stands
/// there is equal", and nothing equal stands before that.
#[test]
fn the_first_of_every_break() {
    let mut firsts = [0; 3];
    let mut others = 0;
    for case in judging::all() {
        let all: Vec<&[u8]> = lines(&case.file).collect();
        for at in judge(&case.file).unwrap() {
            assert_eq!(at.first, first(&all, &at), "{}: {at:?}", case.label);
            match AGAIN.iter().position(|rule| *rule == at.rule) {
                Some(k) => firsts[k] += 1,
                None => others += 1,
            }
        }
    }
    assert!(firsts.iter().all(|count| *count >= 40), "{firsts:?}");
    assert!(others > 10_000, "{others}");
}

/// In some case the first is not the nearest, for each rule.
#[test]
fn the_first_is_not_the_nearest() {
    for rule in AGAIN {
        let far = judging::all().into_iter().any(|case| {
            let mut firsts: Vec<_> = (case.breaks.iter())
                .filter(|at| at.rule == rule)
                .map(|at| match rule {
                    13 => (at.line, at.first),
                    _ => (0, at.first),
                })
                .collect();
            let all = firsts.len();
            firsts.dedup();
            firsts.len() < all
        });
        assert!(far, "rule {rule}");
    }
}

/// The breaks of what comes again.
fn again(file: &[u8]) -> Vec<(u32, u32, u32, u32)> {
    let all = judge(file).expect("within the limit").into_iter();
    let some = all.filter(|at| AGAIN.contains(&at.rule));
    some.map(|at| (at.line, at.cell, at.rule, at.first))
        .collect()
}

/// Line numbers have more than 16 bits, and a file may be as long as it may be.
#[test]
fn lines_far_apart() {
    let line = b"MTD\ttitle\ta\n";
    for count in [65_534, 65_535, 65_536, 131_071] {
        let file = [&line[..], &b"\n".repeat(count), line, line].concat();
        let last = count as u32 + 2;
        assert_eq!(again(&file), [(last, 2, 6, 1), (last + 1, 2, 6, 1)]);
    }
    let mut file = vec![b'\n'; LIMIT];
    let last = LIMIT - line.len();
    file[last..].copy_from_slice(line);
    file[last - line.len()..last].copy_from_slice(line);
    let first = (LIMIT - 2 * line.len()) as u32 + 1;
    assert_eq!(again(&file), [(first + 1, 2, 6, first)]);
    let header = b"SMH\tidentifier\tcharge\n";
    let file = [header.to_vec(), vec![b'\n'; 70_000], header.to_vec()].concat();
    assert_eq!(again(&file), [(70_002, 1, 9, 1)]);
}

/// One key, or two by turns, on every line of a file.
#[test]
fn one_key_and_two_by_turns() {
    let one = b"MTD\ttitle\ta\n";
    let other = b"MTD\turi[1]\ta\n";
    let expected: Vec<_> = (2..=100_000).map(|line| (line, 2, 6, 1)).collect();
    assert_eq!(again(&one.repeat(100_000)), expected);
    let expected: Vec<_> = (3..=100_000)
        .map(|line| (line, 2, 6, 2 - line % 2))
        .collect();
    assert_eq!(again(&[&one[..], other].concat().repeat(50_000)), expected);
}

/// The program shows the fourth number of each of the 4,096 that it shows.
#[test]
fn the_first_of_all_that_are_shown() {
    let file = [&b"\n\n"[..], &b"MTD\ttitle\ta\n".repeat(4_100)].concat();
    let printed = printing::judged(&file);
    let lines: Vec<&str> = printed.lines().collect();
    assert_eq!(lines.len(), 4_097);
    assert_eq!(lines[0], "FAULTS 4104");
    for (k, line) in lines.iter().enumerate().skip(1) {
        assert_eq!(*line, format!("{} 2 6 3", k + 3));
    }
}
