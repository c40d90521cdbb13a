//! The breaks of one line, and what one edited cell can do: the cases written by
//! hand, and what the request says of every edit.

use std::collections::BTreeSet;

use independent::cases::edits::{all as edits, NOT_EDITED, WHY_NOT};
use independent::cases::lines::{all, Case};
use independent::cases::{self, judging};
use independent::edits::{count, of_line, NoEdit};
use independent::lines::{cells, code, lines, Code};
use independent::{edited, judge, judge_line, printing, Break, LIMIT};

/// Every line of the case, and lines that are none.
fn check(case: &Case) {
    let far = [case.count + 2, case.count + 256, u32::MAX];
    for line in (0..=case.count + 1).chain(far) {
        let found = judge_line(&case.file, line);
        assert_eq!(found, case.answer(line), "{}, line {line}", case.label);
    }
    assert_eq!(count(&case.file), case.count, "{}", case.label);
}

#[test]
fn every_line_has_its_breaks() {
    let all = all();
    assert!((60..=120).contains(&all.len()), "{}", all.len());
    all.iter().for_each(check);
    // Each is printed whole.
    assert!(all.iter().all(|case| case.count <= 20));
}

#[test]
fn labels_are_no_two_the_same() {
    let labels: BTreeSet<&str> = all().iter().map(|case| case.label).collect();
    assert_eq!(labels.len(), all().len());
    let labels: BTreeSet<&str> = edits().iter().map(|edit| edit.label).collect();
    assert_eq!(labels.len(), edits().len());
}

/// Rules 21 and 22 are those of line N + 1.
#[test]
fn every_rule_of_a_line_is_broken_somewhere() {
    let broken: BTreeSet<u32> = (all().iter())
        .flat_map(|case| case.breaks.iter().map(|at| at.rule))
        .collect();
    let rules: BTreeSet<u32> = (1..=24).filter(|rule| ![21, 22].contains(rule)).collect();
    assert_eq!(broken, rules);
}

/// The parts of all lines, and that of line N + 1, are the whole list.
#[test]
fn the_parts_are_the_whole() {
    let files = judging::all().into_iter().map(|case| case.file);
    for file in files.filter(|file| count(file) <= 100) {
        let whole = judge(&file).expect("within the limit");
        let lines = 1..=count(&file);
        let mut parts: Vec<Break> = lines
            .flat_map(|line| judge_line(&file, line).expect("a line of the file"))
            .collect();
        assert!(parts.iter().all(|at| at.rule != 21 && at.rule != 22));
        parts.extend(of_line(&whole, count(&file) + 1));
        assert_eq!(parts, whole);
    }
}

#[test]
fn every_edit_is_as_written() {
    let all = edits();
    assert!(all.len() >= 30, "{}", all.len());
    for edit in all {
        let after = edited(&edit.before, edit.line, edit.cell, &edit.new);
        assert_eq!(after.as_ref(), Ok(&edit.after), "{}", edit.label);
        let found = [&edit.before, &edit.after].map(|file| judge_line(file, edit.line));
        let expected = [edit.old_breaks, edit.new_breaks].map(Ok);
        assert_eq!(found, expected, "{}", edit.label);
        same_elsewhere(&edit.before, &edit.after, edit.line);
    }
}

/// "all breaks on other lines, line N + 1 included, are the same"
fn same_elsewhere(before: &[u8], after: &[u8], line: u32) {
    let others = |file: &[u8]| {
        let mut breaks = judge(file).expect("within the limit");
        breaks.retain(|at| at.line != line);
        breaks
    };
    assert_eq!(others(before), others(after), "line {line}");
    assert_eq!(count(before), count(after));
}

const VALUES: [&[u8]; 18] = [
    b"",
    b"null",
    b"NaN",
    b"INF",
    b"0",
    b"3",
    b"-12",
    b"1.5E-3",
    b"1|2",
    b"[,,a,]",
    b"[,,a",
    b"\"",
    b" ",
    b"MTD",
    b"assay[1]",
    b"\x01",
    b"\x7f\x00",
    b"\xff",
];

/// Each cell from 2 on of each row of each short case, with each of the values.
#[test]
fn every_edit_leaves_the_other_lines() {
    let mut tried = 0;
    let judged = judging::all().into_iter().map(|case| case.file);
    let files = all().into_iter().map(|case| case.file).chain(judged);
    for file in files.filter(|file| file.len() < 400) {
        let rows: Vec<(u32, usize)> = (1..)
            .zip(lines(&file))
            .filter(|(_, line)| matches!(code(line), Code::Row(_)))
            .map(|(number, line)| (number, cells(line).count()))
            .collect();
        for (line, cells) in rows {
            for cell in 2..=cells as u32 {
                for new in VALUES {
                    let after = edited(&file, line, cell, new).expect("a row's cell");
                    same_elsewhere(&file, &after, line);
                    tried += 1;
                }
            }
        }
    }
    assert!(tried > 5_000, "{tried}");
}

#[test]
fn what_is_not_edited() {
    for (line, cell, new, why) in WHY_NOT {
        let found = edited(NOT_EDITED, line, cell, new);
        assert_eq!(found, Err(why), "line {line}, cell {cell}");
    }
}

/// "and both files are within the length limit"
#[test]
fn the_limit_of_edits() {
    let mut file = b"PRT\ta\n".to_vec();
    file.resize(LIMIT, b'\n');
    let last = count(&file);
    assert_eq!(last as usize, LIMIT - 5);
    assert_eq!(judge_line(&file, 1).map(|breaks| breaks.len()), Ok(1));
    assert_eq!(judge_line(&file, last), Ok(vec![]));
    assert_eq!(judge_line(&file, last + 1), Err(3));
    assert_eq!(edited(&file, 1, 2, b"ab"), Err(NoEdit::TooLong));
    assert_eq!(
        edited(&file, 1, 2, b"b").map(|after| after.len()),
        Ok(LIMIT)
    );
    file.push(b'\n');
    for line in [0, 1, last, last + 1, last + 2, u32::MAX] {
        assert_eq!(judge_line(&file, line), Err(1));
    }
    // One that is too long is none of "both files", however short it becomes.
    assert_eq!(edited(&file, 1, 2, b""), Err(NoEdit::TooLong));
}

#[test]
fn what_the_table_of_lines_prints() {
    let input = b"SMH\tidentifier\tcharge\nSML\t\tx\n\x1e\x1ex\x1e";
    let nines = " 9".repeat(10);
    let expected = format!(
        "line 0: 3 0{nines}\nline 1: 0 0{nines}\nline 2: 0 2 19 2 2 0 20 2 3 0 9 9\n\
         line 3: 3 0{nines}\n.\nline 0: 3 0{nines}\nline 1: 3 0{nines}\n.\n\
         line 0: 3 0{nines}\nline 1: 0 1 2 1 1 0 9 9 9 9 9 9\nline 2: 3 0{nines}\n.\n"
    );
    assert_eq!(printing::lines(input), expected);
    assert_eq!(printing::lines(b""), "");
}

/// A list of ten places has room for two breaks of three, and no line after 23
/// is asked for.
#[test]
fn where_the_table_of_lines_ends() {
    let printed = printing::lines(b"SMH\tidentifier\tcharge\topt_a\nSML\t\t\t\n");
    assert!(printed.contains("\nline 2: 0 3 19 2 2 0 19 2 3 0 9 9\n"));
    let printed = printing::lines(&b"\n".repeat(30));
    let last = printed.lines().nth(23).expect("lines 0 to 23");
    assert_eq!(last, format!("line 23: 0 0{}", " 9".repeat(10)));
    assert_eq!(printed.lines().nth(24), Some("."));
}

/// The table of all cases, against what stands in them.
#[test]
fn every_case_is_printed_as_written() {
    let mut input = Vec::new();
    let mut expected = String::new();
    for case in all() {
        input.extend(&case.file);
        input.push(printing::END);
        expected += &case.printed();
    }
    assert_eq!(printing::lines(&input), expected);
    assert!(cases::lines_input().starts_with(&input));
}
