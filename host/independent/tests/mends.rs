//! The mender of empty cells: the cases written by hand, and what the request
//! says of every file.

use std::collections::BTreeSet;

use independent::cases::mends::{all, Case};
use independent::cases::{self, edits, holes, judging, lines as of_lines};
use independent::lines::lines;
use independent::mending::{Answer, Mended};
use independent::{edited, judge, mend, mended, printing, Break, LIMIT};

/// What a place of the list and a byte of the buffer hold before a call.
const PLACE: u32 = 77;
const BYTE: u8 = 0xb5;

/// The copy and the changes, with room enough.
fn of(file: &[u8]) -> (Vec<u8>, Vec<(u32, u32)>) {
    let Mended { copy, changes } = mended(file, LIMIT).expect("within the limit");
    (copy, changes)
}

fn check(case: &Case) {
    let (copy, changes) = of(&case.file);
    let show = |bytes: &[u8]| bytes.escape_ascii().to_string();
    assert_eq!(show(&copy), show(&case.copy), "{}", case.label);
    assert_eq!(changes, case.changes, "{}", case.label);
}

#[test]
fn every_case_is_mended_as_written() {
    let all = all();
    assert!(all.len() >= 100, "{}", all.len());
    all.iter().for_each(check);
    let unchanged = |case: &&Case| case.changes.is_empty();
    assert!(all.iter().filter(unchanged).count() >= 20);
}

#[test]
fn labels_are_no_two_the_same() {
    let labels: BTreeSet<&str> = all().iter().map(|case| case.label).collect();
    assert_eq!(labels.len(), all().len());
}

/// Of a label that says so many bytes the copy has as many.
#[test]
fn copies_are_as_long_as_their_labels_say() {
    let mut said = 0;
    for case in all() {
        if let Some((bytes, _)) = case.label.split_once(" bytes") {
            if let Ok(length) = bytes.replace(',', "").parse::<usize>() {
                assert_eq!(case.copy.len(), length, "{}", case.label);
                said += 1;
            }
        }
    }
    assert!(said >= 15, "{said}");
}

#[test]
fn line_ends_stay() {
    for end in ["", "\n", "\r\n", "\n\n", "\r\n\r\n", "\r\nx", "\nSML\tb\t2"] {
        let file = |cell: &str| format!("SMH\tidentifier\tcharge\r\nSML\ta\t{cell}{end}");
        let expected = (file("null").into_bytes(), vec![(2, 3)]);
        assert_eq!(of(file("").as_bytes()), expected, "{end:?}");
    }
    // A CR that no LF follows, or another CR, is the cell's own.
    for end in ["\r", "\r\r\n", "\rx\n"] {
        let file = format!("SMH\tidentifier\tcharge\nSML\ta\t{end}");
        let expected = (file.clone().into_bytes(), vec![]);
        assert_eq!(of(file.as_bytes()), expected, "{end:?}");
    }
}

/// "except protein `accession`, peptide and PSM `sequence`, and `PSM_ID`"
#[test]
fn columns_where_null_may_not_stand() {
    let stays = |header: &str, row: &str, name: &str| {
        let file = format!("{header}\t{name}\n{row}\t\n").into_bytes();
        let (copy, changes) = of(&file);
        assert_eq!(copy == file, changes.is_empty());
        copy == file
    };
    let sections = [
        ("PRH", "PRT"),
        ("PEH", "PEP"),
        ("PSH", "PSM"),
        ("SMH", "SML"),
    ];
    let mut all = Vec::new();
    for (header, row) in sections {
        for (_, name, _) in independent::names::COLUMNS {
            if stays(header, row, &name.replace("[n]", "[1]")) {
                all.push((header, *name));
            }
        }
        for name in [
            "",
            " ",
            "opt_",
            "opt_accession",
            "Sequence",
            "accession[1]",
            "psm_id",
        ] {
            assert!(!stays(header, row, name), "{header} {name}");
        }
    }
    let expected = [
        ("PRH", "accession"),
        ("PEH", "sequence"),
        ("PSH", "sequence"),
        ("PSH", "PSM_ID"),
    ];
    assert_eq!(BTreeSet::from_iter(all), BTreeSet::from(expected));
}

/// "Refusals, both 0, nothing written: 1, then 5"
fn refused(file: &[u8], room: usize, number: u32) {
    let mut buffer = vec![BYTE; room];
    let mut list = [PLACE; 7];
    let answer = mend(file, &mut buffer, &mut list);
    let (length, count) = (0, 0);
    let expected = Answer {
        number,
        length,
        count,
    };
    assert_eq!(answer, expected);
    assert!(buffer.iter().all(|byte| *byte == BYTE));
    assert_eq!(list, [PLACE; 7]);
}

/// The answer, the buffer and the list that so much room and so many places give.
fn granted(file: &[u8], room: usize, places: usize) {
    let (copy, changes) = of(file);
    let mut buffer = vec![BYTE; room];
    let mut list = vec![PLACE; places];
    let answer = mend(file, &mut buffer, &mut list);
    let (length, count) = (copy.len(), changes.len() as u32);
    let expected = Answer {
        number: 0,
        length,
        count,
    };
    assert_eq!(answer, expected);
    assert!(buffer[..length] == copy);
    assert!(buffer[length..].iter().all(|byte| *byte == BYTE));
    // "the first changes (both places of a change or neither)"
    let filled = places.min(2 * changes.len()) / 2 * 2;
    let two = changes.iter().flat_map(|(line, cell)| [*line, *cell]);
    assert_eq!(list[..filled], two.take(filled).collect::<Vec<u32>>());
    assert!(list[filled..].iter().all(|place| *place == PLACE));
}

#[test]
fn buffers_and_lists_of_every_length() {
    for case in all().iter().filter(|case| case.copy.len() <= 300) {
        let length = case.copy.len();
        for room in [length, length + 1, length + 60] {
            for places in 0..=2 * case.changes.len() + 3 {
                granted(&case.file, room, places);
            }
        }
        for room in (0..length).rev().step_by(7) {
            refused(&case.file, room, 5);
        }
    }
}

/// What is written into a short list, place by place.
#[test]
fn short_lists() {
    let file = b"SMH\tidentifier\tcharge\n\nSML\t\t\nSML\ta\t\n";
    let all = [3, 2, 3, 3, 4, 3];
    for places in 0..=8 {
        let mut buffer = [BYTE; 100];
        let mut list = vec![PLACE; places];
        let answer = mend(file, &mut buffer, &mut list);
        assert_eq!((answer.number, answer.length, answer.count), (0, 48, 3));
        let filled = [0, 0, 2, 2, 4, 4, 6, 6, 6][places];
        assert_eq!(list[..filled], all[..filled]);
        assert_eq!(list[filled..], vec![PLACE; places - filled]);
    }
}

/// A file so long, with one hole: its last line is a comment.
fn long(length: usize, cell: &[u8]) -> Vec<u8> {
    let mut file = [b"SMH\tidentifier\tcharge\nSML\ta\t", cell, b"\nCOM\t"].concat();
    file.resize(length, b'x');
    file
}

/// "no room in the buffer or past the length limit"
#[test]
fn the_limit_of_copies() {
    let file = long(LIMIT - 4, b"");
    granted(&file, LIMIT, 2);
    granted(&file, LIMIT + 100, 3);
    refused(&file, LIMIT - 1, 5);
    let file = long(LIMIT - 3, b"");
    refused(&file, LIMIT, 5);
    refused(&file, LIMIT + 1, 5);
    refused(&file, LIMIT + 100, 5);
    let file = long(LIMIT, b"1");
    granted(&file, LIMIT, 2);
    granted(&file, LIMIT + 1, 0);
    refused(&file, LIMIT - 1, 5);
    refused(&long(LIMIT, b""), LIMIT + 100, 5);
    // One byte too many is refused before the room is looked at.
    for cell in [b"" as &[u8], b"1"] {
        refused(&long(LIMIT + 1, cell), LIMIT + 100, 1);
        refused(&long(LIMIT + 1, cell), 0, 1);
    }
}

/// Files by hand of every sort, and drawn ones.
fn files() -> Vec<Vec<u8>> {
    let mut files: Vec<Vec<u8>> = all().into_iter().map(|case| case.file).collect();
    files.extend(judging::all().into_iter().map(|case| case.file));
    files.extend(of_lines::all().into_iter().map(|case| case.file));
    files.extend(edits::all().into_iter().map(|edit| edit.before));
    files.extend(holes::files(2_000));
    files
}

/// "The copy's breaks are shown to be the original's without the mended ones."
#[test]
fn the_copy_has_the_other_breaks() {
    for file in files() {
        let (copy, changes) = of(&file);
        let mut breaks = judge(&file).expect("within the limit");
        let is_mended = |at: &Break| at.rule == 19 && changes.contains(&(at.line, at.cell));
        let before = breaks.len();
        breaks.retain(|at| !is_mended(at));
        assert_eq!(before, breaks.len() + changes.len());
        assert_eq!(judge(&copy), Some(breaks), "b\"{}\"", file.escape_ascii());
    }
}

/// A hole is mended where `null` put there alone breaks nothing at that cell, and
/// stays where it does.
#[test]
fn a_hole_stays_where_null_breaks_a_rule() {
    let mut stayed = 0;
    for file in files().into_iter().filter(|file| file.len() < 1_000) {
        let (_, changes) = of(&file);
        let breaks = judge(&file).expect("within the limit");
        for hole in breaks.iter().filter(|at| at.rule == 19) {
            let place = (hole.line, hole.cell);
            let with = edited(&file, hole.line, hole.cell, b"null").expect("a row's cell");
            let after = judge(&with).expect("within the limit");
            let broken = after.iter().any(|at| (at.line, at.cell) == place);
            assert_eq!(changes.contains(&place), !broken, "{hole:?}");
            stayed += usize::from(broken);
        }
    }
    assert!(stayed > 500, "{stayed}");
}

#[test]
fn a_copy_is_copied_byte_for_byte() {
    let mut alike = 0;
    for file in files() {
        let (copy, changes) = of(&file);
        assert_eq!(copy.len(), file.len() + 4 * changes.len());
        assert_eq!(copy == file, changes.is_empty());
        alike += usize::from(changes.is_empty());
        // Mended twice it is as it was.
        assert_eq!(of(&copy), (copy, vec![]));
    }
    assert!(alike > 1_000, "{alike}");
}

/// "Every other byte follows in order": the copy is the file with one cell after
/// the other edited, and the file is the copy with them emptied.
#[test]
fn every_other_byte_follows_in_order() {
    for file in files().into_iter().filter(|file| file.len() < 1_000) {
        let (copy, changes) = of(&file);
        let put = |file: Vec<u8>, new: &[u8]| {
            let edit = |file: Vec<u8>, (line, cell): &(u32, u32)| {
                edited(&file, *line, *cell, new).expect("a row's cell")
            };
            changes.iter().fold(file, edit)
        };
        assert_eq!(put(file.clone(), b"null"), copy);
        assert_eq!(put(copy.clone(), b""), file);
        assert_eq!(lines(&file).count(), lines(&copy).count());
        // "line and cell of each change in order"
        assert!(changes.windows(2).all(|two| two[0] < two[1]));
    }
}

/// The drawn files have holes of every sort, and others beside.
#[test]
fn what_is_drawn() {
    let files = holes::files(2_000);
    let some = |such: &dyn Fn(&[u8]) -> bool| files.iter().filter(|file| such(file)).count() > 20;
    let breaks = |file: &[u8], rule| judge(file).iter().flatten().any(|at| at.rule == rule);
    for rule in [
        1, 2, 3, 4, 5, 7, 9, 10, 11, 12, 13, 15, 16, 17, 18, 19, 20, 23, 24,
    ] {
        assert!(some(&|file| breaks(file, rule)), "rule {rule}");
    }
    assert!(some(&|file| of(file).1.len() == 1));
    assert!(some(&|file| of(file).1.len() > 20));
    assert!(some(&|file| of(file).1.is_empty() && breaks(file, 19)));
    assert!(some(&|file| file.ends_with(b"\t")));
    assert!(some(&|file| file.ends_with(b"\t\n")));
    assert!(some(&|file| file.ends_with(b"\t\r\n")));
    assert!(some(&|file| file.ends_with(b"\t\r")));
    assert!(some(
        &|file| of(file).0.len() <= 60 && !of(file).1.is_empty()
    ));
}

#[test]
fn what_the_table_of_mends_prints() {
    let input = b"SMH\tidentifier\tcharge\nSML\t\t\nSML\ta\t\x1e\x1ex\x1e";
    let rest = |length: usize| "#".repeat(60 - length);
    let copy = "SMH\tidentifier\tcharge\nSML\tnull\tnull\nSML\ta\tnull";
    assert_eq!(copy.len(), 46);
    let expected = format!(
        "mend 4096: 0 46 3 2 2 2 3 9\n{copy}#\nmend 60: 0 46 3 2 2 2 3 9\n{copy}{}\n.\n\
         mend 4096: 0 0 0 9 9 9 9 9\n#\nmend 60: 0 0 0 9 9 9 9 9\n{}\n.\n\
         mend 4096: 0 1 0 9 9 9 9 9\nx#\nmend 60: 0 1 0 9 9 9 9 9\nx{}\n.\n",
        rest(46),
        rest(0),
        rest(1)
    );
    let printed = String::from_utf8(printing::mends(input)).expect("plain letters");
    assert_eq!(printed, expected);
    assert_eq!(printing::mends(b""), b"");
}

/// A copy that is longer than a buffer is in neither.
#[test]
fn what_the_table_prints_of_long_files() {
    let all = |room: usize, length: usize| {
        let copy = "x".repeat(length);
        let rest = "#".repeat(usize::from(length < room));
        format!("mend {room}: 0 {length} 0 9 9 9 9 9\n{copy}{rest}\n")
    };
    let none = |room: usize, shown: usize| {
        format!("mend {room}: 5 0 0 9 9 9 9 9\n{}\n", "#".repeat(shown))
    };
    for (length, expected) in [
        (60, all(4_096, 60) + &all(60, 60)),
        (61, all(4_096, 61) + &none(60, 60)),
        (4_095, all(4_096, 4_095) + &none(60, 60)),
        (4_096, all(4_096, 4_096) + &none(60, 60)),
        (4_097, none(4_096, 1) + &none(60, 60)),
    ] {
        let printed = printing::mends("x".repeat(length).as_bytes());
        assert_eq!(printed, (expected + ".\n").into_bytes(), "{length}");
    }
}

/// The table of all cases, against what stands in them.
#[test]
fn every_case_is_printed_as_written() {
    let mut input = Vec::new();
    let mut expected = Vec::new();
    for case in all() {
        input.extend(&case.file);
        input.push(printing::END);
        expected.extend(case.printed());
    }
    assert!(printing::mends(&input) == expected);
    assert!(cases::mends_input().starts_with(&input));
}
