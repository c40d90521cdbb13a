//! The mending call, through the binding: what it changes and what it leaves, buffers and lists of every length, refusals and the limit.

use independent::edits::edited;
use mztab::{judge_all, judge_line_all, mend, mend_into, raw, Break, Change, Copied};
use mztab::{Mended, Refusal, LIMIT};
use samples::Draws;

const YEAST: &[u8] = include_bytes!("../../../examples/yeast.mztab");
const ACCEPTED: &[u8] = include_bytes!("../../../examples/accepted.mztab");
const EXPONENTS: &[u8] = include_bytes!("../../../examples/exponents.mztab");
const FEE: &[u8] = include_bytes!("../../../examples/fee.mztab");

fn changes(all: &[(u32, u32)]) -> Vec<Change> {
    let of = |(line, cell): &(u32, u32)| Change {
        line: *line,
        cell: *cell,
    };
    all.iter().map(of).collect()
}

fn breaks(file: &[u8]) -> Vec<Break> {
    judge_all(file).unwrap().breaks().collect()
}

/// The place of a break.
fn place(at: &Break) -> Change {
    Change {
        line: at.line,
        cell: at.cell,
    }
}

/// Whether `null` in place of this empty cell breaks no rule, by the call that judges its line.
fn null_fits(file: &[u8], at: &Break) -> bool {
    let with_null = edited(file, at.line, at.cell, b"null").unwrap();
    let judged = judge_line_all(&with_null, at.line).unwrap();
    let fits = judged.breaks().all(|other| other.cell != at.cell);
    fits
}

/// All that is promised of a copy, held to the calls that judge and to the independent reading of an edit. Answers how many cells were mended.
fn holds(file: &[u8], label: &str) -> usize {
    let mended = mend(file).unwrap();
    let (empty, others): (Vec<Break>, _) = breaks(file).into_iter().partition(|at| at.rule == 19);
    let (fitting, unfit): (Vec<Break>, _) = empty.iter().partition(|at| null_fits(file, at));
    let expected: Vec<Change> = fitting.iter().map(place).collect();
    assert_eq!(mended.changes, expected, "{label}");
    let with_null = |copy: Vec<u8>, at: &Change| edited(&copy, at.line, at.cell, b"null").unwrap();
    let copy = expected.iter().fold(file.to_vec(), with_null);
    assert_eq!(mended.copy, copy, "{label}");
    assert_eq!(copy.len(), file.len() + 4 * expected.len(), "{label}");
    let mut left: Vec<Break> = [others, unfit].concat();
    left.sort_by_key(|at| (at.line, at.cell, at.rule));
    assert_eq!(breaks(&copy), left, "{label}");
    let again = Mended {
        copy: copy.clone(),
        changes: Vec::new(),
    };
    assert_eq!(mend(&copy), Ok(again), "{label}");
    expected.len()
}

/// The file with no byte in some cells of its rows, each once in `often` times.
fn with_holes(file: &[u8], draws: &mut Draws, often: usize) -> Vec<u8> {
    let mut out = Vec::new();
    for line in file.split_inclusive(|byte| *byte == b'\n') {
        let is_row = [&b"PRT\t"[..], b"PEP\t", b"PSM\t", b"SML\t"]
            .iter()
            .any(|code| line.starts_with(code));
        let end = match line {
            [.., b'\r', b'\n'] => 2,
            [.., b'\n'] => 1,
            _ => 0,
        };
        let (cells, end) = line.split_at(line.len() - end);
        for (k, cell) in cells.split(|byte| *byte == b'\t').enumerate() {
            if k > 0 {
                out.push(b'\t');
            }
            if k == 0 || !is_row || !draws.once_in(often) {
                out.extend(cell);
            }
        }
        out.extend(end);
    }
    out
}

#[test]
fn the_example_of_the_paper() {
    let mended = mend(YEAST).unwrap();
    let text = String::from_utf8(YEAST.to_vec()).unwrap();
    let expected = text.replace("\tdb\tnull\t\n", "\tdb\tnull\tnull\n");
    assert_eq!(mended.copy, expected.as_bytes());
    assert_eq!(mended.changes, changes(&[(8, 6)]));
    assert_eq!(holds(YEAST, "yeast"), 1);
}

#[test]
fn nothing_to_mend() {
    for file in [
        ACCEPTED, EXPONENTS, FEE, b"", b"\n", b"\r", b"\t", b"x", b"SML\t\t",
    ] {
        let mended = mend(file).unwrap();
        assert_eq!((&mended.copy[..], mended.changes.len()), (file, 0));
    }
}

#[test]
fn files_of_the_independent_cases() {
    let mut draws = Draws::new(202_602);
    let (mut files, mut mended) = (0, 0);
    for case in independent::cases::judging::all() {
        for often in [1, 2, 4] {
            let file = with_holes(&case.file, &mut draws, often);
            mended += holds(&file, case.label);
        }
        mended += holds(&case.file, case.label);
        files += 4;
    }
    assert!(files > 1_600 && mended > 1_000, "{files} {mended}");
}

#[test]
fn files_as_programs_export_them() {
    let mut draws = Draws::new(202_602);
    let mut mended = 0;
    for export in &samples::EXPORTS {
        mended += holds(export.file, export.name);
        for often in [10, 200] {
            let file = with_holes(export.file, &mut draws, often);
            mended += holds(&file, export.name);
        }
    }
    assert!(mended > 500, "{mended}");
}

#[test]
fn columns_where_null_may_not_stand() {
    for (header, row, unfit) in [
        ("PRH", "PRT", &["accession"][..]),
        ("PEH", "PEP", &["sequence"]),
        ("PSH", "PSM", &["sequence", "PSM_ID"]),
        ("SMH", "SML", &[]),
    ] {
        let names = [
            "sequence",
            "charge",
            "accession",
            "PSM_ID",
            "identifier",
            "x",
            "opt_a",
            "",
        ];
        let file = format!("{header}\t{}\n{row}{}\n", names.join("\t"), "\t".repeat(8));
        let mended = mend(file.as_bytes()).unwrap();
        let expected = (2..).zip(names).filter(|(_, name)| !unfit.contains(name));
        let expected: Vec<(u32, u32)> = expected.map(|(cell, _)| (2, cell)).collect();
        assert_eq!(mended.changes, changes(&expected), "{header}");
        let cells: Vec<&str> = names
            .iter()
            .map(|name| if unfit.contains(name) { "" } else { "null" })
            .collect();
        let copy = format!(
            "{header}\t{}\n{row}\t{}\n",
            names.join("\t"),
            cells.join("\t")
        );
        assert_eq!(mended.copy, copy.as_bytes(), "{header}");
        holds(file.as_bytes(), header);
    }
}

#[test]
fn rows_alone_are_mended() {
    // Empty cells of metadata, headers, comments and unknown lines, of a row before its header, one of another width and one of another section.
    let file = "MTD\ttitle\t\nMTD\t\t\nSML\t\t\nSMH\tidentifier\t\tcharge\nCOM\t\t\n\t\nx\t\t\n\nSML\t\t\nSML\t\t\t\t\nPSM\t\t\t\nSML\tC1\t\t\nSML\t\n";
    let mended = mend(file.as_bytes()).unwrap();
    assert_eq!(mended.changes, changes(&[(12, 3), (12, 4)]));
    let copy = file.replace("SML\tC1\t\t\n", "SML\tC1\tnull\tnull\n");
    assert_eq!(mended.copy, copy.as_bytes());
    holds(file.as_bytes(), "rows alone");
    // A header of 256 cells is one, of 257 none.
    for (width, mended) in [(255, 255), (256, 0)] {
        let names = "\tx".repeat(width);
        let file = format!("SMH{names}\nSML{}\n", "\t".repeat(width));
        assert_eq!(holds(file.as_bytes(), "wide"), mended);
    }
}

#[test]
fn every_line_end_is_kept() {
    let header = "SMH\tidentifier\tcharge";
    for (rows, expected, count) in [
        (
            "\r\nSML\t\t\r\nSML\tC1\t\n",
            "\r\nSML\tnull\tnull\r\nSML\tC1\tnull\n",
            3,
        ),
        ("\nSML\tC1\t", "\nSML\tC1\tnull", 1),
        (
            "\n\r\n\nSML\t\t1\r\n\r\n",
            "\n\r\n\nSML\tnull\t1\r\n\r\n",
            1,
        ),
        // One CR belongs to the line end, another to the cell; at the end of the file it belongs to the cell.
        ("\nSML\t\t\r\r\n", "\nSML\tnull\t\r\r\n", 1),
        ("\nSML\t\t\r", "\nSML\tnull\t\r", 1),
    ] {
        let file = format!("{header}{rows}");
        let mended = mend(file.as_bytes()).unwrap();
        assert_eq!(mended.copy, format!("{header}{expected}").as_bytes());
        assert_eq!(holds(file.as_bytes(), rows), count);
    }
}

#[test]
fn other_bytes_follow_in_order() {
    let file = b"\x00\xff\nCOM\t\x01\t\nSMH\tidentifier\tcharge\t\xfe\x0b\nSML\t\x00\t\t\xff\xff\nSML\t\t\x7f\t\n\xc3";
    let expected = b"\x00\xff\nCOM\t\x01\t\nSMH\tidentifier\tcharge\t\xfe\x0b\nSML\t\x00\tnull\t\xff\xff\nSML\tnull\t\x7f\tnull\n\xc3";
    assert_eq!(mend(file).unwrap().copy, expected);
    assert_eq!(holds(file, "bytes"), 3);
}

/// Two rows with four holes, and what the mended copy is.
const HOLES: &[u8] = b"SMH\tidentifier\tcharge\tx\nSML\t\tx\t\nSML\tC1\t\t";
const MENDED: &[u8] = b"SMH\tidentifier\tcharge\tx\nSML\tnull\tx\tnull\nSML\tC1\tnull\tnull";

#[test]
fn buffers_of_every_length() {
    for length in 0..MENDED.len() + 9 {
        let (mut copy, mut places) = (vec![b'-'; length], [77; 9]);
        let answer = raw::mend(HOLES, &mut copy, &mut places);
        if length < MENDED.len() {
            assert_eq!((answer.number, answer.length, answer.count), (5, 0, 0));
            assert!(copy.iter().all(|byte| *byte == b'-'));
            assert_eq!(places, [77; 9]);
            continue;
        }
        assert_eq!(
            (answer.number, answer.length, answer.count),
            (0, MENDED.len(), 4)
        );
        assert_eq!(&copy[..MENDED.len()], MENDED);
        assert!(copy[MENDED.len()..].iter().all(|byte| *byte == b'-'));
        assert_eq!(places, [2, 2, 2, 4, 3, 3, 3, 4, 77]);
    }
}

#[test]
fn lists_of_every_length() {
    let all = [2, 2, 2, 4, 3, 3, 3, 4];
    for length in 0..13 {
        let (mut copy, mut places) = (vec![b'-'; MENDED.len()], vec![77; length]);
        let copied = mend_into(HOLES, &mut copy, &mut places);
        let expected = Copied {
            length: MENDED.len(),
            count: 4,
        };
        assert_eq!((copied, &copy[..]), (Ok(expected), MENDED));
        // Both places of a change or neither.
        let filled = (length / 2 * 2).min(all.len());
        assert_eq!(places[..filled], all[..filled]);
        assert!(places[filled..].iter().all(|place| *place == 77));
    }
}

#[test]
fn refusals_in_their_order() {
    let long = vec![b'\n'; LIMIT + 1];
    for (file, room, number) in [
        (&long[..], 0, 1),
        (&long[..], LIMIT + 9, 1),
        (&long[1..], LIMIT - 1, 5),
        (HOLES, 0, 5),
        (HOLES, HOLES.len(), 5),
        (YEAST, YEAST.len() + 3, 5),
        (b"x", 0, 5),
    ] {
        let (mut copy, mut places) = (vec![b'-'; room], [77; 9]);
        let answer = raw::mend(file, &mut copy, &mut places);
        assert_eq!((answer.number, answer.length, answer.count), (number, 0, 0));
        assert!(copy.iter().all(|byte| *byte == b'-'));
        assert_eq!(places, [77; 9]);
    }
    assert_eq!(mend(&long), Err(Refusal::TooLong));
    assert_eq!(mend_into(&long, &mut [], &mut []), Err(Refusal::TooLong));
    assert_eq!(mend_into(HOLES, &mut [], &mut []), Err(Refusal::NoRoom));
    // A file of no byte needs no room.
    let none = Copied {
        length: 0,
        count: 0,
    };
    assert_eq!(mend_into(b"", &mut [], &mut []), Ok(none));
}

/// A file of so many bytes that begins with these holes.
fn with_length(length: usize) -> Vec<u8> {
    let mut file = [HOLES, b"\n"].concat();
    file.resize(length, b'\n');
    file
}

#[test]
fn either_side_of_the_limit() {
    let file = with_length(LIMIT - 16);
    let mended = mend(&file).unwrap();
    assert_eq!((mended.copy.len(), mended.changes.len()), (LIMIT, 4));
    assert!(mended.copy.starts_with(MENDED));
    for length in [LIMIT - 15, LIMIT - 12, LIMIT - 3, LIMIT] {
        let file = with_length(length);
        assert_eq!(mend(&file), Err(Refusal::NoRoom));
        // A buffer with room for it changes nothing.
        let (mut copy, mut places) = (vec![b'-'; LIMIT + 16], [77; 9]);
        let answer = mend_into(&file, &mut copy, &mut places);
        assert_eq!((answer, places), (Err(Refusal::NoRoom), [77; 9]));
        assert!(copy.iter().all(|byte| *byte == b'-'));
    }
    let whole = vec![b'\t'; LIMIT];
    let mended = mend(&whole).unwrap();
    assert!(mended.copy == whole && mended.changes.is_empty());
}

/// Rows of empty cells alone: a fifth of the limit is mended to nearly all of it.
#[test]
fn as_many_changes_as_fit() {
    let names: String = (0..253).map(|k| format!("\topt_{k}")).collect();
    let header = format!("SMH\tidentifier\tcharge{names}\n");
    let row = |cell: &str| format!("SML{}\n", format!("\t{cell}").repeat(255));
    let rows = (LIMIT - header.len()) / row("null").len();
    let file = header.clone() + &row("").repeat(rows);
    let mended = mend(file.as_bytes()).unwrap();
    assert!(mended.copy == (header.clone() + &row("null").repeat(rows)).into_bytes());
    assert_eq!(mended.changes.len(), 255 * rows);
    let cells = (2..)
        .take(rows)
        .flat_map(|line| (2..257).map(move |cell| Change { line, cell }));
    assert!(mended.changes.into_iter().eq(cells));
    let more = file + &row("");
    assert_eq!(mend(more.as_bytes()), Err(Refusal::NoRoom));
}

#[test]
fn many_calls_at_once() {
    std::thread::scope(|scope| {
        for _ in 0..8 {
            scope.spawn(|| {
                for _ in 0..100 {
                    assert_eq!(mend(HOLES).unwrap().copy, MENDED);
                    assert_eq!(mend(YEAST).unwrap().changes, changes(&[(8, 6)]));
                }
            });
        }
    });
}
