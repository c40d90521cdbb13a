//! The calls, through the binding: answers, refusals, and lists of every length.

use mztab::{
    add_cents, cell, cell_or, count, judge, judge_all, judge_line, judge_line_all, raw, reading,
    rows, split_fee, weights, Break, Reading, Refusal, Value, FEE_LIMIT, FIRST_LIST, LIMIT,
    STUDY_VARIABLES, WEIGHT_LIMIT,
};

const YEAST: &[u8] = include_bytes!("../../../examples/yeast.mztab");
const ACCEPTED: &[u8] = include_bytes!("../../../examples/accepted.mztab");
const EXPONENTS: &[u8] = include_bytes!("../../../examples/exponents.mztab");
const FEE: &[u8] = include_bytes!("../../../examples/fee.mztab");

/// A break of something that does not come again.
fn broken(line: u32, cell: u32, rule: u32) -> Break {
    again(line, cell, rule, 0)
}

/// A break of something that comes again, and where it stands first.
fn again(line: u32, cell: u32, rule: u32, first: u32) -> Break {
    Break {
        rule,
        line,
        cell,
        first,
    }
}

/// The breaks of a file but those of rule 21.
fn breaks_of(file: &str) -> Vec<Break> {
    let judged = judge_all(file.as_bytes()).unwrap();
    judged.breaks().filter(|at| at.rule != 21).collect()
}

#[test]
fn the_example_of_the_paper() {
    let judged = judge_all(YEAST).unwrap();
    assert_eq!(judged.count, 6);
    let breaks: Vec<Break> = judged.breaks().collect();
    assert_eq!(
        breaks,
        [
            broken(7, 6, 15),
            broken(8, 6, 19),
            broken(9, 2, 20),
            broken(10, 500, 22),
            broken(10, 900, 22),
            broken(10, 1000, 22)
        ]
    );
    for accepted in [ACCEPTED, EXPONENTS, FEE] {
        assert_eq!(judge_all(accepted).unwrap().count, 0);
    }
}

#[test]
fn an_empty_file() {
    assert_eq!(count(b""), Ok(5));
    let breaks: Vec<Break> = judge_all(b"").unwrap().breaks().collect();
    assert_eq!(breaks[4], broken(1, 5, 21));
    assert_eq!(cell(b"", 1, 0, 1), Err(Refusal::NoRow));
}

/// The cell and the rule of each break on the file's first line.
fn on_first_line(file: &str) -> Vec<(u32, u32)> {
    let judged = judge_all(file.as_bytes()).unwrap();
    let breaks = judged.breaks().filter(|at| at.line == 1);
    breaks.map(|at| (at.cell, at.rule)).collect()
}

#[test]
fn indices_that_are_none() {
    for (line, cell, rule) in [
        ("MTD\tsample[01]-description\ta", 2, 23),
        ("MTD\tsample[65]-description\ta", 2, 24),
        ("MTD\tsample[065]-description\ta", 2, 23),
        ("MTD\tassay[0]-ms_run_ref\tms_run[1]", 2, 23),
        ("MTD\tsoftware[65]-setting[01]\ta", 2, 24),
        ("MTD\tsoftware[01]-setting[65]\ta", 2, 23),
        ("MTD\tassay[1]-ms_run_ref\tms_run[077]", 3, 23),
        ("MTD\tassay[1]-ms_run_ref\tms_run[77]", 3, 24),
        (
            "MTD\tstudy_variable[1]-assay_refs\tassay[1], assay[65],assay[0]",
            3,
            24,
        ),
        // What is wrong besides stays what it was.
        ("MTD\tsample[0]-nothing\ta", 2, 5),
        ("MTD\tsample[1a]-description\ta", 2, 5),
        ("MTD\tsample[]-description\ta", 2, 5),
        ("MTD\tassay[1]-ms_run_ref\tassay[077]", 3, 7),
        ("MTD\tassay[1]-ms_run_ref\tms_run[-1]", 3, 7),
        ("MTD\tstudy_variable[1]-assay_refs\tassay[0], assay", 3, 7),
    ] {
        assert_eq!(on_first_line(line), [(cell, rule)], "{line}");
    }
    // The required columns are absent too.
    for (name, rule) in [
        ("num_psms_ms_run[077]", 23),
        ("num_psms_ms_run[77]", 24),
        ("search_engine_score[65]_ms_run[0]", 24),
        ("num_psms_ms_run[1a]", 12),
        ("num_psms_ms_run[ 1]", 12),
        // It is known in other sections.
        ("search_engine_score[077]", 12),
    ] {
        let found = on_first_line(&format!("PRH\t{name}"));
        assert_eq!(found, [(1, 16), (2, rule)], "{name}");
    }
}

#[test]
fn bad_indices_stop_what_an_unknown_name_stops() {
    // Neither the value nor a second line is judged; nothing is declared.
    let key = "MTD\tassay[01]-ms_run_ref\tx\n";
    let file = key.repeat(2) + "MTD\tstudy_variable[1]-assay_refs\tassay[1]\n";
    let breaks: Vec<Break> = judge_all(file.as_bytes()).unwrap().breaks().collect();
    let expected = [broken(1, 2, 23), broken(2, 2, 23), broken(3, 3, 8)];
    assert_eq!(breaks[..3], expected);
    // Rules 13 and 14 are judged at a column name, rule 15 is not; a cell under it is text.
    let file = "SMH\tidentifier\tcharge\topt_a\tbest_search_engine_score[0]\tbest_search_engine_score[0]\tsmallmolecule_abundance_assay[65]\n\
        SML\tC1\t1\tx\tx\tx\tx\n";
    let breaks: Vec<Break> = judge_all(file.as_bytes()).unwrap().breaks().collect();
    let expected = [
        broken(1, 5, 14),
        broken(1, 5, 23),
        again(1, 6, 13, 5),
        broken(1, 6, 14),
        broken(1, 6, 23),
        broken(1, 7, 14),
        broken(1, 7, 24),
    ];
    assert_eq!(breaks[..7], expected);
    assert!(breaks[7..].iter().all(|at| at.rule == 21));
}

#[test]
fn lists_shorter_than_the_count() {
    for most in 0..9 {
        let judged = judge(YEAST, most).unwrap();
        assert_eq!((judged.count, judged.breaks().len()), (6, most.min(6)));
    }
}

#[test]
fn more_breaks_than_the_first_list() {
    let file = b"x\n".repeat(10_000);
    let judged = judge_all(&file).unwrap();
    assert_eq!((judged.count, judged.breaks().len()), (10_005, 10_005));
    assert_eq!(judged.breaks().nth(9_999), Some(broken(10_000, 1, 2)));
    let judged = judge(&file, 5_000).unwrap();
    assert_eq!((judged.count, judged.breaks().len()), (10_005, 5_000));
}

#[test]
fn either_side_of_the_first_list() {
    for lines in FIRST_LIST - 7..FIRST_LIST {
        let judged = judge_all(&b"x\n".repeat(lines)).unwrap();
        // Each line breaks rule 2, and five keys are absent.
        assert_eq!(judged.count as usize, lines + 5);
        let breaks: Vec<Break> = judged.breaks().collect();
        assert_eq!(breaks.len(), lines + 5);
        assert_eq!(breaks[lines - 1], broken(lines as u32, 1, 2));
        assert_eq!(breaks[lines + 4], broken(lines as u32 + 1, 5, 21));
    }
}

#[test]
fn many_calls_at_once() {
    let files: Vec<Vec<u8>> = (0..8).map(|k| b"x\n".repeat(1_000 * k)).collect();
    std::thread::scope(|scope| {
        for (k, file) in files.iter().enumerate() {
            scope.spawn(move || {
                for _ in 0..50 {
                    assert_eq!(count(file), Ok(1_000 * k as u32 + 5));
                    assert_eq!(cell(YEAST, 1, 1, 1), Ok(b"Y1" as &[u8]));
                }
            });
        }
    });
}

/// Lists of every length, of places and of records: what no whole break fills is as it was.
fn lists_of(file: &[u8], all: &[Break]) {
    let numbers: Vec<u32> = all
        .iter()
        .flat_map(|at| [at.rule, at.line, at.cell, at.first])
        .collect();
    for length in 0..numbers.len() + 7 {
        let mut places = vec![77; length];
        assert_eq!(raw::judge(file, &mut places).count as usize, all.len());
        let filled = (length / 4).min(all.len()) * 4;
        assert_eq!(places[..filled], numbers[..filled]);
        assert!(places[filled..].iter().all(|place| *place == 77));
    }
    let marked = again(77, 77, 77, 77);
    for length in 0..all.len() + 3 {
        let mut list = vec![marked; length];
        assert_eq!(raw::faults(file, &mut list).count as usize, all.len());
        let filled = length.min(all.len());
        assert_eq!(list[..filled], all[..filled]);
        assert!(list[filled..].iter().all(|at| *at == marked));
    }
}

#[test]
fn places_that_no_break_fills() {
    let all = [
        broken(7, 6, 15),
        broken(8, 6, 19),
        broken(9, 2, 20),
        broken(10, 500, 22),
        broken(10, 900, 22),
        broken(10, 1000, 22),
    ];
    lists_of(YEAST, &all);
    // The fourth number of each break is its own.
    let file = "MTD\ttitle\ta\nMTD\ttitle\ta\nSMH\tidentifier\tcharge\tcharge\tidentifier\nSMH\tidentifier\tcharge\n";
    let mut all = vec![
        again(2, 2, 6, 1),
        again(3, 4, 13, 3),
        again(3, 5, 13, 2),
        again(4, 1, 9, 3),
    ];
    all.extend((1..=5).map(|cell| broken(5, cell, 21)));
    lists_of(file.as_bytes(), &all);
}

#[test]
fn a_key_that_comes_again() {
    // The earliest line, not the nearest; empty lines and comments count.
    let file = "\nMTD\ttitle\ta\nCOM\nMTD\ttitle\tb\r\nMTD\tcontact[1]-name\ta\nMTD\ttitle\tc\nMTD\tcontact[2]-name\ta\nMTD\tcontact[1]-name\ta";
    let expected = [again(4, 2, 6, 2), again(6, 2, 6, 2), again(8, 2, 6, 5)];
    assert_eq!(breaks_of(file), expected);
    // Lines of two and four cells, comments and rows have no key.
    let file = "MTD\ttitle\nMTD\ttitle\ta\t\nCOM\ttitle\ta\nMTD\ttitle\ta\nMTD\ttitle\ta\n";
    let expected = [broken(1, 1, 3), broken(2, 1, 3), again(5, 2, 6, 4)];
    assert_eq!(breaks_of(file), expected);
    // A line that breaks another rule has one.
    let file = "MTD\tsoftware[1]\ta\nMTD\tsoftware[1]\t[, , a, ]\n";
    assert_eq!(breaks_of(file), [broken(1, 3, 7), again(2, 2, 6, 1)]);
    let file = "SMH\tidentifier\tcharge\nMTD\ttitle\ta\nMTD\ttitle\ta\n";
    let expected = [broken(2, 1, 4), broken(3, 1, 4), again(3, 2, 6, 2)];
    assert_eq!(breaks_of(file), expected);
}

#[test]
fn a_header_that_comes_again() {
    // The earliest of the same section, whatever rules it breaks and whatever stands between.
    let file = "COM\nPSH\nSMH\tidentifier\tcharge\nPSH\n\nSMH\tidentifier\tcharge\nPSH\n";
    let expected = [
        broken(2, 1, 16),
        again(4, 1, 9, 2),
        broken(4, 1, 10),
        broken(4, 1, 16),
        again(6, 1, 9, 3),
        again(7, 1, 9, 2),
        broken(7, 1, 10),
        broken(7, 1, 16),
    ];
    assert_eq!(breaks_of(file), expected);
    // A row is no header.
    let file = "SML\ta\t1\nSMH\tidentifier\tcharge\nSML\ta\t1\nSMH\tidentifier\tcharge\n";
    assert_eq!(breaks_of(file), [broken(1, 1, 17), again(4, 1, 9, 2)]);
    // One that is too wide is one.
    let wide = format!("SMH{}\nSMH\tidentifier\tcharge\n", "\tx".repeat(256));
    assert_eq!(breaks_of(&wide), [broken(1, 1, 11), again(2, 1, 9, 1)]);
}

#[test]
fn a_name_that_comes_again() {
    // The first cell, not the nearest; two names in one header.
    let file = "SMH\tidentifier\tcharge\tcharge\tidentifier\tcharge\n";
    let expected = [again(1, 4, 13, 3), again(1, 5, 13, 2), again(1, 6, 13, 3)];
    assert_eq!(breaks_of(file), expected);
    // In this header alone; unknown and empty names too.
    let file = "SMH\tidentifier\tcharge\topt_a\nSMH\topt_a\tx\t\tx\t\tidentifier\tcharge\n";
    let expected = [
        again(2, 1, 9, 1),
        broken(2, 3, 12),
        broken(2, 3, 14),
        broken(2, 4, 12),
        broken(2, 4, 14),
        broken(2, 5, 12),
        again(2, 5, 13, 3),
        broken(2, 5, 14),
        broken(2, 6, 12),
        again(2, 6, 13, 4),
        broken(2, 6, 14),
        broken(2, 7, 14),
        broken(2, 8, 14),
    ];
    assert_eq!(breaks_of(file), expected);
    // Over the whole width of a header.
    let names: String = (0..255).map(|k| format!("\topt_{}", k % 100)).collect();
    let breaks = breaks_of(&format!("SMH{names}\n"));
    assert_eq!(breaks.len(), 156);
    for at in &breaks[1..] {
        let first = (at.cell - 2) % 100 + 2;
        assert_eq!(*at, again(1, at.cell, 13, first));
    }
}

#[test]
fn other_rules_have_no_first() {
    // What comes again and breaks another rule: an unknown key, a bad index, an unknown code, a unit of a column.
    let lines = "MTD\tx\ta\nMTD\tsample[0]-description\ta\nMTD\tassay[1]-ms_run_ref\tx\nx\nMTD\tcolunit-protein\taccession=[, , a, ]\n";
    let mut found = breaks_of(&lines.repeat(3));
    // The key of the third line comes again beside its value.
    found.retain(|at| at.rule != 6);
    let rules: Vec<u32> = found.iter().map(|at| at.rule).collect();
    assert_eq!(rules, [5, 23, 7, 2].repeat(3));
    assert!(found.iter().all(|at| at.first == 0));
}

/// How many lines a file has, as the independent reading cuts it.
fn lines_of(file: &[u8]) -> u32 {
    independent::lines::lines(file).count() as u32
}

/// The breaks of each line, one line after the other, and then those of the line after the last, are those of the whole file.
fn lines_make_the_list(file: &[u8], label: &str) {
    let all: Vec<Break> = judge_all(file).unwrap().breaks().collect();
    let last = lines_of(file);
    let mut found = Vec::new();
    for line in 1..=last {
        let judged = judge_line_all(file, line).unwrap();
        assert_eq!(judged.count as usize, judged.breaks().len(), "{label}");
        assert!(judged.breaks().all(|at| at.line == line), "{label}");
        found.extend(judged.breaks());
    }
    let after = all.iter().filter(|at| at.line > last);
    found.extend(after);
    assert_eq!(found, all, "{label}");
    for line in [0, last + 1, last + 2, u32::MAX] {
        let refused = Err(Refusal::NoRow);
        assert_eq!(judge_line_all(file, line), refused, "{label}: {line}");
    }
}

#[test]
fn lines_of_the_examples() {
    for file in [YEAST, ACCEPTED, EXPONENTS, FEE, b"", b"\n", b"\r", b"x"] {
        lines_make_the_list(file, &file.escape_ascii().to_string());
    }
    for export in &samples::EXPORTS {
        lines_make_the_list(export.file, export.name);
    }
}

#[test]
fn lines_of_the_independent_cases() {
    let cases = independent::cases::judging::all();
    assert!(cases.len() > 400, "{}", cases.len());
    for case in cases {
        lines_make_the_list(&case.file, case.label);
    }
}

#[test]
fn a_line_of_the_paper() {
    let found: Vec<Vec<Break>> = (7..10)
        .map(|line| judge_line_all(YEAST, line).unwrap().breaks().collect())
        .collect();
    let expected = [broken(7, 6, 15), broken(8, 6, 19), broken(9, 2, 20)];
    assert_eq!(found, expected.map(|at| vec![at]));
    // What the whole file lacks stands on line 10, which is none.
    assert_eq!(judge_line_all(YEAST, 10), Err(Refusal::NoRow));
}

/// A line is judged under the whole file: by the header above it, the lines before it, and the ids that lines after it declare.
#[test]
fn a_line_under_the_whole_file() {
    let file = "MTD\ttitle\ta\nMTD\ttitle\tb\nMTD\tassay[1]-ms_run_ref\tms_run[1]\nMTD\tms_run[1]-location\tx\n\
        SMH\tidentifier\tcharge\tcharge\nSML\tC1\t2+\t1\nSMH\tidentifier\tcharge\nSML\tC1\t\r\nMTD\ttitle\tc";
    let expected = [
        vec![],
        vec![again(2, 2, 6, 1)],
        vec![],
        vec![],
        vec![again(5, 4, 13, 3)],
        vec![broken(6, 3, 20)],
        vec![again(7, 1, 9, 5)],
        vec![broken(8, 3, 19)],
        vec![broken(9, 1, 4), again(9, 2, 6, 1)],
    ];
    for (line, expected) in (1..).zip(expected) {
        let judged = judge_line_all(file.as_bytes(), line).unwrap();
        let found: Vec<Break> = judged.breaks().collect();
        assert_eq!(found, expected, "{line}");
    }
}

/// A row of a header's full width, each cell empty but the line code.
fn row_of_empty_cells() -> String {
    let names: String = (0..253).map(|k| format!("\topt_{k}")).collect();
    let empty = "\t".repeat(255);
    format!("SMH\tidentifier\tcharge{names}\nSML{empty}\n")
}

#[test]
fn short_lists_of_a_line() {
    let file = row_of_empty_cells();
    for most in [0, 1, 2, 254, 255, 256, usize::MAX] {
        let judged = judge_line(file.as_bytes(), 2, most).unwrap();
        let found: Vec<Break> = judged.breaks().collect();
        let expected = (2..257).map(|cell| broken(2, cell, 19)).take(most);
        assert_eq!((judged.count, found), (255, expected.collect()));
    }
}

/// The line with the most breaks that is known: a second header with one unknown name over and over, behind an optional one, and a control byte. It fits
/// in the first list.
#[test]
fn the_most_breaks_of_a_line() {
    let names = "\tx".repeat(254);
    let file = format!("PEH\nSMH\nPEH\topt_a{names}\x01\nPEP");
    let judged = judge_line_all(file.as_bytes(), 3).unwrap();
    let found: Vec<Break> = judged.breaks().collect();
    let all = judge_all(file.as_bytes()).unwrap();
    let expected: Vec<Break> = all.breaks().filter(|at| at.line == 3).collect();
    assert_eq!(found, expected);
    // Cell 1 breaks rules 9, 10 and 16; each name rules 12 and 14, and all but the first rule 13; the last has the byte, and so is another name.
    assert_eq!(found.len(), 3 + 2 * 254 + 252 + 1);
    assert_eq!(found[5], broken(3, 4, 12));
    assert_eq!(found[6], again(3, 4, 13, 3));
    assert!(2 * found.len() < FIRST_LIST);
}

#[test]
fn places_that_no_break_of_a_line_fills() {
    let file = "SMH\tidentifier\tcharge\tidentifier\nSML\t\t2+\t\n";
    let numbers = [19, 2, 2, 0, 20, 2, 3, 0, 19, 2, 4, 0];
    for length in 0..20 {
        let mut places = vec![77; length];
        let judged = raw::judge_line(file.as_bytes(), 2, &mut places);
        assert_eq!((judged.number, judged.count), (0, 3));
        let filled = (length / 4).min(3) * 4;
        assert_eq!(places[..filled], numbers[..filled]);
        assert!(places[filled..].iter().all(|place| *place == 77));
    }
}

#[test]
fn lines_refuse_in_their_order() {
    let long = vec![b'\n'; LIMIT + 1];
    for (file, line, number) in [
        (&long[..], 1, 1),
        (&long[..], 0, 1),
        (&long[..], u32::MAX, 1),
        (&long[1..], 0, 3),
        (&long[1..], LIMIT as u32, 0),
        (&long[1..], LIMIT as u32 + 1, 3),
        (b"", 0, 3),
        (b"", 1, 3),
        (YEAST, 0, 3),
        (YEAST, 10, 3),
        (YEAST, u32::MAX, 3),
    ] {
        let mut places = [77; 9];
        let judged = raw::judge_line(file, line, &mut places);
        assert_eq!((judged.number, judged.count), (number, 0), "{line}");
        assert_eq!(places, [77; 9]);
    }
    assert_eq!(judge_line(&long, 1, 9), Err(Refusal::TooLong));
    assert_eq!(judge_line(YEAST, 10, 9), Err(Refusal::NoRow));
}

/// An edit of one cell of a row changes the breaks of its own line alone.
#[test]
fn an_edit_changes_its_own_line_alone() {
    let file = String::from_utf8(YEAST.to_vec()).unwrap();
    let old: Vec<Break> = judge_all(YEAST).unwrap().breaks().collect();
    for (cell, text) in [
        ("Y1", ""),
        ("Y1", "null"),
        ("\t4\n", "\tx\n"),
        ("db", "\x01"),
    ] {
        let edited = file.replacen(cell, text, 1).into_bytes();
        let at = YEAST.iter().zip(&edited).position(|(a, b)| a != b);
        let line = lines_of(&YEAST[..=at.unwrap()]);
        let mut expected: Vec<Break> = old.iter().copied().filter(|at| at.line < line).collect();
        expected.extend(judge_line_all(&edited, line).unwrap().breaks());
        expected.extend(old.iter().filter(|at| at.line > line));
        let new: Vec<Break> = judge_all(&edited).unwrap().breaks().collect();
        assert_eq!(new, expected, "{cell:?} to {text:?}");
        assert_ne!(new, old, "{cell:?} to {text:?}");
    }
}

#[test]
fn cells_and_stand_ins() {
    assert_eq!(cell(YEAST, 1, 0, 1), Ok(b"accession" as &[u8]));
    assert_eq!(cell(YEAST, 1, 1, 2), Ok(b"null" as &[u8]));
    assert_eq!(cell_or(YEAST, 1, 1, 2, b"-"), Ok(b"-" as &[u8]));
    assert_eq!(cell_or(YEAST, 1, 1, 1, b"-"), Ok(b"Y1" as &[u8]));
    assert_eq!(cell(YEAST, 1, 1, 5), Ok(b"" as &[u8]));
}

#[test]
fn refusals_in_their_order() {
    let long = vec![b'\n'; LIMIT + 1];
    assert_eq!(cell(&long, 9, 9, 0), Err(Refusal::TooLong));
    assert_eq!(count(&long), Err(Refusal::TooLong));
    assert_eq!(count(&long[1..]), Ok(5));
    assert_eq!(cell(YEAST, 5, 9, 0), Err(Refusal::NoSection));
    assert_eq!(cell(YEAST, 1, 3, 0), Err(Refusal::NoRow));
    assert_eq!(cell(YEAST, 1, 2, 0), Err(Refusal::NoCell));
    assert_eq!(reading(YEAST, 2, 0, 1), Err(Refusal::NoRow));
}

fn read(text: &str) -> Value {
    let file = format!("SML\t{text}\n");
    reading(file.as_bytes(), 4, 1, 1).unwrap().value
}

#[test]
fn readings() {
    let found = reading(YEAST, 1, 2, 5);
    let expected = Reading {
        line: 9,
        cell: 6,
        value: Value::Whole(4),
    };
    assert_eq!(found, Ok(expected));
    assert_eq!(read("null"), Value::Missing);
    assert_eq!(read("-12"), Value::Whole(-12));
    assert_eq!(read("INF"), Value::Infinite);
    assert_eq!(read("NaN"), Value::NotANumber);
    assert_eq!(read("1.23456789012345678"), Value::LongDecimal);
    assert_eq!(read(""), Value::Text);
    let decimal = Value::Decimal {
        numerals: -1_123_200,
        power: -3,
        double: -1123.2,
    };
    assert_eq!(read("-1123.200"), decimal);
}

/// The text reads as a decimal of these numerals and this power, and as the double that Rust's own reading finds, bit for bit.
fn reads_as(text: &str, numerals: i64, power: i32) {
    match read(text) {
        Value::Decimal {
            numerals: n,
            power: p,
            double,
        } => {
            let nearest: f64 = text.parse().unwrap();
            let found = (n, p, double.to_bits());
            assert_eq!(found, (numerals, power, nearest.to_bits()), "{text}");
        }
        other => panic!("{text}: {other:?}"),
    }
}

#[test]
fn exponents() {
    for (text, numerals, power) in [
        ("12.50", 1_250, -2),
        ("1.2E-5", 12, -6),
        ("3e2", 3, 2),
        ("3.2e-05", 32, -6),
        ("6.229394e06", 6_229_394, 0),
        ("1.2E+06", 12, 5),
        ("-1.5e+2", -15, 1),
        ("007.50E-002", 750, -4),
        ("1E0", 1, 0),
        ("1E-0", 1, 0),
        ("1e000", 1, 0),
        ("123456789e0", 123_456_789, 0),
        ("999999999999999E22", 999_999_999_999_999, 22),
        ("-999999999999999e-22", -999_999_999_999_999, -22),
        ("9.99999999999999E+36", 999_999_999_999_999, 22),
        ("0.00000000000001E-8", 1, -22),
    ] {
        reads_as(text, numerals, power);
    }
}

#[test]
fn powers_on_either_side_of_the_last() {
    for power in -22..=22 {
        reads_as(&format!("7E{power}"), 7, power);
        reads_as(
            &format!("-12345678.9012345e{}", power + 7),
            -123_456_789_012_345,
            power,
        );
        reads_as(&format!("0.1E{:+04}", power + 1), 1, power);
    }
    for text in [
        "1E23",
        "1e-23",
        "0E23",
        "1.0E-22",
        "10.5e24",
        "1E999",
        "1E-999",
        "1234567890123456E0",
        "0.123456789012345e1",
        "0000000000000001E5",
        "1.234567890123456E-999",
    ] {
        assert_eq!(read(text), Value::LongDecimal, "{text}");
    }
}

#[test]
fn what_is_no_exponent() {
    for text in [
        ".5E1", "5.E1", "E5", "-E5", "1E", "1e", "1E+", "1E-", "1E1000", "1E0005", "1.2E-5.0",
        "1E5E5", "1E+-5", "1E--5", "1E 5", "1 E5", "1E5 ", "1.E", "1.5.2E1", "1F5", "1D5", "1x5",
        "+1E5", "--1E5", "1E5-", "1E,5", "INFE1", "NaNe1", "INF1", "null1", "nullE1",
    ] {
        assert_eq!(read(text), Value::Text, "{text}");
    }
}

#[test]
fn minus_nothing_keeps_its_sign() {
    for text in ["-0.0", "-0E0", "-0.00e-20", "-0E22"] {
        match read(text) {
            Value::Decimal { double, .. } => {
                assert_eq!(double.to_bits(), (-0.0f64).to_bits(), "{text}")
            }
            other => panic!("{text}: {other:?}"),
        }
    }
}

#[test]
fn rows_of_sections() {
    let found: Vec<_> = (0..6).map(|section| rows(YEAST, section)).collect();
    let none = Err(Refusal::NoSection);
    assert_eq!(found, [none, Ok(2), Ok(0), Ok(0), Ok(0), none]);
    // Whatever breaks the file has: before its header, under another, and without cells.
    let file = b"PRT\nPRH\nPSM\tx\r\nPRT\ta\tb\nPRTx\nprt\n\nCOM\tPRT\nPRT";
    assert_eq!(rows(file, 1), Ok(3));
    assert_eq!(rows(file, 3), Ok(1));
    assert_eq!(rows(b"", 4), Ok(0));
}

#[test]
fn the_cell_call_knows_the_rows_that_are_counted() {
    let file = b"PRT\nPRH\nSML\tx\nPRT\ta\nSML";
    for section in 1..5 {
        let count = rows(file, section).unwrap();
        for row in 1..6 {
            let known = cell(file, section, row, 0) != Err(Refusal::NoRow);
            assert_eq!(known, row <= count, "{section} {row}");
        }
    }
}

#[test]
fn rows_refuse_in_their_order() {
    let long = vec![b'\n'; LIMIT + 1];
    assert_eq!(rows(&long, 9), Err(Refusal::TooLong));
    assert_eq!(rows(&long[1..], 9), Err(Refusal::NoSection));
    assert_eq!(rows(&long[1..], 1), Ok(0));
    assert_eq!(rows(&b"PRT\n".repeat(LIMIT / 4), 1), Ok(LIMIT as u32 / 4));
    for section in [0, 5, u32::MAX] {
        let refused = raw::Counted {
            number: 2,
            count: 0,
        };
        assert_eq!(raw::rows(YEAST, section), refused);
    }
}

#[test]
fn weights_of_study_variables() {
    let found = weights(FEE).unwrap();
    assert_eq!(found[..3], [3, 2, 2]);
    assert!(found[3..].iter().all(|weight| *weight == 0));
    assert_eq!(weights(ACCEPTED), Ok([0; STUDY_VARIABLES]));
}

/// An accepted file whose protein table has this header and these rows beside the required columns.
fn quantified(header: &str, rows: &[&str]) -> Vec<u8> {
    let mut file =
        "MTD\tmzTab-version\t1.0\nMTD\tmzTab-mode\tSummary\nMTD\tmzTab-type\tQuantification\n\
        MTD\tdescription\tx\nMTD\tms_run[1]-location\tx\n\
        MTD\tprotein_search_engine_score[1]\t[, , x, ]\nMTD\tprotein-quantification_unit\t[, , x, ]\n\
        MTD\tfixed_mod[1]\t[, , x, ]\nMTD\tvariable_mod[1]\t[, , x, ]\n"
            .to_string();
    for i in 1..=STUDY_VARIABLES {
        file += &format!("MTD\tstudy_variable[{i}]-description\tx\n");
    }
    file += &format!("PRH\taccession\tdescription\tdatabase\tsearch_engine\t{header}\n");
    for row in rows {
        file += &format!("PRT\tP\tnull\tnull\tnull\t{row}\n");
    }
    file.into_bytes()
}

#[test]
fn weights_go_by_the_columns_own_name() {
    let abundance = "protein_abundance_study_variable";
    let header = format!("{abundance}[64]\tprotein_abundance_stdev_study_variable[2]\t{abundance}[7]\topt_{abundance}[3]");
    let rows = [
        "1.5\t2\tnull\tx",
        "INF\tnull\tnull\tx",
        "NaN\t2\t0\tnull",
        "null\t2\t-0.0\tx",
    ];
    let mut expected = [0; STUDY_VARIABLES];
    (expected[63], expected[6]) = (3, 2);
    assert_eq!(weights(&quantified(&header, &rows)), Ok(expected));
    assert_eq!(weights(&quantified(&header, &[])), Ok([0; STUDY_VARIABLES]));
}

#[test]
fn weights_refuse_in_their_order() {
    let long = vec![b'\n'; LIMIT + 1];
    for (file, length, number) in [
        (&long[..], 0, 1),
        (&long[..], 64, 1),
        (YEAST, 0, 7),
        (YEAST, 64, 7),
        (b"", 63, 7),
        (FEE, 0, 15),
        (FEE, 63, 15),
        (FEE, 65, 15),
    ] {
        let mut places = vec![77; length];
        assert_eq!(raw::weights(file, &mut places), number);
        assert!(places.iter().all(|place| *place == 77));
    }
    assert_eq!(weights(&long), Err(Refusal::TooLong));
    assert_eq!(weights(YEAST), Err(Refusal::NotAccepted));
}

#[test]
fn sums_of_amounts() {
    assert_eq!(add_cents(0, 0), Ok(0));
    assert_eq!(add_cents(FEE_LIMIT - 7, 7), Ok(FEE_LIMIT));
    assert_eq!(add_cents(0, FEE_LIMIT), Ok(FEE_LIMIT));
    for (a, b) in [
        (FEE_LIMIT, 1),
        (1, FEE_LIMIT),
        (FEE_LIMIT + 1, 0),
        (0, u64::MAX),
        (u64::MAX, 1),
        (u64::MAX, u64::MAX),
        (1 << 63, 1 << 63),
    ] {
        let refused = raw::Sum {
            number: 16,
            cents: 0,
        };
        assert_eq!(raw::add_cents(a, b), refused);
        assert_eq!(add_cents(a, b), Err(Refusal::TooLarge));
    }
}

#[test]
fn splits_worked_by_hand() {
    // 100,000 over 7: 14,285 for each and 5 left. Thrice that is 42,857 and 1; twice 28,571 and 3, so the one cent goes to the first of these.
    assert_eq!(
        split_fee(100_000, &[3, 2, 2]),
        Ok(vec![42_857, 28_572, 28_571])
    );
    assert_eq!(split_fee(12_345, &[9]), Ok(vec![12_345]));
    assert_eq!(split_fee(0, &[1, 2]), Ok(vec![0, 0]));
    // One cent over 64: the first has it. 63 cents: all but the last.
    let mut one = vec![0; 64];
    one[0] = 1;
    assert_eq!(split_fee(1, &[5; 64]), Ok(one));
    let mut most = vec![1; 64];
    most[63] = 0;
    assert_eq!(split_fee(63, &[5; 64]), Ok(most));
    // A weight of zero has nothing, and no cent left over.
    assert_eq!(
        split_fee(100, &[0, 1, 0, 1, 1, 0]),
        Ok(vec![0, 34, 0, 33, 33, 0])
    );
    // The largest remainders first, though their numbers are higher: 10 by 6, 3 and 2 of 11 is 5 and 5 over, 2 and 8 over, 1 and 9 over.
    assert_eq!(split_fee(10, &[6, 3, 2]), Ok(vec![5, 3, 2]));
    let heavy = WEIGHT_LIMIT - 1;
    assert_eq!(
        split_fee(FEE_LIMIT, &[heavy; 64]),
        Ok(vec![FEE_LIMIT / 64; 64])
    );
    assert_eq!(
        split_fee(FEE_LIMIT, &[heavy, 1]),
        Ok(vec![FEE_LIMIT - 5_960, 5_960])
    );
}

#[test]
fn splits_refuse_in_their_order() {
    for (fee, weights, shares, number) in [
        (FEE_LIMIT + 1, &[][..], 0, 15),
        (FEE_LIMIT + 1, &[u32::MAX; 65], 65, 15),
        (FEE_LIMIT + 1, &[WEIGHT_LIMIT; 65], 64, 15),
        (1, &[0, 0], 1, 15),
        (1, &[0, 0], 3, 15),
        (1, &[1, 1], 0, 15),
        (FEE_LIMIT + 1, &[0, 0], 2, 16),
        (u64::MAX, &[1, 1], 2, 16),
        (0, &[0, WEIGHT_LIMIT], 2, 16),
        (1, &[u32::MAX], 1, 16),
        (0, &[0, 0], 2, 17),
        (FEE_LIMIT, &[0; 64], 64, 17),
    ] {
        let mut places = vec![77; shares];
        assert_eq!(raw::split_fee(fee, weights, &mut places), number);
        assert!(places.iter().all(|place| *place == 77));
    }
    assert_eq!(split_fee(1, &[]), Err(Refusal::NotAsMany));
    assert_eq!(split_fee(1, &[1; 65]), Err(Refusal::NotAsMany));
    assert_eq!(split_fee(FEE_LIMIT + 1, &[1]), Err(Refusal::TooLarge));
    assert_eq!(split_fee(1, &[WEIGHT_LIMIT]), Err(Refusal::TooLarge));
    assert_eq!(split_fee(1, &[0; 64]), Err(Refusal::AllZero));
}

#[test]
fn refusals_have_their_numbers_and_words() {
    let all = [
        (Refusal::TooLong, 1),
        (Refusal::NoSection, 2),
        (Refusal::NoRow, 3),
        (Refusal::NoCell, 4),
        (Refusal::NoRoom, 5),
        (Refusal::NotAccepted, 7),
        (Refusal::BelowZero, 12),
        (Refusal::Past64Bits, 13),
        (Refusal::NotARecord, 14),
        (Refusal::NotAsMany, 15),
        (Refusal::TooLarge, 16),
        (Refusal::AllZero, 17),
    ];
    for (refusal, number) in all {
        assert_eq!(refusal.number(), number);
        assert!(!refusal.to_string().is_empty());
    }
    // One number for both.
    let words = "there is no such row, or no such line";
    assert_eq!(Refusal::NoRow.to_string(), words);
    let words = "the copy has no room in the buffer, or would be longer than 16,777,216 bytes";
    assert_eq!(Refusal::NoRoom.to_string(), words);
}
