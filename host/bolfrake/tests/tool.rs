//! The tool as its users run it, on small files in folders of their own below target/.

mod common;
#[path = "common/folder.rs"]
mod folder;

use std::ffi::OsStr;
use std::fs;
use std::os::unix::ffi::OsStrExt;
use std::os::unix::fs::{symlink, PermissionsExt};
use std::process::Stdio;

use common::Run;
use folder::{headed, on_a_terminal, Folder, HEAD};
use mztab::RULES;
use samples::{Export, EXPORTS};

#[test]
fn an_accepted_file() {
    let folder = Folder::new("accepted");
    let run = folder.write("a.mztab", HEAD).run(&["check", "a.mztab"]);
    let expected =
        "a.mztab: accepted\n1 file: 1 accepted, 0 with breaks, 0 not judged; 0 breaks in all\n";
    assert_eq!(
        (run.status, run.out.as_str(), run.error.as_str()),
        (0, expected, "")
    );
}

#[test]
fn breaks_with_their_cells() {
    let folder = Folder::new("breaks");
    folder.write(
        "b.mztab",
        headed("SMH\tidentifier\tcharge\r\nSML\tC1\t2+\r\nSML\t\t1\r\nSML\tC2\n"),
    );
    let run = folder.run(&["check", "b.mztab"]);
    let expected = "\
b.mztab:11:3: rule 20: cell not of its column's kind: `2+`, in the column `charge`
b.mztab:12:2: rule 19: empty cell in a row, in the column `identifier`
b.mztab:13:1: rule 18: row has another number of cells: `SML`, the row has 2 cells, its header 3 cells
b.mztab: 3 breaks
1 file: 0 accepted, 1 with breaks, 0 not judged; 3 breaks in all
";
    assert_eq!(
        (run.status, run.out.as_str(), run.error.as_str()),
        (1, expected, "")
    );
}

#[test]
fn an_empty_file_lacks_five_keys() {
    let folder = Folder::new("empty");
    let run = folder.write("e.mztab", "").run(&["check", "e.mztab"]);
    assert_eq!(run.status, 1);
    assert!(run.out.starts_with("e.mztab:1:1: rule 21: required metadata absent, no MTD line of three cells has the key `mzTab-version`\n"));
    assert!(run.out.contains("e.mztab:1:5: rule 21: required metadata absent, no MTD line of three cells has the key `ms_run[n]-location`\n"));
    assert!(run.out.contains("e.mztab: 5 breaks\n"));
}

/// A Quantification file with an assay, a study variable, and proteins.
const QUANTIFIED: &str = "MTD\tmzTab-version\t1.0.0\nMTD\tmzTab-mode\tComplete\nMTD\tmzTab-type\tQuantification\n\
    MTD\tdescription\tYeast check\nMTD\tms_run[1]-location\tfile:///a.mzML\n\
    MTD\tassay[2]-quantification_reagent\t[, , none, ]\nMTD\tstudy_variable[3]-description\tcontrol\n\
    PRH\taccession\tdescription\tdatabase\tsearch_engine\nPRT\tP1\tnull\tnull\tnull\n";

/// What rule 22 tells of that file: the cell, the key, and why it is asked for.
const DEMANDED: [(u32, &str, &str); 8] = [
    (102, "assay[2]-ms_run_ref", "each assay of a Quantification file names its run"),
    (203, "study_variable[3]-assay_refs", "each study variable of a Complete Quantification file, and of a Summary one that declares an assay, names its assays"),
    (400, "software[n]", "a Complete file names its software"),
    (500, "protein_search_engine_score[n]", "a file with a protein section names the score of its search engine"),
    (900, "fixed_mod[n]", "a file says which fixed modifications were searched, or that none were"),
    (1000, "variable_mod[n]", "a file says which variable modifications were searched, or that none were"),
    (1100, "quantification_method", "a Complete Quantification file names its method"),
    (1200, "protein-quantification_unit", "a Quantification file with a protein section names the unit of its abundances"),
];

const TITLE_22: &str = "metadata that the mode and type ask for is absent";

#[test]
fn a_file_that_lacks_what_its_mode_and_type_ask_for() {
    let folder = Folder::new("demands");
    folder.write("q.mztab", QUANTIFIED);
    let run = folder.run(&["check", "q.mztab"]);
    let mut expected = String::new();
    for (cell, key, reason) in DEMANDED {
        expected += &format!("q.mztab:10:{cell}: rule 22: {TITLE_22}, no MTD line of three cells has the key `{key}`: {reason}\n");
    }
    expected +=
        "q.mztab: 8 breaks\n1 file: 0 accepted, 1 with breaks, 0 not judged; 8 breaks in all\n";
    assert_eq!((run.status, run.out), (1, expected));
    // No row breaks a rule: these breaks stand on no line.
    let run = folder.run(&["rows", "--format", "csv", "q.mztab"]);
    assert!(run.out.contains("q.mztab,protein,4,1,0,1\n"), "{}", run.out);
    // Without a valid mode nothing is asked for.
    folder.write("q.mztab", QUANTIFIED.replace("Complete", "complete"));
    let run = folder.run(&["check", "q.mztab"]);
    let expected = "q.mztab:2:3: rule 7: value not of its kind: `complete`, for the key `mzTab-mode`\nq.mztab: 1 break\n";
    assert!(run.out.starts_with(expected), "{}", run.out);
}

#[test]
fn demands_for_programs() {
    let folder = Folder::new("demands for programs");
    folder.write("q.mztab", QUANTIFIED);
    let run = folder.run(&["check", "--format", "csv", "q.mztab"]);
    let lines: Vec<&str> = run.out.lines().skip(1).collect();
    assert_eq!(lines.len(), DEMANDED.len());
    for (line, (cell, key, reason)) in lines.iter().zip(DEMANDED) {
        let detail = format!("no MTD line of three cells has the key `{key}`: {reason}");
        let mark = if reason.contains(',') { "\"" } else { "" };
        let expected = format!("q.mztab,10,{cell},22,0,{TITLE_22},,{mark}{detail}{mark}");
        assert_eq!(*line, expected);
    }
    let run = folder.run(&["check", "--format", "json", "--max", "1", "q.mztab"]);
    let (cell, key, reason) = DEMANDED[0];
    let expected = format!(
        "\n  {{\"line\": 10, \"cell\": {cell}, \"rule\": 22, \"first\": 0, \"words\": \"{TITLE_22}\", \"shown\": null, \
        \"detail\": \"no MTD line of three cells has the key `{key}`: {reason}\"}}]}}"
    );
    assert!(run.out.contains(&expected), "{}", run.out);
}

/// Bad indices in keys, in a value and in column names. The line with the bad value declares `assay[1]` all the same.
const BAD_INDICES: &str = "MTD\tsample[01]-description\ta\nMTD\tassay[1]-ms_run_ref\tms_run[077]\nMTD\tassay[77]-ms_run_ref\tms_run[1]\n\
    SMH\tidentifier\tcharge\tsmallmolecule_abundance_assay[1]\tsmallmolecule_abundance_assay[77]\tbest_search_engine_score[0]\nSML\tC1\t1\t1\tx\ty\n";

/// What is told of them: the line, the cell, the rule, the cell that is shown, and what is wrong with it.
const BAD_INDICES_TOLD: [(u32, u32, u32, &str, &str); 5] = [
    (10, 2, 23, "sample[01]-description", "index [01] has a leading zero: write [1]"),
    (11, 3, 23, "ms_run[077]", "for the key `assay[1]-ms_run_ref`, index [077] has a leading zero: indices run from 1 to 64"),
    (12, 2, 24, "assay[77]-ms_run_ref", "index [77] is over 64"),
    (13, 5, 24, "smallmolecule_abundance_assay[77]", "index [77] is over 64"),
    (13, 6, 23, "best_search_engine_score[0]", "index [0] is zero: indices run from 1 to 64"),
];

/// The title of rule 23 or 24.
fn title_of(rule: u32) -> &'static str {
    match rule {
        23 => "index zero or with a leading zero",
        _ => "index over 64",
    }
}

#[test]
fn indices_that_are_none() {
    let folder = Folder::new("indices");
    let run = folder
        .write("i.mztab", headed(BAD_INDICES))
        .run(&["check", "i.mztab"]);
    let mut expected = String::new();
    for (line, cell, rule, shown, detail) in BAD_INDICES_TOLD {
        let title = title_of(rule);
        expected += &format!("i.mztab:{line}:{cell}: rule {rule}: {title}: `{shown}`, {detail}\n");
    }
    expected +=
        "i.mztab: 5 breaks\n1 file: 0 accepted, 1 with breaks, 0 not judged; 5 breaks in all\n";
    assert_eq!((run.status, run.out), (1, expected));
    // Cells under such a column are text, so no row breaks a rule.
    let run = folder.run(&["rows", "--format", "csv", "i.mztab"]);
    let expected = "i.mztab,small-molecule,5,1,0,1\n";
    assert!(run.out.ends_with(expected), "{}", run.out);
}

#[test]
fn indices_for_programs() {
    let folder = Folder::new("indices for programs");
    folder.write("i.mztab", headed(BAD_INDICES));
    let run = folder.run(&["check", "--format", "csv", "i.mztab"]);
    let lines: Vec<&str> = run.out.lines().skip(1).collect();
    assert_eq!(lines.len(), BAD_INDICES_TOLD.len());
    for (found, (line, cell, rule, shown, detail)) in lines.iter().zip(BAD_INDICES_TOLD) {
        let title = title_of(rule);
        let mark = if detail.contains(',') { "\"" } else { "" };
        let expected =
            format!("i.mztab,{line},{cell},{rule},0,{title},`{shown}`,{mark}{detail}{mark}");
        assert_eq!(*found, expected);
    }
    let run = folder.run(&["check", "--format", "json", "i.mztab"]);
    for (line, cell, rule, shown, detail) in BAD_INDICES_TOLD {
        let title = title_of(rule);
        let expected = format!(
            "\n  {{\"line\": {line}, \"cell\": {cell}, \"rule\": {rule}, \"first\": 0, \"words\": \"{title}\", \"shown\": \"{shown}\", \"detail\": \"{detail}\"}}"
        );
        assert!(run.out.contains(&expected), "{}", run.out);
    }
}

/// A key, a header and column names that come again, two names of one header among them, and an unknown key, which has no first.
const COME_AGAIN: &str = "MTD\ttitle\ta\nMTD\tx\ta\nMTD\tx\ta\nMTD\ttitle\tb\nMTD\ttitle\tc\n\
    SMH\tidentifier\tcharge\tcharge\topt_a\topt_a\topt_a\nSML\tC1\t1\t1\tx\tx\tx\n\
    SMH\tidentifier\tcharge\nSML\tC1\t1\nSMH\tidentifier\tcharge\n";

/// What is told of them: the line, the cell, the rule, the words, the cell that is shown, where it stands first, and that in words.
const COME_AGAIN_TOLD: [(u32, u32, u32, &str, &str, u32, &str); 9] = [
    (11, 2, 5, "unknown key", "x", 0, ""),
    (12, 2, 5, "unknown key", "x", 0, ""),
    (13, 2, 6, "key comes again", "title", 10, "first on line 10"),
    (14, 2, 6, "key comes again", "title", 10, "first on line 10"),
    (
        15,
        4,
        13,
        "column name comes again",
        "charge",
        3,
        "first in cell 3",
    ),
    (
        15,
        6,
        13,
        "column name comes again",
        "opt_a",
        5,
        "first in cell 5",
    ),
    (
        15,
        7,
        13,
        "column name comes again",
        "opt_a",
        5,
        "first in cell 5",
    ),
    (
        17,
        1,
        9,
        "second header of a section",
        "SMH",
        15,
        "first on line 15",
    ),
    (
        19,
        1,
        9,
        "second header of a section",
        "SMH",
        15,
        "first on line 15",
    ),
];

#[test]
fn what_comes_again() {
    let folder = Folder::new("again");
    let run = folder
        .write("a.mztab", headed(COME_AGAIN))
        .run(&["check", "a.mztab"]);
    let mut expected = String::new();
    for (line, cell, rule, words, shown, _, detail) in COME_AGAIN_TOLD {
        let comma = if detail.is_empty() { "" } else { ", " };
        expected +=
            &format!("a.mztab:{line}:{cell}: rule {rule}: {words}: `{shown}`{comma}{detail}\n");
    }
    expected +=
        "a.mztab: 9 breaks\n1 file: 0 accepted, 1 with breaks, 0 not judged; 9 breaks in all\n";
    assert_eq!((run.status, run.out), (1, expected));
    // A name of no byte.
    folder.write("a.mztab", headed("SMH\tidentifier\tcharge\t\t\n"));
    let run = folder.run(&["check", "a.mztab"]);
    let expected =
        "a.mztab:10:5: rule 13: column name comes again: an empty cell, first in cell 4\n";
    assert!(run.out.contains(expected), "{}", run.out);
}

#[test]
fn what_comes_again_for_programs() {
    let folder = Folder::new("again for programs");
    folder.write("a.mztab", headed(COME_AGAIN));
    let run = folder.run(&["check", "--format", "csv", "a.mztab"]);
    let mut expected = "file,line,cell,rule,first,words,shown,detail\n".to_string();
    for (line, cell, rule, words, shown, first, detail) in COME_AGAIN_TOLD {
        expected += &format!("a.mztab,{line},{cell},{rule},{first},{words},`{shown}`,{detail}\n");
    }
    assert_eq!((run.status, run.out), (1, expected));
    let run = folder.run(&["check", "--format", "json", "a.mztab"]);
    for (line, cell, rule, words, shown, first, detail) in COME_AGAIN_TOLD {
        let expected = format!(
            "\n  {{\"line\": {line}, \"cell\": {cell}, \"rule\": {rule}, \"first\": {first}, \"words\": \"{words}\", \"shown\": \"{shown}\", \"detail\": \"{detail}\"}}"
        );
        assert!(run.out.contains(&expected), "{}", run.out);
    }
}

#[test]
fn columns_that_a_quantification_file_needs() {
    let folder = Folder::new("columns");
    let header = "PEH\tsequence\taccession\tcharge\tmass_to_charge\tretention_time\n";
    folder.write("q.mztab", QUANTIFIED.to_string() + header);
    folder.write(
        "i.mztab",
        QUANTIFIED.replace("Quantification", "Identification") + header,
    );
    let run = folder.run(&["check", "q.mztab"]);
    let expected = "q.mztab:10:1: rule 16: required column absent: `PEH`, the header has no `modifications`, `retention_time_window`\n";
    assert!(run.out.starts_with(expected), "{}", run.out);
    let run = folder.run(&["check", "i.mztab"]);
    assert!(!run.out.contains("rule 16"), "{}", run.out);
}

/// The header is as long as half of a file may be, and 200,000 rows below it have another number of cells.
#[test]
fn a_long_header_over_many_rows() {
    let folder = Folder::new("long header");
    let header = format!("SMH\tidentifier\tcharge\topt_{}\n", "x".repeat(8_000_000));
    folder.write("l.mztab", headed(&header) + &"SML\n".repeat(200_000));
    let run = folder.run(&["check", "l.mztab"]);
    let last = "l.mztab:200010:1: rule 18: row has another number of cells: `SML`, the row has 1 cell, its header 4 cells\n";
    assert!(run.out.contains(last));
    assert!(run.out.ends_with("; 200,000 breaks in all\n"));
}

#[test]
fn cells_that_are_empty() {
    let folder = Folder::new("empty cells");
    folder.write("e.mztab", headed("MTD\ttitle\t\nMTD\t\t1\n\tx\n"));
    let run = folder.run(&["check", "e.mztab"]);
    let expected = "\
e.mztab:10:3: rule 7: value not of its kind: an empty cell, for the key `title`
e.mztab:11:2: rule 5: unknown key: an empty cell
e.mztab:12:1: rule 2: unknown line code: an empty cell
";
    assert!(run.out.starts_with(expected), "{}", run.out);
}

#[test]
fn bytes_that_do_not_print() {
    let folder = Folder::new("bytes");
    let mut file = HEAD.as_bytes().to_vec();
    file.extend(b"MTD\ttitle\ta\x1b[31mb\xffc\x7f\nMTD\tt\xc3\xb6\xe2\x80\xae\t1");
    let run = folder.write("x.mztab", file).run(&["check", "x.mztab"]);
    assert!(
        run.out
            .starts_with("x.mztab:10:3: rule 1: control byte: `a\\x1B[31mb\\xFFc\\x7F`\n"),
        "{}",
        run.out
    );
    assert!(
        run.out
            .contains("x.mztab:11:2: rule 5: unknown key: `tö\\xE2\\x80\\xAE`\n"),
        "{}",
        run.out
    );
}

#[test]
fn long_cells_are_cut() {
    let folder = Folder::new("long");
    let run = folder
        .write("l.mztab", headed(&"x".repeat(100_000)))
        .run(&["check", "l.mztab"]);
    assert!(run.out.starts_with(&format!(
        "l.mztab:10:1: rule 2: unknown line code: `{}…`\n",
        "x".repeat(60)
    )));
}

#[test]
fn the_first_breaks_alone() {
    let folder = Folder::new("max");
    folder.write("m.mztab", headed(&"x\n".repeat(10_000)));
    let run = folder.run(&["check", "--max", "2", "m.mztab"]);
    let expected = "\
m.mztab:10:1: rule 2: unknown line code: `x`
m.mztab:11:1: rule 2: unknown line code: `x`
m.mztab: 10,000 breaks, of which the first 2 shown
1 file: 0 accepted, 1 with breaks, 0 not judged; 10,000 breaks in all
";
    assert_eq!((run.status, run.out.as_str()), (1, expected));
    assert_eq!(
        folder
            .run(&["check", "--max=0", "m.mztab"])
            .out
            .lines()
            .count(),
        2
    );
    assert_eq!(
        folder.run(&["check", "m.mztab"]).out.lines().count(),
        10_002
    );
}

#[test]
fn files_of_a_folder_by_name() {
    let folder = Folder::new("folder");
    for name in [
        "d/b.mzTab",
        "d/a.mztab",
        "d/c/z.MZTAB",
        "d/n.txt",
        "d/.mztab",
        "d/mztab",
    ] {
        folder.write(name, HEAD);
    }
    let run = folder.run(&["check", "d", "d/n.txt"]);
    let names: Vec<&str> = run
        .out
        .lines()
        .filter_map(|line| line.strip_suffix(": accepted"))
        .collect();
    assert_eq!(names, ["d/a.mztab", "d/b.mzTab", "d/c/z.MZTAB", "d/n.txt"]);
    assert_eq!(run.status, 0);
}

#[test]
fn a_folder_with_links() {
    let folder = Folder::new("links");
    folder.write("d/a.mztab", HEAD);
    let link = |target: &str, name: &str| symlink(target, folder.0.join(name)).unwrap();
    link("a.mztab", "d/b.mztab");
    link("nowhere", "d/c.mztab");
    link(".", "d/d.mztab");
    link("..", "d/e");
    let run = folder.run(&["check", "d"]);
    assert!(
        run.out
            .starts_with("d/a.mztab: accepted\nd/b.mztab: accepted\n3 files: 2 accepted"),
        "{}",
        run.out
    );
    assert!(
        run.error
            .starts_with("bolfrake: d/c.mztab cannot be read ("),
        "{}",
        run.error
    );
    assert_eq!(run.status, 2);
}

#[test]
fn a_folder_without_files() {
    let folder = Folder::new("none");
    folder.write("d/n.txt", HEAD);
    let run = folder.run(&["check", "d"]);
    assert_eq!(run.status, 2);
    assert!(
        run.error.starts_with(
            "bolfrake: d has no file whose name ends in .mztab: name the file itself\n"
        ),
        "{}",
        run.error
    );
}

#[test]
fn many_files_in_the_order_of_the_arguments() {
    let folder = Folder::new("many");
    let names: Vec<String> = (0..150)
        .map(|k| format!("{}.mztab", k * 7919 % 150))
        .collect();
    for (k, name) in names.iter().enumerate() {
        folder.write(name, headed(&"x\n".repeat(k * k % 3_000)));
    }
    let mut words = vec!["check", "--max", "1"];
    words.extend(names.iter().map(String::as_str));
    let run = folder.run(&words);
    let mut told: Vec<&str> = run
        .out
        .lines()
        .filter_map(|line| line.split(':').next())
        .collect();
    told.dedup();
    told.pop();
    assert_eq!(told, names);
}

#[test]
fn standard_input() {
    let folder = Folder::new("input");
    let run = folder.run_with_input(&["check", "-"], b"x");
    assert!(run
        .out
        .starts_with("-:1:1: rule 2: unknown line code: `x`\n"));
    assert_eq!(run.status, 1);
    let run = folder.run_with_input(&["cell", "-", "protein", "1", "1"], b"PRT\tP1");
    assert_eq!((run.status, run.out.as_str()), (0, "P1\n"));
    assert_eq!(folder.run(&["check", "-", "-"]).status, 2);
}

#[test]
fn files_that_cannot_be_judged() {
    let folder = Folder::new("unread");
    folder.write("a.mztab", HEAD).write("x.mztab", "x");
    folder.write("long.mztab", vec![b'\n'; 16_777_217]);
    let run = folder.run(&["check", "a.mztab", "no.mztab", "x.mztab", "long.mztab"]);
    assert_eq!(run.status, 2);
    assert!(
        run.out
            .ends_with("4 files: 1 accepted, 1 with breaks, 2 not judged; 6 breaks in all\n"),
        "{}",
        run.out
    );
    let said: Vec<&str> = run.error.lines().collect();
    assert!(
        said[0].starts_with("bolfrake: no.mztab cannot be read ("),
        "{said:?}"
    );
    assert!(
        said[0].ends_with("): check the name, or the folder that you are in"),
        "{said:?}"
    );
    assert!(
        said[1].starts_with("bolfrake: long.mztab is longer than 16,777,216 bytes"),
        "{said:?}"
    );
    assert_eq!(said.len(), 2);
    let run = folder.run(&["cell", ".", "1", "1", "1"]);
    assert_eq!(run.error, "bolfrake: . is a folder: name a file in it\n");
    folder.write("most.mztab", vec![b'\n'; 16_777_216]);
    assert_eq!(folder.run(&["check", "--max", "0", "most.mztab"]).status, 1);
}

/// The files of a run test, each with the breaks that the independent reading wrote for it.
fn stored() -> Vec<(&'static [u8], Vec<String>)> {
    let files: &[u8] = include_bytes!("../../../crates/test_judges/stdin");
    let outputs = include_str!("../../../crates/test_judges/stdout").split(".\n");
    let breaks = outputs.map(|output| output.lines().skip(1).map(str::to_string).collect());
    let mut stored: Vec<_> = files.split(|byte| *byte == 30).zip(breaks).collect();
    // Nothing stands after the last end.
    stored.pop();
    stored
}

#[test]
fn files_of_the_run_tests() {
    let folder = Folder::new("stored");
    let stored = stored();
    assert!(stored.len() > 400);
    hold_to(&folder, &stored);
}

/// The number of a file of that folder, by its name.
fn number_of(name: &str) -> usize {
    name[2..6].parse().unwrap()
}

/// Checks the files of a folder, `--max 4096`, and holds the breaks of each to those stored: as text line, cell and rule, as CSV the first too.
fn hold_to(folder: &Folder, stored: &[(&[u8], Vec<String>)]) -> Run {
    for (k, (file, _)) in stored.iter().enumerate() {
        folder.write(&format!("d/{k:04}.mztab"), file);
    }
    let run = folder.run(&["check", "--max", "4096", "d"]);
    let mut found = vec![Vec::new(); stored.len()];
    for line in run.out.lines().filter(|line| line.contains(": rule ")) {
        let words: Vec<&str> = line.splitn(5, ':').collect();
        let rule = words[3].strip_prefix(" rule ").unwrap();
        found[number_of(words[0])].push(format!("{} {} {rule}", words[1], words[2]));
    }
    let csv = folder.run(&["check", "--format", "csv", "--max", "4096", "d"]);
    let mut found_with_first = vec![Vec::new(); stored.len()];
    for line in csv.out.lines().skip(1) {
        let fields: Vec<&str> = line.splitn(6, ',').collect();
        found_with_first[number_of(fields[0])].push(fields[1..5].join(" "));
    }
    for (k, (file, breaks)) in stored.iter().enumerate() {
        assert_eq!(found_with_first[k], *breaks, "{}", file.escape_ascii());
        let places: Vec<&str> = breaks
            .iter()
            .map(|at| at.rsplit_once(' ').unwrap().0)
            .collect();
        assert_eq!(found[k], places, "{}", file.escape_ascii());
    }
    run
}

#[test]
fn files_as_programs_export_them() {
    let folder = Folder::new("exports");
    let breaks = |export: &Export| export.judged.lines().skip(1).map(str::to_string).collect();
    let stored: Vec<_> = (EXPORTS.iter())
        .map(|export| (export.file, breaks(export)))
        .collect();
    let run = hold_to(&folder, &stored);
    assert_eq!(run.status, 1);
    let breaks: usize = stored.iter().map(|(_, breaks)| breaks.len()).sum();
    let expected =
        format!("4 files: 2 accepted, 2 with breaks, 0 not judged; {breaks} breaks in all\n");
    assert!(run.out.ends_with(&expected), "{}", run.out);
    // Each is one that the program `judge` takes, and the accepted ones are split over.
    assert!(EXPORTS.iter().all(|export| export.file.len() < 60_000));
    let fees = EXPORTS.iter().map(|export| {
        let run = folder.run_with_input(&["fee", "-", "1000", "--format", "csv"], export.file);
        (run.status, run.out.lines().last().map(str::to_string))
    });
    let fees: Vec<_> = fees.collect();
    assert_eq!((fees[0].0, fees[3].0), (1, 1));
    for (status, last) in &fees[1..3] {
        assert_eq!(*status, 0);
        assert!(last.as_ref().unwrap().ends_with(",100000,1000.00"));
    }
}

#[test]
fn as_csv() {
    let folder = Folder::new("csv");
    folder.write(
        "a,b.mztab",
        headed("SMH\tidentifier\tcharge\nSML\tC1\t\"2\",\n"),
    );
    let run = folder.run(&["check", "--format", "csv", "a,b.mztab"]);
    let expected = "\
file,line,cell,rule,first,words,shown,detail
\"a,b.mztab\",11,3,20,0,cell not of its column's kind,\"`\"\"2\"\",`\",in the column `charge`
";
    assert_eq!((run.status, run.out.as_str()), (1, expected));
    assert_eq!(
        run.error,
        "1 file: 0 accepted, 1 with breaks, 0 not judged; 1 break in all\n"
    );
}

#[test]
fn as_json() {
    let folder = Folder::new("json");
    folder
        .write("a.mztab", HEAD)
        .write("b.mztab", headed("x\\\"\n"));
    let run = folder.run(&["check", "--format=json", "a.mztab", "b.mztab", "c.mztab"]);
    let expected = r#"{"files": [
{"file": "a.mztab", "status": "accepted", "bytes": 314, "count": 0, "shown": 0, "breaks": []},
{"file": "b.mztab", "status": "broken", "bytes": 318, "count": 1, "shown": 1, "breaks": [
  {"line": 10, "cell": 1, "rule": 2, "first": 0, "words": "unknown line code", "shown": "x\\\\\"", "detail": ""}]},
{"file": "c.mztab", "status": "not judged", "reason": "cannot be read (No such file or directory (os error 2)): check the name, or the folder that you are in"}
], "accepted": 1, "broken": 1, "not_judged": 1, "breaks": 1}
"#;
    assert_eq!((run.status, run.out.as_str()), (2, expected));
}

#[test]
fn a_reader_that_leaves_early() {
    let folder = Folder::new("pipe");
    folder.write("p.mztab", "x\n".repeat(200_000));
    let mut command = folder.command(&["check", "p.mztab"]);
    command.stdout(Stdio::piped()).stderr(Stdio::piped());
    let mut child = command.spawn().unwrap();
    drop(child.stdout.take());
    let run = Run::of(child.wait_with_output().unwrap());
    assert_eq!((run.status, run.error.as_str()), (141, ""));
}

#[test]
fn colour_on_a_terminal_alone() {
    let folder = Folder::new("colour");
    folder.write("x.mztab", headed("x\n"));
    assert!(!folder.run(&["check", "x.mztab"]).out.contains('\x1b'));
    match on_a_terminal(&folder, "check x.mztab") {
        None => println!("there is no `script` here: colours were not tested"),
        Some(out) => assert!(
            out.starts_with(
                "\x1b[1mx.mztab:10:1:\x1b[0m \x1b[33mrule 2\x1b[0m: unknown line code: `x`"
            ),
            "{out}"
        ),
    }
}

#[test]
fn rows_of_each_section() {
    let folder = Folder::new("rows");
    folder.write(
        "r.mztab",
        headed("SMH\tidentifier\tcharge\nSML\tC1\t2+\nSML\tC2\t1\nSML\tC3\t1"),
    );
    let run = folder.run(&["rows", "r.mztab"]);
    let expected = "\
file     section         columns  rows  breaking  keeping
r.mztab  protein               -     0         0        0
r.mztab  peptide               -     0         0        0
r.mztab  psm                   -     0         0        0
r.mztab  small-molecule        2     3         1        2
1 file   all                   -     3         1        2
";
    assert_eq!((run.status, run.out.as_str()), (0, expected));
    let run = folder.run(&["rows", "--format", "csv", "r.mztab", "no.mztab"]);
    assert!(run.out.ends_with("r.mztab,small-molecule,2,3,1,2\n"));
    assert_eq!(run.status, 2);
}

#[test]
fn rows_of_a_file_with_breaks_everywhere() {
    let folder = Folder::new("rows broken");
    // A row before its header and one under another's, a second header, a row without cells, codes that are none, several breaks on a line.
    let file = "PRT\tx\nPRH\taccession\tdescription\tdatabase\tsearch_engine\r\nPRT\tP1\tnull\tdb\tnull\r\n\
        PRT\tP2\t\t\t\nSMH\tidentifier\tcharge\nSML\tC1\t1\nPRT\tP3\tnull\tdb\tnull\nPRH\ta\nPRTx\nprt\n\nCOM\tPRT\nSML\nPRT";
    let run = folder
        .write("r.mztab", headed(file))
        .run(&["rows", "r.mztab"]);
    let expected = "\
file     section         columns  rows  breaking  keeping
r.mztab  protein               4     5         4        1
r.mztab  peptide               -     0         0        0
r.mztab  psm                   -     0         0        0
r.mztab  small-molecule        2     2         1        1
1 file   all                   -     7         5        2
";
    assert_eq!((run.status, run.out.as_str()), (0, expected));
}

#[test]
fn cells_as_they_stand() {
    let folder = Folder::new("cell");
    folder.write(
        "c.mztab",
        b"PRH\taccession\turi\nPRT\tP\xff\x0b\\\tnull\r\n",
    );
    let output = folder
        .command(&["cell", "c.mztab", "1", "1", "1"])
        .output()
        .unwrap();
    assert_eq!(output.stdout, b"P\xff\x0b\\\n");
    assert_eq!(
        folder.run(&["cell", "c.mztab", "protein", "1", "2"]).out,
        "null\n"
    );
    assert_eq!(
        folder
            .run(&["cell", "c.mztab", "protein", "1", "2", "--or", "none"])
            .out,
        "none\n"
    );
    assert_eq!(
        folder
            .run(&["cell", "c.mztab", "protein", "0", "2", "--or="])
            .out,
        "uri\n"
    );
    assert_eq!(
        folder
            .run(&["cell", "--or=", "c.mztab", "Protein", "1", "2"])
            .out,
        "\n"
    );
}

#[test]
fn cells_that_are_not_there() {
    let folder = Folder::new("refused");
    folder.write("c.mztab", "PRH\ta\tb\nPRT\tx\ty\n");
    for (words, expected) in [
        (["7", "1", "1"], "there is no section 7: ask for 1 protein, 2 peptide, 3 psm, 4 small-molecule"),
        (["1", "2", "1"], "c.mztab has no row 2 of section protein, it has 1 row: ask for row 1"),
        (["psm", "0", "1"], "c.mztab has no header of section psm, and 0 rows of it: `bolfrake rows c.mztab` says which sections have rows"),
        (["1", "1", "3"], "row 1 of section protein has no column 3, it has 2 columns: ask for column 1 to 2"),
        (["1", "0", "0"], "the header of section protein has no column 0, it has 2 columns: ask for column 1 to 2"),
    ] {
        for command in ["cell", "read"] {
            let run = folder.run(&[&[command, "c.mztab"], &words[..]].concat());
            assert_eq!((run.status, run.out.as_str(), run.error), (1, "", format!("bolfrake: {expected}\n")));
        }
    }
}

#[test]
fn readings() {
    let folder = Folder::new("read");
    folder.write(
        "r.mztab",
        "PRT\t-12.340\t007\tnull\tINF\tNaN\t1234567890123456\tx\t1.2E-5\t3e2\t1E23\t5.E1",
    );
    for (column, expected) in [
        ("1", "decimal -12.34, numerals -12340, power -3"),
        ("2", "whole 7"),
        ("3", "missing"),
        ("4", "infinite"),
        ("5", "not a number"),
        ("6", "long decimal"),
        ("7", "text"),
        ("8", "decimal 1.2e-5, numerals 12, power -6"),
        ("9", "decimal 300.0, numerals 3, power 2"),
        ("10", "long decimal"),
        ("11", "text"),
    ] {
        let run = folder.run(&["read", "r.mztab", "protein", "1", column]);
        let cell = column.parse::<u32>().unwrap() + 1;
        assert_eq!(
            (run.status, run.out),
            (0, format!("r.mztab:1:{cell}: {expected}\n"))
        );
    }
}

#[test]
fn pages() {
    let folder = Folder::new("pages");
    let run = folder.run(&["explain", "17"]);
    assert!(run
        .out
        .starts_with("## Rule 17: row not under its own section's header\n"));
    assert!(include_str!("../../../docs/rules.md").contains(&run.out));
    let run = folder.run(&["explain", "22"]);
    assert!(run
        .out
        .starts_with("## Rule 22: metadata that the mode and type ask for is absent\n"));
    for (rule, title) in [
        ("23", "index zero or with a leading zero"),
        ("24", "index over 64"),
    ] {
        let run = folder.run(&["explain", rule]);
        let beginning = format!("## Rule {rule}: {title}\n");
        assert!(run.out.starts_with(&beginning), "{}", run.out);
    }
    assert_eq!(folder.run(&["explain"]).out.lines().count(), 24);
    let run = folder.run(&["explain", "25"]);
    let expected = "bolfrake: explain knows the rules 1 to 24, `values` and `names`, and not `25` (`bolfrake explain --help` tells how)\n";
    assert_eq!((run.status, run.error.as_str()), (2, expected));
}

#[test]
fn help() {
    let folder = Folder::new("help");
    assert!(folder
        .run(&["--help"])
        .out
        .contains("bolfrake check FILE|DIR..."));
    assert!(folder.run(&[]).out.contains("Exit status"));
    for command in [
        "check", "rows", "cell", "read", "edit", "mend", "fee", "tally", "explain",
    ] {
        let run = folder.run(&[command, "--help"]);
        assert!(run.out.starts_with(&format!("bolfrake {command} ")));
        assert_eq!(run.out, folder.run(&["help", command]).out);
        let run = folder.run(&[command, "--wrong"]);
        let hint = match command {
            "edit" => ": where that is the TEXT, write -- before it",
            _ => "",
        };
        let expected = format!("bolfrake: {command} takes no option `--wrong`{hint} (`bolfrake {command} --help` tells how)\n");
        assert_eq!((run.status, run.out.as_str(), run.error), (2, "", expected));
    }
    assert!(folder.run(&["--version"]).out.starts_with("bolfrake 0."));
    // All that name a number of rules name the same.
    for (words, rules) in [
        (&["--version"][..], format!(" {RULES} rules,")),
        (&["check", "--help"], format!(" the {RULES} rules ")),
        (&["explain", "--help"], format!(" 1 to {RULES}:")),
    ] {
        assert!(folder.run(words).out.contains(&rules), "{words:?}");
    }
}

#[test]
fn wrong_uses() {
    let folder = Folder::new("wrong");
    let every = "use check, rows, cell, read, edit, mend, fee or explain";
    assert!(folder.run(&["frob"]).error.contains(every));
    for words in [
        &["frob"][..],
        &["check"],
        &["check", "--format"],
        &["check", "--format", "xml", "f"],
        &["cell", "f"],
        &["cell", "f", "x", "1", "1"],
        &["check", "--line"],
        &["check", "--line", "1"],
        &["check", "--line", "1", "f", "g"],
        &["check", "--line", "-1", "f"],
        &["check", "--line", "x", "f"],
        &["edit"],
        &["edit", "f", "1", "1", "1"],
        &["edit", "f", "1", "1", "1", "two", "words"],
        &["edit", "f", "x", "1", "1", "a"],
        &["edit", "f", "1", "x", "1", "a"],
        &["edit", "f", "1", "1", "-1", "a"],
        &["edit", "f", "1", "1", "1", "a", "--format", "table"],
        &["edit", "f", "1", "1", "1", "a", "-o"],
        &["edit", "f", "1", "1", "1", "a", "--force"],
        &["fee"],
        &["fee", "f"],
        &["fee", "f", "1", "2"],
        &["fee", "1", "f"],
        &["fee", "f", "1", "--format", "xml"],
        &["fee", "--weights"],
        &["fee", "--weights", "1"],
        &["fee", "--weights", "1", "f", "1"],
        &["tally"],
        &["tally", "--save", "n"],
        &["tally", "--save"],
        &["tally", "--add"],
        &["tally", "f", "--force"],
        &["tally", "f", "-o", "n"],
        &["tally", "f", "--format", "table"],
        &["tally", "-", "-"],
        &["tally", "-", "--add", "-"],
        &["tally", "--add", "-", "--add", "-"],
    ] {
        let run = folder.run(words);
        assert_eq!((run.status, run.out.as_str()), (2, ""), "{words:?}");
        assert!(run.error.contains("--help` tells"), "{}", run.error);
    }
}

#[test]
fn names_that_look_like_options() {
    let folder = Folder::new("dashes");
    folder.write("--max", HEAD);
    assert_eq!(
        folder.run(&["check", "--", "--max"]).out.lines().next(),
        Some("--max: accepted")
    );
}

/// A header, a row with two breaks, one with none, and one of the wrong width.
const MOLECULES: &str = "SMH\tidentifier\tcharge\nSML\t\t2+\nSML\tC1\t1\nSML\tC2\n";

#[test]
fn one_line() {
    let folder = Folder::new("line");
    folder.write("l.mztab", headed(MOLECULES));
    let run = folder.run(&["check", "--line", "11", "l.mztab"]);
    let expected = "\
l.mztab:11:2: rule 19: empty cell in a row, in the column `identifier`
l.mztab:11:3: rule 20: cell not of its column's kind: `2+`, in the column `charge`
l.mztab: line 11: 2 breaks
";
    assert_eq!(
        (run.status, run.out.as_str(), run.error.as_str()),
        (1, expected, "")
    );
    let run = folder.run(&["check", "l.mztab", "--line=12"]);
    let expected = "l.mztab: line 12 breaks no rule\n";
    assert_eq!(
        (run.status, run.out.as_str(), run.error.as_str()),
        (0, expected, "")
    );
    let run = folder.run(&["check", "--line", "11", "--max", "1", "l.mztab"]);
    assert_eq!(run.out.lines().count(), 2);
    assert!(run
        .out
        .ends_with("l.mztab: line 11: 2 breaks, of which the first 1 shown\n"));
    let run = folder.run(&["check", "--line", "11", "--max", "0", "l.mztab"]);
    let expected = "l.mztab: line 11: 2 breaks, none of them shown\n";
    assert_eq!((run.status, run.out.as_str()), (1, expected));
    let run = folder.run_with_input(
        &["check", "--line", "13", "-"],
        headed(MOLECULES).as_bytes(),
    );
    let expected = "-:13:1: rule 18: row has another number of cells: `SML`, the row has 2 cells, its header 3 cells\n-: line 13: 1 break\n";
    assert_eq!((run.status, run.out.as_str()), (1, expected));
}

#[test]
fn one_line_for_programs() {
    let folder = Folder::new("line for programs");
    folder.write("l.mztab", headed(MOLECULES));
    let run = folder.run(&["check", "--line", "11", "--format", "csv", "l.mztab"]);
    let expected = "\
file,line,cell,rule,first,words,shown,detail
l.mztab,11,2,19,0,empty cell in a row,``,in the column `identifier`
l.mztab,11,3,20,0,cell not of its column's kind,`2+`,in the column `charge`
";
    assert_eq!(
        (run.status, run.out.as_str(), run.error.as_str()),
        (1, expected, "l.mztab: line 11: 2 breaks\n")
    );
    let run = folder.run(&["check", "--line", "1", "--format", "csv", "l.mztab"]);
    assert_eq!((run.status, run.out.lines().count()), (0, 1));
    assert_eq!(run.error, "l.mztab: line 1 breaks no rule\n");
    let run = folder.run(&["check", "--line=11", "--format=json", "--max=1", "l.mztab"]);
    let expected = r#"{"file": "l.mztab", "line": 11, "status": "breaks", "count": 2, "shown": 1, "breaks": [
  {"line": 11, "cell": 2, "rule": 19, "first": 0, "words": "empty cell in a row", "shown": "", "detail": "in the column `identifier`"}]}
"#;
    assert_eq!(
        (run.status, run.out.as_str(), run.error.as_str()),
        (1, expected, "")
    );
    let run = folder.run(&["check", "--line", "12", "--format", "json", "l.mztab"]);
    let expected = r#"{"file": "l.mztab", "line": 12, "status": "keeps", "count": 0, "shown": 0, "breaks": []}
"#;
    assert_eq!((run.status, run.out.as_str()), (0, expected));
}

#[test]
fn lines_that_are_not_there() {
    let folder = Folder::new("no line");
    folder.write("l.mztab", HEAD);
    folder.write("1.mztab", "COM").write("e.mztab", "");
    let nine = "it has 9 lines: ask for line 1 to 9";
    for (name, line, words, is_after) in [
        ("l.mztab", "0", nine, false),
        ("l.mztab", "12", nine, false),
        ("l.mztab", "4294967295", nine, false),
        ("l.mztab", "10", nine, true),
        ("1.mztab", "2", "it has 1 line: ask for line 1", true),
        ("e.mztab", "0", "it is empty", false),
        ("e.mztab", "1", "it is empty", true),
    ] {
        let mut expected = format!("bolfrake: {name} has no line {line}, {words}");
        if is_after {
            expected += &format!("; what the whole file lacks, rules 21 and 22, is reported there by `bolfrake check {name}`");
        }
        expected += "\n";
        for format in ["text", "csv", "json"] {
            let run = folder.run(&["check", "--line", line, "--format", format, name]);
            assert_eq!((run.status, run.out.as_str()), (1, ""));
            assert_eq!(run.error, expected);
        }
    }
}

#[test]
fn one_line_of_one_file() {
    let folder = Folder::new("line of one");
    folder.write("d/l.mztab", HEAD);
    folder.write("long.mztab", vec![b'\n'; 16_777_217]);
    for (words, expected) in [
        (&["d/l.mztab", "d/l.mztab"][..], "check takes one file beside --line, or - for standard input (`bolfrake check --help` tells how)\n"),
        (&[], "check takes one file beside --line, or - for standard input (`bolfrake check --help` tells how)\n"),
        (&["d"], "d is a folder: name a file in it\n"),
        (&["no.mztab"], "no.mztab cannot be read ("),
        (&["long.mztab"], "long.mztab is longer than 16,777,216 bytes, so it is not judged"),
    ] {
        let run = folder.run(&[&["check", "--line", "1"], words].concat());
        assert_eq!((run.status, run.out.as_str()), (2, ""));
        assert!(run.error.starts_with(&format!("bolfrake: {expected}")), "{}", run.error);
    }
}

/// The lines of a file one by one print what the whole file does, but for its summary and what it lacks.
#[test]
fn lines_one_by_one() {
    let folder = Folder::new("line by line");
    for (name, file) in [
        ("i.mztab", headed(BAD_INDICES)),
        ("a.mztab", headed(COME_AGAIN)),
        ("q.mztab", QUANTIFIED.replace('\n', "\r\n")),
    ] {
        folder.write(name, &file);
        let lines = file.lines().count();
        let breaks = |run: Run| -> String {
            let lines = run.out.lines().filter(|line| line.contains(": rule "));
            lines.map(|line| format!("{line}\n")).collect()
        };
        let mut whole = breaks(folder.run(&["check", name]));
        if let Some(lacking) = whole.find(&format!("{name}:{}:", lines + 1)) {
            whole.truncate(lacking);
        }
        let each = (1..=lines).map(|line| {
            let run = folder.run(&["check", "--line", &line.to_string(), name]);
            assert_eq!(
                run.status == 0,
                run.out == format!("{name}: line {line} breaks no rule\n")
            );
            breaks(run)
        });
        assert_eq!(each.collect::<String>(), whole);
    }
}

/// The words of an edit of these molecules: row 1 is on line 11.
const EDIT: [&str; 4] = ["edit", "m.mztab", "small-molecule", "1"];

/// Runs an edit of row 1 of these molecules.
fn edited(folder: &Folder, words: &[&str]) -> Run {
    folder.write("m.mztab", headed(MOLECULES));
    folder.run(&[&EDIT, words].concat())
}

#[test]
fn an_edit() {
    let folder = Folder::new("edit");
    let run = edited(&folder, &["2", "1"]);
    let expected = "\
m.mztab:11:3: in the column `charge`: `2+` becomes `1`
  stays  m.mztab:11:2: rule 19: empty cell in a row, in the column `identifier`
- gone   m.mztab:11:3: rule 20: cell not of its column's kind: `2+`, in the column `charge`
line 11: 2 breaks before, 1 after; no other line's breaks change
nothing was written: -o NEW writes the edited copy
";
    assert_eq!(
        (run.status, run.out.as_str(), run.error.as_str()),
        (1, expected, "")
    );
    assert_eq!(
        fs::read(folder.0.join("m.mztab")).unwrap(),
        headed(MOLECULES).as_bytes()
    );
    // A break that stays is told as it is after the edit; a new one comes in its place.
    let run = edited(&folder, &["1", "\u{b}"]);
    let expected = "\
m.mztab:11:2: in the column `identifier`: an empty cell becomes `\\x0B`
+ new    m.mztab:11:2: rule 1: control byte: `\\x0B`
- gone   m.mztab:11:2: rule 19: empty cell in a row, in the column `identifier`
  stays  m.mztab:11:3: rule 20: cell not of its column's kind: `2+`, in the column `charge`
line 11: 2 breaks before, 2 after; no other line's breaks change
nothing was written: -o NEW writes the edited copy
";
    assert_eq!((run.status, run.out.as_str()), (1, expected));
    let run = edited(&folder, &["2", "two"]);
    assert!(run.out.contains("  stays  m.mztab:11:3: rule 20: cell not of its column's kind: `two`, in the column `charge`\n"), "{}", run.out);
}

#[test]
fn edits_that_mend_a_line_and_that_break_one() {
    let folder = Folder::new("edit status");
    folder.write(
        "m.mztab",
        headed(MOLECULES.replacen("\t\t", "\tC0\t", 1).as_str()),
    );
    let run = folder.run(&["edit", "m.mztab", "4", "1", "2", "2"]);
    assert_eq!(run.status, 0);
    assert!(
        run.out
            .contains("\nline 11: 1 break before, none after; no other line's breaks change\n"),
        "{}",
        run.out
    );
    let run = folder.run(&["edit", "m.mztab", "4", "2", "1", "C9"]);
    let expected = "\
m.mztab:12:2: in the column `identifier`: `C1` becomes `C9`
line 12: no break before, none after; no other line's breaks change
nothing was written: -o NEW writes the edited copy
";
    assert_eq!((run.status, run.out.as_str()), (0, expected));
    let run = folder.run(&["edit", "m.mztab", "4", "2", "2", ""]);
    let expected = "\
m.mztab:12:3: in the column `charge`: `1` becomes an empty cell
+ new    m.mztab:12:3: rule 19: empty cell in a row, in the column `charge`
line 12: no break before, 1 after; no other line's breaks change
nothing was written: -o NEW writes the edited copy
";
    assert_eq!((run.status, run.out.as_str()), (1, expected));
    // The text that stands there.
    let run = folder.run(&["edit", "m.mztab", "4", "2", "2", "1"]);
    let expected = "\
m.mztab:12:3: in the column `charge`: `1` stands there already
line 12: no break before, none after; no other line's breaks change
nothing was written: -o NEW writes the edited copy
";
    assert_eq!((run.status, run.out.as_str()), (0, expected));
}

#[test]
fn an_edit_for_programs() {
    let folder = Folder::new("edit for programs");
    let run = edited(&folder, &["2", "1", "--format", "csv"]);
    let expected = "\
change,file,line,cell,rule,first,words,shown,detail
stays,m.mztab,11,2,19,0,empty cell in a row,``,in the column `identifier`
gone,m.mztab,11,3,20,0,cell not of its column's kind,`2+`,in the column `charge`
";
    let aside = "\
m.mztab:11:3: in the column `charge`: `2+` becomes `1`
line 11: 2 breaks before, 1 after; no other line's breaks change
nothing was written: -o NEW writes the edited copy
";
    assert_eq!(
        (run.status, run.out.as_str(), run.error.as_str()),
        (1, expected, aside)
    );
    let run = edited(&folder, &["--format=json", "2", "a\"b"]);
    let expected = r#"{"file": "m.mztab", "line": 11, "cell": 3, "column": "charge", "old": "2+", "new": "a\"b", "breaks_before": [
  {"line": 11, "cell": 2, "rule": 19, "first": 0, "words": "empty cell in a row", "shown": "", "detail": "in the column `identifier`"},
  {"line": 11, "cell": 3, "rule": 20, "first": 0, "words": "cell not of its column's kind", "shown": "2+", "detail": "in the column `charge`"}], "breaks_after": [
  {"line": 11, "cell": 2, "rule": 19, "first": 0, "words": "empty cell in a row", "shown": "", "detail": "in the column `identifier`"},
  {"line": 11, "cell": 3, "rule": 20, "first": 0, "words": "cell not of its column's kind", "shown": "a\"b", "detail": "in the column `charge`"}], "written": null}
"#;
    assert_eq!(
        (run.status, run.out.as_str(), run.error.as_str()),
        (1, expected, "")
    );
}

/// A long text is whole in JSON, and cut elsewhere.
#[test]
fn an_edit_with_a_long_text() {
    let folder = Folder::new("edit long text");
    let long = "x".repeat(100);
    let run = edited(&folder, &["--format", "json", "1", &long]);
    assert!(
        run.out.contains(&format!("\"new\": \"{long}\"")),
        "{}",
        run.out
    );
    let run = edited(&folder, &["1", &long]);
    let cut = format!("becomes `{}…`\n", "x".repeat(60));
    assert!(run.out.contains(&cut), "{}", run.out);
}

#[test]
fn edits_under_no_column_name() {
    let folder = Folder::new("edit nameless");
    folder.write("n.mztab", "SML\ta\nSMH\tidentifier\tcharge\nSML\ta\tb\tc\n");
    let run = folder.run(&["edit", "n.mztab", "4", "1", "1", "b"]);
    let expected = "\
n.mztab:1:2: under no column name: `a` becomes `b`
  stays  n.mztab:1:1: rule 17: row not under its own section's header: `SML`
line 1: 1 break before, 1 after; no other line's breaks change
";
    assert!(run.out.starts_with(expected), "{}", run.out);
    let run = folder.run(&["edit", "n.mztab", "4", "2", "3", "b", "--format", "json"]);
    assert!(
        run.out.contains("\"column\": null, \"old\": \"c\","),
        "{}",
        run.out
    );
}

#[test]
fn edits_that_are_refused() {
    let folder = Folder::new("edit refused");
    folder.write("m.mztab", headed(MOLECULES));
    let todo = "leave it out, or write a space for it";
    for (words, expected) in [
        (["4", "1", "1", "a\tb"], format!("a cell cannot hold a tab, which begins the next cell: {todo}")),
        (["4", "1", "1", "a\r"], format!("a cell cannot hold a CR, which belongs to a line end: {todo}")),
        (["4", "1", "1", "\n"], format!("a cell cannot hold an LF, which ends the line: {todo}")),
        (["4", "0", "1", "a"], "row 0 is a header, and an edit of a header can change what every row below it is judged by: edit the file and run `bolfrake check m.mztab`".to_string()),
        (["7", "1", "1", "a"], "there is no section 7: ask for 1 protein, 2 peptide, 3 psm, 4 small-molecule".to_string()),
        (["4", "9", "1", "a"], "m.mztab has no row 9 of section small-molecule, it has 3 rows: ask for row 1 to 3".to_string()),
        (["psm", "1", "1", "a"], "m.mztab has no row 1 of section psm, it has 0 rows: `bolfrake rows m.mztab` says which sections have rows".to_string()),
        (["4", "3", "2", "a"], "row 3 of section small-molecule has no column 2, it has 1 column: ask for column 1".to_string()),
        (["4", "1", "0", "a"], "row 1 of section small-molecule has no column 0, it has 2 columns: ask for column 1 to 2".to_string()),
    ] {
        for format in ["text", "csv", "json"] {
            let run = folder.run(&[&["edit", "-o", "n.mztab", "--format", format, "m.mztab"], &words[..]].concat());
            let expected = format!("bolfrake: {expected}\n");
            assert_eq!((run.status, run.out.as_str(), run.error), (1, "", expected));
        }
    }
    assert_eq!(folder.names(), ["m.mztab"]);
}

#[test]
fn edits_of_files_that_cannot_be_read() {
    let folder = Folder::new("edit unread");
    folder.write("long.mztab", vec![b'\n'; 16_777_217]);
    for (name, words) in [
        ("no.mztab", "no.mztab cannot be read ("),
        (
            "long.mztab",
            "long.mztab is longer than 16,777,216 bytes, so it is not judged",
        ),
        (".", ". is a folder: name a file in it\n"),
    ] {
        let run = folder.run(&["edit", name, "1", "1", "1", "a"]);
        assert_eq!((run.status, run.out.as_str()), (2, ""));
        assert!(
            run.error.starts_with(&format!("bolfrake: {words}")),
            "{}",
            run.error
        );
    }
}

#[test]
fn the_edited_copy() {
    let folder = Folder::new("edit copy");
    let after = headed(&MOLECULES.replace("2+", "1"));
    let read = |name: &str| fs::read_to_string(folder.0.join(name)).unwrap();
    let written = format!("was written: {} bytes\n", after.len());
    let run = edited(&folder, &["2", "1", "-o", "n.mztab"]);
    let words = format!("no other line's breaks change\nn.mztab {written}");
    assert!(run.out.ends_with(&words), "{}", run.out);
    assert_eq!((run.status, read("n.mztab")), (1, after.clone()));
    assert_eq!(read("m.mztab"), headed(MOLECULES));
    let run = edited(&folder, &["2", "1", "-o", "k.mztab", "--format", "csv"]);
    assert!(run.error.ends_with(&format!("k.mztab {written}")));
    assert_eq!((run.status, read("k.mztab")), (1, after));
    assert_eq!(folder.names(), ["k.mztab", "m.mztab", "n.mztab"]);
}

#[test]
fn a_copy_over_a_file_that_exists() {
    let folder = Folder::new("edit over");
    folder.write("n.mztab", "old");
    let read = |name: &str| fs::read_to_string(folder.0.join(name)).unwrap();
    let words = ["1", "C0", "-o", "n.mztab", "--format", "json"];
    let run = edited(&folder, &words);
    let expected = "bolfrake: n.mztab exists: name another file, or say --force to write over it\n";
    assert_eq!((run.status, run.error.as_str()), (2, expected));
    assert_eq!((run.out.as_str(), read("n.mztab").as_str()), ("", "old"));
    let run = edited(&folder, &[&words[..], &["--force"]].concat());
    assert!(run.out.ends_with("], \"written\": \"n.mztab\"}\n"));
    let after = headed(&MOLECULES.replacen("\t\t", "\tC0\t", 1));
    assert_eq!((run.status, read("n.mztab")), (1, after));
    assert_eq!(folder.names(), ["m.mztab", "n.mztab"]);
}

#[test]
fn an_edit_of_the_file_itself() {
    let folder = Folder::new("edit itself");
    let run = edited(&folder, &["2", "1", "-o", "m.mztab"]);
    assert_eq!(
        (run.status, run.error.as_str()),
        (
            2,
            "bolfrake: m.mztab exists: name another file, or say --force to write over it\n"
        )
    );
    let run = edited(&folder, &["2", "1", "-o", "./m.mztab"]);
    assert_eq!(run.status, 2);
    let path = folder.0.join("m.mztab");
    assert_eq!(fs::read(&path).unwrap(), headed(MOLECULES).as_bytes());
    for (mode, text) in [(0o640, "1"), (0o444, "2")] {
        fs::set_permissions(&path, fs::Permissions::from_mode(mode)).unwrap();
        let run = folder.run(&[&EDIT[..], &["2", text, "-o", "m.mztab", "--force"]].concat());
        assert_eq!(run.status, 1, "{}", run.error);
        assert_eq!(
            fs::read(&path).unwrap(),
            headed(&MOLECULES.replace("2+", text)).as_bytes()
        );
        assert_eq!(
            fs::metadata(&path).unwrap().permissions().mode() & 0o777,
            mode
        );
    }
    assert_eq!(folder.names(), ["m.mztab"]);
}

#[test]
fn copies_that_cannot_be_written() {
    let folder = Folder::new("edit unwritten");
    folder.write("d/x", "");
    let long = "x".repeat(300);
    for (new, words) in [
        ("none/n.mztab", "none/n.mztab cannot be written (No such file or directory (os error 2)): make its folder first, or name another\n".to_string()),
        ("d/x/n.mztab", "d/x/n.mztab cannot be written (".to_string()),
        ("d", "d is a folder: name a file in it\n".to_string()),
        ("", "`` names no file: name one\n".to_string()),
        (&long, format!("{long} cannot be written (")),
    ] {
        for force in [&[][..], &["--force"]] {
            let run = edited(&folder, &[&["2", "1", "-o", new], force].concat());
            assert_eq!((run.status, run.out.as_str()), (2, ""));
            assert!(run.error.starts_with(&format!("bolfrake: {words}")), "{}", run.error);
        }
    }
    assert_eq!(folder.names(), ["d", "m.mztab"]);
    let run = edited(&folder, &["2", "1", "-o", "/dev/null", "--force"]);
    assert_eq!(
        (run.status, run.error.as_str()),
        (
            2,
            "bolfrake: /dev/null is no plain file: name another, or - for standard output\n"
        )
    );
}

#[test]
fn a_folder_that_cannot_be_written() {
    let folder = Folder::new("edit closed");
    folder.write("m.mztab", headed(MOLECULES)).write("d/x", "");
    let closed = folder.0.join("d");
    fs::set_permissions(&closed, fs::Permissions::from_mode(0o555)).unwrap();
    // Whoever may do anything may write there too.
    if fs::write(closed.join("y"), "").is_err() {
        for new in ["d/n.mztab", "d/x"] {
            let run = edited(&folder, &["2", "1", "-o", new, "--force"]);
            assert_eq!((run.status, run.out.as_str()), (2, ""));
            let words = format!("bolfrake: {new} cannot be written (Permission denied (os error 13)): ask for leave to write there, or name another folder\n");
            assert_eq!(run.error, words);
        }
        assert_eq!(fs::read_dir(&closed).unwrap().count(), 1);
    }
    fs::set_permissions(&closed, fs::Permissions::from_mode(0o755)).unwrap();
}

#[test]
fn copies_on_standard_output() {
    let folder = Folder::new("edit output");
    let after = headed(&MOLECULES.replace("2+", "1"));
    let run = edited(&folder, &["2", "1", "-o", "-"]);
    assert_eq!((run.status, &run.out), (1, &after));
    let expected = format!("line 11: 2 breaks before, 1 after; no other line's breaks change\nthe edited copy was written to standard output: {} bytes\n", after.len());
    assert!(run
        .error
        .starts_with("m.mztab:11:3: in the column `charge`: `2+` becomes `1`\n"));
    assert!(run.error.ends_with(&expected), "{}", run.error);
    // From standard input to standard output.
    for (format, ending) in [
        ("csv", expected.as_str()),
        ("json", "], \"written\": \"-\"}\n"),
    ] {
        let words = [
            "edit", "-", "4", "1", "2", "1", "-o", "-", "--format", format,
        ];
        let run = folder.run_with_input(&words, headed(MOLECULES).as_bytes());
        assert_eq!((run.status, &run.out), (1, &after));
        assert!(run.error.ends_with(ending), "{}", run.error);
    }
    let run = folder.run_with_input(
        &["edit", "-", "4", "1", "2", "1"],
        headed(MOLECULES).as_bytes(),
    );
    assert!(run
        .out
        .starts_with("-:11:3: in the column `charge`: `2+` becomes `1`\n"));
}

#[test]
fn edits_of_each_line_end() {
    let folder = Folder::new("edit line ends");
    let header = "SMH\tidentifier\tcharge";
    for (rows, row, expected) in [
        (
            "\r\nSML\tC1\tx\r\nSML\tC2\t1\r\n",
            "1",
            "\r\nSML\tC1\t2\r\nSML\tC2\t1\r\n",
        ),
        ("\nSML\tC1\tx\nSML\tC2\tx", "2", "\nSML\tC1\tx\nSML\tC2\t2"),
        ("\nSML\tC1\t", "1", "\nSML\tC1\t2"),
        // One CR belongs to the line end, the other to the cell; at the end of the file a CR belongs to the cell.
        ("\nSML\tC1\t2\r\r\n", "1", "\nSML\tC1\t2\r\n"),
        ("\nSML\tC1\t2\r", "1", "\nSML\tC1\t2"),
    ] {
        folder.write("e.mztab", headed(header) + rows);
        let words = ["edit", "e.mztab", "4", row, "2", "2"];
        let run = folder.run(&[&words[..], &["-o", "n.mztab", "--force"]].concat());
        assert_eq!(run.status, 0, "{}", run.error);
        let found = fs::read_to_string(folder.0.join("n.mztab")).unwrap();
        assert_eq!(found, headed(header) + expected);
    }
}

#[test]
fn edits_of_bytes_that_are_no_text() {
    let folder = Folder::new("edit bytes");
    let mut file = headed("SMH\tidentifier\tcharge\nSML\t").into_bytes();
    file.extend(b"\xff\x80\\\t1\nSML\t\xfe\t1\n");
    folder.write("b.mztab", &file);
    let mut command = folder.command(&["edit", "b.mztab", "4", "1", "1"]);
    command
        .arg(OsStr::from_bytes(b"\xc3\xb6\xfd"))
        .args(["-o", "n.mztab"]);
    let run = Run::of(command.output().unwrap());
    assert!(
        run.out.starts_with(
            "b.mztab:11:2: in the column `identifier`: `\\xFF\\x80\\\\` becomes `\u{f6}\\xFD`\n"
        ),
        "{}",
        run.out
    );
    let mut expected = headed("SMH\tidentifier\tcharge\nSML\t").into_bytes();
    expected.extend(b"\xc3\xb6\xfd\t1\nSML\t\xfe\t1\n");
    assert_eq!(fs::read(folder.0.join("n.mztab")).unwrap(), expected);
    // A name of such bytes is written as it is, and shown.
    let mut command = folder.command(&["edit", "b.mztab", "4", "1", "1", "a", "-o"]);
    command.arg(OsStr::from_bytes(b"\xff.mztab"));
    let run = Run::of(command.output().unwrap());
    assert!(
        run.out.contains("\n\\xFF.mztab was written: "),
        "{}",
        run.out
    );
    assert!(folder.0.join(OsStr::from_bytes(b"\xff.mztab")).exists());
}

#[test]
fn texts_that_begin_with_a_minus() {
    let folder = Folder::new("edit minus");
    for text in ["-5", "-12.50", "-1.2E-5", "-.5", "-5 EUR", "-"] {
        let run = edited(&folder, &["2", text]);
        assert!(
            run.out.starts_with(&format!(
                "m.mztab:11:3: in the column `charge`: `2+` becomes `{text}`\n"
            )),
            "{}",
            run.error
        );
    }
    for text in ["-INF", "--", "--force", "-h", "-o"] {
        let run = edited(&folder, &["2", "--", text]);
        assert!(
            run.out.contains(&format!(": `2+` becomes `{text}`\n")),
            "{}",
            run.error
        );
    }
    let run = edited(&folder, &["2", "-INF"]);
    assert_eq!((run.status, run.error.as_str()), (2, "bolfrake: edit takes no option `-INF`: where that is the TEXT, write -- before it (`bolfrake edit --help` tells how)\n"));
}

#[test]
fn an_edit_of_a_line_of_16_mb() {
    let folder = Folder::new("edit long");
    let limit = 16_777_216;
    let mut file = headed("SMH\tcharge\tidentifier\nSML\t1\t").into_bytes();
    let start = file.len();
    file.resize(limit, b'7');
    folder.write("l.mztab", &file);
    let words = ["edit", "l.mztab", "4", "1", "2"];
    let run = folder.run(&[&words[..], &["", "-o", "n.mztab"]].concat());
    let sevens = "7".repeat(60);
    let expected = format!("l.mztab:11:3: in the column `identifier`: `{sevens}…` becomes an empty cell\n+ new    l.mztab:11:3: rule 19: ");
    assert!(run.out.starts_with(&expected), "{}", run.out);
    assert_eq!(fs::read(folder.0.join("n.mztab")).unwrap(), file[..start]);
    // A byte more is one too many.
    let run = folder.run(&["edit", "l.mztab", "4", "1", "1", "12"]);
    let expected = "bolfrake: l.mztab would have 16,777,217 bytes with this text, more than the 16,777,216 that are judged: take a shorter text, \
        or write its sections, or parts of its rows, to files of their own\n";
    assert_eq!(
        (run.status, run.out.as_str(), run.error.as_str()),
        (1, "", expected)
    );
    let run = folder.run(&["edit", "l.mztab", "4", "1", "1", "2"]);
    assert_eq!(run.status, 0, "{}", run.error);
    let run = folder.run(&["check", "--line", "11", "l.mztab"]);
    assert_eq!(
        (run.status, run.out.as_str()),
        (0, "l.mztab: line 11 breaks no rule\n")
    );
}

#[test]
fn colours_of_an_edit() {
    let folder = Folder::new("edit colour");
    assert!(!edited(&folder, &["2", "1"]).out.contains('\x1b'));
    match on_a_terminal(&folder, "edit m.mztab 4 1 1 '\u{b}'") {
        None => println!("there is no `script` here: colours were not tested"),
        Some(out) => {
            let lines: Vec<&str> = out.lines().collect();
            assert!(
                lines[0].starts_with("\x1b[1mm.mztab:11:2:\x1b[0m in the column "),
                "{out}"
            );
            assert!(
                lines[1].starts_with(
                    "\x1b[31m+ new  \x1b[0m  \x1b[1mm.mztab:11:2:\x1b[0m \x1b[33mrule 1\x1b[0m: "
                ),
                "{out}"
            );
            assert!(
                lines[2].starts_with("\x1b[32m- gone \x1b[0m  \x1b[1mm.mztab:11:2:\x1b[0m "),
                "{out}"
            );
            assert!(
                lines[3].starts_with("  stays  \x1b[1mm.mztab:11:3:\x1b[0m "),
                "{out}"
            );
        }
    }
}

const FEE: &str = include_str!("../../../examples/fee.mztab");

#[test]
fn a_fee_as_a_table() {
    let folder = Folder::new("fee");
    let run = folder
        .write("fee.mztab", FEE)
        .run(&["fee", "fee.mztab", "1000"]);
    let expected = "\
study variable  description             weight     share
             1  control                      3    428.57
             2  heat shock, 10 minutes       2    285.72
             3  heat shock, 60 minutes       2    285.71
         total                               7  1,000.00
";
    assert_eq!(
        (run.status, run.out.as_str(), run.error.as_str()),
        (0, expected, "")
    );
    for amount in ["1000.00", "1000.0", "01000"] {
        assert_eq!(folder.run(&["fee", "fee.mztab", amount]).out, expected);
    }
    let run = folder.run_with_input(&["fee", "-", "1000", "--format=table"], FEE.as_bytes());
    assert_eq!((run.status, run.out.as_str()), (0, expected));
}

#[test]
fn a_fee_as_csv() {
    let folder = Folder::new("fee csv");
    let run =
        folder
            .write("a,b.mztab", FEE)
            .run(&["fee", "--format", "csv", "a,b.mztab", "1234.56"]);
    let expected = "\
file,study_variable,description,weight,cents,share
\"a,b.mztab\",1,`control`,3,52910,529.10
\"a,b.mztab\",2,\"`heat shock, 10 minutes`\",2,35273,352.73
\"a,b.mztab\",3,\"`heat shock, 60 minutes`\",2,35273,352.73
\"a,b.mztab\",total,,7,123456,1234.56
";
    assert_eq!(
        (run.status, run.out.as_str(), run.error.as_str()),
        (0, expected, "")
    );
}

#[test]
fn a_fee_as_json() {
    let folder = Folder::new("fee json");
    let run = folder
        .write("fee.mztab", FEE)
        .run(&["fee", "fee.mztab", "0.05", "--format", "json"]);
    let expected = r#"{"file": "fee.mztab", "shares": [
  {"study_variable": 1, "description": "control", "weight": 3, "cents": 2, "share": "0.02"},
  {"study_variable": 2, "description": "heat shock, 10 minutes", "weight": 2, "cents": 2, "share": "0.02"},
  {"study_variable": 3, "description": "heat shock, 60 minutes", "weight": 2, "cents": 1, "share": "0.01"}
], "total": {"weight": 7, "cents": 5, "share": "0.05"}, "without_weight": []}
"#;
    assert_eq!(
        (run.status, run.out.as_str(), run.error.as_str()),
        (0, expected, "")
    );
}

#[test]
fn a_fee_over_weights() {
    let folder = Folder::new("fee weights");
    let run = folder.run(&["fee", "--weights", "3,2,2", "1000"]);
    let expected = "\
study variable  weight     share
             1       3    428.57
             2       2    285.72
             3       2    285.71
         total       7  1,000.00
";
    assert_eq!(
        (run.status, run.out.as_str(), run.error.as_str()),
        (0, expected, "")
    );
    let run = folder.run(&["fee", "1000000000", "--weights=0,16777215,1,00"]);
    let expected = "\
study variable      weight             share
             2  16,777,215    999,999,940.40
             3           1             59.60
         total  16,777,216  1,000,000,000.00
study variables 1, 4 have weight 0 and get no share
";
    assert_eq!((run.status, run.out.as_str()), (0, expected));
}

#[test]
fn a_fee_over_weights_for_programs() {
    let folder = Folder::new("fee weights for programs");
    let run = folder.run(&["fee", "7.5", "--weights", "0,1", "--format", "csv"]);
    let expected =
        "file,study_variable,description,weight,cents,share\n,2,,1,750,7.50\n,total,,1,750,7.50\n";
    assert_eq!(
        (run.status, run.out.as_str(), run.error.as_str()),
        (
            0,
            expected,
            "study variable 1 has weight 0 and gets no share\n"
        )
    );
    let run = folder.run(&["fee", "0", "--weights", "0,1", "--format", "json"]);
    let expected = r#"{"file": null, "shares": [
  {"study_variable": 2, "description": null, "weight": 1, "cents": 0, "share": "0.00"}
], "total": {"weight": 1, "cents": 0, "share": "0.00"}, "without_weight": [1]}
"#;
    assert_eq!(
        (run.status, run.out.as_str(), run.error.as_str()),
        (0, expected, "")
    );
}

#[test]
fn one_cent_over_64() {
    let folder = Folder::new("fee cent");
    let weights = vec!["5"; 64].join(",");
    let run = folder.run(&["fee", "--weights", &weights, "0.01", "--format", "csv"]);
    let lines: Vec<&str> = run.out.lines().collect();
    assert_eq!(lines[1], ",1,,5,1,0.01");
    assert!(lines[2..65].iter().all(|line| line.ends_with(",,5,0,0.00")));
    assert_eq!(lines[65..], [",total,,320,1,0.01"]);
}

/// An accepted file with these metadata lines, protein columns and rows beside those that are needed.
fn quantified(meta: &str, columns: &[&str], rows: &[&str]) -> String {
    let mut file = headed(meta) + "PRH\taccession\tdescription\tdatabase\tsearch_engine";
    for column in columns {
        file += &format!("\t{column}");
    }
    for row in rows {
        file += &format!("\nPRT\tP\tnull\tnull\tnull\t{row}");
    }
    file
}

const ABUNDANCE: [&str; 3] = [
    "protein_abundance_study_variable[9]",
    "protein_abundance_study_variable[2]",
    "protein_abundance_study_variable[40]",
];

#[test]
fn study_variables_without_a_weight_or_a_description() {
    let folder = Folder::new("fee without");
    let meta = "MTD\tstudy_variable[40]-description\tx\nMTD\tstudy_variable[2]-sample_refs\tsample[1]\nMTD\tsample[1]-description\ts\n\
        MTD\tassay[7]-ms_run_ref\tms_run[1]\nMTD\tstudy_variable[9]-description\tnull\nMTD\tstudy_variable[3]-assay_refs\tassay[7]\n";
    folder.write(
        "w.mztab",
        quantified(meta, &ABUNDANCE, &["1\t2\tnull", "NaN\tnull\tnull"]),
    );
    let run = folder.run(&["fee", "w.mztab", "10"]);
    let expected = "\
study variable  description       weight  share
             2  (no description)       1   3.33
             9  null                   2   6.67
         total                         3  10.00
study variables 3, 40 have weight 0 (declared, but no protein row has an abundance) and get no share
";
    assert_eq!(
        (run.status, run.out.as_str(), run.error.as_str()),
        (0, expected, "")
    );
    let run = folder.run(&["fee", "w.mztab", "10", "--format=csv"]);
    let expected = "\
file,study_variable,description,weight,cents,share
w.mztab,2,,1,333,3.33
w.mztab,9,`null`,2,667,6.67
w.mztab,total,,3,1000,10.00
";
    assert_eq!((run.status, run.out.as_str()), (0, expected));
    assert_eq!(run.error, "study variables 3, 40 have weight 0 (declared, but no protein row has an abundance) and get no share\n");
    let run = folder.run(&["fee", "w.mztab", "10", "--format=json"]);
    assert!(run
        .out
        .contains("{\"study_variable\": 2, \"description\": null, \"weight\": 1,"));
    assert!(run.out.ends_with("\"without_weight\": [3, 40]}\n"));
    assert_eq!(run.error, "");
}

#[test]
fn descriptions_of_odd_bytes() {
    let folder = Folder::new("fee bytes");
    let long = "l".repeat(70);
    let meta = format!(
        "MTD\tstudy_variable[2]-description\tF\u{f6}rster \u{202e}\\ \"a\"\r\nMTD\tstudy_variable[9]-description\t=1+?\nMTD\tstudy_variable[40]-description\t{long}\n"
    );
    let mut file = quantified(&meta, &ABUNDANCE, &["1\t1\t1"]).into_bytes();
    let at = file.iter().position(|byte| *byte == b'?').unwrap();
    file[at] = 0xff;
    folder.write("b.mztab", file);
    let run = folder.run(&["fee", "b.mztab", "3"]);
    assert!(
        run.out
            .contains("             2  F\u{f6}rster \\xE2\\x80\\xAE\\\\ \"a\" "),
        "{}",
        run.out
    );
    assert!(run.out.contains("             9  =1+\\xFF "), "{}", run.out);
    let cut = format!(
        "            40  {}\u{2026}       1   1.00\n",
        "l".repeat(60)
    );
    assert!(run.out.contains(&cut), "{}", run.out);
    let run = folder.run(&["fee", "b.mztab", "3", "--format", "csv"]);
    let lines: Vec<&str> = run.out.lines().collect();
    assert_eq!(
        lines[1],
        "b.mztab,2,\"`F\u{f6}rster \\xE2\\x80\\xAE\\\\ \"\"a\"\"`\",1,100,1.00"
    );
    assert_eq!(lines[2], "b.mztab,9,`=1+\\xFF`,1,100,1.00");
    assert_eq!(lines[3], format!("b.mztab,40,`{long}`,1,100,1.00"));
    let run = folder.run(&["fee", "b.mztab", "3", "--format", "json"]);
    let lines: Vec<&str> = run.out.lines().collect();
    assert_eq!(lines[1], "  {\"study_variable\": 2, \"description\": \"F\u{f6}rster \\\\xE2\\\\x80\\\\xAE\\\\\\\\ \\\"a\\\"\", \"weight\": 1, \"cents\": 100, \"share\": \"1.00\"},");
}

#[test]
fn a_fee_is_not_split_over_a_broken_file() {
    let folder = Folder::new("fee broken");
    folder.write("x.mztab", FEE.replace("\t12.5\t", "\t\t") + "x\n");
    folder.write("y.mztab", FEE.to_string() + "x\n");
    for form in ["table", "csv", "json"] {
        let run = folder.run(&["fee", "x.mztab", "10", "--format", form]);
        let expected = "bolfrake: x.mztab is not accepted, it has 2 breaks, so no fee is split over it: `bolfrake check x.mztab` shows them\n";
        assert_eq!(
            (run.status, run.out.as_str(), run.error.as_str()),
            (1, "", expected)
        );
    }
    let run = folder.run(&["fee", "y.mztab", "10"]);
    assert_eq!(run.error, "bolfrake: y.mztab is not accepted, it has 1 break, so no fee is split over it: `bolfrake check y.mztab` shows it\n");
    let run = folder.run_with_input(&["fee", "-", "10"], b"");
    assert_eq!((run.status, run.error.as_str()), (1, "bolfrake: - is not accepted, it has 5 breaks, so no fee is split over it: `bolfrake check -` shows them\n"));
}

#[test]
fn a_fee_without_weights() {
    let folder = Folder::new("fee none");
    folder.write("a.mztab", HEAD);
    let meta = "MTD\tstudy_variable[2]-description\tx\n";
    folder.write(
        "b.mztab",
        quantified(meta, &ABUNDANCE[1..2], &["null", "null"]),
    );
    for name in ["a.mztab", "b.mztab"] {
        let run = folder.run(&["fee", name, "10"]);
        assert_eq!((run.status, run.out.as_str()), (1, ""));
        assert_eq!(run.error, format!("bolfrake: {name} has no study variable with a weight: no protein row has a cell other than `null` under a column \
            `protein_abundance_study_variable[n]`. Fill these columns, or give weights by --weights\n"));
    }
}

#[test]
fn fees_over_files_that_cannot_be_read() {
    let folder = Folder::new("fee unread");
    folder.write("long.mztab", vec![b'\n'; 16_777_217]);
    for (name, words) in [
        ("no.mztab", "no.mztab cannot be read ("),
        (
            "long.mztab",
            "long.mztab is longer than 16,777,216 bytes, so it is not judged",
        ),
        (".", ". is a folder: name a file in it\n"),
    ] {
        let run = folder.run(&["fee", name, "10"]);
        assert_eq!((run.status, run.out.as_str()), (2, ""));
        assert!(
            run.error.starts_with(&format!("bolfrake: {words}")),
            "{}",
            run.error
        );
    }
}

#[test]
fn amounts_that_are_none() {
    let folder = Folder::new("fee amounts");
    folder.write("fee.mztab", FEE);
    let none = |amount: &str| {
        format!("takes an AMOUNT as 1234 or 1234.56, and `{amount}` is none: write digits alone, or digits, a dot and the cents, without sign, currency, comma or space")
    };
    let more = |amount: &str| {
        format!(
            "takes an AMOUNT of at most 1000000000.00, and `{amount}` is more: split it in parts"
        )
    };
    for (amount, words) in [
        ("", "takes an AMOUNT as 1234 or 1234.56, and it is empty".to_string()),
        ("12.345", "takes an AMOUNT with at most two places after the dot, and `12.345` has 3: round it to whole cents".to_string()),
        ("1,234.56", none("1,234.56")),
        ("-5", none("-5")),
        ("-5.00", none("-5.00")),
        ("+5", none("+5")),
        ("5 EUR", none("5 EUR")),
        ("1e3", none("1e3")),
        ("5.", none("5.")),
        (".5", none(".5")),
        ("1000000000.01", more("1000000000.01")),
        ("99999999999999999999999999", more("99999999999999999999999999")),
    ] {
        let expected = format!("bolfrake: fee {words} (`bolfrake fee --help` tells how)\n");
        for over in [&["fee", "fee.mztab", amount], &["fee", "--weights=1", amount]] {
            let run = folder.run(over);
            assert_eq!((run.status, run.out.as_str(), &run.error), (2, "", &expected));
        }
    }
}

#[test]
fn weights_that_are_none() {
    let folder = Folder::new("fee misweighed");
    let many = vec!["1"; 65].join(",");
    let none = |weights: &str| {
        format!("takes --weights as 3,2,2, whole numbers with a comma between them, and `{weights}` is none")
    };
    for (weights, words) in [
        ("", none("")),
        ("3,,2", none("3,,2")),
        ("3,2,", none("3,2,")),
        ("3, 2", none("3, 2")),
        ("3,-2", none("3,-2")),
        ("3,+2", none("3,+2")),
        ("3;2", none("3;2")),
        ("1.5", none("1.5")),
        (many.as_str(), "takes 1 to 64 weights, and 65 are given".to_string()),
        ("1,16777216", "takes weights below 16,777,216, and number 2 is not: divide all of them by the same number".to_string()),
        ("1,2,99999999999999999999", "takes weights below 16,777,216, and number 3 is not: divide all of them by the same number".to_string()),
        ("0,0", "needs a weight above 0 to split by, and all that are given are 0".to_string()),
    ] {
        let run = folder.run(&["fee", "10", "--weights", weights]);
        let expected = format!("bolfrake: fee {words} (`bolfrake fee --help` tells how)\n");
        assert_eq!((run.status, run.out.as_str(), run.error), (2, "", expected));
    }
    let run = folder.run(&["fee", "10", "f.mztab"]);
    assert_eq!(
        run.error,
        "bolfrake: fee takes FILE first and AMOUNT after it (`bolfrake fee --help` tells how)\n"
    );
    let run = folder.run(&["fee", "f.mztab", "10", "--weights", "1"]);
    assert_eq!(run.error, "bolfrake: fee takes AMOUNT alone beside --weights, which stand in place of FILE (`bolfrake fee --help` tells how)\n");
}
