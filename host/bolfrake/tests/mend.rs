//! `bolfrake mend` as its users run it.

mod common;
#[path = "common/folder.rs"]
mod folder;

use std::ffi::OsStr;
use std::fs;
use std::os::unix::ffi::OsStrExt;
use std::os::unix::fs::{symlink, PermissionsExt};
use std::process::Stdio;

use common::Run;
use folder::{headed, on_a_terminal, Folder, HEAD};
use mztab::LIMIT;

/// Molecules with three holes, and with `null` in them. The header stands on line 10.
const HOLES: &str = "SMH\tidentifier\tcharge\nSML\tC1\t\nSML\t\t\nSML\tC3\t1\n";
const FILLED: &str = "SMH\tidentifier\tcharge\nSML\tC1\tnull\nSML\tnull\tnull\nSML\tC3\t1\n";

/// The changes of these, as a table.
const TABLE: &str = "\
line  cell  section         row  column       new
  11     3  small-molecule    1  charge      null
  12     2  small-molecule    2  identifier  null
  12     3  small-molecule    2  charge      null
";

/// Proteins and molecules: holes that `null` may fill, two that it may not, and breaks that are none.
const MIXED: &str =
    "PRH\taccession\tdescription\tdatabase\tsearch_engine\nPRT\tP1\t\tdb\tnull\nPRT\t\t\tdb\t\n\
    PRT\t\tx\tdb\tnull\nSMH\tidentifier\tcharge\nSML\tC1\t2+\nSML\tC2\nSML\tC3\t\n";
const MIXED_FILLED: &str = "PRH\taccession\tdescription\tdatabase\tsearch_engine\nPRT\tP1\tnull\tdb\tnull\nPRT\t\tnull\tdb\tnull\n\
    PRT\t\tx\tdb\tnull\nSMH\tidentifier\tcharge\nSML\tC1\t2+\nSML\tC2\nSML\tC3\tnull\n";

/// The changes of that file, as a table.
const MIXED_TABLE: &str = "\
line  cell  section         row  column          new
  11     3  protein           1  description    null
  12     3  protein           2  description    null
  12     5  protein           2  search_engine  null
  17     3  small-molecule    3  charge         null
";

/// What is told of it beside the changes; NAME is the file that is to be mended further.
const MIXED_REST: &str = "\
4 empty cells in 3 rows now hold null
2 empty cells stay empty, since null may not stand in their columns: the laboratory must say the values
NAME:12:2: rule 19: empty cell in a row, in the column `accession`
NAME:13:2: rule 19: empty cell in a row, in the column `accession`
2 other breaks are left
NAME:15:3: rule 20: cell not of its column's kind: `2+`, in the column `charge`
NAME:16:1: rule 18: row has another number of cells: `SML`, the row has 2 cells, its header 3 cells
the copy has 4 breaks
";

const DRY: &str = "nothing was written, as --dry-run asks: -o NEW writes the mended copy\n";

fn read(folder: &Folder, name: &str) -> Vec<u8> {
    fs::read(folder.0.join(name)).unwrap()
}

/// What is said of a copy of this text that was written.
fn written(name: &str, copy: &str) -> String {
    format!("{name} was written: {} bytes\n", copy.len())
}

#[test]
fn a_copy_that_is_accepted() {
    let folder = Folder::new("mend");
    folder.write("h.mztab", headed(HOLES));
    let run = folder.run(&["mend", "h.mztab", "-o", "n.mztab"]);
    let expected = format!(
        "{TABLE}3 empty cells in 2 rows now hold null\nthe copy is accepted\n{}",
        written("n.mztab", &headed(FILLED))
    );
    assert_eq!(
        (run.status, run.out.as_str(), run.error.as_str()),
        (0, expected.as_str(), "")
    );
    assert_eq!(read(&folder, "n.mztab"), headed(FILLED).as_bytes());
    assert_eq!(read(&folder, "h.mztab"), headed(HOLES).as_bytes());
    assert_eq!(folder.names(), ["h.mztab", "n.mztab"]);
    assert_eq!(folder.run(&["check", "n.mztab"]).status, 0);
}

#[test]
fn a_copy_with_breaks_left() {
    let folder = Folder::new("mend mixed");
    folder.write("m.mztab", headed(MIXED));
    let run = folder.run(&["mend", "-o", "n.mztab", "m.mztab"]);
    let rest = MIXED_REST.replace("NAME", "n.mztab");
    let copy = headed(MIXED_FILLED);
    let expected = format!("{MIXED_TABLE}{rest}{}", written("n.mztab", &copy));
    assert_eq!((run.status, run.out, run.error.as_str()), (1, expected, ""));
    assert_eq!(read(&folder, "n.mztab"), copy.as_bytes());
    // They are those that `check` prints of the copy, but for their order.
    let check = folder.run(&["check", "n.mztab"]);
    let mut told: Vec<&str> = rest
        .lines()
        .filter(|line| line.contains(": rule "))
        .collect();
    told.sort();
    let checked: Vec<&str> = check.out.lines().take(4).collect();
    assert_eq!(told, checked);
    assert!(check.out.contains("\nn.mztab: 4 breaks\n"), "{}", check.out);
}

#[test]
fn the_example_of_the_paper() {
    let folder = Folder::new("mend yeast");
    let yeast = include_str!("../../../examples/yeast.mztab");
    folder.write("y.mztab", yeast);
    let run = folder.run(&["mend", "y.mztab", "-o", "n.mztab"]);
    assert_eq!(run.status, 1);
    let beginning = "\
line  cell  section  row  column               new
   8     6  protein    1  num_psms_ms_run[2]  null
1 empty cell in 1 row now holds null
5 other breaks are left
n.mztab:7:6: rule 15: column names an undeclared id: `num_psms_ms_run[2]`
";
    assert!(run.out.starts_with(beginning), "{}", run.out);
    let copy = yeast.replace("\tdb\tnull\t\n", "\tdb\tnull\tnull\n");
    let ending = format!("\nthe copy has 5 breaks\n{}", written("n.mztab", &copy));
    assert!(run.out.ends_with(&ending), "{}", run.out);
    assert_eq!(read(&folder, "n.mztab"), copy.as_bytes());
}

#[test]
fn one_of_each() {
    let folder = Folder::new("mend one");
    let file = "PRH\taccession\tdescription\tdatabase\tsearch_engine\nPRT\t\t\tdb\tnull\nx\n";
    folder.write("o.mztab", headed(file));
    let run = folder.run(&["mend", "--dry-run", "o.mztab"]);
    let expected = "\
line  cell  section  row  column        new
  11     3  protein    1  description  null
1 empty cell in 1 row now holds null
1 empty cell stays empty, since null may not stand in its column: the laboratory must say the value
o.mztab:11:2: rule 19: empty cell in a row, in the column `accession`
1 other break is left
o.mztab:12:1: rule 2: unknown line code: `x`
the copy has 2 breaks
";
    assert_eq!((run.status, run.out), (1, format!("{expected}{DRY}")));
}

#[test]
fn a_column_without_a_name() {
    let folder = Folder::new("mend nameless");
    folder.write(
        "o.mztab",
        headed("SMH\tidentifier\t\tcharge\nSML\tC1\t\t\n"),
    );
    let run = folder.run(&["mend", "--dry-run", "o.mztab"]);
    let expected = "\
line  cell  section         row  column      new
  11     3  small-molecule    1  (no name)  null
  11     4  small-molecule    1  charge     null
2 empty cells in 1 row now hold null
1 other break is left
o.mztab:10:3: rule 12: unknown column name: an empty cell
";
    assert!(run.out.starts_with(expected), "{}", run.out);
    let run = folder.run(&["mend", "--dry-run", "--format", "csv", "o.mztab"]);
    assert!(run
        .out
        .contains("\no.mztab,11,3,small-molecule,1,``,null\n"));
}

#[test]
fn a_dry_run() {
    let folder = Folder::new("mend dry");
    folder
        .write("m.mztab", headed(MIXED))
        .write("n.mztab", "old");
    let rest = MIXED_REST.replace("NAME", "m.mztab");
    let expected = format!("{MIXED_TABLE}{rest}{DRY}");
    for words in [
        &["mend", "--dry-run", "m.mztab"][..],
        &["mend", "m.mztab", "--dry-run"],
        // Beside -o nothing is written either.
        &["mend", "m.mztab", "-o", "n.mztab", "--dry-run"],
        &["mend", "--force", "--dry-run", "-o", "n.mztab", "m.mztab"],
        &["mend", "--dry-run", "-o", "k.mztab", "--", "m.mztab"],
        &["mend", "--format=text", "--dry-run", "m.mztab"],
    ] {
        let run = folder.run(words);
        assert_eq!(
            (run.status, run.out.as_str(), run.error.as_str()),
            (1, expected.as_str(), ""),
            "{words:?}"
        );
    }
    assert_eq!(folder.names(), ["m.mztab", "n.mztab"]);
    assert_eq!(read(&folder, "m.mztab"), headed(MIXED).as_bytes());
    assert_eq!(read(&folder, "n.mztab"), b"old");
    folder.write("h.mztab", headed(HOLES));
    let run = folder.run(&["mend", "--dry-run", "h.mztab"]);
    assert_eq!(run.status, 0);
    assert!(run.out.ends_with(&format!("\nthe copy is accepted\n{DRY}")));
}

#[test]
fn wrong_uses() {
    let folder = Folder::new("mend wrong");
    folder.write("h.mztab", headed(HOLES));
    let how = " (`bolfrake mend --help` tells how)\n";
    for (words, expected) in [
        (&["h.mztab"][..], "needs -o NEW, the file to write the mended copy to, or --dry-run, which prints the same and writes nothing"),
        (&["h.mztab", "--force"], "takes --force beside -o NEW alone"),
        (&["h.mztab", "--dry-run", "--force"], "takes --force beside -o NEW alone"),
        (&[], "takes one file, or - for standard input"),
        (&["-o", "n.mztab"], "takes one file, or - for standard input"),
        (&["h.mztab", "h.mztab", "--dry-run"], "takes one file, or - for standard input"),
        (&["h.mztab", "-o"], "needs a value after `-o`"),
        (&["h.mztab", "--dry"], "takes no option `--dry`"),
        (&["--format", "table", "h.mztab"], "does not know `--format table`: use text, csv, json"),
        (&["--max", "-1", "h.mztab"], "takes a number from 0 to 4294967295 as N of --max, and `-1` is none"),
        (&["h.mztab", "-o", "n.mztab", "--max"], "needs a value after `--max`"),
    ] {
        let run = folder.run(&[&["mend"], words].concat());
        let expected = format!("bolfrake: mend {expected}{how}");
        assert_eq!((run.status, run.out.as_str(), run.error), (2, "", expected));
    }
    assert_eq!(folder.names(), ["h.mztab"]);
}

#[test]
fn nothing_to_mend() {
    let folder = Folder::new("mend nothing");
    let words = "nothing to mend: no empty cell where null may stand, so the copy is the file, byte for byte\n";
    // Line ends of both sorts, a control byte in a comment, and no LF at the end.
    let file = headed("COM\t\u{1}\t\r\n\nSMH\tidentifier\tcharge\nSML\tC1\tnull");
    folder.write("a.mztab", &file);
    let run = folder.run(&["mend", "a.mztab", "-o", "n.mztab"]);
    let expected = format!("{words}the copy is accepted\n{}", written("n.mztab", &file));
    assert_eq!((run.status, run.out), (0, expected));
    assert_eq!(read(&folder, "n.mztab"), file.as_bytes());
    let run = folder.run(&["mend", "a.mztab", "--dry-run"]);
    let expected = format!("{words}the copy is accepted\n{DRY}");
    assert_eq!((run.status, run.out), (0, expected));
    let run = folder.run(&["mend", "a.mztab", "--dry-run", "--format", "csv"]);
    let expected = format!("{words}the copy is accepted\n{DRY}");
    assert_eq!((run.status, run.error), (0, expected));
    assert_eq!(run.out, "file,line,cell,section,row,column,new\n");
    // A copy is mended as far as it can be.
    folder.write("m.mztab", headed(MIXED_FILLED));
    let run = folder.run(&["mend", "m.mztab", "-o", "n.mztab", "--force"]);
    assert_eq!(run.status, 1);
    let rest = MIXED_REST.replace("NAME", "n.mztab");
    let rest = rest.split_once('\n').unwrap().1;
    assert!(
        run.out.starts_with(&format!("{words}{rest}")),
        "{}",
        run.out
    );
    assert_eq!(read(&folder, "n.mztab"), headed(MIXED_FILLED).as_bytes());
    // A file of no byte.
    let run = folder.run_with_input(&["mend", "-", "-o", "e.mztab"], b"");
    assert_eq!((run.status, read(&folder, "e.mztab")), (1, Vec::new()));
    assert!(run
        .out
        .ends_with("\nthe copy has 5 breaks\ne.mztab was written: 0 bytes\n"));
}

#[test]
fn as_csv() {
    let folder = Folder::new("mend csv");
    folder.write("a,b.mztab", headed(MIXED));
    let run = folder.run(&["mend", "a,b.mztab", "--format", "csv", "-o", "n.mztab"]);
    let expected = "\
file,line,cell,section,row,column,new
\"a,b.mztab\",11,3,protein,1,`description`,null
\"a,b.mztab\",12,3,protein,2,`description`,null
\"a,b.mztab\",12,5,protein,2,`search_engine`,null
\"a,b.mztab\",17,3,small-molecule,3,`charge`,null
";
    let rest = MIXED_REST.replace("NAME", "n.mztab");
    let aside = rest + &written("n.mztab", &headed(MIXED_FILLED));
    assert_eq!(
        (run.status, run.out.as_str(), run.error),
        (1, expected, aside)
    );
    assert_eq!(read(&folder, "n.mztab"), headed(MIXED_FILLED).as_bytes());
}

#[test]
fn as_json() {
    let folder = Folder::new("mend json");
    folder
        .write("m.mztab", headed(MIXED))
        .write("h.mztab", headed(HOLES));
    let run = folder.run(&["mend", "m.mztab", "--format", "json", "-o", "n.mztab"]);
    let expected = r#"{"file": "m.mztab", "count": 4, "rows": 3, "shown": 4, "changes": [
  {"line": 11, "cell": 3, "section": "protein", "row": 1, "column": "description", "new": "null"},
  {"line": 12, "cell": 3, "section": "protein", "row": 2, "column": "description", "new": "null"},
  {"line": 12, "cell": 5, "section": "protein", "row": 2, "column": "search_engine", "new": "null"},
  {"line": 17, "cell": 3, "section": "small-molecule", "row": 3, "column": "charge", "new": "null"}], "status": "broken", "left": 4, "left_empty": 2, "left_shown": 4, "breaks_left": [
  {"line": 12, "cell": 2, "rule": 19, "first": 0, "words": "empty cell in a row", "shown": "", "detail": "in the column `accession`"},
  {"line": 13, "cell": 2, "rule": 19, "first": 0, "words": "empty cell in a row", "shown": "", "detail": "in the column `accession`"},
  {"line": 15, "cell": 3, "rule": 20, "first": 0, "words": "cell not of its column's kind", "shown": "2+", "detail": "in the column `charge`"},
  {"line": 16, "cell": 1, "rule": 18, "first": 0, "words": "row has another number of cells", "shown": "SML", "detail": "the row has 2 cells, its header 3 cells"}], "bytes": BYTES, "written": "n.mztab"}
"#;
    let expected = expected.replace("BYTES", &headed(MIXED_FILLED).len().to_string());
    assert_eq!((run.status, run.out, run.error.as_str()), (1, expected, ""));
    let run = folder.run(&["mend", "h.mztab", "--format=json", "--dry-run", "--max=1"]);
    let expected = format!(
        "{{\"file\": \"h.mztab\", \"count\": 3, \"rows\": 2, \"shown\": 1, \"changes\": [\n  \
        {{\"line\": 11, \"cell\": 3, \"section\": \"small-molecule\", \"row\": 1, \"column\": \"charge\", \"new\": \"null\"}}], \
        \"status\": \"accepted\", \"left\": 0, \"left_empty\": 0, \"left_shown\": 0, \"breaks_left\": [], \"bytes\": {}, \"written\": null}}\n",
        headed(FILLED).len()
    );
    assert_eq!((run.status, run.out, run.error.as_str()), (0, expected, ""));
}

#[test]
fn every_line_end_is_kept() {
    let folder = Folder::new("mend line ends");
    for (file, copy) in [
        (
            headed(HOLES).replace('\n', "\r\n"),
            headed(FILLED).replace('\n', "\r\n"),
        ),
        (
            headed("SMH\tidentifier\tcharge\nSML\tC1\t"),
            headed("SMH\tidentifier\tcharge\nSML\tC1\tnull"),
        ),
        (
            headed("SMH\tidentifier\tcharge\r\nSML\t\t1\r\n\n\r\n"),
            headed("SMH\tidentifier\tcharge\r\nSML\tnull\t1\r\n\n\r\n"),
        ),
    ] {
        folder.write("e.mztab", &file);
        let run = folder.run(&["mend", "e.mztab", "-o", "n.mztab", "--force"]);
        assert_eq!(run.status, 0, "{}", run.out);
        assert_eq!(read(&folder, "n.mztab"), copy.as_bytes());
    }
}

/// The section, row and column that the table names are those by which `cell` shows the same cell.
#[test]
fn places_are_those_of_the_cell_command() {
    let folder = Folder::new("mend places");
    folder.write("m.mztab", headed(MIXED));
    let words = ["mend", "m.mztab", "-o", "n.mztab", "--format", "csv"];
    let run = folder.run(&words);
    for line in run.out.lines().skip(1) {
        let fields: Vec<&str> = line.split(',').collect();
        let column = (fields[2].parse::<u32>().unwrap() - 1).to_string();
        for (name, shown) in [("m.mztab", "\n"), ("n.mztab", "null\n")] {
            let run = folder.run(&["cell", name, fields[3], fields[4], &column]);
            assert_eq!((run.status, run.out.as_str()), (0, shown), "{line}");
        }
        let run = folder.run(&["cell", "n.mztab", fields[3], "0", &column]);
        assert_eq!(run.out.trim_end(), fields[5].trim_matches('`'), "{line}");
    }
}

#[test]
fn a_file_that_exists() {
    let folder = Folder::new("mend over");
    folder
        .write("h.mztab", headed(HOLES))
        .write("n.mztab", "old");
    symlink("h.mztab", folder.0.join("link")).unwrap();
    for new in ["n.mztab", "h.mztab", "./h.mztab", "link"] {
        for format in ["text", "csv", "json"] {
            let run = folder.run(&["mend", "h.mztab", "-o", new, "--format", format]);
            let expected = format!(
                "bolfrake: {new} exists: name another file, or say --force to write over it\n"
            );
            assert_eq!((run.status, run.out.as_str(), run.error), (2, "", expected));
        }
    }
    assert_eq!(read(&folder, "n.mztab"), b"old");
    assert_eq!(read(&folder, "h.mztab"), headed(HOLES).as_bytes());
    let run = folder.run(&["mend", "--force", "h.mztab", "-o", "n.mztab"]);
    assert_eq!(
        (run.status, read(&folder, "n.mztab")),
        (0, headed(FILLED).into_bytes())
    );
    assert_eq!(folder.names(), ["h.mztab", "link", "n.mztab"]);
}

#[test]
fn the_file_itself() {
    let folder = Folder::new("mend itself");
    let path = folder.0.join("h.mztab");
    symlink("h.mztab", folder.0.join("link")).unwrap();
    for (new, mode) in [("h.mztab", 0o640), ("link", 0o444)] {
        let _ = fs::remove_file(&path);
        folder.write("h.mztab", headed(HOLES));
        fs::set_permissions(&path, fs::Permissions::from_mode(mode)).unwrap();
        let run = folder.run(&["mend", "h.mztab", "-o", new, "--force"]);
        assert_eq!(run.status, 0, "{}", run.error);
        assert_eq!(read(&folder, "h.mztab"), headed(FILLED).as_bytes());
        let found = fs::metadata(&path).unwrap().permissions().mode() & 0o777;
        assert_eq!(found, mode);
    }
    let link = fs::symlink_metadata(folder.0.join("link")).unwrap();
    assert!(link.file_type().is_symlink());
    assert_eq!(folder.names(), ["h.mztab", "link"]);
}

#[test]
fn copies_that_cannot_be_written() {
    let folder = Folder::new("mend unwritten");
    folder.write("h.mztab", headed(HOLES)).write("d/x", "");
    for (new, words) in [
        ("none/n.mztab", "none/n.mztab cannot be written (No such file or directory (os error 2)): make its folder first, or name another\n"),
        ("d", "d is a folder: name a file in it\n"),
        ("", "`` names no file: name one\n"),
    ] {
        for force in [&[][..], &["--force"]] {
            let run = folder.run(&[&["mend", "h.mztab", "-o", new], force].concat());
            assert_eq!((run.status, run.out.as_str()), (2, ""));
            assert_eq!(run.error, format!("bolfrake: {words}"));
        }
    }
    let run = folder.run(&["mend", "h.mztab", "-o", "/dev/null", "--force"]);
    let expected = "bolfrake: /dev/null is no plain file: name another, or - for standard output\n";
    assert_eq!((run.status, run.error.as_str()), (2, expected));
    assert_eq!(folder.names(), ["d", "h.mztab"]);
}

#[test]
fn files_that_cannot_be_read() {
    let folder = Folder::new("mend unread");
    folder.write("long.mztab", vec![b'\n'; LIMIT + 1]);
    for (name, words) in [
        ("no.mztab", "no.mztab cannot be read ("),
        (
            "long.mztab",
            "long.mztab is longer than 16,777,216 bytes, so it is not judged",
        ),
        (".", ". is a folder: name a file in it\n"),
    ] {
        let run = folder.run(&["mend", name, "-o", "n.mztab"]);
        assert_eq!((run.status, run.out.as_str()), (2, ""));
        let words = format!("bolfrake: {words}");
        assert!(run.error.starts_with(&words), "{}", run.error);
    }
    assert_eq!(folder.names(), ["long.mztab"]);
}

#[test]
fn from_standard_input_to_standard_output() {
    let folder = Folder::new("mend streams");
    let run = folder.run_with_input(&["mend", "-", "-o", "-"], headed(MIXED).as_bytes());
    assert_eq!((run.status, run.out), (1, headed(MIXED_FILLED)));
    let rest = MIXED_REST.replace("NAME", "-");
    let bytes = headed(MIXED_FILLED).len();
    let ending = format!("the mended copy was written to standard output: {bytes} bytes\n");
    assert_eq!(run.error, format!("{MIXED_TABLE}{rest}{ending}"));
    for (format, end) in [
        ("csv", ending.as_str()),
        ("json", ", \"written\": \"-\"}\n"),
    ] {
        let words = ["mend", "-", "-o", "-", "--format", format];
        let run = folder.run_with_input(&words, headed(MIXED).as_bytes());
        assert_eq!((run.status, run.out), (1, headed(MIXED_FILLED)));
        assert!(run.error.ends_with(end), "{}", run.error);
    }
    let run = folder.run_with_input(&["mend", "-", "--dry-run"], headed(HOLES).as_bytes());
    assert_eq!(run.status, 0);
    assert!(run.out.starts_with(TABLE), "{}", run.out);
    assert_eq!(folder.names(), [""; 0]);
}

#[test]
fn names_of_odd_bytes() {
    let folder = Folder::new("mend bytes");
    let mut file = headed("SMH\tidentifier\tcharge\topt_").into_bytes();
    file.extend(b"\x1b[31m\xff\\\xe2\x80\xae\",\topt_");
    file.extend(b"l".repeat(100));
    file.extend(b"\nSML\tC1\t1\t\t\n");
    folder.write("b.mztab", &file);
    let odd = OsStr::from_bytes(b"\xff\x1b.mztab");
    let mut command = folder.command(&["mend", "b.mztab", "--format", "csv", "-o"]);
    let run = Run::of(command.arg(odd).output().unwrap());
    let cut = format!("`opt_{}…`", "l".repeat(56));
    let expected = format!(
        "file,line,cell,section,row,column,new\n\
        b.mztab,11,4,small-molecule,1,\"`opt_\\x1B[31m\\xFF\\\\\\xE2\\x80\\xAE\"\",`\",null\n\
        b.mztab,11,5,small-molecule,1,{cut},null\n"
    );
    assert_eq!(run.out, expected);
    assert!(
        run.error.contains("\n\\xFF\\x1B.mztab was written: "),
        "{}",
        run.error
    );
    assert!(
        run.error
            .contains("\\xFF\\x1B.mztab:10:4: rule 1: control byte: "),
        "{}",
        run.error
    );
    let copy = fs::read(folder.0.join(odd)).unwrap();
    assert!(copy.ends_with(b"\nSML\tC1\t1\tnull\tnull\n"));
    assert_eq!(copy.len(), file.len() + 8);
    let mut command = folder.command(&["mend", "--dry-run"]);
    let run = Run::of(command.arg(odd).output().unwrap());
    assert!(!run.out.contains('\x1b'), "{}", run.out);
    let json = folder.run(&["mend", "b.mztab", "--dry-run", "--format", "json"]);
    let column = r#""column": "opt_\\x1B[31m\\xFF\\\\\\xE2\\x80\\xAE\",", "new""#;
    assert!(json.out.contains(column), "{}", json.out);
}

/// A file with so many rows, each with an empty cell that `null` fills, one that it may not, and a value that is wrong.
fn many(rows: usize) -> String {
    let header = "PRH\taccession\tdescription\tdatabase\tsearch_engine\ttaxid\n";
    headed(header) + &"PRT\t\t\tdb\tnull\tx\n".repeat(rows)
}

#[test]
fn long_lists_are_cut() {
    let folder = Folder::new("mend long");
    folder.write("l.mztab", many(1_234));
    let run = folder.run(&["mend", "l.mztab", "-o", "n.mztab"]);
    let lines: Vec<&str> = run.out.lines().collect();
    assert_eq!(lines[100], " 110     3  protein  100  description  null");
    let hint = "breaks the first 100 shown: `bolfrake check n.mztab` shows all";
    assert_eq!(
        lines[101..104],
        [
            "of these 1,234 changes the first 100 shown: --max 1234 shows all",
            "1,234 empty cells in 1,234 rows now hold null",
            "1,234 empty cells stay empty, since null may not stand in their columns: the laboratory must say the values",
        ]
    );
    assert_eq!(lines[204], format!("of these 1,234 {hint}"));
    assert_eq!(lines[205], "1,234 other breaks are left");
    assert_eq!(lines[306], format!("of these 1,234 {hint}"));
    assert_eq!(lines[307], "the copy has 2,468 breaks");
    assert_eq!(lines.len(), 309);
}

/// There is no copy to be checked after a dry run.
#[test]
fn long_lists_of_a_dry_run() {
    let folder = Folder::new("mend long dry");
    folder.write("l.mztab", many(1_234));
    let run = folder.run(&["mend", "l.mztab", "--dry-run", "--max", "2"]);
    let expected = "\
line  cell  section  row  column        new
  11     3  protein    1  description  null
  12     3  protein    2  description  null
of these 1,234 changes the first 2 shown: --max 1234 shows all
1,234 empty cells in 1,234 rows now hold null
1,234 empty cells stay empty, since null may not stand in their columns: the laboratory must say the values
l.mztab:11:2: rule 19: empty cell in a row, in the column `accession`
l.mztab:12:2: rule 19: empty cell in a row, in the column `accession`
of these 1,234 breaks the first 2 shown: --max 2468 shows all
1,234 other breaks are left
l.mztab:11:6: rule 20: cell not of its column's kind: `x`, in the column `taxid`
l.mztab:12:6: rule 20: cell not of its column's kind: `x`, in the column `taxid`
of these 1,234 breaks the first 2 shown: --max 2468 shows all
the copy has 2,468 breaks
";
    assert_eq!((run.status, run.out), (1, format!("{expected}{DRY}")));
    let run = folder.run(&["mend", "l.mztab", "--dry-run", "--max", "2468"]);
    assert_eq!(run.out.lines().count(), 1 + 3 * 1_234 + 5);
    assert!(!run.out.contains(" shown"), "{}", run.out);
}

#[test]
fn long_lists_for_programs_are_not_cut() {
    let folder = Folder::new("mend long for programs");
    folder.write("l.mztab", many(1_234));
    let run = folder.run(&["mend", "l.mztab", "--dry-run", "--format", "csv"]);
    assert_eq!(run.out.lines().count(), 1_235);
    assert!(run
        .error
        .contains("\nof these 1,234 breaks the first 100 shown: --max 2468 shows all\n"));
    let run = folder.run(&["mend", "l.mztab", "--dry-run", "--format", "json"]);
    assert_eq!(run.out.lines().count(), 1 + 3 * 1_234);
    assert!(run
        .out
        .contains("\"left\": 2468, \"left_empty\": 1234, \"left_shown\": 2468, "));
    let run = folder.run(&["mend", "l.mztab", "--dry-run", "--format=json", "--max=0"]);
    let expected = format!(
        "{{\"file\": \"l.mztab\", \"count\": 1234, \"rows\": 1234, \"shown\": 0, \"changes\": [], \"status\": \"broken\", \
        \"left\": 2468, \"left_empty\": 1234, \"left_shown\": 0, \"breaks_left\": [], \"bytes\": {}, \"written\": null}}\n",
        many(1_234).len() + 4 * 1_234
    );
    assert_eq!(run.out, expected);
    let run = folder.run(&["mend", "l.mztab", "--dry-run", "--format=csv", "--max=0"]);
    assert_eq!(run.out.lines().count(), 1);
    let aside = "\
of these 1,234 changes none shown: --max 1234 shows all
1,234 empty cells in 1,234 rows now hold null
1,234 empty cells stay empty, since null may not stand in their columns: the laboratory must say the values
of these 1,234 breaks none shown: --max 2468 shows all
1,234 other breaks are left
of these 1,234 breaks none shown: --max 2468 shows all
the copy has 2,468 breaks
";
    assert_eq!(run.error, format!("{aside}{DRY}"));
}

/// More breaks are left than are looked at for empty cells.
#[test]
fn more_than_a_million_breaks_left() {
    let folder = Folder::new("mend million left");
    folder.write("l.mztab", "x\n".repeat(500_000) + &many(600_000));
    let run = folder.run(&["mend", "l.mztab", "-o", "n.mztab", "--max", "1"]);
    let lines: Vec<&str> = run.out.lines().skip(2).collect();
    assert_eq!(lines[..3], [
        "of these 600,000 changes the first 1 shown: --max 600000 shows all",
        "600,000 empty cells in 600,000 rows now hold null",
        "at least 250,000 empty cells stay empty, since null may not stand in their columns: the laboratory must say the values",
    ]);
    assert_eq!(lines[5], "at least 750,000 other breaks are left");
    assert_eq!(
        lines[8],
        "the copy has 1,700,000 breaks, of which the first 1,000,000 were looked at for empty cells"
    );
    let words = [
        "mend",
        "l.mztab",
        "--dry-run",
        "--max",
        "1",
        "--format",
        "json",
    ];
    let run = folder.run(&words);
    assert!(
        run.out
            .contains("\"left\": 1700000, \"left_empty\": null, \"left_shown\": 1, "),
        "{}",
        run.out
    );
}

/// A row with 255 empty cells: its copy is nearly five times as long.
fn rows_of_empty_cells(rows: usize) -> String {
    let names: String = (0..253).map(|k| format!("\topt_{k}")).collect();
    let row = format!("SML{}\n", "\t".repeat(255));
    headed(&format!("SMH\tidentifier\tcharge{names}\n")) + &row.repeat(rows)
}

#[test]
fn copies_over_the_limit() {
    let folder = Folder::new("mend limit");
    let mut file = rows_of_empty_cells(LIMIT / 260);
    file += &"\n".repeat(LIMIT - file.len());
    folder.write("o.mztab", &file).write("n.mztab", "old");
    let expected = "bolfrake: o.mztab would have more than 16,777,216 bytes with null in its empty cells, and no more are judged, so nothing is written: \
        write its sections, or parts of its rows, to files of their own, and mend each\n";
    for format in ["text", "csv", "json"] {
        let words = [
            "mend", "o.mztab", "-o", "n.mztab", "--force", "--format", format,
        ];
        let run = folder.run(&words);
        assert_eq!(
            (run.status, run.out.as_str(), run.error.as_str()),
            (2, "", expected)
        );
    }
    assert_eq!(folder.run(&["mend", "o.mztab", "--dry-run"]).status, 2);
    assert_eq!(read(&folder, "n.mztab"), b"old");
    assert_eq!(folder.names(), ["n.mztab", "o.mztab"]);
    // Either side of the limit.
    let mut most = headed(HOLES);
    most += &"\n".repeat(LIMIT - 12 - most.len());
    folder.write("o.mztab", &most);
    let run = folder.run(&["mend", "o.mztab", "-o", "n.mztab", "--force"]);
    assert!(run
        .out
        .ends_with("\nn.mztab was written: 16,777,216 bytes\n"));
    assert_eq!((run.status, read(&folder, "n.mztab").len()), (0, LIMIT));
    folder.write("o.mztab", most + "\n");
    assert_eq!(folder.run(&["mend", "o.mztab", "--dry-run"]).status, 2);
}

/// Files near the limit with a thousand holes far from each other, and with a million and more in few columns: every change is told with its place.
#[test]
fn large_files() {
    let folder = Folder::new("mend large");
    let mut file = headed("SMH\tidentifier\tcharge\tdescription\n");
    let row = |k: usize| {
        format!(
            "SML\tC{k}\t{}\twords of it\n",
            ["1", ""][usize::from(k % 600 == 0)]
        )
    };
    let rows = (0..600_000).map(row).take_while(|row| {
        file += row;
        file.len() < LIMIT - 5_000
    });
    let holes = rows.filter(|row| row.contains("\t\t")).count();
    folder.write("l.mztab", &file);
    let run = folder.run(&["mend", "l.mztab", "-o", "n.mztab", "--format", "csv"]);
    assert_eq!((run.status, run.out.lines().count()), (0, 1 + holes));
    assert_eq!(
        run.out.lines().last().unwrap(),
        format!(
            "l.mztab,{},3,small-molecule,{},`charge`,null",
            600 * holes - 589,
            600 * holes - 599
        )
    );
    assert!(holes > 900, "{holes}");
    folder.write("m.mztab", rows_of_empty_cells(4_000));
    let run = folder.run(&["mend", "m.mztab", "-o", "k.mztab", "--format", "csv"]);
    assert_eq!((run.status, run.out.lines().count()), (0, 1 + 1_020_000));
    let last = "m.mztab,4010,256,small-molecule,4000,`opt_252`,null";
    assert_eq!(run.out.lines().last(), Some(last));
    assert!(run
        .error
        .starts_with("1,020,000 empty cells in 4,000 rows now hold null\n"));
}

#[test]
fn a_reader_that_leaves_early() {
    let folder = Folder::new("mend pipe");
    folder.write("p.mztab", rows_of_empty_cells(1_000));
    let mut command = folder.command(&["mend", "p.mztab", "-o", "n.mztab", "--max", "999999"]);
    command.stdout(Stdio::piped()).stderr(Stdio::piped());
    let mut child = command.spawn().unwrap();
    drop(child.stdout.take());
    let run = Run::of(child.wait_with_output().unwrap());
    assert_eq!((run.status, run.error.as_str()), (141, ""));
    // The copy was written before.
    let copy = rows_of_empty_cells(1_000).len() + 4 * 255_000;
    assert_eq!(read(&folder, "n.mztab").len(), copy);
}

#[test]
fn colours_on_a_terminal() {
    let folder = Folder::new("mend colour");
    folder.write("m.mztab", headed(MIXED));
    match on_a_terminal(&folder, "mend --dry-run m.mztab") {
        None => println!("there is no `script` here: colours were not tested"),
        Some(out) => {
            let place = "\x1b[1mm.mztab:12:2:\x1b[0m \x1b[33mrule 19\x1b[0m: empty cell";
            assert!(out.contains(place), "{out}");
            assert!(out.starts_with("line  cell  section "), "{out}");
        }
    }
    assert_eq!(HEAD.lines().count(), 9);
}

#[test]
fn the_page_of_rule_19_tells_of_it() {
    let folder = Folder::new("mend page");
    let run = folder.run(&["explain", "19"]);
    assert!(
        run.out.contains("`bolfrake mend FILE -o NEW`"),
        "{}",
        run.out
    );
    let run = folder.run(&["mend", "--help"]);
    for words in ["rule 19", "--dry-run", "--force", "-o NEW", "--max N"] {
        assert!(run.out.contains(words), "{words}");
    }
}
