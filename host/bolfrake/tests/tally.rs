//! `bolfrake tally` as its users run it.

mod common;
#[path = "common/folder.rs"]
mod folder;

use std::ffi::OsStr;
use std::fs;
use std::os::unix::ffi::OsStrExt;
use std::os::unix::fs::PermissionsExt;
use std::process::Stdio;

use common::Run;
use folder::{headed, on_a_terminal, Folder, HEAD};
use mztab::{Psms, Tally, LIMIT, RECORD};
use samples::EXPORTS;

/// An accepted file of two runs with these protein columns and rows beside those that are needed.
fn proteins(columns: &str, rows: &[&str]) -> String {
    let mut file = headed("MTD\tms_run[2]-location\tfile:///b.mzML\n");
    file += &format!("PRH\taccession\tdescription\tdatabase\tsearch_engine\t{columns}\n");
    for row in rows {
        file += &format!("PRT\tP\tnull\tnull\tnull\t{row}\n");
    }
    file
}

/// PSMs, distinct and unique peptides of two runs: 3 rows, 1,640 and 60 and 20, 2 cells missing.
fn counts() -> String {
    proteins(
        "num_psms_ms_run[2]\tnum_peptides_unique_ms_run[1]\tnum_psms_ms_run[1]\tnum_peptides_distinct_ms_run[1]",
        &["800\t12\t812\t50", "null\t008\t24\t10", "4\t-0\t0\tnull"],
    )
}

/// A file of molecules: 2 rows.
fn molecules() -> String {
    headed("SMH\tidentifier\tcharge\nSML\tC1\t1\nSML\tC2\tnull\n")
}

/// A file with a count below zero in line 13, cell 7.
fn below_zero() -> String {
    let columns = "taxid\tnum_psms_ms_run[1]\tnum_psms_ms_run[2]";
    proteins(columns, &["-9606\t4\t-0", "1\t-1\t2", "1\t2\t-03"])
}

/// The totals of these three.
const COUNTS: [u64; 8] = [1_640, 60, 20, 3, 0, 0, 0, 2];
const MOLECULES: [u64; 8] = [0, 0, 0, 0, 0, 0, 2, 0];

/// What is said of the file with a count below zero, but for its name.
const BELOW_ZERO: &str = "has a count below zero, so it is not counted: `-1` in line 13, cell 7, in the column `num_psms_ms_run[1]` (the first of 2): \
    ask the laboratory for the right count, and `bolfrake edit NAME protein 2 6 COUNT -o NEW` writes a copy with it";

const CSV_HEADS: &str = "kind,name,psms,distinct_peptides,unique_peptides,protein_rows,peptide_rows,psm_rows,small_molecule_rows,missing,reason\n";

const NO_RECORD: &str =
    "is not the record of a tally: name one that --save wrote; an mzTab file is named without --add";

const NO_SUM: &str = "there is no sum without every record that --add names";

/// The record of these totals, as the words of the request have it.
fn record(totals: [u64; 8]) -> Vec<u8> {
    let mut record = vec![66, 0, 0, 0, 1, 0];
    record.extend(totals.iter().flat_map(|total| total.to_le_bytes()));
    record
}

/// A line of the CSV.
fn csv(kind: &str, name: &str, totals: [u64; 8], reason: &str) -> String {
    let totals = totals.map(|total| total.to_string()).join(",");
    format!("{kind},{name},{totals},{reason}\n")
}

/// A line of the CSV of what is left out.
fn csv_left_out(kind: &str, name: &str, reason: &str) -> String {
    let mark = if reason.contains(',') { "\"" } else { "" };
    format!("{kind},{name}{},{mark}{reason}{mark}\n", ",".repeat(8))
}

/// The totals of JSON.
fn json(totals: [u64; 8]) -> String {
    let names = CSV_HEADS.trim().split(',').skip(2);
    let fields = names.zip(totals);
    let fields: Vec<String> = fields
        .map(|(name, total)| format!("\"{name}\": {total}"))
        .collect();
    fields.join(", ")
}

fn sum_of(a: [u64; 8], b: [u64; 8]) -> [u64; 8] {
    let mut sum = a;
    for (total, other) in sum.iter_mut().zip(b) {
        *total += other;
    }
    sum
}

fn read(folder: &Folder, name: &str) -> Vec<u8> {
    fs::read(folder.0.join(name)).unwrap()
}

/// A folder with the three files, each by the first letter of what it has.
fn files(name: &str) -> Folder {
    let folder = Folder::new(name);
    folder
        .write("c.mztab", counts())
        .write("m.mztab", molecules())
        .write("z.mztab", below_zero());
    folder
}

#[test]
fn a_table() {
    let folder = files("tally");
    let run = folder.run(&["tally", "c.mztab", "m.mztab"]);
    let expected = "                         \
                         distinct    unique  protein  peptide   psm  small-molecule  missing
file               PSMs  peptides  peptides     rows     rows  rows            rows    cells
c.mztab           1,640        60        20        3        0     0               0        2
m.mztab               0         0         0        0        0     0               2        0
sum over 2 files  1,640        60        20        3        0     0               2        2
";
    assert_eq!(
        (run.status, run.out.as_str(), run.error.as_str()),
        (0, expected, "")
    );
    let run = folder.run(&["tally", "--format=text", "c.mztab", "m.mztab"]);
    assert_eq!(run.out, expected);
}

#[test]
fn a_table_with_files_that_are_left_out() {
    let folder = files("tally left out");
    folder.write("x.mztab", headed("x\n"));
    let run = folder.run(&["tally", "m.mztab", "x.mztab", "z.mztab", "c.mztab"]);
    let expected = "                              \
                              distinct    unique  protein  peptide   psm  small-molecule  missing
file                    PSMs  peptides  peptides     rows     rows  rows            rows    cells
m.mztab                    0         0         0        0        0     0               2        0
x.mztab                    -         -         -        -        -     -               -        -
z.mztab                    -         -         -        -        -     -               -        -
c.mztab                1,640        60        20        3        0     0               0        2
sum over 2 of 4 files  1,640        60        20        3        0     0               2        2
";
    let said = format!(
        "bolfrake: x.mztab is not accepted, it has 1 break, so it is not counted: `bolfrake check x.mztab` shows it\nbolfrake: z.mztab {}\n",
        BELOW_ZERO.replace("NAME", "z.mztab")
    );
    assert_eq!(
        (run.status, run.out.as_str(), run.error),
        (1, expected, said)
    );
}

#[test]
fn as_csv() {
    let folder = files("tally csv");
    folder
        .write("a,b.mztab", counts())
        .write("j", record([7; 8]));
    let words = [
        "tally",
        "--format",
        "csv",
        "a,b.mztab",
        "m.mztab",
        "--add",
        "j",
    ];
    let run = folder.run(&words);
    let sum = sum_of(sum_of(COUNTS, MOLECULES), [7; 8]);
    let mut expected = CSV_HEADS.to_string();
    expected += &csv("file", "\"a,b.mztab\"", COUNTS, "");
    expected += &csv("file", "m.mztab", MOLECULES, "");
    expected += &csv("record", "j", [7; 8], "");
    expected += &csv("sum", "", sum, "");
    assert_eq!((run.status, run.out, run.error.as_str()), (0, expected, ""));
}

#[test]
fn as_csv_with_files_that_are_left_out() {
    let folder = files("tally csv left out");
    folder.write("j", record([7; 8]));
    let words = [
        "tally",
        "--format=csv",
        "e.mztab",
        "c.mztab",
        "--add",
        "j",
        "z.mztab",
    ];
    let run = folder.write("e.mztab", "").run(&words);
    let broken = "is not accepted, it has 5 breaks, so it is not counted: `bolfrake check e.mztab` shows them";
    let below = BELOW_ZERO.replace("NAME", "z.mztab");
    let mut expected = CSV_HEADS.to_string();
    expected += &csv_left_out("file", "e.mztab", broken);
    expected += &csv("file", "c.mztab", COUNTS, "");
    expected += &csv_left_out("file", "z.mztab", &below);
    expected += &csv("record", "j", [7; 8], "");
    let over = "\"over 1 of 3 files, 1 record\"";
    expected += &csv("sum", "", sum_of(COUNTS, [7; 8]), over);
    let said = format!("bolfrake: e.mztab {broken}\nbolfrake: z.mztab {below}\n");
    assert_eq!((run.status, run.out, run.error), (1, expected, said));
}

#[test]
fn as_json() {
    let folder = files("tally json");
    folder.write("j", record([7; 8]));
    let words = [
        "tally", "c.mztab", "no.mztab", "z.mztab", "--format", "json",
    ];
    let run = folder.run(&[&words[..], &["--add", "j"]].concat());
    let below = BELOW_ZERO.replace("NAME", "z.mztab");
    let expected = format!(
        r#"{{"files": [
  {{"file": "c.mztab", "status": "counted", {}}},
  {{"file": "no.mztab", "status": "left out", "number": null, "reason": "cannot be read (No such file or directory (os error 2)): check the name, or the folder that you are in"}},
  {{"file": "z.mztab", "status": "left out", "number": 12, "reason": "{below}"}}
], "records": [
  {{"record": "j", "status": "counted", {}}}
], "sum": {{{}}}, "reason": null, "counted": 1, "of": 3, "written": null}}
"#,
        json(COUNTS),
        json([7; 8]),
        json(sum_of(COUNTS, [7; 8]))
    );
    assert_eq!((run.status, run.out), (2, expected));
    let run = folder.run(&["tally", "--add", "j", "--format", "json", "--save", "k"]);
    assert!(run.out.starts_with("{\"files\": [], \"records\": [\n"));
    let ending = "\"reason\": null, \"counted\": 0, \"of\": 0, \"written\": \"k\"}\n";
    assert!(run.out.ends_with(ending), "{}", run.out);
}

#[test]
fn files_of_a_folder() {
    let folder = Folder::new("tally folder");
    folder
        .write("d/b.mzTab", molecules())
        .write("d/a.mztab", counts())
        .write("d/c/z.MZTAB", counts())
        .write("d/june.tally", record([7; 8]));
    let run = folder.run(&["tally", "--format", "csv", "d"]);
    let mut expected = CSV_HEADS.to_string();
    expected += &csv("file", "d/a.mztab", COUNTS, "");
    expected += &csv("file", "d/b.mzTab", MOLECULES, "");
    expected += &csv("file", "d/c/z.MZTAB", COUNTS, "");
    let sum = sum_of(sum_of(COUNTS, COUNTS), MOLECULES);
    expected += &csv("sum", "", sum, "");
    assert_eq!((run.status, run.out, run.error.as_str()), (0, expected, ""));
    // One that stands in a folder and is named too, by whatever path, is taken again, and so are records.
    let words = ["tally", "d", "./d/b.mzTab", "--add", "d/june.tally"];
    let run = folder.run(&[&words[..], &["--add", "d/c/../june.tally"]].concat());
    assert_eq!(run.status, 0);
    let last = "sum over 4 files, 2 records  3,294       134        54       20       14    14              18       18\n";
    assert!(run.out.ends_with(last), "{}", run.out);
    assert_eq!(run.error, "bolfrake: ./d/b.mzTab was named before, and is taken again\nbolfrake: d/c/../june.tally was named before, and is taken again\n");
    let run = folder.run(&["tally", "d/c", "e"]);
    assert_eq!(run.status, 2);
    folder.write("e/n.txt", "");
    let run = folder.run(&["tally", "e"]);
    let expected = "bolfrake: e has no file whose name ends in .mztab: name the file itself\n";
    assert_eq!((run.status, run.error.as_str()), (2, expected));
}

#[test]
fn files_that_cannot_be_counted() {
    let folder = files("tally unread");
    folder.write("long.mztab", vec![b'\n'; LIMIT + 1]);
    let run = folder.run(&[
        "tally",
        "long.mztab",
        "c.mztab",
        "no.mztab",
        "--format",
        "json",
    ]);
    assert_eq!(run.status, 2);
    let said: Vec<&str> = run.error.lines().collect();
    let words = "is longer than 16,777,216 bytes, so it is not judged: write its sections, or parts of its rows, to files of their own";
    assert_eq!(said[0], format!("bolfrake: long.mztab {words}"));
    assert!(said[1].starts_with("bolfrake: no.mztab cannot be read ("));
    assert_eq!(said.len(), 2);
    let long = format!("{{\"file\": \"long.mztab\", \"status\": \"left out\", \"number\": 1, \"reason\": \"{words}\"}}");
    assert!(run.out.contains(&long), "{}", run.out);
    // What breaks a rule is told as such, a count below zero in it or not.
    folder.write("b.mztab", below_zero() + "x\n");
    let run = folder.run(&["tally", "b.mztab"]);
    assert_eq!((run.status, run.error.as_str()), (1, "bolfrake: b.mztab is not accepted, it has 1 break, so it is not counted: `bolfrake check b.mztab` shows it\n"));
    assert!(run.out.contains("\nsum over 0 of 1 file  "), "{}", run.out);
}

#[test]
fn a_count_below_zero_is_mended_as_it_is_told() {
    let folder = Folder::new("tally below zero");
    let columns = "num_peptides_unique_ms_run[2]\tnum_psms_ms_run[1]";
    folder.write(
        "z.mztab",
        proteins(columns, &["1\t2", "3\t-007", "5\tnull"]),
    );
    let run = folder.run(&["tally", "z.mztab"]);
    let expected = "bolfrake: z.mztab has a count below zero, so it is not counted: `-007` in line 13, cell 7, in the column `num_psms_ms_run[1]`: \
        ask the laboratory for the right count, and `bolfrake edit z.mztab protein 2 6 COUNT -o NEW` writes a copy with it\n";
    assert_eq!((run.status, run.error.as_str()), (1, expected));
    let words = expected.split('`').rev().nth(1).unwrap();
    let words = words.replace("COUNT", "7").replace("NEW", "n.mztab");
    let words: Vec<&str> = words.split(' ').skip(1).collect();
    assert_eq!(folder.run(&words).status, 0);
    let run = folder.run(&["tally", "n.mztab", "--format", "csv"]);
    assert_eq!(run.status, 0);
    let expected = csv("sum", "", [9, 0, 9, 3, 0, 0, 0, 1], "");
    assert!(run.out.ends_with(&expected), "{}", run.out);
}

#[test]
fn cells_that_are_missing() {
    let folder = Folder::new("tally missing");
    let columns = "num_psms_ms_run[1]\tnum_peptides_distinct_ms_run[2]\topt_num_psms_ms_run[1]";
    let rows = ["null\tnull\tnull", "5\tnull\t900", "-0\t000000007\tnull"];
    folder.write("n.mztab", proteins(columns, &rows));
    folder.write("h.mztab", HEAD);
    let run = folder.run(&["tally", "n.mztab", "h.mztab", "--format", "csv"]);
    let mut expected = CSV_HEADS.to_string();
    expected += &csv("file", "n.mztab", [5, 7, 0, 3, 0, 0, 0, 3], "");
    expected += &csv("file", "h.mztab", [0; 8], "");
    expected += &csv("sum", "", [5, 7, 0, 3, 0, 0, 0, 3], "");
    assert_eq!((run.status, run.out), (0, expected));
}

#[test]
fn a_sum_that_is_kept_and_added() {
    let folder = files("tally save");
    let run = folder.run(&["tally", "c.mztab", "m.mztab", "--save", "june"]);
    assert_eq!((run.status, run.error.as_str()), (0, ""));
    let ending = "  2        2\njune was written: 70 bytes\n";
    assert!(run.out.ends_with(ending), "{}", run.out);
    let june = sum_of(COUNTS, MOLECULES);
    assert_eq!(read(&folder, "june"), record(june));
    assert_eq!(folder.names(), ["c.mztab", "june", "m.mztab", "z.mztab"]);
    // The next month beside it, and the two as a quarter.
    let run = folder.run(&["tally", "m.mztab", "--add", "june", "--save=both"]);
    assert_eq!(run.status, 0);
    assert!(
        run.out.contains("\njune                       1,640 "),
        "{}",
        run.out
    );
    assert!(
        run.out.contains("\nsum over 1 file, 1 record  1,640 "),
        "{}",
        run.out
    );
    assert_eq!(read(&folder, "both"), record(sum_of(june, MOLECULES)));
    // With CSV what was written is said beside it.
    let words = [
        "tally", "--add", "both", "--save", "copy", "--format", "csv",
    ];
    let run = folder.run(&words);
    let expected = format!(
        "{CSV_HEADS}{}{}",
        csv("record", "both", sum_of(june, MOLECULES), ""),
        csv("sum", "", sum_of(june, MOLECULES), "")
    );
    assert_eq!(
        (run.status, run.out, run.error.as_str()),
        (0, expected, "copy was written: 70 bytes\n")
    );
    assert_eq!(read(&folder, "copy"), read(&folder, "both"));
}

#[test]
fn a_quarter_of_three_records_in_any_order() {
    let folder = Folder::new("tally quarter");
    let june = [u64::MAX >> 1, 2, 3, 4, 5, 6, 7, 8];
    folder
        .write("april", record(COUNTS))
        .write("may", record(MOLECULES))
        .write("june", record(june));
    let quarter = record(sum_of(sum_of(COUNTS, MOLECULES), june));
    for (k, names) in [
        ["april", "may", "june"],
        ["april", "june", "may"],
        ["may", "april", "june"],
        ["may", "june", "april"],
        ["june", "april", "may"],
        ["june", "may", "april"],
    ]
    .iter()
    .enumerate()
    {
        let new = format!("quarter {k}");
        let mut words = vec!["tally", "--save", &new];
        words.extend(names.iter().flat_map(|name| ["--add", name]));
        let run = folder.run(&words);
        assert_eq!((run.status, run.error.as_str()), (0, ""));
        let lines = run.out.lines().skip(2).zip(names);
        for (line, name) in lines {
            assert!(line.starts_with(name), "{line}");
        }
        assert!(run.out.contains("\nsum over 3 records  "), "{}", run.out);
        assert_eq!(read(&folder, &new), quarter);
    }
}

/// Records of two totals that together pass 64 bits, one of them the largest that there is.
fn large_records(name: &str) -> Folder {
    let folder = files(name);
    folder
        .write("most", record([u64::MAX, 0, 0, 0, 0, 0, 0, 0]))
        .write("one", record([1, 0, 0, 0, 0, 0, 0, 0]))
        .write("other", record([0, u64::MAX, 0, 0, 0, 0, 0, 0]));
    folder
}

#[test]
fn the_largest_total() {
    let folder = large_records("tally largest");
    let run = folder.run(&["tally", "--add", "most", "--add", "other"]);
    assert_eq!(run.status, 0);
    let line =
        "\nsum over 2 records  18,446,744,073,709,551,615  18,446,744,073,709,551,615         0 ";
    assert!(run.out.contains(line), "{}", run.out);
    let words = ["tally", "--add", "most", "m.mztab", "--format"];
    for (format, expected) in [
        ("csv", "\nsum,,18446744073709551615,0,0,0,0,0,2,0,\n"),
        ("json", "\"sum\": {\"psms\": 18446744073709551615, "),
    ] {
        let run = folder.run(&[&words[..], &[format]].concat());
        assert!(run.out.contains(expected), "{}", run.out);
    }
}

/// That the sum passes 64 bits with what has this name.
fn past_64_bits(name: &str) -> String {
    format!(
        "there is no sum: with {name} a total is over 64 bits, more than 18,446,744,073,709,551,615: \
        look whether the records are right, or save the sum in two parts"
    )
}

#[test]
fn a_sum_past_64_bits() {
    let folder = large_records("tally past 64 bits");
    folder.write("later", record([u64::MAX; 8]));
    let records = [
        "--add", "other", "--add", "most", "--add", "one", "--add", "later",
    ];
    let run = folder.run(&[&["tally", "--save", "n"], &records[..]].concat());
    assert_eq!(run.status, 1);
    let last = run.out.lines().last().unwrap();
    let dashes = last.strip_prefix("no sum").unwrap().split_whitespace();
    assert_eq!(dashes.collect::<Vec<_>>(), ["-"; 8]);
    // The first that passes is named.
    let expected = format!(
        "bolfrake: {}\nbolfrake: nothing was saved: there is no sum\n",
        past_64_bits("one")
    );
    assert_eq!(run.error, expected);
    assert!(!folder.names().contains(&"n".to_string()));
}

#[test]
fn a_sum_past_64_bits_for_programs() {
    let folder = large_records("tally past 64 bits for programs");
    let reason = past_64_bits("most");
    let words = ["tally", "c.mztab", "--add", "most", "--format"];
    let run = folder.run(&[&words[..], &["csv"]].concat());
    let expected = csv_left_out("sum", "", &reason);
    assert!(run.out.ends_with(&expected), "{}", run.out);
    assert_eq!(run.error, format!("bolfrake: {reason}\n"));
    let run = folder.run(&[&words[..], &["json"]].concat());
    let expected = format!(
        "], \"sum\": null, \"reason\": \"{reason}\", \"counted\": 1, \"of\": 1, \"written\": null}}\n"
    );
    assert_eq!(run.status, 1);
    assert!(run.out.ends_with(&expected), "{}", run.out);
}

#[test]
fn records_that_are_none() {
    let folder = files("tally no record");
    let good = record([7; 8]);
    let mut kind = good.clone();
    kind[4] = 2;
    folder
        .write("good", &good)
        .write("kind", kind)
        .write("empty", "");
    folder.write("short", &good[..RECORD - 1]);
    folder.write("longer", [&good[..], b"\n"].concat());
    folder.write("huge", vec![0; LIMIT + 1]);
    for name in ["kind", "empty", "short", "longer", "huge", "c.mztab"] {
        let words = [
            "tally", "c.mztab", "--add", "good", "--add", name, "--save", "n",
        ];
        let run = folder.run(&words);
        assert_eq!(run.status, 2);
        let again = match name {
            "c.mztab" => "bolfrake: c.mztab was named before, and is taken again\n",
            _ => "",
        };
        let expected = format!("{again}bolfrake: {name} {NO_RECORD}\nbolfrake: {NO_SUM}\nbolfrake: nothing was saved: there is no sum\n");
        assert_eq!(run.error, expected);
        assert!(run.out.lines().last().unwrap().starts_with("no sum "));
        assert!(!folder.names().contains(&"n".to_string()));
    }
}

#[test]
fn records_that_are_none_for_programs() {
    let folder = files("tally no record for programs");
    folder.write("kind", [0; RECORD]);
    let run = folder.run(&["tally", "--add", "kind", "c.mztab", "--format", "csv"]);
    let expected = CSV_HEADS.to_string()
        + &csv("file", "c.mztab", COUNTS, "")
        + &csv_left_out("record", "kind", NO_RECORD)
        + &csv_left_out("sum", "", NO_SUM);
    assert_eq!((run.status, run.out), (2, expected));
    let run = folder.run(&["tally", "--add", "kind", "--format", "json"]);
    let expected = format!(
        "{{\"files\": [], \"records\": [\n  {{\"record\": \"kind\", \"status\": \"left out\", \"number\": 14, \"reason\": \"{NO_RECORD}\"}}\n], \
        \"sum\": null, \"reason\": \"{NO_SUM}\", \"counted\": 0, \"of\": 0, \"written\": null}}\n"
    );
    assert_eq!(run.out, expected);
}

#[test]
fn records_that_cannot_be_read() {
    let folder = files("tally unread record");
    for (name, words) in [
        ("no", "no cannot be read (No such file or directory (os error 2)): check the name, or the folder that you are in"),
        (".", ". is a folder: name a file in it"),
    ] {
        let run = folder.run(&["tally", "c.mztab", "--add", name]);
        let expected = format!("bolfrake: {words}\nbolfrake: {NO_SUM}\n");
        assert_eq!((run.status, run.error), (2, expected));
    }
}

#[test]
fn a_record_in_the_place_of_a_file() {
    let folder = files("tally record as file");
    folder.write("june", record([7; 8]));
    let run = folder.run(&["tally", "c.mztab", "june"]);
    let expected =
        "bolfrake: june is the record of a tally, and no mzTab file: name it after --add\n";
    assert_eq!((run.status, run.error.as_str()), (1, expected));
    assert!(
        run.out.contains("\nsum over 1 of 2 files  1,640 "),
        "{}",
        run.out
    );
}

/// A record does not say what it lacks, so one of a month that lacks a file is not written.
#[test]
fn a_sum_that_lacks_a_file_is_not_kept() {
    let folder = files("tally lacking");
    folder.write("old", "old").write("e.mztab", "");
    for (lacking, status) in [("e.mztab", 1), ("z.mztab", 1), ("no.mztab", 2)] {
        for words in [
            &["--save", "n"][..],
            &["--save", "old", "--force"],
            &["--save", "-"],
        ] {
            let run = folder.run(&[&["tally", "c.mztab", lacking], words].concat());
            assert_eq!(run.status, status);
            assert!(
                run.out.contains("\nsum over 1 of 2 files  1,640 "),
                "{}",
                run.out
            );
            let last = run.error.lines().last().unwrap();
            assert_eq!(last, "bolfrake: nothing was saved: the sum is over 1 of 2 files, and a record does not say what it lacks: \
                mend the files that are left out, or name the others alone");
            assert!(!run.out.contains("written"), "{}", run.out);
        }
    }
    assert_eq!(read(&folder, "old"), b"old");
    let names = ["c.mztab", "e.mztab", "m.mztab", "old", "z.mztab"];
    assert_eq!(folder.names(), names);
}

#[test]
fn a_record_over_a_file_that_exists() {
    let folder = files("tally over");
    folder.write("n", "old");
    for format in ["text", "csv", "json"] {
        let words = ["tally", "c.mztab", "--save", "n", "--format", format];
        let run = folder.run(&words);
        let expected = "bolfrake: n exists: name another file, or say --force to write over it\n";
        assert_eq!(
            (run.status, run.out.as_str(), run.error.as_str()),
            (2, "", expected)
        );
        assert_eq!(read(&folder, "n"), b"old");
    }
    let path = folder.0.join("n");
    fs::set_permissions(&path, fs::Permissions::from_mode(0o640)).unwrap();
    let run = folder.run(&["tally", "c.mztab", "--save", "n", "--force"]);
    assert_eq!((run.status, run.error.as_str()), (0, ""));
    assert_eq!(read(&folder, "n"), record(COUNTS));
    let mode = fs::metadata(&path).unwrap().permissions().mode() & 0o777;
    assert_eq!(mode, 0o640);
    // A month that is added to what is kept, in its place.
    let run = folder.run(&["tally", "c.mztab", "--add", "n", "--save", "n", "--force"]);
    assert_eq!(run.status, 0);
    assert_eq!(read(&folder, "n"), record(sum_of(COUNTS, COUNTS)));
    assert_eq!(folder.names(), ["c.mztab", "m.mztab", "n", "z.mztab"]);
}

#[test]
fn records_that_cannot_be_written() {
    let folder = files("tally unwritten");
    folder.write("d/x", "");
    for (new, words) in [
        ("none/n", "none/n cannot be written (No such file or directory (os error 2)): make its folder first, or name another\n"),
        ("d", "d is a folder: name a file in it\n"),
        ("", "`` names no file: name one\n"),
    ] {
        let run = folder.run(&["tally", "c.mztab", "--save", new]);
        assert_eq!((run.status, run.out.as_str()), (2, ""));
        assert_eq!(run.error, format!("bolfrake: {words}"));
    }
    assert_eq!(folder.names(), ["c.mztab", "d", "m.mztab", "z.mztab"]);
}

#[test]
fn from_standard_input_and_to_standard_output() {
    let folder = files("tally streams");
    let run = folder.run_with_input(
        &["tally", "-", "m.mztab", "--format", "csv"],
        counts().as_bytes(),
    );
    let expected = csv("file", "-", COUNTS, "");
    assert!(run.out.contains(&expected), "{}", run.out);
    let mut command = folder.command(&["tally", "c.mztab", "--save", "-"]);
    let output = command.stdin(Stdio::null()).output().unwrap();
    assert_eq!(
        (output.status.code(), &output.stdout),
        (Some(0), &record(COUNTS))
    );
    let said = String::from_utf8(output.stderr).unwrap();
    assert!(
        said.ends_with("\nthe record was written to standard output: 70 bytes\n"),
        "{said}"
    );
    assert!(said.contains("\nsum over 1 file  1,640 "), "{said}");
    let words = ["tally", "m.mztab", "--add", "-", "--save", "n"];
    let run = folder.run_with_input(&words, &output.stdout);
    assert_eq!(run.status, 0);
    assert_eq!(read(&folder, "n"), record(sum_of(COUNTS, MOLECULES)));
}

#[test]
fn names_of_odd_bytes() {
    let folder = Folder::new("tally names");
    let name = |bytes: &'static [u8]| OsStr::from_bytes(bytes);
    let (file, new) = (name(b"a\xff\x1b.mztab"), name(b"n\xfe"));
    fs::write(folder.0.join(file), counts()).unwrap();
    folder.write("=1+1.mztab", molecules());
    let mut command = folder.command(&["tally", "=1+1.mztab"]);
    command.args([file, OsStr::new("--save"), new]);
    let run = Run::of(command.stdin(Stdio::null()).output().unwrap());
    assert_eq!((run.status, run.error.as_str()), (0, ""));
    assert!(
        run.out.contains("\na\\xFF\\x1B.mztab   1,640 "),
        "{}",
        run.out
    );
    assert!(
        run.out.ends_with("\nn\\xFE was written: 70 bytes\n"),
        "{}",
        run.out
    );
    let mut command = folder.command(&["tally", "--format", "json", "--add"]);
    let run = Run::of(command.arg(new).stdin(Stdio::null()).output().unwrap());
    assert_eq!(run.status, 0);
    assert!(
        run.out.contains("{\"record\": \"n\\\\xFE\", "),
        "{}",
        run.out
    );
    folder.write("--add", counts());
    let run = folder.run(&["tally", "--format=csv", "--", "--add"]);
    assert!(
        run.out.contains(&csv("file", "--add", COUNTS, "")),
        "{}",
        run.out
    );
}

#[test]
fn a_reader_that_leaves_early() {
    let folder = files("tally pipe");
    for format in ["text", "csv", "json"] {
        let words = ["tally", "c.mztab", "--format", format, "--save", format];
        let mut command = folder.command(&words);
        command.stdout(Stdio::piped()).stderr(Stdio::piped());
        let mut child = command.spawn().unwrap();
        drop(child.stdout.take());
        let run = Run::of(child.wait_with_output().unwrap());
        assert_eq!((run.status, run.error.as_str()), (141, ""));
        // What was to be kept is kept.
        assert_eq!(read(&folder, format), record(COUNTS));
    }
}

#[test]
fn many_files_in_the_order_of_the_arguments() {
    let folder = Folder::new("tally many");
    let mut words = vec!["tally".to_string(), "--format=csv".to_string()];
    let mut expected = CSV_HEADS.to_string();
    let mut sum = Tally::default();
    for k in 0..150_u64 {
        let name = format!("{}.mztab", k * 7919 % 150);
        let count = k * k * 1_000;
        let rows = vec![count.to_string(); k as usize % 40];
        let rows: Vec<&str> = rows.iter().map(String::as_str).collect();
        folder.write(&name, proteins("num_psms_ms_run[2]", &rows));
        let tally = Tally {
            psms: Psms(count * rows.len() as u64),
            rows: [rows.len() as u64, 0, 0, 0],
            ..Tally::default()
        };
        sum = sum.add(tally).unwrap();
        expected += &csv("file", &name, tally.totals(), "");
        words.push(name);
    }
    expected += &csv("sum", "", sum.totals(), "");
    let words: Vec<&str> = words.iter().map(String::as_str).collect();
    let run = folder.run(&words);
    assert_eq!((run.status, run.out), (0, expected));
}

/// The rows of the accepted ones are those that `rows` counts.
#[test]
fn files_as_programs_export_them() {
    let folder = Folder::new("tally exports");
    for (k, export) in EXPORTS.iter().enumerate() {
        folder.write(&format!("{k}.mztab"), export.file);
    }
    let run = folder.run(&["tally", ".", "--format", "csv"]);
    assert_eq!(run.status, 1);
    let lines: Vec<&str> = run.out.lines().skip(1).collect();
    assert_eq!(lines.len(), EXPORTS.len() + 1);
    for (k, export) in EXPORTS.iter().enumerate() {
        let fields: Vec<&str> = lines[k].splitn(11, ',').collect();
        if export.judged.trim() != "OK" {
            assert!(fields[2..10].iter().all(|field| field.is_empty()));
            assert!(fields[10].contains("is not accepted"));
            continue;
        }
        let rows = folder.run(&["rows", "--format", "csv", &format!("{k}.mztab")]);
        let counted: Vec<&str> = (rows.out.lines().skip(1))
            .map(|line| line.split(',').nth(3).unwrap())
            .collect();
        assert_eq!((&fields[5..9], fields[10]), (&counted[..], ""));
    }
    assert!(lines[EXPORTS.len()].ends_with(",over 2 of 4 files"));
}

#[test]
fn no_colour_on_a_terminal() {
    let folder = files("tally terminal");
    match on_a_terminal(&folder, "tally c.mztab") {
        None => println!("there is no `script` here: a terminal was not tested"),
        Some(out) => {
            let plain = folder.run(&["tally", "c.mztab"]).out;
            assert_eq!(out.replace("\r\n", "\n"), plain);
        }
    }
}
