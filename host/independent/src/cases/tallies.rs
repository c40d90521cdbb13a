//! Files with their tallies, written by hand.

use super::lines::{EH, ER, MH, MR, PH, PR, SH, SR};
use super::tabs;
use crate::tally::Totals;

pub struct Case {
    pub label: &'static str,
    pub file: Vec<u8>,
    /// The totals, or the number of the refusal.
    pub tally: Result<Totals, u32>,
}

impl Case {
    /// The lines that the mode `tallies` prints for it: number and totals, the
    /// same of the tally added to itself, and the bytes of the record. Of a
    /// refused file the tally is zeros, which can be added and written.
    pub fn printed(&self) -> String {
        let number = self.tally.err().unwrap_or(0);
        let totals = self.tally.unwrap_or([0; 8]);
        let spaced = |totals: Totals| totals.map(|total| format!(" {total}")).concat();
        let bytes = totals.map(|total| format!("{:016x}", total.swap_bytes()));
        format!(
            "{number}{}\n0{}\n420000000100{}\n",
            spaced(totals),
            spaced(totals.map(|total| 2 * total)),
            bytes.concat()
        )
    }
}

/// The required metadata, and lines that declare runs 1, 2 and 3. Of an
/// Identification file rule 22 asks for the least.
const HEAD: &str = "MTD→mzTab-version→1.0\n\
    MTD→mzTab-mode→Summary\n\
    MTD→mzTab-type→Identification\n\
    MTD→description→Yeast\n\
    MTD→fixed_mod[1]→[,,f,]\n\
    MTD→variable_mod[1]→[,,v,]\n\
    MTD→protein_search_engine_score[1]→[,,a,]\n";
const RUNS: &str = "MTD→ms_run[1]-location→a\n\
    MTD→ms_run[2]-location→b\n\
    MTD→ms_run[3]-format→[,,c,]\n";

/// The scores of the other sections, which rule 22 asks for with them.
const OTHER_SCORES: &str = "MTD→peptide_search_engine_score[1]→[,,a,]\n\
    MTD→psm_search_engine_score[1]→[,,a,]\n\
    MTD→smallmolecule_search_engine_score[1]→[,,a,]\n";

/// The columns of the three counters for run 1, and some for runs 2 and 3.
const P1: &str = "num_psms_ms_run[1]";
const P2: &str = "num_psms_ms_run[2]";
const P3: &str = "num_psms_ms_run[3]";
const D1: &str = "num_peptides_distinct_ms_run[1]";
const D2: &str = "num_peptides_distinct_ms_run[2]";
const U1: &str = "num_peptides_unique_ms_run[1]";
const U2: &str = "num_peptides_unique_ms_run[2]";

/// The three counters and the missing cells.
type Counts = [u64; 4];

struct Cases {
    list: Vec<Case>,
}

impl Cases {
    /// A file and its totals, or the number of its refusal.
    fn of(&mut self, label: &'static str, file: impl AsRef<[u8]>, tally: Result<Totals, u32>) {
        let file = tabs(file);
        self.list.push(Case { label, file, tally });
    }

    /// The same under ten lines of metadata.
    fn headed(&mut self, label: &'static str, rest: impl AsRef<str>, tally: Result<Totals, u32>) {
        self.of(label, format!("{HEAD}{RUNS}{}", rest.as_ref()), tally);
    }

    /// The same, a protein table alone: its columns and the cells under them
    /// beside the required ones.
    fn table(&mut self, label: &'static str, columns: &str, rows: &[&str], counts: Counts) {
        let [psms, distinct, unique, missing] = counts;
        let tally = [psms, distinct, unique, rows.len() as u64, 0, 0, 0, missing];
        self.headed(label, table(columns, rows), Ok(tally));
    }

    /// The same with a count below zero.
    fn below_zero(&mut self, label: &'static str, columns: &str, rows: &[&str]) {
        self.headed(label, table(columns, rows), Err(12));
    }

    /// A file under ten lines of metadata that breaks a rule.
    fn broken(&mut self, label: &'static str, rest: impl AsRef<str>) {
        self.headed(label, rest, Err(7));
    }
}

fn table(columns: &str, rows: &[&str]) -> String {
    let mut out = format!("{PH}→{columns}\n");
    for row in rows {
        out += &format!("{PR}→{row}\n");
    }
    out
}

pub fn all() -> Vec<Case> {
    let mut c = Cases { list: Vec::new() };
    without_counts(&mut c);
    counters(&mut c);
    runs(&mut c);
    many_runs(&mut c);
    all_64(&mut c);
    order_of_columns(&mut c);
    other_columns(&mut c);
    names_elsewhere(&mut c);
    zeros(&mut c);
    digits(&mut c);
    missing(&mut c);
    below_zero(&mut c);
    where_below_zero(&mut c);
    below_zero_and_a_break(&mut c);
    below_zero_elsewhere(&mut c);
    lines_between(&mut c);
    line_ends(&mut c);
    sections(&mut c);
    modes_and_types(&mut c);
    no_counts(&mut c);
    no_such_columns(&mut c);
    tables_with_breaks(&mut c);
    files_with_breaks(&mut c);
    c.list
}

fn without_counts(c: &mut Cases) {
    c.headed("metadata alone", "", Ok([0; 8]));
    c.headed("a header alone", format!("{PH}\n"), Ok([0; 8]));
    let file = format!("{PH}\n{PR}\n{PR}\n");
    c.headed("no such column", file, Ok([0, 0, 0, 2, 0, 0, 0, 0]));
    let columns = format!("{P1}→{D1}→{U1}");
    c.table("such columns and no rows", &columns, &[], [0; 4]);
    let file = format!("{OTHER_SCORES}{EH}\n{ER}\n{SH}\n{SR}\n{SR}\n{MH}\n{MR}\n{MR}\n{MR}\n");
    c.headed("no protein section", file, Ok([0, 0, 0, 0, 1, 2, 3, 0]));
}

/// "each a counter of its own"
fn counters(c: &mut Cases) {
    c.table("PSMs alone", P1, &["3", "4"], [7, 0, 0, 0]);
    c.table("distinct peptides alone", D1, &["3", "4"], [0, 7, 0, 0]);
    c.table("unique peptides alone", U1, &["3", "4"], [0, 0, 7, 0]);
    let rows = ["1→20→300", "4→50→600"];
    let columns = format!("{P1}→{D1}→{U1}");
    c.table("all three", &columns, &rows, [5, 70, 900, 0]);
    let columns = format!("{U1}→{P1}→{D1}");
    c.table(
        "all three in another order",
        &columns,
        &rows,
        [70, 900, 5, 0],
    );
    // No rule says that a counter is at most another.
    let columns = format!("{D1}→{U1}");
    c.table(
        "distinct and unique peptides",
        &columns,
        &["0→9"],
        [0, 0, 9, 0],
    );
    let columns = format!("{P1}→{U1}");
    c.table("all but one", &columns, &["2→1", "3→1"], [5, 0, 2, 0]);
    c.headed(
        "the same accession twice",
        format!("{PH}→{P1}\n{PR}→1\n{PR}→1\n{PR}→1\n"),
        Ok([3, 0, 0, 3, 0, 0, 0, 0]),
    );
}

/// "over protein rows and runs"
fn runs(c: &mut Cases) {
    let columns = format!("{P1}→{P2}→{P3}");
    let rows = ["1→10→100", "2→20→200", "3→30→300"];
    c.table("three runs", &columns, &rows, [666, 0, 0, 0]);
    let columns = format!("{P3}→{P1}→{P2}");
    c.table("runs out of order", &columns, &rows, [666, 0, 0, 0]);
    c.table("the second run alone", P2, &["8"], [8, 0, 0, 0]);
    let columns = format!("{P1}→{D2}→{U1}");
    c.table(
        "one run for each counter",
        &columns,
        &["1→2→3"],
        [1, 2, 3, 0],
    );
    let columns = format!("{U2}→{P1}→{D2}→{P2}→{U1}→{D1}");
    let rows = ["1→20→300→40→5→600", "null→0→100→50→null→0"];
    c.table(
        "counters and runs mixed",
        &columns,
        &rows,
        [110, 1_000, 6, 2],
    );
    // Run 3 is declared by its format alone.
    c.table("a run without a location", P3, &["5"], [5, 0, 0, 0]);
}

fn many_runs(c: &mut Cases) {
    let runs = [64, 1, 6, 61, 16, 60, 9, 10];
    let mut file = HEAD.to_string();
    for n in runs {
        file += &format!("MTD→ms_run[{n}]-location→a\n");
    }
    file += PH;
    for n in runs {
        file += &format!("→num_psms_ms_run[{n}]");
    }
    file += "→num_peptides_unique_ms_run[64]\n";
    file += &format!("{PR}→1→10→100→1000→10000→100000→1000000→10000000→7\n");
    file += &format!("{PR}→2→20→200→2000→20000→200000→2000000→20000000→null\n");
    let tally = [33_333_333, 0, 7, 2, 0, 0, 0, 1];
    c.of("indices of one digit and of two", file, Ok(tally));
    c.of(
        "a run declared by its fragmentation method, below others",
        format!(
            "{HEAD}MTD→ms_run[1]-location→a\nMTD→title→t\n\
             MTD→ms_run[40]-fragmentation_method→[,,CID,]\n{PH}→num_psms_ms_run[40]\n{PR}→4\n"
        ),
        Ok([4, 0, 0, 1, 0, 0, 0, 0]),
    );
}

/// All 192 columns: in row r the PSMs of run n are r n, and each run has one
/// distinct peptide and no unique one that is known.
fn all_64(c: &mut Cases) {
    let declared: String = (1..=64)
        .map(|n| format!("MTD→ms_run[{n}]-location→a\n"))
        .collect();
    let mut file = format!("{HEAD}{declared}{PH}");
    for n in (1..=64).rev() {
        file += &format!("→num_psms_ms_run[{n}]→num_peptides_unique_ms_run[{n}]");
    }
    for n in 1..=64 {
        file += &format!("→num_peptides_distinct_ms_run[{n}]");
    }
    let columns = file.clone();
    file += "\n";
    for r in 1..=2 {
        file += PR;
        for n in (1..=64).rev() {
            file += &format!("→{}→null", r * n);
        }
        file += &("→1".repeat(64) + "\n");
    }
    // 1 to 64 add up to 2,080.
    let tally = [3 * 2_080, 128, 0, 2, 0, 0, 0, 128];
    c.of("all columns of 64 runs", file, Ok(tally));
    // As wide as a header may be, 256 cells, and one more.
    for (label, optional, tally) in [
        ("a header of 256 cells", 59, Ok([64, 64, 64, 1, 0, 0, 0, 0])),
        ("a header of 257 cells", 60, Err(7)),
    ] {
        let names: String = (0..optional).map(|k| format!("→opt_{k}")).collect();
        let row = "→1".repeat(192) + &"→null".repeat(optional);
        c.of(label, format!("{columns}{names}\n{PR}{row}\n"), tally);
    }
}

/// "Other columns come in free order."
fn order_of_columns(c: &mut Cases) {
    c.headed(
        "the column comes first",
        format!(
            "PRH→{P1}→accession→description→database→search_engine\n\
             PRT→12→1→1→1→[,,a,]\nPRT→30→Y→null→null→null\n"
        ),
        Ok([42, 0, 0, 2, 0, 0, 0, 0]),
    );
    c.headed(
        "columns between the required ones",
        format!(
            "PRH→{U1}→search_engine→{P2}→database→{D1}→description→accession→{P1}\n\
             PRT→1→null→20→db→300→null→Y1→4000\nPRT→null→null→null→3→null→4→5→6\n"
        ),
        Ok([4_026, 300, 1, 2, 0, 0, 0, 3]),
    );
    let columns = format!("taxid→{P1}→protein_coverage→{D1}→uri→{U1}→go_terms");
    c.table(
        "columns between others",
        &columns,
        &["9606→1→0.5→2→u→3→g", "null→4→null→5→null→6→null"],
        [5, 7, 9, 0],
    );
}

/// Columns whose names are near, or hold the name.
fn other_columns(c: &mut Cases) {
    let columns = "search_engine_score[1]_ms_run[1]→search_engine_score[1]_ms_run[2]";
    let rows = ["5→null", "-6→7"];
    c.table("other columns of runs alone", columns, &rows, [0; 4]);
    let columns = format!(
        "search_engine_score[1]_ms_run[2]→{P2}→search_engine_score[1]_ms_run[1]→{U2}→\
         search_engine_score[2]_ms_run[1]"
    );
    let rows = ["-5→1→null→2→-6", "null→3→NaN→null→INF"];
    c.table(
        "other columns of runs around",
        &columns,
        &rows,
        [4, 0, 2, 1],
    );
    let columns = format!("{P1}→opt_{P1}→opt_{D1}→opt_global_{U1}→opt_{P2}_x");
    let rows = ["1→-5→5→null→7", "null→x→null→-1→-1"];
    c.table(
        "optional columns whose names hold it",
        &columns,
        &rows,
        [1, 0, 0, 1],
    );
    let columns = format!("opt_{P1}→opt_{D1}→opt_{U1}");
    let rows = ["1→2→3", "null→null→-1"];
    c.table("optional columns alone", &columns, &rows, [0; 4]);
    let columns = "best_search_engine_score[1]→taxid→reliability";
    c.table("numbers in other columns", columns, &["1→2→3"], [0; 4]);
}

fn names_elsewhere(c: &mut Cases) {
    c.headed(
        "the name in cells",
        format!("{PH}→uri→{P2}\nPRT→{P1}→{P1}→{D1}→null→{U1}→3\n"),
        Ok([3, 0, 0, 1, 0, 0, 0, 0]),
    );
    c.headed(
        "the name in metadata and comments",
        format!("MTD→title→{P1}\nCOM→PRH→{P1}\n{PH}→{D1}\n{PR}→5\nCOM→PRH→{P1}\n"),
        Ok([0, 5, 0, 1, 0, 0, 0, 0]),
    );
}

/// None of these is below zero.
fn zeros(c: &mut Cases) {
    c.table("zeros", P1, &["0", "00", "000000000"], [0; 4]);
    c.table("-0", P1, &["-0"], [0; 4]);
    c.table("-000", D1, &["5", "-000", "6"], [0, 11, 0, 0]);
    c.table("-000000000", U1, &["-000000000"], [0; 4]);
    let columns = format!("{P1}→{D1}→{U1}");
    c.table("-0 in every column", &columns, &["-0→-0→-0"], [0; 4]);
}

fn digits(c: &mut Cases) {
    c.table("leading zeros", P1, &["007", "000000020"], [27, 0, 0, 0]);
    c.table(
        "every digit",
        P1,
        &["123456789", "0"],
        [123_456_789, 0, 0, 0],
    );
    let most = ["999999999"; 5];
    c.table("past 32 bits", P1, &most, [4_999_999_995, 0, 0, 0]);
    let columns = format!("{U1}→{U2}→{D1}→{D2}→{P1}→{P2}");
    let row = ["999999999"; 6].join("→");
    c.table(
        "all past 32 bits",
        &columns,
        &[row.as_str(); 3],
        [5_999_999_994, 5_999_999_994, 5_999_999_994, 0],
    );
    // The sum is 2 to the 32nd, and one less.
    let rows = [
        "999999999",
        "999999999",
        "999999999",
        "999999999",
        "294967300",
    ];
    c.table("the sum is 4294967296", P1, &rows, [4_294_967_296, 0, 0, 0]);
    let columns = format!("{D1}→{D2}");
    let rows = ["999999999→999999999", "999999999→999999999", "294967299→0"];
    c.table(
        "the sum is 4294967295",
        &columns,
        &rows,
        [0, 4_294_967_295, 0, 0],
    );
}

/// "missing cells met in those columns"
fn missing(c: &mut Cases) {
    c.table("null alone", P1, &["null", "null", "null"], [0, 0, 0, 3]);
    let rows = ["1", "null", "20", "null", "300"];
    c.table("counts and null", P1, &rows, [321, 0, 0, 2]);
    let columns = format!("{P1}→{D1}→{U1}");
    let rows = ["null→2→3", "4→null→6", "7→8→null", "null→null→null"];
    c.table("null in every column", &columns, &rows, [11, 10, 9, 6]);
    let columns = format!("{P1}→{P2}→{P3}");
    let rows = ["null→1→null", "null→null→2"];
    c.table("null in several runs", &columns, &rows, [3, 0, 0, 4]);
    // Run 2 has no column: its cells are not there, and not missing.
    c.table("a run without a column", P1, &["1", "2"], [3, 0, 0, 0]);
    let columns = format!("taxid→{P1}→uri→opt_x");
    let rows = ["null→7→null→null", "null→null→null→null"];
    c.table("null in other columns", &columns, &rows, [7, 0, 0, 1]);
}

/// "12 a count below zero"
fn below_zero(c: &mut Cases) {
    c.below_zero("-1", P1, &["-1"]);
    c.below_zero("-007", P1, &["-007"]);
    c.below_zero("-999999999", P1, &["-999999999"]);
    c.below_zero("-000000001", P1, &["-000000001"]);
    c.below_zero("-10", P1, &["-10"]);
    c.below_zero("distinct peptides below zero", D1, &["-1"]);
    c.below_zero("unique peptides below zero", U1, &["-1"]);
    let columns = format!("{P1}→{D1}→{U1}");
    c.below_zero("all below zero", &columns, &["-1→-2→-3", "-4→-5→-6"]);
    // What the others add up to is of no account.
    c.below_zero("a sum above zero", P1, &["1000", "-1", "1000"]);
    c.below_zero("a sum of zero", P1, &["1", "-1"]);
}

fn where_below_zero(c: &mut Cases) {
    c.below_zero("in the first row", P1, &["-1", "2", "3"]);
    c.below_zero("in the last row", P1, &["1", "2", "-3"]);
    let columns = format!("{P1}→{P2}→{D1}→{U1}→opt_x");
    c.below_zero("in the second run", &columns, &["1→-1→1→1→1"]);
    c.below_zero("in the last counter", &columns, &["1→1→1→-1→1"]);
    c.below_zero("among null", &columns, &["null→null→-1→null→null"]);
    c.below_zero("after -0", P1, &["-0", "-1"]);
    let file = format!("{PH}→{P1}\n{PR}→4\n{PR}→-4");
    c.headed("at the very end", file, Err(12));
    let file =
        format!("PRH→{D2}→accession→description→database→search_engine\nPRT→-1→Y→d→b→null\n");
    c.headed("in the first column", file, Err(12));
    c.of(
        "in run 64",
        format!(
            "{HEAD}{RUNS}MTD→ms_run[64]-location→z\n{}",
            table("num_peptides_unique_ms_run[64]", &["1", "-1"])
        ),
        Err(12),
    );
    let file = format!(
        "{OTHER_SCORES}{}{EH}\n{ER}\n{MH}\n{MR}\n",
        table(P1, &["-1"])
    );
    c.headed("with other sections below", file, Err(12));
}

/// "1, 7, then 12": 7 where there is a break, wherever it is.
fn below_zero_and_a_break(c: &mut Cases) {
    let below = table(P1, &["-1"]);
    c.broken("a break below", format!("{below}xyz\n"));
    c.broken("a break above", format!("MTD→title→\n{below}"));
    c.broken("a break in the same row", table(P1, &["-1→2"]));
    let columns = format!("{P1}→{D1}");
    c.broken("a break in the next cell", table(&columns, &["-1→x"]));
    c.broken("a break in the cell before", table(&columns, &["1.5→-1"]));
    let file = format!("{HEAD}{below}");
    c.of("metadata that is not whole", file, Err(7));
}

/// Numbers below zero that are no counts.
fn below_zero_elsewhere(c: &mut Cases) {
    let columns = format!("taxid→{P1}→protein_coverage");
    c.table(
        "below zero in other columns",
        &columns,
        &["-9606→5→-0.5", "-1→null→-1"],
        [5, 0, 0, 1],
    );
    let file = format!(
        "{OTHER_SCORES}{}{EH}→opt_{P1}\nPEP→AB→Y1→-2→-10.5→-3\n\
         {MH}→taxid\nSML→CID:1→-1→-2\n",
        table(P1, &["6"])
    );
    c.headed(
        "below zero in other sections",
        file,
        Ok([6, 0, 0, 1, 1, 0, 1, 0]),
    );
    c.headed(
        "below zero in a comment",
        format!("{PH}→{P1}\nCOM→{PR}→-1\n{PR}→1\nCOM→PRT→-1\n"),
        Ok([1, 0, 0, 1, 0, 0, 0, 0]),
    );
    // A minus that is no sign of a number.
    c.table(
        "a minus in an optional column",
        &format!("{P1}→opt_-1"),
        &["1→-1"],
        [1, 0, 0, 0],
    );
}

fn lines_between(c: &mut Cases) {
    c.headed(
        "comments and empty lines between rows",
        format!(
            "\nCOM\n{PH}→{P1}→{U1}\n\n{PR}→1→null\nCOM→x\n{PR}→20→2\n\n\nCOM→{PR}→3→3\n\
             {PR}→null→40\n\r\n{PR}→500→null\n\nCOM→PRT→6\n"
        ),
        Ok([521, 0, 42, 4, 0, 0, 0, 3]),
    );
    c.of(
        "comments above the metadata",
        format!("COM→first\n\n{HEAD}\n{RUNS}\n{}", table(P1, &["1"])),
        Ok([1, 0, 0, 1, 0, 0, 0, 0]),
    );
    c.headed(
        "runs declared below others, and titles between",
        format!(
            "MTD→title→t\n\nMTD→ms_run[5]-location→e\nCOM\n{}",
            table("num_psms_ms_run[5]", &["5"])
        ),
        Ok([5, 0, 0, 1, 0, 0, 0, 0]),
    );
}

fn line_ends(c: &mut Cases) {
    let columns = format!("{D1}→{P1}");
    let rows = ["100→1", "null→null", "200→20"];
    let file = format!("{HEAD}{RUNS}{}", table(&columns, &rows));
    let tally = Ok([21, 300, 0, 3, 0, 0, 0, 2]);
    c.of("CR LF", file.replace('\n', "\r\n"), tally);
    c.of("no LF at the end", file.trim_end(), tally);
    let with_cr = file.trim_end().replace('\n', "\r\n");
    c.of("CR LF and none at the end", with_cr, tally);
    let file = format!("{PH}→{P1}\n{PR}→1\n{PR}→null");
    c.headed("null at the very end", file, Ok([1, 0, 0, 2, 0, 0, 0, 1]));
    let file = format!("{PH}→{P1}\r\n{PR}→null\r\n{PR}→null\n{PR}→3\r\n{PR}→4\n");
    c.headed("CR LF and LF by turns", file, Ok([7, 0, 0, 4, 0, 0, 0, 2]));
    let file = format!("{PH}→{P1}");
    c.headed("a header at the very end", file, Ok([0; 8]));
    // CR and no LF at the end: a byte of the cell.
    c.broken("a count and CR at the end", format!("{PH}→{P1}\n{PR}→1\r"));
    c.broken("null, CR and CR LF", format!("{PH}→{P1}\n{PR}→null\r\r\n"));
}

/// "rows per section"
fn sections(c: &mut Cases) {
    let proteins = table(P1, &["1", "2"]);
    let others = format!("{EH}\n{ER}\n{ER}\n{ER}\n{SH}\n{SR}\n{SR}\n{SR}\n{SR}\n{MH}\n{MR}\n");
    let file = format!("{OTHER_SCORES}{proteins}{others}");
    c.headed("rows of every section", file, Ok([3, 0, 0, 2, 3, 4, 1, 0]));
    let file = format!("{OTHER_SCORES}{PH}→{P1}\n{EH}\n{SH}\n{SR}\n{MH}\n");
    c.headed("headers without rows", file, Ok([0, 0, 0, 0, 0, 1, 0, 0]));
    for (label, table, rows) in [
        (
            "peptides alone",
            format!("{EH}\n{ER}\n{ER}\n"),
            [0, 2, 0, 0],
        ),
        (
            "PSMs without proteins",
            format!("{SH}\n{SR}\n"),
            [0, 0, 1, 0],
        ),
        (
            "small molecules alone",
            format!("{MH}\n{MR}\n{MR}\n{MR}"),
            [0, 0, 0, 3],
        ),
    ] {
        let [p, e, s, m] = rows;
        let file = format!("{OTHER_SCORES}{table}");
        c.headed(label, file, Ok([0, 0, 0, p, e, s, m, 0]));
    }
    // Cell 6 of a peptide row stands below the counts of the proteins.
    let file = format!(
        "{OTHER_SCORES}{proteins}{EH}→uri\n{ER}→7\n{ER}→null\n{MH}→uri→smiles→species→opt_{P1}\n\
         {MR}→5→5→5→-5\n"
    );
    c.headed(
        "the same place in other tables",
        file,
        Ok([3, 0, 0, 2, 2, 0, 1, 0]),
    );
    let file = format!("{OTHER_SCORES}{proteins}{SH}→opt_{P1}→opt_{D1}\n{SR}→8→null\n");
    c.headed(
        "such optional columns of PSMs",
        file,
        Ok([3, 0, 0, 2, 0, 1, 0, 0]),
    );
}

/// What rule 22 asks for is there.
fn modes_and_types(c: &mut Cases) {
    let rest = format!("{OTHER_SCORES}{}{SH}\n{SR}\n", table(P1, &["5", "null"]));
    let more = "MTD→software[1]→[,,s,]\nMTD→quantification_method→[,,q,]\n\
        MTD→protein-quantification_unit→[,,u,]\n";
    for (label, without, mode, kind) in [
        (
            "Complete Identification",
            "without software",
            "Complete",
            "Identification",
        ),
        (
            "Summary Quantification",
            "without a unit",
            "Summary",
            "Quantification",
        ),
        (
            "Complete Quantification",
            "without a method",
            "Complete",
            "Quantification",
        ),
    ] {
        let head = HEAD
            .replace("Summary", mode)
            .replace("Identification", kind);
        let tally = Ok([5, 0, 0, 2, 0, 1, 0, 1]);
        c.of(label, format!("{head}{RUNS}{more}{rest}"), tally);
        c.of(without, format!("{head}{RUNS}{rest}"), Err(7));
    }
}

/// Cells that are not of the kind, below a count that is.
fn no_counts(c: &mut Cases) {
    for (label, cell) in [
        ("NULL is not missing", "NULL"),
        ("null and a space", "null "),
        ("NA is not missing", "NA"),
        ("a minus alone", "-"),
        ("an empty cell", ""),
        ("a text", "x"),
        ("a decimal", "1.0"),
        ("an exponent", "1E3"),
        ("ten digits", "1234567890"),
        ("ten digits, most of them zeros", "0000000001"),
        ("a plus", "+1"),
        ("two minus", "--1"),
        ("a minus behind", "1-"),
        ("a minus and a space", "- 1"),
        ("a comma", "1,000"),
        ("INF", "INF"),
    ] {
        c.broken(label, table(P1, &["1", cell]));
    }
}

/// Names that are no such column, or may not stand there.
fn no_such_columns(c: &mut Cases) {
    for (label, name) in [
        ("an undeclared run", "num_psms_ms_run[4]"),
        ("index 0", "num_psms_ms_run[0]"),
        ("index 01", "num_psms_ms_run[01]"),
        ("index 65", "num_psms_ms_run[65]"),
        ("no index", "num_psms_ms_run"),
        ("an empty index", "num_psms_ms_run[]"),
        ("a capital", "Num_psms_ms_run[1]"),
        ("a space after", "num_psms_ms_run[1] "),
        ("without a run", "num_psms"),
        ("an assay", "num_psms_assay[1]"),
        ("peptides of no sort", "num_peptides_ms_run[1]"),
        (
            "the words the other way round",
            "num_distinct_peptides_ms_run[1]",
        ),
    ] {
        c.broken(label, table(name, &["1", "null"]));
    }
    c.broken(
        "the column twice",
        table(&format!("{P1}→{D1}→{P1}"), &["1→1→1"]),
    );
    c.broken(
        "after an optional one",
        table(&format!("opt_x→{P1}"), &["1→1"]),
    );
    let file = format!("{OTHER_SCORES}{EH}→{P1}\n{ER}→1\n");
    c.broken("in the peptide section", file);
    let file = format!("{OTHER_SCORES}{SH}→{U1}\n{SR}→1\n");
    c.broken("in the PSM section", file);
    let file = format!("{OTHER_SCORES}{MH}→{D1}\n{MR}→1\n");
    c.broken("in the small molecule section", file);
}

/// Breaks in tables that have counts.
fn tables_with_breaks(c: &mut Cases) {
    let file = format!("{PH}→{P1}\n{PR}→1\n{PR}\n{PR}→1→2\n");
    c.broken("fewer cells, more cells", file);
    let file = format!("{PH}→{P1}\n{PR}→1\n{PH}→{D1}\n{PR}→1\n");
    c.broken("two headers", file);
    let file = format!("{PR}→1\n{PH}→{P1}\n{PR}→1\n");
    c.broken("a row above its header", file);
    let file = format!("{OTHER_SCORES}{PH}→{P1}\n{PR}→1\n{EH}\n{ER}\n{PR}→1\n");
    c.broken("another header between", file);
    let file = format!("{PH}→{P1}\nPRT→null→null→db→null→1\n");
    c.broken("null as accession", file);
    let file = format!("{PH}→{P1}\nPRT→Y\u{1}→null→db→null→1\n");
    c.broken("a control byte", file);
    let file = format!("PRH→accession→description→database→{P1}\nPRT→Y→d→b→1\n");
    c.broken("a required column absent", file);
    let file = format!("{OTHER_SCORES}{}{EH}\n{ER}→x\n", table(P1, &["1"]));
    c.broken("a break in another section", file);
}

fn files_with_breaks(c: &mut Cases) {
    c.of("the empty file", "", Err(7));
    c.of("one LF", "\n", Err(7));
    c.of("a comment alone", "COM", Err(7));
    c.of("rows alone", "PRT\nPEP\nPSM\nSML\n", Err(7));
    let example = "MTD→mzTab-version→1.0.0\nMTD→mzTab-mode→Summary\n\
        MTD→mzTab-type→Identification\nMTD→description→Yeast check\n\
        MTD→ms_run[1]-location→file:///a.mzML\n\n\
        PRH→accession→description→database→search_engine→num_psms_ms_run[2]\n\
        PRT→Y1→null→db→null→\nPRT→null→x→db→null→4\n";
    c.of("the paper's example", example, Err(7));
    let file = table(P1, &["1"]);
    c.of("no run", format!("{HEAD}{file}"), Err(7));
    c.of("no metadata", file.clone(), Err(7));
    c.broken("metadata after the table", format!("{file}MTD→title→t\n"));
    c.broken("an unknown line", format!("{file}prt→1\n"));
    let other = RUNS.replace("ms_run[1]", "ms_run[7]");
    c.of(
        "another run declared",
        format!("{HEAD}{other}{file}"),
        Err(7),
    );
    let fixed = HEAD.replace("MTD→fixed_mod[1]→[,,f,]\n", "");
    c.of("no fixed_mod", format!("{fixed}{RUNS}{file}"), Err(7));
}
