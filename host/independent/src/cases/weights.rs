//! Files with the rows of their sections and their weights, written by hand.

use super::tabs;

pub struct Case {
    pub label: &'static str,
    pub file: Vec<u8>,
    /// The rows of sections 1 to 4.
    pub rows: [u32; 4],
    /// The weights of study variables 1 to 64; nothing for a file that is not
    /// accepted.
    pub weights: Option<Vec<u32>>,
}

impl Case {
    /// The lines that the mode `weights` prints for it: sections 0 and 5 are
    /// refused with 2, a file that is not accepted with 7, a list that has not
    /// 64 places with 15. A refused list holds 9 in each place.
    pub fn printed(&self) -> String {
        let [p, e, s, m] = self.rows;
        let rows = format!("rows 2 0 0 {p} 0 {e} 0 {s} 0 {m} 2 0\n");
        let nines =
            |number: u32, places: usize| format!("weights {number}{}\n", " 9".repeat(places));
        let lists = match &self.weights {
            None => nines(7, 64) + &nines(7, 63) + &nines(7, 65),
            Some(weights) => {
                let words: Vec<String> = weights.iter().map(u32::to_string).collect();
                format!("weights 0 {}\n", words.join(" ")) + &nines(15, 63) + &nines(15, 65)
            }
        };
        rows + &lists + ".\n"
    }
}

/// The required metadata, and lines that declare study variables 1, 2 and 3. Of
/// an Identification file rule 22 asks for the least.
const HEAD: &str = "MTD→mzTab-version→1.0\n\
    MTD→mzTab-mode→Summary\n\
    MTD→mzTab-type→Identification\n\
    MTD→description→Yeast\n\
    MTD→ms_run[1]-location→a\n\
    MTD→fixed_mod[1]→[,,f,]\n\
    MTD→variable_mod[1]→[,,v,]\n\
    MTD→protein_search_engine_score[1]→[,,a,]\n";
const VARIABLES: &str = "MTD→study_variable[1]-description→a\n\
    MTD→study_variable[2]-description→b\n\
    MTD→study_variable[3]-description→c\n";

/// The scores of the other sections, which rule 22 asks for with them.
const OTHER_SCORES: &str = "MTD→peptide_search_engine_score[1]→[,,a,]\n\
    MTD→psm_search_engine_score[1]→[,,a,]\n\
    MTD→smallmolecule_search_engine_score[1]→[,,a,]\n";

/// The required columns of each section, and cells under them.
const PH: &str = "PRH→accession→description→database→search_engine";
const PR: &str = "PRT→Y1→null→db→null";
const EH: &str = "PEH→sequence→accession→charge→mass_to_charge";
const ER: &str = "PEP→AB→Y1→2→10.5";
const SH: &str = "PSH→sequence→PSM_ID→accession→charge→spectra_ref";
const SR: &str = "PSM→AB→1→Y1→2→ms_run[1]:index=5";
const MH: &str = "SMH→identifier→charge";
const MR: &str = "SML→CID:1→1";

/// The columns of study variables 1, 2 and 3.
const V1: &str = "protein_abundance_study_variable[1]";
const V2: &str = "protein_abundance_study_variable[2]";
const V3: &str = "protein_abundance_study_variable[3]";

struct Cases {
    list: Vec<Case>,
}

impl Cases {
    /// An accepted file: study variables and their weights, the others zero.
    fn whole(
        &mut self,
        label: &'static str,
        file: impl AsRef<[u8]>,
        rows: [u32; 4],
        some: Weighed,
    ) {
        let mut weights = vec![0; 64];
        for (i, weight) in some {
            weights[*i - 1] = *weight;
        }
        self.list.push(Case {
            label,
            file: tabs(file),
            rows,
            weights: Some(weights),
        });
    }

    /// The same under eleven lines of metadata.
    fn headed(
        &mut self,
        label: &'static str,
        rest: impl AsRef<str>,
        rows: [u32; 4],
        some: Weighed,
    ) {
        let file = format!("{HEAD}{VARIABLES}{}", rest.as_ref());
        self.whole(label, file, rows, some);
    }

    /// The same, a protein table alone: its columns and the cells under them
    /// beside the required ones, so many rows.
    fn table(&mut self, label: &'static str, columns: &str, rows: &[&str], some: Weighed) {
        let rest = table(columns, rows);
        self.headed(label, rest, [rows.len() as u32, 0, 0, 0], some);
    }

    /// A file that breaks a rule.
    fn broken(&mut self, label: &'static str, file: impl AsRef<[u8]>, rows: [u32; 4]) {
        self.list.push(Case {
            label,
            file: tabs(file),
            rows,
            weights: None,
        });
    }

    /// The same under eleven lines of metadata.
    fn headed_broken(&mut self, label: &'static str, rest: impl AsRef<str>, rows: [u32; 4]) {
        let file = format!("{HEAD}{VARIABLES}{}", rest.as_ref());
        self.broken(label, file, rows);
    }
}

/// Study variables and their weights.
type Weighed<'a> = &'a [(usize, u32)];

fn table(columns: &str, rows: &[&str]) -> String {
    let mut out = format!("{PH}→{columns}\n");
    for row in rows {
        out += &format!("{PR}→{row}\n");
    }
    out
}

pub fn all() -> Vec<Case> {
    let mut c = Cases { list: Vec::new() };
    without_weights(&mut c);
    values(&mut c);
    columns(&mut c);
    other_columns(&mut c);
    all_64(&mut c);
    lines_between(&mut c);
    line_ends(&mut c);
    other_sections(&mut c);
    not_accepted(&mut c);
    rows_of_broken_files(&mut c);
    c.list
}

fn without_weights(c: &mut Cases) {
    c.whole("metadata alone", HEAD, [0; 4], &[]);
    c.headed("study variables without a table", "", [0; 4], &[]);
    c.headed(
        "no such column",
        format!("{PH}\n{PR}\n{PR}\n"),
        [2, 0, 0, 0],
        &[],
    );
    c.headed("a header alone", format!("{PH}\n"), [0; 4], &[]);
    c.table("such columns and no rows", &format!("{V1}→{V2}"), &[], &[]);
    c.headed(
        "no protein section",
        format!("{OTHER_SCORES}{EH}\n{ER}\n{SH}\n{SR}\n{SR}\n{MH}\n{MR}\n{MR}\n{MR}\n"),
        [0, 1, 2, 3],
        &[],
    );
    c.table("null alone", V1, &["null", "null", "null"], &[]);
}

fn values(c: &mut Cases) {
    c.table("one value", V1, &["1.5"], &[(1, 1)]);
    c.table(
        "values and null",
        V1,
        &["1.5", "null", "2", "null", "3"],
        &[(1, 3)],
    );
    c.table("the first is null", V1, &["null", "1"], &[(1, 1)]);
    c.table("the last is null", V1, &["1", "null"], &[(1, 1)]);
    // Nothing but `null` is missing: zero counts, and what is no number.
    c.table(
        "zeros",
        V1,
        &["0", "0.0", "-0.0", "-0", "00", "null"],
        &[(1, 5)],
    );
    c.table(
        "INF and NaN",
        V1,
        &["INF", "NaN", "null", "INF", "null"],
        &[(1, 3)],
    );
    c.table(
        "signs and many digits",
        V1,
        &[
            "-1",
            "-12.5",
            "123456789012345678901234567890",
            "0.000000000000000000001",
            "null",
        ],
        &[(1, 4)],
    );
    // `null` in another cell of the row is of no account.
    c.headed(
        "null elsewhere",
        format!(
            "{PH}→taxid→{V1}→opt_x\nPRT→Y1→null→null→null→null→7→null\n\
             PRT→Y2→null→null→null→null→8→null\nPRT→Y3→d→db→null→9606→null→x\n"
        ),
        [3, 0, 0, 0],
        &[(1, 2)],
    );
    c.headed(
        "a row's own values elsewhere",
        format!("{PH}→{V1}→opt_x→opt_y\n{PR}→null→1.5→2\n{PR}→null→3→null\n"),
        [2, 0, 0, 0],
        &[],
    );
}

fn columns(c: &mut Cases) {
    c.table(
        "three columns",
        &format!("{V1}→{V2}→{V3}"),
        &["1→null→1", "2→2→null", "null→null→3", "4→4→4", "5→null→5"],
        &[(1, 4), (2, 2), (3, 4)],
    );
    c.table(
        "in another order",
        &format!("{V3}→{V1}→{V2}"),
        &["1→null→null", "2→2→null", "3→null→null", "4→4→4"],
        &[(1, 2), (2, 1), (3, 4)],
    );
    c.table("one of three", V2, &["1", "null", "1"], &[(2, 2)]);
    c.table(
        "the first and the last",
        &format!("{V3}→{V1}"),
        &["null→1", "null→2"],
        &[(1, 2)],
    );
    c.headed(
        "before the required ones",
        format!(
            "PRH→{V2}→search_engine→{V1}→database→description→accession→{V3}\n\
             PRT→1→null→null→db→null→Y1→3\nPRT→2→[,,a,]→null→db→null→Y2→null\n\
             PRT→null→null→9→db→null→Y3→5\n"
        ),
        [3, 0, 0, 0],
        &[(1, 1), (2, 2), (3, 2)],
    );
    c.headed(
        "the column comes first",
        format!(
            "PRH→{V1}→accession→description→database→search_engine\n\
             PRT→null→1→1→1→[,,a,]\nPRT→1→Y→null→null→null\n"
        ),
        [2, 0, 0, 0],
        &[(1, 1)],
    );
    // Indices of one and of two digits.
    c.whole(
        "indices 1, 6, 9, 10, 16, 60, 61 and 64",
        format!(
            "{HEAD}MTD→study_variable[64]-description→a\nMTD→study_variable[1]-description→a\n\
             MTD→study_variable[6]-description→a\nMTD→study_variable[61]-description→a\n\
             MTD→study_variable[16]-description→a\nMTD→study_variable[60]-description→a\n\
             MTD→study_variable[9]-description→a\nMTD→study_variable[10]-description→a\n\
             {PH}→protein_abundance_study_variable[61]→protein_abundance_study_variable[6]→\
             protein_abundance_study_variable[64]→protein_abundance_study_variable[1]→\
             protein_abundance_study_variable[16]→protein_abundance_study_variable[60]→\
             protein_abundance_study_variable[10]→protein_abundance_study_variable[9]\n\
             {PR}→1→null→1→1→null→null→1→null\n{PR}→1→null→1→1→null→null→null→1\n\
             {PR}→1→null→1→1→1→null→1→null\n{PR}→1→2→1→null→1→null→1→null\n\
             {PR}→1→null→1→null→null→null→1→1\n{PR}→1→null→null→null→null→null→1→null\n"
        ),
        [6, 0, 0, 0],
        &[(1, 3), (6, 1), (9, 2), (10, 5), (16, 2), (61, 6), (64, 5)],
    );
    c.whole(
        "declared by their references",
        format!(
            "{HEAD}MTD→study_variable[7]-assay_refs→assay[1]\n\
             MTD→study_variable[8]-sample_refs→sample[1]\nMTD→sample[1]-description→s\n\
             MTD→assay[1]-ms_run_ref→ms_run[1]\n\
             {PH}→protein_abundance_study_variable[7]→protein_abundance_study_variable[8]\n\
             {PR}→1→null\n{PR}→1→1\n"
        ),
        [2, 0, 0, 0],
        &[(7, 2), (8, 1)],
    );
}

/// Columns whose names are near, or hold the name.
fn other_columns(c: &mut Cases) {
    c.headed(
        "deviations and errors alone",
        format!(
            "{PH}→protein_abundance_stdev_study_variable[1]→\
             protein_abundance_std_error_study_variable[1]→protein_coverage\n\
             {PR}→1→1→1\n{PR}→2→2→2\n"
        ),
        [2, 0, 0, 0],
        &[],
    );
    c.whole(
        "deviations, errors and assays beside it",
        format!(
            "{HEAD}{VARIABLES}MTD→assay[1]-ms_run_ref→ms_run[1]\n\
             {PH}→protein_abundance_assay[1]→protein_abundance_stdev_study_variable[1]→{V1}→\
             protein_abundance_std_error_study_variable[1]→\
             protein_abundance_stdev_study_variable[2]\n\
             {PR}→1→1→null→1→1\n{PR}→null→null→5→null→null\n{PR}→1→1→null→1→1\n"
        ),
        [3, 0, 0, 0],
        &[(1, 1)],
    );
    c.headed(
        "optional columns whose names hold it",
        format!(
            "{PH}→{V1}→opt_{V1}→opt_{V2}→opt_global_{V3}→opt_{V3}_x\n\
             {PR}→null→1→1→1→1\n{PR}→7→x→null→a b→1\n{PR}→null→2→3→null→4\n"
        ),
        [3, 0, 0, 0],
        &[(1, 1)],
    );
    c.headed(
        "optional columns alone",
        format!("{PH}→opt_{V1}→opt_\u{e9}{V2}\n{PR}→1→2\n{PR}→1→\u{e9}\n"),
        [2, 0, 0, 0],
        &[],
    );
    // A cell that holds the column's name.
    c.headed(
        "the name in a cell",
        format!("{PH}→opt_x→opt_y\nPRT→{V1}→{V1}→{V2}→null→{V1}→{V3}\n"),
        [1, 0, 0, 0],
        &[],
    );
    c.headed(
        "the name in metadata and comments",
        format!("MTD→title→{V1}\nCOM→PRH→{V1}\n{PH}→{V2}\n{PR}→1\nCOM→PRH→{V1}\n"),
        [1, 0, 0, 0],
        &[(2, 1)],
    );
}

/// All 64 columns. In row r, from 0, the study variables above r have a value.
fn all_64(c: &mut Cases) {
    let declared: String = (1..=64)
        .map(|i| format!("MTD→study_variable[{i}]-description→v\n"))
        .collect();
    let rising: Vec<u32> = (1..=64).collect();
    let odd_first: Vec<u32> = (1..=64)
        .filter(|i| i % 2 == 1)
        .chain((1..=64).filter(|i| i % 2 == 0))
        .collect();
    for (label, order, rows) in [
        ("64 columns", &rising, 5),
        ("64 columns, the odd ones first", &odd_first, 4),
    ] {
        let mut file = format!("{HEAD}{declared}{PH}");
        for i in order {
            file += &format!("→protein_abundance_study_variable[{i}]");
        }
        file += "\n";
        for r in 0..rows {
            file += PR;
            for i in order {
                file += if *i > r { "→1" } else { "→null" };
            }
            file += "\n";
        }
        // Variable i has no value in row i and those after it.
        let weights: Vec<(usize, u32)> = (1..=64).map(|i| (i as usize, rows.min(i))).collect();
        c.whole(label, file, [rows, 0, 0, 0], &weights);
    }
    // As wide as a header may be: 256 cells, the last of them optional, and the
    // 64 columns the other way round.
    let mut file = format!("{HEAD}{declared}{PH}");
    for i in (1..=64).rev() {
        file += &format!("→protein_abundance_study_variable[{i}]");
    }
    for k in 0..187 {
        file += &format!("→opt_{k}");
    }
    file += &format!("\n{PR}{}{}\n", "→2".repeat(64), "→null".repeat(187));
    file += &format!("{PR}{}→8{}\n", "→null".repeat(63), "→x".repeat(187));
    let mut weights: Vec<(usize, u32)> = (2..=64).map(|i| (i, 1)).collect();
    weights.push((1, 2));
    c.whole("a header of 256 cells", file, [2, 0, 0, 0], &weights);
}

fn lines_between(c: &mut Cases) {
    c.headed(
        "comments and empty lines between rows",
        format!(
            "\nCOM\n{PH}→{V1}→{V2}\n\n{PR}→1→null\nCOM→x\n{PR}→2→2\n\n\nCOM→{PR}→3→3\n\
             {PR}→null→4\n\r\n{PR}→5→null\n\nCOM→PRT→6\n"
        ),
        [4, 0, 0, 0],
        &[(1, 3), (2, 2)],
    );
    c.whole(
        "comments above the metadata",
        format!("COM→first\n\n{HEAD}\n{VARIABLES}\n{PH}→{V1}\n{PR}→1\n"),
        [1, 0, 0, 0],
        &[(1, 1)],
    );
    c.headed(
        "the same accession twice",
        format!("{PH}→{V1}\n{PR}→1\n{PR}→1\n{PR}→1\n"),
        [3, 0, 0, 0],
        &[(1, 3)],
    );
}

fn line_ends(c: &mut Cases) {
    let file = format!("{HEAD}{VARIABLES}{PH}→{V1}→{V2}\n{PR}→1→null\n{PR}→null→null\n{PR}→2→3\n");
    c.whole(
        "CR LF",
        file.replace('\n', "\r\n"),
        [3, 0, 0, 0],
        &[(1, 2), (2, 1)],
    );
    c.whole(
        "no LF at the end",
        file.trim_end(),
        [3, 0, 0, 0],
        &[(1, 2), (2, 1)],
    );
    c.whole(
        "CR LF and none at the end",
        file.trim_end().replace('\n', "\r\n"),
        [3, 0, 0, 0],
        &[(1, 2), (2, 1)],
    );
    c.headed(
        "null at the end of the file",
        format!("{PH}→{V1}\n{PR}→1\n{PR}→null"),
        [2, 0, 0, 0],
        &[(1, 1)],
    );
    c.headed(
        "null and CR LF, and null with LF alone",
        format!("{PH}→{V1}\r\n{PR}→null\r\n{PR}→null\n{PR}→1\r\n{PR}→1\n"),
        [4, 0, 0, 0],
        &[(1, 2)],
    );
    c.headed(
        "a header at the end of the file",
        format!("{PH}→{V1}"),
        [0; 4],
        &[],
    );
    // CR and no LF at the end: a byte of the cell.
    c.headed_broken(
        "null and CR at the end",
        format!("{PH}→{V1}\n{PR}→null\r"),
        [1, 0, 0, 0],
    );
    c.headed_broken(
        "null, CR and CR LF",
        format!("{PH}→{V1}\n{PR}→null\r\r\n"),
        [1, 0, 0, 0],
    );
}

fn other_sections(c: &mut Cases) {
    c.headed(
        "abundances of peptides and small molecules alone",
        format!(
            "{OTHER_SCORES}{EH}→peptide_abundance_study_variable[1]\n{ER}→1\n{ER}→2\n\
             {MH}→smallmolecule_abundance_study_variable[2]\n{MR}→3\n"
        ),
        [0, 2, 0, 1],
        &[],
    );
    c.headed(
        "abundances of every section",
        format!(
            "{OTHER_SCORES}{PH}→{V2}\n{PR}→1\n{PR}→null\n\
             {EH}→peptide_abundance_study_variable[1]→peptide_abundance_study_variable[2]\n\
             {ER}→1→1\n{ER}→2→2\n{ER}→3→null\n\
             {SH}→opt_{V1}\n{SR}→1\n{SR}→2\n\
             {MH}→smallmolecule_abundance_study_variable[2]→opt_{V3}\n{MR}→3→4\n"
        ),
        [2, 3, 2, 1],
        &[(2, 1)],
    );
    c.headed(
        "the same place in another table",
        format!("{OTHER_SCORES}{PH}→{V1}\n{PR}→null\n{EH}→uri\n{ER}→1\n{ER}→2\n{MH}→uri→opt_uri\n"),
        [1, 2, 0, 0],
        &[],
    );
}

fn not_accepted(c: &mut Cases) {
    c.broken("the empty file", "", [0; 4]);
    c.broken("one LF", "\n", [0; 4]);
    c.broken("a comment alone", "COM", [0; 4]);
    // The metadata is not whole.
    c.broken("no metadata", format!("{PH}\n{PR}\n{PR}\n"), [2, 0, 0, 0]);
    c.broken(
        "no run",
        format!(
            "{}{VARIABLES}{PH}→{V1}\n{PR}→1\n",
            HEAD.replace("MTD→ms_run[1]-location→a\n", "")
        ),
        [1, 0, 0, 0],
    );
    c.broken(
        "no fixed_mod",
        format!(
            "{}{VARIABLES}{PH}→{V1}\n{PR}→1\n",
            HEAD.replace("MTD→fixed_mod[1]→[,,f,]\n", "")
        ),
        [1, 0, 0, 0],
    );
    // Under the column.
    for (label, cell) in [
        ("NULL is not of the kind", "NULL"),
        ("null and a space", "null "),
        ("a space and null", " null"),
        ("NA is not missing", "NA"),
        ("- is not missing", "-"),
        ("an empty cell is not missing", ""),
        ("a text", "x"),
        ("a comma", "1,5"),
    ] {
        c.headed_broken(label, table(V1, &["1", cell]), [2, 0, 0, 0]);
    }
    // The column's name.
    c.headed_broken(
        "an undeclared study variable",
        table("protein_abundance_study_variable[4]", &["1"]),
        [1, 0, 0, 0],
    );
    c.whole(
        "declared, for comparison",
        format!(
            "{HEAD}MTD→study_variable[4]-description→d\n{}",
            table("protein_abundance_study_variable[4]", &["1"])
        ),
        [1, 0, 0, 0],
        &[(4, 1)],
    );
    for (label, name) in [
        ("index 65", "protein_abundance_study_variable[65]"),
        ("index 0", "protein_abundance_study_variable[0]"),
        ("index 01", "protein_abundance_study_variable[01]"),
        ("no index", "protein_abundance_study_variable"),
        ("a capital", "Protein_abundance_study_variable[1]"),
        ("a space after", "protein_abundance_study_variable[1] "),
        ("peptide's column", "peptide_abundance_study_variable[1]"),
    ] {
        c.headed_broken(label, table(name, &["1", "null"]), [2, 0, 0, 0]);
    }
    c.headed_broken(
        "the same column twice",
        table(&format!("{V1}→{V1}"), &["1→1"]),
        [1, 0, 0, 0],
    );
    c.headed_broken(
        "after an optional one",
        table(&format!("opt_x→{V1}"), &["1→1"]),
        [1, 0, 0, 0],
    );
    // A break elsewhere.
    c.headed_broken(
        "an unknown line",
        format!("{}xyz\n", table(V1, &["1"])),
        [1, 0, 0, 0],
    );
    c.headed_broken(
        "metadata after the table",
        format!("{}MTD→title→t\n", table(V1, &["1", "2"])),
        [2, 0, 0, 0],
    );
    c.headed_broken(
        "a break in another section",
        format!("{OTHER_SCORES}{}{EH}\n{ER}→x\n", table(V1, &["1", "2"])),
        [2, 1, 0, 0],
    );
    c.headed_broken(
        "null as accession",
        format!("{PH}→{V1}\nPRT→null→null→db→null→1\n"),
        [1, 0, 0, 0],
    );
    c.headed_broken(
        "a control byte",
        format!("{PH}→{V1}\nPRT→Y\u{1}→null→db→null→1\n"),
        [1, 0, 0, 0],
    );
}

/// "whatever breaks the file has"
fn rows_of_broken_files(c: &mut Cases) {
    c.headed_broken(
        "two headers",
        format!("{PH}→{V1}\n{PR}→1\n{PH}→{V2}\n{PR}→1\n{PR}→1\n"),
        [3, 0, 0, 0],
    );
    c.headed_broken(
        "rows before their header",
        format!("{OTHER_SCORES}{PR}→1\n{ER}\n{PH}→{V1}\n{PR}→1\n"),
        [2, 1, 0, 0],
    );
    c.headed_broken(
        "another header between",
        format!("{OTHER_SCORES}{PH}→{V1}\n{PR}→1\n{EH}\n{ER}\n{PR}→1\n"),
        [2, 1, 0, 0],
    );
    c.headed_broken(
        "fewer cells, more cells",
        format!("{PH}→{V1}\n{PR}\n{PR}→1→2\n{PR}→1\nPRT\nPRT→\n"),
        [5, 0, 0, 0],
    );
    c.broken(
        "rows alone",
        "SML\nPRT\nPSM→x\nPEP→→\nSML→\nPSM\nSML\r\nPSM\r\nPSM",
        [1, 1, 4, 3],
    );
    c.broken(
        "other codes",
        "prt→a\nPrt→b\nPRTx→c\nPR→d\n PRT→e\nPRT →f\n→PRT→g\nCOM→PRT→h\nMTD→PRT→i\nPRH→PRT→j\n",
        [0; 4],
    );
    c.broken("a code with CR at the end", "PRT→a\nPRT\r", [1, 0, 0, 0]);
    c.broken("CR ends no line", "PRT→a\rPRT→b\rPRT\n", [1, 0, 0, 0]);
    c.broken(
        "PSM is a code and PSH another",
        "PSH\nPSM\nPEH\nPEP\nSMH\n",
        [0, 1, 1, 0],
    );
    c.broken(
        "a wide header",
        format!("PRH{}\n{PR}\n", "→x".repeat(256)),
        [1, 0, 0, 0],
    );
}
