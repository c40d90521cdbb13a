//! Files with the breaks of each of their lines, written by hand.

use super::tabs;
use crate::Break;

pub struct Case {
    pub label: &'static str,
    pub file: Vec<u8>,
    /// How many lines the file has: the N of "1 to N".
    pub count: u32,
    /// The breaks of lines 1 to N. A line that has none here breaks nothing; the
    /// breaks on line N + 1 are left out, since no call for one line answers them.
    pub breaks: Vec<Break>,
}

impl Case {
    /// What is answered of a line: its breaks, or 3 for "no such line".
    pub fn answer(&self, line: u32) -> Result<Vec<Break>, u32> {
        if line == 0 || line > self.count {
            return Err(3);
        }
        let own = self.breaks.iter().filter(|at| at.line == line);
        Ok(own.copied().collect())
    }

    /// The lines that the mode `lines` prints for it: line 0, those of the file,
    /// and the first that is refused after them.
    pub fn printed(&self) -> String {
        let mut out = String::new();
        for line in 0..=self.count + 1 {
            let (number, breaks) = match self.answer(line) {
                Ok(breaks) => (0, breaks),
                Err(number) => (number, Vec::new()),
            };
            out += &format!("line {line}: {number} {}", breaks.len());
            // A list of ten places has room for two breaks.
            let shown = breaks.len().min(2);
            for at in &breaks[..shown] {
                out += &format!(" {} {} {} {}", at.rule, at.line, at.cell, at.first);
            }
            out += &" 9".repeat(10 - 4 * shown);
            out += "\n";
        }
        out + ".\n"
    }
}

/// A plain header and a plain row of each section.
pub(super) const PH: &str = "PRH→accession→description→database→search_engine";
pub(super) const PR: &str = "PRT→Y1→null→db→null";
pub(super) const EH: &str = "PEH→sequence→accession→charge→mass_to_charge";
pub(super) const ER: &str = "PEP→AB→Y1→2→10.5";
pub(super) const SH: &str = "PSH→sequence→PSM_ID→accession→charge→spectra_ref";
pub(super) const SR: &str = "PSM→AB→1→Y1→2→ms_run[1]:index=5";
pub(super) const MH: &str = "SMH→identifier→charge";
pub(super) const MR: &str = "SML→CID:1→1";

/// The columns that a peptide header needs beside in Quantification.
pub(super) const QUANTIFIED: &str = "modifications→retention_time→retention_time_window";

/// Lines with a mode and a type.
const MODE: &str = "MTD→mzTab-mode→Summary";
const QUANTIFICATION: &str = "MTD→mzTab-type→Quantification";
const IDENTIFICATION: &str = "MTD→mzTab-type→Identification";

/// Line, cell, rule and where it was first.
type Fours<'a> = &'a [(u32, u32, u32, u32)];

struct Cases {
    list: Vec<Case>,
}

impl Cases {
    /// A file of so many lines and all breaks on them; an arrow is a tab.
    fn of(&mut self, label: &'static str, count: u32, file: impl AsRef<[u8]>, breaks: Fours) {
        let place = |&(line, cell, rule, first): &(u32, u32, u32, u32)| Break {
            line,
            cell,
            rule,
            first,
        };
        self.list.push(Case {
            label,
            file: tabs(file),
            count,
            breaks: breaks.iter().map(place).collect(),
        });
    }
}

pub fn all() -> Vec<Case> {
    let mut c = Cases { list: Vec::new() };
    few_lines(&mut c);
    line_ends(&mut c);
    comments_and_codes(&mut c);
    metadata_lines(&mut c);
    keys_again(&mut c);
    ids_below(&mut c);
    ids_not_declared(&mut c);
    values_and_versions(&mut c);
    type_below(&mut c);
    type_that_does_not_count(&mut c);
    headers_again(&mut c);
    headers_and_rows(&mut c);
    wide_headers(&mut c);
    names_in_headers(&mut c);
    columns_and_ids_below(&mut c);
    rows_without_their_header(&mut c);
    rows_by_the_nearest_header(&mut c);
    cells_of_rows(&mut c);
    rows_and_control_bytes(&mut c);
    line_after_the_last(&mut c);
    whole_files(&mut c);
    c.list
}

fn few_lines(c: &mut Cases) {
    c.of("the empty file has no line", 0, "", &[]);
    c.of("one line, empty", 1, "\n", &[]);
    c.of("one line of one byte", 1, "x", &[(1, 1, 2, 0)]);
    c.of("one line of a tab", 1, "→", &[(1, 1, 2, 0)]);
    c.of("one comment", 1, "COM", &[]);
    c.of("one row", 1, "SML→a→1", &[(1, 1, 17, 0)]);
    c.of("one header", 1, MH, &[]);
    c.of("one metadata line", 1, "MTD→title→a", &[]);
    c.of("three empty lines", 3, "\n\n\n", &[]);
    let file = format!("{}x", "\n".repeat(19));
    c.of("the twentieth line", 20, file, &[(20, 1, 2, 0)]);
}

fn line_ends(c: &mut Cases) {
    c.of("CR LF alone is an empty line", 1, "\r\n", &[]);
    let cr = &[(1, 1, 1, 0), (1, 1, 2, 0)];
    c.of("a CR alone is a line", 1, "\r", cr);
    c.of("one CR before LF is the end's", 1, "\r\r\n", cr);
    c.of(
        "a CR after the last LF is a line",
        2,
        "\n\r",
        &[(2, 1, 1, 0), (2, 1, 2, 0)],
    );
    let both = &[(1, 1, 2, 0), (2, 1, 2, 0)];
    c.of("a last line without LF", 2, "x\nx", both);
    c.of("lines that end with CR LF", 2, "x\r\nx\r\n", both);
    c.of(
        "a last line that ends with CR alone",
        2,
        "x\r\nx\r",
        &[(1, 1, 2, 0), (2, 1, 1, 0), (2, 1, 2, 0)],
    );
    c.of("a CR within", 1, "MTD→title→a\rb\n", &[(1, 3, 1, 0)]);
    let file = format!("{MH}\r\nSML→a→\r\n");
    c.of("an empty cell before CR LF", 2, file, &[(2, 3, 19, 0)]);
    let file = format!("{MH}\nSML→a→");
    c.of("an empty cell at the very end", 2, file, &[(2, 3, 19, 0)]);
    let file = format!("{MH}\r\nSML→a→1\r");
    c.of(
        "a last cell with its CR",
        2,
        file,
        &[(2, 3, 1, 0), (2, 3, 20, 0)],
    );
}

fn comments_and_codes(c: &mut Cases) {
    c.of(
        "comments and empty lines are counted",
        5,
        "\nCOM\n\r\nx\n\n",
        &[(4, 1, 2, 0)],
    );
    c.of(
        "a comment breaks no rule",
        3,
        "COM→\u{1}\nCOM\nCOM→PRT→→\n",
        &[],
    );
    c.of(
        "codes near others",
        5,
        "com\nCOM x\n COM\nsml→a\nMTDs→title→a\n",
        &[
            (1, 1, 2, 0),
            (2, 1, 2, 0),
            (3, 1, 2, 0),
            (4, 1, 2, 0),
            (5, 1, 2, 0),
        ],
    );
    c.of(
        "an unknown code with a control byte in a later cell",
        2,
        "\nZZZ→a→\u{7f}→\u{1}\n",
        &[(2, 1, 2, 0), (2, 3, 1, 0)],
    );
    let file = format!("{MH}\nZZZ\nCOM→PRH\n\n{MR}\n");
    c.of("no header stands between", 5, file, &[(2, 1, 2, 0)]);
}

fn metadata_lines(c: &mut Cases) {
    c.of(
        "rule 3: not three cells",
        4,
        "MTD\nMTD→title\nMTD→title→a→\nMTD→title→a\n",
        &[(1, 1, 3, 0), (2, 1, 3, 0), (3, 1, 3, 0)],
    );
    let file = format!("MTD→title→a\n{MH}\nMTD→uri[1]→a\n");
    c.of("rule 4: a header above", 3, file, &[(3, 1, 4, 0)]);
    let file = format!("MTD→title→a\nMTD→uri[1]→a\n{MH}\n{MR}\n");
    c.of("rule 4: a header and a row below", 4, file, &[]);
    c.of(
        "rule 4: a row above, with no header",
        3,
        "SML\n\nMTD→title→a\n",
        &[(1, 1, 17, 0), (3, 1, 4, 0)],
    );
    c.of(
        "rule 4: a comment above that names a header",
        2,
        "COM→SMH\nMTD→title→a\n",
        &[],
    );
    let file = format!("{MH}\nMTD→title\nMTD→foo→\u{1}\n");
    c.of(
        "rules 3, 4, 5 and 1 together",
        3,
        file,
        &[
            (2, 1, 3, 0),
            (2, 1, 4, 0),
            (3, 1, 4, 0),
            (3, 2, 5, 0),
            (3, 3, 1, 0),
        ],
    );
}

fn keys_again(c: &mut Cases) {
    c.of(
        "rule 6: the first line, not the nearest",
        5,
        "\nMTD→title→a\n\nMTD→title→b\nMTD→title→c\n",
        &[(4, 2, 6, 2), (5, 2, 6, 2)],
    );
    c.of(
        "rule 6: a line of two cells above is none",
        3,
        "MTD→title\nMTD→title→a\nMTD→title→b\n",
        &[(1, 1, 3, 0), (3, 2, 6, 2)],
    );
    c.of(
        "rule 6: two keys by turns",
        4,
        "MTD→title→a\nMTD→uri[1]→a\nMTD→uri[1]→a\nMTD→title→a\n",
        &[(3, 2, 6, 2), (4, 2, 6, 1)],
    );
    let file = format!("MTD→title→a\n{MH}\n{MR}\nMTD→title→\n");
    c.of(
        "rule 6: below a table, and its value empty",
        4,
        file,
        &[(4, 1, 4, 0), (4, 2, 6, 1), (4, 3, 7, 0)],
    );
    c.of(
        "rule 6: a `colunit` key apart",
        2,
        "MTD→colunit-psm→a\nMTD→colunit-psm→a\n",
        &[],
    );
    c.of(
        "rule 6: stopped by rule 5",
        2,
        "MTD→foo→a\nMTD→foo→a\n",
        &[(1, 2, 5, 0), (2, 2, 5, 0)],
    );
}

fn ids_below(c: &mut Cases) {
    c.of(
        "rule 8: the sample is declared below",
        2,
        "MTD→assay[1]-sample_ref→sample[1]\nMTD→sample[1]-description→s\n",
        &[],
    );
    let file = format!("MTD→assay[1]-ms_run_ref→ms_run[2]\n{MH}\n{MR}\nMTD→ms_run[2]-location→a");
    c.of(
        "rule 8: declared on the last line, below a table",
        4,
        file,
        &[(4, 1, 4, 0)],
    );
    c.of(
        "rule 8: declared by a key whose value is wrong",
        2,
        "MTD→assay[1]-ms_run_ref→ms_run[1]\nMTD→ms_run[1]-format→x\n",
        &[(2, 3, 7, 0)],
    );
    c.of(
        "rule 8: a list, one declared above and one below",
        3,
        "MTD→assay[2]-quantification_reagent→[,,a,]\n\
         MTD→study_variable[1]-assay_refs→assay[1], assay[2]\n\
         MTD→assay[1]-quantification_reagent→[,,a,]\n",
        &[],
    );
    c.of(
        "rule 8: declared by its own key",
        2,
        "MTD→study_variable[1]-assay_refs→assay[1]\nMTD→assay[1]-sample_ref→sample[1]\n",
        &[(2, 3, 8, 0)],
    );
}

fn ids_not_declared(c: &mut Cases) {
    c.of(
        "rule 8: another sample below",
        2,
        "MTD→assay[1]-sample_ref→sample[2]\nMTD→sample[1]-description→s\n",
        &[(1, 3, 8, 0)],
    );
    c.of(
        "rule 8: below stands a line of two cells",
        2,
        "MTD→assay[1]-sample_ref→sample[1]\nMTD→sample[1]-description\n",
        &[(1, 3, 8, 0), (2, 1, 3, 0)],
    );
    c.of(
        "rule 8: below stands an unknown key",
        2,
        "MTD→assay[1]-ms_run_ref→ms_run[1]\nMTD→ms_run[1]-foo→x\n",
        &[(1, 3, 8, 0), (2, 2, 5, 0)],
    );
    c.of(
        "rule 8: below stands a comment",
        2,
        "MTD→assay[1]-sample_ref→sample[1]\nCOM→sample[1]-description→s\n",
        &[(1, 3, 8, 0)],
    );
    c.of(
        "rule 8: a key with a bad index declares nothing",
        3,
        "MTD→assay[1]-sample_ref→sample[1]\nMTD→sample[01]-description→s\n\
         MTD→sample[65]-description→s\n",
        &[(1, 3, 8, 0), (2, 2, 23, 0), (3, 2, 24, 0)],
    );
}

fn values_and_versions(c: &mut Cases) {
    c.of(
        "rule 6: the version twice",
        2,
        "MTD→mzTab-version→1.0\nMTD→mzTab-version→1.0.0\n",
        &[(2, 2, 6, 1)],
    );
    c.of(
        "rule 7: a version that is none, and one below",
        3,
        "MTD→mzTab-version→2.0\nMTD→title→a\nMTD→mzTab-version→1.0\n",
        &[(1, 3, 7, 0), (3, 2, 6, 1)],
    );
    c.of(
        "rule 7: a version below a header",
        2,
        "PRH→accession→description→database→search_engine\nMTD→mzTab-version→1.1",
        &[(2, 1, 4, 0), (2, 3, 7, 0)],
    );
    c.of(
        "rule 7: values that are near others",
        4,
        "MTD→mzTab-mode→summary\nMTD→software[1]→[,,]\nMTD→title→\nMTD→description→null\n",
        &[(1, 3, 7, 0), (2, 3, 7, 0), (3, 3, 7, 0)],
    );
    c.of(
        "rules 23 and 24 in values",
        3,
        "MTD→assay[1]-sample_ref→sample[0]\nMTD→assay[2]-sample_ref→sample[65]\n\
         MTD→study_variable[1]-assay_refs→assay[1],assay[065]\n",
        &[(1, 3, 23, 0), (2, 3, 24, 0), (3, 3, 23, 0)],
    );
    c.of(
        "bytes from 128 up",
        2,
        b"MTD\ttitle\t\xff\x80\nMTD\t\xc3\xa9\ta\n",
        &[(2, 2, 5, 0)],
    );
}

fn type_below(c: &mut Cases) {
    let file = format!("{EH}\n{ER}\n{MODE}\n{QUANTIFICATION}\n");
    c.of(
        "rule 16: mode and type stand below",
        4,
        file,
        &[(1, 1, 16, 0), (3, 1, 4, 0), (4, 1, 4, 0)],
    );
    let file = format!("{QUANTIFICATION}\n{EH}\nPEP→AB→Y1→x→\n{MODE}");
    c.of(
        "rule 16: the mode stands below",
        4,
        file,
        &[(2, 1, 16, 0), (3, 4, 20, 0), (3, 5, 19, 0), (4, 1, 4, 0)],
    );
    let file = format!("{EH}→{QUANTIFIED}\n{MODE}\n{QUANTIFICATION}\n");
    c.of(
        "rule 16: the three columns are there",
        3,
        file,
        &[(2, 1, 4, 0), (3, 1, 4, 0)],
    );
    let file = format!("{MODE}\n{QUANTIFICATION}\n{PH}\n{PR}\n{SH}\n{SR}\n{MH}\n{MR}\n");
    c.of("rule 16: of peptide headers alone", 8, file, &[]);
    let file = format!("{EH}\n{MODE}\nMTD→mzTab-type→quantification\n{QUANTIFICATION}\n");
    c.of(
        "rule 16: the first valid type stands last",
        4,
        file,
        &[
            (1, 1, 16, 0),
            (2, 1, 4, 0),
            (3, 1, 4, 0),
            (3, 3, 7, 0),
            (4, 1, 4, 0),
            (4, 2, 6, 3),
        ],
    );
}

fn type_that_does_not_count(c: &mut Cases) {
    let file = format!("{EH}\n{QUANTIFICATION}\n");
    c.of("rule 16: no mode", 2, file, &[(2, 1, 4, 0)]);
    let file = format!("{EH}\n{MODE}\n");
    c.of("rule 16: no type", 2, file, &[(2, 1, 4, 0)]);
    let file = format!("{EH}\n{MODE}\n{QUANTIFICATION}→\n");
    c.of(
        "rule 16: the type on a line of four cells",
        3,
        file,
        &[(2, 1, 4, 0), (3, 1, 3, 0), (3, 1, 4, 0)],
    );
    let file = format!("{EH}\n{MODE}\n{IDENTIFICATION}\n{QUANTIFICATION}\n");
    c.of(
        "rule 16: the first valid type is the other",
        4,
        file,
        &[(2, 1, 4, 0), (3, 1, 4, 0), (4, 1, 4, 0), (4, 2, 6, 3)],
    );
    let file = format!("{EH}\nCOM→mzTab-mode→Summary\n{QUANTIFICATION}\n");
    c.of("rule 16: the mode in a comment", 3, file, &[(3, 1, 4, 0)]);
}

fn headers_again(c: &mut Cases) {
    let file = format!("{MH}\n{MH}\n\n{MR}\n{MH}\n");
    c.of(
        "rule 9: the first header, not the nearest",
        5,
        file,
        &[(2, 1, 9, 1), (5, 1, 9, 1)],
    );
    let file = format!("{MH}\n{PH}\n{EH}\n{SH}\n");
    c.of(
        "rule 10: after the last section",
        4,
        file,
        &[(2, 1, 10, 0), (3, 1, 10, 0), (4, 1, 10, 0)],
    );
    let file = format!("\n{MH}\n{PH}\n{MH}\n{PH}\n");
    c.of(
        "rules 9 and 10 by turns",
        5,
        file,
        &[(3, 1, 10, 0), (4, 1, 9, 2), (5, 1, 9, 3), (5, 1, 10, 0)],
    );
}

fn headers_and_rows(c: &mut Cases) {
    let file = format!("SML→a→1\n{PH}\n{PR}\n");
    c.of(
        "rule 10: a row of a later section is none",
        3,
        file,
        &[(1, 1, 17, 0)],
    );
    c.of(
        "rule 9: headers of nothing but their code",
        3,
        "PSH\nPSH\r\nPSH",
        &[
            (1, 1, 16, 0),
            (2, 1, 9, 1),
            (2, 1, 16, 0),
            (3, 1, 9, 1),
            (3, 1, 16, 0),
        ],
    );
}

/// A protein header of the given number of cells, `opt_` columns at its end.
pub(super) fn wide(cells: usize) -> String {
    let mut header = PH.to_string();
    for k in 5..cells {
        header += &format!("→opt_{k:x}");
    }
    header
}

fn wide_headers(c: &mut Cases) {
    let header = wide(257);
    let file = format!("{header}\nPRT→\nPRT\nPRT→null→\u{1}\nMTD→title→a\n");
    c.of(
        "rule 11: rows under it",
        5,
        file,
        &[(1, 1, 11, 0), (4, 3, 1, 0), (5, 1, 4, 0)],
    );
    let file = format!("{header}\nPRT→null\n{PH}\nPRT→null→a→b→null\nPRT→a\n");
    c.of(
        "rule 11: then a header of the same section",
        5,
        file,
        &[(1, 1, 11, 0), (3, 1, 9, 1), (4, 2, 20, 0), (5, 1, 18, 0)],
    );
    let file = format!("{PH}\n{header}\nPRT\nSML\n");
    c.of(
        "rule 11: after a header of the same section",
        4,
        file,
        &[(2, 1, 9, 1), (2, 1, 11, 0), (4, 1, 17, 0)],
    );
    let row = PR.to_string() + &"→1".repeat(251);
    let file = format!("{}\n{row}\n{row}→1\n{row}→\n", wide(256));
    c.of(
        "rule 11: 256 cells pass",
        4,
        file,
        &[(3, 1, 18, 0), (4, 1, 18, 0)],
    );
}

fn names_in_headers(c: &mut Cases) {
    let file = format!("{PH}→foo→accession→opt_a→taxid→opt_\n");
    c.of(
        "rules 12, 13 and 14 in one header",
        1,
        file,
        &[(1, 6, 12, 0), (1, 7, 13, 2), (1, 9, 14, 0), (1, 10, 12, 0)],
    );
    c.of(
        "rule 13: the first name, not the nearest",
        2,
        "\nSMH→identifier→charge→charge→identifier→charge\n",
        &[(2, 4, 13, 3), (2, 5, 13, 2), (2, 6, 13, 3)],
    );
    c.of(
        "rule 16: a column is absent",
        2,
        "PRH→accession→description→database\nSMH→charge\n",
        &[(1, 1, 16, 0), (2, 1, 16, 0)],
    );
    let file = format!("{MH}→best_search_engine_score[0]→best_search_engine_score[65]");
    c.of(
        "rules 23 and 24 in a header",
        1,
        file,
        &[(1, 4, 23, 0), (1, 5, 24, 0)],
    );
    let file = format!("{MH}→opt_\u{1f}→opt_\u{7f}\n");
    c.of("rule 1 in a header", 1, file, &[(1, 4, 1, 0)]);
}

fn columns_and_ids_below(c: &mut Cases) {
    let header = format!("{MH}→smallmolecule_abundance_assay[1]");
    let file = format!("{header}\nMTD→assay[1]-quantification_reagent→[,,a,]\n");
    c.of(
        "rule 15: the assay is declared below",
        2,
        file,
        &[(2, 1, 4, 0)],
    );
    let file = format!("{header}\nMTD→assay[2]-quantification_reagent→[,,a,]\n");
    c.of(
        "rule 15: another assay is declared below",
        2,
        file,
        &[(1, 4, 15, 0), (2, 1, 4, 0)],
    );
    let file = format!("{header}\nMTD→assay[1]-quantification_reagent\n");
    c.of(
        "rule 15: below stands a line of two cells",
        2,
        file,
        &[(1, 4, 15, 0), (2, 1, 3, 0), (2, 1, 4, 0)],
    );
    let file = format!(
        "MTD→ms_run[1]-location→a\n\
         {PH}→num_psms_ms_run[1]→protein_abundance_study_variable[2]→num_psms_ms_run[3]\n\n\
         PRT→Y1→null→db→null→1→x→\nMTD→study_variable[2]-description→b\n"
    );
    c.of(
        "rule 15: one above, one below, one nowhere",
        5,
        file,
        &[(2, 8, 15, 0), (4, 7, 20, 0), (4, 8, 19, 0), (5, 1, 4, 0)],
    );
}

fn rows_without_their_header(c: &mut Cases) {
    let file = format!("{MR}\n{MH}\n{MR}\n");
    c.of("rule 17: the header below", 3, file, &[(1, 1, 17, 0)]);
    let file = format!("{PH}\n{PR}\n{MH}\n{PR}\n{MR}\n");
    c.of("rule 17: another between", 5, file, &[(4, 1, 17, 0)]);
    let file = format!("{MH}\n{MR}\n{PH}\n{PR}\n{MH}\n{MR}\n");
    c.of(
        "rule 17: its own again",
        6,
        file,
        &[(3, 1, 10, 0), (5, 1, 9, 1)],
    );
    let file = format!("{EH}\nPSM→\nPEP→\n{ER}\n");
    c.of(
        "rule 17 stops 18 and 19",
        4,
        file,
        &[(2, 1, 17, 0), (3, 1, 18, 0)],
    );
    c.of(
        "rule 17: rows alone",
        4,
        "PRT\nPEP→\nPSM→null\nSML→a→b\n",
        &[(1, 1, 17, 0), (2, 1, 17, 0), (3, 1, 17, 0), (4, 1, 17, 0)],
    );
}

fn rows_by_the_nearest_header(c: &mut Cases) {
    let file = format!("{MH}\nSML→a\nSML→a→1→2\nSML→→x→\n{MR}\n");
    c.of(
        "rule 18: too few and too many",
        5,
        file,
        &[(2, 1, 18, 0), (3, 1, 18, 0), (4, 1, 18, 0)],
    );
    let file = format!("{MH}\n{MR}\n{MH}→uri\n{MR}\n{MR}→u\n");
    c.of(
        "rule 18: as many as the nearest header",
        5,
        file,
        &[(3, 1, 9, 1), (4, 1, 18, 0)],
    );
    let file = format!("{MH}\nSML→1→x\nSMH→charge→identifier\nSML→1→x\nSML→x→1\n");
    c.of(
        "rule 20: the kinds of the nearest header",
        5,
        file,
        &[(2, 3, 20, 0), (3, 1, 9, 1), (5, 2, 20, 0)],
    );
    let file = format!("{MH}→opt_a\nSML→a→1→\nCOM\n\nSML→a→→x\n");
    c.of(
        "rule 19: a comment and an empty line between",
        5,
        file,
        &[(2, 4, 19, 0), (5, 3, 19, 0)],
    );
    let file = format!("{MH}→foo\nSML→a→1→\nSML→a→1→b\n");
    c.of(
        "rule 19: under an unknown column",
        3,
        file,
        &[(1, 4, 12, 0), (2, 4, 19, 0)],
    );
}

fn cells_of_rows(c: &mut Cases) {
    let file = format!("{PH}→taxid→protein_coverage\n{PR}→1→1.2E-5\nPRT→→null→→x→1.5→a\n");
    c.of(
        "rules 19 and 20 in one row",
        3,
        file,
        &[
            (3, 2, 19, 0),
            (3, 4, 19, 0),
            (3, 5, 20, 0),
            (3, 6, 20, 0),
            (3, 7, 20, 0),
        ],
    );
    let four = "null→null→null→null";
    let file =
        format!("{PH}\nPRT→{four}\n{EH}\nPEP→{four}\n{SH}\nPSM→{four}→null\n{MH}\nSML→null→null");
    c.of(
        "rule 20: where `null` may not stand",
        8,
        file,
        &[(2, 2, 20, 0), (4, 2, 20, 0), (6, 2, 20, 0), (6, 3, 20, 0)],
    );
    let file =
        format!("{EH}→{QUANTIFIED}→unique→reliability\n{ER}→x→1|2→1|2→1→3\n{ER}→x→1|→1→2→0\n");
    c.of(
        "rule 20: lists, windows and numbers",
        3,
        file,
        &[(3, 7, 20, 0), (3, 8, 20, 0), (3, 9, 20, 0), (3, 10, 20, 0)],
    );
    let file = format!("{MH}→best_search_engine_score[01]\n{MR}→x\n{MR}→\n");
    c.of(
        "rule 20: under a column with a bad index",
        3,
        file,
        &[(1, 4, 23, 0), (3, 4, 19, 0)],
    );
}

fn rows_and_control_bytes(c: &mut Cases) {
    let file = format!("{MH}\nSML→a\u{1}→\u{2}1\n");
    c.of(
        "rule 1: at the cell of the first",
        2,
        file,
        &[(2, 2, 1, 0), (2, 3, 20, 0)],
    );
    c.of(
        "rule 1: in a row without header",
        1,
        "SML→a→\u{b}",
        &[(1, 1, 17, 0), (1, 3, 1, 0)],
    );
    let file = format!("{MH}\nSML→a→1→\u{c}\nSML→\u{1d}→→\n");
    c.of(
        "rule 1: in rows of too many cells",
        3,
        file,
        &[(2, 1, 18, 0), (2, 4, 1, 0), (3, 1, 18, 0), (3, 2, 1, 0)],
    );
    let file = format!("{MH}\nSML\u{1}→a→1\nSML →a→1\n");
    c.of(
        "rule 1: in the code, which is none then",
        3,
        file,
        &[(2, 1, 1, 0), (2, 1, 2, 0), (3, 1, 2, 0)],
    );
}

/// Rules 21 and 22 stand on "line N + 1 of an N-line file", and that is no line
/// from 1 to N.
fn line_after_the_last(c: &mut Cases) {
    let complete = "MTD→mzTab-mode→Complete\nMTD→mzTab-type→Quantification";
    c.of("rule 22 is not answered", 2, complete, &[]);
    let file = format!("{complete}\nMTD→assay[1]-quantification_reagent→[,,a,]\n{PH}\n{PR}\n");
    c.of("rule 22 of an assay and a section", 5, file, &[]);
    c.of("rule 21 is not answered", 2, "COM\n\n", &[]);
}

fn whole_files(c: &mut Cases) {
    c.of(
        "the paper's example",
        9,
        "MTD→mzTab-version→1.0.0\nMTD→mzTab-mode→Summary\nMTD→mzTab-type→Identification\n\
         MTD→description→Yeast check\nMTD→ms_run[1]-location→file:///a.mzML\n\n\
         PRH→accession→description→database→search_engine→num_psms_ms_run[2]\n\
         PRT→Y1→null→db→null→\nPRT→null→x→db→null→4\n",
        &[(7, 6, 15, 0), (8, 6, 19, 0), (9, 2, 20, 0)],
    );
    let file = format!(
        "{MODE}\n{QUANTIFICATION}\nMTD→ms_run[1]-location→a\n{PH}\n{PR}\n{EH}→{QUANTIFIED}\n\
         {ER}→null→null→null\n{SH}\n{SR}\n{MH}\n{MR}\n{PH}\nPRT→→→→\n{MODE}\n"
    );
    c.of(
        "four sections and one again",
        14,
        file,
        &[
            (12, 1, 9, 4),
            (12, 1, 10, 0),
            (13, 2, 19, 0),
            (13, 3, 19, 0),
            (13, 4, 19, 0),
            (13, 5, 19, 0),
            (14, 1, 4, 0),
            (14, 2, 6, 1),
        ],
    );
}
