//! Files to judge, with their breaks: on either side of each rule, of each
//! "stops" and of each line of the paper's lists. The cases of a rule stand in
//! the file that names it.

mod paper;
mod rule_20;
mod rule_21;
mod rule_22;
mod rules_12_to_16;
mod rules_17_to_19;
mod rules_1_2;
mod rules_23_24;
mod rules_3_to_6;
mod rules_6_9_13;
mod rules_7_8;
mod rules_9_to_11;
mod several;

use super::tabs;
use crate::Break;

pub struct Case {
    pub label: &'static str,
    pub file: Vec<u8>,
    pub breaks: Vec<Break>,
}

/// The rules of what comes again. Their breaks have a fourth number.
pub const AGAIN: [u32; 3] = [6, 9, 13];

/// The five pieces of required metadata, one a line.
const VERSION: &str = "MTD→mzTab-version→1.0";
const MODE: &str = "MTD→mzTab-mode→Summary";
const TYPE: &str = "MTD→mzTab-type→Identification";
const WORDS: &str = "MTD→description→d";
const RUN: &str = "MTD→ms_run[1]-location→a";

/// What rule 22 asks of every file that has a mode and a type.
const FIXED: &str = "MTD→fixed_mod[1]→[,,f,]";
const VARIABLE: &str = "MTD→variable_mod[1]→[,,v,]";
/// What it asks of a Complete one too.
const SOFTWARE: &str = "MTD→software[1]→[,,s,]";

/// A plain header and a plain row of each section.
const PH: &str = "PRH→accession→description→database→search_engine";
const PR: &str = "PRT→Y1→null→db→null";
const EH: &str = "PEH→sequence→accession→charge→mass_to_charge";
const ER: &str = "PEP→AB→Y1→2→10.5";
const SH: &str = "PSH→sequence→PSM_ID→accession→charge→spectra_ref";
const SR: &str = "PSM→AB→1→Y1→2→ms_run[1]:index=5";
const MH: &str = "SMH→identifier→charge";
const MR: &str = "SML→CID:1→1";

const PAPER: &str = "MTD→mzTab-version→1.0.0
MTD→mzTab-mode→Summary
MTD→mzTab-type→Identification
MTD→description→Yeast check
MTD→ms_run[1]-location→file:///a.mzML

PRH→accession→description→database→search_engine→num_psms_ms_run[2]
PRT→Y1→null→db→null→
PRT→null→x→db→null→4
";

type Triples<'a> = &'a [(u32, u32, u32)];

struct Cases {
    list: Vec<Case>,
    /// How many lines of the last case are not counted in its breaks.
    above: u32,
}

impl Cases {
    /// A whole file; an arrow is a tab. The fourth number of each break is 0
    /// unless `first` is called after it.
    fn whole(&mut self, label: &'static str, file: impl AsRef<[u8]>, breaks: Triples) {
        let place = |&(line, cell, rule): &(u32, u32, u32)| Break {
            line,
            cell,
            rule,
            first: 0,
        };
        self.list.push(Case {
            label,
            file: tabs(file),
            breaks: breaks.iter().map(place).collect(),
        });
        self.above = 0;
    }

    /// The fourth numbers of the last case: one for each break of rules 6, 9
    /// and 13, in their order. Lines are counted as they are in its breaks.
    fn first(&mut self, firsts: &[u32]) {
        let above = self.above;
        let case = self.list.last_mut().expect("a case stands above");
        let mut rest = firsts.iter();
        for at in case.breaks.iter_mut().filter(|at| AGAIN.contains(&at.rule)) {
            let first = rest.next().expect(case.label);
            at.first = if at.rule == 13 { *first } else { first + above };
        }
        assert_eq!(rest.next(), None, "{}", case.label);
    }

    /// A file whose lines 1 to 5 are the required metadata; an arrow is a tab.
    /// Above them stand the lines that rule 22 asks for, which are not counted
    /// in the breaks given: in these the version stands on line 1.
    fn headed(&mut self, label: &'static str, rest: impl AsRef<[u8]>, breaks: Triples) {
        let asked = asked_of(rest.as_ref());
        let above = asked.lines().count() as u32;
        let mut file = (asked + &head()).into_bytes();
        file.extend(rest.as_ref());
        let breaks: Vec<_> = breaks
            .iter()
            .map(|(line, cell, rule)| (line + above, *cell, *rule))
            .collect();
        self.whole(label, file, &breaks);
        self.above = above;
    }

    /// One more metadata line, line 6, after the five.
    fn mtd(&mut self, label: &'static str, key: &str, value: &str, breaks: Triples) {
        self.headed(label, format!("MTD→{key}→{value}\n"), breaks);
    }

    /// A protein table of one column more; the header is line 6, the row line 7.
    fn protein(&mut self, label: &'static str, column: &str, cell: &str, breaks: Triples) {
        self.headed(label, format!("{PH}→{column}\n{PR}→{cell}\n"), breaks);
    }

    /// The same of the peptide table.
    fn peptide(&mut self, label: &'static str, column: &str, cell: &str, breaks: Triples) {
        self.headed(label, format!("{EH}→{column}\n{ER}→{cell}\n"), breaks);
    }

    /// The same of the PSM table.
    fn psm(&mut self, label: &'static str, column: &str, cell: &str, breaks: Triples) {
        self.headed(label, format!("{SH}→{column}\n{SR}→{cell}\n"), breaks);
    }

    /// The same of the small molecule table.
    fn molecule(&mut self, label: &'static str, column: &str, cell: &str, breaks: Triples) {
        self.headed(label, format!("{MH}→{column}\n{MR}→{cell}\n"), breaks);
    }
}

fn head() -> String {
    format!("{VERSION}\n{MODE}\n{TYPE}\n{WORDS}\n{RUN}\n")
}

/// The five, and the two that rule 22 asks for beside them where there are no
/// tables.
fn full_head() -> String {
    format!("{}{FIXED}\n{VARIABLE}\n", head())
}

/// The lines that rule 22 asks of a Summary Identification file with these lines.
fn asked_of(rest: &[u8]) -> String {
    format!("{FIXED}\n{VARIABLE}\n{}", scores_for(rest))
}

/// Codes of a header and of a row, and the metadata line with a score of their
/// section.
const SCORES: [(&str, &str, &str); 4] = [
    ("PRH", "PRT", "MTD→protein_search_engine_score[1]→[,,a,]"),
    ("PEH", "PEP", "MTD→peptide_search_engine_score[1]→[,,a,]"),
    ("PSH", "PSM", "MTD→psm_search_engine_score[1]→[,,a,]"),
    (
        "SMH",
        "SML",
        "MTD→smallmolecule_search_engine_score[1]→[,,a,]",
    ),
];

/// The score of each section that the lines name: rule 22 asks for it if the
/// section is there, and one that is not asked for does no harm.
fn scores_for(lines: &[u8]) -> String {
    let named = |code: &str| lines.windows(code.len()).any(|at| at == code.as_bytes());
    SCORES
        .iter()
        .filter(|(header, row, _)| named(header) || named(row))
        .map(|(_, _, line)| format!("{line}\n"))
        .collect()
}

/// A protein header of the given number of cells, `opt_` columns at its end.
fn wide(cells: usize) -> String {
    let mut header = PH.to_string();
    for k in 5..cells {
        header += &format!("→opt_{k:x}");
    }
    header
}

/// A protein row of the given number of cells.
fn wide_row(cells: usize) -> String {
    PR.to_string() + &"→1".repeat(cells - 5)
}

pub fn all() -> Vec<Case> {
    let mut c = Cases {
        list: Vec::new(),
        above: 0,
    };
    paper::the_papers_own(&mut c);
    paper::lines_and_cells(&mut c);
    rules_1_2::rule_1(&mut c);
    rules_1_2::rule_2(&mut c);
    rules_3_to_6::rule_3(&mut c);
    rules_3_to_6::rule_4(&mut c);
    rules_3_to_6::rule_5(&mut c);
    rules_3_to_6::rule_6(&mut c);
    rules_7_8::rule_7(&mut c);
    rules_7_8::rule_8(&mut c);
    rules_9_to_11::rules_9_and_10(&mut c);
    rules_9_to_11::rule_11(&mut c);
    rules_12_to_16::rule_12(&mut c);
    rules_12_to_16::rule_13(&mut c);
    rules_12_to_16::rule_14(&mut c);
    rules_12_to_16::rule_15(&mut c);
    rules_12_to_16::rule_16(&mut c);
    rules_12_to_16::rule_16_in_quantification(&mut c);
    rules_17_to_19::rule_17(&mut c);
    rules_17_to_19::rule_18(&mut c);
    rules_17_to_19::rule_19(&mut c);
    rule_20::rule_20(&mut c);
    rule_20::rule_20_with_exponents(&mut c);
    rule_21::rule_21(&mut c);
    rule_22::rule_22(&mut c);
    rules_23_24::rules_23_and_24(&mut c);
    several::several_at_once(&mut c);
    rules_6_9_13::where_it_was_first(&mut c);
    c.list
}
