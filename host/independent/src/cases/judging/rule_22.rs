//! What a file of its mode and type must have.

use super::{Cases, Triples, EH, ER, FIXED, MH, MR, PH, PR, RUN, SH, SOFTWARE, SR};
use super::{VARIABLE, VERSION, WORDS};

/// A mode and a type.
pub(super) type Sort = (&'static str, &'static str);
pub(super) const SQ: Sort = ("Summary", "Quantification");
pub(super) const CQ: Sort = ("Complete", "Quantification");
pub(super) const SI: Sort = ("Summary", "Identification");
pub(super) const CI: Sort = ("Complete", "Identification");
pub(super) const ALL: [Sort; 4] = [SQ, CQ, SI, CI];

const METHOD: &str = "MTD→quantification_method→[,,q,]";

/// A score of each section, and its unit; PSMs have none.
pub(super) const P_SCORE: &str = "MTD→protein_search_engine_score[1]→[,,a,]";
pub(super) const E_SCORE: &str = "MTD→peptide_search_engine_score[1]→[,,a,]";
pub(super) const S_SCORE: &str = "MTD→psm_search_engine_score[1]→[,,a,]";
pub(super) const M_SCORE: &str = "MTD→smallmolecule_search_engine_score[1]→[,,a,]";
pub(super) const P_UNIT: &str = "MTD→protein-quantification_unit→[,,u,]";
pub(super) const E_UNIT: &str = "MTD→peptide-quantification_unit→[,,u,]";
pub(super) const M_UNIT: &str = "MTD→small_molecule-quantification_unit→[,,u,]";

/// A peptide header that will do for Quantification, and a row under it.
pub(super) const QH: &str = "PEH→sequence→accession→charge→mass_to_charge→modifications→\
    retention_time→retention_time_window";
const QR: &str = "PEP→AB→Y1→2→10.5→null→null→null";

/// The two lines of assay 1, and those of study variable 1.
const RUN_REF: &str = "MTD→assay[1]-ms_run_ref→ms_run[1]";
const REAGENT: &str = "MTD→assay[1]-quantification_reagent→[,,r,]";
const ASSAY_REFS: &str = "MTD→study_variable[1]-assay_refs→assay[1]";
const ABOUT: &str = "MTD→study_variable[1]-description→v";

impl Cases {
    /// A file whose lines 1 to 9 are metadata that is enough for every mode and
    /// type where there are neither ids nor tables.
    fn nine(&mut self, label: &'static str, sort: Sort, rest: impl AsRef<str>, breaks: Triples) {
        self.whole(label, nine(sort) + rest.as_ref(), breaks);
    }

    /// The same file in each mode and type: SQ, CQ, SI, CI.
    fn in_each(&mut self, label: &'static str, rest: impl AsRef<str>, breaks: [Triples; 4]) {
        for (sort, breaks) in ALL.into_iter().zip(breaks) {
            self.nine(label, sort, rest.as_ref(), breaks);
        }
    }

    /// The same file in both modes of Quantification.
    fn quantified(&mut self, label: &'static str, rest: impl AsRef<str>, breaks: Triples) {
        self.nine(label, SQ, rest.as_ref(), breaks);
        self.nine(label, CQ, rest.as_ref(), breaks);
    }

    /// The nine without one of them, in each mode and type.
    fn without(&mut self, label: &'static str, line: &str, breaks: [Triples; 4]) {
        for (sort, breaks) in ALL.into_iter().zip(breaks) {
            let file = nine(sort).replace(&format!("{line}\n"), "");
            self.whole(label, file, breaks);
        }
    }
}

/// The five lines of rule 21.
fn five((mode, kind): Sort) -> String {
    format!("{VERSION}\nMTD→mzTab-mode→{mode}\nMTD→mzTab-type→{kind}\n{WORDS}\n{RUN}\n")
}

pub(super) fn nine(sort: Sort) -> String {
    format!("{}{SOFTWARE}\n{FIXED}\n{VARIABLE}\n{METHOD}\n", five(sort))
}

pub(super) fn rule_22(c: &mut Cases) {
    of_the_file(c);
    other_keys(c);
    unknown_keys(c);
    the_line_of_a_field(c);
    where_the_line_stands(c);
    of_assays(c);
    lines_of_assays(c);
    several_assays(c);
    declared_assays(c);
    asked_for_nothing(c);
    late_assays(c);
    of_study_variables(c);
    lines_of_study_variables(c);
    several_study_variables(c);
    of_sections(c);
    scores_and_units(c);
    sections_there(c);
    several_sections(c);
    codes_of_sections(c);
    names_of_sections(c);
    unknown_names_of_sections(c);
    without_mode_or_type(c);
    other_lines_of_mode_and_type(c);
    two_modes_or_types(c);
    two_valid_ones(c);
    where_mode_and_type_stand(c);
    the_most(c);
}

/// Cells 400, 900, 1000 and 1100.
fn of_the_file(c: &mut Cases) {
    c.in_each("rule 22: nothing missing", "", [&[]; 4]);
    let both: Triples = &[(6, 900, 22), (6, 1000, 22)];
    c.whole("rule 22: five lines alone", five(SQ), both);
    c.whole("rule 22: five lines alone", five(SI), both);
    c.whole(
        "rule 22: five lines alone",
        five(CI),
        &[(6, 400, 22), (6, 900, 22), (6, 1000, 22)],
    );
    c.whole(
        "rule 22: five lines alone",
        five(CQ),
        &[(6, 400, 22), (6, 900, 22), (6, 1000, 22), (6, 1100, 22)],
    );
    let software: Triples = &[(9, 400, 22)];
    c.without(
        "rule 22: no software",
        SOFTWARE,
        [&[], software, &[], software],
    );
    c.without("rule 22: no fixed_mod", FIXED, [&[(9, 900, 22)]; 4]);
    c.without("rule 22: no variable_mod", VARIABLE, [&[(9, 1000, 22)]; 4]);
    c.without(
        "rule 22: no quantification_method",
        METHOD,
        [&[], &[(9, 1100, 22)], &[], &[]],
    );
    c.whole(
        "rule 22: any one index will do",
        five(CQ)
            + "MTD→software[7]→[,,a,]\nMTD→fixed_mod[64]→[,,a,]\nMTD→variable_mod[10]→[,,a,]\n\
               MTD→quantification_method→[,,a,]\n",
        &[],
    );
}

/// Keys that begin or end as the one that is asked for do not serve.
fn other_keys(c: &mut Cases) {
    c.whole(
        "rule 22: a setting is no software",
        five(CI) + &format!("MTD→software[1]-setting[1]→a\n{FIXED}\n{VARIABLE}\n"),
        &[(9, 400, 22)],
    );
    c.whole(
        "rule 22: site and position are no fixed_mod",
        five(SI) + &format!("MTD→fixed_mod[1]-site→M\nMTD→fixed_mod[1]-position→a\n{VARIABLE}\n"),
        &[(9, 900, 22)],
    );
    c.whole(
        "rule 22: site and position are no variable_mod",
        five(SQ)
            + &format!("MTD→variable_mod[1]-site→M\nMTD→variable_mod[1]-position→a\n{FIXED}\n"),
        &[(9, 1000, 22)],
    );
    c.whole(
        "rule 22: two fixed ones are no variable one",
        five(SI) + &format!("{FIXED}\nMTD→fixed_mod[2]→[,,f,]\n"),
        &[(8, 1000, 22)],
    );
}

fn unknown_keys(c: &mut Cases) {
    c.whole(
        "rule 22: unknown keys do not serve",
        five(CI)
            + "MTD→software→[,,a,]\nMTD→software[0]→[,,a,]\nMTD→software[65]→[,,a,]\n\
               MTD→Software[1]→[,,a,]\nMTD→fixed_mod[01]→[,,a,]\nMTD→variable_mod[1] →[,,a,]\n",
        &[
            (6, 2, 5),
            (7, 2, 23),
            (8, 2, 24),
            (9, 2, 5),
            (10, 2, 23),
            (11, 2, 5),
            (12, 400, 22),
            (12, 900, 22),
            (12, 1000, 22),
        ],
    );
    c.whole(
        "rule 22: quantification_method has no index",
        nine(CQ).replace("quantification_method", "quantification_method[1]"),
        &[(9, 2, 5), (10, 1100, 22)],
    );
}

/// "no three-cell MTD line of the file has the key, whatever its value and
/// wherever it stands"
fn the_line_of_a_field(c: &mut Cases) {
    c.whole(
        "rule 22: a value not of its kind serves",
        five(CQ)
            + "MTD→software[1]→x\nMTD→fixed_mod[1]→\nMTD→variable_mod[1]→null\n\
               MTD→quantification_method→[,,,]\n",
        &[(6, 3, 7), (7, 3, 7), (8, 3, 7), (9, 3, 7)],
    );
    c.nine(
        "rule 22: a key that comes again serves",
        CQ,
        format!("{SOFTWARE}\n{METHOD}\n"),
        &[(10, 2, 6), (11, 2, 6)],
    );
    c.first(&[6, 9]);
    c.whole(
        "rule 22: two cells or four do not serve",
        five(SI) + "MTD→fixed_mod[1]\nMTD→variable_mod[1]→[,,a,]→\n",
        &[(6, 1, 3), (7, 1, 3), (8, 900, 22), (8, 1000, 22)],
    );
    c.whole(
        "rule 22: comments and unknown lines do not serve",
        five(CQ)
            + "COM→software[1]→[,,a,]\nCOM→fixed_mod[1]→[,,a,]\n\nmtd→variable_mod[1]→[,,a,]\n",
        &[
            (9, 1, 2),
            (10, 400, 22),
            (10, 900, 22),
            (10, 1000, 22),
            (10, 1100, 22),
        ],
    );
}

fn where_the_line_stands(c: &mut Cases) {
    c.whole(
        "rule 22: late lines serve",
        five(CI) + &format!("{MH}\n{MR}\n{FIXED}\n{SOFTWARE}\n{VARIABLE}\n{M_SCORE}\n"),
        &[(8, 1, 4), (9, 1, 4), (10, 1, 4), (11, 1, 4)],
    );
    c.whole(
        "rule 22: early lines serve",
        format!("{VARIABLE}\n{SOFTWARE}\n{FIXED}\n{}", five(CI)),
        &[],
    );
    c.whole(
        "rule 22: empty lines and comments at the end are counted",
        five(SI) + &format!("{FIXED}\n\nCOM\n\r\n\n"),
        &[(11, 1000, 22)],
    );
    c.whole(
        "rule 22: without the last LF",
        (five(SI) + FIXED).replace('\n', "\r\n"),
        &[(7, 1000, 22)],
    );
}

/// Cells 101 to 164 and 1501 to 1564.
fn of_assays(c: &mut Cases) {
    c.quantified(
        "rule 22: an assay without ms_run_ref",
        format!("{REAGENT}\n"),
        &[(11, 101, 22)],
    );
    c.quantified(
        "rule 22: an assay without quantification_reagent",
        format!("{RUN_REF}\n"),
        &[(11, 1501, 22)],
    );
    c.quantified(
        "rule 22: an assay with both",
        format!("{RUN_REF}\n{REAGENT}\n"),
        &[],
    );
    let neither: Triples = &[(12, 103, 22), (12, 1503, 22)];
    c.in_each(
        "rule 22: an assay with neither",
        "MTD→assay[3]-sample_ref→sample[1]\nMTD→sample[1]-description→s\n",
        [neither, neither, &[], &[]],
    );
}

fn lines_of_assays(c: &mut Cases) {
    c.nine(
        "rule 22: quantification_mod is no reagent",
        SQ,
        format!(
            "{RUN_REF}\nMTD→assay[1]-quantification_mod[1]→[,,m,]\n\
             MTD→assay[1]-quantification_mod[1]-site→R\n"
        ),
        &[(13, 1501, 22)],
    );
    c.nine(
        "rule 22: sample_ref is no ms_run_ref",
        CQ,
        format!("{REAGENT}\nMTD→assay[1]-sample_ref→sample[1]\nMTD→sample[1]-description→s\n"),
        &[(13, 101, 22)],
    );
    c.nine(
        "rule 22: an assay's values not of their kinds serve",
        SQ,
        "MTD→assay[1]-ms_run_ref→x\nMTD→assay[1]-quantification_reagent→\n",
        &[(10, 3, 7), (11, 3, 7)],
    );
    c.nine(
        "rule 22: an undeclared run serves",
        CQ,
        format!("MTD→assay[1]-ms_run_ref→ms_run[2]\n{REAGENT}\n"),
        &[(10, 3, 8)],
    );
}

fn several_assays(c: &mut Cases) {
    c.nine(
        "rule 22: assays 1, 2 and 64",
        CQ,
        format!(
            "MTD→assay[64]-sample_ref→sample[1]\nMTD→assay[2]-ms_run_ref→ms_run[1]\n{REAGENT}\n\
             MTD→sample[1]-description→s\n"
        ),
        &[(14, 101, 22), (14, 164, 22), (14, 1502, 22), (14, 1564, 22)],
    );
    c.nine(
        "rule 22: assay[10] is not assay[1]",
        SQ,
        format!("MTD→assay[10]-ms_run_ref→ms_run[1]\n{REAGENT}\n"),
        &[(12, 101, 22), (12, 1510, 22)],
    );
}

/// Which assays are asked for.
fn declared_assays(c: &mut Cases) {
    c.nine(
        "rule 22: a reference declares no assay",
        SQ,
        format!("MTD→study_variable[1]-assay_refs→assay[9]\n{ABOUT}\n"),
        &[(10, 3, 8)],
    );
    c.nine(
        "rule 22: a column declares no assay",
        SQ,
        format!("{M_SCORE}\n{M_UNIT}\n{MH}→smallmolecule_abundance_assay[5]\n"),
        &[(12, 4, 15)],
    );
    c.nine(
        "rule 22: unknown keys declare no assay",
        CQ,
        "MTD→assay[1]-foo→a\nMTD→assay[65]-ms_run_ref→ms_run[1]\nMTD→assay[1]→a\n",
        &[(10, 2, 5), (11, 2, 24), (12, 2, 5)],
    );
    c.nine(
        "rule 22: two cells or four declare no assay",
        SQ,
        format!("MTD→assay[1]-ms_run_ref\n{RUN_REF}→\nCOM→assay[1]-ms_run_ref→ms_run[1]\n"),
        &[(10, 1, 3), (11, 1, 3)],
    );
    c.nine(
        "rule 22: the second index declares no assay",
        CQ,
        "MTD→assay[2]-quantification_mod[1]→[,,m,]\n",
        &[(11, 102, 22), (11, 1502, 22)],
    );
}

fn asked_for_nothing(c: &mut Cases) {
    c.nine(
        "rule 22: samples and runs are asked for nothing",
        CQ,
        "MTD→sample[1]-tissue[2]→[,,t,]\nMTD→ms_run[2]-location→b\n",
        &[],
    );
    for sort in [SI, CI] {
        c.nine(
            "rule 22: Identification asks nothing of assays and study variables",
            sort,
            "MTD→assay[1]-quantification_mod[1]→[,,m,]\nMTD→sample[1]-description→s\n\
             MTD→study_variable[1]-sample_refs→sample[1]\n",
            &[],
        );
    }
}

fn late_assays(c: &mut Cases) {
    c.nine(
        "rule 22: an assay declared late",
        SQ,
        format!("{M_SCORE}\n{M_UNIT}\n{MH}\n{MR}\n{REAGENT}\n"),
        &[(14, 1, 4), (15, 101, 22)],
    );
    c.nine(
        "rule 22: an assay's late lines serve",
        CQ,
        format!("{M_SCORE}\n{M_UNIT}\n{RUN_REF}\n{MH}\n{REAGENT}\n"),
        &[(14, 1, 4)],
    );
}

/// Cells 201 to 264 and 301 to 364.
fn of_study_variables(c: &mut Cases) {
    c.in_each(
        "rule 22: a study variable with neither, and no assay",
        "MTD→study_variable[1]-sample_refs→sample[1]\nMTD→sample[1]-description→s\n",
        [&[(12, 301, 22)], &[(12, 201, 22), (12, 301, 22)], &[], &[]],
    );
    let no_refs = "rule 22: a study variable without assay_refs, and no assay";
    c.nine(no_refs, SQ, format!("{ABOUT}\n"), &[]);
    c.nine(no_refs, CQ, format!("{ABOUT}\n"), &[(11, 201, 22)]);
    c.quantified(
        "rule 22: a study variable without assay_refs, and an assay",
        format!("{ABOUT}\n{RUN_REF}\n{REAGENT}\n"),
        &[(13, 201, 22)],
    );
    c.quantified(
        "rule 22: a study variable without description",
        format!("{ASSAY_REFS}\n{RUN_REF}\n{REAGENT}\n"),
        &[(13, 301, 22)],
    );
    c.in_each(
        "rule 22: a study variable with both",
        format!("{RUN_REF}\n{REAGENT}\n{ASSAY_REFS}\n{ABOUT}\n"),
        [&[]; 4],
    );
}

fn lines_of_study_variables(c: &mut Cases) {
    c.nine(
        "rule 22: a study variable's values not of their kinds serve",
        CQ,
        "MTD→study_variable[1]-assay_refs→x\nMTD→study_variable[1]-description→\n",
        &[(10, 3, 7), (11, 3, 7)],
    );
    c.nine(
        "rule 22: assay_refs of no assay in Summary",
        SQ,
        format!("{ASSAY_REFS}\n"),
        &[(10, 3, 8), (11, 301, 22)],
    );
    c.nine(
        "rule 22: an assay declared late asks for assay_refs",
        SQ,
        format!("{ABOUT}\n{M_SCORE}\n{M_UNIT}\n{MH}\n{RUN_REF}\n{REAGENT}\n"),
        &[(14, 1, 4), (15, 1, 4), (16, 201, 22)],
    );
    c.nine(
        "rule 22: an undeclared assay asks for no assay_refs",
        SQ,
        format!("{ABOUT}\nMTD→assay[1]-foo→a\nMTD→assay[1]-ms_run_ref\n"),
        &[(11, 2, 5), (12, 1, 3)],
    );
}

fn several_study_variables(c: &mut Cases) {
    let three = "MTD→study_variable[64]-sample_refs→sample[1]\n\
                 MTD→study_variable[2]-description→v\nMTD→sample[1]-description→s\n";
    let with_assay = format!("{three}{ASSAY_REFS}\n{RUN_REF}\n{REAGENT}\n");
    c.quantified(
        "rule 22: study variables 1, 2 and 64, and an assay",
        with_assay,
        &[(16, 202, 22), (16, 264, 22), (16, 301, 22), (16, 364, 22)],
    );
    c.nine(
        "rule 22: study variables 2 and 64, and no assay",
        SQ,
        three,
        &[(13, 364, 22)],
    );
    c.nine(
        "rule 22: study variables 2 and 64, and no assay",
        CQ,
        three,
        &[(13, 202, 22), (13, 264, 22), (13, 364, 22)],
    );
    c.nine(
        "rule 22: a study variable declared late",
        CQ,
        format!("{M_SCORE}\n{M_UNIT}\n{MH}\n{ABOUT}\n"),
        &[(13, 1, 4), (14, 201, 22)],
    );
    c.nine(
        "rule 22: a column declares no study variable",
        CQ,
        format!("{M_SCORE}\n{M_UNIT}\n{MH}→smallmolecule_abundance_study_variable[5]\n"),
        &[(12, 4, 15)],
    );
}

/// Cells 500, 600, 700 and 800, and 1200, 1300 and 1400.
fn of_sections(c: &mut Cases) {
    let (p, pu): (Triples, Triples) = (&[(12, 500, 22)], &[(12, 500, 22), (12, 1200, 22)]);
    c.in_each(
        "rule 22: proteins without score and unit",
        format!("{PH}\n{PR}\n"),
        [pu, pu, p, p],
    );
    let (e, eu): (Triples, Triples) = (&[(12, 600, 22)], &[(12, 600, 22), (12, 1300, 22)]);
    c.in_each(
        "rule 22: peptides without score and unit",
        format!("{QH}\n{QR}\n"),
        [eu, eu, e, e],
    );
    c.in_each(
        "rule 22: PSMs without score",
        format!("{SH}\n{SR}\n"),
        [&[(12, 700, 22)]; 4],
    );
    let (m, mu): (Triples, Triples) = (&[(12, 800, 22)], &[(12, 800, 22), (12, 1400, 22)]);
    c.in_each(
        "rule 22: small molecules without score and unit",
        format!("{MH}\n{MR}\n"),
        [mu, mu, m, m],
    );
}

fn scores_and_units(c: &mut Cases) {
    for (score, unit, table) in [
        (P_SCORE, P_UNIT, format!("{PH}\n{PR}\n")),
        (E_SCORE, E_UNIT, format!("{QH}\n{QR}\n")),
        (M_SCORE, M_UNIT, format!("{MH}\n{MR}\n")),
    ] {
        let rest = format!("{score}\n{unit}\n{table}");
        c.quantified("rule 22: a section with score and unit", rest, &[]);
    }
    for (score, table) in [
        (P_SCORE, format!("{PH}\n{PR}\n")),
        (E_SCORE, format!("{EH}\n{ER}\n")),
        (S_SCORE, format!("{SH}\n{SR}\n")),
        (M_SCORE, format!("{MH}\n{MR}\n")),
    ] {
        let rest = format!("{score}\n{table}");
        c.nine("rule 22: a section with its score", CI, rest, &[]);
    }
    let rest = format!("{S_SCORE}\n{SH}\n");
    c.quantified("rule 22: PSMs have no unit", rest, &[]);
}

/// "some line of the file has that section's header code or row code"
fn sections_there(c: &mut Cases) {
    for (header, cell) in [(PH, 500), (EH, 600), (SH, 700), (MH, 800)] {
        let rest = format!("{header}\n");
        c.nine("rule 22: a header alone", SI, rest, &[(11, cell, 22)]);
    }
    for (row, cell) in [(PR, 500), (ER, 600), (SR, 700), (MR, 800)] {
        let breaks = &[(10, 1, 17), (11, cell, 22)];
        c.nine("rule 22: rows alone", SI, format!("{row}\n"), breaks);
    }
    for (row, score, unit) in [(PR, 500, 1200), (ER, 600, 1300), (MR, 800, 1400)] {
        let breaks = &[(10, 1, 17), (11, score, 22), (11, unit, 22)];
        c.nine("rule 22: rows alone", SQ, format!("{row}\n"), breaks);
    }
}

fn several_sections(c: &mut Cases) {
    c.nine(
        "rule 22: the rows of another section under a header",
        CQ,
        format!("{M_SCORE}\n{M_UNIT}\n{MH}\nPRT\nPSM\n"),
        &[
            (13, 1, 17),
            (14, 1, 17),
            (15, 500, 22),
            (15, 700, 22),
            (15, 1200, 22),
        ],
    );
    c.nine(
        "rule 22: all four sections",
        CQ,
        format!("{PH}\n{QH}\n{SH}\n{MH}\n"),
        &[
            (14, 500, 22),
            (14, 600, 22),
            (14, 700, 22),
            (14, 800, 22),
            (14, 1200, 22),
            (14, 1300, 22),
            (14, 1400, 22),
        ],
    );
}

fn codes_of_sections(c: &mut Cases) {
    c.nine(
        "rule 22: codes of no section",
        SQ,
        "COM→PRH\nprh→x\nPEPx→a\n→PSM\nSM→L\n",
        &[(11, 1, 2), (12, 1, 2), (13, 1, 2), (14, 1, 2)],
    );
    c.nine(
        "rule 22: a code with CR and no LF",
        SQ,
        "PRT\r",
        &[(10, 1, 1), (10, 1, 2)],
    );
    c.nine(
        "rule 22: a code with CR LF",
        SQ,
        "PRT\r\n",
        &[(10, 1, 17), (11, 500, 22), (11, 1200, 22)],
    );
    c.nine(
        "rule 22: a header of rule 11",
        SQ,
        format!("SMH{}\n", "→".repeat(256)),
        &[(10, 1, 11), (11, 800, 22), (11, 1400, 22)],
    );
}

/// Scores and units by their keys.
fn names_of_sections(c: &mut Cases) {
    c.nine(
        "rule 22: any one score will do",
        SI,
        format!("MTD→psm_search_engine_score[64]→[,,a,]\n{SH}\n"),
        &[],
    );
    c.nine(
        "rule 22: scores of other sections",
        SI,
        format!("{P_SCORE}\n{S_SCORE}\n{M_SCORE}\n{EH}\n"),
        &[(14, 600, 22)],
    );
    c.nine(
        "rule 22: scores of other sections",
        CI,
        format!("{E_SCORE}\n{PH}\n{SH}\n{MH}\n"),
        &[(14, 500, 22), (14, 700, 22), (14, 800, 22)],
    );
    c.nine(
        "rule 22: units of other sections, and a colunit",
        SQ,
        format!("{M_SCORE}\n{P_UNIT}\n{E_UNIT}\nMTD→colunit-small_molecule→a\n{MH}\n"),
        &[(15, 1400, 22)],
    );
}

fn unknown_names_of_sections(c: &mut Cases) {
    c.nine(
        "rule 22: scores and units of no section",
        CQ,
        "MTD→small_molecule_search_engine_score[1]→[,,a,]\n\
         MTD→smallmolecule-quantification_unit→[,,a,]\nMTD→psm-quantification_unit→[,,a,]\nSMH\n",
        &[
            (10, 2, 5),
            (11, 2, 5),
            (12, 2, 5),
            (13, 1, 16),
            (14, 800, 22),
            (14, 1400, 22),
        ],
    );
    c.nine(
        "rule 22: values of scores and units not of their kinds serve",
        SQ,
        format!(
            "MTD→protein_search_engine_score[2]→\nMTD→protein-quantification_unit→x\n{PH}\n{PR}\n"
        ),
        &[(10, 3, 7), (11, 3, 7)],
    );
}

/// A mode and a type of which the most is asked.
const COMPLETE: &str = "MTD→mzTab-mode→Complete";
pub(super) const QUANTIFICATION: &str = "MTD→mzTab-type→Quantification";

/// Lines of a file that lacks much of it.
fn lacking() -> String {
    format!("{WORDS}\n{RUN}\n{REAGENT}\n{MR}\n")
}

/// "without both, nothing is added"
fn without_mode_or_type(c: &mut Cases) {
    let rest = lacking();
    c.whole(
        "rule 22: no mode",
        format!("{VERSION}\n{QUANTIFICATION}\n{rest}"),
        &[(6, 1, 17), (7, 2, 21)],
    );
    c.whole(
        "rule 22: no type",
        format!("{VERSION}\n{COMPLETE}\n{rest}"),
        &[(6, 1, 17), (7, 3, 21)],
    );
    for value in ["complete", "Complete ", "", "null", "Quantification"] {
        c.whole(
            "rule 22: no valid mode",
            format!("{VERSION}\nMTD→mzTab-mode→{value}\n{QUANTIFICATION}\n{rest}"),
            &[(2, 3, 7), (7, 1, 17)],
        );
    }
    for value in ["Quantitation", " Quantification", "", "null", "Complete"] {
        c.whole(
            "rule 22: no valid type",
            format!("{VERSION}\n{COMPLETE}\nMTD→mzTab-type→{value}\n{rest}"),
            &[(3, 3, 7), (7, 1, 17)],
        );
    }
}

fn other_lines_of_mode_and_type(c: &mut Cases) {
    let rest = lacking();
    c.whole(
        "rule 22: mode and type for each other",
        five(("Quantification", "Summary")),
        &[(2, 3, 7), (3, 3, 7)],
    );
    c.whole(
        "rule 22: a mode on a line of four cells",
        format!("{VERSION}\n{COMPLETE}→\n{QUANTIFICATION}\n{rest}"),
        &[(2, 1, 3), (7, 1, 17), (8, 2, 21)],
    );
    c.whole(
        "rule 22: a type on a line of two cells and in a comment",
        format!("{VERSION}\n{COMPLETE}\nMTD→mzTab-type\nCOM→mzTab-type→Quantification\n{rest}"),
        &[(3, 1, 3), (8, 1, 17), (9, 3, 21)],
    );
    c.whole(
        "rule 22: case counts in the keys",
        format!("{VERSION}\nMTD→mzTab-Mode→Complete\n{QUANTIFICATION}\n{rest}"),
        &[(2, 2, 5), (7, 1, 17), (8, 2, 21)],
    );
}

/// "the first valid ones"
fn two_modes_or_types(c: &mut Cases) {
    c.whole(
        "rule 22: a second mode after one that is not valid",
        five(("summary", "Identification")) + "MTD→mzTab-mode→Complete\n",
        &[
            (2, 3, 7),
            (6, 2, 6),
            (7, 400, 22),
            (7, 900, 22),
            (7, 1000, 22),
        ],
    );
    c.first(&[2]);
    c.whole(
        "rule 22: a second type after one that is not valid",
        five(("Summary", ""))
            + &format!("MTD→mzTab-type→Quantification\n{RUN_REF}\n{FIXED}\n{VARIABLE}\n"),
        &[(3, 3, 7), (6, 2, 6), (10, 1501, 22)],
    );
    c.first(&[3]);
    c.whole(
        "rule 22: a third mode after two that are not valid",
        five(("x", "Quantification"))
            + &format!(
                "MTD→mzTab-mode→y\nMTD→mzTab-mode→Summary\n{FIXED}\n{VARIABLE}\n{RUN_REF}\n"
            ),
        &[(2, 3, 7), (6, 2, 6), (6, 3, 7), (7, 2, 6), (11, 1501, 22)],
    );
    c.first(&[2, 2]);
}

fn two_valid_ones(c: &mut Cases) {
    c.whole(
        "rule 22: the first of two modes and of two types",
        five(SI) + &format!("MTD→mzTab-mode→Complete\nMTD→mzTab-type→Quantification\n{REAGENT}\n"),
        &[(6, 2, 6), (7, 2, 6), (9, 900, 22), (9, 1000, 22)],
    );
    c.first(&[2, 3]);
    c.whole(
        "rule 22: the first of two modes and of two types",
        five(CQ) + &format!("MTD→mzTab-mode→Summary\nMTD→mzTab-type→Identification\n{REAGENT}\n"),
        &[
            (6, 2, 6),
            (7, 2, 6),
            (9, 101, 22),
            (9, 400, 22),
            (9, 900, 22),
            (9, 1000, 22),
            (9, 1100, 22),
        ],
    );
    c.first(&[2, 3]);
    c.whole(
        "rule 22: a second mode that is not valid",
        five(CI) + "MTD→mzTab-mode→summary\nMTD→mzTab-type→x\n",
        &[
            (6, 2, 6),
            (6, 3, 7),
            (7, 2, 6),
            (7, 3, 7),
            (8, 400, 22),
            (8, 900, 22),
            (8, 1000, 22),
        ],
    );
    c.first(&[2, 3]);
    c.whole(
        "rule 22: a mode after one on a line of four cells",
        format!("MTD→mzTab-mode→Complete→\n{}", five(SI)),
        &[(1, 1, 3), (7, 900, 22), (7, 1000, 22)],
    );
}

/// "on three-cell MTD lines", wherever they stand.
fn where_mode_and_type_stand(c: &mut Cases) {
    c.whole(
        "rule 22: a late mode",
        format!(
            "{VERSION}\nMTD→mzTab-type→Identification\n{WORDS}\n{RUN}\n{FIXED}\n{VARIABLE}\n\
             {MH}\nMTD→mzTab-mode→Complete\n"
        ),
        &[(8, 1, 4), (9, 400, 22), (9, 800, 22)],
    );
    c.whole(
        "rule 22: a late type",
        format!(
            "{VERSION}\nMTD→mzTab-mode→Summary\n{WORDS}\n{RUN}\n{FIXED}\n{VARIABLE}\n{M_SCORE}\n\
             {MH}\nMTD→mzTab-type→Quantification\n"
        ),
        &[(9, 1, 4), (10, 1400, 22)],
    );
    c.whole(
        "rule 22: a type with CR and no LF",
        format!(
            "{VERSION}\nMTD→mzTab-mode→Summary\n{WORDS}\n{RUN}\nMTD→mzTab-type→Identification\r"
        ),
        &[(5, 3, 1), (5, 3, 7)],
    );
    c.whole(
        "rule 22: a type without LF",
        format!("{VERSION}\nMTD→mzTab-mode→Summary\n{WORDS}\n{RUN}\nMTD→mzTab-type→Identification"),
        &[(6, 900, 22), (6, 1000, 22)],
    );
    c.whole(
        "rule 22: mode and type with CR LF",
        five(CI).replace('\n', "\r\n"),
        &[(6, 400, 22), (6, 900, 22), (6, 1000, 22)],
    );
    c.whole(
        "rule 22: a comment with another mode above",
        format!("COM→mzTab-mode→Complete\n{}", five(SI)),
        &[(7, 900, 22), (7, 1000, 22)],
    );
}

/// All that the line after the last can have: 270 breaks.
fn the_most(c: &mut Cases) {
    let mut file = "MTD→mzTab-mode→Complete\nMTD→mzTab-type→Quantification\n\
                    MTD→sample[1]-description→s\n"
        .to_string();
    for i in 1..=64 {
        file += &format!(
            "MTD→assay[{i}]-sample_ref→sample[1]\nMTD→study_variable[{i}]-sample_refs→sample[1]\n"
        );
    }
    file += &format!("{PH}\n{QH}\n{SH}\n{MH}\n");
    let mut cells: Vec<u32> = Vec::new();
    for hundred in [100, 200, 300] {
        cells.extend(hundred + 1..=hundred + 64);
    }
    cells.extend([400, 500, 600, 700, 800, 900, 1000, 1100, 1200, 1300, 1400]);
    cells.extend(1501..=1564);
    let mut breaks = vec![(136, 1, 21), (136, 4, 21), (136, 5, 21)];
    breaks.extend(cells.into_iter().map(|cell| (136, cell, 22)));
    c.whole("rule 22: the most that can be missing", file, &breaks);
}
