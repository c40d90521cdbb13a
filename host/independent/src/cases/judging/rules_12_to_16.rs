//! The columns of a header.

use super::rule_22::{nine, Sort, ALL, CQ, E_SCORE, E_UNIT, M_SCORE, M_UNIT, P_SCORE, P_UNIT};
use super::rule_22::{CI, QH, QUANTIFICATION, SI, SQ, S_SCORE};
use super::{Cases, Triples, EH, FIXED, MH, MODE, MR, PH, PR, RUN, SH, TYPE};
use super::{VARIABLE, VERSION, WORDS};

pub(super) fn rule_12(c: &mut Cases) {
    c.headed(
        "rule 12: every protein column",
        "MTD→assay[1]-ms_run_ref→ms_run[1]\nMTD→study_variable[1]-description→a\n\
         PRH→accession→description→taxid→species→database→database_version→search_engine→\
         best_search_engine_score[1]→search_engine_score[1]_ms_run[1]→reliability→\
         num_psms_ms_run[1]→num_peptides_distinct_ms_run[1]→num_peptides_unique_ms_run[1]→\
         ambiguity_members→modifications→uri→go_terms→protein_coverage→\
         protein_abundance_assay[1]→protein_abundance_study_variable[1]→\
         protein_abundance_stdev_study_variable[1]→protein_abundance_std_error_study_variable[1]→\
         opt_global_x\n",
        &[],
    );
    c.headed(
        "rule 12: every peptide column",
        "MTD→assay[1]-ms_run_ref→ms_run[1]\nMTD→study_variable[1]-description→a\n\
         PEH→sequence→accession→unique→database→database_version→search_engine→\
         best_search_engine_score[1]→search_engine_score[1]_ms_run[1]→reliability→modifications→\
         retention_time→retention_time_window→charge→mass_to_charge→uri→spectra_ref→\
         peptide_abundance_assay[1]→peptide_abundance_study_variable[1]→\
         peptide_abundance_stdev_study_variable[1]→peptide_abundance_std_error_study_variable[1]→\
         opt_a→opt_b\n",
        &[],
    );
    c.headed(
        "rule 12: every PSM column",
        "PSH→sequence→PSM_ID→accession→unique→database→database_version→search_engine→\
         search_engine_score[1]→search_engine_score[64]→reliability→modifications→retention_time→\
         charge→exp_mass_to_charge→calc_mass_to_charge→uri→spectra_ref→pre→post→start→end→opt_x\n",
        &[],
    );
    c.headed(
        "rule 12: every small molecule column",
        "MTD→assay[1]-ms_run_ref→ms_run[1]\nMTD→study_variable[1]-description→a\n\
         SMH→identifier→chemical_formula→smiles→inchi_key→description→exp_mass_to_charge→\
         calc_mass_to_charge→charge→retention_time→taxid→species→database→database_version→\
         reliability→uri→spectra_ref→search_engine→best_search_engine_score[1]→\
         search_engine_score[1]_ms_run[1]→modifications→smallmolecule_abundance_assay[1]→\
         smallmolecule_abundance_study_variable[1]→smallmolecule_abundance_stdev_study_variable[1]→\
         smallmolecule_abundance_std_error_study_variable[1]→opt_x\n",
        &[],
    );
    c.headed(
        "rule 12: protein columns of other sections",
        format!("{PH}→sequence→charge→unique→spectra_ref→retention_time→search_engine_score[1]→PSM_ID→identifier→peptide_abundance_assay[1]\n"),
        &[
            (6, 6, 12),
            (6, 7, 12),
            (6, 8, 12),
            (6, 9, 12),
            (6, 10, 12),
            (6, 11, 12),
            (6, 12, 12),
            (6, 13, 12),
            (6, 14, 12),
        ],
    );
    c.headed(
        "rule 12: peptide columns of other sections",
        format!("{EH}→description→taxid→species→go_terms→exp_mass_to_charge→search_engine_score[1]→num_psms_ms_run[1]→pre→protein_coverage\n"),
        &[
            (6, 6, 12),
            (6, 7, 12),
            (6, 8, 12),
            (6, 9, 12),
            (6, 10, 12),
            (6, 11, 12),
            (6, 12, 12),
            (6, 13, 12),
            (6, 14, 12),
        ],
    );
    c.headed(
        "rule 12: PSM columns of other sections",
        format!("{SH}→best_search_engine_score[1]→search_engine_score[1]_ms_run[1]→mass_to_charge→retention_time_window→description→taxid→ambiguity_members→smiles\n"),
        &[
            (6, 7, 12),
            (6, 8, 12),
            (6, 9, 12),
            (6, 10, 12),
            (6, 11, 12),
            (6, 12, 12),
            (6, 13, 12),
            (6, 14, 12),
        ],
    );
    c.headed(
        "rule 12: small molecule columns of other sections",
        format!("{MH}→accession→sequence→unique→mass_to_charge→retention_time_window→search_engine_score[1]→go_terms→small_molecule_abundance_assay[1]\n"),
        &[
            (6, 4, 12),
            (6, 5, 12),
            (6, 6, 12),
            (6, 7, 12),
            (6, 8, 12),
            (6, 9, 12),
            (6, 10, 12),
            (6, 11, 12),
        ],
    );
    c.headed(
        "rule 12: empty, opt, opt_, case, spaces, indices",
        format!("{PH}→→opt→Taxid→taxid →best_search_engine_score[0]→best_search_engine_score[65]→best_search_engine_score[01]→best_search_engine_score[64]→null→opt_→opt_x\n"),
        &[
            (6, 6, 12),
            (6, 7, 12),
            (6, 8, 12),
            (6, 9, 12),
            (6, 10, 23),
            (6, 11, 24),
            (6, 12, 23),
            (6, 14, 12),
            (6, 15, 12),
        ],
    );
    c.headed(
        "rule 12: a tab at the end of a header",
        format!("{PH}→\n{PR}→x\n"),
        &[(6, 6, 12)],
    );
    c.headed(
        "rule 12: cells under an unknown column are text",
        format!("{PH}→foo→→num_psms_ms_run[65]\n{PR}→null→ →x\n{PR}→→a→1.5\n"),
        &[(6, 6, 12), (6, 7, 12), (6, 8, 24), (8, 6, 19)],
    );
    c.headed(
        "rule 12: an unknown name that names an id",
        format!("{PH}→peptide_abundance_assay[9]\n"),
        &[(6, 6, 12)],
    );
}

pub(super) fn rule_13(c: &mut Cases) {
    c.headed("rule 13: twice", format!("{PH}→accession\n"), &[(6, 6, 13)]);
    c.first(&[2]);
    c.headed(
        "rule 13: three times",
        format!("{PH}→taxid→taxid→uri→taxid\n"),
        &[(6, 7, 13), (6, 9, 13)],
    );
    c.first(&[6, 6]);
    c.headed(
        "rule 13: unknown ones too",
        format!("{PH}→foo→foo→→\n"),
        &[
            (6, 6, 12),
            (6, 7, 12),
            (6, 7, 13),
            (6, 8, 12),
            (6, 9, 12),
            (6, 9, 13),
        ],
    );
    c.first(&[6, 8]);
    c.headed(
        "rule 13: opt_ ones too",
        format!("{PH}→opt_a→opt_A→opt_a\n"),
        &[(6, 8, 13)],
    );
    c.first(&[6]);
    c.headed(
        "rule 13: another index is another name",
        format!("{PH}→best_search_engine_score[1]→best_search_engine_score[2]\n"),
        &[],
    );
    c.headed(
        "rule 13: another header may have it",
        format!("{PH}\n{EH}\n{SH}\n"),
        &[],
    );
    c.headed(
        "rule 13: does not stop 14 nor 15",
        format!("{PH}→num_psms_ms_run[3]→opt_a→num_psms_ms_run[3]\n"),
        &[(6, 6, 15), (6, 8, 13), (6, 8, 14), (6, 8, 15)],
    );
    c.first(&[6]);
    c.headed(
        "rule 13: required ones twice",
        "SMH→identifier→identifier\n",
        &[(6, 1, 16), (6, 3, 13)],
    );
    c.first(&[2]);
    c.headed(
        "rule 13: the code is no column name",
        format!("{PH}→PRH→PRH\n"),
        &[(6, 6, 12), (6, 7, 12), (6, 7, 13)],
    );
    c.first(&[6]);
    c.headed(
        "rule 13: rows are judged by each",
        format!("{MH}→taxid→taxid\n{MR}→x→1.5\n"),
        &[(6, 5, 13), (7, 4, 20), (7, 5, 20)],
    );
    c.first(&[4]);
}

pub(super) fn rule_14(c: &mut Cases) {
    c.headed(
        "rule 14: opt_ at the end",
        format!("{PH}→taxid→opt_a→opt_b\n"),
        &[],
    );
    c.headed(
        "rule 14: one after",
        format!("{PH}→opt_a→taxid\n"),
        &[(6, 7, 14)],
    );
    c.headed(
        "rule 14: each after",
        format!("{PH}→opt_a→taxid→opt_b→uri→opt_c\n"),
        &[(6, 7, 14), (6, 9, 14)],
    );
    c.headed(
        "rule 14: opt_ in front",
        "SMH→opt_a→identifier→charge\n",
        &[(6, 3, 14), (6, 4, 14)],
    );
    c.headed(
        "rule 14: opt_ alone begins so",
        format!("{MH}→opt_→taxid\n"),
        &[(6, 4, 12), (6, 5, 14)],
    );
    c.headed(
        "rule 14: opt and Opt_ do not",
        format!("{MH}→opt→Opt_x→taxid\n"),
        &[(6, 4, 12), (6, 5, 12)],
    );
    c.headed(
        "rule 14: an unknown or empty one after",
        format!("{MH}→opt_x→foo→\n"),
        &[(6, 5, 12), (6, 5, 14), (6, 6, 12), (6, 6, 14)],
    );
    c.headed(
        "rule 14: of another header",
        format!("{PH}→opt_a\n{EH}\n"),
        &[],
    );
}

pub(super) fn rule_15(c: &mut Cases) {
    c.headed(
        "rule 15: declared",
        format!("MTD→assay[2]-sample_ref→sample[1]\nMTD→sample[1]-description→a\nMTD→study_variable[3]-description→a\n{PH}→protein_abundance_assay[2]→protein_abundance_study_variable[3]→protein_abundance_stdev_study_variable[3]→protein_abundance_std_error_study_variable[3]→num_psms_ms_run[1]\n"),
        &[],
    );
    c.headed(
        "rule 15: undeclared, proteins",
        format!("{PH}→protein_abundance_assay[1]→protein_abundance_study_variable[1]→protein_abundance_stdev_study_variable[1]→protein_abundance_std_error_study_variable[1]→num_psms_ms_run[2]→num_peptides_distinct_ms_run[2]→num_peptides_unique_ms_run[2]→search_engine_score[1]_ms_run[2]\n"),
        &[
            (6, 6, 15),
            (6, 7, 15),
            (6, 8, 15),
            (6, 9, 15),
            (6, 10, 15),
            (6, 11, 15),
            (6, 12, 15),
            (6, 13, 15),
        ],
    );
    c.headed(
        "rule 15: undeclared, peptides",
        format!("{EH}→peptide_abundance_assay[1]→peptide_abundance_study_variable[1]→peptide_abundance_stdev_study_variable[1]→peptide_abundance_std_error_study_variable[1]→search_engine_score[1]_ms_run[2]\n"),
        &[(6, 6, 15), (6, 7, 15), (6, 8, 15), (6, 9, 15), (6, 10, 15)],
    );
    c.headed(
        "rule 15: undeclared, small molecules",
        format!("{MH}→smallmolecule_abundance_assay[1]→smallmolecule_abundance_study_variable[1]→smallmolecule_abundance_stdev_study_variable[1]→smallmolecule_abundance_std_error_study_variable[1]→search_engine_score[1]_ms_run[2]\n"),
        &[(6, 4, 15), (6, 5, 15), (6, 6, 15), (6, 7, 15), (6, 8, 15)],
    );
    c.headed(
        "rule 15: the second index is the run's",
        format!("{PH}→search_engine_score[2]_ms_run[1]→search_engine_score[1]_ms_run[2]\n"),
        &[(6, 7, 15)],
    );
    c.headed(
        "rule 15: a score names no id",
        format!("{PH}→best_search_engine_score[9]\n{SH}→search_engine_score[9]\n"),
        &[],
    );
    c.headed(
        "rule 15: opt_ names no id",
        format!("{PH}→opt_ms_run[9]_a→opt_assay[9]\n"),
        &[],
    );
    c.headed(
        "rule 15: declared below",
        format!("{PH}→protein_abundance_assay[1]\nMTD→assay[1]-quantification_reagent→[,,a,]\n"),
        &[(7, 1, 4)],
    );
    c.headed(
        "rule 15: a sample declares no assay",
        format!("MTD→sample[1]-description→a\n{PH}→protein_abundance_assay[1]\n"),
        &[(7, 6, 15)],
    );
    c.headed(
        "rule 15: rows are judged still",
        format!("{PH}→protein_abundance_assay[1]\n{PR}→x\n{PR}→1.5\n"),
        &[(6, 6, 15), (7, 6, 20)],
    );
    c.headed(
        "rule 15: 14 does not stop it",
        format!("{PH}→opt_x→protein_abundance_assay[1]\n"),
        &[(6, 7, 14), (6, 7, 15)],
    );
}

pub(super) fn rule_16(c: &mut Cases) {
    for name in ["accession", "description", "database", "search_engine"] {
        let header = format!("{PH}\n").replace(&format!("→{name}"), "→uri");
        c.headed("rule 16: a protein column absent", header, &[(6, 1, 16)]);
    }
    for name in ["sequence", "accession", "charge", "mass_to_charge"] {
        let header = format!("{EH}\n").replace(&format!("→{name}"), "→uri");
        c.headed("rule 16: a peptide column absent", header, &[(6, 1, 16)]);
    }
    for name in ["sequence", "PSM_ID", "accession", "charge", "spectra_ref"] {
        let header = format!("{SH}\n").replace(&format!("→{name}"), "→uri");
        c.headed("rule 16: a PSM column absent", header, &[(6, 1, 16)]);
    }
    for name in ["identifier", "charge"] {
        let header = format!("{MH}\n").replace(&format!("→{name}"), "→uri");
        c.headed(
            "rule 16: a small molecule column absent",
            header,
            &[(6, 1, 16)],
        );
    }
    c.headed(
        "rule 16: all absent, once",
        "PRH\nPEH\nPSH\nSMH\n",
        &[(6, 1, 16), (7, 1, 16), (8, 1, 16), (9, 1, 16)],
    );
    c.headed(
        "rule 16: free order",
        "SMH→taxid→charge→uri→identifier→opt_x\n",
        &[],
    );
    c.headed(
        "rule 16: opt_ is another name",
        "SMH→charge→opt_identifier\n",
        &[(6, 1, 16)],
    );
    c.headed(
        "rule 16: rows are judged still",
        "SMH→charge\nSML→x\nSML→1\nSML→1→2\n",
        &[(6, 1, 16), (7, 2, 20), (9, 1, 18)],
    );
    c.headed(
        "rule 16: a header of one cell and a row of one cell",
        "PRH\nPRT\nPRT→\n",
        &[(6, 1, 16), (8, 1, 18)],
    );
}

impl Cases {
    /// A peptide header at line 12, below all metadata that rule 22 asks for.
    fn peptides(&mut self, label: &'static str, sort: Sort, header: &str, breaks: Triples) {
        let file = format!("{}{E_SCORE}\n{E_UNIT}\n{header}\n", nine(sort));
        self.whole(label, file, breaks);
    }
}

/// "In Quantification a peptide header needs modifications, retention_time and
/// retention_time_window too, under rule 16."
pub(super) fn rule_16_in_quantification(c: &mut Cases) {
    for sort in [SQ, CQ] {
        c.peptides("rule 16: none of the three", sort, EH, &[(12, 1, 16)]);
        for name in ["modifications", "retention_time", "retention_time_window"] {
            // The name is a whole cell: another begins as it does.
            let header = format!("{QH}→").replace(&format!("→{name}→"), "→uri→");
            let header = header.trim_end_matches('→');
            c.peptides(
                "rule 16: one of the three absent",
                sort,
                header,
                &[(12, 1, 16)],
            );
        }
    }
    for sort in [SI, CI] {
        c.peptides("rule 16: none of the three, Identification", sort, EH, &[]);
    }
    for sort in ALL {
        c.peptides("rule 16: all of the three", sort, QH, &[]);
    }
    peptide_headers(c);
    near_peptide_headers(c);
    without_mode_or_type(c);
    late_or_second_type(c);
}

fn peptide_headers(c: &mut Cases) {
    c.peptides(
        "rule 16: the three and others absent, once",
        SQ,
        "PEH→uri",
        &[(12, 1, 16)],
    );
    c.peptides(
        "rule 16: the three alone",
        CQ,
        "PEH→modifications→retention_time→retention_time_window",
        &[(12, 1, 16)],
    );
    c.peptides(
        "rule 16: the three in free order",
        CQ,
        "PEH→retention_time_window→uri→charge→modifications→sequence→accession→mass_to_charge→\
         retention_time→opt_x",
        &[],
    );
}

fn near_peptide_headers(c: &mut Cases) {
    c.peptides(
        "rule 16: opt_ ones are not the three",
        SQ,
        &format!("{EH}→opt_modifications→opt_retention_time→opt_retention_time_window"),
        &[(12, 1, 16)],
    );
    c.peptides(
        "rule 16: one of the three twice",
        CQ,
        &format!("{EH}→modifications→modifications→retention_time"),
        &[(12, 1, 16), (12, 7, 13)],
    );
    c.first(&[6]);
    c.peptides(
        "rule 16: a second peptide header",
        SQ,
        &format!("{QH}\n{EH}"),
        &[(13, 1, 9), (13, 1, 16)],
    );
    c.first(&[12]);
    c.peptides(
        "rule 16: 11 stops the three",
        CQ,
        &format!("{EH}{}", "→".repeat(252)),
        &[(12, 1, 11)],
    );
    for sort in [SQ, CQ] {
        c.whole(
            "rule 16: other sections do not need the three",
            format!(
                "{}{P_SCORE}\n{P_UNIT}\n{S_SCORE}\n{M_SCORE}\n{M_UNIT}\n{PH}\n{SH}\n{MH}\n",
                nine(sort)
            ),
            &[],
        );
    }
}

/// All that rule 22 asks of the files below but for mode and type, and a header.
fn below_mode_and_type() -> String {
    format!("{WORDS}\n{RUN}\n{FIXED}\n{VARIABLE}\n{E_SCORE}\n{E_UNIT}\n{EH}\n")
}

/// "without both, nothing is added"
fn without_mode_or_type(c: &mut Cases) {
    let rest = below_mode_and_type();
    c.whole(
        "rule 16: the three without a valid mode",
        format!("{VERSION}\nMTD→mzTab-mode→x\n{QUANTIFICATION}\n{rest}"),
        &[(2, 3, 7)],
    );
    c.whole(
        "rule 16: the three without a mode",
        format!("{VERSION}\n{QUANTIFICATION}\n{rest}"),
        &[(10, 2, 21)],
    );
    c.whole(
        "rule 16: the three without a valid type",
        format!("{VERSION}\n{MODE}\nMTD→mzTab-type→quantification\n{rest}"),
        &[(3, 3, 7)],
    );
}

/// Mode and type are those of the whole file, and the first valid ones.
fn late_or_second_type(c: &mut Cases) {
    let rest = below_mode_and_type();
    c.whole(
        "rule 16: the three with a late type",
        format!("{VERSION}\n{MODE}\n{rest}{QUANTIFICATION}\n"),
        &[(9, 1, 16), (10, 1, 4)],
    );
    c.whole(
        "rule 16: the three with a late mode",
        format!("{VERSION}\n{QUANTIFICATION}\n{rest}{MODE}\n"),
        &[(9, 1, 16), (10, 1, 4)],
    );
    c.whole(
        "rule 16: the three with a second type, the first not valid",
        format!("{VERSION}\n{MODE}\nMTD→mzTab-type→x\n{QUANTIFICATION}\n{rest}"),
        &[(3, 3, 7), (4, 2, 6), (11, 1, 16)],
    );
    c.first(&[3]);
    c.whole(
        "rule 16: the three go by the first type",
        format!("{VERSION}\n{MODE}\n{TYPE}\n{QUANTIFICATION}\n{rest}"),
        &[(4, 2, 6)],
    );
    c.first(&[3]);
    c.whole(
        "rule 16: the three go by the first type",
        format!("{VERSION}\n{MODE}\n{QUANTIFICATION}\n{TYPE}\n{rest}"),
        &[(4, 2, 6), (11, 1, 16)],
    );
    c.first(&[3]);
}
