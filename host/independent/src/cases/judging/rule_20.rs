//! The cells of rows by their kinds.

use super::{Cases, EH, MH, PH, PR, SH};

pub(super) fn rule_20(c: &mut Cases) {
    c.headed(
        "rule 20: null accession",
        format!("{PH}\nPRT→null→null→null→null\n"),
        &[(7, 2, 20)],
    );
    c.headed(
        "rule 20: null in peptides",
        format!("{EH}\nPEP→null→null→null→null\n"),
        &[(7, 2, 20)],
    );
    c.headed(
        "rule 20: null in PSMs",
        format!("{SH}\nPSM→null→null→null→null→null\n"),
        &[(7, 2, 20), (7, 3, 20)],
    );
    c.headed(
        "rule 20: null in small molecules",
        format!("{MH}\nSML→null→null\n"),
        &[],
    );
    c.headed(
        "rule 20: null by another case is text",
        format!("{PH}→taxid\nPRT→NULL→Null→nul→null→NULL\nPRT→ null→x→x→null→null \n"),
        &[(7, 6, 20), (8, 6, 20)],
    );
    c.headed(
        "rule 20: null in every other column",
        "MTD→assay[1]-ms_run_ref→ms_run[1]\nMTD→study_variable[1]-description→a\n\
         PEH→sequence→accession→unique→database→database_version→search_engine→\
         best_search_engine_score[1]→search_engine_score[1]_ms_run[1]→reliability→modifications→\
         retention_time→retention_time_window→charge→mass_to_charge→uri→spectra_ref→\
         peptide_abundance_assay[1]→peptide_abundance_study_variable[1]→opt_a\n\
         PEP→A→null→null→null→null→null→null→null→null→null→null→null→null→null→null→null→null→null→null\n\
         PEP→A→x→1→d→v→[,,a,]→1→-2.5→3→m→1|2|3→1|2→-2→400.25→u→r→INF→NaN→anything\n\
         PEP→A→x→2→d→v→a→x→+1→4→m→1|→1|2|3→1.0→1e5→u→r→inf→nan→-\n\
         PEP→A→x→1→d→v→[,,a,]→1E2→-2.5e-05→3→m→1E1|2e+1|3→1E0|2e0→-2→1e→u→r→1.5E-3→0e0→1E\n",
        &[
            (11, 4, 20),
            (11, 7, 20),
            (11, 8, 20),
            (11, 9, 20),
            (11, 10, 20),
            (11, 12, 20),
            (11, 13, 20),
            (11, 14, 20),
            (11, 18, 20),
            (11, 19, 20),
            (12, 15, 20),
        ],
    );
    for cell in ["0", "-0", "000000000", "-123456789", "7"] {
        c.protein("rule 20: whole", "taxid", cell, &[]);
    }
    for cell in [
        "+1",
        "1.0",
        "--1",
        "- 1",
        "1 ",
        "1-",
        "-1234567890",
        "0000000001",
        "INF",
        "x",
    ] {
        c.protein("rule 20: not a whole", "taxid", cell, &[(7, 6, 20)]);
    }
    for cell in ["1", "2", "3", "null"] {
        c.protein("rule 20: reliability", "reliability", cell, &[]);
    }
    for cell in ["0", "4", "01", "1.0", "high", "-1"] {
        c.protein(
            "rule 20: not a reliability",
            "reliability",
            cell,
            &[(7, 6, 20)],
        );
    }
    c.peptide(
        "rule 20: peptide reliability",
        "reliability",
        "4",
        &[(7, 6, 20)],
    );
    c.psm(
        "rule 20: PSM reliability",
        "reliability",
        "4",
        &[(7, 7, 20)],
    );
    c.psm("rule 20: PSM reliability of 3", "reliability", "3", &[]);
    c.molecule(
        "rule 20: small molecule reliability is text",
        "reliability",
        "4",
        &[],
    );
    for cell in ["0", "1", "null"] {
        c.peptide("rule 20: unique", "unique", cell, &[]);
        c.psm("rule 20: unique", "unique", cell, &[]);
    }
    for cell in ["2", "00", "true", "-0"] {
        c.peptide("rule 20: not unique", "unique", cell, &[(7, 6, 20)]);
        c.psm("rule 20: not unique", "unique", cell, &[(7, 7, 20)]);
    }
    for cell in [
        "0",
        "1.5",
        "-1.5",
        "INF",
        "NaN",
        "12345678901234567890.5",
        "00.00",
    ] {
        c.protein("rule 20: decimal", "protein_coverage", cell, &[]);
    }
    for cell in [
        "-INF", "+INF", "Inf", "NAN", "-NaN", "1.5.", "1..5", "-", ".", "-.5", "1.5 ",
    ] {
        c.protein(
            "rule 20: not a decimal",
            "protein_coverage",
            cell,
            &[(7, 6, 20)],
        );
    }
    for cell in ["1", "1|2", "1.5|-2|INF|NaN"] {
        c.peptide("rule 20: decimal list", "retention_time", cell, &[]);
    }
    for cell in [
        "|",
        "1|",
        "|1",
        "1||2",
        "1, 2",
        "1| 2",
        "null|1",
        "null|null",
    ] {
        c.psm(
            "rule 20: not a decimal list",
            "retention_time",
            cell,
            &[(7, 7, 20)],
        );
    }
    for cell in ["1|2", "INF|NaN", "-1.5|-1.5"] {
        c.peptide("rule 20: window", "retention_time_window", cell, &[]);
    }
    for cell in ["1", "1|2|3", "|", "1|", "null|null", "1-2"] {
        c.peptide(
            "rule 20: not a window",
            "retention_time_window",
            cell,
            &[(7, 6, 20)],
        );
    }
    for cell in [
        "[MS,MS:1001207,Mascot,]|[MS,MS:1001208,Sequest,]",
        "[MS, MS:1001207, Mascot, 25]",
        "[,,\"a|b,c]\",]",
    ] {
        c.molecule("rule 20: search engine", "search_engine", cell, &[]);
    }
    for cell in [
        "Mascot",
        "[MS,MS:1001207,Mascot]",
        "[MS,MS:1001207,Mascot,] | [MS,MS:1001208,Sequest,]",
        "[MS,MS:1001207,Mascot,]||[MS,MS:1001208,Sequest,]",
        "[MS,MS:1001207,,]",
        "null|[,,a,]",
    ] {
        c.molecule(
            "rule 20: not a search engine",
            "search_engine",
            cell,
            &[(7, 4, 20)],
        );
    }
    c.psm(
        "rule 20: exp_mass_to_charge",
        "exp_mass_to_charge",
        "1,5",
        &[(7, 7, 20)],
    );
    c.psm("rule 20: start is text", "start", "x", &[]);
    c.psm(
        "rule 20: search_engine_score",
        "search_engine_score[2]",
        "x",
        &[(7, 7, 20)],
    );
    c.protein("rule 20: opt_ is text", "opt_x", "-", &[]);
    c.protein(
        "rule 20: PSM count of a run",
        "num_psms_ms_run[1]",
        "1.0",
        &[(7, 6, 20)],
    );
    c.protein(
        "rule 20: score of a run",
        "search_engine_score[3]_ms_run[1]",
        "x",
        &[(7, 6, 20)],
    );
    c.headed(
        "rule 20: by column, in free order",
        "SMH→charge→identifier\nSML→x→1\nSML→1→x\n",
        &[(7, 2, 20)],
    );
}

/// "Rules 7 and 20, lists and windows follow." No metadata key is of these
/// kinds, so that rule 7 has no case of its own.
pub(super) fn rule_20_with_exponents(c: &mut Cases) {
    for cell in [
        "1e5",
        "1E5",
        "1.2E-5",
        "-1.5e+003",
        "3.2e-05",
        "6.229394e06",
        "1E000",
        "-0E5",
        "1E999",
        "1E-999",
        "9007199254740993E0",
        "12345678901234567890.5E-22",
    ] {
        c.protein(
            "rule 20: decimal with an exponent",
            "protein_coverage",
            cell,
            &[],
        );
    }
    for cell in [
        "1e", "1E+", "E5", "-E5", ".5E1", "5.E1", "+1E5", "1E1000", "1E0000", "1E++5", "1E+-5",
        "1.2E-5.0", "1E.5", "1E5E5", "1EE5", "1E 5", "1 E5", "1E5 ", " 1E5", "1D5", "1d5", "1F5",
        "1f5", "INFE5", "INFE", "NaNE5", "NaNe", "nullE5", "1E1|2E1",
    ] {
        c.protein(
            "rule 20: not an exponent",
            "protein_coverage",
            cell,
            &[(7, 6, 20)],
        );
    }
    columns_with_exponents(c);
    lists_with_exponents(c);
    wholes_take_no_exponent(c);
}

/// Columns of decimals in each section.
fn columns_with_exponents(c: &mut Cases) {
    let label = "rule 20: an exponent by its column";
    for column in [
        "best_search_engine_score[1]",
        "search_engine_score[64]_ms_run[1]",
    ] {
        c.protein(label, column, "1.2E-5", &[]);
        c.protein(label, column, "1.2E-", &[(7, 6, 20)]);
        c.peptide(label, column, "1.2E-5", &[]);
        c.peptide(label, column, "1.2E-", &[(7, 6, 20)]);
        c.molecule(label, column, "1.2E-5", &[]);
        c.molecule(label, column, "1.2E-", &[(7, 4, 20)]);
    }
    for column in [
        "search_engine_score[1]",
        "exp_mass_to_charge",
        "calc_mass_to_charge",
    ] {
        c.psm(label, column, "4.05e+02", &[]);
        c.psm(label, column, "4.05e+0002", &[(7, 7, 20)]);
    }
    c.molecule(label, "exp_mass_to_charge", "4.05e+02", &[]);
    c.molecule(label, "calc_mass_to_charge", "4.05e", &[(7, 4, 20)]);
    c.headed(
        label,
        format!("{EH}\nPEP→AB→Y1→2→1.05E1\nPEP→AB→Y1→2→1.05E1.0\n"),
        &[(8, 5, 20)],
    );
    for column in [
        "assay",
        "study_variable",
        "stdev_study_variable",
        "std_error_study_variable",
    ] {
        c.headed(
            label,
            format!(
                "MTD→assay[1]-ms_run_ref→ms_run[1]\nMTD→study_variable[1]-description→a\n\
                 {PH}→protein_abundance_{column}[1]\n{PR}→1.2E7\n{PR}→1.2e-007\n{PR}→1.2E7E\n"
            ),
            &[(11, 6, 20)],
        );
    }
}

fn lists_with_exponents(c: &mut Cases) {
    for cell in ["1E1", "1.5e-3|2", "1E1|2E+1|3e-001|INF|NaN", "1E999|-0E0"] {
        c.peptide(
            "rule 20: decimal list with exponents",
            "retention_time",
            cell,
            &[],
        );
        c.psm(
            "rule 20: decimal list with exponents",
            "retention_time",
            cell,
            &[],
        );
        c.molecule(
            "rule 20: decimal list with exponents",
            "retention_time",
            cell,
            &[],
        );
    }
    for cell in [
        "1E",
        "1E1|",
        "|1E1",
        "1E1||2E1",
        "1E|1",
        "1|E1",
        "1E1| 2E1",
        "1E1|2E1000",
        "1E1|2E1E1",
        "1E1|INFE1",
        "1E1|2d1",
        "null|1E1",
    ] {
        c.peptide(
            "rule 20: not a decimal list with exponents",
            "retention_time",
            cell,
            &[(7, 6, 20)],
        );
    }
    for cell in ["1E1|2E1", "1.5e-3|2", "0|1.2E+003", "INF|1e0", "-0E5|NaN"] {
        c.peptide(
            "rule 20: window with exponents",
            "retention_time_window",
            cell,
            &[],
        );
    }
    for cell in [
        "1E1",
        "1E1|2E1|3E1",
        "1E1|",
        "|1E1",
        "1E|1",
        "1|1E",
        "1E1|2E-",
        "1E1-2E1",
        "1E1|2E1.0",
        "NaNE1|1",
    ] {
        c.peptide(
            "rule 20: not a window with exponents",
            "retention_time_window",
            cell,
            &[(7, 6, 20)],
        );
    }
}

/// An exponent makes no whole, whatever its value; and text may be like one.
fn wholes_take_no_exponent(c: &mut Cases) {
    let label = "rule 20: a whole takes no exponent";
    for cell in ["1E0", "1e5", "0E0", "-1E1", "1E+0", "10e-1", "1E", "E1"] {
        c.protein(label, "taxid", cell, &[(7, 6, 20)]);
    }
    for column in [
        "num_psms_ms_run[1]",
        "num_peptides_distinct_ms_run[1]",
        "num_peptides_unique_ms_run[1]",
    ] {
        c.protein(label, column, "1E0", &[(7, 6, 20)]);
    }
    c.molecule(label, "taxid", "9.606E3", &[(7, 4, 20)]);
    c.headed(label, format!("{MH}\nSML→CID:1→2E0\n"), &[(7, 3, 20)]);
    c.headed(label, format!("{EH}\nPEP→AB→Y1→2E0→1E1\n"), &[(7, 4, 20)]);
    for column in ["reliability", "unique"] {
        c.peptide(label, column, "1E0", &[(7, 6, 20)]);
    }
    c.psm("rule 20: text like an exponent", "start", "1E", &[]);
    c.protein("rule 20: text like an exponent", "opt_x", "1E5E5", &[]);
}
