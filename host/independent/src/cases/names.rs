//! Names of keys and columns: every one of the paper, written out with good
//! indices and with the line that the mode `names` prints for it; and variants
//! made from them.

use std::collections::HashSet;

/// Every key and column name of the paper, `opt_` columns too.
pub const EVERY: &[(&str, &str)] = &[
    // key ; protein ; peptide ; psm ; small molecule ; declared
    ("mzTab-version", "v- 0 0 ; - ; - ; - ; - ; -"),
    ("mzTab-mode", "m- 0 0 ; - ; - ; - ; - ; -"),
    ("mzTab-type", "t- 0 0 ; - ; - ; - ; - ; -"),
    ("mzTab-ID", "T- 0 0 ; - ; - ; - ; - ; -"),
    ("title", "T- 0 0 ; - ; - ; - ; - ; -"),
    ("description", "T- 0 0 ; T- 0 0 ; - ; - ; T- 0 0 ; -"),
    ("software[3]-setting[5]", "T- 3 5 ; - ; - ; - ; - ; -"),
    ("publication[3]", "T- 3 0 ; - ; - ; - ; - ; -"),
    ("contact[3]-name", "T- 3 0 ; - ; - ; - ; - ; -"),
    ("contact[3]-affiliation", "T- 3 0 ; - ; - ; - ; - ; -"),
    ("contact[3]-email", "T- 3 0 ; - ; - ; - ; - ; -"),
    ("uri[3]", "T- 3 0 ; - ; - ; - ; - ; -"),
    ("fixed_mod[3]-site", "T- 3 0 ; - ; - ; - ; - ; -"),
    ("fixed_mod[3]-position", "T- 3 0 ; - ; - ; - ; - ; -"),
    ("variable_mod[3]-site", "T- 3 0 ; - ; - ; - ; - ; -"),
    ("variable_mod[3]-position", "T- 3 0 ; - ; - ; - ; - ; -"),
    ("ms_run[3]-location", "T- 3 0 ; - ; - ; - ; - ; R 3"),
    ("sample[3]-description", "T- 3 0 ; - ; - ; - ; - ; S 3"),
    (
        "assay[3]-quantification_mod[5]-site",
        "T- 3 5 ; - ; - ; - ; - ; A 3",
    ),
    (
        "assay[3]-quantification_mod[5]-position",
        "T- 3 5 ; - ; - ; - ; - ; A 3",
    ),
    (
        "study_variable[3]-description",
        "T- 3 0 ; - ; - ; - ; - ; V 3",
    ),
    ("cv[3]-label", "T- 3 0 ; - ; - ; - ; - ; -"),
    ("cv[3]-full_name", "T- 3 0 ; - ; - ; - ; - ; -"),
    ("cv[3]-version", "T- 3 0 ; - ; - ; - ; - ; -"),
    ("cv[3]-url", "T- 3 0 ; - ; - ; - ; - ; -"),
    ("colunit-protein", "T- 0 0 ; - ; - ; - ; - ; -"),
    ("colunit-peptide", "T- 0 0 ; - ; - ; - ; - ; -"),
    ("colunit-psm", "T- 0 0 ; - ; - ; - ; - ; -"),
    ("colunit-small_molecule", "T- 0 0 ; - ; - ; - ; - ; -"),
    ("instrument[3]-name", "P- 3 0 ; - ; - ; - ; - ; -"),
    ("instrument[3]-source", "P- 3 0 ; - ; - ; - ; - ; -"),
    ("instrument[3]-analyzer[5]", "P- 3 5 ; - ; - ; - ; - ; -"),
    ("instrument[3]-detector", "P- 3 0 ; - ; - ; - ; - ; -"),
    ("software[3]", "P- 3 0 ; - ; - ; - ; - ; -"),
    (
        "protein_search_engine_score[3]",
        "P- 3 0 ; - ; - ; - ; - ; -",
    ),
    (
        "peptide_search_engine_score[3]",
        "P- 3 0 ; - ; - ; - ; - ; -",
    ),
    ("psm_search_engine_score[3]", "P- 3 0 ; - ; - ; - ; - ; -"),
    (
        "smallmolecule_search_engine_score[3]",
        "P- 3 0 ; - ; - ; - ; - ; -",
    ),
    ("fixed_mod[3]", "P- 3 0 ; - ; - ; - ; - ; -"),
    ("variable_mod[3]", "P- 3 0 ; - ; - ; - ; - ; -"),
    ("quantification_method", "P- 0 0 ; - ; - ; - ; - ; -"),
    ("protein-quantification_unit", "P- 0 0 ; - ; - ; - ; - ; -"),
    ("peptide-quantification_unit", "P- 0 0 ; - ; - ; - ; - ; -"),
    (
        "small_molecule-quantification_unit",
        "P- 0 0 ; - ; - ; - ; - ; -",
    ),
    ("ms_run[3]-format", "P- 3 0 ; - ; - ; - ; - ; R 3"),
    ("ms_run[3]-id_format", "P- 3 0 ; - ; - ; - ; - ; R 3"),
    (
        "ms_run[3]-fragmentation_method",
        "P- 3 0 ; - ; - ; - ; - ; R 3",
    ),
    ("custom[3]", "P- 3 0 ; - ; - ; - ; - ; -"),
    ("sample[3]-species[5]", "P- 3 5 ; - ; - ; - ; - ; S 3"),
    ("sample[3]-tissue[5]", "P- 3 5 ; - ; - ; - ; - ; S 3"),
    ("sample[3]-cell_type[5]", "P- 3 5 ; - ; - ; - ; - ; S 3"),
    ("sample[3]-disease[5]", "P- 3 5 ; - ; - ; - ; - ; S 3"),
    ("sample[3]-custom[5]", "P- 3 5 ; - ; - ; - ; - ; S 3"),
    (
        "assay[3]-quantification_reagent",
        "P- 3 0 ; - ; - ; - ; - ; A 3",
    ),
    (
        "assay[3]-quantification_mod[5]",
        "P- 3 5 ; - ; - ; - ; - ; A 3",
    ),
    ("sample_processing[3]", "Q- 3 0 ; - ; - ; - ; - ; -"),
    ("false_discovery_rate", "Q- 0 0 ; - ; - ; - ; - ; -"),
    ("assay[3]-sample_ref", "rS 3 0 ; - ; - ; - ; - ; A 3"),
    ("assay[3]-ms_run_ref", "rR 3 0 ; - ; - ; - ; - ; A 3"),
    (
        "study_variable[3]-assay_refs",
        "lA 3 0 ; - ; - ; - ; - ; V 3",
    ),
    (
        "study_variable[3]-sample_refs",
        "lS 3 0 ; - ; - ; - ; - ; V 3",
    ),
    // Columns.
    ("accession", "- ; K- 0 0 ; T- 0 0 ; T- 0 0 ; - ; -"),
    ("species", "- ; T- 0 0 ; - ; - ; T- 0 0 ; -"),
    ("database", "- ; T- 0 0 ; T- 0 0 ; T- 0 0 ; T- 0 0 ; -"),
    (
        "database_version",
        "- ; T- 0 0 ; T- 0 0 ; T- 0 0 ; T- 0 0 ; -",
    ),
    ("ambiguity_members", "- ; T- 0 0 ; - ; - ; - ; -"),
    ("modifications", "- ; T- 0 0 ; T- 0 0 ; T- 0 0 ; T- 0 0 ; -"),
    ("uri", "- ; T- 0 0 ; T- 0 0 ; T- 0 0 ; T- 0 0 ; -"),
    ("go_terms", "- ; T- 0 0 ; - ; - ; - ; -"),
    ("sequence", "- ; - ; K- 0 0 ; K- 0 0 ; - ; -"),
    ("PSM_ID", "- ; - ; - ; K- 0 0 ; - ; -"),
    ("spectra_ref", "- ; - ; T- 0 0 ; T- 0 0 ; T- 0 0 ; -"),
    ("pre", "- ; - ; - ; T- 0 0 ; - ; -"),
    ("post", "- ; - ; - ; T- 0 0 ; - ; -"),
    ("start", "- ; - ; - ; T- 0 0 ; - ; -"),
    ("end", "- ; - ; - ; T- 0 0 ; - ; -"),
    ("identifier", "- ; - ; - ; - ; T- 0 0 ; -"),
    ("chemical_formula", "- ; - ; - ; - ; T- 0 0 ; -"),
    ("smiles", "- ; - ; - ; - ; T- 0 0 ; -"),
    ("inchi_key", "- ; - ; - ; - ; T- 0 0 ; -"),
    ("reliability", "- ; R- 0 0 ; R- 0 0 ; R- 0 0 ; T- 0 0 ; -"),
    ("taxid", "- ; W- 0 0 ; - ; - ; W- 0 0 ; -"),
    ("charge", "- ; - ; W- 0 0 ; W- 0 0 ; W- 0 0 ; -"),
    ("num_psms_ms_run[3]", "- ; WR 3 0 ; - ; - ; - ; -"),
    (
        "num_peptides_distinct_ms_run[3]",
        "- ; WR 3 0 ; - ; - ; - ; -",
    ),
    (
        "num_peptides_unique_ms_run[3]",
        "- ; WR 3 0 ; - ; - ; - ; -",
    ),
    ("unique", "- ; - ; U- 0 0 ; U- 0 0 ; - ; -"),
    ("protein_coverage", "- ; D- 0 0 ; - ; - ; - ; -"),
    ("mass_to_charge", "- ; - ; D- 0 0 ; - ; - ; -"),
    ("exp_mass_to_charge", "- ; - ; - ; D- 0 0 ; D- 0 0 ; -"),
    ("calc_mass_to_charge", "- ; - ; - ; D- 0 0 ; D- 0 0 ; -"),
    (
        "best_search_engine_score[3]",
        "- ; D- 3 0 ; D- 3 0 ; - ; D- 3 0 ; -",
    ),
    (
        "search_engine_score[3]_ms_run[5]",
        "- ; DR 3 5 ; DR 3 5 ; - ; DR 3 5 ; -",
    ),
    ("search_engine_score[3]", "- ; - ; - ; D- 3 0 ; - ; -"),
    ("protein_abundance_assay[3]", "- ; DA 3 0 ; - ; - ; - ; -"),
    (
        "protein_abundance_study_variable[3]",
        "- ; DV 3 0 ; - ; - ; - ; -",
    ),
    (
        "protein_abundance_stdev_study_variable[3]",
        "- ; DV 3 0 ; - ; - ; - ; -",
    ),
    (
        "protein_abundance_std_error_study_variable[3]",
        "- ; DV 3 0 ; - ; - ; - ; -",
    ),
    ("peptide_abundance_assay[3]", "- ; - ; DA 3 0 ; - ; - ; -"),
    (
        "peptide_abundance_study_variable[3]",
        "- ; - ; DV 3 0 ; - ; - ; -",
    ),
    (
        "peptide_abundance_stdev_study_variable[3]",
        "- ; - ; DV 3 0 ; - ; - ; -",
    ),
    (
        "peptide_abundance_std_error_study_variable[3]",
        "- ; - ; DV 3 0 ; - ; - ; -",
    ),
    (
        "smallmolecule_abundance_assay[3]",
        "- ; - ; - ; - ; DA 3 0 ; -",
    ),
    (
        "smallmolecule_abundance_study_variable[3]",
        "- ; - ; - ; - ; DV 3 0 ; -",
    ),
    (
        "smallmolecule_abundance_stdev_study_variable[3]",
        "- ; - ; - ; - ; DV 3 0 ; -",
    ),
    (
        "smallmolecule_abundance_std_error_study_variable[3]",
        "- ; - ; - ; - ; DV 3 0 ; -",
    ),
    ("retention_time", "- ; - ; L- 0 0 ; L- 0 0 ; L- 0 0 ; -"),
    ("retention_time_window", "- ; - ; N- 0 0 ; - ; - ; -"),
    ("search_engine", "- ; Q- 0 0 ; Q- 0 0 ; Q- 0 0 ; Q- 0 0 ; -"),
    ("opt_x", "- ; T- 0 0 ; T- 0 0 ; T- 0 0 ; T- 0 0 ; -"),
    ("opt__", "- ; T- 0 0 ; T- 0 0 ; T- 0 0 ; T- 0 0 ; -"),
    ("opt_ ", "- ; T- 0 0 ; T- 0 0 ; T- 0 0 ; T- 0 0 ; -"),
    (
        "opt_ms_run[1]_cv_MS:1001905_emPAI_value",
        "- ; T- 0 0 ; T- 0 0 ; T- 0 0 ; T- 0 0 ; -",
    ),
    ("opt_assay[65]", "- ; T- 0 0 ; T- 0 0 ; T- 0 0 ; T- 0 0 ; -"),
    ("opt_accession", "- ; T- 0 0 ; T- 0 0 ; T- 0 0 ; T- 0 0 ; -"),
];

/// The line printed for a name that is unknown everywhere.
pub const UNKNOWN: &str = "- ; - ; - ; - ; - ; -";

/// Names near the paper's, all unknown everywhere.
pub const NEAR: &[&str] = &[
    "",
    " ",
    "opt",
    "opt_",
    "Opt_x",
    "OPT_x",
    " opt_x",
    "xopt_x",
    "null",
    "MTD",
    "PRH",
    "sample[1]",
    "assay[1]",
    "study_variable[1]",
    "ms_run[1]",
    "sample[1]-",
    "assay[1]-",
    "study_variable[1]-",
    "ms_run[1]-",
    "sample[1]-foo",
    "sample-description",
    "sample[1]-species",
    "sample[1]-description[1]",
    "sample[1]-sample_ref",
    "sample[1]-name",
    "assay[1]-description",
    "assay[1]-quantification_mod",
    "assay[1]-quantification_mod-site",
    "assay[1]-quantification_mod[1]-name",
    "assay[1]-sample_refs",
    "assay[1]-assay_refs",
    "assay[1]-assay_ref",
    "assay[1]-ms_run_refs",
    "study_variable[1]-assay_ref",
    "study_variable[1]-sample_ref",
    "study_variable[1]-ms_run_refs",
    "study_variable[1]-ms_run_ref",
    "ms_run[1]-description",
    "ms_run[1]-hash",
    "ms_run[1]-hash_method",
    "ms_run[1]-fragmentation method",
    "ms_run_location[1]",
    "ms_run-location[1]",
    "ms_run-location",
    "location",
    "fixed_modification[1]",
    "variable_modification[1]",
    "fixed_mod",
    "fixed_mod-site",
    "fixed_mod[1]-name",
    "variable_mod",
    "quantification_unit",
    "quantification_method[1]",
    "psm-quantification_unit",
    "smallmolecule-quantification_unit",
    "protein_quantification_unit",
    "small_molecule_search_engine_score[1]",
    "smallmolecule_search_engine_score",
    "search_engine_score",
    "search_engine_score_ms_run[1]",
    "search_engine_score[1]-ms_run[1]",
    "search_engine_score[1]ms_run[1]",
    "search_engine_score[1]_ms_run",
    "search_engine_score[1]_assay[1]",
    "search_engine[1]",
    "best_search_engine_score",
    "best_search_engine_score[1]_ms_run[1]",
    "small_molecule_abundance_assay[1]",
    "psm_abundance_assay[1]",
    "psm_abundance_study_variable[1]",
    "protein_abundance_stdev_assay[1]",
    "protein_abundance_std_error_assay[1]",
    "protein_abundance_sub[1]",
    "protein_abundance_ms_run[1]",
    "protein_abundance_sample[1]",
    "protein_abundance_stderr_study_variable[1]",
    "protein_abundance_std_dev_study_variable[1]",
    "num_psms",
    "num_psms_ms_run",
    "num_psms_assay[1]",
    "num_peptides_ms_run[1]",
    "num_peptides_distinct",
    "num_peptides_unambiguous_ms_run[1]",
    "peptide_coverage",
    "coverage",
    "colunit",
    "colunit-",
    "colunit-proteins",
    "colunit-PSM",
    "colunit-smallmolecule",
    "colunit-small-molecule",
    "colunit-protein[1]",
    "colunit_protein",
    "instrument[1]",
    "instrument[1]-analyzer",
    "instrument[1]-source[1]",
    "software",
    "software[1]-setting",
    "software[1]-settings[1]",
    "publication",
    "contact[1]",
    "contact[1]-address",
    "custom",
    "cv[1]",
    "cv[1]-name",
    "cv-label",
    "sample_processing",
    "false_discovery_rate[1]",
    "mzTab",
    "mzTab-",
    "mzTab-id",
    "mzTab_version",
    "version",
    "mode",
    "type",
    "psm_id",
    "PSM_id",
    "Accession",
    "inchi",
    "formula",
    "window",
    "unit_id",
];

/// What may stand where an index belongs.
const INDICES: &[&str] = &[
    "[0]",
    "[00]",
    "[01]",
    "[1]",
    "[9]",
    "[10]",
    "[60]",
    "[63]",
    "[64]",
    "[65]",
    "[66]",
    "[70]",
    "[99]",
    "[100]",
    "[064]",
    "[640]",
    "[4294967297]",
    "[]",
    "[ ]",
    "[ 1]",
    "[1 ]",
    "[a]",
    "[n]",
    "[1a]",
    "[-1]",
    "[+1]",
    "[1.0]",
    "[1-n]",
    "[1,2]",
    "1]",
    "[1",
    "1",
    "",
    "[1]]",
    "[[1]",
    "[1][1]",
    "[1][2]",
    "(1)",
    "{1}",
    " [1]",
];

/// All names of the input: each of the paper's, then its variants.
pub fn all() -> Vec<Vec<u8>> {
    let mut names = Vec::new();
    for (name, _) in EVERY {
        names.push(name.as_bytes().to_vec());
    }
    for name in NEAR {
        names.push(name.as_bytes().to_vec());
    }
    names.push(b"opt_\xff".to_vec());
    names.push(b"opt_\x01".to_vec());
    names.push(b"titl\xe9".to_vec());
    names.push(b"title\r".to_vec());
    for (name, _) in EVERY {
        with_other_indices(name, &mut names);
        prefixes(name, &mut names);
        one_byte_changed(name, &mut names);
        something_added(name, &mut names);
    }
    each_once(names)
}

/// The name with each of the variants in the place of each of its indices.
fn with_other_indices(name: &str, names: &mut Vec<Vec<u8>>) {
    for own in ["[3]", "[5]"] {
        if name.contains(own) {
            for index in INDICES {
                names.push(name.replacen(own, index, 1).into_bytes());
            }
        }
    }
    if name.contains("[5]") {
        for (first, second) in [
            ("[64]", "[64]"),
            ("[65]", "[65]"),
            ("[5]", "[3]"),
            ("[9]", "[9]"),
        ] {
            let other = name.replacen("[5]", "[x]", 1).replacen("[3]", first, 1);
            names.push(other.replacen("[x]", second, 1).into_bytes());
        }
    }
}

fn prefixes(name: &str, names: &mut Vec<Vec<u8>>) {
    for length in 0..name.len() {
        names.push(name.as_bytes()[..length].to_vec());
    }
    names.push(name.as_bytes()[1..].to_vec());
}

/// A letter in its other case, another digit for a digit, `x` for all else.
fn one_byte_changed(name: &str, names: &mut Vec<Vec<u8>>) {
    for at in 0..name.len() {
        let mut other = name.as_bytes().to_vec();
        other[at] = match other[at] {
            letter if letter.is_ascii_alphabetic() => letter ^ 32,
            digit if digit.is_ascii_digit() => b'0' + (digit - b'0' + 1) % 10,
            b'_' => b'-',
            b'-' => b'_',
            _ => b'x',
        };
        names.push(other);
    }
}

fn something_added(name: &str, names: &mut Vec<Vec<u8>>) {
    for other in [
        format!("{name} "),
        format!(" {name}"),
        format!("{name}x"),
        format!("x{name}"),
        format!("{name}[1]"),
        format!("{name}-site"),
        format!("{name}_ms_run[1]"),
        format!("opt_{name}"),
        format!("colunit-{name}"),
        format!("{name}\r"),
        format!("{name}\t"),
    ] {
        names.push(other.into_bytes());
    }
}

fn each_once(names: Vec<Vec<u8>>) -> Vec<Vec<u8>> {
    let mut seen = HashSet::new();
    names
        .into_iter()
        .filter(|name| seen.insert(name.clone()))
        .collect()
}
