//! "Metadata keys" and "Columns": the lists of names, written out.

use crate::kinds::{bracket, index, index_of, leftmost_bad, Bad};

/// "The kinds of value", and the three that are fixed by their keys.
#[derive(Clone, Copy, Debug, PartialEq, Eq)]
pub enum Kind {
    Version,
    Mode,
    Type,
    Text,
    /// Text of a column in which `null` "is not of the kind".
    NeverNull,
    Whole,
    Decimal,
    DecimalList,
    Window,
    Parameter,
    ParameterList,
    /// "as the key asks": the family of the id.
    Reference(Family),
    ReferenceList(Family),
    /// That of sections 1 to 3.
    Reliability,
    Unique,
}

/// "There are four families of ids".
#[derive(Clone, Copy, Debug, PartialEq, Eq, Hash)]
pub enum Family {
    Sample,
    Assay,
    StudyVariable,
    MsRun,
}

pub const FAMILIES: [Family; 4] = [
    Family::Sample,
    Family::Assay,
    Family::StudyVariable,
    Family::MsRun,
];

impl Family {
    /// The word that its ids begin with.
    pub fn word(self) -> &'static str {
        match self {
            Family::Sample => "sample",
            Family::Assay => "assay",
            Family::StudyVariable => "study_variable",
            Family::MsRun => "ms_run",
        }
    }
}

/// What is known of a key or a column by its name.
#[derive(Clone, Copy, Debug, PartialEq, Eq)]
pub struct Known {
    pub kind: Kind,
    /// Of a column, the family of the id that its name names.
    pub family: Option<Family>,
    /// The first index of the name, 0 where there is none.
    pub i: u32,
    /// The second index of the name, 0 where there is none.
    pub j: u32,
}

/// Every metadata key, by kind. "n is an index; two in one name may differ."
pub const KEYS: &[(Kind, &[&str])] = &[
    // "Fixed:"
    (Kind::Version, &["mzTab-version"]),
    (Kind::Mode, &["mzTab-mode"]),
    (Kind::Type, &["mzTab-type"]),
    // "Text:"
    (
        Kind::Text,
        &[
            "mzTab-ID",
            "title",
            "description",
            "software[n]-setting[n]",
            "publication[n]",
            "contact[n]-name",
            "contact[n]-affiliation",
            "contact[n]-email",
            "uri[n]",
            "fixed_mod[n]-site",
            "fixed_mod[n]-position",
            "variable_mod[n]-site",
            "variable_mod[n]-position",
            "ms_run[n]-location",
            "sample[n]-description",
            "assay[n]-quantification_mod[n]-site",
            "assay[n]-quantification_mod[n]-position",
            "study_variable[n]-description",
            "cv[n]-label",
            "cv[n]-full_name",
            "cv[n]-version",
            "cv[n]-url",
            "colunit-protein",
            "colunit-peptide",
            "colunit-psm",
            "colunit-small_molecule",
        ],
    ),
    // "Parameter:"
    (
        Kind::Parameter,
        &[
            "instrument[n]-name",
            "instrument[n]-source",
            "instrument[n]-analyzer[n]",
            "instrument[n]-detector",
            "software[n]",
            "protein_search_engine_score[n]",
            "peptide_search_engine_score[n]",
            "psm_search_engine_score[n]",
            "smallmolecule_search_engine_score[n]",
            "fixed_mod[n]",
            "variable_mod[n]",
            "quantification_method",
            "protein-quantification_unit",
            "peptide-quantification_unit",
            "small_molecule-quantification_unit",
            "ms_run[n]-format",
            "ms_run[n]-id_format",
            "ms_run[n]-fragmentation_method",
            "custom[n]",
            "sample[n]-species[n]",
            "sample[n]-tissue[n]",
            "sample[n]-cell_type[n]",
            "sample[n]-disease[n]",
            "sample[n]-custom[n]",
            "assay[n]-quantification_reagent",
            "assay[n]-quantification_mod[n]",
        ],
    ),
    // "Parameter list:"
    (
        Kind::ParameterList,
        &["sample_processing[n]", "false_discovery_rate"],
    ),
    // "References:"
    (Kind::Reference(Family::Sample), &["assay[n]-sample_ref"]),
    (Kind::Reference(Family::MsRun), &["assay[n]-ms_run_ref"]),
    // "lists"
    (
        Kind::ReferenceList(Family::Assay),
        &["study_variable[n]-assay_refs"],
    ),
    (
        Kind::ReferenceList(Family::Sample),
        &["study_variable[n]-sample_refs"],
    ),
];

/// Every column but the `opt_` ones: its sections, its name and its kind. "P, E,
/// S, M are sections 1 to 4."
pub const COLUMNS: &[(&str, &str, Kind)] = &[
    // "Text:", never null where `null` is not of the kind
    ("P", "accession", Kind::NeverNull),
    ("ES", "accession", Kind::Text),
    ("PM", "description", Kind::Text),
    ("PM", "species", Kind::Text),
    ("PESM", "database", Kind::Text),
    ("PESM", "database_version", Kind::Text),
    ("P", "ambiguity_members", Kind::Text),
    ("PESM", "modifications", Kind::Text),
    ("PESM", "uri", Kind::Text),
    ("P", "go_terms", Kind::Text),
    ("ES", "sequence", Kind::NeverNull),
    ("S", "PSM_ID", Kind::NeverNull),
    ("ESM", "spectra_ref", Kind::Text),
    ("S", "pre", Kind::Text),
    ("S", "post", Kind::Text),
    ("S", "start", Kind::Text),
    ("S", "end", Kind::Text),
    ("M", "identifier", Kind::Text),
    ("M", "chemical_formula", Kind::Text),
    ("M", "smiles", Kind::Text),
    ("M", "inchi_key", Kind::Text),
    ("M", "reliability", Kind::Text),
    // "Whole:"
    ("PM", "taxid", Kind::Whole),
    ("ESM", "charge", Kind::Whole),
    ("P", "num_psms_ms_run[n]", Kind::Whole),
    ("P", "num_peptides_distinct_ms_run[n]", Kind::Whole),
    ("P", "num_peptides_unique_ms_run[n]", Kind::Whole),
    // "Reliability PES: `1`, `2` or `3`. Unique ES: `0` or `1`."
    ("PES", "reliability", Kind::Reliability),
    ("ES", "unique", Kind::Unique),
    // "Decimal:"
    ("P", "protein_coverage", Kind::Decimal),
    ("E", "mass_to_charge", Kind::Decimal),
    ("SM", "exp_mass_to_charge", Kind::Decimal),
    ("SM", "calc_mass_to_charge", Kind::Decimal),
    ("PEM", "best_search_engine_score[n]", Kind::Decimal),
    ("PEM", "search_engine_score[n]_ms_run[n]", Kind::Decimal),
    ("S", "search_engine_score[n]", Kind::Decimal),
    ("P", "protein_abundance_assay[n]", Kind::Decimal),
    ("P", "protein_abundance_study_variable[n]", Kind::Decimal),
    (
        "P",
        "protein_abundance_stdev_study_variable[n]",
        Kind::Decimal,
    ),
    (
        "P",
        "protein_abundance_std_error_study_variable[n]",
        Kind::Decimal,
    ),
    ("E", "peptide_abundance_assay[n]", Kind::Decimal),
    ("E", "peptide_abundance_study_variable[n]", Kind::Decimal),
    (
        "E",
        "peptide_abundance_stdev_study_variable[n]",
        Kind::Decimal,
    ),
    (
        "E",
        "peptide_abundance_std_error_study_variable[n]",
        Kind::Decimal,
    ),
    ("M", "smallmolecule_abundance_assay[n]", Kind::Decimal),
    (
        "M",
        "smallmolecule_abundance_study_variable[n]",
        Kind::Decimal,
    ),
    (
        "M",
        "smallmolecule_abundance_stdev_study_variable[n]",
        Kind::Decimal,
    ),
    (
        "M",
        "smallmolecule_abundance_std_error_study_variable[n]",
        Kind::Decimal,
    ),
    // "Decimal list:"
    ("ESM", "retention_time", Kind::DecimalList),
    // "Window:"
    ("E", "retention_time_window", Kind::Window),
    // "Parameter list:"
    ("PESM", "search_engine", Kind::ParameterList),
];

/// "Required:" the columns that a header of the section must have.
pub fn required(section: u32) -> &'static [&'static str] {
    match section {
        1 => &["accession", "description", "database", "search_engine"],
        2 => &["sequence", "accession", "charge", "mass_to_charge"],
        3 => &["sequence", "PSM_ID", "accession", "charge", "spectra_ref"],
        4 => &["identifier", "charge"],
        _ => &[],
    }
}

/// Request 2026-01: "In Quantification a peptide header needs modifications,
/// retention_time and retention_time_window too". The columns that a header of
/// the section must have in such a file beside those of every file.
pub fn required_in_quantification(section: u32) -> &'static [&'static str] {
    match section {
        2 => &["modifications", "retention_time", "retention_time_window"],
        _ => &[],
    }
}

/// Every metadata key with its kind, in the order of the lists.
pub fn keys() -> impl Iterator<Item = (&'static str, Kind)> {
    let of_kind = |(kind, patterns): &'static (Kind, &[&'static str])| {
        patterns.iter().map(move |pattern| (*pattern, *kind))
    };
    KEYS.iter().flat_map(of_kind)
}

/// What is known of a metadata key; nothing of an unknown one.
pub fn key(name: &[u8]) -> Option<Known> {
    for (pattern, kind) in keys() {
        if let Some((i, j)) = fits(pattern, name) {
            let family = None;
            return Some(Known { kind, family, i, j });
        }
    }
    None
}

/// What is known of a column in a section; nothing of an unknown one.
pub fn column(section: u32, name: &[u8]) -> Option<Known> {
    let letter = section_letter(section)?;
    // "A name that begins `opt_` and has a byte more is known everywhere; text,
    // and names no id."
    if name.starts_with(b"opt_") && name.len() > 4 {
        return Some(OPTIONAL);
    }
    for (sections, pattern, kind) in COLUMNS {
        if let Some((i, j)) = fits(pattern, name) {
            if sections.contains(letter) {
                let (kind, family) = (*kind, family_at_end(pattern));
                return Some(Known { kind, family, i, j });
            }
        }
    }
    None
}

const OPTIONAL: Known = Known {
    kind: Kind::Text,
    family: None,
    i: 0,
    j: 0,
};

/// A column names an id where its name ends with one.
fn family_at_end(pattern: &str) -> Option<Family> {
    let before_index = pattern.strip_suffix("[n]")?;
    let ends_so = |family: &Family| before_index.ends_with(family.word());
    FAMILIES.into_iter().find(ends_so)
}

/// The id, as family and index, that a known key begins with.
pub fn declares(name: &[u8]) -> Option<(Family, u32)> {
    key(name)?;
    for family in FAMILIES {
        let rest = name.strip_prefix(family.word().as_bytes());
        if let Some((value, _)) = rest.and_then(index) {
            return Some((family, value));
        }
    }
    None
}

/// The id that a column's name names: the last index of the name is the id's.
pub fn named_id(column: &Known) -> Option<(Family, u32)> {
    match column.j {
        0 => Some((column.family?, column.i)),
        j => Some((column.family?, j)),
    }
}

fn section_letter(section: u32) -> Option<char> {
    match section {
        1 => Some('P'),
        2 => Some('E'),
        3 => Some('S'),
        4 => Some('M'),
        _ => None,
    }
}

/// The indices of a name that is as the pattern says, with an index for each
/// `[n]`; 0 for an index that the pattern has not.
pub fn fits(pattern: &str, name: &[u8]) -> Option<(u32, u32)> {
    let mut indices = [0, 0];
    for (k, number) in numbers(pattern, name)?.into_iter().enumerate() {
        indices[k] = index_of(number).ok()?;
    }
    Some((indices[0], indices[1]))
}

/// The digits in the brackets of a name that is as the pattern says, or would be
/// so "but for its indices": each `[n]` stands for digits in brackets.
fn numbers<'a>(pattern: &str, name: &'a [u8]) -> Option<Vec<&'a [u8]>> {
    if pattern.as_bytes().first() != name.first() {
        return None;
    }
    let mut pieces = pattern.split("[n]");
    let mut rest = name.strip_prefix(pieces.next()?.as_bytes())?;
    let mut found = Vec::new();
    for piece in pieces {
        let (number, after) = bracket(rest)?;
        found.push(number);
        rest = after.strip_prefix(piece.as_bytes())?;
    }
    if rest.is_empty() {
        Some(found)
    } else {
        None
    }
}

/// What is wrong with the leftmost bad index of a key that "would be known but
/// for its indices"; nothing of any other key.
pub fn bad_key(name: &[u8]) -> Option<Bad> {
    let mut fitting = keys().filter_map(|(pattern, _)| numbers(pattern, name));
    leftmost_bad(&fitting.next()?)
}

/// The same of a column in a section.
pub fn bad_column(section: u32, name: &[u8]) -> Option<Bad> {
    let letter = section_letter(section)?;
    let mut fitting = COLUMNS
        .iter()
        .filter(|(sections, _, _)| sections.contains(letter))
        .filter_map(|(_, pattern, _)| numbers(pattern, name));
    leftmost_bad(&fitting.next()?)
}
