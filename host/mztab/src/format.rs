//! The names of the format that a host needs beside the calls: the sections, the line codes, and what the rules require by name. The calls
//! know them by themselves; `tests/format.rs` holds these to what the library judges.

/// A section of a file.
#[derive(Clone, Copy, Debug, PartialEq, Eq)]
pub struct Section {
    /// The number that the calls take.
    pub number: u32,
    /// Its name for people.
    pub name: &'static str,
    /// The line codes of its headers and of its rows.
    pub header: &'static [u8],
    pub row: &'static [u8],
    /// The columns that rule 16 asks of its headers.
    pub required: &'static [&'static str],
    /// The columns that it asks of them beside these where the file's mode is valid and its type Quantification.
    pub required_quantified: &'static [&'static str],
}

/// All sections, in the order of their numbers.
pub const SECTIONS: [Section; 4] = [
    Section {
        number: 1,
        name: "protein",
        header: b"PRH",
        row: b"PRT",
        required: &["accession", "description", "database", "search_engine"],
        required_quantified: &[],
    },
    Section {
        number: 2,
        name: "peptide",
        header: b"PEH",
        row: b"PEP",
        required: &["sequence", "accession", "charge", "mass_to_charge"],
        required_quantified: &["modifications", "retention_time", "retention_time_window"],
    },
    Section {
        number: 3,
        name: "psm",
        header: b"PSH",
        row: b"PSM",
        required: &["sequence", "PSM_ID", "accession", "charge", "spectra_ref"],
        required_quantified: &[],
    },
    Section {
        number: 4,
        name: "small-molecule",
        header: b"SMH",
        row: b"SML",
        required: &["identifier", "charge"],
        required_quantified: &[],
    },
];

/// The columns of the protein section whose cells a tally adds up, each before the bracket with its run's index: those of PSMs, of distinct
/// and of unique peptides.
pub const COUNTS: [&str; 3] = [
    "num_psms_ms_run",
    "num_peptides_distinct_ms_run",
    "num_peptides_unique_ms_run",
];

/// The line codes of metadata and of comments.
pub const METADATA: &[u8] = b"MTD";
pub const COMMENT: &[u8] = b"COM";

/// The keys that rule 21 asks for: that at place k is reported at cell k + 1. Of the last, any index will do.
pub const REQUIRED_KEYS: [&str; 5] = [
    "mzTab-version",
    "mzTab-mode",
    "mzTab-type",
    "description",
    "ms_run[n]-location",
];

/// The keys of a file's mode and of its type, and their values. The first valid value on a metadata line of three cells counts.
pub const MODE: &str = "mzTab-mode";
pub const MODES: [&str; 2] = ["Summary", "Complete"];
pub const TYPE: &str = "mzTab-type";
pub const TYPES: [&str; 2] = ["Quantification", "Identification"];

/// A field that rule 22 asks for, of files whose mode and type are both valid.
#[derive(Clone, Copy, Debug, PartialEq, Eq)]
pub struct Demand {
    /// The key, with `[n]` where an index stands.
    pub key: &'static str,
    /// The cell at which its absence is reported. An index is added to it where the field is asked for each id.
    pub cell: u32,
    /// Whether it is asked for each declared id that the key begins with. Else one line will do, with any index.
    pub each: bool,
    /// Which files it is asked of, and what for, in words for people.
    pub reason: &'static str,
}

/// All of them, by cell.
pub const DEMANDS: [Demand; 15] = [
    each(
        100,
        "assay[n]-ms_run_ref",
        "each assay of a Quantification file names its run",
    ),
    each(
        200,
        "study_variable[n]-assay_refs",
        "each study variable of a Complete Quantification file, and of a Summary one that declares an assay, names its assays",
    ),
    each(
        300,
        "study_variable[n]-description",
        "each study variable of a Quantification file is described",
    ),
    any(400, "software[n]", "a Complete file names its software"),
    any(
        500,
        "protein_search_engine_score[n]",
        "a file with a protein section names the score of its search engine",
    ),
    any(
        600,
        "peptide_search_engine_score[n]",
        "a file with a peptide section names the score of its search engine",
    ),
    any(
        700,
        "psm_search_engine_score[n]",
        "a file with a PSM section names the score of its search engine",
    ),
    any(
        800,
        "smallmolecule_search_engine_score[n]",
        "a file with a small molecule section names the score of its search engine",
    ),
    any(
        900,
        "fixed_mod[n]",
        "a file says which fixed modifications were searched, or that none were",
    ),
    any(
        1000,
        "variable_mod[n]",
        "a file says which variable modifications were searched, or that none were",
    ),
    any(
        1100,
        "quantification_method",
        "a Complete Quantification file names its method",
    ),
    any(
        1200,
        "protein-quantification_unit",
        "a Quantification file with a protein section names the unit of its abundances",
    ),
    any(
        1300,
        "peptide-quantification_unit",
        "a Quantification file with a peptide section names the unit of its abundances",
    ),
    any(
        1400,
        "small_molecule-quantification_unit",
        "a Quantification file with a small molecule section names the unit of its abundances",
    ),
    each(
        1500,
        "assay[n]-quantification_reagent",
        "each assay of a Quantification file names its reagent",
    ),
];

/// An index is from 1 to this, and has no leading zero.
pub const INDICES: u32 = 64;

const fn each(cell: u32, key: &'static str, reason: &'static str) -> Demand {
    Demand {
        key,
        cell,
        each: true,
        reason,
    }
}

const fn any(cell: u32, key: &'static str, reason: &'static str) -> Demand {
    Demand {
        key,
        cell,
        each: false,
        reason,
    }
}

impl Demand {
    /// The key with this index; `[n]` is kept where the index is 0, which stands for any.
    pub fn key_of(&self, index: u32) -> String {
        match index {
            0 => self.key.to_string(),
            index => self.key.replace("[n]", &format!("[{index}]")),
        }
    }
}

/// The field whose absence rule 22 reports at this cell, and its index, 0 where any will do.
///
/// ```
/// let (demand, index) = mztab::format::demand_at(102).unwrap();
/// assert_eq!(demand.key_of(index), "assay[2]-ms_run_ref");
/// let (demand, index) = mztab::format::demand_at(400).unwrap();
/// assert_eq!((demand.key, index), ("software[n]", 0));
/// assert_eq!(mztab::format::demand_at(100), None);
/// ```
pub fn demand_at(cell: u32) -> Option<(&'static Demand, u32)> {
    let demand = DEMANDS.iter().rev().find(|demand| demand.cell <= cell)?;
    let index = cell - demand.cell;
    let least = u32::from(demand.each);
    let most = if demand.each { INDICES } else { 0 };
    (least..=most).contains(&index).then_some((demand, index))
}

/// What stands in a bracket of digits alone, and is no index.
#[derive(Clone, Copy, Debug, PartialEq, Eq)]
pub struct BadIndex<'a> {
    /// One digit or more.
    pub digits: &'a [u8],
    /// Their number, or `u32::MAX` where it is larger.
    pub number: u32,
}

impl BadIndex<'_> {
    /// The rule that it breaks: 23 for zero and for a leading zero, else 24.
    pub fn rule(&self) -> u32 {
        match self.digits {
            [b'0', ..] => 23,
            _ => 24,
        }
    }
}

/// The leftmost bad index of a cell. Of a key, a value or a column name that breaks rule 23 or 24 it is the one that decides.
///
/// ```
/// let index = mztab::format::bad_index(b"software[1]-setting[065]").unwrap();
/// assert_eq!((index.digits, index.number, index.rule()), (b"065" as &[u8], 65, 23));
/// assert_eq!(mztab::format::bad_index(b"assay[64], assay[1a]"), None);
/// ```
pub fn bad_index(cell: &[u8]) -> Option<BadIndex<'_>> {
    let mut rest = cell;
    while let Some(bracket) = rest.iter().position(|byte| *byte == b'[') {
        rest = &rest[bracket + 1..];
        let length = rest.iter().take_while(|byte| byte.is_ascii_digit());
        let (digits, after) = rest.split_at(length.count());
        if after.first() == Some(&b']') {
            let found = bad(digits);
            if found.is_some() {
                return found;
            }
        }
        rest = after;
    }
    None
}

/// The digits of a bracket, where they are no index. No digit at all is no bad index.
fn bad(digits: &[u8]) -> Option<BadIndex<'_>> {
    let first = digits.first()?;
    let value = |digit: &u8| u32::from(*digit - b'0');
    let number = digits.iter().map(value).fold(0, |number: u32, digit| {
        number.saturating_mul(10).saturating_add(digit)
    });
    (*first == b'0' || number > INDICES).then_some(BadIndex { digits, number })
}

/// The section whose headers have this code.
///
/// ```
/// assert_eq!(mztab::format::headed(b"SMH").map(|section| section.number), Some(4));
/// assert_eq!(mztab::format::headed(b"SML"), None);
/// ```
pub fn headed(code: &[u8]) -> Option<&'static Section> {
    SECTIONS.iter().find(|section| section.header == code)
}
