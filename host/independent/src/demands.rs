//! Request 2026-01, "Demands by mode and type": the fields that rule 22 asks
//! for, and when it asks for them.

use crate::lines::{key_and_value, lines};
use crate::names::Family;

/// `mzTab-mode`
#[derive(Clone, Copy, Debug, PartialEq, Eq)]
pub enum Mode {
    Summary,
    Complete,
}

/// `mzTab-type`
#[derive(Clone, Copy, Debug, PartialEq, Eq)]
pub enum Type {
    Quantification,
    Identification,
}

/// The mode and the type of a file.
#[derive(Clone, Copy, Debug, PartialEq, Eq)]
pub struct Sort {
    pub mode: Mode,
    pub kind: Type,
}

/// "Mode and type are the first valid ones on three-cell MTD lines; without
/// both, nothing is added."
pub fn sort_of(file: &[u8]) -> Option<Sort> {
    let mode = first_valid(file, b"mzTab-mode", mode)?;
    let kind = first_valid(file, b"mzTab-type", kind)?;
    Some(Sort { mode, kind })
}

/// What the first line with the key and a valid value says. A line above it
/// whose value is not valid is passed over.
fn first_valid<T>(file: &[u8], key: &[u8], read: fn(&[u8]) -> Option<T>) -> Option<T> {
    lines(file)
        .filter_map(key_and_value)
        .filter(|(found, _)| *found == key)
        .find_map(|(_, value)| read(value))
}

fn mode(value: &[u8]) -> Option<Mode> {
    match value {
        b"Summary" => Some(Mode::Summary),
        b"Complete" => Some(Mode::Complete),
        _ => None,
    }
}

fn kind(value: &[u8]) -> Option<Type> {
    match value {
        b"Quantification" => Some(Type::Quantification),
        b"Identification" => Some(Type::Identification),
        _ => None,
    }
}

/// A field that rule 22 asks for.
pub struct Field {
    /// The cell of the break; of a field of an id family its index is added.
    pub cell: u32,
    /// The key, `[n]` for an index.
    pub key: &'static str,
    /// The files that it is asked of.
    pub asked: Asked,
    /// What must have it.
    pub of: Of,
}

/// The modes and types in which a field is asked for.
#[derive(Clone, Copy)]
pub enum Asked {
    /// In all four combinations.
    Always,
    /// In Complete files of both types.
    Complete,
    /// In both modes of Quantification.
    Quantification,
    /// In Complete Quantification files alone.
    CompleteQuantification,
    /// "needed in Complete, and in Summary when both assays and study variables
    /// are declared": of Quantification files.
    CompleteOrWithAssays,
}

impl Asked {
    pub fn of(self, sort: Sort, some_assay: bool) -> bool {
        let complete = sort.mode == Mode::Complete;
        let quantified = sort.kind == Type::Quantification;
        match self {
            Asked::Always => true,
            Asked::Complete => complete,
            Asked::Quantification => quantified,
            Asked::CompleteQuantification => complete && quantified,
            Asked::CompleteOrWithAssays => quantified && (complete || some_assay),
        }
    }
}

/// What must have a field.
#[derive(Clone, Copy)]
pub enum Of {
    /// Each declared id of the family, for itself.
    Each(Family),
    /// The file: "any one line will do".
    TheFile,
    /// The file, if it has a header or a row of this section.
    Section(u32),
}

const fn field(cell: u32, key: &'static str, asked: Asked, of: Of) -> Field {
    Field {
        cell,
        key,
        asked,
        of,
    }
}

const EACH_ASSAY: Of = Of::Each(Family::Assay);
const EACH_VARIABLE: Of = Of::Each(Family::StudyVariable);

/// "cell 100, 200 or 300 plus the index for ms_run_ref, assay_refs and
/// description, then further hundreds in the docs/ list's order (rule 21's own
/// left out)": the order of the boxes in section 6.2 of 000. A row each.
#[rustfmt::skip]
pub const FIELDS: [Field; 15] = [
    field(100, "assay[n]-ms_run_ref", Asked::Quantification, EACH_ASSAY),
    field(200, "study_variable[n]-assay_refs", Asked::CompleteOrWithAssays, EACH_VARIABLE),
    field(300, "study_variable[n]-description", Asked::Quantification, EACH_VARIABLE),
    field(400, "software[n]", Asked::Complete, Of::TheFile),
    field(500, "protein_search_engine_score[n]", Asked::Always, Of::Section(1)),
    field(600, "peptide_search_engine_score[n]", Asked::Always, Of::Section(2)),
    field(700, "psm_search_engine_score[n]", Asked::Always, Of::Section(3)),
    field(800, "smallmolecule_search_engine_score[n]", Asked::Always, Of::Section(4)),
    field(900, "fixed_mod[n]", Asked::Always, Of::TheFile),
    field(1000, "variable_mod[n]", Asked::Always, Of::TheFile),
    field(1100, "quantification_method", Asked::CompleteQuantification, Of::TheFile),
    field(1200, "protein-quantification_unit", Asked::Quantification, Of::Section(1)),
    field(1300, "peptide-quantification_unit", Asked::Quantification, Of::Section(2)),
    field(1400, "small_molecule-quantification_unit", Asked::Quantification, Of::Section(4)),
    field(1500, "assay[n]-quantification_reagent", Asked::Quantification, EACH_ASSAY),
];

/// The field that a cell of rule 22 stands for, and the index in it: 0 "for a
/// field of no id family".
pub fn at_cell(cell: u32) -> Option<(&'static Field, u32)> {
    let field = FIELDS.iter().find(|field| field.cell == cell / 100 * 100)?;
    Some((field, cell % 100))
}
