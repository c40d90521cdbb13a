//! Files with holes, and what becomes of each, written by hand.

use super::lines::{wide, EH, ER, MH, MR, PH, PR, QUANTIFIED, SH, SR};
use super::tabs;

pub struct Case {
    pub label: &'static str,
    pub file: Vec<u8>,
    /// The file with `null` in its holes, save where that may not stand.
    pub copy: Vec<u8>,
    /// Line and cell of each.
    pub changes: Vec<(u32, u32)>,
}

impl Case {
    /// What the mode `mends` prints for it: of the large buffer the copy and a
    /// byte more, of the small one all.
    pub fn printed(&self) -> Vec<u8> {
        let (answer, length, large) = self.with_room(4_096);
        let shown = (length + 1).min(4_096);
        let (other, _, small) = self.with_room(60);
        let bytes: [&[u8]; 6] = [
            answer.as_bytes(),
            &large[..shown],
            b"\n",
            other.as_bytes(),
            &small,
            b"\n.\n",
        ];
        bytes.concat()
    }

    /// The line of the answer, the length, and the buffer of so many bytes.
    fn with_room(&self, room: usize) -> (String, usize, Vec<u8>) {
        let mut buffer = vec![b'#'; room];
        let (length, count) = (self.copy.len(), self.changes.len());
        if length > room {
            return (format!("mend {room}: 5 0 0 9 9 9 9 9\n"), 0, buffer);
        }
        buffer[..length].copy_from_slice(&self.copy);
        let answer = format!("mend {room}: 0 {length} {count}{}\n", self.list());
        (answer, length, buffer)
    }

    /// A list of five places has room for two changes.
    fn list(&self) -> String {
        let shown = &self.changes[..self.changes.len().min(2)];
        let two = shown.iter().map(|(line, cell)| format!(" {line} {cell}"));
        two.collect::<String>() + &" 9".repeat(5 - 2 * shown.len())
    }
}

/// A line and its cells that change.
type Changes<'a> = &'a [(u32, &'a [u32])];

struct Cases {
    list: Vec<Case>,
}

impl Cases {
    /// A text with a star in each hole that is to be mended, an arrow for a tab.
    /// A hole that is to stay has none.
    fn of(&mut self, label: &'static str, text: impl AsRef<[u8]>, changes: Changes) {
        let with = |bytes: &[u8]| {
            let text = tabs(text.as_ref());
            let pieces: Vec<&[u8]> = text.split(|byte| *byte == b'*').collect();
            pieces.join(bytes)
        };
        self.written(label, with(b""), with(b"null"), changes);
    }

    /// File and copy, both written out.
    fn written(
        &mut self,
        label: &'static str,
        file: impl AsRef<[u8]>,
        copy: impl AsRef<[u8]>,
        changes: Changes,
    ) {
        let each = |&(line, cells): &(u32, &[u32])| {
            let of_line = cells.iter().map(move |cell| (line, *cell));
            of_line.collect::<Vec<_>>()
        };
        self.list.push(Case {
            label,
            file: tabs(file),
            copy: tabs(copy),
            changes: changes.iter().flat_map(each).collect(),
        });
    }
}

pub fn all() -> Vec<Case> {
    let mut c = Cases { list: Vec::new() };
    little(&mut c);
    written_out(&mut c);
    ends_of_lines(&mut c);
    ends_of_files(&mut c);
    carriage_returns(&mut c);
    several_holes(&mut c);
    where_null_may_not_stand(&mut c);
    where_such_columns_stand(&mut c);
    names_like_those(&mut c);
    columns(&mut c);
    other_columns(&mut c);
    optional_and_unknown_columns(&mut c);
    bad_indices_and_undeclared_ids(&mut c);
    empty_names(&mut c);
    metadata(&mut c);
    widths(&mut c);
    rows_without_their_header(&mut c);
    several_headers(&mut c);
    wide_headers(&mut c);
    lines_between(&mut c);
    codes_near_others(&mut c);
    cells_that_are_not_empty(&mut c);
    control_bytes(&mut c);
    bytes_from_128_up(&mut c);
    as_long_as_sixty(&mut c);
    as_long_as_the_buffer(&mut c);
    whole_files(&mut c);
    c.list
}

fn little(c: &mut Cases) {
    c.of("the empty file", "", &[]);
    c.of("one LF", "\n", &[]);
    c.of("one CR LF", "\r\n", &[]);
    c.of("one CR", "\r", &[]);
    c.of("one byte", "x", &[]);
    c.of("one tab", "→", &[]);
    c.of("a comment of tabs", "COM→→→", &[]);
    c.of("the code of a row", "SML", &[]);
    c.of("a header alone", MH, &[]);
    c.of("nothing to mend", format!("{MH}\n{MR}\n"), &[]);
    let file = format!("\n\n{PH}\r\n\r\n{PR}\nCOM\n\n{EH}\n{ER}\n{SH}\n{SR}\n\n");
    c.of("nothing to mend in three sections", file, &[]);
}

/// The copy is written beside the file, and not by stars.
fn written_out(c: &mut Cases) {
    c.written(
        "the paper's example",
        "MTD→mzTab-version→1.0.0\nMTD→mzTab-mode→Summary\nMTD→mzTab-type→Identification\n\
         MTD→description→Yeast check\nMTD→ms_run[1]-location→file:///a.mzML\n\n\
         PRH→accession→description→database→search_engine→num_psms_ms_run[2]\n\
         PRT→Y1→null→db→null→\nPRT→null→x→db→null→4\n",
        "MTD→mzTab-version→1.0.0\nMTD→mzTab-mode→Summary\nMTD→mzTab-type→Identification\n\
         MTD→description→Yeast check\nMTD→ms_run[1]-location→file:///a.mzML\n\n\
         PRH→accession→description→database→search_engine→num_psms_ms_run[2]\n\
         PRT→Y1→null→db→null→null\nPRT→null→x→db→null→4\n",
        &[(8, &[6])],
    );
    c.written(
        "one hole",
        "SMH→identifier→charge\nSML→→1\n",
        "SMH→identifier→charge\nSML→null→1\n",
        &[(2, &[2])],
    );
    c.written(
        "holes in four sections",
        "PRH→accession→uri\nPRT→→\nPEH→sequence→uri\nPEP→→\r\nPSH→PSM_ID→uri\nPSM→→\n\
         SMH→identifier→uri\r\nSML→→",
        "PRH→accession→uri\nPRT→→null\nPEH→sequence→uri\nPEP→→null\r\nPSH→PSM_ID→uri\n\
         PSM→→null\nSMH→identifier→uri\r\nSML→null→null",
        &[(2, &[3]), (4, &[3]), (6, &[3]), (8, &[2, 3])],
    );
    c.written(
        "what is no row's hole",
        "MTD→→\nSMH→identifier→→charge\n→\nSML→→1→\nSML→→\nPRT→→→\n",
        "MTD→→\nSMH→identifier→→charge\n→\nSML→null→1→null\nSML→→\nPRT→→→\n",
        &[(4, &[2, 4])],
    );
    c.written(
        "a row of a code and tabs",
        "PSH→pre→post→start→end\nPSM→→→→",
        "PSH→pre→post→start→end\nPSM→null→null→null→null",
        &[(2, &[2, 3, 4, 5])],
    );
}

fn ends_of_lines(c: &mut Cases) {
    let file = format!("{MH}\nSML→a→*\n");
    c.of("the last cell before LF", file, &[(2, &[3])]);
    let file = format!("{MH}\r\nSML→a→*\r\n");
    c.of("the last cell before CR LF", file, &[(2, &[3])]);
    let file = format!("{MH}\nSML→a→*");
    c.of("the last cell at the very end", file, &[(2, &[3])]);
    let file = format!("{MH}\r\nSML→*→1\nSML→a→*\r\n\r\n\nSML→*→*\nSML→*→*\r\n");
    c.of(
        "CR LF and LF by turns",
        file,
        &[(2, &[2]), (3, &[3]), (6, &[2, 3]), (7, &[2, 3])],
    );
    let file = format!("{MH}\nSML→*→1\r\n{MR}\nSML→*→1\r\n");
    c.of("a header with LF alone", file, &[(2, &[2]), (4, &[2])]);
}

fn ends_of_files(c: &mut Cases) {
    let file = format!("{MH}\nSML→*→1\nSML→*→2");
    c.of("no LF at the end", file, &[(2, &[2]), (3, &[2])]);
    let file = format!("{MH}\nSML→a→*\n\n\n");
    c.of("three LF at the end", file, &[(2, &[3])]);
    let file = format!("{MH}\r\nSML→a→*\r\n\r\n");
    c.of("two CR LF at the end", file, &[(2, &[3])]);
    let file = format!("{MH}\nSML→a→*\nCOM");
    c.of("a comment at the end", file, &[(2, &[3])]);
    let file = format!("{MH}\nSML→*→1\n\r");
    c.of("a line of a CR at the end", file, &[(2, &[2])]);
    let file = format!("{MH}\nSML→*→1\nSML→→→");
    c.of("a row of four cells at the end", file, &[(2, &[2])]);
}

fn carriage_returns(c: &mut Cases) {
    let file = format!("{MH}\nSML→*→\r");
    c.of("a last cell that is a CR", file, &[(2, &[2])]);
    let file = format!("{MH}\nSML→*→\r\r\n");
    c.of("a last cell that is a CR, then CR LF", file, &[(2, &[2])]);
    let file = format!("{MH}→opt_a\nSML→\r→*→\rb\r\n");
    c.of("CRs beside a hole", file, &[(2, &[3])]);
    let file = format!("{MH}→opt_a\nSML→*→\r→*\r\n\rSML→→→\n");
    c.of("a hole on each side of a CR", file, &[(2, &[2, 4])]);
    let file = format!("{MH}\r\r\nSML→*→*\n\r\n");
    c.of(
        "a header whose last name ends with a CR",
        file,
        &[(2, &[2, 3])],
    );
    let file = format!("PRH→uri→accession\r\nPRT→*→\n{PH}\r\r\n\nPRT→→*→*→*\r\n");
    c.of(
        "a header's CR LF is none of its last name",
        file,
        &[(2, &[2]), (5, &[3, 4, 5])],
    );
}

fn several_holes(c: &mut Cases) {
    let file = format!("{MH}\nSML→*→*\n");
    c.of("every cell of a row", file, &[(2, &[2, 3])]);
    let file = format!("{MH}→uri→smiles\nSML→a→*→*→b\n");
    c.of("two in the middle", file, &[(2, &[3, 4])]);
    let file = format!("{MH}→uri→smiles\nSML→*→1→u→*\n");
    c.of("the first and the last", file, &[(2, &[2, 5])]);
    let file = format!("{MH}→uri→smiles→opt_a\nSML→*→*→*→*→*\nSML→a→*→*→*→b\r\n");
    let changes: Changes = &[(2, &[2, 3, 4, 5, 6]), (3, &[3, 4, 5])];
    c.of("many, one after the other", file, changes);
    let file = format!("{MH}\n{}", "SML→a→*\n".repeat(4));
    c.of(
        "one in each of four rows",
        file,
        &[(2, &[3]), (3, &[3]), (4, &[3]), (5, &[3])],
    );
    let file = format!("{MH}\nSML→*→*\n{MR}\nSML→a→*\n{MR}\nSML→*→1\n");
    c.of(
        "in every other row",
        file,
        &[(2, &[2, 3]), (4, &[3]), (6, &[2])],
    );
}

/// "except protein `accession`, peptide and PSM `sequence`, and `PSM_ID`"
fn where_null_may_not_stand(c: &mut Cases) {
    let file = format!("{PH}\nPRT→→d→db→null\n");
    c.of("a protein's accession", file, &[]);
    let file = format!("{PH}\nPRT→→*→*→*\nPRT→Y1→*→db→*\n");
    c.of(
        "proteins, every cell",
        file,
        &[(2, &[3, 4, 5]), (3, &[3, 5])],
    );
    let file = format!("{EH}\nPEP→→*→*→*\nPEP→→Y1→2→10.5\nPEP→AB→*→2→1\n");
    c.of("peptides, every cell", file, &[(2, &[3, 4, 5]), (4, &[3])]);
    let file = format!("{SH}\nPSM→→→*→*→*\nPSM→→1→*→2→x\nPSM→AB→→Y1→2→*");
    c.of(
        "PSMs, every cell",
        file,
        &[(2, &[4, 5, 6]), (3, &[4]), (4, &[6])],
    );
    let file = format!("{MH}\nSML→*→1\nSML→*→*");
    c.of(
        "small molecules have no such column",
        file,
        &[(2, &[2]), (3, &[2, 3])],
    );
}

/// It is the column and not its place.
fn where_such_columns_stand(c: &mut Cases) {
    let file = "PRH→description→database→search_engine→accession\nPRT→*→*→*→\n";
    c.of("the accession last", file, &[(2, &[2, 3, 4])]);
    let file = "PRH→accession→uri→accession→uri\r\nPRT→→*→→*\r\n";
    c.of("the accession twice", file, &[(2, &[3, 5])]);
    let file = "PEH→charge→sequence→accession→sequence→accession\nPEP→*→→*→→*\n";
    c.of(
        "a sequence and an accession twice",
        file,
        &[(2, &[2, 4, 6])],
    );
    let file = "PSH→PSM_ID→charge→sequence→PSM_ID→sequence\nPSM→→*→→→\nPSM→1→*→→2→A\n";
    c.of(
        "twice what may not be missing",
        file,
        &[(2, &[3]), (3, &[3])],
    );
    let file = "PSH→opt_a→PSM_ID→sequence\nPSM→*→→";
    c.of(
        "after an optional column, at the very end",
        file,
        &[(2, &[2])],
    );
}

/// A column of another section, or near to one, is none of those.
fn names_like_those(c: &mut Cases) {
    let file = "PRH→sequence→PSM_ID→accession\nPRT→*→*→\n";
    c.of("a protein's sequence", file, &[(2, &[2, 3])]);
    let file = "PEH→PSM_ID→sequence→accession\nPEP→*→→*\n";
    c.of("a peptide's PSM_ID", file, &[(2, &[2, 4])]);
    let file = "SMH→accession→sequence→PSM_ID\nSML→*→*→*\n";
    c.of("a small molecule's", file, &[(2, &[2, 3, 4])]);
    let file = "PRH→Accession→accession →accessions→ accession→accessio\nPRT→*→*→*→*→*\n";
    c.of("near to an accession", file, &[(2, &[2, 3, 4, 5, 6])]);
    let file = "PSH→psm_id→PSM_ID[1]→Sequence→sequences→PSM_I\nPSM→*→*→*→*→*\n";
    c.of("near to a PSM_ID", file, &[(2, &[2, 3, 4, 5, 6])]);
    let file = "PRH→opt_accession→opt_→opt_sequence→opt_PSM_ID\nPRT→*→*→*→*\n";
    c.of("an optional accession", file, &[(2, &[2, 3, 4, 5])]);
}

/// The columns of a section over one row of holes.
fn columns(c: &mut Cases) {
    let file = "PRH→accession→description→species→database→database_version→ambiguity_members\
         →modifications→uri→go_terms→taxid→num_psms_ms_run[1]→num_peptides_distinct_ms_run[1]\
         →num_peptides_unique_ms_run[1]→reliability→protein_coverage\
         →best_search_engine_score[1]→search_engine_score[1]_ms_run[1]→search_engine\
         →protein_abundance_assay[1]→protein_abundance_study_variable[1]\
         →protein_abundance_stdev_study_variable[1]\
         →protein_abundance_std_error_study_variable[1]→opt_a\n\
         PRT→→*→*→*→*→*→*→*→*→*→*→*→*→*→*→*→*→*→*→*→*→*→*\n";
    let cells = &[
        3, 4, 5, 6, 7, 8, 9, 10, 11, 12, 13, 14, 15, 16, 17, 18, 19, 20, 21, 22, 23, 24,
    ];
    c.of("the columns of proteins", file, &[(2, cells)]);
    let file = "PEH→accession→database→database_version→modifications→uri→sequence→spectra_ref\
         →charge→reliability→unique→mass_to_charge→best_search_engine_score[1]\
         →search_engine_score[1]_ms_run[1]→retention_time→retention_time_window→search_engine\
         →peptide_abundance_assay[1]→peptide_abundance_stdev_study_variable[1]→opt_a\n\
         PEP→*→*→*→*→*→→*→*→*→*→*→*→*→*→*→*→*→*→*\n";
    let cells = &[
        2, 3, 4, 5, 6, 8, 9, 10, 11, 12, 13, 14, 15, 16, 17, 18, 19, 20,
    ];
    c.of("the columns of peptides", file, &[(2, cells)]);
}

fn other_columns(c: &mut Cases) {
    let file = "PSH→sequence→PSM_ID→accession→database→database_version→modifications→uri\
         →spectra_ref→pre→post→start→end→charge→reliability→unique→exp_mass_to_charge\
         →calc_mass_to_charge→search_engine_score[1]→retention_time→search_engine→opt_a\r\n\
         PSM→→→*→*→*→*→*→*→*→*→*→*→*→*→*→*→*→*→*→*→*\r\n";
    let cells = &[
        4, 5, 6, 7, 8, 9, 10, 11, 12, 13, 14, 15, 16, 17, 18, 19, 20, 21, 22,
    ];
    c.of("the columns of PSMs", file, &[(2, cells)]);
    let file = "SMH→identifier→chemical_formula→smiles→inchi_key→description→species→database\
         →reliability→uri→spectra_ref→modifications→taxid→charge→exp_mass_to_charge\
         →best_search_engine_score[64]→retention_time→search_engine\
         →smallmolecule_abundance_study_variable[1]→opt_a\n\
         SML→*→*→*→*→*→*→*→*→*→*→*→*→*→*→*→*→*→*→*";
    let cells = &[
        2, 3, 4, 5, 6, 7, 8, 9, 10, 11, 12, 13, 14, 15, 16, 17, 18, 19, 20,
    ];
    c.of("the columns of small molecules", file, &[(2, cells)]);
}

fn optional_and_unknown_columns(c: &mut Cases) {
    let file = format!("{MH}→opt_a→opt_b\n{MR}→*→x\n{MR}→y→*\n{MR}→*→*\n");
    c.of(
        "optional columns",
        file,
        &[(2, &[4]), (3, &[5]), (4, &[4, 5])],
    );
    let file = format!("{MH}→foo\n{MR}→*\n");
    c.of("an unknown column", file, &[(2, &[4])]);
    let file = format!("{MH}→foo→foo→opt_→charge→opt_a→uri\n{MR}→*→*→*→*→*→*\n");
    c.of(
        "unknown columns, one twice, and one after an optional",
        file,
        &[(2, &[4, 5, 6, 7, 8, 9])],
    );
    let file = "PRH→foo\nPRT→*\nPRT→\u{1}\nPRT→*\n";
    c.of(
        "a header without the columns it must have",
        file,
        &[(2, &[2]), (4, &[2])],
    );
}

fn bad_indices_and_undeclared_ids(c: &mut Cases) {
    let file = "SMH→best_search_engine_score[0]→best_search_engine_score[01]\
         →best_search_engine_score[65]→best_search_engine_score[]→best_search_engine_score\n\
         SML→*→*→*→*→*\nSML→x→y→z→*→*\n";
    c.of(
        "columns with bad indices",
        file,
        &[(2, &[2, 3, 4, 5, 6]), (3, &[5, 6])],
    );
    let file = "PRH→num_psms_ms_run[2]→protein_abundance_assay[3]→accession\nPRT→*→*→\n\
         MTD→ms_run[2]-location→\n";
    c.of(
        "columns of runs declared below or not at all",
        file,
        &[(2, &[2, 3])],
    );
}

/// A header's name is no row's cell.
fn empty_names(c: &mut Cases) {
    let file = format!("{MH}→\n{MR}→*\n{MR}→x\n");
    c.of("the last name is empty", file, &[(2, &[4])]);
    let file = "SMH→→identifier→→charge\r\nSML→*→*→*→*\r\nSML→a→*→b→1\r\n";
    c.of(
        "two names are empty",
        file,
        &[(2, &[2, 3, 4, 5]), (3, &[3])],
    );
    c.of("all names are empty, and no row", "PRH→→→\n", &[]);
    c.of("all names are empty", "PEH→→\nPEP→*→*\n", &[(2, &[2, 3])]);
    c.of(
        "one name, and it is empty",
        "SMH→\nSML→*\nSML→→\n",
        &[(2, &[2])],
    );
    c.of("a header of its code alone", "PSH\nPSM\nPSM→\n", &[]);
    c.of("an empty name at the very end", "PRT→\nPRH→", &[]);
}

fn metadata(c: &mut Cases) {
    c.of("an empty value", "MTD→title→\n", &[]);
    c.of("an empty key", "MTD→→a\n", &[]);
    c.of("metadata of tabs", "MTD→→\nMTD→\nMTD→→→→\r\nMTD", &[]);
    let file = format!("MTD→title→\n{MH}\nMTD→title→\nSML→→→\nSML→*→1\nMTD→→");
    c.of("among rows", file, &[(5, &[2])]);
}

/// "18 stops 19"
fn widths(c: &mut Cases) {
    let file = format!("{MH}\nSML→\n");
    c.of("a cell too few", file, &[]);
    let file = format!("{MH}\nSML→→→\n");
    c.of("a cell too many", file, &[]);
    let file = format!("{MH}\nSML→→1→\n{MR}→\nSML→*→1\nSML→a→*\n");
    c.of("a tab too many", file, &[(4, &[2]), (5, &[3])]);
    let file = format!("{MH}\nSML\nSML→\nSML→*→*\nSML→→→\nSML→*→*\nSML→→→→\n");
    c.of("every width", file, &[(4, &[2, 3]), (6, &[2, 3])]);
    let file = format!("{PH}\nPRT→→→→→\nPRT→→→\nPRT→→*→*→*\nPRT\r\n");
    c.of("every width of proteins", file, &[(4, &[3, 4, 5])]);
}

/// "17 stops 18 to 20"
fn rows_without_their_header(c: &mut Cases) {
    c.of("no header", "SML→→\n", &[]);
    let file = format!("SML→→\n{MH}\nSML→*→*\n");
    c.of("the header below", file, &[(3, &[2, 3])]);
    let file = format!("{MH}\nPRT→→\nPEP→→\nPSM→→\nSML→*→*\n");
    c.of("under another section's header", file, &[(5, &[2, 3])]);
    let file = format!("{EH}\nPRT→→→→\nPEP→→*→*→*\n{PH}\nPEP→→→→\nPRT→→*→*→*\n");
    c.of(
        "as wide as another section's header",
        file,
        &[(3, &[3, 4, 5]), (6, &[3, 4, 5])],
    );
    let file = format!("{MH}\nSML→*→*\n{PH}\nSML→→\n{MH}\nSML→*→*\n");
    c.of(
        "another header between, then its own again",
        file,
        &[(2, &[2, 3]), (6, &[2, 3])],
    );
}

/// The nearest header above counts.
fn several_headers(c: &mut Cases) {
    let file = "PRH→accession→uri\nPRT→→*\nPRH→uri→accession\nPRT→*→\nPRT→*→Y1\n";
    c.of(
        "two headers of proteins",
        file,
        &[(2, &[3]), (4, &[2]), (5, &[2])],
    );
    let file = format!("{MH}\nSML→*→*\n{MH}→uri\nSML→→\nSML→*→*→*\n{MH}\nSML→*→*\nSML→→→\n");
    c.of(
        "three headers, one wider",
        file,
        &[(2, &[2, 3]), (5, &[2, 3, 4]), (7, &[2, 3])],
    );
    let file = "PEH→accession→sequence\nPRH→accession→sequence\nPRT→→*\nPEP→→\n\
         PEH→accession→sequence\nPEP→*→\n";
    c.of("one name in two sections", file, &[(3, &[3]), (6, &[2])]);
    let file = format!("{MH}\n{SH}\nPSM→→→*→*→*\n{EH}\nPEP→→*→*→*\n{PH}\nPRT→→*→*→*\n");
    c.of(
        "sections from the last to the first",
        file,
        &[(3, &[4, 5, 6]), (5, &[3, 4, 5]), (7, &[3, 4, 5])],
    );
}

/// "11 stops [...] 18 to 20 for rows under it"
fn wide_headers(c: &mut Cases) {
    let file = format!("{}\nPRT→→\nPRT{}\nPRT\n", wide(257), "→".repeat(256));
    c.of("a header of 257 cells", file, &[]);
    let file = format!("{}\nPRT→{}\nPRT→→→\n", wide(256), "→*".repeat(254));
    let cells: Vec<u32> = (3..=256).collect();
    c.of("a header of 256 cells", file, &[(2, &cells)]);
    let file = format!("{}\nPRT→→→→\n{PH}\nPRT→→*→*→*\n", wide(257));
    c.of("a plain header below a wide one", file, &[(4, &[3, 4, 5])]);
    let file = format!("{PH}\nPRT→→*→*→*\n{}\nPRT→→→→\n", wide(257));
    c.of("a wide header below a plain one", file, &[(2, &[3, 4, 5])]);
}

fn lines_between(c: &mut Cases) {
    let file = format!("{MH}\n\nSML→a→*\nCOM→→\n\r\nCOM\nSML→*→1\n");
    c.of("comments and empty lines", file, &[(3, &[3]), (7, &[2])]);
    let file = format!("{MH}\nMTD→title→\n→→\nZZZ→→\nPRT→→\nSML→a→*\n");
    c.of("lines that are out of place", file, &[(6, &[3])]);
    let file = format!("COM→{PH}\nPRT→→→→\n{PH}\nCOM→{EH}\nPRT→→*→db→*\nPEP→→→→\n");
    c.of("headers in comments", file, &[(5, &[3, 5])]);
}

fn codes_near_others(c: &mut Cases) {
    let file = format!("{MH}\nsml→→\nSML →→\n SML→→\nSMLx→→\nSM→→\n→→\nSML→*→*\n");
    c.of("near to a row's code", file, &[(8, &[2, 3])]);
    let file = "smh→identifier→charge\nSML→→\nSMH →identifier→charge\nSML→→\n";
    c.of("near to a header's code", file, &[]);
}

fn cells_that_are_not_empty(c: &mut Cases) {
    let file = format!("{MH}→opt_a\nSML→ →*→  \nSML→null→NULL→*\nSML→NA→-→*\n");
    c.of(
        "spaces, `NULL`, `NA` and `-`",
        file,
        &[(2, &[3]), (3, &[4]), (4, &[4])],
    );
    let file = format!("{PH}\nPRT→null→*→db→x\nPRT→Y1→d→*→[,,\n");
    c.of(
        "beside cells of the wrong kind",
        file,
        &[(2, &[3]), (3, &[4])],
    );
    let file = format!("{EH}→{QUANTIFIED}\n{ER}→*→1|→1\nPEP→null→*→1.5→x→*→1|2→*\n");
    c.of(
        "beside lists and windows",
        file,
        &[(2, &[6]), (3, &[3, 6, 8])],
    );
    let file = format!("{MH}→opt_a\nSML→COM→*→PRT\nSML→\"→*→\"\nSML→SMH→*→MTD\n");
    c.of(
        "codes and marks in cells",
        file,
        &[(2, &[3]), (3, &[3]), (4, &[3])],
    );
}

fn control_bytes(c: &mut Cases) {
    let file = format!("{MH}→opt_a\nSML→\u{1}→*→\u{1f}\nSML→*→\u{7f}→*\n");
    c.of("beside holes", file, &[(2, &[3]), (3, &[2, 4])]);
    let file = format!("{MH}\nSML→\0→*\nSML→*→\0\n\0\nSML\0→→\n");
    c.of("zeros", file, &[(2, &[3]), (3, &[2])]);
    let file = format!("{MH}→opt_\u{b}→\u{c}\nSML→*→*→*→*\n\u{8}→→\n");
    c.of("in names", file, &[(2, &[2, 3, 4, 5])]);
    let file = format!("{MH}\nSML→\u{1}→\u{2}→\nSML→\u{3}→*\u{d}\n");
    c.of(
        "in a row too wide, then in one that is not",
        file,
        &[(3, &[3])],
    );
}

fn bytes_from_128_up(c: &mut Cases) {
    c.of(
        "bytes that are no text",
        b"SMH\tidentifier\t\xff\xfe\nSML\t\x80\t*\nSML\t*\t\xc3\r\n\xe9\t\t\nSML\t*\t*",
        &[(2, &[3]), (3, &[2]), (5, &[2, 3])],
    );
    let file = "MTD→title→é\nSMH→identifier→é\nSML→é→*\nSML→*→ÿ\n";
    c.of("letters of two bytes", file, &[(3, &[3]), (4, &[2])]);
}

/// A row with two holes, or with none, and a comment after it that makes the file
/// so long.
fn sized(row: &str, length: usize) -> String {
    let mut file = format!("{MH}\n{row}\nCOM→");
    // The arrows are tabs, and what stands for a hole is nothing.
    let own = tabs(file.replace('*', "")).len();
    file += &"x".repeat(length - own);
    file
}

/// The second buffer of the table has 60 bytes.
fn as_long_as_sixty(c: &mut Cases) {
    c.of("60 bytes", sized("SML→a→1", 60), &[]);
    c.of("61 bytes", sized("SML→a→1", 61), &[]);
    c.of("59 bytes", sized("SML→a→1", 59), &[]);
    c.of(
        "60 bytes after one hole",
        sized("SML→a→*", 56),
        &[(2, &[3])],
    );
    c.of(
        "61 bytes after one hole",
        sized("SML→a→*", 57),
        &[(2, &[3])],
    );
    c.of(
        "64 bytes after one hole",
        sized("SML→*→1", 60),
        &[(2, &[2])],
    );
    c.of(
        "60 bytes after two holes",
        sized("SML→*→*", 52),
        &[(2, &[2, 3])],
    );
    c.of(
        "61 bytes after two holes",
        sized("SML→*→*", 53),
        &[(2, &[2, 3])],
    );
    let file = format!("COM→xxxxxxxxxxxxxxxxxxxx\n{MH}\nSML→*→*");
    c.of("60 bytes, the last of them mended", file, &[(3, &[2, 3])]);
}

/// The first has 4,096.
fn as_long_as_the_buffer(c: &mut Cases) {
    c.of("4,096 bytes", sized("SML→a→1", 4_096), &[]);
    c.of("4,097 bytes", sized("SML→a→1", 4_097), &[]);
    c.of(
        "4,096 bytes after one hole",
        sized("SML→a→*", 4_092),
        &[(2, &[3])],
    );
    c.of(
        "4,097 bytes after one hole",
        sized("SML→a→*", 4_093),
        &[(2, &[3])],
    );
    c.of(
        "4,100 bytes after one hole",
        sized("SML→*→1", 4_096),
        &[(2, &[2])],
    );
    c.of(
        "4,095 bytes after two holes",
        sized("SML→*→*", 4_087),
        &[(2, &[2, 3])],
    );
    c.of(
        "4,097 bytes after two holes",
        sized("SML→*→*", 4_089),
        &[(2, &[2, 3])],
    );
}

fn whole_files(c: &mut Cases) {
    let file = format!(
        "MTD→mzTab-version→1.0.0\nMTD→title→\n{PH}→num_psms_ms_run[1]\nPRT→→*→*→*→*\n\
         {PR}→*\n{EH}\nPEP→→*→2→*\nPEP→→→\n{SH}\n{SR}\nPSM→→→*→*→*\nCOM→→\n\
         {MH}→opt_a→\n{MR}→*→*\nSML→*→x→\u{1}→*\nPRT→→→→→\nx"
    );
    let changes: Changes = &[
        (4, &[3, 4, 5, 6]),
        (5, &[6]),
        (7, &[3, 5]),
        (11, &[4, 5, 6]),
        (14, &[4, 5]),
        (15, &[2, 5]),
    ];
    c.of("four sections", &file, changes);
    let with_returns = file.replace('\n', "\r\n");
    c.of("four sections with CR LF", with_returns, changes);
}
