//! "The 21 rules", rule 22 of request 2026-01, rules 23 and 24 of request
//! 2026-05, and the fourth number of request 2026-08. Each rule has a function
//! named after it.

use std::collections::{HashMap, HashSet};

use crate::demands::{self, Field, Of, Sort, Type};
use crate::kinds::{self, Bad};
use crate::lines::{cells, code, key_and_value, lines, Code};
use crate::names::{self, Family, Kind, Known};
use crate::LIMIT;

/// "A break is a line, a cell and a rule." "The fault record gets a fourth
/// number: for rules 6 and 9 the line of the earliest equal key or same header,
/// for 13 the cell of the first equal name, 0 for all others."
#[derive(Clone, Copy, Debug, PartialEq, Eq, Hash)]
pub struct Break {
    pub line: u32,
    pub cell: u32,
    pub rule: u32,
    pub first: u32,
}

impl Break {
    /// What a break is known and ordered by: line, cell and rule.
    pub fn place(&self) -> (u32, u32, u32) {
        (self.line, self.cell, self.rule)
    }
}

/// "A header has over 256 cells" breaks rule 11.
const WIDEST_HEADER: usize = 256;

/// All breaks of the file by line, cell and rule, each once; nothing for a file
/// over the limit.
pub fn judge(file: &[u8]) -> Option<Vec<Break>> {
    if file.len() > LIMIT {
        return None;
    }
    let whole = Whole::of(file);
    let mut above = Above::default();
    let mut breaks = Vec::new();
    let mut number = 0;
    for line in lines(file) {
        number += 1;
        let mut report = Report {
            line: number,
            breaks: &mut breaks,
        };
        judge_line(line, &whole, &mut above, &mut report);
    }
    // Rules 21 and 22 are reported at "line N + 1 of an N-line file".
    let mut report = Report {
        line: number + 1,
        breaks: &mut breaks,
    };
    rule_21(&above, &mut report);
    rule_22(&whole, &above, &mut report);
    breaks.sort_by_key(Break::place);
    breaks.dedup_by_key(|at| at.place());
    Some(breaks)
}

/// Where the breaks of one line go.
struct Report<'r> {
    line: u32,
    breaks: &'r mut Vec<Break>,
}

impl Report<'_> {
    /// A break whose fourth number is 0: "0 for all others".
    fn add(&mut self, cell: usize, rule: u32) {
        self.add_again(cell, rule, 0);
    }

    /// A break of what comes again, and where it was first.
    fn add_again(&mut self, cell: usize, rule: u32, first: u32) {
        self.breaks.push(Break {
            line: self.line,
            cell: number_of(cell),
            rule,
            first,
        });
    }
}

/// The number of a cell in 32 bits.
fn number_of(cell: usize) -> u32 {
    u32::try_from(cell).expect("a line has fewer cells than a file has bytes")
}

/// What all lines of the file say together, the late ones too.
struct Whole {
    ids: Ids,
    /// Its mode and its type, where it has both.
    sort: Option<Sort>,
}

impl Whole {
    fn of(file: &[u8]) -> Whole {
        Whole {
            ids: Ids::declared_in(file),
            sort: demands::sort_of(file),
        }
    }

    fn is_quantification(&self) -> bool {
        self.sort
            .map_or(false, |sort| sort.kind == Type::Quantification)
    }
}

/// The declared ids: "four families of ids, each with indices 1 to 64".
#[derive(Default)]
struct Ids {
    set: HashSet<(Family, u32)>,
}

impl Ids {
    /// "An id is declared if any MTD line of the file, early or late, has three
    /// cells and a known key beginning with it."
    fn declared_in(file: &[u8]) -> Ids {
        let mut ids = Ids::default();
        for line in lines(file) {
            if let Some((key, _)) = key_and_value(line) {
                if let Some(id) = names::declares(key) {
                    ids.set.insert(id);
                }
            }
        }
        ids
    }

    fn has(&self, family: Family, index: u32) -> bool {
        self.set.contains(&(family, index))
    }

    /// The indices that are declared in a family.
    fn of(&self, family: Family) -> impl Iterator<Item = u32> + '_ {
        let of_family = move |id: &&(Family, u32)| id.0 == family;
        self.set.iter().filter(of_family).map(|id| id.1)
    }
}

/// What the lines above the one now judged hold.
#[derive(Default)]
struct Above<'a> {
    /// The keys of the three-cell MTD lines, each with the earliest line that
    /// has it.
    keys: HashMap<&'a [u8], u32>,
    /// A header or row of any section.
    table_line: bool,
    /// The line of the earliest header of each section that has one.
    headers: [Option<u32>; 4],
    /// The sections that have a header or a row.
    sections: [bool; 4],
    /// The nearest header.
    nearest: Option<Header>,
    /// The five pieces of required metadata.
    required: [bool; 5],
}

/// What rows need of the nearest header above them.
struct Header {
    section: u32,
    cells: usize,
    /// The kind of each cell's column, from cell 2 on. Empty where rule 11 is
    /// broken.
    kinds: Vec<Kind>,
    breaks_11: bool,
}

fn judge_line<'a>(line: &'a [u8], whole: &Whole, above: &mut Above<'a>, report: &mut Report) {
    match code(line) {
        // "An empty line, and a line whose cell 1 is exactly COM, is judged by
        // no rule."
        Code::Empty | Code::Comment => return,
        Code::Unknown => rule_2(report),
        Code::Metadata => judge_metadata(line, &whole.ids, above, report),
        Code::Header(section) => judge_header(section, line, whole, above, report),
        Code::Row(section) => judge_row(section, line, above, report),
    }
    rule_1(line, report);
}

/// rule 1: "a byte below 32 (tabs apart) or 127 in the line; at the cell of the
/// first"
fn rule_1(line: &[u8], report: &mut Report) {
    for (k, cell) in cells(line).enumerate() {
        if cell.iter().any(|b| *b < 32 || *b == 127) {
            report.add(k + 1, 1);
            return;
        }
    }
}

/// rule 2: "unknown line code"
fn rule_2(report: &mut Report) {
    report.add(1, 2);
}

fn judge_metadata<'a>(line: &'a [u8], ids: &Ids, above: &mut Above<'a>, report: &mut Report) {
    rule_4(above, report);
    match key_and_value(line) {
        // "3 stops 5 to 8"
        None => rule_3(report),
        Some((key, value)) => {
            match names::key(key) {
                // "5 stops 6 to 8", and so does what is reported in its place.
                None => rule_5_23_or_24(key, report),
                Some(known) => {
                    rule_6(key, above, report);
                    rules_7_and_8(&known, value, ids, report);
                }
            }
            note_key(key, report.line, above);
        }
    }
}

/// rule 3: "an MTD line has not three cells"
fn rule_3(report: &mut Report) {
    report.add(1, 3);
}

/// rule 4: "an MTD line stands after a header or row of any section"
fn rule_4(above: &Above, report: &mut Report) {
    if above.table_line {
        report.add(1, 4);
    }
}

/// "Where a key [...] would be known but for its indices" a rule of indices is
/// "reported in place of 5".
fn rule_5_23_or_24(key: &[u8], report: &mut Report) {
    match names::bad_key(key) {
        None => rule_5(report),
        Some(bad) => rule_23_or_24(bad, 2, report),
    }
}

/// rule 5: "unknown key; cell 2"
fn rule_5(report: &mut Report) {
    report.add(2, 5);
}

/// "the leftmost bad one decides: new rule 23 for zero or leading zero, else 24
/// for over 64"
fn rule_23_or_24(bad: Bad, at: usize, report: &mut Report) {
    match bad {
        Bad::Zero => rule_23(at, report),
        Bad::Over => rule_24(at, report),
    }
}

/// rule 23: "zero or leading zero", at the cell of the rule that it replaces
fn rule_23(at: usize, report: &mut Report) {
    report.add(at, 23);
}

/// rule 24: "over 64", at the cell of the rule that it replaces
fn rule_24(at: usize, report: &mut Report) {
    report.add(at, 24);
}

/// rule 6: "key, a `colunit` one apart, already on an earlier three-cell MTD
/// line; cell 2"; its fourth number is "the line of the earliest equal key".
fn rule_6(key: &[u8], above: &Above, report: &mut Report) {
    if key.starts_with(b"colunit") {
        return;
    }
    if let Some(first) = above.keys.get(key) {
        report.add_again(2, 6, *first);
    }
}

fn rules_7_and_8(known: &Known, value: &[u8], ids: &Ids, report: &mut Report) {
    // "7 stops 8", and so does what is reported in its place.
    if !value_is_of_its_kind(known, value) {
        rule_7_23_or_24(known, value, report);
    } else {
        rule_8(known, value, ids, report);
    }
}

/// "Where [...] a reference [...] would be known but for its indices" a rule of
/// indices is "reported in place of [...] 7".
fn rule_7_23_or_24(known: &Known, value: &[u8], report: &mut Report) {
    let bad = match known.kind {
        Kind::Reference(family) => kinds::bad_reference(family.word(), value),
        Kind::ReferenceList(family) => kinds::bad_reference_list(family.word(), value),
        _ => None,
    };
    match bad {
        None => rule_7(report),
        Some(bad) => rule_23_or_24(bad, 3, report),
    }
}

/// rule 7: "value not of its kind; cell 3"
fn rule_7(report: &mut Report) {
    report.add(3, 7);
}

/// rule 8: "value names an undeclared id; cell 3"
fn rule_8(known: &Known, value: &[u8], ids: &Ids, report: &mut Report) {
    let named = ids_of_value(known.kind, value);
    if named
        .iter()
        .any(|(family, index)| !ids.has(*family, *index))
    {
        report.add(3, 8);
    }
}

/// The kinds of the metadata keys. "In metadata `null` is plain text."
fn value_is_of_its_kind(known: &Known, value: &[u8]) -> bool {
    match known.kind {
        Kind::Version => value == b"1.0" || value == b"1.0.0",
        Kind::Mode => value == b"Summary" || value == b"Complete",
        Kind::Type => value == b"Quantification" || value == b"Identification",
        Kind::Text => kinds::text(value),
        Kind::Parameter => kinds::parameter(value),
        Kind::ParameterList => kinds::parameter_list(value),
        Kind::Reference(family) => kinds::reference(family.word(), value) != 0,
        Kind::ReferenceList(family) => kinds::reference_list(family.word(), value).is_some(),
        other => unreachable!("no key is of kind {other:?}"),
    }
}

/// The ids that a value of its kind names.
fn ids_of_value(kind: Kind, value: &[u8]) -> Vec<(Family, u32)> {
    let (family, indices) = match kind {
        Kind::Reference(family) => (family, vec![kinds::reference(family.word(), value)]),
        Kind::ReferenceList(family) => {
            let indices = kinds::reference_list(family.word(), value);
            (family, indices.unwrap_or_default())
        }
        _ => return vec![],
    };
    indices.into_iter().map(|index| (family, index)).collect()
}

/// Notes the key of a three-cell MTD line for rules 6, 21 and 22. Of a key that
/// is noted the earliest line stays.
fn note_key<'a>(key: &'a [u8], line: u32, above: &mut Above<'a>) {
    above.keys.entry(key).or_insert(line);
    if let Some(place) = required_place(key) {
        above.required[place] = true;
    }
}

/// Which of the five pieces of required metadata a key is.
fn required_place(key: &[u8]) -> Option<usize> {
    match key {
        b"mzTab-version" => Some(0),
        b"mzTab-mode" => Some(1),
        b"mzTab-type" => Some(2),
        b"description" => Some(3),
        _ if is_run_location(key) => Some(4),
        _ => None,
    }
}

/// "any ms_run[n]-location"
fn is_run_location(key: &[u8]) -> bool {
    match key.strip_prefix(b"ms_run").and_then(kinds::index) {
        Some((_, rest)) => rest == b"-location",
        None => false,
    }
}

fn judge_header(section: u32, line: &[u8], whole: &Whole, above: &mut Above, report: &mut Report) {
    rule_9(section, above, report);
    rule_10(section, above, report);
    let count = cells(line).count();
    let breaks_11 = count > WIDEST_HEADER;
    let mut kinds = Vec::new();
    if breaks_11 {
        // "11 stops 12 to 16"
        rule_11(report);
    } else {
        // "Cell 1 of a header is no column name."
        let columns: Vec<&[u8]> = cells(line).skip(1).collect();
        let known: Vec<Option<Known>> = columns
            .iter()
            .map(|name| names::column(section, name))
            .collect();
        rule_12_23_or_24(section, &columns, &known, report);
        rule_13(&columns, report);
        rule_14(&columns, report);
        rule_15(&known, &whole.ids, report);
        rule_16(section, &columns, whole, report);
        kinds = known.into_iter().map(kind_of_column).collect();
    }
    note_section(section, above);
    note_header(section, report.line, above);
    above.nearest = Some(Header {
        section,
        cells: count,
        kinds,
        breaks_11,
    });
}

/// Notes a header or a row of a section.
fn note_section(section: u32, above: &mut Above) {
    above.table_line = true;
    above.sections[section as usize - 1] = true;
}

/// Notes a header of a section. Where it has one above, the earliest stays.
fn note_header(section: u32, line: u32, above: &mut Above) {
    above.headers[section as usize - 1].get_or_insert(line);
}

/// rule 9: "an earlier line is a header of the same section"; its fourth number
/// is "the line of the earliest [...] same header".
fn rule_9(section: u32, above: &Above, report: &mut Report) {
    if let Some(first) = above.headers[section as usize - 1] {
        report.add_again(1, 9, first);
    }
}

/// rule 10: "an earlier header is of a later section"
fn rule_10(section: u32, above: &Above, report: &mut Report) {
    let later = &above.headers[section as usize..];
    if later.iter().any(Option::is_some) {
        report.add(1, 10);
    }
}

/// rule 11: "a header has over 256 cells"
fn rule_11(report: &mut Report) {
    report.add(1, 11);
}

/// "Where [...] a column would be known but for its indices" a rule of indices
/// is "reported in place of [...] 12".
fn rule_12_23_or_24(section: u32, columns: &[&[u8]], known: &[Option<Known>], report: &mut Report) {
    for (k, (name, column)) in columns.iter().zip(known).enumerate() {
        if column.is_none() {
            match names::bad_column(section, name) {
                None => rule_12(k + 2, report),
                Some(bad) => rule_23_or_24(bad, k + 2, report),
            }
        }
    }
}

/// rule 12: "column name unknown in its section; its cell"
fn rule_12(at: usize, report: &mut Report) {
    report.add(at, 12);
}

/// rule 13: "column name already in this header; its cell"; its fourth number is
/// "the cell of the first equal name".
fn rule_13(columns: &[&[u8]], report: &mut Report) {
    let mut firsts: HashMap<&[u8], usize> = HashMap::new();
    for (k, name) in columns.iter().enumerate() {
        match firsts.get(name) {
            Some(first) => report.add_again(k + 2, 13, number_of(*first)),
            None => {
                firsts.insert(name, k + 2);
            }
        }
    }
}

/// rule 14: "name not beginning `opt_` after one that does; its cell"
fn rule_14(columns: &[&[u8]], report: &mut Report) {
    let mut optional_seen = false;
    for (k, name) in columns.iter().enumerate() {
        if name.starts_with(b"opt_") {
            optional_seen = true;
        } else if optional_seen {
            report.add(k + 2, 14);
        }
    }
}

/// rule 15: "known column names an undeclared assay, study variable or run; its
/// cell"
fn rule_15(known: &[Option<Known>], ids: &Ids, report: &mut Report) {
    for (k, column) in known.iter().enumerate() {
        let id = column.as_ref().and_then(names::named_id);
        if let Some((family, index)) = id {
            if !ids.has(family, index) {
                report.add(k + 2, 15);
            }
        }
    }
}

/// rule 16: "one required column or more absent"; "In Quantification a peptide
/// header needs" three columns more, "under rule 16".
fn rule_16(section: u32, columns: &[&[u8]], whole: &Whole, report: &mut Report) {
    let absent = |name: &&str| !columns.contains(&name.as_bytes());
    let mut broken = names::required(section).iter().any(absent);
    if whole.is_quantification() {
        broken |= names::required_in_quantification(section)
            .iter()
            .any(absent);
    }
    if broken {
        report.add(1, 16);
    }
}

/// "Cells under an unknown column are text." One whose index is bad is unknown
/// too: it "would be known but for" it.
pub(crate) fn kind_of_column(column: Option<Known>) -> Kind {
    match column {
        Some(known) => known.kind,
        None => Kind::Text,
    }
}

fn judge_row(section: u32, line: &[u8], above: &mut Above, report: &mut Report) {
    note_section(section, above);
    match &above.nearest {
        // "17 stops 18 to 20"
        None => rule_17(report),
        Some(header) if header.section != section => rule_17(report),
        // "11 stops ... 18 to 20 for rows under it"
        Some(header) if header.breaks_11 => {}
        Some(header) => judge_row_under(header, line, report),
    }
}

/// rule 17: "the nearest header above is not the row's own section's, or there
/// is none"
fn rule_17(report: &mut Report) {
    report.add(1, 17);
}

fn judge_row_under(header: &Header, line: &[u8], report: &mut Report) {
    if cells(line).count() != header.cells {
        // "18 stops 19 and 20"
        rule_18(report);
        return;
    }
    for (k, cell) in cells(line).enumerate().skip(1) {
        if cell.is_empty() {
            // "19 stops 20 at its cell"
            rule_19(k + 1, report);
        } else {
            rule_20(header.kinds[k - 1], cell, k + 1, report);
        }
    }
}

/// rule 18: "a row has another number of cells than that header"
fn rule_18(report: &mut Report) {
    report.add(1, 18);
}

/// rule 19: "empty cell in a row; that cell"
fn rule_19(at: usize, report: &mut Report) {
    report.add(at, 19);
}

/// rule 20: "row's cell, from 2 on, not of its column's kind; that cell"
fn rule_20(kind: Kind, cell: &[u8], at: usize, report: &mut Report) {
    if !cell_is_of_its_kind(kind, cell) {
        report.add(at, 20);
    }
}

/// The kinds of the columns. "In table cells `null` stands for missing in every
/// column, except protein `accession`, peptide and PSM `sequence`, and
/// `PSM_ID`, where it is not of the kind."
pub(crate) fn cell_is_of_its_kind(kind: Kind, cell: &[u8]) -> bool {
    if cell == b"null" {
        return kind != Kind::NeverNull;
    }
    match kind {
        Kind::Text | Kind::NeverNull => kinds::text(cell),
        Kind::Whole => kinds::whole(cell),
        Kind::Reliability => cell == b"1" || cell == b"2" || cell == b"3",
        Kind::Unique => cell == b"0" || cell == b"1",
        Kind::Decimal => kinds::decimal(cell),
        Kind::DecimalList => kinds::decimal_list(cell),
        Kind::Window => kinds::window(cell),
        Kind::ParameterList => kinds::parameter_list(cell),
        other => unreachable!("no column is of kind {other:?}"),
    }
}

/// rule 21: "required metadata absent from the three-cell MTD lines; [...]
/// cells 1 to 5 stand for mzTab-version, mzTab-mode, mzTab-type, description,
/// any ms_run[n]-location"
fn rule_21(above: &Above, report: &mut Report) {
    for (place, there) in above.required.iter().enumerate() {
        if !there {
            report.add(place + 1, 21);
        }
    }
}

/// rule 22: "A missing field breaks the new rule 22 at line N + 1". Missing is,
/// as for rule 21, a key that no three-cell MTD line has. "without both [mode
/// and type], nothing is added".
fn rule_22(whole: &Whole, above: &Above, report: &mut Report) {
    let sort = match whole.sort {
        Some(sort) => sort,
        None => return,
    };
    let some_assay = whole.ids.of(Family::Assay).next().is_some();
    for field in &demands::FIELDS {
        if !field.asked.of(sort, some_assay) {
            continue;
        }
        match field.of {
            Of::Each(family) => each_has(field, family, whole, above, report),
            Of::TheFile => some_line_has(field, above, report),
            Of::Section(section) if above.sections[section as usize - 1] => {
                some_line_has(field, above, report)
            }
            Of::Section(_) => {}
        }
    }
}

/// A field of an id family: "plus the index".
fn each_has(field: &Field, family: Family, whole: &Whole, above: &Above, report: &mut Report) {
    for index in whole.ids.of(family) {
        let key = field.key.replace("[n]", &format!("[{index}]"));
        if !above.keys.contains_key(key.as_bytes()) {
            report.add((field.cell + index) as usize, 22);
        }
    }
}

/// A field of no id family: "index 0 [...] where any one line will do".
fn some_line_has(field: &Field, above: &Above, report: &mut Report) {
    let serves = |key: &&[u8]| names::fits(field.key, key).is_some();
    if !above.keys.keys().any(serves) {
        report.add(field.cell as usize, 22);
    }
}
