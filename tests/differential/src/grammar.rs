//! Draws files: the lines of the format with values of their kinds, most of them right, and some wrong in small ways.

use std::collections::HashSet;

use independent::cases;
use independent::demands;
use independent::names::{self, Kind, COLUMNS};
use mztab::format::{Section, SECTIONS};
use samples::Draws;

use crate::again::repeat;
use crate::complete::completed;
use crate::damage::damage;
use crate::holes::punch;

/// The letters of the sections in the independent reading's list of columns.
const LETTERS: [char; 4] = ['P', 'E', 'S', 'M'];

/// Values written by hand, on either side of each kind.
pub fn near_values() -> Vec<Vec<u8>> {
    cases::kinds::all()
        .into_iter()
        .map(|(value, _)| value)
        .collect()
}

/// A file of any sort. One in seven is right and has abundances of study variables; in a third of the others something comes again, and
/// in a third the rows have holes.
pub fn file(near: &[Vec<u8>], draws: &mut Draws) -> Vec<u8> {
    // What is drawn for holes does not hang on what is drawn for the others.
    let mut own = Draws::new(!draws.clone().bits());
    let weighed = draws.once_in(7);
    let mut source = Source::new(near, draws);
    if weighed {
        source.wrong = 0;
        source.bad = 0;
        source.complete = true;
    }
    source.sort();
    if weighed || source.draws.once_in(6) {
        source.variables = source.indices();
    }
    let mut file = source.file();
    if source.complete {
        file = completed(&file, source.draws);
    }
    if !weighed && source.draws.once_in(AGAIN) {
        repeat(&mut file, source.draws);
    }
    if !weighed && !source.draws.once_in(3) {
        damage(&mut file, draws);
    }
    if !weighed && own.once_in(HOLES) {
        punch(&mut file, &mut own);
    }
    file
}

/// A column: its name, its kind, and how often its cells are `null`: once in so many times, 0 for never.
struct Column {
    name: Vec<u8>,
    kind: Kind,
    null: usize,
}

/// How often cells are `null` where nothing else is said.
const NULL: usize = 6;

/// Of the files that may be wrong one in so many has keys, headers and names that come again.
const AGAIN: usize = 3;

/// And one in so many has holes.
const HOLES: usize = 3;

/// In a file that may be wrong a metadata line in so many stands below the tables.
const LATE: usize = 40;

/// The modes and the types, and values that are none of them.
const MODES: [&str; 2] = ["Summary", "Complete"];
const TYPES: [&str; 2] = ["Quantification", "Identification"];
const NEITHER: [&str; 6] = ["summary", "Complete ", "Quantitation", "null", "", "[,,x,]"];

struct Source<'d> {
    near: &'d [Vec<u8>],
    draws: &'d mut Draws,
    /// One value or name in so many is drawn to be wrong; 0 for none.
    wrong: usize,
    /// One index in so many is drawn to be bad: zero, or with a zero in front, or over 64; 0 for none. In such a file one reference in three
    /// is a near one, and in some of them little else is wrong.
    bad: usize,
    /// Whether what mode and type ask for is to be there.
    complete: bool,
    mode: &'static str,
    kind: &'static str,
    /// Whether the file is to declare no assay.
    no_assay: bool,
    /// Line ends are CR LF once in so many; 0 for never.
    returns: usize,
    /// The keys so far; a file that is to be right has none twice.
    keys: HashSet<Vec<u8>>,
    /// The study variables that have abundances of proteins, in the order of their columns.
    variables: Vec<usize>,
    /// Assays beside the first.
    assays: Vec<usize>,
    /// Metadata lines that stand below the tables.
    late: Vec<[Vec<u8>; 3]>,
    out: Vec<u8>,
}

impl<'d> Source<'d> {
    fn new(near: &'d [Vec<u8>], draws: &'d mut Draws) -> Source<'d> {
        let wrong = [0, 0, 200, 40, 8][draws.below(5)];
        let bad = [0, 0, 0, 0, 0, 12, 3][draws.below(7)];
        let complete = !draws.once_in(3);
        let returns = [0, 0, 1, 3][draws.below(4)];
        Source {
            near,
            draws,
            wrong,
            bad,
            complete,
            mode: "",
            kind: "",
            no_assay: false,
            returns,
            keys: HashSet::new(),
            variables: Vec::new(),
            assays: Vec::new(),
            late: Vec::new(),
            out: Vec::new(),
        }
    }

    /// Mode and type, and the assays. A Complete Quantification file that is to be right has one: its study variables name some.
    fn sort(&mut self) {
        self.mode = self.draws.one_of(&MODES);
        self.kind = self.draws.one_of(&TYPES);
        let names_some =
            self.wrong == 0 && (self.mode, self.kind) == ("Complete", "Quantification");
        self.no_assay = !names_some && self.draws.once_in(4);
        if !self.no_assay && self.draws.once_in(3) {
            self.assays = self.indices();
        }
    }

    fn slips(&mut self) -> bool {
        self.wrong > 0 && self.draws.once_in(self.wrong)
    }

    /// One to 64 indices, mostly few, in any order.
    fn indices(&mut self) -> Vec<usize> {
        let mut all: Vec<usize> = (1..=64).collect();
        let count = match self.draws.below(40) {
            0 => 64,
            1 => self.draws.below(64) + 1,
            _ => self.draws.below(5) + 1,
        };
        (0..count)
            .map(|_| all.swap_remove(self.draws.below(all.len())))
            .collect()
    }

    fn file(&mut self) -> Vec<u8> {
        self.metadata();
        for section in 0..4 {
            let weighed = section == 0 && !self.variables.is_empty();
            if weighed || self.draws.once_in(2) {
                self.section(section);
            }
        }
        if self.slips() {
            let again = self.draws.below(4);
            self.section(again);
        }
        if self.slips() {
            self.metadata_line();
        }
        for cells in std::mem::take(&mut self.late) {
            self.end_line(&cells);
        }
        if self.draws.once_in(4) {
            self.out.pop();
            if self.wrong == 0 && self.out.ends_with(b"\r") {
                self.out.pop();
            }
        }
        std::mem::take(&mut self.out)
    }

    fn end_line(&mut self, cells: &[Vec<u8>]) {
        self.out.extend(cells.join(&b'\t'));
        if self.returns > 0 && self.draws.once_in(self.returns) {
            self.out.push(b'\r');
        }
        self.out.push(b'\n');
        if self.draws.once_in(30) {
            let mut between = self
                .draws
                .one_of(&["\n", "COM\n", "COM\ta comment\x01\n", "\r\n"]);
            if self.slips() {
                between = self.draws.one_of(&["com\n", "COM x\n"]);
            }
            self.out.extend(between.as_bytes());
        }
    }

    fn metadata(&mut self) {
        self.line_of("mzTab-version", "1.0.0");
        self.lines_of("mzTab-mode", self.mode, &MODES);
        self.lines_of("mzTab-type", self.kind, &TYPES);
        self.line_of("description", "Yeast check");
        self.line_of("ms_run[1]-location", "file:///a.mzML");
        self.line_of("ms_run[2]-location", "file:///b.mzML");
        self.line_of("sample[1]-description", "s");
        if self.no_assay {
            self.line_of("study_variable[1]-description", "v");
        } else {
            self.line_of("assay[1]-ms_run_ref", "ms_run[1]");
            self.line_of("study_variable[1]-assay_refs", "assay[1]");
        }
        self.fields();
        for _ in 0..self.draws.below(8) {
            self.metadata_line();
        }
        if self.bad > 0 {
            self.references();
        }
        for i in self.assays.clone() {
            self.declared_assay(i);
        }
        for i in self.variables.clone() {
            self.declared(i);
        }
    }

    /// A line with the key, unless it slips or there is one. Some stand late.
    fn line_of(&mut self, key: &str, value: &str) {
        if !self.slips() && self.keys.insert(key.into()) {
            self.put(key, value);
        }
    }

    fn put(&mut self, key: &str, value: &str) {
        let key = self.with_bad_index(key);
        let cells = [b"MTD".to_vec(), key.into(), value.into()];
        if self.wrong > 0 && self.draws.once_in(LATE) {
            self.late.push(cells);
        } else {
            self.end_line(&cells);
        }
    }

    /// The key, in some files with a bad first index: then it declares nothing, and what others refer to may be undeclared.
    fn with_bad_index(&mut self, key: &str) -> String {
        let cut = key
            .split_once('[')
            .and_then(|(before, rest)| Some((before, rest.split_once(']')?)));
        match cut {
            Some((before, (own, after))) if self.bad > 0 && self.draws.once_in(4 * self.bad) => {
                let zero_in_front = format!("0{own}");
                let bad = [zero_in_front, self.bad_number()];
                format!("{before}[{}]{after}", bad[self.draws.below(2)])
            }
            _ => key.to_string(),
        }
    }

    /// The line of the mode, or of the type. Where files may be wrong some have a second: another valid one, or one that is not valid, below
    /// the valid one or above it.
    fn lines_of(&mut self, key: &str, value: &str, valid: &[&str]) {
        if self.wrong == 0 || !self.draws.once_in(6) {
            return self.line_of(key, value);
        }
        self.keys.insert(key.into());
        let other = self.draws.one_of(&NEITHER);
        match self.draws.below(4) {
            0 => [other, value].map(|value| self.put(key, value)),
            1 => [value, other].map(|value| self.put(key, value)),
            2 => [value, self.draws.one_of(valid)].map(|value| self.put(key, value)),
            _ => [other, self.draws.one_of(&NEITHER)].map(|value| self.put(key, value)),
        };
    }

    /// Some of the fields that rule 22 may ask for.
    fn fields(&mut self) {
        for field in &demands::FIELDS {
            if self.draws.once_in(2) {
                let (_, kind) = names::keys()
                    .find(|(pattern, _)| *pattern == field.key)
                    .expect("a field's key is known");
                self.line_with(field.key, kind);
            }
        }
    }

    /// A line that declares an assay.
    fn declared_assay(&mut self, i: usize) {
        let (end, value) = match self.draws.below(3) {
            0 => ("ms_run_ref", "ms_run[1]"),
            1 => ("quantification_reagent", "[,,r,]"),
            _ => ("sample_ref", "sample[1]"),
        };
        self.line_of(&format!("assay[{i}]-{end}"), value);
    }

    /// A line that declares a study variable.
    fn declared(&mut self, i: usize) {
        let (end, value) = match self.draws.below(3) {
            0 => ("description", "v"),
            1 if !self.no_assay => ("assay_refs", "assay[1]"),
            _ => ("sample_refs", "sample[1]"),
        };
        self.line_of(&format!("study_variable[{i}]-{end}"), value);
    }

    fn metadata_line(&mut self) {
        let at = self.draws.below(names::keys().count());
        let (pattern, kind) = names::keys().nth(at).expect("it is below the count");
        self.line_with(pattern, kind);
    }

    /// Lines whose values are references: few of the keys ask for one.
    fn references(&mut self) {
        let is_one = |kind: &Kind| matches!(kind, Kind::Reference(_) | Kind::ReferenceList(_));
        let all: Vec<_> = names::keys().filter(|(_, kind)| is_one(kind)).collect();
        for _ in 0..self.draws.below(6) {
            let (pattern, kind) = all[self.draws.below(all.len())];
            self.line_with(pattern, kind);
        }
    }

    /// A line with a key of the pattern and a value of the kind.
    fn line_with(&mut self, pattern: &str, kind: Kind) {
        if self.is_left_out(pattern) {
            return;
        }
        let key = self.name(pattern);
        if self.wrong == 0 && !self.keys.insert(key.clone()) {
            return;
        }
        let value = self.value(kind);
        let mut cells = vec![b"MTD".to_vec(), key, value];
        if self.slips() {
            cells.truncate(2);
        } else if self.slips() {
            cells.push(Vec::new());
        }
        self.end_line(&cells);
    }

    /// Whether a name names an assay in a file that declares none.
    fn is_left_out(&self, pattern: &str) -> bool {
        self.no_assay && pattern.contains("assay")
    }

    /// A name with its indices; where it slips, a name that is near another.
    fn name(&mut self, pattern: &str) -> Vec<u8> {
        if self.slips() {
            if self.draws.once_in(2) {
                return self.near_name(pattern).into_bytes();
            }
            let near = cases::names::NEAR;
            return near[self.draws.below(near.len())].as_bytes().to_vec();
        }
        self.with_indices(pattern, Source::index).into_bytes()
    }

    fn with_indices(&mut self, pattern: &str, index: impl Fn(&mut Self) -> String) -> String {
        let mut name = pattern.to_string();
        while name.contains("[n]") {
            name = name.replacen("[n]", &index(self), 1);
        }
        name
    }

    /// A name with indices, half of them bad, and something wrong besides: with good ones it would mostly be unknown still.
    fn near_name(&mut self, pattern: &str) -> String {
        let mut name = self.with_indices(pattern, Source::index_or_bad);
        match self.draws.below(4) {
            0 => {
                name.pop();
            }
            1 => {
                name.remove(self.draws.below(name.len()));
            }
            _ => {
                let after = ["x", " ", "]", "-site", "[1]", "[01]", "[65]", "_ms_run[01]"];
                name += self.draws.one_of(&after);
            }
        }
        name
    }

    fn index_or_bad(&mut self) -> String {
        if self.draws.once_in(2) {
            self.bad_index()
        } else {
            self.index()
        }
    }

    fn bad_index(&mut self) -> String {
        format!("[{}]", self.bad_number())
    }

    /// Digits that are no index, of every shape: zeros, zeros in front of a number, a number over 64. Of some the last bits alone would be an
    /// index, and some are long.
    fn bad_number(&mut self) -> String {
        let index = self.draws.below(64) as u128 + 1;
        let zeros = "0".repeat(self.draws.below(3) + 1);
        match self.draws.below(8) {
            0 => zeros,
            1 => format!("{zeros}{index}"),
            2 => format!("{zeros}{}", self.digits(40)),
            3 => (64 + index).to_string(),
            4 => (self.draws.below(936) + 65).to_string(),
            5 => ((1 << [8, 16, 31, 32, 63, 64, 127][self.draws.below(7)]) + index).to_string(),
            6 => format!("{index}00{}", self.digits(40)),
            _ => {
                let edges = [
                    "0", "00", "01", "064", "065", "65", "66", "99", "100", "640",
                ];
                self.draws.one_of(&edges).to_string()
            }
        }
    }

    /// An index, mostly good. Where it slips, brackets that hold no number, or are none.
    fn index(&mut self) -> String {
        if self.slips() {
            let none = [
                "[]", "[ 1]", "[1 ]", "[-1]", "[1a]", "[65a]", "[01", "01]", "1",
            ];
            return self.draws.one_of(&none).to_string();
        }
        if self.bad > 0 && self.draws.once_in(self.bad) {
            return self.bad_index();
        }
        // Index 1 of each family is declared, and others may not be.
        if self.wrong == 0 {
            return "[1]".to_string();
        }
        let value = match self.draws.below(8) {
            0 => self.draws.below(64) + 1,
            1 => 2,
            _ => 1,
        };
        format!("[{value}]")
    }

    fn section(&mut self, section: usize) {
        let Section { header, row, .. } = SECTIONS[section];
        let letter = LETTERS[section];
        let mut columns: Vec<Column> = Vec::new();
        for name in self.required(section as u32 + 1) {
            if !self.slips() {
                let known = names::column(section as u32 + 1, name.as_bytes());
                columns.push(Column {
                    name: name.as_bytes().to_vec(),
                    kind: known.map_or(Kind::Text, |known| known.kind),
                    null: NULL,
                });
            }
        }
        // Half of the columns have indices.
        let most = if self.bad > 0 { 24 } else { 8 };
        for _ in 0..self.draws.below(most) {
            let (sections, pattern, kind) = COLUMNS[self.draws.below(COLUMNS.len())];
            if self.is_left_out(pattern) {
                continue;
            }
            if sections.contains(letter) || self.slips() {
                let name = self.name(pattern);
                let kind = self.kind_under(section as u32 + 1, &name, kind);
                self.column(name, kind, NULL, &mut columns);
            }
        }
        if section == 0 {
            self.abundances(&mut columns);
        }
        self.twice(&mut columns);
        self.options(&mut columns);
        let mut cells = vec![header.to_vec()];
        cells.extend(columns.iter().map(|column| column.name.clone()));
        // Some sections are rows alone.
        if self.wrong == 0 || !self.draws.once_in(8) {
            self.end_line(&cells);
        }
        for _ in 0..self.draws.below(10) {
            self.row(row, &columns);
        }
    }

    /// The columns that a header must have. Those that Quantification alone asks for are there where the file is to be complete, and in half
    /// of the other headers.
    fn required(&mut self, section: u32) -> Vec<&'static str> {
        let mut all = names::required(section).to_vec();
        let asked = self.complete && self.kind == "Quantification";
        if asked || self.draws.once_in(2) {
            all.extend(names::required_in_quantification(section));
        }
        all
    }

    /// What is drawn for the cells under a column. Those under a name that is not known may be any text, and under half of such names they
    /// are.
    fn kind_under(&mut self, section: u32, name: &[u8], kind: Kind) -> Kind {
        if names::column(section, name).is_none() && self.draws.once_in(2) {
            Kind::Text
        } else {
            kind
        }
    }

    /// One more column, unless one of its name is there.
    fn column(&mut self, name: Vec<u8>, kind: Kind, null: usize, columns: &mut Vec<Column>) {
        if !columns.iter().any(|other| other.name == name) || self.slips() {
            columns.push(Column { name, kind, null });
        }
    }

    /// The abundances of the study variables, some after the other columns and some between them.
    fn abundances(&mut self, columns: &mut Vec<Column>) {
        for i in self.variables.clone() {
            let name = format!("protein_abundance_study_variable[{i}]");
            let null = [0, 1, 2, 2, 3, NULL][self.draws.below(6)];
            self.column(name.into_bytes(), Kind::Decimal, null, columns);
            if self.draws.once_in(2) {
                let (at, last) = (self.draws.below(columns.len()), columns.len() - 1);
                columns.swap(at, last);
            }
        }
    }

    /// In some files with bad indices the last column stands twice, and is bad or not.
    fn twice(&mut self, columns: &mut Vec<Column>) {
        if self.bad > 0 && self.draws.once_in(8) {
            if let Some(Column { name, kind, null }) = columns.last() {
                let (name, kind, null) = (name.clone(), *kind, *null);
                columns.push(Column { name, kind, null });
            }
        }
    }

    /// Columns that begin `opt_`: few, or so many that the header is as wide as it may be, or wider.
    fn options(&mut self, columns: &mut Vec<Column>) {
        let count = match self.draws.below(60) {
            0 => (255 - columns.len()) + self.draws.below(3),
            k => k % 4,
        };
        for k in 0..count {
            let name = if self.slips() {
                "opt_".to_string()
            } else if self.draws.once_in(8) {
                format!("opt_protein_abundance_study_variable[{}]", k + 1)
            } else {
                format!("opt_{k}")
            };
            columns.push(Column {
                name: name.into_bytes(),
                kind: Kind::Text,
                null: NULL,
            });
        }
        if self.slips() && !columns.is_empty() {
            let (a, b) = (
                self.draws.below(columns.len()),
                self.draws.below(columns.len()),
            );
            columns.swap(a, b);
        }
    }

    fn row(&mut self, code: &[u8], columns: &[Column]) {
        let mut cells = vec![code.to_vec()];
        for Column { kind, null, .. } in columns {
            let missing = *kind != Kind::NeverNull && *null > 0 && self.draws.once_in(*null);
            let cell = if missing {
                b"null".to_vec()
            } else {
                self.value(*kind)
            };
            cells.push(cell);
        }
        if self.slips() {
            cells.pop();
        } else if self.slips() {
            cells.push(b"1".to_vec());
        }
        self.end_line(&cells);
    }

    /// A value of the kind; where it slips, none at all, one of another, or one that is near to some kind.
    fn value(&mut self, kind: Kind) -> Vec<u8> {
        if self.slips() {
            return self.wrong_value(kind);
        }
        match kind {
            Kind::Version => self.draws.one_of(&["1.0", "1.0.0"]).into(),
            Kind::Mode => self.draws.one_of(&["Summary", "Complete"]).into(),
            Kind::Type => self
                .draws
                .one_of(&["Quantification", "Identification"])
                .into(),
            Kind::Whole => self.whole().into_bytes(),
            Kind::Reliability => self.draws.one_of(&["1", "2", "3"]).into(),
            Kind::Unique => self.draws.one_of(&["0", "1"]).into(),
            Kind::Decimal => self.decimal().into_bytes(),
            Kind::DecimalList => self.many("|", Source::decimal).into_bytes(),
            Kind::Window => format!("{}|{}", self.decimal(), self.decimal()).into_bytes(),
            Kind::Parameter => self.parameter().into_bytes(),
            Kind::ParameterList => self.many("|", Source::listed_parameter).into_bytes(),
            Kind::Reference(family) | Kind::ReferenceList(family)
                if self.bad > 0 && self.draws.once_in(3) =>
            {
                self.near_references(family.word()).into_bytes()
            }
            Kind::Reference(family) => format!("{}{}", family.word(), self.index()).into_bytes(),
            Kind::ReferenceList(family) => {
                let word = family.word();
                let comma = self.draws.one_of(&[",", ", ", ",   "]);
                self.many(comma, |source| format!("{word}{}", source.index()))
                    .into_bytes()
            }
            Kind::Text | Kind::NeverNull => self.text(),
        }
    }

    /// Most often no value of the kind; of decimals, parameters and references half are near ones.
    fn wrong_value(&mut self, kind: Kind) -> Vec<u8> {
        if self.draws.once_in(4) {
            return Vec::new();
        }
        if self.draws.once_in(2) {
            match kind {
                Kind::Decimal => return self.near_decimal().into_bytes(),
                Kind::DecimalList => return self.many("|", Source::near_decimal).into_bytes(),
                Kind::Window => {
                    return format!("{}|{}", self.decimal(), self.near_decimal()).into_bytes()
                }
                Kind::Parameter => return self.near_parameter().into_bytes(),
                Kind::ParameterList => return self.many("|", Source::near_parameter).into_bytes(),
                Kind::Reference(family) | Kind::ReferenceList(family) => {
                    return self.near_references(family.word()).into_bytes()
                }
                _ => (),
            }
        }
        self.near[self.draws.below(self.near.len())].clone()
    }

    /// What is near a reference: its word, its index or what stands around it is wrong. Some are right, or have a bad index alone.
    fn near_reference(&mut self, word: &str) -> String {
        let index = self.index_or_bad();
        match self.draws.below(6) {
            0 => {
                let other = ["sample", "assay", "study_variable", "ms_run", "Assay", ""];
                format!("{}{index}", self.draws.one_of(&other))
            }
            1 => {
                let after = ["x", " ", "]", "[1]", ",", "-location"];
                format!("{word}{index}{}", self.draws.one_of(&after))
            }
            2 => {
                let other = ["", "[]", "[1a]", "[-1]", "[01", "65]", "(01)"];
                format!("{word}{}", self.draws.one_of(&other))
            }
            _ => format!("{word}{index}"),
        }
    }

    /// References, good, bad and none, with commas between them or what is near one, whether one is asked for or a list.
    fn near_references(&mut self, word: &str) -> String {
        let commas = [",", ",", ", ", ",  ", " ,", ",,", ";", "|"];
        let (before, comma) = (
            self.draws.one_of(&["", "", "", " "]),
            self.draws.one_of(&commas),
        );
        before.to_string() + &self.many(comma, |source| source.near_reference(word))
    }

    fn many(&mut self, between: &str, one: impl Fn(&mut Self) -> String) -> String {
        let count = self.draws.below(3) + 1;
        let all: Vec<String> = (0..count).map(|_| one(self)).collect();
        all.join(between)
    }

    /// Any text will do, so that some are near decimals: what each reads as is compared, and the file may still be right.
    fn text(&mut self) -> Vec<u8> {
        if self.draws.once_in(4) {
            return self.near_decimal().into_bytes();
        }
        let texts: [&[u8]; 8] = [
            b"x",
            b"ms_run[01]",
            b"P12345",
            b"Heat shock",
            b"N\xc3\xa4me",
            b"\xff\xfe",
            b"null ",
            b"a|b,c",
        ];
        texts[self.draws.below(texts.len())].to_vec()
    }

    fn digits(&mut self, most: usize) -> String {
        let count = self.draws.below(most) + 1;
        (0..count)
            .map(|_| char::from(b'0' + self.draws.below(10) as u8))
            .collect()
    }

    fn sign(&mut self) -> &'static str {
        self.draws.one_of(&["", "", "-"])
    }

    fn whole(&mut self) -> String {
        format!("{}{}", self.sign(), self.digits(9))
    }

    fn decimal(&mut self) -> String {
        match self.draws.below(12) {
            0 => "INF".to_string(),
            1 => "NaN".to_string(),
            2..=6 => format!("{}{}{}", self.sign(), self.mantissa(), self.exponent()),
            _ => format!("{}{}", self.sign(), self.mantissa()),
        }
    }

    /// Digits, or digits on each side of a dot; some have more than a short decimal may have.
    fn mantissa(&mut self) -> String {
        match self.draws.below(10) {
            0 => self.digits(18),
            1 => self.digits(3),
            _ => format!("{}.{}", self.digits(7), self.digits(10)),
        }
    }

    /// An exponent: mostly one with which a decimal is short or nearly so, else any.
    fn exponent(&mut self) -> String {
        let letter = self.draws.one_of(&["E", "e"]);
        let sign = self.draws.one_of(&["", "+", "-", "-"]);
        if self.draws.once_in(4) {
            return format!("{letter}{sign}{}", self.digits(3));
        }
        let (value, width) = (self.draws.below(40), self.draws.below(3) + 1);
        format!("{letter}{sign}{value:0width$}")
    }

    /// What is near a decimal with an exponent: one of its pieces is wrong, or twice there. Some are right.
    fn near_decimal(&mut self) -> String {
        let (sign, mantissa, exponent) = (self.sign(), self.mantissa(), self.exponent());
        match self.draws.below(12) {
            0 => {
                let sign = self.draws.one_of(&["+", "--", "-+", " ", "- "]);
                format!("{sign}{mantissa}{exponent}")
            }
            1 => format!("{sign}.{}{exponent}", self.digits(3)),
            2 => format!("{sign}{}.{exponent}", self.digits(3)),
            3 => {
                let other = [
                    "INF", "NaN", "inf", "null", "", ".", "1,000", "1.2.3", "0x1",
                ];
                format!("{sign}{}{exponent}", self.draws.one_of(&other))
            }
            4 => format!("{sign}{mantissa}{exponent}{}", self.exponent()),
            5 => {
                let after = [".", ".0", " ", "-", "E", "e", ",", "|", "|E5", "\u{e9}"];
                format!("{sign}{mantissa}{exponent}{}", self.draws.one_of(&after))
            }
            6 => format!("{sign}{mantissa}{exponent}"),
            _ => format!("{sign}{mantissa}{}", self.near_exponent()),
        }
    }

    /// What is near an exponent: its letter or its sign is wrong, or its digits are none or four.
    fn near_exponent(&mut self) -> String {
        let letter = self.draws.one_of(&["E", "e"]);
        let sign = self.draws.one_of(&["", "+", "-"]);
        match self.draws.below(5) {
            0 => {
                let other = ["F", "D", "d", "x", "EE", "Ee", " E", "E ", "*", "\u{c9}"];
                format!("{}{sign}{}", self.draws.one_of(&other), self.digits(3))
            }
            1 => {
                let other = ["+-", "-+", "--", "++", " ", "+ ", ".", "-.", "0.", "-0."];
                format!("{letter}{}{}", self.draws.one_of(&other), self.digits(2))
            }
            2 => format!("{letter}{sign}"),
            3 => format!("{letter}{sign}000{}", self.digits(1)),
            _ => format!("{letter}{sign}1{:03}", self.draws.below(1_000)),
        }
    }

    /// A parameter of a list. In a file that is to be right it holds no bar outside marks, which would end it.
    fn listed_parameter(&mut self) -> String {
        loop {
            let parameter = self.parameter();
            if self.wrong > 0 || !parameter.contains("a]|b") {
                return parameter;
            }
        }
    }

    fn parameter(&mut self) -> String {
        let fields = [
            "",
            "MS",
            " MS:1001207",
            "a user parameter",
            "\"N,O-diacetyl\"",
            "\"a|b\"",
            " \"\" ",
            "[x]",
        ];
        let third = ["Mascot", " x", "\"N,O-diacetyl\"", "\"\"", "a]|b", "\"|\" "];
        let long = self.draws.once_in(20).then(|| self.long("x"));
        format!(
            "[{},{},{}{},{}]",
            self.draws.one_of(&fields),
            self.draws.one_of(&fields),
            self.draws.one_of(&third),
            long.unwrap_or_default(),
            self.draws.one_of(&fields)
        )
    }

    /// The text over and over, near so long as the blocks in which a parameter may be scanned.
    fn long(&mut self, text: &str) -> String {
        text.repeat(self.draws.below(60) + 980)
    }

    /// What is near a parameter: something in it is missing or is there once more, once or over and over, its third field holds spaces
    /// alone, or it is put together from pieces. Some are right.
    fn near_parameter(&mut self) -> String {
        let pieces = [
            "[", "]", ",", ",", "\"", "|", " ", "a", "\u{e9}", "{", "[,,", ",]", "\"a,b\"", "]|[",
        ];
        let mut drawn: Vec<String> = self.parameter().chars().map(String::from).collect();
        let place = self.draws.below(drawn.len());
        match self.draws.below(6) {
            0 => drop(drawn.remove(place)),
            1 | 2 => drawn.insert(place, self.draws.one_of(&pieces).to_string()),
            3 => {
                let text = self.draws.one_of(&pieces);
                drawn.insert(place, self.long(text));
            }
            4 => drawn = vec!["[,,".into(), " ".repeat(self.draws.below(3)), ",]".into()],
            _ => {
                let count = self.draws.below(8);
                drawn = (0..count)
                    .map(|_| self.draws.one_of(&pieces).to_string())
                    .collect();
                drawn.insert(0, "[,".into());
                drawn.push(",]".into());
            }
        }
        drawn.concat()
    }
}

#[cfg(test)]
mod tests {
    use super::*;
    use independent::kinds::Bad;

    #[test]
    fn bad_numbers_are_bad() {
        let mut draws = Draws::new(1);
        let mut source = Source::new(&[], &mut draws);
        let mut drawn = [0, 0];
        for _ in 0..10_000 {
            let key = format!("uri{}", source.bad_index());
            match names::bad_key(key.as_bytes()) {
                Some(Bad::Zero) => drawn[0] += 1,
                Some(Bad::Over) => drawn[1] += 1,
                None => panic!("{key}"),
            }
        }
        assert!(drawn.iter().all(|count| *count > 3_000), "{drawn:?}");
    }

    /// Half of the names that are near others have something wrong beside their indices.
    #[test]
    fn near_names_are_near() {
        let mut draws = Draws::new(2);
        let mut source = Source::new(&[], &mut draws);
        let mut unknown = 0;
        for (pattern, _) in names::keys() {
            for _ in 0..100 {
                let name = source.near_name(pattern);
                let known = names::key(name.as_bytes()).is_some();
                let bad = names::bad_key(name.as_bytes()).is_some();
                unknown += usize::from(!known && !bad);
            }
        }
        assert!(unknown > names::keys().count() * 50, "{unknown}");
    }
}
