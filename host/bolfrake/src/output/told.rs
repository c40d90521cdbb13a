//! A break in words: the rule's title, the cell that stands there, and what else helps to mend it.

use mztab::format::{bad_index, demand_at, headed, BadIndex, INDICES, METADATA, REQUIRED_KEYS};
use mztab::Break;

use crate::files::finder::{cells, code, Finder};
use crate::files::mode_and_type::is_quantified;
use crate::output::names::Names;
use crate::output::pages::Titles;
use crate::output::show;

/// A break as it is printed.
pub struct Told {
    pub at: Break,
    pub words: &'static str,
    /// The cell, escaped and cut; nothing where no cell stands there.
    pub shown: Option<String>,
    /// What else helps, or no byte.
    pub detail: String,
}

pub struct Teller<'a> {
    titles: &'a Titles,
    file: &'a [u8],
    finder: Finder<'a>,
    /// Whether the file is one of Quantification, once that was asked.
    quantified: Option<bool>,
    names: Names<'a>,
}

impl<'a> Teller<'a> {
    pub fn new(file: &'a [u8], titles: &'a Titles) -> Teller<'a> {
        Teller {
            titles,
            file,
            finder: Finder::new(file),
            quantified: None,
            names: Names::default(),
        }
    }

    /// Breaks are told in their order.
    pub fn tell(&mut self, at: Break) -> Told {
        let words = self.titles.of(at.rule);
        let (shown, detail) = match at.rule {
            // They stand at the line after the last, where there is no cell.
            21 => (None, absent(&required(at.cell))),
            22 => (None, demanded(at.cell)),
            _ => {
                let cell = self.finder.find(at.line, at.cell);
                let detail = self.detail(at, cell.unwrap_or_default());
                (cell.map(show::cell), detail)
            }
        };
        Told {
            at,
            words,
            shown,
            detail,
        }
    }

    fn detail(&mut self, at: Break, cell: &[u8]) -> String {
        let line = self.finder.line();
        match at.rule {
            3 | 11 => format!("the line has {}", count(line)),
            // Of what comes again, where it stands first.
            6 | 9 => format!("first on line {}", at.first),
            13 => format!("first in cell {}", at.first),
            7 | 8 => for_key(line),
            16 => format!("the header has no {}", self.lacking(line)),
            18 => {
                let names = self.names.all(self.finder.header());
                let header = show::counted(names.len() as u64, "cell");
                format!("the row has {}, its header {header}", count(line))
            }
            // A row that breaks one of these stands under a header of its own width.
            19 | 20 => {
                let name = self.names.of(self.finder.header(), at.cell);
                format!("in the column `{name}`")
            }
            23 | 24 if is_value(line, at.cell) => format!("{}, {}", for_key(line), unfit(cell)),
            23 | 24 => unfit(cell),
            _ => String::new(),
        }
    }

    /// The required columns that a header has not.
    fn lacking(&mut self, header: &[u8]) -> String {
        let section = match headed(code(header)) {
            Some(section) => section,
            None => return String::new(),
        };
        let mut names = section.required.to_vec();
        if !section.required_quantified.is_empty() && self.quantified() {
            names.extend(section.required_quantified);
        }
        names.retain(|name| !cells(header).any(|cell| cell == name.as_bytes()));
        let names: Vec<String> = names.iter().map(|name| format!("`{name}`")).collect();
        names.join(", ")
    }

    /// Whether the file is one of Quantification, found out once for all headers.
    fn quantified(&mut self) -> bool {
        let file = self.file;
        *self.quantified.get_or_insert_with(|| is_quantified(file))
    }
}

fn absent(key: &str) -> String {
    format!("no MTD line of three cells has the key `{key}`")
}

/// The key whose absence rule 21 reports at this cell.
fn required(cell: u32) -> String {
    let key = REQUIRED_KEYS.get((cell as usize).wrapping_sub(1));
    key.unwrap_or(&"?").to_string()
}

/// The key whose absence rule 22 reports at this cell, and why it is asked for.
fn demanded(cell: u32) -> String {
    match demand_at(cell) {
        Some((demand, index)) => format!("{}: {}", absent(&demand.key_of(index)), demand.reason),
        None => absent("?"),
    }
}

fn count(line: &[u8]) -> String {
    show::counted(cells(line).count() as u64, "cell")
}

/// Which key a metadata line has.
fn for_key(line: &[u8]) -> String {
    let key = show::cell(cells(line).nth(1).unwrap_or_default());
    format!("for the key `{key}`")
}

/// Whether the cell of the line is the value of a key. A header has a column name there.
fn is_value(line: &[u8], cell: u32) -> bool {
    cell == 3 && code(line) == METADATA
}

/// What is wrong with the leftmost bad index of a cell that breaks rule 23 or 24.
fn unfit(cell: &[u8]) -> String {
    bad_index(cell).map_or(String::new(), |index| flaw(&index))
}

/// What is wrong with an index, and what to write for it where that is clear.
fn flaw(index: &BadIndex) -> String {
    let shown = show::cell(index.digits);
    match (index.rule(), index.number) {
        (_, 0) => format!("index [{shown}] is zero: indices run from 1 to {INDICES}"),
        (23, 1..=INDICES) => {
            format!(
                "index [{shown}] has a leading zero: write [{}]",
                index.number
            )
        }
        (23, _) => format!("index [{shown}] has a leading zero: indices run from 1 to {INDICES}"),
        _ => format!("index [{shown}] is over {INDICES}"),
    }
}

#[cfg(test)]
mod tests {
    use super::*;

    fn told(file: &[u8]) -> Vec<String> {
        let judged = mztab::judge_all(file).unwrap();
        let titles = Titles::new();
        let mut teller = Teller::new(file, &titles);
        let all = judged.breaks().map(|at| teller.tell(at));
        all.map(|told| {
            format!(
                "{} {} {:?} {}",
                told.at.rule, told.words, told.shown, told.detail
            )
        })
        .collect()
    }

    /// The cell as the independent reading cuts it.
    fn cell_of(file: &[u8], at: Break) -> Option<&[u8]> {
        let line = independent::lines::lines(file).nth(at.line as usize - 1)?;
        let cell = independent::lines::cells(line).nth(at.cell as usize - 1);
        cell
    }

    #[test]
    fn the_cell_that_is_shown_is_the_one_that_breaks() {
        let titles = Titles::new();
        for case in independent::cases::judging::all() {
            let judged = mztab::judge_all(&case.file).unwrap();
            let mut teller = Teller::new(&case.file, &titles);
            for at in judged.breaks().filter(|at| ![21, 22].contains(&at.rule)) {
                let shown = teller.tell(at).shown;
                assert!(shown.is_some(), "{}", case.label);
                assert_eq!(
                    shown,
                    cell_of(&case.file, at).map(show::cell),
                    "{}",
                    case.label
                );
            }
        }
    }

    #[test]
    fn what_is_absent_is_named() {
        let titles = Titles::new();
        for case in independent::cases::judging::all() {
            let judged = mztab::judge_all(&case.file).unwrap();
            let mut teller = Teller::new(&case.file, &titles);
            for at in judged.breaks().filter(|at| [16, 21, 22].contains(&at.rule)) {
                let detail = teller.tell(at).detail;
                let named = detail.contains('`') && !detail.contains("`?`");
                assert!(named, "{}: {detail}", case.label);
            }
        }
    }

    /// What stands first of that which comes again, as the independent reading cuts it: a key, the code of a header, or a name.
    fn first_of(file: &[u8], at: Break) -> Option<&[u8]> {
        let (line, cell) = match at.rule {
            13 => (at.line, at.first),
            _ => (at.first, at.cell),
        };
        cell_of(file, Break { line, cell, ..at })
    }

    #[test]
    fn what_comes_again_stands_first_where_it_is_said() {
        let titles = Titles::new();
        let mut told = [0; 3];
        for case in independent::cases::judging::all() {
            let judged = mztab::judge_all(&case.file).unwrap();
            let mut teller = Teller::new(&case.file, &titles);
            for at in judged.breaks() {
                let detail = teller.tell(at).detail;
                let label = format!("{}: {at:?}, {detail}", case.label);
                let (k, words, before) = match at.rule {
                    6 => (0, "first on line", at.line),
                    9 => (1, "first on line", at.line),
                    13 => (2, "first in cell", at.cell),
                    _ => {
                        assert_eq!(at.first, 0, "{label}");
                        assert!(!detail.contains("first "), "{label}");
                        continue;
                    }
                };
                told[k] += 1;
                assert_eq!(detail, format!("{words} {}", at.first), "{label}");
                assert!(0 < at.first && at.first < before, "{label}");
                let first = first_of(&case.file, at);
                assert_eq!(first, cell_of(&case.file, at), "{label}");
            }
        }
        assert!(told.iter().all(|count| *count > 4), "{told:?}");
    }

    #[test]
    fn what_comes_again() {
        let lines = told(
            b"MTD\ttitle\ta\nMTD\tsoftware[1]\tx\n\nMTD\ttitle\tb\nMTD\ttitle\tc\nMTD\tsoftware[1]\tx\n\
            SMH\tidentifier\tcharge\t\tcharge\t\tcharge\nSMH\tidentifier\tcharge\n",
        );
        let expected = [
            "7 value not of its kind Some(\"x\") for the key `software[1]`",
            "6 key comes again Some(\"title\") first on line 1",
            "6 key comes again Some(\"title\") first on line 1",
            "6 key comes again Some(\"software[1]\") first on line 2",
            "7 value not of its kind Some(\"x\") for the key `software[1]`",
            "12 unknown column name Some(\"\") ",
            "13 column name comes again Some(\"charge\") first in cell 3",
            "12 unknown column name Some(\"\") ",
            "13 column name comes again Some(\"\") first in cell 4",
            "13 column name comes again Some(\"charge\") first in cell 3",
            "9 second header of a section Some(\"SMH\") first on line 7",
        ];
        assert_eq!(lines[..expected.len()], expected);
    }

    #[test]
    fn the_bad_index_is_shown() {
        let titles = Titles::new();
        for case in independent::cases::judging::all() {
            let judged = mztab::judge_all(&case.file).unwrap();
            let mut teller = Teller::new(&case.file, &titles);
            for at in judged.breaks().filter(|at| [23, 24].contains(&at.rule)) {
                let detail = teller.tell(at).detail;
                let shown =
                    detail.contains("index [") && detail.contains("] is over") == (at.rule == 24);
                assert!(shown, "{}: {detail}", case.label);
            }
        }
    }

    #[test]
    fn what_is_wrong_with_an_index() {
        for (cell, words) in [
            (
                "sample[01]-description",
                "[01] has a leading zero: write [1]",
            ),
            (
                "software[1]-setting[064]",
                "[064] has a leading zero: write [64]",
            ),
            (
                "ms_run[065]",
                "[065] has a leading zero: indices run from 1 to 64",
            ),
            ("assay[0]", "[0] is zero: indices run from 1 to 64"),
            ("assay[000]", "[000] is zero: indices run from 1 to 64"),
            ("sample[65]-description", "[65] is over 64"),
            ("assay[64],assay[100], assay[01]", "[100] is over 64"),
            (
                "software[01]-setting[65]",
                "[01] has a leading zero: write [1]",
            ),
            ("software[65]-setting[01]", "[65] is over 64"),
        ] {
            assert_eq!(unfit(cell.as_bytes()), format!("index {words}"), "{cell}");
        }
        assert_eq!(unfit(b"sample[64]-description"), "");
    }

    #[test]
    fn long_indices_are_cut() {
        let long = |digits: String| unfit(format!("sample[{digits}]").as_bytes());
        let many = |digit: &str| digit.repeat(1_000_000);
        let cut = |digit: &str| format!("index [{}…]", digit.repeat(show::WIDTH));
        assert_eq!(long(many("7")), cut("7") + " is over 64");
        assert_eq!(
            long(many("0") + "9"),
            cut("0") + " has a leading zero: write [9]"
        );
        assert_eq!(
            long(many("0")),
            cut("0") + " is zero: indices run from 1 to 64"
        );
    }

    #[test]
    fn bad_indices_of_keys_values_and_columns() {
        let lines = told(
            b"MTD\tsample[01]-description\ta\nMTD\tassay[1]-ms_run_ref\tms_run[77]\n\
            PRH\taccession\tnum_psms_ms_run[0]\tnum_psms_ms_run[1a]\tsearch_engine_score[65]_ms_run[1]\n\
            MTD\tsample[0]-nothing\ta\nMTD\tassay[2]-ms_run_ref\tassay[01]\n",
        );
        let (zero, over) = (Titles::new().of(23), Titles::new().of(24));
        let expected = [
            format!("23 {zero} Some(\"sample[01]-description\") index [01] has a leading zero: write [1]"),
            format!("24 {over} Some(\"ms_run[77]\") for the key `assay[1]-ms_run_ref`, index [77] is over 64"),
            "16 required column absent Some(\"PRH\") the header has no `description`, `database`, `search_engine`".to_string(),
            // Cell 3 of a header is the value of no key.
            format!("23 {zero} Some(\"num_psms_ms_run[0]\") index [0] is zero: indices run from 1 to 64"),
            "12 unknown column name Some(\"num_psms_ms_run[1a]\") ".to_string(),
            format!("24 {over} Some(\"search_engine_score[65]_ms_run[1]\") index [65] is over 64"),
            "4 MTD line after a header or row Some(\"MTD\") ".to_string(),
            "5 unknown key Some(\"sample[0]-nothing\") ".to_string(),
            "4 MTD line after a header or row Some(\"MTD\") ".to_string(),
            "7 value not of its kind Some(\"assay[01]\") for the key `assay[2]-ms_run_ref`".to_string(),
        ];
        assert_eq!(lines[..expected.len()], expected);
    }

    #[test]
    fn rule_21_names_the_key() {
        let lines = told(b"");
        assert_eq!(lines[0], "21 required metadata absent None no MTD line of three cells has the key `mzTab-version`");
        assert_eq!(lines[4], "21 required metadata absent None no MTD line of three cells has the key `ms_run[n]-location`");
    }

    /// A Complete Quantification file of these lines beside the five that rule 21 asks for.
    fn quantified(rest: &str) -> String {
        "MTD\tmzTab-version\t1.0\nMTD\tmzTab-mode\tComplete\nMTD\tmzTab-type\tQuantification\n\
        MTD\tdescription\ta\nMTD\tms_run[1]-location\tb\n"
            .to_string()
            + rest
    }

    #[test]
    fn rule_22_names_the_key_and_why_it_is_asked() {
        let lines = told(
            quantified("MTD\tassay[2]-sample_ref\tsample[1]\nMTD\tsample[1]-description\ta\n")
                .as_bytes(),
        );
        let expected = [
            "`assay[2]-ms_run_ref`: each assay of a Quantification file names its run",
            "`software[n]`: a Complete file names its software",
            "`fixed_mod[n]`: a file says which fixed modifications were searched, or that none were",
            "`variable_mod[n]`: a file says which variable modifications were searched, or that none were",
            "`quantification_method`: a Complete Quantification file names its method",
            "`assay[2]-quantification_reagent`: each assay of a Quantification file names its reagent",
        ];
        let title = Titles::new().of(22);
        let expected = expected
            .map(|key| format!("22 {title} None no MTD line of three cells has the key {key}"));
        assert_eq!(lines, expected);
    }

    #[test]
    fn cells_without_a_demand_are_told_too() {
        assert_eq!(demanded(100), absent("?"));
        assert_eq!(required(6), "?");
    }

    #[test]
    fn rows_name_the_column() {
        let lines = told(b"SMH\tidentifier\tcharge\nSML\t\t2+\nSML\tx\n");
        assert_eq!(
            lines[0],
            "19 empty cell in a row Some(\"\") in the column `identifier`"
        );
        assert_eq!(
            lines[1],
            "20 cell not of its column's kind Some(\"2+\") in the column `charge`"
        );
        assert_eq!(lines[2], "18 row has another number of cells Some(\"SML\") the row has 2 cells, its header 3 cells");
    }

    #[test]
    fn headers_name_what_is_absent() {
        let lines = told(b"PSH\tsequence\taccession\tspectra_ref\n");
        assert_eq!(
            lines[0],
            "16 required column absent Some(\"PSH\") the header has no `PSM_ID`, `charge`"
        );
    }

    #[test]
    fn peptide_headers_of_quantification_files_need_more() {
        let header = "PEH\tsequence\taccession\tcharge\tretention_time\n";
        let absent = |head: &str| {
            let mut lines = told((head.to_string() + header).as_bytes()).into_iter();
            lines.find(|line| line.starts_with("16 ")).unwrap()
        };
        let words = "16 required column absent Some(\"PEH\") the header has no `mass_to_charge`";
        let more = format!("{words}, `modifications`, `retention_time_window`");
        let head = quantified("");
        assert_eq!(absent(&head), more);
        assert_eq!(absent(&head.replace("Complete", "Summary")), more);
        for (value, other) in [
            ("Quantification", "Identification"),
            ("Complete", "complete"),
        ] {
            assert_eq!(absent(&head.replace(value, other)), words, "{other}");
        }
    }

    #[test]
    fn every_peptide_header_of_a_file_needs_the_same() {
        let lines = told(quantified("PEH\tsequence\nPEH\tcharge\n").as_bytes());
        let more = "`mass_to_charge`, `modifications`, `retention_time`, `retention_time_window`";
        assert!(lines[0].ends_with(&format!("has no `accession`, `charge`, {more}")));
        // The second breaks rule 9 too.
        assert!(lines[2].ends_with(&format!("has no `sequence`, `accession`, {more}")));
    }

    #[test]
    fn metadata_names_the_key() {
        let lines = told(b"MTD\tsoftware[1]\tMascot\nMTD\ttitle\n");
        assert_eq!(
            lines[0],
            "7 value not of its kind Some(\"Mascot\") for the key `software[1]`"
        );
        assert_eq!(
            lines[1],
            "3 MTD line has not three cells Some(\"MTD\") the line has 2 cells"
        );
    }
}
