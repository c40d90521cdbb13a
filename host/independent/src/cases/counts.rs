//! Files with counts, drawn: small ones, most of them accepted, with columns of
//! the three counters for some runs, other columns of runs around them, and rows
//! of every section.

use super::holes::Below;

/// The columns of the three counters, and others whose cells are numbers too;
/// `[n]` stands for a run.
const COUNTERS: [&str; 3] = [
    "num_psms_ms_run[n]",
    "num_peptides_distinct_ms_run[n]",
    "num_peptides_unique_ms_run[n]",
];
const OTHERS: [&str; 6] = [
    "search_engine_score[1]_ms_run[n]",
    "search_engine_score[2]_ms_run[n]",
    "best_search_engine_score[1]",
    "taxid",
    "protein_coverage",
    "uri",
];
const OPTIONAL: [&str; 4] = [
    "opt_num_psms_ms_run[n]",
    "opt_num_peptides_distinct_ms_run[n]",
    "opt_global_num_peptides_unique_ms_run[n]",
    "opt_n",
];
const REQUIRED: [&str; 4] = ["accession", "description", "database", "search_engine"];

/// Counts, one of them of as many digits as there may be; such as are zero with
/// a sign; and such as are below zero.
const COUNTS: [&str; 10] = [
    "0",
    "1",
    "2",
    "3",
    "12",
    "007",
    "000000000",
    "480",
    "999999999",
    "65536",
];
const ZEROS: [&str; 3] = ["-0", "-00", "-000000000"];
const BELOW_ZERO: [&str; 5] = ["-1", "-007", "-999999999", "-000000001", "-10"];

/// Cells under other columns.
const NUMBERS: [&str; 6] = ["5", "-5", "0", "-0", "null", "9606"];

/// Cells that are no counts, and names that are no such columns, or of no run
/// that a file here declares.
const NO_COUNTS: [&str; 9] = [
    "",
    "NA",
    "1.5",
    "+1",
    "1234567890",
    "-",
    "--1",
    "null ",
    "1E1",
];
const NO_INDICES: [&str; 6] = ["[0]", "[01]", "[65]", "[]", "", "[1"];

/// The other sections: header, row, key of the score and of the unit, which rule
/// 22 asks for.
struct Other {
    header: &'static str,
    row: &'static str,
    score: &'static str,
    unit: &'static str,
}

const SECTIONS: [Other; 3] = [
    Other {
        header: "PEH\tsequence\taccession\tcharge\tmass_to_charge\tmodifications\
            \tretention_time\tretention_time_window\topt_num_psms_ms_run[1]",
        row: "PEP\tAB\tnull\t-2\t10.5\tnull\t1|2\tnull\t-1",
        score: "peptide_search_engine_score[1]",
        unit: "peptide-quantification_unit",
    },
    Other {
        header: "PSH\tsequence\tPSM_ID\taccession\tcharge\tspectra_ref\topt_a",
        row: "PSM\tAB\t1\tnull\t2\tnull\t-7",
        score: "psm_search_engine_score[1]",
        // No unit is asked for.
        unit: "",
    },
    Other {
        header: "SMH\tidentifier\tcharge\ttaxid\turi",
        row: "SML\tnull\t-1\t-3\tnull",
        score: "smallmolecule_search_engine_score[1]",
        unit: "small_molecule-quantification_unit",
    },
];

/// Lines that are none of a table.
const LINES: [&str; 5] = [
    "",
    "COM",
    "COM\tPRT\t-1",
    "COM\tPRH\tnum_psms_ms_run[1]",
    "",
];

/// One file in so many has counts below zero, and then one count in so many is
/// such; in one file in so many one thing is wrong.
const SOME_BELOW_ZERO: usize = 7;
const COUNTS_BELOW_ZERO: usize = 6;
const SOME_WRONG: usize = 7;

struct Source<'d> {
    below: Below<'d>,
    /// One cell in so many is `null`, and one a count below zero; 0 for none.
    null: usize,
    below_zero: usize,
    runs: Vec<usize>,
    lines: Vec<String>,
}

/// A file, drawn by the numbers.
pub fn file(below: Below) -> Vec<u8> {
    let null = [0, 2, 4, 8][below(4)];
    let below_zero = match below(SOME_BELOW_ZERO) {
        0 => COUNTS_BELOW_ZERO,
        _ => 0,
    };
    let mut source = Source {
        below,
        null,
        below_zero,
        runs: Vec::new(),
        lines: Vec::new(),
    };
    source.file();
    if source.once_in(SOME_WRONG) {
        source.spoil();
    }
    source.with_ends()
}

impl Source<'_> {
    fn draw(&mut self, n: usize) -> usize {
        (self.below)(n)
    }

    fn once_in(&mut self, n: usize) -> bool {
        n > 0 && self.draw(n) == 0
    }

    fn one_of(&mut self, all: &[&'static str]) -> &'static str {
        all[self.draw(all.len())]
    }

    fn shuffle<T>(&mut self, all: &mut [T]) {
        for at in 1..all.len() {
            let other = self.draw(at + 1);
            all.swap(at, other);
        }
    }

    /// Runs in any order: mostly few, once in a while many.
    fn draw_runs(&mut self) {
        let mut all: Vec<usize> = (1..=64).collect();
        self.shuffle(&mut all);
        let count = match self.draw(60) {
            0 => 64,
            1 => self.draw(20) + 1,
            _ => self.draw(3) + 1,
        };
        self.runs = all[..count].to_vec();
    }

    fn file(&mut self) {
        self.draw_runs();
        let proteins = !self.once_in(12);
        let all = self.once_in(4);
        let mut others: Vec<&Other> = Vec::new();
        for other in &SECTIONS {
            if all || self.once_in(5) {
                others.push(other);
            }
        }
        self.metadata(proteins, &others);
        if proteins {
            self.proteins();
        }
        for other in others {
            self.lines.push(other.header.to_string());
            for _ in 0..[0, 1, 1, 2, 3][self.draw(5)] {
                self.lines.push(other.row.to_string());
            }
        }
    }

    /// All that rules 21 and 22 ask for, in any order.
    fn metadata(&mut self, proteins: bool, others: &[&Other]) {
        let mode = self.one_of(&["Summary", "Summary", "Complete"]);
        let kind = self.one_of(&["Identification", "Identification", "Quantification"]);
        let mut lines = vec![
            "mzTab-version\t1.0".to_string(),
            format!("mzTab-mode\t{mode}"),
            format!("mzTab-type\t{kind}"),
            "description\td".to_string(),
        ];
        let mut parameters = vec!["fixed_mod[1]", "variable_mod[1]"];
        if mode == "Complete" {
            parameters.extend(["software[1]", "quantification_method"]);
        }
        if proteins {
            parameters.push("protein_search_engine_score[1]");
        }
        if kind == "Quantification" && proteins {
            parameters.push("protein-quantification_unit");
        }
        for other in others {
            parameters.push(other.score);
            if kind == "Quantification" && !other.unit.is_empty() {
                parameters.push(other.unit);
            }
        }
        lines.extend(parameters.iter().map(|key| format!("{key}\t[,,p,]")));
        lines.extend(self.declared());
        self.shuffle(&mut lines);
        self.lines = lines.iter().map(|line| format!("MTD\t{line}")).collect();
    }

    /// The runs. The first has a location, which rule 21 asks for, others
    /// something else.
    fn declared(&mut self) -> Vec<String> {
        let mut lines = Vec::new();
        for (k, n) in self.runs.clone().into_iter().enumerate() {
            let ends = ["location\ta", "format\t[,,m,]", "id_format\t[,,i,]"];
            let end = if k == 0 { ends[0] } else { self.one_of(&ends) };
            lines.push(format!("ms_run[{n}]-{end}"));
        }
        lines
    }

    /// The columns of the protein table: the required ones, those of counters for
    /// most runs, and others, in free order; the optional ones last.
    fn columns(&mut self) -> Vec<String> {
        let mut names: Vec<String> = REQUIRED.map(str::to_string).to_vec();
        for n in self.runs.clone() {
            for pattern in COUNTERS {
                if !self.once_in(4) {
                    names.push(with_run(pattern, n));
                }
            }
        }
        let some = self.runs[0];
        for pattern in OTHERS {
            if self.once_in(6) {
                names.push(with_run(pattern, some));
            }
        }
        self.shuffle(&mut names);
        for pattern in OPTIONAL {
            if self.once_in(6) {
                names.push(with_run(pattern, some));
            }
        }
        names
    }

    fn proteins(&mut self) {
        let names = self.columns();
        self.lines.push(format!("PRH\t{}", names.join("\t")));
        for _ in 0..[0, 1, 2, 2, 3, 4][self.draw(6)] {
            let mut row = "PRT".to_string();
            for name in &names {
                row += "\t";
                row += &self.cell(name);
            }
            self.lines.push(row);
            if self.once_in(12) {
                let line = self.one_of(&LINES);
                self.lines.push(line.to_string());
            }
        }
    }

    fn cell(&mut self, name: &str) -> String {
        match name {
            "accession" => "Y1".to_string(),
            "description" | "search_engine" => "null".to_string(),
            "database" => self.one_of(&["db", "null", "7"]).to_string(),
            name if name.starts_with("num_") => self.count(),
            _ => self.one_of(&NUMBERS).to_string(),
        }
    }

    fn count(&mut self) -> String {
        let some: &[&str] = if self.once_in(self.null) {
            &["null"]
        } else if self.once_in(self.below_zero) {
            &BELOW_ZERO
        } else if self.once_in(8) {
            &ZEROS
        } else if self.once_in(2) {
            &COUNTS
        } else {
            return self.digits();
        };
        self.one_of(some).to_string()
    }

    /// As many digits as a count may have, or fewer.
    fn digits(&mut self) -> String {
        let count = self.draw(9) + 1;
        (0..count).map(|_| self.draw(10).to_string()).collect()
    }

    /// One thing is wrong: mostly with counts or their columns.
    fn spoil(&mut self) {
        let at = self.draw(self.lines.len());
        match self.draw(6) {
            0 => drop(self.lines.remove(at)),
            1 => self.lines[at] += "\t1",
            2 => self.lines.push("prt\t1".to_string()),
            3 => {
                let index = self.one_of(&NO_INDICES);
                let run = format!("_ms_run[{}]", self.runs[0]);
                let other = format!("_ms_run{index}");
                let header = self.lines.iter_mut().find(|line| line.starts_with("PRH"));
                header
                    .into_iter()
                    .for_each(|line| *line = line.replacen(&run, &other, 1));
            }
            _ => self.spoil_cell(),
        }
    }

    /// A cell of the last protein row is no count.
    fn spoil_cell(&mut self) {
        let cell = self.one_of(&NO_COUNTS);
        let below = &mut *self.below;
        let row = self.lines.iter_mut().rfind(|line| line.starts_with("PRT"));
        if let Some(line) = row {
            let mut cells: Vec<&str> = line.split('\t').collect();
            let at = 1 + below(cells.len() - 1);
            cells[at] = cell;
            *line = cells.join("\t");
        }
    }

    /// The lines with their ends: LF, CR LF or either, and none at the very end
    /// of some files.
    fn with_ends(&mut self) -> Vec<u8> {
        let returns = [0, 0, 1, 3][self.draw(4)];
        let mut out = String::new();
        for line in std::mem::take(&mut self.lines) {
            out += &line;
            out += if self.once_in(returns) { "\r\n" } else { "\n" };
        }
        if self.once_in(5) {
            return out.trim_end_matches(&['\r', '\n'][..]).into();
        }
        out.into_bytes()
    }
}

fn with_run(pattern: &str, n: usize) -> String {
    pattern.replace("[n]", &format!("[{n}]"))
}

/// So many files, the same on every run.
pub fn files(count: usize) -> Vec<Vec<u8>> {
    let mut below = super::numbers(202_609);
    (0..count).map(|_| file(&mut below)).collect()
}
