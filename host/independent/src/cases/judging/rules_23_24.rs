//! Indices that are bad: "zero or leading zero", and "over 64".

use super::rule_22::{nine, CQ, SI, SQ};
use super::{wide, wide_row, Cases, Triples, EH, ER, FIXED, MH, MODE, MR, PH, PR, SH, SOFTWARE};
use super::{SR, TYPE, VARIABLE, VERSION, WORDS};

pub(super) fn rules_23_and_24(c: &mut Cases) {
    of_the_request(c);
    numbers_in_keys(c);
    numbers_in_references(c);
    numbers_in_columns(c);
    brackets_without_a_number(c);
    two_indices(c);
    every_key(c);
    names_that_stay_unknown(c);
    references(c);
    values_that_are_no_references(c);
    lists(c);
    lists_of_several_bad_ones(c);
    lists_that_are_none(c);
    every_column(c);
    columns_that_stay_unknown(c);
    cells_under_bad_columns(c);
    other_rules_of_a_header(c);
    wide_headers(c);
    undeclared_ids_in_columns(c);
    stopped_by_3(c);
    stopped_at_a_key(c);
    stopped_at_a_value(c);
    not_stopped(c);
    where_the_line_stands(c);
    declared_ids(c);
    declared_ids_of_columns(c);
    required_metadata(c);
    demands_of_the_file(c);
    demands_of_ids(c);
    many_in_one_file(c);
}

/// Zero, and what begins with it: 23.
const ZEROS: [&str; 10] = [
    "0",
    "00",
    "0000000000",
    "01",
    "09",
    "010",
    "064",
    "065",
    "0640",
    "00000000000000000001",
];

/// Over 64: 24. The last seven are 1 or 64 to whoever keeps 8, 16, 32, 64 or 128
/// bits of them.
const OVERS: [&str; 14] = [
    "65",
    "66",
    "77",
    "99",
    "100",
    "101",
    "640",
    "257",
    "320",
    "65537",
    "4294967297",
    "4294967360",
    "18446744073709551617",
    "340282366920938463463374607431768211457",
];

/// Between brackets, but not "all digits".
const NOT_DIGITS: [&str; 16] = [
    "", " ", "a", "n", "1a", "a1", "01a", "65a", "-1", "+1", " 1", "1 ", "1.0", "0x1", "0-1", "٣",
];

/// A hundred digits: zeros alone, and a number with a zero in front.
fn hundred_zeros() -> [String; 2] {
    ["0".repeat(100), "0".repeat(99) + "1"]
}

/// A hundred digits without a zero in front.
fn hundred_over() -> [String; 2] {
    ["1".repeat(100), "9".repeat(99) + "0"]
}

impl Cases {
    /// Lines of metadata, from line 6 on, each with that break.
    fn each(&mut self, label: &'static str, lines: &[String], cell: u32, rule: u32) {
        let breaks: Vec<_> = (6..).zip(lines).map(|(k, _)| (k, cell, rule)).collect();
        self.headed(label, lines.concat(), &breaks);
    }

    /// A header with columns more, each with a break of that rule, and a row of
    /// text below; the header is line 6.
    fn columns(&mut self, label: &'static str, header: &str, row: &str, more: &str, rule: u32) {
        let first = header.matches('→').count() as u32 + 2;
        let count = more.matches('→').count();
        let breaks: Vec<_> = (first..).take(count).map(|at| (6, at, rule)).collect();
        let text = "→x".repeat(count);
        self.headed(label, format!("{header}{more}\n{row}{text}\n"), &breaks);
    }
}

/// A line for each number in the place of `#`. Where the line needs a key of its
/// own, `%` is 1, 2, 3 and so on.
fn with_each<N: AsRef<str>>(line: &str, numbers: &[N]) -> Vec<String> {
    let with = |(k, number): (u32, &N)| {
        let line = line.replace('%', &k.to_string());
        line.replace('#', number.as_ref())
    };
    (1..).zip(numbers).map(with).collect()
}

fn of_the_request(c: &mut Cases) {
    c.mtd(
        "rule 23: a key with a leading zero",
        "sample[01]-description",
        "a",
        &[(6, 2, 23)],
    );
    c.mtd(
        "rule 24: a key over 64",
        "sample[65]-description",
        "a",
        &[(6, 2, 24)],
    );
    c.mtd(
        "rule 23: a key with zero",
        "assay[0]-ms_run_ref",
        "ms_run[1]",
        &[(6, 2, 23)],
    );
    c.mtd(
        "rule 24: the leftmost of two in a key",
        "software[65]-setting[01]",
        "a",
        &[(6, 2, 24)],
    );
    c.mtd(
        "rule 23: the leftmost of two in a key",
        "software[01]-setting[65]",
        "a",
        &[(6, 2, 23)],
    );
    c.mtd(
        "rule 23: a reference with a leading zero, over 64 too",
        "assay[1]-ms_run_ref",
        "ms_run[077]",
        &[(6, 3, 23)],
    );
    c.mtd(
        "rules 23 and 24: unknown with any index stays 5",
        "sample[0]-nothing",
        "a",
        &[(6, 2, 5)],
    );
}

/// Good ones: the least, the most, and some between.
const GOOD: [&str; 6] = ["1", "9", "10", "60", "63", "64"];

fn numbers_in_keys(c: &mut Cases) {
    let line = "MTD→uri[#]→a\n";
    let zeros = with_each(line, &ZEROS);
    c.each("rule 23: the index of a key", &zeros, 2, 23);
    let overs = with_each(line, &OVERS);
    c.each("rule 24: the index of a key", &overs, 2, 24);
    let zeros = with_each(line, &hundred_zeros());
    c.each("rule 23: a hundred digits in a key", &zeros, 2, 23);
    let overs = with_each(line, &hundred_over());
    c.each("rule 24: a hundred digits in a key", &overs, 2, 24);
    let good = with_each(line, &GOOD).concat();
    c.headed("rules 23 and 24: good indices of keys", good, &[]);
}

fn numbers_in_references(c: &mut Cases) {
    let line = "MTD→assay[%]-sample_ref→sample[#]\n";
    let zeros = with_each(line, &ZEROS);
    c.each("rule 23: the index of a reference", &zeros, 3, 23);
    let overs = with_each(line, &OVERS);
    c.each("rule 24: the index of a reference", &overs, 3, 24);
    let zeros = with_each(line, &hundred_zeros());
    c.each("rule 23: a hundred digits in a reference", &zeros, 3, 23);
    let overs = with_each(line, &hundred_over());
    c.each("rule 24: a hundred digits in a reference", &overs, 3, 24);
    let good = with_each(line, &GOOD);
    c.each("rules 23 and 24: good but undeclared", &good, 3, 8);
}

fn numbers_in_columns(c: &mut Cases) {
    let name = "→best_search_engine_score[#]";
    let zeros = with_each(name, &ZEROS).concat();
    c.columns("rule 23: the index of a column", PH, PR, &zeros, 23);
    let overs = with_each(name, &OVERS).concat();
    c.columns("rule 24: the index of a column", EH, ER, &overs, 24);
    let zeros = with_each(name, &hundred_zeros()).concat();
    c.columns("rule 23: a hundred digits in a column", MH, MR, &zeros, 23);
    let overs = with_each(name, &hundred_over()).concat();
    c.columns("rule 24: a hundred digits in a column", MH, MR, &overs, 24);
    let good = with_each(name, &GOOD).concat();
    c.headed(
        "rules 23 and 24: good indices of columns",
        format!("{MH}{good}\n{MR}→1→2.5→null→-3→INF→x\n"),
        &[(7, 9, 20)],
    );
}

/// "Brackets empty or not all digits stay as they are."
fn brackets_without_a_number(c: &mut Cases) {
    c.each(
        "rules 23 and 24: brackets without a number, of a key",
        &with_each("MTD→uri[#]→a\n", &NOT_DIGITS),
        2,
        5,
    );
    c.each(
        "rules 23 and 24: brackets without a number, of a reference",
        &with_each("MTD→assay[%]-sample_ref→sample[#]\n", &NOT_DIGITS),
        3,
        7,
    );
    c.columns(
        "rules 23 and 24: brackets without a number, of a column",
        PH,
        PR,
        &with_each("→best_search_engine_score[#]", &NOT_DIGITS).concat(),
        12,
    );
    c.each(
        "rules 23 and 24: no brackets, one, or others",
        &[
            "uri01",
            "uri[01",
            "uri01]",
            "uri(01)",
            "uri[[01]]",
            "uri[01]]",
            "uri [01]",
            "uri",
        ]
        .map(|key| format!("MTD→{key}→a\n")),
        2,
        5,
    );
    c.each(
        "rules 23 and 24: a number in one bracket alone",
        &[
            "01]-setting[",
            "]-setting[65",
            "65]-setting[x",
            "1a]-setting[0",
            "n]-setting[n",
        ]
        .map(|two| format!("MTD→software[{two}]→a\n")),
        2,
        5,
    );
    c.columns(
        "rules 23 and 24: a number in one bracket of a column alone",
        PH,
        PR,
        "→search_engine_score[01]_ms_run[]→search_engine_score[-1]_ms_run[65]\
         →search_engine_score[65]_ms_run[ 1]",
        12,
    );
}

/// Two indices, the bad one or the leftmost of two bad ones deciding.
const TWO: [(&str, &str, u32); 10] = [
    ("1", "01", 23),
    ("64", "0", 23),
    ("64", "65", 24),
    ("00", "64", 23),
    ("65", "1", 24),
    ("0", "01", 23),
    ("065", "65", 23),
    ("640", "064", 24),
    ("65", "0", 24),
    ("65", "100", 24),
];

fn two_indices(c: &mut Cases) {
    for key in [
        "software[#]-setting[%]",
        "sample[#]-species[%]",
        "assay[#]-quantification_mod[%]-site",
    ] {
        let line = |(a, b, _)| format!("MTD→{key}→a\n").replace('#', a).replace('%', b);
        let lines: String = TWO.into_iter().map(line).collect();
        let breaks: Vec<_> = (6..).zip(TWO).map(|(k, two)| (k, 2, two.2)).collect();
        c.headed("rules 23 and 24: two indices of a key", lines, &breaks);
    }
    for (header, first) in [(PH, 6), (EH, 6), (MH, 4)] {
        let name = |(a, b, _)| format!("→search_engine_score[{a}]_ms_run[{b}]");
        let names: String = TWO.into_iter().map(name).collect();
        let breaks: Vec<_> = (first..).zip(TWO).map(|(at, two)| (6, at, two.2)).collect();
        c.headed(
            "rules 23 and 24: two indices of a column",
            format!("{header}{names}\n"),
            &breaks,
        );
    }
}

/// Every key that has an index, `#` for one of its indices.
const KEYS: &str = "software[#]-setting[1] software[1]-setting[#] publication[#] contact[#]-name \
    contact[#]-affiliation contact[#]-email uri[#] fixed_mod[#]-site fixed_mod[#]-position \
    variable_mod[#]-site variable_mod[#]-position ms_run[#]-location sample[#]-description \
    assay[#]-quantification_mod[1]-site assay[1]-quantification_mod[#]-site \
    assay[#]-quantification_mod[1]-position assay[1]-quantification_mod[#]-position \
    study_variable[#]-description cv[#]-label cv[#]-full_name cv[#]-version cv[#]-url \
    instrument[#]-name instrument[#]-source instrument[#]-analyzer[1] instrument[1]-analyzer[#] \
    instrument[#]-detector software[#] protein_search_engine_score[#] \
    peptide_search_engine_score[#] psm_search_engine_score[#] \
    smallmolecule_search_engine_score[#] fixed_mod[#] variable_mod[#] ms_run[#]-format \
    ms_run[#]-id_format ms_run[#]-fragmentation_method custom[#] sample[#]-species[1] \
    sample[1]-species[#] sample[#]-tissue[1] sample[1]-tissue[#] sample[#]-cell_type[1] \
    sample[1]-cell_type[#] sample[#]-disease[1] sample[1]-disease[#] sample[#]-custom[1] \
    sample[1]-custom[#] assay[#]-quantification_reagent assay[#]-quantification_mod[1] \
    assay[1]-quantification_mod[#] sample_processing[#] assay[#]-sample_ref \
    assay[#]-ms_run_ref study_variable[#]-assay_refs study_variable[#]-sample_refs";

fn every_key(c: &mut Cases) {
    let lines = |number: &str| -> Vec<String> {
        let line = |key: &str| format!("MTD→{key}→a\n").replace('#', number);
        KEYS.split(' ').map(line).collect()
    };
    c.each("rule 23: every key", &lines("01"), 2, 23);
    c.each("rule 24: every key", &lines("65"), 2, 24);
}

fn names_that_stay_unknown(c: &mut Cases) {
    let keys = "sample[01]-nothing sample[65] sample[01]- sample[01]-description- assay[0]-sample \
        uri[65]x uri[01]-a uri[01][01] uri[1][01] Uri[01] xuri[01] title[01] description[65] \
        mzTab-mode[0] quantification_method[01] colunit-protein[65] contact[01] cv[65] \
        ms_run[0]-Location ms_run_location[01] sample[01]-species software[65]-setting \
        software[01]-settings[1] software[01]setting[65] software[1]-setting[01]-a \
        instrument[01]-name[1] assay[01]-quantification_mod[65]-foo \
        best_search_engine_score[01] num_psms_ms_run[65] opt_x[01]";
    let line = |key: &str| format!("MTD→{key}→a\n");
    let lines: Vec<String> = keys.split(' ').map(line).collect();
    c.each(
        "rules 23 and 24: keys unknown with any index stay 5",
        &lines,
        2,
        5,
    );
    c.headed(
        "rules 23 and 24: keys with spaces stay 5",
        "MTD→uri[01] →a\nMTD→ uri[65]→a\nMTD→software[01] -setting[1]→a\n",
        &[(6, 2, 5), (7, 2, 5), (8, 2, 5)],
    );
}

/// Each key that asks for a reference, with the family that it asks for.
fn references(c: &mut Cases) {
    c.headed(
        "rule 23: every key of references",
        "MTD→assay[1]-sample_ref→sample[00]\nMTD→assay[1]-ms_run_ref→ms_run[01]\n\
         MTD→study_variable[1]-assay_refs→assay[064]\nMTD→study_variable[1]-sample_refs→sample[0]\n",
        &[(6, 3, 23), (7, 3, 23), (8, 3, 23), (9, 3, 23)],
    );
    c.headed(
        "rule 24: every key of references",
        "MTD→assay[1]-sample_ref→sample[65]\nMTD→assay[1]-ms_run_ref→ms_run[66]\n\
         MTD→study_variable[1]-assay_refs→assay[100]\nMTD→study_variable[1]-sample_refs→sample[99]\n",
        &[(6, 3, 24), (7, 3, 24), (8, 3, 24), (9, 3, 24)],
    );
    c.headed(
        "rules 23 and 24: a reference of another family stays 7",
        "MTD→assay[1]-sample_ref→assay[01]\nMTD→assay[2]-sample_ref→ms_run[65]\n\
         MTD→assay[1]-ms_run_ref→sample[01]\nMTD→assay[2]-ms_run_ref→study_variable[65]\n\
         MTD→study_variable[1]-assay_refs→sample[0]\nMTD→study_variable[1]-sample_refs→assay[65]\n",
        &[
            (6, 3, 7),
            (7, 3, 7),
            (8, 3, 7),
            (9, 3, 7),
            (10, 3, 7),
            (11, 3, 7),
        ],
    );
    let values = [
        "x",
        " ",
        "-location",
        "[1]",
        "]",
        ",",
        ",ms_run[1]",
        ", ms_run[01]",
    ];
    c.each(
        "rules 23 and 24: something after a reference stays 7",
        &with_each("MTD→assay[%]-ms_run_ref→ms_run[01]#\n", &values),
        3,
        7,
    );
    let values = [
        " ms_run",
        "Ms_run",
        "ms_runs",
        "ms_run ",
        "run",
        "ms_run[1],ms_run",
        "",
    ];
    c.each(
        "rules 23 and 24: something before its index stays 7",
        &with_each("MTD→assay[%]-ms_run_ref→#[65]\n", &values),
        3,
        7,
    );
}

fn values_that_are_no_references(c: &mut Cases) {
    c.headed(
        "rules 23 and 24: in text all is well",
        "MTD→title→sample[01]\nMTD→publication[1]→assay[65]\n\
         MTD→colunit-protein→protein_abundance_assay[01]=[,,a,]\n",
        &[],
    );
    c.headed(
        "rules 23 and 24: where no reference is asked it stays 7",
        "MTD→custom[1]→sample[01]\nMTD→false_discovery_rate→ms_run[65]\n",
        &[(6, 3, 7), (7, 3, 7)],
    );
    c.headed(
        "rules 23 and 24: cells of rows are not looked at",
        format!("{SH}\nPSM→AB→1→Y1→2→ms_run[01]:index=5|ms_run[65]:index=5\n"),
        &[],
    );
    c.headed(
        "rules 23 and 24: nor comments and unknown lines",
        "COM→sample[01]-description→a\nmtd→sample[65]-description→a\n",
        &[(7, 1, 2)],
    );
}

/// An assay for the lists.
const ASSAY: &str = "MTD→assay[1]-ms_run_ref→ms_run[1]\n";

impl Cases {
    /// A list of references to assays at line 7; assay 1 is declared.
    fn list(&mut self, label: &'static str, value: &str, rule: u32) {
        let line = format!("{ASSAY}MTD→study_variable[1]-assay_refs→{value}\n");
        self.headed(label, line, &[(7, 3, rule)]);
    }
}

fn lists(c: &mut Cases) {
    c.list(
        "rule 23: the first of a list",
        "assay[01],assay[1],assay[1]",
        23,
    );
    c.list(
        "rule 23: in the middle of a list",
        "assay[1],assay[0],assay[1]",
        23,
    );
    c.list(
        "rule 23: the last of a list",
        "assay[1],assay[1],assay[00]",
        23,
    );
    c.list(
        "rule 24: the first of a list",
        "assay[65],assay[1],assay[1]",
        24,
    );
    c.list(
        "rule 24: in the middle of a list",
        "assay[1],assay[100],assay[1]",
        24,
    );
    c.list(
        "rule 24: the last of a list",
        "assay[1],assay[1],assay[66]",
        24,
    );
    c.list(
        "rule 23: spaces after commas",
        "assay[1],   assay[01],  assay[1]",
        23,
    );
    c.list(
        "rule 24: spaces after commas",
        "assay[65], assay[1],     assay[1]",
        24,
    );
    c.list(
        "rule 23: beside an undeclared one",
        "assay[9],assay[01]",
        23,
    );
    c.list(
        "rule 24: beside an undeclared one",
        "assay[65], assay[9]",
        24,
    );
}

fn lists_of_several_bad_ones(c: &mut Cases) {
    c.list("rule 23: the leftmost of two", "assay[01],assay[65]", 23);
    c.list("rule 24: the leftmost of two", "assay[65],assay[01]", 24);
    c.list("rule 23: the same twice", "assay[01], assay[01]", 23);
    c.list("rule 24: the same twice", "assay[65],assay[65]", 24);
    c.list(
        "rule 23: the leftmost, after good ones",
        "assay[1],assay[64],assay[065],assay[65],assay[66]",
        23,
    );
    c.list(
        "rule 24: the leftmost, after good ones",
        "assay[1],assay[64],assay[65],assay[0],assay[00]",
        24,
    );
}

fn lists_that_are_none(c: &mut Cases) {
    let lists = [
        "assay[01],x",
        "x,assay[01]",
        "assay[01],",
        ",assay[65]",
        "assay[01],,assay[1]",
        "assay[65],sample[1]",
        "assay[01],sample[01]",
        "assay[65],assay[]",
        "assay[1a],assay[01]",
        "assay[01],assay[1],assay",
        "assay[01] ,assay[1]",
        " assay[01]",
        "assay[65] ",
        "assay[01]|assay[1]",
        "assay[01];assay[65]",
        "assay[01], ",
        "null,assay[01]",
    ];
    c.each(
        "rules 23 and 24: lists that are none stay 7",
        &with_each("MTD→study_variable[%]-assay_refs→#\n", &lists),
        3,
        7,
    );
    c.list(
        "rules 23 and 24: and if the last alone is none",
        "assay[01], assay[65], assay[1",
        7,
    );
}

/// Every column that has an index, `#` for one of its indices.
const COLUMNS: [(&str, &str, &str); 4] = [
    (
        PH,
        PR,
        "→num_psms_ms_run[#]→num_peptides_distinct_ms_run[#]→num_peptides_unique_ms_run[#]\
         →best_search_engine_score[#]→search_engine_score[#]_ms_run[1]\
         →search_engine_score[1]_ms_run[#]→protein_abundance_assay[#]\
         →protein_abundance_study_variable[#]→protein_abundance_stdev_study_variable[#]\
         →protein_abundance_std_error_study_variable[#]",
    ),
    (
        EH,
        ER,
        "→best_search_engine_score[#]→search_engine_score[#]_ms_run[1]\
         →search_engine_score[1]_ms_run[#]→peptide_abundance_assay[#]\
         →peptide_abundance_study_variable[#]→peptide_abundance_stdev_study_variable[#]\
         →peptide_abundance_std_error_study_variable[#]",
    ),
    (SH, SR, "→search_engine_score[#]"),
    (
        MH,
        MR,
        "→best_search_engine_score[#]→search_engine_score[#]_ms_run[1]\
         →search_engine_score[1]_ms_run[#]→smallmolecule_abundance_assay[#]\
         →smallmolecule_abundance_study_variable[#]\
         →smallmolecule_abundance_stdev_study_variable[#]\
         →smallmolecule_abundance_std_error_study_variable[#]",
    ),
];

fn every_column(c: &mut Cases) {
    for (header, row, names) in COLUMNS {
        let (zeros, overs) = (names.replace('#', "01"), names.replace('#', "65"));
        c.columns("rule 23: every column", header, row, &zeros, 23);
        c.columns("rule 24: every column", header, row, &overs, 24);
    }
}

fn columns_that_stay_unknown(c: &mut Cases) {
    let label = "rules 23 and 24: columns of other sections stay 12";
    c.columns(
        label,
        PH,
        PR,
        "→search_engine_score[01]→peptide_abundance_assay[65]→smallmolecule_abundance_assay[0]",
        12,
    );
    c.columns(
        label,
        EH,
        ER,
        "→search_engine_score[65]→num_psms_ms_run[01]→protein_abundance_study_variable[00]",
        12,
    );
    c.columns(
        label,
        SH,
        SR,
        "→best_search_engine_score[01]→search_engine_score[01]_ms_run[65]→num_psms_ms_run[65]",
        12,
    );
    c.columns(
        label,
        MH,
        MR,
        "→search_engine_score[0]→num_psms_ms_run[65]→peptide_abundance_assay[01]",
        12,
    );
    c.columns(
        "rules 23 and 24: columns unknown with any index stay 12",
        PH,
        PR,
        "→num_psms_ms_run[01]x→num_psms_ms_run[65] →num_psms[01]→Num_psms_ms_run[01]\
         →search_engine_score[01]_ms_run→search_engine_score[65]_assay[1]\
         →search_engine_score[01]_ms_run[65][1]→taxid[01]→accession[65]\
         →protein_abundance_sample[01]→sample[01]-description→ms_run[65]→[01]",
        12,
    );
    c.headed(
        "rules 23 and 24: opt_ columns are known",
        format!("{PH}→opt_x[01]→opt_num_psms_ms_run[65]→opt_[0]\n{PR}→x→x→x\n"),
        &[],
    );
}

fn cells_under_bad_columns(c: &mut Cases) {
    c.protein(
        "rule 23: a cell that the column would refuse",
        "protein_abundance_assay[01]",
        "x",
        &[(6, 6, 23)],
    );
    c.peptide(
        "rule 24: a cell that the column would refuse",
        "best_search_engine_score[65]",
        "1,000",
        &[(6, 6, 24)],
    );
    c.molecule(
        "rule 23: a cell that the column would take",
        "best_search_engine_score[00]",
        "1.5",
        &[(6, 4, 23)],
    );
    c.headed(
        "rules 23 and 24: rows below are judged still",
        format!(
            "{PH}→num_psms_ms_run[01]→taxid→best_search_engine_score[65]\n{PR}→1.5→x→y\n\
             {PR}→→1→\n{PR}→null→null→null\n{PR}→1→1\n"
        ),
        &[
            (6, 6, 23),
            (6, 8, 24),
            (7, 7, 20),
            (8, 6, 19),
            (8, 8, 19),
            (10, 1, 18),
        ],
    );
}

fn other_rules_of_a_header(c: &mut Cases) {
    c.headed(
        "rules 23 and 24: a bad column twice breaks 13 too",
        format!(
            "{PH}→num_psms_ms_run[01]→num_psms_ms_run[001]→num_psms_ms_run[01]\
             →num_psms_ms_run[65]→num_psms_ms_run[65]\n"
        ),
        &[
            (6, 6, 23),
            (6, 7, 23),
            (6, 8, 13),
            (6, 8, 23),
            (6, 9, 24),
            (6, 10, 13),
            (6, 10, 24),
        ],
    );
    c.first(&[6, 9]);
    c.headed(
        "rules 23 and 24: a bad column after opt_ breaks 14 too",
        format!("{SH}→opt_a→search_engine_score[65]→opt_b→search_engine_score[0]\n"),
        &[(6, 8, 14), (6, 8, 24), (6, 10, 14), (6, 10, 23)],
    );
    c.headed(
        "rules 23 and 24: 13 and 14 at once",
        format!("{SH}→search_engine_score[65]→opt_a→search_engine_score[65]\n"),
        &[(6, 7, 24), (6, 9, 13), (6, 9, 14), (6, 9, 24)],
    );
    c.first(&[7]);
    c.headed(
        "rules 23 and 24: 9 and 10 do not stop them",
        format!("{SH}\n{PH}→num_psms_ms_run[01]\n{SH}→search_engine_score[65]\n"),
        &[(7, 1, 10), (7, 6, 23), (8, 1, 9), (8, 7, 24)],
    );
    c.first(&[6]);
    c.headed(
        "rules 23 and 24: with 16",
        "SMH→identifier→best_search_engine_score[0]→best_search_engine_score[65]\n",
        &[(6, 1, 16), (6, 3, 23), (6, 4, 24)],
    );
}

fn wide_headers(c: &mut Cases) {
    let bad = "→num_psms_ms_run[01]→num_psms_ms_run[65]";
    c.headed(
        "rules 23 and 24: 11 stops them",
        format!("{PH}{bad}{}\n{PR}\n", "→".repeat(250)),
        &[(6, 1, 11)],
    );
    c.headed(
        "rules 23 and 24: in the last cells of a header of 256",
        format!("{}{bad}\n{}→x→x\n", wide(254), wide_row(254)),
        &[(6, 255, 14), (6, 255, 23), (6, 256, 14), (6, 256, 24)],
    );
}

/// Rule 15 is of known columns.
fn undeclared_ids_in_columns(c: &mut Cases) {
    c.headed(
        "rules 23 and 24: no 15 beside them",
        format!(
            "{PH}→search_engine_score[01]_ms_run[9]→search_engine_score[65]_ms_run[9]\
             →search_engine_score[9]_ms_run[01]→search_engine_score[9]_ms_run[9]\n"
        ),
        &[(6, 6, 23), (6, 7, 24), (6, 8, 23), (6, 9, 15)],
    );
}

fn stopped_by_3(c: &mut Cases) {
    c.headed(
        "rules 23 and 24: 3 stops them at a key",
        "MTD→sample[01]-description→a→b\nMTD→sample[65]-description\nMTD→uri[0]→a→\n",
        &[(6, 1, 3), (7, 1, 3), (8, 1, 3)],
    );
    c.headed(
        "rules 23 and 24: 3 stops them at a value",
        "MTD→assay[1]-ms_run_ref→ms_run[01]→\nMTD→assay[2]-ms_run_ref→ms_run[65]→ms_run[1]\n",
        &[(6, 1, 3), (7, 1, 3)],
    );
}

/// "stopping what those stop": 5 stops 6 to 8.
fn stopped_at_a_key(c: &mut Cases) {
    c.headed(
        "rule 23: stops 6",
        "MTD→uri[1]→a\nMTD→uri[01]→a\nMTD→uri[01]→a\n",
        &[(7, 2, 23), (8, 2, 23)],
    );
    c.headed(
        "rule 24: stops 6",
        "MTD→sample[65]-description→a\n\nMTD→sample[65]-description→a\n",
        &[(6, 2, 24), (8, 2, 24)],
    );
    c.headed(
        "rule 23: stops 7",
        "MTD→uri[01]→\nMTD→custom[0]→a\nMTD→assay[00]-ms_run_ref→x\n",
        &[(6, 2, 23), (7, 2, 23), (8, 2, 23)],
    );
    c.headed(
        "rule 24: stops 7",
        "MTD→uri[65]→\nMTD→sample_processing[100]→a\nMTD→assay[65]-sample_ref→assay[1]\n",
        &[(6, 2, 24), (7, 2, 24), (8, 2, 24)],
    );
    c.headed(
        "rules 23 and 24: stop 8",
        "MTD→assay[01]-sample_ref→sample[9]\nMTD→study_variable[65]-assay_refs→assay[9],assay[8]\n",
        &[(6, 2, 23), (7, 2, 24)],
    );
    c.headed(
        "rules 23 and 24: stop those of the value",
        "MTD→assay[01]-sample_ref→sample[65]\nMTD→assay[65]-ms_run_ref→ms_run[01]\n\
         MTD→study_variable[0]-sample_refs→sample[00]\n",
        &[(6, 2, 23), (7, 2, 24), (8, 2, 23)],
    );
}

/// "stopping what those stop": 7 stops 8, and 6 stands.
fn stopped_at_a_value(c: &mut Cases) {
    c.headed(
        "rules 23 and 24: at a value they do not stop 6",
        "MTD→assay[1]-ms_run_ref→ms_run[1]\nMTD→assay[1]-ms_run_ref→ms_run[01]\n\
         MTD→assay[1]-ms_run_ref→ms_run[65]\n",
        &[(7, 2, 6), (7, 3, 23), (8, 2, 6), (8, 3, 24)],
    );
    c.first(&[6, 6]);
    c.headed(
        "rules 23 and 24: a key whose value breaks them declares still",
        "MTD→assay[3]-sample_ref→sample[03]\nMTD→assay[4]-ms_run_ref→ms_run[65]\n\
         MTD→study_variable[1]-assay_refs→assay[3], assay[4], assay[5]\n",
        &[(6, 3, 23), (7, 3, 24), (8, 3, 8)],
    );
    c.headed(
        "rules 23 and 24: and stands there for 6",
        "MTD→assay[1]-ms_run_ref→ms_run[01]\nMTD→assay[1]-ms_run_ref→ms_run[1]\n",
        &[(6, 3, 23), (7, 2, 6)],
    );
    c.first(&[6]);
}

fn not_stopped(c: &mut Cases) {
    c.headed(
        "rules 23 and 24: do not stop 1",
        format!(
            "MTD→uri[01]→a\u{1}\nMTD→assay[1]\u{7f}→ms_run[65]\n{PH}→num_psms_ms_run[65]→opt_\u{2}\n"
        ),
        &[(6, 2, 23), (6, 3, 1), (7, 2, 1), (7, 2, 5), (8, 6, 24), (8, 7, 1)],
    );
    c.headed(
        "rules 23 and 24: a byte of rule 1 in the brackets",
        "MTD→uri[0\u{1}1]→a\nMTD→assay[1]-ms_run_ref→ms_run[65\u{1}]\n",
        &[(6, 2, 1), (6, 2, 5), (7, 3, 1), (7, 3, 7)],
    );
    c.headed(
        "rules 23 and 24: nor 4",
        format!("{PH}\nMTD→uri[01]→a\n{PR}\nMTD→uri[65]→a\nMTD→assay[1]-ms_run_ref→ms_run[0]\n"),
        &[
            (7, 1, 4),
            (7, 2, 23),
            (9, 1, 4),
            (9, 2, 24),
            (10, 1, 4),
            (10, 3, 23),
        ],
    );
}

fn where_the_line_stands(c: &mut Cases) {
    c.headed("rule 23: no last LF", "MTD→uri[065]→a", &[(6, 2, 23)]);
    c.headed(
        "rule 24: CR before LF",
        "MTD→uri[65]→a\r\nMTD→assay[1]-ms_run_ref→ms_run[65]\r\n",
        &[(6, 2, 24), (7, 3, 24)],
    );
    c.headed(
        "rules 23 and 24: a CR that is a byte of the line",
        "MTD→assay[1]-ms_run_ref→ms_run[01]\r",
        &[(6, 3, 1), (6, 3, 7)],
    );
    c.headed(
        "rule 23: far below, after other lines",
        format!(
            "MTD→uri[1]→a\nCOM→uri[01]\n\nMTD→uri[2]→a\n{PH}\n{PR}\n{EH}\n{ER}\n\nCOM\n\
             MTD→uri[03]→a\n{MH}→best_search_engine_score[03]\n{MR}→x\n"
        ),
        &[(16, 1, 4), (16, 2, 23), (17, 4, 23)],
    );
    c.whole(
        "rule 24: the first line of a file",
        format!(
            "MTD→sample[65]-description→a\n{VERSION}\n{MODE}\n{TYPE}\n{WORDS}\n\
             MTD→ms_run[64]-location→a\n{FIXED}\n{VARIABLE}\n"
        ),
        &[(1, 2, 24)],
    );
}

/// Only "a known key" declares.
fn declared_ids(c: &mut Cases) {
    c.headed(
        "rule 23: such a key declares nothing",
        "MTD→sample[01]-description→a\nMTD→assay[1]-sample_ref→sample[1]\n\
         MTD→assay[01]-sample_ref→sample[1]\nMTD→study_variable[1]-assay_refs→assay[1]\n\
         MTD→study_variable[1]-sample_refs→sample[1]\n",
        &[(6, 2, 23), (7, 3, 8), (8, 2, 23), (10, 3, 8)],
    );
    c.headed(
        "rule 24: such a key declares nothing",
        "MTD→sample[65]-description→a\nMTD→sample[257]-description→a\n\
         MTD→assay[1]-sample_ref→sample[1]\nMTD→assay[2]-sample_ref→sample[6]\n",
        &[(6, 2, 24), (7, 2, 24), (8, 3, 8), (9, 3, 8)],
    );
    c.headed(
        "rules 23 and 24: a bad second index, and nothing is declared",
        "MTD→sample[2]-species[01]→[,,a,]\nMTD→sample[3]-tissue[65]→[,,a,]\n\
         MTD→sample[4]-tissue[64]→[,,a,]\nMTD→study_variable[1]-sample_refs→sample[2]\n\
         MTD→study_variable[2]-sample_refs→sample[3]\nMTD→study_variable[3]-sample_refs→sample[4]\n",
        &[(6, 2, 23), (7, 2, 24), (9, 3, 8), (10, 3, 8)],
    );
}

fn declared_ids_of_columns(c: &mut Cases) {
    c.headed(
        "rule 23: nor for a column",
        format!(
            "MTD→assay[01]-ms_run_ref→ms_run[1]\nMTD→study_variable[01]-description→a\n\
             MTD→ms_run[02]-location→a\n{PH}→protein_abundance_assay[1]\
             →protein_abundance_study_variable[1]→num_psms_ms_run[2]→num_psms_ms_run[1]\n"
        ),
        &[
            (6, 2, 23),
            (7, 2, 23),
            (8, 2, 23),
            (9, 6, 15),
            (9, 7, 15),
            (9, 8, 15),
        ],
    );
    c.headed(
        "rule 24: a bad key and a bad column of one id",
        format!("MTD→assay[65]-ms_run_ref→ms_run[1]\n{PH}→protein_abundance_assay[65]\n"),
        &[(6, 2, 24), (7, 6, 24)],
    );
}

/// Rule 21 asks for "any ms_run[n]-location", and n is an index.
fn required_metadata(c: &mut Cases) {
    for (number, rule) in [("01", 23), ("0", 23), ("100", 24)] {
        c.whole(
            "rules 23 and 24: such a location is none for 21",
            format!(
                "{VERSION}\n{MODE}\n{TYPE}\n{WORDS}\nMTD→ms_run[{number}]-location→a\n\
                 {FIXED}\n{VARIABLE}\n"
            ),
            &[(5, 2, rule), (8, 5, 21)],
        );
    }
}

fn demands_of_the_file(c: &mut Cases) {
    let zero = nine(CQ).replace("fixed_mod[1]", "fixed_mod[01]");
    c.whole(
        "rule 23: such a key does not serve for 22",
        zero,
        &[(7, 2, 23), (10, 900, 22)],
    );
    let over = nine(CQ).replace(SOFTWARE, "MTD→software[65]→[,,s,]");
    c.whole(
        "rule 24: such a key does not serve for 22",
        over,
        &[(6, 2, 24), (10, 400, 22)],
    );
    c.whole(
        "rule 23: nor for the score of a section",
        nine(SI) + "MTD→protein_search_engine_score[0]→[,,a,]\n" + PH + "\n",
        &[(10, 2, 23), (12, 500, 22)],
    );
}

fn demands_of_ids(c: &mut Cases) {
    let reagent = "MTD→assay[1]-quantification_reagent→[,,r,]\n";
    c.whole(
        "rules 23 and 24: 22 asks nothing for what they keep from being declared",
        nine(CQ) + "MTD→assay[01]-sample_ref→x\nMTD→study_variable[65]-sample_refs→x\n",
        &[(10, 2, 23), (11, 2, 24)],
    );
    c.whole(
        "rule 23: such a key is not the other's",
        nine(SQ) + reagent + "MTD→assay[01]-ms_run_ref→ms_run[1]\n",
        &[(11, 2, 23), (12, 101, 22)],
    );
    let value: Triples = &[(11, 3, 23)];
    c.whole(
        "rule 23: with such a value the field is there",
        nine(SQ) + reagent + "MTD→assay[1]-ms_run_ref→ms_run[01]\n",
        value,
    );
}

fn many_in_one_file(c: &mut Cases) {
    c.whole(
        "rules 23 and 24: many in one file",
        "MTD→mzTab-version→1.0\nMTD→mzTab-mode→Complete\nMTD→mzTab-type→Quantification\n\
         MTD→description→d\nMTD→ms_run[01]-location→a\nMTD→ms_run[2]-location→b\n\
         MTD→software[065]→[,,s,]\nMTD→software[1]-setting[65]→s\nMTD→fixed_mod[0]→[,,f,]\n\
         MTD→variable_mod[64]→[,,v,]\nMTD→sample[64]-description→s\n\
         MTD→sample[064]-description→s\nMTD→assay[1]-sample_ref→sample[064]\n\
         MTD→assay[1]-ms_run_ref→ms_run[1]\nMTD→assay[2]-ms_run_ref→ms_run[65]\n\
         MTD→assay[02]-ms_run_ref→ms_run[2]→\n\
         MTD→study_variable[1]-assay_refs→assay[1], assay[02], assay[65]\n\
         MTD→study_variable[1]-assay_refs→assay[65], x\n\
         PRH→accession→description→database→search_engine→num_psms_ms_run[1]→num_psms_ms_run[01]→\
         search_engine_score[65]_ms_run[01]→opt_x[0]→protein_abundance_assay[66]→\
         num_psms_ms_run[01]\n\
         PRT→Y1→null→db→null→x→x→x→x→x→\nMTD→uri[99999999999]→\n",
        &[
            (5, 2, 23),
            (7, 2, 23),
            (8, 2, 24),
            (9, 2, 23),
            (12, 2, 23),
            (13, 3, 23),
            (14, 3, 8),
            (15, 3, 24),
            (16, 1, 3),
            (17, 3, 23),
            (18, 2, 6),
            (18, 3, 7),
            (19, 6, 15),
            (19, 7, 23),
            (19, 8, 24),
            (19, 10, 14),
            (19, 10, 24),
            (19, 11, 13),
            (19, 11, 14),
            (19, 11, 23),
            (20, 6, 20),
            (20, 11, 19),
            (21, 1, 4),
            (21, 2, 24),
            (22, 301, 22),
            (22, 400, 22),
            (22, 500, 22),
            (22, 900, 22),
            (22, 1100, 22),
            (22, 1200, 22),
            (22, 1501, 22),
            (22, 1502, 22),
        ],
    );
    c.first(&[17, 7]);
}
