//! The examples of docs/rules.md and of README.md are run, and what is printed is held to what stands beside them.

mod common;

use std::path::Path;

use common::Run;
use mztab::format::{DEMANDS, REQUIRED_KEYS};
use mztab::RULES;

const RULES_PAGE: &str = include_str!("../../../docs/rules.md");
const MANDATORY: &str = include_str!("../../../docs/mandatory.md");
const README: &str = include_str!("../../../README.md");
const TALLY_PAGE: &str = include_str!("../../../docs/tally.md");

/// The part of a text between two marks, without them.
fn between<'a>(text: &'a str, before: &str, after: &str) -> &'a str {
    let start = text.find(before).unwrap_or_else(|| panic!("no {before}"));
    let rest = &text[start + before.len()..];
    let end = rest.find(after);
    &rest[..end.unwrap_or_else(|| panic!("no {after} after {before}"))]
}

/// The texts between backticks.
fn quoted(text: &str) -> Vec<&str> {
    text.split('`').skip(1).step_by(2).collect()
}

/// A shown line as it stands in a file: → is a tab, ␋ the byte 11, and … the names that rule 11 leaves out.
fn line(shown: &str) -> String {
    let left_out: Vec<String> = (3..=253).map(|n| format!("opt_global_{n}")).collect();
    shown
        .replace('…', &left_out.join("\t"))
        .replace('→', "\t")
        .replace('␋', "\u{b}")
}

fn block(text: &str) -> Vec<String> {
    between(text, "```\n", "```").lines().map(line).collect()
}

/// The nine lines that every example stands below.
fn head() -> Vec<String> {
    block(RULES_PAGE)
}

/// What `judge` prints of a file with these lines.
fn printed(lines: &[String]) -> String {
    let judged = mztab::judge_all((lines.join("\n") + "\n").as_bytes()).unwrap();
    let breaks = judged.breaks();
    let breaks: Vec<String> = breaks
        .map(|at| format!("\n{} {} {} {}", at.line, at.cell, at.rule, at.first))
        .collect();
    match breaks.len() {
        0 => "OK".to_string(),
        count => format!("FAULTS {count}{}", breaks.concat()),
    }
}

fn page(rule: u32) -> &'static str {
    let next = if rule == RULES {
        "\n## Values".to_string()
    } else {
        format!("\n## Rule {}:", rule + 1)
    };
    between(RULES_PAGE, &format!("\n## Rule {rule}:"), &next)
}

/// The file of a rule's example, and its break as `LINE CELL RULE FIRST`.
fn example(rule: u32) -> (Vec<String>, &'static str) {
    let page = page(rule);
    let words = between(page, "**Example**", "```");
    let mut lines = head();
    if words.contains("the nine lines without `description`") {
        lines.retain(|line| !line.contains("\tdescription\t"));
        assert!(lines.ends_with(&block(page)), "rule {rule}");
    } else {
        if words.contains("`Quantification` in place of `Identification`") {
            lines[2] = lines[2].replace("Identification", "Quantification");
        }
        lines.extend(block(page));
    }
    (lines, between(page, "**Printed** `", "`"))
}

#[test]
fn the_nine_lines_alone() {
    assert_eq!(head().len(), 9);
    assert_eq!(printed(&head()), "OK");
}

#[test]
fn the_example_of_each_rule() {
    for rule in 1..=RULES {
        let (lines, shown) = example(rule);
        assert_eq!(printed(&lines), format!("FAULTS 1\n{shown}"), "rule {rule}");
        let third = shown.split(' ').nth(2);
        assert_eq!(third, Some(rule.to_string().as_str()), "rule {rule}");
    }
}

/// What the page of rule 23 says of brackets.
#[test]
fn what_breaks_rules_23_and_24() {
    let broken = |key: &str| {
        let mut lines = head();
        lines.push(format!("MTD\t{key}\ta"));
        printed(&lines)
    };
    let words = between(page(23), "decides between rules 23 and 24: ", "stays.");
    let (two, others) = words.split_once('.').unwrap();
    let keys = quoted(two);
    assert_eq!(broken(keys[0]), "FAULTS 1\n10 2 23 0");
    assert_eq!(broken(keys[1]), "FAULTS 1\n10 2 24 0");
    assert_eq!(quoted(others).len(), 4);
    for bracket in quoted(others) {
        let key = format!("sample{bracket}-description");
        assert_eq!(broken(&key), "FAULTS 1\n10 2 5 0", "{key}");
    }
}

/// Whether the file is accepted with the mended piece: in place of the line or the cell of the break, or as a line above the headers.
fn mends(lines: &[String], at: &str, mended: &str) -> bool {
    let numbers: Vec<usize> = at.split(' ').map(|word| word.parse().unwrap()).collect();
    let mut replaced = lines.to_vec();
    if let Some(broken) = replaced.get_mut(numbers[0] - 1) {
        let mut cells: Vec<String> = broken.split('\t').map(str::to_string).collect();
        if !mended.contains('→') {
            cells[numbers[1] - 1] = mended.to_string();
            *broken = cells.join("\t");
        } else {
            *broken = line(mended);
        }
    }
    let mut added = lines.to_vec();
    let above = added.iter().position(|line| !line.starts_with("MTD"));
    added.insert(above.unwrap_or(lines.len()), line(mended));
    printed(&replaced) == "OK" || printed(&added) == "OK"
}

#[test]
fn what_mends_an_example_does() {
    let mut tried = 0;
    for rule in 1..=RULES {
        let (lines, at) = example(rule);
        let words = between(page(rule), "**Mend** ", "**Stops");
        let mut pieces: Vec<&str> = quoted(words);
        pieces.retain(|piece| piece.contains('→'));
        // The first piece after a colon is the value that is to be written, where it is no line.
        let value = words
            .split(": `")
            .nth(1)
            .and_then(|rest| rest.split('`').next());
        pieces.extend(value.filter(|value| !value.contains('→')));
        for piece in pieces {
            assert!(mends(&lines, at, piece), "rule {rule}: {piece}");
            tried += 1;
        }
    }
    assert!(tried >= 15, "{tried}");
}

/// The file in which a value stands by its kind, below the nine lines, and more that it may name or that its section asks for.
fn with_value(kind: &str, value: &str) -> Vec<String> {
    let meta = |key: &str| vec![format!("MTD\t{key}\t{value}")];
    let under = |header: &str, row: &str| vec![header.to_string(), format!("{row}\t{value}")];
    let peptide = |column: &str| {
        let header = format!("PEH\tsequence\taccession\tcharge\tmass_to_charge\t{column}");
        under(&header, "PEP\tAAK\tnull\tnull\tnull")
    };
    let molecule =
        |column: &str| under(&format!("SMH\tidentifier\tcharge\t{column}"), "SML\tC1\t1");
    let mut lines = head();
    lines.push("MTD\tpeptide_search_engine_score[1]\t[, , a score, ]".to_string());
    lines.push("MTD\tsample[1]-description\ta sample".to_string());
    lines.push("MTD\tassay[1]-ms_run_ref\tms_run[1]".to_string());
    lines.push("MTD\tassay[2]-ms_run_ref\tms_run[1]".to_string());
    lines.extend(match kind {
        "Index" => vec![format!("MTD\tcustom{value}\t[,,a,]")],
        "Text" => meta("title"),
        "Whole" => under("SMH\tidentifier\tcharge", "SML\tC1"),
        "Decimal" => molecule("exp_mass_to_charge"),
        "Decimal list" => molecule("retention_time"),
        "Window" => peptide("retention_time_window"),
        "Parameter" => meta("custom[1]"),
        "Parameter list" => meta("false_discovery_rate"),
        "Reference" => meta("assay[1]-sample_ref"),
        "Reference list" => meta("study_variable[1]-assay_refs"),
        "Reliability" => peptide("reliability"),
        "Unique" => peptide("unique"),
        other => panic!("no file for the kind {other}"),
    });
    lines
}

#[test]
fn values_of_each_kind() {
    let values = between(RULES_PAGE, "\n## Values\n", "\n## ");
    let mut tried = 0;
    for item in values.split("\n- **").skip(1) {
        let kind = between(item, "", "**");
        if kind == "Fixed" || kind == "null" {
            continue;
        }
        let (good, bad) = item.split_once("Not of it: ").unwrap();
        // What the value is for, if that is said, stands before the colon.
        let (_, good) = good.rsplit_once("Of it").unwrap();
        let (_, good) = good.split_once(": ").unwrap();
        for value in quoted(good) {
            assert_eq!(printed(&with_value(kind, value)), "OK", "{kind}: {value}");
            tried += 1;
        }
        for value in quoted(bad) {
            let printed = printed(&with_value(kind, value));
            assert!(printed.starts_with("FAULTS 1\n"), "{kind}: {value}");
            tried += 1;
        }
    }
    assert!(tried > 40, "{tried}");
}

#[test]
fn values_that_are_fixed_or_null() {
    let with_mode = |mode: &str| {
        let mut lines = head();
        lines[1] = format!("MTD\tmzTab-mode\t{mode}");
        printed(&lines)
    };
    assert!(RULES_PAGE.contains("Of it: `Summary` for `mzTab-mode`. Not of it: `summary`."));
    assert_eq!(with_mode("Summary"), "OK");
    assert_eq!(with_mode("summary"), "FAULTS 1\n2 3 7 0");
    assert!(RULES_PAGE.contains("Missing: `null`. Not missing: `NULL`, `NA`, `-`; these are text, and break rule 20 in a column of another kind."));
    assert_eq!(printed(&with_value("Whole", "null")), "OK");
    for text in ["NULL", "NA", "-"] {
        assert_eq!(printed(&with_value("Whole", text)), "FAULTS 1\n15 3 20 0");
        assert_eq!(printed(&with_value("Text", text)), "OK");
    }
}

/// The list of mandatory fields has the cell of each that is judged, and of no other.
#[test]
fn cells_of_mandatory_fields() {
    let table = between(MANDATORY, "\n## The fields\n", "\n## ");
    let rows = table.lines().filter(|line| line.contains(" | `"));
    let mut listed = Vec::new();
    for row in rows {
        let cells: Vec<&str> = row.trim_matches('|').split('|').map(str::trim).collect();
        assert_eq!(cells.len(), 9, "{row}");
        listed.push((quoted(cells[1])[0], cells[7]));
    }
    assert_eq!(listed.len(), 63);
    listed.retain(|(_, cell)| !cell.is_empty());
    assert_eq!(listed.len(), REQUIRED_KEYS.len() + DEMANDS.len());
    for (k, key) in REQUIRED_KEYS.iter().enumerate() {
        assert!(listed.contains(&(key, &format!("21: {}", k + 1))), "{key}");
    }
    for demand in &DEMANDS {
        let plus = if demand.each { " + n" } else { "" };
        let cell = format!("22: {}{plus}", demand.cell);
        assert!(listed.contains(&(demand.key, &cell)), "{cell}");
    }
}

/// The indented lines from the first that begins so.
fn indented(beginning: &str) -> Vec<&'static str> {
    let lines = README
        .lines()
        .skip_while(|line| !line.starts_with(beginning));
    lines.map_while(|line| line.strip_prefix("    ")).collect()
}

/// Runs the tool in the repository's folder.
fn run(words: &str) -> Run {
    let root = Path::new(env!("CARGO_MANIFEST_DIR")).join("../..");
    let mut tool = common::tool();
    tool.args(words.split_whitespace()).current_dir(root);
    Run::of(tool.output().unwrap())
}

#[test]
fn runs_of_the_readme() {
    let mut tried = 0;
    for line in README.lines() {
        if let Some(words) = line.strip_prefix("    $ ./bolfrake ") {
            let shown: Vec<&str> = indented(line)[1..].to_vec();
            assert_eq!(run(words).out, shown.join("\n") + "\n", "{words}");
            tried += 1;
        }
    }
    assert_eq!(tried, 6);
}

/// The one run of the page on tallies.
#[test]
fn run_of_the_tally_page() {
    let (words, shown) = between(TALLY_PAGE, "    $ ./bolfrake ", "\n\n")
        .split_once('\n')
        .unwrap();
    let shown: Vec<&str> = shown.lines().map(|line| &line[4..]).collect();
    assert_eq!(run(words).out, shown.join("\n") + "\n", "{words}");
}

/// The commands without an output are ones that the tool takes: it refuses a use that it does not know with 2.
#[test]
fn commands_of_the_readme() {
    let mut tried = 0;
    for line in README.lines() {
        if let Some(words) = line.strip_prefix("    ./bolfrake ") {
            let words = words.split("  ").next().unwrap();
            let words = words
                .replace("FILE...", "FILE")
                .replace("FILE", "examples/fee.mztab");
            let answer = run(&words);
            assert!(answer.status < 2, "{words}: {}", answer.error);
            tried += 1;
        }
    }
    assert!(tried >= 5, "{tried}");
}

#[test]
fn what_judge_prints_by_the_readme() {
    let shown = indented("    FAULTS").join("\n");
    let file = include_str!("../../../examples/yeast.mztab");
    let lines: Vec<String> = file.lines().map(str::to_string).collect();
    assert_eq!(printed(&lines), shown);
}

/// The floors of the picture, from the ground up: the crates that each names. The words beside them begin after so many columns.
fn floors() -> Vec<Vec<String>> {
    const NAMES: usize = 62;
    let mut floors: Vec<Vec<String>> = indented("    judge, judge_report")
        .iter()
        .map(|line| line.chars().take(NAMES).collect::<String>())
        .map(|names| names.split([' ', ',']).map(str::to_string).collect())
        .collect();
    floors.reverse();
    floors
}

/// Whether a floor's name stands for the crate: `line_meta*` is all that begin so.
fn stands_for(name: &str, of: &str) -> bool {
    match name.strip_suffix('*') {
        Some(beginning) => of.starts_with(beginning),
        None => name == of,
    }
}

/// The picture is that of crates.txt: each crate stands in it, and on none that is above it.
#[test]
fn the_floors_of_the_readme() {
    let floors = floors();
    let floor_of = |name: &str| {
        let names = |floor: &Vec<String>| floor.iter().any(|one| stands_for(one, name));
        floors.iter().position(names)
    };
    let beside = ["numbers", "walks", "io", "libc"];
    let crates = include_str!("../../../crates.txt").lines();
    let crates = crates.filter(|line| !line.starts_with('#') && !line.starts_with("test_"));
    for (name, below) in crates.filter_map(|line| line.split_once(':')) {
        // a static library says so behind its name
        let name = name.trim_end_matches(" staticlib");
        if beside.contains(&name) {
            continue;
        }
        let floor = floor_of(name).unwrap_or_else(|| panic!("{name} is not in the picture"));
        for other in below.split_whitespace().filter(|one| !beside.contains(one)) {
            assert!(floor_of(other) <= Some(floor), "{name} stands on {other}");
        }
    }
}
