//! The pages of docs/rules.md: `explain` prints them, and their titles are the words of each break. There is no other source.

use std::io::{self, Write};

use mztab::RULES;

use crate::words::failure::Failure;
use crate::words::{misused, Words};

const DOCUMENT: &str = include_str!("../../../../docs/rules.md");

/// `bolfrake explain [RULE | values | names]`
pub fn run(words: Words) -> Result<u8, Failure> {
    let words = words.sort(|_, _| Ok(false))?;
    let asked: Vec<String> = words
        .iter()
        .map(|word| word.to_string_lossy().to_lowercase())
        .collect();
    let text = match asked.as_slice() {
        [] => list(),
        [word] => page_of(word)?,
        [first, number] if first == "rule" => page_of(number)?,
        _ => return Err(misused("explain", "takes one rule")),
    };
    io::stdout().write_all(text.as_bytes())?;
    Ok(0)
}

fn page_of(word: &str) -> Result<String, Failure> {
    match word {
        "values" => return Ok(page("Values")),
        "names" => return Ok(page("Known names")),
        _ => {}
    }
    match word.parse::<u32>() {
        Ok(rule) if (1..=RULES).contains(&rule) => Ok(page(&format!("Rule {rule}:"))),
        _ => Err(misused(
            "explain",
            &format!("knows the rules 1 to {RULES}, `values` and `names`, and not `{word}`"),
        )),
    }
}

/// The section whose title begins so, up to the next, with one line end after it.
fn page(title: &str) -> String {
    let beginning = format!("## {title}");
    let mut lines = DOCUMENT
        .lines()
        .skip_while(|line| !line.starts_with(&beginning));
    let mut out = lines.next().unwrap_or_default().to_string();
    for line in lines.take_while(|line| !line.starts_with("## ")) {
        out += "\n";
        out += line;
    }
    format!("{}\n", out.trim_end())
}

/// The number and title of each rule.
fn list() -> String {
    let titles = Titles::new();
    let mut out = String::new();
    for rule in 1..=RULES {
        out += &format!("{rule:>2}  {}\n", titles.of(rule));
    }
    out
}

/// The title of each rule.
pub struct Titles {
    all: Vec<&'static str>,
}

impl Titles {
    pub fn new() -> Titles {
        let rules = DOCUMENT
            .lines()
            .filter_map(|line| line.strip_prefix("## Rule "));
        let titles = rules.filter_map(|line| line.split_once(": "));
        Titles {
            all: titles.map(|(_, title)| title).collect(),
        }
    }

    pub fn of(&self, rule: u32) -> &'static str {
        let at = (rule as usize).wrapping_sub(1);
        self.all.get(at).copied().unwrap_or("a rule without a page")
    }
}

#[cfg(test)]
mod tests {
    use mztab::format::{DEMANDS, REQUIRED_KEYS, SECTIONS};

    use super::*;

    /// The page of a rule has this line: its table says what the binding has.
    fn holds(rule: &str, line: &str) {
        assert!(
            page_of(rule).unwrap().contains(&format!("\n{line}\n")),
            "{line}"
        );
    }

    fn quoted(names: &[&str]) -> String {
        let names: Vec<String> = names.iter().map(|name| format!("`{name}`")).collect();
        names.join(", ")
    }

    #[test]
    fn columns_that_rule_16_requires() {
        for section in SECTIONS {
            let code = String::from_utf8_lossy(section.header);
            let names = quoted(section.required);
            holds("16", &format!("| `{code}` | {names} |"));
            if !section.required_quantified.is_empty() {
                let more = quoted(section.required_quantified);
                let line = format!("| `{code}` of a Quantification file | these too: {more} |");
                holds("16", &line);
            }
        }
    }

    #[test]
    fn keys_that_rule_21_requires() {
        for (k, key) in REQUIRED_KEYS.iter().enumerate() {
            let any = if key.contains("[n]") { "any " } else { "" };
            holds("21", &format!("| {} | {any}`{key}` |", k + 1));
        }
    }

    #[test]
    fn keys_that_rule_22_asks_for() {
        for demand in &DEMANDS {
            let plus = if demand.each { " + n" } else { "" };
            let of_any = !demand.each && demand.key.contains("[n]");
            let any = if of_any { "any " } else { "" };
            let (cell, key, reason) = (demand.cell, demand.key, demand.reason);
            holds("22", &format!("| {cell}{plus} | {any}`{key}` | {reason} |"));
        }
        let page = page_of("22").unwrap();
        let lines = page.lines().filter(|line| line.starts_with("| "));
        // No more are asked for; the head of the table is one line more.
        assert_eq!(lines.count(), DEMANDS.len() + 1);
    }

    #[test]
    fn every_rule_has_a_page_and_a_title() {
        let titles = Titles::new();
        assert_eq!(titles.all.len(), RULES as usize);
        for rule in 1..=RULES {
            let page = page_of(&rule.to_string()).unwrap();
            assert!(page.starts_with(&format!("## Rule {rule}: {}\n", titles.of(rule))));
            for part in ["**Broken when**", "**Example**", "**Mend**", "**Stops"] {
                assert!(page.contains(part), "rule {rule}: {part}");
            }
            assert_eq!(page.matches("\n## ").count(), 0);
        }
    }

    #[test]
    fn pages_of_what_comes_again_say_where_it_stands_first() {
        for rule in 1..=RULES {
            let page = page_of(&rule.to_string()).unwrap();
            let said =
                ["with `first`, the ", "`bolfrake check` says "].map(|words| page.contains(words));
            match rule {
                6 | 9 | 13 => assert_eq!(said, [true, true], "rule {rule}"),
                _ => assert!(!said[0], "rule {rule}"),
            }
        }
    }

    #[test]
    fn other_pages() {
        assert!(page_of("values").unwrap().contains("**Whole**"));
        assert!(page_of("names").unwrap().starts_with("## Known names\n"));
        for unknown in ["0", "25", "-1", "seven", ""] {
            assert!(page_of(unknown).is_err(), "{unknown}");
        }
    }

    #[test]
    fn the_list() {
        assert_eq!(list().lines().count(), RULES as usize);
        assert!(list().contains("19  empty cell in a row\n"));
        assert!(list().ends_with("23  index zero or with a leading zero\n24  index over 64\n"));
    }
}
