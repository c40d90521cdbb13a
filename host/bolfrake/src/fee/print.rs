//! A split in three forms: for people, for tables, for programs.

use super::amount;
use super::{Share, Split};
use crate::output::columns::table;
use crate::output::show;
use crate::output::write::{json, quoted};

#[derive(Clone, Copy, PartialEq, Eq)]
pub enum Form {
    Table,
    Csv,
    Json,
}

impl Form {
    pub fn print(self, split: &Split) -> String {
        match self {
            Form::Table => as_table(split),
            Form::Csv => as_csv(split),
            Form::Json => as_json(split),
        }
    }
}

/// Which study variables have no share, in words; nothing where all have one.
pub fn without(split: &Split) -> Option<String> {
    let numbers: Vec<String> = split.without.iter().map(usize::to_string).collect();
    let (ending, has, gets) = match numbers.len() {
        0 => return None,
        1 => ("", "has", "gets"),
        _ => ("s", "have", "get"),
    };
    let why = match split.file {
        Some(_) => " (declared, but no protein row has an abundance)",
        None => "",
    };
    Some(format!(
        "study variable{ending} {} {has} weight 0{why} and {gets} no share",
        numbers.join(", ")
    ))
}

/// The shares and their totals. Weights that were given have no descriptions, and so no column for them.
fn as_table(split: &Split) -> String {
    let described = split.file.is_some();
    let line = |number: &str, description: &str, weight: &str, share: &str| {
        let mut line = vec![number.to_string(), weight.to_string(), share.to_string()];
        if described {
            line.insert(1, description.to_string());
        }
        line
    };
    let mut lines = vec![line("study variable", "description", "weight", "share")];
    for share in &split.shares {
        lines.push(line(
            &share.number.to_string(),
            &described_for_people(share),
            &show::count(u64::from(share.weight)),
            &amount::grouped(share.cents),
        ));
    }
    lines.push(line(
        "total",
        "",
        &show::count(split.weight),
        &amount::grouped(split.cents),
    ));
    let left: &[usize] = if described { &[1] } else { &[] };
    let without = without(split).map(|line| line + "\n");
    table(&lines, left) + &without.unwrap_or_default()
}

fn described_for_people(share: &Share) -> String {
    match &share.description {
        Some(description) => show::cell(description),
        None => "(no description)".to_string(),
    }
}

fn as_csv(split: &Split) -> String {
    let file = quoted(split.file.as_deref().unwrap_or_default());
    let mut out = "file,study_variable,description,weight,cents,share\n".to_string();
    for share in &split.shares {
        // The marks keep a table program from reading a description as a number, a date or a formula.
        let description = share.description.as_ref();
        let description = description.map(|bytes| format!("`{}`", show::whole(bytes)));
        out += &format!(
            "{file},{},{},{},{},{}\n",
            share.number,
            quoted(&description.unwrap_or_default()),
            share.weight,
            share.cents,
            amount::plain(share.cents)
        );
    }
    out + &format!(
        "{file},total,,{},{},{}\n",
        split.weight,
        split.cents,
        amount::plain(split.cents)
    )
}

fn as_json(split: &Split) -> String {
    let file = split.file.as_ref().map(|file| json(file));
    let shares: Vec<String> = split.shares.iter().map(json_share).collect();
    let without: Vec<String> = split.without.iter().map(usize::to_string).collect();
    format!(
        "{{\"file\": {}, \"shares\": [{}\n], \"total\": {{\"weight\": {}, \"cents\": {}, \"share\": \"{}\"}}, \"without_weight\": [{}]}}\n",
        or_null(file),
        shares.join(","),
        split.weight,
        split.cents,
        amount::plain(split.cents),
        without.join(", ")
    )
}

fn json_share(share: &Share) -> String {
    let description = share.description.as_ref();
    let description = description.map(|bytes| json(&show::whole(bytes)));
    format!(
        "\n  {{\"study_variable\": {}, \"description\": {}, \"weight\": {}, \"cents\": {}, \"share\": \"{}\"}}",
        share.number,
        or_null(description),
        share.weight,
        share.cents,
        amount::plain(share.cents)
    )
}

fn or_null(text: Option<String>) -> String {
    text.unwrap_or_else(|| "null".to_string())
}
