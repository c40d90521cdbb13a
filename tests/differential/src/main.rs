//! Compares the library, through its binding, with the independent reading of the paper: every break, every place of the lent list,
//! every cell, the rows, the weights and the tally, single lines, files with one cell edited, and mended copies, on files written by hand,
//! hostile ones, and files drawn by a grammar, most of them damaged, some with holes; fees that are split, and tallies that are added, written
//! and read, by hand and drawn, some beside each drawn file, as are a small file with holes that is mended alone, and one with counts that is
//! tallied alone.
//!
//! `differential [--seed S] [--from K] [--count N] [--sample M]`: N drawn files, beside the hostile ones and every M-th of those written by
//! hand, else all. With `--from` the drawn files K to K + N - 1 alone, so that a run can be cut into parts. The same seed draws the same files.
//! With `--table 1` nothing is compared: the drawn files are written as a table for the run tests that judge.

#![forbid(unsafe_code)]

mod again;
mod by_hand;
mod by_hand_again;
mod compare;
mod complete;
mod damage;
mod edits;
mod fees;
mod firsts;
mod grammar;
mod holes;
mod mends;
mod shrink;
mod tallies;
mod weights;

use std::env;
use std::io::{self, Write};
use std::ops::RangeInclusive;
use std::process::ExitCode;

use compare::{compare, Tried, INDEX_RULES, WITH_INDEX};
use edits::Edited;
use firsts::{AGAIN, MISTAKEN};
use mends::{every_sort, Mends, AFTER};
use samples::Draws;
use tallies::{words, Calls, Tallies};

const SEED: u64 = 1;
const COUNT: u64 = 10_000;
/// So many drawn files must break every rule.
const MANY: u64 = 4_000;
/// Of so many drawn files one at least must be accepted and have weights, and one have all three counters and missing cells.
const WEIGHED: u64 = 10;
const COUNTED: u64 = 10;
/// So many combinations of mode and type there are.
const SORTS: usize = 4;
/// So many cases has a reading, and such powers a decimal.
const CASES: u32 = 7;
const POWERS: RangeInclusive<i32> = -22..=22;
/// So many splits are drawn beside each file, and so many tallies.
const SPLITS: usize = 2;
const TALLIES: usize = 2;
/// So many bytes have the hostile files, and so many those with long indices beside.
const HOSTILE: [usize; 2] = [10_000, 40_000];
const LONG: usize = 1 << 20;
/// Of the lines that are enough for a difference so many bytes are printed.
const PRINTED: usize = 100_000;
/// A file of a table ends with this byte, and a run test takes so many bytes of a table.
const FILE_END: u8 = 30;
const TABLE: usize = 327_680;
/// After so many differences no more are looked for.
const ENOUGH: u32 = 10;

fn main() -> ExitCode {
    let options = match options() {
        Ok(options) => options,
        Err(words) => {
            eprintln!(
                "differential: {words}: use differential [--seed S] [--from K] [--count N] [--sample M] [--table 1]"
            );
            return ExitCode::from(2);
        }
    };
    if options.table {
        return match io::stdout().write_all(&table(&options)) {
            Ok(()) => ExitCode::SUCCESS,
            Err(error) => {
                eprintln!("differential: the table could not be written: {error}");
                ExitCode::FAILURE
            }
        };
    }
    let mut run = Run::default();
    if options.from.is_none() {
        run.by_hand(&options);
        run.hostile(&options);
    }
    run.drawn(&options);
    if options.count >= MANY {
        run.every_one();
    }
    if run.different == 0 {
        ExitCode::SUCCESS
    } else {
        ExitCode::FAILURE
    }
}

/// The draws of the k-th file: each has its own, so that one can be drawn again without those before it.
fn draws_of(seed: u64, k: u64) -> Draws {
    Draws::new(seed ^ k.wrapping_mul(0x2545_f491_4f6c_dd1d))
}

/// The drawn files as a table, but for those that hold the byte which ends a file, and those that no longer fit.
fn table(options: &Options) -> Vec<u8> {
    let near = grammar::near_values();
    let from = options.from.unwrap_or(0);
    let mut table = Vec::new();
    for k in from..from.saturating_add(options.count) {
        let file = grammar::file(&near, &mut draws_of(options.seed, k));
        if !file.contains(&FILE_END) && table.len() + file.len() < TABLE {
            table.extend(file);
            table.push(FILE_END);
        }
    }
    table
}

/// What compares one file: nothing where both say the same, else words.
type Compare = fn(&[u8], &mut Draws, &mut Tried) -> Result<(), String>;

/// What was compared so far, and how many files differ.
#[derive(Default)]
struct Run {
    tried: Tried,
    /// How many files were drawn, and how many of these are accepted and have weights.
    drawn: u64,
    weighed: u64,
    different: u32,
}

impl Run {
    fn by_hand(&mut self, options: &Options) {
        let files = (0..).zip(by_hand::files());
        for (k, (label, file)) in files.step_by(options.sample) {
            self.try_one(&label, &file, &mut draws_of(options.seed, k));
        }
        let fees = fees::by_hand(&mut self.tried);
        self.note("a fee by hand", fees);
        let edits = edits::by_hand(&mut Draws::new(options.seed), &mut self.tried);
        self.note("an edit by hand", edits);
        let mends = mends::by_hand(&mut Draws::new(options.seed), &mut self.tried);
        self.note("mended by hand", mends);
        let tallies = tallies::by_hand(&mut self.tried);
        self.note("a tally by hand", tallies);
        println!(
            "differential: {} files by hand, {} differences",
            self.tried.files, self.different
        );
    }

    fn hostile(&mut self, options: &Options) {
        let before = self.tried.files;
        let too_long = vec![b'x'; mztab::LIMIT + 1];
        self.try_one(
            "one byte too many",
            &too_long,
            &mut Draws::new(options.seed),
        );
        for size in HOSTILE {
            for sample in samples::hostile(size) {
                self.try_one(sample.name, &sample.file, &mut Draws::new(options.seed));
            }
        }
        for sample in samples::long_indices(LONG) {
            self.try_one(sample.name, &sample.file, &mut Draws::new(options.seed));
        }
        let mends = mends::large(LONG, &mut Draws::new(options.seed), &mut self.tried);
        self.note("a large file mended", mends);
        let tallies = tallies::large(LONG, &mut Draws::new(options.seed), &mut self.tried);
        self.note("a large file tallied", tallies);
        println!(
            "differential: {} hostile files, {} differences",
            self.tried.files - before,
            self.different
        );
    }

    fn drawn(&mut self, options: &Options) {
        let near = grammar::near_values();
        let from = options.from.unwrap_or(0);
        let weighed_before = self.tried.weighed;
        self.tried.firsts.clear();
        let not_drawn = std::mem::take(&mut self.tried.edited);
        let other_mends = std::mem::take(&mut self.tried.mends);
        let other_tallies = std::mem::take(&mut self.tried.tallies);
        for k in from..from.saturating_add(options.count) {
            let mut draws = draws_of(options.seed, k);
            let file = grammar::file(&near, &mut draws);
            let label = format!("seed {}, file {k}", options.seed);
            self.try_one(&label, &file, &mut draws);
            self.try_fees(&label, &mut draws);
            self.try_holes(&label, &mut draws);
            self.try_counts(&label, &mut draws);
        }
        self.drawn = options.count;
        self.weighed = self.tried.weighed - weighed_before;
        self.print_edits(&not_drawn);
        self.print_mends(&other_mends);
        self.print_tallies(&other_tallies);
        self.print(options.seed, from);
    }

    fn print_edits(&self, not_drawn: &Edited) {
        let Edited {
            lines,
            hung,
            edits,
            changed,
        } = &self.tried.edited;
        println!(
            "differential: in drawn files {lines} lines judged by themselves, the breaks of {hung} hang on lines below; \
             {edits} cells edited, {changed} of the edits changed breaks; in the other files {} lines, and {} cells edited, {} with a change",
            not_drawn.lines, not_drawn.edits, not_drawn.changed
        );
    }

    fn print_mends(&self, not_drawn: &Mends) {
        let drawn = &self.tried.mends;
        let after: Vec<String> = (drawn.after.iter())
            .map(|(after, count)| format!("{count} before {after}"))
            .collect();
        println!(
            "differential: {} drawn files have holes that are mended, {} in all, and {} holes stay where `null` may not stand; {}; {} copies \
             compared and {} refusals, {} bytes of buffers; of the other files {} have such holes, {} in all, {} stay, {} copies and {} refusals",
            drawn.files,
            drawn.mended,
            drawn.stayed,
            after.join(", "),
            drawn.copies(),
            drawn.refusals(),
            drawn.bytes,
            not_drawn.files,
            not_drawn.mended,
            not_drawn.stayed,
            not_drawn.copies(),
            not_drawn.refusals()
        );
    }

    fn print_tallies(&self, not_drawn: &Tallies) {
        let drawn = &self.tried.tallies;
        println!(
            "differential: drawn files tallied: {}; {} of them have all three counters and missing cells, and each total is not 0 in {:?}; \
             sums {}; records written {}, read {}; all together {:?}; of the other files {}; sums {}; records written {}, read {}",
            words(&drawn.files),
            drawn.full,
            drawn.each,
            words(&drawn.sums),
            words(&drawn.written),
            words(&drawn.read),
            drawn.month,
            words(&not_drawn.files),
            words(&not_drawn.sums),
            words(&not_drawn.written),
            words(&not_drawn.read)
        );
    }

    fn print(&self, seed: u64, from: u64) {
        let Tried {
            files,
            accepted,
            breaks,
            lists,
            cells,
            weighed,
            sums,
            ..
        } = self.tried;
        let splits: Vec<String> = (self.tried.splits.iter())
            .map(|(number, count)| format!("{count} with {number}"))
            .collect();
        let firsts: Vec<String> = (self.tried.firsts.iter())
            .map(|((rule, such), count)| format!("{count} of rule {rule} ({such:?})"))
            .collect();
        println!(
            "differential: firsts that could be mistaken in drawn files: {}",
            firsts.join(", ")
        );
        println!(
            "differential: {files} files tried (seed {seed}, drawn from {from} on), {accepted} accepted, {weighed} of them with weights, {} of these drawn; \
             {breaks} breaks, {lists} lists and {cells} cells compared; splits {}, and {sums} sums; {} differences",
            self.weighed,
            splits.join(", "),
            self.different
        );
    }

    fn try_one(&mut self, label: &str, file: &[u8], draws: &mut Draws) {
        self.try_by(compare, label, file, draws);
    }

    /// A small file with holes, which is mended and nothing more.
    fn try_holes(&mut self, label: &str, draws: &mut Draws) {
        let file = independent::cases::holes::file(&mut |n| draws.below(n));
        self.try_by(mends::alone, &format!("{label}, holes"), &file, draws);
    }

    /// A small file with counts, which is tallied and nothing more, and tallies that no file has.
    fn try_counts(&mut self, label: &str, draws: &mut Draws) {
        let file = tallies::with_counts(draws);
        self.try_by(tallies::alone, &format!("{label}, counts"), &file, draws);
        if self.different < ENOUGH {
            let answer = tallies::drawn(TALLIES, draws, &mut self.tried);
            self.note(label, answer);
        }
    }

    /// Compares one file; where the answers differ, prints both, and the lines of the file that are enough for a difference.
    fn try_by(&mut self, compare: Compare, label: &str, file: &[u8], draws: &mut Draws) {
        if self.different >= ENOUGH {
            return;
        }
        let before = draws.clone();
        let answer = compare(file, draws, &mut self.tried);
        if answer.is_ok() {
            return;
        }
        self.note(label, answer);
        let again = |file: &[u8]| compare(file, &mut before.clone(), &mut Tried::default());
        let few = shrink::shrunk(file, |file| again(file).is_err());
        if let Err(difference) = again(&few) {
            let printed = &few[..few.len().min(PRINTED)];
            println!(
                "the lines that are enough, {} bytes: b\"{}\"",
                few.len(),
                printed.escape_ascii()
            );
            println!("and of them: {difference}");
        }
    }

    fn try_fees(&mut self, label: &str, draws: &mut Draws) {
        if self.different >= ENOUGH {
            return;
        }
        let answer = fees::drawn(SPLITS, draws, &mut self.tried);
        self.note(label, answer);
    }

    /// Prints and counts a difference.
    fn note(&mut self, label: &str, answer: Result<(), String>) {
        if let Err(difference) = answer {
            println!("differential: DIFFERENCE, {label}: {difference}");
            self.different += 1;
        }
    }

    /// Prints and counts that the files lack something, so that they show too little.
    fn too_little(&mut self, lacking: &str) {
        println!("differential: {lacking}, so the files show too little");
        self.different += 1;
    }

    /// The files show something of everything.
    fn every_one(&mut self) {
        self.every_rule();
        self.every_index();
        self.every_first();
        self.every_demand();
        self.every_reading();
        self.every_number();
        self.every_edit();
        self.every_mend();
        self.every_tally();
    }

    /// Files that never break a rule would show nothing of it.
    fn every_rule(&mut self) {
        for rule in 1..self.tried.rules.len() {
            if self.tried.rules[rule] == 0 {
                self.too_little(&format!("no file breaks rule {rule}"));
            }
        }
    }

    /// The same of the rules of indices: either is broken by each name that has one, and by each value.
    fn every_index(&mut self) {
        for rule in INDEX_RULES {
            for what in WITH_INDEX {
                if !self.tried.indices.contains_key(&(rule, what)) {
                    self.too_little(&format!("no {what} breaks rule {rule}"));
                }
            }
        }
    }

    /// The same of the firsts that the drawn files have: of each rule some are not the nearest, and some have above them what is near to them.
    fn every_first(&mut self) {
        for rule in AGAIN {
            for such in MISTAKEN {
                if !self.tried.firsts.contains_key(&(rule, such)) {
                    self.too_little(&format!(
                        "no first of rule {rule} can be mistaken for {such:?}"
                    ));
                }
            }
        }
    }

    /// The same of the fields that rule 22 asks for, and of accepted files in each mode and type.
    fn every_demand(&mut self) {
        for field in &independent::demands::FIELDS {
            if !self.tried.fields.contains_key(&field.cell) {
                self.too_little(&format!("no file misses `{}`", field.key));
            }
        }
        if self.tried.sorts.len() < SORTS {
            self.too_little(&format!("accepted files are {:?} alone", self.tried.sorts));
        }
    }

    /// The same of the cases that a cell can read as, and of the powers that a decimal can have.
    fn every_reading(&mut self) {
        for case in 0..CASES {
            if !self.tried.cases.contains_key(&case) {
                self.too_little(&format!("no cell reads as case {case}"));
            }
        }
        for power in POWERS {
            if !self.tried.powers.contains_key(&power) {
                self.too_little(&format!("no decimal has the power {power}"));
            }
        }
    }

    /// The same of the drawn files' single lines and edits: there are as many edits as files at least, and some change a break; and the breaks
    /// of some lines hang on lines below.
    fn every_edit(&mut self) {
        let Edited {
            hung,
            edits,
            changed,
            ..
        } = self.tried.edited;
        if edits < self.drawn {
            self.too_little(&format!("{edits} cells of drawn files are edited"));
        }
        if changed == 0 {
            self.too_little("no edit changes a break");
        }
        if hung == 0 {
            self.too_little("the breaks of no line hang on a line below");
        }
    }

    /// The same of what is mended in the drawn files: under every sort of column there are holes, and before everything that ends a cell.
    fn every_mend(&mut self) {
        let Mends { sorts, after, .. } = &self.tried.mends;
        let sorts = (every_sort().into_iter())
            .filter(|sort| !sorts.contains_key(sort))
            .map(|(section, sort)| {
                format!("no hole of section {section} is under a column {sort}")
            });
        let ends = (AFTER.iter())
            .filter(|end| !after.contains_key(*end))
            .map(|end| format!("no hole stands before {end}"));
        for lacking in sorts.chain(ends).collect::<Vec<String>>() {
            self.too_little(&lacking);
        }
        if self.tried.mends.mended < self.drawn {
            self.too_little("few holes are mended");
        }
    }

    /// The same of the tallies: each total is more than 0 in some file, enough have counts and missing cells, and every number is answered.
    fn every_tally(&mut self) {
        let Tallies {
            files,
            sums,
            written,
            read,
            each,
            full,
            ..
        } = &self.tried.tallies;
        let calls: [(&str, &Calls, &[u32]); 4] = [
            ("tally", files, &[0, 7, 12]),
            ("sum", sums, &[0, 13]),
            ("record written", written, &[0, 5]),
            ("record read", read, &[0, 14]),
        ];
        let mut lacking = Vec::new();
        for (what, answered, numbers) in calls {
            let none = numbers
                .iter()
                .filter(|number| !answered.contains_key(number));
            lacking.extend(none.map(|number| format!("no {what} is answered {number}")));
        }
        if each.contains(&0) || full * COUNTED < self.drawn {
            lacking.push(format!(
                "{full} drawn files have all counts, and of each {each:?}"
            ));
        }
        for lacking in lacking {
            self.too_little(&lacking);
        }
    }

    /// The same of weights, and of the numbers that a split can answer.
    fn every_number(&mut self) {
        if self.weighed * WEIGHED < self.drawn {
            self.too_little(&format!("{} drawn files have weights", self.weighed));
        }
        for number in [0, 15, 16, 17] {
            if !self.tried.splits.contains_key(&number) {
                println!(
                    "differential: no split is answered {number}, so the splits show too little"
                );
                self.different += 1;
            }
        }
    }
}

struct Options {
    seed: u64,
    from: Option<u64>,
    count: u64,
    sample: usize,
    table: bool,
}

fn options() -> Result<Options, String> {
    let mut options = Options {
        seed: SEED,
        from: None,
        count: COUNT,
        sample: 1,
        table: false,
    };
    let mut words = env::args().skip(1);
    while let Some(word) = words.next() {
        let value: Option<u64> = words.next().and_then(|value| value.parse().ok());
        let value = value.ok_or_else(|| format!("`{word}` needs a number after it"))?;
        match word.as_str() {
            "--seed" => options.seed = value,
            "--from" => options.from = Some(value),
            "--count" => options.count = value,
            "--sample" => options.sample = value.max(1) as usize,
            "--table" => options.table = value != 0,
            _ => return Err(format!("there is no option `{word}`")),
        }
    }
    Ok(options)
}

#[cfg(test)]
mod tests {
    use super::*;

    /// The library's own tests hold it to these counts.
    #[test]
    fn hostile_files_have_as_many_breaks_as_they_say() {
        for sample in samples::hostile(HOSTILE[0]).chain(samples::long_indices(LONG)) {
            let breaks = independent::judge(&sample.file).expect(sample.name);
            assert_eq!(breaks.len(), sample.breaks as usize, "{}", sample.name);
        }
    }
}
