//! `bolfrake check`: judges files on all cores and prints their breaks.

mod line;

use std::io::{self, Write};

use mztab::Judged;

use crate::files::judged::judged;
use crate::files::{self, Source};
use crate::output::in_order::{in_order, Out};
use crate::output::pages::Titles;
use crate::output::terminal;
use crate::output::told::Teller;
use crate::output::write::{Format, Sum, Verdict};
use crate::words::failure::Failure;
use crate::words::{self, Words};

struct Options {
    format: Format,
    most: usize,
    /// The one line that is asked for.
    line: Option<u32>,
    /// Read from the document once, for all files.
    titles: Titles,
}

pub fn run(words: Words) -> Result<u8, Failure> {
    let mut options = Options {
        format: Format::for_people(),
        most: usize::MAX,
        line: None,
        titles: Titles::new(),
    };
    let plain = words.sort(|name, words| option(name, words, &mut options))?;
    if let Some(line) = options.line {
        return line::run(line, plain, &options);
    }
    let sources = files::named("check", plain)?;
    let sum = judge_all(&sources, &options)?;
    if options.format == Format::Csv {
        terminal::say(&sum.line());
    }
    Ok(sum.status())
}

fn option(name: &str, words: &mut Words, options: &mut Options) -> Result<bool, Failure> {
    match name {
        "--format" => options.format = Format::named(words.choice(name, &Format::NAMES)?),
        "--line" => {
            options.line = Some(words::number("check", "N of --line", &words.value(name)?)?)
        }
        "--max" => {
            options.most = words::number("check", "N of --max", &words.value(name)?)? as usize
        }
        _ => return Ok(false),
    }
    Ok(true)
}

fn judge_all(sources: &[Source], options: &Options) -> Result<Sum, Failure> {
    let mut output = io::stdout().lock();
    output.write_all(options.format.opening().as_bytes())?;
    let verdicts = in_order(sources.len(), &mut output, |k, out| {
        judge(k, &sources[k], options, out)
    })?;
    let mut sum = Sum::default();
    for (source, verdict) in sources.iter().zip(verdicts) {
        let verdict = verdict?;
        if let Verdict::NotJudged(unread) = &verdict {
            terminal::say(&format!("bolfrake: {} {unread}", source.name()));
        }
        sum.add(&verdict);
    }
    output.write_all(options.format.closing(&sum).as_bytes())?;
    output.flush()?;
    Ok(sum)
}

/// Judges the k-th file and prints all of it.
fn judge(k: usize, source: &Source, options: &Options, out: &mut Out) -> io::Result<Verdict> {
    let name = source.name();
    match judged(source, options.most, out) {
        Ok((file, judged)) => print(k, &name, &file, &judged, options, out),
        Err(unread) => {
            let verdict = Verdict::NotJudged(unread);
            options.format.before(k, &name, &verdict, out)?;
            options.format.after(&name, &verdict, out)?;
            Ok(verdict)
        }
    }
}

fn print(
    k: usize,
    name: &str,
    file: &[u8],
    judged: &Judged,
    options: &Options,
    out: &mut Out,
) -> io::Result<Verdict> {
    let format = options.format;
    let breaks = judged.breaks();
    let verdict = Verdict::Judged {
        breaks: judged.count,
        shown: breaks.len(),
        bytes: file.len(),
    };
    format.before(k, name, &verdict, out)?;
    let mut teller = Teller::new(file, &options.titles);
    for (k, at) in breaks.enumerate() {
        format.one(k, name, &teller.tell(at), out)?;
    }
    format.after(name, &verdict, out)?;
    Ok(verdict)
}
