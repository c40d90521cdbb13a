//! `bolfrake check --line N FILE`: one line of one file. It is judged under the whole file, by the call for one line alone.

use std::ffi::OsString;
use std::io::{self, BufWriter, Write};

use mztab::{Judged, Refusal};

use super::Options;
use crate::files::finder::cut_line;
use crate::files::judged::judged_line;
use crate::files::{self, Unread};
use crate::output::show;
use crate::output::terminal;
use crate::output::told::Teller;
use crate::output::write::{json, summary, Format};
use crate::words::failure::Failure;
use crate::words::misused;

pub fn run(line: u32, plain: Vec<OsString>, options: &Options) -> Result<u8, Failure> {
    let [file]: [OsString; 1] = match plain.try_into() {
        Ok(one) => one,
        Err(_) => {
            let words = "takes one file beside --line, or - for standard input";
            return Err(misused("check", words));
        }
    };
    let (name, file) = files::one(file)?;
    let [judged] = judged_line([&file], line, options.most)?;
    let judged = judged.map_err(|refusal| refused(&name, &file, line, refusal))?;
    let mut output = BufWriter::new(io::stdout().lock());
    print(&name, &file, line, &judged, options, &mut output)?;
    output.flush()?;
    if options.format == Format::Csv {
        terminal::say(&closing(&name, line, &judged));
    }
    Ok(u8::from(judged.count > 0))
}

fn print(
    name: &str,
    file: &[u8],
    line: u32,
    judged: &Judged,
    options: &Options,
    out: &mut dyn Write,
) -> io::Result<()> {
    let format = options.format;
    match format {
        Format::Json => opening(name, line, judged, out)?,
        _ => out.write_all(format.opening().as_bytes())?,
    }
    let mut teller = Teller::new(file, &options.titles);
    for (k, at) in judged.breaks().enumerate() {
        format.one(k, name, &teller.tell(at), out)?;
    }
    match format {
        Format::Text { .. } => writeln!(out, "{}", closing(name, line, judged)),
        Format::Csv => Ok(()),
        Format::Json => writeln!(out, "]}}"),
    }
}

/// What stands before the breaks in JSON.
fn opening(name: &str, line: u32, judged: &Judged, out: &mut dyn Write) -> io::Result<()> {
    let status = if judged.count == 0 { "keeps" } else { "breaks" };
    write!(
        out,
        "{{\"file\": {}, \"line\": {line}, \"status\": \"{status}\", \"count\": {}, \"shown\": {}, \"breaks\": [",
        json(name),
        judged.count,
        judged.breaks().len()
    )
}

/// The line that says it in short.
fn closing(name: &str, line: u32, judged: &Judged) -> String {
    match judged.count {
        0 => format!("{name}: line {line} breaks no rule"),
        count => format!(
            "{name}: line {line}: {}",
            summary(count, judged.breaks().len())
        ),
    }
}

fn refused(name: &str, file: &[u8], line: u32, refusal: Refusal) -> Failure {
    match refusal {
        Refusal::NoRow => Failure::Refused(no_line(name, line, lines(file))),
        _ => Failure::Stopped(format!("{name} {}", Unread::TooLong)),
    }
}

/// How many lines a file has.
fn lines(file: &[u8]) -> u32 {
    let mut rest = file;
    let mut count = 0;
    while !rest.is_empty() {
        (_, rest) = cut_line(rest);
        count += 1;
    }
    count
}

/// That there is no such line, and what there is. The line after the last is where the whole file is reported of.
fn no_line(name: &str, line: u32, lines: u32) -> String {
    let there_is = match lines {
        0 => "it is empty".to_string(),
        1 => "it has 1 line: ask for line 1".to_string(),
        _ => {
            let has = show::counted(u64::from(lines), "line");
            format!("it has {has}: ask for line 1 to {lines}")
        }
    };
    let beside = match line == lines + 1 {
        true => format!("; what the whole file lacks, rules 21 and 22, is reported there by `bolfrake check {name}`"),
        false => String::new(),
    };
    format!("{name} has no line {line}, {there_is}{beside}")
}

#[cfg(test)]
mod tests {
    use super::*;

    #[test]
    fn lines_as_the_library_counts_them() {
        for case in independent::cases::judging::all() {
            let last = lines(&case.file);
            let line = |number| mztab::judge_line(&case.file, number, 0);
            assert!(last == 0 || line(last).is_ok(), "{}", case.label);
            assert_eq!(line(last + 1), Err(Refusal::NoRow), "{}", case.label);
        }
    }

    #[test]
    fn what_there_is() {
        let nine = "it has 9 lines: ask for line 1 to 9";
        let many = "it has 12,345 lines: ask for line 1 to 12345";
        for (line, lines, words) in [
            (0, 9, nine),
            (12, 9, nine),
            (7, 1, "it has 1 line: ask for line 1"),
            (0, 0, "it is empty"),
            (2, 0, "it is empty"),
            (u32::MAX, 12_345, many),
        ] {
            let expected = format!("f has no line {line}, {words}");
            assert_eq!(no_line("f", line, lines), expected);
        }
        for (line, lines, words) in [
            (10, 9, nine),
            (2, 1, "it has 1 line: ask for line 1"),
            (1, 0, "it is empty"),
        ] {
            let beside = "what the whole file lacks, rules 21 and 22, is reported there by `bolfrake check f`";
            let expected = format!("f has no line {line}, {words}; {beside}");
            assert_eq!(no_line("f", line, lines), expected);
        }
    }
}
