//! `bolfrake mend`: a copy of a file with `null` in its empty cells, what was changed in it, and what is left for people to mend.
//!
//! The library makes the copy and judges it. It is proved that the copy's breaks are those of the file without the mended ones.

mod mending;
mod places;
mod print;

use std::ffi::OsString;
use std::io::{self, BufWriter, Write};

use crate::files::new::{New, Written};
use crate::output::write::Format;
use crate::words::failure::Failure;
use crate::words::{self, misused, Words};
use mending::Mending;
use print::Report;

struct Options {
    format: Format,
    /// Where the mended copy is written to.
    new: New,
    /// Whether nothing is to be written.
    dry_run: bool,
    /// How many changes, and how many breaks, are printed at most.
    most: Option<usize>,
}

/// FILE
pub fn run(words: Words) -> Result<u8, Failure> {
    let mut options = Options {
        format: Format::for_people(),
        new: New::by("-o"),
        dry_run: false,
        most: None,
    };
    let plain = words.sort(|name, words| option(name, words, &mut options))?;
    let [file]: [OsString; 1] = match plain.try_into() {
        Ok(one) => one,
        Err(_) => return Err(misused("mend", "takes one file, or - for standard input")),
    };
    options.new.refuse_force_alone("mend")?;
    if options.new.name.is_none() && !options.dry_run {
        let words = "needs -o NEW, the file to write the mended copy to, or --dry-run, which prints the same and writes nothing";
        return Err(misused("mend", words));
    }
    let mending = Mending::new(file, print::most_breaks(options.format, options.most))?;
    let written = match options.dry_run {
        true => Written::Nowhere,
        false => options.new.write(&mending.copy)?,
    };
    tell(&Report::new(
        &mending,
        options.format,
        options.most,
        &written,
    ))?;
    Ok(u8::from(mending.left.count > 0))
}

fn option(name: &str, words: &mut Words, options: &mut Options) -> Result<bool, Failure> {
    match name {
        "--format" => options.format = Format::named(words.choice(name, &Format::NAMES)?),
        "--dry-run" => options.dry_run = true,
        "--max" => {
            let most = words::number("mend", "N of --max", &words.value(name)?)?;
            options.most = Some(most as usize)
        }
        _ => return options.new.option(name, words),
    }
    Ok(true)
}

/// Prints the report: the answer on standard output, or on standard error where the mended copy has that, and what stands beside it.
fn tell(report: &Report) -> Result<(), Failure> {
    // As all that is said on standard error: where nobody reads it, nothing is lost.
    let mut error = BufWriter::new(io::stderr().lock());
    match report.written {
        Written::Output => {
            let _ = report.answer(&mut error);
        }
        _ => {
            let mut output = BufWriter::new(io::stdout().lock());
            report.answer(&mut output)?;
            output.flush()?;
        }
    }
    let _ = report.aside(&mut error).and_then(|()| error.flush());
    Ok(())
}
