//! `bolfrake edit`: what the edit of one cell changes, and the edited copy where one is asked for.
//!
//! One cell of a row, from cell 2 on, is replaced by bytes other than tab, CR and LF. It is proved that then the breaks on no other line change, so the one
//! line alone is judged, before the edit and after it.

mod change;
mod fate;
mod print;

use std::ffi::OsString;
use std::os::unix::ffi::OsStringExt;

use crate::ask::question::Question;
use crate::files::new::{New, Written};
use crate::output::terminal;
use crate::output::write::Format;
use crate::words::failure::Failure;
use crate::words::{misused, Words};
use change::Change;
use print::Report;

struct Options {
    format: Format,
    /// Where the edited copy is written to.
    new: New,
}

/// FILE SECTION ROW COLUMN TEXT
pub fn run(words: Words) -> Result<u8, Failure> {
    let mut options = Options {
        format: Format::for_people(),
        new: New::by("-o"),
    };
    let plain = words.sort(|name, words| option(name, words, &mut options))?;
    options.new.refuse_force_alone("edit")?;
    let [file, section, row, column, text]: [OsString; 5] = match plain.try_into() {
        Ok(five) => five,
        Err(_) => {
            let words = "takes FILE SECTION ROW COLUMN TEXT, a TEXT with spaces or without a byte in quotation marks";
            return Err(misused("edit", words));
        }
    };
    let asked = Question::new("edit", [file, section, row, column])?;
    let change = Change::new(asked, text.into_vec())?;
    let written = options.new.write(change.edited())?;
    tell(&change, options.format, &written)?;
    Ok(u8::from(change.after().count > 0))
}

fn option(name: &str, words: &mut Words, options: &mut Options) -> Result<bool, Failure> {
    if name == "--format" {
        options.format = Format::named(words.choice(name, &Format::NAMES)?);
        return Ok(true);
    }
    if options.new.option(name, words)? {
        return Ok(true);
    }
    let hint = format!("takes no option `{name}`: where that is the TEXT, write -- before it");
    Err(words.misused(&hint))
}

/// Prints the report: on standard output, or on standard error where the edited copy has that.
fn tell(change: &Change, format: Format, written: &Written) -> Result<(), Failure> {
    let format = match (format, written) {
        (Format::Text { .. }, Written::Output) => Format::Text { coloured: false },
        (format, _) => format,
    };
    let report = Report::new(change, format, written)?;
    written.print(&report.out)?;
    for line in report.aside {
        terminal::say(&line);
    }
    Ok(())
}
