//! The file NEW that a copy or a record is written to: which that is, by an option and `--force`, and what is said of it.

use std::ffi::OsString;
use std::io::{self, Write};
use std::path::Path;

use crate::files::save::save;
use crate::output::show;
use crate::output::write::json;
use crate::words::failure::Failure;
use crate::words::{misused, Words};

/// What the options say of it.
pub struct New {
    /// The option that names it.
    option: &'static str,
    pub name: Option<OsString>,
    /// Whether a file that stands there is written over.
    force: bool,
}

/// Where it was written to.
pub enum Written {
    Nowhere,
    Output,
    /// A file, by its name as it is printed.
    File(String),
}

impl New {
    /// The file that this option is to name.
    pub fn by(option: &'static str) -> New {
        New {
            option,
            name: None,
            force: false,
        }
    }

    /// Takes an option, if it is one of the two.
    pub fn option(&mut self, name: &str, words: &mut Words) -> Result<bool, Failure> {
        match name {
            "--force" => self.force = true,
            name if name == self.option => self.name = Some(words.value(name)?),
            _ => return Ok(false),
        }
        Ok(true)
    }

    /// Nothing can be written over where nothing is written.
    pub fn refuse_force_alone(&self, command: &str) -> Result<(), Failure> {
        if self.force && self.name.is_none() {
            let words = format!("takes --force beside {} NEW alone", self.option);
            return Err(misused(command, &words));
        }
        Ok(())
    }

    /// Writes the bytes where that is asked for.
    pub fn write(&self, bytes: &[u8]) -> Result<Written, Failure> {
        match &self.name {
            None => Ok(Written::Nowhere),
            Some(new) if new == "-" => {
                let mut output = io::stdout().lock();
                output.write_all(bytes)?;
                output.flush()?;
                Ok(Written::Output)
            }
            Some(new) => {
                let path = Path::new(new);
                save(path, bytes, self.force)?;
                Ok(Written::File(show::path(path)))
            }
        }
    }
}

impl Written {
    /// That it was written, and how much; nothing where it was not. `what` is what the bytes are.
    pub fn line(&self, what: &str, bytes: &[u8]) -> Option<String> {
        let bytes = show::counted(bytes.len() as u64, "byte");
        match self {
            Written::Nowhere => None,
            Written::Output => Some(format!(
                "the {what} was written to standard output: {bytes}"
            )),
            Written::File(name) => Some(format!("{name} was written: {bytes}")),
        }
    }

    /// Prints a report: on standard output, or on standard error where that has what was written.
    pub fn print(&self, report: &[u8]) -> Result<(), Failure> {
        match self {
            Written::Output => {
                // As all that is said there: where nobody reads it, nothing is lost.
                let _ = io::stderr().write_all(report);
            }
            _ => io::stdout().write_all(report)?,
        }
        Ok(())
    }

    /// The name for programs.
    pub fn json(&self) -> String {
        match self {
            Written::Nowhere => "null".to_string(),
            Written::Output => json("-"),
            Written::File(name) => json(name),
        }
    }
}
