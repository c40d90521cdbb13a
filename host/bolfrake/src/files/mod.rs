//! Which files are meant, and their bytes.

pub mod finder;
pub mod judged;
pub mod mode_and_type;
pub mod new;
pub mod save;
pub mod tables;
mod unread;

use std::ffi::OsString;
use std::fs::{self, File};
use std::io::{self, Read};
use std::path::{Path, PathBuf};

use mztab::LIMIT;

use crate::output::show;
use crate::words::failure::Failure;
use crate::words::misused;
pub use unread::Unread;

/// A file to be read, or why a folder gave none.
pub enum Source {
    Input,
    File(PathBuf),
    Unfit(PathBuf, Unread),
}

/// The files that the words name, in their order; a folder stands for the files in it, sorted by name.
pub fn named(command: &str, words: Vec<OsString>) -> Result<Vec<Source>, Failure> {
    if words.is_empty() {
        return Err(misused(
            command,
            "needs a file, a folder, or - for standard input",
        ));
    }
    input_once(command, words.iter())?;
    let mut all = Vec::new();
    for word in words {
        match Source::new(word) {
            Source::File(path) if path.is_dir() => folder(path, &mut all),
            source => all.push(source),
        }
    }
    Ok(all)
}

/// Standard input is read to its end, so it can be named once.
pub fn input_once<'a>(
    command: &str,
    words: impl Iterator<Item = &'a OsString>,
) -> Result<(), Failure> {
    if words.filter(|word| *word == "-").count() > 1 {
        let words = "can read standard input once: name - once";
        return Err(misused(command, words));
    }
    Ok(())
}

/// The one file that a command is about: its name as it is printed, and its bytes.
pub fn one(word: OsString) -> Result<(String, Vec<u8>), Failure> {
    let source = Source::new(word);
    let name = source.name();
    match source.read() {
        Ok(file) => Ok((name, file)),
        Err(unread) => Err(Failure::Stopped(format!("{name} {unread}"))),
    }
}

fn folder(path: PathBuf, all: &mut Vec<Source>) {
    let before = all.len();
    below(&path, all);
    if all.len() == before {
        all.push(Source::Unfit(path, Unread::NoFile));
    }
}

/// The files of a folder and of the folders in it, by name. A folder that cannot be read stands among them.
fn below(path: &Path, all: &mut Vec<Source>) {
    match entries(path) {
        Err(error) => all.push(Source::Unfit(path.to_path_buf(), error.into())),
        Ok(entries) => {
            for (entry, is_folder) in entries {
                if is_folder {
                    below(&entry, all);
                } else if is_mztab(&entry) {
                    all.push(Source::File(entry));
                }
            }
        }
    }
}

/// What a folder holds, sorted, and which of it is a folder itself.
fn entries(path: &Path) -> io::Result<Vec<(PathBuf, bool)>> {
    let mut entries = Vec::new();
    for entry in fs::read_dir(path)? {
        let entry = entry?;
        entries.push((entry.path(), entry.file_type()?.is_dir()));
    }
    entries.sort();
    Ok(entries)
}

/// A file by that name, or a link to one. A link that leads nowhere is taken too, so that it is told of.
fn is_mztab(path: &Path) -> bool {
    let extension = path.extension().and_then(|extension| extension.to_str());
    let named = extension.map_or(false, |extension| extension.eq_ignore_ascii_case("mztab"));
    named && fs::metadata(path).map_or(true, |data| data.is_file())
}

impl Source {
    /// The one file that a word names.
    pub fn new(word: OsString) -> Source {
        match word {
            word if word == "-" => Source::Input,
            word => Source::File(PathBuf::from(word)),
        }
    }

    /// The name as it is printed.
    pub fn name(&self) -> String {
        match self {
            Source::Input => "-".to_string(),
            Source::File(path) | Source::Unfit(path, _) => show::path(path),
        }
    }

    /// The bytes, or why they cannot be judged.
    pub fn read(&self) -> Result<Vec<u8>, Unread> {
        let bytes = match self {
            Source::Input => read_all(io::stdin().lock(), 0)?,
            Source::File(path) if path.is_dir() => return Err(Unread::Folder),
            Source::File(path) => read_file(path)?,
            Source::Unfit(_, unread) => return Err(unread.clone()),
        };
        if bytes.len() > LIMIT {
            return Err(Unread::TooLong);
        }
        Ok(bytes)
    }
}

fn read_file(path: &Path) -> io::Result<Vec<u8>> {
    let file = File::open(path)?;
    let length = file.metadata()?.len();
    read_all(file, length)
}

/// At most one byte more than the limit, which is enough to tell; `length` is how many are likely.
fn read_all(from: impl Read, length: u64) -> io::Result<Vec<u8>> {
    let most = LIMIT as u64 + 1;
    let mut bytes = Vec::with_capacity(length.min(most) as usize + 1);
    from.take(most).read_to_end(&mut bytes)?;
    Ok(bytes)
}
