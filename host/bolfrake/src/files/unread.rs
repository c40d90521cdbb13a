//! Why a file, or a folder that was named, is not judged.

use std::fmt;
use std::io;

#[derive(Clone, Debug, PartialEq, Eq)]
pub enum Unread {
    /// It has more bytes than the library takes.
    TooLong,
    /// A folder stands where one file is meant.
    Folder,
    /// A folder, and no file in it is meant.
    NoFile,
    /// The system does not give it: what sort of error, and the system's words.
    Refused(io::ErrorKind, String),
}

impl From<io::Error> for Unread {
    fn from(error: io::Error) -> Unread {
        Unread::Refused(error.kind(), error.to_string())
    }
}

/// The words follow the file's name.
impl fmt::Display for Unread {
    fn fmt(&self, out: &mut fmt::Formatter) -> fmt::Result {
        match self {
            Unread::TooLong => out.write_str("is longer than 16,777,216 bytes, so it is not judged: write its sections, or parts of its rows, to files of their own"),
            Unread::Folder => out.write_str("is a folder: name a file in it"),
            Unread::NoFile => out.write_str("has no file whose name ends in .mztab: name the file itself"),
            Unread::Refused(kind, said) => write!(out, "cannot be read ({said}): {}", todo(*kind)),
        }
    }
}

fn todo(kind: io::ErrorKind) -> &'static str {
    match kind {
        io::ErrorKind::NotFound => "check the name, or the folder that you are in",
        io::ErrorKind::PermissionDenied => "ask for leave to read it",
        _ => "try again, or copy it to another disk",
    }
}
