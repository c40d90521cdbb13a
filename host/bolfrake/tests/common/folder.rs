//! Small files in folders of their own below target/, on which the tool is run.

use std::fs;
use std::io::Write;
use std::path::PathBuf;
use std::process::{Command, Stdio};

use crate::common::{self, Run};

/// Nine lines, with all that a Summary Identification file of proteins and small molecules needs.
pub const HEAD: &str =
    "MTD\tmzTab-version\t1.0.0\nMTD\tmzTab-mode\tSummary\nMTD\tmzTab-type\tIdentification\n\
    MTD\tdescription\tYeast check\nMTD\tms_run[1]-location\tfile:///a.mzML\n\
    MTD\tprotein_search_engine_score[1]\t[, , a score, ]\nMTD\tsmallmolecule_search_engine_score[1]\t[, , a score, ]\n\
    MTD\tfixed_mod[1]\t[, , none, ]\nMTD\tvariable_mod[1]\t[, , none, ]\n";

/// A folder of this test alone, empty.
pub struct Folder(pub PathBuf);

impl Folder {
    pub fn new(name: &str) -> Folder {
        let path = PathBuf::from(env!("CARGO_TARGET_TMPDIR")).join(name);
        let _ = fs::remove_dir_all(&path);
        fs::create_dir_all(&path).unwrap();
        Folder(path)
    }

    pub fn write(&self, name: &str, bytes: impl AsRef<[u8]>) -> &Folder {
        let path = self.0.join(name);
        fs::create_dir_all(path.parent().unwrap()).unwrap();
        fs::write(path, bytes).unwrap();
        self
    }

    /// The names in it, sorted: hidden ones too.
    pub fn names(&self) -> Vec<String> {
        let entries = fs::read_dir(&self.0).unwrap();
        let mut names: Vec<String> = entries
            .map(|entry| entry.unwrap().file_name().into_string().unwrap())
            .collect();
        names.sort();
        names
    }

    /// The tool, to be run in this folder.
    pub fn command(&self, words: &[&str]) -> Command {
        let mut command = common::tool();
        command
            .args(words)
            .current_dir(&self.0)
            .env_remove("NO_COLOR");
        command
    }

    pub fn run(&self, words: &[&str]) -> Run {
        Run::of(self.command(words).stdin(Stdio::null()).output().unwrap())
    }

    pub fn run_with_input(&self, words: &[&str], input: &[u8]) -> Run {
        let mut command = self.command(words);
        command
            .stdin(Stdio::piped())
            .stdout(Stdio::piped())
            .stderr(Stdio::piped());
        let mut child = command.spawn().unwrap();
        child.stdin.take().unwrap().write_all(input).unwrap();
        Run::of(child.wait_with_output().unwrap())
    }
}

/// That head, and more lines below it.
pub fn headed(rest: &str) -> String {
    format!("{HEAD}{rest}")
}

/// What the tool prints on a terminal, which `script` stands in for; nothing where there is no such program.
pub fn on_a_terminal(folder: &Folder, words: &str) -> Option<String> {
    let runner = std::env::var("BOLFRAKE_RUNNER").unwrap_or_default();
    let line = format!("{runner} '{}' {words}", env!("CARGO_BIN_EXE_bolfrake"));
    let mut command = Command::new("script");
    command
        .args(["-qec", &line, "/dev/null"])
        .current_dir(&folder.0);
    command
        .env("TERM", "xterm")
        .env_remove("NO_COLOR")
        .stdin(Stdio::null());
    let output = command.output().ok()?;
    Some(String::from_utf8(output.stdout).unwrap())
}
