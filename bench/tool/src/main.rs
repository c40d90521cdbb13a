//! Measures the library and the tool, in one run: `bench FOLDER TOOL`. bench/tool/run builds all and runs it.
//!
//! Judging and cells, on ordinary and hostile files of 1 and 16 MB, beside the independent reading, `wc -l`, and mawk counting the cells;
//! `bolfrake check` beside the library call and the read of the file; and a folder of 200 files of 1 MB on one core and on all.
//! Best of five each, of fewer where that takes over two seconds. Fails where an answer is wrong.

#![forbid(unsafe_code)]

mod cells;
mod judging;
mod tables;
mod times;
mod tool;

use std::env;
use std::path::PathBuf;
use std::process::ExitCode;

fn main() -> ExitCode {
    let words: Vec<PathBuf> = env::args_os().skip(1).map(PathBuf::from).collect();
    let (folder, tool) = match words.as_slice() {
        [folder, tool] => (folder, tool),
        _ => {
            eprintln!("bench: use bench/tool/run, which runs bench FOLDER TOOL");
            return ExitCode::from(2);
        }
    };
    let measured = judging::measure(folder)
        .and_then(|()| cells::measure(folder))
        .and_then(|()| tool::measure(folder, tool));
    match measured {
        Ok(()) => ExitCode::SUCCESS,
        Err(words) => {
            eprintln!("bench: {words}");
            ExitCode::FAILURE
        }
    }
}
