//! What the tests of the tool share.

use std::process::{Command, Output};

/// The tool, to be run. BOLFRAKE_RUNNER names an emulator where the machine needs one.
pub fn tool() -> Command {
    let tool = env!("CARGO_BIN_EXE_bolfrake");
    match std::env::var("BOLFRAKE_RUNNER") {
        Ok(runner) if !runner.is_empty() => {
            let mut command = Command::new(runner);
            command.arg(tool);
            command
        }
        _ => Command::new(tool),
    }
}

/// What the tool answered.
pub struct Run {
    pub status: i32,
    pub out: String,
    pub error: String,
}

impl Run {
    pub fn of(output: Output) -> Run {
        Run {
            status: output.status.code().unwrap(),
            out: String::from_utf8(output.stdout).unwrap(),
            error: String::from_utf8(output.stderr).unwrap(),
        }
    }
}
