//! `bolfrake check` as a whole: beside the library call and the read of the file, and over a folder.

use std::env;
use std::fs::{self, File};
use std::io::Read;
use std::path::Path;
use std::process::Command;

use samples::ordinary;

use crate::tables::{heads, line, ms, ratio};
use crate::times::{best, quietly};

/// The tool may take so many times the read and the call.
const MOST: f64 = 1.3;
const FILES: usize = 200;

pub fn measure(folder: &Path, tool: &Path) -> Result<(), String> {
    println!("\n## bolfrake check, a file of 16 MB");
    heads(&[
        "file",
        "read, ms",
        "judge, ms",
        "check, ms",
        "check to read and judge",
    ]);
    let accepted = ordinary(mztab::LIMIT);
    one("ordinary rows, accepted", &accepted, folder, tool)?;
    let mut broken = accepted;
    for at in (1_000..broken.len() - 1).step_by(broken.len() / 1_000) {
        broken[at] = 1;
    }
    one("the same with some 1,000 breaks", &broken, folder, tool)?;
    scaling(folder, tool)
}

/// The tool's command, under the emulator that BOLFRAKE_RUNNER names, if any.
fn check(tool: &Path, cores: &[&str]) -> Command {
    let runner = env::var("BOLFRAKE_RUNNER").unwrap_or_default();
    let mut words: Vec<&std::ffi::OsStr> = cores
        .iter()
        .map(|word| std::ffi::OsStr::new(*word))
        .collect();
    if !runner.is_empty() {
        words.push(runner.as_ref());
    }
    words.push(tool.as_os_str());
    let mut command = Command::new(words[0]);
    command.args(&words[1..]).arg("check");
    command
}

fn one(name: &str, file: &[u8], folder: &Path, tool: &Path) -> Result<(), String> {
    let path = folder.join("checked.mztab");
    fs::write(&path, file)
        .map_err(|error| format!("{} cannot be written ({error})", path.display()))?;
    let read = best(|| {
        let mut bytes = Vec::with_capacity(file.len() + 1);
        let _ = File::open(&path).and_then(|mut file| file.read_to_end(&mut bytes));
    });
    let mut places = vec![0; 4 * mztab::FIRST_LIST];
    let mut count = 0;
    let judge = best(|| count = mztab::raw::judge(file, &mut places).count);
    let mut status = None;
    let check = best(|| status = quietly(check(tool, &[]).arg(&path)));
    if status != Some(i32::from(count > 0)) {
        return Err(format!("{name}: bolfrake check ends with {status:?}"));
    }
    let times = check / (read + judge);
    let mark = if times > MOST { ", over 1.3" } else { "" };
    line(&[
        name.to_string(),
        ms(Some(read)),
        ms(Some(judge)),
        ms(Some(check)),
        format!("{times:.2}{mark}"),
    ]);
    Ok(())
}

/// A folder of many files, on one core and on all.
fn scaling(folder: &Path, tool: &Path) -> Result<(), String> {
    let many = folder.join("many");
    fs::create_dir_all(&many)
        .map_err(|error| format!("{} cannot be made ({error})", many.display()))?;
    let file = ordinary(1 << 20);
    for k in 0..FILES {
        let path = many.join(format!("{k:03}.mztab"));
        fs::write(&path, &file)
            .map_err(|error| format!("{} cannot be written ({error})", path.display()))?;
    }
    let mut status = None;
    let all = best(|| status = quietly(check(tool, &[]).arg(&many)));
    let one =
        best(|| status = status.and(quietly(check(tool, &["taskset", "-c", "0"]).arg(&many))));
    let one = status.map(|_| one);
    let cores = std::thread::available_parallelism().map_or(1, |cores| cores.get());
    println!("\n## bolfrake check, a folder of {FILES} files of 1 MB");
    heads(&["cores", "one core, ms", "all cores, ms", "times as fast"]);
    line(&[
        cores.to_string(),
        ms(one),
        ms(Some(all)),
        one.map_or("-".to_string(), |one| ratio(one, Some(all))),
    ]);
    fs::remove_dir_all(&many)
        .map_err(|error| format!("{} cannot be removed ({error})", many.display()))
}
