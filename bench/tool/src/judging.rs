//! The judging call.

use std::fs;
use std::path::Path;

use samples::{hostile, ordinary};

use crate::tables::{beside, heads};
use crate::times::{best, mawk, wc};

pub const SIZES: [usize; 2] = [1 << 20, mztab::LIMIT];
/// As many breaks as the tool's first list.
const LIST: usize = mztab::FIRST_LIST;

pub fn measure(folder: &Path) -> Result<(), String> {
    println!("\n## mztab_judge, with a list of {LIST} breaks");
    heads(&[
        "file",
        "size",
        "judge, ms",
        "ns a byte",
        "independent, ms",
        "to it",
        "`wc -l`, ms",
        "to it",
        "`mawk`, ms",
        "to it",
    ]);
    for size in SIZES {
        one("ordinary rows", &ordinary(size), 0, folder)?;
        for sample in hostile(size) {
            one(sample.name, &sample.file, sample.breaks, folder)?;
        }
    }
    Ok(())
}

fn one(name: &str, file: &[u8], breaks: u32, folder: &Path) -> Result<(), String> {
    let path = folder.join("judged.mztab");
    fs::write(&path, file)
        .map_err(|error| format!("{} cannot be written ({error})", path.display()))?;
    let mut places = vec![0; 4 * LIST];
    let mut count = 0;
    let judge = best(|| count = mztab::raw::judge(file, &mut places).count);
    let mut expected = 0;
    let independent = best(|| expected = independent::judge(file).map_or(0, |breaks| breaks.len()));
    if count != breaks || count as usize != expected {
        return Err(format!(
            "{name}: {count} breaks, not {breaks}; the independent reading has {expected}"
        ));
    }
    let a_byte = format!("{:.2}", judge * 1e6 / file.len() as f64);
    let others = [Some(independent), wc(&path), mawk(&path)];
    beside(name, file.len(), judge, &[a_byte], &others);
    Ok(())
}
