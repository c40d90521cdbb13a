//! The cell call: the last cell of a file, and a row that is not there.

use std::fs;
use std::path::Path;

use samples::ordinary;

use crate::judging::SIZES;
use crate::tables::{beside, heads};
use crate::times::{best, mawk, wc};

/// A row that no file has.
const FAR: u32 = u32::MAX;

const HEADS: [&str; 9] = [
    "file",
    "size",
    "cell, ms",
    "independent, ms",
    "to it",
    "`wc -l`, ms",
    "to it",
    "`mawk`, ms",
    "to it",
];

pub fn measure(folder: &Path) -> Result<(), String> {
    println!("\n## mztab_cell");
    heads(&HEADS);
    for size in SIZES {
        let file = ordinary(size);
        let rows = file
            .split(|byte| *byte == b'\n')
            .filter(|line| line.starts_with(b"PRT\t"))
            .count() as u32;
        one("last row, last column", &file, (1, rows, 8), folder)?;
        one("no such row", &file, (1, FAR, 1), folder)?;
        one("LF alone", &vec![b'\n'; size], (1, FAR, 1), folder)?;
        let mut tabs = b"PRT".to_vec();
        tabs.resize(size, b'\t');
        one(
            "one row of tabs, last column",
            &tabs,
            (1, 1, size as u32 - 3),
            folder,
        )?;
        one(
            "one-byte lines",
            &b"x\n".repeat(size / 2),
            (1, FAR, 1),
            folder,
        )?;
        one(
            "rows without a column",
            &b"PRT\n".repeat(size / 4),
            (1, size as u32 / 4, 1),
            folder,
        )?;
    }
    Ok(())
}

fn one(
    name: &str,
    file: &[u8],
    (section, row, column): (u32, u32, u32),
    folder: &Path,
) -> Result<(), String> {
    let path = folder.join("asked.mztab");
    fs::write(&path, file)
        .map_err(|error| format!("{} cannot be written ({error})", path.display()))?;
    let mut shown = Ok(&[] as &[u8]);
    let cell = best(|| {
        shown = mztab::cell(file, section, row, column).map_err(|refusal| refusal.number())
    });
    let mut expected = Ok(&[] as &[u8]);
    let independent = best(|| expected = independent::cell(file, section, row, column));
    if shown != expected {
        return Err(format!(
            "{name}: the library and the independent reading differ"
        ));
    }
    let others = [Some(independent), wc(&path), mawk(&path)];
    beside(name, file.len(), cell, &[], &others);
    Ok(())
}
