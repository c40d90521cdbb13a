//! Completes a drawn file: it gets a metadata line for each field that rule 22 misses in it, by the independent reading.

use independent::demands;
use independent::lines::{self, Code};
use independent::names::{self, Kind};
use samples::Draws;

/// The rule of the fields that a mode and a type ask for.
const DEMANDS: u32 = 22;

/// The file with the lines that it misses, each at some place among its metadata.
pub fn completed(file: &[u8], draws: &mut Draws) -> Vec<u8> {
    let mut all: Vec<Vec<u8>> = file
        .split_inclusive(|byte| *byte == b'\n')
        .map(<[u8]>::to_vec)
        .collect();
    for missing in independent::judge(file).unwrap_or_default() {
        if missing.rule == DEMANDS {
            let at = draws.below(metadata(&all).max(1));
            all.insert(at, line(missing.cell, draws));
        }
    }
    all.concat()
}

/// How many lines stand above the tables.
fn metadata(all: &[Vec<u8>]) -> usize {
    let is_of_a_table = |line: &Vec<u8>| {
        let first = lines::lines(line).next().unwrap_or_default();
        matches!(lines::code(first), Code::Header(_) | Code::Row(_))
    };
    all.iter().position(is_of_a_table).unwrap_or(all.len())
}

/// A line with the field that a cell of rule 22 stands for. Where any index will do, some is drawn.
fn line(cell: u32, draws: &mut Draws) -> Vec<u8> {
    let (field, index) = demands::at_cell(cell).expect("a cell of rule 22 stands for a field");
    let index = match index {
        0 => [1, 1, 2, draws.below(64) as u32 + 1][draws.below(4)],
        index => index,
    };
    let key = field.key.replace("[n]", &format!("[{index}]"));
    let value = match names::key(key.as_bytes()).map(|known| known.kind) {
        Some(Kind::Reference(family) | Kind::ReferenceList(family)) => {
            format!("{}[1]", family.word())
        }
        Some(Kind::Text) => "v".to_string(),
        _ => "[,,x,]".to_string(),
    };
    format!("MTD\t{key}\t{value}\n").into_bytes()
}
