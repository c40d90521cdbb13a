//! Hostile files of 16 MB, each on a thread with a stack of 2 MB: the count of breaks is right and no call needs more. Under an emulator, which is slow,
//! they are of 1 MB.

use mztab::{cell, count, judge, judge_line, mend, reading, rows, tally, weights, Refusal, LIMIT};
use samples::{hostile, Hostile};

const STACK: usize = 2 * 1024 * 1024;

/// The bytes of a file. `host/machine` names the emulator where there is one.
fn bytes() -> usize {
    match std::env::var("BOLFRAKE_RUNNER") {
        Ok(runner) if !runner.is_empty() => LIMIT / 16,
        _ => LIMIT,
    }
}

/// Every call once, as a host with small threads would.
fn every_call(sample: &Hostile) {
    let file = &sample.file;
    let judged = judge(file, 1_000).expect(sample.name);
    assert_eq!(judged.count, sample.breaks, "{}", sample.name);
    assert_eq!(
        judged.breaks().len(),
        1_000.min(sample.breaks as usize),
        "{}",
        sample.name
    );
    // The key that comes again stands on line 1, and so does the header; the name is that of cell 2.
    for at in judged.breaks() {
        let first = match at.rule {
            6 | 9 => 1,
            13 => 2,
            _ => 0,
        };
        assert_eq!(at.first, first, "{}: {at:?}", sample.name);
    }
    let shown = cell(file, 1, 1, 1).map(|_| ());
    assert_eq!(shown, reading(file, 1, 1, 1).map(|_| ()), "{}", sample.name);
    assert_eq!(
        cell(file, 4, u32::MAX, u32::MAX),
        Err(Refusal::NoRow),
        "{}",
        sample.name
    );
    let counted = rows(file, 1).expect(sample.name);
    let last = cell(file, 1, counted, 0) != Err(Refusal::NoRow);
    assert!(counted == 0 || last, "{}", sample.name);
    let after = cell(file, 1, counted + 1, 0);
    assert_eq!(after, Err(Refusal::NoRow), "{}", sample.name);
    let accepted = sample.breaks == 0;
    let expected = Some(Refusal::NotAccepted).filter(|_| !accepted);
    assert_eq!(weights(file).err(), expected, "{}", sample.name);
    let tallied = tally(file);
    assert_eq!(tallied.err(), expected, "{}", sample.name);
    if let Ok(tally) = tallied {
        assert_eq!(tally.rows[0], u64::from(counted), "{}", sample.name);
    }
    lines(sample);
    mended(sample);
}

/// The last line and one in the middle, each judged by itself, and the line after the last, which is none.
fn lines(sample: &Hostile) {
    let (file, name) = (&sample.file, sample.name);
    let ends = file.iter().filter(|byte| **byte == b'\n').count() as u32;
    let last = match file.last() {
        Some(b'\n') => ends,
        _ => ends + 1,
    };
    for line in [last, (last + 1) / 2] {
        let judged = judge_line(file, line, 1_000).expect(name);
        assert!(judged.count <= sample.breaks, "{name}");
        let listed = judged.breaks().len();
        assert_eq!(listed, 1_000.min(judged.count as usize), "{name}");
        assert!(judged.breaks().all(|at| at.line == line), "{name}");
    }
    // No line has as many breaks as that list, so it holds all of line 1.
    let listed = judge(file, 1_000).expect(name);
    let first = judge_line(file, 1, 1_000).expect(name);
    assert!(
        first.breaks().eq(listed.breaks().filter(|at| at.line == 1)),
        "{name}"
    );
    let after = judge_line(file, last + 1, 1_000);
    assert_eq!(after, Err(Refusal::NoRow), "{name}");
}

/// The name of the one file that has cells to mend.
const EMPTY_CELLS: &str = "rows of empty cells";

/// The mended copy: it has fewer breaks, or it is the file itself, or it has no room within the limit.
fn mended(sample: &Hostile) {
    let (file, name) = (&sample.file, sample.name);
    let mended = match mend(file) {
        Ok(mended) => mended,
        Err(refusal) => {
            assert_eq!((refusal, name), (Refusal::NoRoom, EMPTY_CELLS));
            assert!(file.len() > LIMIT / 5);
            return;
        }
    };
    let changed = mended.changes.len();
    assert_eq!(changed > 0, name == EMPTY_CELLS, "{name}");
    assert_eq!(mended.copy.len(), file.len() + 4 * changed, "{name}");
    assert!(changed > 0 || mended.copy == *file, "{name}");
    let left = count(&mended.copy).expect(name);
    assert_eq!(left, sample.breaks - changed as u32, "{name}");
}

/// Does the work on a thread with a small stack.
fn on_a_small_stack(sample: Hostile, work: fn(&Hostile)) {
    let thread = std::thread::Builder::new().stack_size(STACK);
    let name = sample.name;
    let ended = thread
        .spawn(move || work(&sample))
        .expect("a thread")
        .join();
    assert!(ended.is_ok(), "{name}");
}

#[test]
fn on_a_stack_of_two_megabytes() {
    for sample in hostile(bytes()) {
        assert_eq!(sample.file.len(), bytes(), "{}", sample.name);
        on_a_small_stack(sample, every_call);
    }
}

/// Files of a fifth of the length, whose copies have room whatever is mended.
#[test]
fn mended_on_a_stack_of_two_megabytes() {
    for sample in hostile(bytes() / 5) {
        on_a_small_stack(sample, mended);
    }
}
