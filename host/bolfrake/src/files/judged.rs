//! A file and its breaks, with care for memory.

use std::io;

use mztab::{judge_line, judge_once, Judged, Refusal, FIRST_LIST};

use crate::files::{Source, Unread};
use crate::output::in_order::{in_order, Out};
use crate::output::show;

/// A list of more breaks than this is made for one file at a time: 16 MB.
const MANY: usize = 1_000_000;

/// The file's bytes, and its first `most` breaks; or why it cannot be judged.
///
/// The first list is short, and few files have more breaks: only they are judged again.
pub fn judged(source: &Source, most: usize, out: &Out) -> Result<(Vec<u8>, Judged), Unread> {
    let file = source.read()?;
    let too_long = |_| Unread::TooLong;
    let judged = judge_once(&file, most.min(FIRST_LIST)).map_err(too_long)?;
    let longer = judged.wanted(most);
    if longer == 0 {
        return Ok((file, judged));
    }
    if longer > MANY {
        out.wait_for_turn();
    }
    let judged = judge_once(&file, longer).map_err(too_long)?;
    Ok((file, judged))
}

/// That a file of this name is not accepted, what follows from that, and what shows its breaks. The words follow the name.
pub fn unaccepted(name: &str, breaks: u32, so: &str) -> String {
    let counted = show::counted(u64::from(breaks), "break");
    let them = if breaks == 1 { "it" } else { "them" };
    format!("is not accepted, it has {counted}, so {so}: `bolfrake check {name}` shows {them}")
}

/// What the call for one line answers, of each of a few files at once: the first `most` breaks of that line. As every judging call on threads, whose stack is
/// known: the main one's may be too small.
pub fn judged_line<const N: usize>(
    files: [&[u8]; N],
    line: u32,
    most: usize,
) -> io::Result<[Result<Judged, Refusal>; N]> {
    let answers = in_order(N, &mut io::sink(), |k, _| judge_line(files[k], line, most))?;
    Ok(answers.try_into().expect("an answer for each file"))
}
