//! Files in which keys, headers and names come again: on every line, by turns, far apart, and beside what is near to them.

use independent::names;

use crate::by_hand::line;

/// So many bytes, or a few less, have the long files and the short ones. The long ones have more lines than 16 bits can count.
const LONG: usize = 1 << 20;
const SHORT: usize = 100_000;

const TITLE: &[u8] = b"MTD\ttitle\ta\n";
const TITLE_ALONE: &[u8] = b"MTD\ttitle\n";
const URI: &[u8] = b"MTD\turi[1]\ta\n";
const CODES: [&[u8]; 4] = [b"PRH\n", b"PEH\n", b"PSH\n", b"SMH\n"];

type File = (&'static str, Vec<u8>);

/// A label and a file each.
pub fn files() -> Vec<File> {
    let mut all = keys();
    all.extend(keys_near_others());
    all.extend(every_name());
    all.extend(headers());
    all.extend(headers_near_others());
    all.extend(columns());
    all.extend(unknown_columns());
    all
}

/// The lines by turns, up to so many bytes.
fn by_turns(lines: &[&[u8]], size: usize) -> Vec<u8> {
    let once = lines.concat();
    once.repeat(size / once.len())
}

/// One line above so many bytes of empty lines, and below them.
fn above_and_below(line: &[u8], size: usize) -> Vec<u8> {
    [line, &vec![b'\n'; size], line].concat()
}

fn keys() -> Vec<File> {
    vec![
        ("one key on every line", by_turns(&[TITLE], LONG)),
        ("two keys by turns", by_turns(&[TITLE, URI], LONG)),
        (
            "a key and empty lines by turns",
            by_turns(&[b"\n", TITLE, b"\r\n"], LONG),
        ),
        (
            "a key on the first line and the last",
            above_and_below(TITLE, LONG),
        ),
        (
            "a key above many of another and below them",
            [TITLE, &URI.repeat(70_000), TITLE].concat(),
        ),
    ]
}

fn keys_near_others() -> Vec<File> {
    let unknown: &[u8] = b"MTD\tfoo\ta\n";
    let bad: &[u8] = b"MTD\turi[0]\ta\n";
    let free: &[u8] = b"MTD\tcolunit-psm\ta\n";
    vec![
        (
            "a key and a line of two cells by turns",
            by_turns(&[TITLE_ALONE, TITLE], LONG),
        ),
        (
            "a key and colunit by turns",
            by_turns(&[free, TITLE, free], SHORT),
        ),
        (
            "known keys, unknown ones and bad indices by turns",
            by_turns(&[unknown, bad, URI], SHORT),
        ),
        (
            "a key below a header and a row",
            by_turns(&[b"SMH\n", TITLE, b"SML\n"], SHORT),
        ),
    ]
}

fn every_name() -> Vec<File> {
    vec![
        ("every key three times", every_key([1, 1, 1])),
        ("every key with other indices", every_key([1, 64, 1])),
        ("every index three times", every_index(3)),
    ]
}

/// Every key with each of the indices, each time in another order; above them a line of two cells for each.
fn every_key(indices: [u32; 3]) -> Vec<u8> {
    let mut file = Vec::new();
    for (pattern, _) in names::keys() {
        let key = pattern.replace("[n]", "[1]");
        line(&mut file, &[b"MTD", key.as_bytes()]);
    }
    for (time, index) in indices.iter().enumerate() {
        let mut keys: Vec<String> = names::keys()
            .map(|(pattern, _)| pattern.replace("[n]", &format!("[{index}]")))
            .collect();
        keys.rotate_left(7 * time);
        if time == 1 {
            keys.reverse();
        }
        for key in keys {
            line(&mut file, &[b"MTD", key.as_bytes(), b"[,,a,]"]);
        }
    }
    file
}

/// Keys with every index, and with every two, so many times.
fn every_index(times: usize) -> Vec<u8> {
    let mut file = Vec::new();
    for _ in 0..times {
        for i in 1..=64 {
            let key = format!("uri[{i}]");
            line(&mut file, &[b"MTD", key.as_bytes(), b"a"]);
            for j in 1..=64 {
                let key = format!("software[{i}]-setting[{j}]");
                line(&mut file, &[b"MTD", key.as_bytes(), b"a"]);
            }
        }
    }
    file
}

fn headers() -> Vec<File> {
    let [protein, peptide, psm, molecule] = CODES;
    vec![
        ("one header on every line", by_turns(&[molecule], LONG)),
        ("four headers by turns", by_turns(&CODES, SHORT)),
        (
            "four headers by turns, the last first",
            by_turns(&[molecule, psm, peptide, protein], SHORT),
        ),
        (
            "a header on the first line and the last",
            above_and_below(peptide, LONG),
        ),
    ]
}

fn headers_near_others() -> Vec<File> {
    let over = [b"SMH" as &[u8], &[b'\t'; 256], b"\n"].concat();
    let names = header("SMH", |k| format!("opt_{}", k % 128));
    vec![
        (
            "headers and rows by turns",
            by_turns(&[b"SML\n", b"SMH\n", b"\n", b"PRT\n"], SHORT),
        ),
        (
            "headers and codes near theirs by turns",
            by_turns(&[b"SMh\n", b"COM\tSMH\n", b"SMH\r\n", b"PRH\tSMH\n"], SHORT),
        ),
        (
            "headers over 256 cells and of 256 by turns",
            by_turns(&[&over, &names, b"COM\n"], SHORT),
        ),
    ]
}

/// A header of 255 names.
fn header(code: &str, name: impl Fn(usize) -> String) -> Vec<u8> {
    let names: String = (0..255).map(|k| format!("\t{}", name(k))).collect();
    format!("{code}{names}\n").into_bytes()
}

fn columns() -> Vec<File> {
    let one = header("PRH", |_| "opt_a".to_string());
    let two = header("PEH", |k| format!("opt_{}", k % 2));
    let far = header("PSH", |k| format!("opt_{}", k % 254));
    let halves = header("SMH", |k| format!("opt_{}", k % 128));
    let back = header("SMH", |k| format!("opt_{}", k.min(254 - k)));
    vec![
        ("headers of 255 equal names", by_turns(&[&one], LONG)),
        (
            "headers of 255 names, two by turns",
            by_turns(&[&two, &one], SHORT),
        ),
        (
            "headers of 255 names, the last as the first",
            by_turns(&[&far], SHORT),
        ),
        (
            "headers of 255 names, one half as the other",
            by_turns(&[&halves, &far], SHORT),
        ),
        (
            "headers of 255 names there and back",
            by_turns(&[&back], SHORT),
        ),
    ]
}

fn unknown_columns() -> Vec<File> {
    let few = ["", "foo", "sequence", "opt_"];
    // Their bytes times powers of 33 have one sum.
    let sums = ["opt_aBaB", "opt_aBb!", "opt_b!aB", "opt_b!b!"];
    let empty = header("PEH", |k| few[k % 4].to_string());
    let bad = header("PRH", |k| format!("best_search_engine_score[{}]", k % 80));
    let of_one_sum = header("PRH", |k| sums[k % 4].to_string());
    vec![
        (
            "headers of 255 names, empty, unknown and known",
            by_turns(&[&empty], SHORT),
        ),
        (
            "headers of 255 names with good and bad indices",
            by_turns(&[&bad], SHORT),
        ),
        (
            "headers of 255 names of one sum",
            by_turns(&[&of_one_sum], SHORT),
        ),
    ]
}
