//! Files that nobody sends and a judge must survive, of any size from 10,000 bytes on, with the count of their breaks.

/// A name, the file, and how many breaks it has.
pub struct Hostile {
    pub name: &'static str,
    pub file: Vec<u8>,
    pub breaks: u32,
}

type Make = fn(usize) -> (Vec<u8>, usize);

const ALL: [(&str, Make); 19] = [
    ("tabs alone", |n| (vec![b'\t'; n], 1 + ABSENT)),
    ("LF alone", |n| (vec![b'\n'; n], ABSENT)),
    ("one line", |n| (vec![b'x'; n], 1 + ABSENT)),
    ("one-byte lines", |n| lines(n, b"", b"x\n", 1)),
    ("lines of a control byte", |n| lines(n, b"", b"\x01\n", 2)),
    ("marks in a parameter", |n| {
        value(n, b"software[1]\t[,,", b"\"\"", b",]")
    }),
    ("one key repeated", |n| {
        less(1, lines(n, b"", b"MTD\ttitle\ta\n", 1))
    }),
    ("unknown keys", |n| {
        lines(n, b"", b"MTD\tsample[9]-\ta\n", 1)
    }),
    ("keys with a bad index", |n| {
        lines(n, b"", b"MTD\tsample[65]-species[1]\ta\n", 1)
    }),
    ("a long index", |n| {
        one_more(value(n, b"sample[", b"1", b"]\ta"))
    }),
    ("a reference list", |n| {
        one_more(value(
            n,
            b"study_variable[1]-assay_refs\t",
            b"assay[1], ",
            b"assay[2]",
        ))
    }),
    ("a parameter list", |n| {
        value(n, b"false_discovery_rate\t", b"[,,a,]|", b"[,,a,]")
    }),
    ("headers of 255 empty names", |n| {
        less(1, lines(n, b"", &line("PRH", |_| String::new()), 511))
    }),
    ("headers of 255 names of one stamp", |n| {
        less(1, lines(n, b"", &line("PRH", of_one_stamp), 257))
    }),
    ("headers of 255 names that part late", |n| {
        less(1, lines(n, b"", &line("PRH", parting_late), 257))
    }),
    ("headers of 255 bad indices", |n| {
        less(1, lines(n, b"", &line("PRH", with_bad_index), 257))
    }),
    ("one cell of digits", |n| {
        let table = "PRH\taccession\tdescription\tdatabase\tsearch_engine\tbest_search_engine_score[1]\nPRT\ta\tb\tc\tnull\t";
        let mut file = table.as_bytes().to_vec();
        file.resize(n, b'7');
        (file, ABSENT)
    }),
    ("rows of empty cells", |n| {
        lines(
            n,
            &line("PRH", required_first),
            &line("PRT", |_| String::new()),
            255,
        )
    }),
    ("rows without header", |n| lines(n, b"", b"PRT\n", 1)),
];

/// Files of one long index or more, or of one long list with bad ones.
const LONG_INDICES: [(&str, Make); 11] = [
    ("a key's long index with zeros", |n| {
        one_more(value(n, b"sample[", b"0", b"1]-description\ta"))
    }),
    ("a key's long index over 64", |n| {
        one_more(value(n, b"sample[", b"1", b"]-description\ta"))
    }),
    ("two long indices of a key", |n| {
        let first = first_index(n);
        one_more(value(n, &first, b"0", b"]\ta"))
    }),
    ("two long indices of an unknown key", |n| {
        let first = first_index(n);
        one_more(value(n, &first, b"0", b"]x\ta"))
    }),
    ("a reference's long index with zeros", |n| {
        one_more(value(n, b"assay[1]-sample_ref\tsample[", b"0", b"64]"))
    }),
    ("a reference's long index over 64", |n| {
        one_more(value(n, b"assay[1]-sample_ref\tsample[", b"9", b"]"))
    }),
    ("a list of bad references", |n| {
        one_more(value(n, ASSAY_REFS, b"assay[0],", b"assay[65]"))
    }),
    ("a list of references, the last bad", |n| {
        one_more(value(n, ASSAY_REFS, b"assay[1],", b"assay[65]"))
    }),
    ("a list of bad references, the last none", |n| {
        one_more(value(n, ASSAY_REFS, b"assay[0],", b"assay[65"))
    }),
    ("a column's long index with zeros", |n| {
        one_more(filled(n, SCORE, b"0", b"1]\nSML\tx\t1\ty\n"))
    }),
    ("a column's long index over 64", |n| {
        one_more(filled(n, SCORE, b"7", b"]\nSML\tx\t1\ty\n"))
    }),
];

const ASSAY_REFS: &[u8] = b"study_variable[1]-assay_refs\t";
const SCORE: &[u8] = b"SMH\tidentifier\tcharge\tbest_search_engine_score[";

/// The breaks of rule 21 in a file without metadata.
const ABSENT: usize = 5;

/// All hostile files, made one at a time.
pub fn hostile(size: usize) -> impl Iterator<Item = Hostile> {
    made(&ALL, size).chain(long_indices(size))
}

/// Those of long indices alone.
pub fn long_indices(size: usize) -> impl Iterator<Item = Hostile> {
    made(&LONG_INDICES, size)
}

fn made(all: &'static [(&'static str, Make)], size: usize) -> impl Iterator<Item = Hostile> {
    all.iter().map(move |(name, make)| {
        let (file, breaks) = make(size);
        Hostile {
            name,
            file,
            breaks: breaks as u32,
        }
    })
}

/// A first line, then one line over and over, each with so many breaks, then LF up to the size.
fn lines(size: usize, first: &[u8], each: &[u8], breaks: usize) -> (Vec<u8>, usize) {
    let count = (size - first.len()) / each.len();
    let mut file = first.to_vec();
    file.extend(each.repeat(count));
    file.resize(size, b'\n');
    (file, count * breaks + ABSENT)
}

/// One metadata line: a beginning, a middle as often as it fits, an end.
fn value(size: usize, beginning: &[u8], middle: &[u8], end: &[u8]) -> (Vec<u8>, usize) {
    filled(size, &[b"MTD\t", beginning].concat(), middle, end)
}

/// A key up to its second index: the first has half as many digits as the file has bytes.
fn first_index(size: usize) -> Vec<u8> {
    [b"software[", &*vec![b'6'; size / 2], b"]-setting["].concat()
}

/// A beginning, a middle as often as it fits, an end.
fn filled(size: usize, beginning: &[u8], middle: &[u8], end: &[u8]) -> (Vec<u8>, usize) {
    let mut file = beginning.to_vec();
    let count = (size - file.len() - end.len()) / middle.len();
    file.extend(middle.repeat(count));
    file.extend(end);
    file.resize(size, b'\n');
    (file, ABSENT)
}

fn one_more((file, breaks): (Vec<u8>, usize)) -> (Vec<u8>, usize) {
    (file, breaks + 1)
}

/// The first line breaks fewer rules than those after it.
fn less(by: usize, (file, breaks): (Vec<u8>, usize)) -> (Vec<u8>, usize) {
    (file, breaks - by)
}

/// A line of the code and 255 cells.
fn line(code: &str, cell: fn(usize) -> String) -> Vec<u8> {
    let mut text = code.to_string();
    for k in 0..255 {
        text += "\t";
        text += &cell(k);
    }
    text += "\n";
    text.into_bytes()
}

/// The required columns of a protein table, then optional ones.
fn required_first(k: usize) -> String {
    match ["accession", "description", "database", "search_engine"].get(k) {
        Some(name) => name.to_string(),
        None => format!("opt_{k:03}"),
    }
}

fn with_bad_index(k: usize) -> String {
    format!("best_search_engine_score[0{k}]")
}

/// Names with the same sum of bytes times powers of 33: `aB` and `b!` have the same.
fn of_one_stamp(k: usize) -> String {
    (0..8)
        .map(|b| if k >> b & 1 == 1 { "aB" } else { "b!" })
        .collect()
}

/// Names of one stamp that stay together with the first of them as long as they can: for k / 6 bytes, and in the next for up to five bits
/// of the byte and one more. The last three bytes give the stamp.
fn parting_late(k: usize) -> String {
    let mut name = match k.checked_sub(1) {
        None => "_".repeat(43),
        Some(k) => "_".repeat(k / 6) + ["`", "a", "c", "g", "o", "?"][k % 6],
    };
    for last in 0..93 * 93 * 93 {
        let kept = name.len();
        name.extend(
            [last / 93 / 93, last / 93 % 93, last % 93].map(|b| char::from(b'!' + b as u8)),
        );
        if stamp(&name) == 7 {
            break;
        }
        name.truncate(kept);
    }
    name
}

/// The place of a name's stamp.
fn stamp(name: &str) -> u32 {
    name.bytes()
        .fold(0, |h, b| (h * 33 + u32::from(b)) % 65_536)
        % 4_096
}
