//! Tallies with their sums, and records with their tallies, written by hand.

use crate::tally::Totals;

/// Two tallies, and their sum or the number of the refusal.
pub struct Sum {
    pub a: Totals,
    pub b: Totals,
    pub sum: Result<Totals, u32>,
}

/// Bytes, and the tally that they hold or the number of the refusal.
pub struct Record {
    pub label: &'static str,
    pub bytes: Vec<u8>,
    pub tally: Result<Totals, u32>,
}

/// The most that 64 bits hold.
const MOST: u64 = u64::MAX;

const ONES: Totals = [1, 1, 1, 1, 1, 1, 1, 1];
const RISING: Totals = [1, 2, 3, 4, 5, 6, 7, 8];
const TENS: Totals = [10, 20, 30, 40, 50, 60, 70, 80];
const ZEROS: Totals = [0; 8];

/// "two tallies can be added"; "13 a sum over 64 bits"
pub fn sums() -> Vec<Sum> {
    let mut all = Vec::new();
    let mut of = |a: Totals, b: Totals, sum: Result<Totals, u32>| all.push(Sum { a, b, sum });
    of(ZEROS, ZEROS, Ok(ZEROS));
    of(RISING, ZEROS, Ok(RISING));
    of(ZEROS, RISING, Ok(RISING));
    of(RISING, TENS, Ok([11, 22, 33, 44, 55, 66, 77, 88]));
    of(TENS, TENS, Ok([20, 40, 60, 80, 100, 120, 140, 160]));
    // A carry out of 32 bits stays in its total.
    of([0xffff_ffff; 8], ONES, Ok([0x1_0000_0000; 8]));
    of([0xff; 8], ONES, Ok([0x100; 8]));
    of([MOST; 8], ZEROS, Ok([MOST; 8]));
    of([MOST - 1; 8], ONES, Ok([MOST; 8]));
    of([MOST; 8], ONES, Err(13));
    of([MOST; 8], [MOST; 8], Err(13));
    of([1 << 63; 8], [1 << 63; 8], Err(13));
    of([(1 << 63) - 1; 8], [1 << 63; 8], Ok([MOST; 8]));
    for at in 0..8 {
        // One total passes 64 bits, or all but reaches them; the others are small.
        let (mut most, mut one, mut other) = (ZEROS, ZEROS, RISING);
        most[at] = MOST;
        one[at] = 1;
        other[at] = 0;
        of(most, one, Err(13));
        of(one, most, Err(13));
        let mut sum = other;
        sum[at] = MOST;
        of(most, other, Ok(sum));
        of(other, most, Ok(sum));
        // All others are at their most.
        let mut others = [MOST; 8];
        others[at] = 5;
        sum = [MOST; 8];
        sum[at] = 6;
        of(others, one, Ok(sum));
        of(others, ONES, Err(13));
    }
    all
}

/// A tally of which no two bytes are the same, and the bytes of its totals: the
/// lowest of each first.
const TALLY: Totals = [
    0xf706_f504_f302_f100,
    0xe716_e514_e312_e110,
    0xd726_d524_d322_d120,
    0xc736_c534_c332_c130,
    0xb746_b544_b342_b140,
    0xa756_a554_a352_a150,
    0x9766_9564_9362_9160,
    0x8776_8574_8372_8170,
];
#[rustfmt::skip]
const BYTES: [u8; 64] = [
    0x00, 0xf1, 0x02, 0xf3, 0x04, 0xf5, 0x06, 0xf7,
    0x10, 0xe1, 0x12, 0xe3, 0x14, 0xe5, 0x16, 0xe7,
    0x20, 0xd1, 0x22, 0xd3, 0x24, 0xd5, 0x26, 0xd7,
    0x30, 0xc1, 0x32, 0xc3, 0x34, 0xc5, 0x36, 0xc7,
    0x40, 0xb1, 0x42, 0xb3, 0x44, 0xb5, 0x46, 0xb7,
    0x50, 0xa1, 0x52, 0xa3, 0x54, 0xa5, 0x56, 0xa7,
    0x60, 0x91, 0x62, 0x93, 0x64, 0x95, 0x66, 0x97,
    0x70, 0x81, 0x72, 0x83, 0x74, 0x85, 0x76, 0x87,
];

/// "four-byte length of the rest, two-byte kind 1, [...] all little-endian"
const FRONT: [u8; 6] = [66, 0, 0, 0, 1, 0];

pub fn records() -> Vec<Record> {
    let mut all = Vec::new();
    let mut of = |label: &'static str, bytes: &[&[u8]], tally: Result<Totals, u32>| {
        let bytes = bytes.concat();
        all.push(Record {
            label,
            bytes,
            tally,
        })
    };
    of("every byte another", &[&FRONT, &BYTES], Ok(TALLY));
    of("zeros", &[&FRONT, &[0; 64]], Ok(ZEROS));
    of("the most", &[&FRONT, &[255; 64]], Ok([MOST; 8]));
    let one: &[u8] = &[1, 0, 0, 0, 0, 0, 0, 0];
    of("ones", &[&FRONT, &one.repeat(8)], Ok(ONES));
    let first = [1, 0, 0, 0, 0, 0, 0, 0];
    of("one PSM", &[&FRONT, one, &[0; 56]], Ok(first));
    let last = [0, 0, 0, 0, 0, 0, 0, 1];
    of("one missing cell", &[&FRONT, &[0; 56], one], Ok(last));
    of("nothing", &[], Err(14));
    of("the front alone", &[&FRONT], Err(14));
    of("the totals alone", &[&BYTES], Err(14));
    of("a byte short", &[&FRONT, &BYTES[..63]], Err(14));
    of("a total short", &[&FRONT, &BYTES[..56]], Err(14));
    of("a byte too many", &[&FRONT, &BYTES, &[0]], Err(14));
    of("a byte in front", &[&[0], &FRONT, &BYTES], Err(14));
    of("two records", &[&FRONT, &BYTES, &FRONT, &BYTES], Err(14));
    for (label, front) in FRONTS {
        of(label, &[front, &BYTES], Err(14));
    }
    // The length says what is there, and that is not 66.
    let short = [65, 0, 0, 0, 1, 0];
    of(
        "a length of 65, and so many",
        &[&short, &BYTES[..63]],
        Err(14),
    );
    let long = [67, 0, 0, 0, 1, 0];
    of(
        "a length of 67, and so many",
        &[&long, &BYTES, &[0]],
        Err(14),
    );
    all
}

/// Fronts of 70 bytes that are no record's.
const FRONTS: [(&str, &[u8]); 16] = [
    ("a length of 70", &[70, 0, 0, 0, 1, 0]),
    ("a length of 64", &[64, 0, 0, 0, 1, 0]),
    ("a length of 65", &[65, 0, 0, 0, 1, 0]),
    ("a length of 67", &[67, 0, 0, 0, 1, 0]),
    ("a length of 0", &[0, 0, 0, 0, 1, 0]),
    ("a length of 322", &[66, 1, 0, 0, 1, 0]),
    ("a length with its third byte", &[66, 0, 1, 0, 1, 0]),
    ("a length with its highest bit", &[66, 0, 0, 128, 1, 0]),
    ("the length's highest byte first", &[0, 0, 0, 66, 1, 0]),
    ("the kind's highest byte first", &[66, 0, 0, 0, 0, 1]),
    ("both with the highest byte first", &[0, 0, 0, 66, 0, 1]),
    ("kind 0", &[66, 0, 0, 0, 0, 0]),
    ("kind 2", &[66, 0, 0, 0, 2, 0]),
    ("kind 257", &[66, 0, 0, 0, 1, 1]),
    ("kind and length changed round", &[1, 0, 66, 0, 0, 0]),
    ("the number as a letter", b"B\0\0\x001\0"),
];
