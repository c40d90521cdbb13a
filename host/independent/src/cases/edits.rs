//! Edits of one cell with the breaks of its line before and after, written by
//! hand.

use super::lines::{wide, EH, ER, MH, MR, PH, PR, QUANTIFIED};
use super::tabs;
use crate::edits::NoEdit;
use crate::Break;

/// One cell with other bytes in it.
pub struct Edit {
    pub label: &'static str,
    pub before: Vec<u8>,
    pub line: u32,
    pub cell: u32,
    pub new: Vec<u8>,
    pub after: Vec<u8>,
    /// The breaks of the line before and after.
    pub old_breaks: Vec<Break>,
    pub new_breaks: Vec<Break>,
}

/// Cell and rule.
type Pairs<'a> = &'a [(u32, u32)];

struct Edits {
    list: Vec<Edit>,
}

impl Edits {
    /// A text with a star where the cell's bytes stand; the line and the cell;
    /// the bytes before and after, and what breaks the line has with each. Where
    /// a row breaks a rule nothing comes again, so that every first is 0.
    fn of(
        &mut self,
        label: &'static str,
        text: impl AsRef<str>,
        at: (u32, u32),
        (old, old_breaks): (&str, Pairs),
        (new, new_breaks): (&str, Pairs),
    ) {
        let (line, cell) = at;
        let with = |bytes: &str| tabs(text.as_ref().replace('*', bytes));
        let breaks = |pairs: Pairs| {
            let place = |&(cell, rule): &(u32, u32)| Break {
                line,
                cell,
                rule,
                first: 0,
            };
            pairs.iter().map(place).collect()
        };
        self.list.push(Edit {
            label,
            before: with(old),
            line,
            cell,
            new: new.into(),
            after: with(new),
            old_breaks: breaks(old_breaks),
            new_breaks: breaks(new_breaks),
        });
    }
}

pub fn all() -> Vec<Edit> {
    let mut e = Edits { list: Vec::new() };
    holes_and_nulls(&mut e);
    holes_beside_others(&mut e);
    wholes(&mut e);
    decimals(&mut e);
    lists(&mut e);
    texts(&mut e);
    control_bytes(&mut e);
    ends_of_lines(&mut e);
    cells_with_a_cr(&mut e);
    rows_that_stay_as_they_are(&mut e);
    rows_under_a_wide_header(&mut e);
    beside_other_lines(&mut e);
    e.list
}

fn holes_and_nulls(e: &mut Edits) {
    let protein = format!("{PH}\nPRT→*→null→db→null\n");
    e.of(
        "a hole is mended",
        &protein,
        (2, 2),
        ("", &[(2, 19)]),
        ("Y1", &[]),
    );
    e.of(
        "a hole is mended with `null`, which may not stand there",
        &protein,
        (2, 2),
        ("", &[(2, 19)]),
        ("null", &[(2, 20)]),
    );
    e.of(
        "`null` leaves, and a hole comes",
        &protein,
        (2, 2),
        ("null", &[(2, 20)]),
        ("", &[(2, 19)]),
    );
}

fn holes_beside_others(e: &mut Edits) {
    let molecule = format!("{MH}\nSML→*→\n");
    e.of(
        "one of two holes",
        &molecule,
        (2, 2),
        ("", &[(2, 19), (3, 19)]),
        ("null", &[(3, 19)]),
    );
    let unknown = format!("{MH}→foo\nSML→a→1→*\n");
    e.of(
        "a hole under an unknown column",
        unknown,
        (2, 4),
        ("x", &[]),
        ("", &[(4, 19)]),
    );
}

fn wholes(e: &mut Edits) {
    let charge = format!("{MH}\nSML→a→*\n");
    e.of(
        "a decimal for a whole",
        &charge,
        (2, 3),
        ("1", &[]),
        ("1.5", &[(3, 20)]),
    );
    e.of(
        "a digit too many",
        &charge,
        (2, 3),
        ("123456789", &[]),
        ("1234567890", &[(3, 20)]),
    );
    e.of(
        "NaN is no whole",
        &charge,
        (2, 3),
        ("null", &[]),
        ("NaN", &[(3, 20)]),
    );
    e.of(
        "`NA` is no missing",
        &charge,
        (2, 3),
        ("NA", &[(3, 20)]),
        ("null", &[]),
    );
}

fn decimals(e: &mut Edits) {
    let coverage = format!("{PH}→protein_coverage\n{PR}→*\n");
    e.of(
        "an exponent",
        &coverage,
        (2, 6),
        ("1.2E-5", &[]),
        ("1.2E-", &[(6, 20)]),
    );
    e.of(
        "a dot without digits",
        &coverage,
        (2, 6),
        ("5.", &[(6, 20)]),
        ("-0.0", &[]),
    );
    let unique = format!("{EH}→unique→reliability\n{ER}→*→3\n");
    e.of(
        "two is not unique",
        unique,
        (2, 6),
        ("1", &[]),
        ("2", &[(6, 20)]),
    );
}

fn lists(e: &mut Edits) {
    let engine = format!("{PH}\nPRT→Y1→null→db→*\n");
    e.of(
        "a comma is lost",
        &engine,
        (2, 5),
        ("[,,a,]", &[]),
        ("[,,a]", &[(5, 20)]),
    );
    e.of(
        "the marks are lost",
        &engine,
        (2, 5),
        ("[MOD, MOD:00648, \"N,O-diacetylated L-serine\",]", &[]),
        ("[MOD, MOD:00648, N,O-diacetylated L-serine,]", &[(5, 20)]),
    );
    e.of(
        "a bar within marks",
        &engine,
        (2, 5),
        ("[,,a,]|", &[(5, 20)]),
        ("[,,\"a|b\",]|[,,c,]", &[]),
    );
    let window = format!("{EH}→{QUANTIFIED}\n{ER}→x→1→*\n");
    e.of(
        "a window",
        window,
        (2, 8),
        ("10.2", &[(8, 20)]),
        ("1123.2|1145.3", &[]),
    );
}

fn texts(e: &mut Edits) {
    let name = format!("{MH}\nSML→*→1\n");
    e.of("a text for a text", &name, (2, 2), ("a", &[]), ("b c", &[]));
    e.of("the same bytes", &name, (2, 2), ("a", &[]), ("a", &[]));
    e.of(
        "bytes from 128 up",
        &name,
        (2, 2),
        ("a", &[]),
        ("\u{e9}\u{fffd}", &[]),
    );
    e.of("a code in a cell", &name, (2, 2), ("a", &[]), ("COM", &[]));
    e.of(
        "an open mark in a text",
        &name,
        (2, 2),
        ("\"a\"", &[]),
        ("\"", &[]),
    );
    let charge = format!("{MH}\nSML→a→*\n");
    e.of(
        "a letter of two bytes",
        charge,
        (2, 3),
        ("2", &[]),
        ("\u{b2}", &[(3, 20)]),
    );
}

fn control_bytes(e: &mut Edits) {
    let charge = format!("{MH}\nSML→a→*\n");
    e.of(
        "a control byte comes",
        &charge,
        (2, 3),
        ("1", &[]),
        ("1\u{1}", &[(3, 1), (3, 20)]),
    );
    let two = format!("{MH}\nSML→*→\u{2}\n");
    e.of(
        "the first control byte leaves, the next is first",
        &two,
        (2, 2),
        ("a\u{1f}", &[(2, 1), (3, 20)]),
        ("a", &[(3, 1), (3, 20)]),
    );
    e.of(
        "a control byte comes before another",
        &two,
        (2, 2),
        ("", &[(2, 19), (3, 1), (3, 20)]),
        ("\u{7f}", &[(2, 1), (3, 20)]),
    );
}

fn ends_of_lines(e: &mut Edits) {
    let both = format!("{MH}\r\nSML→a→*\r\nx\n");
    e.of("before CR LF", both, (2, 3), ("1", &[]), ("", &[(3, 19)]));
    let none = format!("{MH}\nSML→a→*");
    e.of(
        "at the very end",
        &none,
        (2, 3),
        ("1", &[]),
        ("x", &[(3, 20)]),
    );
    e.of(
        "nothing at the very end",
        &none,
        (2, 3),
        ("1", &[]),
        ("", &[(3, 19)]),
    );
}

fn cells_with_a_cr(e: &mut Edits) {
    let none = format!("{MH}\nSML→a→*");
    e.of(
        "a cell whose CR is its own",
        none,
        (2, 3),
        ("1\r", &[(3, 1), (3, 20)]),
        ("1", &[]),
    );
    let cr = format!("{MH}\nSML→a→*\r\n");
    e.of(
        "a cell with a CR before CR LF",
        cr,
        (2, 3),
        ("1\r", &[(3, 1), (3, 20)]),
        ("2", &[]),
    );
    let within = format!("{MH}\n\r\nSML→*→1\n");
    e.of(
        "a cell with a CR within",
        within,
        (3, 2),
        ("a\rb", &[(2, 1)]),
        ("ab", &[]),
    );
}

fn rows_that_stay_as_they_are(e: &mut Edits) {
    let few = format!("{MH}\nSML→*\n");
    e.of(
        "too few cells",
        few,
        (2, 2),
        ("a", &[(1, 18)]),
        ("", &[(1, 18)]),
    );
    e.of(
        "no header",
        "\nSML→*→1\n",
        (2, 2),
        ("a", &[(1, 17)]),
        ("null", &[(1, 17)]),
    );
    let other = format!("{MH}\n{PH}\nSML→a→*\n");
    e.of(
        "another header",
        other,
        (3, 3),
        ("1", &[(1, 17)]),
        ("x", &[(1, 17)]),
    );
}

fn rows_under_a_wide_header(e: &mut Edits) {
    let wide = format!("{}\nPRT→*→\n", wide(257));
    e.of(
        "a header over 256 cells",
        &wide,
        (2, 2),
        ("null", &[]),
        ("", &[]),
    );
    e.of(
        "a control byte under a header over 256 cells",
        &wide,
        (2, 2),
        ("", &[]),
        ("\u{1}", &[(2, 1)]),
    );
}

fn beside_other_lines(e: &mut Edits) {
    let late = "SML→*\nMTD→title→a\nMTD→title→a\n";
    e.of(
        "above late metadata",
        late,
        (1, 2),
        ("a", &[(1, 17)]),
        ("MTD", &[(1, 17)]),
    );
    let below = format!(
        "MTD→assay[1]-sample_ref→sample[1]\n{MH}→smallmolecule_abundance_assay[2]\n\
         SML→a→x→\nSML→a→1→*\nSML→→→\nMTD→assay[2]-sample_ref→sample[1]\n"
    );
    e.of(
        "a cell that looks like an id",
        below,
        (4, 4),
        ("sample[1]", &[(4, 20)]),
        ("1e3", &[]),
    );
    let again = format!("{MH}\n{MR}\n{MH}→uri\nSML→a→1→u\nSML→*→x→\n{MH}\n{MR}\n");
    e.of(
        "between headers of one section",
        again,
        (5, 2),
        ("a", &[(3, 20), (4, 19)]),
        ("", &[(2, 19), (3, 20), (4, 19)]),
    );
}

/// A file of four lines, whose row is line 3.
pub const NOT_EDITED: &[u8] = b"MTD\ttitle\ta\nSMH\tidentifier\tcharge\r\nSML\ta\t1\n\n";

/// What may not be edited in it: the line, the cell, the bytes, and why not.
pub const WHY_NOT: [(u32, u32, &[u8], NoEdit); 13] = [
    (3, 2, b"a\tb", NoEdit::Bytes),
    (3, 2, b"\r", NoEdit::Bytes),
    (3, 2, b"a\n", NoEdit::Bytes),
    (0, 2, b"a", NoEdit::NoRow),
    (1, 2, b"a", NoEdit::NoRow),
    (2, 2, b"a", NoEdit::NoRow),
    (4, 2, b"a", NoEdit::NoRow),
    (5, 2, b"a", NoEdit::NoRow),
    (u32::MAX, 2, b"a", NoEdit::NoRow),
    (3, 0, b"a", NoEdit::NoCell),
    (3, 1, b"PRT", NoEdit::NoCell),
    (3, 4, b"a", NoEdit::NoCell),
    (3, u32::MAX, b"a", NoEdit::NoCell),
];
