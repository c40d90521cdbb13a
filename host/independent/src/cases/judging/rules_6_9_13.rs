//! Where it was first: "for rules 6 and 9 the line of the earliest equal key or
//! same header, for 13 the cell of the first equal name, 0 for all others".

use super::{wide, Cases, EH, ER, MH, MR, PH, PR, RUN, SH, SR, TYPE, VERSION, WORDS};

/// Line, cell, rule and first of each break.
type Fours<'a> = &'a [(u32, u32, u32, u32)];

impl Cases {
    /// A whole file; an arrow is a tab.
    fn fours(&mut self, label: &'static str, file: impl AsRef<[u8]>, breaks: Fours) {
        let triples: Vec<_> = breaks.iter().map(|b| (b.0, b.1, b.2)).collect();
        self.whole(label, file, &triples);
        let case = self.list.last_mut().expect("it was added");
        for (at, four) in case.breaks.iter_mut().zip(breaks) {
            at.first = four.3;
        }
    }

    /// A file of so many lines with no required metadata: the five breaks of
    /// rule 21 are added to those given.
    fn bare(&mut self, label: &'static str, file: impl AsRef<[u8]>, lines: u32, breaks: Fours) {
        let mut all = breaks.to_vec();
        all.extend((1..=5).map(|cell| (lines + 1, cell, 21, 0)));
        self.fours(label, file, &all);
    }
}

pub(super) fn where_it_was_first(c: &mut Cases) {
    keys(c);
    lines_that_are_not_the_first(c);
    other_keys(c);
    keys_that_do_not_break_6(c);
    keys_and_tables(c);
    lines_with_other_breaks(c);
    lines_between_keys(c);
    ends_of_lines(c);
    keys_far_apart(c);
    required_keys(c);
    headers(c);
    sections(c);
    first_headers(c);
    lines_that_are_no_headers(c);
    lines_between_headers(c);
    names(c);
    names_of_every_sort(c);
    names_that_differ(c);
    names_of_two_headers(c);
    wide_headers(c);
    all_three(c);
}

fn keys(c: &mut Cases) {
    c.bare(
        "first of rule 6: the earliest, not the nearest",
        "MTD→title→a\nMTD→title→a\nMTD→title→a\nMTD→title→a\n",
        4,
        &[(2, 2, 6, 1), (3, 2, 6, 1), (4, 2, 6, 1)],
    );
    c.bare(
        "first of rule 6: two keys by turns",
        "MTD→title→a\nMTD→uri[1]→a\nMTD→title→b\nMTD→uri[1]→a\nMTD→uri[1]→c\nMTD→title→a\n",
        6,
        &[(3, 2, 6, 1), (4, 2, 6, 2), (5, 2, 6, 2), (6, 2, 6, 1)],
    );
    c.bare(
        "first of rule 6: it breaks nothing itself",
        "MTD→uri[1]→a\nMTD→title→a\nMTD→uri[2]→a\nMTD→title→a\nMTD→uri[3]→a\n",
        5,
        &[(4, 2, 6, 2)],
    );
    c.bare(
        "first of rule 6: on the last line but one",
        "COM\nMTD→title→a\nMTD→title→b\n",
        3,
        &[(3, 2, 6, 2)],
    );
}

/// "already on an earlier three-cell MTD line"
fn lines_that_are_not_the_first(c: &mut Cases) {
    c.bare(
        "first of rule 6: not a line of two cells",
        "MTD→title\nMTD→title→a\nMTD→title→b\n",
        3,
        &[(1, 1, 3, 0), (3, 2, 6, 2)],
    );
    c.bare(
        "first of rule 6: not a line of four cells",
        "MTD→title→a→\nMTD→title→a→b\nMTD→title→a\nMTD→title→a\n",
        4,
        &[(1, 1, 3, 0), (2, 1, 3, 0), (4, 2, 6, 3)],
    );
    c.bare(
        "first of rule 6: not a line of one cell",
        "MTD\nMTD→title→a\nMTD\nMTD→title→a\n",
        4,
        &[(1, 1, 3, 0), (3, 1, 3, 0), (4, 2, 6, 2)],
    );
    c.bare(
        "first of rule 6: two cells alone above",
        "MTD→title\nMTD→title→a→\nMTD→title→a\n",
        3,
        &[(1, 1, 3, 0), (2, 1, 3, 0)],
    );
    c.bare(
        "first of rule 6: two and four cells between",
        "MTD→title→a\nMTD→title\nMTD→title→a→b\nMTD→title→c\nMTD→title\nMTD→title→d\n",
        6,
        &[
            (2, 1, 3, 0),
            (3, 1, 3, 0),
            (4, 2, 6, 1),
            (5, 1, 3, 0),
            (6, 2, 6, 1),
        ],
    );
    c.bare(
        "first of rule 6: two cells below",
        "MTD→title→a\nMTD→title\n",
        2,
        &[(2, 1, 3, 0)],
    );
    c.bare(
        "first of rule 6: the key in another cell",
        "MTD→uri[1]→title\nMTD→title→uri[1]\nMTD→uri[1]→title\nMTD→title→title\n",
        4,
        &[(3, 2, 6, 1), (4, 2, 6, 2)],
    );
}

fn other_keys(c: &mut Cases) {
    c.bare(
        "first of rule 6: other indices",
        "MTD→uri[1]→a\nMTD→uri[2]→a\nMTD→uri[10]→a\nMTD→uri[2]→a\nMTD→uri[1]→a\nMTD→uri[10]→a\n",
        6,
        &[(4, 2, 6, 2), (5, 2, 6, 1), (6, 2, 6, 3)],
    );
    c.bare(
        "first of rule 6: two indices the other way round",
        "MTD→software[1]-setting[2]→a\nMTD→software[2]-setting[1]→a\nMTD→software[1]→[,,a,]\n\
         MTD→software[2]-setting[1]→b\nMTD→software[1]-setting[2]→b\n",
        5,
        &[(4, 2, 6, 2), (5, 2, 6, 1)],
    );
    c.bare(
        "first of rule 6: keys that begin alike",
        "MTD→fixed_mod[1]-site→a\nMTD→fixed_mod[1]→[,,a,]\nMTD→fixed_mod[1]-position→a\n\
         MTD→fixed_mod[1]→[,,a,]\nMTD→fixed_mod[1]-position→a\nMTD→fixed_mod[1]-site→a\n",
        6,
        &[(4, 2, 6, 2), (5, 2, 6, 3), (6, 2, 6, 1)],
    );
    c.bare(
        "first of rule 6: keys that end alike",
        "MTD→sample[1]-custom[1]→[,,a,]\nMTD→custom[1]→[,,a,]\nMTD→custom[1]→[,,a,]\n\
         MTD→sample[1]-custom[1]→[,,a,]\n",
        4,
        &[(3, 2, 6, 2), (4, 2, 6, 1)],
    );
    let there = (1..=20).map(|k| format!("MTD→uri[{k}]→a\n"));
    let back = (1..=20).rev().map(|k| format!("MTD→uri[{k}]→b\n"));
    let firsts: Vec<_> = (1..=20).map(|k| (20 + k, 2, 6, 21 - k)).collect();
    c.bare(
        "first of rule 6: twenty keys there and back",
        there.chain(back).collect::<String>(),
        40,
        &firsts,
    );
}

fn keys_that_do_not_break_6(c: &mut Cases) {
    c.bare(
        "first of rule 6: colunit may come again",
        "MTD→colunit-protein→a\nMTD→title→a\nMTD→colunit-protein→a\nMTD→title→a\n\
         MTD→colunit-psm→a\nMTD→colunit-psm→a\nMTD→colunit-protein→a\n",
        7,
        &[(4, 2, 6, 2)],
    );
    c.bare(
        "first of rule 6: unknown keys have none",
        "MTD→foo→a\nMTD→foo→a\nMTD→→a\nMTD→→a\nMTD→foo→b\nMTD→colunit→a\nMTD→colunit→a\n",
        7,
        &[
            (1, 2, 5, 0),
            (2, 2, 5, 0),
            (3, 2, 5, 0),
            (4, 2, 5, 0),
            (5, 2, 5, 0),
            (6, 2, 5, 0),
            (7, 2, 5, 0),
        ],
    );
    c.bare(
        "first of rule 6: bad indices have none",
        "MTD→uri[0]→a\nMTD→uri[0]→a\nMTD→uri[65]→a\nMTD→uri[65]→a\nMTD→uri[]→a\nMTD→uri[]→a\n",
        6,
        &[
            (1, 2, 23, 0),
            (2, 2, 23, 0),
            (3, 2, 24, 0),
            (4, 2, 24, 0),
            (5, 2, 5, 0),
            (6, 2, 5, 0),
        ],
    );
    c.bare(
        "first of rule 6: not the one with a bad index",
        "MTD→uri[01]→a\nMTD→uri[1]→a\nMTD→uri[01]→a\nMTD→uri[1]→a\nMTD→uri[001]→a\n",
        5,
        &[(1, 2, 23, 0), (3, 2, 23, 0), (4, 2, 6, 2), (5, 2, 23, 0)],
    );
    c.bare(
        "first of rule 6: case counts, and each byte",
        "MTD→Title→a\nMTD→title →a\nMTD→titl→a\nMTD→title→a\nMTD→title→a\n",
        5,
        &[(1, 2, 5, 0), (2, 2, 5, 0), (3, 2, 5, 0), (5, 2, 6, 4)],
    );
}

/// Rule 4 stops nothing.
fn keys_and_tables(c: &mut Cases) {
    c.bare(
        "first of rule 6: above a table, again below it",
        format!("MTD→title→a\n{MH}\nMTD→title→b\n{MR}\nMTD→title→c\n"),
        5,
        &[(3, 1, 4, 0), (3, 2, 6, 1), (5, 1, 4, 0), (5, 2, 6, 1)],
    );
    c.bare(
        "first of rule 6: below a table",
        format!("{MH}\nMTD→title→a\n{MR}\nMTD→title→b\n"),
        4,
        &[(2, 1, 4, 0), (4, 1, 4, 0), (4, 2, 6, 2)],
    );
    c.bare(
        "first of rule 6: below a row without header",
        format!("{MR}\nMTD→title\nMTD→title→a\nMTD→title→b\n"),
        4,
        &[
            (1, 1, 17, 0),
            (2, 1, 3, 0),
            (2, 1, 4, 0),
            (3, 1, 4, 0),
            (4, 1, 4, 0),
            (4, 2, 6, 3),
        ],
    );
}

/// The earliest line counts whatever it breaks beside.
fn lines_with_other_breaks(c: &mut Cases) {
    c.bare(
        "first of rule 6: its value not of its kind",
        "MTD→custom[1]→x\nMTD→custom[1]→[,,a,]\nMTD→custom[1]→\n",
        3,
        &[(1, 3, 7, 0), (2, 2, 6, 1), (3, 2, 6, 1), (3, 3, 7, 0)],
    );
    c.bare(
        "first of rule 6: its value with a bad index or undeclared",
        "MTD→assay[1]-sample_ref→sample[01]\nMTD→assay[1]-sample_ref→sample[1]\n\
         MTD→assay[2]-sample_ref→sample[1]\nMTD→assay[2]-sample_ref→sample[65]\n",
        4,
        &[
            (1, 3, 23, 0),
            (2, 2, 6, 1),
            (2, 3, 8, 0),
            (3, 3, 8, 0),
            (4, 2, 6, 3),
            (4, 3, 24, 0),
        ],
    );
    c.bare(
        "first of rule 6: a control byte in its value",
        "MTD→title→\u{1}\nMTD→title→a\nMTD→title→\u{7f}\n",
        3,
        &[(1, 3, 1, 0), (2, 2, 6, 1), (3, 2, 6, 1), (3, 3, 1, 0)],
    );
    c.bare(
        "first of rule 6: a control byte in a key makes another",
        "MTD→title\u{1}→a\nMTD→title→a\nMTD→title\u{1}→a\nMTD→title→a\n",
        4,
        &[
            (1, 2, 1, 0),
            (1, 2, 5, 0),
            (3, 2, 1, 0),
            (3, 2, 5, 0),
            (4, 2, 6, 2),
        ],
    );
}

/// "Not counting comments and empty lines in line numbers" gives wrong books.
fn lines_between_keys(c: &mut Cases) {
    c.bare(
        "first of rule 6: comments and empty lines counted",
        "\nCOM→title→a\n\nMTD→title→a\nCOM\n\nMTD→title→a\nCOM→MTD→title→a\nMTD→title→b\n\n",
        10,
        &[(7, 2, 6, 4), (9, 2, 6, 4)],
    );
    c.bare(
        "first of rule 6: a line of an unknown code is none",
        "MTd→title→a\n MTD→title→a\nMTD→title→a\nMTD\u{1}→title→a\nMTD→title→a\n",
        5,
        &[
            (1, 1, 2, 0),
            (2, 1, 2, 0),
            (4, 1, 1, 0),
            (4, 1, 2, 0),
            (5, 2, 6, 3),
        ],
    );
    c.bare(
        "first of rule 6: on line 12",
        "\n\n\n\n\n\n\n\n\n\n\nMTD→title→a\n\nMTD→title→a\n",
        14,
        &[(14, 2, 6, 12)],
    );
}

fn ends_of_lines(c: &mut Cases) {
    c.bare(
        "first of rule 6: CR LF",
        "MTD→uri[1]→a\r\n\r\nMTD→title→a\r\nMTD→title→a\r\nMTD→uri[1]→a\n",
        5,
        &[(4, 2, 6, 3), (5, 2, 6, 1)],
    );
    c.bare(
        "first of rule 6: the last line without LF",
        "MTD→title→a\nMTD→title→b",
        2,
        &[(2, 2, 6, 1)],
    );
    c.bare(
        "first of rule 6: the last line without LF, with CR",
        "MTD→title→a\r\nMTD→title→b\r",
        2,
        &[(2, 2, 6, 1), (2, 3, 1, 0)],
    );
    c.bare(
        "first of rule 6: CR within a line ends none",
        "COM\rMTD→title→a\nMTD→title→a\nMTD→title→a\n",
        3,
        &[(1, 1, 1, 0), (1, 1, 2, 0), (3, 2, 6, 2)],
    );
}

fn keys_far_apart(c: &mut Cases) {
    c.bare(
        "first of rule 6: lines 1 and N",
        format!("MTD→title→a\n{}MTD→title→a\n", "\n".repeat(298)),
        300,
        &[(300, 2, 6, 1)],
    );
    c.bare(
        "first of rule 6: on a line over 255",
        format!("{}MTD→title→a\nMTD→title→a\nMTD→title→a", "\n".repeat(298)),
        301,
        &[(300, 2, 6, 299), (301, 2, 6, 299)],
    );
}

fn required_keys(c: &mut Cases) {
    c.fours(
        "first of rule 6: required keys too",
        format!(
            "{VERSION}\nMTD→mzTab-mode→x\n{TYPE}\n{WORDS}\n{RUN}\n{RUN}\n{WORDS}\n\
             MTD→mzTab-mode→y\n{VERSION}\n"
        ),
        &[
            (2, 3, 7, 0),
            (6, 2, 6, 5),
            (7, 2, 6, 4),
            (8, 2, 6, 2),
            (8, 3, 7, 0),
            (9, 2, 6, 1),
        ],
    );
    c.headed(
        "first of rule 6: nothing else wrong",
        "MTD→title→a\nMTD→uri[1]→a\nMTD→title→b\n",
        &[(8, 2, 6)],
    );
    c.first(&[6]);
}

fn headers(c: &mut Cases) {
    c.bare(
        "first of rule 9: the earliest, not the nearest",
        format!("{MH}\n{MH}\n{MH}\n{MH}\n"),
        4,
        &[(2, 1, 9, 1), (3, 1, 9, 1), (4, 1, 9, 1)],
    );
    c.bare(
        "first of rule 9: with only its code",
        "SMH\nSMH\nCOM\nSMH\n",
        4,
        &[
            (1, 1, 16, 0),
            (2, 1, 9, 1),
            (2, 1, 16, 0),
            (4, 1, 9, 1),
            (4, 1, 16, 0),
        ],
    );
    c.headed(
        "first of rule 9: nothing else wrong",
        format!("{PH}\n{PR}\n{EH}\n{ER}\n{EH}\n{ER}\n{EH}\n"),
        &[(10, 1, 9), (12, 1, 9)],
    );
    c.first(&[8, 8]);
}

/// "a header of the same section"
fn sections(c: &mut Cases) {
    c.bare(
        "first of rule 9: each section has its own",
        "PRH\nPEH\nPSH\nSMH\nSMH\nPSH\nPEH\nPRH\n",
        8,
        &[
            (1, 1, 16, 0),
            (2, 1, 16, 0),
            (3, 1, 16, 0),
            (4, 1, 16, 0),
            (5, 1, 9, 4),
            (5, 1, 16, 0),
            (6, 1, 9, 3),
            (6, 1, 10, 0),
            (6, 1, 16, 0),
            (7, 1, 9, 2),
            (7, 1, 10, 0),
            (7, 1, 16, 0),
            (8, 1, 9, 1),
            (8, 1, 10, 0),
            (8, 1, 16, 0),
        ],
    );
    c.bare(
        "first of rule 9: other sections between",
        format!("{PH}\n{EH}\n{PH}\n{EH}\n{SH}\n{PH}\n"),
        6,
        &[
            (3, 1, 9, 1),
            (3, 1, 10, 0),
            (4, 1, 9, 2),
            (6, 1, 9, 1),
            (6, 1, 10, 0),
        ],
    );
    c.bare(
        "first of rule 9: other sections above",
        "SMH\nPSH\nPEH\nPRH\nPEH\n",
        5,
        &[
            (1, 1, 16, 0),
            (2, 1, 10, 0),
            (2, 1, 16, 0),
            (3, 1, 10, 0),
            (3, 1, 16, 0),
            (4, 1, 10, 0),
            (4, 1, 16, 0),
            (5, 1, 9, 3),
            (5, 1, 10, 0),
            (5, 1, 16, 0),
        ],
    );
}

/// The earliest header counts whatever it breaks.
fn first_headers(c: &mut Cases) {
    let over = format!("SMH{}", "→".repeat(256));
    c.bare(
        "first of rule 9: over 256 cells",
        format!("{over}\n{MH}\n{over}\n{MH}\n"),
        4,
        &[
            (1, 1, 11, 0),
            (2, 1, 9, 1),
            (3, 1, 9, 1),
            (3, 1, 11, 0),
            (4, 1, 9, 1),
        ],
    );
    c.bare(
        "first of rule 9: it breaks 10, and so does the second",
        format!("{MH}\n{EH}\n{EH}\n{MH}\n"),
        4,
        &[(2, 1, 10, 0), (3, 1, 9, 2), (3, 1, 10, 0), (4, 1, 9, 1)],
    );
    c.bare(
        "first of rule 9: with a control byte and an empty name",
        format!("{MH}→\u{1}→\n{MH}\n"),
        2,
        &[(1, 4, 1, 0), (1, 4, 12, 0), (1, 5, 12, 0), (2, 1, 9, 1)],
    );
}

fn lines_that_are_no_headers(c: &mut Cases) {
    c.bare(
        "first of rule 9: rows and unknown codes are none",
        "SML\nSMh\nSMH\u{1}\n SMH\nCOM→SMH\nSMH\nSMH\n",
        7,
        &[
            (1, 1, 17, 0),
            (2, 1, 2, 0),
            (3, 1, 1, 0),
            (3, 1, 2, 0),
            (4, 1, 2, 0),
            (6, 1, 16, 0),
            (7, 1, 9, 6),
            (7, 1, 16, 0),
        ],
    );
    c.bare(
        "first of rule 9: a code in another cell is none",
        format!("MTD→SMH→SMH\nSML→SMH\n{MH}→SMH\n{MH}\n"),
        4,
        &[(1, 2, 5, 0), (2, 1, 17, 0), (3, 4, 12, 0), (4, 1, 9, 3)],
    );
}

fn lines_between_headers(c: &mut Cases) {
    c.bare(
        "first of rule 9: rows, metadata, comments and empty lines between",
        format!("\nMTD→title→a\n{SH}\n{SR}\n\nCOM\nMTD→title→b\n{MR}\n{SH}\n{SR}\n\n{SH}\n"),
        12,
        &[
            (7, 1, 4, 0),
            (7, 2, 6, 2),
            (8, 1, 17, 0),
            (9, 1, 9, 3),
            (12, 1, 9, 3),
        ],
    );
    c.bare(
        "first of rule 9: CR LF, and no LF at the end",
        format!("COM\r\n\r\n{MH}\r\n{MR}\r\n{MH}\r\n{MH}"),
        6,
        &[(5, 1, 9, 3), (6, 1, 9, 3)],
    );
    c.bare(
        "first of rule 9: lines 1 and N",
        format!("{MH}\n{}{MH}", "\n".repeat(298)),
        300,
        &[(300, 1, 9, 1)],
    );
    c.bare(
        "first of rule 9: on a line over 255",
        format!("{}{MH}\n{MH}\n{MH}\n", "\n".repeat(256)),
        259,
        &[(258, 1, 9, 257), (259, 1, 9, 257)],
    );
}

fn names(c: &mut Cases) {
    c.bare(
        "first of rule 13: the first, not the nearest",
        format!("{MH}→uri→uri→uri→uri\n"),
        1,
        &[(1, 5, 13, 4), (1, 6, 13, 4), (1, 7, 13, 4)],
    );
    c.bare(
        "first of rule 13: two names by turns",
        format!("{MH}→uri→taxid→uri→taxid→taxid→uri\n"),
        1,
        &[(1, 6, 13, 4), (1, 7, 13, 5), (1, 8, 13, 5), (1, 9, 13, 4)],
    );
    c.bare(
        "first of rule 13: cell 2",
        format!("{MH}→identifier→charge→identifier\n"),
        1,
        &[(1, 4, 13, 2), (1, 5, 13, 3), (1, 6, 13, 2)],
    );
    c.bare(
        "first of rule 13: each section's own",
        "PRH→accession→accession\nPEH→charge→sequence→charge\nPSH→PSM_ID→PSM_ID→PSM_ID\n\
         SMH→taxid→identifier→charge→taxid\n",
        4,
        &[
            (1, 1, 16, 0),
            (1, 3, 13, 2),
            (2, 1, 16, 0),
            (2, 4, 13, 2),
            (3, 1, 16, 0),
            (3, 3, 13, 2),
            (3, 4, 13, 2),
            (4, 5, 13, 2),
        ],
    );
    c.headed(
        "first of rule 13: nothing else wrong",
        format!("{MH}→uri→taxid→uri\n{MR}→a→1→b\n"),
        &[(6, 6, 13)],
    );
    c.first(&[4]);
}

fn names_of_every_sort(c: &mut Cases) {
    c.bare(
        "first of rule 13: unknown and empty names",
        format!("{MH}→foo→→foo→→foo→\n"),
        1,
        &[
            (1, 4, 12, 0),
            (1, 5, 12, 0),
            (1, 6, 12, 0),
            (1, 6, 13, 4),
            (1, 7, 12, 0),
            (1, 7, 13, 5),
            (1, 8, 12, 0),
            (1, 8, 13, 4),
            (1, 9, 12, 0),
            (1, 9, 13, 5),
        ],
    );
    c.bare(
        "first of rule 13: bad indices",
        format!(
            "{MH}→best_search_engine_score[0]→best_search_engine_score[65]→\
             best_search_engine_score[65]→best_search_engine_score[0]\n"
        ),
        1,
        &[
            (1, 4, 23, 0),
            (1, 5, 24, 0),
            (1, 6, 13, 5),
            (1, 6, 24, 0),
            (1, 7, 13, 4),
            (1, 7, 23, 0),
        ],
    );
    c.bare(
        "first of rule 13: opt_ names",
        format!("{MH}→opt_a→opt_→opt_a→opt_b→opt_→opt_a\n"),
        1,
        &[
            (1, 5, 12, 0),
            (1, 6, 13, 4),
            (1, 8, 12, 0),
            (1, 8, 13, 5),
            (1, 9, 13, 4),
        ],
    );
    c.bare(
        "first of rule 13: after opt_, and undeclared",
        format!(
            "{MH}→smallmolecule_abundance_assay[1]→opt_a→smallmolecule_abundance_assay[1]→charge\n"
        ),
        1,
        &[
            (1, 4, 15, 0),
            (1, 6, 13, 4),
            (1, 6, 14, 0),
            (1, 6, 15, 0),
            (1, 7, 13, 3),
            (1, 7, 14, 0),
        ],
    );
    c.bare(
        "first of rule 13: bytes from 128 up and control bytes",
        b"SMH\tidentifier\tcharge\topt_\xe9\topt_\x01\topt_\xe8\topt_\x01\topt_\xe9\n",
        1,
        &[(1, 5, 1, 0), (1, 7, 13, 5), (1, 8, 13, 4)],
    );
    c.bare(
        "first of rule 13: the code is no column name",
        "SMH→SMH→identifier→charge→SMH\n",
        1,
        &[(1, 2, 12, 0), (1, 5, 12, 0), (1, 5, 13, 2)],
    );
}

fn names_that_differ(c: &mut Cases) {
    c.bare(
        "first of rule 13: case counts, and each byte",
        format!("{MH}→opt_a→opt_A→opt_a →opt_aa→opt_aa→opt_A→opt_a\n"),
        1,
        &[(1, 8, 13, 7), (1, 9, 13, 5), (1, 10, 13, 4)],
    );
    let long = "x".repeat(70);
    c.bare(
        "first of rule 13: long names that part at the last byte",
        format!("{MH}→opt_{long}a→opt_{long}b→opt_{long}→opt_{long}b→opt_{long}a→opt_{long}\n"),
        1,
        &[(1, 7, 13, 5), (1, 8, 13, 4), (1, 9, 13, 6)],
    );
    // 97 * 33 + 66 and 98 * 33 + 33 are the same.
    c.bare(
        "first of rule 13: names of one sum",
        format!("{MH}→opt_aB→opt_b!→opt_b!→opt_aB→opt_b!\n"),
        1,
        &[(1, 6, 13, 5), (1, 7, 13, 4), (1, 8, 13, 5)],
    );
    c.bare(
        "first of rule 13: the order of the letters",
        format!("{MH}→opt_ab→opt_ba→opt_ab→opt_ba\n"),
        1,
        &[(1, 6, 13, 4), (1, 7, 13, 5)],
    );
}

/// "column name already in this header"
fn names_of_two_headers(c: &mut Cases) {
    c.bare(
        "first of rule 13: within this header",
        format!("{MH}→uri→uri\nSMH→uri→identifier→charge→uri\n{MH}→opt_a→uri\n"),
        3,
        &[
            (1, 5, 13, 4),
            (2, 1, 9, 1),
            (2, 5, 13, 2),
            (3, 1, 9, 1),
            (3, 5, 14, 0),
        ],
    );
    c.bare(
        "first of rule 13: rows have no names",
        format!("{MH}→uri\nSML→uri→1→uri\n{MR}→a\n"),
        3,
        &[],
    );
    c.bare(
        "first of rule 13: CR LF",
        format!("\r\n{MH}→uri→uri\r\n"),
        2,
        &[(2, 5, 13, 4)],
    );
    c.bare(
        "first of rule 13: no LF at the end, but CR",
        format!("{MH}→uri→uri→uri\r"),
        1,
        &[(1, 5, 13, 4), (1, 6, 1, 0), (1, 6, 12, 0)],
    );
    c.bare(
        "first of rule 13: no LF at the end",
        format!("{MH}→uri→uri"),
        1,
        &[(1, 5, 13, 4)],
    );
}

fn wide_headers(c: &mut Cases) {
    c.bare(
        "first of rule 13: far apart in 256 cells",
        format!("{}→opt_5→opt_fc→accession\n", wide(253)),
        1,
        &[
            (1, 254, 13, 6),
            (1, 255, 13, 253),
            (1, 256, 13, 2),
            (1, 256, 14, 0),
        ],
    );
    let mut empty = vec![(1, 1, 16, 0), (1, 2, 12, 0)];
    for cell in 3..=256 {
        empty.extend([(1, cell, 12, 0), (1, cell, 13, 2)]);
    }
    c.bare(
        "first of rule 13: 255 empty names",
        format!("SMH{}\n", "→".repeat(255)),
        1,
        &empty,
    );
    c.bare(
        "first of rule 13: over 256 cells it is not judged",
        format!("SMH→uri→uri{}\n{MH}→uri→uri\n", "→".repeat(254)),
        2,
        &[(1, 1, 11, 0), (2, 1, 9, 1), (2, 5, 13, 4)],
    );
}

fn all_three(c: &mut Cases) {
    c.bare(
        "first of rules 6, 9 and 13 in one file",
        "MTD→title\nMTD→title→a\nMTD→title→b\nSMH→charge→charge→identifier\nPRH\nPRH→x→x\n\
         SMH→charge→→identifier→→charge\nMTD→title→c\nMTD→foo→d\nMTD→foo→d\n",
        10,
        &[
            (1, 1, 3, 0),
            (3, 2, 6, 2),
            (4, 3, 13, 2),
            (5, 1, 10, 0),
            (5, 1, 16, 0),
            (6, 1, 9, 5),
            (6, 1, 10, 0),
            (6, 1, 16, 0),
            (6, 2, 12, 0),
            (6, 3, 12, 0),
            (6, 3, 13, 2),
            (7, 1, 9, 4),
            (7, 3, 12, 0),
            (7, 5, 12, 0),
            (7, 5, 13, 3),
            (7, 6, 13, 2),
            (8, 1, 4, 0),
            (8, 2, 6, 2),
            (9, 1, 4, 0),
            (9, 2, 5, 0),
            (10, 1, 4, 0),
            (10, 2, 5, 0),
        ],
    );
}
