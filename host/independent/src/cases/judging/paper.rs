//! The paper's own cases, and lines and cells.

use super::{full_head, head, wide, wide_row, Cases, Triples};
use super::{EH, ER, MH, MR, PAPER, PH, PR, SH, SR};
use crate::cases::tabs;

/// The three breaks of the paper's example, and those of rule 22: a Summary
/// Identification file with proteins has no score of theirs and no modifications.
const BREAKS_OF_PAPER: Triples<'static> = &[
    (7, 6, 15),
    (8, 6, 19),
    (9, 2, 20),
    (10, 500, 22),
    (10, 900, 22),
    (10, 1000, 22),
];

pub(super) fn the_papers_own(c: &mut Cases) {
    c.whole("the paper's example", PAPER, BREAKS_OF_PAPER);
    c.whole(
        "empty file, five breaks of rule 21 at line 1",
        "",
        &[(1, 1, 21), (1, 2, 21), (1, 3, 21), (1, 4, 21), (1, 5, 21)],
    );
    c.whole(
        "`COM` alone, the same at line 2",
        "COM",
        &[(2, 1, 21), (2, 2, 21), (2, 3, 21), (2, 4, 21), (2, 5, 21)],
    );
    c.whole("the five alone", head(), &[(6, 900, 22), (6, 1000, 22)]);
    c.whole("the five and what rule 22 asks for", full_head(), &[]);
    c.mtd(
        "assay[64] an id",
        "assay[64]-quantification_reagent",
        "[,,x,]",
        &[],
    );
    c.mtd(
        "assay[65] not",
        "assay[65]-quantification_reagent",
        "[,,x,]",
        &[(6, 2, 24)],
    );
    c.mtd(
        "assay[01] not",
        "assay[01]-quantification_reagent",
        "[,,x,]",
        &[(6, 2, 23)],
    );
    c.mtd(
        "assay[0] not",
        "assay[0]-quantification_reagent",
        "[,,x,]",
        &[(6, 2, 23)],
    );
    c.mtd(
        "a comma in marks",
        "custom[1]",
        "[MOD, MOD:00648, \"N,O-diacetylated L-serine\",]",
        &[],
    );
    c.mtd(
        "a comma without marks",
        "custom[1]",
        "[MOD, MOD:00648, N,O-diacetylated L-serine,]",
        &[(6, 3, 7)],
    );
    c.mtd(
        "a user parameter",
        "custom[1]",
        "[,,A user parameter, The value]",
        &[],
    );
    c.mtd("no third field", "custom[1]", "[,,,]", &[(6, 3, 7)]);
    c.protein("-0.0 a decimal", "protein_coverage", "-0.0", &[]);
    c.protein(".5 not", "protein_coverage", ".5", &[(7, 6, 20)]);
    c.protein("5. not", "protein_coverage", "5.", &[(7, 6, 20)]);
    c.protein("1,000 not", "protein_coverage", "1,000", &[(7, 6, 20)]);
    c.peptide("a window", "retention_time_window", "1123.2|1145.3", &[]);
    c.peptide(
        "10.2 no window",
        "retention_time_window",
        "10.2",
        &[(7, 6, 20)],
    );
    c.protein("123456789 a whole", "taxid", "123456789", &[]);
    c.protein("1234567890 not", "taxid", "1234567890", &[(7, 6, 20)]);
    c.headed(
        "a header of 256 cells passes rule 11",
        format!("{}\n{}\n", wide(256), wide_row(256)),
        &[],
    );
    c.headed(
        "a reference before its sample",
        "MTD→assay[1]-sample_ref→sample[1]\nMTD→sample[1]-description→s\n",
        &[],
    );
    c.headed(
        "another section's header between",
        format!("{PH}\n{PR}\n{EH}\n{ER}\n{PR}\n"),
        &[(10, 1, 17)],
    );
    c.headed(
        "comments and empty lines counted",
        "\nCOM→a\n\n\nCOM\nXXX\n",
        &[(11, 1, 2)],
    );
    c.headed(
        "a last line without LF",
        format!("{PH}\n{PR}→x"),
        &[(7, 1, 18)],
    );
    c.protein("NA is not missing", "taxid", "NA", &[(7, 6, 20)]);
    c.protein("- is not missing", "taxid", "-", &[(7, 6, 20)]);
}

pub(super) fn lines_and_cells(c: &mut Cases) {
    c.whole(
        "the five with CR LF",
        full_head().replace('\n', "\r\n"),
        &[],
    );
    c.whole("the five without the last LF", full_head().trim_end(), &[]);
    c.whole(
        "CR LF in all of the example",
        PAPER.replace('\n', "\r\n"),
        BREAKS_OF_PAPER,
    );
    c.whole(
        "the example without its last LF",
        PAPER.trim_end(),
        BREAKS_OF_PAPER,
    );
    c.headed(
        "the file ends in an empty cell",
        format!("{PH}\n{PR}\n{PR}→"),
        &[(8, 1, 18)],
    );
    c.headed(
        "a comment with CR and no LF",
        "COM\r",
        &[(6, 1, 1), (6, 1, 2)],
    );
    c.headed("a comment with CR LF", "COM\r\n", &[]);
    c.headed(
        "a comment with CR CR LF",
        "COM\r\r\n",
        &[(6, 1, 1), (6, 1, 2)],
    );
    c.headed("an empty line by CR LF", "\r\n", &[]);
    c.headed(
        "CR CR LF is no empty line",
        "\r\r\n",
        &[(6, 1, 1), (6, 1, 2)],
    );
    c.headed("one CR and no LF", "\r", &[(6, 1, 1), (6, 1, 2)]);
    c.headed("LF CR LF", "\n\r\n", &[]);
    c.headed(
        "CR within a line ends none",
        "MTD→title→a\rMTD→foo→b\n",
        &[(6, 1, 3), (6, 3, 1)],
    );
    c.headed(
        "CR at the end of the file is of the cell",
        "MTD→title→a\r",
        &[(6, 3, 1)],
    );
    c.whole(
        "one LF",
        "\n",
        &[(2, 1, 21), (2, 2, 21), (2, 3, 21), (2, 4, 21), (2, 5, 21)],
    );
    c.whole(
        "two LF",
        "\n\n",
        &[(3, 1, 21), (3, 2, 21), (3, 3, 21), (3, 4, 21), (3, 5, 21)],
    );
    c.whole(
        "one byte",
        "x",
        &[
            (1, 1, 2),
            (2, 1, 21),
            (2, 2, 21),
            (2, 3, 21),
            (2, 4, 21),
            (2, 5, 21),
        ],
    );
    c.headed("a line of one tab", "→\n", &[(6, 1, 2)]);
    c.headed("a line of one space", " \n", &[(6, 1, 2)]);
    c.headed(
        "a comment is judged by no rule",
        b"COM\t\x01\x7f\t\t\r\xff\n",
        &[],
    );
    c.headed(
        "COM exactly",
        "COM x\nCOMx\ncom\n COM\nCOM→x\nCOM→\n",
        &[(6, 1, 2), (7, 1, 2), (8, 1, 2), (9, 1, 2)],
    );
    c.whole(
        "comments above the metadata",
        format!("COM→first\n\n{}COM→last\n", full_head()),
        &[],
    );
    c.headed(
        "comments within a table",
        format!("{PH}\nCOM→a→b\n\n{PR}\nCOM\n\n{PR}\n\n"),
        &[],
    );
    c.headed(
        "bytes from 128 up",
        b"MTD\ttitle\t\x80\xff\xfe caf\xe9\nMTD\tmzTab-ID\t\xc3\xa9\n",
        &[],
    );
    c.headed(
        "bytes from 128 up in a table",
        [
            tabs(PH),
            b"\topt_\xe9\n".to_vec(),
            tabs(PR),
            b"\t\x80\n".to_vec(),
        ]
        .concat(),
        &[],
    );
    c.headed(
        "all four sections",
        format!("{PH}\n{PR}\n{PR}\n\n{EH}\n{ER}\n{SH}\n{SR}\nCOM\n{MH}\n{MR}\n"),
        &[],
    );
}
