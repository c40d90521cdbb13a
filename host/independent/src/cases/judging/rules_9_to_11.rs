//! Headers.

use super::{wide, wide_row, Cases, EH, ER, MH, MR, PH, PR, SH};

pub(super) fn rules_9_and_10(c: &mut Cases) {
    c.headed(
        "rule 9: twice",
        format!("{PH}\n{PR}\n{PH}\n{PR}\n"),
        &[(8, 1, 9)],
    );
    c.first(&[6]);
    c.headed(
        "rule 9: three times",
        format!("{MH}\n{MH}\n{MH}\n"),
        &[(7, 1, 9), (8, 1, 9)],
    );
    c.first(&[6, 6]);
    c.headed(
        "rule 9: each section once",
        format!("{PH}\n{EH}\n{SH}\n{MH}\n"),
        &[],
    );
    c.headed(
        "rule 9: a comment or unknown line is none",
        format!("COM→PRH\nPRh\n{PH}\n"),
        &[(7, 1, 2)],
    );
    c.headed(
        "rule 9: does not stop 12 to 16",
        format!("{PH}\nPRH→accession→accession→opt_a→foo→num_psms_ms_run[2]\n"),
        &[
            (7, 1, 9),
            (7, 1, 16),
            (7, 3, 13),
            (7, 5, 12),
            (7, 5, 14),
            (7, 6, 14),
            (7, 6, 15),
        ],
    );
    c.first(&[6, 2]);
    c.headed(
        "rule 9: does not stop 11",
        format!("{PH}\n{}\n", wide(257)),
        &[(7, 1, 9), (7, 1, 11)],
    );
    c.first(&[6]);
    c.headed(
        "rule 9: of a header of rule 11",
        format!("{}\n{PH}\n", wide(257)),
        &[(6, 1, 11), (7, 1, 9)],
    );
    c.first(&[6]);
    c.headed(
        "rule 9: rows go by the second header",
        format!("{MH}\n{MR}\n{MH}→taxid\n{MR}\n{MR}→9606\n{MR}→x\n"),
        &[(8, 1, 9), (9, 1, 18), (11, 4, 20)],
    );
    c.first(&[6]);
    c.headed(
        "rule 10: in order, some left out",
        format!("{EH}\n{MH}\n"),
        &[],
    );
    c.headed(
        "rule 10: 2 before 1",
        format!("{EH}\n{PH}\n"),
        &[(7, 1, 10)],
    );
    c.headed(
        "rule 10: 4 before all",
        format!("{MH}\n{PH}\n{EH}\n{SH}\n"),
        &[(7, 1, 10), (8, 1, 10), (9, 1, 10)],
    );
    c.headed(
        "rule 10: 4 before 3",
        format!("{PH}\n{MH}\n{SH}\n"),
        &[(8, 1, 10)],
    );
    c.headed(
        "rule 9: and rule 10",
        format!("{PH}\n{EH}\n{PH}\n"),
        &[(8, 1, 9), (8, 1, 10)],
    );
    c.first(&[6]);
    c.headed(
        "rule 10: a row is no header",
        format!("{MR}\n{PH}\n"),
        &[(6, 1, 17)],
    );
    c.headed(
        "rule 10: of a header of rule 11",
        format!("{}\n{EH}\n{}\n", wide(257), wide(257)),
        &[(6, 1, 11), (8, 1, 9), (8, 1, 10), (8, 1, 11)],
    );
    c.first(&[6]);
    c.headed(
        "rule 10: does not stop 16",
        format!("{SH}\nPEH→sequence\n"),
        &[(7, 1, 10), (7, 1, 16)],
    );
}

pub(super) fn rule_11(c: &mut Cases) {
    c.headed("rule 11: 256", format!("{}\n", wide(256)), &[]);
    c.headed("rule 11: 257", format!("{}\n", wide(257)), &[(6, 1, 11)]);
    c.headed(
        "rule 11: 257 by a tab at the end",
        format!("{}→\n", wide(256)),
        &[(6, 1, 11)],
    );
    c.headed(
        "rule 11: 256 by a tab at the end",
        format!("{}→\n", wide(255)),
        &[(6, 256, 12), (6, 256, 14)],
    );
    c.headed(
        "rule 11: 11 stops 12, 13, 14, 15",
        format!("{}→foo→accession→num_psms_ms_run[9]\n", wide(256)),
        &[(6, 1, 11)],
    );
    c.headed(
        "rule 11: 256 cells and 12, 13, 14, 15",
        format!("{}→foo→accession→num_psms_ms_run[9]\n", wide(253)),
        &[
            (6, 254, 12),
            (6, 254, 14),
            (6, 255, 13),
            (6, 255, 14),
            (6, 256, 14),
            (6, 256, 15),
        ],
    );
    c.first(&[2]);
    c.headed(
        "rule 11: 11 stops 16",
        format!("SMH{}\n", "→".repeat(256)),
        &[(6, 1, 11)],
    );
    c.headed(
        "rule 11: 11 stops 18, 19 and 20 of rows under it",
        format!("{}\nPRT→null\nPRT\n{}→\n", wide(257), wide_row(256)),
        &[(6, 1, 11)],
    );
    c.headed(
        "rule 11: does not stop 17 of rows under it, nor 1",
        format!("{}\n{ER}\nPRT→\u{1}\n", wide(257)),
        &[(6, 1, 11), (7, 1, 17), (8, 2, 1)],
    );
    c.headed(
        "rule 11: rows under the next header are judged again",
        format!("{}\nPRT\n{PH}\nPRT\n", wide(257)),
        &[(6, 1, 11), (8, 1, 9), (9, 1, 18)],
    );
    c.first(&[6]);
    c.headed(
        "rule 11: does not stop 1",
        format!("{}→\u{1}\n", wide(256)),
        &[(6, 1, 11), (6, 257, 1)],
    );
    c.headed(
        "rule 11: wide rows are no headers",
        format!("{PH}\n{}\n", wide_row(300)),
        &[(7, 1, 18)],
    );
}
