//! Rows.

use super::{wide, Cases, EH, ER, MH, MR, PH, PR, SR};

pub(super) fn rule_17(c: &mut Cases) {
    c.headed("rule 17: no header", format!("{PR}\n"), &[(6, 1, 17)]);
    c.headed(
        "rule 17: the header below",
        format!("{PR}\n{PH}\n{PR}\n"),
        &[(6, 1, 17)],
    );
    c.headed(
        "rule 17: another section's",
        format!("{PH}\n{ER}\n{SR}\n{MR}\n{PR}\n"),
        &[(7, 1, 17), (8, 1, 17), (9, 1, 17)],
    );
    c.headed(
        "rule 17: its own again",
        format!("{PH}\n{EH}\n{PR}\n{PH}\n{PR}\n"),
        &[(8, 1, 17), (9, 1, 9), (9, 1, 10)],
    );
    c.first(&[6]);
    c.headed(
        "rule 17: 17 stops 18",
        format!("{EH}\nPRT→a\nPRT\n"),
        &[(7, 1, 17), (8, 1, 17)],
    );
    c.headed(
        "rule 17: 17 stops 19",
        format!("{EH}\nPRT→→→→\n"),
        &[(7, 1, 17)],
    );
    c.headed(
        "rule 17: 17 stops 20",
        format!("{EH}\nPRT→null→x→x→x\n"),
        &[(7, 1, 17)],
    );
    c.headed(
        "rule 17: with no header, 17 stops 18 to 20",
        "PSM→→null\n",
        &[(6, 1, 17)],
    );
    c.headed(
        "rule 17: does not stop 1",
        "PSM→\u{1}\n",
        &[(6, 1, 17), (6, 2, 1)],
    );
    c.headed(
        "rule 17: comments, unknown lines, metadata and rows between",
        format!("{PH}\nCOM→PEH\nPEh\nMTD→title→a\n{ER}\n{PR}\n"),
        &[(8, 1, 2), (9, 1, 4), (10, 1, 17)],
    );
    c.headed(
        "rule 17: a header of rule 11 is the nearest",
        format!("{EH}\n{}\n{ER}\n", wide(257)),
        &[(7, 1, 10), (7, 1, 11), (8, 1, 17)],
    );
}

pub(super) fn rule_18(c: &mut Cases) {
    c.headed(
        "rule 18: one less",
        format!("{PH}\nPRT→Y1→null→db\n"),
        &[(7, 1, 18)],
    );
    c.headed(
        "rule 18: one more",
        format!("{PH}\n{PR}→x\n"),
        &[(7, 1, 18)],
    );
    c.headed(
        "rule 18: one more by a tab at the end",
        format!("{PH}\n{PR}→\n"),
        &[(7, 1, 18)],
    );
    c.headed(
        "rule 18: the code alone",
        format!("{PH}\nPRT\n"),
        &[(7, 1, 18)],
    );
    c.headed(
        "rule 18: 18 stops 19",
        format!("{PH}\nPRT→→→\n"),
        &[(7, 1, 18)],
    );
    c.headed(
        "rule 18: 18 stops 20",
        format!("{PH}\nPRT→null→x→x→x→x\n"),
        &[(7, 1, 18)],
    );
    c.headed(
        "rule 18: does not stop 1",
        format!("{PH}\nPRT→\u{7f}\n"),
        &[(7, 1, 18), (7, 2, 1)],
    );
    c.headed(
        "rule 18: each row for itself",
        format!("{MH}\nSML→a\n{MR}\nSML→a→1→2\n{MR}\nSML→a→x\n"),
        &[(7, 1, 18), (9, 1, 18), (11, 3, 20)],
    );
}

pub(super) fn rule_19(c: &mut Cases) {
    c.headed(
        "rule 19: in the middle",
        format!("{PH}\nPRT→Y1→→db→null\n"),
        &[(7, 3, 19)],
    );
    c.headed(
        "rule 19: the last",
        format!("{PH}\nPRT→Y1→null→db→\n"),
        &[(7, 5, 19)],
    );
    c.headed(
        "rule 19: 19 stops 20 at its cell",
        format!("{PH}\nPRT→→→→\n"),
        &[(7, 2, 19), (7, 3, 19), (7, 4, 19), (7, 5, 19)],
    );
    c.headed(
        "rule 19: does not stop 20 at another",
        format!("{MH}→taxid\nSML→→x→y\n"),
        &[(7, 2, 19), (7, 3, 20), (7, 4, 20)],
    );
    c.headed(
        "rule 19: a space is not empty",
        format!("{PH}\nPRT→ → → →null\n"),
        &[],
    );
    c.headed(
        "rule 19: an empty optional cell",
        format!("{MH}→opt_x\n{MR}→\n{MR}→null\n"),
        &[(7, 4, 19)],
    );
    c.headed(
        "rule 19: with CR LF",
        format!("{MH}\r\nSML→a→\r\n"),
        &[(7, 3, 19)],
    );
    c.headed(
        "rule 19: with CR and no LF",
        format!("{MH}\nSML→a→\r"),
        &[(7, 3, 1), (7, 3, 20)],
    );
}
