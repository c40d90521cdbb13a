//! Several breaks in one file.

use super::Cases;

pub(super) fn several_at_once(c: &mut Cases) {
    c.whole(
        "many rules in one file",
        "PRT→a\nMTD→foo→a\nMTD→title\nMTD→title→\nPEH→sequence→sequence→opt_→x\n\
         PRH→taxid→num_psms_ms_run[1]→\nPRT→x→→y\nPRT→x\nPEP→a\nZZZ→\u{1}\nMTD→title→b\n",
        &[
            (1, 1, 17),
            (2, 1, 4),
            (2, 2, 5),
            (3, 1, 3),
            (3, 1, 4),
            (4, 1, 4),
            (4, 3, 7),
            (5, 1, 16),
            (5, 3, 13),
            (5, 4, 12),
            (5, 5, 12),
            (5, 5, 14),
            (6, 1, 10),
            (6, 1, 16),
            (6, 3, 15),
            (6, 4, 12),
            (7, 2, 20),
            (7, 3, 19),
            (8, 1, 18),
            (9, 1, 17),
            (10, 1, 2),
            (10, 2, 1),
            (11, 1, 4),
            (11, 2, 6),
            (12, 1, 21),
            (12, 2, 21),
            (12, 3, 21),
            (12, 4, 21),
            (12, 5, 21),
        ],
    );
    c.first(&[2, 4]);
    c.headed(
        "a break more than a list of 4,096 holds",
        format!("{}\n", "x\n".repeat(4_097)),
        &(0..4_097).map(|k| (6 + k, 1, 2)).collect::<Vec<_>>(),
    );
    c.headed(
        "just 4,096 breaks",
        "x\n".repeat(4_096),
        &(0..4_096).map(|k| (6 + k, 1, 2)).collect::<Vec<_>>(),
    );
}
