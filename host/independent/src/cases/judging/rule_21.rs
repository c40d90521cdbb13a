//! What the file must have.

use super::{Cases, FIXED, MODE, RUN, TYPE, VARIABLE, VERSION, WORDS};

pub(super) fn rule_21(c: &mut Cases) {
    c.whole(
        "rule 21: no version",
        format!("{MODE}\n{TYPE}\n{WORDS}\n{RUN}\n{FIXED}\n{VARIABLE}\n"),
        &[(7, 1, 21)],
    );
    c.whole(
        "rule 21: no mode",
        format!("{VERSION}\n{TYPE}\n{WORDS}\n{RUN}\n"),
        &[(5, 2, 21)],
    );
    c.whole(
        "rule 21: no type",
        format!("{VERSION}\n{MODE}\n{WORDS}\n{RUN}\n"),
        &[(5, 3, 21)],
    );
    c.whole(
        "rule 21: no description",
        format!("{VERSION}\n{MODE}\n{TYPE}\n{RUN}\n{FIXED}\n{VARIABLE}\n"),
        &[(7, 4, 21)],
    );
    c.whole(
        "rule 21: no run",
        format!("{VERSION}\n{MODE}\n{TYPE}\n{WORDS}\n{FIXED}\n{VARIABLE}\n"),
        &[(7, 5, 21)],
    );
    c.whole(
        "rule 21: no run, without the last LF",
        format!("{VERSION}\n{MODE}\n{TYPE}\n{WORDS}\n{FIXED}\n{VARIABLE}"),
        &[(7, 5, 21)],
    );
    c.whole(
        "rule 21: empty lines at the end count",
        format!("{VERSION}\n{MODE}\n{TYPE}\n{WORDS}\n{FIXED}\n{VARIABLE}\n\n\r\nCOM\n"),
        &[(10, 5, 21)],
    );
    c.whole(
        "rule 21: before rule 22",
        format!("{MODE}\n{TYPE}\n{VARIABLE}\n"),
        &[(4, 1, 21), (4, 4, 21), (4, 5, 21), (4, 900, 22)],
    );
    c.whole(
        "rule 21: any run's location",
        format!(
            "{VERSION}\n{MODE}\n{TYPE}\n{WORDS}\n{FIXED}\n{VARIABLE}\nMTD→ms_run[64]-location→a\n"
        ),
        &[],
    );
    c.whole(
        "rule 21: a run's location of no index",
        format!(
            "{VERSION}\n{MODE}\n{TYPE}\n{WORDS}\nMTD→ms_run[65]-location→a\n\
             MTD→ms_run[1]-format→[,,a,]\n{FIXED}\n{VARIABLE}\n"
        ),
        &[(5, 2, 24), (9, 5, 21)],
    );
    c.whole(
        "rule 21: on a line that has not three cells",
        format!("{VERSION}→\nMTD→mzTab-mode\n{TYPE}\n{WORDS}\n{RUN}\n"),
        &[(1, 1, 3), (2, 1, 3), (6, 1, 21), (6, 2, 21)],
    );
    c.whole(
        "rule 21: a value not of its kind is there",
        "MTD→mzTab-version→\nMTD→mzTab-mode→x\nMTD→mzTab-type→y\nMTD→description→\n\
         MTD→ms_run[1]-location→\n",
        &[(1, 3, 7), (2, 3, 7), (3, 3, 7), (4, 3, 7), (5, 3, 7)],
    );
    c.whole(
        "rule 21: in comments and unknown lines",
        "COM→mzTab-version→1.0\nmtd→mzTab-mode→Summary\n",
        &[
            (2, 1, 2),
            (3, 1, 21),
            (3, 2, 21),
            (3, 3, 21),
            (3, 4, 21),
            (3, 5, 21),
        ],
    );
    c.whole(
        "rule 21: mzTab-ID and title are not required; others are not these",
        "MTD→mzTab-ID→a\nMTD→title→a\nMTD→sample[1]-description→a\nMTD→cv[1]-version→1.0\n",
        &[(5, 1, 21), (5, 2, 21), (5, 3, 21), (5, 4, 21), (5, 5, 21)],
    );
}
