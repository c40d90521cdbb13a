//! Control bytes and line codes.

use super::{Cases, PH, PR};
use crate::cases::tabs;

pub(super) fn rule_1(c: &mut Cases) {
    c.headed("rule 1: byte 31", b"MTD\ttitle\ta\x1fb\n", &[(6, 3, 1)]);
    c.headed("rule 1: byte 32", b"MTD\ttitle\ta b\n", &[]);
    c.headed("rule 1: byte 126", b"MTD\ttitle\t~\n", &[]);
    c.headed("rule 1: byte 127", b"MTD\ttitle\t\x7f\n", &[(6, 3, 1)]);
    c.headed("rule 1: byte 128", b"MTD\ttitle\t\x80\n", &[]);
    c.headed("rule 1: byte 0", b"MTD\ttitle\t\x00\n", &[(6, 3, 1)]);
    c.headed(
        "rule 1: bytes 11 and 12",
        b"MTD\ttitle\t\x0b\nMTD\tmzTab-ID\t\x0c\n",
        &[(6, 3, 1), (7, 3, 1)],
    );
    c.headed(
        "rule 1: in the code",
        b"MTD\x01\ttitle\ta\n",
        &[(6, 1, 1), (6, 1, 2)],
    );
    c.headed(
        "rule 1: in the key",
        b"MTD\tti\x01tle\ta\n",
        &[(6, 2, 1), (6, 2, 5)],
    );
    c.headed(
        "rule 1: only the first of a line",
        b"MTD\ttitle\x02\t\x01\x03\n",
        &[(6, 2, 1), (6, 2, 5)],
    );
    c.headed(
        "rule 1: on each line",
        b"MTD\ttitle\t\x01\nMTD\tmzTab-ID\t\x01\n",
        &[(6, 3, 1), (7, 3, 1)],
    );
    c.headed(
        "rule 1: on an unknown line",
        b"XXX\ta\tb\t\x01\n",
        &[(6, 1, 2), (6, 4, 1)],
    );
    c.headed(
        "rule 1: does not stop 3",
        b"MTD\t\x01\n",
        &[(6, 1, 3), (6, 2, 1)],
    );
    c.headed(
        "rule 1: in a header and in a row",
        [
            tabs(PH),
            b"\topt_\x01\n".to_vec(),
            tabs(PR),
            b"\t\x01\n".to_vec(),
        ]
        .concat(),
        &[(6, 6, 1), (7, 6, 1)],
    );
    c.headed(
        "rule 1: does not stop 12 nor 20",
        [
            tabs(PH),
            b"\ttaxid\tx\x01\n".to_vec(),
            tabs(PR),
            b"\t1\x01\t\n".to_vec(),
        ]
        .concat(),
        &[(6, 7, 1), (6, 7, 12), (7, 6, 1), (7, 6, 20), (7, 7, 19)],
    );
    c.headed(
        "rule 1: in a row that has no header",
        b"PRT\ta\tb\x7f\n",
        &[(6, 1, 17), (6, 3, 1)],
    );
}

pub(super) fn rule_2(c: &mut Cases) {
    c.headed(
        "rule 2: case counts",
        "mtd→title→a\nMtd→title→a\nprh→x\nPrt→x\nPEp→x\npsm→x\nSMl→x\nCom\n",
        &[
            (6, 1, 2),
            (7, 1, 2),
            (8, 1, 2),
            (9, 1, 2),
            (10, 1, 2),
            (11, 1, 2),
            (12, 1, 2),
            (13, 1, 2),
        ],
    );
    c.headed(
        "rule 2: longer and shorter",
        "PRTx→a\nPR→a\n→PRT\nMTD →title→a\n MTD→title→a\nMTD title a\n",
        &[
            (6, 1, 2),
            (7, 1, 2),
            (8, 1, 2),
            (9, 1, 2),
            (10, 1, 2),
            (11, 1, 2),
        ],
    );
    c.headed(
        "rule 2: codes of no section",
        "PSL→a\nSMT→a\nPEH1→a\nSMP→a\n",
        &[(6, 1, 2), (7, 1, 2), (8, 1, 2), (9, 1, 2)],
    );
    c.headed(
        "rule 2: an unknown line is no header, row nor metadata",
        format!("Prh→a\nPrt→a\nMTD→title→a\nmtd→title→b\n{PH}\nxyz\n{PR}\n"),
        &[(6, 1, 2), (7, 1, 2), (9, 1, 2), (11, 1, 2)],
    );
}
