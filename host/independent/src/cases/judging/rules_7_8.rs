//! The values of metadata.

use super::{full_head, Cases, MH, SOFTWARE};

pub(super) fn rule_7(c: &mut Cases) {
    for value in ["1.0", "1.0.0"] {
        let file = full_head().replace("1.0", value);
        c.whole("rule 7: version", file, &[]);
    }
    for value in ["1.0.1", "1", "1.0.", "01.0", "1.0 ", "1.0.0.0", "", "null"] {
        c.whole(
            "rule 7: not a version",
            full_head().replace("1.0", value),
            &[(1, 3, 7)],
        );
    }
    c.whole(
        "rule 7: mode Complete",
        full_head().replace("Summary", "Complete") + SOFTWARE,
        &[],
    );
    for value in ["summary", "COMPLETE", "", "Quantification", "null"] {
        c.whole(
            "rule 7: not a mode",
            full_head().replace("Summary", value),
            &[(2, 3, 7)],
        );
    }
    c.whole(
        "rule 7: type",
        full_head().replace("Identification", "Quantification"),
        &[],
    );
    for value in ["identification", "Quantitation", "", "Summary", "null"] {
        c.whole(
            "rule 7: not a type",
            full_head().replace("Identification", value),
            &[(3, 3, 7)],
        );
    }
    c.mtd("rule 7: text of one byte", "title", " ", &[]);
    c.mtd("rule 7: empty text", "title", "", &[(6, 3, 7)]);
    c.mtd("rule 7: null is plain text", "title", "null", &[]);
    c.mtd(
        "rule 7: null is no parameter",
        "custom[1]",
        "null",
        &[(6, 3, 7)],
    );
    c.mtd(
        "rule 7: null is no parameter list",
        "false_discovery_rate",
        "null",
        &[(6, 3, 7)],
    );
    c.mtd(
        "rule 7: null is no reference",
        "assay[1]-sample_ref",
        "null",
        &[(6, 3, 7)],
    );
    c.mtd(
        "rule 7: null is no reference list",
        "study_variable[1]-sample_refs",
        "null",
        &[(6, 3, 7)],
    );
    c.mtd("rule 7: an empty colunit", "colunit-psm", "", &[(6, 3, 7)]);
    c.mtd("rule 7: a colunit is text", "colunit-psm", "nonsense", &[]);
    c.mtd(
        "rule 7: a list where one is asked",
        "custom[1]",
        "[,,a,]|[,,b,]",
        &[(6, 3, 7)],
    );
    c.mtd(
        "rule 7: fragmentation_method is one parameter",
        "ms_run[1]-fragmentation_method",
        "[,,a,]|[,,b,]",
        &[(6, 3, 7)],
    );
    c.mtd(
        "rule 7: a list",
        "sample_processing[1]",
        "[,,a,]|[,,b,]",
        &[],
    );
    c.mtd(
        "rule 7: a list with an empty part",
        "sample_processing[1]",
        "[,,a,]|",
        &[(6, 3, 7)],
    );
    c.mtd(
        "rule 7: a bar in marks",
        "sample_processing[1]",
        "[,,\"a|b\",]",
        &[],
    );
    c.mtd(
        "rule 7: a bar outside",
        "sample_processing[1]",
        "[,,a|b,]",
        &[(6, 3, 7)],
    );
    c.mtd(
        "rule 7: a bar in one parameter",
        "custom[1]",
        "[,,a|b,]",
        &[],
    );
    c.mtd(
        "rule 7: a mark left open",
        "custom[1]",
        "[,,\"a,]",
        &[(6, 3, 7)],
    );
    c.mtd(
        "rule 7: a last bracket in marks",
        "custom[1]",
        "[,,a,\"]",
        &[(6, 3, 7)],
    );
    c.mtd(
        "rule 7: third field of spaces",
        "custom[1]",
        "[a,b,  ,c]",
        &[(6, 3, 7)],
    );
    c.mtd(
        "rule 7: a reference of another family",
        "assay[1]-sample_ref",
        "assay[1]",
        &[(6, 3, 7)],
    );
    c.mtd(
        "rule 7: run and sample",
        "assay[1]-ms_run_ref",
        "sample[1]",
        &[(6, 3, 7)],
    );
    c.mtd(
        "rule 7: a reference list with a space before the comma",
        "study_variable[1]-assay_refs",
        "assay[1] ,assay[1]",
        &[(6, 3, 7)],
    );
    c.mtd(
        "rule 7: a list where one reference is asked",
        "assay[1]-ms_run_ref",
        "ms_run[1],ms_run[1]",
        &[(6, 3, 7)],
    );
    c.mtd(
        "rule 7: 7 stops 8",
        "study_variable[1]-assay_refs",
        "assay[9],assay",
        &[(6, 3, 7)],
    );
    c.mtd(
        "rule 7: 7 stops 8 with no index",
        "assay[1]-ms_run_ref",
        "ms_run[]",
        &[(6, 3, 7)],
    );
    c.headed(
        "rule 7: a key whose value breaks it declares still",
        "MTD→sample[3]-description→\nMTD→assay[1]-sample_ref→sample[3]\n",
        &[(6, 3, 7)],
    );
}

pub(super) fn rule_8(c: &mut Cases) {
    c.headed(
        "rule 8: declared above",
        "MTD→sample[2]-description→a\nMTD→assay[1]-sample_ref→sample[2]\n",
        &[],
    );
    c.headed(
        "rule 8: declared below",
        "MTD→assay[1]-sample_ref→sample[2]\nMTD→sample[2]-description→a\n",
        &[],
    );
    c.mtd(
        "rule 8: undeclared sample",
        "assay[1]-sample_ref",
        "sample[1]",
        &[(6, 3, 8)],
    );
    c.mtd(
        "rule 8: the run of line 5",
        "assay[1]-ms_run_ref",
        "ms_run[1]",
        &[],
    );
    c.mtd(
        "rule 8: undeclared run",
        "assay[1]-ms_run_ref",
        "ms_run[2]",
        &[(6, 3, 8)],
    );
    c.mtd(
        "rule 8: undeclared assay",
        "study_variable[1]-assay_refs",
        "assay[1]",
        &[(6, 3, 8)],
    );
    c.headed(
        "rule 8: one of a list, two of a list, once each",
        "MTD→assay[1]-ms_run_ref→ms_run[1]\nMTD→study_variable[1]-assay_refs→assay[1], assay[2]\n\
         MTD→study_variable[2]-assay_refs→assay[3],assay[2]\n\
         MTD→study_variable[3]-assay_refs→assay[1],assay[1]\n",
        &[(7, 3, 8), (8, 3, 8)],
    );
    c.headed(
        "rule 8: sample[1] is not sample[10]",
        "MTD→sample[10]-description→a\nMTD→assay[1]-sample_ref→sample[1]\n\
         MTD→assay[2]-sample_ref→sample[10]\n",
        &[(7, 3, 8)],
    );
    c.headed(
        "rule 8: the families are apart",
        "MTD→study_variable[4]-description→a\nMTD→assay[4]-ms_run_ref→ms_run[4]\n\
         MTD→study_variable[4]-sample_refs→sample[4]\nMTD→study_variable[4]-assay_refs→assay[4]\n",
        &[(7, 3, 8), (8, 3, 8)],
    );
    c.headed(
        "rule 8: sample_processing declares no sample",
        "MTD→sample_processing[1]→[,,a,]\nMTD→assay[1]-sample_ref→sample[1]\n",
        &[(7, 3, 8)],
    );
    c.headed(
        "rule 8: declared by a line that breaks rule 4",
        format!("MTD→assay[1]-sample_ref→sample[2]\n{MH}\nMTD→sample[2]-description→a\n"),
        &[(8, 1, 4)],
    );
    c.headed(
        "rule 8: the second index declares nothing",
        "MTD→sample[1]-species[2]→[,,a,]\nMTD→study_variable[1]-sample_refs→sample[2]\n\
         MTD→study_variable[2]-sample_refs→sample[1]\n",
        &[(7, 3, 8)],
    );
    c.headed(
        "rule 8: a key declares by its first id, not by its value",
        "MTD→assay[7]-sample_ref→sample[8]\nMTD→study_variable[1]-assay_refs→assay[7]\n\
         MTD→study_variable[1]-sample_refs→sample[8]\n",
        &[(6, 3, 8), (8, 3, 8)],
    );
    c.headed(
        "rule 8: 64",
        "MTD→sample[64]-description→a\nMTD→assay[64]-sample_ref→sample[64]\n\
         MTD→study_variable[64]-assay_refs→assay[64],assay[63]\n",
        &[(8, 3, 8)],
    );
    c.headed(
        "rule 8: text names no id",
        "MTD→title→sample[9]\nMTD→colunit-protein→protein_abundance_assay[9]=[,,a,]\n",
        &[],
    );
}
