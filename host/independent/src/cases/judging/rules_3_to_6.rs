//! Metadata lines and their keys.

use super::{head, wide, Cases, EH, MH, MR, PH, RUN, SH, VERSION};

pub(super) fn rule_3(c: &mut Cases) {
    c.headed("rule 3: one cell", "MTD\n", &[(6, 1, 3)]);
    c.headed("rule 3: two cells", "MTD→title\n", &[(6, 1, 3)]);
    c.headed("rule 3: three cells", "MTD→title→a\n", &[]);
    c.headed("rule 3: four cells", "MTD→title→a→b\n", &[(6, 1, 3)]);
    c.headed(
        "rule 3: four cells by a tab at the end",
        "MTD→title→a→\n",
        &[(6, 1, 3)],
    );
    c.headed(
        "rule 3: 3 stops 5",
        "MTD→foo\nMTD→foo→a→b\n",
        &[(6, 1, 3), (7, 1, 3)],
    );
    c.headed(
        "rule 3: 3 stops 6",
        "MTD→title→a\nMTD→title→a→b\nMTD→title\n",
        &[(7, 1, 3), (8, 1, 3)],
    );
    c.headed(
        "rule 3: 3 stops 7",
        "MTD→custom[1]→bad→x\nMTD→mzTab-mode\n",
        &[(6, 1, 3), (7, 1, 3)],
    );
    c.headed(
        "rule 3: 3 stops 8",
        "MTD→assay[1]-sample_ref→sample[9]→\n",
        &[(6, 1, 3)],
    );
    c.headed(
        "rule 3: 3 does not stop 1 nor 4",
        format!("{PH}\nMTD→foo→a\u{1}→b\n"),
        &[(7, 1, 3), (7, 1, 4), (7, 3, 1)],
    );
    c.headed(
        "rule 3: such a line declares nothing and repeats nothing",
        "MTD→sample[1]-description\nMTD→assay[1]-sample_ref→sample[1]\nMTD→title\nMTD→title→a\n",
        &[(6, 1, 3), (7, 3, 8), (8, 1, 3)],
    );
}

pub(super) fn rule_4(c: &mut Cases) {
    c.headed(
        "rule 4: after a header",
        format!("{PH}\nMTD→title→a\n"),
        &[(7, 1, 4)],
    );
    c.headed(
        "rule 4: after a row alone",
        format!("{MR}\nMTD→title→a\n"),
        &[(6, 1, 17), (7, 1, 4)],
    );
    c.headed(
        "rule 4: before the header",
        format!("MTD→title→a\n{PH}\n"),
        &[],
    );
    c.headed(
        "rule 4: after comment and unknown line",
        "COM\nPRHx\nMTD→title→a\n",
        &[(7, 1, 2)],
    );
    c.headed(
        "rule 4: after each header, each line",
        format!("{EH}\nMTD→title→a\n{SH}\nMTD→mzTab-ID→a\n\nMTD→uri[1]→a\n"),
        &[(7, 1, 4), (9, 1, 4), (11, 1, 4)],
    );
    c.headed(
        "rule 4: after a header of rule 11",
        format!("{}\nMTD→title→a\n", wide(257)),
        &[(6, 1, 11), (7, 1, 4)],
    );
    c.headed(
        "rule 4: does not stop 5 to 8",
        format!(
            "{MH}\nMTD→foo→a\nMTD→description→a\nMTD→custom[1]→a\nMTD→assay[1]-sample_ref→sample[1]\n"
        ),
        &[
            (7, 1, 4),
            (7, 2, 5),
            (8, 1, 4),
            (8, 2, 6),
            (9, 1, 4),
            (9, 3, 7),
            (10, 1, 4),
            (10, 3, 8),
        ],
    );
    c.first(&[4]);
    c.whole(
        "rule 4: late metadata counts for rule 21 and rule 6",
        format!("{MH}\n{}{VERSION}\n", head()),
        &[
            (2, 1, 4),
            (3, 1, 4),
            (4, 1, 4),
            (5, 1, 4),
            (6, 1, 4),
            (7, 1, 4),
            (7, 2, 6),
            (8, 800, 22),
            (8, 900, 22),
            (8, 1000, 22),
        ],
    );
    c.first(&[2]);
}

pub(super) fn rule_5(c: &mut Cases) {
    c.headed("rule 5: unknown", "MTD→foo→a\n", &[(6, 2, 5)]);
    c.headed("rule 5: empty key", "MTD→→a\n", &[(6, 2, 5)]);
    c.headed(
        "rule 5: case counts",
        "MTD→Title→a\nMTD→mztab-ID→a\nMTD→mzTab-id→a\nMTD→TITLE→a\n",
        &[(6, 2, 5), (7, 2, 5), (8, 2, 5), (9, 2, 5)],
    );
    c.headed(
        "rule 5: names of 000 that the paper has not",
        "MTD→ms_run[1]-hash→a\nMTD→ms_run[1]-hash_method→[,,a,]\nMTD→ms_run_location[1]→a\n\
         MTD→fixed_modification[1]→[,,a,]\n",
        &[(6, 2, 5), (7, 2, 5), (8, 2, 5), (9, 2, 5)],
    );
    c.headed(
        "rule 5: a bare id",
        "MTD→sample[1]→a\nMTD→assay[1]→a\nMTD→ms_run[1]→a\n",
        &[(6, 2, 5), (7, 2, 5), (8, 2, 5)],
    );
    c.headed(
        "rule 5: spaces around",
        "MTD→title →a\nMTD→ title→a\n",
        &[(6, 2, 5), (7, 2, 5)],
    );
    c.headed(
        "rule 5: 5 stops 6",
        "MTD→foo→a\nMTD→foo→a\n",
        &[(6, 2, 5), (7, 2, 5)],
    );
    c.headed(
        "rule 5: 5 stops 7",
        "MTD→foo→\nMTD→custom[]→a\n",
        &[(6, 2, 5), (7, 2, 5)],
    );
    c.headed(
        "rule 5: 5 stops 8",
        "MTD→assay[]-sample_ref→sample[9]\n",
        &[(6, 2, 5)],
    );
    c.headed(
        "rule 5: an unknown key declares nothing",
        "MTD→sample[1]-foo→a\nMTD→assay[1]-sample_ref→sample[1]\n",
        &[(6, 2, 5), (7, 3, 8)],
    );
    c.whole("rule 5: every key", every_key(), &[]);
}

/// Every key of the paper, with a value of its kind.
fn every_key() -> &'static str {
    "MTD→mzTab-version→1.0
MTD→mzTab-mode→Complete
MTD→mzTab-type→Quantification
MTD→mzTab-ID→PRIDE_1234
MTD→title→null
MTD→description→null
MTD→sample_processing[1]→[SEP, SEP:00173, SDS PAGE,]|[SEP, SEP:00142, enzyme digestion,]
MTD→sample_processing[64]→[,,a,]
MTD→instrument[1]-name→[MS, MS:100049, LTQ Orbitrap,]
MTD→instrument[1]-source→[MS, MS:1000073, ESI,]
MTD→instrument[1]-analyzer[1]→[MS, MS:1000291, linear ion trap,]
MTD→instrument[1]-analyzer[2]→[MS, MS:1000484, orbitrap,]
MTD→instrument[1]-detector→[MS, MS:1000253, electron multiplier,]
MTD→software[1]→[MS, MS:1001207, Mascot, 2.3]
MTD→software[2]-setting[1]→Fragment tolerance = 0.1 Da
MTD→software[2]-setting[2]→Fragment tolerance = 0.1 Da
MTD→protein_search_engine_score[1]→[MS, MS:1001171, Mascot:score,]
MTD→peptide_search_engine_score[1]→[MS, MS:1001171, Mascot:score,]
MTD→psm_search_engine_score[1]→[MS, MS:1001171, Mascot:score,]
MTD→smallmolecule_search_engine_score[1]→[MS, MS:1001419, SpectraST:discriminant score F,]
MTD→false_discovery_rate→[MS, MS:1001364, pep:global FDR, 0.01]|[,,other, 0.08]
MTD→publication[1]→pubmed:21063943|doi:10.1007/978-1-60761-987-1_6
MTD→contact[1]-name→James D. Watson
MTD→contact[1]-affiliation→Cambridge University, UK
MTD→contact[1]-email→watson@cam.ac.uk
MTD→uri[1]→http://www.ebi.ac.uk/pride/url/to/experiment
MTD→fixed_mod[1]→[UNIMOD, UNIMOD:4, Carbamidomethyl, ]
MTD→fixed_mod[1]-site→M
MTD→fixed_mod[1]-position→Protein C-term
MTD→variable_mod[1]→[UNIMOD, UNIMOD:21, Phospho, ]
MTD→variable_mod[1]-site→M
MTD→variable_mod[1]-position→Anywhere
MTD→quantification_method→[MS, MS:1001837, iTRAQ, ]
MTD→protein-quantification_unit→[PRIDE, PRIDE:0000395, Ratio, ]
MTD→peptide-quantification_unit→[PRIDE, PRIDE:0000395, Ratio, ]
MTD→small_molecule-quantification_unit→[PRIDE, PRIDE:0000395, Ratio, ]
MTD→ms_run[1]-format→[MS, MS:1000584, mzML file,]
MTD→ms_run[1]-location→file:///C:/path/to/my/file
MTD→ms_run[1]-id_format→[MS, MS:1000530, mzML unique identifier,]
MTD→ms_run[1]-fragmentation_method→[MS, MS:1000133, CID,]
MTD→custom[1]→[,,MS operator, Florian]
MTD→sample[1]-species[1]→[NEWT, 9606, Homo sapiens (Human), ]
MTD→sample[1]-species[2]→[NEWT, 573824, Human rhinovirus 1, ]
MTD→sample[1]-tissue[1]→[BTO, BTO:0000759, liver, ]
MTD→sample[1]-cell_type[1]→[CL, CL:0000182, hepatocyte, ]
MTD→sample[1]-disease[1]→[DOID, DOID:684, hepatocellular carcinoma, ]
MTD→sample[1]-description→Hepatocellular carcinoma samples.
MTD→sample[1]-custom[1]→[,,Extraction date, 2011-12-21]
MTD→assay[1]-quantification_reagent→[MS,MS:1002038,unlabeled sample, ]
MTD→assay[2]-quantification_reagent→[PRIDE,PRIDE:0000325,SILAC medium,]
MTD→assay[2]-quantification_mod[1]→[UNIMOD, UNIMOD:188, Label:13C(6), ]
MTD→assay[2]-quantification_mod[1]-site→R
MTD→assay[2]-quantification_mod[1]-position→Anywhere
MTD→assay[1]-sample_ref→sample[1]
MTD→assay[1]-ms_run_ref→ms_run[1]
MTD→assay[2]-ms_run_ref→ms_run[1]
MTD→study_variable[1]-assay_refs→assay[1], assay[2],assay[1],   assay[1]
MTD→study_variable[1]-sample_refs→sample[1]
MTD→study_variable[1]-description→Group B (spike-in 0.74 fmol/uL)
MTD→cv[1]-label→MS
MTD→cv[1]-full_name→MS
MTD→cv[1]-version→3.54.0
MTD→cv[1]-url→http://psidev.cvs.sourceforge.net/
MTD→colunit-protein→a
MTD→colunit-peptide→retention_time=[UO,UO:0000031, minute,]
MTD→colunit-psm→retention_time=[UO,UO:0000031, minute,]
MTD→colunit-small_molecule→retention_time=[UO,UO:0000031, minute,]
MTD→colunit-small_molecule→retention_time=[UO,UO:0000031, minute,]
"
}

pub(super) fn rule_6(c: &mut Cases) {
    c.headed("rule 6: twice", "MTD→title→a\nMTD→title→b\n", &[(7, 2, 6)]);
    c.first(&[6]);
    c.headed(
        "rule 6: three times",
        "MTD→title→a\nMTD→title→a\n\nMTD→title→a\n",
        &[(7, 2, 6), (9, 2, 6)],
    );
    c.first(&[6, 6]);
    c.headed(
        "rule 6: another index is another key",
        "MTD→uri[1]→a\nMTD→uri[2]→a\nMTD→software[1]-setting[1]→a\nMTD→software[1]-setting[2]→a\n\
         MTD→software[2]-setting[1]→a\nMTD→software[1]→[,,a,]\nMTD→uri[1]→a\n",
        &[(12, 2, 6)],
    );
    c.first(&[6]);
    c.headed(
        "rule 6: colunit apart",
        "MTD→colunit-protein→a\nMTD→colunit-protein→a\nMTD→colunit-peptide→a\n\
         MTD→colunit-peptide→a\nMTD→colunit-psm→a\nMTD→colunit-psm→a\n\
         MTD→colunit-small_molecule→a\nMTD→colunit-small_molecule→b\nMTD→colunit-small_molecule→b\n",
        &[],
    );
    c.headed(
        "rule 6: the earlier line may break rule 7",
        "MTD→uri[1]→\nMTD→uri[1]→a\n",
        &[(6, 3, 7), (7, 2, 6)],
    );
    c.first(&[6]);
    c.headed(
        "rule 6: does not stop 7",
        "MTD→uri[1]→a\nMTD→uri[1]→\n",
        &[(7, 2, 6), (7, 3, 7)],
    );
    c.first(&[6]);
    c.headed(
        "rule 6: does not stop 8",
        "MTD→assay[1]-sample_ref→sample[1]\nMTD→assay[1]-sample_ref→sample[2]\n\
         MTD→sample[1]-description→a\n",
        &[(7, 2, 6), (7, 3, 8)],
    );
    c.first(&[6]);
    c.headed(
        "rule 6: a comment is no earlier line",
        "COM→title→a\nMTD→title→a\n",
        &[],
    );
    c.headed(
        "rule 6: the required ones too",
        format!("{RUN}\n{VERSION}\n"),
        &[(6, 2, 6), (7, 2, 6)],
    );
    c.first(&[5, 1]);
}
