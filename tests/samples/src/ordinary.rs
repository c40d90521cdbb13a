//! A file as a laboratory sends it.

use crate::Draws;

const METADATA: &str = "MTD\tmzTab-version\t1.0.0\nMTD\tmzTab-mode\tSummary\nMTD\tmzTab-type\tQuantification\n\
    MTD\tdescription\tYeast check\nMTD\tprotein_search_engine_score[1]\t[MS, MS:1001171, Mascot:score, ]\n\
    MTD\tfixed_mod[1]\t[UNIMOD, UNIMOD:4, Carbamidomethyl, ]\nMTD\tvariable_mod[1]\t[UNIMOD, UNIMOD:35, Oxidation, ]\n\
    MTD\tprotein-quantification_unit\t[PRIDE, PRIDE:0000393, Relative quantification unit, ]\n\
    MTD\tms_run[1]-location\tfile:///a.mzML\nMTD\tassay[1]-quantification_reagent\t[MS, MS:1002038, unlabeled sample, ]\n\
    MTD\tassay[1]-ms_run_ref\tms_run[1]\n";

const HEADER: &str =
    "PRH\taccession\tdescription\ttaxid\tdatabase\tsearch_engine\tbest_search_engine_score[1]\t\
    num_psms_ms_run[1]\tprotein_abundance_assay[1]\n";

const NAMES: [&str; 8] = [
    "Alcohol dehydrogenase 1",
    "Enolase 2, cytosolic",
    "Heat shock protein SSA1",
    "60S ribosomal protein L3",
    "Pyruvate kinase 1",
    "Elongation factor 1-alpha",
    "Actin",
    "Transaldolase, NQM1-like",
];

/// Eleven metadata lines, a protein header of eight columns and rows of some 100 bytes, then LF up to `size`: no rule is broken.
pub fn ordinary(size: usize) -> Vec<u8> {
    let mut draws = Draws::new(20_120_515);
    let mut file = Vec::with_capacity(size);
    file.extend_from_slice(METADATA.as_bytes());
    file.extend_from_slice(HEADER.as_bytes());
    loop {
        let row = row(&mut draws);
        if file.len() + row.len() > size {
            break;
        }
        file.extend_from_slice(row.as_bytes());
    }
    file.resize(size.max(file.len()), b'\n');
    file
}

fn row(draws: &mut Draws) -> String {
    format!(
        "PRT\tP{:05}\t{}\t4932\tUniProtKB\t[MS, MS:1001207, Mascot, ]\t{}.{:02}\t{}\t{}.{}\n",
        draws.below(100_000),
        draws.one_of(&NAMES),
        draws.below(200),
        draws.below(100),
        draws.below(300),
        draws.below(1_000_000),
        draws.below(1_000)
    )
}
