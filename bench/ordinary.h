/* An ordinary file of n bytes, for benchmarks over tests/host.c. */
/* Eleven metadata lines, a protein header of eight columns, and rows of some 100 bytes: nothing is broken. With exponents the rows are the same, but the
 * score and the abundance end in one. */
static struct want rows(size_t n, int exponents) {
    static const char *const names[8] = {"Alcohol dehydrogenase 1", "Enolase 2, cytosolic", "Heat shock protein SSA1", "60S ribosomal protein L3",
                                         "Pyruvate kinase 1", "Elongation factor 1-alpha", "Actin", "Transaldolase, NQM1-like"};
    begin(n);
    put("MTD\tmzTab-version\t1.0.0\nMTD\tmzTab-mode\tSummary\nMTD\tmzTab-type\tQuantification\nMTD\tdescription\tYeast check\n"
        "MTD\tms_run[1]-location\tfile:///a.mzML\nMTD\tprotein_search_engine_score[1]\t[MS, MS:1001171, Mascot:score, ]\n"
        "MTD\tfixed_mod[1]\t[MS, MS:1002453, No fixed modifications searched, ]\nMTD\tvariable_mod[1]\t[MS, MS:1002454, No variable modifications searched, ]\n"
        "MTD\tprotein-quantification_unit\t[PRIDE, PRIDE:0000393, Relative quantification unit, ]\n"
        "MTD\tassay[1]-quantification_reagent\t[MS, MS:1002038, unlabeled sample, ]\nMTD\tassay[1]-ms_run_ref\tms_run[1]\n"
        "PRH\taccession\tdescription\ttaxid\tdatabase\tsearch_engine\tbest_search_engine_score[1]\tnum_psms_ms_run[1]\tprotein_abundance_assay[1]\n");
    seed = 20120515;
    for (;;) {
        char row[256], score[16] = "", abundance[16] = "";
        unsigned accession = (unsigned)draw(100000), name = (unsigned)draw(8), psms = (unsigned)draw(300);
        unsigned whole = (unsigned)draw(200), places = (unsigned)draw(100), large = (unsigned)draw(1000000), small = (unsigned)draw(1000);
        if (exponents) {
            sprintf(score, "E-%02u", places % 30);
            sprintf(abundance, "e+%02u", small % 10);
        }
        sprintf(row, "PRT\tP%05u\t%s\t4932\tUniProtKB\t[MS, MS:1001207, Mascot, ]\t%u.%02u%s\t%u\t%u.%u%s\n", accession, names[name], whole, places, score, psms,
                large, small, abundance);
        if (at + strlen(row) > n) break;
        put(row);
    }
    fill('\n', n);
    return want(0, 0, 0, 0);
}

static struct want ordinary(size_t n) { return rows(n, 0); }
