/* How long `mztab_weights` takes beside `mztab_judge` in the same run, on 16 MB of ordinary protein rows with the abundances of some study variables, a fifth of
 * them `null`, and `mztab_rows` on the same files. Best of nine each. And a split over 8 and 64 weights. Fails where an answer is wrong. */
#define HOSTILE_FILES_ONLY
#include "../tests/host.c"
#include "least.h"

enum { TRIES = 9, VARIABLES = 64, SPLITS = 100000 };
static int wrong;

/* Ordinary rows with the abundances of so many study variables; their weights and the rows are counted on the way. */
static uint32_t abundances(size_t n, unsigned variables, uint32_t weights[VARIABLES]) {
    char text[8192];
    uint32_t rows = 0;
    begin(n);
    memset(weights, 0, VARIABLES * sizeof *weights);
    put("MTD\tmzTab-version\t1.0.0\nMTD\tmzTab-mode\tSummary\nMTD\tmzTab-type\tQuantification\nMTD\tdescription\tYeast check\nMTD\tms_run[1]-location\tfile:///a.mzML\n"
        "MTD\tprotein_search_engine_score[1]\t[MS, MS:1001171, Mascot:score, ]\nMTD\tfixed_mod[1]\t[MS, MS:1002453, No fixed modifications searched, ]\n"
        "MTD\tvariable_mod[1]\t[MS, MS:1002454, No variable modifications searched, ]\nMTD\tprotein-quantification_unit\t[PRIDE, PRIDE:0000393, Relative quantification unit, ]\n");
    for (unsigned i = 1; i <= variables; i++) sprintf(text, "MTD\tstudy_variable[%u]-description\tcondition %u\n", i, i), put(text);
    put("PRH\taccession\tdescription\ttaxid\tdatabase\tsearch_engine\tbest_search_engine_score[1]");
    for (unsigned i = 1; i <= variables; i++) sprintf(text, "\tprotein_abundance_study_variable[%u]", i), put(text);
    put("\n");
    for (;; rows++) {
        uint32_t given[VARIABLES] = {0};
        char *end = text + sprintf(text, "PRT\tP%05u\tAlcohol dehydrogenase %u\t4932\tUniProtKB\t[MS, MS:1001207, Mascot, ]\t%u.%02u", (unsigned)draw(100000),
                                   (unsigned)draw(8), (unsigned)draw(200), (unsigned)draw(100));
        for (unsigned i = 0; i < variables; i++) {
            given[i] = draw(5) != 0;
            end += given[i] ? sprintf(end, "\t%u.%u", (unsigned)draw(1000000), (unsigned)draw(1000)) : sprintf(end, "\tnull");
        }
        strcpy(end, "\n");
        if (at + strlen(text) > n) break;
        put(text);
        for (unsigned i = 0; i < variables; i++) weights[i] += given[i];
    }
    fill('\n', n);
    return rows;
}

static void beside(unsigned variables) {
    uint32_t wanted[VARIABLES], weights[VARIABLES], place, number = 77;
    uint32_t rows = abundances(LIMIT, variables, wanted);
    double judge = 1e18, weigh = 1e18, count = 1e18;
    for (int i = 0; i < TRIES; i++) {
        double a = now();
        wrong |= mztab_judge(file, LIMIT, &place, 0, &number) != 0;
        double b = now();
        mztab_weights(file, LIMIT, weights, VARIABLES, &number);
        double c = now();
        wrong |= number != 0 || memcmp(weights, wanted, sizeof weights) != 0;
        double d = now();
        wrong |= mztab_rows(file, LIMIT, 1, &number) != rows;
        least(&judge, b - a);
        least(&weigh, c - b);
        least(&count, now() - d);
    }
    printf("%-16u %10u %10.2f %10.2f %8.2f %10.2f\n", variables, rows, judge, weigh, weigh / judge, count);
}

static void split(unsigned n) {
    uint32_t weights[VARIABLES], number;
    uint64_t shares[VARIABLES], sum = 0;
    for (unsigned i = 0; i < n; i++) weights[i] = 1 + (uint32_t)draw(16777215);
    double t = now();
    for (uint64_t fee = 0; fee < SPLITS; fee++) {
        mztab_split_fee(100000000000 - fee, weights, n, shares, n, &number);
        sum += shares[0];
    }
    printf("a split over %2u weights: %.2f microseconds%s\n", n, (now() - t) * 1e3 / SPLITS, sum ? "" : "  WRONG");
}

int main(void) {
    file = malloc(LIMIT + 1);
    if (!file) return 2;
    printf("%-16s %10s %10s %10s %8s %10s\n", "study variables", "rows", "judge ms", "weights ms", "ratio", "rows ms");
    beside(0);
    beside(1);
    beside(3);
    beside(20);
    beside(VARIABLES);
    split(8);
    split(VARIABLES);
    if (wrong) printf("WRONG\n");
    return wrong;
}
