/* How long `mztab_tally` takes beside `mztab_judge` in the same run: on 16 MB of ordinary rows, of protein rows with the three counts of some runs, a fifth of
 * them `null`, and on accepted files that are made to be dear. Best of nine each. And a sum of two tallies, a record written, and one read. Fails where an
 * answer is wrong. */
#define HOSTILE_FILES_ONLY
#include "../tests/host.c"
#include "ordinary.h"
#include "least.h"

enum { TRIES = 9, CALLS = 1000000, RECORD = 70 };
static int wrong;

/* What files of proteins and PSMs are asked for, and 64 runs. */
static void metadata(void) {
    char line[64];
    put("MTD\tmzTab-version\t1.0.0\nMTD\tmzTab-mode\tSummary\nMTD\tmzTab-type\tIdentification\nMTD\tdescription\tYeast check\n"
        "MTD\tprotein_search_engine_score[1]\t[MS, MS:1001171, Mascot:score, ]\nMTD\tpsm_search_engine_score[1]\t[MS, MS:1001171, Mascot:score, ]\n"
        "MTD\tfixed_mod[1]\t[MS, MS:1002453, No fixed modifications searched, ]\nMTD\tvariable_mod[1]\t[MS, MS:1002454, No variable modifications searched, ]\n");
    for (unsigned i = 1; i <= RUNS; i++) sprintf(line, "MTD\tms_run[%u]-location\tfile:///a.mzML\n", i), put(line);
}

/* A row of the usual columns, and counts of one to four digits. */
static void usual(char *s, unsigned counts) {
    static const uint64_t tens[4] = {10, 100, 1000, 10000};
    s += sprintf(s, "PRT\tP%05u\tAlcohol dehydrogenase %u\t4932\tUniProtKB\t[MS, MS:1001207, Mascot, ]\t%u.%02u", (unsigned)draw(100000), (unsigned)draw(8),
                 (unsigned)draw(200), (unsigned)draw(100));
    for (; counts > 0; counts--) s += draw(5) ? sprintf(s, "\t%u", (unsigned)draw(tens[draw(4)])) : sprintf(s, "\tnull");
}

/* A row of one letter a column, and counts of one digit. */
static void digits_alone(char *s, unsigned counts) {
    s += sprintf(s, "PRT\ta\ta\ta\tnull");
    for (; counts > 0; counts--) s += sprintf(s, "\t%u", (unsigned)draw(10));
}

/* The same with `null` among them, in an order that cannot be foretold. */
static void digits_and_null(char *s, unsigned counts) {
    s += sprintf(s, "PRT\ta\ta\ta\tnull");
    for (; counts > 0; counts--) s += draw(2) ? sprintf(s, "\tnull") : sprintf(s, "\t%u", (unsigned)draw(10));
}

static void psm(char *s, unsigned counts) {
    (void)counts;
    sprintf(s, "PSM\tVEILAVNK\t%u\tP00330\t2\tms_run[1]:scan=%u", (unsigned)draw(10000), (unsigned)draw(10000));
}

static void comment(char *s, unsigned counts) { (void)counts; strcpy(s, "COM"); }
static void nothing(char *s, unsigned counts) { (void)counts; *s = 0; }

#define USUAL "PRH\taccession\tdescription\ttaxid\tdatabase\tsearch_engine\tbest_search_engine_score[1]"
#define PROTEINS "PRH\taccession\tdescription\tdatabase\tsearch_engine"
#define SPECTRA "PSH\tsequence\tPSM_ID\taccession\tcharge\tspectra_ref"

/* A file: its header, before the three counts of so many runs, and what writes a row, without its LF. */
static const struct made { const char *name, *header; unsigned runs; void (*row)(char *, unsigned); } MADE[] = {
    {"rows, no counts", USUAL, 0, usual}, {"rows, counts of 1 run", USUAL, 1, usual}, {"rows, counts of 3 runs", USUAL, 3, usual},
    {"rows, counts of 20 runs", USUAL, 20, usual}, {"rows, counts of 64 runs", USUAL, 64, usual},
    {"short rows, no counts", PROTEINS, 0, digits_alone}, {"one-digit counts of 1 run", PROTEINS, 1, digits_alone},
    {"one-digit counts of 64 runs", PROTEINS, 64, digits_alone},
    {"one digit or null, 1 run", PROTEINS, 1, digits_and_null}, {"one digit or null, 64 runs", PROTEINS, 64, digits_and_null},
    {"rows of PSMs alone", SPECTRA, 0, psm}, {"a header of 64 runs, COM lines", PROTEINS, 64, comment}, {"a header of 64 runs, LF alone", PROTEINS, 64, nothing}};

static void make(struct made m) {
    char text[4096];
    begin(LIMIT);
    metadata();
    put(m.header);
    for (unsigned i = 0; i < 3 * m.runs; i++) {
        put("\t");
        count_name(text, i % 3 * RUNS + i / 3);
        put(text);
    }
    put("\n");
    for (;;) {
        m.row(text, 3 * m.runs);
        if (at + strlen(text) + 1 > LIMIT) break;
        put(text);
        put("\n");
    }
    fill('\n', LIMIT);
}

/* Which of the three sums a column adds to, from 1; 0 for none. */
static unsigned kind_of(const uint8_t *name, size_t n) {
    for (unsigned k = 0; k < 3; k++)
        if (n > strlen(COUNTED[k]) && memcmp(name, COUNTED[k], strlen(COUNTED[k])) == 0) return k + 1;
    return 0;
}

/* The cells of a protein line, up to its LF: a header's are learnt, a row's added. */
static void add_cells(const uint8_t *line, const uint8_t *end, uint64_t totals[TOTALS]) {
    static unsigned kinds[256];
    int head = memcmp(line, "PRH", 3) == 0;
    for (unsigned cell = 0; line < end; cell++) {
        const uint8_t *tab = memchr(line, '\t', (size_t)(end - line)), *stop = tab ? tab : end;
        if (head) kinds[cell] = kind_of(line, (size_t)(stop - line));
        else if (kinds[cell] && *line == 'n') totals[MISSING]++;
        else if (kinds[cell]) totals[kinds[cell] - 1] += strtoull((const char *)line, NULL, 10);
        line = stop + 1;
    }
}

/* The totals of an accepted file of LIMIT bytes that ends in LF, plainly. */
static void plainly(uint64_t totals[TOTALS]) {
    memset(totals, 0, TOTALS * sizeof *totals);
    for (const uint8_t *line = file, *lf; line < file + LIMIT; line = lf + 1) {
        lf = memchr(line, '\n', (size_t)(file + LIMIT - line));
        if (lf - line < 3) continue;
        totals[PROTEIN_ROWS] += memcmp(line, "PRT", 3) == 0;
        totals[PSM_ROWS] += memcmp(line, "PSM", 3) == 0;
        if (memcmp(line, "PR", 2) == 0) add_cells(line, lf, totals);
    }
}

/* Judging and tallying the file by turns. */
static void beside(const char *name) {
    uint64_t wanted[TOTALS], totals[TOTALS];
    uint32_t place, number = 77;
    double judge = 1e18, tally = 1e18;
    plainly(wanted);
    for (int i = 0; i < TRIES; i++) {
        double a = now();
        wrong |= mztab_judge(file, LIMIT, &place, 0, &number) != 0;
        double b = now();
        mztab_tally(file, LIMIT, totals, &number);
        double c = now();
        wrong |= number != 0 || memcmp(totals, wanted, sizeof totals) != 0;
        least(&judge, b - a);
        least(&tally, c - b);
    }
    printf("%-34s %10llu %10.2f %10.2f %8.2f\n", name, (unsigned long long)(wanted[PROTEIN_ROWS] + wanted[PSM_ROWS]), judge, tally, tally / judge);
    fflush(stdout);
}

/* Nanoseconds of a sum, of a record written and of one read: the best of so many calls. */
static void small_calls(void) {
    uint64_t a[TOTALS] = {1, 2, 3, 4, 5, 6, 7, 8}, b[TOTALS] = {0}, sum[TOTALS];
    uint8_t bytes[RECORD];
    uint32_t number = 77;
    double best[3] = {1e18, 1e18, 1e18};
    for (int i = 0; i < TRIES; i++) {
        double t[4] = {now()};
        for (int k = 0; k < CALLS; k++) mztab_tally_add(a, b, sum, &number), wrong |= number != 0;
        t[1] = now();
        for (int k = 0; k < CALLS; k++) wrong |= mztab_tally_write(sum, bytes, RECORD, &number) != RECORD;
        t[2] = now();
        for (int k = 0; k < CALLS; k++) mztab_tally_read(bytes, RECORD, b, &number), wrong |= number != 0;
        t[3] = now();
        for (int k = 0; k < 3; k++) least(&best[k], t[k + 1] - t[k]);
    }
    for (uint64_t k = 0; k < TOTALS; k++) wrong |= b[k] != (k + 1) * TRIES;
    printf("a sum of two tallies: %.1f ns; a record written: %.1f ns; a record read: %.1f ns\n", best[0] * 1e6 / CALLS, best[1] * 1e6 / CALLS,
           best[2] * 1e6 / CALLS);
}

int main(void) {
    file = malloc(LIMIT + 1);
    if (!file) return 2;
    printf("%-34s %10s %10s %10s %8s\n", "mztab_tally", "rows", "judge ms", "tally ms", "ratio");
    ordinary(LIMIT);
    beside("ordinary rows");
    for (size_t i = 0; i < sizeof MADE / sizeof MADE[0]; i++) {
        make(MADE[i]);
        beside(MADE[i].name);
    }
    small_calls();
    if (wrong) printf("WRONG\n");
    return wrong;
}
