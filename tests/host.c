/* Tests the library from C, through its header and libcapi.a. tests/run builds and runs it; it reads no file and takes no words.
 *
 * Hostile files are judged on a stack of 2 MB. With HOSTILE_FILES_ONLY defined there is nothing but the making of these files, for the benchmark. */
#define _GNU_SOURCE
#include <stdio.h>
#include <stdlib.h>
#include <string.h>
#include <unistd.h>
#include "../crates/capi/mztab.h"

#define LIMIT ((size_t)16777216)

/* ---- files, of any size from some hundred bytes on */

/* What judging is to answer: the count of all breaks, and the first of them, with where that which comes again stands first. */
struct want {
    uint32_t count, rule, line, cell, first;
};

static uint8_t *file; /* room for LIMIT + 1 bytes */
static size_t size, at;

static void begin(size_t n) { size = n; at = 0; }

static void put(const char *text) {
    size_t n = strlen(text);
    memcpy(file + at, text, n);
    at += n;
}

static void fill(uint8_t b, size_t end) {
    memset(file + at, b, end - at);
    at = end;
}

/* The text over and over, as often as it fits before the end; answers how often. */
static uint32_t over(const char *text, size_t end) {
    size_t n = strlen(text);
    uint32_t k = 0;
    for (; at + n <= end; k++) {
        memcpy(file + at, text, n);
        at += n;
    }
    return k;
}

static struct want want(uint32_t count, uint32_t rule, uint32_t line, uint32_t cell) {
    struct want w = {count, rule, line, cell, 0};
    return w;
}

/* The next number of a fixed linear congruential generator, below n. */
static uint64_t seed = 20120515;

static uint64_t draw(uint64_t n) {
    seed = seed * 6364136223846793005u + 1442695040888963407u;
    return (seed >> 11) % n;
}

/* Nothing is broken but that the required metadata is absent: fills with LF. The file has one line so far, without its LF, or `lines` whole ones. */
static struct want absent(uint32_t lines) {
    uint32_t ends = (uint32_t)(size - at);
    fill('\n', size);
    return want(5, 21, (lines ? lines : ends == 0) + ends + 1, 1);
}

/* Whole lines, and LF after them. Every one breaks `each` rules, the first of them so. */
static struct want every(const char *text, uint32_t each, uint32_t rule, uint32_t cell) {
    uint32_t n = over(text, size);
    fill('\n', size);
    return want(n * each + 5, rule, 1, cell);
}

/* A line of the code and then of names, tabs before each; f writes name k. */
static char *line_of(const char *code, uint32_t names, void (*f)(char *, uint32_t)) {
    static char line[16384];
    strcpy(line, code);
    for (uint32_t k = 0; k < names; k++) {
        strcat(line, "\t");
        f(line + strlen(line), k);
    }
    return strcat(line, "\n");
}

static void opt_name(char *s, uint32_t k) { sprintf(s, "opt_%03u", k); }
static void no_name(char *s, uint32_t k) { (void)k; *s = 0; }
static void short_name(char *s, uint32_t k) { (void)k; strcpy(s, "s"); }
static void near_name(char *s, uint32_t k) { (void)k; strcpy(s, "sma"); }
static void null_cell(char *s, uint32_t k) { (void)k; strcpy(s, "null"); }

/* The four required columns of a protein table are the last four of 255. */
static const char *const REQUIRED[4] = {"accession", "description", "database", "search_engine"};

static void last_opt_name(char *s, uint32_t k) {
    if (k < 4) strcpy(s, REQUIRED[k]);
    else opt_name(s, k);
}

/* The totals of a tally, in their order; and the columns whose cells the first three sum, 64 of each. */
enum { PSMS, DISTINCT, UNIQUE, PROTEIN_ROWS, PEPTIDE_ROWS, PSM_ROWS, MOLECULE_ROWS, MISSING, TOTALS };
enum { RUNS = 64, COUNTS = 3 * RUNS };
static const char *const COUNTED[3] = {"num_psms_ms_run", "num_peptides_distinct_ms_run", "num_peptides_unique_ms_run"};

static void count_name(char *s, uint32_t k) { sprintf(s, "%s[%u]", COUNTED[k / RUNS], k % RUNS + 1); }

/* 192 columns that name a run, 59 that name none, and the required ones. */
static void known_name(char *s, uint32_t k) {
    if (k < COUNTS) count_name(s, k);
    else if (k < 251) sprintf(s, "best_search_engine_score[%u]", k - 191);
    else strcpy(s, REQUIRED[k - 251]);
}

/* Indices over 64: 128 with one name, 127 with another. */
static void bad_name(char *s, uint32_t k) { sprintf(s, "%s[%u]", k < 128 ? "num_psms_ms_run" : "best_search_engine_score", 65 + k % 128); }

/* 256 names of 16 bytes with the same sum of bytes times powers of 33: `aB` and `b!` have the same. */
static void like_name(char *s, uint32_t k) {
    for (int b = 0; b < 8; b++)
        memcpy(s + 2 * b, k >> b & 1 ? "aB" : "b!", 2);
    s[16] = 0;
}

/* The place of a name's stamp. */
static uint32_t stamp(const char *s) {
    uint32_t h = 0;
    for (; *s; s++) h = (h * 33 + (uint8_t)*s) % 65536;
    return h % 4096;
}

/* Names of one stamp that stay together with the first of them as long as they can: for k / 6 bytes, and in the next for up to five bits of the byte and one
 * more. The last three bytes give the stamp. */
static void late_name(char *s, uint32_t k) {
    size_t n = k ? (k - 1) / 6 : 43;
    memset(s, '_', n);
    if (k) s[n++] = (char)((('_' + 1) ^ 1 << (k - 1) % 6) - 1);
    s[n + 3] = 0;
    for (s[n] = '!'; s[n] < '~'; s[n]++)
        for (s[n + 1] = '!'; s[n + 1] < '~'; s[n + 1]++)
            for (s[n + 2] = '!'; s[n + 2] < '~'; s[n + 2]++)
                if (stamp(s) == 7) return;
}

/* Three bytes behind a name of n bytes that give the stamp 7: the way-th such. */
static void end_name(char *s, size_t n, uint32_t way) {
    s[n] = 0;
    uint32_t front = stamp(s);
    for (uint32_t a = '!'; a < '~'; a++)
        for (uint32_t b = '!'; b < '~'; b++) {
            uint32_t c = (7 + 4096 * 4096 - (((front * 33 + a) * 33 + b) * 33)) % 4096;
            if (c < '!' || c >= '~' || way--) continue;
            s[n] = (char)a, s[n + 1] = (char)b, s[n + 2] = (char)c, s[n + 3] = 0;
            return;
        }
}

/* Names of one stamp: 60 that part from the first at two of the bits of each of 30 bytes, 60 that part from these, so that two ways go on from each fork, and
 * the others go by all forks of the first. */
static void turning_name(char *s, uint32_t k) {
    uint32_t j = (k - 1) % 60;
    size_t n = k == 0 || k > 120 ? 30 : j / 2;
    memset(s, '_', n);
    if (k > 0 && k <= 120) s[n++] = (char)((('_' + 1) ^ (j % 2 ? 16 : 1)) - 1);
    end_name(s, n, k == 0 ? 0 : k <= 60 ? 0 : k <= 120 ? 5 : k - 117);
}

static struct want tabs(size_t n) { begin(n); fill('\t', n); return want(6, 2, 1, 1); }
static struct want ends(size_t n) { begin(n); fill('\n', n); return want(5, 21, (uint32_t)n + 1, 1); }
static struct want returns(size_t n) { begin(n); fill('\r', n); return want(7, 1, 1, 1); }
static struct want one_line(size_t n) { begin(n); fill('x', n); return want(6, 2, 1, 1); }
static struct want x_lines(size_t n) { begin(n); return every("x\n", 1, 2, 1); }

/* Lines of no to four x, in an order that cannot be foretold. */
static struct want ragged_lines(size_t n) {
    uint32_t line = 1, first = 0, count = 0;
    begin(n);
    for (seed = 7;; line++) {
        size_t length = draw(5);
        if (at + length + 1 > n) break;
        if (length && !count++) first = line;
        fill('x', at + length);
        put("\n");
    }
    fill('\n', n);
    return want(count + 5, 2, first, 1);
}

static struct want control_lines(size_t n) { begin(n); return every("\001\n", 2, 1, 1); }
static struct want mtd_lines(size_t n) { begin(n); return every("MTD\tx\ty\n", 1, 5, 2); }
static struct want unknown_keys(size_t n) { begin(n); return every("MTD\tsample[9]-\ta\n", 1, 5, 2); }
static struct want nearly_keys(size_t n) { begin(n); return every("MTD\tsample[64]-descriptioz\ta\n", 1, 5, 2); }
static struct want no_keys(size_t n) { begin(n); return every("MTD\t\ta\n", 1, 5, 2); }
static struct want prt_lines(size_t n) { begin(n); return every("PRT\n", 1, 17, 1); }

static struct want com_lines(size_t n) {
    begin(n);
    uint32_t lines = over("COM\n", n);
    return absent(lines);
}

static struct want com_line(size_t n) { begin(n); put("COM\t"); fill('x', n); return absent(0); }

/* All but the first break one rule more. */
static struct want and_again(struct want w, uint32_t lines) { w.count += lines - 1; return w; }

static struct want same_key(size_t n) {
    begin(n);
    uint32_t lines = over("MTD\ttitle\ta\n", n);
    fill('\n', n);
    struct want w = want(lines - 1 + 5, 6, 2, 2);
    w.first = 1;
    return w;
}

static struct want headers(const char *line, uint32_t each, uint32_t rule, uint32_t cell) {
    struct want w = every(line, each, rule, cell);
    return and_again(w, (w.count - 5) / each);
}

static struct want prh_lines(size_t n) { begin(n); return headers("PRH\n", 1, 16, 1); }
static struct want opt_headers(size_t n) { begin(n); return headers(line_of("PRH", 255, opt_name), 1, 16, 1); }
static struct want wide_headers(size_t n) { begin(n); return headers(line_of("PRH", 256, opt_name), 1, 11, 1); }
static struct want known_headers(size_t n) { begin(n); return headers(line_of("PRH", 255, known_name), 192, 15, 2); }
static struct want bad_headers(size_t n) { begin(n); return headers(line_of("PRH", 255, bad_name), 1 + 255, 16, 1); }
static struct want nameless_headers(size_t n) { begin(n); return headers(line_of("PRH", 255, no_name), 1 + 255 + 254, 16, 1); }
static struct want short_headers(size_t n) { begin(n); return headers(line_of("SMH", 255, short_name), 1 + 255 + 254, 16, 1); }
static struct want near_headers(size_t n) { begin(n); return headers(line_of("SMH", 255, near_name), 1 + 255 + 254, 16, 1); }
static struct want like_headers(size_t n) { begin(n); return headers(line_of("PRH", 255, like_name), 1 + 255, 16, 1); }
static struct want turning_headers(size_t n) { begin(n); return headers(line_of("PRH", 255, turning_name), 1 + 255, 16, 1); }
static struct want late_headers(size_t n) { begin(n); return headers(line_of("PRH", 255, late_name), 1 + 255, 16, 1); }

/* Headers of 255 names of three bytes with one stamp: in each header others, in an order that cannot be foretold. */
static struct want drawn_headers(size_t n) {
    static char names[3000][4];
    uint32_t count = 0, lines = 0;
    for (uint32_t k = 0; k < 1 << 24; k++) {
        char name[4] = {(char)(k >> 16), (char)(k >> 8), (char)k, 0};
        int plain = 1;
        for (int i = 0; i < 3; i++) plain &= (uint8_t)name[i] > 32 && name[i] != 127;
        if (plain && stamp(name) == 7 && count < 3000) memcpy(names[count++], name, 4);
    }
    begin(n);
    for (seed = 7; at + 4 + 255 * 4 <= n; lines++) {
        put("PRH");
        for (uint32_t k = 0; k < 255; k++) {
            uint32_t other = k + (uint32_t)draw(count - k);
            char name[4];
            memcpy(name, names[other], 4);
            memcpy(names[other], names[k], 4);
            memcpy(names[k], name, 4);
            put("\t");
            put(name);
        }
        put("\n");
    }
    fill('\n', n);
    return want(256 * lines + lines - 1 + 5, 16, 1, 1);
}

/* 255 names of 60,000 bytes, fewer in a small file: all equal, or alike up to their last 16 bytes. */
static struct want long_names(size_t n, int alike) {
    size_t most = (n - 4) / 255 - 1, length = most < 60000 ? most : 60000;
    begin(n);
    put("PRH");
    for (uint32_t k = 0; k < 255; k++) {
        put("\t");
        fill('a', at + length);
        if (alike) like_name((char *)file + at - 16, k);
    }
    fill('\n', n);
    return want(1 + 255 + (alike ? 0 : 254) + 5, 16, 1, 1);
}

static struct want equal_names(size_t n) { return long_names(n, 0); }
static struct want alike_names(size_t n) { return long_names(n, 1); }

/* Quotation marks in the third field of a parameter: closed where they are even. */
static struct want marks(size_t n, size_t odd) {
    begin(n);
    put("MTD\tsoftware[1]\t[,,");
    size_t count = n - at - 3;
    fill('"', at + count - (count % 2 != odd));
    put(",]");
    struct want w = absent(0);
    return odd ? want(6, 7, 1, 3) : w;
}

static struct want closed_marks(size_t n) { return marks(n, 0); }
static struct want open_marks(size_t n) { return marks(n, 1); }

/* A line with this digit over and over between two texts, and one break of the rule at the cell beside those of rule 21. */
static struct want digits_in(size_t n, const char *front, uint8_t digit, const char *end, uint32_t rule, uint32_t cell) {
    begin(n);
    put(front);
    fill(digit, n - strlen(end));
    put(end);
    return want(6, rule, 1, cell);
}

static struct want long_index(size_t n) { return digits_in(n, "MTD\tsample[", '1', "]\ta\n", 5, 2); }
static struct want long_zero(size_t n) { return digits_in(n, "MTD\tsample[", '0', "]-description\ta\n", 23, 2); }
static struct want long_over(size_t n) { return digits_in(n, "MTD\tsample[", '1', "]-description\ta\n", 24, 2); }
static struct want long_reference(size_t n) { return digits_in(n, "MTD\tassay[1]-ms_run_ref\tms_run[", '0', "]\n", 23, 3); }

/* A list of references of which the second has a bad index, and the last is none at all where `none` says so. */
static struct want bad_references(size_t n, int none) {
    begin(n);
    put("MTD\tstudy_variable[1]-assay_refs\tassay[1],");
    over("assay[065], assay[65],", n - 8);
    put(none ? "assay[1a" : "assay[2]");
    absent(0);
    return want(6, none ? 7 : 23, 1, 3);
}

static struct want unfit_references(size_t n) { return bad_references(n, 0); }
static struct want nearly_references(size_t n) { return bad_references(n, 1); }

static struct want references(size_t n) {
    begin(n);
    put("MTD\tstudy_variable[1]-assay_refs\t");
    over("assay[1], assay[64],", n - 8);
    put("assay[2]");
    absent(0);
    return want(6, 8, 1, 3);
}

static struct want parameters(size_t n) {
    begin(n);
    put("MTD\tfalse_discovery_rate\t");
    over("[,,a,]|", n - 6);
    put("[,,a,]");
    return absent(0);
}

static struct want digits(size_t n) {
    begin(n);
    put("PRH\taccession\tdescription\tdatabase\tsearch_engine\tbest_search_engine_score[1]\nPRT\ta\tb\tc\tnull\t");
    fill('7', n);
    return want(5, 21, 3, 1);
}

static struct want one_text(size_t n) {
    begin(n);
    put("SMH\tcharge\tidentifier\nSML\t1\t");
    fill('x', n);
    return want(5, 21, 3, 1);
}

/* One cell with a list of decimals, this text over and over. */
static struct want list_of(const char *text, size_t n) {
    begin(n);
    put("PEH\tsequence\taccession\tcharge\tmass_to_charge\tretention_time\nPEP\ta\tb\t1\t1.5\t");
    over(text, n - 2);
    fill('1', n);
    return want(5, 21, 3, 1);
}

static struct want decimals(size_t n) { return list_of("1|", n); }

static struct want exponent_list(size_t n) { return list_of("1.5E-05|", n); }

/* No decimal: it has an exponent after its first. */
static struct want exponents_in_one(size_t n) {
    begin(n);
    put("PRH\taccession\tdescription\tdatabase\tsearch_engine\tbest_search_engine_score[1]\nPRT\ta\tb\tc\tnull\t1");
    over("E5", n);
    fill('5', n);
    return want(6, 20, 2, 6);
}

static struct want empty_cells(size_t n) {
    begin(n);
    put(line_of("PRH", 255, last_opt_name));
    struct want w = every(line_of("PRT", 255, no_name), 255, 19, 2);
    w.line = 2;
    return w;
}

/* A header and a row of empty cells by turns. */
static struct want empty_by_turns(size_t n) {
    static char turn[2 * 16384];
    begin(n);
    strcpy(turn, line_of("PRH", 255, last_opt_name));
    strcat(turn, line_of("PRT", 255, no_name));
    uint32_t turns = over(turn, n);
    fill('\n', n);
    return want(turns * 255 + turns - 1 + 5, 19, 2, 2);
}

/* In each row the accession alone may not be null. */
static struct want null_cells(size_t n) {
    begin(n);
    put(line_of("PRH", 255, known_name));
    struct want w = every(line_of("PRT", 255, null_cell), 1, 15, 2);
    w.count += 192;
    return w;
}

static struct want short_rows(size_t n) {
    begin(n);
    put("PRH\taccession\n");
    over("PRT\tx\n", n);
    fill('\n', n);
    return want(1 + 5, 16, 1, 1);
}

static const struct hostile {
    const char *name;
    struct want (*make)(size_t);
} HOSTILE[] = {
    {"tabs alone", tabs},
    {"LF alone", ends},
    {"CR alone", returns},
    {"one line of x", one_line},
    {"x lines", x_lines},
    {"x lines of drawn lengths", ragged_lines},
    {"lines of a control byte", control_lines},
    {"marks in a parameter, even", closed_marks},
    {"marks in a parameter, odd", open_marks},
    {"one key repeated", same_key},
    {"unknown keys", unknown_keys},
    {"nearly known keys", nearly_keys},
    {"empty keys", no_keys},
    {"key with a long index", long_index},
    {"key but for an index of zeros", long_zero},
    {"key but for a long index", long_over},
    {"MTD x y lines", mtd_lines},
    {"reference list", references},
    {"reference, an index of zeros", long_reference},
    {"list of bad indices", unfit_references},
    {"list of bad indices, and none", nearly_references},
    {"parameter list", parameters},
    {"PRH lines", prh_lines},
    {"headers of 255 opt_ names", opt_headers},
    {"headers of 256 names", wide_headers},
    {"headers of 255 known names", known_headers},
    {"headers of 255 bad indices", bad_headers},
    {"headers of 255 empty names", nameless_headers},
    {"headers of 255 names `s`", short_headers},
    {"headers of 255 names `sma`", near_headers},
    {"headers of 255 like names", like_headers},
    {"headers of 255 late names", late_headers},
    {"headers of 255 turning names", turning_headers},
    {"headers of 255 drawn names", drawn_headers},
    {"255 equal names of 60,000", equal_names},
    {"255 like names of 60,000", alike_names},
    {"one cell of digits", digits},
    {"one cell of text", one_text},
    {"decimal list", decimals},
    {"decimal list, with exponents", exponent_list},
    {"one cell of exponents", exponents_in_one},
    {"rows of empty cells", empty_cells},
    {"header and empty row by turns", empty_by_turns},
    {"rows of null", null_cells},
    {"rows of two cells", short_rows},
    {"PRT lines without header", prt_lines},
    {"COM lines", com_lines},
    {"one COM line", com_line},
};

enum { FILES = sizeof HOSTILE / sizeof HOSTILE[0] };

#ifndef HOSTILE_FILES_ONLY
#include "stack.h"

/* ---- checks */

#define MARK 0xDEADBEEFu
#define COUNT(a) (sizeof(a) / sizeof(a)[0])

static unsigned checks, failed, group_checks, group_failed;

static void check(int ok, const char *what, unsigned long long detail) {
    checks++;
    if (!ok) {
        failed++;
        printf("FAIL %s (%llu)\n", what, detail);
    }
}

static void group(const char *name) {
    printf("%-34s %6u checks, %u failed\n", name, checks - group_checks, failed - group_failed);
    fflush(stdout);
    group_checks = checks;
    group_failed = failed;
}

static int marked(const uint32_t *places, size_t n) {
    for (size_t i = 0; i < n; i++)
        if (places[i] != MARK) return 0;
    return 1;
}

static void mark(uint32_t *places, size_t n) {
    for (size_t i = 0; i < n; i++)
        places[i] = MARK;
}

/* A cell call, with its outcome. */
struct view {
    size_t start, length;
    uint32_t number;
};

static struct view cell(const uint8_t *f, size_t n, uint32_t section, uint32_t row, uint32_t column) {
    struct view v = {0, 77, 77};
    v.start = mztab_cell(f, n, section, row, column, &v.number, &v.length);
    return v;
}

/* The same with a stand-in. */
struct either {
    struct view view;
    uint32_t stood_in;
};

static struct either cell_or(const uint8_t *f, size_t n, uint32_t section, uint32_t row, uint32_t column, const char *stand_in) {
    struct either e = {{0, 77, 77}, 77};
    e.view.start = mztab_cell_or(f, n, section, row, column, (const uint8_t *)stand_in, strlen(stand_in), &e.view.number, &e.view.length, &e.stood_in);
    return e;
}

/* A reading call, with its outcome. */
struct read {
    uint32_t kind, number, line, cell;
    int32_t power;
    int64_t whole;
    double decimal;
};

static struct read reading(const uint8_t *f, size_t n, uint32_t section, uint32_t row, uint32_t column) {
    struct read r = {77, 77, 77, 77, 77, 77, 77.0};
    r.kind = mztab_reading(f, n, section, row, column, &r.number, &r.line, &r.cell, &r.whole, &r.power, &r.decimal);
    return r;
}

static int same_double(double a, double b) { return memcmp(&a, &b, sizeof a) == 0; }

static int refused_view(struct view v, uint32_t number) { return v.number == number && v.start == 0 && v.length == 0; }

static int bare(struct read r) { return r.whole == 0 && r.power == 0 && same_double(r.decimal, 0.0); }

static int refused_reading(struct read r, uint32_t number) {
    return r.number == number && r.kind == 0 && r.line == 0 && r.cell == 0 && bare(r);
}

/* ---- the groups */

#define EXAMPLE_HEAD \
    "MTD\tmzTab-version\t1.0.0\nMTD\tmzTab-mode\tSummary\nMTD\tmzTab-type\tIdentification\nMTD\tdescription\tYeast check\n" \
    "MTD\tms_run[1]-location\tfile:///a.mzML\n\nPRH\taccession\tdescription\tdatabase\tsearch_engine\tnum_psms_ms_run[2]\n"
static const char EXAMPLE[] = EXAMPLE_HEAD "PRT\tY1\tnull\tdb\tnull\t\nPRT\tnull\tx\tdb\tnull\t4\n";

static const uint32_t EXAMPLE_BREAKS[24] = {15, 7, 6, 0, 19, 8, 6, 0, 20, 9, 2, 0, 22, 10, 500, 0, 22, 10, 900, 0, 22, 10, 1000, 0};

/* An id may be declared on any line. The first pass looks at 64 bytes at a time for lines that begin as metadata lines do, so the line stands at each place of
 * such a block, behind a line, empty lines, lines that end with CR, or a line of the byte that is sought; with an LF, or as the last of the file. */
static void passed_over(void) {
    static const char *const between[4] = {"x", "\n", "\r\n", "M"};
    for (size_t pad = 0; pad < 200; pad++)
        for (int way = 0; way < 16; way++) {
            uint32_t places[4], number = 77;
            begin(1024);
            put("PRH\taccession\tdescription\tdatabase\tsearch_engine\tnum_psms_ms_run[1]\nCOM\t");
            for (size_t k = 0; k < pad; k++) put(between[way & 3]);
            put(way & 4 ? "\nMTX\tms_run[1]-location\tf" : "\nMTD\tms_run[1]-location\tf");
            if (way & 8) put("\nx\n");
            mztab_judge(file, at, places, 4, &number);
            check(number == 0 && (places[0] == 15) == ((way & 4) != 0), "an id declared behind lines that are passed over", pad * 16 + (size_t)way);
        }
    group("lines passed over");
}

static void limits(void) {
    uint32_t places[24], number = 77;
    begin(LIMIT + 1);
    put("PRH\taccession\nPRT\t12.5\nCOM\t");
    fill(' ', LIMIT + 1);
    mark(places, COUNT(places));
    uint32_t count = mztab_judge(file, LIMIT, places, COUNT(places), &number);
    check(number == 0, "limit: judged", number);
    check(count == 6, "limit: count", count);
    check(places[0] == 16 && places[1] == 1 && places[2] == 1 && places[3] == 0, "limit: first break", 0);
    check(places[20] == 21 && places[21] == 4 && places[22] == 5 && places[23] == 0, "limit: last break", 0);
    mark(places, COUNT(places));
    number = 77;
    count = mztab_judge(file, LIMIT + 1, places, COUNT(places), &number);
    check(number == 1, "over the limit: number", number);
    check(count == 0, "over the limit: count", count);
    check(marked(places, COUNT(places)), "over the limit: places", 0);

    struct view v = cell(file, LIMIT, 1, 1, 1);
    check(v.number == 0 && v.start == 18 && v.length == 4, "limit: cell", v.number);
    check(refused_view(cell(file, LIMIT, 1, 2, 1), 3), "limit: no such row", 0);
    check(refused_view(cell(file, LIMIT + 1, 1, 1, 1), 1), "over the limit: cell", 0);
    struct read r = reading(file, LIMIT, 1, 1, 1);
    check(r.number == 0 && r.kind == 2 && r.line == 2 && r.cell == 2 && r.whole == 125 && r.power == -1 && r.decimal == 12.5, "limit: reading", r.number);
    check(refused_reading(reading(file, LIMIT + 1, 1, 1, 1), 1), "over the limit: reading", 0);
    group("limits");
}

static void lists(void) {
    const uint8_t *f = (const uint8_t *)EXAMPLE;
    for (size_t n = 0; n <= 28; n++) {
        uint32_t places[33], number = 77;
        mark(places, COUNT(places));
        uint32_t count = mztab_judge(f, sizeof EXAMPLE - 1, places, n, &number);
        size_t whole = n / 4 < 6 ? n / 4 : 6;
        check(number == 0, "list: number", n);
        check(count == 6, "list: the count is of all", n);
        check(memcmp(places, EXAMPLE_BREAKS, whole * 4 * sizeof places[0]) == 0, "list: the first breaks", n);
        check(marked(places + whole * 4, COUNT(places) - whole * 4), "list: no place besides", n);
    }
    /* a file of no bytes, and comments: the required metadata is absent */
    uint32_t places[20], number = 77;
    check(mztab_judge(f, 0, places, 20, &number) == 5 && number == 0, "no bytes: count", number);
    for (uint32_t k = 0; k < 5; k++)
        check(places[4 * k] == 21 && places[4 * k + 1] == 1 && places[4 * k + 2] == k + 1 && places[4 * k + 3] == 0, "no bytes: break", k);
    check(mztab_judge((const uint8_t *)"COM", 3, places, 20, &number) == 5 && places[1] == 2, "COM", 0);
    group("lent lists");

    /* every break of a long list, with one to three places too few for the last, and just enough */
    size_t n = (size_t)1 << 20, all = 4 * (n / 2 + 5);
    uint32_t *long_list = malloc(all * sizeof *long_list);
    if (!long_list) exit(2);
    x_lines(n);
    for (size_t less = 0; less < 4; less++) {
        mark(long_list, all);
        uint32_t count = mztab_judge(file, n, long_list, all - less, &number);
        check(count == n / 2 + 5 && number == 0, "long list: count", count);
        int ok = 1;
        for (uint32_t k = 0; k < n / 2 + 5 - (less > 0); k++) {
            const uint32_t *at = long_list + 4 * k;
            uint32_t end = k < n / 2 ? 0 : k - (uint32_t)(n / 2) + 1; /* the breaks of rule 21 at the end */
            ok = ok && at[0] == (end ? 21 : 2) && at[1] == (end ? n / 2 : k) + 1 && at[2] == (end ? end : 1) && at[3] == 0;
        }
        check(ok, "long list: breaks", less);
        check(!less || marked(long_list + all - 4, 4), "long list: the break that does not fit", less);
    }
    free(long_list);
    group("a long lent list");
}

/* The first break of a line alone, and the one after it: the next of the line, or the first of rule 21. */
static void judged_as(const char *line, uint32_t cell, uint32_t rule, uint32_t rule_after, const char *what) {
    uint32_t places[9], number = 77;
    mark(places, COUNT(places));
    uint32_t count = mztab_judge((const uint8_t *)line, strlen(line), places, 8, &number);
    check(number == 0 && count == (rule_after == 21 ? 6 : 7), what, count);
    check(places[0] == rule && places[1] == 1 && places[2] == cell && places[3] == 0, what, places[0]);
    check(places[4] == rule_after && places[5] == (rule_after == 21 ? 2 : 1) && places[7] == 0, what, places[4]);
    check(marked(places + 8, 1), what, 0);
}

/* Rules 23 and 24 in place of 5, 7 and 12: the leftmost bad index decides. */
static void indices(void) {
    static const struct { const char *key; uint32_t rule; } keys[] = {
        {"sample[01]-description", 23}, {"sample[065]-description", 23}, {"sample[65]-description", 24}, {"sample[18446744073709551617]-description", 24},
        {"assay[0]-ms_run_ref", 23}, {"assay[00]-ms_run_ref", 23}, {"software[65]-setting[01]", 24}, {"software[01]-setting[65]", 23},
        {"software[64]-setting[65]", 24}, {"software[1]-setting[0]", 23}, {"sample[0]-nothing", 5}, {"sample[65]", 5}, {"sample[]-description", 5},
        {"sample[1a]-description", 5}, {"sample[-1]-description", 5}, {"sample[ 1]-description", 5}, {"software[01]-setting[]", 5}, {"software[0]setting[1]", 5}};
    static const struct { const char *value; uint32_t rule; } values[] = {
        {"assay[077]", 23}, {"assay[77]", 24}, {"assay[0],assay[65]", 23}, {"assay[1], assay[65],  assay[0]", 24}, {"assay[64],assay[064]", 23},
        {"sample[077]", 7}, {"assay[01],sample[1]", 7}, {"assay[01],assay[1a]", 7}, {"assay[01],", 7}, {"assay[01] ,assay[1]", 7}, {" assay[01]", 7},
        {"assay[1],assay[01]x", 7}, {"assay[1]", 8}};
    static const struct { const char *name; uint32_t rule; } names[] = {
        {"num_psms_ms_run[077]", 23}, {"num_psms_ms_run[65]", 24}, {"search_engine_score[65]_ms_run[0]", 24}, {"search_engine_score[1]_ms_run[0]", 23},
        {"search_engine_score[0]", 12}, {"num_psms_ms_run[1a]", 12}, {"num_psms_ms_run[]", 12}, {"num_psms_ms_run[64]", 15}};
    char line[128];
    for (size_t i = 0; i < COUNT(keys); i++) {
        sprintf(line, "MTD\t%s\tx", keys[i].key);
        judged_as(line, 2, keys[i].rule, 21, "key");
    }
    for (size_t i = 0; i < COUNT(values); i++) {
        sprintf(line, "MTD\tstudy_variable[1]-assay_refs\t%s", values[i].value);
        judged_as(line, 3, values[i].rule, 21, "value");
    }
    for (size_t i = 0; i < COUNT(names); i++) {
        sprintf(line, "PRH\t%s", names[i].name);
        judged_as(line, 1, 16, names[i].rule, "column name");
    }
    group("bad indices");
}

/* Whether the first n bytes give the same over places for so many breaks and over as many records: number, count, and every place, marked ones too. */
static int same_records(size_t n, size_t breaks) {
    uint32_t *places = malloc(16 * breaks + 16), numbers[2] = {77, 78};
    struct mztab_fault *faults = malloc(16 * breaks + 16);
    if (!places || !faults) exit(2);
    mark(places, 4 * breaks + 4);
    memcpy(faults, places, 16 * breaks + 16);
    uint32_t counts[2] = {mztab_judge(file, n, places, 4 * breaks, &numbers[0]), mztab_faults(file, n, faults, breaks, &numbers[1])};
    int same = counts[0] == counts[1] && numbers[0] == numbers[1] && memcmp(places, faults, 16 * breaks + 16) == 0;
    free(places);
    free(faults);
    return same;
}

/* The call with a stand-in shows it where the cell is `null`, and else what the plain call shows; with a stand-in of no bytes, and of the cell's own. */
static void stand_ins(void) {
    static const char *const others[] = {"", "-", "null", "x"};
    const uint8_t *f = (const uint8_t *)EXAMPLE;
    size_t n = sizeof EXAMPLE - 1;
    for (uint32_t section = 0; section < 6; section++)
        for (uint32_t row = 0; row < 4; row++)
            for (uint32_t column = 0; column < 7; column++)
                for (size_t i = 0; i < COUNT(others); i++) {
                    struct view v = cell(f, n, section, row, column);
                    struct either e = cell_or(f, n, section, row, column, others[i]);
                    int null = v.length == 4 && memcmp(f + v.start, "null", 4) == 0;
                    check(e.view.number == v.number && e.stood_in == (uint32_t)null, "stand-in: number, and which", i);
                    check(e.view.length == (null ? strlen(others[i]) : v.length), "stand-in: length", i);
                    check(e.view.start == (null ? 0 : v.start), "stand-in: start", i);
                }
    group("stand-ins");
}

/* The call over records gives what the call over places gives: around its parts of 2,524 to 4,096 breaks, past the last break, and over the limit. */
static void records(void) {
    static const size_t lengths[] = {0, 1, 2, 3, 4, 5, 6, 2523, 2524, 2525, 2790, 2791, 2792, 4095, 4096, 4097, 5048, 5582, 8192, 524292, 524293, 524294, 600000};
    check(sizeof(struct mztab_fault) == 16, "records: size", sizeof(struct mztab_fault));
    memcpy(file, EXAMPLE, sizeof EXAMPLE);
    for (size_t k = 0; k < 8; k++) check(same_records(sizeof EXAMPLE - 1, k), "records: the example", k);
    for (size_t k = 0; k < 8; k++) check(same_records(0, k), "records: no bytes", k);
    x_lines((size_t)1 << 20);
    for (size_t i = 0; i < COUNT(lengths); i++) check(same_records((size_t)1 << 20, lengths[i]), "records: one-byte lines", lengths[i]);
    nameless_headers((size_t)1 << 20);
    for (size_t i = 0; i < COUNT(lengths); i++) check(same_records((size_t)1 << 20, lengths[i]), "records: nameless headers", lengths[i]);
    same_key((size_t)1 << 20);
    for (size_t i = 0; i < COUNT(lengths); i++) check(same_records((size_t)1 << 20, lengths[i]), "records: one key repeated", lengths[i]);
    ends(LIMIT);
    file[LIMIT] = 10;
    for (size_t k = 0; k < 8; k++) check(same_records(LIMIT + 1, k), "records: over the limit", k);
    group("records as places");
}

/* ---- where that which comes again stands first */

static struct mztab_fault fault(uint32_t rule, uint32_t line, uint32_t cell, uint32_t first) {
    struct mztab_fault f = {rule, line, cell, first};
    return f;
}

/* The first n bytes of the file have these breaks and no others. */
static void breaks_are(size_t n, const struct mztab_fault *breaks, uint32_t count, const char *what) {
    static uint32_t places[4 * 2048];
    uint32_t number = 77;
    mark(places, COUNT(places));
    uint32_t found = mztab_judge(file, n, places, COUNT(places), &number);
    check(number == 0 && found == count, what, found);
    check(memcmp(places, breaks, count * sizeof *breaks) == 0, what, count);
    check(marked(places + 4 * count, COUNT(places) - 4 * count), what, 0);
}

/* The same for lists of every length, of places and of records: what no whole break fills is as it was, beside the list and in it. */
static void every_list(size_t n, const struct mztab_fault *breaks, uint32_t count, const char *what) {
    for (size_t length = 0; length <= 4 * count + 6; length++) {
        uint32_t places[4 * 64], number = 77;
        size_t whole = length / 4 < count ? length / 4 : count;
        mark(places, COUNT(places));
        check(mztab_judge(file, n, places, length, &number) == count && number == 0, what, length);
        check(memcmp(places, breaks, whole * sizeof *breaks) == 0, what, length);
        check(marked(places + 4 * whole, COUNT(places) - 4 * whole), what, length);
    }
    for (size_t length = 0; length <= count + 2; length++) {
        struct mztab_fault faults[64];
        uint32_t marks[4 * COUNT(faults)], number = 77;
        size_t whole = length < count ? length : count;
        mark(marks, COUNT(marks));
        memcpy(faults, marks, sizeof faults);
        check(mztab_faults(file, n, faults, length, &number) == count && number == 0, what, length);
        check(memcmp(faults, breaks, whole * sizeof *breaks) == 0, what, length);
        check(memcmp(faults + whole, marks, sizeof faults - whole * sizeof *faults) == 0, what, length);
    }
}

/* Adds the five breaks of rule 21 at a line; answers how many there are then. */
static uint32_t all_absent(struct mztab_fault *breaks, uint32_t count, uint32_t line) {
    for (uint32_t k = 1; k <= 5; k++) breaks[count++] = fault(21, line, k, 0);
    return count;
}

#define TITLE "MTD\ttitle\ta\n"

/* Files of whole lines, and their breaks before those of rule 21. */
static const struct { const char *text; uint32_t count; struct mztab_fault breaks[16]; } AGAIN[] = {
    /* rule 6: the earliest, not the nearest; of this key alone; every line counts */
    {TITLE TITLE, 1, {{6, 2, 2, 1}}},
    {TITLE TITLE TITLE TITLE, 3, {{6, 2, 2, 1}, {6, 3, 2, 1}, {6, 4, 2, 1}}},
    {"\nCOM\ttitle\ta\n" TITLE "\r\nMTD\tcontact[1]-name\ta\r\n" TITLE "MTD\tcontact[2]-name\ta\nMTD\tcontact[1]-name\tb\n", 2, {{6, 6, 2, 3}, {6, 8, 2, 5}}},
    /* lines of two and of four cells are none of its first, nor is an unknown code */
    {"MTD\ttitle\nMTD\ttitle\ta\tb\nmtd\ttitle\ta\n" TITLE TITLE, 4, {{3, 1, 1, 0}, {3, 2, 1, 0}, {2, 3, 1, 0}, {6, 5, 2, 4}}},
    /* a line whose value is wrong, or which stands below a header, is */
    {"MTD\tsoftware[1]\ta\nMTD\tsoftware[1]\t[, , a, ]\n", 2, {{7, 1, 3, 0}, {6, 2, 2, 1}}},
    {"SMH\tidentifier\tcharge\n" TITLE TITLE, 3, {{4, 2, 1, 0}, {4, 3, 1, 0}, {6, 3, 2, 2}}},
    /* unknown keys, bad indices and units of columns have none */
    {"MTD\tx\ta\nMTD\tx\ta\nMTD\tsample[0]-description\ta\nMTD\tsample[0]-description\ta\n", 4, {{5, 1, 2, 0}, {5, 2, 2, 0}, {23, 3, 2, 0}, {23, 4, 2, 0}}},
    {"MTD\tcolunit-protein\taccession=[, , a, ]\nMTD\tcolunit-protein\taccession=[, , a, ]\n", 0, {{0, 0, 0, 0}}},
    /* beside a control byte before it and a value that is wrong after it */
    {"MTD\tcustom[1]\t[, , a, ]\nMTD\tcustom[1]\t\001\n", 3, {{6, 2, 2, 1}, {1, 2, 3, 0}, {7, 2, 3, 0}}},
    /* rule 9: a header of the same section, the earliest, whatever rules it breaks */
    {"SMH\tidentifier\tcharge\nSML\ta\t1\nSMH\tidentifier\tcharge\n\nSMH\tidentifier\tcharge\n", 2, {{9, 3, 1, 1}, {9, 5, 1, 1}}},
    {"COM\nPSH\nSMH\tidentifier\tcharge\nPSH\nSMH\tidentifier\tcharge\nPSH\n", 8,
     {{16, 2, 1, 0}, {9, 4, 1, 2}, {10, 4, 1, 0}, {16, 4, 1, 0}, {9, 5, 1, 3}, {9, 6, 1, 2}, {10, 6, 1, 0}, {16, 6, 1, 0}}},
    {"PRT\nPRH\nPEH\nPRHx\nPRH\n", 7, {{17, 1, 1, 0}, {16, 2, 1, 0}, {16, 3, 1, 0}, {2, 4, 1, 0}, {9, 5, 1, 2}, {10, 5, 1, 0}, {16, 5, 1, 0}}},
    /* rule 13: the cell of the first equal name, by its bytes, in this header */
    {"SMH\tidentifier\tcharge\tcharge\n", 1, {{13, 1, 4, 3}}},
    {"SMH\tidentifier\tcharge\tidentifier\tcharge\tidentifier\n", 3, {{13, 1, 4, 2}, {13, 1, 5, 3}, {13, 1, 6, 2}}},
    {"SMH\tidentifier\tcharge\tx\t\tx\t\tx\n", 8,
     {{12, 1, 4, 0}, {12, 1, 5, 0}, {12, 1, 6, 0}, {13, 1, 6, 4}, {12, 1, 7, 0}, {13, 1, 7, 5}, {12, 1, 8, 0}, {13, 1, 8, 4}}},
    {"SMH\tidentifier\tcharge\topt_a\nSMH\tcharge\topt_a\tidentifier\topt_a\r\n", 3, {{9, 2, 1, 1}, {14, 2, 4, 0}, {13, 2, 5, 3}}},
    {"SMH\tidentifier\tcharge\tSMH\tbest_search_engine_score[0]\tSMH\tbest_search_engine_score[0]\n", 6,
     {{12, 1, 4, 0}, {23, 1, 5, 0}, {12, 1, 6, 0}, {13, 1, 6, 4}, {13, 1, 7, 5}, {23, 1, 7, 0}}},
    /* all three in one file */
    {"MTD\ttitle\n" TITLE "MTD\tcontact[1]-name\ta\n" TITLE "MTD\tcontact[2]-name\ta\n" TITLE
     "PRH\topt_a\topt_b\topt_b\topt_a\topt_b\nPEH\topt_a\nPRH\topt_a\nPRH\topt_a\n", 14,
     {{3, 1, 1, 0}, {6, 4, 2, 2}, {6, 6, 2, 2}, {16, 7, 1, 0}, {13, 7, 4, 3}, {13, 7, 5, 2}, {13, 7, 6, 3}, {16, 8, 1, 0}, {9, 9, 1, 7}, {10, 9, 1, 0},
      {16, 9, 1, 0}, {9, 10, 1, 7}, {10, 10, 1, 0}, {16, 10, 1, 0}}},
};

enum { DRAWN = 200 };

/* Drawn files, whose firsts are found here by the lines and cells that were drawn: keys of three cells and of four, headers, and the names of a header. */
static void drawn_firsts(void) {
    static const char *const codes[4] = {"PRH", "PEH", "PSH", "SMH"};
    static struct mztab_fault breaks[2048];
    char text[64];
    seed = 8;
    for (uint32_t i = 0; i < DRAWN; i++) {
        uint32_t key_lines[65] = {0}, head_lines[4] = {0}, name_cells[256] = {0};
        uint32_t count = 0, line = 1, keys = 1 + (uint32_t)draw(64), names = 1 + (uint32_t)draw(255);
        begin(LIMIT);
        for (; line <= 100; line++) {
            uint32_t key = 1 + (uint32_t)draw(keys), way = (uint32_t)draw(6);
            sprintf(text, way == 0 ? "COM\tcustom[%u]\t[, , a, ]\n" : way == 1 ? "MTD\tcustom[%u]\t[, , a, ]\t\n" : "MTD\tcustom[%u]\t[, , a, ]\n", key);
            put(text);
            if (way == 1) breaks[count++] = fault(3, line, 1, 0);
            if (way < 2) continue;
            if (key_lines[key]) breaks[count++] = fault(6, line, 2, key_lines[key]);
            else key_lines[key] = line;
        }
        for (uint32_t k = 0; k < 20; k++) {
            uint32_t section = (uint32_t)draw(4), later = 0;
            if (k) put("\n"), line++;
            put(codes[section]);
            for (uint32_t j = section + 1; j < 4; j++) later |= head_lines[j];
            if (head_lines[section]) breaks[count++] = fault(9, line, 1, head_lines[section]);
            else head_lines[section] = line;
            if (later) breaks[count++] = fault(10, line, 1, 0);
            breaks[count++] = fault(16, line, 1, 0);
        }
        /* the last header alone has names */
        for (uint32_t cell = 2; cell <= 256; cell++) {
            uint32_t name = (uint32_t)draw(names);
            sprintf(text, "\topt_%u", name);
            put(text);
            if (name_cells[name]) breaks[count++] = fault(13, line, cell, name_cells[name]);
            else name_cells[name] = cell;
        }
        put("\n");
        count = all_absent(breaks, count, line + 1);
        breaks_are(at, breaks, count, "drawn firsts");
        check(same_records(at, i % 7 ? i : count), "drawn firsts: records", i);
    }
    group("where it stands first, drawn");
}

static void firsts(void) {
    struct mztab_fault breaks[32];
    for (size_t i = 0; i < COUNT(AGAIN); i++) {
        uint32_t lines = 0;
        begin(LIMIT);
        put(AGAIN[i].text);
        for (size_t k = 0; k < at; k++) lines += file[k] == '\n';
        memcpy(breaks, AGAIN[i].breaks, sizeof AGAIN[i].breaks);
        uint32_t count = all_absent(breaks, AGAIN[i].count, lines + 1);
        breaks_are(at, breaks, count, "where it stands first");
        every_list(at, breaks, count, "where it stands first: a list");
    }
    /* a header of over 256 cells is the first of its section, and its names are not judged */
    begin(LIMIT);
    put(line_of("SMH", 256, short_name));
    put("SMH\tidentifier\tcharge\n");
    breaks[0] = fault(11, 1, 1, 0);
    breaks[1] = fault(9, 2, 1, 1);
    breaks_are(at, breaks, all_absent(breaks, 2, 3), "a first header that is too wide");
    group("where it stands first");
}

/* ---- one line of a file */

enum { AROUND = 8, MOST_BREAKS = 4096 };

static uint32_t lines_of(const uint8_t *f, size_t n) {
    uint32_t lines = n > 0 && f[n - 1] != '\n';
    for (size_t k = 0; k < n; k++) lines += f[k] == '\n';
    return lines;
}

/* How many breaks of a list stand above a line. */
static uint32_t above(const uint32_t *places, uint32_t count, uint32_t line) {
    uint32_t low = 0, high = count;
    while (low < high) {
        uint32_t middle = low + (high - low) / 2;
        if (places[4 * (size_t)middle + 1] < line) low = middle + 1;
        else high = middle;
    }
    return low;
}

/* The call for one line, into so many places among marked ones. */
static void line_is(const uint8_t *f, size_t n, uint32_t line, size_t length, uint32_t number, const uint32_t *breaks, uint32_t count, const char *what) {
    static uint32_t room[AROUND + 4 * MOST_BREAKS + AROUND];
    uint32_t *lent = room + AROUND, found = 77;
    size_t whole = length / 4 < count ? length / 4 : count;
    mark(room, AROUND + length + AROUND);
    uint32_t answer = mztab_judge_line(f, n, line, lent, length, &found);
    check(found == number && answer == count, what, line);
    check(whole == 0 || memcmp(lent, breaks, 4 * whole * sizeof *lent) == 0, what, line);
    check(marked(room, AROUND) && marked(lent + 4 * whole, length + AROUND - 4 * whole), what, line);
}

static void line_refused(const uint8_t *f, size_t n, uint32_t line, uint32_t number, const char *what) {
    static const size_t lengths[] = {0, 1, 4, 24};
    for (size_t i = 0; i < COUNT(lengths); i++) line_is(f, n, line, lengths[i], number, NULL, 0, what);
}

/* Of a file of so many lines these are none. */
static void others_refused(const uint8_t *f, size_t n, uint32_t lines, const char *what) {
    static const uint32_t none[] = {0, 0x01000002, 0x7FFFFFFF, 0x80000000, 0x80000001, 0xFFFFFFFE, 0xFFFFFFFF};
    for (size_t i = 0; i < COUNT(none); i++) line_refused(f, n, none[i], 3, what);
    line_refused(f, n, lines + 1, 3, what);
    line_refused(f, n, lines + 2, 3, what);
}

/* A file judged whole. */
struct judged {
    uint32_t lines, count, places[4 * MOST_BREAKS];
};

static uint32_t rules_seen; /* bit r: a file that was judged so breaks rule r */

static void judge_whole(struct judged *j, const uint8_t *f, size_t n) {
    uint32_t number = 77;
    j->lines = lines_of(f, n);
    j->count = mztab_judge(f, n, j->places, COUNT(j->places), &number);
    if (number || j->count > MOST_BREAKS) exit(2);
    for (uint32_t k = 0; k < j->count; k++) rules_seen |= 1u << j->places[4 * k];
}

/* Whether the lists of lines 1 to N one after the other, and then the breaks on line N + 1, are the list of all breaks. */
static int lines_make(const uint8_t *f, size_t n) {
    static struct judged all;
    static uint32_t places[4 * MOST_BREAKS];
    uint32_t made = 0;
    judge_whole(&all, f, n);
    for (uint32_t line = 1; line <= all.lines; line++) {
        uint32_t number = 77, count = mztab_judge_line(f, n, line, places + 4 * made, COUNT(places) - 4 * made, &number);
        if (number || count > MOST_BREAKS - made) return 0;
        made += count;
    }
    int last = above(all.places, all.count, all.lines + 2) == all.count;
    return last && made == above(all.places, all.count, all.lines + 1) && memcmp(places, all.places, 4 * made * sizeof *places) == 0;
}

/* The file so far has these breaks on lines 1 to N: each line is asked for with lists of every length. */
static void lines_are(const struct mztab_fault *breaks, uint32_t count, const char *what) {
    const uint32_t *places = &breaks->rule;
    uint32_t lines = lines_of(file, at);
    for (uint32_t line = 1; line <= lines; line++) {
        uint32_t from = above(places, count, line), own = above(places, count, line + 1) - from;
        for (size_t length = 0; length <= 4 * own + 6; length++) line_is(file, at, line, length, 0, places + 4 * from, own, what);
    }
    check(above(places, count, lines + 1) == count, what, count);
    others_refused(file, at, lines, what);
    check(lines_make(file, at), what, lines);
}

#define MOLECULES "SMH\tidentifier\tcharge\n"
#define PROTEINS "PRH\taccession\tdescription\tdatabase\tsearch_engine"
#define PEPTIDES "PEH\tsequence\taccession\tcharge\tmass_to_charge"
#define SPECTRA "PSH\tsequence\tPSM_ID\taccession\tcharge\tspectra_ref"
#define RUN(n) "MTD\tms_run[" n "]-location\tf"

/* Files, and the breaks of their lines without those of rules 21 and 22. */
static const struct { const char *text; uint32_t count; struct mztab_fault breaks[16]; } LINES[] = {
    /* ends of lines, empty lines and comments */
    {"", 0, {{0, 0, 0, 0}}},
    {"\n", 0, {{0, 0, 0, 0}}},
    {"\r\n\n\r\n", 0, {{0, 0, 0, 0}}},
    {"COM", 0, {{0, 0, 0, 0}}},
    {"COM\t\001\n\n", 0, {{0, 0, 0, 0}}},
    {"x", 1, {{2, 1, 1, 0}}},
    {"\t\n\n\t", 2, {{2, 1, 1, 0}, {2, 3, 1, 0}}},
    {"\r", 2, {{1, 1, 1, 0}, {2, 1, 1, 0}}},
    {"PRT\r\n\r\nCOM\tx\r\n\nPRT\r\nx\ty\r\r\nPRT\ta\002\003", 6, {{17, 1, 1, 0}, {17, 5, 1, 0}, {2, 6, 1, 0}, {1, 6, 2, 0}, {17, 7, 1, 0}, {1, 7, 2, 0}}},
    /* rule 8: the id is declared below, below the rows too, but not by a line of four cells */
    {"MTD\tassay[1]-sample_ref\tsample[1]\nMTD\tsample[1]-description\td\n", 0, {{0, 0, 0, 0}}},
    {"MTD\tassay[1]-sample_ref\tsample[1]\nMTD\tsample[2]-description\td\n", 1, {{8, 1, 3, 0}}},
    {"MTD\tassay[1]-ms_run_ref\tms_run[1]\nMTD\tassay[2]-ms_run_ref\tms_run[2]\n" MOLECULES "SML\ta\t1\n" RUN("1"), 2, {{8, 2, 3, 0}, {4, 5, 1, 0}}},
    {"MTD\tassay[1]-ms_run_ref\tms_run[1]\n" RUN("1") "\tx\n", 2, {{8, 1, 3, 0}, {3, 2, 1, 0}}},
    {"MTD\tstudy_variable[1]-assay_refs\tassay[1], assay[2]\nMTD\tassay[2]-ms_run_ref\tms_run[1]\n" RUN("1") "\nMTD\tassay[1]-ms_run_ref\tms_run[1]\r\n", 0, {{0, 0, 0, 0}}},
    /* rule 15: the same */
    {PROTEINS "\tnum_psms_ms_run[1]\tnum_psms_ms_run[2]\nPRT\ta\tb\tc\tnull\t1\t2\n" RUN("2") "\n", 2, {{15, 1, 6, 0}, {4, 3, 1, 0}}},
    {"SMH\tidentifier\tcharge\tsmallmolecule_abundance_assay[64]\nSML\ta\t1\t1.5\nMTD\tassay[64]-ms_run_ref\tms_run[1]", 2, {{4, 3, 1, 0}, {8, 3, 3, 0}}},
    /* rule 16: mode and type stand below the header; the first valid type decides */
    {PEPTIDES "\nMTD\tmzTab-type\tQuantification\nMTD\tmzTab-mode\tSummary\n", 3, {{16, 1, 1, 0}, {4, 2, 1, 0}, {4, 3, 1, 0}}},
    {PEPTIDES "\nMTD\tmzTab-type\tQuantification\n", 1, {{4, 2, 1, 0}}},
    {PEPTIDES "\nMTD\tmzTab-type\tIdentification\nMTD\tmzTab-mode\tComplete\nMTD\tmzTab-type\tQuantification\n", 4,
     {{4, 2, 1, 0}, {4, 3, 1, 0}, {4, 4, 1, 0}, {6, 4, 2, 2}}},
    {PEPTIDES "\nPEP\ta\tb\t1\t1.5\nMTD\tmzTab-type\tquantification\nMTD\tmzTab-mode\tComplete\nMTD\tmzTab-type\tQuantification", 6,
     {{16, 1, 1, 0}, {4, 3, 1, 0}, {7, 3, 3, 0}, {4, 4, 1, 0}, {4, 5, 1, 0}, {6, 5, 2, 3}}},
    {PEPTIDES "\tmodifications\tretention_time\tretention_time_window\nMTD\tmzTab-type\tQuantification\nMTD\tmzTab-mode\tSummary\n", 2, {{4, 2, 1, 0}, {4, 3, 1, 0}}},
    /* rule 4: a header or a row above, but no other line */
    {"PRT\nMTD\ttitle\ta\nCOM\nMTD\tcontact[1]-name\ta\n", 3, {{17, 1, 1, 0}, {4, 2, 1, 0}, {4, 4, 1, 0}}},
    {"x\nCOM\tPRH\nMTD\ttitle\ta\nPSH\nMTD\tcontact[1]-name\ta\n", 3, {{2, 1, 1, 0}, {16, 4, 1, 0}, {4, 5, 1, 0}}},
    /* rules 9 and 10 */
    {MOLECULES SPECTRA "\n" PEPTIDES "\n" PROTEINS "\n" MOLECULES, 4, {{10, 2, 1, 0}, {10, 3, 1, 0}, {10, 4, 1, 0}, {9, 5, 1, 1}}},
    /* rules 17 to 20: by the nearest header, its cells and its columns */
    {MOLECULES "SML\ta\t1\nSML\ta\nSML\t\t1\nSML\ta\tx\nPRT\ta\nSMH\tidentifier\tcharge\topt_a\nSML\ta\t1\nSML\ta\t1\tb\nSML\ta\t1\t\n", 7,
     {{18, 3, 1, 0}, {19, 4, 2, 0}, {20, 5, 3, 0}, {17, 6, 1, 0}, {9, 7, 1, 1}, {18, 8, 1, 0}, {19, 10, 4, 0}}},
    {MOLECULES "SML\t1\tx\nSMH\tcharge\tidentifier\nSML\t1\tx\nSML\tx\t1\n", 3, {{20, 2, 3, 0}, {9, 3, 1, 1}, {20, 5, 2, 0}}},
    {MOLECULES PROTEINS "\nSML\ta\t1\nPRT\ta\tb\tc\tnull\nPRT\tnull\tb\tc\tx\r\n", 4, {{10, 2, 1, 0}, {17, 3, 1, 0}, {20, 5, 2, 0}, {20, 5, 5, 0}}},
    {"SMH\tidentifier\tcharge\tx\nSML\ta\t1\t\377\nSML\ta\t1\t\n", 2, {{12, 1, 4, 0}, {19, 3, 4, 0}}},
    {MOLECULES "SML\t\001\t\002\n", 2, {{1, 2, 2, 0}, {20, 2, 3, 0}}},
    /* every sort of break of a header, and its row */
    {"SMH\topt_a\tcharge\tidentifier\topt_a\tnothing\nSML\ta\tb\tc\td\te", 6,
     {{14, 1, 3, 0}, {14, 1, 4, 0}, {13, 1, 5, 2}, {12, 1, 6, 0}, {14, 1, 6, 0}, {20, 2, 3, 0}}},
};

/* Rows under a header of 257 cells are not judged by rules 18 to 20, those under one of 256 are. */
static void lines_under_wide(void) {
    static const struct mztab_fault breaks[] = {{11, 1, 1, 0}, {17, 4, 1, 0}, {9, 5, 1, 1}, {18, 6, 1, 0}, {9, 7, 1, 1}, {11, 7, 1, 0}};
    static const struct mztab_fault narrow[] = {{16, 1, 1, 0}, {18, 2, 1, 0}, {19, 3, 2, 0}, {19, 3, 256, 0}};
    begin(LIMIT);
    put(line_of("SMH", 256, opt_name));
    put("SML\tx\nSML\ta\t\nPRT\n" MOLECULES "SML\ta\n");
    put(line_of("SMH", 256, opt_name));
    put("SML\t\t\n");
    lines_are(breaks, COUNT(breaks), "lines under a wide header");
    begin(LIMIT);
    put(line_of("SMH", 255, opt_name));
    put("SML\tx\nSML\t\t");
    for (int k = 0; k < 252; k++) put("a\t");
    put("a\t");
    lines_are(narrow, COUNT(narrow), "lines under a header of 256 cells");
}

/* Every line of a file of LIMIT bytes is judged, its last byte too, and none of one byte more. */
static void line_limits(void) {
    static const uint32_t header[] = {16, 1, 1, 0}, last[] = {17, 4, 1, 0, 1, 4, 2, 0}, asked[] = {0, 1, 2, 4, 5, 0xFFFFFFFF};
    begin(LIMIT + 1);
    put("PRH\taccession\nPRT\t12.5\nCOM\t");
    fill(' ', LIMIT - 7);
    put("\nPEP\tx\001\n");
    line_is(file, LIMIT, 1, 24, 0, header, 1, "limit: line 1");
    line_is(file, LIMIT, 2, 24, 0, NULL, 0, "limit: line 2");
    line_is(file, LIMIT, 3, 24, 0, NULL, 0, "limit: line 3");
    line_is(file, LIMIT, 4, 24, 0, last, 2, "limit: line 4");
    others_refused(file, LIMIT, 4, "limit: no such line");
    for (size_t i = 0; i < COUNT(asked); i++) line_refused(file, LIMIT + 1, asked[i], 1, "over the limit: line");
    ends(LIMIT);
    line_is(file, LIMIT, 1, 24, 0, NULL, 0, "limit: the first of LF alone");
    line_is(file, LIMIT, LIMIT, 24, 0, NULL, 0, "limit: the last of LF alone");
    line_refused(file, LIMIT, LIMIT + 1, 3, "limit: beyond the last of LF alone");
}

/* Each front part of the example at either edge of a page, and lists that are just long enough, or a place too short, at that of another. */
static void line_edges(void) {
    static struct judged all;
    size_t length = 65536, n = sizeof EXAMPLE - 1;
    uint8_t *f = page(length), *l = page(length);
    for (size_t part = 0; part <= n; part++)
        for (int way = 0; way < 4; way++) {
            uint8_t *here = way & 1 ? f + length - part : f;
            memcpy(here, EXAMPLE, part);
            judge_whole(&all, here, part);
            for (uint32_t line = 0; line <= all.lines + 1; line++) {
                int there = line > 0 && line <= all.lines;
                uint32_t from = above(all.places, all.count, line), own = there ? above(all.places, all.count, line + 1) - from : 0, number = 77;
                size_t room = way & 2 && own ? 4 * own - 1 : 4 * own, whole = room / 4;
                uint32_t *places = (uint32_t *)(way & 1 ? l + length - room * sizeof *places : l);
                mark(places, room);
                uint32_t count = mztab_judge_line(here, part, line, places, room, &number);
                check(number == (there ? 0 : 3) && count == own, "a line at the edge of a page", part);
                check(memcmp(places, all.places + 4 * from, 4 * whole * sizeof *places) == 0, "a line at the edge of a page: list", part);
                check(marked(places + 4 * whole, room - 4 * whole), "a line at the edge of a page: no place besides", part);
            }
            check(memcmp(here, EXAMPLE, part) == 0, "a line at the edge of a page: the file is as it was", part);
        }
    munmap(f - length, 3 * length);
    munmap(l - length, 3 * length);
}

static void one_line_each(void) {
    for (size_t i = 0; i < COUNT(LINES); i++) {
        begin(LIMIT);
        put(LINES[i].text);
        lines_are(LINES[i].breaks, LINES[i].count, "one line");
    }
    for (size_t i = 0; i < COUNT(AGAIN); i++) {
        begin(LIMIT);
        put(AGAIN[i].text);
        lines_are(AGAIN[i].breaks, AGAIN[i].count, "one line, where it stands first");
    }
    lines_under_wide();
    line_limits();
    group("one line");
    line_edges();
    group("one line, edges of a page");
}

/* ---- drawn files, and edits of a cell */

#define ANY(list) list[draw(COUNT(list))]

/* A row of so many cells. */
static void put_row(const char *code, uint32_t cells) {
    static const char *const values[] = {"",    "a",   "null", "null", "1",         "1",     "2",    "-1",   "1.5",       "1.5",
                                         "1E5", "INF", "1|2",  "x|y",  "[, , a, ]", "[,,,]", "\001", "\377", "1234567890"};
    put(code);
    for (uint32_t k = 1; k < cells; k++) {
        put("\t");
        put(ANY(values));
    }
}

/* A small file: metadata, headers, other lines, and rows, for the most part of the header above; with ends of each sort. Its first line is a header where
 * `head_first` says so. */
static void draw_file(int head_first) {
    static const char *const codes[4] = {"PRT", "PEP", "PSM", "SML"};
    static const char *const metadata[] = {
        "MTD\tmzTab-version\t1.0", "MTD\tmzTab-mode\tSummary", "MTD\tmzTab-mode\tComplete", "MTD\tmzTab-type\tQuantification", "MTD\tmzTab-type\tIdentification",
        "MTD\tmzTab-type\tx", "MTD\tdescription\td", "MTD\tdescription", RUN("1"), RUN("2"), RUN("2"), "MTD\tassay[1]-ms_run_ref\tms_run[1]",
        "MTD\tassay[2]-ms_run_ref\tms_run[2]", "MTD\tassay[1]-sample_ref\tsample[1]", "MTD\tsample[1]-description\td", "MTD\tsample[01]-description\td",
        "MTD\tstudy_variable[1]-assay_refs\tassay[1], assay[2]", "MTD\tstudy_variable[65]-description\td", "MTD\tsoftware[1]\tx", "MTD\tx\t\001", "MTD\ttitle\tt\t"};
    static const char *const heads[4][3] = {
        {PROTEINS "\tnum_psms_ms_run[1]\tprotein_abundance_assay[2]", "PRH\taccession\topt_a\topt_a", "PRH\taccession\tnum_psms_ms_run[2]\tdescription\tdatabase\tsearch_engine"},
        {PEPTIDES, PEPTIDES "\tmodifications\tretention_time\tretention_time_window", "PEH\tcharge\tunique\tpeptide_abundance_study_variable[1]"},
        {SPECTRA, "PSH\tcharge\topt_a\tsequence\tcharge", SPECTRA "\tretention_time\tsearch_engine\tx"},
        {"SMH\tidentifier\tcharge", "SMH\tcharge\tidentifier\topt_a", "SMH\tidentifier\tcharge\tsmallmolecule_abundance_assay[1]"}};
    static const char *const others[] = {"", "", "COM", "COM\tPRT", "COM\t\001", "x", "\t", "PRTx\ta", "prt\ta", "\r", " ", "PRH\r\r"};
    uint32_t section = (uint32_t)draw(4), cells = 3;
    begin(LIMIT);
    for (uint64_t left = draw(16); left > 0; left--) {
        uint64_t way = head_first ? 2 : draw(9);
        head_first = 0;
        if (way < 2) put(ANY(metadata));
        else if (way == 2) {
            section = (uint32_t)draw(4);
            const char *head = draw(12) ? ANY(heads[section]) : line_of("PRH", 256, opt_name);
            put(head);
            for (cells = 1; (head = strchr(head, '\t')); head++) cells++;
        } else if (way == 3) put(ANY(others));
        else put_row(codes[draw(9) ? section : draw(4)], draw(9) ? cells : 1 + (uint32_t)draw(10));
        if (left > 1 || draw(3)) put(draw(5) ? "\n" : "\r\n");
    }
}

/* Whether a line is a row with a cell 2. */
static int is_row(const uint8_t *line, size_t n) {
    return n > 3 && line[3] == '\t' && (memcmp(line, "PRT", 3) == 0 || memcmp(line, "PEP", 3) == 0 || memcmp(line, "PSM", 3) == 0 || memcmp(line, "SML", 3) == 0);
}

/* Where the line from k on stops, before its end of line; the next begins at *next. */
static size_t line_stop(const uint8_t *f, size_t n, size_t k, size_t *next) {
    const uint8_t *lf = memchr(f + k, '\n', n - k);
    size_t stop = lf ? (size_t)(lf - f) : n;
    *next = lf ? stop + 1 : n;
    return lf && stop > k && f[stop - 1] == '\r' ? stop - 1 : stop;
}

/* Where the cell from k on stops in a line that does at `stop`. */
static size_t cell_stop(const uint8_t *f, size_t stop, size_t k) {
    const uint8_t *tab = memchr(f + k, '\t', stop - k);
    return tab ? (size_t)(tab - f) : stop;
}

/* Draws a cell of a row, from cell 2 on, of all that the file has; answers its line, 0 where there is none. */
static uint32_t draw_cell(size_t *start, size_t *end) {
    uint32_t line = 1, drawn = 0;
    uint64_t seen = 0;
    for (size_t k = 0, next; k < at; k = next, line++) {
        size_t stop = line_stop(file, at, k, &next);
        if (!is_row(file + k, stop - k)) continue;
        for (size_t a = k + 4, b; a <= stop; a = b + 1) {
            b = cell_stop(file, stop, a);
            if (draw(++seen) == 0) drawn = line, *start = a, *end = b;
        }
    }
    return drawn;
}

/* Any bytes but tab, CR and LF: those that some column takes, or drawn ones; answers how many. */
static size_t draw_bytes(uint8_t *bytes) {
    static const char *const values[] = {"", "null", "1", "-12", "1.5", "INF", "1|2", "1|2|3", "[, , a, ]|[, , b, ]", "MTD", "opt_a", "a b", "\177", "\303\251"};
    if (draw(2)) {
        const char *value = ANY(values);
        memcpy(bytes, value, strlen(value));
        return strlen(value);
    }
    size_t n = draw(20);
    for (size_t k = 0; k < n; k++)
        do bytes[k] = (uint8_t)draw(256);
        while (bytes[k] == '\t' || bytes[k] == '\r' || bytes[k] == '\n');
    return n;
}

static uint32_t edits, changes; /* edits of a cell, and those that changed the list */

/* Puts n bytes in the place of a cell. Whether the old list, with that line's part worked out afresh, is the list of the new file. */
static int renewed(uint32_t line, size_t start, size_t end, const uint8_t *bytes, size_t n) {
    static struct judged old, new;
    static uint32_t places[8 * MOST_BREAKS];
    uint32_t number = 77;
    judge_whole(&old, file, at);
    memmove(file + start + n, file + end, at - end);
    memcpy(file + start, bytes, n);
    at = at - (end - start) + n;
    judge_whole(&new, file, at);
    uint32_t from = above(old.places, old.count, line), to = above(old.places, old.count, line + 1);
    memcpy(places, old.places, 4 * from * sizeof *places);
    uint32_t own = mztab_judge_line(file, at, line, places + 4 * from, 4 * MOST_BREAKS, &number);
    if (number || own > MOST_BREAKS - from) return 0;
    memcpy(places + 4 * (from + own), old.places + 4 * to, 4 * (old.count - to) * sizeof *places);
    edits++;
    changes += own != to - from || memcmp(old.places, new.places, 4 * new.count * sizeof *places) != 0;
    return new.lines == old.lines && new.count == from + own + old.count - to && memcmp(places, new.places, 4 * new.count * sizeof *places) == 0;
}

/* Draws so many edits of the file so far, one after the other. */
static void edit(uint32_t count, const char *what) {
    for (; count > 0; count--) {
        uint8_t bytes[32];
        size_t start, end, n = draw_bytes(bytes);
        uint32_t line = draw_cell(&start, &end);
        if (!line) return;
        check(renewed(line, start, end, bytes, n), what, line);
    }
}

enum { DRAWN_FILES = 4000 };

static void drawn_lines(void) {
    seed = 14;
    rules_seen = 0;
    for (uint32_t i = 0; i < DRAWN_FILES; i++) {
        draw_file(0);
        check(lines_make(file, at), "drawn lines", i);
        line_is(file, at, lines_of(file, at) + 1, 4, 3, NULL, 0, "drawn lines: beyond the last");
        edit(2, "an edited cell");
    }
    check(rules_seen == (1u << 25) - 2, "drawn lines: every rule is broken in some file", rules_seen);
    check(edits > DRAWN_FILES && changes > edits / 4, "edited cells: how many, and with another list", changes);
    null_cells((size_t)1 << 20);
    edit(16, "an edited cell of a long file");
    group("one line, drawn files and edits");
}

/* ---- mending empty cells */

/* Small files have copies of at most so many bytes. What is not to be touched has one byte over and over. */
enum { MOST_COPY = 1 << 17, UNTOUCHED = 0xA5 };

/* What mending a file is to give: the copy, and line and cell of each change. */
struct mended {
    size_t length;
    uint32_t count, changes[2 * MOST_BREAKS];
    uint8_t copy[MOST_COPY];
};

/* A mending call, with its outcome. */
struct outcome {
    size_t length;
    uint32_t number, count;
};

static struct outcome mend(const uint8_t *f, size_t n, uint8_t *copy, size_t room, uint32_t *list, size_t places) {
    struct outcome o = {77, 77, 77};
    o.length = mztab_mend(f, n, copy, room, list, places, &o.number, &o.count);
    return o;
}

static int refused_mend(struct outcome o, uint32_t number) { return o.number == number && o.length == 0 && o.count == 0; }

static int untouched(const uint8_t *bytes, size_t n) { return n == 0 || (*bytes == UNTOUCHED && memcmp(bytes, bytes + 1, n - 1) == 0); }

/* Mending into so many bytes and so many places, among others that are not to be touched. */
static void mend_is(const uint8_t *f, size_t n, const struct mended *m, size_t room, size_t places, const char *what) {
    static uint8_t bytes[AROUND + MOST_COPY + AROUND], *const copy = bytes + AROUND;
    static uint32_t numbers[AROUND + 2 * MOST_BREAKS + AROUND], *const list = numbers + AROUND;
    int fits = m->length <= room;
    size_t length = fits ? m->length : 0, whole = !fits ? 0 : places / 2 < m->count ? places / 2 : m->count;
    memset(bytes, UNTOUCHED, AROUND + room + AROUND);
    mark(numbers, AROUND + places + AROUND);
    struct outcome o = mend(f, n, copy, room, list, places);
    check(fits ? o.number == 0 && o.length == length && o.count == m->count : refused_mend(o, 5), what, room);
    check(memcmp(copy, m->copy, length) == 0, what, room);
    check(memcmp(list, m->changes, 2 * whole * sizeof *list) == 0, what, places);
    check(untouched(bytes, AROUND) && untouched(copy + length, room - length + AROUND), what, room);
    check(marked(numbers, AROUND) && marked(list + 2 * whole, places - 2 * whole + AROUND), what, places);
}

/* The file so far is mended so, into lists of every length and into buffers that are too short, just long enough and longer; it is as it was. */
static void mends_to(const struct mended *m, const char *what) {
    static uint8_t before[MOST_COPY];
    size_t rooms[] = {0, m->length / 2, at, m->length + 1, m->length + 100, 5 * at};
    memcpy(before, file, at);
    for (size_t places = 0; places <= 2 * (size_t)m->count + 3; places++) {
        mend_is(file, at, m, m->length, places, what);
        if (m->length > 0) mend_is(file, at, m, m->length - 1, places, what);
    }
    for (size_t i = 0; i < COUNT(rooms); i++) mend_is(file, at, m, rooms[i], 2 * (size_t)m->count, what);
    check(memcmp(file, before, at) == 0, what, at);
}

static int is_mended(const struct mended *m, uint32_t line, uint32_t cell) {
    for (uint32_t k = 0; k < m->count; k++)
        if (m->changes[2 * k] == line && m->changes[2 * k + 1] == cell) return 1;
    return 0;
}

static uint32_t holes_mended, holes_left; /* breaks of rule 19 that were mended, and that stayed */

/* Whether the breaks of the copy are those of the file so far without the mended ones, in the same order and with the same numbers. */
static int breaks_left(const struct mended *m) {
    static struct judged old, new;
    uint32_t left = 0;
    judge_whole(&old, file, at);
    judge_whole(&new, m->copy, m->length);
    for (uint32_t k = 0; k < old.count; k++) {
        const uint32_t *b = old.places + 4 * k;
        if (b[0] == 19 && is_mended(m, b[1], b[2])) continue;
        if (left == new.count || memcmp(b, new.places + 4 * left, 4 * sizeof *b) != 0) return 0;
        holes_left += b[0] == 19;
        left++;
    }
    holes_mended += m->count;
    return left == new.count && old.count == left + m->count && old.lines == new.lines;
}

/* Whether each cell of the copy, as the cell call shows it, is that of the file so far, or `null` in the place of an empty one that is mended. */
static int cells_left(const struct mended *m) {
    uint32_t seen = 0, number = 77;
    for (uint32_t section = 1; section <= 4; section++) {
        uint32_t rows = mztab_rows(file, at, section, &number);
        if (mztab_rows(m->copy, m->length, section, &number) != rows) return 0;
        for (uint32_t row = 0; row <= rows; row++)
            for (uint32_t column = 1;; column++) {
                struct view a = cell(file, at, section, row, column), b = cell(m->copy, m->length, section, row, column);
                if (a.number != b.number) return 0;
                if (a.number) break;
                struct read r = reading(file, at, section, row, column);
                int now = row > 0 && a.length == 0 && is_mended(m, r.line, r.cell);
                const uint8_t *bytes = now ? (const uint8_t *)"null" : file + a.start;
                if (b.length != (now ? 4 : a.length) || memcmp(m->copy + b.start, bytes, b.length) != 0) return 0;
                seen += (uint32_t)now;
            }
    }
    return seen == m->count;
}

/* Where a cell of a line begins. */
static size_t cell_start(const uint8_t *f, size_t n, uint32_t line, uint32_t cell) {
    size_t k = 0, next = 0;
    for (; line > 1; line--, k = next) line_stop(f, n, k, &next);
    size_t stop = line_stop(f, n, k, &next);
    for (; cell > 1; cell--) k = cell_stop(f, stop, k) + 1;
    return k;
}

/* Whether each cell of the copy that still breaks rule 19 would break rule 20 with `null` in it. */
static int none_may_stand(const struct mended *m) {
    static struct judged left;
    static uint8_t bytes[MOST_COPY + 4];
    judge_whole(&left, m->copy, m->length);
    for (uint32_t k = 0; k < left.count; k++) {
        uint32_t places[4 * 256], number = 77, line = left.places[4 * k + 1], cell = left.places[4 * k + 2], found = 0;
        if (left.places[4 * k] != 19) continue;
        size_t start = cell_start(m->copy, m->length, line, cell);
        memcpy(bytes, m->copy, start);
        memcpy(bytes + start, "null", 4);
        memcpy(bytes + start + 4, m->copy + start, m->length - start);
        uint32_t count = mztab_judge_line(bytes, m->length + 4, line, places, COUNT(places), &number);
        for (uint32_t i = 0; i < count && i < 256; i++) found |= places[4 * i] == 20 && places[4 * i + 2] == cell;
        if (number || !found) return 0;
    }
    return 1;
}

/* What holds of every file that is mended, here of the file so far: its length, its breaks and its cells, that `null` may not stand in a cell that stays empty,
 * and that the copy of the copy has the same bytes. */
static void mend_holds(const struct mended *m, const char *what) {
    static struct mended again;
    check(m->length == at + 4 * (size_t)m->count, what, m->length);
    check(breaks_left(m), what, m->count);
    check(cells_left(m), what, m->count);
    check(none_may_stand(m), what, m->count);
    again.length = m->length;
    memcpy(again.copy, m->copy, m->length);
    mend_is(again.copy, again.length, &again, again.length, 3, what);
}

static int is_header(const uint8_t *line, size_t n) {
    static const char codes[] = "PRH PEH PSH SMH";
    if (n < 3 || (n > 3 && line[3] != '\t')) return 0;
    for (size_t k = 0; k < sizeof codes; k += 4)
        if (memcmp(line, codes + k, 3) == 0) return 1;
    return 0;
}

/* Whether `null` may stand in a cell of the rows under a header. */
static int takes_null(const uint8_t *head, size_t n, uint32_t cell) {
    static const char *const none[] = {"PRH\taccession", "PEH\tsequence", "PSH\tsequence", "PSH\tPSM_ID"};
    size_t start = 0;
    for (; cell > 1; cell--) start = cell_stop(head, n, start) + 1;
    size_t length = cell_stop(head, n, start) - start;
    for (size_t i = 0; i < COUNT(none); i++)
        if (memcmp(head, none[i], 3) == 0 && length == strlen(none[i]) - 4 && memcmp(head + start, none[i] + 4, length) == 0) return 0;
    return 1;
}

static int breaks_19(const struct judged *j, uint32_t line, uint32_t cell) {
    for (uint32_t k = above(j->places, j->count, line); k < j->count && j->places[4 * k + 1] == line; k++)
        if (j->places[4 * k] == 19 && j->places[4 * k + 2] == cell) return 1;
    return 0;
}

static void add(struct mended *m, const void *bytes, size_t n) {
    if (n > MOST_COPY - m->length) exit(2);
    memcpy(m->copy + m->length, bytes, n);
    m->length += n;
}

/* What mending is to give, plainly: `null` behind the tab of each cell that the judging call lists with rule 19, by the name in the nearest header. */
static const struct mended *plainly(const uint8_t *f, size_t n) {
    static struct judged all;
    static struct mended m;
    size_t head = 0, head_stop = 0, next;
    uint32_t line = 1;
    judge_whole(&all, f, n);
    m.length = m.count = 0;
    for (size_t k = 0; k < n; k = next, line++) {
        size_t stop = line_stop(f, n, k, &next), b;
        uint32_t cell = 1;
        if (is_header(f + k, stop - k)) head = k, head_stop = stop;
        for (size_t a = k; a <= stop; a = b + 1, cell++) {
            b = cell_stop(f, stop, a);
            add(&m, f + a, b - a);
            if (breaks_19(&all, line, cell) && takes_null(f + head, head_stop - head, cell)) {
                add(&m, "null", 4);
                m.changes[2 * m.count] = line;
                m.changes[2 * m.count + 1] = cell;
                m.count++;
            }
            if (b < stop) add(&m, "\t", 1);
        }
        add(&m, f + stop, next - stop);
    }
    return &m;
}

/* Files, their copies, NULL for the same bytes, and line and cell of each change. */
static const struct { const char *text, *copy; uint32_t count, changes[16]; } MENDED[] = {
    /* nothing to mend: no bytes, ends of lines, comments, unknown lines, metadata, headers */
    {"", NULL, 0, {0}},
    {"\n", NULL, 0, {0}},
    {"\r\n\n\r\n", NULL, 0, {0}},
    {"\t\t\n\t", NULL, 0, {0}},
    {"COM\t\t\nCOM\t\nCOM", NULL, 0, {0}},
    {"x\t\t\n\001\t\n\177\t\t\377\r\r\n", NULL, 0, {0}},
    {"MTD\ttitle\t\nMTD\t\t\nMTD\t\nMTD\t\t\t\n", NULL, 0, {0}},
    {"SMH\t\t\nSMH\t\nPSH\t\tcharge\t", NULL, 0, {0}},
    {"SMH\nSML\nSML\t\nSML", NULL, 0, {0}},
    {MOLECULES "SML\ta\t1\nSML\tnull\tnull", NULL, 0, {0}},
    /* ends of lines: LF, CR LF, none; a CR before that of the end, or without LF, is a byte of its cell */
    {MOLECULES "SML\ta\t\nSML\t\t1\nSML\t\t\n", MOLECULES "SML\ta\tnull\nSML\tnull\t1\nSML\tnull\tnull\n", 4, {2, 3, 3, 2, 4, 2, 4, 3}},
    {"SMH\tidentifier\tcharge\r\nSML\ta\t\r\n\r\nSML\t\t1\r\nSML\t\t\r\n", "SMH\tidentifier\tcharge\r\nSML\ta\tnull\r\n\r\nSML\tnull\t1\r\nSML\tnull\tnull\r\n", 4,
     {2, 3, 4, 2, 5, 2, 5, 3}},
    {MOLECULES "SML\ta\t", MOLECULES "SML\ta\tnull", 1, {2, 3}},
    {MOLECULES "SML\t\t", MOLECULES "SML\tnull\tnull", 2, {2, 2, 2, 3}},
    {MOLECULES "SML\t\t1", MOLECULES "SML\tnull\t1", 1, {2, 2}},
    {MOLECULES "SML\ta\t\r", NULL, 0, {0}},
    {MOLECULES "SML\ta\t\r\r\nSML\t\r\t\r\nSML\t\t\r", MOLECULES "SML\ta\t\r\r\nSML\t\r\tnull\r\nSML\tnull\t\r", 2, {3, 3, 4, 2}},
    {MOLECULES "SML\ta\t\n\r", MOLECULES "SML\ta\tnull\n\r", 1, {2, 3}},
    /* columns where `null` may not stand, of their own section alone */
    {PROTEINS "\nPRT\t\t\t\t\n", PROTEINS "\nPRT\t\tnull\tnull\tnull\n", 3, {2, 3, 2, 4, 2, 5}},
    {PEPTIDES "\nPEP\t\t\t\t", PEPTIDES "\nPEP\t\tnull\tnull\tnull", 3, {2, 3, 2, 4, 2, 5}},
    {SPECTRA "\r\nPSM\t\t\t\t\t\r\n", SPECTRA "\r\nPSM\t\t\tnull\tnull\tnull\r\n", 3, {2, 4, 2, 5, 2, 6}},
    {MOLECULES "SML\t\t\n", MOLECULES "SML\tnull\tnull\n", 2, {2, 2, 2, 3}},
    {"PRH\tsequence\tPSM_ID\taccession\nPRT\t\t\t\n", "PRH\tsequence\tPSM_ID\taccession\nPRT\tnull\tnull\t\n", 2, {2, 2, 2, 3}},
    {"PEH\taccession\tPSM_ID\tsequence\nPEP\t\t\t", "PEH\taccession\tPSM_ID\tsequence\nPEP\tnull\tnull\t", 2, {2, 2, 2, 3}},
    {"PSH\taccession\tPSM_ID\tsequence\nPSM\t\t\t\n", "PSH\taccession\tPSM_ID\tsequence\nPSM\tnull\t\t\n", 1, {2, 2}},
    {"SMH\taccession\tPSM_ID\tsequence\nSML\t\t\t\n", "SMH\taccession\tPSM_ID\tsequence\nSML\tnull\tnull\tnull\n", 3, {2, 2, 2, 3, 2, 4}},
    {"PRH\taccession\topt_a\taccession\r\nPRT\t\t\t\nPRT\t\t\t\r\n", "PRH\taccession\topt_a\taccession\r\nPRT\t\tnull\t\nPRT\t\tnull\t\r\n", 2, {2, 3, 3, 3}},
    {"PRH\taccessio\taccessions\tAccession\t accession\taccession \taccession\r\r\nPRT\t\t\t\t\t\t\n",
     "PRH\taccessio\taccessions\tAccession\t accession\taccession \taccession\r\r\nPRT\tnull\tnull\tnull\tnull\tnull\tnull\n", 6,
     {2, 2, 2, 3, 2, 4, 2, 5, 2, 6, 2, 7}},
    {"PSH\tPSM_I\tPSM_ID\tpsm_id\tPSM_ID1\tsequences\tsequence\nPSM\t\t\t\t\t\t",
     "PSH\tPSM_I\tPSM_ID\tpsm_id\tPSM_ID1\tsequences\tsequence\nPSM\tnull\t\tnull\tnull\tnull\t", 4, {2, 2, 2, 4, 2, 5, 2, 6}},
    /* columns of each kind, unknown ones, one without a name, bad indices and runs that are not declared */
    {"PRH\ttaxid\treliability\tprotein_coverage\tsearch_engine\tx\t\tnum_psms_ms_run[1]\tnum_psms_ms_run[65]\nPRT\t\t\t\t\t\t\t\t\n",
     "PRH\ttaxid\treliability\tprotein_coverage\tsearch_engine\tx\t\tnum_psms_ms_run[1]\tnum_psms_ms_run[65]\nPRT\tnull\tnull\tnull\tnull\tnull\tnull\tnull\tnull\n",
     8, {2, 2, 2, 3, 2, 4, 2, 5, 2, 6, 2, 7, 2, 8, 2, 9}},
    {"PEH\tretention_time\tretention_time_window\tunique\topt_\topt_a\nPEP\t\t\t\t\t\n",
     "PEH\tretention_time\tretention_time_window\tunique\topt_\topt_a\nPEP\tnull\tnull\tnull\tnull\tnull\n", 5, {2, 2, 2, 3, 2, 4, 2, 5, 2, 6}},
    /* rows of another number of cells, under no header, and under one of another section: the nearest header counts */
    {MOLECULES "SML\t\nSML\t\t\t\nSML\t\t\nSML\n", MOLECULES "SML\t\nSML\t\t\t\nSML\tnull\tnull\nSML\n", 2, {4, 2, 4, 3}},
    {"SML\t\t\n" MOLECULES, NULL, 0, {0}},
    {MOLECULES PROTEINS "\nSML\t\t\nSMH\tcharge\nSML\t\t\nSML\t\n", MOLECULES PROTEINS "\nSML\t\t\nSMH\tcharge\nSML\t\t\nSML\tnull\n", 1, {6, 2}},
    {MOLECULES "PRT\t\t\nSML\t\t1\nPEP\t\t", MOLECULES "PRT\t\t\nSML\tnull\t1\nPEP\t\t", 1, {3, 2}},
    {"PRH\taccession\tdatabase\nPRT\t\t\nPRH\tdatabase\taccession\nPRT\t\t\n",
     "PRH\taccession\tdatabase\nPRT\t\tnull\nPRH\tdatabase\taccession\nPRT\tnull\t\n", 2, {2, 3, 4, 2}},
    {PEPTIDES "\n" SPECTRA "\nPEP\t\t\t\t\nPSM\t\t\t\t\t\n", PEPTIDES "\n" SPECTRA "\nPEP\t\t\t\t\nPSM\t\t\tnull\tnull\tnull\n", 3, {4, 4, 4, 5, 4, 6}},
    /* what stands between a header and its row, and what is nearly a row */
    {MOLECULES "\nCOM\t\t\n\r\nx\t\t\nMTD\ttitle\t\nSMLx\t\t\nsml\t\t\nSML \t\t\nSMHx\tcharge\nSML\t\t",
     MOLECULES "\nCOM\t\t\n\r\nx\t\t\nMTD\ttitle\t\nSMLx\t\t\nsml\t\t\nSML \t\t\nSMHx\tcharge\nSML\tnull\tnull", 2, {11, 2, 11, 3}},
    /* other breaks stay: control bytes, and values that are not of their kind */
    {MOLECULES "SML\t\001\t\nSML\t\tx\nSML\t\177\377\t\nSML\t \t\n", MOLECULES "SML\t\001\tnull\nSML\tnull\tx\nSML\t\177\377\tnull\nSML\t \tnull\n", 4,
     {2, 3, 3, 2, 4, 3, 5, 3}},
    /* the example */
    {EXAMPLE_HEAD "PRT\tY1\tnull\tdb\tnull\t\nPRT\tnull\tx\tdb\tnull\t4\n", EXAMPLE_HEAD "PRT\tY1\tnull\tdb\tnull\tnull\nPRT\tnull\tx\tdb\tnull\t4\n", 1, {8, 6}},
};

static void mended_by_hand(void) {
    static struct mended m;
    for (size_t i = 0; i < COUNT(MENDED); i++) {
        begin(LIMIT);
        put(MENDED[i].text);
        const char *copy = MENDED[i].copy ? MENDED[i].copy : MENDED[i].text;
        m.length = strlen(copy);
        memcpy(m.copy, copy, m.length);
        m.count = MENDED[i].count;
        memcpy(m.changes, MENDED[i].changes, sizeof MENDED[i].changes);
        mends_to(&m, "mending");
        mend_holds(&m, "mending: what holds");
        const struct mended *p = plainly(file, at);
        check(p->length == m.length && memcmp(p->copy, m.copy, m.length) == 0, "mending, plainly: copy", i);
        check(p->count == m.count && memcmp(p->changes, m.changes, 2 * m.count * sizeof *m.changes) == 0, "mending, plainly: list", i);
    }
}

/* Under a header of 256 cells a row is mended, up to its last cell; under one of 257 none is. */
static void mended_under_wide(void) {
    for (uint32_t names = 254; names <= 257; names++) {
        begin(LIMIT);
        put(line_of("PRH", names, last_opt_name));
        put(line_of("PRT", names, no_name));
        put(line_of("PRT", names - 1, no_name));
        put(line_of("PRT", names, null_cell));
        at -= 5; /* without the last `null` and LF */
        const struct mended *m = plainly(file, at);
        check(m->count == (names > 255 ? 0 : names), "mending under a wide header: how many", names);
        mend_is(file, at, m, m->length, 2 * (size_t)m->count + 3, "mending under a wide header");
        mend_is(file, at, m, m->length - 1, 2 * (size_t)m->count, "mending under a wide header: no room");
        mend_holds(m, "mending under a wide header: what holds");
    }
}

/* Empty cells at each place of a block of 64 bytes: behind other lines, a long cell, ends of lines or many such cells; with LF and CR LF, and at the end. */
static void mended_at_places(void) {
    static const char *const between[4] = {"x", "\n", "SML\t\t1\ta\n", "\t"};
    for (size_t pad = 0; pad < 140; pad++)
        for (int way = 0; way < 32; way++) {
            begin(LIMIT);
            put("SMH\tidentifier\tcharge\topt_a\n");
            put((way & 3) == 3 ? "x" : (way & 3) == 0 && way & 16 ? "SML\t" : "");
            for (size_t k = 0; k < pad; k++) put(between[way & 3]);
            put(way & 16 ? "\t\t\n" : "\n");
            put(way & 4 ? "SML\t\t\t\r\n" : "SML\t\t1\t\n");
            put(way & 8 ? "SML\ta\t\t" : "COM\t\t");
            const struct mended *m = plainly(file, at);
            check(m->count >= 2, "empty cells at each place: how many", m->count);
            mend_is(file, at, m, m->length, 2 * (size_t)m->count, "empty cells at each place");
        }
}

/* Each front part of a file at either edge of a page; buffers that are just long enough, or a byte too short, and lists that are, or a place too short, at those
 * of others. */
static void mend_edges(void) {
    static const char text[] = "MTD\ttitle\t\nPRH\taccession\tdescription\t\nPRT\t\t\ta\nPRT\tnull\t\t\r\n\nPRT\t\tx\t";
    size_t length = 65536;
    uint8_t *f = page(length), *c = page(length), *l = page(length);
    for (size_t part = 0; part < sizeof text; part++)
        for (int way = 0; way < 8; way++) {
            uint8_t *here = way & 1 ? f + length - part : f;
            memcpy(here, text, part);
            const struct mended *m = plainly(here, part);
            int fits = !(way & 2) || m->length == 0;
            size_t room = m->length - !fits, places = 2 * (size_t)m->count, written = fits ? room : 0;
            places -= way & 4 && places;
            size_t whole = fits ? places / 2 : 0;
            uint8_t *copy = way & 1 ? c + length - room : c;
            uint32_t *list = (uint32_t *)(way & 1 ? l + length - places * sizeof *list : l);
            memset(copy, UNTOUCHED, room);
            mark(list, places);
            struct outcome o = mend(here, part, copy, room, list, places);
            check(fits ? o.number == 0 && o.length == room && o.count == m->count : refused_mend(o, 5), "mending at the edge of a page", part);
            check(memcmp(copy, m->copy, written) == 0 && untouched(copy + written, room - written), "mending at the edge of a page: copy", part);
            check(memcmp(list, m->changes, 2 * whole * sizeof *list) == 0 && marked(list + 2 * whole, places - 2 * whole), "mending at the edge of a page: list", part);
            check(memcmp(here, text, part) == 0, "mending at the edge of a page: the file is as it was", part);
        }
    munmap(f - length, 3 * length);
    munmap(c - length, 3 * length);
    munmap(l - length, 3 * length);
}

static void mends(void) {
    mended_by_hand();
    mended_under_wide();
    group("mending");
    mended_at_places();
    group("mending, each place of a block");
    mend_edges();
    group("mending, edges of a page");
}

/* Empties so many drawn cells of rows. */
static void empty_some(uint64_t count) {
    for (size_t start, end; count > 0 && draw_cell(&start, &end); count--) {
        memmove(file + start, file + end, at - end);
        at -= end - start;
    }
}

/* Drawn files, some with a byte that is changed; lists and buffers of drawn lengths. */
static void drawn_mends(void) {
    seed = 2;
    rules_seen = holes_mended = holes_left = 0;
    for (uint32_t i = 0; i < DRAWN_FILES; i++) {
        draw_file(i % 4 > 0);
        empty_some(draw(12));
        if (at > 0 && draw(4) == 0) file[draw(at)] = (uint8_t)draw(256);
        const struct mended *m = plainly(file, at);
        mend_is(file, at, m, m->length, 2 * (size_t)m->count, "drawn files, mended");
        mend_is(file, at, m, m->length + draw(100), draw(2 * (uint64_t)m->count + 4), "drawn files, mended: drawn lengths");
        if (m->length > 0) mend_is(file, at, m, draw(m->length), 2 * (size_t)m->count, "drawn files, mended: no room");
        mend_holds(m, "drawn files, mended: what holds");
    }
    check(rules_seen == (1u << 25) - 2, "drawn files, mended: every rule is broken in some file", rules_seen);
    check(holes_mended > 2 * DRAWN_FILES, "drawn files, mended: how many cells", holes_mended);
    check(holes_left > DRAWN_FILES / 4, "drawn files, mended: how many stay empty", holes_left);
    group("mending, drawn files");
}

/* A buffer between pages that may not be touched, of five bytes for each that a file can have. */
#define BUFFER (5 * LIMIT)
static uint8_t *buffer;

/* Mends a file into so many bytes at the upper edge of the buffer. */
static struct outcome mend_high(const uint8_t *f, size_t n, size_t room, uint32_t *list, size_t places) {
    memset(buffer + BUFFER - room, UNTOUCHED, room);
    return mend(f, n, buffer + BUFFER - room, room, list, places);
}

/* The first n bytes of the file are refused, and nothing is written. */
static void mend_refused(size_t n, size_t room, uint32_t number, const char *what) {
    uint32_t list[8];
    mark(list, COUNT(list));
    check(refused_mend(mend_high(file, n, room, list, COUNT(list)), number), what, room);
    check(untouched(buffer + BUFFER - room, room) && marked(list, COUNT(list)), what, room);
}

/* Of the first n bytes of the file so many cells are mended, the last of a row of three on its last line; the copy ends so. */
static void mend_last(size_t n, size_t room, uint32_t count, uint32_t line, const char *end, const char *what) {
    uint32_t list[8];
    const uint8_t *copy = buffer + BUFFER - room;
    size_t length = n + 4 * (size_t)count, same = length - strlen(end);
    mark(list, COUNT(list));
    struct outcome o = mend_high(file, n, room, list, COUNT(list));
    check(o.number == 0 && o.length == length && o.count == count, what, o.length);
    check(memcmp(copy, file, same) == 0 && memcmp(copy + same, end, length - same) == 0, what, n);
    for (uint32_t k = 0; k < count; k++) check(list[2 * k] == line && list[2 * k + 1] == 4 - count + k, what, line);
    check(untouched(copy + length, room - length) && marked(list + 2 * count, COUNT(list) - 2 * count), what, room);
}

/* Files of LIMIT bytes and of one byte more, and copies of as many. */
static void mends_to_limit(void) {
    static const char hole[] = "\n" MOLECULES "SML\ta\t", holes[] = MOLECULES "SML\t\t";
    begin(LIMIT + 1);
    put("PRH\taccession\nPRT\t12.5\nCOM\t");
    fill(' ', LIMIT + 1);
    mend_last(LIMIT, LIMIT, 0, 0, "", "limit: mended");
    mend_last(LIMIT, LIMIT + 4096, 0, 0, "", "limit: mended, room behind it");
    mend_refused(LIMIT, LIMIT - 1, 5, "limit: one byte too few");
    mend_refused(LIMIT, 0, 5, "limit: no byte");
    mend_refused(LIMIT + 1, BUFFER, 1, "over the limit: mended");
    mend_refused(LIMIT + 1, LIMIT, 1, "over the limit: mended, too few bytes");
    mend_refused(LIMIT + 1, 0, 1, "over the limit: mended, no byte");
    /* an empty cell at the end of so many bytes */
    for (size_t n = LIMIT - 6; n <= LIMIT + 1; n++) {
        begin(n);
        put("COM");
        fill(' ', n - (sizeof hole - 1));
        put(hole);
        if (n + 4 <= LIMIT) mend_last(n, n + 4, 1, 3, "null", "a copy up to the limit");
        mend_refused(n, n + 3, n > LIMIT ? 1 : 5, "one byte too few for the copy");
        if (n + 4 > LIMIT) mend_refused(n, BUFFER, n > LIMIT ? 1 : 5, "a copy over the limit");
    }
    /* two on the last of many lines */
    ends(LIMIT - 8);
    at = LIMIT - 8 - (sizeof holes - 1);
    put(holes);
    mend_last(LIMIT - 8, LIMIT, 2, (uint32_t)(LIMIT - 8 - (sizeof holes - 1)) + 2, "null\tnull", "empty cells on the last of many lines");
    group("mending, files at the limit");
}

static void mended_cell(char *s, uint32_t k) { strcpy(s, k ? "null" : ""); }

/* Whether the list has the cells of so many rows from line 2 on: cells 3 to 256 of each. */
static int rows_listed(const uint32_t *list, size_t changes) {
    for (size_t k = 0; k < changes; k++)
        if (list[2 * k] != 2 + k / 254 || list[2 * k + 1] != 3 + k % 254) return 0;
    return 1;
}

/* Rows of empty cells, as many as make a copy of LIMIT bytes, with LF after them; and one LF more. Their list is long: it is lent whole, and with one to three
 * places too few. */
static void mend_long(void) {
    size_t head = strlen(line_of("PRH", 255, last_opt_name)), row = strlen(line_of("PRT", 255, no_name)), wide = row + 4 * 254;
    size_t rows = (LIMIT - head) / wide, n = LIMIT - 4 * 254 * rows, changes = 254 * rows;
    uint32_t *list = malloc((2 * changes + 3) * sizeof *list);
    if (!list) exit(2);
    empty_cells(n + 1);
    at = head + rows * row;
    fill('\n', n + 1);
    for (size_t less = 0; less < 4; less++) {
        mark(list, 2 * changes + 3);
        struct outcome o = mend_high(file, n, LIMIT, list, 2 * changes - less);
        check(o.number == 0 && o.length == LIMIT && o.count == changes, "rows of empty cells, up to the limit", o.length);
        check(rows_listed(list, changes - (less + 1) / 2), "rows of empty cells: changes", less);
        check(marked(list + 2 * (changes - (less + 1) / 2), 3 + 2 * ((less + 1) / 2)), "rows of empty cells: changes that do not fit", less);
    }
    const uint8_t *copy = buffer + BUFFER - LIMIT;
    const char *mended = line_of("PRT", 255, mended_cell);
    int same = memcmp(copy, file, head) == 0 && memcmp(copy + head + rows * wide, file + head + rows * row, n - head - rows * row) == 0;
    for (size_t k = 0; k < rows; k++) same = same && memcmp(copy + head + k * wide, mended, wide) == 0;
    check(same, "rows of empty cells: copy", rows);
    mend_refused(n, LIMIT - 1, 5, "rows of empty cells, one byte too few");
    mend_refused(n + 1, BUFFER, 5, "rows of empty cells, over the limit");
    mend_refused(n + 1, 5 * (n + 1), 5, "rows of empty cells, over the limit, five bytes for each");
    empty_cells(LIMIT);
    mend_refused(LIMIT, BUFFER, 5, "16 MB of rows of empty cells");
    free(list);
}

static void mend_limits(void) {
    mends_to_limit();
    mend_long();
    group("mending, rows of empty cells");
}

/* The example at either edge of a page, and each front part of it: a byte touched outside is a fault. */
static void edges(void) {
    size_t length = 65536, n = sizeof EXAMPLE - 1;
    uint8_t *f = page(length), *l = page(length);
    uint32_t last = 0;
    for (size_t part = 0; part <= n; part++) {
        uint32_t count[2];
        for (int high = 0; high < 2; high++) {
            uint8_t *here = high ? f + length - part : f;
            uint32_t *places = (uint32_t *)(high ? l + length - 48 : l);
            uint32_t number = 77;
            memcpy(here, EXAMPLE, part);
            mark(places, 12);
            count[high] = mztab_judge(here, part, places, 12, &number);
            check(number == 0, "edges: judged", part);
            for (uint32_t row = 0; row < 3; row++) {
                struct view v = cell(here, part, 1, row, 5);
                struct read r = reading(here, part, 1, row, 5);
                check(v.number == r.number && v.start + v.length <= part, "edges: cell", part);
            }
            check(memcmp(here, EXAMPLE, part) == 0, "edges: the file is as it was", part);
        }
        check(count[0] == count[1], "edges: the same", part);
        last = count[0];
    }
    check(last == 6, "edges: the example", last);
    munmap(f - length, 3 * length);
    munmap(l - length, 3 * length);
    group("edges of a page");
}

static void views(void) {
    const uint8_t *f = (const uint8_t *)EXAMPLE;
    size_t n = sizeof EXAMPLE - 1;
    static const char *const cells[3][5] = {
        {"accession", "description", "database", "search_engine", "num_psms_ms_run[2]"}, {"Y1", "null", "db", "null", ""}, {"null", "x", "db", "null", "4"}};
    static const uint32_t kinds[3][5] = {{6, 6, 6, 6, 6}, {6, 0, 6, 0, 6}, {0, 6, 6, 0, 1}};
    for (uint32_t row = 0; row < 3; row++)
        for (uint32_t column = 1; column <= 5; column++) {
            const char *text = cells[row][column - 1];
            struct view v = cell(f, n, 1, row, column);
            check(v.number == 0 && v.length == strlen(text) && memcmp(f + v.start, text, v.length) == 0, "view", row * 10 + column);
            check(v.start > 0 && f[v.start - 1] == '\t' && (f[v.start + v.length] == '\t' || f[v.start + v.length] == '\n'), "view: where", row * 10 + column);
            struct read r = reading(f, n, 1, row, column);
            check(r.number == 0 && r.kind == kinds[row][column - 1], "reading: case", row * 10 + column);
            check(r.line == row + 7 && r.cell == column + 1, "reading: where", row * 10 + column);
            check(r.kind == 1 ? r.whole == 4 && r.power == 0 && same_double(r.decimal, 0.0) : bare(r), "reading: carries", row * 10 + column);
        }
    group("views");
}

static void refusals(void) {
    const uint8_t *f = (const uint8_t *)EXAMPLE;
    size_t n = sizeof EXAMPLE - 1;
    static const uint32_t sections[] = {0, 1, 2, 3, 4, 5, 6, 255, 256, 257, 0x7FFFFFFF, 0x80000000, 0xFFFFFFFF};
    static const uint32_t rows[] = {0, 1, 2, 3, 4, 255, 0x7FFFFFFF, 0x80000000, 0xFFFFFFFF};
    static const uint32_t columns[] = {0, 1, 5, 6, 7, 255, 256, 0x7FFFFFFF, 0x80000000, 0xFFFFFFFE, 0xFFFFFFFF};
    begin(LIMIT + 1);
    put(EXAMPLE);
    fill('\n', LIMIT + 1);
    for (size_t s = 0; s < COUNT(sections); s++)
        for (size_t r = 0; r < COUNT(rows); r++)
            for (size_t c = 0; c < COUNT(columns); c++) {
                uint32_t section = sections[s], row = rows[r], column = columns[c];
                /* of the example: rows 0 to 2 of section 1, columns 1 to 5 of each */
                uint32_t number = section < 1 || section > 4 ? 2 : section != 1 || row > 2 ? 3 : column < 1 || column > 5 ? 4 : 0;
                unsigned long long which = s * 10000 + r * 100 + c;
                struct view v = cell(f, n, section, row, column);
                struct read d = reading(f, n, section, row, column);
                check(v.number == number, "refusal: number of cell", which);
                check(d.number == number, "refusal: number of reading", which);
                if (number) {
                    check(refused_view(v, number), "refusal: empty view", which);
                    check(refused_reading(d, number), "refusal: empty reading", which);
                }
                check(refused_view(cell(file, LIMIT + 1, section, row, column), 1), "too long: cell", which);
                check(refused_reading(reading(file, LIMIT + 1, section, row, column), 1), "too long: reading", which);
            }
    group("refusals in order");

    /* rows of all sections, under no header and among comments; the last line has no LF */
    static const char all[] = "SML\ta\r\nCOM\nPSM\tb\nPEP\tc\n\nPRT\td\nSMH\te\nPSH\tf\nPEH\tg\nPRH\th\nprt\ti\nPRT \tj\nSML\tk";
    static const struct { uint32_t section, row, line; char byte; } rows_of[] = {
        {4, 1, 1, 'a'}, {3, 1, 3, 'b'}, {2, 1, 4, 'c'}, {1, 1, 6, 'd'}, {4, 0, 7, 'e'}, {3, 0, 8, 'f'}, {2, 0, 9, 'g'}, {1, 0, 10, 'h'}, {4, 2, 13, 'k'}};
    for (size_t i = 0; i < COUNT(rows_of); i++) {
        struct view v = cell((const uint8_t *)all, sizeof all - 1, rows_of[i].section, rows_of[i].row, 1);
        struct read r = reading((const uint8_t *)all, sizeof all - 1, rows_of[i].section, rows_of[i].row, 1);
        check(v.number == 0 && v.length == 1 && all[v.start] == rows_of[i].byte, "sections: cell", i);
        check(r.number == 0 && r.line == rows_of[i].line && r.cell == 2 && r.kind == 6, "sections: reading", i);
    }
    check(refused_view(cell((const uint8_t *)all, sizeof all - 1, 1, 2, 1), 3), "sections: other codes are no rows", 0);
    check(refused_view(cell((const uint8_t *)all, sizeof all - 1, 4, 3, 1), 3), "sections: no row more", 0);
    check(refused_view(cell((const uint8_t *)all, sizeof all - 1, 4, 1, 2), 4), "sections: no cell more", 0);
    group("rows of four sections");
}

/* A number to read: a minus or none, digits, of which so many are places. */
struct numeral {
    int minus;
    uint64_t digits;
    uint32_t length, places;
};

static const char *spelled(struct numeral n) {
    static char s[40];
    char d[24];
    sprintf(d, "%0*llu", (int)n.length, (unsigned long long)n.digits);
    sprintf(s, "%s%.*s%s%s", n.minus ? "-" : "", (int)(n.length - n.places), d, n.places ? "." : "", d + n.length - n.places);
    return s;
}

enum { WIDTH = 8, NUMERALS = 320 };

static void doubles(void) {
    static const struct numeral fixed[] = {
        {1, 0, 2, 1}, {0, 0, 2, 1}, {0, 1, 2, 1}, {1, 1, 2, 1}, {0, 11232, 5, 1}, {0, 999999999999999, 15, 0}, {1, 999999999999999, 15, 0},
        {0, 1, 15, 14}, {1, 1, 15, 14}, {0, 0, 15, 14}, {1, 0, 15, 14}, {0, 999999999999999, 15, 14}, {1, 999999999999999, 15, 14}, {0, 999999999999999, 15, 1},
        {0, 1000000000, 10, 0}, {1, 1000000000, 10, 0}, {0, 0, 10, 0}, {1, 0, 10, 0}, {0, 1, 10, 0}, {0, 3, 2, 1}, {0, 7, 2, 1}, {0, 333333333333333, 15, 14},
        {0, 1123, 4, 1}, {0, 5, 2, 1}, {0, 25, 3, 2}, {0, 10, 4, 2}, {1, 123456789, 9, 3}, {0, 900719925474099, 15, 0}, {0, 900719925474099, 15, 7},
        {0, 314159265358979, 15, 14}, {0, 271828182845904, 15, 14}, {1, 100000000000000, 15, 14}, {0, 562949953421312, 15, 14}, {0, 562949953421313, 15, 13}};
    static struct numeral all[NUMERALS];
    uint64_t tens[16] = {1};
    for (int i = 1; i < 16; i++) tens[i] = tens[i - 1] * 10;
    for (size_t i = 0; i < NUMERALS; i++)
        if (i < COUNT(fixed)) all[i] = fixed[i];
        else {
            struct numeral n;
            n.minus = (int)draw(2);
            n.length = 2 + (uint32_t)draw(14);
            /* without a dot nine digits and fewer are a whole */
            n.places = n.length > 9 && draw(4) == 0 ? 0 : 1 + (uint32_t)draw(n.length - 1);
            n.digits = draw(tens[draw(3) ? n.length : 1 + draw(n.length)]);
            all[i] = n;
        }
    begin(LIMIT);
    put("PRH\taccession\nCOM\n\n");
    for (size_t i = 0; i < NUMERALS; i++) {
        put(i % WIDTH ? "\t" : "PRT\t");
        put(spelled(all[i]));
        if (i % WIDTH == WIDTH - 1) put("\r\n");
    }
    for (uint32_t i = 0; i < NUMERALS; i++) {
        struct numeral n = all[i];
        struct read r = reading(file, at, 1, i / WIDTH + 1, i % WIDTH + 1);
        double d = (double)n.digits / (double)tens[n.places];
        if (n.minus) d = -d;
        check(r.number == 0 && r.kind == 2, "decimal: case", i);
        check(r.line == 4 + i / WIDTH && r.cell == i % WIDTH + 2, "decimal: where", i);
        check(r.whole == (n.minus ? -(int64_t)n.digits : (int64_t)n.digits), "decimal: numerals", i);
        check(r.power == -(int32_t)n.places, "decimal: power", i);
        check(same_double(r.decimal, d), "decimal: double", i);
        check(same_double(r.decimal, strtod(spelled(n), NULL)), "decimal: nearest double", i);
    }
    group("doubles");

    static const struct { const char *text; int64_t value; } wholes[] = {
        {"0", 0}, {"-0", 0}, {"1", 1}, {"-1", -1}, {"9", 9}, {"10", 10}, {"-10", -10}, {"007", 7}, {"-007", -7}, {"000000000", 0}, {"-000000000", 0},
        {"000000001", 1}, {"123456789", 123456789}, {"-123456789", -123456789}, {"999999999", 999999999}, {"-999999999", -999999999}, {"100000000", 100000000}};
    begin(LIMIT);
    put("PRT");
    for (size_t i = 0; i < COUNT(wholes); i++) { put("\t"); put(wholes[i].text); }
    for (uint32_t i = 0; i < COUNT(wholes); i++) {
        struct read r = reading(file, at, 1, 1, i + 1);
        check(r.number == 0 && r.kind == 1 && r.whole == wholes[i].value, "whole", i);
        check(r.power == 0 && same_double(r.decimal, 0.0) && r.line == 1 && r.cell == i + 2, "whole: the rest", i);
    }
    group("wholes");

    static const struct { const char *text; uint32_t kind; } others[] = {
        {"null", 0}, {"INF", 3}, {"NaN", 4}, {"1234567890123456", 5}, {"-1234567890123456", 5}, {"0000000000000000", 5}, {"1.234567890123456", 5},
        {"-0.000000000000000", 5}, {"123456789012345678901234567890.5", 5}, {"", 6}, {"-", 6}, {".", 6}, {".5", 6}, {"5.", 6}, {"-.5", 6}, {"-5.", 6},
        {"1,000", 6}, {"--1", 6}, {"1-", 6}, {"+1", 6}, {"1.2.3", 6}, {"1..2", 6}, {"1e", 6}, {"0x10", 6}, {" 1", 6}, {"1 ", 6}, {"-INF", 6}, {"-NaN", 6},
        {"inf", 6}, {"nan", 6}, {"NAN", 6}, {"NULL", 6}, {"null ", 6}, {"nul", 6}, {"nulll", 6}, {"NA", 6}, {"1/2", 6}, {"1:2", 6}, {"\xC3\xA9", 6}, {"1|2", 6}};
    begin(LIMIT);
    put("SML");
    for (size_t i = 0; i < COUNT(others); i++) { put("\t"); put(others[i].text); }
    for (uint32_t i = 0; i < COUNT(others); i++) {
        struct read r = reading(file, at, 4, 1, i + 1);
        check(r.number == 0 && r.kind == others[i].kind && r.line == 1 && r.cell == i + 2, "case", i);
        check(bare(r), "case: carries nothing", i);
    }
    group("other cases");
}

/* One cell, read. */
static struct read read_text(const char *text) {
    begin(LIMIT);
    put("SML\t");
    put(text);
    return reading(file, at, 4, 1, 1);
}

/* A drawn numeral of so many digits, some of them places, and some after zeros. */
static struct numeral numeral(uint32_t length) {
    struct numeral n = {(int)draw(2), 0, length, (uint32_t)draw(length)};
    for (uint32_t k = draw(3) ? 0 : (uint32_t)draw(length); k < length; k++) n.digits = n.digits * 10 + draw(10);
    return n;
}

/* The numeral with the exponent that gives it the power: either letter, a plus or none, and up to two zeros in front of one digit. */
static const char *with_power(struct numeral n, int32_t power) {
    static char s[64];
    int32_t exponent = power + (int32_t)n.places;
    const char *sign = exponent < 0 ? "-" : draw(2) ? "+" : exponent == 0 && draw(2) ? "-" : "";
    sprintf(s, "%s%c%s%0*d", spelled(n), draw(2) ? 'E' : 'e', sign, 1 + (int)draw(3), abs(exponent));
    return s;
}

/* A decimal with an exponent is a short one with a power from -22 to 22. */
enum { POWER = 22, EACH_POWER = 120, LONG = 2000 };

/* Drawn numerals with each power: one division or one multiplication by an exact power of ten, which gives the nearest double. */
static void powers(void) {
    for (int32_t power = -POWER; power <= POWER; power++) {
        double ten = 1;
        for (int32_t k = 0; k < abs(power); k++) ten *= 10; /* exact: five to the 22 has 52 bits */
        for (uint32_t i = 0; i < EACH_POWER; i++) {
            struct numeral n = numeral(1 + (uint32_t)draw(15));
            const char *text = with_power(n, power);
            struct read r = read_text(text);
            double d = power < 0 ? (double)n.digits / ten : (double)n.digits * ten;
            if (n.minus) d = -d;
            check(r.number == 0 && r.kind == 2 && r.line == 1 && r.cell == 2, text, r.kind);
            check(r.whole == (n.minus ? -(int64_t)n.digits : (int64_t)n.digits), text, i);
            check(r.power == power, text, i);
            check(same_double(r.decimal, d), text, i);
            check(same_double(r.decimal, strtod(text, NULL)), text, i);
        }
    }
    group("powers of ten");
    /* powers of 23 and more, and of 16 digits and more any power */
    for (uint32_t i = 0; i < LONG; i++) {
        int32_t beyond = POWER + 1 + (i % 4 < 2 ? 0 : (int32_t)draw(960));
        const char *text = with_power(numeral(1 + (uint32_t)draw(15)), i % 2 ? beyond : -beyond);
        struct read r = read_text(text);
        check(r.number == 0 && r.kind == 5 && bare(r), text, r.kind);
        text = with_power(numeral(16 + (uint32_t)draw(3)), (int32_t)draw(2 * POWER + 1) - POWER);
        r = read_text(text);
        check(r.number == 0 && r.kind == 5 && bare(r), text, r.kind);
    }
    group("long decimals");
}

static void exponents(void) {
    static const struct { const char *text; int64_t numerals; int32_t power; } shorts[] = {
        {"12.50", 1250, -2}, {"1.2E-5", 12, -6}, {"3e2", 3, 2}, {"3.2e-05", 32, -6}, {"6.229394e06", 6229394, 0}, {"1.2E+06", 12, 5}, {"-1E000", -1, 0},
        {"1E-0", 1, 0}, {"1e+0", 1, 0}, {"0E22", 0, 22}, {"-0e-22", 0, -22}, {"-0E0", 0, 0}, {"007.50E-002", 750, -4}, {"123456789e0", 123456789, 0},
        {"999999999999999E22", 999999999999999, 22}, {"-9.99999999999999e36", -999999999999999, 22}, {"0.00000000000001E-8", 1, -22}, {"1.0E-21", 10, -22}};
    for (size_t i = 0; i < COUNT(shorts); i++) {
        struct read r = read_text(shorts[i].text);
        check(r.number == 0 && r.kind == 2 && r.whole == shorts[i].numerals && r.power == shorts[i].power, shorts[i].text, r.kind);
        check(same_double(r.decimal, strtod(shorts[i].text, NULL)), shorts[i].text, 0);
    }
    static const struct { const char *text; uint32_t kind; } others[] = {
        {"1E23", 5}, {"1e-23", 5}, {"0E23", 5}, {"-0E-23", 5}, {"1.0E-22", 5}, {"10.5e24", 5}, {"1E999", 5}, {"1E-999", 5}, {"1234567890123456E0", 5},
        {"0.123456789012345e1", 5}, {"0000000000000001E5", 5}, {"1.234567890123456E-999", 5}, {".5E1", 6}, {"5.E1", 6}, {"E5", 6}, {"-E5", 6}, {"1E", 6},
        {"1e", 6}, {"1E+", 6}, {"1e-", 6}, {"1E1000", 6}, {"1E0001", 6}, {"1E-0001", 6}, {"1.2E-5.0", 6}, {"1E5E5", 6}, {"1EE5", 6}, {"1eE5", 6}, {"1E+-5", 6},
        {"1E--5", 6}, {"1E++5", 6}, {"1E 5", 6}, {"1 E5", 6}, {" 1E5", 6}, {"1E5 ", 6}, {"1E5-", 6}, {"1E5.", 6}, {"1E.5", 6}, {"1.2.3E5", 6}, {"1F5", 6},
        {"1D5", 6}, {"1d5", 6}, {"1x5", 6}, {"+1E5", 6}, {"--1E5", 6}, {"1,0E5", 6}, {"1E5,0", 6}, {"INFE1", 6}, {"INFe", 6}, {"NaNE1", 6}, {"NaNe-1", 6},
        {"-INFE1", 6}, {"nullE1", 6}, {"1E5|1E5", 6}, {"1\xC3\x89", 6}, {"E", 6}, {"e", 6}, {"-", 6}, {"E-5", 6}};
    for (size_t i = 0; i < COUNT(others); i++) {
        struct read r = read_text(others[i].text);
        check(r.number == 0 && r.kind == others[i].kind && bare(r), others[i].text, r.kind);
    }
    group("exponents");
}

/* ---- fees, weights and rows */

#define FEE_LIMIT 100000000000u
#define HEAVIEST 16777215u
#define MARK_64 0xDEADBEEFDEADBEEFu

/* A sum, with its outcome. */
static void sum_is(uint64_t a, uint64_t b, uint32_t number, uint64_t sum, const char *what) {
    uint32_t n = 77;
    uint64_t found = mztab_add_cents(a, b, &n);
    check(n == number, what, n);
    check(found == sum, what, found);
}

static void sums(void) {
    static const struct { uint64_t a, b; uint32_t number; uint64_t sum; } all[] = {
        {0, 0, 0, 0}, {1, 0, 0, 1}, {12345, 678, 0, 13023}, {4294967295, 1, 0, 4294967296}, {4294967296, 4294967296, 0, 8589934592},
        {50000000000, 50000000000, 0, 100000000000}, {99999999999, 1, 0, 100000000000}, {100000000000, 0, 0, 100000000000}, {99999999999, 0, 0, 99999999999},
        {100000000000, 1, 16, 0}, {100000000001, 0, 16, 0}, {99999999999, 2, 16, 0}, {50000000001, 50000000000, 16, 0}, {100000000000, 100000000000, 16, 0},
        {18446744073709551615u, 0, 16, 0}, {18446744073709551615u, 1, 16, 0}, {18446744073709551615u, 2, 16, 0}, {18446744073709551615u, 100000000000, 16, 0},
        {18446744073709551615u, 18446744073709551615u, 16, 0}, {9223372036854775808u, 9223372036854775808u, 16, 0}, {18446743973709551616u, 100000000000, 16, 0}};
    for (size_t i = 0; i < COUNT(all); i++) {
        sum_is(all[i].a, all[i].b, all[i].number, all[i].sum, "sum");
        sum_is(all[i].b, all[i].a, all[i].number, all[i].sum, "sum, the other way round");
    }
    group("sums of cents");
}

enum { BESIDE = 8, ROOM = 72 };

static int marked_64(const uint64_t *places, size_t n) {
    for (size_t i = 0; i < n; i++)
        if (places[i] != MARK_64) return 0;
    return 1;
}

static void mark_64(uint64_t *places, size_t n) {
    for (size_t i = 0; i < n; i++) places[i] = MARK_64;
}

/* Two pages, for lists at either edge of one: a place touched outside is a fault. */
static uint8_t *page_of_weights, *page_of_shares;
enum { PAGE = 65536 };

/* A split into so many places, among marked ones and at either edge of a page. In a refusal `shares` is of no account: no place is written. */
static void split_is(uint64_t fee, const uint32_t *weights, size_t n, size_t places, uint32_t number, const uint64_t *shares, const char *what) {
    uint64_t room[BESIDE + ROOM + BESIDE], *lent = room + BESIDE;
    uint32_t found = 77;
    mark_64(room, COUNT(room));
    mztab_split_fee(fee, weights, n, lent, places, &found);
    size_t written = number ? 0 : places;
    check(found == number, what, found);
    check(number || memcmp(lent, shares, places * sizeof *lent) == 0, what, lent[0]);
    check(marked_64(room, BESIDE) && marked_64(lent + written, ROOM + BESIDE - written), "places beside the shares", places);
    for (int high = 0; high < 2; high++) {
        uint32_t *w = (uint32_t *)(page_of_weights + (high ? PAGE - n * sizeof *weights : 0));
        uint64_t *s = (uint64_t *)(page_of_shares + (high ? PAGE - places * sizeof *lent : 0));
        memcpy(w, weights, n * sizeof *weights);
        mark_64(s, places);
        found = 77;
        mztab_split_fee(fee, w, n, s, places, &found);
        check(found == number, "split at the edge of a page", found);
        check(number ? marked_64(s, places) : memcmp(s, shares, places * sizeof *s) == 0, "shares at the edge of a page", places);
        check(memcmp(w, weights, n * sizeof *weights) == 0, "the weights are as they were", n);
    }
}

/* 64 weights of one value: the first so many shares, and those after them. */
static void equal_is(uint64_t fee, uint32_t weight, uint64_t first, size_t count, uint64_t then) {
    uint32_t weights[64];
    uint64_t shares[64];
    for (size_t i = 0; i < 64; i++) {
        weights[i] = weight;
        shares[i] = i < count ? first : then;
    }
    split_is(fee, weights, 64, 64, 0, shares, "64 equal weights");
}

static void splits(void) {
    static const struct { uint64_t fee; size_t n; uint32_t weights[10]; uint64_t shares[10]; } all[] = {
        /* one weight */
        {0, 1, {1}, {0}}, {1, 1, {1}, {1}}, {12345, 1, {3}, {12345}}, {FEE_LIMIT, 1, {1}, {100000000000}}, {FEE_LIMIT, 1, {HEAVIEST}, {100000000000}},
        /* two */
        {1, 2, {1, 1}, {1, 0}}, {3, 2, {1, 1}, {2, 1}}, {1, 2, {1, 2}, {0, 1}}, {1, 2, {2, 1}, {1, 0}}, {10, 2, {1, 2}, {3, 7}}, {10, 2, {2, 1}, {7, 3}},
        {5, 2, {1, 3}, {1, 4}}, {7, 2, {1, 3}, {2, 5}}, {99, 2, {1, 99}, {1, 98}}, {10, 2, {1, 99}, {0, 10}}, {95, 2, {1, 9}, {10, 85}}, {95, 2, {9, 1}, {86, 9}},
        /* three and more */
        {100, 3, {1, 1, 1}, {34, 33, 33}}, {101, 3, {1, 1, 1}, {34, 34, 33}}, {2, 3, {1, 1, 1}, {1, 1, 0}}, {100, 3, {1, 2, 3}, {17, 33, 50}},
        {5, 3, {1, 2, 3}, {1, 2, 2}}, {7, 3, {1, 2, 3}, {1, 2, 4}}, {8, 3, {1, 2, 3}, {1, 3, 4}}, {1, 3, {5, 6, 5}, {0, 1, 0}}, {12, 3, {4, 2, 1}, {7, 3, 2}},
        {14, 4, {1, 2, 3, 4}, {1, 3, 4, 6}}, {11, 4, {1, 1, 1, 1}, {3, 3, 3, 2}}, {10, 7, {9, 9, 9, 9, 9, 9, 9}, {2, 2, 2, 1, 1, 1, 1}},
        {10, 10, {1, 2, 4, 8, 16, 32, 64, 128, 256, 512}, {0, 0, 0, 0, 0, 0, 1, 1, 3, 5}},
        /* equal remainders */
        {2, 2, {1, 3}, {1, 1}}, {2, 2, {3, 1}, {2, 0}}, {3, 3, {1, 3, 2}, {1, 1, 1}}, {3, 3, {3, 1, 2}, {2, 0, 1}}, {3, 3, {2, 3, 1}, {1, 2, 0}},
        {10, 3, {1, 1, 2}, {3, 2, 5}}, {10, 3, {2, 1, 1}, {5, 3, 2}}, {8, 4, {1, 3, 5, 7}, {1, 2, 2, 3}}, {8, 4, {7, 5, 3, 1}, {4, 3, 1, 0}},
        {4, 4, {1, 1, 4, 6}, {1, 0, 1, 2}}, {5, 4, {2, 1, 2, 1}, {2, 1, 1, 1}},
        /* zero weights between others */
        {10, 2, {0, 1}, {0, 10}}, {1, 3, {0, 0, 1}, {0, 0, 1}}, {11, 5, {0, 1, 0, 1, 0}, {0, 6, 0, 5, 0}}, {5, 6, {0, 1, 0, 2, 0, 3}, {0, 1, 0, 2, 0, 2}},
        {3, 5, {0, 2, 1, 0, 3}, {0, 1, 1, 0, 1}}, {0, 3, {0, 1, 0}, {0, 0, 0}},
        /* the largest fee and weights */
        {FEE_LIMIT, 2, {1, 2}, {33333333333, 66666666667}}, {FEE_LIMIT, 3, {1, 1, 1}, {33333333334, 33333333333, 33333333333}},
        {FEE_LIMIT, 7, {1, 1, 1, 1, 1, 1, 1}, {14285714286, 14285714286, 14285714286, 14285714286, 14285714286, 14285714285, 14285714285}},
        {FEE_LIMIT, 2, {HEAVIEST, 1}, {99999994040, 5960}}, {FEE_LIMIT, 3, {HEAVIEST, HEAVIEST, 1}, {49999998510, 49999998510, 2980}},
        {1, 2, {HEAVIEST - 1, HEAVIEST}, {0, 1}}, {1, 2, {HEAVIEST, HEAVIEST - 1}, {1, 0}}};
    for (size_t i = 0; i < COUNT(all); i++) split_is(all[i].fee, all[i].weights, all[i].n, all[i].n, 0, all[i].shares, "split");
    equal_is(0, 1, 0, 0, 0);
    equal_is(1, 1, 1, 1, 0);
    equal_is(63, 5, 1, 63, 0);
    equal_is(64, 1, 1, 64, 0);
    equal_is(65, 1, 2, 1, 1);
    equal_is(100, 7, 2, 36, 1);
    equal_is(FEE_LIMIT, HEAVIEST, 1562500000, 64, 0);
    equal_is(FEE_LIMIT - 1, HEAVIEST, 1562500000, 63, 1562499999);
    equal_is(FEE_LIMIT - 63, HEAVIEST, 1562500000, 1, 1562499999);

    /* weights 1 to 64, 2,080 in all: 2,079 cents leave the heaviest short, 2,081 give it one more; one cent is its own */
    uint32_t rising[64];
    uint64_t shares[64] = {0};
    for (uint32_t i = 0; i < 64; i++) rising[i] = i + 1;
    split_is(0, rising, 64, 64, 0, shares, "rising weights, no cent");
    shares[63] = 1;
    split_is(1, rising, 64, 64, 0, shares, "rising weights, one cent");
    for (uint32_t i = 0; i < 64; i++) shares[i] = i + 1;
    split_is(2080, rising, 64, 64, 0, shares, "rising weights, exactly");
    shares[63] = 65;
    split_is(2081, rising, 64, 64, 0, shares, "rising weights, one more");
    shares[63] = 63;
    split_is(2079, rising, 64, 64, 0, shares, "rising weights, one less");
    group("splits");
}

static void refused_splits(void) {
    /* so many weights, all of one value but the last; 15 before 16 before 17 */
    static const struct { uint32_t number; uint64_t fee; size_t n, places; uint32_t weight, last; } all[] = {
        {15, 1, 0, 0, 1, 1}, {15, 1, 0, 1, 1, 1}, {15, 1, 0, 64, 1, 1}, {15, 1, 65, 65, 1, 1}, {15, 1, 65, 64, 1, 1}, {15, 1, 65, 0, 1, 1}, {15, 1, 70, 70, 1, 1},
        {15, 1, 1, 0, 1, 1}, {15, 1, 1, 2, 1, 1}, {15, 1, 1, 65, 1, 1}, {15, 1, 2, 1, 1, 1}, {15, 1, 2, 3, 1, 1}, {15, 1, 64, 63, 1, 1}, {15, 1, 64, 65, 1, 1},
        {15, 1, 64, 0, 1, 1}, {15, 0, 63, 64, 1, 1},
        {16, FEE_LIMIT + 1, 1, 1, 1, 1}, {16, FEE_LIMIT + 1, 64, 64, 1, 1}, {16, 18446744073709551615u, 3, 3, 1, 1}, {16, 18446744069414584320u, 3, 3, 1, 1},
        {16, 1, 1, 1, 1, HEAVIEST + 1}, {16, 1, 1, 1, 1, 4294967295u}, {16, 1, 3, 3, 1, HEAVIEST + 1}, {16, 0, 64, 64, 0, HEAVIEST + 1},
        {16, 1, 3, 3, HEAVIEST + 1, 1}, {16, 9, 2, 2, 4294967295u, 1}, {16, 9, 64, 64, 67108864, 67108864}, {16, FEE_LIMIT, 2, 2, 2147483648u, 2147483648u},
        {17, 1, 1, 1, 0, 0}, {17, 1, 2, 2, 0, 0}, {17, FEE_LIMIT, 64, 64, 0, 0}, {17, 0, 1, 1, 0, 0}, {17, 0, 64, 64, 0, 0},
        {15, FEE_LIMIT + 1, 0, 0, 1, 1}, {15, FEE_LIMIT + 1, 2, 3, 1, 1}, {15, 18446744073709551615u, 65, 65, 4294967295u, 4294967295u}, {15, 1, 1, 0, 1, HEAVIEST + 1},
        {15, 1, 1, 2, 0, 0}, {15, 1, 65, 65, 0, 0}, {16, FEE_LIMIT + 1, 1, 1, 0, 0}, {16, FEE_LIMIT + 1, 64, 64, 0, 0}, {15, FEE_LIMIT + 1, 65, 65, 0, 0},
        {15, 18446744073709551615u, 2, 1, 0, 0}};
    for (size_t i = 0; i < COUNT(all); i++) {
        uint32_t weights[ROOM];
        for (size_t k = 0; k < ROOM; k++) weights[k] = k + 1 == all[i].n ? all[i].last : all[i].weight;
        split_is(all[i].fee, weights, all[i].n, all[i].places, all[i].number, NULL, "refused split");
    }
    group("refused splits");
}

/* The first n bytes of a file, weighed into 64 places among marked ones; `weights` are those of study variables 1 to 64. */
static void weights_are(const uint8_t *f, size_t n, uint32_t number, const uint32_t *weights, const char *what) {
    uint32_t room[BESIDE + 64 + BESIDE], *lent = room + BESIDE, found = 77;
    mark(room, COUNT(room));
    mztab_weights(f, n, lent, 64, &found);
    check(found == number, what, found);
    check(number ? marked(lent, 64) : memcmp(lent, weights, 64 * sizeof *lent) == 0, what, 64);
    check(marked(room, BESIDE) && marked(lent + 64, BESIDE), "places beside the weights", n);
}

/* Lists that have not 64 places, the first so many: no place is written. */
static void lists_refused(const uint8_t *f, size_t n, size_t lists, uint32_t number, const char *what) {
    static const size_t lengths[] = {63, 65, 0, 1, 2, 62, 66, 128, 200};
    for (size_t i = 0; i < lists; i++) {
        uint32_t room[200 + BESIDE], found = 77;
        mark(room, COUNT(room));
        mztab_weights(f, n, room, lengths[i], &found);
        check(found == number, what, found);
        check(marked(room, COUNT(room)), what, lengths[i]);
    }
}

/* The metadata of an accepted file of proteins, peptides and small molecules, and 64 study variables. */
static void put_metadata(void) {
    char line[64];
    put("MTD\tmzTab-version\t1.0\nMTD\tmzTab-mode\tSummary\nMTD\tmzTab-type\tQuantification\nMTD\tdescription\td\nMTD\tms_run[1]-location\tfile:///a.mzML\n"
        "MTD\tprotein_search_engine_score[1]\t[, , s, ]\nMTD\tpeptide_search_engine_score[1]\t[, , s, ]\nMTD\tsmallmolecule_search_engine_score[1]\t[, , s, ]\n"
        "MTD\tfixed_mod[1]\t[, , m, ]\nMTD\tvariable_mod[1]\t[, , m, ]\n"
        "MTD\tprotein-quantification_unit\t[, , u, ]\nMTD\tpeptide-quantification_unit\t[, , u, ]\nMTD\tsmall_molecule-quantification_unit\t[, , u, ]\n");
    for (uint32_t i = 1; i <= 64; i++) {
        sprintf(line, "MTD\tstudy_variable[%u]-description\tv\n", i);
        put(line);
    }
}

/* The same of each section, with 64 runs. */
static void put_runs(void) {
    char line[64];
    put_metadata();
    put("MTD\tpsm_search_engine_score[1]\t[, , s, ]\n");
    for (uint32_t i = 2; i <= 64; i++) {
        sprintf(line, "MTD\tms_run[%u]-location\tfile:///a.mzML\n", i);
        put(line);
    }
}

#define REQUIRED_COLUMNS "PRH\taccession\tdescription\tdatabase\tsearch_engine"
#define VARIABLE "protein_abundance_study_variable"
#define PEPTIDE_COLUMNS "PEH\tsequence\taccession\tcharge\tmass_to_charge\tmodifications\tretention_time\tretention_time_window"
#define PEPTIDE_ROW "PEP\ta\tb\t1\t1\tnull\tnull\tnull"

static void weighing(void) {
    /* what stands after the metadata, and the weights of study variables 1, 2, 3, 10 and 64: the others have none */
    static const struct { const char *text; uint32_t number, weights[5]; } all[] = {
        {"", 0, {0}},
        {REQUIRED_COLUMNS "\nPRT\ta\tb\tc\tnull\n", 0, {0}},
        {REQUIRED_COLUMNS "\t" VARIABLE "[1]\n", 0, {0}},
        {REQUIRED_COLUMNS "\t" VARIABLE "[1]\nPRT\ta\tb\tc\tnull\t1.5\nPRT\ta\tb\tc\tnull\tnull\nPRT\ta\tb\tc\tnull\t0\n", 0, {2}},
        {REQUIRED_COLUMNS "\t" VARIABLE "[1]\r\nPRT\ta\tb\tc\tnull\tNaN\r\n\r\nCOM\tPRT\nPRT\ta\tb\tc\tnull\tnull\r\nPRT\ta\tb\tc\tnull\tINF", 0, {2}},
        {"PRH\t" VARIABLE "[64]\taccession\t" VARIABLE "[2]\tdescription\tdatabase\tsearch_engine\t" VARIABLE "[10]\t" VARIABLE "[1]\n"
         "PRT\t1\ta\tnull\tb\tc\tnull\t-1\tnull\nPRT\t2\ta\t2\tb\tc\tnull\tnull\tnull\nPRT\t3\ta\t3\tb\tc\tnull\tnull\tnull", 0, {0, 2, 0, 1, 3}},
        {REQUIRED_COLUMNS "\tprotein_abundance_stdev_study_variable[1]\t" VARIABLE "[3]\topt_" VARIABLE "[2]\nPRT\ta\tb\tc\tnull\t1\tnull\t1\nPRT\ta\tb\tc\tnull\tnull\t1\tnull\n",
         0, {0, 0, 1}},
        {REQUIRED_COLUMNS "\t" VARIABLE "[2]\nPRT\ta\tb\tc\tnull\t1\n" PEPTIDE_COLUMNS "\tpeptide_abundance_study_variable[1]\n"
         PEPTIDE_ROW "\t1\n" PEPTIDE_ROW "\t1\nSMH\tidentifier\tcharge\tsmallmolecule_abundance_study_variable[3]\nSML\ta\t1\t1\n", 0, {0, 1}},
        {PEPTIDE_COLUMNS "\tpeptide_abundance_study_variable[1]\n" PEPTIDE_ROW "\t1\n", 0, {0}},
        /* not accepted */
        {"PEH\tsequence\taccession\tcharge\tmass_to_charge\n", 7, {0}},
        {"MTD\tassay[1]-ms_run_ref\tms_run[1]\n", 7, {0}},
        {REQUIRED_COLUMNS "\t" VARIABLE "[1]\nPRT\ta\tb\tc\tnull\tNULL\n", 7, {0}},
        {REQUIRED_COLUMNS "\t" VARIABLE "[1]\nPRT\ta\tb\tc\tnull\t\n", 7, {0}},
        {REQUIRED_COLUMNS "\t" VARIABLE "[1]\nPRT\ta\tb\tc\tnull\tnull\r", 7, {0}},
        {REQUIRED_COLUMNS "\t" VARIABLE "[65]\nPRT\ta\tb\tc\tnull\t1\n", 7, {0}},
        {REQUIRED_COLUMNS "\t" VARIABLE "[1]\t" VARIABLE "[1]\nPRT\ta\tb\tc\tnull\t1\t1\n", 7, {0}},
        {REQUIRED_COLUMNS "\t" VARIABLE "[1]\nPRT\ta\tb\tc\tnull\t1\nMTD\ttitle\tt\n", 7, {0}},
        {REQUIRED_COLUMNS "\t" VARIABLE "[1]\nPRT\ta\tb\tc\tnull\t1\nx", 7, {0}}};
    static const size_t places[5] = {0, 1, 2, 9, 63};
    uint8_t *p = page(PAGE);
    for (size_t i = 0; i < COUNT(all); i++) {
        uint32_t weights[64] = {0};
        for (size_t k = 0; k < 5; k++) weights[places[k]] = all[i].weights[k];
        begin(LIMIT);
        put_metadata();
        put(all[i].text);
        weights_are(file, at, all[i].number, weights, "weights");
        lists_refused(file, at, 9, all[i].number ? 7 : 15, "list of weights");
        /* the file and the list at the upper edge of a page */
        uint32_t *list = (uint32_t *)(page_of_weights + PAGE) - 64, number = 77;
        memcpy(p + PAGE - at, file, at);
        mark(list, 64);
        mztab_weights(p + PAGE - at, at, list, 64, &number);
        check(number == all[i].number, "weights at the edge of a page", i);
        check(number ? marked(list, 64) : memcmp(list, weights, sizeof weights) == 0, "list at the edge of a page", i);
        check(memcmp(p + PAGE - at, file, at) == 0, "the file is as it was", i);
    }
    munmap(p - PAGE, 3 * (size_t)PAGE);
    weights_are((const uint8_t *)EXAMPLE, sizeof EXAMPLE - 1, 7, NULL, "weights of the example");
    weights_are((const uint8_t *)EXAMPLE, 0, 7, NULL, "weights of no bytes");
    lists_refused((const uint8_t *)EXAMPLE, sizeof EXAMPLE - 1, 9, 7, "list of weights, the example");
    group("weights");
}

/* The rows of the first n bytes of a file in each section, and of sections that are none. */
static void rows_are(const uint8_t *f, size_t n, uint32_t number, const uint32_t *rows, const char *what) {
    static const uint32_t none[] = {0, 5, 6, 255, 256, 257, 0x7FFFFFFF, 0x80000000, 0x80000001, 0xFFFFFFFF};
    for (uint32_t section = 1; section <= 4; section++) {
        uint32_t found = 77, count = mztab_rows(f, n, section, &found);
        check(found == number && count == (number ? 0 : rows[section - 1]), what, section);
    }
    for (size_t i = 0; i < COUNT(none); i++) {
        uint32_t found = 77, count = mztab_rows(f, n, none[i], &found);
        check(found == (number ? number : 2) && count == 0, what, none[i]);
    }
}

static void row_counts(void) {
    static const struct { const char *text; uint32_t rows[4]; } all[] = {
        {"", {0}}, {"\n", {0}}, {"PRT", {1}}, {"PRT\n", {1}}, {"PRT\r\n", {1}}, {"PRT\r", {0}}, {"PRT\t", {1}}, {"PR", {0}}, {"\nPRT", {1}}, {"prt\nPRTx\nPRT \n PRT\n\tPRT\n", {0}},
        {"COM\tPRT\nPRH\tPRT\nMTD\tPRT\tPRT\n", {0}}, {"PRT\rPRT\nPRT\ta\rPRT\n", {1}},
        {"SML\ta\r\nCOM\nPSM\tb\nPEP\tc\n\nPRT\td\nSMH\te\nPSH\tf\nPEH\tg\nPRH\th\nPRT\ti\nSML\tj\nSML\tk", {2, 1, 1, 3}}};
    for (size_t i = 0; i < COUNT(all); i++) rows_are((const uint8_t *)all[i].text, strlen(all[i].text), 0, all[i].rows, "rows");
    rows_are((const uint8_t *)EXAMPLE, sizeof EXAMPLE - 1, 0, (const uint32_t[]){2, 0, 0, 0}, "rows of the example");
    group("rows");
}

/* A file as long as a file can be, its last row at its very end, and one byte longer. */
static void long_tables(void) {
    static const char last[] = "\nPRT\ta\ta\ta\tnull\t1\t1\tnull";
    uint32_t weights[64] = {0};
    begin(LIMIT + 1);
    put_metadata();
    put(REQUIRED_COLUMNS "\t" VARIABLE "[7]\t" VARIABLE "[5]\t" VARIABLE "[6]\n");
    /* more rows than 16 bits count */
    uint32_t pairs = over("PRT\ta\ta\ta\tnull\t1\tnull\tnull\nPRT\ta\ta\ta\tnull\t1\t0\tnull\n", (size_t)1 << 21);
    put("COM\t");
    fill(' ', LIMIT + 1 - sizeof last);
    put(last);
    put("\n");
    uint32_t rows[4] = {2 * pairs + 1, 0, 0, 0};
    weights[6] = 2 * pairs + 1;
    weights[4] = pairs + 1;
    weights_are(file, LIMIT, 0, weights, "the longest file");
    lists_refused(file, LIMIT, 2, 15, "list of weights, the longest file");
    rows_are(file, LIMIT, 0, rows, "rows of the longest file");
    weights_are(file, LIMIT + 1, 1, NULL, "one byte more");
    lists_refused(file, LIMIT + 1, 9, 1, "list of weights, one byte more");
    rows_are(file, LIMIT + 1, 1, NULL, "rows, one byte more");
    /* `nulL` is no decimal */
    file[LIMIT - 1] = 'L';
    weights_are(file, LIMIT, 7, NULL, "the longest file, broken by its last byte");
    lists_refused(file, LIMIT, 1, 7, "list of weights, broken by the last byte");
    rows_are(file, LIMIT, 0, rows, "rows of the broken one");
    group("weights of the longest file");
}

/* ---- tallies */

#define PSMS_OF(n) "num_psms_ms_run[" n "]"
#define DISTINCT_OF(n) "num_peptides_distinct_ms_run[" n "]"
#define UNIQUE_OF(n) "num_peptides_unique_ms_run[" n "]"
#define PROTEIN "PRT\ta\tb\tc\tnull"

/* A record: four bytes of length, two of kind, and from FRONT on the totals. Buffers and bytes are tried up to MOST_ROOM. */
enum { FRONT = 6, RECORD = FRONT + 8 * TOTALS, MOST_ROOM = 100 };

static const uint64_t NONE[TOTALS]; /* what a refused call writes */

static int same_totals(const uint64_t *a, const uint64_t *b) { return memcmp(a, b, TOTALS * sizeof *a) == 0; }

/* The first n bytes of a file, tallied into eight places among marked ones. In a refusal `totals` is of no account: zeros are written. */
static void tally_is(const uint8_t *f, size_t n, uint32_t number, const uint64_t *totals, const char *what) {
    uint64_t room[BESIDE + TOTALS + BESIDE], *lent = room + BESIDE;
    uint32_t found = 77;
    mark_64(room, COUNT(room));
    mztab_tally(f, n, lent, &found);
    check(found == number, what, found);
    check(same_totals(lent, number ? NONE : totals), what, lent[PSMS]);
    check(marked_64(room, BESIDE) && marked_64(lent + TOTALS, BESIDE), "places beside the totals", n);
}

/* Pages for what the tally calls read, two of them, and for what they write: a byte touched outside is a fault. */
static uint8_t *read_page, *other_page, *written_page;

/* Eight places at either edge of a page, and those beside them there, marked. */
static uint64_t *lent_totals(uint8_t *p, int high) {
    uint64_t *lent = (uint64_t *)(p + (high ? PAGE - TOTALS * sizeof *lent : 0));
    mark_64(high ? lent - BESIDE : lent, TOTALS + BESIDE);
    return lent;
}

/* The same with a tally in them. */
static uint64_t *lent_tally(uint8_t *p, int high, const uint64_t *totals) { return memcpy(lent_totals(p, high), totals, TOTALS * sizeof *totals); }

/* Whether these are in them, and the places beside them are as they were. */
static int lent_are(const uint64_t *lent, int high, const uint64_t *totals) {
    return same_totals(lent, totals) && marked_64(high ? lent - BESIDE : lent + TOTALS, BESIDE);
}

/* The file so far is tallied so, here and at either edge of a page; an answer has the rows that mztab_rows counts. */
static void tallies_to(uint32_t number, const uint64_t *totals, const char *what) {
    tally_is(file, at, number, totals, what);
    for (int high = 0; high < 2; high++) {
        uint8_t *f = read_page + (high ? PAGE - at : 0);
        uint64_t *lent = lent_totals(written_page, high);
        uint32_t found = 77;
        memcpy(f, file, at);
        mztab_tally(f, at, lent, &found);
        check(found == number, what, found);
        check(lent_are(lent, high, number ? NONE : totals), what, lent[PSMS]);
        check(memcmp(f, file, at) == 0, "the tallied file is as it was", at);
    }
    for (uint32_t section = 1; section <= 4 && !number; section++) {
        uint32_t found = 77, rows = mztab_rows(file, at, section, &found);
        check(found == 0 && rows == totals[PROTEIN_ROWS + section - 1], what, section);
    }
}

/* What stands after the metadata, and its tally: PSMs, distinct and unique peptides; rows of proteins, peptides, PSMs and small molecules; missing cells. */
static const struct { const char *text; uint32_t number; uint64_t totals[TOTALS]; } TALLIED[] = {
    /* no table, no row, no column */
    {"", 0, {0}},
    {PROTEINS "\n", 0, {0}},
    {PROTEINS "\t" PSMS_OF("1") "\n", 0, {0}},
    {PROTEINS "\n" PROTEIN "\n" PROTEIN "\n", 0, {0, 0, 0, 2, 0, 0, 0, 0}},
    /* each kind of column, and all of them */
    {PROTEINS "\t" PSMS_OF("1") "\n" PROTEIN "\t3\n" PROTEIN "\tnull\n" PROTEIN "\t4\n", 0, {7, 0, 0, 3, 0, 0, 0, 1}},
    {PROTEINS "\t" DISTINCT_OF("2") "\n" PROTEIN "\t30\n" PROTEIN "\t12", 0, {0, 42, 0, 2, 0, 0, 0, 0}},
    {PROTEINS "\t" UNIQUE_OF("9") "\n" PROTEIN "\tnull\n" PROTEIN "\tnull\n" PROTEIN "\t5\n", 0, {0, 0, 5, 3, 0, 0, 0, 2}},
    {PROTEINS "\t" PSMS_OF("1") "\t" DISTINCT_OF("1") "\t" UNIQUE_OF("1") "\n" PROTEIN "\t10\t7\t5\n" PROTEIN "\t1\t1\tnull\n", 0, {11, 8, 5, 2, 0, 0, 0, 1}},
    /* any order, before and between other columns, the first and the last run; `null` elsewhere is not missing */
    {"PRH\t" UNIQUE_OF("64") "\taccession\t" PSMS_OF("64") "\tdescription\t" DISTINCT_OF("1") "\tdatabase\tsearch_engine\t" PSMS_OF("1") "\t" UNIQUE_OF("1") "\n"
     "PRT\t100\ta\t20\tb\t3\tc\tnull\t4\tnull\nPRT\tnull\ta\t1\tnull\tnull\tnull\tnull\t2\t5", 0, {27, 3, 105, 2, 0, 0, 0, 3}},
    {PROTEINS "\t" PSMS_OF("64") "\t" PSMS_OF("10") "\t" PSMS_OF("6") "\t" PSMS_OF("1") "\t" PSMS_OF("11") "\n" PROTEIN "\t1\t20\t300\t4000\t50000\n", 0,
     {54321, 0, 0, 1, 0, 0, 0, 0}},
    /* zeros, leading zeros, the largest, and more than 32 bits hold */
    {PROTEINS "\t" PSMS_OF("1") "\n" PROTEIN "\t0\n" PROTEIN "\t-0\n" PROTEIN "\t-000\n" PROTEIN "\t000000000\n" PROTEIN "\t-000000000\n", 0,
     {0, 0, 0, 5, 0, 0, 0, 0}},
    {PROTEINS "\t" DISTINCT_OF("1") "\n" PROTEIN "\t007\n" PROTEIN "\t999999999\n" PROTEIN "\t000000001\n", 0, {0, 1000000007, 0, 3, 0, 0, 0, 0}},
    {PROTEINS "\t" UNIQUE_OF("1") "\t" UNIQUE_OF("2") "\t" UNIQUE_OF("3") "\t" UNIQUE_OF("4") "\t" UNIQUE_OF("5") "\n"
     PROTEIN "\t999999999\t999999999\t999999999\t999999999\t999999999\n", 0, {0, 0, 4999999995, 1, 0, 0, 0, 0}},
    /* other columns may be below zero, and so may those that are nearly counted */
    {PROTEINS "\ttaxid\t" PSMS_OF("1") "\t" VARIABLE "[1]\tbest_search_engine_score[1]\topt_" PSMS_OF("1") "\n" PROTEIN "\t-1\t4\t-2.5\t-3\t-5\n"
     PROTEIN "\t9\tnull\tnull\tnull\tnull\n", 0, {4, 0, 0, 2, 0, 0, 0, 1}},
    {PEPTIDE_COLUMNS "\nPEP\ta\tb\t-1\t1\tnull\tnull\tnull\n" SPECTRA "\nPSM\ta\tb\tc\t-2\td\nPSM\ta\tb\tc\t3\td\n"
     "SMH\tidentifier\tcharge\ttaxid\nSML\ta\t-1\t-9606\n", 0, {0, 0, 0, 0, 1, 2, 1, 0}},
    /* ends of lines, comments, and rows of each section */
    {PROTEINS "\t" PSMS_OF("3") "\r\n\r\nCOM\tPRT\r\n" PROTEIN "\t6\r\n\nCOM\n" PROTEIN "\tnull\r\n" PROTEIN "\t7", 0, {13, 0, 0, 3, 0, 0, 0, 1}},
    {PROTEINS "\t" PSMS_OF("1") "\n" PROTEIN "\tnull\n" PEPTIDE_COLUMNS "\n" PEPTIDE_ROW "\n" PEPTIDE_ROW "\nCOM\tPEP\n" PEPTIDE_ROW "\n" SPECTRA "\n"
     "PSM\ta\tb\tc\tnull\td\nPSM\ta\tb\tc\t1\td\n" MOLECULES "SML\ta\t1\r\nSML\tnull\tnull\r\n\r\nSML\ta\t1\nSML\ta\t1", 0, {0, 0, 0, 1, 3, 2, 4, 1}},
    {SPECTRA "\nPSM\ta\tb\tc\tnull\td\n", 0, {0, 0, 0, 0, 0, 1, 0, 0}},
    /* a count below zero: of each kind, in a later run, in a later row, as the last cell of the file, behind `-0` */
    {PROTEINS "\t" PSMS_OF("1") "\n" PROTEIN "\t-1\n", 12, {0}},
    {PROTEINS "\t" PSMS_OF("1") "\n" PROTEIN "\t-1", 12, {0}},
    {PROTEINS "\t" PSMS_OF("1") "\t" DISTINCT_OF("2") "\n" PROTEIN "\t1\t2\n" PROTEIN "\t3\t-007\r\n" PROTEIN "\t5\t6\n", 12, {0}},
    {PROTEINS "\t" PSMS_OF("1") "\t" UNIQUE_OF("64") "\n" PROTEIN "\t-0\tnull\n" PROTEIN "\t3\t-999999999", 12, {0}},
    {"PRH\t" UNIQUE_OF("1") "\taccession\tdescription\tdatabase\tsearch_engine\nPRT\t-000000001\ta\tb\tc\tnull\nPRT\t5\ta\tb\tc\tnull\n", 12, {0}},
    {PROTEINS "\t" PSMS_OF("1") "\n" PROTEIN "\t-5\n" PROTEIN "\t-6\n" SPECTRA "\nPSM\ta\tb\tc\t1\td\n", 12, {0}},
    /* not accepted, and so refused before a count is looked at */
    {PROTEINS "\t" PSMS_OF("65") "\n" PROTEIN "\t1\n", 7, {0}},
    {PROTEINS "\t" DISTINCT_OF("0") "\n" PROTEIN "\t1\n", 7, {0}},
    {PROTEINS "\t" UNIQUE_OF("01") "\n" PROTEIN "\t1\n", 7, {0}},
    {PROTEINS "\t" UNIQUE_OF("") "\n" PROTEIN "\t1\n", 7, {0}},
    {PROTEINS "\t" PSMS_OF("1") "\t" PSMS_OF("1") "\n" PROTEIN "\t1\t1\n", 7, {0}},
    {PEPTIDE_COLUMNS "\t" PSMS_OF("1") "\n", 7, {0}},
    {PROTEINS "\t" PSMS_OF("1") "\n" PROTEIN "\t1\n" PROTEINS "\t" PSMS_OF("1") "\n" PROTEIN "\t1\n", 7, {0}},
    {PROTEINS "\t" PSMS_OF("65") "\n" PROTEIN "\t-1\n", 7, {0}},
    {PROTEINS "\t" PSMS_OF("1") "\n" PROTEIN "\t-1\nx", 7, {0}},
    {PROTEINS "\t" PSMS_OF("1") "\n" PROTEIN "\t-1\n" PROTEIN "\t1.5\n", 7, {0}},
    {PROTEINS "\t" PSMS_OF("1") "\n" PROTEIN "\t1\r", 7, {0}},
};

static void tallies(void) {
    for (size_t i = 0; i < COUNT(TALLIED); i++) {
        begin(LIMIT);
        put_runs();
        put(TALLIED[i].text);
        tallies_to(TALLIED[i].number, TALLIED[i].totals, "tally");
    }
    tally_is((const uint8_t *)EXAMPLE, sizeof EXAMPLE - 1, 7, NULL, "tally of the example");
    tally_is((const uint8_t *)EXAMPLE, 0, 7, NULL, "tally of no bytes");
    group("tallies");
}

/* A cell of a row under 255 known names: a one under each counted column. */
static void one_cell(char *s, uint32_t k) { strcpy(s, k < COUNTS ? "1" : k == 251 ? "a" : "null"); }

/* A table of so many such rows; answers where the first of them begins. */
static size_t put_ones(uint32_t rows) {
    put_runs();
    put(line_of("PRH", 255, known_name));
    size_t start = at;
    for (; rows > 0; rows--) put(line_of("PRT", 255, one_cell));
    return start;
}

/* Texts in the place of one of the ones, and what the tally then says: refused, missing, or by so much more than without it. */
static const struct { const char *text; uint32_t number, missing; uint64_t value; } CELLS[] = {
    {"-1", 12, 0, 0}, {"-9", 12, 0, 0}, {"-007", 12, 0, 0}, {"-10", 12, 0, 0}, {"-000000001", 12, 0, 0}, {"-100000000", 12, 0, 0}, {"-999999999", 12, 0, 0},
    {"-0", 0, 0, 0}, {"-000", 0, 0, 0}, {"-000000000", 0, 0, 0}, {"0", 0, 0, 0}, {"000000000", 0, 0, 0}, {"null", 0, 1, 0},
    {"2", 0, 0, 2}, {"007", 0, 0, 7}, {"000000010", 0, 0, 10}, {"987654321", 0, 0, 987654321}, {"999999999", 0, 0, 999999999},
    {"", 7, 0, 0}, {"-", 7, 0, 0}, {"--1", 7, 0, 0}, {"+1", 7, 0, 0}, {"1.0", 7, 0, 0}, {"1E3", 7, 0, 0}, {" 1", 7, 0, 0}, {"1 ", 7, 0, 0},
    {"1234567890", 7, 0, 0}, {"-1234567890", 7, 0, 0}, {"0000000001", 7, 0, 0}, {"NULL", 7, 0, 0}, {"-null", 7, 0, 0}, {"nul", 7, 0, 0}, {"INF", 7, 0, 0}};

/* Each of these texts in each counted column of each of three rows, whose cells have one byte each. */
static void tallies_of_cells(void) {
    enum { ROWS = 3 };
    begin(LIMIT);
    size_t start = put_ones(ROWS), length = at, row = (length - start) / ROWS;
    uint8_t *ones = malloc(length);
    if (!ones) exit(2);
    memcpy(ones, file, length);
    for (uint32_t place = 0; place < ROWS * COUNTS; place++)
        for (size_t i = 0; i < COUNT(CELLS); i++) {
            uint64_t totals[TOTALS] = {ROWS * RUNS, ROWS * RUNS, ROWS * RUNS, ROWS, 0, 0, 0, CELLS[i].missing};
            size_t before = start + place / COUNTS * row + strlen("PRT\t") + 2 * (place % COUNTS);
            totals[place % COUNTS / RUNS] += CELLS[i].value - 1;
            at = before;
            put(CELLS[i].text);
            memcpy(file + at, ones + before + 1, length - before - 1);
            tally_is(file, at + length - before - 1, CELLS[i].number, totals, CELLS[i].text);
            memcpy(file + before, ones + before, length - before);
        }
    free(ones);
    group("tallies, each counted cell");
}

static void shuffle(uint32_t *list, uint32_t n) {
    for (uint32_t k = 0; k < n; k++) {
        uint32_t other = k + (uint32_t)draw(n - k), was = list[other];
        list[other] = list[k];
        list[k] = was;
    }
}

/* The columns of a drawn protein table: those that are counted, the required ones, and one more of whole numbers. */
enum { TAXID = COUNTS + 4, COLUMNS };

static void table_name(char *s, uint32_t k) {
    if (k < COUNTS) count_name(s, k);
    else strcpy(s, k == TAXID ? "taxid" : REQUIRED[k - COUNTS]);
}

/* Some of them, the required ones among these, in any order; answers how many. */
static uint32_t draw_columns(uint32_t *columns) {
    uint32_t counts = (uint32_t)(draw(4) ? draw(12) : draw(COUNTS + 1)), others = 4 + (uint32_t)draw(2);
    for (uint32_t k = 0; k < COUNTS; k++) columns[k] = k;
    shuffle(columns, COUNTS);
    for (uint32_t k = 0; k < others; k++) columns[counts + k] = COUNTS + k;
    shuffle(columns, counts + others);
    return counts + others;
}

/* A cell under a counted column, added to the totals; answers whether it is below zero. */
static int draw_count(char *s, uint64_t *total, uint64_t *missing) {
    char digits[10] = "";
    int minus = draw(300) == 0, zero = draw(minus ? 2 : 9) == 0;
    if (draw(5) == 0) {
        strcpy(s, "null");
        ++*missing;
        return 0;
    }
    for (uint64_t k = 0, n = 1 + draw(9); k < n; k++) digits[k] = (char)('0' + (zero ? 0 : draw(10)));
    uint64_t value = strtoull(digits, NULL, 10);
    sprintf(s, "%s%s", minus ? "-" : "", digits);
    *total += value;
    return minus && value > 0;
}

/* A row of these columns; answers whether a count in it is below zero. */
static int put_counts(const uint32_t *columns, uint32_t n, uint64_t *totals) {
    char text[16];
    int below = 0;
    put("PRT");
    for (uint32_t k = 0; k < n; k++) {
        uint32_t column = columns[k];
        if (column < COUNTS) below |= draw_count(text, &totals[column / RUNS], &totals[MISSING]);
        else strcpy(text, column == TAXID ? "-9606" : column == COUNTS ? "a" : "null");
        put("\t");
        put(text);
    }
    totals[PROTEIN_ROWS]++;
    return below;
}

/* So many rows, and other lines between them. */
static void put_rows(const char *row, uint64_t *total) {
    for (uint64_t left = draw(5); left > 0; left--, ++*total) {
        put(row);
        put(draw(3) ? "\n" : draw(2) ? "\r\n" : "\n\nCOM\tPRT\r\n");
    }
}

/* A drawn protein table; answers whether a count in it is below zero. */
static int put_table(uint64_t *totals) {
    uint32_t columns[COLUMNS], n = draw_columns(columns);
    char name[64];
    int below = 0;
    put("PRH");
    for (uint32_t k = 0; k < n; k++) {
        table_name(name, columns[k]);
        put("\t");
        put(name);
    }
    put("\n");
    for (uint64_t left = draw(8); left > 0; left--) {
        below |= put_counts(columns, n, totals);
        put(draw(4) ? "\n" : "\r\n\n");
    }
    return below;
}

/* A drawn file; answers the number with which it is tallied, and adds up its totals. */
static uint32_t draw_tallied(uint64_t *totals) {
    begin(LIMIT);
    put_runs();
    int below = draw(8) && put_table(totals);
    put(PEPTIDE_COLUMNS "\n");
    put_rows(PEPTIDE_ROW, &totals[PEPTIDE_ROWS]);
    put(SPECTRA "\n");
    put_rows("PSM\ta\tb\tc\t-1\td", &totals[PSM_ROWS]);
    put(MOLECULES);
    put_rows("SML\ta\t-1", &totals[MOLECULE_ROWS]);
    if (draw(8) == 0) return put("PRT\n"), 7;
    if (draw(2)) at -= file[at - 2] == '\r' ? 2 : 1; /* the last line has no end */
    return below ? 12 : 0;
}

/* Drawn files; and their month, whose tallies go through records and are added one by one. */
static void drawn_tallies(void) {
    uint64_t month[TOTALS] = {0}, wanted[TOTALS] = {0};
    uint32_t seen[3] = {0}, number = 77;
    seed = 9;
    for (uint32_t i = 0; i < DRAWN_FILES; i++) {
        uint64_t totals[TOTALS] = {0}, tally[TOTALS], record[TOTALS], sum[TOTALS];
        uint8_t bytes[RECORD];
        uint32_t refused = draw_tallied(totals);
        seen[refused == 0 ? 0 : refused == 7 ? 1 : 2]++;
        tallies_to(refused, totals, "drawn tallies");
        mztab_tally(file, at, tally, &number);
        mztab_tally_write(tally, bytes, RECORD, &number);
        mztab_tally_read(bytes, RECORD, record, &number);
        mztab_tally_add(month, record, sum, &number);
        memcpy(month, sum, sizeof month);
        for (int k = 0; k < TOTALS && !refused; k++) wanted[k] += totals[k];
        check(number == 0 && same_totals(month, wanted), "drawn tallies: the month so far", i);
    }
    for (int k = 0; k < 3; k++) check(seen[k] > DRAWN_FILES / 16, "drawn tallies: how many of each", seen[k]);
    group("tallies, drawn files");
}

/* A file as long as a file can be, its last row at its very end, and one byte longer. */
static void long_tallies(void) {
    static const char last[] = "\n" PROTEIN "\t1\t20\t03";
    begin(LIMIT + 1);
    put_runs();
    put(PROTEINS "\t" PSMS_OF("1") "\t" DISTINCT_OF("2") "\t" UNIQUE_OF("64") "\n");
    /* more rows than 16 bits count, and more PSMs than 32 bits */
    uint32_t pairs = over(PROTEIN "\t999999999\tnull\t0\n" PROTEIN "\t999999999\t1\tnull\n", LIMIT / 2);
    put("COM\t");
    fill(' ', LIMIT + 1 - sizeof last);
    put(last);
    put("\n");
    uint64_t totals[TOTALS] = {2 * (uint64_t)pairs * 999999999 + 1, pairs + 20, 3, 2 * pairs + 1, 0, 0, 0, 2 * pairs};
    tally_is(file, LIMIT, 0, totals, "tally of the longest file");
    tally_is(file, LIMIT + 1, 1, NULL, "tally, one byte more");
    file[LIMIT - 2] = '-';
    tally_is(file, LIMIT, 12, NULL, "tally of the longest file, its last cell below zero");
    tally_is(file, LIMIT + 1, 1, NULL, "tally, a count below zero and one byte more");
    file[LIMIT - 1] = '0';
    totals[UNIQUE] = 0;
    tally_is(file, LIMIT, 0, totals, "tally of the longest file, its last cell zero with a minus");
    file[LIMIT - 1] = 'x';
    tally_is(file, LIMIT, 7, NULL, "tally of the longest file, broken by its last byte");
    tally_is(file, LIMIT + 1, 1, NULL, "tally, a break and one byte more");
    group("tallies of the longest file");
}

/* A sum of two tallies at either edge of a page; a and b are as they were. In a refusal `sum` is of no account. */
static void add_is(const uint64_t *a, const uint64_t *b, uint32_t number, const uint64_t *sum, const char *what) {
    for (int high = 0; high < 2; high++) {
        uint64_t *x = lent_tally(read_page, high, a), *y = lent_tally(other_page, high, b), *lent = lent_totals(written_page, high);
        uint32_t found = 77;
        mztab_tally_add(x, y, lent, &found);
        check(found == number, what, found);
        check(lent_are(lent, high, number ? NONE : sum), what, lent[PSMS]);
        check(lent_are(x, high, a) && lent_are(y, high, b), "the tallies are as they were", found);
    }
}

/* Both orders. */
static void adds_to(const uint64_t *a, const uint64_t *b, uint32_t number, const uint64_t *sum, const char *what) {
    add_is(a, b, number, sum, what);
    add_is(b, a, number, sum, what);
}

/* A tally and itself, as the same memory. */
static void twice_is(const uint64_t *a, uint32_t number, const uint64_t *sum, const char *what) {
    for (int high = 0; high < 2; high++) {
        uint64_t *x = lent_tally(read_page, high, a), *lent = lent_totals(written_page, high);
        uint32_t found = 77;
        mztab_tally_add(x, x, lent, &found);
        check(found == number && lent_are(lent, high, number ? NONE : sum) && lent_are(x, high, a), what, found);
    }
}

#define LARGEST 18446744073709551615u
#define HALF 9223372036854775808u

/* Two numbers in one place, with others beside them that can be added. */
static void add_at(int place, uint64_t a, uint64_t b, uint32_t number, const char *what) {
    uint64_t x[TOTALS] = {1, 20, 300, 4000, 50000, 600000, 7000000, 80000000}, y[TOTALS] = {8, 70, 600, 5000, 40000, 300000, 2000000, 10000000};
    uint64_t sum[TOTALS] = {9, 90, 900, 9000, 90000, 900000, 9000000, 90000000};
    x[place] = a;
    y[place] = b;
    sum[place] = a + b;
    adds_to(x, y, number, sum, what);
}

/* Sums around 64 bits in each of the eight places. */
static void sums_at_edge(void) {
    static const struct { uint64_t a, b; uint32_t number; } all[] = {
        {LARGEST, 0, 0}, {LARGEST, 1, 13}, {LARGEST - 1, 1, 0}, {LARGEST - 1, 2, 13}, {LARGEST, LARGEST, 13}, {HALF, HALF, 13}, {HALF, HALF - 1, 0},
        {HALF - 1, HALF - 1, 0}, {4294967295u, 1, 0}, {LARGEST - 4294967295u, 4294967295u, 0}, {LARGEST - 4294967295u, 4294967296u, 13}, {0, 0, 0}};
    for (int place = 0; place < TOTALS; place++)
        for (size_t i = 0; i < COUNT(all); i++) add_at(place, all[i].a, all[i].b, all[i].number, "sum of tallies");
}

/* Drawn tallies, half of them of large numbers. */
static void drawn_sums(void) {
    uint32_t refused = 0;
    seed = 13;
    for (uint32_t i = 0; i < LONG; i++) {
        uint64_t a[TOTALS], b[TOTALS], sum[TOTALS], bits = i % 2 ? 4 : 64;
        uint32_t passes = 0;
        for (int k = 0; k < TOTALS; k++) {
            a[k] = draw(LARGEST) << 11 >> draw(bits);
            b[k] = draw(LARGEST) << 11 >> draw(bits);
            sum[k] = a[k] + b[k];
            passes |= sum[k] < a[k];
        }
        refused += passes;
        adds_to(a, b, passes ? 13 : 0, sum, "drawn sums of tallies");
    }
    check(refused > LONG / 8 && refused < LONG / 2, "drawn sums of tallies: how many are refused", refused);
}

static void tally_sums(void) {
    static const uint64_t one[TOTALS] = {1, 1, 1, 1, 1, 1, 1, 1}, all[TOTALS] = {LARGEST, LARGEST, LARGEST, LARGEST, LARGEST, LARGEST, LARGEST, LARGEST};
    static const uint64_t less[TOTALS] = {HALF - 1, 1, 2, 3, 4, 5, 6, 7}, doubled[TOTALS] = {LARGEST - 1, 2, 4, 6, 8, 10, 12, 14};
    sums_at_edge();
    adds_to(NONE, NONE, 0, NONE, "no tallies");
    adds_to(all, NONE, 0, all, "the largest tally and none");
    adds_to(all, one, 13, NULL, "every sum passes 64 bits");
    twice_is(less, 0, doubled, "a tally twice");
    twice_is(all, 13, NULL, "the largest tally twice");
    drawn_sums();
    group("sums of tallies");
}

#define RECORD_FRONT "\x42\0\0\0\1\0"

/* Tallies, and their records by hand. */
static const struct { uint64_t totals[TOTALS]; char record[RECORD + 1]; } RECORDS[] = {
    {{0}, RECORD_FRONT},
    {{1, 2, 3, 4, 5, 6, 7, 8},
     RECORD_FRONT "\1\0\0\0\0\0\0\0" "\2\0\0\0\0\0\0\0" "\3\0\0\0\0\0\0\0" "\4\0\0\0\0\0\0\0"
                  "\5\0\0\0\0\0\0\0" "\6\0\0\0\0\0\0\0" "\7\0\0\0\0\0\0\0" "\10\0\0\0\0\0\0\0"},
    {{27, 3, 105, 2, 0, 0, 0, 3},
     RECORD_FRONT "\x1B\0\0\0\0\0\0\0" "\3\0\0\0\0\0\0\0" "\x69\0\0\0\0\0\0\0" "\2\0\0\0\0\0\0\0"
                  "\0\0\0\0\0\0\0\0" "\0\0\0\0\0\0\0\0" "\0\0\0\0\0\0\0\0" "\3\0\0\0\0\0\0\0"},
    {{LARGEST, 0, 256, 65536, 16777216, 4294967296, 1099511627776, HALF},
     RECORD_FRONT "\xFF\xFF\xFF\xFF\xFF\xFF\xFF\xFF" "\0\0\0\0\0\0\0\0" "\0\1\0\0\0\0\0\0" "\0\0\1\0\0\0\0\0"
                  "\0\0\0\1\0\0\0\0" "\0\0\0\0\1\0\0\0" "\0\0\0\0\0\1\0\0" "\0\0\0\0\0\0\0\x80"},
    {{0x0102030405060708, 0x1112131415161718, 0x2122232425262728, 0x3132333435363738,
      0x4142434445464748, 0x5152535455565758, 0x6162636465666768, 0x7172737475767778},
     RECORD_FRONT "\x08\x07\x06\x05\x04\x03\x02\x01" "\x18\x17\x16\x15\x14\x13\x12\x11" "\x28\x27\x26\x25\x24\x23\x22\x21" "\x38\x37\x36\x35\x34\x33\x32\x31"
                  "\x48\x47\x46\x45\x44\x43\x42\x41" "\x58\x57\x56\x55\x54\x53\x52\x51" "\x68\x67\x66\x65\x64\x63\x62\x61" "\x78\x77\x76\x75\x74\x73\x72\x71"},
};

/* The record of a tally in a buffer of so many bytes at either edge of a page; what is behind it, or beside the buffer there, is as it was. */
static void write_is(const uint64_t *totals, size_t room, const void *record, const char *what) {
    size_t length = room < RECORD ? 0 : RECORD;
    for (int high = 0; high < 2; high++) {
        uint8_t *start = high ? written_page + PAGE - room - AROUND : written_page, *lent = start + (high ? AROUND : 0);
        uint64_t *x = lent_tally(read_page, high, totals);
        uint32_t number = 77;
        memset(start, UNTOUCHED, room + AROUND);
        check(mztab_tally_write(x, lent, room, &number) == length && number == (length ? 0 : 5), what, room);
        check(memcmp(lent, record, length) == 0, what, room);
        check(untouched(start, (size_t)(lent - start)) && untouched(lent + length, room - length + (high ? 0 : AROUND)), what, room);
        check(lent_are(x, high, totals), "the tally is as it was", room);
    }
}

/* So many bytes at either edge of a page, read as a record; they are as they were. In a refusal `totals` is of no account. */
static void read_is(const void *bytes, size_t n, uint32_t number, const uint64_t *totals, const char *what) {
    for (int high = 0; high < 2; high++) {
        uint8_t *x = read_page + (high ? PAGE - n : 0);
        uint64_t *lent = lent_totals(written_page, high);
        uint32_t found = 77;
        memcpy(x, bytes, n);
        mztab_tally_read(x, n, lent, &found);
        check(found == number, what, n);
        check(lent_are(lent, high, number ? NONE : totals), what, lent[PSMS]);
        check(memcmp(x, bytes, n) == 0, "the record is as it was", n);
    }
}

/* Buffers and bytes of every length: of the bytes behind a record some are a record again, and some records say how long they are. */
static void records_of_lengths(void) {
    uint8_t bytes[2 * RECORD];
    for (size_t i = 0; i < COUNT(RECORDS); i++) {
        memcpy(bytes, RECORDS[i].record, RECORD);
        memcpy(bytes + RECORD, RECORDS[i].record, RECORD);
        for (size_t n = 0; n <= MOST_ROOM; n++) {
            write_is(RECORDS[i].totals, n, RECORDS[i].record, "record written");
            read_is(bytes, n, n == RECORD ? 0 : 14, RECORDS[i].totals, "record read");
            bytes[0] = (uint8_t)(n - 4);
            read_is(bytes, n, n == RECORD ? 0 : 14, RECORDS[i].totals, "record read, its length that of the bytes");
            bytes[0] = RECORD - 4;
        }
        read_is(bytes, sizeof bytes, 14, NULL, "two records");
    }
}

/* Every other value of each of the first six bytes, and each bit of the others. */
static void records_of_bytes(void) {
    uint8_t bytes[RECORD];
    memcpy(bytes, RECORDS[1].record, RECORD);
    for (int place = 0; place < FRONT; place++)
        for (int change = 1; change < 256; change++) {
            bytes[place] ^= (uint8_t)change;
            read_is(bytes, RECORD, 14, NULL, "a record with another length or kind");
            bytes[place] ^= (uint8_t)change;
        }
    for (int bit = 0; bit < 64 * TOTALS; bit++)
        for (int other = 0; other < 2; other++) {
            uint64_t totals[TOTALS];
            memset(totals, other ? 255 : 0, sizeof totals);
            memset(bytes + FRONT, other ? 255 : 0, sizeof totals);
            totals[bit / 64] ^= (uint64_t)1 << bit % 64;
            bytes[FRONT + bit / 8] ^= (uint8_t)(1 << bit % 8);
            read_is(bytes, RECORD, 0, totals, "a bit of a record");
            write_is(totals, RECORD, bytes, "a bit of a tally");
        }
}

/* Drawn tallies are read as they were written, and drawn records written as they were read. */
static void drawn_records(void) {
    seed = 14;
    for (uint32_t i = 0; i < LONG; i++) {
        uint64_t totals[TOTALS], back[TOTALS];
        uint8_t bytes[RECORD], again[RECORD];
        uint32_t number = 77;
        for (int k = 0; k < TOTALS; k++) totals[k] = draw(LARGEST) << 11 ^ draw(LARGEST);
        check(mztab_tally_write(totals, bytes, RECORD, &number) == RECORD && number == 0, "drawn tally: written", i);
        mztab_tally_read(bytes, RECORD, back, &number);
        check(number == 0 && same_totals(back, totals), "drawn tally: read", i);
        for (size_t k = FRONT; k < RECORD; k++) bytes[k] = (uint8_t)draw(256);
        mztab_tally_read(bytes, RECORD, back, &number);
        check(number == 0 && mztab_tally_write(back, again, RECORD, &number) == RECORD && number == 0, "drawn record: read and written", i);
        check(memcmp(again, bytes, RECORD) == 0, "drawn record: the same", i);
    }
}

static void tally_records(void) {
    records_of_lengths();
    records_of_bytes();
    drawn_records();
    group("records of tallies");
}

static void tally_calls(void) {
    read_page = page(PAGE);
    other_page = page(PAGE);
    written_page = page(PAGE);
    tallies();
    tallies_of_cells();
    drawn_tallies();
    long_tallies();
    tally_sums();
    tally_records();
}

static size_t most = LIMIT; /* the bytes of the hostile files */

/* The lines whose code is PRT: it stands before a tab, an end of line, or the end. */
static uint32_t protein_rows(void) {
    uint32_t count = 0;
    for (size_t k = 0; k + 3 <= most;) {
        const uint8_t *after = file + k + 3, *end = memchr(file + k, 10, most - k);
        if (memcmp(file + k, "PRT", 3) == 0 && (k + 3 == most || *after == 9 || *after == 10 || (*after == 13 && end == after + 1))) count++;
        if (!end) break;
        k = (size_t)(end - file) + 1;
    }
    return count;
}

/* A hostile file is not accepted, and its rows are counted still. */
static void weigh_hostile(const char *name) {
    uint32_t number = 77, rows = mztab_rows(file, most, 1, &number);
    check(number == 0 && rows == protein_rows(), name, rows);
    weights_are(file, most, 7, NULL, name);
    tally_is(file, most, 7, NULL, name);
}

/* 256 cells, the widest header: 64 study variables, and optional columns after them. */
static void wide_name(char *s, uint32_t k) {
    if (k < 4) strcpy(s, REQUIRED[k]);
    else if (k < 68) sprintf(s, VARIABLE "[%u]", k - 3);
    else opt_name(s, k);
}

/* Study variables 1, 3, 5 .. have a value in every row, the others in none. */
static void wide_cell(char *s, uint32_t k) {
    strcpy(s, k == 0 ? "a" : k >= 4 && k < 68 && k % 2 == 0 ? "0" : "null");
}

/* Accepted files that nobody sends. */
static void weigh_accepted(void) {
    uint32_t weights[64] = {0};
    begin(most);
    put_runs();
    fill('\n', most);
    weights_are(file, most, 0, weights, "metadata and LF alone");
    begin(most);
    put_runs();
    put(REQUIRED_COLUMNS "\t" VARIABLE "[64]\nPRT\ta\tb\tc\tnull\t");
    fill('7', most);
    weights[63] = 1;
    weights_are(file, most, 0, weights, "an abundance of digits");
    begin(most);
    put_runs();
    put(line_of("PRH", 255, wide_name));
    uint32_t rows = over(line_of("PRT", 255, wide_cell), most);
    fill('\n', most);
    for (uint32_t i = 0; i < 64; i++) weights[i] = i % 2 ? 0 : rows;
    weights_are(file, most, 0, weights, "rows of 256 cells");
    begin(most);
    put_runs();
    put(REQUIRED_COLUMNS "\t" VARIABLE "[1]\n");
    rows = over("PRT\ta\ta\ta\tnull\t1\n", most);
    fill('\n', most);
    memset(weights, 0, sizeof weights);
    weights[0] = rows;
    weights_are(file, most, 0, weights, "short rows");
}

static void largest_cell(char *s, uint32_t k) { strcpy(s, k < COUNTS ? "999999999" : k == 251 ? "a" : "null"); }
static void missing_cell(char *s, uint32_t k) { strcpy(s, k == 251 ? "a" : "null"); }

/* The file so far, and a row that adds so much as often as it fits. */
static void rows_tally(const char *row, const uint64_t *each, const char *what) {
    uint64_t totals[TOTALS], rows = over(row, most);
    fill('\n', most);
    for (int k = 0; k < TOTALS; k++) totals[k] = rows * each[k];
    tally_is(file, most, 0, totals, what);
}

/* Accepted files that nobody sends, tallied: of LF, of the widest rows, and of short ones. */
static void tally_accepted(void) {
    static const uint64_t ones[TOTALS] = {RUNS, RUNS, RUNS, 1, 0, 0, 0, 0}, none[TOTALS] = {0, 0, 0, 1, 0, 0, 0, COUNTS}, nine[TOTALS] = {0, 9, 0, 1, 0, 0, 0, 0};
    static const uint64_t large[TOTALS] = {63999999936, 63999999936, 63999999936, 1, 0, 0, 0, 0}, spectrum[TOTALS] = {0, 0, 0, 0, 0, 1, 0, 0};
    begin(most);
    put_ones(0);
    rows_tally("\n", NONE, "a header and LF alone, tallied");
    begin(most);
    put_ones(0);
    rows_tally(line_of("PRT", 255, one_cell), ones, "rows of ones, tallied");
    begin(most);
    put_ones(0);
    rows_tally(line_of("PRT", 255, missing_cell), none, "rows of null, tallied");
    begin(most);
    put_ones(0);
    rows_tally(line_of("PRT", 255, largest_cell), large, "rows of the largest counts, tallied");
    begin(most);
    put_runs();
    put(PROTEINS "\t" DISTINCT_OF("64") "\n");
    rows_tally(PROTEIN "\t9\n", nine, "short rows, tallied");
    begin(most);
    put_runs();
    put(SPECTRA "\n");
    rows_tally("PSM\ta\ta\ta\t1\ta\n", spectrum, "rows of PSMs, tallied");
}

/* In the hostile files the key that comes again stands on line 1, and so does the header; the name is that of cell 2. */
static uint32_t hostile_first(uint32_t rule) { return rule == 6 || rule == 9 ? 1 : rule == 13 ? 2 : 0; }

static int hostile_firsts(const uint32_t *places, size_t breaks) {
    for (size_t k = 0; k < breaks; k++)
        if (places[4 * k + 3] != hostile_first(places[4 * k])) return 0;
    return 1;
}

/* Every break of one key that is repeated to the end of the file. */
static void every_first(void) {
    struct want w = same_key(most);
    uint32_t *places = malloc((size_t)w.count * 16), number = 77;
    if (!places) exit(2);
    check(mztab_judge(file, most, places, (size_t)w.count * 4, &number) == w.count && number == 0, "every break of one key", w.count);
    int ok = 1;
    for (uint32_t k = 0; k < w.count - 5; k++)
        ok = ok && places[4 * k] == 6 && places[4 * k + 1] == k + 2 && places[4 * k + 2] == 2 && places[4 * k + 3] == 1;
    check(ok && hostile_firsts(places, w.count), "every break of one key", 1);
    free(places);
}

/* The file between pages that may not be touched, its last byte at the upper edge. */
static uint8_t *tight;

/* So many breaks of a hostile file are listed, and all of them for its lines where there are at most FULL. */
enum { LISTED = 16384, FULL = 5000000 };

/* The bytes of a line, from 1 to N, with its end. */
static const uint8_t *bytes_of(const uint8_t *f, uint32_t line, size_t *n) {
    const uint8_t *start = f, *end = f + most, *lf;
    while ((lf = memchr(start, '\n', (size_t)(end - start))) && --line) start = lf + 1;
    *n = (size_t)((lf ? lf + 1 : end) - start);
    return start;
}

/* A line far below in a file whose list is too long to be made whole: it has the bytes of line 3, and so the breaks of line 3. */
static void line_as_third(const uint8_t *f, uint32_t line, const uint32_t *places, const char *name) {
    uint32_t breaks[4 * 1024], from = above(places, LISTED, 3), own = above(places, LISTED, 4) - from;
    size_t third, n;
    const uint8_t *a = bytes_of(f, 3, &third), *b = bytes_of(f, line, &n);
    int empty = n == 1 && *b == '\n', same = n == third && memcmp(a, b, n) == 0;
    check(own > 0 && own <= 1024 && (empty || same), name, line);
    for (uint32_t k = 0; k < own; k++) {
        memcpy(breaks + 4 * k, places + 4 * (from + k), 4 * sizeof *breaks);
        breaks[4 * k + 1] = line;
    }
    line_is(f, most, line, 4 * MOST_BREAKS, 0, breaks, empty ? 0 : own, name);
}

/* Line 1, the middle one, the last that is not empty, and the last, of a hostile file, against the list of all breaks; places has the first LISTED of them. */
static void hostile_lines(const char *name, const uint32_t *places, uint32_t count) {
    uint8_t *f = tight + LIMIT - most;
    size_t full = most;
    uint32_t *all = NULL, number = 77, lines = lines_of(file, most);
    memcpy(f, file, most);
    while (full > 0 && file[full - 1] == '\n') full--;
    if (count > LISTED && count <= FULL) {
        all = malloc((size_t)count * 16);
        if (!all) exit(2);
        check(mztab_judge(f, most, all, (size_t)count * 4, &number) == count, name, count);
        places = all;
    }
    uint32_t asked[4] = {1, lines / 2 + 1, lines_of(file, full), lines};
    for (int i = 0; i < 4; i++) {
        uint32_t line = asked[i], listed = count <= FULL ? count : LISTED, from = above(places, listed, line);
        if (line == 0 || (i > 0 && line <= asked[i - 1])) continue;
        if (count > FULL && line > 3) line_as_third(f, line, places, name);
        else line_is(f, most, line, 4 * MOST_BREAKS, 0, places + 4 * (size_t)from, above(places, listed, line + 1) - from, name);
    }
    check(memcmp(f, file, most) == 0, name, most);
    free(all);
}

/* Of the hostile files two have empty cells that can be mended, all of a row but its accession; the others are copied byte for byte. */
static void mend_hostile(int which) {
    int holes = HOSTILE[which].make == empty_cells || HOSTILE[which].make == empty_by_turns;
    uint32_t count = holes ? 254 * protein_rows() : 0, list[5];
    size_t length = most + 4 * (size_t)count, room = length < LIMIT ? length : LIMIT;
    mark(list, COUNT(list));
    struct outcome o = mend_high(tight + LIMIT - most, most, room, list, 3);
    const uint8_t *copy = buffer + BUFFER - room;
    if (length > LIMIT) {
        check(refused_mend(o, 5) && untouched(copy, room) && marked(list, COUNT(list)), HOSTILE[which].name, length);
        return;
    }
    check(o.number == 0 && o.length == length && o.count == count, HOSTILE[which].name, o.count);
    check(holes ? list[0] == 2 && list[1] == 3 && marked(list + 2, 3) : marked(list, COUNT(list)), HOSTILE[which].name, list[0]);
    check(holes || memcmp(copy, file, most) == 0, HOSTILE[which].name, length);
}

static void hostile(void) {
    static uint32_t places[4 * LISTED + 12];
    for (int i = 0; i < FILES; i++) {
        struct want w = HOSTILE[i].make(most);
        uint32_t number = 77;
        mark(places, COUNT(places));
        uint32_t count = mztab_judge(file, most, places, 4 * LISTED + 3, &number);
        size_t listed = count < LISTED ? count : LISTED;
        check(number == 0, HOSTILE[i].name, number);
        check(count == w.count, HOSTILE[i].name, count);
        check(places[0] == w.rule && places[1] == w.line && places[2] == w.cell && places[3] == w.first, HOSTILE[i].name, places[0]);
        check(hostile_firsts(places, listed), HOSTILE[i].name, listed);
        check(marked(places + 4 * listed, COUNT(places) - 4 * listed), HOSTILE[i].name, 0);
        if (i % 8 == 0) check(same_records(most / 16, 3), HOSTILE[i].name, 3);
        weigh_hostile(HOSTILE[i].name);
        hostile_lines(HOSTILE[i].name, places, count);
        mend_hostile(i);
    }
    every_first();
    weigh_accepted();
    tally_accepted();
    /* the cell calls on the same stack: the last cell of one row */
    tabs(LIMIT);
    memcpy(file, "PRT", 3);
    struct view v = cell(file, LIMIT, 1, 1, LIMIT - 3);
    check(v.number == 0 && v.start == LIMIT && v.length == 0, "last of tabs", v.start);
    check(refused_view(cell(file, LIMIT, 1, 1, LIMIT - 2), 4), "beyond the last of tabs", 0);
    digits(LIMIT);
    struct read r = reading(file, LIMIT, 1, 1, 5);
    check(r.number == 0 && r.kind == 5 && r.line == 2 && r.cell == 6 && bare(r), "reading of digits", r.kind);
    memcpy(file + LIMIT - 4, "E-05", 4);
    check(reading(file, LIMIT, 1, 1, 5).kind == 5, "reading of digits and an exponent", 0);
    memcpy(file + LIMIT - 5, "E0005", 5);
    check(reading(file, LIMIT, 1, 1, 5).kind == 6, "reading of digits and what is no exponent", 0);
}

/* A stack of 2 MB, with pages around it that may not be touched; every byte of it marked. */
enum { STACK = 2 << 20 };

static uint8_t *marked_stack(void) {
    uint8_t *stack = page(STACK);
    memset(stack, 0xA5, STACK);
    return stack;
}

/* How much of it was used, in KB. */
static size_t used(const uint8_t *stack) {
    size_t free_bytes = 0;
    while (free_bytes < STACK && stack[free_bytes] == 0xA5) free_bytes++;
    check(free_bytes > 0, "stack", free_bytes);
    return (STACK - free_bytes + 1023) / 1024;
}

static void on_small_stack(void) {
    uint8_t *stack = marked_stack();
    on_stack(stack, STACK, hostile);
    size_t kilobytes = used(stack);
    group("hostile files, 2 MB stack");
    printf("%34s %6zu KB of stack used, files of %zu bytes\n", "", kilobytes, most);
}

static void judge_file(void) {
    uint32_t place, number;
    mztab_judge(file, size, &place, 0, &number);
}

static void judge_last(void) {
    uint32_t place, number = 77;
    mztab_judge_line(file, size, lines_of(file, size), &place, 0, &number);
    check(number == 0, "stack: the last line", number);
}

static void mend_file(void) {
    uint32_t place;
    struct outcome o = mend(file, size, buffer, BUFFER, &place, 0);
    check(o.number == 0 && o.length == size + 4 * (size_t)o.count, "stack: mending", o.number);
}

static uint64_t stack_tally[TOTALS];

static void tally_file(void) {
    uint32_t number = 77;
    mztab_tally(file, size, stack_tally, &number);
    check(number == 0 || number == 7, "stack: tally", number);
}

static void add_tallies(void) {
    uint64_t sum[TOTALS];
    uint32_t number = 77;
    mztab_tally_add(stack_tally, stack_tally, sum, &number);
    check(number == 0, "stack: sum of tallies", number);
}

static void write_tally(void) {
    uint32_t number = 77;
    check(mztab_tally_write(stack_tally, written_page, PAGE, &number) == RECORD && number == 0, "stack: record written", number);
}

static void read_tally(void) {
    uint32_t number = 77;
    mztab_tally_read(written_page, RECORD, stack_tally, &number);
    check(number == 0, "stack: record read", number);
}

/* Calls, and the stack that each may use, in KB: what the header says of it, and 1 where it says nothing. */
static const struct { const char *name; void (*call)(void); size_t most; } STACKS[] = {
    {"mztab_judge", judge_file, 300}, {"mztab_judge_line", judge_last, 350}, {"mztab_mend", mend_file, 50}, {"mztab_tally", tally_file, 300},
    {"mztab_tally_add", add_tallies, 1}, {"mztab_tally_write", write_tally, 1}, {"mztab_tally_read", read_tally, 1}};

/* The file so far: a hostile one of at most 1 MB, the example, or one that is accepted and has rows of 256 cells. */
static void stack_file(int which) {
    if (which < FILES) HOSTILE[which].make(most < (size_t)1 << 20 ? most : (size_t)1 << 20);
    else {
        begin(LIMIT);
        if (which == FILES) put(EXAMPLE);
        else put_ones(9);
        size = at;
    }
}

/* Each call on a stack of its own, over all these files. */
static void stacks(void) {
    uint8_t *stack[COUNT(STACKS)];
    size_t kilobytes[COUNT(STACKS)];
    for (size_t i = 0; i < COUNT(STACKS); i++) stack[i] = marked_stack();
    for (int which = 0; which <= FILES + 1; which++) {
        stack_file(which);
        for (size_t i = 0; i < COUNT(STACKS); i++) on_stack(stack[i], STACK, STACKS[i].call);
    }
    check(stack_tally[PSMS] == 9 * RUNS, "stack: the last file is tallied", stack_tally[PSMS]);
    for (size_t i = 0; i < COUNT(STACKS); i++) {
        kilobytes[i] = used(stack[i]);
        check(kilobytes[i] <= STACKS[i].most, STACKS[i].name, kilobytes[i]);
    }
    group("stack");
    for (size_t i = 0; i < COUNT(STACKS); i++) printf("%34s %6zu KB of stack used by %s\n", "", kilobytes[i], STACKS[i].name);
}

/* host [BYTES]: the hostile files have so many bytes, else as many as a file can have. */
int main(int words, char **word) {
    file = malloc(LIMIT + 1);
    if (!file) return 2;
    if (words > 1) most = (size_t)atol(word[1]);
    if (most == 0 || most > LIMIT) most = LIMIT;
    limits();
    passed_over();
    lists();
    indices();
    stand_ins();
    records();
    firsts();
    drawn_firsts();
    one_line_each();
    drawn_lines();
    buffer = page(BUFFER);
    mends();
    drawn_mends();
    mend_limits();
    edges();
    views();
    refusals();
    doubles();
    powers();
    exponents();
    page_of_weights = page(PAGE);
    page_of_shares = page(PAGE);
    sums();
    splits();
    refused_splits();
    weighing();
    row_counts();
    long_tables();
    tally_calls();
    tight = page(LIMIT);
    on_small_stack();
    stacks();
    printf("%u checks, %u failed\n", checks, failed);
    return failed != 0;
}

#endif
