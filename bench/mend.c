/* How long `mztab_mend` takes beside `mztab_judge` of the same file in the same run, by turns: on 16 MB of ordinary rows with 1,000 empty cells, asked for is at
 * most 2.5 of judging the file, and with none; and on the hostile files of tests/host.c, 16 MB each, of which the slowest beside judging is named. Where the copy
 * would be longer than a file can be, the time is that of the refusal, and a shorter file is measured too. Best of nine each; of fewer where one file takes over
 * ten seconds in all. Fails where an answer is wrong, not where a ratio is above what is asked for. */
#define HOSTILE_FILES_ONLY
#include "../tests/host.c"
#include "ordinary.h"
#include "least.h"

enum { TRIES = 9, LISTED = 4096, HOLES = 1000 };
static int wrong;
static uint8_t *copy, *again; /* LIMIT bytes each */

/* A file of n bytes: what judging it answers, and how many cells are mended. */
struct mending {
    const char *name;
    size_t n;
    struct want want;
    uint32_t changes;
};

/* The copy is to have as many breaks less as cells were mended, and its own copy the same bytes. */
static int copy_is_wrong(struct mending m, size_t length) {
    uint32_t place, number = 77, count = 77;
    if (mztab_judge(copy, length, &place, 0, &number) != m.want.count - m.changes || number != 0) return 1;
    return mztab_mend(copy, length, again, LIMIT, &place, 0, &number, &count) != length || number != 0 || count != 0 || memcmp(copy, again, length) != 0;
}

/* Judging and mending by turns, with lists for so many breaks and changes; answers the ratio, and prints it. `most` is what is asked for, 0 for nothing. */
static double by_turns(struct mending m, size_t listed, double most) {
    uint32_t *places = malloc(16 * listed), *changes = malloc(8 * listed), number = 77, count = 77;
    size_t length = m.n + 4 * (size_t)m.changes;
    int fits = length <= LIMIT;
    double judge = 1e18, mend = 1e18, spent = 0;
    if (!places || !changes) exit(2);
    for (int i = 0; i < TRIES && spent < 1e4; i++) {
        double a = now();
        uint32_t breaks = mztab_judge(file, m.n, places, 4 * listed, &number);
        double b = now();
        wrong |= number != 0 || breaks != m.want.count;
        double c = now();
        size_t answer = mztab_mend(file, m.n, copy, LIMIT, changes, 2 * listed, &number, &count);
        double d = now();
        wrong |= fits ? number != 0 || answer != length || count != m.changes : number != 5 || answer != 0 || count != 0;
        least(&judge, b - a);
        least(&mend, d - c);
        spent += d - a;
    }
    wrong |= fits && copy_is_wrong(m, length);
    printf("%-34s %10zu %10u %10.2f %10.2f %8.2f%s", m.name, m.n, m.changes, judge, mend, mend / judge, fits ? "" : "  refused");
    if (most > 0) printf("  at most %.1f%s", most, mend > most * judge ? ", slow" : "");
    printf("\n");
    fflush(stdout);
    free(places);
    free(changes);
    return mend / judge;
}

/* Moves the line from `start` to `stop`, its LF too, down to `at`; without the bytes of one cell, of none where that is 0. */
static void move_line(size_t start, size_t stop, uint32_t cell) {
    size_t left = start;
    for (; cell > 1; left++) cell -= file[left] == '\t';
    size_t right = left;
    while (cell && file[right] != '\t' && file[right] != '\n') right++;
    memmove(file + at, file + start, left - start);
    at += left - start;
    memmove(file + at, file + right, stop - right);
    at += stop - right;
}

/* Ordinary rows, of which so many have one empty cell, cells 3 to 9 by turns. */
static struct want with_holes(size_t n, uint32_t holes) {
    uint32_t line = 1, first = 0, made = 0, lines = 0;
    ordinary(n);
    for (size_t k = 0; k < n; k++) lines += file[k] == '\n' && k > 0 && file[k - 1] != '\n';
    uint32_t step = lines / (holes + 1);
    at = 0;
    for (size_t start = 0, stop; start < n; start = stop, line++) {
        stop = (size_t)((uint8_t *)memchr(file + start, '\n', n - start) - file) + 1;
        int hole = line % step == 0 && made < holes && memcmp(file + start, "PRT", 3) == 0;
        if (hole && made == 0) first = line;
        move_line(start, stop, hole ? 3 + made % 7 : 0);
        made += (uint32_t)hole;
    }
    fill('\n', n);
    if (made != holes) exit(2);
    return want(holes, 19, first, 3);
}

static void on_ordinary(void) {
    size_t n = LIMIT - 4 * HOLES;
    by_turns((struct mending){"ordinary rows, 1,000 empty cells", n, with_holes(n, HOLES), HOLES}, LISTED, 2.5);
    by_turns((struct mending){"ordinary rows, none", LIMIT, ordinary(LIMIT), 0}, LISTED, 0);
}

/* A hostile file of n bytes. Of two of them all cells of a row are mended but its accession. */
static struct mending hostile(int which, size_t n) {
    struct want w = HOSTILE[which].make(n);
    int rows = HOSTILE[which].make == empty_cells, turns = HOSTILE[which].make == empty_by_turns;
    struct mending m = {HOSTILE[which].name, n, w, rows ? (w.count - 5) / 255 * 254 : turns ? (w.count - 4) / 256 * 254 : 0};
    return m;
}

static void on_hostile(void) {
    double slowest = 0;
    const char *name = "";
    for (int i = 0; i < FILES; i++) {
        struct mending m = hostile(i, LIMIT);
        double ratio = by_turns(m, LISTED, 0);
        if (m.changes > 0) {
            m = hostile(i, HOSTILE[i].make == empty_cells ? (size_t)3 << 20 : (size_t)11 << 20);
            double shorter = by_turns(m, LISTED, 0);
            if (shorter > ratio) ratio = shorter;
            m.name = "the same, lists for all";
            by_turns(m, m.want.count, 0);
        }
        if (ratio > slowest) slowest = ratio, name = HOSTILE[i].name;
    }
    printf("the slowest beside judging: %.2f, %s\n", slowest, name);
}

int main(void) {
    file = malloc(LIMIT + 1);
    copy = malloc(LIMIT);
    again = malloc(LIMIT);
    if (!file || !copy || !again) return 2;
    printf("%-34s %10s %10s %10s %10s %8s\n", "mztab_mend", "bytes", "changes", "judge ms", "mend ms", "ratio");
    on_ordinary();
    on_hostile();
    if (wrong) printf("WRONG\n");
    return wrong;
}
