/* How long `mztab_judge_line` takes beside `mztab_judge` in the same run, by turns: on 16 MB of ordinary rows for the last line, a middle one, line 100 and line 1,
 * asked for are at most 1.0 of judging the file for the last line and 0.5 for line 100; and for the last line of each hostile file of tests/host.c, 16 MB each, of
 * which the slowest beside judging is named, and all that take longer than it. Best of nine each; of fewer where one file takes over ten seconds in all.
 * Fails where an answer is wrong, not where a ratio is above what is asked for. */
#define HOSTILE_FILES_ONLY
#include "../tests/host.c"
#include "ordinary.h"
#include "least.h"

enum { TRIES = 9, LISTED = 4096, ASKED = 4 };
static int wrong;

static uint32_t lines_of_file(void) {
    uint32_t lines = file[LIMIT - 1] != '\n';
    for (size_t k = 0; k < LIMIT; k++) lines += file[k] == '\n';
    return lines;
}

/* An answer that cannot be that of the line: a break of another line, or, where the list of all breaks is at hand, another list than the line's part of it. */
static int is_wrong(const uint32_t *all, uint32_t breaks, uint32_t line, const uint32_t *places, uint32_t count) {
    uint32_t from = 0, to = 0;
    for (uint32_t k = 0; k < count && k < LISTED; k++)
        if (places[4 * k + 1] != line) return 1;
    if (breaks > LISTED) return 0;
    for (; to < breaks && all[4 * to + 1] <= line; to++) from += all[4 * to + 1] < line;
    return count != to - from || memcmp(places, all + 4 * from, 16 * (size_t)count) != 0;
}

/* Judging the file and each of the lines, by turns; answers the best time of judging, and writes those of the lines. */
static double by_turns(struct want w, const uint32_t *lines, int asked, double *best) {
    static uint32_t all[4 * LISTED], places[4 * LISTED];
    double judge = 1e18, spent = 0;
    for (int k = 0; k < asked; k++) best[k] = 1e18;
    for (int i = 0; i < TRIES && spent < 1e4; i++) {
        uint32_t number = 77;
        double t = now();
        uint32_t breaks = mztab_judge(file, LIMIT, all, 4 * LISTED, &number);
        least(&judge, now() - t);
        wrong |= number != 0 || breaks != w.count;
        for (int k = 0; k < asked; k++) {
            double a = now();
            uint32_t count = mztab_judge_line(file, LIMIT, lines[k], places, 4 * LISTED, &number);
            least(&best[k], now() - a);
            wrong |= number != 0 || is_wrong(all, breaks, lines[k], places, count);
        }
        spent += now() - t;
    }
    return judge;
}

static void on_ordinary(void) {
    static const char *const names[ASKED] = {"the last line", "a middle line", "line 100", "line 1"};
    static const double most[ASKED] = {1.0, 0, 0.5, 0};
    struct want w = ordinary(LIMIT);
    uint32_t n = lines_of_file(), lines[ASKED] = {n, n / 2, 100, 1}, place, number = 77;
    double best[ASKED], judge = by_turns(w, lines, ASKED, best);
    printf("%-34s %10s %10s %8s %8s\n", "ordinary rows, 16 MB", "line", "ms", "ratio", "at most");
    printf("%-34s %10s %10.2f %8.3f\n", "mztab_judge", "all", judge, 1.0);
    for (int k = 0; k < ASKED; k++) {
        printf("mztab_judge_line, %-16s %10u %10.2f %8.3f", names[k], lines[k], best[k], best[k] / judge);
        if (most[k] > 0) printf(" %8.1f%s", most[k], best[k] > most[k] * judge ? "  slow" : "");
        printf("\n");
    }
    wrong |= mztab_judge_line(file, LIMIT, n + 1, &place, 0, &number) != 0 || number != 3;
}

static void on_hostile(void) {
    double slowest = 0;
    int which = 0, above = 0;
    printf("%-34s %10s %10s %10s %8s\n", "hostile files, 16 MB, last line", "line", "judge ms", "line ms", "ratio");
    for (int i = 0; i < FILES; i++) {
        struct want w = HOSTILE[i].make(LIMIT);
        uint32_t last = lines_of_file();
        double line, judge = by_turns(w, &last, 1, &line), ratio = line / judge;
        printf("%-34s %10u %10.2f %10.2f %8.3f%s\n", HOSTILE[i].name, last, judge, line, ratio, ratio > 1 ? "  above 1.0" : "");
        fflush(stdout);
        above += ratio > 1;
        if (ratio > slowest) slowest = ratio, which = i;
    }
    printf("the slowest beside judging: %.3f, %s; %d of %d above 1.0\n", slowest, HOSTILE[which].name, above, (int)FILES);
}

int main(void) {
    file = malloc(LIMIT + 1);
    if (!file) return 2;
    on_ordinary();
    on_hostile();
    if (wrong) printf("WRONG\n");
    return wrong;
}
