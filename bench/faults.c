/* How long `mztab_faults` takes beside `mztab_judge` in the same run: on 16 MB of ordinary rows, and where there are some 8 million breaks and the lists
 * are long enough for all. Best of five each. Fails where the two differ. */
#define HOSTILE_FILES_ONLY
#include "../tests/host.c"
#include "ordinary.h"
#include "least.h"

enum { TRIES = 5 };

/* Both calls on the file, with room for so many breaks. */
static int beside(const char *name, size_t breaks) {
    uint32_t *places = calloc(breaks + 1, 16), number;
    struct mztab_fault *faults = calloc(breaks + 1, 16);
    if (!places || !faults) exit(2);
    double best[2] = {1e18, 1e18};
    uint32_t count[2] = {0, 0};
    for (int i = 0; i < TRIES; i++) {
        double a = now();
        count[0] = mztab_judge(file, LIMIT, places, 4 * breaks, &number);
        double b = now();
        count[1] = mztab_faults(file, LIMIT, faults, breaks, &number);
        double c = now();
        least(&best[0], b - a);
        least(&best[1], c - b);
    }
    int same = count[0] == count[1] && memcmp(places, faults, 16 * breaks) == 0;
    printf("%-34s %10u %10.2f %10.2f %8.2f%s\n", name, count[0], best[0], best[1], best[1] / best[0], same ? "" : "  DIFFERENT");
    free(places);
    free(faults);
    return same;
}

int main(void) {
    file = malloc(LIMIT + 1);
    if (!file) return 2;
    printf("%-34s %10s %10s %10s %8s\n", "16 MB", "breaks", "places ms", "records ms", "ratio");
    ordinary(LIMIT);
    int same = beside("ordinary rows", 4096);
    x_lines(LIMIT);
    same &= beside("one-byte lines, all breaks", LIMIT / 2 + 5);
    same &= beside("one-byte lines, none", 0);
    control_lines(LIMIT);
    same &= beside("a control byte a line, all breaks", LIMIT + 5);
    return !same;
}
