/* Times, for benchmarks: of several runs the least counts. */
#include <time.h>

/* Milliseconds since some moment that is always the same. */
static double now(void) {
    struct timespec t;
    clock_gettime(CLOCK_MONOTONIC, &t);
    return (double)t.tv_sec * 1e3 + (double)t.tv_nsec / 1e6;
}

static void least(double *best, double t) {
    if (t < *best) *best = t;
}
