/* How long `mztab_judge` takes: on ordinary files of 16 MB and 1 MB beside `mawk` and `wc -l` on the same file in the same run, on the same rows whose numbers
 * end in an exponent, and on the hostile files of tests/host.c of 16 MB and 4 MB; a byte that takes over four times what `mawk` takes for one of the ordinary
 * rows is called slow. Best of five each; of fewer where one file takes over ten seconds in all. Fails where a count is wrong. */
#define HOSTILE_FILES_ONLY
#include "../tests/host.c"
#include "ordinary.h"
#include "least.h"
#include <fcntl.h>
#include <spawn.h>
#include <sys/wait.h>

enum { TRIES = 5 };
extern char **environ;
static int wrong;

/* Milliseconds of the best judging of the first n bytes. */
static double judge(const char *name, size_t n, struct want w) {
    static uint32_t places[4 * 4096];
    double best = 1e18, spent = 0;
    for (int i = 0; i < TRIES && spent < 1e4; i++) {
        uint32_t number = 77;
        double t = now();
        uint32_t count = mztab_judge(file, n, places, 4 * 4096, &number);
        t = now() - t;
        spent += t;
        least(&best, t);
        if (number != 0 || count != w.count || (count && (places[0] != w.rule || places[1] != w.line || places[2] != w.cell || places[3] != w.first))) {
            printf("WRONG %s, %zu bytes: %u breaks, not %u\n", name, n, count, w.count);
            wrong = 1;
        }
    }
    return best;
}

/* Milliseconds of the best run of a program, its start included; below 0 where it is not installed. */
static double program(char *const argv[]) {
    double best = 1e18;
    for (int i = 0; i < TRIES; i++) {
        posix_spawn_file_actions_t quiet;
        posix_spawn_file_actions_init(&quiet);
        posix_spawn_file_actions_addopen(&quiet, 1, "/dev/null", O_WRONLY, 0);
        posix_spawn_file_actions_addopen(&quiet, 2, "/dev/null", O_WRONLY, 0);
        pid_t pid;
        int status = -1;
        double t = now();
        int no = posix_spawnp(&pid, argv[0], &quiet, NULL, argv, environ);
        if (!no) waitpid(pid, &status, 0);
        t = now() - t;
        posix_spawn_file_actions_destroy(&quiet);
        if (no || status != 0) return -1;
        least(&best, t);
    }
    return best;
}

/* Answers the nanoseconds of a byte, 0 where the program is not installed. */
static double beside(const char *name, char *const argv[], double per_byte) {
    double t = program(argv);
    if (t < 0) {
        printf("%-30s %10s\n", name, "not installed");
        return 0;
    }
    printf("%-30s %10.2f %10.3f %22.2f\n", name, t, t * 1e6 / LIMIT, t * 1e6 / LIMIT / per_byte);
    return t * 1e6 / LIMIT;
}

int main(void) {
    file = malloc(LIMIT + 1);
    if (!file) return 2;
    printf("%-30s %10s %10s %10s %11s\n", "mztab_judge, 16 MB", "ms", "ns a byte", "at 4 MB", "to ordinary");
    struct want w = ordinary(LIMIT);
    char path[] = "target/host/bench-XXXXXX";
    int fd = mkstemp(path);
    if (fd < 0 || write(fd, file, LIMIT) != (ssize_t)LIMIT) {
        perror("write");
        return 2;
    }
    double t = judge("ordinary rows", LIMIT, w), usual = t * 1e6 / LIMIT;
    size_t quarter = LIMIT / 4, mega = LIMIT / 16;
    double t4 = judge("ordinary rows", quarter, ordinary(quarter));
    printf("%-30s %10.2f %10.3f %10.3f %11.2f\n", "ordinary rows", t, usual, t4 * 1e6 / (double)quarter, 1.0);
    double e4 = judge("rows with exponents", quarter, rows(quarter, 1)), e = judge("rows with exponents", LIMIT, rows(LIMIT, 1));
    printf("%-30s %10.2f %10.3f %10.3f %11.2f\n", "rows with exponents", e, e * 1e6 / LIMIT, e4 * 1e6 / (double)quarter, e / t);
    double t1 = judge("ordinary rows", mega, ordinary(mega));
    printf("%-30s %10.2f %10.3f %22.2f\n", "ordinary rows, 1 MB", t1, t1 * 1e6 / (double)mega, t1 * 1e6 / (double)mega / usual);
    char *awk[] = {"mawk", "-F\t", "{n+=NF} END{print n}", path, NULL}, *wc[] = {"wc", "-l", path, NULL};
    double split = beside("mawk, cells of ordinary rows", awk, usual);
    beside("wc -l of ordinary rows", wc, usual);
    close(fd);
    unlink(path);
    for (int i = 0; i < FILES; i++) {
        double small = judge(HOSTILE[i].name, quarter, HOSTILE[i].make(quarter)) * 1e6 / (double)quarter;
        t = judge(HOSTILE[i].name, LIMIT, HOSTILE[i].make(LIMIT));
        double ns = t * 1e6 / LIMIT;
        printf("%-30s %10.2f %10.3f %10.3f %11.2f%s%s\n", HOSTILE[i].name, t, ns, small, ns / usual, split > 0 && ns > 4 * split ? "  slow" : "",
               ns > 2 * small && t > 1 ? "  not linear" : "");
        fflush(stdout);
    }
    return wrong;
}
