/* How long `mztab_cell` takes on files of 16,777,216 bytes, beside `wc -l` on the same file in the same run. Best of nine each. */
#define _GNU_SOURCE
#include <fcntl.h>
#include <spawn.h>
#include <stdio.h>
#include <stdlib.h>
#include <string.h>
#include <sys/wait.h>
#include <unistd.h>
#include "../crates/capi/mztab.h"
#include "least.h"

enum { SIZE = 16777216, TRIES = 9 };
extern char **environ;
static uint8_t *file;

/* Milliseconds of one `wc -l` of the file at path, start of the process included. */
static double wc(const char *path) {
    char *argv[] = {"wc", "-l", (char *)path, NULL};
    posix_spawn_file_actions_t quiet;
    posix_spawn_file_actions_init(&quiet);
    posix_spawn_file_actions_addopen(&quiet, 1, "/dev/null", O_WRONLY, 0);
    pid_t pid;
    double t = now();
    if (posix_spawnp(&pid, "wc", &quiet, NULL, argv, environ) != 0) { perror("wc"); exit(2); }
    int status;
    waitpid(pid, &status, 0);
    t = now() - t;
    posix_spawn_file_actions_destroy(&quiet);
    return t;
}

static double ask(size_t size, uint32_t row, uint32_t column) {
    uint32_t number = 9;
    size_t length = 9;
    double t = now();
    volatile size_t start = mztab_cell(file, size, 1, row, column, &number, &length);
    (void)start;
    return now() - t;
}

static void measure(const char *name, uint32_t row, uint32_t column) {
    char path[] = "target/host/bench-XXXXXX";
    int fd = mkstemp(path);
    if (fd < 0 || write(fd, file, SIZE) != SIZE) { perror("write"); exit(2); }
    double best = 1e9, half = 1e9, best_wc = 1e9;
    for (int i = 0; i < TRIES; i++) {
        least(&best, ask(SIZE, row, column));
        least(&half, ask(SIZE / 2, row, column));
        least(&best_wc, wc(path));
    }
    close(fd);
    unlink(path);
    printf("%-28s %8.2f ms   half the bytes %8.2f ms   wc -l %7.2f ms   ratio %5.2f\n", name, best, half, best_wc, best / best_wc);
}

int main(void) {
    file = malloc(SIZE);
    if (!file) return 2;
    const char *head = "PRH\taccession\tdescription\tdatabase\tsearch_engine\n";
    const char *row = "PRT\tP12345\tAlcohol dehydrogenase 1, Saccharomyces cerevisiae\tUniProtKB\t[MS, MS:1001207, Mascot, ]\n";
    size_t n = strlen(head), r = strlen(row), at = n;
    uint32_t rows = 0;
    memcpy(file, head, n);
    while (at + r <= SIZE) { memcpy(file + at, row, r); at += r; rows++; }
    memset(file + at, 'C', SIZE - at);
    measure("last row, lines of 97 bytes", rows, 4);
    measure("no such row", rows + 1, 4);
    memset(file, '\n', SIZE);
    measure("LF alone", 1, 1);
    memset(file, '\t', SIZE);
    memcpy(file, "PRT", 3);
    measure("tabs alone, last column", 1, SIZE - 3);
    memset(file, 'x', SIZE);
    measure("one line", 1, 1);
    return 0;
}
