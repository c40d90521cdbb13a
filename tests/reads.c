/* Calls the kinds of parameters on values, for tests/reads: a trace of the run shows which bytes of a value each call reads, how often and in which order,
 * and how many instructions it takes.
 *
 * The first line is where `bound` stands, which is written to before and after each call, by the trace's own way to write an address. Then a line for each
 * call, its fields with tabs between them: what it is called on, the kind, where the value stands, its length, and the answer. */
#include <stdint.h>
#include <stdio.h>
#include <string.h>

uint32_t kinds_is(uint32_t kind, const uint8_t *s, size_t n);

enum { PARAMETER = 5, PARAMETERS = 6 };

/* the scans work on blocks of so many bytes */
#define BLOCK 1024
#define MOST (4 * BLOCK)

static uint8_t value[MOST];
static volatile uint8_t bound;

static void call(const char *what, size_t n) {
    for (uint32_t kind = PARAMETER; kind <= PARAMETERS; kind++) {
        bound = 1;
        uint32_t answer = kinds_is(kind, value, n);
        bound = 0;
        printf("%s\t%s\t%08lx\t%zu\t%u\n", what, kind == PARAMETER ? "parameter" : "parameter list", (unsigned long)value, n, answer);
    }
}

static void text(const char *s) {
    memcpy(value, s, strlen(s));
    call(s, strlen(s));
}

/* `[,,` and then b up to `,]`, n bytes in all */
static void third_field(uint8_t b, size_t n) {
    memset(value, b, n);
    memcpy(value, "[,,", 3);
    memcpy(value + n - 2, ",]", 2);
}

/* two parts, the first of n bytes: near the end of a block the bar stands at the end, behind it, or before it */
static void two_parts(size_t n) {
    char what[64];
    third_field('a', n);
    memcpy(value + n, "|[,,b,]", 7);
    snprintf(what, sizeof what, "a part of %zu bytes and a short one", n);
    call(what, n + 7);
}

/* n bytes of a parameter, where a kind of byte makes up nearly all of it */
static void letters(size_t n) { third_field('a', n); }
static void marks(size_t n) { third_field('"', n); }
static void bars(size_t n) { third_field('|', n); }
static void spaces(size_t n) { third_field(' ', n); }
static void commas(size_t n) { third_field(',', n); }

/* `[MS, MS:1001207, Mascot, ]` and short parts over and over, with bars between; the last part is whole */
static void over(const char *text, size_t n) {
    for (size_t i = 0; i < n; i++)
        value[i] = (uint8_t)text[i % strlen(text)];
}
static void common_parts(size_t n) { over("[MS, MS:1001207, Mascot, ]|", n); }
static void short_parts(size_t n) { over("[,,a,]|", n); }

/* At one length and at another, some twice as long, so that what a byte more takes can be told. */
static void both(const char *what, void (*fill)(size_t), size_t small, size_t large) {
    fill(small);
    call(what, small);
    fill(large);
    call(what, large);
}

static void long_values(void) {
    both("letters in the third field", letters, MOST / 2, MOST);
    both("marks in the third field", marks, MOST / 2 - 1, MOST - 1);
    both("bars in the third field", bars, MOST / 2, MOST);
    both("spaces in the third field", spaces, MOST / 2, MOST);
    both("commas in the third field", commas, MOST / 2, MOST);
    both("common parts", common_parts, 27 * 75 - 1, 27 * 150 - 1);
    both("short parts", short_parts, 7 * 290 - 1, 7 * 580 - 1);
    for (size_t n = BLOCK - 2; n <= BLOCK + 3; n++)
        two_parts(n);
}

int main(void) {
    printf("%08lx\n", (unsigned long)&bound);
    text("[MS, MS:1001207, Mascot, ]");
    text("[MOD, MOD:00648, \"N,O-diacetylated L-serine\",]");
    text("[MS, MS:1001207, Mascot, \"a|b\"]|[,,x,]|[, , \"|\", y]");
    long_values();
    /* refused */
    text("x");
    text("[");
    text("[]");
    text("[,,,]");
    text("[,,a,");
    text("[,,a,\"]");
    text("[,,a,]|");
    text("[,,a,]x|[,,b,]");
    text("|");
    call("nothing", 0);
    return 0;
}
