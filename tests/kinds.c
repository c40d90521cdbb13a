/* Tests and measures the kinds through libtest_kinds_c.a, on a stack of 2 MB.
 *
 *   (cd crates/test_kinds_c && rt lib)
 *   gcc -O2 -Wall -Wextra tests/kinds.c crates/test_kinds_c/out/libtest_kinds_c.a -o target/kinds_test && target/kinds_test
 *
 * The archive is for x86-64. Under an emulator the answers count, and that time is linear; the nanoseconds say nothing.
 *
 * Fails where an answer is wrong. With a word, as `kinds measure`, it also prints the nanoseconds a byte of each kind on long values, 1 MB and 16 MB,
 * hostile ones among them, and fails where the time of a byte grows with the length. */
#include <stdint.h>
#include <stdio.h>
#include <string.h>
#include <time.h>
#include "stack.h"

uint32_t kinds_is(uint32_t kind, const uint8_t *s, size_t n);

enum { TEXT, WHOLE, DECIMAL, DECIMALS, WINDOW, PARAMETER, PARAMETERS, KINDS };

static const char *const NAMES[KINDS] = {"text", "whole", "decimal", "decimal list", "window", "parameter", "parameter list"};

#define MB ((size_t)1 << 20)
#define MOST (16 * MB)

static uint8_t buffer[MOST + 1];
static int failed, measuring;

static void expect(const char *what, uint32_t kind, size_t n, uint32_t answer) {
    uint32_t got = kinds_is(kind, buffer, n);
    if (got != answer) {
        printf("FAIL %s, %zu bytes: %s answers %u, not %u\n", what, n, NAMES[kind], got, answer);
        failed = 1;
    }
}

/* `[,,` and then n - 5 times b, and `,]` */
static void third_field(uint8_t b, size_t n) {
    memset(buffer, b, n);
    memcpy(buffer, "[,,", 3);
    memcpy(buffer + n - 2, ",]", 2);
}

/* the text over and over, n bytes in all */
static void over(const char *text, size_t n) {
    size_t m = strlen(text);
    for (size_t i = 0; i < n; i++)
        buffer[i] = (uint8_t)text[i % m];
}

static void marks(size_t n) {
    memset(buffer, '"', n);
    expect("marks", PARAMETER, n, 0);
    expect("marks", PARAMETERS, n, 0);
    /* n - 5 marks in the third field: closed where they are even */
    third_field('"', n);
    expect("marks in the third field", PARAMETER, n, (n - 5) % 2 == 0);
    expect("marks in the third field", PARAMETERS, n, (n - 5) % 2 == 0);
}

/* Two parts, where the bar between them stands near the end of a block of the scans: the byte before it counts, in whichever block it was read. */
static void blocks(void) {
    for (size_t n = 1000; n <= 1050; n++) {
        third_field('a', n);
        memcpy(buffer + n, "|[,,b,]", 7);
        expect("two parts", PARAMETERS, n + 7, 1);
        expect("two parts", PARAMETER, n + 7, 0);
        expect("a part and a bar", PARAMETERS, n + 1, 0);
        buffer[n - 1] = 'a';
        expect("two parts, the first not closed", PARAMETERS, n + 7, 0);
        third_field(' ', n);
        expect("a third field of spaces", PARAMETER, n, 0);
        buffer[n - 3] = 'a';
        expect("spaces and a letter in the third field", PARAMETER, n, 1);
        third_field('"', n);
        memcpy(buffer + n, "|[,,b,]", 7);
        expect("marks in the third field and another part", PARAMETERS, n + 7, (n - 5) % 2 == 0);
    }
}

/* Exponents at the very end of a value, between bars, and where none may stand. */
static void exponents(void) {
    memset(buffer, '1', MOST);
    memcpy(buffer + MOST - 4, "E-05", 4);
    expect("digits and an exponent", DECIMAL, MOST, 1);
    expect("digits and an exponent", DECIMALS, MOST, 1);
    expect("digits and a part of an exponent", DECIMAL, MOST - 2, 0);
    memcpy(buffer, "1e+9", 4);
    expect("two exponents", DECIMAL, MOST, 0);
    expect("an exponent of one digit", DECIMAL, 4, 1);
    expect("an exponent of three digits", DECIMAL, 6, 1);
    expect("an exponent of four digits", DECIMAL, 7, 0);
    expect("an exponent", WHOLE, 4, 0);
    buffer[4] = '|';
    expect("two decimals with exponents", WINDOW, MOST, 1);
    over("1E5|", MOST);
    expect("exponents, and a bar", DECIMALS, MOST, 0);
    expect("exponents", DECIMALS, MOST - 1, 1);
    expect("exponents", WINDOW, 7, 1);
    expect("exponents", WINDOW, 11, 0);
    over("E5", MOST);
    expect("exponents alone", DECIMAL, MOST, 0);
    expect("exponents alone", DECIMALS, MOST, 0);
    buffer[0] = '1';
    expect("exponents after one digit", DECIMAL, MOST, 0);
}

static void answers(void) {
    marks(MOST);
    marks(MOST - 1);
    third_field(' ', MOST);
    expect("spaces in the third field", PARAMETER, MOST, 0);
    third_field('|', MOST);
    expect("bars in the third field", PARAMETER, MOST, 1);
    expect("bars in the third field", PARAMETERS, MOST, 0);
    over("[,,a,]|", MOST);
    expect("parts, and a piece of one", PARAMETERS, MOST, 0);
    expect("parts", PARAMETERS, MOST / 7 * 7 - 1, 1);
    expect("parts, and a bar", PARAMETERS, MOST / 7 * 7, 0);
    over("1|", MOST);
    expect("decimals, and a bar", DECIMALS, MOST, 0);
    expect("decimals", DECIMALS, MOST - 1, 1);
    expect("decimals", WINDOW, MOST - 1, 0);
    memset(buffer, '1', MOST);
    expect("digits", DECIMAL, MOST, 1);
    expect("digits", WHOLE, MOST, 0);
    expect("digits", WHOLE, 9, 1);
    expect("digits", WHOLE, 10, 0);
    buffer[MOST / 2] = '|';
    expect("two decimals", WINDOW, MOST, 1);
    exponents();
    blocks();
    expect("nothing", TEXT, 0, 0);
    expect("one byte", TEXT, 1, 1);
}

static double nanoseconds(uint32_t kind, size_t n) {
    struct timespec a, b;
    double best = 1e18;
    for (int turn = 0; turn < 3; turn++) {
        clock_gettime(CLOCK_MONOTONIC, &a);
        uint32_t got = kinds_is(kind, buffer, n);
        clock_gettime(CLOCK_MONOTONIC, &b);
        double t = (double)(b.tv_sec - a.tv_sec) * 1e9 + (double)(b.tv_nsec - a.tv_nsec);
        if (t < best)
            best = t;
        if (got > 1)
            failed = 1;
    }
    return best / (double)n;
}

static void measure(const char *what, void (*fill)(size_t)) {
    printf("%-28s", what);
    for (uint32_t kind = 0; kind < KINDS; kind++) {
        fill(MB);
        double small = nanoseconds(kind, MB);
        fill(MOST);
        double large = nanoseconds(kind, MOST);
        printf("  %5.2f %5.2f", small, large);
        /* a quadratic walk would be 16 times as slow a byte */
        if (large > 8 * small && large > 0.1) {
            printf("\nFAIL %s: %s is not linear\n", what, NAMES[kind]);
            failed = 1;
        }
    }
    printf("\n");
}

#define EACH(name, b) static void name(size_t n) { memset(buffer, b, n); }
/* the same with a `[` before them: the first byte of a part that has none shows that it is no parameter */
#define BEHIND(name, b) static void name(size_t n) { memset(buffer, b, n); buffer[0] = '['; }
BEHIND(bracket_marks, '"')
BEHIND(bracket_bars, '|')
BEHIND(bracket_spaces, ' ')
BEHIND(bracket_commas, ',')
EACH(all_marks, '"')
EACH(all_bars, '|')
EACH(all_digits, '7')
EACH(all_spaces, ' ')
EACH(all_opens, '[')
EACH(all_commas, ',')

static void one_parameter(size_t n) { third_field('a', n); }
static void marks_inside(size_t n) { third_field('"', n & ~(size_t)1); }
static void parameters(size_t n) { over("[MS, MS:1001207, Mascot, \"a,b\"]|", n - n % 32 - 1); }
static void short_parts(size_t n) { over("[,,a,]|", n); }
static void quoted_bars(size_t n) { over("\"|", n); }
static void decimals(size_t n) { over("1123.25|", n); }
static void with_exponents(size_t n) { over("1.25E-05|", n); }
static void one_exponent_after_another(size_t n) { over("1E5", n); }
static void window(size_t n) { memset(buffer, '7', n); buffer[n / 2] = '|'; }

static void run(void) {
    answers();
    if (!measuring)
        return;
    printf("nanoseconds a byte, of 1 MB and of 16 MB\n%-28s", "");
    for (uint32_t kind = 0; kind < KINDS; kind++)
        printf("  %11.11s", NAMES[kind]);
    printf("\n");
    measure("one parameter", one_parameter);
    measure("marks in the third field", marks_inside);
    measure("parameters", parameters);
    measure("short parameters", short_parts);
    measure("decimals", decimals);
    measure("decimals with exponents", with_exponents);
    measure("exponent after exponent", one_exponent_after_another);
    measure("two decimals", window);
    measure("all marks", all_marks);
    measure("all bars", all_bars);
    measure("a mark and a bar, over", quoted_bars);
    measure("all digits", all_digits);
    measure("all spaces", all_spaces);
    measure("all [", all_opens);
    measure("all commas", all_commas);
    measure("[ and marks", bracket_marks);
    measure("[ and bars", bracket_bars);
    measure("[ and spaces", bracket_spaces);
    measure("[ and commas", bracket_commas);
}

int main(int words, char **word) {
    (void)word;
    measuring = words > 1;
    on_stack(page(2 * MB), 2 * MB, run);
    printf(failed ? "FAILED\n" : "ok\n");
    return failed;
}
