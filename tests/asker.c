/*
 * Answers questions on standard input by the three functions, for a test that cannot link them: differential.rs on a machine that is not x86-64.
 *
 * A question is a letter and 32-bit words, least significant byte first: `i` LENGTH and that many bytes, `c` SECONDS, `a` LIMIT READ STAMP STATUS CLOCK.
 * An answer is 64 bits. `e` ends a batch: what was answered so far goes out.
 */
#include "recorder.h"

#include <stdio.h>
#include <stdlib.h>

/* The longest image that is asked about. */
#define LONGEST 100000

/* Ends the program where the input breaks off inside a question. */
static void take(uint8_t *bytes, size_t n) {
    if (fread(bytes, 1, n, stdin) != n)
        exit(1);
}

static uint32_t word(void) {
    uint8_t b[4];
    take(b, sizeof b);
    return (uint32_t)b[0] | (uint32_t)b[1] << 8 | (uint32_t)b[2] << 16 | (uint32_t)b[3] << 24;
}

static void give(uint64_t answer) {
    for (int i = 0; i < 8; i++)
        putchar((int)(answer >> 8 * i & 0xff));
}

static uint32_t image_answer(void) {
    static uint8_t image[LONGEST];
    uint32_t length = word();
    if (length > LONGEST)
        exit(1);
    take(image, length);
    return recorder_image_check(image, length);
}

static uint32_t age_answer(void) {
    uint32_t limit = word(), read = word(), stamp = word(), status = word(), clock = word();
    return recorder_age_class(limit, read, stamp, status, clock);
}

int main(void) {
    for (;;) {
        switch (getchar()) {
        case 'i':
            give(image_answer());
            break;
        case 'c':
            give(recorder_calendar(word()));
            break;
        case 'a':
            give(age_answer());
            break;
        case 'e':
            fflush(stdout);
            break;
        case EOF:
            return 0;
        default:
            return 1;
        }
    }
}
