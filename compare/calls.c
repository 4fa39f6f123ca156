/*
 * Makes the calls of the library that it is told of on standard input, and writes what each of them left to standard output. The comparison runs
 * it beside itself, so that the library can be held against the second program on a machine of another processor too.
 *
 * A call is a letter, the scale, the lengths that five buffers are handed over with, how many bytes each of them holds, and these bytes. What it
 * left is the number that was returned, and the bytes of the five buffers. The letters and the order of the buffers:
 *
 *     Z  lindenflax_reset       state
 *     S  lindenflax_step        acf, lags, state, answer
 *     D  lindenflax_downlink    acf, lags, samples, state, answer
 *     R  lindenflax_read_line   line, acf, lags, scale
 *     W  lindenflax_write_line  acf, lags, line
 */
#include <stdio.h>
#include <stdlib.h>

#include "lindenflax.h"

enum { BUFFERS = 5, ROOM = 1024 };

typedef union {
    uint8_t bytes[ROOM];
    uint16_t lags[ROOM / 2];
    int16_t shorts[ROOM / 2];
    int32_t longs[ROOM / 4];
} buffer;

static void fail(const char *what) {
    fprintf(stderr, "calls: %s\n", what);
    exit(1);
}

static void take(void *to, size_t size) {
    if (fread(to, 1, size, stdin) != size) fail("a call is cut");
}

int main(void) {
    static buffer b[BUFFERS];
    int letter;

    while ((letter = getchar()) != EOF) {
        int16_t scale;
        uint32_t n[BUFFERS], held[BUFFERS];
        int number = 0;

        take(&scale, sizeof scale);
        take(n, sizeof n);
        take(held, sizeof held);
        for (int i = 0; i < BUFFERS; i++) {
            if (held[i] > ROOM) fail("a buffer is too long");
            take(b[i].bytes, held[i]);
        }
        switch (letter) {
        case 'Z': number = lindenflax_reset(b[0].longs, n[0]); break;
        case 'S': number = lindenflax_step(b[0].longs, n[0], b[1].lags, n[1], scale, b[2].longs, n[2], b[3].longs, n[3]); break;
        case 'D': number = lindenflax_downlink(b[0].longs, n[0], b[1].lags, n[1], scale, b[2].shorts, n[2], b[3].longs, n[3], b[4].longs, n[4]); break;
        case 'R': number = lindenflax_read_line(b[0].bytes, n[0], b[1].longs, n[1], b[2].lags, n[2], b[3].shorts, n[3]); break;
        case 'W': number = lindenflax_write_line(b[0].longs, n[0], b[1].lags, n[1], scale, b[2].bytes, n[2]); break;
        default: fail("no such call");
        }
        putchar(number);
        for (int i = 0; i < BUFFERS; i++) fwrite(b[i].bytes, 1, held[i], stdout);
    }
    return ferror(stdin) || fflush(stdout) != 0;
}
