/*
 * The library in use: reads lines of 82 bytes from standard input, and writes the refusal number, vad and vvad of each to standard output.
 *
 *     crates/lindenflax/out/example <traces/speech_clean.trace
 *
 * lindenflax.h says how it is built, also on another processor than x86-64. It takes 82 bytes at a time, so that after a line of another length it is
 * out of step; the program run_trace looks for line feeds.
 */
#include <stdio.h>
#include <string.h>

#include "lindenflax.h"

int main(void) {
    int32_t state[LINDENFLAX_STATE];
    uint8_t line[LINDENFLAX_LINE];
    size_t read;

    lindenflax_reset(state, LINDENFLAX_STATE);
    while ((read = fread(line, 1, LINDENFLAX_LINE, stdin)) > 0) {
        int32_t acf[LINDENFLAX_ACF], answer[LINDENFLAX_ANSWER] = {0};
        uint16_t lags[LINDENFLAX_LAGS];
        int16_t scale;

        uint8_t number = lindenflax_read_line(line, read, acf, LINDENFLAX_ACF, lags, LINDENFLAX_LAGS, &scale, LINDENFLAX_SCALE);
        if (number == LINDENFLAX_OK) {
            uint8_t again[LINDENFLAX_LINE];
            if (lindenflax_write_line(acf, LINDENFLAX_ACF, lags, LINDENFLAX_LAGS, scale, again, LINDENFLAX_LINE) != LINDENFLAX_OK ||
                memcmp(again, line, LINDENFLAX_LINE) != 0) {
                fputs("example: a line that was read is written as another\n", stderr);
                return 1;
            }
            number = lindenflax_step(acf, LINDENFLAX_ACF, lags, LINDENFLAX_LAGS, scale, state, LINDENFLAX_STATE, answer, LINDENFLAX_ANSWER);
        }
        printf("%d%d%d\n", (int)number, (int)answer[0], (int)answer[1]);
    }
    return ferror(stdin) || fflush(stdout) != 0;
}
