/*
 * Steps of the library over the frames of a trace, again and again, for counting instructions: steps TRACE STEPS [SAMPLES]
 *
 * The trace is read first, and its samples, with which the steps are the downlink's. Prints how many of the steps said speech.
 */
#include "lindenflax.h"
#include <stdio.h>
#include <stdlib.h>

struct frame {
    int32_t acf[LINDENFLAX_ACF];
    uint16_t lags[LINDENFLAX_LAGS];
    int16_t scale;
};

int main(int argc, char **argv)
{
    static struct frame frames[100000];
    static int16_t samples[100000][LINDENFLAX_SAMPLES];
    unsigned char line[LINDENFLAX_LINE];
    int32_t state[LINDENFLAX_STATE], answer[LINDENFLAX_ANSWER];
    size_t count = 0;
    long speech = 0, steps;
    FILE *trace = argc == 3 || argc == 4 ? fopen(argv[1], "rb") : NULL;
    FILE *sound = argc == 4 ? fopen(argv[3], "rb") : NULL;

    if (trace == NULL || (argc == 4 && sound == NULL)) {
        fprintf(stderr, "usage: steps TRACE STEPS [SAMPLES]\n");
        return 2;
    }
    while (count < 100000 && fread(line, 1, sizeof line, trace) == sizeof line) {
        struct frame *f = &frames[count];
        if (sound != NULL && fread(samples[count], 2, LINDENFLAX_SAMPLES, sound) != LINDENFLAX_SAMPLES) {
            fprintf(stderr, "steps: too few samples in %s\n", argv[3]);
            return 1;
        }
        if (lindenflax_read_line(line, sizeof line, f->acf, LINDENFLAX_ACF, f->lags, LINDENFLAX_LAGS, &f->scale, LINDENFLAX_SCALE) == 0)
            count++;
    }
    fclose(trace);
    if (count == 0) {
        fprintf(stderr, "steps: no frame in %s\n", argv[1]);
        return 1;
    }
    steps = atol(argv[2]);
    lindenflax_reset(state, LINDENFLAX_STATE);
    for (long i = 0; i < steps; i++) {
        const struct frame *f = &frames[i % count];
        uint8_t number;
        if (sound == NULL)
            number = lindenflax_step(f->acf, LINDENFLAX_ACF, f->lags, LINDENFLAX_LAGS, f->scale, state, LINDENFLAX_STATE, answer, LINDENFLAX_ANSWER);
        else
            number = lindenflax_downlink(f->acf, LINDENFLAX_ACF, f->lags, LINDENFLAX_LAGS, f->scale, samples[i % count], LINDENFLAX_SAMPLES, state,
                                         LINDENFLAX_STATE, answer, LINDENFLAX_ANSWER);
        if (number != 0)
            return 1;
        speech += answer[0];
    }
    printf("%ld\n", speech);
    return 0;
}
