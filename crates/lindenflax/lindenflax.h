/*
 * The voice activity detector of GSM 06.32, one frame at a time, on the uplink and on the downlink, and the lines of a trace.
 *
 * Each channel has one state of its own. The library keeps nothing between calls and allocates nothing: calls on different states may run at the same time.
 * A card with many channels keeps a run of numbers for each, as int32_t bank[64][LINDENFLAX_STATE]. A call is lent the run of its channel and touches no
 * other; whether the bank has such a channel is the caller's test, since nothing here knows the bank.
 *
 * To build a program with it, here crates/lindenflax/example.c:
 *
 *     (cd crates/lindenflax && rt lib)
 *     cc -I crates/lindenflax -o crates/lindenflax/out/example crates/lindenflax/example.c crates/lindenflax/out/liblindenflax.a
 *     crates/lindenflax/out/example <traces/speech_clean.trace
 *
 * The library is for x86-64 (System V calls), and built there. On another processor, with Debian's gcc-x86-64-linux-gnu and libc6-dev-amd64-cross:
 *
 *     x86_64-linux-gnu-gcc -I crates/lindenflax -o crates/lindenflax/out/example crates/lindenflax/example.c crates/lindenflax/out/liblindenflax.a
 *     compare/on_x86_64 crates/lindenflax/out/example <traces/speech_clean.trace
 *
 * Of the C library it needs memset and memcpy at most.
 */
#ifndef LINDENFLAX_H
#define LINDENFLAX_H

#include <stddef.h>
#include <stdint.h>

#ifdef __cplusplus
extern "C" {
#endif

/* How many numbers each lent buffer has. */
#define LINDENFLAX_ACF 9
#define LINDENFLAX_LAGS 4
#define LINDENFLAX_SAMPLES 160
#define LINDENFLAX_STATE 85
#define LINDENFLAX_ANSWER 6
#define LINDENFLAX_SCALE 1
#define LINDENFLAX_LINE 82

/*
 * The state, 85 numbers. A frame is refused (5) where a number does not fit its field, or the state is not valid. What lindenflax_reset or an
 * accepted frame left is valid.
 *
 *   index   name                  the field holds     valid
 *    0      rvad[0]               -32768..32767       16384..32767
 *    1..8   rvad[1..8]            -32768..32767       their magnitudes sum to at most 4 * rvad[0] + 11
 *    9      normrvad              -32768..32767       2..9
 *   10..36  L_sacf[0..26]         any                 -536870912..536870911; [0], [9] and [18] are not negative
 *   37      pt_sacf               0..27               0, 9 or 18
 *   38..73  L_sav0[0..35]         any                 [0], [9], [18] and [27] are not negative
 *   74      pt_sav0               0..27               0, 9, 18 or 27
 *   75      lastdm                any                 any
 *   76      e_thvad               -32768..32767       -32..64
 *   77      m_thvad               -32768..32767       16384..32767
 *   78      adaptcount            -32768..32767       0..9
 *   79      burstcount            -32768..32767       0..3
 *   80      hangcount             -32768..32767       -1..5
 *   81      oldlagcount           -32768..32767       0..4
 *   82      veryoldlagcount       -32768..32767       0..4
 *   83      oldlag                0..65535            40..120
 *   84      tone                  0..1                0 or 1: a tone was found in the frame before, on the downlink
 */

/*
 * The answer to a frame that is accepted, 6 numbers. A pair (e, m) is the number m * 2^(e - 15).
 *
 *   0  vad       1 or 0: whether the frame is sent
 *   1  vvad      1 or 0: the raw decision, before the hangover
 *   2  e_acf0    acf0 is the energy of the frame
 *   3  m_acf0    16384..32767
 *   4  e_pvad    pvad is its energy through the filter
 *   5  m_pvad    16384..32767
 *
 * vvad is 1 exactly if pvad is greater than the threshold (e_thvad, m_thvad) of the next state. Of an all-zero frame both pairs are (-32768, 0).
 */

/*
 * A line of a trace, 82 bytes: 81 digits out of 0..9 and A..F, and a line feed.
 *
 *    0..71  acf[0..8], eight digits each, in two's complement
 *   72      the scale, one digit
 *   73..80  lags[0..3], two digits each
 *   81      a line feed
 */

/* What each function returns. A number other than 0 leaves every buffer as it was. */
#define LINDENFLAX_OK 0          /* done */
#define LINDENFLAX_BAD_LENGTH 1  /* a buffer has the wrong length */
#define LINDENFLAX_BAD_SCALE 2   /* scale is outside 0..4 */
#define LINDENFLAX_BAD_ACF 3     /* acf[0] is negative, or another number is larger in magnitude */
#define LINDENFLAX_BAD_LAG 4     /* a lag is outside 40..120 */
#define LINDENFLAX_BAD_STATE 5   /* the state is not valid */
#define LINDENFLAX_BAD_LINE 6    /* a line is not 81 digits and a line feed */
#define LINDENFLAX_BAD_SAMPLES 8 /* other than 160 samples */

/* Writes the state after a reset: 0, or 1 where state_len is not 85. */
uint8_t lindenflax_reset(int32_t *state, size_t state_len);

/*
 * One frame on the uplink: the nine autocorrelations of GSM 06.10's encoder (L_ACF), its four lags (Nc), and its scale (scalauto, or 0 where that is
 * negative). acf[0] is not negative and no other is larger in magnitude; a lag is 40..120; the scale is 0..4. The state becomes the next state, and
 * the answer is written. The tone flag of the state is not read, and an accepted frame leaves it 0. The checks are made in the order 1, 5, 2, 3, 4.
 * The buffers must not overlap.
 */
uint8_t lindenflax_step(const int32_t *acf, size_t acf_len, const uint16_t *lags, size_t lags_len, int16_t scale, int32_t *state,
                        size_t state_len, int32_t *answer, size_t answer_len);

/*
 * One frame on the downlink: the same, and the 160 offset-compensated samples of the frame as GSM 06.10's encoder hands them over (sof of clause 6.10).
 * An accepted frame leaves the tone flag 1 where a tone is found in its samples, and 0 where none is; the flag acts in the next frame, and not in this
 * one. The checks are made in the order 1, 8, 5, 2, 3, 4. The buffers must not overlap.
 */
uint8_t lindenflax_downlink(const int32_t *acf, size_t acf_len, const uint16_t *lags, size_t lags_len, int16_t scale, const int16_t *samples,
                            size_t samples_len, int32_t *state, size_t state_len, int32_t *answer, size_t answer_len);

/*
 * Reads a line: writes its nine autocorrelations, its four lags, and its scale into a buffer of one number. The checks are made in the order
 * 1, 6, 2, 3, 4; a line of another length than 82 is refused with 6. The buffers must not overlap.
 */
uint8_t lindenflax_read_line(const uint8_t *line, size_t line_len, int32_t *acf, size_t acf_len, uint16_t *lags, size_t lags_len,
                             int16_t *scale, size_t scale_len);

/*
 * Writes the line of a frame, 82 bytes with the line feed and no zero after it. The checks are made in the order 1, 2, 3, 4. What is written
 * reads back as the same frame. The buffers must not overlap.
 */
uint8_t lindenflax_write_line(const int32_t *acf, size_t acf_len, const uint16_t *lags, size_t lags_len, int16_t scale, uint8_t *line,
                              size_t line_len);

#ifdef __cplusplus
}
#endif

#endif
