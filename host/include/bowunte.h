/*
 * The C functions of bowunte: the key hash, the rate decrease and the tape run.
 *
 * Each returns an answer, 0 or the number under which it turns its input down, and writes its result to `out` as 8
 * little-endian bytes, `out[0]` to `out[7]`. Bytes of `out` behind them are not written, and where the answer is not 0
 * nothing is written at all.
 *
 * Every buffer belongs to the caller and is used only until the function returns; no pointer is kept. A buffer must have
 * at least the bytes that its length says. Where a length is 0 its pointer is not followed and may be any but NULL. `out`
 * and `lines` must not overlap each other or any other buffer of the same call.
 *
 * The functions have no state: calls in several threads do not disturb each other.
 */
#ifndef BOWUNTE_H
#define BOWUNTE_H

#include <stddef.h>
#include <stdint.h>

#ifdef __cplusplus
extern "C" {
#endif

/* The answers. */
enum {
    BOWUNTE_ACCEPTED = 0,
    /* A factor outside (0, 1], or NaN. */
    BOWUNTE_FACTOR = 2,
    /* A least rate of 0, a rate below it, or a rate above BOWUNTE_MAX_RATE. */
    BOWUNTE_RATE = 6,
    /* A buffer that is too short. */
    BOWUNTE_SHORT_BUFFER = 8
};

/* The bytes of a result. */
#define BOWUNTE_RESULT_BYTES ((size_t)8)

/* The largest rate, in bytes per second. */
#define BOWUNTE_MAX_RATE UINT32_C(1000000000)

/* The bytes of `lines` that a tape of `tape_len` bytes needs. A last word that is cut short counts as a word. */
#define BOWUNTE_LINES_BYTES(tape_len) ((size_t)24 + (size_t)192 * ((tape_len) / 4 + ((tape_len) % 4 != 0)))

/*
 * The key hash of `data`: FNV-1a, 64 bits.
 *
 * Answers: 8 where `out_len` is below 8.
 */
uint32_t bowunte_key_hash(const uint8_t *data, size_t data_len, uint8_t *out, size_t out_len);

/*
 * The rate after a decrease: `rate` as a float times `factor`, cut to an integer, and at least `least_rate`. Where the
 * product is above `rate` (which only rounding at factor 1 can do), the result is `rate`.
 *
 * Answers, the first that applies: 2, 6, 8 where `out_len` is below 8.
 */
uint32_t bowunte_rate_decrease(uint32_t rate, float factor, uint32_t least_rate, uint8_t *out, size_t out_len);

/*
 * Runs the tape on a new station and writes its lines, a header and one for each word that is answered, to `lines`; the
 * result is their length in bytes. They are ASCII, each ends in a line feed, and no 0 byte follows. Bytes of `lines`
 * behind them are not written.
 *
 * A tape that breaks off is no reason to turn it down: its last line says where. A tape may be of any length.
 *
 * Answers: 8 where `lines_len` is below BOWUNTE_LINES_BYTES(tape_len) or `out_len` below 8.
 */
uint32_t bowunte_tape_run(const uint8_t *tape, size_t tape_len, uint8_t *lines, size_t lines_len, uint8_t *out,
                          size_t out_len);

#ifdef __cplusplus
}
#endif

#endif
