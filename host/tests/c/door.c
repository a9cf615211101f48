/* The C functions through their header: answers, results, and bytes that must stay as they were. */

#include <stdio.h>
#include <string.h>

#include "bowunte.h"

#define FILL 0xa5
#define OUT_BYTES 24
/* The largest tape here is one of 7 words. */
#define TAPE_BYTES 28
#define LINES_BYTES (BOWUNTE_LINES_BYTES(TAPE_BYTES) + 32)

static int failures;

static void check(int holds, const char *what) {
    if (!holds) {
        printf("failed: %s\n", what);
        failures++;
    }
}

static uint8_t out[OUT_BYTES];
static uint8_t lines[LINES_BYTES];

static void refill(void) {
    memset(out, FILL, sizeof out);
    memset(lines, FILL, sizeof lines);
}

static int untouched(const uint8_t *bytes, size_t from, size_t to) {
    for (size_t i = from; i < to; i++) {
        if (bytes[i] != FILL) {
            return 0;
        }
    }
    return 1;
}

static uint64_t result(void) {
    uint64_t value = 0;
    for (int i = 7; i >= 0; i--) {
        value = value << 8 | out[i];
    }
    return value;
}

/* An accepted call wrote this result and no byte behind it. */
static void check_result(uint32_t answer, uint64_t expected, const char *what) {
    check(answer == BOWUNTE_ACCEPTED, what);
    check(result() == expected, what);
    check(untouched(out, BOWUNTE_RESULT_BYTES, OUT_BYTES), what);
}

/* A call that was turned down wrote nothing. */
static void check_refused(uint32_t answer, uint32_t expected, const char *what) {
    check(answer == expected, what);
    check(untouched(out, 0, OUT_BYTES), what);
    check(untouched(lines, 0, LINES_BYTES), what);
}

static void key_hash(void) {
    static const uint8_t foobar[] = {'f', 'o', 'o', 'b', 'a', 'r'};
    refill();
    check_result(bowunte_key_hash(foobar, 6, out, OUT_BYTES), UINT64_C(0x85944171f73967e8), "hash of foobar");
    refill();
    check_result(bowunte_key_hash(foobar, 6, out, 8), UINT64_C(0x85944171f73967e8), "hash with 8 bytes of result");
    refill();
    check_result(bowunte_key_hash(foobar, 0, out, OUT_BYTES), UINT64_C(0xcbf29ce484222325), "hash of nothing");
    for (size_t length = 0; length < BOWUNTE_RESULT_BYTES; length++) {
        refill();
        check_refused(bowunte_key_hash(foobar, 6, out, length), BOWUNTE_SHORT_BUFFER, "hash with a short result");
    }
}

static uint32_t decrease(uint32_t rate, float factor, uint32_t least_rate) {
    refill();
    return bowunte_rate_decrease(rate, factor, least_rate, out, OUT_BYTES);
}

static void decreases(void) {
    check_result(decrease(100000000, 0.5f, 10000), 50000000, "half the rate");
    check_result(decrease(100000000, 0.8f, 10000), 80000000, "four fifths of the rate");
    check_result(decrease(12000, 0.5f, 10000), 10000, "at least the least rate");
    check_result(decrease(16777217, 1.0f, 1), 16777216, "rounding at factor 1 may decrease");
    check_result(decrease(16777219, 1.0f, 1), 16777219, "rounding at factor 1 does not increase");
    check_result(decrease(BOWUNTE_MAX_RATE, 1.0f, BOWUNTE_MAX_RATE), BOWUNTE_MAX_RATE, "the largest rate");
    check_result(decrease(1, 1e-45f, 1), 1, "the smallest factor");
}

static void refused_decreases(void) {
    const float zero = 0.0f;
    check_refused(decrease(100, zero, 1), BOWUNTE_FACTOR, "factor 0");
    check_refused(decrease(100, -0.5f, 1), BOWUNTE_FACTOR, "factor below 0");
    check_refused(decrease(100, 1.0000001f, 1), BOWUNTE_FACTOR, "factor above 1");
    check_refused(decrease(100, zero / zero, 1), BOWUNTE_FACTOR, "factor NaN");
    check_refused(decrease(100, 1.0f / zero, 1), BOWUNTE_FACTOR, "factor infinite");
    check_refused(decrease(100, 0.5f, 0), BOWUNTE_RATE, "least rate 0");
    check_refused(decrease(99, 0.5f, 100), BOWUNTE_RATE, "rate below the least");
    check_refused(decrease(BOWUNTE_MAX_RATE + 1, 0.5f, 1), BOWUNTE_RATE, "rate above the largest");
    check_refused(decrease(0, zero, 0), BOWUNTE_FACTOR, "the factor is looked at before the rates");
    refill();
    check_refused(bowunte_rate_decrease(100, zero, 1, out, 0), BOWUNTE_FACTOR, "the factor before the buffer");
    check_refused(bowunte_rate_decrease(100, 0.5f, 0, out, 0), BOWUNTE_RATE, "the rates before the buffer");
    for (size_t length = 0; length < BOWUNTE_RESULT_BYTES; length++) {
        check_refused(bowunte_rate_decrease(100, 0.5f, 1, out, length), BOWUNTE_SHORT_BUFFER, "a short result");
    }
}

/* Two writers, EAGAIN, 100 ms, a tick, a send attempt and the end, each word's low byte first. */
static const uint8_t tape[TAPE_BYTES] = {
    0x04, 0x00, 0x00, 0x20, 0x09, 0x00, 0x00, 0x20, 0x00, 0x00, 0x00, 0x30, 0xa0, 0x86,
    0x01, 0x10, 0x00, 0x00, 0x00, 0x40, 0x00, 0x00, 0x00, 0x60, 0x00, 0x00, 0x00, 0x00,
};

static void check_lines(size_t tape_len, size_t lines_len, const char *expected, const char *what) {
    refill();
    check_result(bowunte_tape_run(tape, tape_len, lines, lines_len, out, OUT_BYTES), strlen(expected), what);
    check(memcmp(lines, expected, strlen(expected)) == 0, what);
    check(untouched(lines, strlen(expected), LINES_BYTES), what);
}

static void tape_run(void) {
    static const char whole[] = "word answer fields\n0 0\n1 0\n2 0\n4 0 2 1:0:10000000 2:0:28000000\n5 0 empty\n";
    check_lines(TAPE_BYTES, LINES_BYTES, whole, "the whole tape");
    check_lines(TAPE_BYTES, BOWUNTE_LINES_BYTES(TAPE_BYTES), whole, "lines that fit exactly");
    check_lines(0, LINES_BYTES, "word answer fields\n0 5\n", "no tape");
    check_lines(0, BOWUNTE_LINES_BYTES(0), "word answer fields\n0 5\n", "no tape, lines that fit exactly");
    check_lines(5, BOWUNTE_LINES_BYTES(5), "word answer fields\n0 0\n1 5\n", "a word cut short");
}

static void refused_tapes(void) {
    for (size_t tape_len = 0; tape_len <= TAPE_BYTES; tape_len++) {
        size_t needed = BOWUNTE_LINES_BYTES(tape_len);
        refill();
        check_refused(bowunte_tape_run(tape, tape_len, lines, needed - 1, out, OUT_BYTES), BOWUNTE_SHORT_BUFFER,
                      "lines that are a byte too short");
        check_refused(bowunte_tape_run(tape, tape_len, lines, 0, out, OUT_BYTES), BOWUNTE_SHORT_BUFFER, "no lines");
        check_refused(bowunte_tape_run(tape, tape_len, lines, needed, out, BOWUNTE_RESULT_BYTES - 1),
                      BOWUNTE_SHORT_BUFFER, "a result that is a byte too short");
    }
}

int main(void) {
    key_hash();
    decreases();
    refused_decreases();
    tape_run();
    refused_tapes();
    if (failures == 0) {
        printf("every answer, result and untouched byte is as it should be\n");
    }
    return failures != 0;
}
