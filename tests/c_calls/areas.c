/* Areas of every kind of size, and what a call leaves of them: nothing at all and NULL, one byte short, exact, longer. The last line is 'N passed, M failed'. */
#include "plorrettix.h"

#include <stdio.h>
#include <string.h>

enum { MORE = 4096, STATE = PLORRETTIX_STATE_BYTES, ANSWER = PLORRETTIX_ANSWER_BYTES, FOUND = PLORRETTIX_FOUND_BYTES, FRAME = PLORRETTIX_FRAME_BYTES };

static uint8_t state[STATE + MORE], state_kept[STATE + MORE], answer[ANSWER + MORE], answer_kept[ANSWER + MORE];
static uint8_t frame[FRAME + MORE], found[FOUND + MORE], found_kept[FOUND + MORE], block[6000], block_kept[6000];
static int passed, failed;

static void expect(int good, const char *what, long detail) {
    if (good) passed++;
    else {
        failed++;
        printf("failed: %s, %ld\n", what, detail);
    }
}

static void keep(void) {
    memcpy(state_kept, state, sizeof state);
    memcpy(answer_kept, answer, sizeof answer);
    memcpy(found_kept, found, sizeof found);
    memcpy(block_kept, block, sizeof block);
}

/* Whether every byte is as it was kept, but for the first bytes of the state and of the answer area. */
static int same(size_t state_from, size_t answer_from) {
    return memcmp(state + state_from, state_kept + state_from, sizeof state - state_from) == 0 && memcmp(answer + answer_from, answer_kept + answer_from, sizeof answer - answer_from) == 0;
}

static int same_block(size_t from, size_t to, size_t found_from) {
    return memcmp(block, block_kept, from) == 0 && memcmp(block + to, block_kept + to, sizeof block - to) == 0 && memcmp(found + found_from, found_kept + found_from, sizeof found - found_from) == 0;
}

/* A refused call: its result, and no byte changed. */
static void refused(int64_t result, int64_t due, const char *what, long detail) {
    expect(result == due && same(0, 0) && same_block(sizeof block, sizeof block, 0), what, detail);
}

static int64_t asked(const uint8_t *line, size_t bytes) {
    return plorrettix_answer(state, STATE, line, bytes, answer, ANSWER);
}

static void starts(void) {
    static const size_t sizes[] = {0, 1, STATE - 1, STATE + 1, STATE + MORE};
    size_t i;
    memset(state, 0xA5, sizeof state);
    keep();
    refused(plorrettix_start(NULL, 0), -PLORRETTIX_ARGUMENT, "start of no area", 0);
    for (i = 0; i < sizeof sizes / sizeof *sizes; i++) refused(plorrettix_start(state, sizes[i]), -PLORRETTIX_ARGUMENT, "start of an area of another size", (long)sizes[i]);
    expect(plorrettix_start(state, STATE) == 0 && same(STATE, 0), "start", 0);
    keep();
    expect(plorrettix_start(state, STATE) == 0 && same(0, 0), "a second start", 0);
}

static void answers(void) {
    static const size_t states[] = {0, 1, STATE - 1, STATE + 1, STATE + MORE}, short_ones[] = {0, 1, ANSWER - 1}, long_ones[] = {ANSWER, ANSWER + 1, ANSWER + MORE};
    const uint8_t *freeze = (const uint8_t *)"09";
    size_t i, j;
    memset(answer, 0xA5, sizeof answer);
    keep();
    refused(plorrettix_answer(NULL, 0, NULL, 0, NULL, 0), -PLORRETTIX_STATE, "nothing at all", 0);
    for (i = 0; i < sizeof states / sizeof *states; i++) {
        refused(plorrettix_answer(state, states[i], freeze, 2, answer, ANSWER), -PLORRETTIX_STATE, "a state of another size", (long)states[i]);
        for (j = 0; j < sizeof short_ones / sizeof *short_ones; j++)
            refused(plorrettix_answer(state, states[i], freeze, 2, answer, short_ones[j]), -PLORRETTIX_STATE, "a state of another size and a short answer area", (long)states[i]);
    }
    refused(plorrettix_answer(state, STATE, freeze, 2, NULL, 0), -PLORRETTIX_ARGUMENT, "no answer area", 0);
    for (j = 0; j < sizeof short_ones / sizeof *short_ones; j++)
        refused(plorrettix_answer(state, STATE, freeze, 2, answer, short_ones[j]), -PLORRETTIX_ARGUMENT, "a short answer area", (long)short_ones[j]);
    state[1] = 2;
    keep();
    refused(plorrettix_answer(state, STATE, freeze, 2, answer, ANSWER), -PLORRETTIX_STATE, "a bad state", 0);
    refused(plorrettix_answer(state, STATE, freeze, 2, NULL, 0), -PLORRETTIX_STATE, "a bad state and no answer area", 0);
    state[1] = 0;
    keep();
    for (i = 0; i < sizeof long_ones / sizeof *long_ones; i++) {
        expect(plorrettix_answer(state, STATE, freeze, 2, answer, long_ones[i]) == 3 && memcmp(answer, "00\n", 3) == 0 && same(STATE, 3), "an answer area that is long enough", (long)long_ones[i]);
        expect(plorrettix_answer(state, STATE, (const uint8_t *)"0A", 2, answer, long_ones[i]) == 3 && same(0, 3), "and back", (long)long_ones[i]);
    }
}

/* Frames that are malformed for their length or their characters: answered 01, and nothing else changes. */
static void frames(void) {
    static const size_t sizes[] = {1, 3, FRAME - 1, FRAME, FRAME + 1, FRAME + 2, FRAME + MORE};
    size_t i;
    memset(answer, 0xA5, sizeof answer);
    memset(frame, '0', sizeof frame);
    keep();
    expect(asked(NULL, 0) == 3 && memcmp(answer, "01\n", 3) == 0 && same(0, 3), "no frame", 0);
    expect(asked(frame, 0) == 3 && memcmp(answer, "01\n", 3) == 0 && same(0, 3), "an empty frame", 0);
    for (i = 0; i < sizeof sizes / sizeof *sizes; i++) expect(asked(frame, sizes[i]) == 3 && memcmp(answer, "01\n", 3) == 0 && same(0, 3), "zeros", (long)sizes[i]);
    for (i = 0; i < 256; i++) {
        frame[0] = (uint8_t)i;
        frame[1] = '9';
        expect(asked(frame, 2) == 3 && memcmp(answer, i == '0' ? "00\n" : "01\n", 3) == 0 && same(i == '0' ? STATE : 0, 3), "a frame of this character and a nine", (long)i);
        if (i == '0') {
            expect(asked((const uint8_t *)"0A", 2) == 3 && same(0, 3), "and back", 0);
        }
    }
}

static void blocks(void) {
    static const uint32_t good_fields[] = {0, 4, 8, 12}, bad_fields[] = {1, 2, 3, 5, 6, 7, 9, 13, 16, 20, 0x80000000u, 0x8000000Cu, 0xFFFFFFFFu};
    static const uint32_t bad_numbers[] = {32768, 65536, 0x80000000u, 0xFFFFFFFFu};
    static const size_t found_sizes[] = {0, 1, FOUND - 1};
    size_t i, n, e;
    memset(block, 0, sizeof block);
    memset(found, 0xA5, sizeof found);
    keep();
    for (i = 0; i < 4; i++) {
        uint32_t fields = good_fields[i];
        e = fields ? 1 : 0;
        refused(plorrettix_seal(NULL, 0, fields, 0), -PLORRETTIX_SIZE, "seal of nothing", (long)fields);
        refused(plorrettix_check(NULL, 0, fields, 0, found, FOUND), -PLORRETTIX_SIZE, "check of nothing", (long)fields);
        refused(plorrettix_check(NULL, 0, fields, 0, NULL, 0), -PLORRETTIX_ARGUMENT, "check of nothing into nothing", (long)fields);
        for (n = 1; n < 10; n++) {
            if (n % 5 == 0) continue;
            refused(plorrettix_seal(block, n, fields, 0), -PLORRETTIX_ARGUMENT, "seal of no whole words", (long)n);
            refused(plorrettix_check(block, n, fields, 0, found, FOUND), -PLORRETTIX_ARGUMENT, "check of no whole words", (long)n);
        }
        refused(plorrettix_seal(block, 5 * (1025 + e), fields, 0), -PLORRETTIX_ARGUMENT, "seal of 1,025 data words", (long)fields);
        refused(plorrettix_check(block, 5 * (1025 + e), fields, 0, found, FOUND), -PLORRETTIX_ARGUMENT, "check of 1,025 data words", (long)fields);
        for (n = 0; n < sizeof bad_numbers / sizeof *bad_numbers; n++) {
            refused(plorrettix_seal(block, 10, fields, bad_numbers[n]), -PLORRETTIX_ARGUMENT, "seal by a number over 32,767", (long)bad_numbers[n]);
            refused(plorrettix_check(block, 10, fields, bad_numbers[n], found, FOUND), -PLORRETTIX_ARGUMENT, "check by a number over 32,767", (long)bad_numbers[n]);
        }
        for (n = 0; n < sizeof found_sizes / sizeof *found_sizes; n++)
            refused(plorrettix_check(block, 10, fields, 0, found, found_sizes[n]), -PLORRETTIX_ARGUMENT, "check into a short area", (long)found_sizes[n]);
        expect(plorrettix_check(block, 10, fields, 0, found, FOUND + MORE) == 0 && same_block(10, 10, FOUND), "check into a long area", (long)fields);
        memset(found, 0xA5, sizeof found);
        expect(plorrettix_seal(block, 5 * (1024 + e), fields, 32767) == 0 && same_block(5120, 5120 + 5 * e, 0), "seal of 1,024 data words", (long)fields);
        expect(plorrettix_check(block, 5 * (1024 + e), fields, 32767, found, FOUND) == 0, "check of 1,024 data words", (long)fields);
        memset(block, 0, sizeof block);
        memset(found, 0xA5, sizeof found);
    }
    for (i = 0; i < sizeof bad_fields / sizeof *bad_fields; i++) {
        refused(plorrettix_seal(block, 10, bad_fields[i], 0), -PLORRETTIX_ARGUMENT, "seal by other fields", (long)bad_fields[i]);
        refused(plorrettix_check(block, 10, bad_fields[i], 0, found, FOUND), -PLORRETTIX_ARGUMENT, "check by other fields", (long)bad_fields[i]);
    }
}

int main(void) {
    starts();
    answers();
    frames();
    blocks();
    printf("%d passed, %d failed\n", passed, failed);
    return failed != 0;
}
