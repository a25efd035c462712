/* For ./bench --calls, which counts: plays a session call by call, standard input to standard output; or seals or checks a block of 1,024 words N times.
 *   calls | calls seal N | calls check N */
#include "plorrettix.h"

#include <stdio.h>
#include <stdlib.h>
#include <string.h>

static uint8_t state[PLORRETTIX_STATE_BYTES], answer[PLORRETTIX_ANSWER_BYTES], block[5 * (PLORRETTIX_BLOCK_WORDS + 1)];
static char session[1 << 26];

static int played(void) {
    size_t bytes = fread(session, 1, sizeof session - 1, stdin), at = 0;
    if (plorrettix_start(state, sizeof state) < 0) return 1;
    while (at < bytes) {
        const char *feed = (const char *)memchr(session + at, '\n', bytes - at);
        size_t length = feed ? (size_t)(feed - session) - at : bytes - at;
        int64_t n = plorrettix_answer(state, sizeof state, (const uint8_t *)session + at, length, answer, sizeof answer);
        if (n < 0 || fwrite(answer, 1, (size_t)n, stdout) != (size_t)n) return 1;
        at += length + 1;
    }
    return 0;
}

int main(int count, char **words) {
    uint8_t found[PLORRETTIX_FOUND_BYTES];
    uint32_t fields = PLORRETTIX_SEQUENCE | PLORRETTIX_CHECK_SUM;
    int n = count == 3 ? atoi(words[2]) : 0;
    size_t i;
    if (count != 3) return played();
    for (i = 0; i < sizeof block; i++) block[i] = (uint8_t)(i % 5 ? i * i : i % 16);
    if (plorrettix_seal(block, sizeof block, fields, 1) != 0) return 1;
    while (n-- > 0)
        if (strcmp(words[1], "seal") == 0 ? plorrettix_seal(block, sizeof block, fields, 1) : plorrettix_check(block, sizeof block, fields, 1, found, sizeof found)) return 1;
    return 0;
}
