/* The header by itself, twice, and each call by its type: as C and as C++. Ends with status 0 if calls on nothing give what they should. */
#include "plorrettix.h"
#include "plorrettix.h"

int main(void) {
    int64_t (*start)(uint8_t *, size_t) = plorrettix_start;
    int64_t (*answer)(uint8_t *, size_t, const uint8_t *, size_t, uint8_t *, size_t) = plorrettix_answer;
    int64_t (*seal)(uint8_t *, size_t, uint32_t, uint32_t) = plorrettix_seal;
    int64_t (*check)(const uint8_t *, size_t, uint32_t, uint32_t, uint8_t *, size_t) = plorrettix_check;
    if (start(NULL, 0) != -PLORRETTIX_ARGUMENT) return 1;
    if (answer(NULL, 0, NULL, 0, NULL, 0) != -PLORRETTIX_STATE) return 2;
    if (seal(NULL, 0, PLORRETTIX_SEQUENCE | PLORRETTIX_CHECK_SUM, 32767) != -PLORRETTIX_SIZE) return 3;
    if (check(NULL, 0, PLORRETTIX_CHECK_SUM, 32768, NULL, 0) != -PLORRETTIX_ARGUMENT) return 4;
    return 0;
}
