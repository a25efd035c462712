/* Reads a reel through the pack: opens a file, asks for reads, reports each block of a SIMH tape image, gets its records and prints them, ten hexadecimal digits
 * a word. A file mark closes the file and opens it again.
 *   ./lib run examples/c/read_reel.c IMAGE BLOCK RECORD FLAGS      words of a block and of a record; flags 4 sequence, 8 check sums, 12 both */
#include "plorrettix.h"

#include <stdio.h>
#include <stdlib.h>
#include <string.h>

static uint8_t state[PLORRETTIX_STATE_BYTES];
static char frame[PLORRETTIX_FRAME_BYTES + 1], answer[PLORRETTIX_ANSWER_BYTES];

/* Answers a frame; a refusal of the call or of the frame ends the program. Gives what the answer adds to 00, without its line feed. */
static const char *call(const char *line) {
    int64_t n = plorrettix_answer(state, sizeof state, (const uint8_t *)line, strlen(line), (uint8_t *)answer, sizeof answer);
    if (n < 0 || strncmp(answer, "00", 2) != 0) {
        fprintf(stderr, "read_reel: the frame %.20s is refused: %d %.2s\n", line, (int)n, n < 0 ? "" : answer);
        exit(1);
    }
    answer[n - 1] = 0;
    return answer + 2;
}

/* Makes the report of the next record of the image: six characters of six bits are a word, and a length of 0 is a file mark. 0 at the end. */
static int next_report(FILE *reel) {
    uint8_t head[4], data[6 * PLORRETTIX_BLOCK_WORDS + 6];
    size_t bytes, i, at = 8;
    if (fread(head, 1, 4, reel) != 4) return 0;
    bytes = head[0] + 256u * head[1] + 65536u * head[2];
    strcpy(frame, bytes ? "04000000" : "04000003");
    if (bytes > 6 * PLORRETTIX_BLOCK_WORDS || fread(data, 1, bytes, reel) != bytes || (bytes && fread(head, 1, 4, reel) != 4)) return 0;
    for (i = 0; i < bytes; i += 6, at += 10) {
        unsigned long long word = 0;
        int j;
        for (j = 0; j < 6; j++) word = word << 6 | (data[i + j] & 63u);
        snprintf(frame + at, 11, "%010llX", word);
    }
    return 1;
}

int main(int count, char **words) {
    char open[32];
    const char *added = "";
    FILE *reel = count == 5 ? fopen(words[1], "rb") : NULL;
    if (!reel) return fputs("usage: read_reel IMAGE BLOCK RECORD FLAGS\n", stderr), 2;
    snprintf(open, sizeof open, "01000000%02X%04X%04X", atoi(words[4]), atoi(words[2]), atoi(words[3]));
    plorrettix_start(state, sizeof state);
    call("0001040000010000000000000000"); /* fresh start: 1 buffer of 1,024 words, unit 0 of channel 0 */
    call(open);
    while (next_report(reel)) {
        call("03000000"); /* ask: read */
        if (strncmp(call(frame), "03", 2) == 0) {
            puts("MARK");
            call("0200");
            call(open);
        } else
            while (strcmp(added = call("0500"), "01") != 0) /* get, until there is nothing more */
                printf("%s%s\n", added[1] == '3' ? "ERROR " : added[1] == '4' ? "LEFTOVER " : "", added + 2);
    }
    return 0;
}
