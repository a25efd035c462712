/* Plorrettix for C: one frame answered, a block sealed and checked. Numbers and lent byte areas alone: all that is kept between calls stands in the areas
 * that the caller lends, and nothing is allocated. Calls on different areas may run at the same time. The areas of one call must not overlap; an area of no
 * bytes may be NULL. A call gives 0 or more, or minus the number of its refusal; refused, it has changed no byte of any area. docs/C.md has the rest. */
#ifndef PLORRETTIX_H
#define PLORRETTIX_H

#include <stddef.h>
#include <stdint.h>

#ifdef __cplusplus
extern "C" {
#endif

#define PLORRETTIX_STATE_BYTES 34483u  /* the image of a state, with its area words as its last bytes */
#define PLORRETTIX_AREA_BYTES 32768u   /* those of the 4,096 area words, eight each, lowest byte first */
#define PLORRETTIX_FRAME_BYTES 10252u  /* the longest frame that has a meaning; a longer one is answered as malformed */
#define PLORRETTIX_ANSWER_BYTES 10249u /* the longest answer line, its line feed included */
#define PLORRETTIX_FOUND_BYTES 12u     /* what plorrettix_check found */
#define PLORRETTIX_BLOCK_WORDS 1024u   /* the most data words of a block, each of five bytes */

/* The refusals of calls. */
enum plorrettix_refusal {
    PLORRETTIX_ARGUMENT = 1, /* a number outside its range, or an area of a size that the call does not take */
    PLORRETTIX_WORD = 2,     /* a word of 2^36 or more */
    PLORRETTIX_SIZE = 13,    /* no data word */
    PLORRETTIX_STATE = 16    /* the state area is not the image of a sound state; it comes before all others */
};

/* The fields of a check word, none, one or both: PLORRETTIX_SEQUENCE | PLORRETTIX_CHECK_SUM. They are flags 4 and 8 of an open. */
enum plorrettix_fields { PLORRETTIX_SEQUENCE = 4, PLORRETTIX_CHECK_SUM = 8 };

/* Fills the state area, of PLORRETTIX_STATE_BYTES bytes, with the image of the state before the first fresh start. 0; or -PLORRETTIX_ARGUMENT for an area of
 * another size. */
int64_t plorrettix_start(uint8_t *state, size_t state_bytes);

/* Answers one frame, a line of upper-case hexadecimal digits without its line feed. Gives the length of the answer line, which stands at the front of `answer`,
 * line feed last and no zero byte after it; the state area then has the state after the frame. A frame that the pack refuses is answered too, by the number of
 * the refusal. -PLORRETTIX_STATE, then -PLORRETTIX_ARGUMENT for an answer area under PLORRETTIX_ANSWER_BYTES. */
int64_t plorrettix_answer(uint8_t *state, size_t state_bytes, const uint8_t *frame, size_t frame_bytes, uint8_t *answer, size_t answer_bytes);

/* Seals a block of 1 to PLORRETTIX_BLOCK_WORDS data words, five bytes each, highest first, and if a field is chosen five bytes more, which become the check word.
 * 0; or -PLORRETTIX_ARGUMENT (no whole words, too many, a number over 32767, other fields), -PLORRETTIX_WORD if check sums are chosen, -PLORRETTIX_SIZE. */
int64_t plorrettix_seal(uint8_t *block, size_t block_bytes, uint32_t fields, uint32_t number);

/* Checks a block as delivered, its check word last: 0 no error, 1 sequence, 2 check sum, 3 both. Twelve bytes of what was found go to the front of `found`, highest
 * byte first: sum (4) and number (2) worked out, sum (4) and number (2) read. -PLORRETTIX_ARGUMENT (as seal, or `found` is under PLORRETTIX_FOUND_BYTES),
 * -PLORRETTIX_WORD for any word of the block, -PLORRETTIX_SIZE. */
int64_t plorrettix_check(const uint8_t *block, size_t block_bytes, uint32_t fields, uint32_t number, uint8_t *found, size_t found_bytes);

#ifdef __cplusplus
}
#endif
#endif
