/* For comparing and measuring alone: three static libraries that stand beside slatedb_block and share nothing with it. What slatedb_block.h
 * says of arguments and memory holds of their functions.
 */
#ifndef SLATEDB_COMPARE_H
#define SLATEDB_COMPARE_H

#include "slatedb_block.h"

#ifdef __cplusplus
extern "C" {
#endif

/* ---- compare_by_value: two functions of slatedb_block.h once more, through the methods that take a cursor or a builder by value. All that
 * slatedb_block.h says of its own holds of them. */

/* As slatedb_builder_add. */
SLATEDB_MUST_USE
uint8_t slatedb_builder_add_by_value(uint64_t *builder, size_t builder_len, uint8_t *last_key_bytes, size_t last_key_bytes_len,
                                     uint8_t *data, size_t data_len, uint16_t *restarts, size_t restarts_len,
                                     const uint8_t *key, size_t key_len, const uint8_t *value, size_t value_len,
                                     const uint64_t *fields, size_t fields_len);

/* As slatedb_next. */
SLATEDB_MUST_USE
uint8_t slatedb_next_by_value(const uint8_t *block, size_t block_len, uint64_t *cursor, size_t cursor_len,
                              uint8_t *key_bytes, size_t key_bytes_len, uint8_t *out, size_t out_len,
                              uint64_t *row, size_t row_len);

/* ---- compare_walks: walks over a whole block inside one call.
 *
 * Each opens the block in this order, 0 ascending or 1 descending, and steps at most `limit` times. It answers 0 after `limit`
 * rows, 255 for "done" before, the number of a refusal (slatedb_block.h: what opening and a step answer), and first of all
 * 254 for an order that is neither and for sums that are not SLATEDB_SUMS_WORDS. With 0 and 255 it has set the sums; with
 * another answer it has changed nothing. Both answer alike: their promise is one. */

#define SLATEDB_SUMS_WORDS 2

typedef struct {
    uint64_t rows; /* how many were found */
    uint64_t sum;  /* of each row's seq, the lengths of its key and its value, and its key's last byte, modulo 2^64 */
} slatedb_sums;

SLATEDB_STATIC_ASSERT(sizeof(slatedb_sums) == SLATEDB_SUMS_WORDS * sizeof(uint64_t), "the sums' words");

static inline uint64_t *slatedb_sums_words(slatedb_sums *sums) { return (uint64_t *)sums; }

/* Through the method that takes the cursor by value and gives it back, at each step. */
SLATEDB_MUST_USE
uint8_t slatedb_walk_by_value(const uint8_t *block, size_t block_len, uint64_t order, uint64_t limit, uint64_t *sums, size_t sums_len);

/* With the cursor's key bytes where they are: no step copies a cursor. */
SLATEDB_MUST_USE
uint8_t slatedb_walk_in_place(const uint8_t *block, size_t block_len, uint64_t order, uint64_t limit, uint64_t *sums, size_t sums_len);

/* ---- compare_parts: a varint written and read, and a row's key read alone, as seeks read it.
 *
 * Every function answers a code: 0 for good, the number of a refusal, and first of all 254 for words that are not as many as
 * they must be, or a word that is neither 0 nor 1 where one of the two is asked for. A call that answers another code than 0
 * has changed no memory that was lent to it. */

#define SLATEDB_VARINT_WORDS 2
#define SLATEDB_KEY_WORDS 3

/* A varint that was read. */
typedef struct {
    uint64_t value;
    uint64_t next; /* the place after it */
} slatedb_varint;

/* A row's key that was read. */
typedef struct {
    uint64_t shared;     /* how many bytes of the key before begin it */
    uint64_t suffix_at;  /* where the others stand */
    uint64_t suffix_len;
} slatedb_key;

SLATEDB_STATIC_ASSERT(sizeof(slatedb_varint) == SLATEDB_VARINT_WORDS * sizeof(uint64_t), "a varint's words");
SLATEDB_STATIC_ASSERT(sizeof(slatedb_key) == SLATEDB_KEY_WORDS * sizeof(uint64_t), "a key's words");

static inline uint64_t *slatedb_varint_words(slatedb_varint *varint) { return (uint64_t *)varint; }
static inline uint64_t *slatedb_key_words(slatedb_key *key) { return (uint64_t *)key; }

/* Writes the varint of `value` to the start of `output`: 6. *count: its bytes. */
SLATEDB_MUST_USE
uint8_t slatedb_varint_put(uint8_t *output, size_t output_len, uint32_t value, uint64_t *count);

/* Reads the varint at `at`: 254, 9, 10. */
SLATEDB_MUST_USE
uint8_t slatedb_varint_get(const uint8_t *input, size_t input_len, size_t at, uint64_t *varint, size_t varint_len);

/* Reads the key alone of the row at `at`, after a key of previous_len bytes, in a region that ends at region_end: 254, 9, 10, 13,
 * 1, 2, 9, 16. `restart`: 1 for a region's first row, else 0. */
SLATEDB_MUST_USE
uint8_t slatedb_decode_key(const uint8_t *input, size_t input_len, size_t at, size_t region_end, size_t previous_len, uint64_t restart,
                           uint64_t *key, size_t key_len);

#ifdef __cplusplus
}
#endif

#endif
